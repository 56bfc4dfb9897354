// Checks a log, FILE or standard input; shows how sure a complete list is, or a counterexample. If logs follow, reconciles
// these with the list of FILE, as vicinity reconcile:  vicinity-check [FILE [LOG ..]]
package main

import (
	"fmt"
	"io"
	"os"

	"vicinity/v2"
)

func read() ([]byte, error) {
	if len(os.Args) > 1 {
		return os.ReadFile(os.Args[1])
	}
	return io.ReadAll(os.Stdin)
}

func check(text []byte) (int, error) {
	answer, population, err := vicinity.Explain(text)
	if err != nil {
		return 0, err
	}
	for _, uid := range population {
		fmt.Fprintln(os.Stderr, "U", uid)
	}
	if answer.IsComplete() {
		_, weakest, err := vicinity.Margin(text)
		if err != nil {
			return 0, err
		}
		fmt.Fprintln(os.Stderr, "margin", weakest.Margin)
		fmt.Fprintln(os.Stderr, "weakest", weakest.Mask)
		fmt.Fprintln(os.Stderr, "hidden", weakest.Hidden)
		fmt.Fprintln(os.Stderr, "deaf", weakest.Deaf)
	}
	_, err = fmt.Println(answer)
	return answer.Status, err
}

// reconcile does what the program does for a list and logs.
func reconcile(files []string) (int, error) {
	var texts []vicinity.Named
	for _, file := range files {
		text, err := os.ReadFile(file)
		if err != nil {
			return 0, err
		}
		texts = append(texts, vicinity.Named{Name: file, Text: text})
	}
	written, status, err := vicinity.Run(vicinity.CommandReconcile, texts...)
	if err == nil {
		_, err = os.Stdout.Write(written)
	}
	return status, err
}

func run() (int, error) {
	if len(os.Args) > 2 {
		return reconcile(os.Args[1:])
	}
	text, err := read()
	if err != nil {
		return 0, err
	}
	return check(text)
}

func main() {
	if !vicinity.Fits() {
		os.Exit(4)
	}
	status, err := run()
	// also of what can't be written there is no answer
	if err != nil {
		fmt.Fprintln(os.Stderr, err)
		status = 4
	}
	os.Exit(status)
}
