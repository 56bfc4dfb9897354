// The program by the binding for Go: the number of a command, and then files, of which none means
// standard input, or words.
package main

import (
	"fmt"
	"os"
	"strconv"

	"vicinity/v2"
)

func main() {
	number, _ := strconv.Atoi(os.Args[1])
	command, names := vicinity.Command(number), os.Args[2:]
	reads := command != vicinity.CommandFrame && command != vicinity.CommandSpell
	if reads && len(names) == 0 {
		names = []string{"/dev/stdin"}
	}
	var given []vicinity.Named
	for _, name := range names {
		one := vicinity.Named{Text: []byte(name)}
		if reads {
			text, err := os.ReadFile(name)
			if err != nil {
				panic(err)
			}
			one = vicinity.Named{Name: name, Text: text}
		}
		given = append(given, one)
	}
	written, status, err := vicinity.Run(command, given...)
	if err != nil {
		fmt.Fprintln(os.Stderr, err)
	}
	os.Stdout.Write(written)
	os.Exit(status)
}
