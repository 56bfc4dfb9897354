// Package vicinity answers whether the list of tags that an RFID reader claims is complete. It is the library of vicinity.h,
// safe to call: nothing here reads a log, each answer is that of a proved call.
//
// It links libvicinity.a. If header and archive aren't where the compiler looks, name their folder:
//
//	CGO_CFLAGS=-IFOLDER CGO_LDFLAGS=-LFOLDER go build
//
// A text is bytes: a log as it was written, whatever ends its lines. Any number of goroutines may call at the same time.
package vicinity

// #cgo LDFLAGS: -l:libvicinity.a
// #include "vicinity.h"
import "C"

import (
	"strings"
	"unicode/utf8"
	"unsafe"
)

// HeaderLine is the first line of a log.
const HeaderLine = C.VICINITY_HEADER_LINE

// firstRoom is how many elements a buffer has at first.
const firstRoom = 64

// Answer is the answer to a text. Fields that the kind doesn't use are zero. The zero Answer is none, though its Status is 0:
// ask IsComplete.
type Answer struct {
	Kind   Kind
	Status int // the exit status of the program: 0 is complete, 4 no answer
	Count  uint32
	Line   uint32
	Fault  Fault
	Mask   Mask
	UID    UID
	Text   string // the line of the program, without its LF
}

// IsComplete reports whether the list is complete.
func (answer Answer) IsComplete() bool {
	return answer.Kind == Complete
}

// String returns the line of the program.
func (answer Answer) String() string {
	return answer.Text
}

// Finding is one finding of a report. Fields that the kind doesn't use are zero.
type Finding struct {
	Kind FindingKind
	Line uint32
	Mask Mask
	UID  UID
}

// Weakest is where a list is least sure: the margin of a log, and the first mask, by length and then by value, whose UIDs have
// it and aren't listed. It is zero if the text is refused or the log impossible.
type Weakest struct {
	Margin uint32 // in how many slots such a tag would have had to be missed
	Mask   Mask
	Hidden Reading // of a complete list, if each reply R may have hidden others
	Deaf   Reading // the same if, besides, the reader may have gone deaf after the last slot in which a tag answered
}

// Reading is what a log proves less about its list if it is read more cautiously.
type Reading struct {
	Opens bool // whether other tags could then be there; if not, the list is complete even so
	Mask  Mask // the first mask, by length and then by value, of their UIDs
}

// String returns the mask as the program writes it, "-" if there is none.
func (reading Reading) String() string {
	if !reading.Opens {
		return "-"
	}
	return reading.Mask.String()
}

// Fits reports whether the linked library has the interface of the header.
func Fits() bool {
	return C.vicinity_interface() == C.VICINITY_INTERFACE
}

// Version returns the version of the library: 10,000 times its first number, 100 times its second, its third.
func Version() int {
	return int(C.vicinity_version())
}

// Check returns the answer to a log, as `vicinity check`.
func Check(text []byte) (Answer, error) {
	var told C.struct_vicinity_answer
	C.vicinity_check(bytes(text), size(text), &told)
	return answer(&told)
}

// Explain returns the answer to a log, and a counterexample: the UIDs, in rising order, of tags that could have produced it
// and differ from its list.
func Explain(text []byte) (Answer, []UID, error) {
	told, uids := fill(func(told *C.struct_vicinity_answer, room []UID, needed *C.size_t) {
		C.vicinity_explain(bytes(text), size(text), told, numbers(room), size(room), needed)
	})
	found, err := answer(&told)
	return found, uids, err
}

// Report returns the answer to a log, and every finding, as `vicinity report`.
func Report(text []byte) (Answer, []Finding, error) {
	told, list := fill(func(told *C.struct_vicinity_answer, room []C.struct_vicinity_finding, needed *C.size_t) {
		C.vicinity_report(bytes(text), size(text), told, first(room), size(room), needed)
	})
	found, err := answer(&told)
	return found, findings(list), err
}

// CheckListed returns the answer to a text without `U` lines, followed by one for each of these UIDs, in any order. Its last
// line may lack its LF.
func CheckListed(text []byte, listed []UID) (Answer, error) {
	var told C.struct_vicinity_answer
	C.vicinity_check_listed(bytes(text), size(text), numbers(listed), size(listed), &told)
	return answer(&told)
}

// Margin returns the answer to a log, and its margin, as `vicinity margin`.
func Margin(text []byte) (Answer, Weakest, error) {
	var told C.struct_vicinity_answer
	var least C.struct_vicinity_weakest
	C.vicinity_margin(bytes(text), size(text), &told, &least)
	return measured(&told, &least)
}

// MarginListed is Margin, for a text and a list as CheckListed takes them.
func MarginListed(text []byte, listed []UID) (Answer, Weakest, error) {
	var told C.struct_vicinity_answer
	var least C.struct_vicinity_weakest
	C.vicinity_margin_listed(bytes(text), size(text), numbers(listed), size(listed), &told, &least)
	return measured(&told, &least)
}

// Simulate returns the log that conforming tags would produce: the text has the requests, and lists the tags. A text that is
// no such log is the line of the program as an error.
func Simulate(text []byte) ([]byte, error) {
	written, status, err := Run(CommandSimulate, Named{Text: text})
	if err == nil && status != 0 {
		return nil, simulateError(strings.TrimSuffix(string(written), "\n"))
	}
	return written, err
}

// Named is a text with its name, such as that of its file. The text is read when Run is called:
// an array that is filled again before that has only what it was filled with last.
type Named struct {
	Name string // UTF-8, without LF
	Text []byte
}

// Run does what the program does for a command over texts in memory. It returns what the program writes to standard output,
// and its exit status. ErrUsage means that the texts aren't what the command takes.
func Run(command Command, texts ...Named) ([]byte, int, error) {
	var names, joined []byte
	lengths := make([]C.size_t, len(texts))
	for i, text := range texts {
		if !utf8.ValidString(text.Name) || strings.Contains(text.Name, "\n") {
			return nil, noAnswer, ErrUsage
		}
		names = append(append(names, text.Name...), '\n')
		joined = append(joined, text.Text...)
		lengths[i] = size(text.Text)
	}
	room := make([]byte, firstRoom)
	for {
		var needed C.size_t
		status := int(C.vicinity_run(C.enum_vicinity_command(command), bytes(names), size(names), bytes(joined), size(joined),
			first(lengths), size(lengths), bytes(room), size(room), &needed))
		switch {
		case status == noAnswer && needed > 0:
			return nil, status, ErrUsage
		case status == noAnswer:
			return nil, status, ErrOutOfMemory
		case int(needed) <= len(room):
			return room[:needed], status, nil
		}
		room = make([]byte, needed)
	}
}

// fill makes a call that fills a buffer, and again where it needs a larger one.
func fill[Element any](call func(*C.struct_vicinity_answer, []Element, *C.size_t)) (C.struct_vicinity_answer, []Element) {
	buffer := make([]Element, firstRoom)
	for {
		var told C.struct_vicinity_answer
		var needed C.size_t
		call(&told, buffer, &needed)
		if int(needed) <= len(buffer) {
			return told, buffer[:needed]
		}
		buffer = make([]Element, needed)
	}
}

// first points to the first of some elements; it is nil if there are none.
func first[Element any](elements []Element) *Element {
	if len(elements) == 0 {
		return nil
	}
	return &elements[0]
}

func size[Element any](elements []Element) C.size_t {
	return C.size_t(len(elements))
}

func bytes(text []byte) *C.uint8_t {
	return (*C.uint8_t)(unsafe.Pointer(first(text)))
}

func numbers(uids []UID) *C.uint64_t {
	return (*C.uint64_t)(unsafe.Pointer(first(uids)))
}

func answer(told *C.struct_vicinity_answer) (Answer, error) {
	if told.kind == C.VICINITY_NO_ANSWER {
		return Answer{Status: noAnswer}, ErrOutOfMemory
	}
	return Answer{
		Kind:   Kind(told.kind),
		Status: int(told.status),
		Count:  uint32(told.count),
		Line:   uint32(told.line),
		Fault:  Fault(told.fault),
		Mask:   Mask{uint32(told.mask_len), uint64(told.mask_value)},
		UID:    UID(told.uid),
		Text:   strings.TrimSuffix(C.GoString(&told.text[0]), "\n"),
	}, nil
}

func measured(told *C.struct_vicinity_answer, least *C.struct_vicinity_weakest) (Answer, Weakest, error) {
	found, err := answer(told)
	return found, Weakest{
		Margin: uint32(least.margin),
		Mask:   Mask{uint32(least.mask_len), uint64(least.mask_value)},
		Hidden: Reading{least.has_hidden != 0, Mask{uint32(least.hidden_len), uint64(least.hidden_value)}},
		Deaf:   Reading{least.has_deaf != 0, Mask{uint32(least.deaf_len), uint64(least.deaf_value)}},
	}, err
}

func findings(list []C.struct_vicinity_finding) []Finding {
	var found []Finding
	for _, it := range list {
		mask := Mask{uint32(it.mask_len), uint64(it.mask_value)}
		found = append(found, Finding{FindingKind(it.kind), uint32(it.line), mask, UID(it.uid)})
	}
	return found
}
