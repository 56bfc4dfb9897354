package vicinity

import (
	"errors"
	"fmt"
	"testing"
)

const (
	silent = "vicinity-log 1\nT 260100F60A\nS\n"
	one    = "vicinity-log 1\nT 260100F60A\nR 0000A1000000000104E06745\n"
	a      = UID(0xE0040100000000A1)
	b      = UID(0xE0040100000000B2)
)

func ExampleCheck() {
	answer, err := Check([]byte(silent))
	fmt.Println(answer, answer.IsComplete(), err)
	// Output: complete 0 true <nil>
}

// Whoever forgets the error of what has no answer ends with no status of a complete list.
func TestNothingIsComplete(t *testing.T) {
	if (Answer{}).IsComplete() || (Mask{Len: 65}).Holds(a) {
		t.Error("of nothing")
	}
	for _, texts := range [][]Named{nil, {{"a", []byte(silent)}, {"b", []byte(silent)}}, {{"\n", nil}}, {{"\xff", nil}}} {
		if written, status, err := Run(CommandCheck, texts...); !errors.Is(err, ErrUsage) || status != 4 || written != nil {
			t.Error(written, status, err)
		}
	}
}

func TestSurveysAreTexts(t *testing.T) {
	catalogue := Named{"books.csv", []byte("uid,title\n" + a.String() + ",Emma\n")}
	surveys, status, err := Run(CommandSurvey, Named{"shelf", []byte(one)}, Named{"cart", []byte(silent)})
	if err != nil || status != 0 {
		t.Error(string(surveys), status, err)
	}
	for end, wanted := range map[int]int{len(surveys): 0, len(surveys) - 1: 3} {
		_, status, err = Run(CommandCollection, catalogue, Named{"sent", surveys[:end]})
		if err != nil || status != wanted {
			t.Error(end, status, err)
		}
	}
}

func TestExplainedAndReported(t *testing.T) {
	answer, uids, err := Explain([]byte(one))
	if err != nil || answer.Text != "unlisted "+a.String() || len(uids) != 1 || uids[0] != a {
		t.Error(answer, uids, err)
	}
	answer, findings, err := Report([]byte(one))
	if err != nil || len(findings) != 1 || findings[0].Line != 3 || findings[0].UID != a {
		t.Error(answer, findings, err)
	}
}

func TestListBesideTheText(t *testing.T) {
	for _, text := range []string{one, one[:len(one)-1], one + "# end"} {
		answer, err := CheckListed([]byte(text), []UID{a})
		if err != nil || answer.Text != "complete 1" {
			t.Error(answer, err)
		}
		answer, err = CheckListed([]byte(text), []UID{b, a})
		if err != nil || answer.Text != "absent "+b.String() {
			t.Error(answer, err)
		}
	}
}

func TestMargins(t *testing.T) {
	answer, weakest, err := Margin([]byte(silent))
	if err != nil || answer.Text != "complete 0" || weakest != (Weakest{Margin: 1, Deaf: Reading{Opens: true}}) {
		t.Error(answer, weakest, err)
	}
	// a answers and is silenced, then nobody does: b was overlooked in both slots
	frame, _ := WriteStayQuiet(2, a)
	asked, _ := WriteLine('T', frame)
	quiet := []byte(one + asked + "T 260100F60A\nS")
	answer, weakest, err = MarginListed(quiet, []UID{a})
	if err != nil || answer.Text != "complete 1" || weakest != (Weakest{2, Mask{1, 0}, Reading{}, Reading{true, Mask{1, 0}}}) {
		t.Error(answer, weakest, err)
	}
}

func TestSimulated(t *testing.T) {
	filled, err := Simulate([]byte("vicinity-log 1\nT 260100F60A\nU E0040100000000A1\n"))
	if err != nil || string(filled) != one+"U E0040100000000A1\n" {
		t.Error(string(filled), err)
	}
	if _, err = Simulate([]byte("x")); err == nil || err.Error() != "refused at line 1: Header" {
		t.Error(err)
	}
}

func TestFrames(t *testing.T) {
	asked, err := WriteInventory(2, 1, Mask{})
	if err != nil || fmt.Sprintf("%X", asked) != "260100F60A" {
		t.Error(asked, err)
	}
	request, err := ReadRequest(asked)
	if err != nil || request != (Request{Link: 2, Slots: 1}) {
		t.Error(request, err)
	}
	reply, err := WriteResponse(0, 0, a)
	if err != nil {
		t.Error(err)
	}
	read, err := ReadResponse(reply)
	if err != nil || read != (Reply{UID: a}) {
		t.Error(read, err)
	}
	if _, err = ReadResponse(reply[:5]); err == nil || err.Error() != "vicinity: Length" {
		t.Error(err)
	}
	quiet, err := WriteStayQuiet(2, b)
	if err != nil {
		t.Error(err)
	}
	if request, err = ReadRequest(quiet); err != nil || request != (Request{Link: 2, UID: b}) {
		t.Error(request, err)
	}
	again, err := AddCRC(quiet[:len(quiet)-2])
	if err != nil || string(again) != string(quiet) {
		t.Error(again, err)
	}
	mask, err := SlotMask(16, Mask{3, 1}, 12)
	if err != nil || mask != (Mask{7, 0x61}) || !mask.Holds(0xE0040100000000E1) || mask.Holds(a) || mask.String() != "7 61" {
		t.Error(mask, err)
	}
	if _, err = SlotMask(16, mask, 16); !errors.Is(err, WrongSlot) {
		t.Error(err)
	}
}

func TestLines(t *testing.T) {
	line, err := WriteLine('S', nil)
	if err != nil || line != "S\n" {
		t.Error(line, err)
	}
	if line, err = WriteListed(a); err != nil || line != "U E0040100000000A1\n" {
		t.Error(line, err)
	}
	if _, err = WriteLine('X', nil); !errors.Is(err, WrongLetter) {
		t.Error(err)
	}
	asked := HeaderLine + "T 260100F60A\n"
	reply, _ := WriteResponse(0, 0, a)
	captured, _ := WriteLine('H', reply)
	unknown, _ := WriteLine('N', nil)
	for text, wanted := range map[string]string{asked + unknown: "unsettled 0 -", asked + captured: "unlisted E0040100000000A1"} {
		if answer, err := Check([]byte(text)); err != nil || answer.String() != wanted {
			t.Error(answer, err)
		}
	}
	if uid, err := ParseUID("e0040100000000a1"); err != nil || uid != a {
		t.Error(uid, err)
	}
	if _, err := ParseUID("+0040100000000A1"); !errors.Is(err, ErrNotUID) {
		t.Error(err)
	}
}
