package vicinity

// #include "vicinity.h"
import "C"

import "fmt"

// Kind is what an answer is.
type Kind uint32

const (
	Complete   Kind = C.VICINITY_COMPLETE
	Absent     Kind = C.VICINITY_ABSENT
	Unlisted   Kind = C.VICINITY_UNLISTED
	Unsettled  Kind = C.VICINITY_UNSETTLED
	Doubtful   Kind = C.VICINITY_DOUBTFUL
	Impossible Kind = C.VICINITY_IMPOSSIBLE
	Refused    Kind = C.VICINITY_REFUSED
)

// String returns the word with which the answer's line begins.
func (kind Kind) String() string {
	var name C.struct_vicinity_name
	if C.vicinity_kind_name(C.uint32_t(kind), &name) == 0 {
		return fmt.Sprintf("kind %d", uint32(kind))
	}
	return C.GoString(&name.text[0])
}

// FindingKind is what a finding is. The first four have the numbers that they have as answers.
type FindingKind uint32

const (
	FindingAbsent        FindingKind = C.VICINITY_FINDING_ABSENT          // UID, Line
	FindingUnlisted      FindingKind = C.VICINITY_FINDING_UNLISTED        // UID, Line
	FindingUnsettled     FindingKind = C.VICINITY_FINDING_UNSETTLED       // Mask
	FindingDoubtful      FindingKind = C.VICINITY_FINDING_DOUBTFUL        // UID
	FindingOpenMask      FindingKind = C.VICINITY_FINDING_OPEN_MASK       // Mask
	FindingMoreOpenMasks FindingKind = C.VICINITY_FINDING_MORE_OPEN_MASKS // more than sixteen
	FindingConflictLine  FindingKind = C.VICINITY_FINDING_CONFLICT_LINE   // Line
	FindingSilencedBy    FindingKind = C.VICINITY_FINDING_SILENCED_BY     // Line
)

// String returns the words with which the line of a report begins.
func (kind FindingKind) String() string {
	switch kind {
	case FindingOpenMask:
		return "open"
	case FindingMoreOpenMasks:
		return "more open"
	case FindingConflictLine:
		return "by line"
	case FindingSilencedBy:
		return "silenced by line"
	}
	return Kind(kind).String()
}

// Command is a command of the program.
type Command uint32

const (
	CommandCheck          Command = C.VICINITY_COMMAND_CHECK           // a log
	CommandExplain        Command = C.VICINITY_COMMAND_EXPLAIN         // a log
	CommandReport         Command = C.VICINITY_COMMAND_REPORT          // a log
	CommandMargin         Command = C.VICINITY_COMMAND_MARGIN          // a log
	CommandSimulate       Command = C.VICINITY_COMMAND_SIMULATE        // a log without slots
	CommandReconcile      Command = C.VICINITY_COMMAND_RECONCILE       // a list, then logs or surveys; or as for CommandCollection
	CommandFrame          Command = C.VICINITY_COMMAND_FRAME           // a word
	CommandSpell          Command = C.VICINITY_COMMAND_SPELL           // words, at least one
	CommandSurvey         Command = C.VICINITY_COMMAND_SURVEY          // logs, at least one
	CommandCollection     Command = C.VICINITY_COMMAND_COLLECTION      // a catalogue, a table of places or none, logs or surveys
	CommandJSON           Command = C.VICINITY_COMMAND_JSON            // a log
	CommandJSONCollection Command = C.VICINITY_COMMAND_JSON_COLLECTION // the same as for CommandCollection
)

// Fault is the first fault of a text or a frame, by its number in vicinity.h.
type Fault uint32

// String returns the name of the fault, as the program writes it.
func (fault Fault) String() string {
	return faultName(uint32(fault))
}

func (fault Fault) Error() string {
	return "vicinity: " + fault.String()
}

// Refusal is why a frame, a mask or a line can't be made: the first reason that applies.
type Refusal uint32

const (
	WrongLink   Refusal = C.VICINITY_WRONG_LINK
	WrongSlots  Refusal = C.VICINITY_WRONG_SLOTS
	WrongMask   Refusal = C.VICINITY_WRONG_MASK
	WrongSlot   Refusal = C.VICINITY_WRONG_SLOT
	WrongReply  Refusal = C.VICINITY_WRONG_REPLY
	TooLong     Refusal = C.VICINITY_TOO_LONG
	WrongLetter Refusal = C.VICINITY_WRONG_LETTER
)

func (refusal Refusal) String() string {
	return faultName(uint32(refusal))
}

func (refusal Refusal) Error() string {
	return "vicinity: " + refusal.String()
}

func faultName(number uint32) string {
	var name C.struct_vicinity_name
	if C.vicinity_fault_name(C.uint32_t(number), &name) == 0 {
		return fmt.Sprintf("fault %d", number)
	}
	return C.GoString(&name.text[0])
}
