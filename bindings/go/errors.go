package vicinity

import "errors"

// noAnswer is the status of what has no answer, as a call whose memory was refused.
const noAnswer = 4

// ErrOutOfMemory means that there is no answer because memory ran out.
var ErrOutOfMemory = errors.New("vicinity: out of memory")

// ErrUsage means that texts aren't what a command takes, as two logs for CommandCheck, or that a name isn't UTF-8 or has LF.
var ErrUsage = errors.New("vicinity: usage")

// simulateError is the line of the program.
type simulateError string

func (line simulateError) Error() string {
	return string(line)
}
