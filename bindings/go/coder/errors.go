package coder

// #include "lrc_coder.h"
import "C"

import (
	"errors"
	"fmt"
)

// Status is why the coder refused a call. errors.Is finds it in an *Error.
type Status uint32

// The statuses of lrc_coder.h.
const (
	// ErrUnrecoverable: the remaining fragments do not determine a fragment.
	ErrUnrecoverable Status = C.LRC_UNRECOVERABLE
	// ErrBadArgument: an argument is invalid. The text of the error says which, and what is valid.
	ErrBadArgument Status = C.LRC_BAD_ARGUMENT
)

// ErrInconsistent is of a stripe whose parities are not those of its data. Then at least one
// fragment is wrong, and this does not determine which.
var ErrInconsistent = errors.New("the parities are not those of the data")

// Error returns the library's text of the status.
func (s Status) Error() string {
	return C.GoString(C.lrc_coder_text(C.uint32_t(s)))
}

// Error is a call that was refused. It has written nothing.
type Error struct {
	Op       string // the function or method, such as "Rebuild"
	Fragment int    // the unrecoverable one, or -1
	Reason   string // what was wrong, such as "fragment 5 has 3 bytes, fragment 0 has 4"
	Err      error  // a Status or ErrInconsistent
}

func (e *Error) Error() string { return "coder: " + e.Op + ": " + e.Reason }

// Unwrap returns e.Err.
func (e *Error) Unwrap() error { return e.Err }

// refused returns the error of invalid arguments.
func refused(op, format string, args ...interface{}) error {
	return &Error{Op: op, Fragment: -1, Reason: fmt.Sprintf(format, args...), Err: ErrBadArgument}
}

func unrecoverable(op string, fragment int) error {
	reason := fmt.Sprintf("fragment %d: %v", fragment, ErrUnrecoverable)
	return &Error{Op: op, Fragment: fragment, Reason: reason, Err: ErrUnrecoverable}
}

// failure returns the error of a status, or nil if the call was done.
func failure(op string, status C.uint32_t) error {
	if status == C.LRC_DONE {
		return nil
	}
	return &Error{Op: op, Fragment: -1, Reason: Status(status).Error(), Err: Status(status)}
}

// shown returns a number of bytes in words.
func shown(count int) string {
	if count == 1 {
		return "1 byte"
	}
	return fmt.Sprintf("%d bytes", count)
}
