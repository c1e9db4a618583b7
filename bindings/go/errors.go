package lrcstore

// #include "lrc_store.h"
import "C"

import (
	"errors"
	"strconv"
)

// Status is why the store refused a call. errors.Is finds it in an *Error.
type Status uint32

// The statuses of lrc_store.h. A call on a Store returns neither ErrBusy, as it waits, nor those of
// sessions and slots, which the Store keeps.
const (
	ErrBusy          Status = C.LRC_STORE_BUSY
	ErrNoName        Status = C.LRC_STORE_NO_NAME
	ErrOutOfRange    Status = C.LRC_STORE_OUT_OF_RANGE
	ErrUnrecoverable Status = C.LRC_STORE_UNRECOVERABLE
	ErrNoFragment    Status = C.LRC_STORE_NO_FRAGMENT
	ErrAlreadyLost   Status = C.LRC_STORE_ALREADY_LOST
	ErrNotLost       Status = C.LRC_STORE_NOT_LOST
	ErrNoMemory      Status = C.LRC_STORE_NO_MEMORY
	ErrJournalFull   Status = C.LRC_STORE_JOURNAL_FULL
	ErrTooLong       Status = C.LRC_STORE_TOO_LONG
	ErrBadName       Status = C.LRC_STORE_BAD_NAME
	ErrBadWidth      Status = C.LRC_STORE_BAD_WIDTH
	ErrNoPass        Status = C.LRC_STORE_NO_PASS
	ErrEmpty         Status = C.LRC_STORE_EMPTY
	ErrOccupied      Status = C.LRC_STORE_OCCUPIED
	ErrBadArgument   Status = C.LRC_STORE_BAD_ARGUMENT
	ErrNotAlone      Status = C.LRC_STORE_NOT_ALONE
	ErrNotRebuilt    Status = C.LRC_STORE_NOT_REBUILT
	ErrNothingLeft   Status = C.LRC_STORE_NOTHING_LEFT
	ErrReplaced      Status = C.LRC_STORE_REPLACED
)

// ErrClosed is of a call on a Store or a Grant that is closed.
var ErrClosed = errors.New("closed")

// Error returns the library's text of the status.
func (s Status) Error() string {
	return C.GoString(C.lrc_store_text(C.uint32_t(s)))
}

// Error is a call that was refused.
type Error struct {
	Op      string // the method, such as "Put"
	Name    string // of the blob, or "" if the call has none
	Version uint64 // of the blob, for ErrUnrecoverable, ErrReplaced and ErrNotRebuilt, or 0
	Err     error  // a Status or ErrClosed
}

func (e *Error) Error() string {
	call := "lrcstore: " + e.Op
	if e.Name != "" {
		call += " " + strconv.Quote(e.Name)
	}
	return call + ": " + e.Err.Error()
}

// Unwrap returns e.Err.
func (e *Error) Unwrap() error { return e.Err }
