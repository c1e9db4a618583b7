// Package lrcstore is an in-memory blob store that goroutines share, over liblrc_store by cgo. It
// keeps each blob in a Local Reconstruction Code, so it can read and repair blobs while fragments
// are lost.
//
// All calls together have the replies of one sequential store, in which each call stands after those
// that had returned before it began. The library's part of that is proved, nothing of this package.
// A name has 1 to 32 bytes of a-z, 0-9, '.', '_' and '-'. Stripes and fragments count from 0.
//
// A call waits for the store until its context ends. It then returns ctx.Err(), and has changed
// nothing; Trim and Mend return what they did before. Any other error is an *Error with a Status or
// ErrClosed.
//
// The package finds the library by pkg-config. With the build tag nopkgconfig, CGO_CFLAGS and
// CGO_LDFLAGS say where lrc_store.h and the library are. The go command caches what pkg-config
// prints: run go clean -cache once the library has moved. A program names the package's folder in
// its go.mod: replace lrcstore => CLONE/bindings/go.
package lrcstore

// #include "calls.h"
import "C"

import (
	"context"
	"math"
	"sync/atomic"
	"time"
	"unsafe"
)

const (
	// sessions is how many a shard lends, and so how many calls are in C at a time.
	sessions = 63
	// longestWait is how long C waits at a time, if the context of the call can end.
	longestWait = 20 * time.Millisecond
)

// reply is what a call in C returns: its status, and the numbers that it wrote.
type reply = C.lrc_reply

// Store is a blob store, for any number of goroutines. It must not be copied.
type Store struct {
	shards   *C.lrc_shards
	count    uint32        // of shards
	mends    atomic.Uint32 // how many began
	calls    chan struct{} // an element for each call that is in C
	closed   chan struct{}
	isClosed atomic.Bool
}

// Option is an option of Open.
type Option func(*options)

type options struct{ shards, limit C.uint32_t }

// WithShards makes the store one of 1 to 64 shards. Each name belongs to a shard, and calls of
// names of different shards do not wait for each other. Without it there is one.
func WithShards(count int) Option {
	return func(o *options) { o.shards = narrow(count) }
}

// WithJournal lets each shard of the store keep a journal of 1 to 1,048,576 entries. A call returns
// ErrJournalFull once its shard has so many, until Trim discards some.
func WithJournal(limit int) Option {
	return func(o *options) {
		o.limit = narrow(limit)
		if limit == 0 {
			o.limit = math.MaxUint32 // refused too, as 0 stands for no journal
		}
	}
}

// narrow returns the number, or one that the library refuses if it does not fit.
func narrow(number int) C.uint32_t {
	if number < 0 || number > math.MaxUint32 {
		return math.MaxUint32
	}
	return C.uint32_t(number)
}

// Open opens a store whose fragments have so many bytes, 1 to 65,536. Each blob except an empty one
// takes at least 16 (or 10) fragments, however few bytes it has. Without WithJournal it keeps no
// journal. It returns ErrBadWidth, ErrNoMemory, or ErrBadArgument for a bad limit or number of
// shards.
func Open(width int, opts ...Option) (*Store, error) {
	o := options{shards: 1}
	for _, option := range opts {
		option(&o)
	}
	s := &Store{calls: make(chan struct{}, sessions), closed: make(chan struct{})}
	status := C.store_open(narrow(width), o.shards, o.limit, &s.shards)
	if err := failure("Open", "", reply{status: status}); err != nil {
		return nil, err
	}
	s.count = uint32(o.shards)
	return s, nil
}

// Close waits for the calls under way, and closes the store, which frees its memory. Grants stay
// valid. Calls return ErrClosed from then on, also those that wait for their turn.
func (s *Store) Close() error {
	if s.isClosed.Swap(true) {
		return &Error{Op: "Close", Err: ErrClosed}
	}
	close(s.closed)
	for i := 0; i < cap(s.calls); i++ {
		s.calls <- struct{}{} // for good, so that no call gets in
	}
	return failure("Close", "", reply{status: C.store_close(s.shards)})
}

// failure returns the error of a reply, or nil if the call was done.
func failure(op, name string, r reply) error {
	if r.status == C.LRC_STORE_DONE {
		return nil
	}
	return &Error{Op: op, Name: name, Version: uint64(r.version), Err: Status(r.status)}
}

// enter waits until the call may be made in C. A goroutine that waits here holds no thread.
func (s *Store) enter(ctx context.Context, op, name string) error {
	select {
	case s.calls <- struct{}{}:
		return nil
	default: // all sessions are taken, or the store is closed
	}
	select {
	case s.calls <- struct{}{}:
		return nil
	case <-s.closed:
		return &Error{Op: op, Name: name, Err: ErrClosed}
	case <-ctx.Done():
		return ctx.Err()
	}
}

// do makes a call in C, which waits for so many milliseconds at most, until the store is not busy
// or the context ends.
func (s *Store) do(ctx context.Context, op, name string,
	call func(ms int64) reply) (reply, error) {
	if err := s.enter(ctx, op, name); err != nil {
		return reply{}, err
	}
	defer func() { <-s.calls }()
	for {
		ms, err := patience(ctx)
		if err != nil {
			return reply{}, err
		}
		if r := call(ms); Status(r.status) != ErrBusy {
			return r, failure(op, name, r)
		}
	}
}

// patience returns how many milliseconds C may wait: -1 stands for any number, if the context never
// ends. It returns an error if the context has ended.
func patience(ctx context.Context) (int64, error) {
	if ctx.Done() == nil {
		return -1, nil
	}
	if err := ctx.Err(); err != nil {
		return 0, err
	}
	wait := longestWait
	if deadline, ok := ctx.Deadline(); ok {
		left := time.Until(deadline)
		if left <= 0 {
			return 0, context.DeadlineExceeded
		}
		if left < wait {
			wait = left
		}
	}
	return int64((wait + time.Millisecond - 1) / time.Millisecond), nil
}

// NameOf returns a name for a key of any bytes. Nobody has found two keys with one name.
func NameOf(key []byte) string {
	var name [C.LRC_STORE_NAME_LEN]byte
	C.name_of(address(key), C.size_t(len(key)), address(name[:]))
	return string(name[:])
}

// address returns that of the first byte, or nil if there is none.
func address(p []byte) *C.uint8_t {
	if len(p) == 0 {
		return nil
	}
	return (*C.uint8_t)(unsafe.Pointer(&p[0]))
}
