package lrcstore

// #include "calls.h"
import "C"

import (
	"context"
	"io"
	"runtime"
	"sync"
	"unsafe"
)

// Version is a version of a blob that is held, for any number of goroutines. It stays as it is until
// Close, whatever happens to the blob and the store. Its calls take no lock of the store, and make
// no journal entry. It is an io.ReaderAt.
type Version struct {
	name   string
	number uint64
	size   int64
	lock   sync.Mutex
	slot   *C.lrc_slot // nil once closed
}

// VersionShape is what Shape returns of a held version.
type VersionShape struct {
	Version uint64
	Len     int64 // in bytes
	Stripes int
	Lost    int // fragments that were lost when it was held
	Width   int // bytes of a fragment
	Code    Code
}

// Numbers is what Numbers returns of a store.
type Numbers struct {
	Blobs         uint64
	Bytes         uint64 // of all blobs
	Lost          uint64 // fragments
	Unrecoverable uint64 // stripes that have an unrecoverable fragment
	Calls         uint64
	Entries       uint64 // that the journal keeps
}

// Hold holds the version that the blob has now. Close it, as otherwise it keeps its memory until the
// garbage collector finds it. It returns ErrNoName, ErrNoMemory or ErrJournalFull.
func (s *Store) Hold(ctx context.Context, name string) (*Version, error) {
	slot := C.new_slot()
	if slot == nil {
		return nil, &Error{Op: "Hold", Name: name, Err: ErrNoMemory}
	}
	r, err := s.do(ctx, "Hold", name, func(ms int64) reply {
		return C.store_hold(s.shards, name, slot, C.int64_t(ms))
	})
	if err != nil {
		C.free_slot(slot)
		return nil, err
	}
	v := &Version{name: name, number: uint64(r.version), size: int64(r.len), slot: slot}
	runtime.SetFinalizer(v, (*Version).Close)
	return v, nil
}

// Restore puts a lost fragment of a version back with its bytes, such as those of another machine,
// whatever else is lost, and returns the version. The caller ensures that the fragment has these
// bytes. It returns ErrReplaced if the name has another version by now, ErrBadArgument if they are
// not as many as a fragment has, ErrNoName, ErrNoFragment, ErrNotLost, ErrNoMemory or
// ErrJournalFull.
func (s *Store) Restore(ctx context.Context, v *Version, stripe, fragment int,
	whole []byte) (version uint64, err error) {
	v.lock.Lock()
	defer v.lock.Unlock()
	if v.slot == nil {
		return 0, v.closed("Restore")
	}
	return s.version(ctx, "Restore", v.name, func(ms int64) reply {
		return C.store_restore(s.shards, v.name, v.slot, C.uint64_t(stripe),
			C.uint64_t(fragment), address(whole), C.size_t(len(whole)), C.int64_t(ms))
	})
}

// Numbers returns the numbers of the store. It takes the same time for each store.
func (s *Store) Numbers(ctx context.Context) (Numbers, error) {
	var n C.lrc_numbers
	_, err := s.do(ctx, "Numbers", "", func(ms int64) reply {
		return C.store_numbers(s.shards, &n, C.int64_t(ms))
	})
	return Numbers{
		Blobs:         uint64(n.blobs),
		Bytes:         uint64(n.bytes),
		Lost:          uint64(n.lost),
		Unrecoverable: uint64(n.unrecoverable),
		Calls:         uint64(n.calls),
		Entries:       uint64(n.entries),
	}, err
}

// Number returns the number of the put that stored the version.
func (v *Version) Number() uint64 { return v.number }

// Size returns its length in bytes.
func (v *Version) Size() int64 { return v.size }

// call makes a call on the slot, for one goroutine at a time.
func (v *Version) call(op string, call func() C.uint32_t) error {
	v.lock.Lock()
	defer v.lock.Unlock()
	if v.slot == nil {
		return v.closed(op)
	}
	return failure(op, v.name, reply{status: call(), version: C.uint64_t(v.number)})
}

// Shape returns its shape. The lost fragments are counted through all stripes.
func (v *Version) Shape() (VersionShape, error) {
	var found C.lrc_shape
	err := v.call("Shape", func() C.uint32_t { return C.lrc_slot_shape(v.slot, &found) })
	return VersionShape{
		Version: uint64(found.version),
		Len:     int64(found.len),
		Stripes: int(found.stripes),
		Lost:    int(found.lost),
		Width:   int(found.width),
		Code:    Code(found.data_fragments),
	}, err
}

// LostFragments returns which fragments of a stripe were lost when it was held: bit f is set if
// fragment f was. It returns ErrNoFragment if there is no such stripe.
func (v *Version) LostFragments(stripe int) (uint16, error) {
	var lost C.uint16_t
	err := v.call("LostFragments", func() C.uint32_t {
		return C.lrc_slot_lost(v.slot, C.uint64_t(stripe), &lost)
	})
	return uint16(lost), err
}

// Lend lends n bytes from off on, without a copy. Bytes of lost fragments are rebuilt. It returns
// ErrOutOfRange, ErrUnrecoverable or ErrNoMemory.
func (v *Version) Lend(off, n int64) (*Grant, error) {
	slot, pieces := C.new_slot(), C.uint64_t(0)
	if slot == nil {
		return nil, &Error{Op: "Lend", Name: v.name, Err: ErrNoMemory}
	}
	err := v.call("Lend", func() C.uint32_t {
		return C.lrc_slot_lend(v.slot, C.uint64_t(off), C.uint64_t(n), slot, &pieces)
	})
	if err != nil {
		C.free_slot(slot)
		return nil, err
	}
	return grantOf(v.name, v.number, slot), nil
}

// ReadAt copies bytes from off on into p, as io.ReaderAt says. It rebuilds those of lost fragments.
func (v *Version) ReadAt(p []byte, off int64) (n int, err error) {
	if off < 0 {
		return 0, &Error{Op: "ReadAt", Name: v.name, Err: errNegativeOffset}
	}
	if off >= v.size {
		return 0, io.EOF
	}
	wanted := min(int64(len(p)), v.size-off)
	err = v.call("ReadAt", func() C.uint32_t {
		return C.copy_to(v.slot, C.uint64_t(off), address(p), C.size_t(wanted))
	})
	if err != nil {
		return 0, err
	}
	if int(wanted) < len(p) {
		err = io.EOF
	}
	return int(wanted), err
}

// Fragment returns a copy of a fragment of a stripe, data or parity. It returns ErrAlreadyLost if
// the fragment was lost when the version was held, or ErrNoFragment.
func (v *Version) Fragment(stripe, fragment int) (whole []byte, err error) {
	err = v.call("Fragment", func() C.uint32_t {
		var found C.lrc_slice
		status := C.fragment_of(v.slot, C.uint64_t(stripe), C.uint64_t(fragment), &found)
		whole = C.GoBytes(unsafe.Pointer(found.at), C.int(found.len))
		return status
	})
	if err != nil {
		return nil, err
	}
	return whole, nil
}

// Close frees its memory, unless the store or a grant shares it.
func (v *Version) Close() error {
	v.lock.Lock()
	defer v.lock.Unlock()
	if v.slot == nil {
		return v.closed("Close")
	}
	C.free_slot(v.slot)
	v.slot = nil
	runtime.SetFinalizer(v, nil)
	return nil
}

func (v *Version) closed(op string) error {
	return &Error{Op: op, Name: v.name, Err: ErrClosed}
}

func min(a, b int64) int64 {
	if a < b {
		return a
	}
	return b
}
