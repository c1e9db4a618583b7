package lrcstore

// #include "calls.h"
import "C"

import (
	"context"
	"errors"
	"io"
	"net"
	"runtime"
	"sort"
	"sync"
	"unsafe"
)

var errNegativeOffset = errors.New("negative offset")

// Grant is a lent range of a blob, for any number of goroutines. Its bytes do not change until
// Close, whatever happens to the blob and the store. It is an io.ReaderAt and an io.WriterTo.
type Grant struct {
	name    string
	version uint64
	lock    sync.RWMutex // held for writing by Close
	slot    *C.lrc_slot  // nil once closed
	runs    [][]byte     // of the library's memory
	ends    []int64      // of each run, in the range
}

// Lend lends n bytes of the blob from off on, without a copy. Bytes of lost fragments are rebuilt.
// Close the grant, which otherwise keeps its memory until the garbage collector finds it. It
// returns ErrNoName, ErrOutOfRange, ErrUnrecoverable, ErrJournalFull, or, if out of memory,
// ErrNoMemory or ErrNotRebuilt.
func (s *Store) Lend(ctx context.Context, name string, off, n int64) (*Grant, error) {
	slot := C.new_slot()
	if slot == nil {
		return nil, &Error{Op: "Lend", Name: name, Err: ErrNoMemory}
	}
	version, err := s.version(ctx, "Lend", name, func(ms int64) reply {
		return C.store_lend(s.shards, name, C.uint64_t(off), C.uint64_t(n), slot, C.int64_t(ms))
	})
	if err != nil {
		C.free_slot(slot)
		return nil, err
	}
	return grantOf(name, version, slot), nil
}

// grantOf returns a grant of the range in a slot.
func grantOf(name string, version uint64, slot *C.lrc_slot) *Grant {
	g := &Grant{name: name, version: version, slot: slot}
	g.findRuns()
	runtime.SetFinalizer(g, (*Grant).Close)
	return g
}

// findRuns asks for the runs of the range.
func (g *Grant) findRuns() {
	var some [16]C.lrc_slice
	for count := len(some); count == len(some); {
		count = int(C.runs_of(g.slot, C.uint64_t(g.Size()), &some[0], C.size_t(len(some))))
		for _, run := range some[:count] {
			g.runs = append(g.runs, unsafe.Slice((*byte)(run.at), int(run.len)))
			g.ends = append(g.ends, g.Size()+int64(run.len))
		}
	}
}

// Version returns the version of the blob.
func (g *Grant) Version() uint64 { return g.version }

// Size returns how many bytes are lent.
func (g *Grant) Size() int64 {
	if len(g.ends) == 0 {
		return 0
	}
	return g.ends[len(g.ends)-1]
}

// ReadAt copies bytes of the range from off on into p, as io.ReaderAt says.
func (g *Grant) ReadAt(p []byte, off int64) (n int, err error) {
	g.lock.RLock()
	defer g.lock.RUnlock()
	if g.slot == nil {
		return 0, g.closed("ReadAt")
	}
	if off < 0 {
		return 0, &Error{Op: "ReadAt", Name: g.name, Err: errNegativeOffset}
	}
	first := sort.Search(len(g.ends), func(i int) bool { return g.ends[i] > off })
	for i := first; i < len(g.runs) && n < len(p); i++ {
		start := g.ends[i] - int64(len(g.runs[i]))
		n += copy(p[n:], g.runs[i][off+int64(n)-start:])
	}
	if n < len(p) {
		return n, io.EOF
	}
	return n, nil
}

// WriteTo writes the range to w, without a copy, and by writev if w is a connection.
func (g *Grant) WriteTo(w io.Writer) (n int64, err error) {
	g.lock.RLock()
	defer g.lock.RUnlock()
	if g.slot == nil {
		return 0, g.closed("WriteTo")
	}
	buffers := append(net.Buffers(nil), g.runs...)
	return buffers.WriteTo(w)
}

// Close waits for the calls under way on the grant, and frees its memory.
func (g *Grant) Close() error {
	g.lock.Lock()
	defer g.lock.Unlock()
	if g.slot == nil {
		return g.closed("Close")
	}
	C.free_slot(g.slot)
	g.slot, g.runs = nil, nil
	runtime.SetFinalizer(g, nil)
	return nil
}

func (g *Grant) closed(op string) error {
	return &Error{Op: op, Name: g.name, Err: ErrClosed}
}
