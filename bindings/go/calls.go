package lrcstore

// #include "calls.h"
import "C"

import "context"

// Code is the code of a blob.
type Code uint32

// The codes of a store: 12 or 6 data fragments a stripe, and 4 of parity.
const (
	LRC12 Code = 12 // LRC(12,2,2)
	LRC6  Code = 6  // LRC(6,2,2)
)

// plannedAtOnce is how many repairs Mend plans at once.
const plannedAtOnce = 512

// Shape is what Stat returns of a blob.
type Shape struct {
	Version uint64
	Len     int64 // in bytes
	Stripes int
	Lost    int // fragments
}

// Put stores a copy of the blob under the name in LRC(12,2,2), in place of an older one. The
// version is the number of this put in the store's history. It returns ErrBadName, ErrTooLong,
// ErrNoMemory or ErrJournalFull.
func (s *Store) Put(ctx context.Context, name string, blob []byte) (version uint64, err error) {
	return s.put(ctx, "Put", LRC12, name, blob)
}

// PutIn is Put in a code of the caller's choice. It returns ErrBadArgument if there is no such
// code.
func (s *Store) PutIn(ctx context.Context, code Code, name string,
	blob []byte) (version uint64, err error) {
	return s.put(ctx, "PutIn", code, name, blob)
}

func (s *Store) put(ctx context.Context, op string, code Code, name string,
	blob []byte) (uint64, error) {
	var copied *C.lrc_slot // once the store was busy: it is encoded once, however long the wait
	defer func() {
		if copied != nil {
			C.free_slot(copied)
		}
	}()
	return s.version(ctx, op, name, func(ms int64) reply {
		if copied != nil {
			return C.store_put_from(s.shards, name, copied, C.uint32_t(code), C.int64_t(ms))
		}
		r := C.store_put(s.shards, name, address(blob), C.size_t(len(blob)), C.uint32_t(code),
			C.int64_t(ms))
		if Status(r.status) == ErrBusy {
			copied = C.copy_of(address(blob), C.size_t(len(blob)))
		}
		return r
	})
}

// version makes a call, and returns the version of its reply.
func (s *Store) version(ctx context.Context, op, name string,
	call func(ms int64) reply) (uint64, error) {
	r, err := s.do(ctx, op, name, call)
	if err != nil {
		return 0, err
	}
	return uint64(r.version), nil
}

// Get returns a copy of the whole blob, all of one version, and that version. It returns ErrNoName,
// ErrUnrecoverable, ErrNoMemory, ErrNotRebuilt or ErrJournalFull.
func (s *Store) Get(ctx context.Context, name string) (blob []byte, version uint64, err error) {
	var held C.lrc_slot
	r, err := s.do(ctx, "Get", name, func(ms int64) reply {
		got := C.store_holding(s.shards, name, C.int64_t(ms))
		held = got.version
		return got.reply
	})
	if err != nil {
		return nil, 0, err
	}
	blob = make([]byte, r.len)
	r.status = C.copy_all(held, address(blob), C.size_t(r.len))
	if err := failure("Get", name, r); err != nil {
		return nil, 0, err
	}
	return blob, uint64(r.version), nil
}

// ReadAt fills p with bytes of the blob from off on, and rebuilds those of lost fragments. It
// returns the version of the blob. Unlike an io.ReaderAt it never reads a part: it returns
// ErrOutOfRange unless all of the range lies inside the blob. If out of memory it returns
// ErrNoMemory, or ErrNotRebuilt, after which any byte of p may be written. It also returns
// ErrNoName, ErrUnrecoverable or ErrJournalFull.
func (s *Store) ReadAt(ctx context.Context, name string, p []byte,
	off int64) (version uint64, err error) {
	return s.version(ctx, "ReadAt", name, func(ms int64) reply {
		// no blob has the offset that a negative one becomes
		return C.store_read(s.shards, name, C.uint64_t(off), address(p), C.size_t(len(p)), C.int64_t(ms))
	})
}

// Lose loses a fragment of a stripe, as after a disk failure, and returns the blob's version. It
// returns ErrNoName, ErrNoFragment, ErrAlreadyLost, ErrNoMemory or ErrJournalFull.
func (s *Store) Lose(ctx context.Context, name string, stripe,
	fragment int) (version uint64, err error) {
	return s.version(ctx, "Lose", name, func(ms int64) reply {
		return C.store_lose(s.shards, name, C.uint64_t(stripe), C.uint64_t(fragment), C.int64_t(ms))
	})
}

// Repair repairs a lost fragment of a stripe from the remaining ones, and returns the blob's
// version. It returns ErrNoName, ErrNoFragment, ErrNotLost, ErrUnrecoverable, ErrNoMemory or
// ErrJournalFull.
func (s *Store) Repair(ctx context.Context, name string, stripe,
	fragment int) (version uint64, err error) {
	return s.version(ctx, "Repair", name, func(ms int64) reply {
		return C.store_repair(s.shards, name, C.uint64_t(stripe), C.uint64_t(fragment), C.int64_t(ms))
	})
}

// Delete deletes the blob, and returns the version that it had. It returns ErrNoName, ErrNoMemory
// or ErrJournalFull.
func (s *Store) Delete(ctx context.Context, name string) (version uint64, err error) {
	return s.version(ctx, "Delete", name, func(ms int64) reply {
		return C.store_delete(s.shards, name, C.int64_t(ms))
	})
}

// Stat returns the shape of the blob. It returns ErrNoName, ErrNoMemory or ErrJournalFull.
func (s *Store) Stat(ctx context.Context, name string) (Shape, error) {
	r, err := s.do(ctx, "Stat", name, func(ms int64) reply {
		return C.store_stat(s.shards, name, C.int64_t(ms))
	})
	if err != nil {
		return Shape{}, err
	}
	return Shape{
		Version: uint64(r.version),
		Len:     int64(r.len),
		Stripes: int(r.stripes),
		Lost:    int(r.lost),
	}, nil
}

// Trim discards all journal entries except the last keep, and returns how many it discarded, also
// if it returns an error.
func (s *Store) Trim(ctx context.Context, keep uint64) (discarded uint64, err error) {
	_, err = s.do(ctx, "Trim", "", func(ms int64) reply {
		r := C.store_trim(s.shards, C.uint64_t(keep), C.int64_t(ms))
		discarded += uint64(r.count)
		return r
	})
	return discarded, err
}

// Mend repairs all lost fragments that can be rebuilt, and returns how many it repaired, also if it
// returns an error: of the context, ErrNoMemory or ErrJournalFull. Any number of goroutines may
// mend at once. They begin with different shards.
func (s *Store) Mend(ctx context.Context) (repaired uint64, err error) {
	first := s.firstShard()
	for i := uint32(0); i < s.count; i++ {
		part, err := s.mendShard(ctx, (first+i)%s.count)
		repaired += part
		if err != nil {
			return repaired, err
		}
	}
	return repaired, nil
}

// firstShard returns the shard that a mend begins with: of two that begin one after the other, far
// apart.
func (s *Store) firstShard() uint32 {
	before := s.mends.Add(1) - 1
	return uint32(uint64(before*0x9E3779B9) * uint64(s.count) >> 32)
}

// mendShard repairs all lost fragments of a shard, and returns how many it repaired.
func (s *Store) mendShard(ctx context.Context, shard uint32) (repaired uint64, err error) {
	err = s.inParts(ctx, "Mend", shard, func(plan *C.lrc_slot) error {
		part, err := s.mendPart(ctx, shard, plan)
		repaired += part
		return err
	})
	return repaired, err
}

// inParts plans in parts what a shard has lost, and calls use with each part. It leaves no item.
func (s *Store) inParts(ctx context.Context, op string, shard uint32,
	use func(plan *C.lrc_slot) error) error {
	plan := C.new_slot()
	if plan == nil {
		return &Error{Op: op, Err: ErrNoMemory}
	}
	defer C.free_slot(plan)
	for isLast := false; !isLast; {
		r, err := s.do(ctx, op, "", func(ms int64) reply {
			return C.store_plan(s.shards, C.uint32_t(shard), plan, plannedAtOnce, C.int64_t(ms))
		})
		if err != nil {
			return err
		}
		isLast = r.count < plannedAtOnce
		if err := use(plan); err != nil {
			return err
		}
	}
	return nil
}

// mendPart repairs the fragments of a plan, and returns how many it repaired.
func (s *Store) mendPart(ctx context.Context, shard uint32,
	plan *C.lrc_slot) (repaired uint64, err error) {
	for {
		r, err := s.do(ctx, "Mend", "", func(ms int64) reply {
			return C.store_mend_step(s.shards, C.uint32_t(shard), plan, C.int64_t(ms))
		})
		switch {
		case err == nil:
			repaired++
		case r.status == C.LRC_STORE_NOTHING_LEFT:
			return repaired, nil
		case !isPast(Status(r.status)):
			return repaired, err
		}
	}
}

// isPast reports whether a mend goes on after this status: the fragment cannot be repaired, or need
// not be any more.
func isPast(status Status) bool {
	switch status {
	case ErrNoName, ErrNoFragment, ErrNotLost, ErrUnrecoverable:
		return true
	}
	return false
}
