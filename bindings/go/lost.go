package lrcstore

// #include "calls.h"
import "C"

import (
	"context"
	"unsafe"
)

// LostFragment is a lost fragment of a blob.
type LostFragment struct {
	Name             string
	Version          uint64 // of the blob
	Stripe, Fragment int    // from 0
}

// LostFragments returns the lost fragments of all blobs, by shard, name, stripe and fragment. It
// lists them in parts, each as of a moment of its own. It returns ErrNoMemory, or that the context
// has ended.
func (s *Store) LostFragments(ctx context.Context) (all []LostFragment, err error) {
	for shard := uint32(0); shard < s.count; shard++ {
		err = s.inParts(ctx, "LostFragments", shard, func(plan *C.lrc_slot) error {
			var item C.lrc_item
			for C.next_item(plan, &item) != 0 {
				at := (*C.char)(unsafe.Pointer(item.name.at))
				all = append(all, LostFragment{C.GoStringN(at, C.int(item.name.len)),
					uint64(item.version), int(item.stripe), int(item.fragment)})
				C.lrc_slot_skip(plan)
			}
			return nil
		})
		if err != nil {
			return nil, err
		}
	}
	return all, nil
}
