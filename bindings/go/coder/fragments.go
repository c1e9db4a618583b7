package coder

// #include "calls.h"
import "C"

import (
	"math/bits"
	"unsafe"
)

const (
	parityCount   = 4
	mostFragments = C.CODER_FRAGMENTS
	mostTargets   = C.CODER_TARGETS
)

// set is a set of fragments: bit i is set if and only if fragment i is in it.
type set uint16

func (s set) has(fragment int) bool { return s>>fragment&1 == 1 }

// first returns the lowest number of a set that is not empty.
func (s set) first() int { return bits.TrailingZeros16(uint16(s)) }

// rest returns the set without its lowest number.
func (s set) rest() set { return s & (s - 1) }

func (s set) count() int { return bits.OnesCount16(uint16(s)) }

func (s set) numbers() []int {
	numbers := make([]int, 0, s.count())
	for ; s != 0; s = s.rest() {
		numbers = append(numbers, s.first())
	}
	return numbers
}

// fragments is the slices that a call was given. It reads them once, so that a caller who changes
// them meanwhile can't make C read past their end.
type fragments [mostFragments][]byte

// read takes as many slices as the code has fragments.
func (f *fragments) read(op, what string, c Code, given [][]byte) error {
	if err := c.check(op); err != nil {
		return err
	}
	if len(given) != c.Fragments() {
		return refused(op, "%d %s, expected %d", len(given), what, c.Fragments())
	}
	copy(f[:], given)
	return nil
}

// given returns the fragments that are not nil.
func (f *fragments) given() (found set) {
	for i, each := range f {
		if each != nil {
			found |= 1 << i
		}
	}
	return found
}

// checkEqual returns an error unless these fragments have one length.
func (f *fragments) checkEqual(op string, all set) error {
	if all == 0 {
		return nil
	}
	first := all.first()
	for rest := all.rest(); rest != 0; rest = rest.rest() {
		if i := rest.first(); len(f[i]) != len(f[first]) {
			return refused(op, "fragment %d has %s, fragment %d has %d", i, shown(len(f[i])), first,
				len(f[first]))
		}
	}
	return nil
}

// checkRange returns an error unless these fragments have n bytes from off on.
func (f *fragments) checkRange(op string, all set, off, n int) error {
	if off < 0 {
		return refused(op, "offset %d, expected at least 0", off)
	}
	for rest := all; rest != 0; rest = rest.rest() {
		if i := rest.first(); len(f[i]) < n || len(f[i])-n < off {
			return refused(op, "fragment %d has %s, the range is %s from %d on", i, shown(len(f[i])),
				shown(n), off)
		}
	}
	return nil
}

// checkTargets returns an error unless these targets have one length, and share no memory with each
// other, nor with the fragments of f that are read.
func (f *fragments) checkTargets(op string, targets *fragments, written, read set) error {
	if written == 0 {
		return nil
	}
	n := len(targets[written.first()])
	for rest := written; rest != 0; rest = rest.rest() {
		i := rest.first()
		if len(targets[i]) != n {
			return refused(op, "the target of fragment %d has %s, that of fragment %d has %d", i,
				shown(len(targets[i])), written.first(), n)
		}
		if err := f.checkApart(op, i, targets[i], read); err != nil {
			return err
		}
		for others := rest.rest(); others != 0; others = others.rest() {
			if j := others.first(); overlap(targets[i], targets[j]) {
				return refused(op, "the targets of fragments %d and %d overlap", i, j)
			}
		}
	}
	return nil
}

// checkApart returns an error if a target shares memory with one of these fragments.
func (f *fragments) checkApart(op string, number int, target []byte, read set) error {
	for ; read != 0; read = read.rest() {
		if i := read.first(); overlap(target, f[i]) {
			return refused(op, "the target of fragment %d overlaps fragment %d", number, i)
		}
	}
	return nil
}

// overlap reports whether two slices share a byte.
func overlap(a, b []byte) bool {
	if len(a) == 0 || len(b) == 0 {
		return false
	}
	first, second := uintptr(unsafe.Pointer(&a[0])), uintptr(unsafe.Pointer(&b[0]))
	return first-second < uintptr(len(b)) || second-first < uintptr(len(a))
}

// none is what is passed in place of no bytes, as no address may be NULL.
var none C.uint8_t

func address(p []byte) *C.uint8_t {
	if len(p) == 0 {
		return &none
	}
	return (*C.uint8_t)(unsafe.Pointer(&p[0]))
}

// addresses returns the fragments for C.
func (f *fragments) addresses() (of C.coder_stripe) {
	for i := range f {
		of.at[i] = address(f[i])
	}
	return of
}

// targets returns those of at most four fragments for C.
func (f *fragments) targets(written set) (to C.coder_targets) {
	for i := range to.at {
		to.at[i], to.numbers[i] = &none, C.LRC_NONE
		if written != 0 {
			to.at[i], to.numbers[i] = address(f[written.first()]), C.uint8_t(written.first())
		}
		written = written.rest()
	}
	return to
}
