package coder

// #include "calls.h"
import "C"

// Rebuild writes a lost fragment to a target. The fragment counts as lost, whatever the stripe has
// in its place, which may be the target.
func (c Code) Rebuild(stripe [][]byte, fragment int, target []byte) error {
	const op = "Rebuild"
	var f fragments
	left, err := c.readRebuilt(op, &f, stripe, fragment)
	if err != nil {
		return err
	}
	for rest := left; rest != 0; rest = rest.rest() {
		if i := rest.first(); len(f[i]) != len(target) {
			return refused(op, "fragment %d has %s, the target has %d", i, shown(len(f[i])),
				len(target))
		}
	}
	return c.rebuild(op, &f, left, fragment, target, 0)
}

// RebuildAt fills a target with bytes of a lost fragment from off on. The other fragments may have
// more bytes than it reads.
func (c Code) RebuildAt(stripe [][]byte, fragment int, target []byte, off int) error {
	const op = "RebuildAt"
	var f fragments
	left, err := c.readRebuilt(op, &f, stripe, fragment)
	if err != nil {
		return err
	}
	if err := f.checkRange(op, left, off, len(target)); err != nil {
		return err
	}
	return c.rebuild(op, &f, left, fragment, target, off)
}

// readRebuilt takes the fragments for a rebuild, and returns which of them remain.
func (c Code) readRebuilt(op string, f *fragments, stripe [][]byte,
	fragment int) (left set, err error) {
	if err := f.read(op, "fragments", c, stripe); err != nil {
		return 0, err
	}
	if err := c.checkFragment(op, fragment); err != nil {
		return 0, err
	}
	return f.given() &^ (1 << fragment), nil
}

func (c Code) rebuild(op string, f *fragments, left set, fragment int, target []byte,
	off int) error {
	if err := f.checkApart(op, fragment, target, left); err != nil {
		return err
	}
	status := C.coder_rebuild(C.size_t(c), f.addresses(), C.uint16_t(^left), C.uint8_t(fragment),
		C.size_t(off), address(target), C.size_t(len(target)))
	if status == C.LRC_UNRECOVERABLE {
		return unrecoverable(op, fragment)
	}
	return failure(op, status)
}

// Decode rebuilds lost fragments where they belong in the stripe, in less time than a Rebuild of
// each. For each number in lost, the stripe has a buffer, whose bytes do not matter. A fragment
// that is nil is lost too, and stays so.
func (c Code) Decode(stripe [][]byte, lost []int) error {
	const op = "Decode"
	var f fragments
	if err := f.read(op, "fragments", c, stripe); err != nil {
		return err
	}
	wanted, err := c.set(op, lost)
	if err != nil {
		return err
	}
	if missing := wanted &^ f.given(); missing != 0 {
		return refused(op, "fragment %d is nil, expected a buffer for its bytes", missing.first())
	}
	if err := f.checkEqual(op, f.given()); err != nil {
		return err
	}
	return c.decode(op, &f, &f, f.given()&^wanted, wanted, 0)
}

// DecodeAt fills targets with bytes of lost fragments from off on. There is a target for each
// fragment of the code, and nil for one that is not wanted. A fragment that has a target counts as
// lost. All targets have one length, and the other fragments may have more bytes than it reads.
func (c Code) DecodeAt(stripe, targets [][]byte, off int) error {
	const op = "DecodeAt"
	var f, to fragments
	if err := f.read(op, "fragments", c, stripe); err != nil {
		return err
	}
	if err := to.read(op, "targets", c, targets); err != nil {
		return err
	}
	wanted := to.given()
	left := f.given() &^ wanted
	if err := f.checkRange(op, left, off, to.width(wanted)); err != nil {
		return err
	}
	return c.decode(op, &f, &to, left, wanted, off)
}

// width returns the length of the first of these fragments, or 0 if there is none.
func (f *fragments) width(all set) int {
	if all == 0 {
		return 0
	}
	return len(f[all.first()])
}

// decode fills the wanted targets from the fragments of f that remain.
func (c Code) decode(op string, f, to *fragments, left, wanted set, off int) error {
	if err := f.checkTargets(op, to, wanted, left); err != nil {
		return err
	}
	if wanted.count() > mostTargets { // of so many lost ones, one is unrecoverable
		return c.firstUnrecoverable(op, ^left, wanted)
	}
	status := C.coder_decode(C.size_t(c), f.addresses(), C.uint16_t(^left), to.targets(wanted),
		C.size_t(off), C.size_t(to.width(wanted)))
	if status == C.LRC_UNRECOVERABLE {
		return c.firstUnrecoverable(op, ^left, wanted)
	}
	return failure(op, status)
}
