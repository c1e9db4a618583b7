// Package coder encodes and rebuilds fragments in the Local Reconstruction Codes LRC(12,2,2) and
// LRC(6,2,2), over liblrc_coder by cgo. It keeps no data: the caller has the fragments.
//
// A stripe is a slice of all fragments of a code, at their numbers:
//
//	          first group   second group   local parities   global parities
//	LRC12     0 to 5        6 to 11        12, 13           14, 15
//	LRC6      0 to 2        3 to 5         6, 7             8, 9
//
// Its fragments have one length. A fragment that is nil is lost; one without bytes is not. No bytes
// are copied, and Encode, EncodeAdd, Update, Rebuild, Decode, Verify, Add and their forms allocate
// nothing.
//
// Any number of goroutines may call the package at once, as long as none writes a fragment that
// another one uses. A call that is refused returns an *Error and has written nothing: errors.Is
// finds ErrBadArgument, ErrUnrecoverable or ErrInconsistent in it.
//
// The package finds the library by pkg-config. With the build tag nopkgconfig, CGO_CFLAGS and
// CGO_LDFLAGS say where lrc_coder.h and the library are. A program names the module's folder in its
// go.mod: replace lrcstore => CLONE/bindings/go.
package coder

// #include "calls.h"
import "C"

// Code is a code, by its number of data fragments. Four parities come after them.
type Code int

// The codes.
const (
	LRC12 Code = 12 // LRC(12,2,2)
	LRC6  Code = 6  // LRC(6,2,2)
)

// Term is a remaining fragment in a recipe.
type Term struct {
	Fragment    int
	Coefficient byte // an element of the field, and not 0
}

// Fragments returns how many fragments a stripe has: 16 or 10.
func (c Code) Fragments() int { return int(c) + parityCount }

// check returns an error unless there is such a code.
func (c Code) check(op string) error {
	if c != LRC12 && c != LRC6 {
		return refused(op, "code %d, expected 12 or 6", c)
	}
	return nil
}

// all, data and parities are the code's fragments.
func (c Code) all() set      { return 1<<c.Fragments() - 1 }
func (c Code) data() set     { return 1<<c - 1 }
func (c Code) parities() set { return c.all() &^ c.data() }

// checkFragment returns an error unless the code has the fragment.
func (c Code) checkFragment(op string, fragment int) error {
	if fragment < 0 || fragment >= c.Fragments() {
		return refused(op, "fragment %d is not in 0 to %d", fragment, c.Fragments()-1)
	}
	return nil
}

// set returns a set of the code's fragments.
func (c Code) set(op string, numbers []int) (found set, err error) {
	if err := c.check(op); err != nil {
		return 0, err
	}
	for _, fragment := range numbers {
		if err := c.checkFragment(op, fragment); err != nil {
			return 0, err
		}
		found |= 1 << fragment
	}
	return found, nil
}

// firstUnrecoverable returns the error of the first of these lost fragments that is unrecoverable.
func (c Code) firstUnrecoverable(op string, lost, wanted set) error {
	for ; wanted != 0; wanted = wanted.rest() {
		if c.isUnrecoverable(lost, wanted.first()) {
			return unrecoverable(op, wanted.first())
		}
	}
	return nil
}

func (c Code) isUnrecoverable(lost set, fragment int) bool {
	status := C.lrc_is_open(C.size_t(c), C.uint16_t(lost), C.uint8_t(fragment))
	return status == C.LRC_UNRECOVERABLE
}

// Encode writes the four parities of a stripe, which come after its data, from the data.
func (c Code) Encode(stripe [][]byte) error {
	const op = "Encode"
	var f fragments
	if err := f.read(op, "fragments", c, stripe); err != nil {
		return err
	}
	if err := f.checkEqual(op, c.all()); err != nil {
		return err
	}
	if err := f.checkTargets(op, &f, c.parities(), c.data()); err != nil {
		return err
	}
	return failure(op, C.coder_encode(C.size_t(c), f.addresses(), C.size_t(len(f[0]))))
}

// EncodeAdd adds a data fragment to the four parities. Called once for each data fragment, in any
// order, on zeroed parities, it gives what Encode does.
func (c Code) EncodeAdd(fragment int, source []byte, parities [][]byte) error {
	const op = "EncodeAdd"
	if err := c.check(op); err != nil {
		return err
	}
	if fragment < 0 || fragment >= int(c) {
		return refused(op, "fragment %d is not in 0 to %d", fragment, c-1)
	}
	if len(parities) != parityCount {
		return refused(op, "%d parities, expected %d", len(parities), parityCount)
	}
	var f fragments
	copy(f[c:], parities)
	f[fragment] = source
	if err := f.checkEqual(op, c.parities()|1<<fragment); err != nil {
		return err
	}
	if err := f.checkTargets(op, &f, c.parities(), 1<<fragment); err != nil {
		return err
	}
	return c.encodeAdd(op, fragment, source, &f)
}

// Update changes the four parities of a stripe, as if data fragments had the bytes that changed has
// at their numbers, and nil for those that do not change. The stripe has the bytes before, which
// Update leaves as they are. Other data fragments may be nil.
func (c Code) Update(stripe, changed [][]byte) error {
	const op = "Update"
	var f, after fragments
	if err := f.read(op, "fragments", c, stripe); err != nil {
		return err
	}
	if len(changed) != int(c) {
		return refused(op, "%d changed fragments, expected %d", len(changed), c)
	}
	copy(after[:], changed)
	read := after.given()
	if missing := (read | c.parities()) &^ f.given(); missing != 0 {
		return refused(op, "fragment %d is nil, expected its bytes", missing.first())
	}
	if err := c.checkUpdate(op, &f, &after, read); err != nil {
		return err
	}
	for ; read != 0; read = read.rest() {
		for _, source := range [...][]byte{f[read.first()], after[read.first()]} {
			if err := c.encodeAdd(op, read.first(), source, &f); err != nil {
				return err
			}
		}
	}
	return nil
}

// checkUpdate returns an error unless parities and sources have one length and are apart.
func (c Code) checkUpdate(op string, f, after *fragments, read set) error {
	if err := f.checkEqual(op, c.parities()|read); err != nil {
		return err
	}
	for rest := read; rest != 0; rest = rest.rest() {
		if i := rest.first(); len(after[i]) != len(f[i]) {
			return refused(op, "fragment %d has %s, and is to have %d", i, shown(len(f[i])),
				len(after[i]))
		}
	}
	if err := f.checkTargets(op, f, c.parities(), read); err != nil {
		return err
	}
	return after.checkTargets(op, f, c.parities(), read)
}

func (c Code) encodeAdd(op string, fragment int, source []byte, f *fragments) error {
	status := C.coder_encode_add(C.size_t(c), C.uint8_t(fragment), address(source),
		f.targets(c.parities()), C.size_t(len(source)))
	return failure(op, status)
}

// Add adds a source times a coefficient to a target, byte by byte, in the field. With a recipe it
// rebuilds a fragment as others arrive: call it on a zeroed target, once for each term.
func Add(target []byte, coefficient byte, source []byte) error {
	if len(target) != len(source) {
		return refused("Add", "the source has %s, the target has %d", shown(len(source)),
			len(target))
	}
	if overlap(target, source) {
		return refused("Add", "the target overlaps the source")
	}
	n := C.size_t(len(target))
	return failure("Add", C.lrc_add(address(target), n, C.uint8_t(coefficient), address(source), n))
}

// IsUnrecoverable reports whether the other fragments do not determine a fragment, if these are
// lost.
func (c Code) IsUnrecoverable(lost []int, fragment int) (bool, error) {
	const op = "IsUnrecoverable"
	found, err := c.set(op, lost)
	if err != nil {
		return false, err
	}
	if err := c.checkFragment(op, fragment); err != nil {
		return false, err
	}
	return c.isUnrecoverable(found, fragment), nil
}

// IsRecoverable reports whether all of these fragments can be rebuilt, if they are lost.
func (c Code) IsRecoverable(lost []int) (bool, error) {
	const op = "IsRecoverable"
	found, err := c.set(op, lost)
	if err != nil {
		return false, err
	}
	return c.firstUnrecoverable(op, found, found) == nil, nil
}

// Recipe returns a recipe for a lost fragment: it is the sum of other fragments, each times its
// coefficient. If it is the only loss of its group, these are the six (or three) others.
func (c Code) Recipe(lost []int, fragment int) ([]Term, error) {
	const op = "Recipe"
	found, err := c.set(op, lost)
	if err != nil {
		return nil, err
	}
	if err := c.checkLost(op, found, fragment); err != nil {
		return nil, err
	}
	recipe := C.coder_recipe_for(C.size_t(c), C.uint16_t(found), C.uint8_t(fragment))
	if recipe.status == C.LRC_UNRECOVERABLE {
		return nil, unrecoverable(op, fragment)
	}
	terms := make([]Term, recipe.count)
	for i := range terms {
		terms[i] = Term{int(recipe.fragments[i]), byte(recipe.coefficients[i])}
	}
	return terms, failure(op, recipe.status)
}

// checkLost returns an error unless the fragment is the code's and lost.
func (c Code) checkLost(op string, lost set, fragment int) error {
	if err := c.checkFragment(op, fragment); err != nil {
		return err
	}
	if !lost.has(fragment) {
		return refused(op, "fragment %d is not lost", fragment)
	}
	return nil
}
