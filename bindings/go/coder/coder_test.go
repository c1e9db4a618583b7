package coder_test

import (
	"bytes"
	"errors"
	"fmt"
	"testing"

	"lrcstore/coder"
)

var codes = []coder.Code{coder.LRC12, coder.LRC6}

// widths are around the blocks in which the library works.
var widths = []int{0, 1, 2, 15, 16, 17, 31, 33, 63, 64, 65, 127, 129, 4095, 4096, 4097, 9000}

// filled returns a stripe whose fragments are all different, with its parities.
func filled(t testing.TB, c coder.Code, width int) [][]byte {
	t.Helper()
	stripe := make([][]byte, c.Fragments())
	for i := range stripe {
		stripe[i] = make([]byte, width)
		for k := range stripe[i] {
			stripe[i][k] = byte(53*i + 7*k + k>>8 + 1)
		}
	}
	must(t, c.Encode(stripe))
	return stripe
}

// copied returns a stripe with other buffers. A fragment that is nil stays nil.
func copied(stripe [][]byte) [][]byte {
	made := make([][]byte, len(stripe))
	for i, each := range stripe {
		if each != nil {
			made[i] = append([]byte{}, each...)
		}
	}
	return made
}

// without returns a stripe whose lost fragments are nil.
func without(stripe [][]byte, lost []int) [][]byte {
	left := append([][]byte(nil), stripe...)
	for _, i := range lost {
		left[i] = nil
	}
	return left
}

// scratched returns a copy whose lost fragments have other bytes.
func scratched(stripe [][]byte, lost []int) [][]byte {
	made := copied(stripe)
	for _, i := range lost {
		for k := range made[i] {
			made[i][k] ^= 0xEE
		}
	}
	return made
}

func must(t testing.TB, err error) {
	t.Helper()
	if err != nil {
		t.Fatal(err)
	}
}

func same(a, b [][]byte) bool {
	for i := range a {
		if !bytes.Equal(a[i], b[i]) {
			return false
		}
	}
	return len(a) == len(b)
}

func expect(t *testing.T, what string, got, want [][]byte) {
	t.Helper()
	if !same(got, want) {
		t.Fatalf("%s: other bytes", what)
	}
}

func TestEncode(t *testing.T) {
	for _, c := range codes {
		for _, width := range widths {
			stripe := filled(t, c, width)
			data := copied(stripe)
			for i := 0; i < 4; i++ {
				data[int(c)+i] = parityOf(c, data[:c], i)
			}
			must(t, c.Encode(stripe))
			expect(t, fmt.Sprint(c, width), stripe, data)
		}
	}
	if coder.LRC12.Fragments() != 16 || coder.LRC6.Fragments() != 10 {
		t.Error("another number of fragments")
	}
}

// A stripe may lie anywhere in one block of memory, and nothing around it is written.
func TestNeighbours(t *testing.T) {
	for _, c := range codes {
		block := bytes.Repeat([]byte{0xEE}, 40*100)
		whole, stripe := filled(t, c, 33), make([][]byte, c.Fragments())
		for i := range stripe {
			stripe[i] = block[100*i+1 : 100*i+34]
			copy(stripe[i], whole[i])
		}
		wanted := append([]byte(nil), block...)
		must(t, c.Encode(stripe))
		must(t, c.Decode(stripe, []int{0, int(c) + 3}))
		must(t, c.Rebuild(stripe, 1, stripe[1]))
		if !bytes.Equal(block, wanted) {
			t.Error("bytes beside the fragments are written")
		}
	}
}

func TestEncodeAdd(t *testing.T) {
	for _, c := range codes {
		for _, width := range widths {
			stripe := filled(t, c, width)
			parities := make([][]byte, 4)
			for i := range parities {
				parities[i] = make([]byte, width)
			}
			for i := int(c) - 1; i >= 0; i-- {
				must(t, c.EncodeAdd(i, stripe[i], parities))
			}
			expect(t, fmt.Sprint(c, width), parities, stripe[c:])
		}
	}
}

func TestUpdate(t *testing.T) {
	for _, c := range codes {
		for _, changed := range [][]int{{}, {0}, {int(c) - 1}, {2, 4}, {0, 1, 2, 3, 4, 5}} {
			stripe := filled(t, c, 65)
			wanted, before := copied(stripe), copied(stripe)
			after, given := make([][]byte, c), make([][]byte, c.Fragments())
			copy(given[c:], stripe[c:])
			for _, i := range changed {
				after[i] = bytes.Repeat([]byte{byte(i + 3)}, 65)
				wanted[i], given[i] = after[i], stripe[i]
			}
			must(t, c.Update(given, after))
			must(t, c.Encode(wanted))
			expect(t, "parities", stripe[c:], wanted[c:])
			expect(t, "data", stripe[:c], before[:c])
		}
	}
}

// sets calls a function with each set of so many of the code's fragments.
func sets(c coder.Code, size int, each func(lost []int)) {
	lost := make([]int, 0, size)
	var from func(next int)
	from = func(next int) {
		if len(lost) == size {
			each(append([]int(nil), lost...))
			return
		}
		for i := next; i < c.Fragments(); i++ {
			lost = append(lost, i)
			from(i + 1)
			lost = lost[:len(lost)-1]
		}
	}
	from(0)
}

func TestEachLostSet(t *testing.T) {
	wanted := map[coder.Code][]int{
		coder.LRC12: {1, 16, 120, 560, 1568, 0},
		coder.LRC6:  {1, 10, 45, 120, 180, 0},
	}
	for _, c := range codes {
		stripe := filled(t, c, 5)
		for size, want := range wanted[c] {
			whole := 0
			sets(c, size, func(lost []int) {
				if isWhole(t, c, stripe, lost) {
					whole++
				}
			})
			if whole != want {
				t.Errorf("%d of the sets of %d fragments of code %d, want %d", whole, size, c, want)
			}
		}
	}
}

// isWhole reports whether all lost fragments are rebuilt, by each call.
func isWhole(t *testing.T, c coder.Code, stripe [][]byte, lost []int) bool {
	t.Helper()
	first, found := -1, determined(c, lost)
	for i := len(lost) - 1; i >= 0; i-- {
		rebuild(t, c, stripe, lost, lost[i], found[lost[i]])
		if !found[lost[i]] {
			first = lost[i]
		}
	}
	whole, err := c.IsRecoverable(lost)
	if err != nil || whole != (first < 0) {
		t.Fatalf("IsRecoverable %v: %v, %v", lost, whole, err)
	}
	decode(t, c, stripe, lost, first)
	plan(t, c, stripe, lost, first)
	return whole
}

// outcome checks the error of a call of which this fragment is unrecoverable, or none if it is -1,
// and returns whether the call was done.
func outcome(t *testing.T, op string, err error, fragment int) bool {
	t.Helper()
	if fragment < 0 {
		must(t, err)
		return true
	}
	text := fmt.Sprintf("coder: %s: fragment %d: the fragment is unrecoverable", op, fragment)
	var refused *coder.Error
	if !errors.Is(err, coder.ErrUnrecoverable) || err.Error() != text ||
		!errors.As(err, &refused) || refused.Op != op || refused.Fragment != fragment {
		t.Fatalf("%v, want %s", err, text)
	}
	return false
}

// rebuild makes a fragment by Rebuild, RebuildAt and its recipe.
func rebuild(t *testing.T, c coder.Code, stripe [][]byte, lost []int, fragment int, has bool) {
	t.Helper()
	unrecoverable := fragment
	if has {
		unrecoverable = -1
	}
	if found, err := c.IsUnrecoverable(lost, fragment); err != nil || found == has {
		t.Fatalf("IsUnrecoverable %v, %d: %v, %v", lost, fragment, found, err)
	}
	left, untouched := without(stripe, lost), bytes.Repeat([]byte{0xEE}, 5)
	target, part := append([]byte{}, untouched...), []byte{0xEE, 0xEE, 0xEE}
	sum := make([]byte, 5)
	isDone := outcome(t, "Rebuild", c.Rebuild(left, fragment, target), unrecoverable)
	outcome(t, "RebuildAt", c.RebuildAt(left, fragment, part, 1), unrecoverable)
	terms, err := c.Recipe(lost, fragment)
	outcome(t, "Recipe", err, unrecoverable)
	if !isDone {
		if !bytes.Equal(target, untouched) || !bytes.Equal(part, untouched[:3]) || terms != nil {
			t.Fatal("a refused call has written")
		}
		return
	}
	for _, term := range terms {
		must(t, coder.Add(sum, term.Coefficient, left[term.Fragment]))
	}
	want := stripe[fragment]
	if !bytes.Equal(target, want) || !bytes.Equal(sum, want) || !bytes.Equal(part, want[1:4]) {
		t.Fatalf("fragment %d of %v: other bytes", fragment, lost)
	}
}

// decode makes all lost fragments by Decode and DecodeAt.
func decode(t *testing.T, c coder.Code, stripe [][]byte, lost []int, unrecoverable int) {
	t.Helper()
	broken := scratched(stripe, lost)
	before := copied(broken)
	if outcome(t, "Decode", c.Decode(broken, lost), unrecoverable) {
		before = stripe
	}
	expect(t, fmt.Sprint("Decode ", lost), broken, before)
	targets := make([][]byte, c.Fragments())
	want := make([][]byte, c.Fragments())
	for _, i := range lost {
		targets[i], want[i] = []byte{1, 2}, []byte{1, 2}
	}
	err := c.DecodeAt(without(stripe, lost), targets, 3)
	if outcome(t, "DecodeAt", err, unrecoverable) {
		for _, i := range lost {
			want[i] = stripe[i][3:]
		}
	}
	expect(t, fmt.Sprint("DecodeAt ", lost), targets, want)
}

// plan makes all lost fragments by a plan, from those that it reads alone.
func plan(t *testing.T, c coder.Code, stripe [][]byte, lost []int, unrecoverable int) {
	t.Helper()
	made, err := coder.NewPlan(c, lost, lost)
	if !outcome(t, "NewPlan", err, unrecoverable) {
		return
	}
	if fmt.Sprint(made.Fragments()) != fmt.Sprint(lost) {
		t.Fatalf("a plan for %v, want %v", made.Fragments(), lost)
	}
	broken, targets := make([][]byte, c.Fragments()), make([][]byte, c.Fragments())
	want, parts := make([][]byte, c.Fragments()), make([][]byte, c.Fragments())
	for _, i := range made.Reads() {
		broken[i], want[i] = stripe[i], stripe[i]
	}
	for _, i := range lost {
		targets[i], parts[i] = make([]byte, 2), stripe[i][2:4]
	}
	must(t, made.DecodeAt(broken, targets, 2))
	expect(t, fmt.Sprint("plan at ", lost), targets, parts)
	for _, i := range lost {
		broken[i], want[i] = make([]byte, 5), stripe[i]
	}
	must(t, made.Decode(broken))
	expect(t, fmt.Sprint("plan ", lost), broken, want)
}

// For one loss the others of its group are read, or at most as many as there are data fragments.
func TestReads(t *testing.T) {
	for _, each := range []struct {
		c            coder.Code
		lost, wanted []int
		reads        string
	}{
		{coder.LRC12, []int{0}, []int{0}, "[1 2 3 4 5 12]"},
		{coder.LRC12, []int{7, 13}, []int{7}, "[0 1 2 3 4 5 6 8 9 10 11 14]"},
		{coder.LRC12, []int{0, 7}, []int{0, 7}, "[1 2 3 4 5 6 8 9 10 11 12 13]"},
		{coder.LRC6, []int{8, 4}, []int{4}, "[3 5 7]"},
		{coder.LRC6, []int{1}, nil, "[]"},
	} {
		plan, err := coder.NewPlan(each.c, each.lost, each.wanted)
		must(t, err)
		if reads := fmt.Sprint(plan.Reads()); reads != each.reads {
			t.Errorf("%v of %v: %s, want %s", each.wanted, each.lost, reads, each.reads)
		}
	}
	terms, err := coder.LRC6.Recipe([]int{4}, 4)
	if err != nil || fmt.Sprint(terms) != "[{3 1} {5 1} {7 1}]" {
		t.Errorf("recipe %v, %v", terms, err)
	}
}

// A plan is a value: those of the same arguments are equal, and a wanted one may be given twice.
func TestPlanIsAValue(t *testing.T) {
	one, err := coder.NewPlan(coder.LRC12, []int{3, 0}, []int{0, 3, 0})
	must(t, err)
	other, err := coder.NewPlan(coder.LRC12, []int{0, 3, 3}, []int{3, 0})
	must(t, err)
	if one != other || one == (coder.Plan{}) {
		t.Error("plans of the same arguments differ")
	}
}

// A fragment that has a target counts as lost, whatever the stripe has in its place.
func TestTargetsAreLost(t *testing.T) {
	for _, c := range codes {
		stripe, targets := filled(t, c, 5), make([][]byte, c.Fragments())
		given := scratched(stripe, []int{0, int(c)})
		targets[0], targets[c] = make([]byte, 5), make([]byte, 5)
		must(t, c.DecodeAt(given, targets, 0))
		if !bytes.Equal(targets[0], stripe[0]) || !bytes.Equal(targets[c], stripe[c]) {
			t.Errorf("code %d: other bytes", c)
		}
	}
}

// The lost fragments that are not wanted stay as they are, and a range is made for each width.
func TestRanges(t *testing.T) {
	for _, c := range codes {
		for _, width := range widths {
			stripe := filled(t, c, width)
			left := without(stripe, []int{1, 4})
			for _, off := range []int{0, width / 3, width} {
				target, n := make([]byte, width-off), width-off
				must(t, c.RebuildAt(left, 4, target, off))
				targets := make([][]byte, c.Fragments())
				targets[1] = make([]byte, n/2)
				must(t, c.DecodeAt(left, targets, off))
				if !bytes.Equal(target, stripe[4][off:]) ||
					!bytes.Equal(targets[1], stripe[1][off:off+n/2]) {
					t.Fatalf("code %d, from %d of %d bytes: other bytes", c, off, width)
				}
			}
			left[4] = make([]byte, width)
			must(t, c.Decode(left, []int{4}))
			if !bytes.Equal(left[4], stripe[4]) || left[1] != nil {
				t.Fatalf("code %d, %d bytes: other bytes", c, width)
			}
		}
	}
}
