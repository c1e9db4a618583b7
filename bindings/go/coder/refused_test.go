package coder_test

import (
	"errors"
	"fmt"
	"math"
	"testing"

	"lrcstore/coder"
)

// bench is the buffers of a call that is refused: a stripe of LRC(12,2,2), whose fragments have 5
// bytes, and other buffers of 5 bytes. All lie in one block, with bytes around them.
type bench struct {
	block         []byte
	stripe, other [][]byte
}

func newBench(t *testing.T) *bench {
	b := &bench{block: make([]byte, 32*16)}
	for i := range b.block {
		b.block[i] = byte(i*7 + i>>8)
	}
	for i := 0; i < 32; i++ {
		buffer := b.block[16*i+3 : 16*i+8 : 16*i+12]
		if i < 16 {
			b.stripe = append(b.stripe, buffer)
		} else {
			b.other = append(b.other, buffer)
		}
	}
	must(t, coder.LRC12.Encode(b.stripe))
	return b
}

// with returns the stripe with another slice at a number.
func (b *bench) with(number int, slice []byte) [][]byte {
	stripe := append([][]byte(nil), b.stripe...)
	stripe[number] = slice
	return stripe
}

// targets returns as many targets as the code has fragments, of which these are buffers.
func (b *bench) targets(c coder.Code, numbers ...int) [][]byte {
	targets := make([][]byte, c.Fragments())
	for _, i := range numbers {
		targets[i] = b.other[i]
	}
	return targets
}

func second(_ interface{}, err error) error { return err }

func planOf(c coder.Code, lost, wanted []int) coder.Plan {
	plan, err := coder.NewPlan(c, lost, wanted)
	if err != nil {
		panic(err)
	}
	return plan
}

const wide, small, bad = coder.LRC12, coder.LRC6, coder.Code(7)

// refusals are calls, and what their errors say after "coder: ".
var refusals = []struct {
	text string
	call func(b *bench) error
}{
	// no such code
	{"Encode: code 7, expected 12 or 6", func(b *bench) error { return bad.Encode(b.stripe) }},
	{"Encode: code 0, expected 12 or 6", func(b *bench) error { return coder.Code(0).Encode(nil) }},
	{"Encode: code -4, expected 12 or 6", func(b *bench) error { return coder.Code(-4).Encode(nil) }},
	{"EncodeAdd: code 7, expected 12 or 6", func(b *bench) error {
		return bad.EncodeAdd(0, b.stripe[0], b.stripe[12:])
	}},
	{"Update: code 7, expected 12 or 6", func(b *bench) error { return bad.Update(b.stripe, nil) }},
	{"Rebuild: code 7, expected 12 or 6", func(b *bench) error {
		return bad.Rebuild(b.stripe, 0, b.stripe[0])
	}},
	{"RebuildAt: code 7, expected 12 or 6", func(b *bench) error {
		return bad.RebuildAt(b.stripe, 0, b.stripe[0], 0)
	}},
	{"Decode: code 7, expected 12 or 6", func(b *bench) error { return bad.Decode(b.stripe, nil) }},
	{"DecodeAt: code 7, expected 12 or 6", func(b *bench) error {
		return bad.DecodeAt(b.stripe, b.stripe, 0)
	}},
	{"NewPlan: code 7, expected 12 or 6", func(b *bench) error {
		return second(coder.NewPlan(bad, nil, nil))
	}},
	{"Recipe: code 7, expected 12 or 6", func(b *bench) error {
		return second(bad.Recipe([]int{0}, 0))
	}},
	{"IsUnrecoverable: code 7, expected 12 or 6", func(b *bench) error {
		return second(bad.IsUnrecoverable(nil, 0))
	}},
	{"IsRecoverable: code 7, expected 12 or 6", func(b *bench) error {
		return second(bad.IsRecoverable(nil))
	}},
	{"NewStripe: code 7, expected 12 or 6", func(b *bench) error { return second(bad.NewStripe(1)) }},
	{"Split: code 7, expected 12 or 6", func(b *bench) error { return second(bad.Split(nil, 1)) }},
	{"Join: code 7, expected 12 or 6", func(b *bench) error { return second(bad.Join(nil, 0)) }},
	{"Verify: code 7, expected 12 or 6", func(b *bench) error { return bad.Verify(b.stripe) }},

	// other numbers of slices
	{"Encode: 0 fragments, expected 16", func(b *bench) error { return wide.Encode(nil) }},
	{"Encode: 15 fragments, expected 16", func(b *bench) error { return wide.Encode(b.stripe[:15]) }},
	{"Encode: 16 fragments, expected 10", func(b *bench) error { return small.Encode(b.stripe) }},
	{"Encode: 17 fragments, expected 16", func(b *bench) error {
		return wide.Encode(append(b.stripe, b.other[0]))
	}},
	{"EncodeAdd: 3 parities, expected 4", func(b *bench) error {
		return wide.EncodeAdd(0, b.stripe[0], b.stripe[13:])
	}},
	{"EncodeAdd: 5 parities, expected 4", func(b *bench) error {
		return wide.EncodeAdd(0, b.stripe[0], b.stripe[11:])
	}},
	{"Update: 10 fragments, expected 16", func(b *bench) error {
		return wide.Update(b.stripe[:10], b.other[:12])
	}},
	{"Update: 16 changed fragments, expected 12", func(b *bench) error {
		return wide.Update(b.stripe, b.other)
	}},
	{"Rebuild: 1 fragments, expected 10", func(b *bench) error {
		return small.Rebuild(b.stripe[:1], 0, b.other[0])
	}},
	{"RebuildAt: 1 fragments, expected 16", func(b *bench) error {
		return wide.RebuildAt(b.stripe[:1], 0, b.other[0], 0)
	}},
	{"Decode: 1 fragments, expected 16", func(b *bench) error {
		return wide.Decode(b.stripe[:1], nil)
	}},
	{"DecodeAt: 1 fragments, expected 16", func(b *bench) error {
		return wide.DecodeAt(b.stripe[:1], b.other, 0)
	}},
	{"DecodeAt: 2 targets, expected 16", func(b *bench) error {
		return wide.DecodeAt(b.stripe, b.other[:2], 0)
	}},
	{"Plan.Decode: 2 fragments, expected 16", func(b *bench) error {
		return planOf(wide, []int{0}, []int{0}).Decode(b.stripe[:2])
	}},
	{"Plan.DecodeAt: 2 fragments, expected 16", func(b *bench) error {
		return planOf(wide, []int{0}, []int{0}).DecodeAt(b.stripe[:2], b.targets(wide, 0), 0)
	}},
	{"Plan.DecodeAt: 2 targets, expected 16", func(b *bench) error {
		return planOf(wide, []int{0}, []int{0}).DecodeAt(b.stripe, b.other[:2], 0)
	}},
	{"Verify: 10 fragments, expected 16", func(b *bench) error { return wide.Verify(b.stripe[:10]) }},

	// other lengths
	{"Encode: fragment 11 has 1 byte, fragment 0 has 5", func(b *bench) error {
		return wide.Encode(b.with(11, b.stripe[11][:1]))
	}},
	{"Encode: fragment 15 has 0 bytes, fragment 0 has 5", func(b *bench) error {
		return wide.Encode(b.with(15, nil))
	}},
	{"Encode: fragment 1 has 5 bytes, fragment 0 has 0", func(b *bench) error {
		return wide.Encode(b.with(0, nil))
	}},
	{"Encode: fragment 14 has 6 bytes, fragment 0 has 5", func(b *bench) error {
		return wide.Encode(b.with(14, b.stripe[14][:6]))
	}},
	{"EncodeAdd: fragment 14 has 6 bytes, fragment 2 has 5", func(b *bench) error {
		return wide.EncodeAdd(2, b.stripe[2], b.with(14, b.stripe[14][:6])[12:])
	}},
	{"EncodeAdd: fragment 6 has 5 bytes, fragment 5 has 0", func(b *bench) error {
		return small.EncodeAdd(5, nil, b.stripe[12:])
	}},
	{"Update: fragment 15 has 6 bytes, fragment 3 has 5", func(b *bench) error {
		return wide.Update(b.with(15, b.stripe[15][:6]), b.targets(wide, 3)[:12])
	}},
	{"Update: fragment 3 has 5 bytes, and is to have 4", func(b *bench) error {
		changed := b.targets(wide, 1, 3)[:12]
		changed[3] = changed[3][:4]
		return wide.Update(b.stripe, changed)
	}},
	{"Rebuild: fragment 1 has 5 bytes, the target has 4", func(b *bench) error {
		return wide.Rebuild(b.with(0, nil), 0, b.other[0][:4])
	}},
	{"Rebuild: fragment 9 has 4 bytes, the target has 5", func(b *bench) error {
		return wide.Rebuild(b.with(9, b.stripe[9][:4]), 0, b.other[0])
	}},
	{"Rebuild: fragment 0 has 5 bytes, the target has 0", func(b *bench) error {
		return wide.Rebuild(b.stripe, 5, nil)
	}},
	{"RebuildAt: fragment 9 has 4 bytes, the range is 2 bytes from 3 on", func(b *bench) error {
		return wide.RebuildAt(b.with(9, b.stripe[9][:4]), 0, b.other[0][:2], 3)
	}},
	{"RebuildAt: fragment 0 has 5 bytes, the range is 6 bytes from 0 on", func(b *bench) error {
		return wide.RebuildAt(b.stripe, 1, b.other[0][:6], 0)
	}},
	{"RebuildAt: fragment 1 has 5 bytes, the range is 1 byte from 9223372036854775807 on",
		func(b *bench) error {
			return wide.RebuildAt(b.stripe, 0, b.other[0][:1], math.MaxInt64)
		}},
	{"RebuildAt: fragment 1 has 5 bytes, the range is 0 bytes from 6 on", func(b *bench) error {
		return wide.RebuildAt(b.stripe, 0, nil, 6)
	}},
	{"RebuildAt: offset -1, expected at least 0", func(b *bench) error {
		return wide.RebuildAt(b.stripe, 0, b.other[0], -1)
	}},
	{"Decode: fragment 9 has 4 bytes, fragment 0 has 5", func(b *bench) error {
		return wide.Decode(b.with(9, b.stripe[9][:4]), []int{0})
	}},
	{"Decode: fragment 1 has 5 bytes, fragment 0 has 4", func(b *bench) error {
		return wide.Decode(b.with(0, b.stripe[0][:4]), []int{0})
	}},
	{"DecodeAt: offset -3, expected at least 0", func(b *bench) error {
		return wide.DecodeAt(b.stripe, b.targets(wide, 0), -3)
	}},
	{"DecodeAt: fragment 0 has 5 bytes, the range is 5 bytes from 1 on", func(b *bench) error {
		return wide.DecodeAt(b.stripe, b.targets(wide, 3), 1)
	}},
	{"DecodeAt: the target of fragment 8 has 4 bytes, that of fragment 3 has 5",
		func(b *bench) error {
			targets := b.targets(wide, 3, 8)
			targets[8] = targets[8][:4]
			return wide.DecodeAt(b.stripe, targets, 0)
		}},
	{"Plan.Decode: fragment 4 has 4 bytes, fragment 0 has 5", func(b *bench) error {
		return planOf(wide, []int{0}, []int{0}).Decode(b.with(4, b.stripe[4][:4]))
	}},
	{"Plan.Decode: fragment 1 has 5 bytes, fragment 0 has 4", func(b *bench) error {
		return planOf(wide, []int{0}, []int{0}).Decode(b.with(0, b.stripe[0][:4]))
	}},
	{"Plan.DecodeAt: fragment 1 has 5 bytes, the range is 5 bytes from 1 on", func(b *bench) error {
		return planOf(wide, []int{0}, []int{0}).DecodeAt(b.stripe, b.targets(wide, 0), 1)
	}},
	{"Plan.DecodeAt: offset -1, expected at least 0", func(b *bench) error {
		return planOf(wide, []int{0}, []int{0}).DecodeAt(b.stripe, b.targets(wide, 0), -1)
	}},
	{"Plan.DecodeAt: the target of fragment 6 has 6 bytes, that of fragment 0 has 5",
		func(b *bench) error {
			targets := b.targets(wide, 0, 6)
			targets[6] = targets[6][:6]
			return planOf(wide, []int{0, 6}, []int{0, 6}).DecodeAt(b.stripe, targets, 0)
		}},
	{"Verify: fragment 12 has 4 bytes, fragment 0 has 5", func(b *bench) error {
		return wide.Verify(b.with(12, b.stripe[12][:4]))
	}},
	{"Add: the source has 1 byte, the target has 5", func(b *bench) error {
		return coder.Add(b.other[0], 1, b.other[1][:1])
	}},
	{"Add: the source has 5 bytes, the target has 0", func(b *bench) error {
		return coder.Add(nil, 1, b.other[1])
	}},

	// other numbers of fragments
	{"EncodeAdd: fragment -1 is not in 0 to 11", func(b *bench) error {
		return wide.EncodeAdd(-1, b.stripe[0], b.stripe[12:])
	}},
	{"EncodeAdd: fragment 12 is not in 0 to 11", func(b *bench) error {
		return wide.EncodeAdd(12, b.stripe[0], b.stripe[12:])
	}},
	{"EncodeAdd: fragment 6 is not in 0 to 5", func(b *bench) error {
		return small.EncodeAdd(6, b.stripe[0], b.stripe[12:])
	}},
	{"Rebuild: fragment 16 is not in 0 to 15", func(b *bench) error {
		return wide.Rebuild(b.stripe, 16, b.other[0])
	}},
	{"RebuildAt: fragment -1 is not in 0 to 9", func(b *bench) error {
		return small.RebuildAt(b.stripe[:10], -1, b.other[0], 0)
	}},
	{"Decode: fragment 10 is not in 0 to 9", func(b *bench) error {
		return small.Decode(b.stripe[:10], []int{0, 10})
	}},
	{"Decode: fragment -1 is not in 0 to 15", func(b *bench) error {
		return wide.Decode(b.stripe, []int{-1})
	}},
	{"NewPlan: fragment 16 is not in 0 to 15", func(b *bench) error {
		return second(coder.NewPlan(wide, []int{16}, nil))
	}},
	{"NewPlan: fragment 256 is not in 0 to 15", func(b *bench) error {
		return second(coder.NewPlan(wide, []int{0}, []int{256}))
	}},
	{"NewPlan: fragment 1 is not lost", func(b *bench) error {
		return second(coder.NewPlan(wide, []int{0}, []int{0, 1}))
	}},
	{"Recipe: fragment 1 is not lost", func(b *bench) error {
		return second(wide.Recipe([]int{0}, 1))
	}},
	{"Recipe: fragment 10 is not in 0 to 9", func(b *bench) error {
		return second(small.Recipe([]int{0}, 10))
	}},
	{"Recipe: fragment 10 is not in 0 to 9", func(b *bench) error {
		return second(small.Recipe([]int{10}, 0))
	}},
	{"IsUnrecoverable: fragment 16 is not in 0 to 15", func(b *bench) error {
		return second(wide.IsUnrecoverable([]int{0}, 16))
	}},
	{"IsUnrecoverable: fragment -2 is not in 0 to 15", func(b *bench) error {
		return second(wide.IsUnrecoverable([]int{-2}, 0))
	}},
	{"IsRecoverable: fragment 12 is not in 0 to 9", func(b *bench) error {
		return second(small.IsRecoverable([]int{12}))
	}},

	// buffers that are missing
	{"Update: fragment 3 is nil, expected its bytes", func(b *bench) error {
		return wide.Update(b.with(3, nil), b.targets(wide, 3)[:12])
	}},
	{"Update: fragment 13 is nil, expected its bytes", func(b *bench) error {
		return wide.Update(b.with(13, nil), b.targets(wide, 3)[:12])
	}},
	{"Decode: fragment 3 is nil, expected a buffer for its bytes", func(b *bench) error {
		return wide.Decode(b.with(3, nil), []int{4, 3})
	}},
	{"Plan.Decode: fragment 0 is nil, expected a buffer for its bytes", func(b *bench) error {
		return planOf(wide, []int{0}, []int{0}).Decode(b.with(0, nil))
	}},
	{"Plan.Decode: fragment 12 is nil, and the plan reads it", func(b *bench) error {
		return planOf(wide, []int{0}, []int{0}).Decode(b.with(12, nil))
	}},
	{"Plan.DecodeAt: fragment 1 is nil, and the plan reads it", func(b *bench) error {
		return planOf(wide, []int{0}, []int{0}).DecodeAt(b.with(1, nil), b.targets(wide, 0), 0)
	}},
	{"Plan.DecodeAt: targets for [], and the plan is for [0]", func(b *bench) error {
		return planOf(wide, []int{0}, []int{0}).DecodeAt(b.stripe, make([][]byte, 16), 0)
	}},
	{"Plan.DecodeAt: targets for [0 1], and the plan is for [0]", func(b *bench) error {
		return planOf(wide, []int{0}, []int{0}).DecodeAt(b.stripe, b.targets(wide, 0, 1), 0)
	}},
	{"Plan.Decode: the plan is not made by NewPlan", func(b *bench) error {
		return coder.Plan{}.Decode(b.stripe)
	}},
	{"Plan.DecodeAt: the plan is not made by NewPlan", func(b *bench) error {
		return coder.Plan{}.DecodeAt(b.stripe, b.targets(wide, 0), 0)
	}},

	// buffers that overlap
	{"Encode: the target of fragment 12 overlaps fragment 3", func(b *bench) error {
		return wide.Encode(b.with(12, b.stripe[3]))
	}},
	{"Encode: the target of fragment 15 overlaps fragment 11", func(b *bench) error {
		return wide.Encode(b.with(15, b.block[16*11+7:16*11+12]))
	}},
	{"Encode: the target of fragment 15 overlaps fragment 11", func(b *bench) error {
		return wide.Encode(b.with(15, b.block[16*11-1:16*11+4]))
	}},
	{"Encode: the targets of fragments 12 and 14 overlap", func(b *bench) error {
		return wide.Encode(b.with(14, b.stripe[12]))
	}},
	{"EncodeAdd: the target of fragment 13 overlaps fragment 1", func(b *bench) error {
		return wide.EncodeAdd(1, b.stripe[13], b.stripe[12:])
	}},
	{"EncodeAdd: the targets of fragments 8 and 9 overlap", func(b *bench) error {
		return small.EncodeAdd(1, b.stripe[1], b.with(15, b.stripe[14])[12:])
	}},
	{"Update: the target of fragment 13 overlaps fragment 2", func(b *bench) error {
		return wide.Update(b.with(2, b.stripe[13]), b.targets(wide, 1, 2)[:12])
	}},
	{"Update: the target of fragment 15 overlaps fragment 2", func(b *bench) error {
		changed := b.targets(wide, 1, 2)[:12]
		changed[2] = b.stripe[15]
		return wide.Update(b.stripe, changed)
	}},
	{"Rebuild: the target of fragment 0 overlaps fragment 7", func(b *bench) error {
		return wide.Rebuild(b.stripe, 0, b.stripe[7])
	}},
	{"RebuildAt: the target of fragment 0 overlaps fragment 7", func(b *bench) error {
		return wide.RebuildAt(b.stripe, 0, b.stripe[7][4:5], 2)
	}},
	{"Decode: the target of fragment 3 overlaps fragment 7", func(b *bench) error {
		return wide.Decode(b.with(3, b.stripe[7]), []int{3})
	}},
	{"Decode: the targets of fragments 3 and 7 overlap", func(b *bench) error {
		return wide.Decode(b.with(3, b.stripe[7]), []int{3, 7})
	}},
	{"DecodeAt: the target of fragment 3 overlaps fragment 7", func(b *bench) error {
		targets := b.targets(wide, 2, 3)
		targets[3] = b.stripe[7]
		return wide.DecodeAt(b.stripe, targets, 0)
	}},
	{"DecodeAt: the targets of fragments 2 and 3 overlap", func(b *bench) error {
		targets := b.targets(wide, 2, 3)
		targets[3] = targets[2]
		return wide.DecodeAt(b.stripe, targets, 0)
	}},
	{"Plan.Decode: the target of fragment 0 overlaps fragment 12", func(b *bench) error {
		return planOf(wide, []int{0}, []int{0}).Decode(b.with(0, b.stripe[12]))
	}},
	{"Plan.DecodeAt: the target of fragment 0 overlaps fragment 12", func(b *bench) error {
		targets := b.targets(wide, 0)
		targets[0] = b.stripe[12]
		return planOf(wide, []int{0}, []int{0}).DecodeAt(b.stripe, targets, 0)
	}},
	{"Add: the target overlaps the source", func(b *bench) error {
		return coder.Add(b.block[3:8], 1, b.block[7:12])
	}},

	// of the calls that make buffers
	{"NewStripe: width 0, expected 1 to 1073741824", func(b *bench) error {
		return second(wide.NewStripe(0))
	}},
	{"NewStripe: width 1073741825, expected 1 to 1073741824", func(b *bench) error {
		return second(wide.NewStripe(coder.MaxWidth + 1))
	}},
	{"Split: width -1, expected 1 to 1073741824", func(b *bench) error {
		return second(wide.Split(b.block, -1))
	}},
	{"Split: width 9223372036854775807, expected 1 to 1073741824", func(b *bench) error {
		return second(wide.Split(b.block, math.MaxInt64))
	}},
	{"Join: length -1, expected at least 0", func(b *bench) error {
		return second(wide.Join([][][]byte{b.stripe}, -1))
	}},
	{"Join: the stripes have 60 bytes, the length is 61", func(b *bench) error {
		return second(wide.Join([][][]byte{b.stripe}, 61))
	}},
	{"Join: the stripes have 0 bytes, the length is 9223372036854775807", func(b *bench) error {
		return second(wide.Join(nil, math.MaxInt64))
	}},
	{"Join: stripe 1 begins at the length 60", func(b *bench) error {
		return second(wide.Join([][][]byte{b.stripe, b.stripe}, 60))
	}},
	{"Join: stripe 0 begins at the length 0", func(b *bench) error {
		return second(wide.Join([][][]byte{b.stripe}, 0))
	}},
	{"Join: stripe 1: 3 fragments, expected 16", func(b *bench) error {
		return second(wide.Join([][][]byte{b.stripe, b.stripe[:3]}, 61))
	}},
	{"Join: stripe 1: fragment 2 has 4 bytes, fragment 0 has 5", func(b *bench) error {
		return second(wide.Join([][][]byte{b.stripe, b.with(2, b.stripe[2][:4])}, 61))
	}},
}

func TestRefused(t *testing.T) {
	for _, each := range refusals {
		b := newBench(t)
		before := string(b.block)
		err := each.call(b)
		var refused *coder.Error
		if !errors.As(err, &refused) || !errors.Is(err, coder.ErrBadArgument) ||
			err.Error() != "coder: "+each.text || refused.Fragment != -1 {
			t.Errorf("%v, want %s", err, each.text)
		}
		if string(b.block) != before {
			t.Errorf("%s: has written", each.text)
		}
	}
}

// What is unrecoverable is refused once all arguments are valid, and the first of such fragments is
// named.
func TestUnrecoverable(t *testing.T) {
	five := []int{0, 1, 2, 3, 4}
	for text, call := range map[string]func(b *bench) error{
		"Rebuild: fragment 1": func(b *bench) error {
			return wide.Rebuild(without(b.stripe, five), 1, b.other[0])
		},
		"RebuildAt: fragment 4": func(b *bench) error {
			return wide.RebuildAt(without(b.stripe, five), 4, b.other[0][:2], 3)
		},
		"Decode: fragment 0": func(b *bench) error { return wide.Decode(b.stripe, five) },
		"Decode: fragment 3": func(b *bench) error {
			stripe := without(b.stripe, five)
			stripe[3] = b.other[3]
			stripe[7] = b.other[7]
			return wide.Decode(stripe, []int{7, 3})
		},
		"DecodeAt: fragment 2": func(b *bench) error {
			return wide.DecodeAt(without(b.stripe, five), b.targets(wide, 2), 0)
		},
		"NewPlan: fragment 0": func(b *bench) error { return second(coder.NewPlan(wide, five, five)) },
		"NewPlan: fragment 4": func(b *bench) error {
			return second(coder.NewPlan(wide, append(five, 8), []int{8, 4}))
		},
		"Recipe: fragment 2": func(b *bench) error { return second(wide.Recipe(five, 2)) },
	} {
		b := newBench(t)
		before := string(b.block)
		err := call(b)
		if wanted := "coder: " + text + ": the fragment is unrecoverable"; err == nil ||
			err.Error() != wanted || !errors.Is(err, coder.ErrUnrecoverable) {
			t.Errorf("%v, want %s", err, wanted)
		}
		if string(b.block) != before {
			t.Errorf("%s: has written", text)
		}
	}
}

// accepted is calls that look like a mistake and are none.
var accepted = map[string]func(b *bench) error{
	"data that is one buffer": func(b *bench) error {
		stripe := append([][]byte(nil), b.stripe...)
		for i := range stripe[:12] {
			stripe[i] = b.other[0]
		}
		return wide.Encode(stripe)
	},
	"a stripe without bytes": func(b *bench) error {
		return wide.Encode(make([][]byte, 16))
	},
	"no fragment is decoded": func(b *bench) error {
		return wide.Decode(b.stripe, nil)
	},
	"no fragment is left": func(b *bench) error {
		return wide.Decode(make([][]byte, 16), nil)
	},
	"no target": func(b *bench) error {
		return wide.DecodeAt(b.stripe, make([][]byte, 16), 5)
	},
	"a fragment given twice": func(b *bench) error {
		return wide.Decode(b.stripe, []int{3, 3})
	},
	"a rebuild in its place": func(b *bench) error {
		return wide.Rebuild(b.stripe, 3, b.stripe[3])
	},
	"no byte at the end": func(b *bench) error {
		return wide.RebuildAt(b.stripe, 3, nil, 5)
	},
	"a plan for no fragment": func(b *bench) error {
		return planOf(wide, nil, nil).Decode(b.stripe)
	},
	"neighbours in one buffer": func(b *bench) error {
		return wide.RebuildAt(b.stripe, 3, b.block[16*7+8:16*7+13], 0)
	},
	"a plan beside others": func(b *bench) error {
		stripe := without(b.stripe, []int{6, 7, 8, 9, 10, 11, 13, 14, 15})
		stripe[15] = make([]byte, 99)
		return planOf(wide, []int{0}, []int{0}).Decode(stripe)
	},
	"an update of nothing": func(b *bench) error { return wide.Update(b.stripe, make([][]byte, 12)) },
	"coefficient 0":        func(b *bench) error { return coder.Add(b.other[0], 0, b.other[1]) },
	"no bytes":             func(b *bench) error { return coder.Add(nil, 3, nil) },
}

func TestAccepted(t *testing.T) {
	for name, call := range accepted {
		if err := call(newBench(t)); err != nil {
			t.Errorf("%s: %v", name, err)
		}
	}
}

func TestTexts(t *testing.T) {
	for status, text := range map[coder.Status]string{
		coder.ErrUnrecoverable: "the fragment is unrecoverable",
		coder.ErrBadArgument:   "an argument is invalid",
		99:                     "unknown status",
	} {
		if fmt.Sprint(status) != text {
			t.Errorf("%v, want %s", status, text)
		}
	}
}
