package coder_test

import (
	"bytes"
	"errors"
	"math/rand"
	"testing"

	"lrcstore/coder"
)

// draws makes arguments of calls, of which few are right: slices of one small block, numbers and
// codes.
type draws struct {
	*rand.Rand
	block []byte
	width int
}

func (d *draws) code() coder.Code {
	return []coder.Code{12, 12, 12, 6, 6, 6, 7, 0, -1}[d.Intn(9)]
}

func (d *draws) number() int { return d.Intn(20) - 2 }

func (d *draws) numbers() []int {
	numbers := make([]int, d.Intn(4))
	for i := range numbers {
		numbers[i] = d.Intn(16)
		if d.Intn(20) == 0 {
			numbers[i] = d.number()
		}
	}
	return numbers
}

// slice returns a part of the block, mostly of the width and at a place of its own.
func (d *draws) slice(place int) []byte {
	width, start := d.width, place*16
	switch d.Intn(60) {
	case 0:
		return nil
	case 1:
		width = d.Intn(16)
	case 2:
		start = d.Intn(len(d.block) - 16)
	}
	return d.block[start : start+width]
}

// slices returns slices at places of their own, mostly as many as the code has fragments.
func (d *draws) slices(c coder.Code, first int) [][]byte {
	count := 16
	if c == coder.LRC6 {
		count = 10
	}
	if d.Intn(30) == 0 {
		count = d.Intn(17)
	}
	made := make([][]byte, count)
	for i := range made {
		made[i] = d.slice(first + i)
	}
	return made
}

// some returns slices of which most are nil.
func (d *draws) some(c coder.Code, first int) [][]byte {
	made := d.slices(c, first)
	for i := range made {
		if d.Intn(6) != 0 {
			made[i] = nil
		}
	}
	return made
}

// last returns so many slices at the end, or all if there are not so many.
func last(slices [][]byte, count int) [][]byte {
	if count < 0 || count > len(slices) {
		return slices
	}
	return slices[len(slices)-count:]
}

// call makes a call, and returns the slices that it may write.
func (d *draws) call() (written [][]byte, err error) {
	c, stripe, other := d.code(), [][]byte{}, d.slice(40)
	stripe = d.slices(c, 0)
	lost, number, off := d.numbers(), d.number(), d.Intn(4)-1
	targets := d.some(c, 16)
	plan, _ := coder.NewPlan(c, lost, lost)
	switch d.Intn(10) {
	case 0:
		return last(stripe, 4), c.Encode(stripe)
	case 1:
		parities := last(d.slices(c, 16), 4)
		return parities, c.EncodeAdd(number, other, parities)
	case 2:
		return last(stripe, 4), c.Update(stripe, last(targets, int(c)))
	case 3:
		return [][]byte{other}, c.Rebuild(stripe, number, other)
	case 4:
		return [][]byte{other}, c.RebuildAt(stripe, number, other, off)
	case 5:
		return stripe, c.Decode(stripe, lost)
	case 6:
		return targets, c.DecodeAt(stripe, targets, off)
	case 7:
		return stripe, plan.Decode(stripe)
	case 8:
		return targets, plan.DecodeAt(stripe, targets, off)
	default:
		return [][]byte{other}, coder.Add(other, byte(number), d.slice(41))
	}
}

// Whatever the arguments are, a call that is refused writes nothing, and one that is done writes
// its targets alone.
func TestRandomCalls(t *testing.T) {
	d := &draws{Rand: rand.New(rand.NewSource(1)), block: make([]byte, 48*16)}
	done := 0
	for i := 0; i < 30000; i++ {
		d.Read(d.block)
		d.width = d.Intn(9)
		before := append([]byte(nil), d.block...)
		written, err := d.call()
		if err != nil {
			if !errors.Is(err, coder.ErrBadArgument) && !errors.Is(err, coder.ErrUnrecoverable) {
				t.Fatal(i, err)
			}
			written = nil
		} else {
			done++
		}
		after := append([]byte(nil), d.block...)
		copy(d.block, before)
		for k := range written { // what was written, as the slices find it
			copyBack(d.block, after, written[k])
		}
		if !bytes.Equal(d.block, after) {
			t.Fatalf("call %d: other bytes are written, %v", i, err)
		}
	}
	if done < 5000 {
		t.Errorf("only %d calls are done", done)
	}
	t.Log(done, "of 30000 calls are done")
}

// copyBack gives a slice of the block the bytes that it has in another one.
func copyBack(block, from, slice []byte) {
	if len(slice) != 0 {
		start := cap(block) - cap(slice)
		copy(slice, from[start:])
	}
}
