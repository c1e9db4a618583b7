package coder_test

import (
	"bytes"
	"errors"
	"fmt"
	"os"
	"strconv"
	"sync"
	"testing"

	"lrcstore/coder"
)

// hotCalls are the calls that allocate nothing, on a stripe of its own that is whole before and
// after each.
func hotCalls(t testing.TB, c coder.Code, width int) map[string]func() error {
	stripe := filled(t, c, width)
	left, changed := without(stripe, []int{0, 1, 2}), make([][]byte, c)
	targets, parities := make([][]byte, c.Fragments()), copied(stripe[c:])
	targets[0], targets[2] = make([]byte, width), make([]byte, width)
	changed[3] = make([]byte, width)
	plan, err := coder.NewPlan(c, []int{0, 1, 2}, []int{0, 2})
	must(t, err)
	lost, out, in := []int{0, 1, 2}, &limited{}, bytes.NewReader(nil)
	data, read, old := bytes.Join(stripe[:c], nil), copied(stripe), copied(stripe)
	return map[string]func() error{
		"Encode":          func() error { return c.Encode(stripe) },
		"EncodeAdd":       func() error { return c.EncodeAdd(3, changed[3], parities) },
		"Update":          func() error { return c.Update(old, changed) },
		"Rebuild":         func() error { return c.Rebuild(left, 1, targets[2]) },
		"RebuildAt":       func() error { return c.RebuildAt(left, 1, targets[2][1:], 1) },
		"Decode":          func() error { return c.Decode(stripe, lost) },
		"DecodeAt":        func() error { return c.DecodeAt(left, targets, 0) },
		"Plan.Decode":     func() error { return plan.Decode(stripe) },
		"Plan.DecodeAt":   func() error { return plan.DecodeAt(left, targets, 0) },
		"Verify":          func() error { return c.Verify(stripe) },
		"Add":             func() error { return coder.Add(targets[0], 3, stripe[5]) },
		"IsUnrecoverable": func() error { return second(c.IsUnrecoverable(lost, 2)) },
		"ReadStripe": func() error {
			in.Reset(data)
			return second(c.ReadStripe(in, read))
		},
		"WriteStripe": func() error {
			out.Reset()
			out.room = len(data)
			return second(c.WriteStripe(out, stripe, int64(len(data))))
		},
	}
}

func TestAllocations(t *testing.T) {
	for _, c := range codes {
		for name, call := range hotCalls(t, c, 4099) {
			must(t, call()) // a buffer may grow once
			if count := testing.AllocsPerRun(20, func() {
				if call() != nil {
					panic(name)
				}
			}); count != 0 {
				t.Errorf("%s of code %d: %v allocations", name, c, count)
			}
		}
	}
}

// One plan, and stripes that are read alone, serve many goroutines at once.
func TestGoroutines(t *testing.T) {
	for _, c := range codes {
		stripe := filled(t, c, 4099)
		left := without(stripe, []int{0, 1, 2})
		plan, err := coder.NewPlan(c, []int{0, 1, 2}, []int{0, 2})
		must(t, err)
		var wait sync.WaitGroup
		for i := 0; i < 8; i++ {
			wait.Add(1)
			go func(seed int) {
				defer wait.Done()
				for k := 0; k < 20; k++ {
					if err := work(c, stripe, left, plan, seed+k); err != nil {
						t.Error(err)
					}
				}
			}(i)
		}
		wait.Wait()
	}
}

var errOther = errors.New("other bytes")

// work decodes what is shared, and encodes a stripe of its own.
func work(c coder.Code, stripe, left [][]byte, plan coder.Plan, seed int) error {
	targets, target := make([][]byte, c.Fragments()), make([]byte, 4099)
	targets[0], targets[2] = make([]byte, 4099), make([]byte, 4099)
	if err := plan.DecodeAt(left, targets, 0); err != nil {
		return err
	}
	if err := c.Rebuild(left, 1, target); err != nil {
		return err
	}
	if !bytes.Equal(targets[0], stripe[0]) || !bytes.Equal(targets[2], stripe[2]) ||
		!bytes.Equal(target, stripe[1]) {
		return errOther
	}
	own := copied(stripe)
	own[3][seed] ^= 1
	if err := c.Encode(own); err != nil {
		return err
	}
	return c.Verify(own)
}

// The library is that of tests/library/refusing.c, which refuses each call: its status is returned.
func TestStatuses(t *testing.T) {
	status, err := strconv.Atoi(os.Getenv("LRC_REFUSED"))
	if err != nil {
		t.Skip("needs LRC_REFUSED and the library of tests/library/refusing.c")
	}
	wanted := map[int]error{2: coder.ErrBadArgument, 3: coder.Status(3)}[status]
	stripe := make([][]byte, 16)
	for i := range stripe {
		stripe[i] = make([]byte, 5)
	}
	changed, targets := make([][]byte, 12), make([][]byte, 16)
	changed[3], targets[0] = make([]byte, 5), make([]byte, 5)
	c := coder.LRC12
	for name, err := range map[string]error{
		"Encode":      c.Encode(stripe),
		"EncodeAdd":   c.EncodeAdd(3, stripe[3], stripe[12:]),
		"Update":      c.Update(stripe, changed),
		"Rebuild":     c.Rebuild(stripe, 1, stripe[1]),
		"RebuildAt":   c.RebuildAt(stripe, 1, stripe[1], 0),
		"Decode":      c.Decode(stripe, []int{0}),
		"DecodeAt":    c.DecodeAt(stripe, targets, 0),
		"NewPlan":     second(coder.NewPlan(c, []int{0}, []int{0})),
		"Recipe":      second(c.Recipe([]int{0}, 0)),
		"Verify":      c.Verify(stripe),
		"Add":         coder.Add(stripe[0], 3, stripe[5]),
		"Split":       second(c.Split([]byte{1}, 1)),
		"ReadStripe":  second(c.ReadStripe(bytes.NewReader([]byte{1}), stripe)),
		"WriteStripe": second(c.WriteStripe(&bytes.Buffer{}, stripe, 1)),
	} {
		if !errors.Is(err, wanted) {
			t.Errorf("%s: %v, want %v", name, err, wanted)
		}
	}
	fmt.Println("status", status)
}
