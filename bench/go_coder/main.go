// Go_coder measures the coder's calls from Go compared with the same calls from C, on the same
// fragments. bench/go_coder.py builds it.
package main

// #include "coder_calls.c"
// #include <stdlib.h>
import "C"

import (
	"flag"
	"fmt"
	"log"
	"runtime"
	"sort"
	"time"
	"unsafe"

	"lrcstore/coder"
)

var (
	rounds = flag.Int("rounds", 31, "rounds, in each of which each call is made from C and from Go")
	millis = flag.Float64("millis", 5, "milliseconds for which a call is made in a round")
)

// call is a call by its name. It is made by a function of bench/coder_calls.c, and from Go.
type call struct {
	name   string
	fromC  func(times int) float64
	fromGo func() error
}

// block returns memory of C, which both sides use.
func block(width int) []byte {
	return unsafe.Slice((*byte)(C.calloc(1, C.size_t(width))), width)
}

// stripe returns a whole stripe in memory of C.
func stripe(width int) [][]byte {
	made := make([][]byte, coder.LRC12.Fragments())
	for i := range made {
		made[i] = block(width)
		for k := range made[i] {
			at := i*width + k
			made[i][k] = byte(7*at + at/251)
		}
	}
	check(coder.LRC12.Encode(made))
	return made
}

func check(err error) {
	if err != nil {
		log.Fatal(err)
	}
}

// argumentsOf returns those of the calls from C, in memory of C.
func argumentsOf(fragments, targets [][]byte, width int) *C.arguments {
	of := (*C.arguments)(C.calloc(1, C.sizeof_arguments))
	for i, fragment := range fragments {
		if fragment != nil {
			of.fragments[i] = (*C.uint8_t)(&fragment[0])
		}
	}
	for i, target := range targets {
		of.targets[i] = (*C.uint8_t)(&target[0])
	}
	of.width = C.size_t(width)
	return of
}

// calls returns those of a width.
func calls(width int) []call {
	whole := stripe(width)
	targets := [][]byte{block(width), block(width), block(width), block(width)}
	encoded := append(append([][]byte(nil), whole[:12]...), targets...)
	of := argumentsOf(whole, targets, width)
	made := []call{{
		"Encode",
		func(times int) float64 { return float64(C.time_encode(of, C.uint32_t(times))) },
		func() error { return coder.LRC12.Encode(encoded) },
	}}
	for _, lost := range [][]int{{0}, {0, 1, 2}} {
		made = append(made, decodes(whole, targets, lost, width)...)
	}
	return made
}

// decodes returns the calls that make fragment 0 of the lost ones.
func decodes(whole, targets [][]byte, lost []int, width int) []call {
	left := append([][]byte(nil), whole...)
	for _, i := range lost {
		left[i] = nil
	}
	of := argumentsOf(left, targets, width)
	plan, err := coder.NewPlan(coder.LRC12, lost, lost[:1])
	check(err)
	read := len(plan.Reads())
	broken := append([][]byte(nil), left...)
	broken[0] = targets[0]
	rebuild := func(times int) float64 { return float64(C.time_rebuild(of, C.uint32_t(times))) }
	decode := func(times int) float64 { return float64(C.time_decode(of, C.uint32_t(times))) }
	planned := func(times int) float64 {
		return float64(C.time_plan_decode(of, C.uint32_t(times)))
	}
	return []call{
		{fmt.Sprintf("Rebuild one from %d", read), rebuild,
			func() error { return coder.LRC12.Rebuild(left, 0, targets[0]) }},
		{fmt.Sprintf("Decode one from %d", read), decode,
			func() error { return coder.LRC12.Decode(broken, lost[:1]) }},
		{fmt.Sprintf("Plan.Decode one from %d", read), planned,
			func() error { return plan.Decode(broken) }},
	}
}

// fromGo returns the nanoseconds of a call that is made so many times.
func fromGo(call func() error, times int) float64 {
	begin := C.now_ns()
	for i := 0; i < times; i++ {
		check(call())
	}
	return float64(C.now_ns()-begin) / float64(times)
}

// times returns how often a call that takes so many nanoseconds is made.
func times(ns float64) int {
	count := int(*millis * float64(time.Millisecond) / ns)
	if count < 1 {
		return 1
	}
	return count
}

func median(of []float64) float64 {
	sort.Float64s(of)
	return of[len(of)/2]
}

func measure(width int) {
	made := calls(width)
	inC, ratios := make([][]float64, len(made)), make([][]float64, len(made))
	for round := 0; round < *rounds; round++ {
		for i, each := range made {
			c := each.fromC(times(each.fromC(20)))
			if c < 0 {
				log.Fatalf("%s from C failed", each.name)
			}
			inGo := fromGo(each.fromGo, times(fromGo(each.fromGo, 20)))
			inC[i], ratios[i] = append(inC[i], c), append(ratios[i], inGo/c)
		}
	}
	fmt.Printf("%d bytes of a fragment | C, ns | Go, in times of C's time\n", width)
	for i, each := range made {
		fmt.Printf("%s | %.0f | %.2f\n", each.name, median(inC[i]), median(ratios[i]))
	}
}

func main() {
	flag.Parse()
	runtime.LockOSThread() // the clock is that of a thread
	for _, width := range []int{4096, 65536} {
		measure(width)
	}
}
