package coder_test

import (
	"bytes"
	"errors"
	"fmt"
	"io"
	"log"

	"lrcstore/coder"
)

func Example() {
	text := []byte("HELLO, FRAGMENTS OF DATA")
	stripes, err := coder.LRC12.Split(text, 1) // two stripes, of 12 bytes each
	if err != nil {
		log.Fatal(err)
	}
	lost := []int{0, 1}
	plan, err := coder.NewPlan(coder.LRC12, lost, lost)
	if err != nil {
		log.Fatal(err)
	}
	for _, stripe := range stripes {
		stripe[0], stripe[1] = make([]byte, 1), make([]byte, 1) // where the lost ones belong
		if err := plan.Decode(stripe); err != nil {
			log.Fatal(err)
		}
	}
	whole, err := coder.LRC12.Join(stripes, len(text))
	if err != nil {
		log.Fatal(err)
	}
	fmt.Println(string(whole))
	// Output: HELLO, FRAGMENTS OF DATA
}

// A fragment is rebuilt as others arrive: only those that the recipe names are needed.
func ExampleCode_Recipe() {
	stripes, err := coder.LRC6.Split([]byte("ABCDEF"), 1)
	if err != nil {
		log.Fatal(err)
	}
	terms, err := coder.LRC6.Recipe([]int{1}, 1)
	if err != nil {
		log.Fatal(err)
	}
	rebuilt := make([]byte, 1)
	for _, term := range terms {
		if err := coder.Add(rebuilt, term.Coefficient, stripes[0][term.Fragment]); err != nil {
			log.Fatal(err)
		}
	}
	fmt.Printf("%s, from %d fragments\n", rebuilt, len(terms))
	// Output: B, from 3 fragments
}

// A stream is cut into stripes, one of which is in memory at a time.
func ExampleCode_ReadStripe() {
	in := bytes.NewReader([]byte("HELLO, FRAGMENTS OF DATA, AND MORE"))
	stripe, err := coder.LRC12.NewStripe(2)
	if err != nil {
		log.Fatal(err)
	}
	for {
		n, err := coder.LRC12.ReadStripe(in, stripe)
		if errors.Is(err, io.EOF) {
			break
		}
		if err != nil {
			log.Fatal(err)
		}
		fmt.Printf("%d bytes, %d fragments, the last data fragment is %q\n", n, len(stripe),
			stripe[11])
	}
	// Output:
	// 24 bytes, 16 fragments, the last data fragment is "TA"
	// 10 bytes, 16 fragments, the last data fragment is "\x00\x00"
}

func ExampleError() {
	stripe, err := coder.LRC12.NewStripe(4)
	if err != nil {
		log.Fatal(err)
	}
	stripe[11] = stripe[11][:3]
	err = coder.LRC12.Encode(stripe)
	fmt.Println(err)
	fmt.Println(errors.Is(err, coder.ErrBadArgument))
	// Output:
	// coder: Encode: fragment 11 has 3 bytes, fragment 0 has 4
	// true
}
