// Rebuild encodes a text in twelve fragments, loses two of them and rebuilds both.
package main

import (
	"fmt"
	"log"

	"lrcstore/coder"
)

func main() {
	if err := run([]byte("HELLO, FRAGMENTS OF DATA")); err != nil {
		log.Fatal(err)
	}
}

func run(text []byte) error {
	stripe, err := coder.LRC12.NewStripe(2) // 12 data fragments and 4 parities, of 2 bytes each
	if err != nil {
		return err
	}
	for i := range stripe[:12] {
		copy(stripe[i], text[2*i:])
	}
	if err := coder.LRC12.Encode(stripe); err != nil {
		return err
	}
	rebuilt := make([]byte, 4)
	stripe[0], stripe[1] = rebuilt[:2], rebuilt[2:] // both are lost: their bytes come here
	if err := coder.LRC12.Decode(stripe, []int{0, 1}); err != nil {
		return err
	}
	fmt.Println(string(rebuilt))
	return nil
}
