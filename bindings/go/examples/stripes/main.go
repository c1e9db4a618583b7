// Stripes cuts a stream into stripes, loses two fragments of each, rebuilds them by one plan, and
// writes the stream.
package main

import (
	"io"
	"log"
	"os"
	"strings"

	"lrcstore/coder"
)

func main() {
	text := "HELLO, FRAGMENTS OF DATA\n"
	if err := run(strings.NewReader(text), os.Stdout, int64(len(text))); err != nil {
		log.Fatal(err)
	}
}

func run(in io.Reader, out io.Writer, length int64) error {
	lost := []int{0, 1}
	plan, err := coder.NewPlan(coder.LRC12, lost, lost) // for each stripe that has lost these
	if err != nil {
		return err
	}
	stripe, err := coder.LRC12.NewStripe(1) // one stripe, of 12 bytes, is in memory at a time
	if err != nil {
		return err
	}
	for length > 0 {
		if _, err := coder.LRC12.ReadStripe(in, stripe); err != nil {
			return err
		}
		stripe[0][0], stripe[1][0] = '?', '?' // both are lost
		if err := plan.Decode(stripe); err != nil {
			return err
		}
		n, err := coder.LRC12.WriteStripe(out, stripe, length) // checks the parities
		if err != nil {
			return err
		}
		length -= n
	}
	return nil
}
