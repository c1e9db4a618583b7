package coder_test

import (
	"bufio"
	"bytes"
	"encoding/hex"
	"errors"
	"os"
	"path/filepath"
	"strconv"
	"strings"
	"testing"

	"lrcstore/coder"
)

// vectors compares what other programs computed: crates/test_vectors/data/ORIGIN.md.
type vectors struct {
	t      *testing.T
	c      coder.Code
	stripe [][]byte
	lost   []int
	count  int
}

// line takes a line of a file, in its words.
func (v *vectors) line(words []string) {
	switch words[0] {
	case "stripe":
		v.stripe = nil
	case "data", "parity":
		whole, err := hex.DecodeString(strings.Trim(words[2], "-"))
		must(v.t, err)
		v.stripe = append(v.stripe, whole)
		if len(v.stripe) == v.c.Fragments() {
			v.encode()
		}
	case "lost":
		mask, err := strconv.ParseUint(words[1], 16, 16)
		must(v.t, err)
		v.lost = nil
		for i := 0; i < v.c.Fragments(); i++ {
			if mask>>i&1 == 1 {
				v.lost = append(v.lost, i)
			}
		}
	default:
		fragment, err := strconv.Atoi(words[1])
		must(v.t, err)
		v.fragment(fragment, words[2])
	}
}

func (v *vectors) encode() {
	made := scratched(v.stripe, []int{int(v.c), int(v.c) + 1, int(v.c) + 2, int(v.c) + 3})
	must(v.t, v.c.Encode(made))
	expect(v.t, "vector", made, v.stripe)
	v.count++
}

// fragment rebuilds a lost fragment, which has these bytes or is unrecoverable.
func (v *vectors) fragment(fragment int, said string) {
	target := make([]byte, len(v.stripe[0]))
	left := without(v.stripe, v.lost)
	rebuilt := v.c.Rebuild(left, fragment, target)
	left[fragment] = make([]byte, len(target))
	decoded := v.c.Decode(left, []int{fragment})
	v.count++
	if said == "open" {
		if !errors.Is(rebuilt, coder.ErrUnrecoverable) ||
			!errors.Is(decoded, coder.ErrUnrecoverable) {
			v.t.Fatalf("fragment %d of %v: %v, %v", fragment, v.lost, rebuilt, decoded)
		}
		return
	}
	wanted, err := hex.DecodeString(strings.Trim(said, "-"))
	must(v.t, err)
	must(v.t, rebuilt)
	must(v.t, decoded)
	if !bytes.Equal(target, wanted) || !bytes.Equal(left[fragment], wanted) {
		v.t.Fatalf("fragment %d of %v: other bytes", fragment, v.lost)
	}
}

func TestVectors(t *testing.T) {
	data := filepath.Join("..", "..", "..", "crates", "test_vectors", "data")
	total := 0
	for name, c := range map[string]coder.Code{
		"encode_wide.txt": coder.LRC12, "decode_wide.txt": coder.LRC12,
		"encode_small.txt": coder.LRC6, "decode_small.txt": coder.LRC6,
	} {
		file, err := os.Open(filepath.Join(data, name))
		must(t, err)
		defer file.Close()
		v, lines := vectors{t: t, c: c}, bufio.NewScanner(file)
		lines.Buffer(nil, 1<<24)
		for lines.Scan() {
			v.line(strings.Fields(lines.Text()))
		}
		must(t, lines.Err())
		total += v.count
	}
	if total < 1000 {
		t.Errorf("%d vectors", total)
	}
	t.Log(total, "vectors of other programs")
}
