package coder

// #include "calls.h"
import "C"

import (
	"errors"
	"fmt"
	"io"
)

// MaxWidth is the most bytes of a fragment for which NewStripe and Split allocate memory.
const MaxWidth = 1 << 30

// checkWidth returns an error unless there is such a code, and a fragment may have so many bytes.
func (c Code) checkWidth(op string, width int) error {
	if err := c.check(op); err != nil {
		return err
	}
	if width < 1 || width > MaxWidth {
		return refused(op, "width %d, expected 1 to %d", width, MaxWidth)
	}
	return nil
}

// cut returns the first pieces of this width of a block, none of which can grow into the next one.
func cut(block []byte, width, count int) [][]byte {
	pieces := make([][]byte, count)
	for i := range pieces {
		pieces[i] = block[i*width : (i+1)*width : (i+1)*width]
	}
	return pieces
}

// NewStripe returns a stripe of zeros, whose fragments have so many bytes.
func (c Code) NewStripe(width int) ([][]byte, error) {
	if err := c.checkWidth("NewStripe", width); err != nil {
		return nil, err
	}
	return cut(make([]byte, width*c.Fragments()), width, c.Fragments()), nil
}

// Split returns the stripes of some data, with their parities. The data fragments are parts of the
// data, which is not copied. The last stripe is filled up with zeros: keep the length of the data,
// which Join takes.
func (c Code) Split(data []byte, width int) ([][][]byte, error) {
	if err := c.checkWidth("Split", width); err != nil {
		return nil, err
	}
	size := width * int(c)
	stripes := make([][][]byte, 0, (len(data)+size-1)/size)
	for ; len(data) > 0; data = data[min(size, len(data)):] {
		block := data
		if len(block) < size { // a copy of the last bytes alone
			block = make([]byte, size)
			copy(block, data)
		}
		made := cut(make([]byte, parityCount*width), width, parityCount)
		stripe := append(cut(block, width, int(c)), made...)
		if err := c.Encode(stripe); err != nil {
			return nil, err
		}
		stripes = append(stripes, stripe)
	}
	return stripes, nil
}

// Join returns the data of whole stripes, as Split makes them, whose length this is. It returns
// ErrInconsistent if the parities of a stripe are not those of its data.
func (c Code) Join(stripes [][][]byte, length int) ([]byte, error) {
	const op = "Join"
	if err := c.check(op); err != nil {
		return nil, err
	}
	if length < 0 {
		return nil, refused(op, "length %d, expected at least 0", length)
	}
	has := 0
	for number, stripe := range stripes {
		if has >= length {
			return nil, refused(op, "stripe %d begins at the length %d", number, length)
		}
		if err := c.verify(op, stripe); err != nil {
			return nil, inStripe(number, err)
		}
		has += len(stripe[0]) * int(c)
	}
	if has < length {
		return nil, refused(op, "the stripes have %s, the length is %d", shown(has), length)
	}
	data := make([]byte, 0, length)
	for _, stripe := range stripes {
		for _, fragment := range stripe[:c] {
			data = append(data, fragment[:min(len(fragment), length-len(data))]...)
		}
	}
	return data, nil
}

// inStripe says in which stripe a call found what is wrong.
func inStripe(number int, err error) error {
	var found *Error
	if errors.As(err, &found) {
		found.Reason = fmt.Sprintf("stripe %d: %s", number, found.Reason)
	}
	return err
}

// Verify returns ErrInconsistent unless the parities of a whole stripe are those of its data.
func (c Code) Verify(stripe [][]byte) error { return c.verify("Verify", stripe) }

func (c Code) verify(op string, stripe [][]byte) error {
	var f fragments
	if err := f.read(op, "fragments", c, stripe); err != nil {
		return err
	}
	if err := f.checkEqual(op, c.all()); err != nil {
		return err
	}
	status := C.coder_verify(C.size_t(c), f.addresses(), C.size_t(len(f[0])))
	if status == C.CODER_INCONSISTENT {
		return &Error{Op: op, Fragment: -1, Reason: ErrInconsistent.Error(), Err: ErrInconsistent}
	}
	return failure(op, status)
}

// ReadStripe reads the data of a stripe from r into the caller's fragments, and writes their
// parities. It returns how many bytes it has read, or io.EOF if there are none. If r ends before
// the stripe does, it fills the stripe up with zeros, and the next call returns io.EOF. After any
// other error of r, the stripe has the bytes that were read, and no parities of them.
func (c Code) ReadStripe(r io.Reader, stripe [][]byte) (n int, err error) {
	const op = "ReadStripe"
	var f fragments
	if err := f.read(op, "fragments", c, stripe); err != nil {
		return 0, err
	}
	if err := f.checkEqual(op, c.all()); err != nil {
		return 0, err
	}
	if err := f.checkTargets(op, &f, c.all(), 0); err != nil {
		return 0, err
	}
	if len(f[0]) == 0 {
		return 0, refused(op, "the fragments have 0 bytes, expected at least 1")
	}
	for i := 0; i < int(c) && err == nil; i++ {
		var part int
		part, err = io.ReadFull(r, f[i])
		n += part
	}
	if n == 0 || err != nil && err != io.EOF && err != io.ErrUnexpectedEOF {
		return n, err
	}
	f.zero(c, n)
	return n, failure(op, C.coder_encode(C.size_t(c), f.addresses(), C.size_t(len(f[0]))))
}

// WriteStripe writes the data of a whole stripe to w, at most so many bytes, and returns how many
// bytes it has written. It writes nothing and returns ErrInconsistent if the parities are not those
// of the data.
func (c Code) WriteStripe(w io.Writer, stripe [][]byte, most int64) (n int64, err error) {
	const op = "WriteStripe"
	if most < 0 {
		return 0, refused(op, "length %d, expected at least 0", most)
	}
	if err := c.verify(op, stripe); err != nil {
		return 0, err
	}
	for _, fragment := range stripe[:c] {
		if left := most - n; int64(len(fragment)) > left {
			fragment = fragment[:left]
		}
		part, err := w.Write(fragment)
		n += int64(part)
		if err == nil && part < len(fragment) {
			err = io.ErrShortWrite
		}
		if err != nil {
			return n, err
		}
	}
	return n, nil
}

// zero clears the data of a stripe from a byte on.
func (f *fragments) zero(c Code, from int) {
	width := len(f[0])
	for i := from / width; i < int(c); i++ {
		for k := from % width; k < width; k++ {
			f[i][k] = 0
		}
		from = 0
	}
}

func min(a, b int) int {
	if a < b {
		return a
	}
	return b
}
