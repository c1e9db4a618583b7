package coder_test

import (
	"bytes"
	"errors"
	"fmt"
	"io"
	"testing"
	"testing/iotest"

	"lrcstore/coder"
)

func pattern(length int) []byte {
	data := make([]byte, length)
	for i := range data {
		data[i] = byte(i*7 + i>>8 + 1)
	}
	return data
}

func TestNewStripe(t *testing.T) {
	for _, c := range codes {
		stripe, err := c.NewStripe(3)
		must(t, err)
		if len(stripe) != c.Fragments() {
			t.Errorf("%d fragments", len(stripe))
		}
		for i := range stripe {
			if !bytes.Equal(stripe[i], []byte{0, 0, 0}) || cap(stripe[i]) != 3 {
				t.Errorf("fragment %d: %v, room for %d", i, stripe[i], cap(stripe[i]))
			}
			stripe[i][0] = 1
		}
	}
}

// Data of each length is split and joined, and only the last stripe is a copy.
func TestSplitAndJoin(t *testing.T) {
	for _, c := range codes {
		size := 5 * int(c)
		for _, length := range []int{0, 1, 4, 5, size - 1, size, size + 1, 3*size + 7} {
			data := pattern(length)
			before := append([]byte(nil), data...)
			stripes, err := c.Split(data, 5)
			must(t, err)
			if len(stripes) != (length+size-1)/size {
				t.Fatalf("%d bytes: %d stripes", length, len(stripes))
			}
			for number, stripe := range stripes {
				must(t, c.Verify(stripe))
				isPart := (number+1)*size <= length
				if isPart != (isPart && &stripe[0][0] == &data[number*size]) || cap(stripe[3]) != 5 {
					t.Fatalf("%d bytes: stripe %d is a copy", length, number)
				}
			}
			whole, err := c.Join(stripes, length)
			if err != nil || !bytes.Equal(whole, data) || !bytes.Equal(data, before) {
				t.Fatalf("%d bytes: %d bytes, %v", length, len(whole), err)
			}
		}
	}
}

// The padding is zero, and lengths that end in the last stripe are joined.
func TestPadding(t *testing.T) {
	data := pattern(65)[:61]
	stripes, err := coder.LRC12.Split(data, 5)
	must(t, err)
	last := bytes.Join(stripes[1][:12], nil)
	if !bytes.Equal(last, append([]byte{data[60]}, make([]byte, 59)...)) {
		t.Errorf("the last stripe is %v", last)
	}
	for _, length := range []int{61, 62, 120} {
		whole, err := coder.LRC12.Join(stripes, length)
		if err != nil || len(whole) != length || !bytes.HasPrefix(whole, data) {
			t.Errorf("%d bytes, %v", len(whole), err)
		}
	}
}

// Stripes of different widths are joined, as parts of different splits.
func TestJoinOfWidths(t *testing.T) {
	one, err := coder.LRC6.Split(pattern(12), 2)
	must(t, err)
	other, err := coder.LRC6.Split(pattern(30), 5)
	must(t, err)
	whole, err := coder.LRC6.Join(append(one, other...), 42)
	if err != nil || !bytes.Equal(whole, append(pattern(12), pattern(30)...)) {
		t.Errorf("%v, %v", whole, err)
	}
}

// Any changed byte is found, in each part of 4,096 bytes.
func TestVerify(t *testing.T) {
	for _, c := range codes {
		for _, width := range []int{1, 4095, 4096, 4097, 9000} {
			stripe := filled(t, c, width)
			must(t, c.Verify(stripe))
			for i, fragment := range stripe {
				for _, k := range []int{0, width / 2, width - 1} {
					fragment[k]++
					err := c.Verify(stripe)
					fragment[k]--
					if !errors.Is(err, coder.ErrInconsistent) ||
						err.Error() != "coder: Verify: the parities are not those of the data" {
						t.Fatalf("byte %d of fragment %d of %d bytes: %v", k, i, width, err)
					}
				}
			}
		}
		must(t, c.Verify(make([][]byte, c.Fragments())))
	}
}

func TestJoinOfWrongStripes(t *testing.T) {
	stripes, err := coder.LRC6.Split(pattern(70), 5)
	must(t, err)
	stripes[1] = scratched(stripes[1], []int{7})
	_, err = coder.LRC6.Join(stripes, 70)
	var refused *coder.Error
	if !errors.Is(err, coder.ErrInconsistent) || !errors.As(err, &refused) ||
		refused.Fragment != -1 || refused.Op != "Join" ||
		err.Error() != "coder: Join: stripe 1: the parities are not those of the data" {
		t.Error(err)
	}
}

// A stream goes through stripes, whatever parts the reader gives.
func TestStreams(t *testing.T) {
	for _, c := range codes {
		size := 5 * int(c)
		for _, length := range []int{0, 1, 4, 5, 6, size - 1, size, size + 1, 3*size + 7} {
			for name, parts := range map[string]func(io.Reader) io.Reader{
				"whole": func(r io.Reader) io.Reader { return r }, "bytes": iotest.OneByteReader,
				"halves": iotest.HalfReader, "end with data": iotest.DataErrReader,
			} {
				data, out := pattern(length), &bytes.Buffer{}
				copyStripes(t, c, parts(bytes.NewReader(data)), out, int64(length))
				if !bytes.Equal(out.Bytes(), data) {
					t.Fatalf("%d bytes in parts of %s: %d bytes", length, name, out.Len())
				}
			}
		}
	}
}

// copyStripes copies so many bytes by stripes of 5 bytes, and expects the end of the stream.
func copyStripes(t *testing.T, c coder.Code, r io.Reader, w io.Writer, length int64) {
	t.Helper()
	stripe, err := c.NewStripe(5)
	must(t, err)
	left, size := length, int64(5*c)
	for {
		scratch := scratched(stripe, []int{0, 3, int(c) - 1, int(c)})
		n, err := c.ReadStripe(r, scratch)
		if err == io.EOF && n == 0 {
			break
		}
		must(t, err)
		wanted := left
		if wanted > size {
			wanted = size
		}
		if int64(n) != wanted {
			t.Fatalf("read %d bytes, want %d", n, wanted)
		}
		for k := n; k < int(size); k++ {
			if scratch[k/5][k%5] != 0 {
				t.Fatal("the stripe is not filled up with zeros")
			}
		}
		written, err := c.WriteStripe(w, scratch, left)
		if must(t, err); written != wanted {
			t.Fatalf("wrote %d bytes, want %d", written, wanted)
		}
		left -= written
	}
	if left != 0 {
		t.Fatalf("the stream ends %d bytes too soon", left)
	}
}

var errDisk = errors.New("disk")

// An error of the reader is returned with the bytes before it, and the end of a stream writes
// nothing.
func TestErrorsOfReaders(t *testing.T) {
	for _, before := range []int{0, 1, 5, 7} {
		stripe := filled(t, coder.LRC6, 5)
		wanted := copied(stripe)
		for k := 0; k < before; k++ {
			wanted[k/5][k%5] = pattern(before)[k]
		}
		r := io.MultiReader(bytes.NewReader(pattern(before)), iotest.ErrReader(errDisk))
		n, err := coder.LRC6.ReadStripe(r, stripe)
		if n != before || err != errDisk {
			t.Errorf("%d bytes, %v", n, err)
		}
		expect(t, fmt.Sprint(before), stripe, wanted)
	}
	stripe := filled(t, coder.LRC6, 5)
	wanted := copied(stripe)
	if n, err := coder.LRC6.ReadStripe(bytes.NewReader(nil), stripe); n != 0 || err != io.EOF {
		t.Errorf("%d bytes, %v", n, err)
	}
	expect(t, "end", stripe, wanted)
}

// limited is a writer that takes so many bytes, and then returns an error, or none.
type limited struct {
	bytes.Buffer
	room int
	err  error
}

func (l *limited) Write(p []byte) (int, error) {
	if len(p) <= l.room {
		l.room -= len(p)
		return l.Buffer.Write(p)
	}
	n, _ := l.Buffer.Write(p[:l.room])
	l.room = 0
	return n, l.err
}

func TestErrorsOfWriters(t *testing.T) {
	stripe := filled(t, coder.LRC6, 5)
	data := bytes.Join(stripe[:6], nil)
	for _, each := range []struct{ err, wanted error }{
		{errDisk, errDisk}, {nil, io.ErrShortWrite},
	} {
		for _, room := range []int{0, 3, 5, 29} {
			w := &limited{room: room, err: each.err}
			n, err := coder.LRC6.WriteStripe(w, stripe, 30)
			if n != int64(room) || err != each.wanted || !bytes.Equal(w.Bytes(), data[:room]) {
				t.Errorf("room for %d: %d bytes, %v", room, n, err)
			}
		}
	}
	for most, wanted := range map[int64]int{0: 0, 1: 1, 5: 5, 12: 12, 30: 30, 31: 30, 1 << 40: 30} {
		w := &limited{room: 99}
		n, err := coder.LRC6.WriteStripe(w, stripe, most)
		if err != nil || n != int64(wanted) || !bytes.Equal(w.Bytes(), data[:wanted]) {
			t.Errorf("at most %d bytes: %d, %v", most, n, err)
		}
	}
}

// refusedStreams are calls, by what their errors say.
var refusedStreams = map[string]func(b *bench, r io.Reader, w io.Writer) error{
	"ReadStripe: code 7, expected 12 or 6": func(b *bench, r io.Reader, w io.Writer) error {
		return second(bad.ReadStripe(r, b.stripe))
	},
	"ReadStripe: 10 fragments, expected 16": func(b *bench, r io.Reader, w io.Writer) error {
		return second(wide.ReadStripe(r, b.stripe[:10]))
	},
	"ReadStripe: fragment 14 has 4 bytes, fragment 0 has 5": func(b *bench, r io.Reader,
		w io.Writer) error {
		return second(wide.ReadStripe(r, b.with(14, b.stripe[14][:4])))
	},
	"ReadStripe: the targets of fragments 2 and 9 overlap": func(b *bench, r io.Reader,
		w io.Writer) error {
		return second(wide.ReadStripe(r, b.with(9, b.stripe[2])))
	},
	"ReadStripe: the fragments have 0 bytes, expected at least 1": func(b *bench, r io.Reader,
		w io.Writer) error {
		return second(wide.ReadStripe(r, make([][]byte, 16)))
	},
	"WriteStripe: length -1, expected at least 0": func(b *bench, r io.Reader,
		w io.Writer) error {
		return second(wide.WriteStripe(w, b.stripe, -1))
	},
	"WriteStripe: 10 fragments, expected 16": func(b *bench, r io.Reader, w io.Writer) error {
		return second(wide.WriteStripe(w, b.stripe[:10], 1))
	},
	"WriteStripe: the parities are not those of the data": func(b *bench, r io.Reader,
		w io.Writer) error {
		return second(wide.WriteStripe(w, b.with(0, b.other[0]), 1))
	},
}

// What is refused reads and writes nothing.
func TestRefusedStreams(t *testing.T) {
	for text, call := range refusedStreams {
		b, r, w := newBench(t), bytes.NewReader(pattern(99)), &bytes.Buffer{}
		before := string(b.block)
		if err := call(b, r, w); err == nil || err.Error() != "coder: "+text {
			t.Errorf("%v, want %s", err, text)
		}
		if string(b.block) != before || r.Len() != 99 || w.Len() != 0 {
			t.Errorf("%s: has read or written", text)
		}
	}
}
