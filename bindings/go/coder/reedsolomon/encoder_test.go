package reedsolomon_test

import (
	"bytes"
	"errors"
	"fmt"
	"testing"

	"lrcstore/coder"
	"lrcstore/coder/reedsolomon"
)

func must(t testing.TB, err error) {
	t.Helper()
	if err != nil {
		t.Fatal(err)
	}
}

func newEncoder(t testing.TB, dataShards int) reedsolomon.Encoder {
	t.Helper()
	e, err := reedsolomon.New(dataShards, 4)
	must(t, err)
	return e
}

// encoded returns shards of so many bytes, all different, with their parities.
func encoded(t testing.TB, dataShards, size int) [][]byte {
	t.Helper()
	shards := make([][]byte, dataShards+4)
	for i := range shards {
		shards[i] = make([]byte, size)
		for k := range shards[i] {
			shards[i][k] = byte(53*i + 7*k + 1)
		}
	}
	must(t, newEncoder(t, dataShards).Encode(shards))
	return shards
}

func copied(shards [][]byte) [][]byte {
	made := make([][]byte, len(shards))
	for i, shard := range shards {
		if shard != nil {
			made[i] = append([]byte{}, shard...)
		}
	}
	return made
}

// without returns the shards of which these are nil.
func without(shards [][]byte, missing ...int) [][]byte {
	left := append([][]byte(nil), shards...)
	for _, i := range missing {
		left[i] = nil
	}
	return left
}

func expect(t *testing.T, what string, got, want [][]byte) {
	t.Helper()
	if fmt.Sprint(got) != fmt.Sprint(want) {
		t.Errorf("%s: %v, want %v", what, got, want)
	}
}

func TestNew(t *testing.T) {
	for _, each := range []struct {
		data, parity int
		text         string
		wanted       error
	}{
		{0, 4, "invalid number of shards", reedsolomon.ErrInvShardNum},
		{12, -1, "invalid number of shards", reedsolomon.ErrInvShardNum},
		{257, 0, "more than 256 shards", reedsolomon.ErrMaxShardNum},
		{253, 4, "more than 256 shards", reedsolomon.ErrMaxShardNum},
		{12, 1<<63 - 1, "more than 256 shards", reedsolomon.ErrMaxShardNum},
		{12, 3, "12+3 shards, expected 12+4 or 6+4: an argument is invalid", coder.ErrBadArgument},
		{252, 4, "252+4 shards, expected 12+4 or 6+4: an argument is invalid", coder.ErrBadArgument},
		{10, 4, "10+4 shards, expected 12+4 or 6+4: an argument is invalid", coder.ErrBadArgument},
	} {
		e, err := reedsolomon.New(each.data, each.parity)
		if !errors.Is(err, each.wanted) || err.Error() != each.text || e != nil {
			t.Errorf("%d+%d: %v, want %s", each.data, each.parity, err, each.text)
		}
	}
}

func TestOptions(t *testing.T) {
	for name, each := range map[string]struct {
		option reedsolomon.Option
		wanted error
	}{
		"WithMaxGoroutines":       {reedsolomon.WithMaxGoroutines(7), nil},
		"WithAutoGoroutines":      {reedsolomon.WithAutoGoroutines(7), nil},
		"WithMinSplitSize":        {reedsolomon.WithMinSplitSize(7), nil},
		"WithInversionCache":      {reedsolomon.WithInversionCache(false), nil},
		"WithFastOneParityMatrix": {reedsolomon.WithFastOneParityMatrix(), nil},
		"WithPAR1Matrix":          {reedsolomon.WithPAR1Matrix(), reedsolomon.ErrMatrix},
		"WithCauchyMatrix":        {reedsolomon.WithCauchyMatrix(), reedsolomon.ErrMatrix},
	} {
		if _, err := reedsolomon.New(6, 4, each.option); err != each.wanted {
			t.Errorf("%s: %v, want %v", name, err, each.wanted)
		}
	}
}

// The shards are those of package coder.
func TestEncode(t *testing.T) {
	for _, size := range []int{12, 6} {
		shards := encoded(t, size, 5)
		wanted := copied(shards)
		must(t, coder.Code(size).Encode(wanted))
		expect(t, "shards", shards, wanted)
		e, parity := newEncoder(t, size), make([][]byte, 4)
		for i := range parity {
			parity[i] = make([]byte, 5)
		}
		for i := 0; i < size; i++ {
			must(t, e.EncodeIdx(shards[i], i, parity))
		}
		expect(t, "parities", parity, shards[size:])
	}
}

func TestVerify(t *testing.T) {
	e, shards := newEncoder(t, 6), encoded(t, 6, 5)
	if ok, err := e.Verify(shards); !ok || err != nil {
		t.Error(ok, err)
	}
	shards[7][4] ^= 1
	if ok, err := e.Verify(shards); ok || err != nil {
		t.Error(ok, err)
	}
}

// Unlike in Reed-Solomon, shards to which the same bytes are added do not verify.
func TestAddedBytes(t *testing.T) {
	for _, size := range []int{12, 6} {
		shards := encoded(t, size, 5)
		for _, shard := range shards {
			for k := range shard {
				shard[k] ^= byte(3*k + 1)
			}
		}
		if ok, err := newEncoder(t, size).Verify(shards); ok || err != nil {
			t.Error(size, ok, err)
		}
	}
}

func TestReconstruct(t *testing.T) {
	for _, size := range []int{12, 6} {
		e, shards := newEncoder(t, size), encoded(t, size, 5)
		left := without(shards, 0, size-1, size+3)
		must(t, e.Reconstruct(left))
		expect(t, "all", left, shards)
		left = without(shards, 0, size-1, size+3)
		must(t, e.ReconstructData(left))
		expect(t, "data", left, without(shards, size+3))
		must(t, e.Reconstruct(left))
		expect(t, "all", left, shards)
	}
}

// The capacity of a missing shard is used if it is enough.
func TestReconstructInPlace(t *testing.T) {
	e, shards := newEncoder(t, 12), encoded(t, 12, 5)
	left, small, large := copied(shards), make([]byte, 4), make([]byte, 10)
	left[0], left[7], left[8] = small[:0], large[:0], large[5:5]
	must(t, e.Reconstruct(left))
	expect(t, "all", left, shards)
	if &left[0][0] == &small[0] || &left[7][0] != &large[0] || &left[8][0] != &large[5] {
		t.Error("other memory is used")
	}
	left[7], left[8] = large[:0], large[4:4]
	err := e.Reconstruct(left)
	if !errors.Is(err, coder.ErrBadArgument) || len(left[7]) != 0 || len(left[8]) != 0 {
		t.Errorf("%v: %v", err, left)
	}
}

// Only what is required is made, and a single loss of a group needs the others of the group alone.
func TestReconstructSome(t *testing.T) {
	e, shards := newEncoder(t, 12), encoded(t, 12, 5)
	required := make([]bool, 16)
	required[2], required[3], required[15] = true, true, true
	left := without(shards, 2, 9, 14, 15)
	must(t, e.ReconstructSome(left, required))
	expect(t, "some", left, without(shards, 9, 14))
	left = without(shards, 2, 9)
	must(t, e.ReconstructSome(left, required[:12]))
	expect(t, "some of the data", left, without(shards, 9))
	group := without(shards, 2, 6, 7, 8, 9, 10, 11, 13, 14, 15)
	wanted := append([][]byte(nil), group...)
	wanted[2] = shards[2]
	must(t, e.ReconstructSome(group, required[:12]))
	expect(t, "one of a group", group, wanted)
	for _, count := range []int{0, 11, 13, 15, 17} {
		left := without(shards, 2)
		err := e.ReconstructSome(left, make([]bool, count))
		if err != reedsolomon.ErrTooFewShards || left[2] != nil {
			t.Errorf("%d bools: %v", count, err)
		}
	}
}

// What is unrecoverable changes nothing, and has the errors of both packages.
func TestUnrecoverable(t *testing.T) {
	e, shards := newEncoder(t, 12), encoded(t, 12, 5)
	left := without(shards, 0, 1, 2, 3)
	for name, err := range map[string]error{
		"Reconstruct":     e.Reconstruct(left),
		"ReconstructData": e.ReconstructData(left),
		"ReconstructSome": e.ReconstructSome(left, []bool{0: true, 15: false}),
	} {
		if !errors.Is(err, reedsolomon.ErrTooFewShards) || !errors.Is(err, coder.ErrUnrecoverable) ||
			errors.Is(err, reedsolomon.ErrShardSize) ||
			err.Error() != "coder: Decode: fragment 0: the fragment is unrecoverable" {
			t.Errorf("%s: %v", name, err)
		}
	}
	expect(t, "shards", left, without(shards, 0, 1, 2, 3))
	left = without(shards, 0, 1, 2, 3, 4, 6)
	if err := e.Reconstruct(left); err != reedsolomon.ErrTooFewShards {
		t.Error(err)
	}
	expect(t, "shards", left, without(shards, 0, 1, 2, 3, 4, 6))
}

func TestUpdate(t *testing.T) {
	e, shards := newEncoder(t, 6), encoded(t, 6, 5)
	before, wanted := copied(shards), copied(shards)
	changed := make([][]byte, 6)
	changed[1], changed[4], changed[5] = []byte{9, 8, 7, 6, 5}, []byte{1, 2, 3, 4, 5}, []byte{}
	wanted[1], wanted[4] = changed[1], changed[4]
	must(t, e.Encode(wanted))
	must(t, e.Update(without(shards, 0, 5), changed))
	expect(t, "data", shards[:6], before[:6])
	expect(t, "parities", shards[6:], wanted[6:])
}

// refusals are calls on shards of 6+4 with 5 bytes, and their errors.
var refusals = map[string]struct {
	wanted error
	call   func(e reedsolomon.Encoder, shards [][]byte) error
}{
	"EncodeIdx of 3": {reedsolomon.ErrTooFewShards, func(e reedsolomon.Encoder, s [][]byte) error {
		return e.EncodeIdx(s[0], 0, s[7:])
	}},
	"EncodeIdx of -1": {reedsolomon.ErrInvShardNum, func(e reedsolomon.Encoder, s [][]byte) error {
		return e.EncodeIdx(s[0], -1, s[6:])
	}},
	"EncodeIdx of 6": {reedsolomon.ErrInvShardNum, func(e reedsolomon.Encoder, s [][]byte) error {
		return e.EncodeIdx(s[0], 6, s[6:])
	}},
	"EncodeIdx without a parity": {reedsolomon.ErrShardSize,
		func(e reedsolomon.Encoder, s [][]byte) error {
			return e.EncodeIdx(s[0], 0, without(s, 8)[6:])
		}},
	"EncodeIdx of 4 bytes": {reedsolomon.ErrShardSize,
		func(e reedsolomon.Encoder, s [][]byte) error { return e.EncodeIdx(s[0][:4], 0, s[6:]) }},
	"EncodeIdx of nothing": {reedsolomon.ErrShardNoData,
		func(e reedsolomon.Encoder, s [][]byte) error {
			return e.EncodeIdx(nil, 0, make([][]byte, 4))
		}},
	"Encode of 9": {reedsolomon.ErrTooFewShards, func(e reedsolomon.Encoder, s [][]byte) error {
		return e.Encode(s[:9])
	}},
	"Encode without a shard": {reedsolomon.ErrShardSize,
		func(e reedsolomon.Encoder, s [][]byte) error { return e.Encode(without(s, 0)) }},
	"Encode of nothing": {reedsolomon.ErrShardNoData,
		func(e reedsolomon.Encoder, s [][]byte) error { return e.Encode(make([][]byte, 10)) }},
	"Verify of 11": {reedsolomon.ErrTooFewShards, func(e reedsolomon.Encoder, s [][]byte) error {
		_, err := e.Verify(append(s, s[0]))
		return err
	}},
	"Reconstruct of 4 bytes": {reedsolomon.ErrShardSize,
		func(e reedsolomon.Encoder, s [][]byte) error {
			left := without(s, 0)
			left[3] = left[3][:4]
			return e.Reconstruct(left)
		}},
	"Update of 9": {reedsolomon.ErrTooFewShards, func(e reedsolomon.Encoder, s [][]byte) error {
		return e.Update(s[:9], s[:6])
	}},
	"Update by 10": {reedsolomon.ErrTooFewShards, func(e reedsolomon.Encoder, s [][]byte) error {
		return e.Update(s, s)
	}},
	"Update by nothing": {reedsolomon.ErrShardNoData,
		func(e reedsolomon.Encoder, s [][]byte) error { return e.Update(s, make([][]byte, 6)) }},
	"Update without an old shard": {reedsolomon.ErrInvalidInput,
		func(e reedsolomon.Encoder, s [][]byte) error { return e.Update(without(s, 3), s[:6]) }},
	"Update without a parity": {reedsolomon.ErrInvalidInput,
		func(e reedsolomon.Encoder, s [][]byte) error { return e.Update(without(s, 9), s[:6]) }},
	"Split of nothing": {reedsolomon.ErrShortData, func(e reedsolomon.Encoder, s [][]byte) error {
		_, err := e.Split(nil)
		return err
	}},
	"ReconstructSome of 9": {reedsolomon.ErrTooFewShards,
		func(e reedsolomon.Encoder, s [][]byte) error {
			return e.ReconstructSome(s[:9], make([]bool, 10))
		}},
	"Update by 4 bytes": {reedsolomon.ErrShardSize,
		func(e reedsolomon.Encoder, s [][]byte) error {
			changed := make([][]byte, 6)
			changed[0] = s[0][:4]
			return e.Update(s, changed)
		}},
	"Update that overlaps": {coder.ErrBadArgument,
		func(e reedsolomon.Encoder, s [][]byte) error {
			changed := make([][]byte, 6)
			changed[0], changed[1] = []byte{1, 2, 3, 4, 5}, s[8]
			return e.Update(s, changed)
		}},
	"Encode that overlaps": {coder.ErrBadArgument,
		func(e reedsolomon.Encoder, s [][]byte) error {
			same := append([][]byte(nil), s...)
			same[8] = s[9]
			return e.Encode(same)
		}},
}

// What is refused has written nothing.
func TestRefused(t *testing.T) {
	for name, each := range refusals {
		shards := encoded(t, 6, 5)
		before := copied(shards)
		err := each.call(newEncoder(t, 6), shards)
		if !errors.Is(err, each.wanted) {
			t.Errorf("%s: %v, want %v", name, err, each.wanted)
		}
		expect(t, name, shards, before)
	}
}

// The data is not copied, and what lies behind it is neither read nor written.
func TestSplit(t *testing.T) {
	e, block := newEncoder(t, 6), bytes.Repeat([]byte{0xEE}, 99)
	data := block[:14]
	for i := range data {
		data[i] = byte(i + 1)
	}
	shards, err := e.Split(data)
	must(t, err)
	expect(t, "shards", shards, [][]byte{
		{1, 2, 3}, {4, 5, 6}, {7, 8, 9}, {10, 11, 12}, {13, 14, 0}, {0, 0, 0},
		{0, 0, 0}, {0, 0, 0}, {0, 0, 0}, {0, 0, 0},
	})
	if &shards[3][0] != &data[9] || cap(shards[3]) != 3 || cap(shards[4]) != 3 {
		t.Error("the shards are copies, or have room")
	}
	must(t, e.Encode(shards))
	if !bytes.Equal(block[14:], bytes.Repeat([]byte{0xEE}, 85)) {
		t.Error("bytes behind the data are written")
	}
	for length, wanted := range map[int]int{1: 1, 6: 1, 7: 2, 12: 2, 13: 3} {
		shards, err := e.Split(block[:length])
		if must(t, err); len(shards[0]) != wanted || len(shards[9]) != wanted {
			t.Errorf("%d bytes: shards of %d", length, len(shards[0]))
		}
	}
}

// limited is a writer that takes so many bytes at a time, and fails after the last one.
type limited struct {
	bytes.Buffer
	room int
	err  error
}

func (l *limited) Write(p []byte) (int, error) {
	if len(p) > l.room {
		n, _ := l.Buffer.Write(p[:l.room])
		return n, l.err
	}
	return l.Buffer.Write(p)
}

func TestJoin(t *testing.T) {
	e, shards := newEncoder(t, 6), encoded(t, 6, 5)
	data := bytes.Join(shards[:6], nil)
	for size, wanted := range map[int]int{-1: 0, 0: 0, 1: 1, 5: 5, 6: 6, 29: 29, 30: 30} {
		var found bytes.Buffer
		must(t, e.Join(&found, shards, size))
		if !bytes.Equal(found.Bytes(), data[:wanted]) {
			t.Errorf("%d bytes: %v", size, found.Bytes())
		}
	}
	errDisk := errors.New("disk")
	for wanted, each := range map[string]error{"disk": errDisk, "short write": nil} {
		w := &limited{room: 3, err: each}
		err := e.Join(w, shards, 30)
		if err == nil || err.Error() != wanted || !bytes.Equal(w.Bytes(), data[:3]) {
			t.Errorf("%v, want %s", err, wanted)
		}
	}
	for size, wanted := range map[int]error{
		31: reedsolomon.ErrShortData, 30: nil,
	} {
		if err := e.Join(&bytes.Buffer{}, shards, size); err != wanted {
			t.Errorf("%d bytes: %v, want %v", size, err, wanted)
		}
	}
	err := e.Join(&bytes.Buffer{}, without(shards, 1), 6)
	if err != reedsolomon.ErrReconstructRequired {
		t.Error(err)
	}
	if err := e.Join(&bytes.Buffer{}, shards[:5], 1); err != reedsolomon.ErrTooFewShards {
		t.Error(err)
	}
}

// A program for that module, with another import and other numbers.
func Example() {
	enc, err := reedsolomon.New(12, 4)
	if err != nil {
		panic(err)
	}
	text := []byte("HELLO, FRAGMENTS OF DATA")
	shards, _ := enc.Split(text)
	if err := enc.Encode(shards); err != nil {
		panic(err)
	}
	shards[0], shards[1] = nil, nil
	if err := enc.Reconstruct(shards); err != nil {
		panic(err)
	}
	var whole bytes.Buffer
	if err := enc.Join(&whole, shards, len(text)); err != nil {
		panic(err)
	}
	fmt.Println(whole.String())
	// Output: HELLO, FRAGMENTS OF DATA
}
