// Package both compares the encoders of github.com/klauspost/reedsolomon and of package
// reedsolomon.
package both

import (
	"bytes"
	"fmt"
	"io"
	"testing"

	theirs "github.com/klauspost/reedsolomon"

	"lrcstore/coder"
	ours "lrcstore/coder/reedsolomon"
)

// What has our interface has theirs, and our options are made as theirs are.
var _ theirs.Encoder = ours.Encoder(nil)

var options = map[string][2]interface{}{
	"WithMaxGoroutines":       {theirs.WithMaxGoroutines, ours.WithMaxGoroutines},
	"WithAutoGoroutines":      {theirs.WithAutoGoroutines, ours.WithAutoGoroutines},
	"WithMinSplitSize":        {theirs.WithMinSplitSize, ours.WithMinSplitSize},
	"WithInversionCache":      {theirs.WithInversionCache, ours.WithInversionCache},
	"WithFastOneParityMatrix": {theirs.WithFastOneParityMatrix, ours.WithFastOneParityMatrix},
	"WithPAR1Matrix":          {theirs.WithPAR1Matrix, ours.WithPAR1Matrix},
	"WithCauchyMatrix":        {theirs.WithCauchyMatrix, ours.WithCauchyMatrix},
}

// errors are theirs, and the ones of the same name that are ours.
var errors = map[error]error{
	nil:                           nil,
	theirs.ErrInvShardNum:         ours.ErrInvShardNum,
	theirs.ErrMaxShardNum:         ours.ErrMaxShardNum,
	theirs.ErrTooFewShards:        ours.ErrTooFewShards,
	theirs.ErrShardNoData:         ours.ErrShardNoData,
	theirs.ErrShardSize:           ours.ErrShardSize,
	theirs.ErrInvalidInput:        ours.ErrInvalidInput,
	theirs.ErrShortData:           ours.ErrShortData,
	theirs.ErrReconstructRequired: ours.ErrReconstructRequired,
}

func TestOptions(t *testing.T) {
	for name, each := range options {
		their, our := fmt.Sprintf("%T", each[0]), fmt.Sprintf("%T", each[1])
		if their != our {
			t.Errorf("%s is %s, want %s", name, our, their)
		}
	}
}

func TestNew(t *testing.T) {
	for _, each := range [][2]int{
		{0, 1}, {-1, 4}, {1, -1}, {256, 1}, {12, 256}, {256, 256}, {12, 4}, {6, 4},
	} {
		_, their := theirs.New(each[0], each[1])
		_, our := ours.New(each[0], each[1])
		if our != errors[their] {
			t.Errorf("%v: %v, want %v", each, our, their)
		}
	}
}

// shards returns so many shards of so many bytes, of which these are nil.
func shards(count, size int, missing ...int) [][]byte {
	made := make([][]byte, count)
	for i := range made {
		made[i] = bytes.Repeat([]byte{byte(3*i + 1)}, size)
	}
	for _, i := range missing {
		made[i] = nil
	}
	return made
}

// with returns shards with one of another size.
func with(shards [][]byte, number, size int) [][]byte {
	shards[number] = make([]byte, size)
	return shards
}

// calls are those of either encoder, with good and bad arguments.
var calls = map[string]func(e theirs.Encoder) error{
	"encode":             func(e theirs.Encoder) error { return e.Encode(shards(16, 5)) },
	"encode 15":          func(e theirs.Encoder) error { return e.Encode(shards(15, 5)) },
	"encode 17":          func(e theirs.Encoder) error { return e.Encode(shards(17, 5)) },
	"encode nothing":     func(e theirs.Encoder) error { return e.Encode(shards(16, 0)) },
	"encode a short one": func(e theirs.Encoder) error { return e.Encode(with(shards(16, 5), 3, 4)) },
	"encode without one": func(e theirs.Encoder) error { return e.Encode(shards(16, 5, 13)) },
	"verify 15":          func(e theirs.Encoder) error { return failed(e.Verify(shards(15, 5))) },
	"verify nothing":     func(e theirs.Encoder) error { return failed(e.Verify(shards(16, 0))) },
	"verify a short one": func(e theirs.Encoder) error {
		return failed(e.Verify(with(shards(16, 5), 15, 4)))
	},
	"reconstruct 15":      func(e theirs.Encoder) error { return e.Reconstruct(shards(15, 5)) },
	"reconstruct nothing": func(e theirs.Encoder) error { return e.Reconstruct(shards(16, 0)) },
	"reconstruct all":     func(e theirs.Encoder) error { return e.Reconstruct(shards(16, 5)) },
	"reconstruct three": func(e theirs.Encoder) error {
		return e.Reconstruct(shards(16, 5, 0, 7, 15))
	},
	"reconstruct five": func(e theirs.Encoder) error {
		return e.Reconstruct(shards(16, 5, 0, 1, 7, 14, 15))
	},
	"reconstruct a short one": func(e theirs.Encoder) error {
		return e.Reconstruct(with(shards(16, 5, 0), 3, 4))
	},
	"reconstruct data": func(e theirs.Encoder) error {
		return e.ReconstructData(shards(16, 5, 0, 12, 15))
	},
	"reconstruct data of five": func(e theirs.Encoder) error {
		return e.ReconstructData(shards(16, 5, 0, 12, 13, 14, 15))
	},
	"reconstruct data without parities": func(e theirs.Encoder) error {
		return e.ReconstructData(shards(16, 5, 12, 13, 14, 15))
	},
	"update": func(e theirs.Encoder) error {
		return e.Update(shards(16, 5, 7), shards(12, 5, 7, 8))
	},
	"update 15":      func(e theirs.Encoder) error { return e.Update(shards(15, 5), shards(12, 5)) },
	"update by 11":   func(e theirs.Encoder) error { return e.Update(shards(16, 5), shards(11, 5)) },
	"update by 16":   func(e theirs.Encoder) error { return e.Update(shards(16, 5), shards(16, 5)) },
	"update nothing": func(e theirs.Encoder) error { return e.Update(shards(16, 0), shards(12, 5)) },
	"update by nothing": func(e theirs.Encoder) error {
		return e.Update(shards(16, 5), shards(12, 0))
	},
	"update without an old one": func(e theirs.Encoder) error {
		return e.Update(shards(16, 5, 3), shards(12, 5))
	},
	"update without a parity": func(e theirs.Encoder) error {
		return e.Update(shards(16, 5, 13), shards(12, 5))
	},
	"update a short one": func(e theirs.Encoder) error {
		return e.Update(with(shards(16, 5), 2, 4), shards(12, 5))
	},
	"update by a short one": func(e theirs.Encoder) error {
		return e.Update(shards(16, 5), with(shards(12, 5), 2, 4))
	},
	"split nothing": func(e theirs.Encoder) error { return split(e, nil) },
	"split":         func(e theirs.Encoder) error { return split(e, make([]byte, 13)) },
	"join":          func(e theirs.Encoder) error { return e.Join(io.Discard, shards(12, 5), 60) },
	"join none":     func(e theirs.Encoder) error { return e.Join(io.Discard, nil, 0) },
	"join 11":       func(e theirs.Encoder) error { return e.Join(io.Discard, shards(11, 5), 5) },
	"join too much": func(e theirs.Encoder) error { return e.Join(io.Discard, shards(16, 5), 61) },
	"join without the second": func(e theirs.Encoder) error {
		return e.Join(io.Discard, shards(16, 5, 1), 6)
	},
	"join without what is not needed": func(e theirs.Encoder) error {
		return e.Join(io.Discard, shards(16, 5, 1), 5)
	},
}

func failed(_ bool, err error) error { return err }

func split(e theirs.Encoder, data []byte) error {
	_, err := e.Split(data)
	return err
}

// Each call returns the error of the same name.
func TestErrors(t *testing.T) {
	their, err := theirs.New(12, 4)
	if err != nil {
		t.Fatal(err)
	}
	our, err := ours.New(12, 4)
	if err != nil {
		t.Fatal(err)
	}
	for name, call := range calls {
		wanted, found := call(their), call(our)
		if known, has := errors[wanted]; !has || found != known {
			t.Errorf("%s: %v, want %v", name, found, wanted)
		}
	}
}

// Data is split in the same way, and joined from the shards of the other one.
func TestSplits(t *testing.T) {
	for _, size := range []int{6, 12} {
		their, _ := theirs.New(size, 4)
		our, _ := ours.New(size, 4)
		for length := 1; length < 100; length++ {
			data := bytes.Repeat([]byte{7, 9, 11}, length)[:length:length]
			wanted, _ := their.Split(data)
			found, err := our.Split(data)
			var whole bytes.Buffer
			if joining := our.Join(&whole, wanted, length); err != nil || joining != nil {
				t.Fatal(err, joining)
			}
			if fmt.Sprint(wanted) != fmt.Sprint(found) || !bytes.Equal(whole.Bytes(), data) {
				t.Errorf("%d bytes: %v, want %v", length, found, wanted)
			}
		}
	}
}

// Four lost shards of a group are recoverable by theirs alone.
func TestFourOfAGroup(t *testing.T) {
	for _, e := range []theirs.Encoder{mustTheirs(t), mustOurs(t)} {
		made := shards(16, 5)
		if err := e.Encode(made); err != nil {
			t.Fatal(err)
		}
		for _, i := range []int{0, 1, 2, 3} {
			made[i] = nil
		}
		err := e.Reconstruct(made)
		if _, isOurs := e.(ours.Encoder); isOurs != (err != nil) {
			t.Error(err)
		}
	}
}

func mustTheirs(t *testing.T) theirs.Encoder {
	e, err := theirs.New(12, 4)
	if err != nil {
		t.Fatal(err)
	}
	return e
}

func mustOurs(t *testing.T) theirs.Encoder {
	e, err := ours.New(int(coder.LRC12), 4)
	if err != nil {
		t.Fatal(err)
	}
	return e
}
