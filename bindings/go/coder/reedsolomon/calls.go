package reedsolomon

import (
	"errors"
	"io"

	"lrcstore/coder"
)

const parities = 4

// encoder is the Encoder of a code.
type encoder struct{ code coder.Code }

// unrecoverable is the error of a set of lost shards that is unrecoverable, though as many shards
// remain as there are data shards.
type unrecoverable struct{ error }

func (e unrecoverable) Unwrap() error { return e.error }

// Is reports whether this is also the error that Reed-Solomon has for it.
func (e unrecoverable) Is(target error) bool { return target == ErrTooFewShards }

// sizeOf returns the length of the first shard that has bytes, or 0.
func sizeOf(shards [][]byte) int {
	for _, shard := range shards {
		if len(shard) != 0 {
			return len(shard)
		}
	}
	return 0
}

// checkSizes returns an error unless all shards have one length, except missing ones if those may
// be, and one has bytes.
func checkSizes(shards [][]byte, mayMiss bool) error {
	size := sizeOf(shards)
	if size == 0 {
		return ErrShardNoData
	}
	for _, shard := range shards {
		if len(shard) != size && !(mayMiss && len(shard) == 0) {
			return ErrShardSize
		}
	}
	return nil
}

// check returns an error unless there are as many shards as the code has, of one length.
func (e encoder) check(shards [][]byte, mayMiss bool) error {
	if len(shards) != e.code.Fragments() {
		return ErrTooFewShards
	}
	return checkSizes(shards, mayMiss)
}

func (e encoder) Encode(shards [][]byte) error {
	if err := e.check(shards, false); err != nil {
		return err
	}
	return e.code.Encode(shards)
}

func (e encoder) EncodeIdx(dataShard []byte, idx int, parity [][]byte) error {
	if len(parity) != parities {
		return ErrTooFewShards
	}
	if idx < 0 || idx >= int(e.code) {
		return ErrInvShardNum
	}
	if err := checkSizes(parity, false); err != nil {
		return err
	}
	if len(dataShard) != len(parity[0]) {
		return ErrShardSize
	}
	return e.code.EncodeAdd(idx, dataShard, parity)
}

func (e encoder) Verify(shards [][]byte) (bool, error) {
	if err := e.check(shards, false); err != nil {
		return false, err
	}
	err := e.code.Verify(shards)
	if errors.Is(err, coder.ErrInconsistent) {
		return false, nil
	}
	return err == nil, err
}

func (e encoder) Reconstruct(shards [][]byte) error {
	return e.reconstruct(shards, e.code.Fragments())
}

func (e encoder) ReconstructData(shards [][]byte) error {
	return e.reconstruct(shards, int(e.code))
}

// reconstruct makes the missing shards below a number.
func (e encoder) reconstruct(shards [][]byte, end int) error {
	if err := e.check(shards, true); err != nil {
		return err
	}
	return e.makeShards(shards, func(number int) bool { return number < end })
}

func (e encoder) ReconstructSome(shards [][]byte, required []bool) error {
	if err := e.check(shards, true); err != nil {
		return err
	}
	if len(required) != len(shards) && len(required) != int(e.code) {
		return ErrTooFewShards
	}
	return e.makeShards(shards, func(number int) bool {
		return number < len(required) && required[number]
	})
}

// makeShards makes the missing shards that are wanted, and changes the slice once they are made.
func (e encoder) makeShards(shards [][]byte, isWanted func(number int) bool) error {
	size, present := sizeOf(shards), 0
	var wanted []int
	whole := make([][]byte, len(shards))
	for i, shard := range shards {
		if len(shard) != 0 {
			whole[i] = shard
			present++
		} else if isWanted(i) {
			wanted = append(wanted, i)
		}
	}
	for _, i := range wanted {
		if cap(shards[i]) >= size {
			whole[i] = shards[i][:size]
		} else {
			whole[i] = make([]byte, size)
		}
	}
	err := e.code.Decode(whole, wanted)
	if errors.Is(err, coder.ErrUnrecoverable) {
		if present < int(e.code) {
			return ErrTooFewShards
		}
		return unrecoverable{err}
	}
	if err != nil {
		return err
	}
	for _, i := range wanted {
		shards[i] = whole[i]
	}
	return nil
}

func (e encoder) Update(shards [][]byte, newDatashards [][]byte) error {
	if err := e.checkUpdate(shards, newDatashards); err != nil {
		return err
	}
	changed := make([][]byte, len(newDatashards))
	for i, shard := range newDatashards {
		if len(shard) != 0 {
			changed[i] = shard
		}
	}
	return e.code.Update(shards, changed)
}

func (e encoder) checkUpdate(shards [][]byte, newDatashards [][]byte) error {
	if err := e.check(shards, true); err != nil {
		return err
	}
	if len(newDatashards) != int(e.code) {
		return ErrTooFewShards
	}
	if err := checkSizes(newDatashards, true); err != nil {
		return err
	}
	if sizeOf(newDatashards) != sizeOf(shards) {
		return ErrShardSize
	}
	for i, shard := range shards {
		isRead := i >= int(e.code) || len(newDatashards[i]) != 0
		if isRead && len(shard) == 0 {
			return ErrInvalidInput
		}
	}
	return nil
}

func (e encoder) Split(data []byte) ([][]byte, error) {
	if len(data) == 0 {
		return nil, ErrShortData
	}
	size := (len(data) + int(e.code) - 1) / int(e.code)
	whole := len(data) / size // shards that are parts of the data
	shards := make([][]byte, e.code.Fragments())
	for i := 0; i < whole; i++ {
		shards[i] = data[i*size : (i+1)*size : (i+1)*size]
	}
	rest := make([]byte, (len(shards)-whole)*size)
	copy(rest, data[whole*size:])
	for i := whole; i < len(shards); i++ {
		shards[i], rest = rest[:size:size], rest[size:]
	}
	return shards, nil
}

func (e encoder) Join(dst io.Writer, shards [][]byte, outSize int) error {
	if len(shards) < int(e.code) {
		return ErrTooFewShards
	}
	size := 0
	for i := 0; i < int(e.code) && size < outSize; i++ {
		if len(shards[i]) == 0 {
			return ErrReconstructRequired
		}
		size += len(shards[i])
	}
	if size < outSize {
		return ErrShortData
	}
	for _, shard := range shards[:e.code] {
		if outSize <= 0 {
			return nil
		}
		if len(shard) > outSize {
			shard = shard[:outSize]
		}
		n, err := dst.Write(shard)
		if err != nil {
			return err
		}
		if n < len(shard) {
			return io.ErrShortWrite
		}
		outSize -= n
	}
	return nil
}
