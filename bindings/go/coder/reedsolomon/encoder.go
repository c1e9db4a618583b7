// Package reedsolomon has the interface of github.com/klauspost/reedsolomon over lrcstore/coder.
// A program that uses that module tries LRC(12,2,2) and LRC(6,2,2) once it imports this package in
// its place, and asks for 12+4 or 6+4 shards. This package does not import that module.
//
// The shards have the numbers of package coder: after 12 data shards come the parities of shards 0
// to 5 and of 6 to 11, and then two of all. These are the differences from Reed-Solomon:
//
//   - Not every four lost shards are recoverable. Any three are, and of 12+4 shards 1,568 of the
//     1,820 sets of four. Four lost shards of one group of six with its parity are unrecoverable.
//     errors.Is then finds both ErrTooFewShards and coder.ErrUnrecoverable in the error.
//   - A single lost shard is made from six others (of 6+4 from three), and not from twelve:
//     ReconstructSome needs no other shards.
//   - The parities are not those of Reed-Solomon. Do not mix the shards of both. If the same bytes
//     are added to all shards, the parities do not fit any more.
//   - Update leaves the old data shards as they are.
//   - Split copies the last bytes of the data, and uses no capacity beyond its length.
//   - No call starts a goroutine. Options for the speed have no effect, and New refuses those for
//     another matrix.
//   - Shards may not overlap, and are refused if they do.
//
// There is no StreamEncoder. ReadStripe and WriteStripe of package coder take an io.Reader and an
// io.Writer.
package reedsolomon

import (
	"errors"
	"fmt"
	"io"

	"lrcstore/coder"
)

// What calls return. An argument that package coder refuses is an error of that package.
var (
	// ErrInvShardNum: New with less than 1 data shard or 0 parity shards, or EncodeIdx with a
	// number that no data shard has.
	ErrInvShardNum = errors.New("invalid number of shards")
	// ErrMaxShardNum: New with more than 256 shards.
	ErrMaxShardNum = errors.New("more than 256 shards")
	// ErrTooFewShards: fewer or more shards than a call takes, or too few remain.
	ErrTooFewShards = errors.New("too few shards")
	// ErrShardNoData: all shards are empty.
	ErrShardNoData = errors.New("no shard has bytes")
	// ErrShardSize: shards have different lengths.
	ErrShardSize = errors.New("shards have different lengths")
	// ErrInvalidInput: Update without a shard that it needs.
	ErrInvalidInput = errors.New("a shard is missing that the update needs")
	// ErrShortData: Split of no bytes, or Join of fewer bytes than it is to write.
	ErrShortData = errors.New("too few bytes")
	// ErrReconstructRequired: Join without a data shard that it needs.
	ErrReconstructRequired = errors.New("a data shard is missing: reconstruct it first")
)

// Encoder encodes and reconstructs shards, for any number of goroutines. A call that returns an
// error has written nothing, except Join.
type Encoder interface {
	// Encode writes the parity shards of the data shards.
	Encode(shards [][]byte) error
	// EncodeIdx adds a data shard to the parity shards, which are zero before the first one. Every
	// data shard has to be added once.
	EncodeIdx(dataShard []byte, idx int, parity [][]byte) error
	// Verify reports whether the parity shards are those of the data shards.
	Verify(shards [][]byte) (bool, error)
	// Reconstruct makes the missing shards, which are nil or have no bytes. It uses the capacity of
	// one that has enough, and allocates the others.
	Reconstruct(shards [][]byte) error
	// ReconstructData makes the missing data shards alone.
	ReconstructData(shards [][]byte) error
	// ReconstructSome makes the missing shards that are required. It is given a bool for each shard,
	// or for each data shard. For a single loss of a group it needs the others of the group alone:
	// the rest may be missing.
	ReconstructSome(shards [][]byte, required []bool) error
	// Update changes the parity shards from the old data shards to the new ones. A new one that is
	// missing is not changed, and its old one may be missing.
	Update(shards [][]byte, newDatashards [][]byte) error
	// Split cuts data into data shards, and adds shards for the parities. The data is not copied,
	// except the last bytes, which are followed by zeros.
	Split(data []byte) ([][]byte, error)
	// Join writes the first outSize bytes of the data shards to dst.
	Join(dst io.Writer, shards [][]byte, outSize int) error
}

// New returns an encoder of LRC(12,2,2) for 12+4 shards, or of LRC(6,2,2) for 6+4. It refuses other
// numbers.
func New(dataShards, parityShards int, opts ...Option) (Encoder, error) {
	if dataShards <= 0 || parityShards < 0 {
		return nil, ErrInvShardNum
	}
	if dataShards > 256 || parityShards > 256-dataShards {
		return nil, ErrMaxShardNum
	}
	code := coder.Code(dataShards)
	if code != coder.LRC12 && code != coder.LRC6 || parityShards != parities {
		return nil, fmt.Errorf("%d+%d shards, expected 12+4 or 6+4: %w", dataShards, parityShards,
			coder.ErrBadArgument)
	}
	var o options
	for _, option := range opts {
		option(&o)
	}
	if o.err != nil {
		return nil, o.err
	}
	return encoder{code}, nil
}
