// Package theirs lets the tests of github.com/klauspost/reedsolomon run over package reedsolomon.
package theirs

import ours "lrcstore/coder/reedsolomon"

// The names that the tests use.
type Option = ours.Option

var (
	New                    = ours.New
	ErrTooFewShards        = ours.ErrTooFewShards
	ErrShardNoData         = ours.ErrShardNoData
	ErrShardSize           = ours.ErrShardSize
	ErrShortData           = ours.ErrShortData
	ErrReconstructRequired = ours.ErrReconstructRequired
)

// The numbers of shards and of bytes in place of those of the tests.
var (
	testSizes          = [][2]int{{12, 4}, {6, 4}}
	testDataSizes      = []int{10, 100, 1000, 10001, 100003, 1000055}
	testDataSizesShort = []int{10, 10001, 100003}
)

func testOptions(o ...Option) []Option { return o }

// testOpts has the options that do not ask for another matrix.
func testOpts() [][]Option {
	return [][]Option{
		{ours.WithMaxGoroutines(1), ours.WithMinSplitSize(500)},
		{ours.WithAutoGoroutines(50000), ours.WithFastOneParityMatrix()},
		{ours.WithInversionCache(false)},
	}
}
