package reedsolomon

import "errors"

// ErrMatrix is of New with an option that asks for another matrix.
var ErrMatrix = errors.New("a Local Reconstruction Code has a matrix of its own: drop the option")

// Option is an option of New.
type Option func(*options)

type options struct{ err error }

// An option for the speed is accepted and has no effect: a call runs on the goroutine that makes
// it, and keeps no matrices.
func ignored(*options) {}

// refused is an option for another matrix.
func refused(o *options) { o.err = ErrMatrix }

// WithMaxGoroutines has no effect.
func WithMaxGoroutines(int) Option { return ignored }

// WithAutoGoroutines has no effect.
func WithAutoGoroutines(int) Option { return ignored }

// WithMinSplitSize has no effect.
func WithMinSplitSize(int) Option { return ignored }

// WithInversionCache has no effect.
func WithInversionCache(bool) Option { return ignored }

// WithFastOneParityMatrix has no effect: it is for one parity shard, and there are four.
func WithFastOneParityMatrix() Option { return ignored }

// WithPAR1Matrix makes New return ErrMatrix.
func WithPAR1Matrix() Option { return refused }

// WithCauchyMatrix makes New return ErrMatrix.
func WithCauchyMatrix() Option { return refused }
