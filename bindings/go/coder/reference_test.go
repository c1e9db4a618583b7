package coder_test

import "lrcstore/coder"

// A slow coder by docs/fragments.md, which shares nothing with the library.

// weights has the rows of the parities, by the code.
var weights = map[coder.Code][4][]byte{
	coder.LRC12: {
		{1, 1, 1, 1, 1, 1, 0, 0, 0, 0, 0, 0},
		{0, 0, 0, 0, 0, 0, 1, 1, 1, 1, 1, 1},
		{1, 2, 3, 4, 5, 6, 0x10, 0x20, 0x30, 0x40, 0x50, 0x60},
		{1, 4, 5, 0x10, 0x11, 0x14, 0x1D, 0x74, 0x69, 0xCD, 0xD0, 0xB9},
	},
	coder.LRC6: {
		{1, 1, 1, 0, 0, 0},
		{0, 0, 0, 1, 1, 1},
		{1, 2, 3, 0x10, 0x20, 0x30},
		{1, 4, 5, 0x1D, 0x74, 0x69},
	},
}

// product multiplies in the field with the polynomial 0x11D.
func product(a, b byte) (made byte) {
	for ; b != 0; b >>= 1 {
		if b&1 == 1 {
			made ^= a
		}
		over := a >> 7
		a = a<<1 ^ over*0x1D
	}
	return made
}

// rowOf returns what a fragment is of the data.
func rowOf(c coder.Code, fragment int) []byte {
	if fragment >= int(c) {
		return weights[c][fragment-int(c)]
	}
	row := make([]byte, c)
	row[fragment] = 1
	return row
}

// parityOf returns the bytes of a parity.
func parityOf(c coder.Code, data [][]byte, parity int) []byte {
	made := make([]byte, len(data[0]))
	for i, weight := range weights[c][parity] {
		for k, each := range data[i] {
			made[k] ^= product(weight, each)
		}
	}
	return made
}

// addRow adds a row times a coefficient to another one.
func addRow(to []byte, coefficient byte, row []byte) {
	for k := range to {
		to[k] ^= product(coefficient, row[k])
	}
}

// inverse returns the number whose product with another one is 1.
func inverse(a byte) byte {
	for b := 1; b < 256; b++ {
		if product(a, byte(b)) == 1 {
			return byte(b)
		}
	}
	return 0
}

// span keeps rows of which each has a 1 at its pivot, and no row after it has anything there.
type span struct {
	rows   [][]byte
	pivots []int
}

// reduced returns what is left of a row once it is reduced by those of the span.
func (s *span) reduced(row []byte) []byte {
	left := append([]byte(nil), row...)
	for i, pivot := range s.pivots {
		addRow(left, left[pivot], s.rows[i])
	}
	return left
}

func (s *span) add(row []byte) {
	left := s.reduced(row)
	for pivot, each := range left {
		if each != 0 {
			whole := make([]byte, len(left))
			addRow(whole, inverse(each), left)
			s.rows, s.pivots = append(s.rows, whole), append(s.pivots, pivot)
			return
		}
	}
}

// determined returns which lost fragments the others determine.
func determined(c coder.Code, lost []int) map[int]bool {
	var s span
	isLost := map[int]bool{}
	for _, fragment := range lost {
		isLost[fragment] = true
	}
	for fragment := 0; fragment < c.Fragments(); fragment++ {
		if !isLost[fragment] {
			s.add(rowOf(c, fragment))
		}
	}
	found := map[int]bool{}
	for _, fragment := range lost {
		found[fragment] = true
		for _, each := range s.reduced(rowOf(c, fragment)) {
			found[fragment] = found[fragment] && each == 0
		}
	}
	return found
}
