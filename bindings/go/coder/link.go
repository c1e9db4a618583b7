//go:build !nopkgconfig

package coder

// #cgo pkg-config: lrc_coder
import "C"
