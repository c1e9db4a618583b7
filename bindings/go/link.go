//go:build !nopkgconfig

package lrcstore

// #cgo pkg-config: lrc_store
import "C"
