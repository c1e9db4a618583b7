package lrcstore_test

import (
	"bytes"
	"context"
	"errors"
	"io"
	"sync"
	"testing"
	"testing/iotest"

	"lrcstore"
)

func held(t *testing.T, store *lrcstore.Store, name string) *lrcstore.Version {
	t.Helper()
	version, err := store.Hold(background, name)
	if err != nil {
		t.Fatal(err)
	}
	t.Cleanup(func() { version.Close() })
	return version
}

func TestVersionStaysAsItIs(t *testing.T) {
	blob := pattern(5000)
	store, number := degraded(t, blob)
	version := held(t, store, "blob")
	must(t)(store.Put(background, "blob", []byte("other")))
	must(t)(store.Delete(background, "blob"))
	if version.Number() != number || version.Size() != 5000 {
		t.Errorf("%d bytes of version %d", version.Size(), version.Number())
	}
	shape, err := version.Shape()
	want := lrcstore.VersionShape{Version: number, Len: 5000, Stripes: 105, Lost: 52, Width: width,
		Code: lrcstore.LRC12}
	if err != nil || shape != want {
		t.Errorf("%+v, %v", shape, err)
	}
	if lost, err := version.LostFragments(2); err != nil || lost != 1<<2 {
		t.Errorf("lost %b, %v", lost, err)
	}
	if err := store.Close(); err != nil {
		t.Fatal(err)
	}
	if err := iotest.TestReader(io.NewSectionReader(version, 0, 5000), blob); err != nil {
		t.Error(err)
	}
	grant, err := version.Lend(13, 4000)
	if err != nil {
		t.Fatal(err)
	}
	defer grant.Close()
	version.Close()
	var written bytes.Buffer
	if _, err := grant.WriteTo(&written); err != nil || !bytes.Equal(written.Bytes(), blob[13:4013]) {
		t.Errorf("WriteTo: %v", err)
	}
	if grant.Version() != number {
		t.Errorf("version %d", grant.Version())
	}
}

func TestVersionEnds(t *testing.T) {
	store, _ := degraded(t, pattern(100))
	version := held(t, store, "blob")
	for _, c := range []struct {
		off, length int64
		n           int
		err         error
	}{{90, 10, 10, nil}, {95, 10, 5, io.EOF}, {100, 10, 0, io.EOF}, {1 << 60, 1, 0, io.EOF}} {
		n, err := version.ReadAt(make([]byte, c.length), c.off)
		if n != c.n || err != c.err {
			t.Errorf("ReadAt of %d at %d: %d, %v", c.length, c.off, n, err)
		}
	}
	if _, err := version.ReadAt(make([]byte, 1), -1); err == nil {
		t.Error("a negative offset")
	}
	_, err := version.Lend(1, 100)
	refused(t, err, lrcstore.ErrOutOfRange)
	_, err = version.Fragment(0, 0)
	refused(t, err, lrcstore.ErrAlreadyLost)
	_, err = version.Fragment(3, 0)
	refused(t, err, lrcstore.ErrNoFragment)
	_, err = version.LostFragments(3)
	refused(t, err, lrcstore.ErrNoFragment)
	_, err = store.Hold(background, "none")
	refused(t, err, lrcstore.ErrNoName)
	if err := version.Close(); err != nil {
		t.Error(err)
	}
	_, err = version.Shape()
	refused(t, err, lrcstore.ErrClosed)
	_, err = version.ReadAt(make([]byte, 1), 0)
	refused(t, err, lrcstore.ErrClosed)
	_, err = store.Restore(background, version, 0, 0, make([]byte, width))
	refused(t, err, lrcstore.ErrClosed)
	refused(t, version.Close(), lrcstore.ErrClosed)
}

func refused(t *testing.T, err, want error) {
	t.Helper()
	if !errors.Is(err, want) {
		t.Errorf("%v, expected %v", err, want)
	}
}

func TestRestore(t *testing.T) {
	store, other, blob := opened(t), opened(t), pattern(96)
	number := must(t)(store.Put(background, "blob", blob))
	version := held(t, store, "blob")
	must(t)(store.Lose(background, "blob", 1, 3))
	fragment, err := version.Fragment(1, 3)
	if err != nil || !bytes.Equal(fragment, blob[60:64]) {
		t.Fatalf("%v, %v", fragment, err)
	}
	_, err = store.Restore(background, version, 1, 3, fragment[1:])
	refused(t, err, lrcstore.ErrBadArgument)
	_, err = store.Restore(background, version, 1, 3, nil)
	refused(t, err, lrcstore.ErrBadArgument)
	_, err = store.Restore(background, version, 0, 3, blob[12:16])
	refused(t, err, lrcstore.ErrNotLost)
	_, err = other.Restore(background, version, 1, 3, fragment)
	refused(t, err, lrcstore.ErrBadArgument)
	ended, cancel := context.WithCancel(background)
	cancel()
	if _, err = store.Restore(ended, version, 1, 3, fragment); err != context.Canceled {
		t.Errorf("%v", err)
	}
	if must(t)(store.Restore(background, version, 1, 3, fragment)) != number {
		t.Error("another version")
	}
	if shape, err := store.Stat(background, "blob"); err != nil || shape.Lost != 0 {
		t.Errorf("%+v, %v", shape, err)
	}
	if read, _, err := store.Get(background, "blob"); err != nil || !bytes.Equal(read, blob) {
		t.Errorf("Get: %v", err)
	}
}

// Five fragments of a stripe are lost: one of them comes back alone with its bytes, and not once
// the name has another blob.
func TestRestoreOfOneVersion(t *testing.T) {
	store, blob := opened(t), pattern(96)
	number := must(t)(store.Put(background, "blob", blob))
	version := held(t, store, "blob")
	for i := 0; i < 5; i++ {
		must(t)(store.Lose(background, "blob", 1, i))
	}
	_, err := store.Repair(background, "blob", 1, 3)
	refused(t, err, lrcstore.ErrUnrecoverable)
	if must(t)(store.Restore(background, version, 1, 3, blob[60:64])) != number {
		t.Error("another version")
	}
	must(t)(store.Put(background, "blob", blob))
	_, err = store.Restore(background, version, 1, 3, blob[60:64])
	refused(t, err, lrcstore.ErrReplaced)
	var failed *lrcstore.Error
	if !errors.As(err, &failed) || failed.Version != number+1 {
		t.Errorf("%+v", failed)
	}
}

func TestNameOf(t *testing.T) {
	if name := lrcstore.NameOf(nil); name != "................................" {
		t.Error(name)
	}
	store, key := opened(t), []byte("Some Key/\xff")
	if lrcstore.NameOf(key) == lrcstore.NameOf([]byte("Some Key/\xfe")) {
		t.Error("two keys have one name")
	}
	must(t)(store.Put(background, lrcstore.NameOf(key), key))
	if blob, _, err := store.Get(background, lrcstore.NameOf(key)); string(blob) != string(key) {
		t.Error(err)
	}
}

func TestNumbers(t *testing.T) {
	store := opened(t, lrcstore.WithJournal(100))
	must(t)(store.Put(background, "a", pattern(200)))
	must(t)(store.PutIn(background, lrcstore.LRC6, "b", pattern(1)))
	for fragment := 0; fragment < 4; fragment++ {
		must(t)(store.Lose(background, "a", 0, fragment))
	}
	must(t)(store.Trim(background, 5))
	numbers, err := store.Numbers(background)
	want := lrcstore.Numbers{Blobs: 2, Bytes: 201, Lost: 4, Unrecoverable: 1, Calls: 6, Entries: 5}
	if err != nil || numbers != want {
		t.Errorf("%+v, %v", numbers, err)
	}
}

func TestManyGoroutinesReadAVersion(t *testing.T) {
	blob := pattern(2000)
	store, _ := degraded(t, blob)
	version := held(t, store, "blob")
	var group sync.WaitGroup
	for i := 0; i < 8; i++ {
		group.Add(1)
		go func(i int) {
			defer group.Done()
			part := make([]byte, 100)
			for off := int64(i); off < 1900; off += 50 {
				if _, err := version.ReadAt(part, off); err != nil ||
					!bytes.Equal(part, blob[off:off+100]) {
					t.Errorf("at %d: %v", off, err)
				}
			}
		}(i)
	}
	group.Wait()
}
