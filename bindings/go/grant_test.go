package lrcstore_test

import (
	"bytes"
	"io"
	"net"
	"sync"
	"testing"
	"testing/iotest"

	"lrcstore"
)

func lent(t *testing.T, store *lrcstore.Store, name string, off, n int64) *lrcstore.Grant {
	t.Helper()
	grant, err := store.Lend(background, name, off, n)
	if err != nil {
		t.Fatal(err)
	}
	t.Cleanup(func() { grant.Close() })
	return grant
}

// degraded is a store with a blob of which each second stripe has lost a fragment.
func degraded(t *testing.T, blob []byte) (*lrcstore.Store, uint64) {
	store := opened(t)
	version := must(t)(store.Put(background, "blob", blob))
	for stripe := 0; stripe < len(blob)/(12*width); stripe += 2 {
		must(t)(store.Lose(background, "blob", stripe, stripe%12))
	}
	return store, version
}

func TestGrant(t *testing.T) {
	blob := pattern(5000)
	store, version := degraded(t, blob)
	for _, c := range []struct{ off, n int64 }{{0, 5000}, {0, 0}, {5000, 0}, {13, 1}, {77, 4800}} {
		grant, want := lent(t, store, "blob", c.off, c.n), blob[c.off:c.off+c.n]
		if grant.Size() != c.n || grant.Version() != version {
			t.Errorf("%d bytes of version %d", grant.Size(), grant.Version())
		}
		if err := iotest.TestReader(io.NewSectionReader(grant, 0, c.n), want); err != nil {
			t.Error(err)
		}
		var written bytes.Buffer
		if n, err := grant.WriteTo(&written); err != nil || n != c.n ||
			!bytes.Equal(written.Bytes(), want) {
			t.Errorf("WriteTo: %d, %v", n, err)
		}
	}
}

func TestGrantReadAtEnds(t *testing.T) {
	store, _ := degraded(t, pattern(100))
	grant := lent(t, store, "blob", 0, 100)
	p := make([]byte, 10)
	for _, c := range []struct {
		off int64
		n   int
		err error
	}{{0, 10, nil}, {90, 10, nil}, {91, 9, io.EOF}, {100, 0, io.EOF}, {1 << 62, 0, io.EOF}} {
		if n, err := grant.ReadAt(p, c.off); n != c.n || err != c.err {
			t.Errorf("ReadAt %d: %d, %v, want %d, %v", c.off, n, err, c.n, c.err)
		}
	}
	if n, err := grant.ReadAt(p, -1); n != 0 || err == nil {
		t.Errorf("ReadAt -1: %d, %v", n, err)
	}
}

// A grant that was written can be read and written again.
func TestGrantTwice(t *testing.T) {
	blob := pattern(3000)
	store, _ := degraded(t, blob)
	grant := lent(t, store, "blob", 7, 2900)
	for i := 0; i < 3; i++ {
		var written bytes.Buffer
		if n, err := grant.WriteTo(&written); err != nil || n != 2900 ||
			!bytes.Equal(written.Bytes(), blob[7:2907]) {
			t.Errorf("WriteTo, time %d: %d, %v", i, n, err)
		}
		p := make([]byte, 2900)
		if n, err := grant.ReadAt(p, 0); err != nil || n != 2900 || !bytes.Equal(p, blob[7:2907]) {
			t.Errorf("ReadAt, time %d: %d, %v", i, n, err)
		}
		if grant.Size() != 2900 {
			t.Errorf("size %d", grant.Size())
		}
	}
}

func TestGrantToConnection(t *testing.T) {
	blob := pattern(1 << 17)
	store, _ := degraded(t, blob)
	grant := lent(t, store, "blob", 0, int64(len(blob)))
	listener, err := net.Listen("tcp", "127.0.0.1:0")
	if err != nil {
		t.Skip(err)
	}
	defer listener.Close()
	sent := make(chan error, 1)
	go func() {
		connection, err := net.Dial("tcp", listener.Addr().String())
		if err == nil {
			_, err = grant.WriteTo(connection)
			connection.Close()
		}
		sent <- err
	}()
	connection, err := listener.Accept()
	if err != nil {
		t.Fatal(err)
	}
	got, err := io.ReadAll(connection)
	if sentErr := <-sent; err != nil || sentErr != nil || !bytes.Equal(got, blob) {
		t.Errorf("%d bytes, %v, %v", len(got), err, sentErr)
	}
}

// A grant's bytes stay while the blob is put, lost and deleted, and once the store is closed.
func TestGrantOutlivesStore(t *testing.T) {
	store, err := lrcstore.Open(width)
	if err != nil {
		t.Fatal(err)
	}
	blob := pattern(1000)
	must(t)(store.Put(background, "blob", blob))
	grant := lent(t, store, "blob", 0, 1000)
	must(t)(store.Lose(background, "blob", 0, 0))
	must(t)(store.Put(background, "blob", make([]byte, 1000)))
	must(t)(store.Delete(background, "blob"))
	if err := store.Close(); err != nil {
		t.Fatal(err)
	}
	p := make([]byte, 1000)
	if _, err := grant.ReadAt(p, 0); err != nil || !bytes.Equal(p, blob) {
		t.Errorf("%v", err)
	}
}

func TestGrantClosed(t *testing.T) {
	store, _ := degraded(t, pattern(100))
	grant := lent(t, store, "blob", 0, 100)
	if err := grant.Close(); err != nil {
		t.Fatal(err)
	}
	_, readErr := grant.ReadAt(make([]byte, 1), 0)
	_, writeErr := grant.WriteTo(io.Discard)
	for _, err := range []error{readErr, writeErr, grant.Close()} {
		expectStatus(t, err, lrcstore.ErrClosed)
	}
	if grant.Size() != 100 {
		t.Errorf("size %d", grant.Size())
	}
}

// Goroutines read a grant while another closes it: each reads all or is refused.
func TestGrantClosedMeanwhile(t *testing.T) {
	blob := pattern(1000)
	store, _ := degraded(t, blob)
	for round := 0; round < 50; round++ {
		grant := lent(t, store, "blob", 0, 1000)
		var wait sync.WaitGroup
		for i := 0; i < 4; i++ {
			wait.Add(1)
			go func() {
				defer wait.Done()
				p := make([]byte, 1000)
				if _, err := grant.ReadAt(p, 0); err == nil && !bytes.Equal(p, blob) {
					t.Error("bytes of a closed grant")
				}
			}()
		}
		grant.Close()
		wait.Wait()
	}
}

var _ interface {
	io.ReaderAt
	io.WriterTo
	io.Closer
} = (*lrcstore.Grant)(nil)
