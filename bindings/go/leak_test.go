package lrcstore_test

import (
	"encoding/binary"
	"os"
	"runtime"
	"testing"
	"time"

	"lrcstore"
)

// few is more blocks than the Go runtime keeps in C, and fewer than a use here would leave, which
// does each thing 20 times.
const few = 10

// blocks returns how many blocks of memory the library has, if it is that of tests/store/counted.c.
func blocks(t *testing.T) int64 {
	t.Helper()
	numbers, err := os.ReadFile(os.Getenv("LRC_COUNTED"))
	if err != nil || len(numbers) != 16 {
		t.Fatalf("%d bytes of numbers, %v", len(numbers), err)
	}
	return int64(binary.LittleEndian.Uint64(numbers))
}

// expectFew waits until the garbage collector has found all blocks but a few.
func expectFew(t *testing.T) {
	t.Helper()
	end := time.Now().Add(time.Minute)
	for blocks(t) >= few {
		if time.Now().After(end) {
			t.Fatalf("%d blocks of memory are left", blocks(t))
		}
		runtime.GC() // finalizers run beside it
		time.Sleep(time.Millisecond)
	}
}

// Whatever is closed, refused or dropped leaves no memory of the library.
func TestLeaks(t *testing.T) {
	if os.Getenv("LRC_COUNTED") == "" {
		t.Skip("needs LRC_COUNTED and the library of tests/store/counted.sh")
	}
	for name, use := range map[string]func(t *testing.T, store *lrcstore.Store){
		"calls":           useCalls,
		"refused calls":   useRefusedCalls,
		"closed grants":   func(t *testing.T, store *lrcstore.Store) { useGrants(t, store, true) },
		"dropped grants":  func(t *testing.T, store *lrcstore.Store) { useGrants(t, store, false) },
		"closed versions": func(t *testing.T, store *lrcstore.Store) { useVersions(t, store, true) },
		"dropped versions": func(t *testing.T, store *lrcstore.Store) {
			useVersions(t, store, false)
		},
	} {
		for _, shards := range []int{1, 16} {
			store, err := lrcstore.Open(width, lrcstore.WithShards(shards),
				lrcstore.WithJournal(1000))
			if err != nil {
				t.Fatal(err)
			}
			if blocks(t) < 2 {
				t.Errorf("a store of %d blocks", blocks(t))
			}
			must(t)(store.Put(background, "blob", pattern(1000)))
			must(t)(store.Lose(background, "blob", 0, 15))
			use(t, store)
			must(t)(store.Delete(background, "blob"))
			if err := store.Close(); err != nil {
				t.Fatal(err)
			}
			expectFew(t)
			t.Log(name, shards)
		}
	}
	for _, open := range []func() (*lrcstore.Store, error){
		func() (*lrcstore.Store, error) { return lrcstore.Open(0, lrcstore.WithShards(9)) },
		func() (*lrcstore.Store, error) { return lrcstore.Open(width, lrcstore.WithJournal(0)) },
	} {
		if _, err := open(); err == nil {
			t.Error("opened")
		}
	}
	expectFew(t)
}

func useCalls(t *testing.T, store *lrcstore.Store) {
	for i := 0; i < 20; i++ {
		must(t)(store.Put(background, "blob", pattern(100_000)))
		must(t)(store.Lose(background, "blob", 3, i%16))
		if _, _, err := store.Get(background, "blob"); err != nil {
			t.Error(err)
		}
	}
	must(t)(store.Mend(background))
	must(t)(store.Trim(background, 0))
}

func useRefusedCalls(t *testing.T, store *lrcstore.Store) {
	version := held(t, store, "blob")
	for i := 0; i < 20; i++ {
		_, lendErr := store.Lend(background, "blob", 10, 1000)
		_, noneErr := store.Lend(background, "none", 0, 1)
		_, holdErr := store.Hold(background, "none")
		_, rangeErr := version.Lend(10, 1000)
		_, lostErr := version.Fragment(0, 15)
		for _, err := range []error{lendErr, noneErr, holdErr, rangeErr, lostErr,
			second(store.Put(background, "BAD", pattern(100_000))),
			second(store.PutIn(background, 7, "blob", pattern(1000))),
			second(store.Restore(background, version, 0, 15, []byte("abc")))} {
			if err == nil {
				t.Error("a call is done")
			}
		}
	}
	if err := version.Close(); err != nil {
		t.Error(err)
	}
}

func useGrants(t *testing.T, store *lrcstore.Store, areClosed bool) {
	for i := 0; i < 20; i++ {
		grant, err := store.Lend(background, "blob", 5, 900)
		if err != nil {
			t.Fatal(err)
		}
		must(t)(store.Put(background, "blob", pattern(1000+i)))
		must(t)(store.Lose(background, "blob", 0, i%16))
		if areClosed {
			if err := grant.Close(); err != nil {
				t.Error(err)
			}
		}
	}
}

func useVersions(t *testing.T, store *lrcstore.Store, areClosed bool) {
	for i := 0; i < 20; i++ {
		version, err := store.Hold(background, "blob")
		if err != nil {
			t.Fatal(err)
		}
		must(t)(store.Put(background, "blob", pattern(1000+i)))
		if _, err := version.ReadAt(make([]byte, 100), 3); err != nil {
			t.Error(err)
		}
		if _, err := version.Lend(0, 10); err != nil { // a grant that is dropped
			t.Error(err)
		}
		if areClosed {
			if err := version.Close(); err != nil {
				t.Error(err)
			}
		}
	}
}
