package lrcstore_test

import (
	"errors"
	"fmt"
	"sync"
	"testing"

	"lrcstore"
)

// Goroutines share a store of 16 shards, and two of them mend.
func TestShards(t *testing.T) {
	const goroutines, turns = 8, 20
	store := opened(t, lrcstore.WithShards(16), lrcstore.WithJournal(200))
	var group sync.WaitGroup
	for i := 0; i < goroutines; i++ {
		group.Add(1)
		go func(i int) {
			defer group.Done()
			for turn := 0; turn < turns; turn++ {
				putLoseAndGet(t, store, fmt.Sprintf("n%d", i*turns+turn))
			}
		}(i)
	}
	group.Wait()
	var repaired [2]uint64
	for i := range repaired {
		group.Add(1)
		go func(i int) {
			defer group.Done()
			var err error
			if repaired[i], err = store.Mend(background); err != nil {
				t.Error(err)
			}
		}(i)
	}
	group.Wait()
	if sum := repaired[0] + repaired[1]; sum != goroutines*turns {
		t.Errorf("%d repaired", sum)
	}
	before, _ := store.Numbers(background)
	discarded := must(t)(store.Trim(background, 3))
	numbers, err := store.Numbers(background)
	if err != nil || numbers.Blobs != goroutines*turns || numbers.Lost != 0 ||
		numbers.Entries != before.Entries-discarded || numbers.Entries > 3*16 {
		t.Errorf("%+v, %v, %d discarded", numbers, err, discarded)
	}
}

// putLoseAndGet puts a blob, loses a fragment of it and reads it.
func putLoseAndGet(t *testing.T, store *lrcstore.Store, name string) {
	if _, err := store.Put(background, name, []byte(name)); err != nil {
		t.Error(err)
	}
	if _, err := store.Lose(background, name, 0, 0); err != nil {
		t.Error(err)
	}
	if blob, _, err := store.Get(background, name); err != nil || string(blob) != name {
		t.Errorf("%s: %q, %v", name, blob, err)
	}
}

func TestShardsAreRefused(t *testing.T) {
	for _, count := range []int{-1, 0, 65, 1 << 32} {
		if store, err := lrcstore.Open(4, lrcstore.WithShards(count)); store != nil ||
			!errors.Is(err, lrcstore.ErrBadArgument) {
			t.Errorf("%d shards: %v", count, err)
		}
	}
	if _, err := opened(t, lrcstore.WithShards(2)).Stat(background, "A"); !errors.Is(err,
		lrcstore.ErrBadName) {
		t.Error(err)
	}
}

// A fragment is restored at the shard of the version's name.
func TestRestoreInAShard(t *testing.T) {
	store := opened(t, lrcstore.WithShards(16))
	for i := 0; i < 20; i++ {
		name := fmt.Sprintf("n%d", i)
		must(t)(store.Put(background, name, pattern(100)))
		version := held(t, store, name)
		whole, err := version.Fragment(0, 1)
		if err != nil {
			t.Fatal(err)
		}
		must(t)(store.Lose(background, name, 0, 1))
		must(t)(store.Restore(background, version, 0, 1, whole))
	}
	if numbers, err := store.Numbers(background); err != nil || numbers.Lost != 0 {
		t.Errorf("%+v, %v", numbers, err)
	}
}
