package lrcstore_test

import (
	"context"
	"fmt"
	"log"
	"sync"
	"sync/atomic"
	"time"

	"lrcstore"
)

func Example() {
	ctx, cancel := context.WithTimeout(context.Background(), time.Minute)
	defer cancel()
	store, err := lrcstore.Open(4) // fragments of 4 bytes
	if err != nil {
		log.Fatal(err)
	}
	if _, err := store.Put(ctx, "greeting", []byte("HELLO, WORLD")); err != nil {
		log.Fatal(err)
	}
	for _, fragment := range []int{0, 2} {
		if _, err := store.Lose(ctx, "greeting", 0, fragment); err != nil {
			log.Fatal(err)
		}
	}
	blob, _, err := store.Get(ctx, "greeting") // rebuilds the bytes of both fragments
	if err != nil {
		log.Fatal(err)
	}
	fmt.Println(string(blob))
	fmt.Println(mendTwice(ctx, store), "fragments repaired")
	if err := store.Close(); err != nil {
		log.Fatal(err)
	}
	// Output:
	// HELLO, WORLD
	// 2 fragments repaired
}

// mendTwice mends by two goroutines, and returns how many fragments they repaired.
func mendTwice(ctx context.Context, store *lrcstore.Store) uint64 {
	var wait sync.WaitGroup
	var repaired atomic.Uint64
	for i := 0; i < 2; i++ {
		wait.Add(1)
		go func() {
			defer wait.Done()
			mended, err := store.Mend(ctx)
			if err != nil {
				log.Print(err)
			}
			repaired.Add(mended)
		}()
	}
	wait.Wait()
	return repaired.Load()
}
