// Shards puts blobs into a store of 16 shards, loses fragments, reads one blob, repairs all by two
// goroutines, and prints what it read and how much was repaired.
package main

import (
	"context"
	"fmt"
	"log"

	"lrcstore"
)

func main() {
	if err := run(context.Background()); err != nil {
		log.Fatal(err)
	}
}

func run(ctx context.Context) error {
	store, err := lrcstore.Open(4, lrcstore.WithShards(16)) // fragments of 4 bytes, no journals
	if err != nil {
		return err
	}
	for i := 0; i < 1000; i++ {
		if err := putAndLose(ctx, store, fmt.Sprintf("greeting-%d", i)); err != nil {
			return err
		}
	}
	blob, _, err := store.Get(ctx, "greeting-7") // a degraded read
	if err != nil {
		return err
	}
	repaired, err := mend(ctx, store)
	if err != nil {
		return err
	}
	numbers, err := store.Numbers(ctx)
	if err != nil {
		return err
	}
	fmt.Printf("%s: %d repaired, %d lost\n", blob, repaired, numbers.Lost)
	return store.Close()
}

// putAndLose puts a blob, of which fragments 0 and 2 of stripe 0 fail.
func putAndLose(ctx context.Context, store *lrcstore.Store, name string) error {
	if _, err := store.Put(ctx, name, []byte("HELLO, WORLD")); err != nil {
		return err
	}
	for _, fragment := range []int{0, 2} {
		if _, err := store.Lose(ctx, name, 0, fragment); err != nil {
			return err
		}
	}
	return nil
}

// mend repairs all that is lost by two goroutines, which share the work.
func mend(ctx context.Context, store *lrcstore.Store) (uint64, error) {
	type result struct {
		repaired uint64
		err      error
	}
	other := make(chan result)
	go func() {
		repaired, err := store.Mend(ctx)
		other <- result{repaired, err}
	}()
	here, err := store.Mend(ctx)
	there := <-other
	if err == nil {
		err = there.err
	}
	return here + there.repaired, err
}
