// Restore keeps a copy of a fragment, loses this one and four others, of which none can be rebuilt,
// restores it by the copy, repairs the others, and prints how many these were and the blob.
package main

import (
	"context"
	"errors"
	"fmt"
	"log"

	"lrcstore"
)

func main() {
	if err := run(context.Background()); err != nil {
		log.Fatal(err)
	}
}

func run(ctx context.Context) error {
	store, err := lrcstore.Open(4) // fragments of 4 bytes
	if err != nil {
		return err
	}
	defer store.Close()
	if _, err = store.Put(ctx, "greeting", []byte("HELLO, WORLD")); err != nil {
		return err
	}
	version, err := store.Hold(ctx, "greeting")
	if err != nil {
		return err
	}
	kept, err := version.Fragment(0, 2)
	if err != nil {
		return err
	}
	if err = lose(ctx, store); err != nil {
		return err
	}
	if _, err = store.Restore(ctx, version, 0, 2, kept); err != nil {
		return err
	}
	repaired, err := store.Mend(ctx)
	if err != nil {
		return err
	}
	blob, _, err := store.Get(ctx, "greeting")
	fmt.Printf("%d repaired: %s\n", repaired, blob)
	return err
}

// lose reports five fragments, after which the blob cannot be read.
func lose(ctx context.Context, store *lrcstore.Store) error {
	for _, fragment := range []int{0, 1, 2, 6, 7} {
		if _, err := store.Lose(ctx, "greeting", 0, fragment); err != nil {
			return err
		}
	}
	if _, _, err := store.Get(ctx, "greeting"); !errors.Is(err, lrcstore.ErrUnrecoverable) {
		return fmt.Errorf("a read of what is lost: %v", err)
	}
	return nil
}
