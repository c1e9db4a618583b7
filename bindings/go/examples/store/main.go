// Store puts a blob, loses two fragments, reads it, repairs both and prints it.
package main

import (
	"context"
	"fmt"
	"log"

	"lrcstore"
)

func main() {
	if err := run(context.Background()); err != nil {
		log.Fatal(err)
	}
}

func run(ctx context.Context) error {
	store, err := lrcstore.Open(4) // fragments of 4 bytes
	if err != nil {
		return err
	}
	if _, err := store.Put(ctx, "greeting", []byte("HELLO, WORLD")); err != nil {
		return err
	}
	for _, fragment := range []int{0, 2} { // fragments 0 and 2 of stripe 0 fail
		if _, err := store.Lose(ctx, "greeting", 0, fragment); err != nil {
			return err
		}
	}
	blob, _, err := store.Get(ctx, "greeting") // a degraded read
	if err != nil {
		return err
	}
	if _, err := store.Mend(ctx); err != nil {
		return err
	}
	fmt.Println(string(blob))
	return store.Close()
}
