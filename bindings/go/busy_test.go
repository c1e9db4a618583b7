package lrcstore

import (
	"context"
	"os"
	"testing"
	"time"
)

// The library's waiting forms are those of tests/store/busy.c: each call has the deadline of its
// context, and one without an end has none.
func TestBusy(t *testing.T) {
	if os.Getenv("LRC_BUSY") == "" {
		t.Skip("needs LRC_BUSY and the library of tests/store/busy.c")
	}
	s := openedStore(t)
	defer s.Close()
	for name, call := range calls {
		ctx, cancel := context.WithTimeout(context.Background(), 30*time.Millisecond)
		expectSoon(t, context.DeadlineExceeded, func() error { return call(s, ctx) })
		cancel()
		ctx, cancel = context.WithCancel(context.Background())
		time.AfterFunc(5*time.Millisecond, cancel)
		expectSoon(t, context.Canceled, func() error { return call(s, ctx) })
		expectSoon(t, ErrNoPass, func() error { return call(s, context.Background()) })
		if t.Failed() {
			t.Fatal(name)
		}
	}
}
