package lrcstore_test

import (
	"bytes"
	"context"
	"errors"
	"fmt"
	"strings"
	"sync"
	"testing"
	"time"

	"lrcstore"
)

const width = 4

var background = context.Background()

// opened is a store that the test closes at its end.
func opened(t *testing.T, options ...lrcstore.Option) *lrcstore.Store {
	t.Helper()
	store, err := lrcstore.Open(width, options...)
	if err != nil {
		t.Fatal(err)
	}
	t.Cleanup(func() {
		if err := store.Close(); err != nil && !errors.Is(err, lrcstore.ErrClosed) {
			t.Error(err)
		}
	})
	return store
}

// must is the version that a call returned, which has to succeed.
func must(t *testing.T) func(version uint64, err error) uint64 {
	return func(version uint64, err error) uint64 {
		t.Helper()
		if err != nil {
			t.Fatal(err)
		}
		return version
	}
}

// pattern is a blob of so many bytes of which no two stripes are the same.
func pattern(length int) []byte {
	blob := make([]byte, length)
	for i := range blob {
		blob[i] = byte(i*7 + i>>8)
	}
	return blob
}

func TestPutAndGet(t *testing.T) {
	store := opened(t)
	codes := map[lrcstore.Code]int{lrcstore.LRC12: 12 * width, lrcstore.LRC6: 6 * width}
	for code, stripe := range codes {
		for _, length := range []int{0, 1, stripe - 1, stripe, stripe + 1, 10000} {
			blob := pattern(length)
			version := must(t)(store.PutIn(background, code, "blob", blob))
			got, seen, err := store.Get(background, "blob")
			if err != nil || !bytes.Equal(got, blob) || seen != version {
				t.Errorf("%d bytes: %d bytes of version %d, %v", length, len(got), seen, err)
			}
			shape, err := store.Stat(background, "blob")
			want := lrcstore.Shape{
				Version: version, Len: int64(length), Stripes: (length + stripe - 1) / stripe,
			}
			if err != nil || shape != want {
				t.Errorf("shape %+v, %v, want %+v", shape, err, want)
			}
		}
	}
}

func TestGetOfLostFragments(t *testing.T) {
	store, blob := opened(t), pattern(10000)
	must(t)(store.Put(background, "blob", blob))
	for stripe := 0; stripe < 10000/(12*width); stripe++ {
		must(t)(store.Lose(background, "blob", stripe, 5))
	}
	if got, _, err := store.Get(background, "blob"); err != nil || !bytes.Equal(got, blob) {
		t.Errorf("%d other bytes, %v", len(got), err)
	}
}

func TestPutIsInLRC12(t *testing.T) {
	store := opened(t)
	must(t)(store.Put(background, "blob", pattern(100)))
	if shape, err := store.Stat(background, "blob"); err != nil || shape.Stripes != 3 {
		t.Errorf("shape %+v, %v", shape, err)
	}
}

func TestReadAt(t *testing.T) {
	store, blob := opened(t), pattern(1000)
	version := must(t)(store.Put(background, "blob", blob))
	must(t)(store.Lose(background, "blob", 1, 3))
	must(t)(store.Lose(background, "blob", 1, 4))
	for start := 0; start <= len(blob); start += 37 {
		for _, length := range []int{0, 1, 4, 61, len(blob) - start} {
			if start+length > len(blob) {
				continue
			}
			p := make([]byte, length)
			seen := must(t)(store.ReadAt(background, "blob", p, int64(start)))
			if !bytes.Equal(p, blob[start:start+length]) || seen != version {
				t.Errorf("ReadAt %d, %d: %v of version %d", start, length, p, seen)
			}
		}
	}
}

func TestLoseAndRepair(t *testing.T) {
	store, blob := opened(t), pattern(1000)
	version := must(t)(store.Put(background, "blob", blob))
	for fragment := 0; fragment < 3; fragment++ {
		if seen := must(t)(store.Lose(background, "blob", 5, fragment)); seen != version {
			t.Errorf("Lose: version %d, want %d", seen, version)
		}
	}
	if seen := must(t)(store.Repair(background, "blob", 5, 1)); seen != version {
		t.Errorf("Repair: version %d, want %d", seen, version)
	}
	shape, err := store.Stat(background, "blob")
	want := lrcstore.Shape{Version: version, Len: 1000, Stripes: 21, Lost: 2}
	if err != nil || shape != want {
		t.Errorf("shape %+v, %v, want %+v", shape, err, want)
	}
	if seen := must(t)(store.Delete(background, "blob")); seen != version {
		t.Errorf("Delete: version %d, want %d", seen, version)
	}
	_, _, err = store.Get(background, "blob")
	expectStatus(t, err, lrcstore.ErrNoName)
}

// Mend repairs more fragments than it plans at once, and leaves those that cannot be rebuilt.
func TestMend(t *testing.T) {
	store := opened(t)
	const stripes = 700
	must(t)(store.Put(background, "whole", pattern(stripes*12*width)))
	must(t)(store.Put(background, "broken", pattern(12*width)))
	for stripe := 0; stripe < stripes; stripe++ {
		must(t)(store.Lose(background, "whole", stripe, stripe%16))
	}
	for fragment := 0; fragment < 5; fragment++ {
		must(t)(store.Lose(background, "broken", 0, fragment))
	}
	if repaired, err := store.Mend(background); err != nil || repaired != stripes {
		t.Errorf("Mend: %d, %v, want %d", repaired, err, stripes)
	}
	for name, lost := range map[string]int{"whole": 0, "broken": 5} {
		if shape, err := store.Stat(background, name); err != nil || shape.Lost != lost {
			t.Errorf("%s: %+v, %v, want %d lost", name, shape, err, lost)
		}
	}
}

// What is lost is listed by shard and name, in parts.
func TestLostFragments(t *testing.T) {
	store, want := opened(t, lrcstore.WithShards(8)), map[lrcstore.LostFragment]bool{}
	for i := 0; i < 42; i++ {
		name, stripes := fmt.Sprintf("n%02d", i), 1
		if i == 7 {
			stripes = 600
		}
		version := must(t)(store.Put(background, name, pattern(stripes*12*width)))
		for stripe := 0; stripe < stripes; stripe++ {
			must(t)(store.Lose(background, name, stripe, stripe%16))
			want[lrcstore.LostFragment{name, version, stripe, stripe % 16}] = true
		}
	}
	found, err := store.LostFragments(background)
	if err != nil || len(found) != len(want) {
		t.Fatalf("%d, %v, want %d", len(found), err, len(want))
	}
	for _, each := range found {
		if !want[each] {
			t.Errorf("%+v", each)
		}
	}
	must(t)(store.Mend(background))
	if found, err = store.LostFragments(background); err != nil || len(found) != 0 {
		t.Errorf("%v, %v", found, err)
	}
	ended, cancel := context.WithCancel(background)
	cancel()
	if _, err = store.LostFragments(ended); err != context.Canceled {
		t.Error(err)
	}
}

func expectStatus(t *testing.T, err error, want error) {
	t.Helper()
	if !errors.Is(err, want) {
		t.Errorf("%v, want %v", err, want)
	}
}

func TestOpenRefuses(t *testing.T) {
	for _, bad := range []int{0, -1, 65537, 1<<32 + 4} {
		_, err := lrcstore.Open(bad)
		expectStatus(t, err, lrcstore.ErrBadWidth)
	}
	for _, bad := range []int{0, -1, 1<<20 + 1, 1<<32 + 4} {
		_, err := lrcstore.Open(width, lrcstore.WithJournal(bad))
		expectStatus(t, err, lrcstore.ErrBadArgument)
	}
}

// second is the error of a call, without its version.
func second(_ uint64, err error) error { return err }

func TestStatuses(t *testing.T) {
	store := opened(t)
	blob := pattern(100)
	version := must(t)(store.Put(background, "blob", blob))
	must(t)(store.Put(background, "broken", blob))
	for fragment := 0; fragment < 5; fragment++ {
		must(t)(store.Lose(background, "broken", 0, fragment))
	}
	p := make([]byte, 10)
	lend := func(name string, off, n int64) error {
		_, err := store.Lend(background, name, off, n)
		return err
	}
	get := func(name string) error {
		_, _, err := store.Get(background, name)
		return err
	}
	stat := func(name string) error {
		_, err := store.Stat(background, name)
		return err
	}
	long := make([]byte, 4097*12*width)
	const broken = "broken"
	for _, c := range []struct {
		op, name string
		version  uint64
		want     lrcstore.Status
		err      error
	}{
		{"Put", "", 0, lrcstore.ErrBadName, second(store.Put(background, "", blob))},
		{"Put", "Blob", 0, lrcstore.ErrBadName, second(store.Put(background, "Blob", blob))},
		{"Put", "blob", 0, lrcstore.ErrTooLong, second(store.Put(background, "blob", long))},
		{"PutIn", "blob", 0, lrcstore.ErrBadArgument,
			second(store.PutIn(background, 7, "blob", blob))},
		{"Get", "none", 0, lrcstore.ErrNoName, get("none")},
		{"Get", broken, version + 1, lrcstore.ErrUnrecoverable, get(broken)},
		{"ReadAt", "none", 0, lrcstore.ErrNoName, second(store.ReadAt(background, "none", p, 0))},
		{"ReadAt", "blob", 0, lrcstore.ErrOutOfRange,
			second(store.ReadAt(background, "blob", p, 91))},
		{"ReadAt", "blob", 0, lrcstore.ErrOutOfRange,
			second(store.ReadAt(background, "blob", p, -1))},
		{"ReadAt", broken, version + 1, lrcstore.ErrUnrecoverable,
			second(store.ReadAt(background, broken, p, 0))},
		{"Lend", "none", 0, lrcstore.ErrNoName, lend("none", 0, 1)},
		{"Lend", "blob", 0, lrcstore.ErrOutOfRange, lend("blob", 91, 10)},
		{"Lend", "blob", 0, lrcstore.ErrOutOfRange, lend("blob", 0, -1)},
		{"Lend", broken, version + 1, lrcstore.ErrUnrecoverable, lend(broken, 0, 10)},
		{"Lose", "none", 0, lrcstore.ErrNoName, second(store.Lose(background, "none", 0, 0))},
		{"Lose", "blob", 0, lrcstore.ErrNoFragment,
			second(store.Lose(background, "blob", 0, 16))},
		{"Lose", "blob", 0, lrcstore.ErrNoFragment, second(store.Lose(background, "blob", -1, 0))},
		{"Lose", broken, 0, lrcstore.ErrAlreadyLost, second(store.Lose(background, broken, 0, 4))},
		{"Repair", "none", 0, lrcstore.ErrNoName, second(store.Repair(background, "none", 0, 0))},
		{"Repair", "blob", 0, lrcstore.ErrNotLost, second(store.Repair(background, "blob", 0, 1))},
		{"Repair", broken, version + 1, lrcstore.ErrUnrecoverable,
			second(store.Repair(background, broken, 0, 4))},
		{"Delete", "none", 0, lrcstore.ErrNoName, second(store.Delete(background, "none"))},
		{"Stat", "none", 0, lrcstore.ErrNoName, stat("none")},
	} {
		var refused *lrcstore.Error
		if !errors.As(c.err, &refused) {
			t.Errorf("%s %q: %v, want an *Error", c.op, c.name, c.err)
			continue
		}
		want := lrcstore.Error{Op: c.op, Name: c.name, Version: c.version, Err: c.want}
		if *refused != want {
			t.Errorf("%+v, want %+v", *refused, want)
		}
	}
}

func TestTexts(t *testing.T) {
	store := opened(t)
	_, _, err := store.Get(background, "none")
	if want := `lrcstore: Get "none": the name has no blob`; err == nil || err.Error() != want {
		t.Errorf("%v, want %s", err, want)
	}
	seen := map[string]bool{"unknown status": true}
	for status := lrcstore.ErrBusy; status <= lrcstore.ErrReplaced; status++ {
		if text := status.Error(); text == "" || seen[text] {
			t.Errorf("status %d: text %q", status, text)
		} else {
			seen[text] = true
		}
	}
}

func TestJournal(t *testing.T) {
	store := opened(t, lrcstore.WithJournal(700))
	for i := 0; i < 700; i++ {
		must(t)(store.Put(background, "blob", nil))
	}
	_, err := store.Stat(background, "blob")
	expectStatus(t, err, lrcstore.ErrJournalFull)
	if _, err = store.Mend(background); err != nil {
		t.Errorf("Mend of nothing: %v", err)
	}
	if discarded := must(t)(store.Trim(background, 100)); discarded != 600 {
		t.Errorf("Trim: %d, want 600", discarded)
	}
	must(t)(store.Delete(background, "blob"))
	if discarded := must(t)(opened(t).Trim(background, 0)); discarded != 0 {
		t.Errorf("Trim without a journal: %d", discarded)
	}
}

// A Get sees one blob, whose bytes all have one value, and its version.
func TestGetIsOfOneVersion(t *testing.T) {
	store := opened(t)
	version := must(t)(store.Put(background, "blob", nil))
	ctx, cancel := context.WithTimeout(background, 200*time.Millisecond)
	defer cancel()
	var wait sync.WaitGroup
	wait.Add(1)
	go func() { // each put has a length and a value of its own
		defer wait.Done()
		for i := 1; ctx.Err() == nil; i++ {
			value := byte(i * 97)
			blob := bytes.Repeat([]byte{value}, 100+int(value))
			if _, err := store.Put(background, "blob", blob); err != nil {
				t.Error(err)
			}
		}
	}()
	for ctx.Err() == nil {
		blob, seen, err := store.Get(background, "blob")
		if err != nil || seen < version {
			t.Errorf("version %d, then %d, %v", version, seen, err)
		}
		version = seen
		if len(blob) > 0 && (len(blob) != 100+int(blob[0]) ||
			bytes.Count(blob, blob[:1]) != len(blob)) {
			t.Errorf("a blob of two versions: %v", blob)
		}
	}
	wait.Wait()
}

// Many more goroutines than the store has sessions, each of which sees its own puts.
func TestManyGoroutines(t *testing.T) {
	store := opened(t)
	const goroutines, rounds = 200, 30
	failures := make(chan error, goroutines)
	for i := 0; i < goroutines; i++ {
		go func(i int) { failures <- puts(store, fmt.Sprintf("blob-%d", i), rounds) }(i)
	}
	for i := 0; i < goroutines; i++ {
		if err := <-failures; err != nil {
			t.Error(err)
		}
	}
}

func puts(store *lrcstore.Store, name string, rounds int) error {
	ctx, cancel := context.WithTimeout(background, time.Minute)
	defer cancel()
	for round := 0; round < rounds; round++ {
		blob := []byte(strings.Repeat(name, round))
		version, err := store.Put(ctx, name, blob)
		if err != nil {
			return err
		}
		if _, err := store.Put(ctx, "shared", blob); err != nil {
			return err
		}
		got, seen, err := store.Get(ctx, name)
		if err != nil || seen != version || !bytes.Equal(got, blob) {
			return fmt.Errorf("%s: %q of version %d, %v, want version %d", name, got, seen, err, version)
		}
	}
	return nil
}
