package lrcstore

import (
	"context"
	"errors"
	"runtime"
	"strings"
	"testing"
	"time"
)

// prompt is how soon a call has to return once its context ends.
const prompt = time.Minute

// calls are all methods of a store that take a context.
var calls = map[string]func(s *Store, ctx context.Context) error{
	"Put":   func(s *Store, ctx context.Context) error { return second(s.Put(ctx, "a", nil)) },
	"PutIn": func(s *Store, ctx context.Context) error { return second(s.PutIn(ctx, LRC6, "a", nil)) },
	"Get": func(s *Store, ctx context.Context) error {
		_, _, err := s.Get(ctx, "a")
		return err
	},
	"ReadAt": func(s *Store, ctx context.Context) error { return second(s.ReadAt(ctx, "a", nil, 0)) },
	"Lend": func(s *Store, ctx context.Context) error {
		_, err := s.Lend(ctx, "a", 0, 0)
		return err
	},
	"Lose":   func(s *Store, ctx context.Context) error { return second(s.Lose(ctx, "a", 0, 0)) },
	"Repair": func(s *Store, ctx context.Context) error { return second(s.Repair(ctx, "a", 0, 0)) },
	"Delete": func(s *Store, ctx context.Context) error { return second(s.Delete(ctx, "a")) },
	"Stat": func(s *Store, ctx context.Context) error {
		_, err := s.Stat(ctx, "a")
		return err
	},
	"Trim": func(s *Store, ctx context.Context) error { return second(s.Trim(ctx, 0)) },
	"Mend": func(s *Store, ctx context.Context) error { return second(s.Mend(ctx)) },
	"Hold": func(s *Store, ctx context.Context) error {
		_, err := s.Hold(ctx, "a")
		return err
	},
	"Numbers": func(s *Store, ctx context.Context) error {
		_, err := s.Numbers(ctx)
		return err
	},
}

func second(_ uint64, err error) error { return err }

func openedStore(t *testing.T) *Store {
	t.Helper()
	s, err := Open(4)
	if err != nil {
		t.Fatal(err)
	}
	return s
}

// occupy takes all sessions, so that a call waits, and returns a function that gives them back.
func occupy(s *Store) (free func()) {
	for i := 0; i < sessions; i++ {
		s.calls <- struct{}{}
	}
	return func() {
		for i := 0; i < sessions; i++ {
			<-s.calls
		}
	}
}

// expectSoon runs a call, which has to return this error before long.
func expectSoon(t *testing.T, want error, call func() error) {
	t.Helper()
	done := make(chan error, 1)
	go func() { done <- call() }()
	select {
	case err := <-done:
		if !errors.Is(err, want) {
			t.Errorf("%v, want %v", err, want)
		}
	case <-time.After(prompt):
		t.Fatalf("waits, want %v", want)
	}
}

// untilOthersWait returns when no goroutine but this one runs or could run, in several looks.
func untilOthersWait() {
	stacks := make([]byte, 1<<20)
	for looks := 0; looks < 10; looks++ {
		time.Sleep(time.Millisecond)
		text := string(stacks[:runtime.Stack(stacks, true)])
		if strings.Count(text, " [running") != 1 || strings.Contains(text, " [runnable") {
			looks = -1
		}
	}
}

func TestContextEnded(t *testing.T) {
	s := openedStore(t)
	defer s.Close()
	cancelled, cancel := context.WithCancel(context.Background())
	cancel()
	late, cancel := context.WithDeadline(context.Background(), time.Now())
	defer cancel()
	for name, call := range calls {
		if err := call(s, cancelled); err != context.Canceled {
			t.Errorf("%s, cancelled: %v", name, err)
		}
		if err := call(s, late); err != context.DeadlineExceeded {
			t.Errorf("%s, late: %v", name, err)
		}
	}
	if _, err := s.Stat(context.Background(), "a"); !errors.Is(err, ErrNoName) {
		t.Errorf("a call whose context had ended was made: %v", err)
	}
}

func TestContextEndsInLine(t *testing.T) {
	s := openedStore(t)
	defer s.Close()
	defer occupy(s)()
	for _, call := range calls {
		ctx, cancel := context.WithTimeout(context.Background(), time.Millisecond)
		expectSoon(t, context.DeadlineExceeded, func() error { return call(s, ctx) })
		cancel()
		ctx, cancel = context.WithCancel(context.Background())
		time.AfterFunc(time.Millisecond, cancel)
		expectSoon(t, context.Canceled, func() error { return call(s, ctx) })
	}
}

// The store is busy for as long as it is asked: C waits only for slices of the context's time.
func TestContextEndsInC(t *testing.T) {
	s := openedStore(t)
	defer s.Close()
	var asked []int64
	busy := func(ms int64) reply {
		asked = append(asked, ms)
		time.Sleep(time.Duration(ms) * time.Millisecond)
		return reply{status: 1}
	}
	do := func(ctx context.Context) error {
		_, err := s.do(ctx, "Put", "a", busy)
		return err
	}
	ctx, cancel := context.WithTimeout(context.Background(), 30*time.Millisecond)
	defer cancel()
	expectSoon(t, context.DeadlineExceeded, func() error { return do(ctx) })
	ctx, cancel = context.WithCancel(context.Background())
	time.AfterFunc(30*time.Millisecond, cancel)
	expectSoon(t, context.Canceled, func() error { return do(ctx) })
	for _, ms := range asked {
		if ms < 1 || ms > longestWait.Milliseconds() {
			t.Errorf("C waits for %d ms", ms)
		}
	}
	if len(s.calls) != 0 {
		t.Errorf("%d sessions are still taken", len(s.calls))
	}
}

func TestPatience(t *testing.T) {
	if ms, err := patience(context.Background()); ms != -1 || err != nil {
		t.Errorf("without an end: %d, %v", ms, err)
	}
	ctx, cancel := context.WithTimeout(context.Background(), time.Hour)
	defer cancel()
	if ms, err := patience(ctx); ms != longestWait.Milliseconds() || err != nil {
		t.Errorf("an hour: %d, %v", ms, err)
	}
}

func TestClosed(t *testing.T) {
	s := openedStore(t)
	if err := s.Close(); err != nil {
		t.Fatal(err)
	}
	ctx, cancel := context.WithTimeout(context.Background(), prompt)
	defer cancel()
	for name, call := range calls {
		err := call(s, ctx)
		var refused *Error
		if !errors.As(err, &refused) || refused.Err != ErrClosed || refused.Op != name {
			t.Fatalf("%s: %v", name, err)
		}
	}
	expectSoon(t, ErrClosed, s.Close)
}

// Close waits for the calls under way, and ends those that wait for their turn.
func TestCloseWaits(t *testing.T) {
	s := openedStore(t)
	free := occupy(s)
	waiting, closed := make(chan error, 1), make(chan error, 1)
	go func() { waiting <- second(s.Put(context.Background(), "a", nil)) }()
	go func() { closed <- s.Close() }()
	expectSoon(t, ErrClosed, func() error { return <-waiting })
	untilOthersWait()
	select {
	case err := <-closed:
		t.Fatalf("closed while calls are under way: %v", err)
	default:
	}
	free()
	expectSoon(t, nil, func() error { return <-closed })
}

// Mend stops between its repairs, and returns how many it made.
func TestMendStops(t *testing.T) {
	s, background := openedStore(t), context.Background()
	defer s.Close()
	const stripes = 2000
	if _, err := s.Put(background, "a", make([]byte, stripes*48)); err != nil {
		t.Fatal(err)
	}
	for stripe := 0; stripe < stripes; stripe++ {
		if _, err := s.Lose(background, "a", stripe, 0); err != nil {
			t.Fatal(err)
		}
	}
	ctx := &countdown{Context: background, left: 100, done: make(chan struct{})}
	repaired, err := s.Mend(ctx)
	if shape, _ := s.Stat(background, "a"); err != context.Canceled || repaired == 0 ||
		uint64(shape.Lost)+repaired != stripes {
		t.Errorf("Mend: %d, %v; %d are lost", repaired, err, shape.Lost)
	}
}

// A context that ends at any of a mend's steps, a plan or a repair, ends the mend there.
func TestMendEndsAtEachStep(t *testing.T) {
	background := context.Background()
	const stripes = 513 // two parts of the plan
	for steps := 0; steps <= stripes+5; steps++ {
		if steps > 5 && steps < stripes {
			continue
		}
		s := openedStore(t)
		if _, err := s.Put(background, "a", make([]byte, stripes*48)); err != nil {
			t.Fatal(err)
		}
		for stripe := 0; stripe < stripes; stripe++ {
			if _, err := s.Lose(background, "a", stripe, 15); err != nil {
				t.Fatal(err)
			}
		}
		// a plan, 512 repairs and their end, a plan, a repair and its end
		want, wantErr := uint64(0), error(context.Canceled)
		switch {
		case steps >= stripes+4:
			want, wantErr = stripes, nil
		case steps >= stripes+3:
			want = stripes
		case steps > 512:
			want = 512
		case steps > 0:
			want = uint64(steps - 1)
		}
		ctx := &countdown{Context: background, left: steps, done: make(chan struct{})}
		repaired, err := s.Mend(ctx)
		if repaired != want || err != wantErr {
			t.Errorf("%d steps: %d, %v, want %d, %v", steps, repaired, err, want, wantErr)
		}
		if shape, _ := s.Stat(background, "a"); uint64(shape.Lost)+repaired != stripes {
			t.Errorf("%d steps: %d are lost", steps, shape.Lost)
		}
		s.Close()
	}
}

// countdown is a context that ends once it was asked so often.
type countdown struct {
	context.Context
	left int
	done chan struct{}
}

func (c *countdown) Done() <-chan struct{} { return c.done }

func (c *countdown) Err() error {
	if c.left--; c.left < 0 {
		return context.Canceled
	}
	return nil
}

// Two mends that begin one after the other begin with shards that lie far apart.
func TestFirstShard(t *testing.T) {
	s := &Store{count: 16}
	for i, want := range []uint32{0, 9, 3, 13} {
		if first := s.firstShard(); first != want {
			t.Errorf("mend %d begins with %d, want %d", i, first, want)
		}
	}
}
