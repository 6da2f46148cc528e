package main

import (
	"context"
	"testing"
	"time"

	"google.golang.org/grpc/codes"
	"google.golang.org/grpc/status"
)

// waits returns once so many calls wait.
func waits(t *testing.T, s *slots, count int) {
	t.Helper()
	for end := time.Now().Add(10 * time.Second); len(s.waiting) != count; time.Sleep(time.Millisecond) {
		if time.Now().After(end) {
			t.Fatalf("%d calls wait in place of %d", len(s.waiting), count)
		}
	}
}

func TestCallsWaitInOrderAndFurtherOnesAreRefused(t *testing.T) {
	s := newSlots(2, 3)
	ctx := context.Background()
	for count := 0; count < 2; count++ {
		if err := s.take(ctx); err != nil {
			t.Fatal(err)
		}
	}
	served := make(chan int, 3)
	for count := 0; count < 3; count++ {
		go func(number int) {
			if s.take(ctx) == nil {
				served <- number
			}
		}(count)
		waits(t, s, count+1)
		time.Sleep(time.Millisecond)
	}
	if err := s.take(ctx); status.Code(err) != codes.ResourceExhausted {
		t.Errorf("a call too many: %v", err)
	}
	for count := 0; count < 3; count++ {
		s.free()
		if number := <-served; number != count {
			t.Errorf("call %d in place of %d", number, count)
		}
	}
}

func TestACallThatIsCancelledLeaves(t *testing.T) {
	s := newSlots(1, 1)
	if err := s.take(context.Background()); err != nil {
		t.Fatal(err)
	}
	ctx, cancel := context.WithCancel(context.Background())
	left := make(chan error, 1)
	go func() { left <- s.take(ctx) }()
	waits(t, s, 1)
	cancel()
	if err := <-left; status.Code(err) != codes.Canceled {
		t.Errorf("a cancelled call: %v", err)
	}
	waits(t, s, 0)
	ctx, cancel = context.WithTimeout(context.Background(), time.Millisecond)
	defer cancel()
	if err := s.take(ctx); status.Code(err) != codes.DeadlineExceeded {
		t.Errorf("a call whose deadline passed: %v", err)
	}
	s.free()
	if err := s.take(context.Background()); err != nil {
		t.Error(err)
	}
}
