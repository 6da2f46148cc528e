package main

import (
	"context"
	"fmt"

	"google.golang.org/grpc/codes"
	"google.golang.org/grpc/status"
)

// slots bounds the calls at a node: so many are made at once, so many more wait in the order in which they came,
// and further ones are refused.
type slots struct {
	taken   chan struct{}
	waiting chan struct{}
}

func newSlots(calls, waiting int) *slots {
	return &slots{taken: make(chan struct{}, calls), waiting: make(chan struct{}, waiting)}
}

// take takes a slot, and waits for one until the call's context ends. The error is the status of the call.
func (s *slots) take(ctx context.Context) error {
	select {
	case s.taken <- struct{}{}:
		return nil
	default:
	}
	select {
	case s.waiting <- struct{}{}:
		defer func() { <-s.waiting }()
	default:
		text := fmt.Sprintf("%d calls are made at this node, and %d more wait", cap(s.taken), cap(s.waiting))
		return status.Error(codes.ResourceExhausted, text)
	}
	select {
	case s.taken <- struct{}{}:
		return nil
	case <-ctx.Done():
		return status.FromContextError(ctx.Err()).Err()
	}
}

// free gives a slot back.
func (s *slots) free() {
	<-s.taken
}
