package main

import (
	"bufio"
	"context"
	"errors"
	"fmt"
	"io"
	"net"
	"os"
	"sync/atomic"
	"time"

	"google.golang.org/grpc"
	"google.golang.org/grpc/codes"
	"google.golang.org/grpc/status"
)

// The paths of the calls that the service has.
const (
	getFlightInfo = "/arrow.flight.protocol.FlightService/GetFlightInfo"
	getSchema     = "/arrow.flight.protocol.FlightService/GetSchema"
	listFlights   = "/arrow.flight.protocol.FlightService/ListFlights"
	doGet         = "/arrow.flight.protocol.FlightService/DoGet"
	doPut         = "/arrow.flight.protocol.FlightService/DoPut"
)

// A call is a stream of a client and the connection to a node that is open for it.
type call struct {
	node       *node
	path       string
	stream     grpc.ServerStream
	connection net.Conn
	// ended says that the end of the request was written, or a part of it.
	ended atomic.Bool
}

// handle makes a client's call at the node.
func (n *node) handle(_ interface{}, stream grpc.ServerStream) error {
	path, _ := grpc.MethodFromServerStream(stream)
	switch path {
	case getFlightInfo, getSchema, listFlights, doGet, doPut:
	default:
		return status.Errorf(codes.Unimplemented,
			"%s is not carried: there are GetFlightInfo, GetSchema, ListFlights, DoGet and DoPut", path)
	}
	ctx := stream.Context()
	if err := n.slots.take(ctx); err != nil {
		return err
	}
	defer n.settle(ctx)
	c := &call{node: n, path: path, stream: stream}
	if err := c.connect(ctx); err != nil {
		return err
	}
	defer c.connection.Close()
	return c.carry()
}

// settle gives a call's slot back once grpc holds nothing of it any longer. A client that does not take the rest
// of an answer in time is disconnected.
func (n *node) settle(ctx context.Context) {
	go func() {
		timer := time.AfterFunc(n.limits.stall, func() { disconnect(ctx) })
		<-ctx.Done()
		timer.Stop()
		n.slots.free()
	}()
}

// connect opens the connection to the node.
func (c *call) connect(ctx context.Context) error {
	dialer := net.Dialer{Timeout: c.node.limits.connect}
	connection, err := dialer.DialContext(ctx, "tcp4", c.node.address)
	if err == nil {
		c.connection = connection
		return nil
	}
	if ctx.Err() != nil {
		return status.FromContextError(ctx.Err()).Err()
	}
	return c.fault(codes.Unavailable, fmt.Sprintf("can't be reached: %v", err))
}

// carry passes messages both ways until there is an answer, or the client's stream is over.
func (c *call) carry() error {
	broken := make(chan error, 1)
	answered := make(chan error, 1)
	go func() {
		if err := c.passRequest(); err != nil {
			broken <- err
		}
	}()
	go func() { answered <- c.passAnswer() }()
	ctx := c.stream.Context()
	select {
	case err := <-answered:
		return err
	case err := <-broken:
		return err
	case <-ctx.Done():
		return status.FromContextError(ctx.Err()).Err()
	}
}

// passRequest passes the client's messages on to the node, and the end of the request if the client itself ended
// its stream. Its error is that of a stream which ended otherwise. If the node takes no more, its answer says why.
func (c *call) passRequest() error {
	next := []byte(c.path)
	for {
		if err := c.write(messageFlag, next); err != nil {
			return nil
		}
		var message []byte
		err := c.stream.RecvMsg(&message)
		if err == io.EOF {
			c.end()
			return nil
		}
		if err != nil {
			return err
		}
		next = message
	}
}

// end writes the end of the request, by which the node takes an upload. It is called where RecvMsg has returned
// io.EOF, which grpc returns after the flag END_STREAM alone, and writes nothing if the call is over by now.
func (c *call) end() {
	if c.stream.Context().Err() != nil {
		return
	}
	c.ended.Store(true)
	if c.write(endFlag, nil) == nil {
		c.connection.SetReadDeadline(time.Now().Add(c.node.limits.silence))
	}
}

// write writes a frame to the node. If that fails, there is still a moment for the answer to be read.
func (c *call) write(flag byte, payload []byte) error {
	c.connection.SetWriteDeadline(time.Now().Add(c.node.limits.silence))
	err := writeFrame(c.connection, flag, payload)
	if err != nil {
		c.connection.SetReadDeadline(time.Now().Add(c.node.limits.connect))
	}
	return err
}

// passAnswer passes the messages of the node's answer on to the client, and returns the status of the call.
func (c *call) passAnswer() error {
	reader := bufio.NewReaderSize(c.connection, bufferSize)
	for {
		if c.ended.Load() {
			c.connection.SetReadDeadline(time.Now().Add(c.node.limits.silence))
		}
		flag, payload, err := readFrame(reader)
		if err != nil {
			return c.unanswered(err)
		}
		if flag == endFlag {
			found, err := readTrailer(payload)
			if err != nil {
				return c.unanswered(err)
			}
			return found.Err()
		}
		if c.path == doGet && !hasHeader(payload) {
			continue
		}
		if err := c.deliver(payload); err != nil {
			return err
		}
	}
}

// deliver passes a message of an answer on. A client that does not take it in time is disconnected.
func (c *call) deliver(message []byte) error {
	if c.path == getFlightInfo || c.path == listFlights {
		message = c.node.locations.inInfo(message)
	}
	ctx := c.stream.Context()
	timer := time.AfterFunc(c.node.limits.stall, func() { disconnect(ctx) })
	defer timer.Stop()
	return c.stream.SendMsg(&message)
}

// unanswered is the status of a call whose answer could not be read to its end.
func (c *call) unanswered(err error) error {
	switch {
	case errors.Is(err, errNoAnswer):
		return c.fault(codes.Internal, err.Error())
	case errors.Is(err, os.ErrDeadlineExceeded):
		return c.fault(codes.Unavailable, "was silent for too long")
	}
	return c.fault(codes.Unavailable, "closed the connection before the end of an answer")
}

// fault is a status that says what is wrong with the node, and of a put what became of the upload.
func (c *call) fault(code codes.Code, text string) error {
	upload := ""
	if c.path == doPut && c.ended.Load() {
		upload = "; the upload may have been taken: put it again with the same id"
	} else if c.path == doPut {
		upload = "; the upload was not taken: put it again with the same id"
	}
	return status.Errorf(code, "node %d (%s): %s%s", c.node.number, c.node.address, text, upload)
}
