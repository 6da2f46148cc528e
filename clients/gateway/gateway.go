package main

import (
	"context"
	"fmt"
	"net"
	"strings"
	"time"

	"golang.org/x/net/netutil"
	"google.golang.org/grpc"
	"google.golang.org/grpc/keepalive"
	"google.golang.org/grpc/peer"
)

// limits bounds what clients and nodes can cost.
type limits struct {
	calls       int           // calls at a node at the same time; a node itself has 128 places
	waiting     int           // calls that wait for one of these to end
	connections int           // connections of clients for a node
	connect     time.Duration // for a connection to a node
	silence     time.Duration // for a node to take a frame, and to send one after the request has ended
	stall       time.Duration // for a client to take a message of an answer
	handshake   time.Duration // for the beginning of a client's connection
	idle        time.Duration // after which a client's connection without calls is closed
	ping        time.Duration // after which a silent client is asked whether it is there
	pong        time.Duration // for the answer to that
}

var standardLimits = limits{
	calls:       120,
	waiting:     1000,
	connections: 256,
	connect:     10 * time.Second,
	silence:     600 * time.Second,
	stall:       60 * time.Second,
	handshake:   10 * time.Second,
	idle:        5 * time.Minute,
	ping:        60 * time.Second,
	pong:        20 * time.Second,
}

// Sizes of HTTP/2. A stream's window is as small as it can be, since it bounds what is held for a call that
// waits; grpc widens it for each message that is being read.
const (
	streamWindow     = 64 << 10
	connectionWindow = 1 << 20
	bufferSize       = 64 << 10
	mostHeaders      = 64 << 10
)

// A gateway serves some nodes, each at a port of its own.
type gateway struct {
	nodes []*node
}

// A node is a node of the service as clients of gRPC see it.
type node struct {
	number    int
	address   string // the node's own, HOST:PORT
	listener  net.Listener
	server    *grpc.Server
	locations locations
	slots     *slots
	limits    limits
}

// gatewayAddress is the address at which a node is served.
func gatewayAddress(first, number int) string {
	return fmt.Sprintf("127.0.0.1:%d", first+number)
}

// openGateway opens a port for each node, from the first port on, and all of them or none.
func openGateway(first int, addresses []string, limits limits) (*gateway, error) {
	own := make([]string, len(addresses))
	for number := range addresses {
		own[number] = gatewayAddress(first, number)
	}
	gateway := &gateway{}
	for number, address := range addresses {
		listener, err := net.Listen("tcp4", own[number])
		if err != nil {
			gateway.close()
			return nil, err
		}
		gateway.nodes = append(gateway.nodes, &node{
			number:    number,
			address:   address,
			listener:  clientListener{netutil.LimitListener(listener, limits.connections)},
			locations: newLocations(addresses, own, number),
			slots:     newSlots(limits.calls, limits.waiting),
			limits:    limits,
		})
	}
	for _, node := range gateway.nodes {
		node.server = newServer(node.handle, limits)
	}
	return gateway, nil
}

// String has a line for each node.
func (g *gateway) String() string {
	var lines strings.Builder
	for _, node := range g.nodes {
		fmt.Fprintf(&lines, "node %d: %v -> %s\n", node.number, node.listener.Addr(), node.address)
	}
	return lines.String()
}

// start serves all nodes, and returns a channel for the error of one that can't be served any longer.
func (g *gateway) start() <-chan error {
	failed := make(chan error, len(g.nodes))
	for _, it := range g.nodes {
		go func(node *node) {
			if err := node.server.Serve(node.listener); err != nil {
				failed <- fmt.Errorf("node %d at %v: %w", node.number, node.listener.Addr(), err)
			}
		}(it)
	}
	return failed
}

// close ends all calls, as if each client had cancelled its own, and closes all ports.
func (g *gateway) close() {
	for _, node := range g.nodes {
		if node.server != nil {
			node.server.Stop()
		}
		node.listener.Close()
	}
}

// newServer is a server of gRPC that has handle for all calls, and leaves the bytes of messages as they are.
func newServer(handle grpc.StreamHandler, limits limits) *grpc.Server {
	return grpc.NewServer(
		grpc.CustomCodec(rawCodec{}),
		grpc.UnknownServiceHandler(handle),
		grpc.MaxRecvMsgSize(mostPayload),
		grpc.MaxHeaderListSize(mostHeaders),
		grpc.MaxConcurrentStreams(uint32(limits.calls+limits.waiting)),
		grpc.InitialWindowSize(streamWindow),
		grpc.InitialConnWindowSize(connectionWindow),
		grpc.ReadBufferSize(bufferSize),
		grpc.WriteBufferSize(bufferSize),
		grpc.ConnectionTimeout(limits.handshake),
		grpc.KeepaliveParams(keepalive.ServerParameters{
			MaxConnectionIdle: limits.idle,
			Time:              limits.ping,
			Timeout:           limits.pong,
		}),
		grpc.KeepaliveEnforcementPolicy(keepalive.EnforcementPolicy{
			MinTime:             10 * time.Second,
			PermitWithoutStream: true,
		}),
	)
}

// A rawCodec takes messages as the bytes that they are.
type rawCodec struct{}

// Marshal returns the bytes that a *[]byte points to.
func (rawCodec) Marshal(message interface{}) ([]byte, error) {
	return *message.(*[]byte), nil
}

// Unmarshal stores the bytes, which are the caller's own, where a *[]byte points to.
func (rawCodec) Unmarshal(data []byte, message interface{}) error {
	*message.(*[]byte) = data
	return nil
}

// Name is the codec's name for clients.
func (rawCodec) Name() string { return "proto" }

// String is its name for servers.
func (rawCodec) String() string { return "proto" }

// A clientListener accepts connections whose remote address can close them.
type clientListener struct{ net.Listener }

type clientConnection struct{ net.Conn }

type clientAddress struct {
	net.Addr
	connection net.Conn
}

// Accept waits for the next client.
func (l clientListener) Accept() (net.Conn, error) {
	connection, err := l.Listener.Accept()
	if err != nil {
		return nil, err
	}
	return clientConnection{connection}, nil
}

// RemoteAddr is the client's address, which knows its connection.
func (c clientConnection) RemoteAddr() net.Addr {
	return clientAddress{c.Conn.RemoteAddr(), c.Conn}
}

// disconnect closes the connection of the client that makes the call of this context, with all of its calls.
func disconnect(ctx context.Context) {
	if client, ok := peer.FromContext(ctx); ok {
		if address, ok := client.Addr.(clientAddress); ok {
			address.connection.Close()
		}
	}
}
