package main

import (
	"bufio"
	"bytes"
	"context"
	"encoding/binary"
	"fmt"
	"io"
	"net"
	"strings"
	"testing"
	"time"

	"golang.org/x/net/http2"
	"golang.org/x/net/http2/hpack"
	"google.golang.org/grpc"
	"google.golang.org/grpc/codes"
	"google.golang.org/grpc/metadata"
	"google.golang.org/grpc/status"
)

// soon is how long a test waits for what has to come.
const soon = 20 * time.Second

// A fakeNode is a node that notes what comes, and answers as a test wants it.
type fakeNode struct {
	address  string
	messages chan string  // each message of a request, the path first
	requests chan request // each request, once it has ended or its connection is closed
}

// A request is what came over a connection to a node, up to an end frame or the end of the connection.
type request struct {
	messages []string
	ended    bool
}

// newFakeNode starts a node that does with each connection what answer does, once the request has ended.
func newFakeNode(t testing.TB, answer func(net.Conn)) *fakeNode {
	listener, err := net.Listen("tcp4", "127.0.0.1:0")
	if err != nil {
		t.Fatal(err)
	}
	t.Cleanup(func() { listener.Close() })
	node := &fakeNode{listener.Addr().String(), make(chan string, 1000), make(chan request, 100)}
	go func() {
		for {
			connection, err := listener.Accept()
			if err != nil {
				return
			}
			go node.take(connection, answer)
		}
	}()
	return node
}

func (n *fakeNode) take(connection net.Conn, answer func(net.Conn)) {
	defer connection.Close()
	var found request
	reader := bufio.NewReader(connection)
	for {
		flag, payload, err := readFrame(reader)
		if err != nil {
			break
		}
		if flag == endFlag {
			found.ended = true
			break
		}
		found.messages = append(found.messages, string(payload))
		n.messages <- string(payload)
	}
	n.requests <- found
	if found.ended {
		answer(connection)
	}
}

// answers is an answer of these messages and this trailer.
func answers(trailer string, messages ...string) func(net.Conn) {
	return func(connection net.Conn) {
		for _, message := range messages {
			writeFrame(connection, messageFlag, []byte(message))
		}
		writeFrame(connection, endFlag, []byte(trailer))
	}
}

// next is the next thing of a channel.
func next[T any](t *testing.T, things <-chan T) T {
	t.Helper()
	select {
	case thing := <-things:
		return thing
	case <-time.After(soon):
		t.Fatal("nothing came")
		panic("unreachable")
	}
}

// freePorts is the first of so many ports that are free.
func freePorts(t testing.TB, count int) int {
	for first := 20000 + time.Now().Nanosecond()%20000; ; first += count {
		gateway, err := openGateway(first, make([]string, count), standardLimits)
		if err == nil {
			gateway.close()
			return first
		}
		if first > 60000 {
			t.Fatal("no ports are free")
		}
	}
}

// testLimits are limits for tests: nobody waits for long.
func testLimits() limits {
	limits := standardLimits
	limits.connect = soon
	return limits
}

// startGateway starts a gateway before nodes, and returns it with a connection to its first port.
func startGateway(t testing.TB, limits limits, nodes ...string) (*gateway, *grpc.ClientConn) {
	gateway, err := openGateway(freePorts(t, len(nodes)), nodes, limits)
	if err != nil {
		t.Fatal(err)
	}
	gateway.start()
	t.Cleanup(gateway.close)
	return gateway, dial(t, gateway)
}

func dial(t testing.TB, gateway *gateway) *grpc.ClientConn {
	client, err := grpc.Dial(gateway.nodes[0].listener.Addr().String(), grpc.WithInsecure(),
		grpc.WithDefaultCallOptions(grpc.ForceCodec(rawCodec{})))
	if err != nil {
		t.Fatal(err)
	}
	t.Cleanup(func() { client.Close() })
	return client
}

// begin begins a call.
func begin(t testing.TB, ctx context.Context, client *grpc.ClientConn, path string) grpc.ClientStream {
	t.Helper()
	both := &grpc.StreamDesc{ClientStreams: true, ServerStreams: true}
	stream, err := client.NewStream(ctx, both, path)
	if err != nil {
		t.Fatal(err)
	}
	return stream
}

func send(t *testing.T, stream grpc.ClientStream, message string) {
	t.Helper()
	text := []byte(message)
	if err := stream.SendMsg(&text); err != nil {
		t.Fatal(err)
	}
}

// receive is what a call answers, and its status.
func receive(stream grpc.ClientStream) (messages []string, err error) {
	for {
		var message []byte
		if err := stream.RecvMsg(&message); err == io.EOF {
			return messages, nil
		} else if err != nil {
			return messages, err
		}
		messages = append(messages, string(message))
	}
}

// ask makes a whole call.
func ask(t testing.TB, client *grpc.ClientConn, path string, messages ...string) ([]string, error) {
	t.Helper()
	ctx, cancel := context.WithTimeout(context.Background(), soon)
	defer cancel()
	stream := begin(t, ctx, client, path)
	for _, message := range messages {
		text := []byte(message)
		if stream.SendMsg(&text) != nil {
			break // the call is over, and its status says why
		}
	}
	stream.CloseSend()
	return receive(stream)
}

// wants fails unless an error is a status of that code with a text that has this one in it.
func wants(t *testing.T, err error, code codes.Code, text string) {
	t.Helper()
	if found, _ := status.FromError(err); found.Code() != code || !strings.Contains(found.Message(), text) {
		t.Errorf("%v in place of %v: %s", err, code, text)
	}
}

func TestACallAndItsAnswer(t *testing.T) {
	large := strings.Repeat("x", mostPayload)
	node := newFakeNode(t, answers("\x00", "first", "", large))
	_, client := startGateway(t, testLimits(), node.address)
	found, err := ask(t, client, doPut, "", large, "last")
	if err != nil || len(found) != 3 || found[0] != "first" || found[1] != "" || found[2] != large {
		t.Errorf("%d messages and %v", len(found), err)
	}
	came := next(t, node.requests)
	if !came.ended || fmt.Sprint(came.messages) != fmt.Sprint([]string{doPut, "", large, "last"}) {
		t.Errorf("%d messages, ended: %v", len(came.messages), came.ended)
	}
}

func TestStatusesOfNodes(t *testing.T) {
	for _, row := range []struct {
		trailer string
		code    codes.Code
		text    string
	}{
		{"\x03BadTicket", codes.InvalidArgument, "BadTicket"},
		{"\x05NoTable", codes.NotFound, "NoTable"},
		{"\x0eUnavailable", codes.Unavailable, "Unavailable"},
		{"\x09Z\xc3\xbcrich 100%\n", codes.FailedPrecondition, "Zürich 100%\n"},
		{"\x11", codes.Internal, "node 0 ("},
		{"", codes.Internal, "its bytes are no answer: its trailer is empty"},
	} {
		node := newFakeNode(t, answers(row.trailer))
		_, client := startGateway(t, testLimits(), node.address)
		_, err := ask(t, client, getSchema, "descriptor")
		wants(t, err, row.code, row.text)
	}
}

func TestMessagesOfAnswers(t *testing.T) {
	sent := []string{part(2, "schema"), part(3, "an id"), part(2, "batch") + part(3, "an id"), "\x12\x05a"}
	for path, want := range map[string][]string{
		doGet:     {sent[0], sent[2], sent[3]},
		doPut:     sent,
		getSchema: sent,
	} {
		node := newFakeNode(t, answers("\x00", sent...))
		_, client := startGateway(t, testLimits(), node.address)
		if found, err := ask(t, client, path, ""); err != nil || fmt.Sprint(found) != fmt.Sprint(want) {
			t.Errorf("%s: %q and %v", path, found, err)
		}
	}
}

func TestInfosHaveTheGatewaysLocations(t *testing.T) {
	for _, path := range []string{getFlightInfo, listFlights} {
		var info string
		node := newFakeNode(t, func(connection net.Conn) { answers("\x00", info, "")(connection) })
		gateway, client := startGateway(t, testLimits(), node.address, "127.0.0.1:1")
		info = part(infoEndpoint, location("plain+tcp://127.0.0.1:1")+location("plain+tcp://"+node.address))
		want := part(infoEndpoint, location("grpc+tcp://"+gateway.nodes[0].listener.Addr().String())+
			location("grpc+tcp://"+gateway.nodes[1].listener.Addr().String()))
		if found, err := ask(t, client, path, ""); err != nil || len(found) != 2 || found[0] != want || found[1] != "" {
			t.Errorf("%s: %q and %v", path, found, err)
		}
	}
}

func TestCallsThatThereAreNot(t *testing.T) {
	node := newFakeNode(t, answers("\x00"))
	_, client := startGateway(t, testLimits(), node.address)
	for _, path := range []string{
		"/arrow.flight.protocol.FlightService/Handshake", "/arrow.flight.protocol.FlightService/DoAction", doGet + "s",
		"/other.Service/DoGet", "/grpc.health.v1.Health/Check",
	} {
		_, err := ask(t, client, path, "")
		wants(t, err, codes.Unimplemented, path)
	}
	if len(node.requests) != 0 {
		t.Error("a node was called")
	}
}

func TestNodesThatDoNotAnswer(t *testing.T) {
	nobody, err := net.Listen("tcp4", "127.0.0.1:0")
	if err != nil {
		t.Fatal(err)
	}
	nobody.Close()
	limits := testLimits()
	limits.silence = 50 * time.Millisecond
	taken, notTaken := "; the upload may have been taken: put it again with", "; the upload was not taken: put it again with"
	for name, row := range map[string]struct {
		address string
		code    codes.Code
		text    string
		upload  string
	}{
		"nobody":    {nobody.Addr().String(), codes.Unavailable, "can't be reached: dial tcp4", notTaken},
		"no answer": {newFakeNode(t, func(net.Conn) {}).address, codes.Unavailable, "closed the connection", taken},
		"a part of an answer": {newFakeNode(t, func(connection net.Conn) {
			connection.Write([]byte{messageFlag, 0, 0, 0, 5, 'a'})
		}).address, codes.Unavailable, "closed the connection", taken},
		"other bytes": {newFakeNode(t, func(connection net.Conn) {
			connection.Write([]byte("HTTP/1.1 400 Bad Request\r\n"))
		}).address, codes.Internal, "its bytes are no answer", taken},
		"silence": {newFakeNode(t, func(net.Conn) { time.Sleep(soon) }).address, codes.Unavailable, "was silent", taken},
	} {
		_, client := startGateway(t, limits, row.address)
		for _, path := range []string{doGet, doPut} {
			_, err := ask(t, client, path, "")
			wants(t, err, row.code, row.text)
			if found := status.Convert(err).Message(); strings.Contains(found, row.upload) != (path == doPut) {
				t.Errorf("%s: %s", name, found)
			}
		}
	}
}

func TestARefusalBeforeTheEndOfARequest(t *testing.T) {
	listener, err := net.Listen("tcp4", "127.0.0.1:0")
	if err != nil {
		t.Fatal(err)
	}
	defer listener.Close()
	go func() {
		connection, err := listener.Accept()
		if err == nil {
			answers("\x03NoSchema")(connection)
			time.Sleep(soon)
			connection.Close()
		}
	}()
	_, client := startGateway(t, testLimits(), listener.Addr().String())
	ctx, cancel := context.WithTimeout(context.Background(), soon)
	defer cancel()
	stream := begin(t, ctx, client, doPut)
	_, err = receive(stream)
	wants(t, err, codes.InvalidArgument, "NoSchema")
}

// The most important promise of the gateway: there is an end frame exactly where a client's stream ended by itself.

// A broken is a put of one message that ends in some way before its end, once the message is at the node.
type broken struct {
	name string
	put  func(t *testing.T, gateway *gateway, client *grpc.ClientConn, arrived func())
}

var brokenPuts = []broken{
	{"the context is cancelled", func(t *testing.T, _ *gateway, client *grpc.ClientConn, arrived func()) {
		ctx, cancel := context.WithCancel(context.Background())
		stream := begin(t, ctx, client, doPut)
		send(t, stream, "schema")
		arrived()
		cancel()
		_, err := receive(stream)
		wants(t, err, codes.Canceled, "")
	}},
	{"the deadline passes", func(t *testing.T, _ *gateway, client *grpc.ClientConn, arrived func()) {
		ctx, cancel := context.WithTimeout(context.Background(), 300*time.Millisecond)
		defer cancel()
		stream := begin(t, ctx, client, doPut)
		send(t, stream, "schema")
		arrived()
		_, err := receive(stream)
		wants(t, err, codes.DeadlineExceeded, "")
	}},
	{"the deadline passes at the gateway alone", func(t *testing.T, gateway *gateway, _ *grpc.ClientConn, arrived func()) {
		raw := newRawClient(t, gateway, hpack.HeaderField{Name: "grpc-timeout", Value: "300m"})
		raw.write(t, false, lengthPrefixed("schema"))
		arrived()
		if found := raw.status(t); found != codes.DeadlineExceeded {
			t.Errorf("status %v", found)
		}
	}},
	{"the client closes its connection", func(t *testing.T, gateway *gateway, _ *grpc.ClientConn, arrived func()) {
		client := dial(t, gateway)
		send(t, begin(t, context.Background(), client, doPut), "schema")
		arrived()
		client.Close()
	}},
	{"the connection is cut", func(t *testing.T, gateway *gateway, _ *grpc.ClientConn, arrived func()) {
		raw := newRawClient(t, gateway)
		raw.write(t, false, lengthPrefixed("schema"))
		arrived()
		raw.connection.Close()
	}},
	{"the connection is reset", func(t *testing.T, gateway *gateway, _ *grpc.ClientConn, arrived func()) {
		raw := newRawClient(t, gateway)
		raw.write(t, false, lengthPrefixed("schema"))
		arrived()
		raw.connection.(*net.TCPConn).SetLinger(0)
		raw.connection.Close()
	}},
	{"the connection is cut in a message", func(t *testing.T, gateway *gateway, _ *grpc.ClientConn, arrived func()) {
		raw := newRawClient(t, gateway)
		raw.write(t, false, lengthPrefixed("schema")+lengthPrefixed("batch")[:7])
		arrived()
		raw.connection.Close()
	}},
	{"the stream is reset", func(t *testing.T, gateway *gateway, _ *grpc.ClientConn, arrived func()) {
		raw := newRawClient(t, gateway)
		raw.write(t, false, lengthPrefixed("schema"))
		arrived()
		raw.framer.WriteRSTStream(1, http2.ErrCodeNo)
	}},
	{"the stream is reset in a message", func(t *testing.T, gateway *gateway, _ *grpc.ClientConn, arrived func()) {
		raw := newRawClient(t, gateway)
		raw.write(t, false, lengthPrefixed("schema")+lengthPrefixed("batch")[:3])
		arrived()
		raw.framer.WriteRSTStream(1, http2.ErrCodeCancel)
	}},
	{"the stream ends in the head of a message", func(t *testing.T, gateway *gateway, _ *grpc.ClientConn, arrived func()) {
		raw := newRawClient(t, gateway)
		raw.write(t, true, lengthPrefixed("schema")+lengthPrefixed("batch")[:3])
		arrived()
		if found := raw.status(t); found != codes.Internal {
			t.Errorf("status %v", found)
		}
	}},
	{"the stream ends in a message", func(t *testing.T, gateway *gateway, _ *grpc.ClientConn, arrived func()) {
		raw := newRawClient(t, gateway)
		raw.write(t, true, lengthPrefixed("schema")+lengthPrefixed("batch")[:9])
		arrived()
		if found := raw.status(t); found != codes.Internal {
			t.Errorf("status %v", found)
		}
	}},
	{"the stream ends by a second header", func(t *testing.T, gateway *gateway, _ *grpc.ClientConn, arrived func()) {
		raw := newRawClient(t, gateway)
		raw.write(t, false, lengthPrefixed("schema"))
		arrived()
		raw.framer.WriteHeaders(http2.HeadersFrameParam{StreamID: 1, EndStream: true, EndHeaders: true})
		raw.reset(t)
		raw.connection.Close()
	}},
	{"a message is too large", func(t *testing.T, _ *gateway, client *grpc.ClientConn, arrived func()) {
		stream := begin(t, context.Background(), client, doPut)
		send(t, stream, "schema")
		arrived()
		text := make([]byte, mostPayload+1)
		stream.SendMsg(&text)
		stream.CloseSend()
		_, err := receive(stream)
		wants(t, err, codes.ResourceExhausted, "larger than max (4194305 vs. 4194304)")
	}},
	{"a message is compressed", func(t *testing.T, gateway *gateway, _ *grpc.ClientConn, arrived func()) {
		raw := newRawClient(t, gateway)
		raw.write(t, true, lengthPrefixed("schema")+"\x01"+lengthPrefixed("batch")[1:])
		arrived()
		if found := raw.status(t); found != codes.Internal && found != codes.Unimplemented {
			t.Errorf("status %v", found)
		}
	}},
	{"the gateway ends", func(t *testing.T, gateway *gateway, client *grpc.ClientConn, arrived func()) {
		stream := begin(t, context.Background(), client, doPut)
		send(t, stream, "schema")
		arrived()
		gateway.close()
		_, err := receive(stream)
		wants(t, err, codes.Unavailable, "")
	}},
}

func TestAPutThatDoesNotEndByItselfHasNoEndFrame(t *testing.T) {
	for _, row := range brokenPuts {
		t.Run(row.name, func(t *testing.T) {
			node := newFakeNode(t, answers("\x00"))
			gateway, client := startGateway(t, testLimits(), node.address)
			row.put(t, gateway, client, func() {
				for _, want := range []string{doPut, "schema"} {
					if found := next(t, node.messages); found != want {
						t.Errorf("%q came in place of %q", found, want)
					}
				}
			})
			if found := next(t, node.requests); found.ended || len(found.messages) != 2 {
				t.Errorf("%q came, ended: %v", found.messages, found.ended)
			}
		})
	}
}

// A finished is a stream whose client has ended it, at a moment when its context ends too.
type finished struct {
	grpc.ServerStream
	ctx context.Context
}

func (f finished) Context() context.Context   { return f.ctx }
func (finished) RecvMsg(interface{}) error    { return io.EOF }
func (finished) SendMsg(interface{}) error    { return nil }
func (finished) SetTrailer(metadata.MD)       {}
func (finished) SetHeader(metadata.MD) error  { return nil }
func (finished) SendHeader(metadata.MD) error { return nil }

func TestAPutThatIsCancelledAtItsEndHasNoEndFrame(t *testing.T) {
	for _, cancelled := range []bool{false, true} {
		ctx, cancel := context.WithCancel(context.Background())
		if cancelled {
			cancel()
		}
		here, there := net.Pipe()
		c := &call{node: &node{limits: testLimits()}, path: doPut, stream: finished{ctx: ctx}, connection: here}
		go func() {
			c.passRequest()
			here.Close()
		}()
		text, err := io.ReadAll(there)
		want := new(bytes.Buffer)
		writeFrame(want, messageFlag, []byte(doPut))
		if !cancelled {
			writeFrame(want, endFlag, nil)
		}
		if err != nil || !bytes.Equal(text, want.Bytes()) || c.ended.Load() == cancelled {
			t.Errorf("cancelled: %v; %q and %v, ended: %v", cancelled, text, err, c.ended.Load())
		}
		cancel()
	}
}

// What clients can cost.

func TestAClientThatTakesNothingIsDisconnected(t *testing.T) {
	for name, messages := range map[string][]string{
		"messages are left": {strings.Repeat("x", mostPayload), strings.Repeat("y", mostPayload), "z"},
		"all is sent":       {strings.Repeat("x", mostPayload)},
	} {
		t.Run(name, func(t *testing.T) {
			node := newFakeNode(t, answers("\x00", messages...))
			limits := testLimits()
			limits.stall = 100 * time.Millisecond
			gateway, _ := startGateway(t, limits, node.address)
			raw := newRawClient(t, gateway)
			raw.write(t, true, lengthPrefixed(""))
			raw.connection.SetReadDeadline(time.Now().Add(soon))
			for {
				if _, err := raw.framer.ReadFrame(); err == io.EOF {
					break
				} else if err != nil {
					t.Fatal(err)
				}
			}
			slotsAre(t, gateway, 0)
		})
	}
}

func TestSlotsAreGivenBack(t *testing.T) {
	node := newFakeNode(t, answers("\x00", "answer"))
	limits := testLimits()
	limits.calls, limits.waiting = 2, 1
	gateway, client := startGateway(t, limits, node.address)
	for count := 0; count < 20; count++ {
		if _, err := ask(t, client, doGet, "ticket"); err != nil {
			t.Fatal(err)
		}
		_, err := ask(t, client, "/other.Service/DoGet", "")
		wants(t, err, codes.Unimplemented, "")
	}
	slotsAre(t, gateway, 0)
}

func TestCallsThatWait(t *testing.T) {
	node := newFakeNode(t, answers("\x00"))
	limits := testLimits()
	limits.calls, limits.waiting = 1, 1
	gateway, client := startGateway(t, limits, node.address)
	ctx, cancel := context.WithTimeout(context.Background(), soon)
	defer cancel()
	first := begin(t, ctx, client, doPut)
	next(t, node.messages)
	waiting, leave := context.WithCancel(ctx)
	second := begin(t, waiting, client, doPut)
	waits(t, gateway.nodes[0].slots, 1)
	// A second client, as one of its connections may not have a third stream.
	_, err := ask(t, dial(t, gateway), doGet, "")
	wants(t, err, codes.ResourceExhausted, "1 calls are made at this node, and 1 more wait")
	leave()
	_, err = receive(second)
	wants(t, err, codes.Canceled, "")
	waits(t, gateway.nodes[0].slots, 0)
	if len(node.messages) != 0 {
		t.Error("a call that waited came to the node")
	}
	first.CloseSend()
	if _, err := receive(first); err != nil {
		t.Error(err)
	}
	slotsAre(t, gateway, 0)
}

// slotsAre returns once so many slots are taken.
func slotsAre(t *testing.T, gateway *gateway, count int) {
	t.Helper()
	for end := time.Now().Add(soon); len(gateway.nodes[0].slots.taken) != count; time.Sleep(time.Millisecond) {
		if time.Now().After(end) {
			t.Fatalf("%d slots are taken in place of %d", len(gateway.nodes[0].slots.taken), count)
		}
	}
}

// A rawClient writes and reads frames of HTTP/2 as a test wants them, at a stream of its own.
type rawClient struct {
	connection net.Conn
	framer     *http2.Framer
}

// newRawClient begins a DoPut with these headers after the usual ones.
func newRawClient(t *testing.T, gateway *gateway, more ...hpack.HeaderField) *rawClient {
	connection, err := net.Dial("tcp4", gateway.nodes[0].listener.Addr().String())
	if err != nil {
		t.Fatal(err)
	}
	t.Cleanup(func() { connection.Close() })
	raw := &rawClient{connection, http2.NewFramer(connection, connection)}
	raw.framer.ReadMetaHeaders = hpack.NewDecoder(4096, nil)
	io.WriteString(connection, http2.ClientPreface)
	raw.framer.WriteSettings()
	var block bytes.Buffer
	encoder := hpack.NewEncoder(&block)
	for _, header := range append([]hpack.HeaderField{
		{Name: ":method", Value: "POST"}, {Name: ":scheme", Value: "http"}, {Name: ":path", Value: doPut},
		{Name: ":authority", Value: "127.0.0.1"}, {Name: "content-type", Value: "application/grpc"}, {Name: "te", Value: "trailers"},
	}, more...) {
		encoder.WriteField(header)
	}
	err = raw.framer.WriteHeaders(http2.HeadersFrameParam{StreamID: 1, BlockFragment: block.Bytes(), EndHeaders: true})
	if err != nil {
		t.Fatal(err)
	}
	return raw
}

// write writes bytes of the stream, and its end with the last of them.
func (r *rawClient) write(t *testing.T, end bool, text string) {
	t.Helper()
	if err := r.framer.WriteData(1, end, []byte(text)); err != nil {
		t.Fatal(err)
	}
}

// reset returns once the gateway has reset the stream.
func (r *rawClient) reset(t *testing.T) {
	t.Helper()
	r.connection.SetReadDeadline(time.Now().Add(soon))
	for {
		frame, err := r.framer.ReadFrame()
		if err != nil {
			t.Fatal(err)
		}
		if _, ok := frame.(*http2.RSTStreamFrame); ok {
			return
		}
	}
}

// status is the status that the stream ends with.
func (r *rawClient) status(t *testing.T) codes.Code {
	t.Helper()
	r.connection.SetReadDeadline(time.Now().Add(soon))
	for {
		frame, err := r.framer.ReadFrame()
		if err != nil {
			t.Fatal(err)
		}
		headers, ok := frame.(*http2.MetaHeadersFrame)
		if !ok {
			continue
		}
		for _, header := range headers.RegularFields() {
			if header.Name == "grpc-status" {
				var code codes.Code
				if err := code.UnmarshalJSON([]byte(header.Value)); err != nil {
					t.Fatal(err)
				}
				return code
			}
		}
	}
}

// lengthPrefixed is a message as gRPC has it in a stream.
func lengthPrefixed(message string) string {
	head := make([]byte, headSize)
	binary.BigEndian.PutUint32(head[1:], uint32(len(message)))
	return string(head) + message
}
