package main

import (
	"encoding/binary"
	"errors"
	"fmt"
	"io"
	"net"

	"google.golang.org/grpc/codes"
	"google.golang.org/grpc/status"
)

// A frame of the service is a flag, the length of its payload in four bytes with the highest first, and the
// payload: a message, or at the end of a call the end of a request or the trailer of an answer.
const (
	messageFlag = 0x00
	endFlag     = 0x80
	headSize    = 5
	// mostPayload is the most bytes of a payload, and so of a message.
	mostPayload = 4 << 20
)

// errNoAnswer is wrapped by the errors for bytes that are no answer of the service.
var errNoAnswer = errors.New("its bytes are no answer")

// writeFrame writes a frame; at a TCP connection it is one call of the system.
func writeFrame(writer io.Writer, flag byte, payload []byte) error {
	head := make([]byte, headSize)
	head[0] = flag
	binary.BigEndian.PutUint32(head[1:], uint32(len(payload)))
	buffers := net.Buffers{head, payload}
	_, err := buffers.WriteTo(writer)
	return err
}

// readFrame reads the next frame. Its error is io.EOF only if there is no byte of one.
func readFrame(reader io.Reader) (flag byte, payload []byte, err error) {
	var head [headSize]byte
	if _, err := io.ReadFull(reader, head[:]); err != nil {
		return 0, nil, err
	}
	flag = head[0]
	length := binary.BigEndian.Uint32(head[1:])
	if flag != messageFlag && flag != endFlag {
		return 0, nil, fmt.Errorf("%w: a frame has the flag %d", errNoAnswer, flag)
	}
	if length > mostPayload {
		return 0, nil, fmt.Errorf("%w: a frame has %d bytes", errNoAnswer, length)
	}
	payload = make([]byte, length)
	if _, err := io.ReadFull(reader, payload); err != nil {
		return 0, nil, io.ErrUnexpectedEOF
	}
	return flag, payload, nil
}

// readTrailer reads the payload of a trailer: a byte, which is a status of gRPC, and the name of the refusal,
// which is empty if the status is OK.
func readTrailer(payload []byte) (*status.Status, error) {
	if len(payload) == 0 {
		return nil, fmt.Errorf("%w: its trailer is empty", errNoAnswer)
	}
	code, text := codes.Code(payload[0]), string(payload[1:])
	if code > codes.Unauthenticated || code == codes.OK && text != "" {
		return nil, fmt.Errorf("%w: its trailer has the status %d and the text %q", errNoAnswer, code, text)
	}
	return status.New(code, text), nil
}
