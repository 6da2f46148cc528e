package main

import (
	"bytes"
	"encoding/hex"
	"errors"
	"io"
	"testing"
	"testing/iotest"

	"google.golang.org/grpc/codes"
)

func TestFramesAreWrittenAndRead(t *testing.T) {
	payloads := [][]byte{{}, {8, 1, 40, 1}, bytes.Repeat([]byte{7}, mostPayload)}
	var wire bytes.Buffer
	for _, payload := range payloads {
		if err := writeFrame(&wire, messageFlag, payload); err != nil {
			t.Fatal(err)
		}
	}
	if err := writeFrame(&wire, endFlag, nil); err != nil {
		t.Fatal(err)
	}
	reader := iotest.HalfReader(&wire)
	for _, payload := range payloads {
		flag, found, err := readFrame(reader)
		if flag != messageFlag || !bytes.Equal(found, payload) || err != nil {
			t.Errorf("flag %d, %d bytes and %v in place of %d bytes", flag, len(found), err, len(payload))
		}
	}
	if flag, found, err := readFrame(reader); flag != endFlag || len(found) != 0 || err != nil {
		t.Errorf("flag %d, %d bytes and %v in place of an end", flag, len(found), err)
	}
	if _, _, err := readFrame(reader); err != io.EOF {
		t.Errorf("%v after the last frame", err)
	}
}

func TestFramesHaveTheBytesOfTheService(t *testing.T) {
	var wire bytes.Buffer
	writeFrame(&wire, messageFlag, []byte{8, 1, 40, 1})
	writeFrame(&wire, endFlag, nil)
	if found := hex.EncodeToString(wire.Bytes()); found != "000000000408012801"+"8000000000" {
		t.Errorf("the frames are %s", found)
	}
}

func TestBytesThatAreNoFrame(t *testing.T) {
	for name, row := range map[string]struct {
		text string
		want error
	}{
		"nothing":                      {"", io.EOF},
		"a part of a head":             {"00000000", io.ErrUnexpectedEOF},
		"no payload":                   {"0000000004", io.ErrUnexpectedEOF},
		"a part of a payload":          {"0000000004080128", io.ErrUnexpectedEOF},
		"a compressed message":         {"010000000408012801", errNoAnswer},
		"a flag that there is not":     {"7f0000000408012801", errNoAnswer},
		"a payload of 4 MiB and a bit": {"0000400001", errNoAnswer},
		"a payload of 4 GiB":           {"80ffffffff", errNoAnswer},
	} {
		text, _ := hex.DecodeString(row.text)
		if _, _, err := readFrame(bytes.NewReader(text)); !errors.Is(err, row.want) {
			t.Errorf("%s: %v in place of %v", name, err, row.want)
		}
	}
}

func TestTrailers(t *testing.T) {
	for _, row := range []struct {
		payload string
		code    codes.Code
		text    string
	}{
		{"\x00", codes.OK, ""},
		{"\x05NoTable", codes.NotFound, "NoTable"},
		{"\x10", codes.Unauthenticated, ""},
	} {
		found, err := readTrailer([]byte(row.payload))
		if err != nil || found.Code() != row.code || found.Message() != row.text {
			t.Errorf("%q is %v and %v", row.payload, found, err)
		}
	}
	for _, payload := range []string{"", "\x00NoTable", "\x11", "\xff"} {
		if found, err := readTrailer([]byte(payload)); !errors.Is(err, errNoAnswer) {
			t.Errorf("%q is %v and %v", payload, found, err)
		}
	}
}
