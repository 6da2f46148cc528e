package main

import (
	"bytes"
	"encoding/binary"
	"fmt"
	"testing"
)

// part is a field of bytes.
func part(number uint64, content string) string {
	out := binary.AppendUvarint(nil, number<<wireKeyBits|wireBytes)
	out = binary.AppendUvarint(out, uint64(len(content)))
	return string(out) + content
}

// number is a field with a number.
func number(number, value uint64) string {
	return string(binary.AppendUvarint(binary.AppendUvarint(nil, number<<wireKeyBits), value))
}

func location(uri string) string { return part(endpointLocation, part(locationURI, uri)) }

// tested knows the nodes 0 to 2, of which node 1 answers.
var tested = newLocations(
	[]string{"127.0.0.1:42000", "127.0.0.1:42001", "127.0.0.1:42002"},
	[]string{"127.0.0.1:9000", "127.0.0.1:9001", "127.0.0.1:9002"}, 1)

func plain(port int) string { return location(fmt.Sprintf("plain+tcp://127.0.0.1:%d", port)) }
func ours(port int) string  { return location(fmt.Sprintf("grpc+tcp://127.0.0.1:%d", port)) }

func TestLocationsOfAnInfo(t *testing.T) {
	ticket := part(1, part(1, "\x0a\x05sales\x10\x03"))
	// The descriptor is that of FORMATS, "Arrow Flight messages".
	before := part(1, "\xff\xff\xff\xff schema") + part(2, "\x08\x01\x1a\x05sales")
	after := number(4, 7) + number(5, 1<<63) + number(6, 1)
	for name, row := range map[string]struct{ endpoint, want string }{
		"the answering node's first": {
			ticket + plain(42000) + plain(42001) + plain(42002),
			ticket + ours(9001) + ours(9000) + ours(9002)},
		"an unknown node's as it is": {
			ticket + plain(41999) + plain(42002) + plain(42001),
			ticket + ours(9001) + plain(41999) + ours(9002)},
		"none of the answering node": {ticket + plain(42002) + plain(42000), ticket + ours(9002) + ours(9000)},
		"none at all":                {ticket, ticket},
		"none, as FORMATS has it":    {"\x0a\x06\x0a\x04p-17", "\x0a\x06\x0a\x04p-17"},
		"other fields in their places": {
			plain(42000) + number(9, 1) + ticket + plain(42001) + part(77, "more"),
			ours(9001) + number(9, 1) + ticket + ours(9000) + part(77, "more")},
		"other schemes and texts": {
			location("grpc+tcp://127.0.0.1:42000") + location("plain+tcp://127.0.0.1:42000/") + location(""),
			location("grpc+tcp://127.0.0.1:42000") + location("plain+tcp://127.0.0.1:42000/") + location("")},
		"other fields of a location": {
			part(endpointLocation, number(3, 1)+part(1, "plain+tcp://127.0.0.1:42001")+part(4, "x")),
			part(endpointLocation, number(3, 1)+part(1, "grpc+tcp://127.0.0.1:9001")+part(4, "x"))},
		"a location that can't be read": {part(endpointLocation, "\x0a\x7f"), part(endpointLocation, "\x0a\x7f")},
		"a location that is a number":   {number(endpointLocation, 5) + plain(42001), number(endpointLocation, 5) + ours(9001)},
		"an endpoint that can't be read": {
			plain(42001) + "\x0a\x7f", plain(42001) + "\x0a\x7f"},
	} {
		found := tested.inInfo([]byte(before + part(infoEndpoint, row.endpoint) + after))
		if string(found) != before+part(infoEndpoint, row.want)+after {
			t.Errorf("%s: %q", name, found)
		}
	}
}

func TestAllElseOfAnInfoStays(t *testing.T) {
	// A length of three bytes where one would do, and fields of each wire type that the message does not have.
	odd := "\x0a\x83\x80\x00abc" + "\x7d1234" + "\x7912345678" + "\x78\xff\x80\x00" + part(536870911, "last")
	endpoints := part(infoEndpoint, plain(42000)) + odd + part(infoEndpoint, "") + part(infoEndpoint, plain(42001))
	want := part(infoEndpoint, ours(9000)) + odd + part(infoEndpoint, "") + part(infoEndpoint, ours(9001))
	if found := tested.inInfo([]byte(odd + endpoints)); string(found) != odd+want {
		t.Errorf("%q", found)
	}
}

func TestInfosThatCannotBeReadStay(t *testing.T) {
	readable := part(infoEndpoint, plain(42000))
	for _, rest := range []string{
		"\x0a", "\x0a\x05abc", "\x0a\xff\xff\xff\xff\xff\xff\xff\xff\xff\x01", "\x08", "\x08\x80", "\x7d123", "\x791234567",
		"\x0b\x0c", "\x0e", "\x0f", "\x02\x00", "\x80", "\x82\x80\x80\x80\x10\x00",
		"\xff\xff\xff\xff\xff\xff\xff\xff\xff\xff\x01",
	} {
		info := []byte(readable + rest)
		if found := tested.inInfo(info); !bytes.Equal(found, info) {
			t.Errorf("%q became %q", info, found)
		}
	}
}

func TestHeadersOfData(t *testing.T) {
	for text, want := range map[string]bool{
		part(2, "header"): true,
		part(1, "descriptor") + part(2, "header") + part(3, "metadata") + part(1000, "body"): true,
		part(3, "metadata"):                             false,
		part(2, "header") + part(2, ""):                 false,
		part(2, "") + part(2, "header"):                 true,
		number(2, 5) + part(3, "metadata"):              false,
		part(3, part(2, "header")) + part(1000, "\x12"): false,
		"":          false,
		"\x12\x05a": true, // it can't be read, and is left to the client
	} {
		if found := hasHeader([]byte(text)); found != want {
			t.Errorf("%q: %v", text, found)
		}
	}
}

func FuzzInfos(f *testing.F) {
	f.Add([]byte(part(infoEndpoint, plain(42000)+plain(42001))))
	f.Fuzz(func(t *testing.T, info []byte) {
		once := tested.inInfo(info)
		if twice := tested.inInfo(once); !bytes.Equal(once, twice) {
			t.Errorf("%q became %q and then %q", info, once, twice)
		}
		if _, before := readFields(info); before {
			if _, after := readFields(once); !after {
				t.Errorf("%q can't be read", once)
			}
		}
	})
}
