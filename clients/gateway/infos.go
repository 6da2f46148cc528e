package main

import (
	"bytes"
	"encoding/binary"
)

// Numbers of the fields that the gateway looks at (Apache Arrow, "Flight.proto").
const (
	infoEndpoint     = 3 // of FlightInfo
	endpointLocation = 2 // of FlightEndpoint
	locationURI      = 1 // of Location
	dataHeader       = 2 // of FlightData
)

// Wire types of fields (Protocol Buffers, "Encoding").
const (
	wireVarint  = 0
	wireEight   = 1
	wireBytes   = 2
	wireFour    = 5
	mostNumber  = 1<<29 - 1
	wireKeyBits = 3
)

// A field is a field of a message as it stands there.
type field struct {
	number   uint64
	wireType uint64
	key      []byte // the bytes of the key
	content  []byte // what the length counts, of a field of bytes
	whole    []byte // all bytes of the field
}

// locations knows the nodes' locations in the service and at the gateway.
type locations struct {
	gateway map[string]string // from plain+tcp://HOST:PORT to grpc+tcp://HOST:PORT
	own     string            // the answering node's, at the gateway
}

// newLocations knows nodes by their addresses and by those of the gateway for them; own is the number of the
// answering node.
func newLocations(nodes, gateway []string, own int) locations {
	known := make(map[string]string, len(nodes))
	for number, node := range nodes {
		known["plain+tcp://"+node] = "grpc+tcp://" + gateway[number]
	}
	return locations{gateway: known, own: "grpc+tcp://" + gateway[own]}
}

// inInfo returns a FlightInfo with the locations of known nodes at the gateway. All other bytes stay, and so does
// a message that can't be read.
func (l locations) inInfo(info []byte) []byte {
	return changeFields(info, infoEndpoint, l.inEndpoint)
}

// inEndpoint does this to a FlightEndpoint, and puts the answering node's location before the others.
func (l locations) inEndpoint(endpoint []byte) []byte {
	fields, ok := readFields(changeFields(endpoint, endpointLocation, l.inLocation))
	if !ok {
		return endpoint
	}
	var own, others [][]byte
	for _, it := range fields {
		if !it.is(endpointLocation) {
			continue
		}
		if uri, _ := lastBytes(it.content, locationURI); string(uri) == l.own {
			own = append(own, it.whole)
		} else {
			others = append(others, it.whole)
		}
	}
	ordered := append(own, others...)
	out := make([]byte, 0, len(endpoint))
	for _, it := range fields {
		whole := it.whole
		if it.is(endpointLocation) {
			whole, ordered = ordered[0], ordered[1:]
		}
		out = append(out, whole...)
	}
	return out
}

// inLocation returns a Location with the URI that the gateway has for it.
func (l locations) inLocation(location []byte) []byte {
	return changeFields(location, locationURI, func(uri []byte) []byte {
		if known, ok := l.gateway[string(uri)]; ok {
			return []byte(known)
		}
		return uri
	})
}

// hasHeader says whether a FlightData has a header: the others, of uploads without batches, are no message for
// Arrow's readers. A message that can't be read has one.
func hasHeader(data []byte) bool {
	header, ok := lastBytes(data, dataHeader)
	return !ok || len(header) > 0
}

// is says whether this is a field of bytes of that number.
func (f field) is(number uint64) bool {
	return f.number == number && f.wireType == wireBytes
}

// lastBytes returns the content of the last field of bytes of that number, which is the one that counts, and
// says whether the message could be read.
func lastBytes(message []byte, number uint64) (content []byte, ok bool) {
	fields, ok := readFields(message)
	for _, it := range fields {
		if it.is(number) {
			content = it.content
		}
	}
	return content, ok
}

// changeFields returns a message in which change was applied to the content of each field of bytes of that
// number. It returns a message that can't be read as it is.
func changeFields(message []byte, number uint64, change func([]byte) []byte) []byte {
	fields, ok := readFields(message)
	if !ok {
		return message
	}
	out := make([]byte, 0, len(message))
	for _, it := range fields {
		if !it.is(number) {
			out = append(out, it.whole...)
			continue
		}
		content := change(it.content)
		if bytes.Equal(content, it.content) {
			out = append(out, it.whole...)
			continue
		}
		out = append(out, it.key...)
		out = binary.AppendUvarint(out, uint64(len(content)))
		out = append(out, content...)
	}
	return out
}

// readFields takes a message apart, and says whether it could be read.
func readFields(message []byte) ([]field, bool) {
	var fields []field
	for len(message) > 0 {
		next, ok := readField(message)
		if !ok {
			return nil, false
		}
		fields = append(fields, next)
		message = message[len(next.whole):]
	}
	return fields, true
}

// readField reads the first field of a message.
func readField(message []byte) (field, bool) {
	key, keySize := binary.Uvarint(message)
	if keySize <= 0 {
		return field{}, false
	}
	found := field{number: key >> wireKeyBits, wireType: key & (1<<wireKeyBits - 1), key: message[:keySize]}
	if found.number == 0 || found.number > mostNumber {
		return field{}, false
	}
	rest := message[keySize:]
	size, ok := contentSize(rest, found.wireType)
	if !ok || size > uint64(len(rest)) {
		return field{}, false
	}
	found.whole = message[:uint64(keySize)+size]
	if found.wireType == wireBytes {
		length, _ := binary.Uvarint(rest)
		found.content = rest[size-length : size]
	}
	return found, true
}

// contentSize is the number of bytes after the key, with those of a length.
func contentSize(rest []byte, wireType uint64) (uint64, bool) {
	switch wireType {
	case wireEight:
		return 8, true
	case wireFour:
		return 4, true
	case wireVarint, wireBytes:
		number, size := binary.Uvarint(rest)
		if size <= 0 || wireType == wireBytes && number > uint64(len(rest)) {
			return 0, false
		}
		if wireType == wireVarint {
			number = 0
		}
		return uint64(size) + number, true
	}
	return 0, false
}
