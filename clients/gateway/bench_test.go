package main

import (
	"io"
	"net"
	"strings"
	"testing"
)

// answered is how many bytes a node answers to a call that is made without a gateway.
func answered(b *testing.B, address, path string) int64 {
	connection, err := net.Dial("tcp4", address)
	if err != nil {
		b.Fatal(err)
	}
	defer connection.Close()
	writeFrame(connection, messageFlag, []byte(path))
	writeFrame(connection, messageFlag, nil)
	writeFrame(connection, endFlag, nil)
	size, err := io.Copy(io.Discard, connection)
	if err != nil {
		b.Fatal(err)
	}
	return size
}

// compare measures a call to a node that answers at once, without the gateway and with it.
func compare(b *testing.B, path string, messages ...string) {
	node := newFakeNode(b, answers("\x00", messages...))
	go func() {
		for range node.messages {
		}
	}()
	go func() {
		for range node.requests {
		}
	}()
	_, client := startGateway(b, testLimits(), node.address)
	size := answered(b, node.address, path)
	b.Run("without", func(b *testing.B) {
		b.SetBytes(size)
		for count := 0; count < b.N; count++ {
			answered(b, node.address, path)
		}
	})
	b.Run("with", func(b *testing.B) {
		b.SetBytes(size)
		for count := 0; count < b.N; count++ {
			if found, err := ask(b, client, path, ""); err != nil || len(found) != len(messages) {
				b.Fatal(len(found), err)
			}
		}
	})
}

func BenchmarkSmallCall(b *testing.B) {
	compare(b, getSchema, "schema")
}

func BenchmarkGet(b *testing.B) {
	messages := make([]string, 64)
	for number := range messages {
		messages[number] = part(dataHeader, "header") + part(1000, strings.Repeat("x", 1<<20))
	}
	compare(b, doGet, messages...)
}
