package main

import (
	"bytes"
	"errors"
	"net"
	"reflect"
	"strconv"
	"strings"
	"testing"
)

func TestWords(t *testing.T) {
	for _, row := range []struct {
		words string
		want  options
	}{
		{"--help", options{help: true}},
		{"127.0.0.1:1 -h", options{help: true}},
		{"--first 43000 127.0.0.1:42000", options{first: 43000, nodes: []string{"127.0.0.1:42000"}}},
		{"127.0.0.1:1 --first=7 localhost:2", options{first: 7, nodes: []string{"127.0.0.1:1", "127.0.0.1:2"}}},
		{"--first 65535 127.0.0.2:65535", options{first: 65535, nodes: []string{"127.0.0.2:65535"}}},
	} {
		found, err := parseOptions(strings.Fields(row.words))
		if err != nil || !reflect.DeepEqual(found, row.want) {
			t.Errorf("%s: %+v and %v", row.words, found, err)
		}
	}
}

func TestWrongWords(t *testing.T) {
	for words, want := range map[string]string{
		"":                                          "--first PORT is missing",
		"127.0.0.1:42000":                           "--first PORT is missing",
		"--first":                                   "--first has no port",
		"--first 43000":                             "there is no node",
		"--first 0 127.0.0.1:42000":                 `"0" is no port`,
		"--first= 127.0.0.1:42000":                  `"" is no port`,
		"--first 65536 127.0.0.1:42000":             `"65536" is no port`,
		"--first +43000 127.0.0.1:42000":            `"+43000" is no port`,
		"--first 1 --first 2 127.0.0.1:42000":       "--first is given twice",
		"--first 65535 127.0.0.1:1 127.0.0.1:2":     "there are not 2 ports from 65535 on",
		"--first 43000 --port 127.0.0.1:1":          `"--port" is no option`,
		"--first 43000 127.0.0.1":                   `"127.0.0.1" is no HOST:PORT`,
		"--first 43000 127.0.0.1:":                  `"" is no port`,
		"--first 43000 127.0.0.1:0":                 `"0" is no port`,
		"--first 43000 :42000":                      `"" of ":42000" is neither`,
		"--first 43000 example.org:42000":           `"example.org" of "example.org:42000" is neither`,
		"--first 43000 ::1:42000":                   `":1:42000" is no port`,
		"--first 43000 127.1:42000":                 `"127.1" of`,
		"--first 43000 localhost:1 127.0.0.1:1":     "the node 127.0.0.1:1 is given twice",
		"--first 43000 127.0.0.1:1 127.0.0.1:43001": "127.0.0.1:43001 is given as a node, and would be a port",
		"--first 9 a:1 127.0.0.1:2":                 `"a" of`,
		"--first 9" + strings.Repeat(" 127.0.0.1:1", 1) + nodesFrom(2, 7): "there are 8 nodes, more than 7",
	} {
		found, err := parseOptions(strings.Fields(words))
		if err == nil || !strings.HasPrefix(err.Error(), want) {
			t.Errorf("%q: %+v and %v", words, found, err)
		}
	}
}

// nodesFrom has so many addresses of nodes, from a port on.
func nodesFrom(port, count int) string {
	words := ""
	for ; count > 0; count, port = count-1, port+1 {
		words += " 127.0.0.1:" + strconv.Itoa(100+port)
	}
	return words
}

func TestStatusesOfTheProcess(t *testing.T) {
	taken, err := net.Listen("tcp4", "127.0.0.1:0")
	if err != nil {
		t.Fatal(err)
	}
	defer taken.Close()
	_, port, _ := net.SplitHostPort(taken.Addr().String())
	for _, row := range []struct {
		words          string
		status         int
		stdout, stderr string
	}{
		{"--help", 0, help, ""},
		{"--first x", 2, "", "felzoren-gateway: \"x\" is no port\n"},
		{"--first " + port + " 127.0.0.1:1", 1, "", "felzoren-gateway: listen tcp4 127.0.0.1:" + port + ": bind: address already in use\n"},
	} {
		var stdout, stderr bytes.Buffer
		status := run(strings.Fields(row.words), &stdout, &stderr)
		if status != row.status || stdout.String() != row.stdout || stderr.String() != row.stderr {
			t.Errorf("%s: %d, %q and %q", row.words, status, stdout.String(), stderr.String())
		}
	}
}

type fullDisk struct{}

func (fullDisk) Write([]byte) (int, error) { return 0, errors.New("no space left on device") }

func TestOutputThatCannotBeWritten(t *testing.T) {
	for _, words := range []string{"--help", "--first " + strconv.Itoa(freePorts(t, 1)) + " 127.0.0.1:1"} {
		var stderr bytes.Buffer
		if status := run(strings.Fields(words), fullDisk{}, &stderr); status != 1 || !strings.Contains(stderr.String(), "no space left") {
			t.Errorf("%s: %d and %q", words, status, stderr.String())
		}
	}
}
