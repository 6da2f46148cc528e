package main

import (
	"bytes"
	"encoding/hex"
	"errors"
	"fmt"
	"io"
	"os"
	"path/filepath"
	"strconv"
	"strings"
	"testing"
)

// stories is where the service's own rows of frames and messages are: a line with a command and bytes, and below it
// what stands there, each line after two spaces or more.
const stories = "../../crates/wire_stories/data"

// A story is one of these rows.
type story struct {
	place string // file and line
	text  []byte
	told  []string
}

// storiesOf are all rows of a command.
func storiesOf(t *testing.T, command string) []story {
	t.Helper()
	files, err := filepath.Glob(stories + "/*.txt")
	if err != nil || len(files) == 0 {
		t.Fatalf("%d files in %s and %v", len(files), stories, err)
	}
	var found []story
	for _, file := range files {
		content, err := os.ReadFile(file)
		if err != nil {
			t.Fatal(err)
		}
		lines := strings.Split(string(content), "\n")
		for number, line := range lines {
			words := strings.Fields(line)
			if len(words) == 0 || words[0] != command {
				continue
			}
			text, err := hex.DecodeString(strings.Join(words[1:], ""))
			if err != nil {
				t.Fatal(err)
			}
			next := story{place: fmt.Sprintf("%s:%d", filepath.Base(file), number+1), text: text}
			for _, more := range lines[number+1:] {
				if !strings.HasPrefix(more, "  ") {
					break
				}
				next.told = append(next.told, more[2:])
			}
			found = append(found, next)
		}
	}
	return found
}

// refused says whether nothing but a fault is told.
func (s story) refused() bool {
	return len(s.told) == 1 && !strings.Contains(s.told[0], " ")
}

// value is what is told of a field at the top of a message.
func (s story) value(name string) (string, bool) {
	for _, line := range s.told {
		if strings.HasPrefix(line, name+" ") {
			return line[len(name)+1:], true
		}
	}
	return "", false
}

// endpoints are the texts of the locations that are told of each endpoint, in order.
func (s story) endpoints(t *testing.T) [][]string {
	var found [][]string
	for _, line := range s.told {
		if line == "endpoint" {
			found = append(found, nil)
		}
		if text := strings.TrimSpace(line); strings.HasPrefix(text, "uri ") {
			uri, err := strconv.Unquote(text[len("uri "):])
			if err != nil {
				t.Fatalf("%s: %v", s.place, err)
			}
			last := len(found) - 1
			found[last] = append(found[last], uri)
		}
	}
	return found
}

func TestFramesOfStories(t *testing.T) {
	rows := storiesOf(t, "frames")
	for _, row := range rows {
		reader := bytes.NewReader(row.text)
		for _, line := range row.told {
			flag, payload, err := readFrame(reader)
			name, _, _ := strings.Cut(line, ",")
			switch {
			case strings.HasPrefix(line, "flag "):
				content := hex.EncodeToString(payload)
				if content == "" {
					content = "-"
				}
				if found := fmt.Sprintf("flag %d, payload %s", flag, content); err != nil || found != line {
					t.Errorf("%s: %s and %v in place of %s", row.place, found, err, line)
				}
			case line == "no more":
				if err != io.EOF {
					t.Errorf("%s: %v after the last frame", row.place, err)
				}
			case name == "Truncated":
				if err != io.ErrUnexpectedEOF {
					t.Errorf("%s: %v in place of %s", row.place, err, line)
				}
			default: // Compressed, BadFlag, TooLong
				if !errors.Is(err, errNoAnswer) {
					t.Errorf("%s: %v in place of %s", row.place, err, line)
				}
			}
		}
	}
	if len(rows) < 100 {
		t.Errorf("%d rows", len(rows))
	}
}

func TestHeadersOfStories(t *testing.T) {
	read := 0
	for _, row := range storiesOf(t, "data") {
		header, told := row.value("data_header")
		if !told {
			continue // it can't be read, or can't be by the service
		}
		read++
		if found := hasHeader(row.text); found != (header != "-") {
			t.Errorf("%s: %v for the header %s", row.place, found, header)
		}
	}
	if read < 50 {
		t.Errorf("%d rows", read)
	}
}

func TestInfosOfStories(t *testing.T) {
	unknown := newLocations([]string{"127.0.0.1:1"}, []string{"127.0.0.1:2"}, 0)
	read, located := 0, 0
	for _, row := range storiesOf(t, "info") {
		if found := unknown.inInfo(row.text); !bytes.Equal(found, row.text) {
			t.Errorf("%s: %x became %x", row.place, row.text, found)
		}
		if row.refused() {
			continue
		}
		read++
		told := row.endpoints(t)
		if found := endpointsOf(row.text); fmt.Sprintf("%q", found) != fmt.Sprintf("%q", told) {
			t.Errorf("%s: the locations %q in place of %q", row.place, found, told)
		}
		// Each node is known, and the one of the last location answers.
		known := locations{gateway: map[string]string{}}
		for _, uris := range told {
			for _, uri := range uris {
				located++
				known.own = "at the gateway: " + uri
				known.gateway[uri] = known.own
			}
		}
		var want [][]string
		for _, uris := range told {
			var own, others []string
			for _, uri := range uris {
				if changed := known.gateway[uri]; changed == known.own {
					own = append(own, changed)
				} else {
					others = append(others, changed)
				}
			}
			want = append(want, append(own, others...))
		}
		changed := known.inInfo(row.text)
		if found := endpointsOf(changed); fmt.Sprintf("%q", found) != fmt.Sprintf("%q", want) {
			t.Errorf("%s: the locations %q in place of %q", row.place, found, want)
		}
	}
	if read < 50 || located < 5 {
		t.Errorf("%d rows and %d locations", read, located)
	}
}

// endpointsOf are the locations of each endpoint of an info, in order.
func endpointsOf(info []byte) [][]string {
	var found [][]string
	endpoints, _ := readFields(info)
	for _, endpoint := range endpoints {
		if !endpoint.is(infoEndpoint) {
			continue
		}
		var uris []string
		inside, _ := readFields(endpoint.content)
		for _, it := range inside {
			if it.is(endpointLocation) {
				uri, _ := lastBytes(it.content, locationURI)
				uris = append(uris, string(uri))
			}
		}
		found = append(found, uris)
	}
	return found
}
