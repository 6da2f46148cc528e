package main

import (
	"errors"
	"fmt"
	"net/netip"
	"strconv"
	"strings"
)

const help = `Serves standard clients of Arrow Flight, and makes their calls at the nodes of a Felzoren server

Usage: felzoren-gateway --first PORT NODE..

  --first PORT  The port for the first node; node k is served at port PORT + k of 127.0.0.1
  NODE          HOST:PORT of a node, 1 to 7 of them; HOST is an IPv4 address or localhost
  -h, --help    Print help

Clients connect by gRPC over HTTP/2, without TLS. The gateway ends by SIGTERM or SIGINT.

Example: felzoren-gateway --first 43000 127.0.0.1:42000 127.0.0.1:42001 127.0.0.1:42002
Exit status: 0 ended by a signal, or help; 1 a fault; 2 invalid arguments.
`

// mostNodes is the largest number of nodes of a cluster.
const mostNodes = 7

// options is what the words of the command ask for.
type options struct {
	help  bool
	first int      // the port for the first node
	nodes []string // their addresses, HOST:PORT
}

// parseOptions reads and checks all words. Nothing is opened for it.
func parseOptions(words []string) (options, error) {
	var found options
	for len(words) > 0 {
		word := words[0]
		words = words[1:]
		name, value, hasValue := strings.Cut(word, "=")
		switch {
		case word == "-h" || word == "--help":
			return options{help: true}, nil
		case name == "--first":
			if !hasValue && len(words) == 0 {
				return found, errors.New("--first has no port")
			}
			if !hasValue {
				value, words = words[0], words[1:]
			}
			if err := found.setFirst(value); err != nil {
				return found, err
			}
		case strings.HasPrefix(word, "-"):
			return found, fmt.Errorf("%q is no option: see --help", word)
		default:
			if err := found.addNode(word); err != nil {
				return found, err
			}
		}
	}
	return found, found.check()
}

// setFirst takes the value of --first.
func (o *options) setFirst(value string) error {
	if o.first != 0 {
		return errors.New("--first is given twice")
	}
	port, err := parsePort(value)
	o.first = port
	return err
}

// addNode takes the address of a node.
func (o *options) addNode(word string) error {
	host, port, found := strings.Cut(word, ":")
	if !found {
		return fmt.Errorf("%q is no HOST:PORT", word)
	}
	number, err := parsePort(port)
	if err != nil {
		return err
	}
	if host == "localhost" {
		host = "127.0.0.1"
	}
	address, err := netip.ParseAddr(host)
	if err != nil || !address.Is4() {
		return fmt.Errorf("%q of %q is neither an IPv4 address nor localhost", host, word)
	}
	node := netip.AddrPortFrom(address, uint16(number)).String()
	for _, other := range o.nodes {
		if other == node {
			return fmt.Errorf("the node %s is given twice", node)
		}
	}
	o.nodes = append(o.nodes, node)
	return nil
}

// check says whether the options are complete and fit together.
func (o *options) check() error {
	switch {
	case o.first == 0:
		return errors.New("--first PORT is missing: see --help")
	case len(o.nodes) == 0:
		return errors.New("there is no node: see --help")
	case len(o.nodes) > mostNodes:
		return fmt.Errorf("there are %d nodes, more than %d", len(o.nodes), mostNodes)
	case o.first+len(o.nodes)-1 > 65535:
		return fmt.Errorf("there are not %d ports from %d on", len(o.nodes), o.first)
	}
	for number := range o.nodes {
		own := gatewayAddress(o.first, number)
		for _, node := range o.nodes {
			if node == own {
				return fmt.Errorf("%s is given as a node, and would be a port of the gateway", node)
			}
		}
	}
	return nil
}

// parsePort reads a port: 1 to 65535, in decimal digits.
func parsePort(text string) (int, error) {
	port, err := strconv.ParseUint(text, 10, 16)
	if err != nil || port == 0 {
		return 0, fmt.Errorf("%q is no port", text)
	}
	return int(port), nil
}
