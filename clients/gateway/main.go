// Command felzoren-gateway serves standard clients of Arrow Flight: it takes their calls by gRPC, and makes each
// of them at a node of Felzoren in the service's own frames.
package main

import (
	"fmt"
	"io"
	"os"
	"os/signal"
	"runtime/debug"
	"syscall"

	"google.golang.org/grpc/grpclog"
)

func main() {
	// What grpc says of single connections is of no use to whoever runs the gateway, and has no bound.
	grpclog.SetLoggerV2(grpclog.NewLoggerV2(io.Discard, io.Discard, io.Discard))
	if os.Getenv("GOGC") == "" {
		debug.SetGCPercent(garbagePercent)
	}
	os.Exit(run(os.Args[1:], os.Stdout, os.Stderr))
}

// garbagePercent is how much memory of messages that were sent may come, in percent of what is in use, before Go
// collects it. With Go's own 100 a large get took a quarter more of the processor, and a few MiB less.
const garbagePercent = 200

// run does what the words ask for, and returns the status of the process.
func run(words []string, stdout, stderr io.Writer) int {
	options, err := parseOptions(words)
	if err != nil {
		fmt.Fprintf(stderr, "felzoren-gateway: %v\n", err)
		return 2
	}
	if options.help {
		_, err = io.WriteString(stdout, help)
	} else {
		err = serve(options, stdout)
	}
	if err != nil {
		fmt.Fprintf(stderr, "felzoren-gateway: %v\n", err)
		return 1
	}
	return 0
}

// serve opens the gateway, prints its ports, and serves until SIGTERM or SIGINT comes or a port fails.
func serve(options options, stdout io.Writer) error {
	stop := make(chan os.Signal, 1)
	signal.Notify(stop, syscall.SIGTERM, syscall.SIGINT)
	gateway, err := openGateway(options.first, options.nodes, standardLimits)
	if err != nil {
		return err
	}
	defer gateway.close()
	if _, err := io.WriteString(stdout, gateway.String()); err != nil {
		return err
	}
	failed := gateway.start()
	select {
	case <-stop:
		return nil
	case err := <-failed:
		return err
	}
}
