#!/usr/bin/env bash
# Measures DoGet of 64 MiB over loopback, compared with the same bytes over a raw socket and with gRPC in C++.
#
#   bench/stream.sh [PROGRAM]
#
# It starts `PROGRAM serve` (crates/flightd/out/flightd, which the gate builds) with three nodes, and puts six uploads of three batches. gRPC's
# one server stream (bench/plain_stream.cc, bench/plain_stream.proto) has messages of the same sizes as the frames. One program in C++, which
# reads only the heads of frames, reads from all servers in turn: five calls each in each of five rounds.
#
# gRPC is measured three times. First protoc's code makes and parses its messages, as in most services. Then its bytes are sent encoded, and
# not decoded: this is gRPC's cost in a service that bypasses protoc's code, as Arrow's own C++ does for Flight. Last, the reader of these
# bytes has frames and windows of many MiB. gRPC's channel is connected beforehand, while the others open a connection for each call.
#
# For each it prints the mebibytes a second of the best call and of the median one, and the processor time of a call, which depends less on
# what else runs; and then the ratios of the server's rates to the others'. The aim is twice the rate of gRPC's messages, and 0.8 of a raw
# socket's. It needs g++, pkg-config, and Debian's libgrpc++-dev and protobuf-compiler-grpc, and takes a minute.
#
# Seen on four processors that nothing else used, in MiB a second of the best of 25 calls and of the median one, and in milliseconds of
# processor time a call, of the server and of the reader:
#
#                                   best   middle   server   reader
#   flightd                        3,433    3,217       18       15
#   a raw socket                   3,432    3,038       18       15
#   gRPC's messages                2,043    1,501       34       44
#   gRPC's bytes                   2,819    1,943       22       32
#   gRPC's bytes in wide windows   3,181    2,298       22       28
source "$(dirname "${BASH_SOURCE[0]}")/start.sh"
protoc -I bench --cpp_out="$work" --grpc_out="$work" --plugin=protoc-gen-grpc="$(command -v grpc_cpp_plugin)" bench/plain_stream.proto
# shellcheck disable=SC2046
g++ -O2 -std=c++17 -I "$work" -o "$work/stream" bench/plain_stream.cc "$work"/*.cc $(pkg-config --cflags --libs grpc++ protobuf)

PYTHONPATH=bench python3 -B - "${1:-crates/flightd/out/flightd}" "$work" <<'P'
import contextlib
import resource
import socket
import statistics
import subprocess
import sys

from serve import BATCHES, CALL_SECONDS, PUT_SECONDS, ROWS, UPLOADS, felzoren
from servers import look, started
from timing import count_of

program, work = sys.argv[1:]
STREAM, MIB, ROUNDS, CALLS = f"{work}/stream", 1 << 20, count_of(5, 1), count_of(5, 1)


class Stream:
    """A server, how its stream is read, the rate of each call, and the processor seconds of all."""

    def __init__(self, name, server, *words):
        self.name, self.server, self.words = name, server, words
        self.counts, self.rates, self.seconds = set(), [], [0, 0]

    def used(self):
        """The processor seconds of the server, and of all readers so far."""
        readers = resource.getrusage(resource.RUSAGE_CHILDREN)
        return look(self.server).seconds, readers.ru_utime + readers.ru_stime

    def call(self):
        """Makes some calls: for each the reader prints how many bytes its messages had, and how many seconds it took."""
        before = self.used()
        done = subprocess.run([STREAM, *self.words, str(CALLS)], stdout=subprocess.PIPE, check=True, text=True)
        self.seconds = [total + now - was for total, now, was in zip(self.seconds, self.used(), before)]
        for count, seconds in map(str.split, done.stdout.splitlines()):
            self.counts.add(int(count))
            self.rates.append(int(count) / MIB / float(seconds))

    def best(self):
        return max(self.rates), statistics.median(self.rates)

    def __str__(self):
        ours, readers = (1000 * it / len(self.rates) for it in self.seconds)
        best, middle = self.best()
        return f"{self.name}: {best:,.0f} MiB/s at best, median {middle:,.0f}; a call takes {ours:.0f} ms of processor time, and {readers:.0f} ms of the reader"

    def beside(self, other):
        best, middle = (one / two for one, two in zip(self.best(), other.best()))
        return f"{self.name} to {other.name}: {best:.2f} at best, median {middle:.2f}"


def put_and_get(port):
    """Puts the uploads, and keeps a request for their version and its answer as files."""
    client, batch = felzoren.connect(f"127.0.0.1:{port}", timeout=PUT_SECONDS), {"row": list(range(ROWS))}
    for _ in range(UPLOADS):
        version = client.put_batches("rows", [batch] * BATCHES, {"row": "int64"}).version
    request = felzoren.request("DoGet", [felzoren.bytes_field(1, felzoren.Ticket("rows", version).encode())])
    with open(f"{work}/request", "wb") as out:
        out.write(request)
    with socket.create_connection(("127.0.0.1", port), CALL_SECONDS) as peer, open(f"{work}/answer", "wb") as out:
        peer.sendall(request)
        while got := peer.recv(MIB):
            out.write(got)


def served(stack, task):
    """A server of the kept answer, and its port."""
    process = stack.enter_context(subprocess.Popen([STREAM, task, f"{work}/answer"], stdout=subprocess.PIPE, text=True))
    stack.callback(process.terminate)
    return process, process.stdout.readline().strip()


with contextlib.ExitStack() as stack:
    ours, _, port = started(program, 3, f"{work}/records")
    stack.enter_context(ours)
    stack.callback(ours.terminate)
    put_and_get(port)
    (raw, raw_port), (grpc, grpc_port), (encoded, encoded_port) = (served(stack, task) for task in ("raw", "grpc", "bytes"))
    streams = [
        Stream("flightd", ours, "get", str(port), f"{work}/request"),
        Stream("a raw socket", raw, "get", raw_port, f"{work}/request"),
        Stream("gRPC's messages", grpc, "get-grpc", grpc_port),
        Stream("gRPC's bytes", encoded, "get-bytes", encoded_port),
        Stream("gRPC's bytes in wide windows", encoded, "get-wide", encoded_port),
    ]
    for _ in range(ROUNDS):
        for stream in streams:
            stream.call()

if len(counts := set().union(*(stream.counts for stream in streams))) > 1:
    sys.exit(f"stream.sh: the streams have {sorted(counts)} bytes")
for stream in streams:
    print(stream)
for other in streams[1:]:
    print(streams[0].beside(other))
P
