"""Starts servers, calls their nodes with the library in clients/python, and reads their memory, times and files: what the tools and
the benches that start a server share."""
import contextlib
import os
import random
import re
import resource
import signal
import socket
import struct
import subprocess
import sys
import tempfile
import time
from collections import namedtuple
from pathlib import Path

TOP = Path(__file__).resolve().parent.parent
sys.dont_write_bytecode = True
sys.path.append(str(TOP / "clients" / "python"))

import felzoren

PROGRAM = TOP / "crates" / "flightd" / "out" / "flightd"
# A folder in memory, where a sync costs nothing, if there is one.
MEMORY = "/dev/shm" if os.path.isdir("/dev/shm") else None
# How long a call may take, in seconds, and how long to wait until a node has learned a version.
CALL_SECONDS, LEARN_SECONDS = 30, 30
# A node serves this many calls at once; others wait until one of these ends.
MOST_CONNECTIONS = 128
# What a server prints about its start over records, if that takes longer than a second, and about a node that was down.
PROGRESS = re.compile(
    r"^node \d (has its records|has learned what was decided|was down, and has started again"
    r"|is down, and can't be started again yet: [\w: ]+)\n",
    re.MULTILINE,
)


class Wrong(Exception):
    """A result differs from the expected one."""


def want(found, wanted):
    if found != wanted:
        raise Wrong(f"{found!r} in place of {wanted!r}")


# ---- servers


def free_port(count):
    """The first of `count` free ports in a row."""
    for port in random.Random(os.getpid()).sample(range(20_000, 60_000), 100):
        with contextlib.ExitStack() as open_ones:
            try:
                for number in range(count):
                    opened = open_ones.enter_context(socket.socket())
                    opened.setsockopt(socket.SOL_SOCKET, socket.SO_REUSEADDR, 1)
                    opened.bind(("127.0.0.1", port + number))
                return port
            except OSError:
                continue
    raise Wrong("no ports are free")


def file_limit(count, ignores=True):
    """Limits the files of a process that is started with it to `count` bytes, as on a full disk, until somebody allows more. A longer write
    fails if the process ignores SIGXFSZ, and otherwise ends it."""

    def limit():
        resource.setrlimit(resource.RLIMIT_FSIZE, (count, resource.getrlimit(resource.RLIMIT_FSIZE)[1]))
        signal.signal(signal.SIGXFSZ, signal.SIG_IGN if ignores else signal.SIG_DFL)

    return limit


def limited(kind, count):
    """Limits a process that is started with it to `count` of a resource (getrlimit(2))."""
    return lambda: resource.setrlimit(kind, (count, count))


def without_progress(told):
    """What a server reports on standard error, without the progress of its start and without nodes that start again."""
    return PROGRESS.sub("", told)


def addresses(port, nodes):
    """The lines with which a server prints the addresses of its nodes, of which the first has this port."""
    return [f"node {number} at 127.0.0.1:{port + number}\n" for number in range(nodes)]


def serve_words(program, nodes, port, folder, resumed=False):
    """The words that start a server with this many nodes, the first at this port, and their records in this folder."""
    return [program, "serve", "--nodes", str(nodes), "--port", str(port), "--data", folder, *["--resume"] * resumed]


def started(program, nodes, folder, limit=None, resumed=False, more=(), variables=None):
    """Starts a server with this many nodes and their records in this folder; if it is resumed, over the records there. It is given more
    words, and more variables in its environment. Returns the process, its clients, and the port of its first node."""
    port = free_port(nodes)
    words = [*serve_words(program, nodes, port, folder, resumed), *more]
    how = {"preexec_fn": limit, "env": {**os.environ, **(variables or {})}}
    process = subprocess.Popen(words, stdout=subprocess.PIPE, stderr=subprocess.PIPE, text=True, **how)
    lines = addresses(port, nodes)
    found = [process.stdout.readline() for _ in lines]
    if found != lines:
        process.kill()
        raise Wrong(f"a server printed {found!r} and {process.communicate()[1]!r}")
    return process, [felzoren.connect(f"127.0.0.1:{port + number}", timeout=CALL_SECONDS) for number in range(nodes)], port


@contextlib.contextmanager
def server(program, nodes, folder=None, limit=None, resumed=False, ending=signal.SIGTERM, variables=None):
    """Starts a server, with its records in this folder or in one that is removed afterwards, and yields its clients and the port of its
    first node. At the end it sends this signal to the server."""
    with contextlib.ExitStack() as stack:
        folder = folder or stack.enter_context(tempfile.TemporaryDirectory())
        process, clients, port = started(program, nodes, folder, limit, resumed, variables=variables)
        try:
            yield clients, port
            want(process.poll(), None)
        finally:
            process.send_signal(ending)
            _, told = process.communicate(timeout=CALL_SECONDS)
        want(without_progress(told), "")


Looked = namedtuple("Looked", "most now threads seconds")
Looked.__doc__ = """The most memory that a process held and what it holds, in bytes, its threads, and its processor seconds."""


def look(process):
    """What the kernel counts for a process that still runs (Linux, proc(5))."""
    text = Path(f"/proc/{process.pid}/status").read_text(encoding="utf-8")
    fields = {name: value.split() for name, value in (line.split(":", 1) for line in text.splitlines())}
    times = Path(f"/proc/{process.pid}/stat").read_text(encoding="utf-8").rpartition(")")[2].split()
    seconds = (int(times[11]) + int(times[12])) / os.sysconf("SC_CLK_TCK")
    return Looked(int(fields["VmHWM"][0]) << 10, int(fields["VmRSS"][0]) << 10, int(fields["Threads"][0]), seconds)


# ---- calls


def learned(call):
    """What a call returns once the node has learned the version that it asks for."""
    end = time.monotonic() + LEARN_SECONDS
    while True:
        try:
            return call()
        except felzoren.Refused as refused:
            want(refused.name, "Unavailable")
            if time.monotonic() > end:
                raise
            time.sleep(0.01)


def got(client, table, version):
    """The rows of a version, once the node has learned it."""
    return learned(lambda: client.get(table, version).to_pylist())


class Recorder:
    """A connection that keeps what is written, and never answers."""

    def __init__(self):
        self.written = b""

    def write(self, data):
        self.written += data

    def read(self, count):
        return b""

    def close(self):
        pass


def request_of(call):
    """The bytes of the request that a function makes with the client that it is given."""
    recorder = Recorder()
    with contextlib.suppress(felzoren.BadAnswer):
        call(felzoren.Client(lambda: recorder))
    return recorder.written


def reset(peer):
    """Makes a connection end with a reset when it is closed."""
    peer.setsockopt(socket.SOL_SOCKET, socket.SO_LINGER, struct.pack("ii", 1, 0))


# ---- files of records


def records_of(text):
    """The records in the bytes of a node's file, and the place of the closed gate after them. The text is a closed gate; or an open one, a
    length, a record, and the same again from the next gate on."""
    at, found = 0, []
    while text[at : at + 1] == b"\x01":
        (length,) = struct.unpack_from("<I", text, at + 1)
        found.append(text[at + 5 : at + 5 + length])
        at += 5 + length
    return found, at


def records_in(file):
    """The records of a node's file."""
    return records_of(Path(file).read_bytes())[0]
