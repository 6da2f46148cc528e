#!/usr/bin/env python3
"""Loads a server with calls, half of them cut off, and checks its answers and its memory afterwards.

    bench/load.py [SECONDS [PROGRAM]]

It starts `PROGRAM serve` (crates/flightd/out/flightd, which the gate builds) with three nodes and their records in a folder for temporary files. 200
callers at once, each a thread with the library in clients/python, make calls for SECONDS (60), each over a connection of its own to a
random node: puts of one row, gets of a version that was acknowledged, questions about a table, lists. Half of the connections are requests
that are cut at any byte, some with a reset. Afterwards each acknowledged upload must be served once, at its version's place, by each node.
It prints how many connections, calls and refusals there were, how long calls took, and how much memory the server held before the load, at
its end and 5 seconds after it. The status is 1 if an upload is not served as it was acknowledged."""
import collections
import random
import socket
import sys
import tempfile
import threading
import time
from pathlib import Path

TOP = Path(__file__).resolve().parent.parent
sys.dont_write_bytecode = True
sys.path += [str(TOP / "clients" / "python"), str(TOP / "tools")]

import felzoren
from servers import CALL_SECONDS, PROGRAM, Wrong, got, look, request_of, reset, started, want
from timing import count_of
from toolbox import show_help

SECONDS, CALLERS, SEED, TABLES, NODES = count_of(60, 2), count_of(200, 20), 20261127, 4, 3
QUIET_SECONDS = count_of(5, 0)


class Load:
    """What the callers share: the server, the uploads that were acknowledged, and the results of the calls."""

    def __init__(self, port):
        self.port, self.lock = port, threading.Lock()
        self.acknowledged = {f"t{number}": {} for number in range(TABLES)}
        self.counts, self.times, self.number = collections.Counter(), [], 0

    def client(self, drawn):
        return felzoren.connect(f"127.0.0.1:{self.port + drawn.randrange(NODES)}", timeout=CALL_SECONDS)

    def put(self, drawn, table):
        with self.lock:
            self.number += 1
            number = self.number
        version = self.client(drawn).put(table, {"row": [number]}, schema={"row": "int64"}).version
        with self.lock:
            if self.acknowledged[table].setdefault(version, number) != number:
                raise Wrong(f"two uploads made version {version}")

    def get(self, drawn, table):
        with self.lock:
            known = self.acknowledged[table]
            version = drawn.choice(list(known)) if known else 1
        self.client(drawn).get(table, min(version, 200))

    def ask(self, drawn, table):
        client = self.client(drawn)
        drawn.choice((lambda: client.info(table), lambda: client.schema(table), client.list))()

    def call(self, drawn):
        """Makes one call, and records how long it took."""
        name, act = drawn.choice((("put", self.put), ("get", self.get), ("ask", self.ask)))
        before = time.perf_counter()
        try:
            act(drawn, f"t{drawn.randrange(TABLES)}")
        except felzoren.Refused as refused:
            name = f"{name}: {refused.name}"
        with self.lock:
            self.counts[name] += 1
            self.times.append(1000 * (time.perf_counter() - before))

    def cut(self, drawn):
        """A request that is cut at any byte."""
        text = request_of(drawn.choice((lambda to: to.put("t0", {"row": [0]}, schema={"row": "int64"}), lambda to: to.get("t0", 1))))
        with socket.create_connection(("127.0.0.1", self.port + drawn.randrange(NODES)), CALL_SECONDS) as peer:
            peer.sendall(text[: drawn.randrange(len(text))])
            if drawn.randrange(2):
                reset(peer)
        with self.lock:
            self.counts["cut off"] += 1

    def caller(self, number, end):
        drawn = random.Random(SEED + number)
        while time.monotonic() < end:
            try:
                drawn.choice((self.call, self.cut))(drawn)
            except (OSError, felzoren.BadAnswer) as error:
                with self.lock:
                    self.counts[f"no answer: {type(error).__name__}"] += 1


def check(load, clients):
    """Checks that each acknowledged upload is served once, at its place, by each node."""
    for table, known in load.acknowledged.items():
        if known:
            for client in clients:
                rows = [row["row"] for row in got(client, table, max(known))]
                want(len(set(rows)), len(rows))
                for version, number in known.items():
                    want(rows[version - 1], number)


def main(seconds, program):
    with tempfile.TemporaryDirectory() as folder:
        process, clients, port = started(program, NODES, folder)
        try:
            load, held = Load(port), [look(process)]
            end = time.monotonic() + seconds
            callers = [threading.Thread(target=load.caller, args=(number, end)) for number in range(CALLERS)]
            for caller in callers:
                caller.start()
            for caller in callers:
                caller.join()
            held.append(look(process))
            time.sleep(QUIET_SECONDS)
            held.append(look(process))
            check(load, clients)
            want(process.poll(), None)
        finally:
            process.terminate()
            process.communicate()
    times = sorted(load.times)
    print(f"{sum(load.counts.values())} connections in {seconds} s, by {CALLERS} callers at once: {dict(load.counts.most_common())}")
    print(f"{sum(map(len, load.acknowledged.values()))} uploads were acknowledged, and each is served once, at its place, by each node")
    print(f"calls took {times[len(times) // 2]:.0f} ms (median), {times[99 * len(times) // 100]:.0f} ms (99th percentile), {times[-1]:.0f} ms at most")
    for when, found in zip(("before", "at the end", f"{QUIET_SECONDS} s later"), held):
        print(f"{when}: {found.now / 2**20:.1f} MiB, {found.threads} threads")


if __name__ == "__main__":
    show_help(__doc__)
    try:
        main(float(sys.argv[1]) if len(sys.argv) > 1 else SECONDS, sys.argv[2] if len(sys.argv) > 2 else str(PROGRAM))
    except (Wrong, OSError, felzoren.Refused, felzoren.BadAnswer) as error:
        sys.exit(f"bench/load.py: {error}")
