#!/usr/bin/env python3
"""Measures etcd in the way of bench/serve.py: acknowledged puts of one small value each, by 1, 16 and 64 callers at once.

    bench/etcd.py [ETCD]

It starts three members of ETCD (the program etcd, of Debian's etcd-server) on this machine, with their data in a folder for temporary files.
Callers are processes, each with one connection to a member in turn, over etcd's gateway of JSON over HTTP. etcd syncs its log before it
answers, as this service's nodes sync their records."""
import base64
import contextlib
import http.client
import json
import multiprocessing
import subprocess
import sys
import tempfile
import time
from pathlib import Path

TOP = Path(__file__).resolve().parent.parent
sys.dont_write_bytecode = True
sys.path.append(str(TOP / "tools"))

from servers import free_port
from timing import count_of, counts_of
from toolbox import show_help

CALLERS, PUTS, MEMBERS, START_SECONDS = counts_of(1, 16, 64), count_of(1_280, 10), 3, 30


def put(connection, key, value):
    body = json.dumps({"key": base64.b64encode(key).decode(), "value": base64.b64encode(value).decode()})
    connection.request("POST", "/v3/kv/put", body)
    answer = connection.getresponse()
    text = answer.read()
    if answer.status != 200:
        raise OSError(text.decode())


def put_values(port, caller, count, start, times):
    """Puts `count` values, and reports how long each took, in milliseconds."""
    connection = http.client.HTTPConnection("127.0.0.1", port, timeout=60)
    start.wait()
    taken = []
    for number in range(count):
        before = time.perf_counter()
        put(connection, b"row %d" % (caller * count + number), b"%d" % number)
        taken.append(1000 * (time.perf_counter() - before))
    times.put(taken)


@contextlib.contextmanager
def members(program):
    """Starts three members, and yields their ports once they have a leader."""
    with tempfile.TemporaryDirectory() as folder, contextlib.ExitStack() as stack:
        port = free_port(2 * MEMBERS)
        names = [f"m{number}" for number in range(MEMBERS)]
        peers = [f"http://127.0.0.1:{port + MEMBERS + number}" for number in range(MEMBERS)]
        cluster = ",".join(f"{name}={peer}" for name, peer in zip(names, peers))
        for number, (name, peer) in enumerate(zip(names, peers)):
            client = f"http://127.0.0.1:{port + number}"
            words = [program, "--name", name, "--data-dir", f"{folder}/{name}", "--listen-client-urls", client, "--advertise-client-urls", client,
                     "--listen-peer-urls", peer, "--initial-advertise-peer-urls", peer, "--initial-cluster", cluster]
            process = subprocess.Popen(words, stdout=subprocess.DEVNULL, stderr=subprocess.DEVNULL)
            stack.callback(process.wait)
            stack.callback(process.terminate)
        end = time.monotonic() + START_SECONDS
        while True:
            try:
                put(http.client.HTTPConnection("127.0.0.1", port, timeout=10), b"first", b"")
                break
            except OSError:
                if time.monotonic() > end:
                    raise
                time.sleep(0.2)
        yield [port + number for number in range(MEMBERS)]


def puts(program, callers):
    """The puts a second by this many callers, and the median and the 99th percentile of how long they took."""
    times, start = multiprocessing.Queue(), multiprocessing.Event()
    with members(program) as ports:
        each = PUTS // callers
        processes = [multiprocessing.Process(target=put_values, args=(ports[it % MEMBERS], it, each, start, times)) for it in range(callers)]
        for process in processes:
            process.start()
        time.sleep(1)
        before = time.perf_counter()
        start.set()
        taken = sorted(value for _ in processes for value in times.get())
        seconds = time.perf_counter() - before
        for process in processes:
            process.join()
    return len(taken) / seconds, taken[len(taken) // 2], taken[99 * len(taken) // 100]


if __name__ == "__main__":
    show_help(__doc__)
    for callers in CALLERS:
        rate, middle, high = puts(sys.argv[1] if len(sys.argv) > 1 else "etcd", callers)
        print(f"{callers} callers: {rate:,.0f} puts a second; median {middle:.1f} ms, 99th percentile {high:.1f} ms", flush=True)
