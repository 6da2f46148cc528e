#!/usr/bin/env python3
"""Measures whether a server's memory stays as it is however many gets it answers, and how long a get takes.

    bench/gets.py [--gets COUNT] [--callers COUNT] [PROGRAM]

It starts `PROGRAM serve` (crates/flightd/out/flightd, which the gate builds) with three nodes, puts one small upload, and gets its version so often
by so many callers, each a process that asks the nodes in turn over a connection for each get. For each tenth it prints gets a second, the
middle, the 99th percentile and the longest of their times, and what the server then holds in memory; and at the end how much more that is behind
the last tenth than behind the first.

Seen with 10,000,000 gets by four callers, on four processors, of which other checks had a part for the first and the sixth million and were paused for the rest: 5,225 to 17,630 gets a second, 0.20 to 0.40 ms at
the median, 0.53 to 7.3 ms at the 99th percentile, 49 ms at most, and 3.4 to 3.6 MiB throughout."""
import argparse
import multiprocessing
import socket
import sys
import tempfile
import time
from pathlib import Path

TOP = Path(__file__).resolve().parent.parent
sys.dont_write_bytecode = True
sys.path += [str(TOP / "clients" / "python"), str(TOP / "tools")]

from servers import CALL_SECONDS, MEMORY, PROGRAM, look, request_of, started
from timing import count_of

NODES, STEPS = 3, 10


def get(port, request):
    """One get: how many bytes came. It makes its own socket, since looking an address up would take as long as the rest."""
    with socket.socket() as peer:
        peer.settimeout(CALL_SECONDS)
        peer.connect(("127.0.0.1", port))
        peer.sendall(request)
        count = 0
        while got := peer.recv(65_536):
            count += len(got)
    return count


def get_many(port, request, length, count, times):
    """So many gets, node by node, each of which answers so many bytes; and how long each took."""
    spent = []
    for number in range(count):
        start = time.perf_counter()
        if get(port + number % NODES, request) != length:
            times.put(None)
            return
        spent.append(time.perf_counter() - start)
    times.put(spent)


def tenth(port, request, length, count, callers):
    """So many gets by so many callers: the times of all, in order."""
    times = multiprocessing.Queue()
    words = (port, request, length, count // callers, times)
    processes = [multiprocessing.Process(target=get_many, args=words) for _ in range(callers)]
    for process in processes:
        process.start()
    found = [times.get() for _ in processes]
    for process in processes:
        process.join()
    if None in found:
        sys.exit("bench/gets.py: an answer has another length")
    return sorted(one for some in found for one in some)


def main():
    parser = argparse.ArgumentParser(description="Measures whether a server's memory stays as it is however many gets it answers.")
    parser.add_argument("--gets", type=int, default=count_of(1_000_000, 20))
    parser.add_argument("--callers", type=int, default=count_of(4, 2))
    parser.add_argument("program", nargs="?", default=str(PROGRAM))
    words = parser.parse_args()
    request = request_of(lambda client: client.get("rows", version=1))
    with tempfile.TemporaryDirectory(dir=MEMORY) as folder:
        process, clients, port = started(words.program, NODES, folder)
        try:
            clients[0].put("rows", {"row": [1]}, schema={"row": "int64"})
            length, held = get(port, request), []
            for step in range(1, STEPS + 1):
                start = time.perf_counter()
                times = tenth(port, request, length, words.gets // STEPS, words.callers)
                rate = len(times) / (time.perf_counter() - start)
                held.append(look(process).now)
                middle, late, last = (1000 * times[min(len(times) - 1, int(part * len(times)))] for part in (0.5, 0.99, 1))
                print(
                    f"  {step * len(times):,}: {rate:,.0f} gets a second, {middle:.2f}, {late:.2f} and {last:.1f} ms, {held[-1] / 2**20:,.1f} MiB",
                    flush=True,
                )
            print(f"  the last beside the first: {(held[-1] - held[0]) / 2**20:+,.1f} MiB")
        finally:
            process.terminate()
            process.communicate()


if __name__ == "__main__":
    main()
