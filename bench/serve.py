#!/usr/bin/env python3
"""Measures a server: acknowledged puts of one row each, by 1, 16 and 64 callers at once, and gets of 64 MiB.

    bench/serve.py [PROGRAM]

It starts `PROGRAM serve` (crates/flightd/out/flightd, which the gate builds) with three nodes for each number of callers. Callers are
processes, each with the library in clients/python, and call the nodes in turn; they measure the time of a put. A get is read from a
socket without decoding it, and compared with as many bytes that another Python process sends. Records are kept in files of a folder for
temporary files (TMPDIR), each synced before its node answers."""
import multiprocessing
import socket
import sys
import time
from pathlib import Path

TOP = Path(__file__).resolve().parent.parent
sys.dont_write_bytecode = True
sys.path += [str(TOP / "clients" / "python"), str(TOP / "tools")]

import felzoren
from servers import CALL_SECONDS, PROGRAM, server
from timing import count_of, counts_of
from toolbox import show_help

CALLERS, PUTS, PUT_SECONDS = counts_of(1, 16, 64), count_of(1_280, 10), 600
# Six uploads of some 11 MiB in frames below 4 MiB.
UPLOADS, BATCHES, ROWS = 6, 3, count_of(480_000, 480)
GETS = count_of(5, 1)


def put_rows(port, caller, count, start, times):
    """Puts `count` rows, and reports how long each took, in milliseconds; or nothing if one of them failed."""
    client, taken = felzoren.connect(f"127.0.0.1:{port}", timeout=PUT_SECONDS), []
    start.wait()
    try:
        for number in range(count):
            before = time.perf_counter()
            client.put("rows", {"row": [caller * count + number]}, schema={"row": "int64"})
            taken.append(1000 * (time.perf_counter() - before))
    except (OSError, felzoren.Refused, felzoren.BadAnswer) as fault:
        print(f"bench/serve.py: caller {caller}, put {number}: {fault}", file=sys.stderr)
        taken = []
    times.put(taken)


def puts(program, callers, count=PUTS):
    """The puts a second by this many callers, and the median and the 99th percentile of how long they took."""
    times, start = multiprocessing.Queue(), multiprocessing.Event()
    with server(program, 3) as (_, port):
        each = count // callers
        processes = [multiprocessing.Process(target=put_rows, args=(port + it % 3, it, each, start, times)) for it in range(callers)]
        for process in processes:
            process.start()
        time.sleep(1)
        before = time.perf_counter()
        start.set()
        taken = sorted(it for _ in processes for it in times.get())
        seconds = time.perf_counter() - before
        for process in processes:
            process.join()
    if len(taken) < each * callers:
        sys.exit("bench/serve.py: puts failed")
    return len(taken) / seconds, taken[len(taken) // 2], taken[len(taken) * 99 // 100]


def read_all(peer):
    """How many bytes come until the peer ends."""
    count, room = 0, bytearray(1 << 20)
    while got := peer.recv_into(room):
        count += got
    return count


def gets(program):
    """Mebibytes a second of a version of some 64 MiB, the best of a few gets, and how many bytes it has."""
    with server(program, 3) as (clients, port):
        batch = {"row": list(range(ROWS))}
        for _ in range(UPLOADS):
            version = clients[0].put_batches("rows", [batch] * BATCHES, {"row": "int64"}).version
        request = felzoren.request("DoGet", [felzoren.bytes_field(1, felzoren.Ticket("rows", version).encode())])
        best = 0.0
        for _ in range(GETS):
            before = time.perf_counter()
            with socket.create_connection(("127.0.0.1", port), CALL_SECONDS) as peer:
                peer.sendall(request)
                count = read_all(peer)
            best = max(best, count / (1 << 20) / (time.perf_counter() - before))
    return best, count


def send_all(listener, text):
    peer, _ = listener.accept()
    with peer:
        peer.sendall(text)


def raw(count):
    """Mebibytes a second of this many bytes over a plain socket, the best of a few."""
    best, text = 0.0, bytes(count)
    for _ in range(GETS):
        with socket.create_server(("127.0.0.1", 0)) as listener:
            sender = multiprocessing.Process(target=send_all, args=(listener, text))
            sender.start()
            before = time.perf_counter()
            with socket.create_connection(listener.getsockname(), CALL_SECONDS) as peer:
                read_all(peer)
            best = max(best, count / (1 << 20) / (time.perf_counter() - before))
            sender.join()
    return best


def main(program):
    for callers in CALLERS:
        print("{} callers: {:.0f} puts a second, median {:.1f} ms, 99th percentile {:.1f} ms".format(callers, *puts(program, callers)))
    rate, count = gets(program)
    print(f"a get of {count / (1 << 20):.0f} MiB: {rate:.0f} MiB/s, and {raw(count):.0f} MiB/s over a plain socket")


if __name__ == "__main__":
    show_help(__doc__)
    main(sys.argv[1] if len(sys.argv) > 1 else str(PROGRAM))
