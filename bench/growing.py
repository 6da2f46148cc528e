#!/usr/bin/env python3
"""Measures whether a put costs the same however many uploads a table has: 50,000 small ones to one table, by one caller and by 16.

    bench/growing.py [--uploads COUNT] [PROGRAM]

It starts `PROGRAM serve` (crates/flightd/out/flightd, which the gate builds) with three nodes for each number of callers. Callers are
processes that make their request once and change its upload's id alone, and call the nodes in turn. For each tenth of the uploads it
prints puts a second, the middle, the 99th percentile and the longest of the times that a put took, how long it took the server's
processors, and what the server then holds in memory; and at the end what the last tenth cost to the first, and the middle one of the last
three to that of the first three, which is to be within 1.2. Where a put is refused it says why, and ends with what came before.

Records are kept in memory (/dev/shm), where a sync costs nothing, so that a disk does not hide what grows; where there is no such folder, in
one for temporary files. It takes a few minutes. PROGRAM may be bench/plain_cluster.rs too.

Seen of flightd with 300,000 uploads, on four slow processors that bench/gets.py shared, and eight checks too until these were paused:

              puts a second    ms of processors a put   MiB at the end   middle of the last beside the first, in time and in that of processors
  1 caller       395 to 924              0.56 to 0.65              979   0.54, 1.08
  16 callers   1,221 to 1,479            0.73 to 0.87            1,130   0.92, 0.93

The server held 3.3 to 3.9 KiB for each upload of one number at three nodes, the first as the last, and nothing else that grew.

When its journal still held each step, on processors that nothing else used, one caller made 2,365 to 2,659 puts a second and sixteen 3,511 to
3,562, until it was full: behind 35,713 puts with 368 MiB, and behind 14,631 with 229 MiB.

Seen of bench/plain_cluster.rs, on four processors that a dozen other tasks shared, with 10,000 uploads:

              puts a second    ms of processors a put   MiB at the end   last tenth beside the first, in time and in that of processors
  1 caller       183 to 396              0.35 to 0.52               93   1.43, 1.27
  16 callers    868 to 1,526             0.30 to 0.45              349   1.29, 1.20
"""
import argparse
import io
import multiprocessing
import secrets
import socket
import statistics
import sys
import tempfile
import time
from pathlib import Path

TOP = Path(__file__).resolve().parent.parent
sys.dont_write_bytecode = True
sys.path += [str(TOP / "clients" / "python"), str(TOP / "tools")]

import felzoren
from servers import MEMORY, PROGRAM, look, request_of, started
from timing import count_of, counts_of

CALLERS, NODES, STEPS, SOME, PUT_SECONDS = counts_of(1, 16), 3, 10, 3, 600
LOOK_SECONDS = 0.02


def put(port, request, name):
    """One put: the version that it made."""
    with socket.create_connection(("127.0.0.1", port), PUT_SECONDS) as peer:
        peer.sendall(request)
        answer = b""
        while got := peer.recv(4096):
            answer += got
    return felzoren.read_version(felzoren.only(felzoren.read_messages(io.BytesIO(answer).read)), name)


def take_turn(left):
    """Whether there was an upload left, which is taken."""
    with left.get_lock():
        left.value -= 1
        return left.value >= 0


def put_many(port, left, done, times, faults):
    """Puts uploads, one after the other, as long as some are left, counts them and tells how long each took; or why one was refused."""
    blank = bytes(16)
    request = request_of(lambda client: client.put("rows", {"row": [1]}, schema={"row": "int64"}, id=blank))
    front, back = request.split(blank.hex().encode())
    try:
        while take_turn(left):
            name, start = secrets.token_bytes(16), time.perf_counter()
            put(port, front + name.hex().encode() + back, name)
            with done.get_lock():
                times[done.value] = time.perf_counter() - start
                done.value += 1
    except (OSError, felzoren.Refused, felzoren.BadAnswer) as fault:
        faults.put(f"{type(fault).__name__} {fault}")


def reaches(done, goal, callers):
    """Waits until so many uploads are done, or no caller is left: whether they are."""
    while done.value < goal and any(caller.is_alive() for caller in callers):
        time.sleep(LOOK_SECONDS)
    return done.value >= goal


def late_in(times):
    """The middle of these times, their 99th percentile and the longest, in milliseconds."""
    times = sorted(times)
    return tuple(1000 * times[min(len(times) - 1, int(part * len(times)))] for part in (0.5, 0.99, 1))


def watch(process, done, times, callers, uploads):
    """Prints a line for each tenth, once it is done, and gives what a put cost in it: seconds, and those of the server's processors."""
    costs, count, before, used = [], 0, time.perf_counter(), look(process).seconds
    for step in range(1, STEPS + 1):
        if not reaches(done, uploads * step // STEPS, callers):
            break
        now, found, more = time.perf_counter(), look(process), done.value - count
        if more == 0:
            continue
        costs.append(((now - before) / more, (found.seconds - used) / more))
        middle, late, longest = late_in(times[count : count + more])
        count, before, used = count + more, now, found.seconds
        rate, memory = 1 / costs[-1][0], found.now / 2**20
        print(
            f"  {count:,}: {rate:,.0f} puts a second, {middle:.2f}, {late:.1f} and {longest:.0f} ms, "
            f"{1000 * costs[-1][1]:.2f} ms of processors a put, {memory:,.0f} MiB",
            flush=True,
        )
    return costs


def tell_growth(what, first, last):
    """Prints what a put cost later to what it cost first."""
    times, processors = (after / max(before, 1e-9) for before, after in zip(first, last))
    print(f"  {what}: {times:.2f} in time, {processors:.2f} in time of processors", flush=True)


def grow(program, count, uploads):
    """So many uploads by so many callers."""
    print(f"{count} {'caller' if count == 1 else 'callers'}", flush=True)
    left, done, faults = multiprocessing.Value("q", uploads), multiprocessing.Value("q", 0), multiprocessing.Queue()
    times = multiprocessing.Array("d", uploads, lock=False)
    with tempfile.TemporaryDirectory(dir=MEMORY) as folder:
        process, _, port = started(program, NODES, folder)
        try:
            print(f"  at the start: {look(process).now / 2**20:,.0f} MiB")
            words = [(port + number % NODES, left, done, times, faults) for number in range(count)]
            callers = [multiprocessing.Process(target=put_many, args=it) for it in words]
            for caller in callers:
                caller.start()
            costs = watch(process, done, times, callers, uploads)
            for caller in callers:
                caller.join()
            if done.value < uploads:
                print(f"  behind {done.value:,} uploads a put ended with {faults.get()}", flush=True)
        finally:
            process.terminate()
            process.communicate()
    if len(costs) > 1:
        tell_growth("the last of these beside the first", costs[0], costs[-1])
    if len(costs) >= 2 * SOME:
        middle = [[statistics.median(it) for it in zip(*some)] for some in (costs[:SOME], costs[-SOME:])]
        tell_growth(f"the middle of the last {SOME} beside that of the first {SOME}", *middle)


def main():
    parser = argparse.ArgumentParser(description="Measures whether a put costs the same however many uploads a table has.")
    parser.add_argument("--uploads", type=int, default=count_of(50_000, 20))
    parser.add_argument("program", nargs="?", default=str(PROGRAM))
    words = parser.parse_args()
    for count in CALLERS:
        grow(words.program, count, words.uploads)


if __name__ == "__main__":
    main()
