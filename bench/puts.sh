#!/usr/bin/env bash
# Measures acknowledged puts by 1, 16 and 64 callers at once to a server with three nodes, compared with the same cluster in plain Rust.
#
#   bench/puts.sh [PROGRAM]
#
# Each put has one row. Plain Rust is bench/plain_cluster.rs, by rustc -O, with nothing proved. It starts `PROGRAM serve`
# (crates/flightd/out/flightd, which the gate builds) and plain Rust in turn, three times each for each number of callers, which are those of
# bench/serve.py. It prints the puts a second, the median of three, the median time of a put, and the ratio of the server's rate to plain
# Rust's. Plain Rust runs a second time with a record kept while only its node is locked, and not the journal too: this shows what one lock
# for all files costs. Records are first kept in files of a folder for temporary files (TMPDIR), where the disk decides; then in memory
# (/dev/shm), where a sync costs nothing, so that all else is seen.
#
# It takes some minutes, which depends on the disk.
#
# Seen on four processors with nothing else running, in puts a second, and in milliseconds for the median put:
#
#                             flightd    plain Rust   ratio   plain Rust with records kept apart
#   disk,   1 caller      440 (  2.2)    481 (  2.0)   0.92       665 (  1.4)
#          16 callers     414 ( 28.4)    404 ( 29.6)   1.02       773 (  9.2)
#          64             325 (150.6)    370 (128.2)   0.88       579 ( 41.1)
#   memory, 1 caller    1,126 (  0.9)  1,292 (  0.7)   0.87     1,536 (  0.6)
#          16 callers   2,140 (  5.0)  2,985 (  4.4)   0.72     3,180 (  4.2)
#          64           1,460 ( 33.7)  2,519 ( 18.3)   0.58     2,780 ( 15.3)
#
# With records on the disk both wait for it: only one node at a time syncs its records, as each is kept under the journal's lock.
source "$(dirname "${BASH_SOURCE[0]}")/start.sh"
rustc -O -C panic=abort --edition 2021 -o "$work/cluster" bench/plain_cluster.rs
printf '#!/bin/sh\nexec "%s/cluster" "$@" --apart\n' "$work" >"$work/apart"
chmod +x "$work/apart"

PYTHONPATH=bench python3 -B - "${1:-crates/flightd/out/flightd}" "$work" <<'P'
import statistics
import sys
import tempfile

from serve import CALLERS, puts
from timing import count_of

program, work = sys.argv[1:]
ROUNDS = count_of(3, 1)
PROGRAMS = {"flightd": program, "plain Rust": f"{work}/cluster", "plain Rust with records kept apart": f"{work}/apart"}
# The folders for records, and how many puts there are in a round.
PLACES = ((tempfile.gettempdir(), count_of(192, max(CALLERS))), ("/dev/shm", count_of(1_920, max(CALLERS))))


def in_turn(callers, count):
    """For each program the medians of its rounds' rates and times."""
    rounds = [[puts(path, callers, count)[:2] for path in PROGRAMS.values()] for _ in range(ROUNDS)]
    return [[statistics.median(it) for it in zip(*of_one)] for of_one in zip(*rounds)]


for place, count in PLACES:
    print(f"records in {place}, {count} puts", flush=True)
    tempfile.tempdir = place
    for callers in CALLERS:
        found = in_turn(callers, count)
        told = [f"{name} {rate:,.0f} a second ({middle:.1f} ms)" for name, (rate, middle) in zip(PROGRAMS, found)]
        print(f"{callers} caller{'s' * (callers > 1)}: {', '.join(told)}; flightd at {found[0][0] / found[1][0]:.2f} of plain Rust", flush=True)
P
