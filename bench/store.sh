#!/usr/bin/env bash
# Times a store of records in a file by `flight_bench`, compared with the same system calls in plain Rust and with SQLite.
#
# A keep writes a record after the closed gate, syncs (fdatasync), opens the gate, and syncs again. Plain Rust is
# bench/plain_store.rs, by rustc -O. SQLite runs in Python's module sqlite3, with one insert a transaction, journal_mode=WAL and
# synchronous=FULL, which syncs once for each. All files are in one folder for temporary files (TMPDIR), which must be on a disk:
# on a file system in memory a sync does nothing. Each round keeps a hundred records by each of the three in turn, each time in a
# new file; the time of a run that keeps none is subtracted. A line has the median of all rounds, and of the rounds' ratios the
# median and the quartiles, since a disk that others use takes sometimes twice as long and sometimes half; then the processor time
# of a keep. Then it times the recall of 100,000 records of 32 bytes by an open store, in processor time, compared with plain Rust,
# and with a reader that syncs and reads the file's bytes but makes no records of them. First it checks that each program, if it
# keeps the records of a file in turn, writes exactly that file, and that both recall the same.
#
# Seen on four processors and a disk (ext4, of a virtual machine) that nothing else used, with SQLite 3.40.1:
#
#                                  ours  plain Rust  ratio                    SQLite
#   keeps of 32 bytes, a second   10,809      10,802   0.99 (0.97 to 1.01)     9,313
#   keeps of 64 KiB, a second      5,941       5,924   1.01 (0.96 to 1.03)     3,286
#   recall of 100,000, ms           28.2        15.8   1.79 (the bytes alone 0.67)
source "$(dirname "${BASH_SOURCE[0]}")/start.sh"
source bench/programs.sh plain_store

# Checks that each program, if it keeps the file's records, writes that file.
keep_alike() {
  for program in "$plain" "$proved"; do
    rm -f "$1.kept"
    "$program" keep-records 1 "$1" >"$work/printed"
    cmp "$1" "$1.kept"
  done
}

for size in 32 65536; do
  "$plain" generate 1 "$size" >"$work/one-$size"
  "$plain" generate 20 "$size" >"$work/twenty-$size"
  keep_alike "$work/twenty-$size"
  agree recall-records 2 "$work/twenty-$size"
done
"$plain" generate 100000 32 >"$work/many"
agree recall-records 2 "$work/many"
echo "both write the same files, and recall the same; the file system is $(df --output=fstype "$work" | tail -n 1)"

PYTHONPATH=bench python3 -B - "$proved" "$plain" "$work" <<'P'
import collections
import os
import sqlite3
import statistics
import subprocess
import sys
import time
from timing import compared, count_of, in_turn

proved, plain, work = sys.argv[1:]
KEEPS, ROUNDS = count_of((100, 40), (2, 2))

# Seconds of a run: by the clock, and of the processor.
Time = collections.namedtuple("Time", "clock processor")

def remove(*paths):
    for path in paths:
        if os.path.exists(path):
            os.remove(path)

def kept(program, size, count):  # the time of a run that keeps this many records in a new file
    remove(f"{work}/one-{size}.kept")
    start = time.monotonic()
    child = subprocess.Popen([program, "keep-records", str(count), f"{work}/one-{size}"], stdout=subprocess.DEVNULL)
    _, status, usage = os.wait4(child.pid, 0)
    if status:
        sys.exit(f"keep-records {count}: status {status}")
    return Time(time.monotonic() - start, usage.ru_utime + usage.ru_stime)

def inserted(size, count):  # the time of as many inserts in a new file, without what is done around them
    path, record = f"{work}/sqlite", bytes(range(256)) * (size // 256) or bytes(range(size))
    remove(path, f"{path}-wal", f"{path}-shm")
    base = sqlite3.connect(path, isolation_level=None)  # each statement is a transaction
    assert base.execute("pragma journal_mode = wal").fetchone() == ("wal",)
    base.execute("pragma synchronous = full")
    base.execute("create table records (record blob)")
    start, busy = time.monotonic(), time.process_time()
    for _ in range(count):
        base.execute("insert into records values (?)", (record,))
    taken = Time(time.monotonic() - start, time.process_time() - busy)
    base.close()
    return taken

def rounds(size):  # for each way, what a record took in each round
    ways = [lambda count: kept(proved, size, count), lambda count: kept(plain, size, count), lambda count: inserted(size, count)]
    whole, empty = ([[] for _ in ways] for _ in range(2))
    for first in range(ROUNDS):
        for place in range(len(ways)):
            way = (first + place) % len(ways)
            empty[way].append(ways[way](0))
            whole[way].append(ways[way](KEEPS))
    return [each(*both) for both in zip(whole, empty)]

def each(whole, empty):  # what a record took in each run, minus the median of the empty runs
    around = Time(*map(statistics.median, zip(*empty)))
    return [Time((run.clock - around.clock) / KEEPS, (run.processor - around.processor) / KEEPS) for run in whole]

def ratio(ours, theirs):
    low, middle, high = statistics.quantiles((one.clock / other.clock for one, other in zip(ours, theirs)), n=4)
    return f"ratio {middle:.2f} ({low:.2f} to {high:.2f})"

def told(taken):
    clock, processor = map(statistics.median, zip(*taken))
    return f"{1 / clock:,.0f}/s, {clock * 1e6:,.0f} us ({processor * 1e6:,.0f} us of the processor)"

for size in (32, 65536):
    ours, theirs, sqlite = rounds(size)
    print(f"a keep of {size:,} bytes: flight_bench {told(ours)}, plain Rust {told(theirs)}, {ratio(ours, theirs)}; "
          f"SQLite {told(sqlite)}, {ratio(ours, sqlite)}", flush=True)

tasks = [(proved, "recall-records"), (plain, "recall-records"), (plain, "read-file")]
ours, theirs, bytes_alone = in_turn(tasks, f"{work}/many")
print(compared("recall of 100,000 records", ours, theirs))
print(f"the bytes of that file alone: plain Rust {bytes_alone.seconds * 1e6:,.0f} us, ratio {ours.seconds / bytes_alone.seconds:.2f}")
P
