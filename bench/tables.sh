#!/usr/bin/env bash
# Times uploads and the tables that they make by `flight_bench`, compared with the same work in plain Rust.
#
# Plain Rust uses the maps of std (bench/plain_tables.rs, rustc -O). Uploads of one batch of three numbers of eight bits are
# read and taken one by one, over 1 and over 100 tables, 1,000, 10,000 and 100,000 of them; and uploads of 1 MiB, of one batch
# and of sixteen, are read and answered. Each line has the processor time of one upload, or of one repetition, the least of
# fifteen short runs of each program in turn minus the time of an empty run, its instructions if valgrind is installed, and
# the ratios. Then it measures what tables hold in memory besides the uploads themselves, which are held and shared by those
# that agreed on them: the peak resident size of a run that keeps tables, minus that of one that makes none. First it checks
# that both programs print the same sums.
#
# Seen on four processors beside six other tasks, in microseconds (including newly requested pages of memory); the last three lines on
# a processor that did nothing else:
#
#                                    ours  plain Rust  ratio  instructions, ratio
#   taken, 1,000 over 1 table         3.4         2.4   1.45        25,621   1.58
#   taken, 10,000                     4.1         2.5   1.61        25,675   1.55
#   taken, 100,000                    4.4         2.8   1.57        25,424   1.48
#   taken, 1,000 over 100 tables      3.3         2.4   1.39        25,879   1.45
#   taken, 10,000                     3.8         2.7   1.43        25,701   1.44
#   taken, 100,000                    4.2         2.9   1.45        25,426   1.46
#   1 MiB read, one batch             266         204   1.30         3.2 M   1.42
#   1 MiB read, sixteen batches       156          76   2.04         3.3 M   1.41
#   1 MiB answered                   0.08          37   0.00         1,234   0.00
#
# From 1,000 to 100,000 held an upload took 1.27 to 1.31 times as long, due to memory (plain Rust 1.21). The difference to plain
# Rust: the frames in which an upload is served are made once, when it is made ready, and answers share them, while plain Rust makes
# them anew for each answer; an upload's schema and each header are read once to be checked and once more to be kept; and each part
# is compared with itself when its one encoding is checked.
#
# Besides the uploads, tables held as many bytes as uploads of 1 MiB have, as plain Rust does; for uploads of 344 bytes, of which
# 189 are served, 1.6 over one table and 1.9 over a hundred (plain Rust 1.2 and 1.6).
source "$(dirname "${BASH_SOURCE[0]}")/start.sh"
source bench/programs.sh plain_tables

for tables in 1 100; do
  for uploads in $(counts_of 1000 10000 100000); do
    "$plain" generate "$uploads" "$tables" 1 3 >"$work/$uploads-$tables"
    agree take-uploads 1 "$work/$uploads-$tables"
  done
done
"$plain" generate 1 1 1 1048576 >"$work/whole"
"$plain" generate 1 1 16 65536 >"$work/parted"
"$plain" generate 64 1 1 1048576 >"$work/many-whole"
"$plain" generate 64 1 16 65536 >"$work/many-parted"
for file in whole parted; do
  agree decode-uploads 3 "$work/$file"
  agree answer-tickets 3 "$work/$file"
done
for file in 1000-100 many-whole many-parted; do
  agree hold-uploads 2 "$work/$file"
done
echo "all tallies agree"

PYTHONPATH=bench python3 -B - "$proved" "$plain" "$work" <<'P'
import os
import subprocess
import sys
from timing import Cost, compared, counts_of, in_turn, less

proved, plain, work = sys.argv[1:]

for tables in (1, 100):
    took = {}
    for uploads in counts_of(1_000, 10_000, 100_000):
        runs = in_turn([(proved, "take-uploads"), (plain, "take-uploads")], f"{work}/{uploads}-{tables}")
        took[uploads] = [less(run, Cost(0, 0), uploads) for run in runs]
        print(compared(f"take-uploads, {uploads:,} held, tables {tables}", *took[uploads]))
    grown = [after.seconds / before.seconds for before, after in zip(took[1_000], took[uploads])]
    print(f"from 1,000 to {uploads:,} held an upload takes {grown[0]:.2f} times as long, in plain Rust {grown[1]:.2f} times")

for file in ("whole", "parted"):
    size = os.path.getsize(f"{work}/{file}") - 4
    for task in ("decode-uploads", "answer-tickets"):
        ours, theirs = in_turn([(proved, task), (plain, task)], f"{work}/{file}")
        speeds = [f"{size / 2**20 / cost.seconds:,.0f}" for cost in (ours, theirs)]
        print(f"{compared(f'{task} {file}', ours, theirs)}; MiB/s {speeds[0]}, plain Rust {speeds[1]}")

def peak(program, count, file):  # bytes
    child = subprocess.Popen([program, "hold-uploads", str(count), file], stdout=subprocess.DEVNULL)
    _, status, usage = os.wait4(child.pid, 0)
    if status:
        sys.exit(f"hold-uploads {count}: status {status}")
    return usage.ru_maxrss * 1024

for file, uploads in counts_of(("1000-100", 1_000), ("100000-1", 100_000), ("many-whole", 64), ("many-parted", 64)):
    path = f"{work}/{file}"
    size = os.path.getsize(path) - 4 * uploads
    least, most = (100, 200) if file == "1000-100" else (1, 3)
    for program, name in ((proved, "flight_bench"), (plain, "plain Rust")):
        held = (peak(program, most, path) - peak(program, least, path)) / (most - least)
        print(f"tables of {file}, {size:,} bytes uploaded: {name} holds {held / size:.3f} bytes for each besides the upload")
P
