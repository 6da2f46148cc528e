#!/usr/bin/env bash
# Times runs of whole nodes by `flight_bench`, compared with the same nodes in plain Rust.
#
# Plain Rust uses the maps of std (bench/plain_runs.rs, rustc -O). A leader of three members that loses no message has
# uploads decided one after another: 100, 1,000 and 10,000 of one batch of three numbers of eight bits, and 100 and 1,000
# of 64 KiB. An upload is twenty events: it is put, a tick begins, its Prepare goes to all, their three promises to the
# leader, its Accept to all, and what each of the three accepted to all. Each line has the processor time of one event,
# the least of fifteen short runs of each program in turn minus the time of an empty run, its instructions if valgrind is
# installed, and the ratios. Then it measures memory: the peak resident size of a run, and how much of it, without the
# file itself and the program, there is for each byte of the uploads: the uploads, what three nodes hold of them, their
# records, all messages that were sent and all steps. First it checks that the plain nodes agree with tools/runs_model.py
# on each event of many schedules, and that both programs print the same sums over all messages and steps.
#
# Seen on four processors that four other tasks shared, in microseconds for an event:
#
#                           ours  plain Rust  ratio  instructions, ratio  bytes for each byte put, plain Rust
#   100 small uploads       1.17        0.49   2.40         7,265   1.98        31.1        19.1
#   1,000                   1.39        0.64   2.19         7,010   1.89        21.5        14.7
#   10,000                  1.49        0.72   2.06         6,884   1.88        21.1        13.9
#   100 uploads of 64 KiB   7.90        9.08   0.87        58,125   1.65        4.16        4.08
#   1,000                   10.8        9.34   1.16        57,970   1.65        4.10        4.06
#
# The times vary: beside one or two tasks the first three ratios were 2.07, 1.83 and 1.79. From 100 to 10,000 small uploads an
# event took 1.27 times as long (plain Rust 1.48), with 0.95 times the instructions: a run holds 7 KB for each upload, and soon no
# cache holds a run. A node knows its records besides its store, which costs a twentieth of the instructions and of the memory.
# The difference to plain Rust: of the 131,000 instructions of a small upload (plain Rust 74,000) 43,000 read it at
# the three nodes (39,000), 10,000 find its parts again, 7,000 read its schema and its header once more, and 25,000
# move plans and steps from one function to the next. An upload took 140 allocations, in plain Rust 102.
source "$(dirname "${BASH_SOURCE[0]}")/start.sh"
source bench/programs.sh plain_runs

python3 -B bench/model_runs.py "$plain" "$work/schedule" "$(count_of 200 2)"
"$plain" generate 3 0 1 3 >"$work/empty"
for uploads in $(counts_of 100 1000 10000); do "$plain" generate 3 "$uploads" 1 3 >"$work/small-$uploads"; done
for uploads in $(counts_of 100 1000); do "$plain" generate 3 "$uploads" 1 65536 >"$work/large-$uploads"; done
for members in 1 2 4 5 7; do
  "$plain" generate "$members" 20 2 5 >"$work/members-$members"
  agree run-events 2 "$work/members-$members"
done
for file in $(counts_of small-100 small-1000 small-10000) $(counts_of large-100 large-1000); do
  agree run-events 1 "$work/$file"
done
echo "all tallies agree"

PYTHONPATH=bench python3 -B - "$proved" "$plain" "$work" <<'P'
import os
import subprocess
import sys
from timing import Cost, compared, counts_of, in_turn, less

proved, plain, work = sys.argv[1:]
EVENTS = 20  # for each upload, of three members
NAMES = {"small": "a batch of three numbers", "large": "64 KiB"}
COUNTS = {"small": counts_of(100, 1_000, 10_000), "large": counts_of(100, 1_000)}

def timed(size, uploads):  # the cost of one event in both
    runs = in_turn([(proved, "run-events"), (plain, "run-events")], f"{work}/{size}-{uploads}")
    return [less(run, Cost(0, 0), EVENTS * uploads + 3) for run in runs]

def grown(before, after):  # how an event's cost grew, ours and in plain Rust
    times = [after.seconds / before.seconds for before, after in zip(before, after)]
    line = f"an event takes {times[0]:.2f} times as long, in plain Rust {times[1]:.2f} times"
    if None in (it.instructions for it in (*before, *after)):
        return line
    counts = [after.instructions / before.instructions for before, after in zip(before, after)]
    return f"{line}; {counts[0]:.2f} times the instructions, in plain Rust {counts[1]:.2f} times"

for size, counts in COUNTS.items():
    took = {uploads: timed(size, uploads) for uploads in counts}
    for uploads, costs in took.items():
        print(compared(f"an event, {uploads:,} uploads of {NAMES[size]}", *costs))
    print(f"from {counts[0]:,} to {counts[-1]:,} uploads of {NAMES[size]} {grown(took[counts[0]], took[counts[-1]])}")

def peak(program, path):  # bytes; a child that Python starts would count the memory of Python as its own
    words = ["/usr/bin/time", "-f", "%M", program, "run-events", "1", path]
    told = subprocess.run(words, stdout=subprocess.DEVNULL, stderr=subprocess.PIPE, check=True).stderr
    return int(told.split()[-1]) * 1024

for size, counts in COUNTS.items():
    for uploads in counts:
        path = f"{work}/{size}-{uploads}"
        file = os.path.getsize(path)
        put = file - 8 - 4 * uploads
        for program, name in ((proved, "flight_bench"), (plain, "plain Rust")):
            most = peak(program, path)
            held = most - peak(program, f"{work}/empty") - file
            both = f"{most / 2**20:.1f} MiB, {held / put:.2f} bytes for each byte put"
            print(f"{uploads:,} uploads of {NAMES[size]}, {put:,} bytes: {name} peaks at {both}")
P
