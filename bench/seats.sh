#!/usr/bin/env bash
# Times three nodes that share a journal by `flight_bench`, compared with the same nodes, own lists and journal in plain Rust.
#
# Plain Rust (bench/plain_runs.rs, rustc -O) does not check whether they agree. A leader that loses no message has 50, 5,000 and
# 49,500 uploads of one batch of three numbers decided, one after another: twenty entries of the journal each. Each line has the
# processor time of an entry, the least of some short runs of each program in turn minus the time of an empty run, its
# instructions if valgrind is installed, and the ratios; then how an entry's time grows with the journal, and what an entry costs
# if the journal has no log, so that each call compares all entries. Last it measures memory: the peak resident size of a run of
# seats minus that of the same run of nodes alone, per entry. First it checks that both programs, with a log and without, print
# the same sums over all messages and steps as a run of the same events.
#
# Seen on four processors with nothing else running, in microseconds for an entry:
#
#                                    ours  plain Rust  ratio  instructions, ratio
#   1,000 entries                    1.61        0.65   2.48         10,322  2.40
#   100,000                          2.03        0.93   2.18          9,793  2.39
#   990,000                          2.12        1.07   1.99          9,599  2.37
#   1,000 without a log              9.31        1.11   8.41         68,476  16.0
#   2,000 without a log              17.3        0.79   21.9        126,728  29.1
#
# The instructions of an entry do not grow with the journal; its time does by 1.32 times up to 990,000 entries (plain Rust 1.65), since
# no cache holds the journal. The difference to plain Rust is the node itself, whose run alone has 1.9 times plain Rust's instructions
# (bench/runs.sh). Seats, their own lists and the journal took 183 bytes an entry more than a run of the same events, plain Rust's
# 161.
source "$(dirname "${BASH_SOURCE[0]}")/start.sh"
source bench/programs.sh plain_runs

"$plain" generate 3 0 1 3 >"$work/empty"
for uploads in $(counts_of 50 100 5000 49500); do "$plain" generate 3 "$uploads" 1 3 >"$work/$uploads"; done
for uploads in $(counts_of 50 5000); do
  agree seat-events 2 "$work/$uploads"
  cmp "$work/plain.printed" <("$plain" run-events 2 "$work/$uploads")
done
cmp <("$proved" compare-events 2 "$work/50") <("$plain" run-events 2 "$work/50")
echo "all tallies agree"

PYTHONPATH=bench python3 -B - "$proved" "$plain" "$work" <<'P'
import subprocess
import sys
from timing import Cost, compared, count_of, counts_of, in_turn, less

proved, plain, work = sys.argv[1:]
ENTRIES = 20  # for each upload, of three members; three questions at the end

def timed(uploads, words=("seat-events", "seat-events"), most=None):  # the cost of one entry in both
    runs = in_turn([(proved, words[0]), (plain, words[1])], f"{work}/{uploads}", runs=5, most=most)
    return [less(run, Cost(0, 0), ENTRIES * uploads + 3) for run in runs]

took = {uploads: timed(uploads, most=1 if uploads > 5000 else None) for uploads in counts_of(50, 5000, 49500)}
for uploads, costs in took.items():
    print(compared(f"an entry, {ENTRIES * uploads:,} entries", *costs))
for name, program in ((0, "flight_bench"), (1, "plain Rust")):
    first, *others = (took[uploads][name].seconds for uploads in took)
    grown = [f"{seconds / first:.2f} times as long at {ENTRIES * uploads:,}" for uploads, seconds in zip([*took][1:], others)]
    if grown:
        print(f"{program}: beside 1,000 entries an entry takes {', '.join(grown)}")
for uploads in counts_of(50, 100):
    costs = timed(uploads, ("compare-events", "seat-events"))
    print(compared(f"an entry without a log, {ENTRIES * uploads:,} entries", *costs))

def peak(program, task, uploads):  # bytes; a child that Python starts would count the memory of Python as its own
    words = ["/usr/bin/time", "-f", "%M", program, task, "1", f"{work}/{uploads}"]
    told = subprocess.run(words, stdout=subprocess.DEVNULL, stderr=subprocess.PIPE, check=True).stderr
    return int(told.split()[-1]) * 1024

for uploads in count_of((5000, 49500), (50,)):
    entries = ENTRIES * uploads
    for program, name in ((proved, "flight_bench"), (plain, "plain Rust")):
        alone, shared = peak(program, "run-events", uploads), peak(program, "seat-events", uploads)
        print(f"{entries:,} entries: {name} peaks at {shared / 2**20:.0f} MiB, {(shared - alone) / entries:.0f} bytes an entry beside a run")
P
