#!/usr/bin/env bash
# Times calls of an acceptor, a learner and a log by `flight_bench`, over 1,000 and 100,000 slots, compared with plain Rust.
#
# Plain Rust has the same parts over the maps of std (bench/plain_parts.rs, rustc -O). The results of the learner and the
# log are foretold before each call, with room for them, as a node does. So are those of the plain log, so that both make
# the same copies; the plain learner is just called. Each line has the time of one call by both, from the best of five
# runs of about a second minus the time of an empty run, its instructions if valgrind is installed, and the ratios; the
# last line of each part shows by what factor a call's time grew with a hundred times as many slots. First it checks that
# both print the same tallies.
source "$(dirname "${BASH_SOURCE[0]}")/start.sh"
source bench/programs.sh plain_parts

for slots in $(counts_of 1000 100000); do
  head -c "$slots" /dev/zero >"$work/$slots"
  for part in acceptor learner log; do
    agree "call-$part" 3 "$work/$slots"
  done
done
echo "all tallies agree"

PYTHONPATH=bench python3 -B - "$proved" "$plain" "$work" <<'P'
import sys
from timing import Cost, compared, counts_of, less, one

proved, plain, work = sys.argv[1:]

def call(program, part, slots):  # the cost of one call
    return less(one(program, f"call-{part}", f"{work}/{slots}"), Cost(0, 0), slots * (3 if part == "learner" else 1))

for part in ("acceptor", "learner", "log"):
    costs = {}
    for slots in counts_of(1_000, 100_000):
        costs[slots] = [call(program, part, slots) for program in (proved, plain)]
        print(compared(f"{part}, {slots:,} slots", *costs[slots]))
    grown = [after.seconds / before.seconds for before, after in zip(costs[1_000], costs[slots])]
    times = f"{grown[0]:.2f} times as long, in plain Rust {grown[1]:.2f} times"
    print(f"{part}: from 1,000 to {slots:,} slots a call takes {times}")
P
