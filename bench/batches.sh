#!/usr/bin/env bash
# Times how `flight_bench` reads and writes batches of Arrow's columnar format, compared with plain Rust and with a copy of the bytes.
#
# The batches are a million rows of numbers, of texts of eight bytes, of bits, of lists of three numbers and of structs of
# four, with every tenth null or none, and 100 rows of 512 columns. Plain Rust is bench/plain_batches.rs, by rustc -O.
# Each line has the processor time of one batch, the least of fifteen short runs of each in turn minus the time of an
# empty run, its instructions if valgrind is installed, and the ratios. First it checks that both programs read the same
# and write the same bytes. Then it times one reading of hostile bodies of 4 MiB, compared with that of a plain one of that
# size: numbers with every tenth null.
#
# Seen on four processors beside three other tasks, in milliseconds (including newly requested pages of memory):
#
#                  read: ours  plain Rust  ratio  a copy  instructions, ratio   write: ours  plain Rust  ratio
#   int64                0.62        0.61   1.01    0.60          0.9 M  1.00           0.61        0.60   1.02
#   int64-nulls           2.1         4.7   0.44    0.61         21.2 M  0.40           0.61        0.62   0.97
#   utf8                  5.2        12.6   0.41    0.98         35.6 M  0.26            1.0        1.00   1.03
#   utf8-nulls           18.5        16.4   1.12    0.94        126.1 M  0.68            1.0        0.99   1.01
#   bool-nulls           0.17         2.8   0.06    0.01          1.9 M  0.05           0.01        0.01   0.98
#   list                  3.5         2.6   1.37     1.3         13.8 M  1.41            1.3         1.4   0.98
#   struct-nulls         18.6        23.6   0.79     4.9         79.5 M  0.38            5.4         5.6   0.98
#   wide                 0.11        0.09   1.24    0.01          0.8 M  1.32           0.02        0.01   1.53
#
# Of the bodies of 4 MiB, plain numbers took 2.7 ms, deep lists 2.2 times as long, deep structs 2.6 times, all ones 0.6,
# offsets that fall at the end 0.4, a text that ends badly 0.3, and hidden texts 2.3 times.
source "$(dirname "${BASH_SOURCE[0]}")/start.sh"
source bench/programs.sh plain_batches

batches="int64 int64-nulls utf8 utf8-nulls bool-nulls list struct-nulls wide"
hostile="deep-lists deep-structs all-ones offsets-that-fall-at-the-end a-text-that-ends-badly hidden-texts"
for batch in $batches plain-numbers plain-texts $hostile; do
  "$plain" generate "$batch" >"$work/$batch"
done
for batch in $batches plain-numbers plain-texts deep-lists deep-structs all-ones hidden-texts; do
  agree read-batch 3 "$work/$batch"
  agree write-batch 3 "$work/$batch"
  agree rewrite-batch 1 "$work/$batch"
done
echo "both read the same, and write the same bytes"

bodies="plain-numbers plain-texts $hostile"
PYTHONPATH=bench python3 -B - "$proved" "$plain" "$work" "$batches" "$bodies" <<'P'
import sys
from timing import compared, in_turn, run

proved, plain, work, batches, hostile = sys.argv[1:]
for batch in batches.split():
    file = f"{work}/{batch}"
    programs = [(program, task) for task in ("read-batch", "write-batch") for program in (proved, plain)]
    *costs, copied = in_turn([*programs, (plain, "copy")], file)
    print(f"{batch}: copy {copied.seconds * 1e6:,.0f} us")
    for task, ours, theirs in zip(("read-batch", "write-batch"), costs[::2], costs[1::2]):
        print(f"{compared(task, ours, theirs)}; to a copy {ours.seconds / copied.seconds:.2f} in time")

usual = None
for body in hostile.split():
    taken, = in_turn([(proved, "read-batch")], f"{work}/{body}", most=1)
    usual = usual or taken
    line = f"{body}: {taken.seconds * 1e3:.2f} ms, {taken.seconds / usual.seconds:.2f} times plain numbers"
    if taken.instructions is not None:
        line += f"; instructions {taken.instructions:,.0f}, {taken.instructions / usual.instructions:.2f} times"
    said = run([proved, "read-batch", "1", f"{work}/{body}"], check=False).strip()
    print(line + (said and f"; {said}"))
P
