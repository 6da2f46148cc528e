#!/usr/bin/env bash
# Times how `flight_bench` reads and writes headers of Arrow's metadata, compared with plain Rust.
#
# They are a schema of 500 fields side by side, and one of nested structs, 16 levels deep. Plain Rust is
# bench/plain_headers.rs, by rustc -O. Each line has the time of one header by both, the best of five runs of about a
# second minus the time of an empty run, its instructions if valgrind is installed, and the ratios. First it checks that
# both programs write the same bytes, which are those of the file, and print the same sums. Then it times one reading of
# hostile texts of 4 MiB, the best of twenty, compared with that of a plain text of that size: the largest schema,
# followed by zero bytes.
source "$(dirname "${BASH_SOURCE[0]}")/start.sh"
source bench/programs.sh plain_headers

for header in flat deep; do
  file=$work/$header
  "$plain" generate "$header" >"$file"
  agree_on_message reencode-header "$file"
  agree decode-header 100 "$file"
  agree encode-header 100 "$file"
  echo "$header: both write the same $(stat -c %s "$file") bytes, and both tallies agree"
done

hostile="tables-within-the-limits a-million-tables a-million-entries a-shared-megabyte levels-that-double"
hostile="$hostile a-count-of-32-ones"
for text in plain-text $hostile; do
  "$plain" generate "$text" >"$work/$text"
done

PYTHONPATH=bench python3 -B - "$proved" "$plain" "$work" $hostile <<'P'
import sys
from timing import compared, cost, less, one, run

proved, plain, work, *hostile = sys.argv[1:]
for header in ("flat", "deep"):
    for task in ("decode-header", "encode-header"):
        ours, theirs = (one(program, task, f"{work}/{header}") for program in (proved, plain))
        print(compared(f"{header}, {task}", ours, theirs))

def reading(text):  # the cost of one reading, which may refuse the text, and its message
    words = lambda count: [proved, "decode-header", str(count), f"{work}/{text}"]
    whole, empty = (cost(words(count), runs=20, check=False) for count in (1, 0))
    return less(whole, empty, 1), run(words(1), check=False).strip()

usual = None
for text in ("plain-text", *hostile):
    taken, said = reading(text)
    usual = usual or taken
    line = f"{text}: {taken.seconds * 1e3:.2f} ms, {taken.seconds / usual.seconds:.2f} times the plain text"
    if taken.instructions is not None:
        line += f"; instructions {taken.instructions:,.0f}, {taken.instructions / usual.instructions:.2f} times"
    print(line + (said and f"; {said}"))
P
