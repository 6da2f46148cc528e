#!/usr/bin/env bash
# Times how `flight_bench` reads and writes two messages of Arrow Flight, compared with plain Rust and with a copy of the bytes.
#
# They are a FlightData with a body of 1 MiB, and a FlightInfo with 64 endpoints of three locations. Plain Rust is
# bench/plain_messages.rs, by rustc -O. Each line has the time of one operation, the best of five runs of about a second
# minus the time of an empty run, its instructions if valgrind is installed, and the ratios. First it checks that both
# programs write the same bytes, which are those of the file, and print the same sums.
source "$(dirname "${BASH_SOURCE[0]}")/start.sh"
source bench/programs.sh plain_messages

for message in data info; do
  file=$work/$message
  "$plain" "generate-$message" >"$file"
  agree_on_message "reencode-$message" "$file"
  agree "decode-$message" 100 "$file"
  agree "encode-$message" 100 "$file"
  echo "$message: both write the same $(stat -c %s "$file") bytes, and both tallies agree"
done

PYTHONPATH=bench python3 -B - "$proved" "$plain" "$work" <<'P'
import sys
from timing import compared, one

proved, plain, work = sys.argv[1:]
for message in ("data", "info"):
    file = f"{work}/{message}"
    copied = one(plain, "copy", file)
    print(f"{message}: copy {copied.seconds * 1e6:.3f} us")
    for task in (f"decode-{message}", f"encode-{message}"):
        ours, theirs = one(proved, task, file), one(plain, task, file)
        print(f"{compared(task, ours, theirs)}; to a copy {ours.seconds / copied.seconds:.2f} in time")
P
