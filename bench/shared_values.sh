#!/usr/bin/env bash
# Checks that a value is shared and not copied, by the memory of promises that all report a value of 16 MiB.
#
# An acceptor accepts an upload's value of 16 MiB, and then promises many ballots for the slot. Each promise reports the
# value, and all are kept. It prints the peak resident size for one promise and for more, and what each further promise
# took. The status is 1 if a thousand promises take as much as one more copy of the value would.
source "$(dirname "${BASH_SOURCE[0]}")/start.sh"
source bench/programs.sh
head -c 16777216 /dev/zero >"$work/value"
PYTHONPATH=bench python3 -B - "$proved" "$work/value" <<'P'
import os
import subprocess
import sys
from timing import count_of

proved, value = sys.argv[1:]

def peak(promises):  # KiB
    child = subprocess.Popen([proved, "report-value", str(promises), value], stdout=subprocess.PIPE)
    told = child.stdout.read().decode().split()
    _, status, usage = os.wait4(child.pid, 0)
    if status or told != [str(promises)] * 2:
        sys.exit(f"report-value {promises}: status {status}, {told}")
    return usage.ru_maxrss

sizes = {promises: peak(promises) for promises in (1, 1_000, *count_of((1_000_000,), ()))}
for promises, size in sizes.items():
    grown = (size - sizes[1]) * 1024 / max(promises - 1, 1)
    print(f"{promises:,} promises of a value of 16 MiB: peak {size:,} KiB, {grown:.0f} bytes for each further one")
sys.exit(sizes[1_000] - sizes[1] >= 16_384)
P
