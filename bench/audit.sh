#!/usr/bin/env bash
# Times `flightd audit` on lawful recorded runs: of 1,000 to 8,000 messages over ten slots, and of 25,000 to 200,000 with ten per slot.
#
# The runs are from bench/recorded_run.py. For each it prints the best time of five, the instructions if valgrind is
# installed, by what factors both grew as the messages doubled, and the peak resident size. The factor is at most about 4
# over ten slots, since each message is compared with the earlier ones of its slot, and about 2 if the number of slots grows.
source "$(dirname "${BASH_SOURCE[0]}")/start.sh"
build_flightd
flightd=crates/flightd/out/flightd

peak() { # peak resident size in KiB of an audit that has only its line left to print, which waits since the pipe is full
  mkfifo "$work/full"
  exec 3<>"$work/full"
  head -c 65536 /dev/zero >&3
  "$flightd" audit "$1" >&3 &
  local pid=$!
  sleep 1
  awk '/^VmHWM/ {print $2}' "/proc/$pid/status"
  head -c 65536 <&3 >/dev/null
  wait "$pid"
  exec 3>&-
  rm "$work/full"
}

runs() { # the slots of each run, and the messages of each
  for messages in $(counts_of 1000 2000 4000 8000); do echo "10 $messages"; done
  for messages in $(counts_of 25000 50000 100000 200000); do echo "$((messages / 10)) $messages"; done
}

runs | while read -r slots messages; do
  python3 bench/recorded_run.py "$messages" "$slots" >"$work/$messages"
  [ "$("$flightd" audit "$work/$messages")" = lawful ]
  peak "$work/$messages" >"$work/$messages.peak"
done
PYTHONPATH=bench python3 -B - "$flightd" "$work" $(runs | tr ' ' :) <<'P'
import sys
from timing import cost

flightd, work, *runs = sys.argv[1:]
before = None
for run in runs:
    slots, messages = run.split(":")
    if messages == "25000":
        before = None
    now = cost([flightd, "audit", f"{work}/{messages}"])
    grown = [f", {after / half:.1f} times the half" for after, half in zip(now, before or ()) if after] or ["", ""]
    line = f"{messages} messages over {slots} slots: {now.seconds:.4f} s{grown[0]}"
    if now.instructions:
        line += f"; instructions {now.instructions:,}{grown[1]}"
    with open(f"{work}/{messages}.peak") as peak:
        print(f"{line}; peak {peak.read().strip()} KiB")
    before = now
P
