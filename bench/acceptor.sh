#!/usr/bin/env bash
# Times `flightd acceptor` on 200,000 frames over 1,000 slots, compared with the same job in plain Rust.
#
# Plain Rust (bench/plain_acceptor.rs, rustc -O) gets the same file. It prints the time of one frame by both, the best of
# five runs, its instructions if valgrind is installed, and the ratios. Then it shows that memory grows with the slots and
# not with the frames: peak resident size for 1,000 and for 999,999 frames on ten slots.
source "$(dirname "${BASH_SOURCE[0]}")/start.sh"
rustc -O --edition 2021 -o "$work/plain" bench/plain_acceptor.rs
build_flightd

timed=$(count_of 200000 1000)
"$work/plain" generate "$timed" 1000 >"$work/frames"
"$work/plain" <"$work/frames" >"$work/plain.answers"
crates/flightd/out/flightd acceptor <"$work/frames" >"$work/flightd.answers"
cmp "$work/plain.answers" "$work/flightd.answers" && echo "both give the same $(stat -c %s "$work/plain.answers") bytes"
PYTHONPATH=bench python3 -B - "$work" "$timed" <<'P'
import sys
from timing import Cost, compared, cost, less

work, frames = sys.argv[1:]

def frame(words):
    whole, empty = cost(words, f"{work}/frames"), cost(words)
    return less(whole, Cost(0, empty.instructions), int(frames))

print(compared("a frame", frame(["crates/flightd/out/flightd", "acceptor"]), frame([f"{work}/plain"]), "flightd"))
P

peak() { # peak resident size in KiB, after every frame of the file is answered and before the input ends
  mkfifo "$work/input"
  crates/flightd/out/flightd acceptor <"$work/input" >/dev/null &
  local pid=$!
  exec 3>"$work/input"
  cat "$1" >&3
  sleep 1
  awk '/^VmHWM/ {print $2}' "/proc/$pid/status"
  exec 3>&-
  wait "$pid"
  rm "$work/input"
}
for frames in $(counts_of 1000 999999); do
  "$work/plain" generate "$frames" 10 >"$work/frames"
  echo "$frames frames on ten slots: peak $(peak "$work/frames") KiB"
done
