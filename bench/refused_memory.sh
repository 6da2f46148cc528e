#!/usr/bin/env bash
# Plays a short run of a seat at its journal again and again, and refuses another of its allocations each time.
#
# The run is bench/refused_memory/main.rt.txt. After each refusal seat and journal must be as before, or have the one entry of a node
# that went down. `bench/refused_memory.sh STEP` takes each STEP-th allocation, or each of them. The run is built once, with checks
# and without proofs, and the 1,000th allocation of the program is refused; the program first makes as many as its input has bytes.
#
# Its last line counts the runs with a refused call in which all was as promised, and those in which none was refused.
source "$(dirname "${BASH_SOURCE[0]}")/start.sh"
mkdir -p "$work/cases" "$work/crates/refused_memory/src"
cp HANDLES crates.txt "$work"
cp -a --reflink=auto crates/. "$work/crates"
cp bench/refused_memory/main.rt.txt "$work/crates/refused_memory/src/main.rt"
echo "refused_memory: ballots header_types uploads table_types node_core node_events schedule_runner stable_records seats" >>"$work/crates.txt"
for ((before = 999; before >= 800; before -= $(count_of "${1:-1}" 1000))); do head -c "$before" /dev/zero >"$work/cases/$before"; done
cd "$work/crates/refused_memory"
rt try --steps 1 --fail-alloc 1000 --cases "$work/cases" </dev/null >"$work/said" 2>&1 || true
tail -n 1 "$work/said"
if grep "not as promised" "$work/said" || grep -E "^case=.* run=(fault|no-answer|none)" "$work/said"; then exit 1; fi
count() { grep -cE "$1" "$work/said" || true; }
echo "$(count '^as promised, [1-9]') runs with a refused call as promised, $(count '^as promised, 0') in which none was refused," \
  "$(count '^case=.* run=ended status=1 ') that were refused memory outside of the calls"
