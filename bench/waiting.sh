#!/usr/bin/env bash
# Times puts that wait: 10,000 to 80,000 puts of small uploads at one node of `flightd replay`, at which nothing is ever decided.
#
# First each upload has its own id, and then all have the same id, so that only their encodings differ. For each it prints
# the least processor time of five runs, minus that of as many puts to a node that is no member, which are refused; the
# time per put; and by what factor it grew as the puts doubled. The factor is about 2, since a put is looked up among
# those that wait, and not compared with each.
source "$(dirname "${BASH_SOURCE[0]}")/start.sh"
build_flightd

PYTHONPATH=bench python3 -B - crates/flightd/out/flightd "$work/schedule" <<'P'
import json
import sys
from timing import count_of, counts_of, processor_seconds

flightd, schedule = sys.argv[1:]

def least(puts, named, node):  # the least time of this many puts to this node, each of another upload
    values = lambda put: [[put % 100, put // 100 % 100, put // 10_000]]
    uploads = [{"table": "t", "id": f"{named(put):032x}", "values": values(put)} for put in range(puts)]
    events = [["put", node, put] for put in range(puts)]
    with open(schedule, "w", encoding="utf-8") as file:
        json.dump({"members": 1, "slot_limit": 1, "uploads": uploads, "events": events}, file)
    return min(processor_seconds([flightd, "replay", schedule]) for _ in range(count_of(5, 1)))

for names, named in (("names of their own", lambda put: put), ("one name", lambda put: 0)):
    before = None
    for puts in counts_of(10_000, 20_000, 40_000, 80_000):
        now = least(puts, named, 0) - least(puts, named, 1)
        grown = f", {now / before:.1f} times the half" if before else ""
        print(f"{puts:,} puts with {names}: {now:.3f} s, {now / puts * 1e6:.2f} us for each{grown}")
        before = now
P
