#!/usr/bin/env bash
# Times Flight calls that `call_server` serves over two pipes, compared with the same calls in plain Rust.
#
# Plain Rust is bench/plain_calls.rs, by rustc -O. The calls are DoGet of a version of 64 uploads of one batch of 1 MiB, also
# compared with a raw copy of the answer's bytes; DoPut of 15 batches of 1 MiB; GetFlightInfo of one table; and DoGet of versions
# of 1,000, 10,000 and 100,000 uploads of three numbers, to see whether an upload takes longer in a long answer. First it checks
# that both programs answer with the same bytes. Last it times `flightd replay` of 500 uploads that a leader of three members
# has decided, 10,000 events, compared with `run` itself on the same events by `flight_bench`. Each line has the processor time
# of one call, the least of five runs of each program in turn, minus that of a run without these calls; and the most bytes that
# the server held, or what this script held when it started the server if that was more.
#
# Seen on four processors, four runs on two machines, two of them beside other tasks:
#
#                                      ours         plain Rust       ratio
#   DoGet of 64 MiB            13.7 to 26.6 ms    11.9 to 26.1 ms  0.96 to 1.18   1.03 to 1.33 of a raw copy's speed; 131 MiB held, 134 MiB
#   DoPut of 15 MiB            26.8 to 35.6 ms    23.7 to 33.2 ms  1.07 to 1.30   249 MiB held for 120 MiB, and 256 MiB in plain Rust
#   GetFlightInfo                1.5 to 2.4 us      1.9 to 2.7 us  0.67 to 0.94
#   a small upload of 1,000             0.1 us             0.1 us  1.6 to 2.3
#   of 10,000                    0.1 to 0.2 us             0.1 us  1.5 to 2.1
#   of 100,000                   0.3 to 0.4 us             0.1 us  2.1 to 2.9    105 MiB held
#   replay of 10,000 events    15.7 to 19.5 ms, and 9.5 to 11.3 ms `run` itself: 1.66 to 1.78
#
# An answer shares the frames that the tables keep, and each is written from its place: a server that answered eight such gets
# held 56 KiB more than one that answered none. Before that an answer was one copy of all its frames, and a DoGet took three
# times as long as in plain Rust. A body is copied three times on its way into the tables: from its frame into a column, into
# the upload's encoding, and into the frame in which it is served (47.3 MB for the 15.7 MB of a DoPut, by valgrind
# --tool=dhat --mode=copy). It was five times while a message was read with copies of its bytes and a body was written
# separately, and nine times while an upload was decoded again when it was taken. Of the 110 million instructions of the replay
# (valgrind, an earlier run) 64 are those of `run`; 16 read the file as one JSON value and 5 free it, which alone makes 1.33;
# some 10 make the 500 uploads, and the others the events, and a line for each.
source "$(dirname "${BASH_SOURCE[0]}")/start.sh"
rustc -O --edition 2021 -o "$work/calls" bench/plain_calls.rs
rustc -O --edition 2021 -o "$work/runs" bench/plain_runs.rs
for program in "call_server" "flightd replay examples/no_loss.json" "flight_bench decode-data 0 /dev/null"; do
  name=${program%% *}
  words=${program#"$name"}
  words=${words/ examples/ $PWD/examples}
  # shellcheck disable=SC2086
  if ! (cd "crates/$name" && rt run -- $words) </dev/null >"$work/log" 2>&1; then
    cat "$work/log" >&2
    exit 1
  fi
done

PYTHONPATH=bench python3 -B - "$PWD/crates" "$work" <<'P'
import json
import os
import subprocess
import sys
from timing import count_of, counts_of

crates, work = sys.argv[1:]
SERVER, PLAIN, MIB = f"{crates}/call_server/out/call_server", f"{work}/calls", 2**20
UPLOADS, EVENTS, ANSWERED, RUNS = 500, 20, count_of(2_000_000, 1_000), count_of(5, 1)


def generated(path, *calls):
    """Writes a file of these calls."""
    with open(path, "wb") as out:
        for words in calls:
            out.write(subprocess.run([PLAIN, "generate", *map(str, words)], stdout=subprocess.PIPE, check=True).stdout)
    return path


def served(words, path, keep=None):
    """The processor time of a run whose input is this file and whose output goes through a pipe, and the most that it held."""
    with open(path, "rb") as source, open(keep or os.devnull, "wb") as sink:
        child = subprocess.Popen(words, stdin=source, stdout=subprocess.PIPE)
        drain = subprocess.Popen(["cat"], stdin=child.stdout, stdout=sink)
        child.stdout.close()
        _, status, usage = os.wait4(child.pid, 0)
        drain.wait()
    if status:
        sys.exit(f"calls.sh: {words} ended with {status} over {path}")
    return usage.ru_utime + usage.ru_stime, usage.ru_maxrss * 1024


def least(programs, path):
    """For each program the least processor time of five runs in turn, and the most that it held."""
    runs = [[served(words, path) for words in programs] for _ in range(RUNS)]
    return [(min(it[0] for it in of_one), max(it[1] for it in of_one)) for of_one in zip(*runs)]


def timed(name, count, path, without, size=0):
    """Prints what one call costs both programs, and returns the seconds of ours."""
    programs = ([SERVER], [PLAIN])
    costs = []
    for (whole, held), (empty, _) in zip(least(programs, path), least(programs, without)):
        costs.append((max(whole - empty, 1e-9) / count, held))
    (ours, held), (plain, plain_held) = costs
    each = [f"{cost * 1e6:,.1f} us ({size / MIB / cost:,.0f} MiB/s)" if size else f"{cost * 1e6:,.1f} us" for cost in (ours, plain)]
    print(f"{name}: call_server {each[0]}, plain Rust {each[1]}, ratio {ours / plain:.2f}; held {held / MIB:.1f} MiB and {plain_held / MIB:.1f} MiB")
    return ours


puts = [("put", name, 1, MIB) for name in range(1, 65)]
small = generated(f"{work}/small", ("put", 1, 1, 3))
files = {
    "nothing": generated(f"{work}/nothing"),
    "put": generated(f"{work}/put", *puts),
    "get": generated(f"{work}/get", *puts, *[("get", 64)] * 8),
    "large": generated(f"{work}/large", *[("put", name, 15, MIB) for name in range(1, 9)]),
    "info": generated(f"{work}/info", ("put", 1, 1, 3), ("info", 10_000)),
}
many = {}
for count in counts_of(1_000, 10_000, 100_000):
    many[count] = [generated(f"{work}/{gets}-{count}", ("puts", count), *[("get", count)] * gets) for gets in (ANSWERED // count, 0)]
for path in (*files.values(), small, many[1_000][0]):
    served([SERVER], path, f"{work}/ours"), served([PLAIN], path, f"{work}/theirs")
    if subprocess.run(["cmp", f"{work}/ours", f"{work}/theirs"]).returncode:
        sys.exit(f"calls.sh: the programs answer {path} differently")
print("all answers agree")

answer = f"{work}/answer"
served([PLAIN], files["get"], answer)
of_gets = os.path.getsize(answer)
served([PLAIN], files["put"], f"{work}/ours")
size = (of_gets - os.path.getsize(f"{work}/ours")) // 8
got = timed("DoGet of 64 MiB", 8, files["get"], files["put"], size)
with open(answer, "rb") as whole, open(f"{work}/one", "wb") as one:
    whole.seek(of_gets - size)
    one.write(whole.read())
copied = min(served([PLAIN, "copy", "8", f"{work}/one"], os.devnull)[0] for _ in range(RUNS)) / 8
print(f"a raw copy of that answer: {copied * 1e6:,.1f} us ({size / MIB / copied:,.0f} MiB/s), DoGet at {copied / got:.2f} of its speed")
timed("DoPut of 15 MiB", 8, files["large"], files["nothing"], 15 * MIB)
timed("GetFlightInfo", 10_000, files["info"], small)
for count, (gets, puts) in many.items():
    timed(f"DoGet of {count:,} small uploads, each", ANSWERED, gets, puts)

everyone, events, prepare = range(3), [], 0
for upload in range(UPLOADS):
    events += [["put", 0, upload], ["tick", 0, 0]]
    events += [["deliver", node, prepare] for node in everyone]
    events += [["deliver", 0, prepare + 1 + node] for node in everyone]
    events += [["deliver", node, prepare + 4] for node in everyone]
    events += [["deliver", node, prepare + 5 + sender] for sender in everyone for node in everyone]
    prepare += 8
uploads = [{"table": "table_000", "id": f"{it:032x}", "values": [[it % 100, 1, 2]]} for it in range(UPLOADS)]
with open(f"{work}/schedule.json", "w") as out:
    json.dump({"members": 3, "slot_limit": UPLOADS, "uploads": uploads, "events": events}, out)
with open(f"{work}/events", "wb") as out:
    out.write(subprocess.run([f"{work}/runs", "generate", "3", str(UPLOADS), "1", "3"], stdout=subprocess.PIPE, check=True).stdout)
replay, bench = f"{crates}/flightd/out/flightd", f"{crates}/flight_bench/out/flight_bench"
least_of = lambda words: min(served(words, os.devnull)[0] for _ in range(count_of(9, 1)))
replayed = least_of([replay, "replay", f"{work}/schedule.json"])
ran = (least_of([bench, "run-events", "11", f"{work}/events"]) - least_of([bench, "run-events", "1", f"{work}/events"])) / 10
print(f"replay of {UPLOADS * EVENTS:,} events: {replayed * 1e3:,.1f} ms, run itself {ran * 1e3:,.1f} ms, ratio {replayed / ran:.2f}")
P
