#!/usr/bin/env python3
"""Checks what the models say of promises of all slots from a first one on (Lamport, "Paxos Made Simple", section 3), ahead of the crates.

    tools/ranged.py --check        compares the rows of tools/ranged/ with the models, plays DRAWN random runs, and has wrong nodes play
    tools/ranged.py --write        writes the rows that the models make, `every_*.txt`
    tools/ranged.py --draw COUNT   plays so many random runs instead, and prints what they came to, and how many find each wrong node out

The other rows were worked out by hand. In files of stories (`calls.txt`, `histories.txt`) the result of a command is under it, as
tools/ranged_stories.py tells it. `acceptor.txt` is a conversation, payload by payload, `conversations.txt` has whole ones, and
`schedules.txt` files; each `.json` is a schedule, with the lines of its events, some of its messages and the nodes that are ready after an
event in the files beside it. Each random run has to be lawful, by what its messages say of each slot, and safe, by its answers; and each
wrong node of tools/ranged_runs.py has to be found out by one that is not lawful. The status is 1 if anything differs."""
import json
import sys
from collections import Counter
from pathlib import Path

import ranged_stories
from files_model import Flaw, acceptor, audit, records, schedule_in
from paxos_model import HEAD, IN_MESSAGE, MAX_VALUE, MESSAGE, parts_of
from ranged_model import message, message_parts, parts_in, text_of
from ranged_runs import WRONG, drawn_run
from runs import message_text
from runs_model import Refused, Run, is_lawful, is_safe, lines_of
from toolbox import show_help
from wire_model import MAX_FRAME_PAYLOAD, Faults, frame, put

ROWS = Path(__file__).resolve().parent / "ranged"
# How many random runs are played.
DRAWN = 2500
# Of so many random runs at least one leads to each of the following.
TURNS = ("goes on", "goes on with a no-op", "reports two slots", "starts behind such a promise", "answers at two nodes")


def text_in(name):
    return (ROWS / name).read_text(encoding="utf-8")


def rows(name, parts):
    """The rows of a file, each split at bars into this many parts."""
    lines = text_in(name).splitlines()
    return [line.split("|", parts - 1) for line in lines if "|" in line and not line.startswith("#")]


# ---- rows that were worked out by hand: each function yields what differs


def stories():
    for name in ("calls.txt", "histories.txt"):
        if ranged_stories.retold(text_in(name)) != text_in(name):
            yield name


def conversations():
    given, wanted = (b"".join(frame(0, bytes.fromhex(it)) for it in texts) for texts in zip(*rows("acceptor.txt", 2)))
    if acceptor(given, True) != (0, wanted, [""]):
        yield "acceptor.txt"
    for given, wanted, fault in rows("conversations.txt", 3):
        said = f"flightd: {fault}\n" if fault else ""
        if acceptor(bytes.fromhex(given), True) != (int(bool(fault)), bytes.fromhex(wanted), [said]):
            yield f"conversations.txt: {given}"


def schedules():
    for wanted, file in rows("schedules.txt", 2):
        try:
            found = f"good {'ranged' if schedule_in(file.encode(), True)['ranged'] else 'plain'}"
        except Flaw as flaw:
            found = str(flaw).split("`")[1]
        if found != wanted:
            yield f"schedules.txt: {file}"


def ready_after(schedule):
    """The lines of the nodes that are ready after an event of a schedule, of those events after which this changes."""
    run, before = Run(schedule), []
    for place, event in enumerate(schedule["events"]):
        run.play(event)
        ready = [str(it) for it, node in run.nodes.items() if node and node.is_ready()]
        if ready != before:
            yield f"{place} {' '.join(ready) or 'none'}"
        before = ready


def played():
    for file in sorted(ROWS.glob("*.json")):
        schedule = schedule_in(file.read_bytes(), True)
        run, lines = lines_of(schedule)
        told = {"lines": lines, "ready": list(ready_after(schedule))}
        for name, found in told.items():
            if text_in(f"{file.stem}.{name}").splitlines() != found:
                yield f"{file.stem}.{name}"
        sent = {str(number): message_text(it) for number, it in enumerate(run.sent)}
        for number, digits in (line.split(" ", 1) for line in text_in(f"{file.stem}.messages").splitlines()):
            if sent.get(number) != bytes.fromhex(digits):
                yield f"{file.stem}.messages: message {number}"
        if not is_lawful(run) or not is_safe(run):
            yield f"{file.stem}.json: its run breaks what is promised"
        trace = json.dumps({"members": run.members, "sent": [it.hex() for it in sent.values()]}).encode()
        if audit(trace, is_ranged=True) != (0, "lawful\n", [""]):
            yield f"{file.stem}.json: its messages as a recorded run are not lawful"


def is_read(text):
    try:
        return text_of(message_parts(text)) == text
    except Faults as faults:
        return faults.names


def limits():
    """The longest value of a report, the longest answer of the program, and what the first form's reader makes of the second."""
    for size, wanted in ((MAX_VALUE, True), (MAX_VALUE + 1, {"OutOfRange"})):
        if is_read(text_of(parts_in(message(0, 0, "PromiseFrom", (2, 0), reports=[(0, (1, 0), bytes(size))])))) != wanted:
            yield f"a report of {size} bytes"
    for size, line in ((MAX_FRAME_PAYLOAD // 2 - 14, ""), (MAX_FRAME_PAYLOAD // 2 - 13, "flightd: frame 2: TooLong\n")):
        asked = [message(0, slot, "Accept", (1, 0), bytes(size)) for slot in (0, 1)] + [message(0, 0, "PrepareFrom", (2, 0))]
        if acceptor(b"".join(frame(0, text_of(parts_in(it))) for it in asked), True)[2] != [line]:
            yield f"an answer that reports two values of {size} bytes"
    skipped = parts_of(text_of(parts_in(message(1, 5, "PromiseFrom", (2, 0), reports=[(5, (1, 0), b"a")]))), MESSAGE, HEAD, IN_MESSAGE)
    if text_of(skipped) != text_of(parts_in(message(1, 5, "Promise", (2, 0)))):
        yield "a PromiseFrom to a reader of the first form"
    if records(bytes.fromhex("01 06000000 080410051802 00".replace(" ", "")))[1] != "0 promised from slot 5 2.0\n":
        yield "a record of a promise of all slots from one on"


def is_refused(said):
    """Whether a node of three, which agree on four slots, refuses a message as outside what it knows."""
    try:
        Run({"members": 3, "slot_limit": 4, "ranged": True, "uploads": []}).nodes[0].deliver(said)
    except Refused as refusal:
        return str(refusal) == "OutOfRange"
    return False


def outsiders():
    """Messages with a slot or a node in a report that the nodes of a run do not have."""
    for slot, ballot, wanted in ((3, (1, 2), False), (4, (1, 2), True), (3, (1, 3), True), (999_999, (1, 0), True)):
        if is_refused(message(1, 0, "PromiseFrom", (2, 0), reports=[(0, (1, 0), b""), (slot, ballot, b"")])) != wanted:
            yield f"a report of slot {slot} at {ballot}"
    for slot, wanted in ((3, False), (4, True)):
        if is_refused(message(1, slot, "PrepareFrom", (2, 0))) != wanted:
            yield f"a PrepareFrom of slot {slot}"


HAND = (stories, conversations, schedules, played, limits, outsiders)


# ---- random runs


def turns_in(run):
    """What happened in a run of what only such promises bring about."""
    found = set()
    for (what, *_), gave in run.steps:
        sent = [run.sent[int(it)] for it in gave[1].split(",")] if gave[0] == "sent" and gave[1] != "-" else []
        goes = [it for it in sent if what == "tick" and it["what"] == "Accept"]
        found |= {"goes on"} if goes else set()
        found |= {"goes on with a no-op"} if any(not it["value"] for it in goes) else set()
        found |= {"reports two slots"} if any(len(it["reports"]) > 1 for it in sent) else set()
    restarted = {event[1] for event, gave in run.steps if event[0] == "restart" and gave == ["done"]}
    if any(it["what"] == "promised-from" for member in restarted for it in run.kept[member]):
        found.add("starts behind such a promise")
    if len({event[1] for event, gave in run.steps if gave[0] == "answer"}) > 1:
        found.add("answers at two nodes")
    return found


def check_drawn(count):
    """Plays random runs: what they came to, and what is wrong with them."""
    turns, faults = Counter(), []
    for seed in range(count):
        run = drawn_run(seed)
        turns.update(turns_in(run))
        if not is_lawful(run) or not is_safe(run):
            faults.append(f"the run drawn from {seed} breaks what is promised")
    return turns, faults + [f"no random run {it}" for it in TURNS if not turns[it]]


def seeds_of(node, count):
    """The runs of wrong nodes that find them out."""
    return (seed for seed in range(count) if not is_lawful(drawn_run(seed, node)))


def check(is_written):
    faults = [it for rows_of in HAND for it in rows_of()]
    status = put(ROWS, ranged_stories.made(), not is_written)
    if not is_written:
        faults += check_drawn(DRAWN)[1]
        faults += [f"no run finds out {it.__name__}" for it in WRONG if next(seeds_of(it, DRAWN), None) is None]
    for fault in faults:
        print(f"ranged: {fault}")
    return 1 if faults else status


def draw(count):
    turns, faults = check_drawn(count)
    for turn in TURNS:
        print(f"{turns[turn]} of {count} runs: one {turn}")
    for node in WRONG:
        seeds = list(seeds_of(node, count))
        faults += [] if seeds else [f"no run finds out {node.__name__}"]
        print(f"{len(seeds)} of {count} runs find out {node.__name__}{f', the first one {seeds[0]}' if seeds else ''}")
    for fault in faults:
        print(f"ranged: {fault}")
    return 1 if faults else 0


if __name__ == "__main__":
    show_help(__doc__)
    sys.exit(draw(int(sys.argv[2])) if sys.argv[1:2] == ["--draw"] else check("--write" in sys.argv[1:]))
