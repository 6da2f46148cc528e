#!/usr/bin/env python3
"""Checks what the models say of uploads that name the version of their table which they expect, ahead of the crates.

    tools/conditional.py --check        compares the rows of tools/conditional/ with the models, judges DRAWN random lists and wrong rules
                                        by what is due, and plays RUNS random runs
    tools/conditional.py --draw COUNT   judges so many random lists instead, and prints what they came to, and how many find each wrong
                                        rule out

The rows were worked out by hand. In files of stories (`tables.txt`, `calls.txt`) the result of a command is under it, as tools/tables.py
and tools/calls.py tell it. `clients.txt` has calls whole, with their answers; `schedules.txt` and `scripts.txt` have files;
`two_expect_none.json` is a schedule, with the lines of its events and some of its messages in the files beside it, and `first_come.json` a
script with its lines. In each random list the models have to tell of each upload what is due by the rule, which is read upload by upload
(tools/conditional_lists.py), and no known outcome may change when more comes. Each wrong rule there has to be found out by such a list. The
status is 1 if anything differs."""
import itertools
import json
import random
import sys
from collections import Counter
from pathlib import Path

import calls
import tables
from calls_model import Service, call_text, put_messages
from conditional_lists import TURNS, WRONG, contradiction, drawn_list, turns_in
from conditional_model import MOST_EXPECTED, Agreed, version_in
from files_model import Flaw, audit, schedule_in, script, script_in
from runs import message_text
from runs_model import drawn, is_lawful, is_safe, lines_of, schedules
from tables_model import Upload, upload_of
from toolbox import show_help

ROWS = Path(__file__).resolve().parent / "conditional"
# How many random lists are judged, and how many random runs are played.
DRAWN, RUNS = 4000, 300
# The ways in which an upload of a random run ends that only conditions bring about.
ENDS = ("versionmismatch 0", "versionmismatch 1", "versionmismatch 2")


def text_in(name):
    return (ROWS / name).read_text(encoding="utf-8")


def rows(name, parts):
    """The rows of a file, each split at bars into this many parts."""
    lines = text_in(name).splitlines()
    return [line.split("|", parts - 1) for line in lines if "|" in line and not line.startswith("#")]


def without_results(text):
    return [line for line in text.splitlines() if not line.startswith("  ")]


# ---- rows that were worked out by hand: each function yields what differs


def stories():
    for name, told in (("tables.txt", tables.told), ("calls.txt", calls.told)):
        if told(without_results(text_in(name)), is_conditional=True) != text_in(name):
            yield name


def clients():
    for expected, asked, wanted in rows("clients.txt", 3):
        upload = Upload(b"t", tables.id_of(0x0F), tables.A, [tables.ROW], None if expected == "none" else int(expected))
        text = call_text(b"DoPut", put_messages(upload))
        if text != bytes.fromhex(asked) or calls.answered_over_pipes(text, True) != bytes.fromhex(wanted):
            yield f"clients.txt: {expected}"


def uploads_in(file):
    return schedule_in(file, is_conditional=True)["uploads"]


def uploads_called(file):
    return [it[2] for it in script_in(file, True)["calls"] if it[0] == "put"]


def files():
    for name, read in (("schedules.txt", uploads_in), ("scripts.txt", uploads_called)):
        for wanted, file in rows(name, 2):
            try:
                found = " ".join(["good", *(str(it.get("expected", "none")) for it in read(file.encode()))])
            except Flaw as flaw:
                found = flaw.lines[0]
            if found != wanted:
                yield f"{name}: {file}"


def played():
    schedule = schedule_in(text_in("two_expect_none.json").encode(), is_conditional=True)
    run, lines = lines_of(schedule)
    if text_in("two_expect_none.lines").splitlines() != lines:
        yield "two_expect_none.lines"
    sent = {str(number): message_text(it) for number, it in enumerate(run.sent)}
    for number, digits in (line.split(" ", 1) for line in text_in("two_expect_none.messages").splitlines()):
        if sent.get(number) != bytes.fromhex(digits):
            yield f"two_expect_none.messages: message {number}"
    trace = json.dumps({"members": run.members, "sent": [it.hex() for it in sent.values()]}).encode()
    if not is_lawful(run) or not is_safe(run) or audit(trace) != (0, "lawful\n", [""]):
        yield "two_expect_none.json: its run breaks what is promised"
    if script(text_in("first_come.json").encode(), True) != (0, text_in("first_come.lines"), [""]):
        yield "first_come.lines"


# What stands against the making of an upload: its table, how many batches it has, what it expects, and what is reported.
MADE = (
    (b"t", 1, None, None), (b"t", 1, 0, None), (b"t", 1, 1_000_000, None), (b"t", 1, 1_000_001, "BadExpected"),
    (b"t", 1, 2**64 - 1, "BadExpected"), (b"", 1025, 1_000_001, "BadExpected"), (b"", 1025, 1_000_000, "BadTable"),
    (b"", 1025, None, "BadTable"), (b"t", 1025, 0, "TooManyBatches"), (b"t", 1024, 0, None), (b"t", 1025, 1_000_001, "BadExpected"),
)
# Uploads near the most bytes that one may have: the letters of its table's name, the bytes of the last of five batches, what it expects,
# and whether it is too large.
LARGE = (
    (2, 776_144, None, False), (3, 776_144, None, True), (2, 776_144, 0, True), (8, 776_136, 0, False), (9, 776_136, 0, True),
    (8, 776_136, 126, False), (8, 776_136, 127, True), (7, 776_136, 127, False), (7, 776_136, 16_383, True), (6, 776_136, 16_383, False),
    (6, 776_136, 1_000_000, False),
)


def makings():
    for table, count, expected, wanted in MADE:
        found = Upload(table, tables.id_of(1), tables.A, [tables.ROW] * count, expected).refusals()
        if next(iter(found), None) != wanted:
            yield f"the making of {count} batches that expect {expected}: {found}"


def sizes():
    """The limit of an upload's bytes counts the condition, wherever an upload is made or read."""
    texts = tables.schema(tables.column("a", "Binary", {}))
    for letters, last, expected, is_large in LARGE:
        batches = [(1, [[bytes(it)]]) for it in (*[4_000_000] * 4, last)]
        upload = Upload(b"t" * letters, tables.id_of(1), texts, batches, expected)
        if upload.refusals() != ["TooLarge"] * is_large or (upload_of(upload.text, is_conditional=True) is None) != is_large:
            yield f"an upload of {len(upload.text)} bytes that expects {expected}"
        if expected == 0 and Service(1, [], is_conditional=True).serve(call_text(b"DoPut", put_messages(upload)))[1] != 8 * is_large:
            yield f"a put of {len(upload.text)} bytes that expects {expected}"


# ---- what stays as it is


def old_values():
    """The values of records and of stories from before: they are the same uploads, without a condition."""
    runs = [lines_of(schedule)[0] for _, schedule in schedules()]
    yield from {it["value"] for run in runs for records in run.kept.values() for it in records if it["what"] == "accepted" and it["value"]}
    yield from tables.POOL.values()


def unchanged():
    for value in old_values():
        found = upload_of(value, is_conditional=True)
        if found is None or found.expected is not None or found.text != value or upload_of(value).text != value:
            yield f"the upload {value.hex()} from before"
    stories_of = {tables.told: [tables.DATA / name for name in tables.BY_HAND], calls.told: [calls.DATA / "rows.txt"]}
    for told, file in ((told, it) for told, found in stories_of.items() for it in found):
        text = file.read_text(encoding="utf-8")
        if told(without_results(text), is_conditional=True) != text:
            yield f"{file.name}, which has no conditions"


def unknown():
    """What readers that know no conditions, as those of the crates, make of them."""
    for line in text_in("tables.txt").splitlines():
        if line.startswith("upload "):
            told, told_before = tables.Story(is_conditional=True).tell(line), tables.Story().tell(line)
            if told_before != (["NotAnUpload"] if ", expects " in told[0] else told):
                yield f"tables.txt: {line[:20]}"
    upload = Upload(b"t", tables.id_of(0x0F), tables.A, [tables.ROW], 0)
    if Service(1, []).serve(call_text(b"DoPut", put_messages(upload)))[1:3] != (3, "BadDescriptor"):
        yield "a path with a version"
    schedule, called = schedule_in(text_in("two_expect_none.json").encode()), script_in(text_in("first_come.json").encode())
    if any("expected" in it for it in [*schedule["uploads"], *(it[2] for it in called["calls"] if it[0] == "put")]):
        yield "a member of an upload that is skipped"


# ---- every short text: a third element, and what is behind an upload without batches


def elements():
    """Elements of few characters, and numbers near the greatest version, with characters around them."""
    pieces = ["", "0", "1", "9", "-", "+", ".", " ", "a", "\u0663"]
    yield from map("".join, itertools.product(pieces, repeat=4))
    for number in (99_999, 100_000, 999_999, 1_000_000, 1_000_001, 1_999_999, 9_999_999, 10_000_000, 2**32, 2**64, 10**99):
        yield from (f"{front}{number}{back}" for front in pieces for back in pieces)


def is_field(ending):
    """Whether bytes are field 5 with a number from 1 to 1,000,001, in as few bytes as hold it: each byte but the last goes on, by its high
    bit, and has seven bits of the number, the lowest first."""
    key, groups = ending[:1], ending[1:]
    goes_on = [it >= 128 for it in groups]
    number = sum(it % 128 * 128**place for place, it in enumerate(groups))
    is_short = groups[-1:] > b"\0" and goes_on == [True] * (len(groups) - 1) + [False]
    return key == b"\x28" and is_short and number <= MOST_EXPECTED + 1


def short():
    versions = {str(it).encode() for it in range(MOST_EXPECTED + 1)}
    for element in dict.fromkeys(map(str.encode, elements())):
        if version_in(element) != (int(element) if element in versions else None):
            yield f"the third element {element}"
    bare = upload_of(tables.POOL["e"]).text
    pieces = [bytes.fromhex(it) for it in ("", "00", "01", "3d", "7f", "80", "84", "c1", "c2", "28", "2a", "30")]
    endings = map(b"".join, itertools.product((b"", b"\x28", b"\x2a", b"\xa8\0"), *[pieces] * 3))
    for ending in dict.fromkeys(endings):
        if (upload_of(bare + ending, is_conditional=True) is not None) != (not ending or is_field(ending)):
            yield f"an upload, and behind it {ending.hex()}"


HAND = (stories, clients, files, played, makings, sizes, unchanged, unknown, short)


# ---- random lists and runs


def check_lists(count):
    """Judges random lists: how many came to what, which of them find out which wrong rule, and what is wrong."""
    turns, found, faults = Counter(), {it: [] for it in WRONG}, []
    for seed in range(count):
        draw = random.Random(seed)
        values, asked = drawn_list(draw)
        cut = draw.randint(0, len(values))
        turns.update(turns_in(values))
        fault = contradiction(values, asked, cut, Agreed)
        faults += [f"in the list drawn from {seed}: {fault}"] if fault else []
        for rule in WRONG:
            found[rule] += [seed] if contradiction(values, asked, cut, rule) else []
    faults += [f"in no random list {it}" for it in TURNS if not turns[it]]
    return turns, found, faults + [f"no list finds out {it.__name__}" for it, seeds in found.items() if not seeds]


def check_runs(count):
    """Plays random runs of uploads of which some expect a version: what is wrong with them."""
    ends = Counter()
    for seed in range(count):
        run = drawn(seed, random.Random(seed).choices((None, 0, 1, 2), (2, 3, 2, 1), k=6))
        ends.update({" ".join(map(str, gave)) for _, gave in run.steps})
        if not is_lawful(run) or not is_safe(run):
            yield f"the run drawn from {seed} breaks what is promised"
    yield from (f"no random run tells {it}" for it in ENDS if not ends[it])


def check():
    faults = [it for rows_of in HAND for it in rows_of()]
    faults += [*check_lists(DRAWN)[-1], *check_runs(RUNS)]
    for fault in faults:
        print(f"conditional: {fault}")
    return 1 if faults else 0


def draw(count):
    turns, found, faults = check_lists(count)
    for turn in TURNS:
        print(f"in {turns[turn]} of {count} lists {turn}")
    for rule, seeds in found.items():
        print(f"{len(seeds)} of {count} lists find out {rule.__name__}{f', the first one {seeds[0]}' if seeds else ''}")
    for fault in faults:
        print(f"conditional: {fault}")
    return 1 if faults else 0


if __name__ == "__main__":
    show_help(__doc__)
    sys.exit(draw(int(sys.argv[2])) if sys.argv[1:2] == ["--draw"] else check())
