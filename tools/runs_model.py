#!/usr/bin/env python3
"""Plays a schedule of nodes that agree on uploads event by event, in a model, and prints the result of each.

The model is written from Lamport, "Paxos Made Simple", from the columnar format and Flight.proto of Apache Arrow and from
docs/FORMATS.md, and not from the code. It keeps whole lists: every message that was sent, every step, and all that came to a node.

    tools/runs_model.py FILE      plays a schedule, and prints a line for each event
    tools/runs_model.py --check   plays each schedule in examples/, and names those whose lines differ from the file beside them;
                                  plays DRAWN random ones, and reports each whose messages are not lawful or whose answers to
                                  clients are not safe
    tools/runs_model.py --write   writes the lines of those schedules

A schedule may have a member `ranged`, which the program skips yet: with `true` a node asks for a promise of all slots from a first one
on, and a majority's promises then serve for one upload after another (ranged_model.py; tools/ranged.py checks such runs). Of its uploads
each may have a member `expected`, which the program skips too: the version of its table that it expects (conditional_model.py;
tools/conditional.py checks such runs).

A value is its bytes, none for a no-op; a ballot is a pair of its round and its node; a message is a dictionary as in ranged_model.py."""
import functools
import json
import random
import sys
from pathlib import Path

TOP = Path(__file__).resolve().parent.parent
sys.dont_write_bytecode = True
sys.path.append(str(TOP / "crates" / "flatbuf_meta" / "vectors"))

import canonical
from batch_model import canonical as canonical_batch
from batch_model import type_of
from conditional_model import Agreed, condition_text
from paxos_model import MAX_ROUND, is_majority
from ranged_model import Acceptor, Attempt, first_breach, message
from toolbox import show_help
from wire_model import bytes_field, frame

EXAMPLES = TOP / "examples"
MOST_LEFT, MOST_ASKED = 7, 16
# how many random runs are played
DRAWN = 1000


# ---- uploads, and how they are served


@functools.cache
def schema_text(name):
    """The header of a schema with one nullable column of Int8."""
    column = {"name": name, "nullable": True, "type_type": "Int", "type": {"bitWidth": 8, "is_signed": True}, "children": []}
    return bytes.fromhex(canonical.message({"header_type": "Schema", "header": {"fields": [column]}}))


def batch_texts(values):
    """The header and the body of a batch of these values."""
    cells = [None if it is None else it.to_bytes(1, "little", signed=True) for it in values]
    head, body = canonical_batch([type_of("Int(8,true)")], len(cells), [cells])
    said = {"length": len(cells), "nodes": [dict(zip(("length", "null_count"), it)) for it in head.nodes]}
    said["buffers"] = [dict(zip(("offset", "length"), it)) for it in head.buffers]
    header = canonical.message({"header_type": "RecordBatch", "header": said, "bodyLength": len(body)})
    return bytes.fromhex(header), body


class Upload:
    """An upload: its table, its id, the name of its column, its batches as headers and bodies, what it expects, and its encoding."""

    def __init__(self, table, id, name, batches, expected=None):
        self.table, self.id, self.name, self.expected = table, bytes.fromhex(id), name, expected
        # each has one column of Int8, so that shapes differ in its name alone
        self.shape = name
        self.batches = [batch_texts(it) for it in batches]
        parts = [bytes_field(1, table.encode()), bytes_field(2, self.id), bytes_field(3, schema_text(name))]
        parts += [bytes_field(4, bytes_field(1, header) + (bytes_field(2, body) if body else b"")) for header, body in self.batches]
        self.text = b"".join(parts) + condition_text(expected)

    def messages(self):
        """The messages with which it is served."""
        named = bytes_field(3, self.id)
        if not self.batches:
            return [named]
        return [bytes_field(2, header) + named + (bytes_field(1000, body) if body else b"") for header, body in self.batches]


def answer(uploads):
    """The frames of a version with these uploads."""
    messages = [bytes_field(2, schema_text(uploads[0].name))] + [it for upload in uploads for it in upload.messages()]
    return b"".join(frame(0, it) for it in messages)


# How the name of an outcome is printed.
OUTCOMES = {"Applied": "applied", "SchemaMismatch": "mismatch", "VersionMismatch": "versionmismatch", "Conflict": "conflict",
            "Unknown": "unknown"}


def effective(uploads, table):
    """The uploads to the table that count, in their order."""
    return Agreed(uploads).effective(table)


def outcome(uploads, upload):
    """The outcome of an upload, given these uploads, with the number of a version if it has one."""
    name, *version = Agreed(uploads).outcome(upload)
    return " ".join([OUTCOMES[name], *map(str, version)])


# ---- what was learned from a list of messages


def learned(members, messages):
    """The first value of each slot for which a Decided came, or Accepted of a majority at one ballot."""
    values = {}
    for count, message in enumerate(messages, 1):
        slot, what = message["slot"], message["what"]
        if slot in values or what not in ("Accepted", "Decided"):
            continue
        votes = [it for it in messages[:count] if it["slot"] == slot and it["what"] == "Accepted" and it["ballot"] == message["ballot"]]
        votes = [it for it in votes if it["sender"] < members]
        if what == "Decided":
            values[slot] = message["value"]
        elif message["sender"] < members and is_majority(members, {it["sender"] for it in votes}):
            values[slot] = votes[0]["value"]
    return values


def prefix(values):
    """The values up to the first slot that has none."""
    count = next(it for it in range(len(values) + 1) if it not in values)
    return [values[it] for it in range(count)]


# ---- one node: its records, and what came since it started


class Refused(Exception):
    """Why an event was refused."""


def ballots_in(said):
    """Every ballot that a message names."""
    named = [said["ballot"], said["promised"], said["report"] and said["report"][0], *(ballot for _, ballot, _ in said["reports"])]
    return [it for it in named if it]


def slots_in(said):
    """Every slot that a message names."""
    return [said["slot"], *(slot for slot, _, _ in said["reports"])]


class Node:
    """A node, by its records and all that came since it started: messages, uploads that wait, and the calls of its proposer."""

    acceptor, attempts = Acceptor, Attempt

    def __init__(self, run, me, records):
        self.run, self.me, self.records = run, me, records
        self.heard, self.waiting, self.calls = [], [], []

    def is_ranged(self):
        """Whether it asks for promises of all slots from a first one on. It answers both forms in any case."""
        return self.run.is_ranged

    def values(self):
        return learned(self.run.members, self.heard)

    def tables(self):
        return self.run.uploads_of(prefix(self.values()))

    def attempt(self):
        return self.attempts.after(self.run.members, self.calls)

    def leading(self):
        """The attempt by which it may go on from slot to slot, if it has one."""
        found = self.attempt()
        return found if found and found.is_ranged and found.has_majority() else None

    def is_ready(self):
        """Whether a tick is worth its while: an upload waits, and no attempt is on its way to a majority or to a decision."""
        leads = self.leading()
        return bool(self.waiting) and (self.attempt() is None or leads is not None and leads.next() <= len(prefix(self.values())))

    def next_ballot(self):
        seen = [ballot[0] for it in self.heard for ballot in ballots_in(it)]
        begun = [it["ballot"][0] for it in self.records if it["what"] == "began"]
        return max([0, *seen, *begun]) + 1, self.me

    # The result of each input: the record, the messages, and a function that changes the node's state.

    def put(self, upload):
        known = outcome(self.tables(), upload) != "unknown"
        if known or upload.text in [it.text for it in self.waiting]:
            return None, [], lambda: None
        if len(prefix(self.values())) == self.run.slot_limit:
            raise Refused("SlotsSpent")
        return None, [], lambda: self.waiting.append(upload)

    def tick(self, left):
        if left > MOST_LEFT:
            raise Refused("OutOfRange")
        values = self.values()
        first, leads = len(prefix(values)), self.leading() if self.is_ranged() else None
        has_gap = any(it > first for it in values)
        if leads and leads.next() == first and (self.waiting or has_gap or leads.has_report_from(first)):
            return self.go_on(leads)
        if not self.waiting and (leads or not has_gap):
            asks = [message(self.me, first, "Ask")] if first < self.run.slot_limit else []
            return None, asks, lambda: None
        slot, value = first, b""
        if self.waiting:
            slot = [it for it in range(first, first + len(values) + left + 1) if it not in values][left]
            value = self.waiting[0].text
        return self.begin(slot, value)

    def go_on(self, leads):
        """An Accept for the next slot behind the promises that it has. No record is due, since the ballot was begun before."""
        if leads.next() >= self.run.slot_limit:
            raise Refused("SlotsSpent")
        accept = leads.go_on(self.me, self.waiting[0].text if self.waiting else b"")
        return None, [accept], lambda: self.calls.append({"what": "go on"})

    def begin(self, slot, value):
        if slot >= self.run.slot_limit:
            raise Refused("SlotsSpent")
        ballot = self.next_ballot()
        if ballot[0] > MAX_ROUND:
            raise Refused("RoundsSpent")
        began = {"what": "began", "ballot": ballot}
        call = {"what": "begin", "slot": slot, "value": value, "ballot": ballot, "ranged": self.is_ranged()}
        prepare = message(self.me, slot, "PrepareFrom" if self.is_ranged() else "Prepare", ballot)
        return began, [prepare], lambda: self.calls.append(call)

    def deliver(self, said):
        run = self.run
        nodes = [said["sender"], *(it[1] for it in ballots_in(said))]
        if any(it >= run.members for it in nodes) or any(it >= run.slot_limit for it in slots_in(said)):
            raise Refused("OutOfRange")
        record, sends = self.reply(said)

        def hear():
            self.heard.append(said)
            self.calls.append(said)
            self.waiting = [it for it in self.waiting if outcome(self.tables(), it) == "unknown"]

        return record, sends, hear

    def reply(self, said):
        what, slot = said["what"], said["slot"]
        if what in ("Prepare", "PrepareFrom", "Accept"):
            record, reply = self.acceptor(self.me, self.records).reply(said)
            return record, [reply]
        if what in ("Promise", "PromiseFrom"):
            return None, self.proposal(said)
        if what == "Ask":
            values = prefix(self.values())
            return None, [message(self.me, it, "Decided", value=values[it]) for it in range(slot, len(values))][:MOST_ASKED]
        return None, []

    def proposal(self, said):
        """The Accept of the open attempt, if this promise completes its majority."""
        before, after = self.attempt(), self.attempts.after(self.run.members, [*self.calls, said])
        if after is None or before.has_majority() or not after.has_majority():
            return []
        return [after.accept(self.me, after.slot, after.value)]


# ---- a run


class Run:
    """Nodes, all messages that were sent, and the steps so far: each an event and the words of its result. `kinds` are the classes of the
    nodes, if they are not all of one kind."""

    def __init__(self, schedule, kinds=None):
        self.members, self.slot_limit, self.is_ranged = schedule["members"], schedule["slot_limit"], schedule.get("ranged", False)
        self.kinds = kinds or [Node] * self.members
        self.uploads = [Upload(it["table"], it["id"], it.get("name", "a"), it["values"], it.get("expected")) for it in schedule["uploads"]]
        self.by_text = {it.text: it for it in self.uploads}
        self.nodes = {it: self.kinds[it](self, it, []) for it in range(self.members)}
        self.kept = {it: [] for it in range(self.members)}
        self.sent, self.steps = [], []

    def uploads_of(self, values):
        return [self.by_text[it] for it in values if it in self.by_text]

    def play(self, event):
        try:
            gave = self.give(event)
        except Refused as refusal:
            gave = ["refused", str(refusal)]
        self.steps.append((event, gave))
        return " ".join(str(it) for it in gave)

    def give(self, event):
        what, member = event[0], event[1]
        if member >= self.members:
            raise Refused("OutOfRange")
        if what == "restart":
            self.nodes[member] = self.kinds[member](self, member, list(self.kept[member]))
            return ["done"]
        node = self.nodes[member]
        if node is None:
            raise Refused("Down")
        if what in ("deliver", "delivercut") and event[2] >= len(self.sent):
            raise Refused("NotSent")
        if what in ("tickcut", "delivercut"):
            return self.cut(node, event)
        if what in ("put", "tick", "deliver"):
            return self.step(node, event)
        return self.told(node, event)

    def due(self, node, event):
        if event[0] == "put":
            return node.put(self.uploads[event[2]])
        if event[0] in ("tick", "tickcut"):
            return node.tick(event[2])
        return node.deliver(self.sent[event[2]])

    def step(self, node, event):
        record, sends, commit = self.due(node, event)
        if record:
            self.kept[node.me].append(record)
            node.records.append(record)
        commit()
        numbers = range(len(self.sent), len(self.sent) + len(sends))
        self.sent += sends
        return ["done"] if event[0] == "put" else ["sent", ",".join(str(it) for it in numbers) or "-"]

    def cut(self, node, event):
        try:
            record = self.due(node, event)[0]
        except Refused:
            record = None
        if record:
            self.kept[node.me].append(record)
        self.nodes[node.me] = None
        return ["cut"]

    def told(self, node, event):
        tables = node.tables()
        if event[0] == "outcome":
            return [outcome(tables, self.uploads[event[2]])]
        uploads = effective(tables, event[2])
        if event[0] == "info":
            return ["info", len(uploads)] if uploads else ["notable"]
        return ["answer", answer(uploads[: event[3]]).hex()] if event[3] <= len(uploads) else ["unavailable"]


def lines_of(schedule):
    run = Run(schedule)
    return run, [f"{place} {run.play(event)}" for place, event in enumerate(schedule["events"])]


# ---- what is promised about a run, from its steps and its messages alone


def is_lawful(run):
    """Whether each message may follow the earlier ones, by what they say of each slot."""
    return first_breach(run.members, run.sent) is None


def tables_shown(run, member, place):
    """The uploads of the member's prefix, from the messages that were delivered to it since its last start; None if it is down."""
    is_up, heard = True, []
    for event, gave in run.steps[:place]:
        if event[1] != member:
            continue
        if event[0] == "restart":
            is_up, heard = gave == ["done"], []
        elif gave == ["cut"]:
            is_up = False
        elif event[0] == "deliver" and gave[0] == "sent":
            heard.append(run.sent[event[2]])
    return run.uploads_of(prefix(learned(run.members, heard))) if is_up else None


def is_safe(run):
    answers = [(place, event, gave[1]) for place, (event, gave) in enumerate(run.steps) if gave[0] == "answer"]
    for place, (event, gave) in enumerate(run.steps):
        if event[1] < run.members and event[0] in ("get", "info", "outcome"):
            tables = tables_shown(run, event[1], place)
            if (gave == ["refused", "Down"]) != (tables is None):
                return False
            if tables is not None and gave != run.told(Tables(tables), event):
                return False
    for place, event, text in answers:
        if any(other[2:] == event[2:] and told != text for _, other, told in answers):
            return False
        shown = effective(tables_shown(run, event[1], place), event[2])[: event[3]]
        put = [run.uploads[it[2]].text for it, gave in run.steps[:place] if it[0] == "put" and gave == ["done"]]
        if any(it.text not in put for it in shown):
            return False
        for asked, gave in run.steps:
            if asked[0] == "outcome" and gave[0].startswith("applied"):
                upload, number = run.uploads[asked[2]], int(gave[0].split()[1])
                if upload.table == event[2] and number <= event[3]:
                    if len(shown) != event[3] or len({it.id for it in shown}) != len(shown):
                        return False
                    if shown[number - 1].text != upload.text:
                        return False
    return True


class Tables:
    """Stands in for a node with these uploads, to answer questions."""

    def __init__(self, uploads):
        self.uploads = uploads

    def tables(self):
        return self.uploads


# ---- random schedules


def drawn(seed, conditions=6 * (None,)):
    """A random run of some uploads, of which two have one id, one is to another table and one has another shape; `conditions` are what they
    expect. Its events are drawn as it goes on: most are deliveries of messages that the node has not had, some of others, and few are ticks."""
    draw = random.Random(seed)
    members = draw.choice((1, 2, 3, 3, 3, 3, 4, 5))
    ids = [f"{it:032x}" for it in (1, 2, 3, 1, 4, 5)]
    uploads = [{"table": "u" if it == 4 else "t", "id": id, "values": [[it]], "name": "ab"[it == 5]} for it, id in enumerate(ids)]
    uploads = [it | {"expected": expected} for it, expected in zip(uploads, conditions)]
    run = Run({"members": members, "slot_limit": draw.choice((2, 4, 8)), "uploads": uploads})
    new, count = set(), 0
    for _ in range(draw.choice((60, 120, 240))):
        new |= {(node, number) for node in range(members) for number in range(count, len(run.sent))}
        count = len(run.sent)
        event = drawn_event(draw, run, sorted(new))
        new.discard(tuple(event[1:]) if event[0] == "deliver" else None)
        run.play(event)
    return run


def drawn_event(draw, run, new):
    member, upload = draw.randrange(run.members + (draw.random() < 0.02)), draw.randrange(len(run.uploads))
    down = [it for it, node in run.nodes.items() if node is None]
    number = draw.randrange(len(run.sent) + 1)
    if new and draw.random() < 0.75:
        return ["deliver", *draw.choice(new[-6:] if draw.random() < 0.8 else new)]
    if down and draw.random() < 0.3:
        return ["restart", draw.choice(down)]
    kind = draw.choices(("put", "tick", "deliver", "cut", "restart", "ask"), (7, 9, 4, 1, 1, 6))[0]
    events = {"put": [["put", member, upload]], "tick": [["tick", member, draw.choice((0, 0, 0, 0, 1, 8))]]}
    events |= {"deliver": [["deliver", member, number]], "restart": [["restart", member]]}
    events["cut"] = [["tickcut", member, 0], ["delivercut", member, number]]
    events["ask"] = [["get", member, draw.choice("ttu"), draw.choice((1, 1, 2, 3))], ["info", member, "t"], ["outcome", member, upload]]
    return draw.choice(events[kind])


def check_drawn(count):
    """How many of `count` random runs are not lawful or not safe."""
    faults = 0
    for seed in range(count):
        run = drawn(seed)
        if not is_lawful(run) or not is_safe(run):
            print(f"runs_model: the run drawn from {seed} breaks what is promised")
            faults += 1
    return faults


def schedules():
    for file in sorted(EXAMPLES.glob("*.json")):
        schedule = json.loads(file.read_text(encoding="utf-8"))
        if "events" in schedule:
            yield file, schedule


def main():
    word = sys.argv[1] if len(sys.argv) == 2 else ""
    if word not in ("--check", "--write"):
        print("\n".join(lines_of(json.loads(Path(word).read_text(encoding="utf-8")))[1]))
        return 0
    status = 0
    for file, schedule in schedules():
        run, lines = lines_of(schedule)
        text, beside = "\n".join(lines) + "\n", file.with_suffix(".lines")
        if not is_lawful(run) or not is_safe(run):
            print(f"runs_model: {file.name} breaks what is promised")
            status = 1
        if word == "--write":
            beside.write_text(text, encoding="utf-8")
        elif not beside.exists() or beside.read_text(encoding="utf-8") != text:
            print(f"runs_model: {beside.name} differs from the lines of {file.name}")
            status = 1
    return 1 if check_drawn(DRAWN) else status


if __name__ == "__main__":
    show_help(__doc__)
    sys.exit(main())
