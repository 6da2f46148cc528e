#!/usr/bin/env python3
"""Makes the stories of Paxos nodes, messages, records and histories from a model of them, in crates/paxos_stories/data.

The stories are every short run of a few chosen calls, with their results. The model is written from Lamport, "Paxos Made Simple",
sections 2.2, 2.3 and 2.5, from Protocol Buffers, "Encoding", and from docs/FORMATS.md, and not from the code.

    tools/paxos_model.py [--check]

It writes `crates/paxos_stories/data/every_*.txt`. With --check it changes nothing, and names those that differ from what it makes.
A ballot is a pair of its round and its node, and a value is its bytes, none for a no-op."""
import itertools
import random
import sys
from pathlib import Path

from toolbox import show_help
from wire_model import Faults, bytes_field, file_of, number_field, put, rows, split, varint

DATA = Path(__file__).resolve().parent.parent / "crates" / "paxos_stories" / "data"
MAX_NODE, MAX_SLOT, MAX_ROUND = 6, 999_999, 4_000_000_000
# The most bytes of a value, today and where the types of columns whose names begin with Large are carried.
MAX_VALUE, MAX_VALUE_WITH_LARGE = 16 * 1024 * 1024, 64 * 1024 * 1024
KINDS = ["", "Prepare", "Promise", "Nack", "Accept", "Accepted", "Ask", "Decided"]
KEPT = ["", "began", "promised", "accepted", "promised-from"]


def shown_ballot(ballot):
    return f"{ballot[0]}.{ballot[1]}"


def shown_value(value):
    return value.hex() or "noop"


# ---- messages and records: the fields that each kind has, in the order of their numbers

MESSAGE = {1: "kind", 2: "sender", 3: "slot", 5: "round", 6: "node", 7: "second round", 8: "second node", 9: "value"}
RECORD = {1: "kind", 2: "slot", 3: "round", 4: "node", 5: "value"}
LIMITS = {"sender": (0, MAX_NODE), "slot": (0, MAX_SLOT), "round": (1, MAX_ROUND), "node": (0, MAX_NODE)}
LIMITS |= {"second round": (1, MAX_ROUND), "second node": (0, MAX_NODE)}
HEAD, FIRST, SECOND = ["sender", "slot"], ["round", "node"], ["second round", "second node"]
IN_MESSAGE = {1: FIRST, 2: FIRST, 3: FIRST + SECOND, 4: FIRST + ["value"], 5: FIRST + ["value"], 6: [], 7: ["value"]}
IN_RECORD = {1: FIRST, 2: ["slot", *FIRST], 3: ["slot", *FIRST, "value"], 4: ["slot", *FIRST]}


def encoding(numbers, parts):
    """The fields in order of their numbers, without those that are 0 or empty."""
    text = b""
    for number, name in numbers.items():
        part = parts.get(name)
        if part:
            text += bytes_field(number, part) if name == "value" else number_field(number, part)
    return text


def meant(numbers, fields):
    """For each part the last field of its number, its default if there is none, and None if one has another wire type."""
    parts = {name: b"" if name == "value" else 0 for name in numbers.values()}
    for number, wire_type, held in fields:
        name = numbers.get(number)
        if name is not None and parts[name] is not None:
            parts[name] = held if wire_type == (2 if name == "value" else 0) else None
    return parts


def faults_in(parts, names, max_value=MAX_VALUE):
    """What is wrong with these parts."""
    faults, limits = set(), LIMITS | {"value": (0, max_value)}
    for name in names:
        part = len(parts[name]) if isinstance(parts[name], bytes) else parts[name]
        if part is None:
            faults.add("BadWireType")
        elif not limits[name][0] <= part <= limits[name][1]:
            faults.add("OutOfRange")
    return faults


def parts_of(text, numbers, head, kinds, max_value=MAX_VALUE):
    """The parts of the message or record that a text encodes."""
    fields, faults = split(text)
    if faults:
        raise Faults(*faults)
    parts = meant(numbers, fields)
    faults = faults_in(parts, head)
    if parts["kind"] is None:
        faults.add("BadWireType")
    elif parts["kind"] not in kinds:
        faults.add("BadKind")
    else:
        faults |= faults_in(parts, kinds[parts["kind"]], max_value)
        if kinds is IN_MESSAGE and parts["kind"] == 2 and parts["second round"] != 0:
            faults |= faults_in(parts, [*SECOND, "value"], max_value)
    if faults:
        raise Faults(*faults)
    return parts


def line_of(parts):
    """A message as its line."""
    kind = parts["kind"]
    words = [f"node {parts['sender']} slot {parts['slot']} {KINDS[kind]}"]
    if kind in (1, 2, 3, 4, 5):
        words.append(shown_ballot((parts["round"], parts["node"])))
    if kind == 3 or (kind == 2 and parts["second round"]):
        words.append(f"{'promised' if kind == 3 else 'accepted'} {shown_ballot((parts['second round'], parts['second node']))}")
    if kind == 2 and parts["second round"]:
        words.append(shown_value(parts["value"]))
    if kind in (4, 5, 7):
        words.append(shown_value(parts["value"]))
    return " ".join(words)


def kept_line_of(parts):
    """A record as its line."""
    name, ballot = KEPT[parts["kind"]], shown_ballot((parts["round"], parts["node"]))
    if name == "began":
        return f"{name} {ballot}"
    if name == "accepted":
        return f"{name} {parts['slot']} {ballot} {shown_value(parts['value'])}"
    return f"{name} {parts['slot']} {ballot}"


def record_parts(text, max_value=MAX_VALUE):
    """The parts of the record that a text encodes."""
    return parts_of(text, RECORD, [], IN_RECORD, max_value)


def told_message(text):
    return [line_of(parts_of(text, MESSAGE, HEAD, IN_MESSAGE))]


def told_record(text):
    return [kept_line_of(record_parts(text))]


# Fields at the limits of their values, also of other wire types, and two with unknown numbers.
IN_MESSAGES = [number_field(*it) for it in ((1, 2), (2, 0), (2, 6), (2, 7), (3, MAX_SLOT), (3, MAX_SLOT + 1), (4, 7), (5, 0), (5, 1))]
IN_MESSAGES += [number_field(*it) for it in ((5, MAX_ROUND), (5, MAX_ROUND + 1), (6, 1), (6, 7), (7, 0), (7, 1), (7, MAX_ROUND + 1))]
IN_MESSAGES += [number_field(*it) for it in ((8, 1), (8, 7), (9, 0))] + [bytes_field(it, b"") for it in (2, 6, 7, 9)]
IN_MESSAGES += [bytes_field(*it) for it in ((1, b"\2"), (5, b"\1"), (9, b"a"), (10, b"a"))]
IN_MESSAGES += [varint(3 << 3 | 5) + b"\1\0\0\0", varint(8 << 3 | 1) + b"\1" + bytes(7)]
IN_RECORDS = [number_field(*it) for it in ((1, 2), (2, 0), (2, MAX_SLOT), (2, MAX_SLOT + 1), (3, 0), (3, 1), (3, MAX_ROUND))]
IN_RECORDS += [number_field(*it) for it in ((3, MAX_ROUND + 1), (4, 1), (4, 6), (4, 7), (5, 0), (6, 7))]
IN_RECORDS += [bytes_field(*it) for it in ((1, b"\2"), (2, b""), (3, b"\1"), (4, b""), (5, b""), (5, b"a"), (6, b"a"))]
IN_RECORDS += [varint(2 << 3 | 5) + b"\1\0\0\0", varint(4 << 3 | 1) + b"\1" + bytes(7)]


def beginnings(kinds, rounds):
    """No kind, known and unknown kinds, and kinds with the rounds that they need."""
    texts = [b"", *(number_field(1, it) for it in (0, *kinds, max(kinds) + 1, 2**32 + 1))]
    return texts + [b"".join(number_field(*it) for it in fields) for fields in rounds]


MESSAGE_ROUNDS = [[(1, 2), (5, 1)], [(1, 3), (5, 1)]]
MESSAGE_ROUNDS += [[(1, 1), (5, 1)], [(1, 2), (5, 1), (7, 1)], [(1, 3), (5, 1), (7, 1)], [(1, 4), (5, 1)], [(1, 5), (5, 1)]]
RECORD_ROUNDS = [[(1, kind), (3, 1)] for kind in IN_RECORD]


def decoded(command, call, begun, fields, whole):
    """Each field after each beginning, and each pair of fields after the last ones, in which nothing is missing."""
    texts = [begin + field for begin in begun for field in (b"", *fields)]
    texts += [begin + one + other for begin in begun[-whole:] for one, other in itertools.product(fields, fields)]
    return rows(command, call, dict.fromkeys(texts))


def cuts(command, call, text):
    """Each beginning of a text."""
    return rows(command, call, [text[:length] for length in range(len(text) + 1)])


def messages():
    """A message of each kind for each sender, with numbers at their limits."""
    edges = zip((0, 127, 16_384, MAX_SLOT), (1, 127, 128, MAX_ROUND))
    for (slot, round_), sender, node in itertools.product(list(edges), (0, 3, 6), (0, 6)):
        for kind, second, value in itertools.product(range(1, 8), (0, 300), (b"", b"abc")):
            parts = {"kind": kind, "sender": sender, "slot": slot, "round": round_, "node": node, "value": value}
            parts |= {"second round": second, "second node": sender if second else 0}
            needs = IN_MESSAGE[kind] + ([*SECOND, "value"] if kind == 2 and second else [])
            unneeded = any(parts[it] for it in (*SECOND, "value") if it not in needs)
            if not unneeded and not faults_in(parts, needs):
                yield {name: part for name, part in parts.items() if name in ("kind", *HEAD, *SECOND, "value") or name in needs}


def records():
    for slot, round_, node in itertools.product((0, 127, 128, MAX_SLOT), (1, 127, 128, MAX_ROUND), (0, 6)):
        if slot == 0:
            yield {"kind": 1, "slot": 0, "round": round_, "node": node, "value": b""}
        yield {"kind": 2, "slot": slot, "round": round_, "node": node, "value": b""}
        yield {"kind": 3, "slot": slot, "round": round_, "node": node, "value": b""}
        yield {"kind": 3, "slot": slot, "round": round_, "node": node, "value": b"abc"}
        yield {"kind": 4, "slot": slot, "round": round_, "node": node, "value": b""}


def encoded():
    lines = []
    for parts in messages():
        text, line = encoding(MESSAGE, parts), line_of(parts)
        lines += [f"encode {line}", f"  {text.hex()}", f"decode {text.hex()}", f"  {line}"]
    return lines


def kept():
    lines = []
    for parts in records():
        text, line = encoding(RECORD, parts), kept_line_of(parts)
        lines += [f"encode-record {line}", f"  {text.hex()}", f"decode-record {text.hex()}", f"  {line}"]
    return lines


# ---- the parts of a node

BALLOTS = [(1, 0), (1, 1), (2, 0)]


class Slot:
    """A slot of an acceptor: what it promised, and what it accepted."""

    def __init__(self):
        self.promised, self.accepted = None, None

    def prepare(self, ballot):
        if self.promised is not None and ballot <= self.promised:
            return f"refuses, since it promised {shown_ballot(self.promised)}"
        self.promised = ballot
        if self.accepted is None:
            return "promises, and has accepted nothing"
        return f"promises, and has accepted {self.shown()}"

    def accept(self, ballot, value):
        if self.promised is not None and ballot < self.promised:
            return f"refuses, since it promised {shown_ballot(self.promised)}"
        self.promised, self.accepted = ballot, (ballot, value)
        return "accepts"

    def keep(self, kind, ballot, value):
        """Takes a record; records may come in any order."""
        self.promised = max(self.promised or ballot, ballot)
        if kind == 3 and (self.accepted is None or self.accepted[0] <= ballot):
            self.accepted = ballot, value

    def shown(self):
        return f"{shown_value(self.accepted[1])} at {shown_ballot(self.accepted[0])}"


def answers():
    """All runs of three requests, each run to its own slot; the first requests of all slots come first, then the second."""
    requests = list(itertools.product(("prepare", "accept"), BALLOTS))
    runs = list(enumerate(itertools.product(requests, repeat=3)))
    slots, lines = {number: Slot() for number, _ in runs}, ["new acceptor"]
    for place in range(3):
        for number, run in runs:
            (call, ballot), value = run[place], bytes([place + 1])
            given = slots[number].prepare(ballot) if call == "prepare" else slots[number].accept(ballot, value)
            words = [call, str(number), shown_ballot(ballot)] + ([shown_value(value)] if call == "accept" else [])
            lines += [f"acceptor {' '.join(words)}", f"  {given}"]
    return lines


def restored():
    """All runs of three records, each run of its own slot."""
    choices = list(itertools.product((2, 3), BALLOTS))
    runs = list(enumerate(itertools.product(choices, repeat=3)))
    slots, texts, lines = {number: Slot() for number, _ in runs}, [], []
    for place in range(3):
        for number, run in runs:
            (kind, ballot), value = run[place], bytes([place + 1])
            slots[number].keep(kind, ballot, value)
            parts = {"kind": kind, "slot": number, "round": ballot[0], "node": ballot[1], "value": value if kind == 3 else b""}
            texts.append(encoding(RECORD, parts).hex())
    for number, slot in slots.items():
        lines += [f"acceptor promised {number}", f"  {shown_ballot(slot.promised)}"]
        lines += [f"acceptor accepted {number}", f"  {slot.shown() if slot.accepted else 'nothing'}"]
    return [f"new acceptor {' '.join(texts)}", *lines]


def record_text(kind, slot, ballot, value):
    return encoding(RECORD, {"kind": KEPT.index(kind), "slot": slot, "round": ballot[0], "node": ballot[1], "value": value})


def left_of(records, slot):
    """What records leave of a slot: the highest ballot that it promised or accepted at, where a promise of all slots from a first one on is
    one of each of them, and the last acceptance at the highest ballot."""
    ballots = [ballot for kind, of, ballot, _ in records if of == slot or (kind == "promised-from" and of < slot)]
    accepted = [(ballot, place, value) for place, (kind, of, ballot, value) in enumerate(records) if kind == "accepted" and of == slot]
    ballot, _, value = max(accepted, default=(None, 0, b""))
    return shown_ballot(max(ballots)) if ballots else "nothing", f"{shown_value(value)} at {shown_ballot(ballot)}" if accepted else "nothing"


def restored_from():
    """All pairs of records of two slots at two ballots, of which one or both are promises of all slots from theirs on, each pair for a new
    acceptor."""
    lines = []
    for pair in itertools.product(itertools.product(KEPT[2:], (0, 1), ((1, 0), (2, 0))), repeat=2):
        if all(kind != "promised-from" for kind, _, _ in pair):
            continue
        records = [(*it, bytes([place]) if it[0] == "accepted" else b"") for place, it in enumerate(pair, 1)]
        lines.append(f"new acceptor {' '.join(record_text(*it).hex() for it in records)}")
        for slot in (0, 1, MAX_SLOT):
            promised, accepted = left_of(records, slot)
            lines += [f"acceptor promised {slot}", f"  {promised}"]
            lines += [f"acceptor accepted {slot}", f"  {accepted}"] if slot < 2 else []
    return lines


def attempts():
    """All runs of three promises to an attempt of three members: from two of them, with one of two reports or none, and from a stranger."""
    promises = [*itertools.product((0, 1), (None, (1, 0), (2, 0))), (4, (2, 0))]
    lines = []
    for run in itertools.product(promises, repeat=3):
        lines += ["new proposer 2 3 0", "proposer begin 5 2 noop", "  begins 3.2"]
        reports = {}
        for place, (sender, report) in enumerate(run):
            value, given = bytes([place + 1]), "nothing"
            if sender < 3 and sender not in reports and len(reports) < 2:
                reports[sender] = (report or (0, 0), -place, value if report else b"")
                if len(reports) == 2:
                    given = f"asks to accept {shown_value(max(reports.values())[2])} for 5 at 3.2"
            said = f" {shown_ballot(report)} {shown_value(value)}" if report else ""
            lines += [f"proposer promise {sender} 5 3.2{said}", f"  {given}"]
    return lines


def votes(members):
    """All runs of three calls, each run about its own slot: votes of nodes 0, 1 and 3 at two ballots, and a decision."""
    choices = [*itertools.product((0, 1, 3), ((1, 0), (2, 1))), None]
    runs = list(enumerate(itertools.product(choices, repeat=3)))
    cast, learned, lines = {number: [] for number, _ in runs}, {}, [f"new learner {members}"]
    for place in range(3):
        for number, run in runs:
            call, value, given = run[place], bytes([place + 1]), "nothing"
            said = f"accepted {call[0]} {number} {shown_ballot(call[1])}" if call else f"decided {number}"
            if call and call[0] < members:
                cast[number].append((call[1], call[0], value))
            at_ballot = [it for it in cast[number] if call and it[0] == call[1]]
            is_chosen = call and call[0] < members and 2 * len({it[1] for it in at_ballot}) > members
            if number not in learned and (is_chosen or not call):
                learned[number] = at_ballot[0][2] if call else value
                given = shown_value(learned[number])
            lines += [f"learner {said} {shown_value(value)}", f"  learns {given}"]
    return lines


def inserts():
    """All runs of four inserts into four slots."""
    lines = []
    for run in itertools.product(range(4), repeat=4):
        lines.append("new log 3")
        values, count = {}, 0
        for place, slot in enumerate(run):
            value, grown = bytes([place + 1]), []
            values.setdefault(slot, value)
            while count in values:
                grown.append(shown_value(values[count]))
                count += 1
            lines += [f"log insert {slot} {shown_value(value)}", f"  grows by {' '.join(grown) or 'nothing'}, to {count}"]
    return lines


# ---- lawful histories: six clauses on a message and those before it


def is_majority(members, nodes):
    return 2 * len({it for it in nodes if it < members}) > members


def binding(before, sender):
    """The ballots that a node promised or accepted at."""
    return [it["ballot"] for it in before if it["sender"] == sender and it["what"] in ("Promise", "Accepted")]


def votes_of(before, sender):
    return [it["ballot"] for it in before if it["sender"] == sender and it["what"] == "Accepted"]


def was_proposed(before, ballot, value):
    return any(it["what"] == "Accept" and it["ballot"] == ballot and it["value"] == value for it in before)


def promisers(before, ballot, bound):
    """Who promised the ballot and reported nothing above the bound."""
    return {it["sender"] for it in before if it["what"] == "Promise" and it["ballot"] == ballot and (it["report"] or ((0, 0),))[0] <= bound}


def is_safe(members, before, ballot, value):
    """Whether a majority reported nothing, or the highest report of a majority has this value."""
    if is_majority(members, promisers(before, ballot, (0, 0))):
        return True
    for it in before:
        if it["what"] == "Promise" and it["ballot"] == ballot and it["report"] and it["report"][1] == value:
            among = promisers(before, ballot, it["report"][0])
            if it["sender"] < members and it["sender"] in among and is_majority(members, among):
                return True
    return False


def is_chosen(members, before, value):
    return any(
        is_majority(members, {it["sender"] for it in before if it["what"] == "Accepted" and (it["ballot"], it["value"]) == (ballot, value)})
        for ballot in {it["ballot"] for it in before if it["what"] == "Accepted"}
    )


def may_follow(members, before, said):
    what, sender, ballot, value = said["what"], said["sender"], said["ballot"], said["value"]
    if what == "Promise":
        above = (said["report"] or ((0, 0),))[0]
        reports = not said["report"] or (above < ballot and was_proposed(before, above, said["report"][1]))
        is_highest = all(it <= above for it in votes_of(before, sender))
        return reports and is_highest and all(it < ballot for it in binding(before, sender))
    if what == "Accept":
        one_value = all(it["value"] == value for it in before if it["what"] == "Accept" and it["ballot"] == ballot)
        return one_value and is_safe(members, before, ballot, value)
    if what == "Accepted":
        return was_proposed(before, ballot, value) and all(it <= ballot for it in binding(before, sender))
    return what != "Decided" or is_chosen(members, before, value)


def said(sender, what, ballot=None, value=b"", report=None, slot=0):
    return {"sender": sender, "what": what, "ballot": ballot, "value": value, "report": report, "slot": slot}


FEW = [
    said(0, "Promise", (1, 0)),
    said(1, "Promise", (1, 0)),
    said(0, "Promise", (2, 0)),
    said(0, "Promise", (2, 0), report=((1, 0), b"\1")),
    said(1, "Promise", (2, 0), report=((1, 0), b"\1")),
    said(0, "Accept", (1, 0), b"\1"),
    said(0, "Accept", (2, 0), b"\1"),
    said(0, "Accept", (2, 0), b"\2"),
    said(0, "Accepted", (1, 0), b"\1"),
    said(1, "Accepted", (1, 0), b"\1"),
    said(1, "Accepted", (2, 0), b"\2"),
    said(0, "Decided", value=b"\1"),
]


# Nodes 0 and 1 promise 1.0, at which node 0 proposes.
PROPOSED = [FEW[0], FEW[1], FEW[5]]


def history_line(it):
    words = [f"node {it['sender']} slot {it['slot']} {it['what']}"]
    words += [shown_ballot(it["ballot"])] if it["ballot"] else []
    words += [f"accepted {shown_ballot(it['report'][0])} {shown_value(it['report'][1])}"] if it["report"] else []
    words += [shown_value(it["value"])] if it["value"] else []
    return " ".join(words)


def histories(members, most, start=()):
    """Every lawful history of at most `most` of these messages after the first ones, and whether each of the messages may follow it.
    No message comes twice."""
    lines, level = [], [list(start)]
    for _ in range(most + 1):
        longer = []
        for before in level:
            lines.append(f"new history {members}")
            for it in before:
                lines += [f"say {history_line(it)}", "  lawful"]
            for it in FEW:
                is_lawful = may_follow(members, before, it)
                lines += [f"if {history_line(it)}", f"  {'lawful' if is_lawful else 'unlawful'}"]
                if is_lawful and it not in before:
                    longer.append([*before, it])
        level = longer
    return lines


def drawn_message(draw, members):
    """A random message of a member or of the node after the last member, mostly about slot 0."""
    what = draw.choice(("Promise", "Promise", "Promise", "Accept", "Accepted", "Accepted", "Decided", "Prepare"))
    sender, ballot, slot = draw.randrange(members + 1), draw.choice(BALLOTS), int(draw.randrange(8) == 0)
    value = bytes([draw.choice((1, 2))])
    if what == "Promise":
        report = (draw.choice(BALLOTS), value) if draw.randrange(2) else None
        return said(sender, what, ballot, report=report, slot=slot)
    if what == "Prepare":
        return said(sender, what, ballot, slot=slot)
    return said(sender, what, None if what == "Decided" else ballot, value, slot=slot)


def walks(count, steps):
    """Random histories of one to four members: a message that may follow is added, another one is only judged."""
    draw, lines = random.Random(11), []
    for members in (1, 2, 3, 4) * count:
        lines.append(f"new history {members}")
        before = {0: [], 1: []}
        for _ in range(steps):
            it = drawn_message(draw, members)
            is_lawful = may_follow(members, before[it["slot"]], it)
            lines += [f"{'say' if is_lawful else 'if'} {history_line(it)}", f"  {'lawful' if is_lawful else 'unlawful'}"]
            if is_lawful:
                before[it["slot"]].append(it)
    return lines


def stories():
    made = "What every short run of a few telling calls gives, as tools/paxos_model.py says."
    texts = (
        "What bytes mean, and how they are written, as tools/paxos_model.py says. Where several faults stand, a reader may\n"
        "# tell any of them: `one-of` names them, before the command."
    )
    meanings = file_of(
        texts,
        ("Messages of each kind, with numbers at the edges of what they may be.", encoded()),
        ("Fields behind beginnings of a message.", decoded("decode", told_message, beginnings(range(1, 8), MESSAGE_ROUNDS), IN_MESSAGES, 5)),
        ("Each beginning of a Promise with a report.", cuts("decode", told_message, bytes.fromhex("08021003180528033002380240014a03616263"))),
        ("Records of each kind, likewise.", kept()),
        ("Fields behind beginnings of a record.", decoded("decode-record", told_record, beginnings(IN_RECORD, RECORD_ROUNDS), IN_RECORDS, len(RECORD_ROUNDS))),
        ("Each beginning of an Accepted.", cuts("decode-record", told_record, bytes.fromhex("08031005180320022a03616263"))),
    )
    calls = file_of(
        made,
        ("Three requests to an acceptor.", answers()),
        ("Three records that an acceptor has back.", restored()),
        ("Two records, of which one or both promise all slots from a first one on.", restored_from()),
        ("Three promises to a proposer.", attempts()),
        ("Three calls of a learner of three members, of whom node 3 is none.", votes(3)),
        ("The same of a single member.", votes(1)),
        ("Of two members.", votes(2)),
        ("Of four, of whom node 3 is one: two are no majority.", votes(4)),
        ("Four inserts into a log.", inserts()),
    )
    judged = file_of(
        "Every short lawful history of a few messages, and drawn longer ones, and which messages may follow, as tools/paxos_model.py says.",
        ("Of one member: node 1 is none.", histories(1, 3)),
        ("Of two members.", histories(2, 2)),
        ("Of two members, behind two promises and a proposal.", histories(2, 3, PROPOSED)),
        ("Of four members, behind the two promises: two are no majority.", histories(4, 1, FEW[:2])),
        ("Drawn histories of one to four members, about two slots, also with a node that is no member.", walks(8, 100)),
    )
    return {"every_meaning.txt": meanings, "every_call.txt": calls, "every_history.txt": judged}


if __name__ == "__main__":
    show_help(__doc__)
    sys.exit(put(DATA, stories(), "--check" in sys.argv[1:]))
