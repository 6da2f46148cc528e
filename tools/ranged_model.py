"""A model of promises that bind all slots from a first one on: what they add to paxos_model.py, which has their record. Of the crates
`acceptor` and `proposer` have calls for them, and `ballots` their record, but not their messages.

A leader needs one promise of a majority for all slots to come: it sends one Prepare for infinitely many instances, and an acceptor
answers for all of them at once (Lamport, "Paxos Made Simple", section 3). So Prepare and Promise have a second form, PrepareFrom and
PromiseFrom, which field 4 of a message tells. The functions of this module read both forms; those of paxos_model.py skip field 4, as
the crates do.

A ballot is a pair of its round and its node, and a value is its bytes, none for a no-op. A message is a dictionary, as `message` makes
it; the `reports` of a PromiseFrom are triples of a slot, a ballot and a value."""
from paxos_model import FIRST, HEAD, IN_MESSAGE, KINDS, MAX_SLOT, MAX_VALUE, MESSAGE, SECOND, encoding, faults_in
from paxos_model import is_majority, line_of, may_follow, meant, parts_of, shown_ballot, shown_value
from wire_model import Faults, bytes_field, fields_of, split

PREPARE, PROMISE = KINDS.index("Prepare"), KINDS.index("Promise")
# What field 4 of a Prepare or a Promise says: that it is about one slot, or about all slots from this one on.
ONE_SLOT, ALL_FROM = 0, 1
FROM = {"PrepareFrom": "Prepare", "PromiseFrom": "Promise"}
# The fields of the second form, those of a report, and the number of the field that has a report.
RANGED_MESSAGE = {1: "kind", 2: "sender", 3: "slot", 4: "form", 5: "round", 6: "node"}
REPORT, REPORTS = {1: "slot", 2: "round", 3: "node", 4: "value"}, 10
# Below every ballot.
NO_BALLOT = (0, 0)


def message(sender, slot, what, ballot=None, value=b"", report=None, promised=None, reports=()):
    return {"sender": sender, "slot": slot, "what": what, "ballot": ballot, "value": value, "report": report, "promised": promised,
            "reports": list(reports)}


# ---- messages as bytes and as lines


def reports_in(fields, first, faults, max_value):
    """The reports in these fields, which are about slots from the first one on, each slot above that of the report before it. What is
    wrong with them is added to `faults`."""
    reports, least = [], first or 0
    for number, wire_type, held in fields:
        if number != REPORTS:
            continue
        inner, wrong = split(held) if wire_type == 2 else ([], {"BadWireType"})
        parts = meant(REPORT, inner)
        wrong = wrong or faults_in(parts, REPORT.values(), max_value)
        if not wrong:
            wrong = {"OutOfRange"} if parts["slot"] < least else set()
            least = parts["slot"] + 1
        faults |= wrong
        reports.append(parts)
    return reports


def message_parts(text, max_value=MAX_VALUE):
    """The parts of the message that a text encodes, of either form."""
    fields = fields_of(text)
    parts = meant(MESSAGE | RANGED_MESSAGE, fields)
    if parts["kind"] not in (PREPARE, PROMISE) or parts["form"] == ONE_SLOT:
        return parts_of(text, MESSAGE, HEAD, IN_MESSAGE, max_value)
    faults, has_reports = faults_in(parts, [*HEAD, *FIRST]), parts["kind"] == PROMISE and parts["form"] == ALL_FROM
    reports = reports_in(fields, parts["slot"], faults, max_value) if has_reports else []
    if parts["form"] != ALL_FROM:
        faults.add("BadWireType" if parts["form"] is None else "OutOfRange")
    if faults:
        raise Faults(*faults)
    return {name: parts[name] for name in RANGED_MESSAGE.values()} | {"reports": reports}


def text_of(parts):
    """The one encoding of a message of either form: fields in order of their numbers, and none that are 0 or empty."""
    if "form" not in parts:
        return encoding(MESSAGE, parts)
    return encoding(RANGED_MESSAGE, parts) + b"".join(bytes_field(REPORTS, encoding(REPORT, it)) for it in parts["reports"])


def ballot_in(parts):
    return parts["round"], parts["node"]


def said_of(parts):
    """The message that has these parts."""
    what, ballot = KINDS[parts["kind"]], ballot_in(parts)
    head, second = (parts["sender"], parts["slot"]), (parts.get("second round"), parts.get("second node"))
    if "form" in parts:
        reports = [(it["slot"], ballot_in(it), it["value"]) for it in parts["reports"]]
        return message(*head, f"{what}From", ballot, reports=reports)
    report = (second, parts["value"]) if what == "Promise" and second[0] else None
    value = parts["value"] if what in ("Accept", "Accepted", "Decided") else b""
    return message(*head, what, None if what in ("Ask", "Decided") else ballot, value, report, second if what == "Nack" else None)


def with_ballot(ballot, names):
    """The ballot under these names of its parts: none is a round of 0."""
    return dict(zip(names, ballot or NO_BALLOT))


def parts_in(said):
    """The parts of a message."""
    what = FROM.get(said["what"], said["what"])
    parts = {"kind": KINDS.index(what), "sender": said["sender"], "slot": said["slot"]} | with_ballot(said["ballot"], FIRST)
    if said["what"] in FROM:
        reports = [{"slot": slot, "value": value} | with_ballot(ballot, FIRST) for slot, ballot, value in said["reports"]]
        return parts | {"form": ALL_FROM, "reports": reports}
    second, value = said["report"] or (said["promised"], said["value"])
    return parts | {"value": value} | with_ballot(second, SECOND)


def shown_message(parts):
    """A message of either form as its line."""
    if "form" not in parts:
        return line_of(parts)
    words = [f"node {parts['sender']} slot {parts['slot']} {KINDS[parts['kind']]}From {shown_ballot(ballot_in(parts))}"]
    return " ".join(words + [f"accepted {it['slot']} {shown_ballot(ballot_in(it))} {shown_value(it['value'])}" for it in parts["reports"]])


# ---- lawful histories: what a message says of each slot, by the six clauses of paxos_model.py


def says(said, slot):
    """What a message says of a slot, as a message of that slot alone, or None. A message about all slots from one on says of each of them
    what its first form would, with the report of that slot if it has one."""
    what = said["what"]
    if what in FROM and slot >= said["slot"]:
        report = next(((ballot, value) for at, ballot, value in said["reports"] if at == slot), None)
        return said | {"slot": slot, "what": FROM[what], "report": report, "reports": []}
    return said if slot == said["slot"] and what not in ("Nack", "Ask") else None


def slots_told(messages):
    """Slots that stand for all: those that a message names, and if some message is about all slots from one on, also the slot after each.
    Of any other slot above a named one the messages say what they say of the slot after the nearest named one below it."""
    slots = {it["slot"] for it in messages} | {slot for it in messages if it["what"] in FROM for slot, _, _ in it["reports"]}
    if any(it["what"] in FROM for it in messages):
        slots |= {slot + 1 for slot in slots if slot < MAX_SLOT}
    return sorted(slots)


def place_of_breach(members, sent, slot):
    """The place of the first message that may not follow those before it, by what they say of a slot, or None."""
    before = []
    for place, said in enumerate(says(it, slot) for it in sent):
        if said and not may_follow(members, before, said):
            return place
        before += [said] if said else []
    return None


def first_breach(members, sent):
    """The place of the first message that may not follow those before it, and the lowest slot of which that is so; None if all may."""
    found = [(place_of_breach(members, sent, slot), slot) for slot in slots_told(sent)]
    return min((it for it in found if it[0] is not None), default=None)


def may_come(members, sent, said):
    """Whether a message may follow these, by what they say of each slot."""
    for slot in slots_told([*sent, said]):
        before, last = [says(it, slot) for it in sent], says(said, slot)
        if last and not may_follow(members, [it for it in before if it], last):
            return False
    return True


# ---- acceptors (Lamport, "Paxos Made Simple", sections 2.2 and 3), and what their records leave (section 2.5)


class Acceptor:
    """An acceptor, by all records that it kept, in their order."""

    def __init__(self, me, records):
        self.me, self.records = me, [it for it in records if it["what"] != "began"]

    @staticmethod
    def binds(record, slot):
        """Whether a record is a promise or an acceptance of this slot."""
        return record["slot"] <= slot if record["what"] == "promised-from" else record["slot"] == slot

    def promised(self, slot):
        """The highest ballot that the slot promised or accepted at."""
        return max((it["ballot"] for it in self.records if self.binds(it, slot)), default=NO_BALLOT)

    def slots_from(self, first):
        """Slots that stand for all from the first one on: itself, those that records name, and the last one, which each promise of all
        slots from one on binds."""
        return sorted({first, MAX_SLOT, *(it["slot"] for it in self.records if it["slot"] > first)})

    def promised_from(self, first):
        """The highest ballot that any slot from the first one on promised or accepted at."""
        return max(self.promised(slot) for slot in self.slots_from(first))

    def accepted(self, slot):
        """The acceptance at the highest ballot, the last one if there are several."""
        found = [it for it in self.records if it["what"] == "accepted" and it["slot"] == slot]
        best = [it for it in found if it["ballot"] == max(other["ballot"] for other in found)]
        return (best[-1]["ballot"], best[-1]["value"]) if best else None

    def accepted_from(self, first):
        """What each slot from the first one on accepted, by rising slots."""
        return [(slot, *self.accepted(slot)) for slot in self.slots_from(first) if self.accepted(slot)]

    def reply(self, said):
        """The record, if any, and the message that a Prepare of either form or an Accept leads to."""
        what, slot, ballot = said["what"], said["slot"], said["ballot"]
        highest = self.promised_from(slot) if what == "PrepareFrom" else self.promised(slot)
        if ballot < highest or (ballot == highest and what != "Accept"):
            return None, message(self.me, slot, "Nack", ballot, promised=highest)
        if what == "Accept":
            kept = {"what": "accepted", "slot": slot, "ballot": ballot, "value": said["value"]}
            return kept, message(self.me, slot, "Accepted", ballot, said["value"])
        if what == "Prepare":
            return {"what": "promised", "slot": slot, "ballot": ballot}, message(self.me, slot, "Promise", ballot, report=self.accepted(slot))
        kept = {"what": "promised-from", "slot": slot, "ballot": ballot}
        return kept, message(self.me, slot, "PromiseFrom", ballot, reports=self.accepted_from(slot))


# ---- proposers (sections 2.2, 2.5 and 3)


def reports_of(promise):
    """What a Promise of either form reports, as triples of a slot, a ballot and a value."""
    if promise["what"] == "PromiseFrom":
        return promise["reports"]
    return [(promise["slot"], *promise["report"])] if promise["report"] else []


class Attempt:
    """An attempt of a proposer, by all calls since it was begun: messages that came, and the times that it went on to a further slot."""

    def __init__(self, members, begun, since):
        self.members, self.since = members, since
        self.slot, self.ballot, self.value, self.is_ranged = (begun[it] for it in ("slot", "ballot", "value", "ranged"))

    @classmethod
    def after(cls, members, calls):
        """The attempt that is open after these calls of a proposer: the last one that was begun, unless a refusal has ended it."""
        begun = [place for place, it in enumerate(calls) if it["what"] == "begin"]
        found = cls(members, calls[begun[-1]], calls[begun[-1] + 1 :]) if begun else None
        return None if found is None or any(map(found.ends_by, found.since)) else found

    def ends_by(self, call):
        """Whether this is a refusal of the attempt. One of all slots from a first one on is refused at any of them."""
        is_its_slot = call["what"] == "Nack" and (call["slot"] >= self.slot if self.is_ranged else call["slot"] == self.slot)
        return is_its_slot and call["ballot"] == self.ballot

    def counts(self, call):
        """Whether this is a promise of the attempt, by a member, in the form in which it asked for one."""
        form = "PromiseFrom" if self.is_ranged else "Promise"
        return call["what"] == form and (call["slot"], call["ballot"]) == (self.slot, self.ballot) and call["sender"] < self.members

    def promises(self):
        """The first promise of each sender, also those that came after the majority."""
        counted = {}
        for it in filter(self.counts, self.since):
            counted.setdefault(it["sender"], it)
        return list(counted.values())

    def has_majority(self):
        return is_majority(self.members, {it["sender"] for it in self.promises()})

    def next(self):
        """The slot to which an attempt with a majority goes on."""
        return self.slot + 1 + sum(it["what"] == "go on" for it in self.since)

    def has_report_from(self, first):
        """Whether a promise reports something of this slot or of one above it."""
        return any(slot >= first for it in self.promises() for slot, _, _ in reports_of(it))

    def accept(self, me, slot, candidate):
        """The Accept for a slot: for the value of its highest report, the first one that came if ballots are equal, or the candidate."""
        reports = [(ballot, value) for it in self.promises() for at, ballot, value in reports_of(it) if at == slot]
        highest = max((ballot for ballot, _ in reports), default=None)
        value = next((value for ballot, value in reports if ballot == highest), candidate)
        return message(me, slot, "Accept", self.ballot, value)

    def go_on(self, me, candidate):
        """The Accept for the next slot, or None if the attempt may not go on or there is no such slot."""
        is_leading = self.is_ranged and self.has_majority() and self.next() <= MAX_SLOT
        return self.accept(me, self.next(), candidate) if is_leading else None
