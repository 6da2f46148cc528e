"""The rows of tools/ranged/ by the models: what each command of a story of ranged promises gives, and the stories of short runs.

The commands are those of the stories in crates/paxos_stories/data. Besides, `acceptor prepare-from` has a first slot and a ballot;
`proposer begin-from` opens an attempt at all slots from one on, `promise-from` has behind the ballot, for each report, `accepted` with a
slot, a ballot and a value, and `go-on` has the candidate for the next slot; the reports of a PromiseFrom in a line are likewise."""
import itertools
import random

from files_model import explained
from paxos_model import BALLOTS, KEPT, MAX_ROUND, MAX_SLOT, cuts, decoded, record_parts, record_text, shown_ballot, shown_value, told_record
from ranged_model import ALL_FROM, FROM, PREPARE, PROMISE, Acceptor, Attempt, ballot_in, first_breach, may_come
from ranged_model import message, message_parts, parts_in, said_of, shown_message, text_of
from tellers.paxos import ballot_of, message_of, value_of
from wire_model import bytes_field, file_of, number_field, rows, varint


# ---- messages and records in lines


def reports_in(words):
    """The reports in words such as `accepted 3 2.1 noop`, one after another."""
    return [(int(slot), ballot_of(ballot), value_of(value)) for slot, ballot, value in zip(words[1::4], words[2::4], words[3::4])]


def said_in(line):
    """The message of a line."""
    _, sender, _, slot, what, *rest = line.split(" ")
    if what in FROM:
        return message(int(sender), int(slot), what, ballot_of(rest[0]), reports=reports_in(rest[1:]))
    return said_of(message_parts(bytes.fromhex(message_of(line))))


def line_in(said):
    return shown_message(parts_in(said))


def record_in(text):
    """The record that a text encodes, as acceptors keep it."""
    parts = record_parts(text)
    return {"what": KEPT[parts["kind"]], "slot": parts["slot"], "ballot": ballot_in(parts), "value": parts["value"]}


# ---- what each command gives


def accepted_line(acceptance):
    return f"{shown_value(acceptance[1])} at {shown_ballot(acceptance[0])}" if acceptance else "nothing"


def reply_line(answer):
    """What an acceptor answers, as a line."""
    if answer["what"] == "Nack":
        return f"refuses, since it promised {shown_ballot(answer['promised'])}"
    if answer["what"] == "Accepted":
        return "accepts"
    if answer["what"] == "Promise":
        return f"promises, and has accepted {accepted_line(answer['report'])}"
    reports = [f"{accepted_line(it[1:])} in slot {it[0]}" for it in answer["reports"]]
    return f"promises all slots from {answer['slot']} on, and has accepted {', '.join(reports) or 'nothing'}"


def asked_line(accept):
    return f"asks to accept {shown_value(accept['value'])} for {accept['slot']} at {shown_ballot(accept['ballot'])}" if accept else "nothing"


def attempt_line(found):
    """Which attempt is open, as a line."""
    if found is None:
        return "none"
    line = f"for {found.slot}{' and all behind it' if found.is_ranged else ''} at {shown_ballot(found.ballot)}"
    if not found.has_majority():
        return f"{line}, lacks its majority"
    return f"{line}, has its majority{f', {found.next()} is next' if found.is_ranged else ''}"


class AnAcceptor:
    """An acceptor that has these records back."""

    requests = {"prepare": "Prepare", "prepare-from": "PrepareFrom", "accept": "Accept"}

    def __init__(self, *texts):
        self.kept = [record_in(bytes.fromhex(it)) for it in texts]

    def tell(self, call, slot, ballot="", value="noop"):
        acceptor, slot = Acceptor(0, self.kept), int(slot)
        if call == "promised":
            return shown_ballot(acceptor.promised(slot)) if any(acceptor.promised(slot)) else "nothing"
        if call == "accepted":
            return accepted_line(acceptor.accepted(slot))
        record, answer = acceptor.reply(message(0, slot, self.requests[call], ballot_of(ballot), value_of(value)))
        self.kept += [record] if record else []
        return reply_line(answer)


class AProposer:
    """A proposer, with its node, the number of members and the highest round that it has begun."""

    def __init__(self, me, members, begun):
        self.me, self.members, self.begun, self.calls = int(me), int(members), int(begun), []

    def attempt(self):
        return Attempt.after(self.members, self.calls)

    def tell(self, call, *words):
        if call in ("begin", "begin-from"):
            return self.begin(call == "begin-from", *words)
        if call == "attempt":
            return attempt_line(self.attempt())
        if call == "go-on":
            return self.go_on(value_of(*words))
        if call == "nack":
            return self.nack(*words)
        return self.come({"promise": "Promise", "promise-from": "PromiseFrom"}[call], *words)

    def begin(self, is_ranged, slot, seen, candidate):
        if max(self.begun, int(seen)) >= MAX_ROUND:
            return "RoundsSpent"
        self.begun = max(self.begun, int(seen)) + 1
        call = {"what": "begin", "slot": int(slot), "ballot": (self.begun, self.me), "value": value_of(candidate), "ranged": is_ranged}
        self.calls.append(call)
        return f"begins {shown_ballot(call['ballot'])}"

    def go_on(self, candidate):
        found = self.attempt()
        accept = found and found.go_on(self.me, candidate)
        self.calls += [{"what": "go on"}] if accept else []
        return asked_line(accept)

    def nack(self, slot, ballot):
        self.calls.append(message(0, int(slot), "Nack", ballot_of(ballot), promised=ballot_of(ballot)))
        return attempt_line(self.attempt())

    def come(self, form, sender, slot, ballot, *rest):
        """A promise of either form, and the Accept if it completes the majority."""
        head, before = (int(sender), int(slot), form, ballot_of(ballot)), self.attempt()
        report = (ballot_of(rest[0]), value_of(rest[1])) if rest and form == "Promise" else None
        self.calls.append(message(*head, report=report, reports=reports_in(rest) if form == "PromiseFrom" else ()))
        after = self.attempt()
        is_first = after and after.has_majority() and not before.has_majority()
        return asked_line(after.accept(self.me, after.slot, after.value) if is_first else None)


class AHistory:
    """A history of so many members: `say` and `add` add a message, and `if` does not; `history explain` tells the first breach."""

    def __init__(self, members):
        self.members, self.sent = int(members), []

    def judged(self, said):
        return "lawful" if may_come(self.members, self.sent, said) else "unlawful"

    def explain(self):
        breach = first_breach(self.members, self.sent)
        sent = [it | {"parts": parts_in(it)} for it in self.sent]
        return ["lawful"] if breach is None else ["unlawful", *explained(self.members, sent, *breach)]

    def tell(self, word, line):
        if word == "history":
            return self.explain()
        said = said_in(line)
        judged = [] if word == "add" else [self.judged(said)]
        self.sent += [] if word == "if" else [said]
        return judged


class Story:
    """What stands after the commands so far."""

    subjects = {"acceptor": AnAcceptor, "proposer": AProposer, "history": AHistory}

    def __init__(self):
        self.found = {}

    def tell(self, command):
        """The lines of the result of a command."""
        word, _, rest = command.partition(" ")
        if word == "new":
            what, *words = rest.split(" ")
            self.found[what] = self.subjects[what](*words)
            return []
        if word in ("acceptor", "proposer"):
            return [self.found[word].tell(*rest.split(" "))]
        return self.found["history"].tell(word, rest)

    def told(self, commands):
        """Each command with its result under it."""
        return [line for command in commands for line in (command, *(f"  {it}" for it in self.tell(command)))]


def retold(text):
    """A story with the results of its commands as they are by the models."""
    lines, story = [], Story()
    for line in text.splitlines():
        if not line.startswith("  "):
            lines += story.told([line]) if line and not line.startswith("#") else [line]
    return "\n".join(lines) + "\n"


# ---- messages and records as bytes

EDGES = list(itertools.product((0, 127, 128, MAX_SLOT), ((1, 0), (127, 6), (128, 1), (MAX_ROUND, 6)), (0, 6)))
REPORTED = ([], [(0, (1, 0), b"")], [(5, (1, 6), b"abc"), (6, (MAX_ROUND, 0), b"")])


def reported(slot, round_, *fields):
    """A field that reports: a slot, a round, and other fields."""
    return bytes_field(10, number_field(1, slot) * (slot > 0) + number_field(2, round_) + b"".join(fields))


# Fields behind the beginning of a message of slot 1: forms, and reports in range and not, in order and not, and of other wire types.
IN_RANGED = [number_field(4, it) for it in (0, 1, 2, 2**32 + 1)] + [bytes_field(4, b""), varint(4 << 3 | 5) + b"\1\0\0\0"]
IN_RANGED += [reported(*it) for it in ((0, 1), (1, 1), (2, 1), (999_999, 1), (1_000_000, 1), (2, 0), (2, 4_000_000_000), (2, 4_000_000_001))]
IN_RANGED += [reported(3, 1, number_field(3, 6)), reported(3, 1, number_field(3, 7)), reported(3, 1, bytes_field(4, b"abc"))]
IN_RANGED += [reported(3, 1, number_field(4, 1)), reported(3, 1, number_field(1, 1)), reported(3, 1, number_field(5, 1)), reported(3, 1, b"\x22\2a")]
IN_RANGED += [number_field(3, 2), bytes_field(10, b""), number_field(10, 1), number_field(7, 0), number_field(7, 1), bytes_field(7, b""), bytes_field(9, b"a")]
KINDS_AND_FORMS = ((PREPARE, 0), (PROMISE, 0), (4, ALL_FROM), (7, ALL_FROM), (PREPARE, ALL_FROM), (PROMISE, ALL_FROM))
BEGUN = [[(1, kind), (3, 1), (4, form), (5, 1)] for kind, form in KINDS_AND_FORMS]
IN_RANGED_RECORDS = [number_field(*it) for it in ((2, 0), (2, 999_999), (2, 1_000_000), (3, 0), (3, 1), (3, 4_000_000_001), (4, 6), (4, 7), (5, 0))]
IN_RANGED_RECORDS += [bytes_field(*it) for it in ((1, b"\4"), (2, b""), (5, b"a"))]


def messages():
    """A message of the second form of each kind and sender, with numbers at their limits."""
    for slot, ballot, sender in EDGES:
        yield message(sender, slot, "PrepareFrom", ballot)
        for reports in REPORTED:
            in_range = [(slot + more, *it) for more, *it in reports if slot + more <= MAX_SLOT]
            yield message(sender, slot, "PromiseFrom", ballot, reports=in_range)


def encoded():
    lines = []
    for said in messages():
        text, line = text_of(parts_in(said)), line_in(said)
        lines += [f"encode {line}", f"  {text.hex()}", f"decode {text.hex()}", f"  {line}"]
    return lines


def kept():
    lines = []
    for slot, ballot, _ in EDGES[::2]:
        text, line = record_text("promised-from", slot, ballot, b""), f"promised-from {slot} {shown_ballot(ballot)}"
        lines += [f"encode-record {line}", f"  {text.hex()}", f"decode-record {text.hex()}", f"  {line}"]
    return lines


def told_message(text):
    return [shown_message(message_parts(text))]


def meanings():
    begun = [b"".join(number_field(*it) for it in fields) for fields in BEGUN]
    cut = text_of(parts_in(message(2, 1, "PromiseFrom", (3, 2), reports=[(1, (1, 0), b""), (3, (2, 1), b"abc")])))
    begun_record = b"".join(number_field(*it) for it in ((1, KEPT.index("promised-from")), (3, 1)))
    return file_of(
        "What bytes mean where promises of all slots from a first one on are known, as tools/ranged.py says. Where several faults stand, a\n"
        "# reader may tell any of them: `one-of` names them, before the command.",
        ("Messages of the second form, with numbers at the edges of what they may be.", encoded()),
        ("Fields behind beginnings of a message of slot 1.", decoded("decode", told_message, begun, IN_RANGED, 2)),
        ("Each beginning of a Promise with two reports.", cuts("decode", told_message, cut)),
        ("Records of such a promise, likewise.", kept()),
        ("Fields behind the beginning of such a record.", decoded("decode-record", told_record, [begun_record], IN_RANGED_RECORDS, 1)),
        ("Another kind of record.", rows("decode-record", told_record, [number_field(1, 5) + number_field(3, 1)])),
    )


# ---- calls


def requested():
    """All pairs of requests for two slots at two ballots, each pair to a new acceptor, and then what it promised and accepted."""
    choices = list(itertools.product(("prepare", "prepare-from", "accept"), (0, 1), ("1.0", "2.0")))
    for pair in itertools.product(choices, repeat=2):
        yield "new acceptor"
        for place, (call, slot, ballot) in enumerate(pair, 1):
            yield f"acceptor {call} {slot} {ballot}{f' 0{place}' if call == 'accept' else ''}"
        yield from ("acceptor promised 1", "acceptor promised 999999", "acceptor prepare-from 0 3.0")


def restored():
    """All pairs of records of two slots at two ballots, and then what an acceptor that has them back promised and accepted."""
    choices = list(itertools.product(KEPT[2:], (0, 1), ((1, 0), (2, 0))))
    for pair in itertools.product(choices, repeat=2):
        texts = [record_text(*it, bytes([place]) if it[0] == "accepted" else b"").hex() for place, it in enumerate(pair, 1)]
        yield f"new acceptor {' '.join(texts)}"
        yield from (f"acceptor promised {it}" for it in (0, 1, 999_999))
        yield "acceptor prepare-from 0 3.0"


def drawn_requests(draw, count):
    """Runs of ten requests for slots at both ends, each run to a new acceptor."""
    for _ in range(count):
        yield "new acceptor"
        for place in range(10):
            call, slot = draw.choice(("prepare", "prepare-from", "accept", "accept")), draw.choice((0, 1, 2, 3, 999_998, 999_999))
            ballot = f"{draw.randint(1, 2 + place // 2)}.{draw.randrange(2)}"
            yield f"acceptor {call} {slot} {ballot}{f' {place:02x}' if call == 'accept' else ''}"


def drawn_call(draw, place):
    """A call of a proposer of three members whose last attempt began at 3.2 for slot 5, or for all slots from there on."""
    value, slot = f"{place + 1:02x}", draw.choice((5, 5, 5, 5, 5, 4, 6))
    reports = [f"accepted {at} {draw.choice(('1.0', '2.0'))} {value}" for at in range(5, 9) if draw.random() < 0.3]
    call = draw.choices(("promise-from", "promise", "go-on", "nack", "attempt"), (6, 1, 4, 0.5, 0.5))[0]
    if call == "promise-from":
        return " ".join([f"promise-from {draw.randrange(4)} {slot} 3.2", *reports])
    if call == "promise":
        return f"promise {draw.randrange(3)} {slot} 3.2{draw.choice(('', ' 1.0 ' + value))}"
    if call == "nack":
        return f"nack {draw.choice((4, 5, 9))} {draw.choice(('1.2', '3.2', '3.2'))}"
    return "attempt" if call == "attempt" else f"go-on {value}"


def drawn_attempts(draw, count):
    """Runs of ten calls of a proposer, which begins an attempt at all slots from one on, or at one."""
    for place in range(count):
        yield from ("new proposer 2 3 0", f"proposer {'begin' if place % 8 == 0 else 'begin-from'} 5 2 noop")
        yield from (f"proposer {drawn_call(draw, it)}" for it in range(10))
        yield "proposer attempt"


def last_slots():
    """An attempt that goes on to the last slot of all, and no further."""
    yield from ("new proposer 0 1 0", "proposer begin-from 999998 0 0a", "proposer go-on 0b")
    yield from ("proposer promise-from 0 999998 1.0 accepted 999999 1.0 0c", "proposer go-on 0d", "proposer go-on 0e", "proposer attempt")


def calls():
    draw = random.Random(12)
    return file_of(
        "What short runs of calls give where promises of all slots from a first one on are known, as tools/ranged.py says.",
        ("Two requests to an acceptor.", Story().told(requested())),
        ("Two records that an acceptor has back.", Story().told(restored())),
        ("Drawn runs of requests.", Story().told(drawn_requests(draw, 60))),
        ("Drawn runs of a proposer.", Story().told(drawn_attempts(draw, 160))),
        ("An attempt at the last two slots.", Story().told(last_slots())),
    )


# ---- histories


def drawn_reports(draw, first):
    return [(slot, draw.choice(BALLOTS), bytes([draw.choice((1, 2))])) for slot in range(first, 3) if draw.random() < 0.3]


def drawn_said(draw, members):
    """A random message of a member or of the node after the last one, about slots 0 to 2; most promises are of all slots from one on."""
    what = draw.choices(("PromiseFrom", "Promise", "Accept", "Accepted", "Decided", "PrepareFrom"), (3, 1, 2, 2, 1, 1))[0]
    sender, slot, ballot, value = draw.randrange(members + 1), draw.randrange(3), draw.choice(BALLOTS), bytes([draw.choice((1, 2))])
    if what == "PromiseFrom":
        return message(sender, slot, what, ballot, reports=drawn_reports(draw, slot))
    if what == "Promise":
        return message(sender, slot, what, ballot, report=(draw.choice(BALLOTS), value) if draw.randrange(2) else None)
    return message(sender, slot, what, None if what == "Decided" else ballot, b"" if what == "PrepareFrom" else value)


def walks(draw, count, steps):
    """Random histories of one to four members: a message that may follow is added, another one is only judged."""
    for members in (1, 2, 3, 4) * count:
        yield f"new history {members}"
        sent = []
        for _ in range(steps):
            said = drawn_said(draw, members)
            may_follow = may_come(members, sent, said)
            yield f"{'say' if may_follow else 'if'} {line_in(said)}"
            sent += [said] if may_follow else []


def followers(members, before, few):
    """A history of these messages, and whether each of a few others may follow it."""
    return [f"new history {members}", *(f"say {it}" for it in before), *(f"if {it}" for it in few)]


FEW = [
    "node 0 slot 0 PromiseFrom 1.0", "node 0 slot 1 PromiseFrom 1.0", "node 0 slot 1 PromiseFrom 2.0", "node 0 slot 1 Promise 1.0",
    "node 0 slot 2 Promise 2.0", "node 0 slot 0 PromiseFrom 2.0 accepted 1 1.0 01", "node 0 slot 0 PromiseFrom 2.0 accepted 2 1.0 01",
    "node 0 slot 0 PromiseFrom 2.0 accepted 1 1.0 01 accepted 2 1.0 01", "node 0 slot 0 Accept 1.0 01", "node 0 slot 1 Accept 1.0 01",
    "node 0 slot 2 Accept 1.0 01", "node 0 slot 1 Accept 2.0 02", "node 0 slot 1 Accepted 1.0 01", "node 0 slot 2 Accepted 1.0 01",
]


def short_histories(members, most):
    """Every lawful history of at most `most` of a few messages, and whether each of them may follow it."""
    level = [[]]
    for _ in range(most + 1):
        longer = []
        for before in level:
            yield from followers(members, before, FEW)
            sent = list(map(said_in, before))
            longer += [[*before, it] for it in FEW if it not in before and may_come(members, sent, said_in(it))]
        level = longer


def histories():
    walked = walks(random.Random(13), 8, 60)
    return file_of(
        "Which messages may follow, where some promise all slots from a first one on, as tools/ranged.py says.",
        ("Every short lawful history of one member.", Story().told(short_histories(1, 2))),
        ("Drawn histories of one to four members, about three slots, also with a node that is no member.", Story().told(walked)),
    )


def made():
    """The files that the models make."""
    return {"every_meaning.txt": meanings(), "every_call.txt": calls(), "every_history.txt": histories()}
