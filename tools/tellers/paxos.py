"""The teller of the stories of the parts of a Paxos node, of its messages and records, and of lawful histories."""
import json

from paxos_model import KEPT, KINDS, MESSAGE, RECORD, encoding, shown_value
from repeated import tell_each

KIND_OF = {name: kind for kind, name in enumerate(KINDS)}
REFUSED = "ForetoldOtherwise"


def ballot_of(line):
    round_, node = line.split(".")
    return int(round_), int(node)


def value_of(word):
    return b"" if word == "noop" else bytes.fromhex(word)


def message(kind, sender=0, slot=0, ballot=None, second=None, value="noop"):
    """A message as a word of a request: its encoding."""
    parts = {"kind": KIND_OF[kind], "sender": int(sender), "slot": int(slot), "value": value_of(value)}
    if ballot:
        parts["round"], parts["node"] = ballot_of(ballot)
    if second:
        parts["second round"], parts["second node"] = ballot_of(second)
    return encoding(MESSAGE, parts).hex()


def record(kind, *words):
    """A record from its words, as in `accepted 5 2.1 616263`, as a word of a request: its encoding."""
    slot, ballot, value = {"began": ["0", *words, "noop"], "accepted": words}.get(kind, [*words, "noop"])
    round_, node = ballot_of(ballot)
    parts = {"kind": KEPT.index(kind), "slot": int(slot), "round": round_, "node": node, "value": value_of(value)}
    return encoding(RECORD, parts).hex()


def message_of(line):
    """The message of a line, as in `node 1 slot 5 Accept 2.1 616263`."""
    _, sender, _, slot, kind, *rest = line.split(" ")
    if kind == "Ask":
        return message(kind, sender, slot)
    if kind == "Decided":
        return message(kind, sender, slot, value=rest[0])
    ballot, *behind = rest
    if kind in ("Accept", "Accepted"):
        return message(kind, sender, slot, ballot, value=behind[0])
    # A Nack goes on with `promised 2.1`, and a Promise with `accepted 1.0 616263`, or not.
    second = behind[1] if behind else None
    return message(kind, sender, slot, ballot, second, behind[2] if len(behind) > 2 else "noop")


def text(line):
    """A line as a word of a request: its bytes."""
    return line.encode().hex() or "-"


def line_in(word):
    return bytes.fromhex(word).decode()


def shown_word(word):
    """The value whose bytes are in a word of an answer, as stories show it."""
    return shown_value(b"" if word == "-" else bytes.fromhex(word))


def is_fault(answer):
    """Whether this is the name of a fault. An answer without a fault has several words."""
    return " " not in answer


def reply_line(answer):
    kind, *rest = answer.split(" ")
    if kind == "Nack":
        return f"refuses, since it promised {rest[0]}"
    if kind == "Promise":
        return f"promises, and has accepted {accepted_line(' '.join(rest))}"
    return "accepts" if kind == "Granted" else answer


def reply_from_line(answer, first):
    """The answer to a Prepare of all slots from a first one on."""
    kind, *rest = answer.split(" ")
    if kind != "PromiseFrom":
        return reply_line(answer)
    reports = [f"{accepted_line(f'{ballot} {value}')} in slot {slot}" for slot, ballot, value in zip(rest[::3], rest[1::3], rest[2::3])]
    return f"promises all slots from {first} on, and has accepted {', '.join(reports) or 'nothing'}"


def accepted_line(answer):
    if not answer:
        return "nothing"
    ballot, value = answer.split(" ")
    return f"{shown_word(value)} at {ballot}"


def accept_line(answer):
    if answer == REFUSED or not answer:
        return answer or "nothing"
    slot, ballot, value = answer.split(" ")
    return f"asks to accept {shown_word(value)} for {slot} at {ballot}"


def attempt_line(answer):
    if not answer:
        return "none"
    slot, ballot, has_majority = answer.split(" ")
    return f"for {slot} at {ballot}, {'has' if has_majority == 'yes' else 'lacks'} its majority"


def next_line(answer):
    if not answer or answer == REFUSED:
        return answer or "none"
    slot, is_reported = answer.split(" ")
    return f"{slot}, and {'something' if is_reported == 'yes' else 'nothing'} is reported from there on"


def reported(words):
    """What is reported of slots, as in `6 1.0 616263 8 2.1 noop`, as words of a request: how many, and each as an Accepted."""
    reports = [message("Accepted", 0, slot, ballot, value=value) for slot, ballot, value in zip(*[iter(words)] * 3)]
    return " ".join([str(len(reports)), *reports])


def reported_each(slots, ballot, value):
    """The same of many slots at one ballot, as in `6-4000:2`, whose step is behind the last slot."""
    ends, step = slots.split(":")
    first, last = map(int, ends.split("-"))
    return reported([word for slot in range(first, last + 1, int(step)) for word in (str(slot), ballot, value)])


def begun_line(answer):
    return f"begins {answer}" if "." in answer else answer


def grown_line(answer):
    count, *gained = answer.split(" ")
    return f"grows by {' '.join(map(shown_word, gained)) or 'nothing'}, to {count}"


def record_line(answer):
    """A record as its words: a value is last, after a slot and a ballot."""
    words = answer.split(" ")
    return " ".join([*words[:3], *map(shown_word, words[3:])])


def acceptor(call, slot, ballot=None, value="noop"):
    """The request for a call of the acceptor, and a function that makes the line of its answer."""
    if call == "promised":
        return f"acceptor promised {message('Ask', slot=slot)}", lambda answer: answer or "nothing"
    if call == "accepted":
        return f"acceptor accepted {message('Ask', slot=slot)}", accepted_line
    if call == "prepare-from":
        return f"acceptor hand-from {message('Prepare', 0, slot, ballot)}", lambda answer: reply_from_line(answer, slot)
    if call == "would-promise-from":
        return f"acceptor would-promise-from {message('Prepare', 0, slot, ballot)}", str
    kind = "Prepare" if call in ("prepare", "would-promise") else "Accept"
    handed = message(kind, 0, slot, ballot, value=value)
    return (f"acceptor would-grant {handed}", str) if call.startswith("would") else (f"acceptor hand {handed}", reply_line)


def proposer(call, *rest):
    if call == "attempt":
        return "proposer attempt", attempt_line
    if call in ("begin", "begin-from"):
        slot, seen, candidate = rest
        return f"proposer {call} {seen} {message('Decided', slot=slot, value=candidate)}", begun_line
    if call == "next":
        return "proposer next", next_line
    if call == "go-on":
        return f"proposer go-on {message('Decided', value=rest[0])}", accept_line
    if call == "promise-from":
        sender, slot, ballot, *words = rest
        told = reported_each(*words[1:]) if words[:1] == ["each"] else reported(words)
        return f"proposer hand-from {message('Promise', sender, slot, ballot)} {told}", accept_line
    if call == "nack":
        slot, ballot = rest
        return f"proposer hand {message('Nack', 0, slot, ballot, ballot)}", attempt_line
    sender, slot, ballot, *report = rest
    return f"proposer hand {message('Promise', sender, slot, ballot, *report)}", accept_line


def learner(call, *rest):
    if call == "knows":
        return f"learner knows {message('Ask', slot=rest[0])}", lambda answer: shown_word(answer) if answer else "nothing"
    if call == "accepted":
        sender, slot, ballot, value = rest
        handed = message("Accepted", sender, slot, ballot, value=value)
    else:
        slot, value = rest
        handed = message("Decided", slot=slot, value=value)
    return f"learner hand {handed}", lambda answer: f"learns {shown_word(answer) if answer else 'nothing'}"


def log(call, slot, value=None):
    if call == "asked":
        return f"log asked {message('Ask', slot=slot)}", lambda answer: f"tells {answer}"
    if call == "holds":
        return f"log holds {message('Ask', slot=slot)}", lambda answer: shown_word(answer) if answer else "nothing"
    return f"log insert {message('Decided', slot=slot, value=value)}", grown_line


def history(call):
    return f"history {call}", str


RULES = {
    "Promise": ("not above", "unreported", "report not below", "report not proposed"),
    "Accept": ("second value", "not promised", "not reported"),
    "Accepted": ("not proposed", "below"),
    "Decided": (),
}


def breach_lines(answer):
    """The first breach: its place, and for each rule for such a message the answer about it."""
    is_lawful, *breach = answer.split(" ")
    if not breach:
        return ["none" if is_lawful == "yes" else answer]
    place, slot, kind, *told = breach
    if is_lawful != "no":
        return [answer]
    article = "a" if kind in ("Promise", "Decided") else "an"
    return [f"message {place} of slot {slot}, {article} {kind}", *(f"{rule}: {it}" for rule, it in zip(RULES[kind], told))]


def audit_of(answer):
    """The status of an audit, its output, and its lines about a fault."""
    status, *texts = answer.split(" ")
    return status, *("" if it == "-" else line_in(it) for it in texts)


PARTS = {"acceptor": acceptor, "proposer": proposer, "learner": learner, "log": log, "history": history}


class Teller:
    """The teller of a story, with what the story has set up."""

    def __init__(self):
        self.records, self.members, self.said = [], 1, []

    def tell(self, command):
        name, _, rest = command.partition(" ")
        if name in ("ballot", "value", "message", "encode"):
            return self.tell_line(name, rest)
        if name == "long-value":
            return self.tell_long_value(int(rest))
        if name in ("decode", "decode-record"):
            return self.tell_bytes(name, rest.replace(" ", ""))
        if name == "one-of":
            return self.tell_one_of(*rest.split(": "))
        if name in ("say", "add"):
            return self.tell_said(name, message_of(rest))
        if name == "if":
            return self.tell_asked(f"history if {message_of(rest)}", str)
        if name == "audited":
            return self.tell_audited(rest or "-")
        if name in ("file", "file-bytes"):
            return self.tell_file(rest if name == "file-bytes" else text(rest))
        if name in ("line", "long-line"):
            handed = message_of(rest) if name == "line" else message("Decided", value="05" * (int(rest) - 1) + "09")
            return self.tell_asked(f"line {handed}", line_in)
        if command == "history explain":
            return self.tell_explained()
        if command == "history breach":
            return self.tell_breach()
        if name == "each":
            return tell_each(self, rest)
        words = rest.split(" ")
        if name == "new":
            return self.tell_new(*words)
        if name == "encode-record":
            return self.tell_kept(*words)
        if name == "record":
            return self.put_aside(record(*words))
        if words[0] == "take":
            return self.tell_nothing(f"acceptor take {record(*words[1:])}")
        if words[0] in ("noops", "grow"):
            return self.tell_grown(*words)
        return self.tell_asked(*PARTS[name](*words))

    def tell_asked(self, request, line_of):
        (answer,) = yield [request]
        return [line_of(answer)]

    def tell_nothing(self, request):
        """A request whose answer is empty."""
        (answer,) = yield [request]
        return [answer] if answer else []

    def put_aside(self, kept):
        """Keeps a record for the next acceptor."""
        self.records.append(kept)
        yield []
        return []

    def tell_new(self, part, *words):
        """Makes a part: an acceptor from records, with those that were kept for it first, and the others from numbers."""
        if part == "history":
            self.members, self.said = int(words[0]), []
        if part == "acceptor":
            words, self.records = [*self.records, *words], []
            words.insert(0, str(len(words)))
        return self.tell_nothing(" ".join([part, "new", *words]))

    def tell_said(self, name, said):
        """Adds a message, and asks whether the history is lawful with it, unless it is only added."""
        self.said.append(said)
        answers = yield [f"history say {said}", "history audit"][: 2 if name == "say" else 1]
        return [it for it in answers if it]

    def tell_breach(self):
        (answer,) = yield ["history breach"]
        return breach_lines(answer)

    def tell_explained(self):
        """What is printed for the history as a file. The audit without --explain must have the same first line, and the searches
        must agree."""
        file = text(json.dumps({"members": self.members, "sent": self.said}))
        explained, audited, found = yield [f"explain {file}", f"audit {file}", "history breach"]
        status, printed, said = audit_of(explained)
        judged = audit_of(audited)
        verdict = "lawful" if breach_lines(found) == ["none"] else "unlawful"
        if (status, f"{verdict}\n", said) != judged or said or not printed.startswith(judged[1]):
            return [f"told otherwise: {explained}, {audited}, {found}"]
        return printed.splitlines()

    def tell_file(self, file):
        """What is reported for a file that is no run, with --explain and without."""
        explained, audited = yield [f"explain {file}", f"audit {file}"]
        status, printed, said = audit_of(explained)
        if status != "1" or printed or audit_of(audited) != ("1", "", said):
            return [f"told otherwise: {explained}, {audited}"]
        return said.splitlines()

    def tell_audited(self, file):
        """What is printed and reported for the bytes of a file. The audit without --explain must have the same first line."""
        explained, audited = yield [f"explain {file}", f"audit {file}"]
        status, printed, said = audit_of(explained)
        if audit_of(audited) != (status, "".join(printed.splitlines(keepends=True)[:1]), said):
            return [f"told otherwise: {explained}, {audited}"]
        return [*printed.splitlines(), *said.splitlines()]

    def tell_line(self, name, line):
        """What a line means, if it can be read; it must then be written again as the same line."""
        (answer,) = yield [f"{'message' if name == 'encode' else name} {text(line)}"]
        if is_fault(answer):
            return [answer]
        *said, written = answer.split(" ")
        if line_in(written) != line:
            return [f"WrittenOtherwise: {line_in(written)}"]
        if name == "ballot":
            return [f"round {said[0]}, node {said[1]}"]
        if name == "value":
            return ["a no-op" if said[0] == "-" else f"bytes {' '.join(map(str, bytes.fromhex(said[0])))}"]
        return [said[0] if name == "encode" else line_in(written)]

    def tell_long_value(self, length):
        """Whether the digits of this many bytes, of which neighbours differ, are read right, and written again."""
        digits = bytes(place % 251 for place in range(length)).hex()
        (answer,) = yield [f"value {text(digits)}"]
        said, written = answer.split(" ")
        is_written = line_in(written) == digits
        return ["read" if said == digits else "read otherwise", "written again" if is_written else "written otherwise"]

    def tell_bytes(self, name, digits):
        (answer,) = yield [f"{name} {digits or '-'}"]
        if is_fault(answer):
            return [answer]
        return [record_line(answer) if name == "decode-record" else line_in(answer.split(" ")[1])]

    def tell_one_of(self, faults, call):
        """Whether one of these faults is reported, else the answer."""
        name, _, digits = call.partition(" ")
        (answer,) = yield [f"{name} {digits.replace(' ', '') or '-'}"]
        if not is_fault(answer):
            return ["no fault"]
        return ["one of them" if answer in faults.split(" ") else answer]

    def tell_kept(self, kind, *words):
        """The encoding of a record, requested with a message that has its slot, its ballot and its value."""
        if kind == "began":
            handed = message("Prepare", ballot=words[0])
        elif kind in ("promised", "promised-from"):
            handed = message("Prepare", 0, *words)
        else:
            slot, ballot, value = words
            handed = message("Accept", 0, slot, ballot, value=value)
        (answer,) = yield [f"keep-{kind} {handed}"]
        return [answer]

    def tell_grown(self, call, first, last):
        """By how many values a log grows: with a no-op for each of these slots, or with one value for one slot."""
        slots = range(int(first), int(last) + 1) if call == "noops" else [first]
        value = "noop" if call == "noops" else last
        answers = yield [f"log insert {message('Decided', slot=slot, value=value)}" for slot in slots]
        grown = [answer.count(" ") for answer in answers]
        place = "" if call == "grow" else " at each" if len(set(grown)) == 1 else " at the first"
        return [f"grows by {grown[0]}{place}, to {answers[-1].split(' ')[0]}"]
