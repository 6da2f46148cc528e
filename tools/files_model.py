"""A model of what `flightd` prints for a file: whether a recorded run is lawful, and if not why; the result of each event of a
schedule; the result of each call of a script; each of a node's records; and the acceptor's answers in a conversation. It is written from
Lamport, "Paxos Made Simple", section 2, from RFC 8259 and from docs/FORMATS.md, and not from the code. Messages and records are those of
paxos_model.py, nodes those of runs_model.py, calls those of calls_model.py. Each function returns the status, the output, and a list of
the texts that standard error may have. With `is_ranged` it reads promises of all slots from a first one on too (ranged_model.py), and with
`is_conditional` the versions that uploads expect (conditional_model.py), both of which the program skips yet."""
import itertools
import json
import re

from calls_model import Service, Unjudged, call_text, descriptor, put_messages
from conditional_model import MOST_EXPECTED
from paxos_model import HEAD, IN_MESSAGE, MESSAGE, is_majority, is_safe, kept_line_of, parts_of, promisers, record_parts, was_proposed
from ranged_model import Acceptor, first_breach, message_parts, parts_in, said_of, says, shown_message, text_of
from runs_model import Run, Upload
from tables_model import MOST_BATCHES, is_table_name, ticket_of, ticket_text, upload_of
from wire_model import INFO, MAX_FRAME_PAYLOAD, BadFrame, Faults, bytes_field, frame, frame_at, meant_inside, values_by_number

MOST_SLOTS, MOST_MEMBERS, MOST_TICK, MOST_LEVELS = 1_000_000, 7, 255, 60


class Flaw(Exception):
    """What is wrong with a file: lines, of which one is on standard error."""

    def __init__(self, *lines):
        super().__init__(*lines)
        self.lines = lines


# ---- JSON


def whole(digits):
    """A number without a point or an exponent: it is whole if it fits in 64 bits, and -0 is not."""
    if len(digits) > 300:
        raise Unjudged(digits)
    number = int(digits)
    return float(digits) if digits == "-0" or not -(2**63) <= number < 2**64 else number


def finite(digits):
    number = float(digits)
    if number in (float("inf"), float("-inf")):
        raise Unjudged(digits)
    return number


def no_constant(word):
    raise ValueError(word)


def levels_in(text):
    """How deep brackets are nested, those in texts included."""
    steps = (1 if it in "[{" else -1 for it in re.findall(r"[][{}]", text))
    return max(itertools.accumulate(steps), default=0)


def json_of(file):
    """The value of the file. Deep values, lone surrogates and numbers beyond all floats are not judged."""
    try:
        text = file.decode("utf-8")
    except UnicodeDecodeError:
        raise Flaw("the file is not UTF-8") from None
    if levels_in(text) > MOST_LEVELS:
        raise Unjudged(text)
    try:
        value = json.loads(text, parse_int=whole, parse_float=finite, parse_constant=no_constant)
    except ValueError:
        raise Flaw("the file is not one JSON value") from None
    if re.search("[\ud800-\udfff]", json.dumps(value, ensure_ascii=False)):
        raise Unjudged(text)
    return value


def is_whole(value, least, most):
    return isinstance(value, int) and not isinstance(value, bool) and least <= value <= most


def member(value, name):
    return value.get(name) if isinstance(value, dict) else None


def members_in(value):
    members = member(value, "members")
    if not is_whole(members, 1, MOST_MEMBERS):
        raise Flaw("`members` is missing or not a whole number from 1 to 7")
    return members


def array_in(value, name):
    items = member(value, name)
    if not isinstance(items, list):
        raise Flaw(f"`{name}` is missing or not an array")
    return items


# ---- recorded runs


def message_in(text, is_ranged):
    """The message that a text encodes, with its parts."""
    parts = message_parts(text) if is_ranged else parts_of(text, MESSAGE, HEAD, IN_MESSAGE)
    return said_of(parts) | {"parts": parts}


def message_at(place, item, is_ranged):
    flaw = f"message {place} of `sent`"
    if not isinstance(item, str):
        raise Flaw(f"{flaw} is not a string")
    if not re.fullmatch("(?:[0-9a-fA-F]{2})*", item):
        raise Flaw(f"{flaw} is not pairs of hexadecimal digits")
    try:
        return message_in(bytes.fromhex(item), is_ranged)
    except Faults as faults:
        raise Flaw(*(f"{flaw} is not a valid message: {it}" for it in sorted(faults.names))) from None


def run_in(file, is_ranged):
    value = json_of(file)
    members, items = members_in(value), array_in(value, "sent")
    return members, [message_at(place, it, is_ranged) for place, it in enumerate(items)]


def first_place(told, is_against):
    """The place of the first message of those that say something of the slot: `told` has None for the others."""
    return next((place for place, it in enumerate(told) if it and is_against(it)), None)


def bound_above(said, is_strict):
    """Whether an earlier message binds its sender at or above the ballot, or only above it."""
    def is_against(it):
        binds = it["sender"] == said["sender"] and it["what"] in ("Promise", "Accepted")
        return binds and (it["ballot"] > said["ballot"] or (not is_strict and it["ballot"] == said["ballot"]))
    return is_against


def broken_by_promise(told, said):
    report, above = said["report"], (said["report"] or ((0, 0),))[0]
    before = [it for it in told if it]
    yield "its sender had promised this ballot or a higher one, or accepted at one", first_place(told, bound_above(said, False))
    unreported = first_place(told, lambda it: it["sender"] == said["sender"] and it["what"] == "Accepted" and it["ballot"] > above)
    yield "its sender had accepted a value that it does not report, at a higher ballot than it reports or where it reports none", unreported
    yield "what it reports was not accepted at a ballot below the promised one", report is not None and not above < said["ballot"]
    yield "what it reports was not proposed before", report is not None and not was_proposed(before, *report)


def broken_by_accept(members, told, said):
    before, ballot = [it for it in told if it], said["ballot"]
    second = first_place(told, lambda it: it["what"] == "Accept" and it["ballot"] == ballot and it["value"] != said["value"])
    yield "another value was proposed at its ballot", second
    is_promised = is_majority(members, promisers(before, ballot, (float("inf"), 0)))
    yield "no majority had promised its ballot", not is_promised
    reports = [it["report"][0] for it in before if it["what"] == "Promise" and it["ballot"] == ballot and it["report"] and it["sender"] < members]
    highest = None
    if is_promised and not is_safe(members, before, ballot, said["value"]):
        highest = first_place(told, lambda it: it["what"] == "Promise" and it["ballot"] == ballot and it["sender"] < members
                              and it["report"] is not None and it["report"][0] == max(reports))
    yield "its value is not that of the highest report among the promises of its ballot", highest


def broken_by_accepted(told, said):
    before = [it for it in told if it]
    yield "its value was not proposed at its ballot", not was_proposed(before, said["ballot"], said["value"])
    yield "its sender had promised a higher ballot, or accepted at one", first_place(told, bound_above(said, True))


def broken_rules(members, told, said):
    """For each rule for such a message the text about its breach, and whether it is broken, or by which message: `told` is what each
    message before it says of its slot, or None."""
    if said["what"] == "Promise":
        return broken_by_promise(told, said)
    if said["what"] == "Accept":
        return broken_by_accept(members, told, said)
    if said["what"] == "Accepted":
        return broken_by_accepted(told, said)
    return [("no majority had accepted its value at one ballot", True)]


def line_shown(said):
    """The line of a message, with only the ends of long values."""
    line = shown_message(said["parts"])
    for value in (said["value"], *(it[-1] for it in ([said["report"]] if said["report"] else []) + said["reports"])):
        if len(value) > 32:
            line = line.replace(value.hex(), f"{value[:24].hex()}..{value[-8:].hex()} ({len(value)} bytes)")
    return line


def explained(members, sent, place, slot):
    told = [says(it, slot) for it in sent]
    lines = [f"message {place} of slot {slot} breaks the rules: {line_shown(sent[place])}"]
    for rule, broken in broken_rules(members, told[:place], told[place]):
        if broken is True:
            lines.append(f"- {rule}")
        elif broken is not None and broken is not False:
            lines.append(f"- {rule}; message {broken}: {line_shown(sent[broken])}")
    return lines


def audit(file, is_explained=False, is_ranged=False):
    try:
        members, sent = run_in(file, is_ranged)
    except Flaw as flaw:
        return 1, "", [f"flightd: BadTrace\nflightd: {it}\n" for it in flaw.lines]
    breach = first_breach(members, sent)
    if breach is None:
        return 0, "lawful\n", [""]
    lines = ["unlawful", *(explained(members, sent, *breach) if is_explained else [])]
    return 1, "".join(f"{it}\n" for it in lines), [""]


# ---- records


def record_line(place, parts):
    kind, *words = kept_line_of(parts).split(" ")
    words = [kind.replace("-", " "), *(["slot"] if kind != "began" else []), *words]
    value = parts["value"]
    if kind == "accepted" and value:
        words[-1] = f"upload of {len(value)} bytes {value[:32].hex()}"
    return f"{place} {' '.join(words)}"


def records(file):
    lines, at = [], 0
    # a file of at most one byte is a new one
    while len(file) > 1 and file[at] == 1:
        end = at + 5 + int.from_bytes(file[at + 1 : at + 5], "little")
        try:
            if end >= len(file):
                raise Faults("CutShort")
            text = file[at + 5 : end]
            lines.append(record_line(len(lines), record_parts(text)))
        except Faults:
            return 1, "", [f"flightd: Damaged\nbyte {at}: this gate is open, but the record after it is incomplete\n"]
        at = end
    return 0, "".join(f"{it}\n" for it in lines), [""]


# ---- conversations with the acceptor


def payload_at(text):
    """The payload of the frame at the front, and the text after it."""
    try:
        flag, payload, rest = frame_at(text)
    except BadFrame as fault:
        raise Faults(fault.name) from None
    if flag:
        raise Faults("BadFlag")
    return payload, rest


def answer_to(said, records):
    """The encoding of node 0's answer, whose record is added to those that it kept."""
    record, answer = Acceptor(0, records).reply(said)
    text = text_of(parts_in(answer))
    if len(text) > MAX_FRAME_PAYLOAD:
        raise Faults("TooLong")
    records += [record] if record else []
    return text


def acceptor(text, is_ranged=False):
    kept, output, count = [], b"", 0
    try:
        while text:
            payload, text = payload_at(text)
            said = message_in(payload, is_ranged)
            if said["what"] in ("Prepare", "PrepareFrom", "Accept"):
                output += frame(0, answer_to(said, kept))
            count += 1
    except Faults as faults:
        return 1, output, [f"flightd: frame {count}: {it}\n" for it in sorted(faults.names)]
    return 0, output, [""]


# ---- schedules


def upload_in(value, is_conditional):
    """An upload of a schedule or a script, in the form of runs_model.py; None if it is none."""
    table, id, values, name = (member(value, it) for it in ("table", "id", "values", "name"))
    name = "a" if isinstance(value, dict) and "name" not in value else name
    is_one = isinstance(table, str) and is_table_name(table.encode()) and isinstance(id, str) and re.fullmatch("[0-9a-fA-F]{32}", id)
    is_one = is_one and isinstance(values, list) and len(values) <= MOST_BATCHES and isinstance(name, str)
    batches = values if is_one else []
    is_one = is_one and all(isinstance(it, list) for it in batches)
    expects = {"expected": value["expected"]} if is_conditional and is_one and "expected" in value else {}
    is_one = is_one and all(is_whole(it, 0, MOST_EXPECTED) for it in expects.values())
    if not is_one or not all(cell is None or is_whole(cell, -128, 127) for it in batches for cell in it):
        return None
    return {"table": table, "id": id, "values": values, "name": name} | expects


def upload_at(place, value, is_conditional):
    found = upload_in(value, is_conditional)
    if found is None:
        raise Flaw(f"upload {place} of `uploads` is not a valid upload")
    return found


MOST = 2**64 - 1
WANTED = {"put": ["upload"], "tick": ["left"], "deliver": ["number"], "tickcut": ["left"], "delivercut": ["number"], "restart": [],
          "get": ["table", "version"], "info": ["text"], "outcome": ["upload"]}


def is_wanted(kind, value, uploads):
    if kind in ("table", "text"):
        return isinstance(value, str) and (kind == "text" or is_table_name(value.encode()))
    least, most = {"upload": (0, uploads - 1), "left": (0, MOST_TICK), "number": (0, MOST), "version": (1, MOST)}[kind]
    return is_whole(value, least, most)


def event_at(place, value, uploads):
    is_one = isinstance(value, list) and len(value) > 1 and isinstance(value[0], str) and value[0] in WANTED and is_whole(value[1], 0, MOST)
    kinds = WANTED[value[0]] if is_one else []
    if not is_one or len(value) != 2 + len(kinds) or not all(map(is_wanted, kinds, value[2:], [uploads] * len(kinds))):
        raise Flaw(f"event {place} of `events` is not an array of a word, a node's number and that word's arguments")
    return value


def schedule_in(file, is_ranged=False, is_conditional=False):
    value = json_of(file)
    members, slots = members_in(value), member(value, "slot_limit")
    if not is_whole(slots, 1, MOST_SLOTS):
        raise Flaw("`slot_limit` is missing or not a whole number from 1 to 1,000,000")
    ranged = value.get("ranged", False) if is_ranged else False
    if not isinstance(ranged, bool):
        raise Flaw("`ranged` is there, and is neither true nor false")
    uploads, events = array_in(value, "uploads"), array_in(value, "events")
    uploads = [upload_at(place, it, is_conditional) for place, it in enumerate(uploads)]
    events = [event_at(place, it, len(uploads)) for place, it in enumerate(events)]
    return {"members": members, "slot_limit": slots, "ranged": ranged, "uploads": uploads, "events": events}


def replay(file, is_ranged=False, is_conditional=False):
    try:
        schedule = schedule_in(file, is_ranged, is_conditional)
    except Flaw as flaw:
        return 1, "", [f"flightd: BadSchedule\nflightd: {it}\n" for it in flaw.lines]
    run = Run(schedule)
    return 0, "".join(f"{place} {run.play(event)}\n" for place, event in enumerate(schedule["events"])), [""]


# ---- scripts

CALLED = {"put": ["upload"], "get": ["table", "version"], "info": ["table"]}
FIRST_PORT = 42_000


def call_at(place, value, nodes, is_conditional):
    """A call of a script: its word, the node, and what it takes; an upload in the form of runs_model.py."""
    is_one = isinstance(value, list) and len(value) > 1 and isinstance(value[0], str) and value[0] in CALLED
    is_one = is_one and is_whole(value[1], 0, nodes - 1)
    kinds, taken = (CALLED[value[0]], value[2:]) if is_one else ([], [])
    if kinds == ["upload"]:
        taken = [upload_in(it, is_conditional) for it in taken]
    are_wanted = (it is not None if kind == "upload" else is_wanted(kind, it, 0) for kind, it in zip(kinds, taken))
    if not is_one or len(taken) != len(kinds) or not all(are_wanted):
        raise Flaw(f"call {place} of `calls` is not an array of a word, a node's number and that word's arguments")
    return [*value[:2], *taken]


def script_in(file, is_conditional=False):
    value = json_of(file)
    nodes = member(value, "nodes")
    if not is_whole(nodes, 3, 5) or nodes == 4:
        raise Flaw("`nodes` is missing or neither 3 nor 5")
    calls = array_in(value, "calls")
    return {"nodes": nodes, "calls": [call_at(place, it, nodes, is_conditional) for place, it in enumerate(calls)]}


def put_told(service, said):
    upload = Upload(said["table"], said["id"], said["name"], said["values"], said.get("expected"))
    messages, status, name, _ = service.serve(call_text(b"DoPut", put_messages(upload_of(upload.text, is_conditional=service.is_conditional))))
    return f"status {status} {name}" if status else f"put {values_by_number(values_by_number(messages[0])[1])[2]}"


def get_told(service, table, version):
    messages, status, name, _ = service.serve(call_text(b"DoGet", [bytes_field(1, ticket_text(table.encode(), version))]))
    return f"status {status} {name}" if status else f"get {b''.join(frame(0, it) for it in messages).hex()}"


def info_told(service, table):
    messages, status, name, _ = service.serve(call_text(b"GetFlightInfo", [descriptor(table)]))
    if status:
        return f"status {status} {name}"
    (ticket, locations), = meant_inside(messages, INFO, set())[2]
    return f"info {ticket_of(ticket[0])[1]} {len(locations)}"


TOLD = {"put": put_told, "get": get_told, "info": info_told}


def script(file, is_conditional=False):
    """The lines of a script's calls, as a cluster answers them each of whose nodes knows all that was put before."""
    try:
        said = script_in(file, is_conditional)
    except Flaw as flaw:
        return 1, "", [f"flightd: BadScript\nflightd: {it}\n" for it in flaw.lines]
    ports = range(FIRST_PORT, FIRST_PORT + said["nodes"])
    service = Service(MOST_SLOTS, [f"plain+tcp://127.0.0.1:{it}" for it in ports], is_conditional=is_conditional)
    lines = [f"{place} {TOLD[word](service, *taken)}" for place, (word, _, *taken) in enumerate(said["calls"])]
    return 0, "".join(f"{it}\n" for it in [*lines, "receipts ok"]), [""]


COMMANDS = {"audit": audit, "audit --explain": lambda file: audit(file, True), "replay": replay, "records": records, "acceptor": acceptor}
