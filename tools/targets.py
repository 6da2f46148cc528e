"""The targets of tools/fuzz.py: story programs, and commands of `flightd`. An input is a list of lines: commands of a story (see
docs/TESTS.md), or for a file one line `COMMAND BYTES`. Each target draws a new input from two. Its first inputs are few and plain, so
that what reaches more is found, and kept."""
import json

from batch_model import lay_out, type_of
from batches import FLAT, NESTED, WAYS, batch_of, bytes_of, drawn, read_line, spelled
from calls import LOCATIONS, C, U, W, X, Z
from calls_model import call_text, descriptor, first_message, put_messages
from changes import bytes_changed, fields_changed, frames_changed, json_changed, list_changed, places_changed, signed, value_changed
from headers_model import MOST_BUFFERS, MOST_NODES, canonical, header_of, written
from runs import spelled as packed
from runs_model import Upload as RunUpload
from tables import POOL
from tables_model import Upload, ticket_text, type_in, upload_of
from tellers.batch import field_of
from wire_model import Faults, bytes_field

ID = "000102030405060708090a0b0c0d0e0f"
TYPE_WORDS = FLAT + NESTED
# The most rows of a random batch, unless it has more than a batch may have; the most bytes of a header, calls of a service, and events.
MOST_ROWS, MOST_HEADER, MOST_CALLS, MOST_EVENTS = 2000, 4096, 8, 60


def bytes_at_end(line):
    """The bytes after the first word of a line."""
    return bytes_of(line.partition(" ")[2])


def line_of(word, text):
    return f"{word} {text.hex()}".rstrip()


class Target:
    """A program and its inputs: `crate` is that of its stories, or `flightd`, and `words` are its arguments, with `@` for the name of the
    input. Commands in `behind` depend on those before them, back to a command `first`."""

    crate, words, first, behind = None, (), None, ()

    def __init__(self, name):
        self.name = name

    def stands_alone(self, lines):
        """Whether the results of the lines depend on no other lines."""
        words = [it.split(" ")[0] for it in lines]
        return not set(self.behind).intersection(words[: words.index(self.first)] if self.first in words else words)


# ---- frames and messages


class WireTarget(Target):
    crate = "wire"
    seeds = [["frames 000000000408012801"], ["fields 0801120161"], ["front 0801120161"], ["descriptor 08011a0161"], ["ticket 0a0161"],
             ["location 0a0161"], ["endpoint 0a030a0161"], ["info 0a01731203080118011a050a030a0174"], ["schema 0a0173"], ["criteria 0a0173"],
             ["data 0a020801120168c23e0162"], ["put-result 0a0173"]]
    names = [it[0].split(" ")[0] for it in seeds]

    def other(self, draw, lines, others):
        name, text = lines[0].split(" ")[0], bytes_at_end(lines[0])
        if draw.random() < 0.1:
            name = draw.choice(self.names)
        if name == "frames" and draw.random() < 0.5:
            return [line_of(name, frames_changed(draw, text, bytes_at_end(others[0]), inside=bytes_changed))]
        return [line_of(name, draw.choice((bytes_changed, fields_changed))(draw, text))]


# ---- headers


def header_lines(text):
    """Commands that read a header and, if possible, write it again."""
    try:
        is_written = written(header_of(text)) is not None
    except Faults:
        is_written = False
    digits = packed(text)
    return [f"header {digits}".rstrip(), *([f"respelled {digits}"] if is_written else [])]


def column(draw, word):
    """A random field of a type, in the form of canonical.py."""
    said = {**field_of(type_of(word)), "nullable": draw.random() < 0.5, "name": draw.choice(("", "a", "\u20ac")), "custom_metadata": []}
    if draw.random() < 0.3:
        said["custom_metadata"] = [{"key": "k", "value": draw.choice(("", "v"))}] * draw.choice((1, 2))
    return said


def columns(draw, counts):
    return [column(draw, draw.choice(TYPE_WORDS)) for _ in range(draw.choice(counts))]


def header_drawn(draw):
    """The text of a header of random fields, or of random nodes and buffers."""
    if draw.random() < 0.5:
        metadata = [{"key": "k", "value": "v"}] * draw.choice((0, 0, 1, 2))
        said = {"header_type": "Schema", "header": {"fields": columns(draw, (0, 1, 1, 2, 3)), "custom_metadata": metadata}}
    else:
        pairs = [{"length": signed(draw) % 2**63, "null_count": 1, "offset": 8} for _ in range(draw.choice((0, 1, 3)))]
        said = {"header_type": "RecordBatch", "header": {"length": 2, "nodes": pairs, "buffers": pairs}, "bodyLength": 8}
    return bytes.fromhex(canonical.message(said))


class HeaderTarget(Target):
    crate = "header"
    seeds = [header_lines(U.schema_text), header_lines(U.parts[0][0])]

    def other(self, draw, lines, _):
        if draw.random() < 0.15:
            return header_lines(header_drawn(draw))
        text = bytes_at_end(lines[0])
        for _ in range(draw.choice((1, 1, 2))):
            text = draw.choice((places_changed, places_changed, places_changed, bytes_changed))(draw, text)
        return header_lines(text[:MOST_HEADER])


# ---- batches


def of_64_bits(value):
    return (value + 2**63) % 2**64 - 2**63


def number_changed(draw, value):
    return of_64_bits(draw.choice((signed(draw), value + 1, value - 1, value + 8, 0, 1, 7, 8, 9)))


def pair_changed(draw, pair):
    first, second = pair
    return (number_changed(draw, first), second) if draw.random() < 0.5 else (first, number_changed(draw, second))


def rows_within(count):
    return count if count <= MOST_ROWS or count > 1 << 24 else count % MOST_ROWS


class BatchTarget(Target):
    crate, first, behind = "batch", "schema", ("read",)
    seeds = [["schema Int(8,true)", "read 2 (2,0) | (0,0) (0,2) | 8 0102000000000000"], ["schema Utf8", "read 0 (0,0) | (0,0) (0,0) (0,0) | 0"]]

    def other(self, draw, lines, _):
        words = lines[0].partition(" ")[2]
        if len(lines) > 1 and draw.random() < 0.8:
            head, body = batch_of(lines[1])
        else:
            words, head, body = self.laid_out(draw)
        for _ in range(draw.choice((0, 1, 1, 1, 2))):
            words, head, body = self.changed(draw, words, head, body)
        nodes = tuple((rows_within(length), nulls) for length, nulls in head.nodes[:MOST_NODES])
        head = head._replace(length=rows_within(head.length), nodes=nodes, buffers=head.buffers[:MOST_BUFFERS])
        return [f"schema {words}".rstrip(), read_line(head, body)]

    @staticmethod
    def laid_out(draw):
        """A batch of random types and cells, laid out in some ways."""
        words = [draw.choice(TYPE_WORDS) for _ in range(draw.choice((1, 1, 2)))]
        types, rows = list(map(type_of, words)), draw.choice((0, 1, 2, 3, 9))
        cells = [[drawn(it, draw, draw.choice((0, 0.3, 1))) for _ in range(rows)] for it in types]
        ways = draw.sample(sorted(WAYS), draw.choice((0, 1, 3, 8)))
        return " ".join(words), *lay_out(types, rows, cells, ways, draw.randrange(1000))

    @staticmethod
    def changed(draw, words, head, body):
        """The batch with another number, node, buffer, body or type."""
        change = draw.choice(("rows", "nodes", "nodes", "buffers", "buffers", "length", "types", "body", "body"))
        if change == "rows":
            head = head._replace(length=number_changed(draw, head.length))
        elif change == "nodes":
            head = head._replace(nodes=tuple(list_changed(draw, head.nodes, [(1, 0)], pair_changed)))
        elif change == "buffers":
            head = head._replace(buffers=tuple(list_changed(draw, head.buffers, [(0, 0)], pair_changed)))
        elif change == "length":
            head = head._replace(compressed=draw.random() < 0.1, body_length=number_changed(draw, head.body_length))
        elif change == "types":
            words = " ".join(draw.choice(TYPE_WORDS) if draw.random() < 0.3 else it for it in words.split())
        else:
            body = bytes_changed(draw, body)
        return words, head, body


# ---- uploads, tickets and tables


def upload_drawn(draw):
    """The bytes of an upload of random columns, with metadata of its schema or without."""
    schema = {"fields": columns(draw, (0, 1, 1, 2)), "custom_metadata": draw.choice(([], [{"key": "k", "value": "v"}]))}
    types, batches = [type_in(it) for it in schema["fields"]], []
    for _ in range(draw.choice((0, 1, 2))):
        rows = draw.choice((0, 1, 2, 9))
        batches.append((rows, [[drawn(it, draw, 0.3) for _ in range(rows)] for it in types]))
    return Upload(draw.choice((b"t", b"u.2", b"n" * 64)), bytes([draw.randrange(4)] * 16), schema, batches).text


def upload_changed(draw, text):
    if draw.random() < 0.2:
        return upload_drawn(draw)
    return fields_changed(draw, text, draw.choice((bytes_changed, places_changed))) if draw.random() < 0.7 else bytes_changed(draw, text)


def upload_in(line):
    """The name of an upload in a story, and its bytes."""
    _, name, *digits = line.split(" ", 2)
    return name, bytes_of("".join(digits))


class TableTarget(Target):
    crate, first, behind = "table", "new", ("take", "outcome", "tables", "latest", "answer", "frames")
    seeds = [[f"upload u {spelled(POOL['u'])}"], [f"read-ticket {ticket_text(b't', 1).hex()}"],
             [*(f"upload {name} {spelled(POOL[name])}" for name in "ucz"), "new", "take u", "outcome u c z", "tables", "latest t", "frames 1 t"]]
    asked = ["outcome u", "outcome c z", "tables", "latest t", "latest u.2", "answer 1 t", "answer 2 t", "frames 1 t", "frames 3 u.2", "take u",
             "take c", "take z u", "take noop", "new"]

    def other(self, draw, lines, _):
        if lines[0].startswith("read-ticket"):
            return [line_of("read-ticket", draw.choice((bytes_changed, fields_changed))(draw, bytes_at_end(lines[0])))]
        uploads = dict(upload_in(it) for it in lines if it.startswith("upload")) or {"u": POOL["u"]}
        rest = [it for it in lines if not it.startswith("upload") and it != "new"]
        if not rest or draw.random() < 0.5:
            name = draw.choice(sorted(uploads))
            uploads[name] = upload_changed(draw, uploads[name])
        else:
            rest = list_changed(draw, rest, self.asked, lambda draw, _: draw.choice(self.asked))
        known = {name for name, text in uploads.items() if upload_of(text)}
        rest = [it for it in rest if not it.startswith("outcome") or known.issuperset(it.split(" ")[1:])]
        return [*(f"upload {name} {spelled(text)}".rstrip() for name, text in uploads.items()), *(["new", *rest] if rest else [])]


# ---- calls


PUTS = {name: call_text(b"DoPut", put_messages(it)) for name, it in zip("ucxwz", (U, C, X, W, Z))}
QUESTIONS = {
    "get": call_text(b"DoGet", [bytes_field(1, ticket_text(b"t", 1))]), "info": call_text(b"GetFlightInfo", [descriptor("t")]),
    "schema": call_text(b"GetSchema", [descriptor("t")]), "list": call_text(b"ListFlights", [b""]),
}
CALLS = [*PUTS.values(), *QUESTIONS.values()]


def message_changed(draw, message):
    """Another message of a call: sometimes one that opens an upload of random columns."""
    upload = upload_of(upload_drawn(draw)) if draw.random() < 0.15 else None
    return first_message(upload) if upload else fields_changed(draw, message, draw.choice((bytes_changed, places_changed)))


def call_changed(draw, text, other):
    return frames_changed(draw, text, other, inside=message_changed) if draw.random() < 0.8 else bytes_changed(draw, text)


def calls_in(lines):
    return [bytes_of(it.split(" ", 2)[2]) for it in lines if it.startswith("bytes") and it.count(" ") > 1]


def service_lines(service, asked):
    named = [(f"c{place}", text) for place, text in enumerate(asked[:MOST_CALLS])]
    return [service, *(line for name, text in named for line in (f"bytes {name} {spelled(text)}".rstrip(), f"call +{name}"))]


class CallTarget(Target):
    crate, first, behind = "call", "new", ("call",)
    seeds = [service_lines(f"new 3 {LOCATIONS[0]}", [it]) for it in (PUTS["u"], *QUESTIONS.values())]

    def other(self, draw, lines, others):
        service = next((it for it in lines if it.startswith("new")), "new 3")
        asked, known = calls_in(lines), calls_in(others) + CALLS
        if draw.random() < 0.1:
            service = f"new {draw.choice((0, 1, 3, 3, 3))} {' '.join(LOCATIONS[: draw.choice((0, 1, 1, 3))])}".rstrip()
        if asked and draw.random() < 0.75:
            place = draw.randrange(len(asked))
            asked[place] = call_changed(draw, asked[place], draw.choice(known))
        else:
            asked = list_changed(draw, asked, known, lambda draw, _: draw.choice(known))
        return service_lines(service, asked)


# ---- messages, records and recorded runs


SENT = ["08012801", "08022801", "080210012801", "08042801", "08052801", "080510012801", "080710014a0161", "0806"]


def run_file(members, sent):
    return json.dumps({"members": members, "sent": sent}).encode()


def attempts(draw):
    """Messages of a few attempts for one slot, which correct nodes may or may not send."""
    sent = []
    for round_, node in ((1, 0), (2, 1), (3, 0))[: draw.choice((1, 2, 3))]:
        ballot, by = f"28{round_:02x}30{node:02x}", f"10{node:02x}"
        sent += [f"080210{sender:02x}{ballot}" for sender in range(draw.choice((1, 2, 3)))]
        sent.append(f"0804{by}{ballot}4a0161")
        sent += [f"080510{sender:02x}{ballot}4a0161" for sender in range(draw.choice((0, 1, 2)))]
    return sent


def run_changed(draw, text, other):
    """Another recorded run: other messages or members, or other JSON."""
    if draw.random() < 0.75:
        try:
            value, others = json.loads(text), json.loads(other)
            sent = attempts(draw) if draw.random() < 0.1 else value["sent"]
            sent = list_changed(draw, sent, [*others["sent"], *SENT], lambda draw, it: fields_changed(draw, bytes.fromhex(it)).hex())
            return run_file(draw.choice((value["members"],) * 8 + (1, 2, 3, 5)), sent)
        except (ValueError, TypeError, KeyError, AttributeError):
            pass
    return json_changed(draw, text)


class PaxosTarget(Target):
    crate = "paxos"
    seeds = [["decode 08012801"], ["decode-record 08011801"], ["decode-record 080410051802"], [line_of("audited", run_file(3, SENT[:2]))]]

    def other(self, draw, lines, others):
        name, text = lines[0].split(" ")[0], bytes_at_end(lines[0])
        if name == "audited":
            return [line_of(name, run_changed(draw, text, bytes_at_end(others[0])))]
        name = draw.choice((name, name, name, "decode", "decode-record"))
        return [line_of(name, draw.choice((bytes_changed, fields_changed))(draw, text))]


# ---- schedules


NAMED = (("t", 1, "a"), ("t", 2, "a"), ("t", 1, "b"), ("u", 3, "a"), ("t", 4, "b"))
RUN_UPLOADS = [f"upload {packed(RunUpload(table, f'{id:032x}', name, [[id]]).text)}" for table, id, name in NAMED]
# An upload is decided by two of three nodes, and asked for.
DECIDED = ["put 0 0", "tick 0 0", "deliver 0 0", "deliver 1 0", "deliver 0 1", "deliver 0 2", "deliver 0 3", "deliver 1 3", "deliver 0 4",
           "deliver 0 5", "outcome 0 0", "get 0 t 1", "info 0 t"]


def event_drawn(draw, members, sent):
    node, upload = draw.randrange(members + (draw.random() < 0.05)), draw.randrange(len(NAMED))
    message = draw.randrange(sent + 1) if draw.random() < 0.5 else max(0, sent - draw.randrange(4))
    return draw.choice((
        f"put {node} {upload}", f"tick {node} {draw.choice((0, 0, 0, 1, 7, 8, 255))}", *[f"deliver {node} {message}"] * 4, f"tickcut {node} 0",
        f"delivercut {node} {message}", f"restart {node}", f"get {node} {draw.choice('ttu')} {draw.choice((1, 1, 2))}", f"info {node} t",
        f"outcome {node} {upload}",
    ))


def events_in(lines):
    return [it for it in lines if it.split(" ")[0] not in ("nodes", "upload", "play", "digest")]


class RunTarget(Target):
    crate, first = "run", "nodes"
    behind = ("upload", "put", "tick", "deliver", "tickcut", "delivercut", "restart", "get", "info", "outcome", "play", "digest")
    seeds = [["nodes 3 4", *RUN_UPLOADS, *events, "play", "digest"] for events in (["tick 0 0"], DECIDED[:4])]

    def other(self, draw, lines, others):
        nodes, events = lines[0], events_in(lines)
        if draw.random() < 0.1:
            nodes = f"nodes {draw.choice((1, 2, 3, 3, 4, 5, 7))} {draw.choice((0, 1, 2, 4, 1_000_000, 1_000_001))}"
        members = int(nodes.split(" ")[1])
        for _ in range(draw.choice((1, 1, 3, 8))):
            drawn_one, place = event_drawn(draw, members, len(events)), draw.randint(0, len(events))
            more = (events_in(others) or DECIDED)[place : place + draw.choice((1, 4))]
            # most are added at the end; some come between others, or in place of one, or one is left out
            place, end, new = draw.choice((*[(len(events), len(events), [drawn_one])] * 6, (place, place, [drawn_one]), (place, place, more),
                                           (place, place + 1, [drawn_one]), (place, place + 1, [])))
            events[place:end] = new
        return [nodes, *RUN_UPLOADS, *events[:MOST_EVENTS], "play", "digest"]


# ---- files


def text_changed(draw, text):
    return draw.choice((text + "a", text[1:], text.upper(), "", "t", "a b", ID, "put", "get", "tick", "outcome", "\ud800"))


def numbered(event):
    """An event of a schedule, from the words of one in a story."""
    return [int(it) if it.isdigit() else it for it in event.split(" ")]


def schedule_changed(draw, text, _):
    if draw.random() < 0.5:
        try:
            value = json.loads(text)
            more = list(map(numbered, DECIDED))
            value["events"] = list_changed(draw, value["events"], more, lambda draw, it: value_changed(draw, it, 0.4, text_changed))
            return json.dumps(value).encode()
        except (ValueError, TypeError, KeyError):
            pass
    return json_changed(draw, text, text_changed)


def records_changed(draw, text, other):
    return frames_changed(draw, text, other, "little") if draw.random() < 0.7 else bytes_changed(draw, text)


def conversation_changed(draw, text, other):
    return frames_changed(draw, text, other) if draw.random() < 0.7 else bytes_changed(draw, text)


class FileTarget(Target):
    """A command of `flightd` that reads a file, or standard input; its lines begin with the command in one word."""

    crate = "flightd"

    def __init__(self, command, first, change):
        super().__init__(command)
        self.words = (*command.split(" "), *(["@"] if command != "acceptor" else []))
        self.seeds, self.change = [[line_of(self.word(), first)]], change

    def word(self):
        return self.name.replace(" ", "_")

    def other(self, draw, lines, others):
        return [line_of(self.word(), self.change(draw, bytes_at_end(lines[0]), bytes_at_end(others[0])))]


UPLOAD = {"table": "t", "id": ID, "values": [[1, None, 3]]}
SCHEDULE = {"members": 3, "slot_limit": 2, "uploads": [UPLOAD], "events": list(map(numbered, DECIDED[:3]))}
RECORDS = bytes.fromhex("01040000000801180101040000000802180100")
TALK = bytes.fromhex("00000000040801280100000000080804100128023001")


def targets():
    return [
        WireTarget("frames and messages"), HeaderTarget("headers"), BatchTarget("batches"), TableTarget("uploads and tables"), CallTarget("calls"),
        PaxosTarget("messages, records and runs"), RunTarget("schedules"),
        *(FileTarget(command, run_file(3, SENT[:2]), run_changed) for command in ("audit", "audit --explain")),
        FileTarget("replay", json.dumps(SCHEDULE).encode(), schedule_changed), FileTarget("records", RECORDS, records_changed),
        FileTarget("acceptor", TALK, conversation_changed),
    ]
