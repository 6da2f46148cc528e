#!/usr/bin/env python3
"""Makes the stories of Flight calls in crates/call_stories/data, and the input and output of crates/call_server, from calls_model.py.

    tools/calls.py --write   writes them
    tools/calls.py --check   names those that differ"""
import hashlib
import random
import sys
from pathlib import Path

from batches import bytes_of, spelled
from calls_model import METHODS, SERVICE, Service, Unjudged, data, descriptor, first_message, put_messages
from tables import A, POOL, ROW, TEXTS, id_of, numbers, schema
from tables_model import Upload, ticket_text, upload_of
from toolbox import show_help
from wire_model import END, bytes_field, frame, number_field

CRATES = Path(__file__).resolve().parent.parent / "crates"
DATA = CRATES / "call_stories" / "data"
SERVER = CRATES / "call_server"
MOST_TOLD = 400
LOCATIONS = [f"plain+tcp://127.0.0.1:{port}" for port in (42000, 42001, 42002)]
DRAWN = 200
NOTATION = """\
# `new SLOTS LOCATION ..` begins with a service that holds nothing, takes so many uploads and serves at these locations.
# `bytes NAME BYTES` names bytes. They are hexadecimal, a letter from `g` to `z` stands for one to twenty zero bytes, and
# behind `| COUNT` stand bytes that come so often behind the others.
#
# `call PART ..` serves one call, put together of these parts: `/METHOD` is the frame with the path of a method, a name the
# frame with the message of that name, `empty` one with no bytes, `3*NAME` three such frames, `end` the frame of the end, and
# `+NAME` the bytes of that name in no frame. Under it stand the messages of the answer, the status and the text of its
# trailer, how many bytes were left unread, and the id of an upload that was handed over. `cuts PART ..` tells the trailer
# of every beginning of such a call.""".splitlines()
ELSEWHERE = "The notation is that of rows.txt. Made by tools/calls.py, and not by hand."


# ---- stories, with results as the program prints them


class Story:
    """What stands after the commands so far. With `large`, services carry LargeBinary, LargeUtf8 and LargeList; with
    `is_conditional` they know uploads that expect a version."""

    def __init__(self, large=False, is_conditional=False):
        self.named, self.large, self.is_conditional = {"empty": b""}, large, is_conditional
        self.service = Service(0, [], large, is_conditional)

    def bytes(self, words):
        name, _, digits = words.partition(" ")
        front, _, back = digits.partition("|")
        count, _, more = back.strip().partition(" ")
        self.named[name] = bytes_of(front) + int(count or 0) * bytes_of(more)
        return []

    def new(self, words):
        slots, *locations = words.split()
        self.service = Service(int(slots), locations, self.large, self.is_conditional)
        return []

    def part(self, word):
        if word == "end":
            return frame(END, b"")
        if word.startswith("/"):
            return frame(0, SERVICE + word[1:].encode())
        if word.startswith("+"):
            return self.named[word[1:]]
        count, _, name = word.rpartition("*")
        return int(count or 1) * frame(0, self.named[name])

    def text(self, words):
        return b"".join(map(self.part, words.split()))

    def handed(self, before):
        return [f"handed {it.hex()}" for it in self.service.handed[before:]]

    def call(self, words):
        before = len(self.service.handed)
        messages, status, name, left = self.service.serve(self.text(words))
        lines = [*map(message_told, messages), f"trailer {status} {name}".rstrip()]
        return lines + [f"left {len(left)}"] * bool(left) + self.handed(before)

    def cuts(self, words):
        text, before, lines = self.text(words), len(self.service.handed), []
        for count in range(max(len(text), 1)):
            messages, status, name, _ = self.service.serve(text[:count])
            told = "another answer" if messages else f"{status} {name}".rstrip()
            if lines and lines[-1][2] == told:
                lines[-1][1] = count
            else:
                lines.append([count, count, told])
        return [f"{first} to {last}: {told}" for first, last, told in lines] + self.handed(before)

    def tell(self, command):
        word, _, rest = command.partition(" ")
        return getattr(self, word)(rest)


def message_told(text):
    if len(text) > MOST_TOLD:
        return f"message of {len(text)} bytes, md5 {hashlib.md5(text).hexdigest()}"
    return f"message {spelled(text)}".rstrip()


def told(lines, is_conditional=False):
    """The story of these lines, with the result of each command; a command that the model does not judge is left out."""
    story, out = Story(is_conditional=is_conditional), []
    for line in lines:
        if line and not line.startswith("#"):
            try:
                answer = story.tell(line)
            except Unjudged:
                continue
            out += [line, *("  " + it for it in answer)]
        else:
            out.append(line)
    return "\n".join(out) + "\n"


# ---- messages of clients


def put(upload, name):
    """The commands that name the messages of a put, and the parts of its call by these names."""
    messages = put_messages(upload)
    names = [f"{name}{place}" for place in range(len(messages))]
    return [f"bytes {it} {spelled(text)}" for it, text in zip(names, messages)], " ".join(["/DoPut", *names, "end"])


U, C = upload_of(POOL["u"]), upload_of(POOL["c"])
X, Y = Upload(b"t", id_of(0x3F), A, [ROW]), Upload(b"t", id_of(0x4F), A, [numbers(4)])
W, Z = upload_of(POOL["w"]), upload_of(POOL["z"])


def rows():
    """Puts, gets and questions, one after another."""
    names = {"u": U, "c": C, "x": X, "y": Y, "w": W, "z": Z}
    made = {name: put(upload, name) for name, upload in names.items()}
    lines = ["# Puts, gets and questions, one after the other (Apache Arrow, \"Flight.proto\"; docs/FORMATS.md, \"Flight calls\").", "#", *NOTATION,
             "#", "# Made by tools/calls.py, and not by hand.", "",
             "# The messages of six uploads: u, c and x to the table t, of which c has the name of u and another batch; y, which comes when",
             "# there is no room any more; w to another table; and z, whose schema has another shape."]
    lines += [line for commands, _ in made.values() for line in commands]
    asked = {
        "t": descriptor("t"), "none": descriptor("none"), "all": b"", "t1": bytes_field(1, ticket_text(b"t", 1)),
        "t2": bytes_field(1, ticket_text(b"t", 2)), "t3": bytes_field(1, ticket_text(b"t", 3)), "s3": bytes_field(1, ticket_text(b"sales", 3)),
        "w": descriptor("sales.2026"),
    }
    lines += ["", "# What clients ask for: tables by their descriptors, all of them, and versions by tickets."]
    lines += [f"bytes {name} {spelled(text)}".rstrip() for name, text in asked.items()]
    lines += ["", "# A service that holds nothing has no table and no version.", f"new 4 {' '.join(LOCATIONS)}", "call /GetFlightInfo t end",
              "call /GetSchema t end", "call /ListFlights all end", "call /DoGet s3 end", "call /DoGet t1 end"]
    lines += ["", "# An upload is told the version that it made; the same one again is told the same, and counts once.",
              f"call {made['u'][1]}", "call /DoGet t1 end", "call /GetFlightInfo t end", "call /ListFlights all end",
              "call /GetSchema t end", f"call {made['u'][1]}", "call /DoGet t2 end", "call /GetFlightInfo none end"]
    lines += ["", "# Another upload under its id, and one of another shape, do not count. A second version has both uploads.",
              f"call {made['c'][1]}", f"call {made['z'][1]}", f"call {made['x'][1]}", "call /DoGet t2 end", "call /DoGet t1 end",
              "call /GetFlightInfo t end"]
    lines += ["", "# A second table, and then no room for a further upload; what has come is still told.", f"call {made['w'][1]}",
              "call /ListFlights all end", "call /GetFlightInfo w end", "call /GetSchema w end", f"call {made['y'][1]}",
              f"call {made['u'][1]}", f"call {made['y'][1]}"]
    return lines


def faults():
    """Each refusal at least once, with what is left unread after it."""
    commands, whole = put(U, "u")
    schema_message, batch = first_message(U), data(*U.parts[0])
    header, body = U.parts[0]
    names = ("t", U.id.hex())
    bad = {
        "cmd": descriptor(kind=2, command=b"x"), "unknown": descriptor("t", kind=0), "far": descriptor("t", kind=3), "nothing": descriptor(),
        "two": descriptor("t", "u"), "slash": descriptor("a/b"), "long": descriptor("n" * 65), "longest": descriptor("n" * 64),
        "both": descriptor("t", command=b"x"), "criteria": bytes_field(1, b"x"), "noticket": b"", "zero": bytes_field(1, bytes_field(1, b"t")),
        "turned": bytes_field(1, number_field(2, 3) + bytes_field(1, b"sales")), "wide": bytes_field(1, bytes_field(1, b"sales") + b"\x10\x83\0"),
        "varint": b"\x08" + 10 * b"\xff", "key": b"\0\0", "wiretype": b"\x0b", "short": b"\x0a\x05ab", "utf": b"\x1a\x01\xff",
        "opens": schema_message, "batch": batch, "unsaid": data(U.schema_text), "unheaded": data(said=descriptor(*names)),
        "headed": data(header, said=descriptor(*names)), "onename": data(U.schema_text, said=descriptor("t")),
        "upper": data(U.schema_text, said=descriptor("t", U.id.hex().upper())), "opencmd": data(U.schema_text, said=descriptor(kind=2)),
        "unnamed": data(header, body[:-8]), "bare": data(b"", body), "again": data(U.schema_text), "pass": data(metadata=b"mine"),
        "spoken": data(header, body, said=descriptor(*names), metadata=b"mine"), "later": data(header, body) + bytes_field(77, b"new"),
    }
    lines = ["# Each refusal of a call at least once, with what is left unread behind it, and what clients do beyond what is asked.",
             f"# {ELSEWHERE}", "", "# Messages of calls that are refused, and of some that are not.", *commands]
    lines += [f"bytes {name} {spelled(text)}".rstrip() for name, text in bad.items()]
    raw = {"flag1": b"\1\0\0\0\0", "flag2": b"\2\0\0\0\0", "toolong": b"\0\0\x40\0\1", "endfull": b"\x80\0\0\0\1x", "front": b"\0\0", "path": frame(0, b"/x.Y/DoGet")}
    lines += [f"bytes {name} {spelled(text)}" for name, text in raw.items()]
    lines += ["", "# Frames: a service that takes five uploads.", f"new 5 {LOCATIONS[0]}", "call", "call end", "call +endfull", "call +front",
              "call +path", "call /Handshake end", "call /DoGet", "call /DoGet +flag1 end", "call /DoGet +flag2 end", "call /DoGet +toolong end",
              "call /DoGet +endfull end", "call /DoGet end", "call /DoGet zero zero end"]
    lines += ["", "# Descriptors, criteria and tickets: behind the first fault nothing is read."]
    lines += [f"call /GetFlightInfo {name} end" for name in
              ("cmd", "unknown", "far", "nothing", "two", "slash", "long", "longest", "both", "varint", "key", "wiretype", "short", "utf")]
    lines += [f"call /GetSchema {name} end" for name in ("cmd", "slash")]
    lines += [f"call /ListFlights {name} end" for name in ("criteria", "short")] + ["call /ListFlights empty empty end", "call /ListFlights end"]
    lines += [f"call /DoGet {name} end" for name in ("noticket", "zero", "turned", "wide", "short", "empty")]
    lines += ["", "# Uploads: nothing is put of a call that is refused before its end.", "call /DoPut end", "call /DoPut opens", "call /DoPut opens batch",
              "call /DoPut opens +flag1", "call /DoPut opens batch +front"]
    lines += [f"call /DoPut {it} end" for it in
              ("unsaid", "unheaded", "headed", "onename", "upper", "opencmd", "empty", "opens unnamed", "opens bare", "opens again", "opens short")]
    lines += ["", "# What clients do: say the descriptor again, add metadata, fields that are not known, messages that hold nothing.",
              "call /DoPut opens pass spoken empty end", "call /DoPut opens spoken end", "call /DoPut opens later end", "call /DoPut opens pass batch end",
              f"call {whole}"]
    lines += ["", "# As many frames as a call may have, and one more. Then as many batches as an upload may have, and one more.",
              f"new 5 {LOCATIONS[0]}", "call /DoPut opens 65534*empty end", "call /DoPut opens 65534*empty empty end", "call /DoPut opens 65535*empty end",
              "call /DoPut opens 1024*batch end", "call /DoPut opens 1025*batch end", "call /DoPut opens 1024*batch 3*empty end"]
    return lines


def large():
    """Uploads at the limit of 16 MiB, and far beyond it."""
    texts = schema({**TEXTS["fields"][0], "type_type": "Binary"})
    half = Upload(b"t", id_of(1), texts, [(1, [[bytes(4_000_000)]])])
    commands = [f"bytes opens {spelled(first_message(half))}"]
    message = data(*half.parts[0])
    front = message.removesuffix(bytes(4_000_000))
    commands.append(f"bytes many {spelled(front)} | 4000000 00")
    return ["# Batches of 4 MB each: four are an upload, five are too large, and so are twenty of them, of which none is kept.",
            f"# {ELSEWHERE}", "", *commands,
            f"new 5 {LOCATIONS[0]}", "call /DoPut opens 4*many end", "call /DoPut opens 5*many end", "call /DoPut opens 20*many end"]


def cuts():
    """Every beginning of a put, of a get and of a question."""
    commands, whole = put(W, "w")
    asked = {"t": descriptor("t"), "t1": bytes_field(1, ticket_text(b"t", 1))}
    lines = ["# Every beginning of a call is refused, and nothing is put.", f"# {ELSEWHERE}", "", *commands]
    lines += [f"bytes {name} {spelled(text)}" for name, text in asked.items()]
    return lines + [f"new 5 {LOCATIONS[0]}", f"cuts {whole}", "cuts /DoGet t1 end", "cuts /GetFlightInfo t end", "cuts /ListFlights empty end"]


def drawn():
    """Random calls to random services, many of which are refused."""
    draw = random.Random(20261125)
    known = {name: upload_of(text) for name, text in POOL.items()}
    lines, whole = ["# Drawn calls, in which messages are left out, said twice, swapped and cut.", f"# {ELSEWHERE}", ""], {}
    for name, upload in known.items():
        commands, whole[name] = put(upload, name)
        lines += commands
    tables = sorted({it.table.decode() for it in known.values()})
    for place, table in enumerate(tables):
        lines.append(f"bytes table{place} {spelled(descriptor(table))}")
        lines += [f"bytes ticket{place}.{version} {spelled(bytes_field(1, ticket_text(table.encode(), version)))}" for version in (1, 2, 3)]
    for _ in range(DRAWN):
        lines += ["", f"new {draw.randint(0, 6)} {' '.join(LOCATIONS[:draw.randint(0, 3)])}".rstrip()]
        lines += [f"call {call(draw, whole, len(tables))}" for _ in range(draw.randint(1, 8))]
    return lines


def call(draw, whole, tables):
    """A random call, complete or not."""
    table = draw.randrange(tables)
    asked = {
        "GetFlightInfo": f"table{table}", "GetSchema": f"table{table}", "ListFlights": "empty", "DoGet": f"ticket{table}.{draw.randint(1, 3)}",
    }
    method = draw.choice([it.decode() for it in METHODS] + 3 * ["DoPut"])
    parts = whole[draw.choice(sorted(whole))].split() if method == "DoPut" else ["/" + method, asked[method], "end"]
    if draw.random() < 0.3:
        place = draw.randrange(len(parts))
        parts[place : place + 1] = draw.choice([[], 2 * [parts[place]], ["end"], ["empty"], [draw.choice(parts)], ["/DoGet"]])
    return " ".join(parts)


# ---- calls one after another


def asked_over_pipes():
    """The bytes of puts, gets and questions, each of which is read to its end."""
    story = Story()
    for commands, _ in (put(it, name) for it, name in ((U, "u"), (C, "c"), (X, "x"), (Z, "z"))):
        for command in commands:
            story.tell(command)
    for name, text in (("t", descriptor("t")), ("none", descriptor("none")), *((f"t{it}", bytes_field(1, ticket_text(b"t", it))) for it in (1, 2, 3))):
        story.tell(f"bytes {name} {spelled(text)}")
    puts = {name: put(it, name)[1] for it, name in ((U, "u"), (C, "c"), (X, "x"), (Z, "z"))}
    calls = ["/GetFlightInfo t end", "/ListFlights empty end", puts["u"], "/DoGet t1 end", "/GetSchema t end", puts["u"], puts["c"], puts["z"]]
    calls += ["/DoGet t2 end", puts["x"], "/DoGet t2 end", "/GetFlightInfo t end", "/GetSchema none end", "/ListFlights empty end", "/DoGet t3 end"]
    return b"".join(map(story.text, calls))


def answered_over_pipes(text, is_conditional=False):
    """The frames of the answers to these calls."""
    service, out = Service(1_000_000, LOCATIONS, is_conditional=is_conditional), b""
    while text:
        messages, status, name, text = service.serve(text)
        out += b"".join(frame(0, it) for it in messages) + frame(END, bytes([status]) + name.encode())
    return out


def main():
    is_check, status = "--check" in sys.argv[1:], 0
    stories = {"rows.txt": rows(), "faults.txt": faults(), "large.txt": large(), "cuts.txt": cuts(), "drawn.txt": drawn()}
    made = {DATA / name: told(lines).encode() for name, lines in stories.items()}
    asked = asked_over_pipes()
    made |= {SERVER / "stdin": asked, SERVER / "stdout": answered_over_pipes(asked)}
    for file, text in made.items():
        if file.exists() and file.read_bytes() == text:
            continue
        if is_check:
            print(f"calls: {file.relative_to(CRATES)} differs from what tools/calls.py makes")
            status = 1
        else:
            file.write_bytes(text)
    return status


if __name__ == "__main__":
    show_help(__doc__)
    sys.exit(main())
