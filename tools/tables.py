#!/usr/bin/env python3
"""Makes the stories of uploads, tickets and tables in crates/table_stories/data from the model in tables_model.py.

They are `lists.txt`, `cuts.txt` and `tickets.txt`; `examples.txt` and `borders.txt` were worked out by hand.

    tools/tables.py --write   writes them
    tools/tables.py --check   names those that differ; works out those made by hand again, and names those that differ; and tests
                              on random lists, in the model, what is promised about tables that grow"""
import hashlib
import random
import sys
from pathlib import Path

from batches import bytes_of, spelled
from tables_model import Upload, answer, effective, latest, outcome, table_names, ticket_of, ticket_text, upload_of
from toolbox import show_help
from wire_model import bytes_field, number_field, varint

DATA = Path(__file__).resolve().parent.parent / "crates" / "table_stories" / "data"
BY_HAND = ("examples.txt", "borders.txt")
# how many lists are drawn for the stories, and how many more to test the model
DRAWN, TRIED = 1500, 3000


# ---- stories, with results as the program prints them


def md5(text):
    return hashlib.md5(text).hexdigest()


class Story:
    """The bytes by name, and the values that were taken. With `large`, LargeBinary, LargeUtf8 and LargeList are carried; with
    `is_conditional` bytes may be of an upload that expects a version."""

    def __init__(self, large=False, is_conditional=False):
        self.named, self.values, self.large, self.is_conditional = {}, [], large, is_conditional

    def known(self, text):
        return known(text, self.large, self.is_conditional)

    def uploads(self):
        return [it for it in map(self.known, self.values) if it]

    def upload(self, words):
        name, _, digits = words.partition(" ")
        front, _, back = digits.partition("|")
        count, _, more = back.strip().partition(" ")
        self.named[name] = bytes_of(front) + int(count or 0) * bytes_of(more)
        return told_of(self.known(self.named[name]))

    def cut(self, words):
        name, count = words.split()
        return told_of(self.known(self.named[name][: int(count)]))

    def change(self, words):
        name, place, byte = words.split()
        return told_of(self.known(changed(self.named[name], int(place), int(byte))))

    def ticket(self, words):
        version, _, table = words.partition(" ")
        text = ticket_text(table.encode(), int(version))
        return [text.hex() if text else "no ticket"]

    def read_ticket(self, words):
        asked = ticket_of(bytes_of(words))
        return [f"version {asked[1]} of {asked[0].decode()}" if asked else "BadTicket"]

    def new(self, _):
        self.values = []
        return []

    def take(self, words):
        self.values += [b"" if it == "noop" else self.named[it] for it in words.split()]
        return [f"taken {len(self.values)}"]

    def outcome(self, words):
        uploads = self.uploads()
        return [" ".join(outcome(uploads, self.known(self.named[it])) for it in words.split())]

    def tables(self, _):
        return [" ".join(it.decode() for it in table_names(self.uploads())) or "none"]

    def latest(self, table):
        it = latest(self.uploads(), table.encode())
        return [f"{table} {it[0]}, rows {it[1]}, bytes {it[2]}, schema md5 {md5(it[3])}" if it else "none"]

    def answer(self, words):
        frames = self.frames_asked(words)
        if frames is None:
            return ["none"]
        text = b"".join(frames)
        return [f"{len(text)} bytes in frames of {' '.join(str(len(it)) for it in frames)}, md5 {md5(text)}"]

    def frames(self, words):
        frames = self.frames_asked(words)
        return ["none"] if frames is None else [spelled(it) for it in frames]

    def frames_asked(self, words):
        version, _, table = words.partition(" ")
        return answer(self.uploads(), table.encode(), int(version))

    def tell(self, command):
        word, _, rest = command.partition(" ")
        return getattr(self, word.replace("-", "_"))(rest)


KNOWN = {}


def known(text, large=False, is_conditional=False):
    """The upload that the bytes encode, which is decoded once."""
    if (text, large, is_conditional) not in KNOWN:
        KNOWN[text, large, is_conditional] = upload_of(text, large, is_conditional)
    return KNOWN[text, large, is_conditional]


def changed(text, place, byte):
    return text[:place] + bytes([byte]) + text[place + 1 :]


def told_of(upload):
    """The line about an upload, None if bytes are none."""
    if upload is None:
        return ["NotAnUpload"]
    columns = "".join(" " + column["name"] for column in upload.schema["fields"])
    told = f"{upload.table.decode()} {upload.id.hex()}, schema of {len(upload.schema_text)} bytes:{columns}"
    expects = "" if upload.expected is None else f", expects {upload.expected}"
    return [f"{told}, batches {len(upload.batches)}{expects}"]


def told(lines, is_conditional=False):
    """The lines of a story, each command with its result."""
    story, out = Story(is_conditional=is_conditional), []
    for line in lines:
        if not line.startswith("  "):
            out.append(line)
            if line and not line.startswith("#"):
                out += ["  " + it for it in story.tell(line)]
    return "\n".join(out) + "\n"


# ---- uploads for the random lists


def column(name, type_word="Int", said=None, nullable=True, entries=(), children=()):
    said = {"bitWidth": 8, "is_signed": True} if said is None else said
    shown = {"name": name, "nullable": nullable, "type_type": type_word, "type": said, "children": list(children)}
    return {**shown, "custom_metadata": pairs(entries)}


def pairs(entries):
    return [{"key": key, "value": value} for key, value in entries]


def schema(*columns, entries=()):
    return {"fields": list(columns), "custom_metadata": pairs(entries)}


def integer(bits, is_signed=True):
    return schema(column("a", said={"bitWidth": bits, "is_signed": is_signed}))


def numbers(*values):
    """A batch of one column of Int8."""
    return len(values), [[None if it is None else it.to_bytes(1, "little", signed=True) for it in values]]


A = schema(column("a"))
TAGGED = schema(column("a"), entries=[("k", "v")])
NAMED = schema(column("a", entries=[("unit", "m")]))
PAIR = column("p", "Struct_", {}, children=[column("x"), column("y", entries=[("k", "")])])
BARE_PAIR = column("p", "Struct_", {}, children=[column("x"), column("y")])
TEXTS = schema(column("s", "Utf8", {}))
ROW = numbers(1, None, 3)


def id_of(last):
    return bytes([*range(15), last])


def pool():
    """Uploads by name: to few tables, with few ids, of equal and of different shapes."""
    made = {
        "u": Upload(b"t", id_of(0x0F), A, [ROW]),
        "x": Upload(b"t", id_of(0x3F), A, [ROW]),
        "c": Upload(b"t", id_of(0x0F), A, [numbers(4)]),
        "z": Upload(b"t", id_of(0x5F), schema(column("b")), [ROW]),
        "m": Upload(b"t", id_of(0x6F), TAGGED, [ROW]),
        "f": Upload(b"t", id_of(0x7F), NAMED, [ROW]),
        "e": Upload(b"t", id_of(0x8F), A, []),
        "d": Upload(b"t", id_of(0x9F), A, [numbers(1), numbers(), numbers(*range(-9, 9))]),
        "n": Upload(b"t", id_of(0xAF), schema(column("a", nullable=False)), [numbers(1)]),
        "i": Upload(b"t", id_of(0xBF), integer(16), [(1, [[b"\1\0"]])]),
        "g": Upload(b"t", id_of(0xCF), integer(8, False), [numbers(1)]),
        "o": Upload(b"t", id_of(0xDF), schema(), [(3, []), (0, [])]),
        "k": Upload(b"t", id_of(0x6F), A, [ROW]),
        "w": Upload(b"sales.2026", id_of(0x1F), TEXTS, [(2, [[b"joe", "\u20ac".encode()]])]),
        "v": Upload(b"sales.2026", id_of(0x2F), TEXTS, [(1, [[None]]), (0, [[]])]),
        "r": Upload(b"sales.2026", id_of(0x0F), TEXTS, []),
        "q": Upload(b"sales.2026", id_of(0x4F), A, [ROW]),
        "p": Upload(b"T", id_of(0xEF), schema(PAIR), [(1, [[(b"\1", None)]])]),
        "b": Upload(b"T", id_of(0xFF), schema(BARE_PAIR), [(2, [[(b"\1", b"\2"), None]])]),
        "h": Upload(b"T", id_of(0x3F), schema(BARE_PAIR), []),
    }
    return {name: it.text for name, it in made.items()}


def junk():
    """Bytes that are no upload, by name: u with one byte less and more, with its fields in another order, and so on."""
    u = Upload(b"t", id_of(0x0F), A, [ROW])
    parts = [bytes_field(1, u.table), bytes_field(2, u.id), bytes_field(3, u.schema_text)]
    header, body = u.parts[0]
    batch = bytes_field(4, bytes_field(1, header) + bytes_field(2, body))
    return {
        "j0": b"\xff", "j1": u.text[:-1], "j2": u.text + b"\0", "j3": b"".join([parts[1], parts[0], parts[2], batch]),
        "j4": b"".join([*parts, bytes_field(4, bytes_field(2, body) + bytes_field(1, header))]),
        "j5": b"".join([*parts, bytes_field(4, bytes_field(1, header) + bytes_field(2, body + bytes(8)))]),
        "j6": b"".join([bytes_field(1, b"a/b"), *parts[1:], batch]),
        "j7": b"".join([parts[0], bytes_field(2, u.id[:15]), parts[2], batch]),
        "j8": u.text + number_field(5, 1), "j9": b"".join([parts[0], parts[0], *parts[1:], batch]),
    }


POOL, JUNK = pool(), junk()


def named(names):
    return [f"upload {name} {spelled(text)}" for name, text in names.items()]


# ---- random lists


def drawn(draw):
    """The names of some uploads, and a list of names of values: mostly these, so that many repeat, and few others."""
    few = draw.sample(sorted(POOL), draw.randint(1, 7))
    others = ["noop", draw.choice(sorted(JUNK))] if draw.random() < 0.5 else []
    return few, [draw.choice(few + others) for _ in range(draw.randint(0, 12))]


def list_commands(draw):
    few, values = drawn(draw)
    cut = draw.randint(0, len(values))
    lines = ["", "new"]
    lines += ["take " + " ".join(it) for it in (values[:cut], values[cut:]) if it]
    lines += ["outcome " + " ".join(few), "tables"]
    tables = sorted({upload_of(POOL[it]).table.decode() for it in few})
    for table in tables:
        lines.append(f"latest {table}")
        lines.append(f"answer {draw.randint(1, 4)} {table}")
    return lines


def lists():
    draw = random.Random(6)
    lines = ["# Uploads, bytes that are none, and drawn lists of them that tables take: what is told of each upload then, which tables",
             "# there are, and how long the frames of versions are. The notation is that of examples.txt. Made by tools/tables.py, and",
             "# not by hand.", "", *named({**POOL, **JUNK})]
    for _ in range(DRAWN):
        lines += list_commands(draw)
    return lines


# ---- bytes near those of an upload


def cuts():
    u, d = POOL["u"], POOL["d"]
    lines = ["# The beginnings of the upload u, of one batch, and of d, of three batches, and u with one bit changed, each in turn: few of",
             "# these are uploads too. The notation is that of examples.txt. Made by tools/tables.py, and not by hand.", "", *named({"u": u, "d": d})]
    lines += [f"cut u {size}" for size in range(len(u) + 1)] + [f"cut d {size}" for size in range(len(d) + 1)]
    return lines + [f"change u {place} {byte ^ 1 << bit}" for place, byte in enumerate(u) for bit in range(8)]


def long_varint(number):
    """The number in one byte more than it needs."""
    short = varint(number)
    return short[:-1] + bytes([short[-1] | 128, 0])


def tickets():
    lines = ["# Tickets that are written, and bytes near theirs, of which few are tickets. The notation is that of examples.txt. Made by",
             "# tools/tables.py, and not by hand.", ""]
    names = ["t", "sales", "a.b-c_D9", "x" * 64, "x" * 65, "", "a/b", "a b", "\u00e9"]
    versions = [0, 1, 3, 127, 128, 16384, 2**32, 2**63, 2**64 - 1]
    lines += [f"ticket {version} {name}".rstrip() if name else f"ticket {version}" for name in names for version in versions]
    near = []
    for table, version in ((b"t", 1), (b"sales", 3), (b"x" * 64, 2**64 - 1), (b"a.b", 300)):
        text = ticket_text(table, version)
        front, back = bytes_field(1, table), number_field(2, version)
        near += [text[:size] for size in range(len(text))]
        near += [changed(text, place, byte ^ 1 << bit) for place, byte in enumerate(text[:12]) for bit in range(8)]
        near += [back + front, front + front + back, front + back + back, front + long_varint(16) + varint(version)]
        near += [front + varint(16) + long_varint(version), text + b"\0", text + number_field(3, 1)]
        near.append(b"\x0a" + long_varint(len(table)) + table + back)
    return lines + [f"read-ticket {it.hex()}".rstrip() for it in dict.fromkeys(near)]


# ---- what is promised about tables that grow, tested in the model


def is_grown(before, after, names):
    """Whether every known version and outcome stays the same when more uploads come."""
    for upload in names:
        if outcome(before, upload) not in ("Unknown", outcome(after, upload)):
            return False
        versions = range(1, len(effective(before, upload.table)) + 1)
        if any(answer(before, upload.table, it) != answer(after, upload.table, it) for it in versions):
            return False
    return True


def faults_tried():
    draw, faults = random.Random(7), 0
    for _ in range(TRIED):
        few, values = drawn(draw)
        uploads = [it for it in (known({**POOL, **JUNK}.get(name, b"")) for name in values) if it]
        cut = draw.randint(0, len(uploads))
        faults += not is_grown(uploads[:cut], uploads, [known(POOL[it]) for it in few])
    return faults


def main():
    is_check, status = "--check" in sys.argv[1:], 0
    made = {"lists.txt": told(lists()), "cuts.txt": told(cuts()), "tickets.txt": told(tickets())}
    for name in BY_HAND:
        made[name] = told((DATA / name).read_text(encoding="utf-8").splitlines())
    for name, text in made.items():
        file = DATA / name
        if file.exists() and file.read_text(encoding="utf-8") == text:
            continue
        if is_check or name in BY_HAND:
            print(f"tables: {name} differs from what tools/tables.py makes")
            status = 1
        else:
            file.write_text(text, encoding="utf-8")
    if faults_tried():
        print("tables: in random lists, a known version or outcome changes when more uploads come")
        status = 1
    return status


if __name__ == "__main__":
    show_help(__doc__)
    sys.exit(main())
