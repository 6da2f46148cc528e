#!/usr/bin/env python3
"""Tests what the models know of LargeBinary, LargeUtf8 and LargeList, ahead of the crates.

These are Binary, Utf8 and List with offsets of eight bytes (Apache Arrow Columnar Format, "Variable-size Binary Layout" and
"Variable-size List Layout"; Schema.fbs, the union `Type`, 19 to 21), and here they are called Large types. Where they are carried, every
upload and every value may have 67,108,864 bytes.

    tools/large_types.py --check   names what differs

The rows of tools/large_types/ were worked out by hand, in the notation of the stories of the crates; a command that ends in `-today`
is answered as the crates do today. Then batches are drawn. Each is laid out by batch_model.py, and by plain_layout.py apart from it, read
again, sliced and damaged, and compared with the same batch of Binary, Utf8 and List. So are the headers of their schemas, and uploads.
Each edit in tools/large_types/wrong makes a wrong model, which something that is drawn must show to be wrong."""
import itertools
import json
import random
import sys
from pathlib import Path
from types import ModuleType
from typing import NamedTuple

import batch_model
import headers_model
import tables
import tables_model
from batches import PATTERNS, drawn
from carried_types import LARGE
from edits import edited
from large_rows import stories, told
from plain_layout import batch_of_parts, has_large, parts_in, plain_parts, small_of
from tellers.batch import field_of
from toolbox import show_help
from wire_model import Faults

TOP = Path(__file__).resolve().parent.parent
ROWS, VECTORS = TOP / "tools" / "large_types", TOP / "crates" / "flatbuf_meta" / "vectors"
BATCHES, SCHEMAS, UPLOADS, FEW = 2000, 500, 200, 20
LEAVES = ("Int(8,true)", "Bool", "Null", "Binary", "Utf8", "FixedSizeBinary(3)", "LargeBinary", "LargeUtf8", "LargeUtf8")
WAYS, MOST_LEVELS = sorted(batch_model.WAYS), 4


class Differs(Exception):
    """What differs from what it has to be."""


def expect(holds, *said):
    """Raises `Differs` with these words, if it does not hold."""
    if not holds:
        raise Differs(" ".join(map(str, said)))


# ---- rows by hand


def check_rows():
    """Each row by hand has the results that the models give."""
    for name, story in stories().items():
        text = (ROWS / f"{name}.txt").read_text(encoding="utf-8")
        made = told(story, text.splitlines())
        for number, (line, other) in enumerate(itertools.zip_longest(text.splitlines(), made.splitlines()), 1):
            expect(line == other, f"{name}.txt, line {number}:", line, "is not", other)


# ---- drawn batches


class Drawn(NamedTuple):
    """A batch: the types of its columns, the number of its rows, and the cells of each column."""

    types: list
    rows: int
    columns: list

    def small(self):
        """The types with small ones in the places of Large ones."""
        return list(map(small_of, self.types))


def drawn_word(draw, levels):
    """A random type of at most so many levels."""
    if levels == 1 or draw.random() < 0.4:
        return draw.choice(LEAVES)
    kind = draw.choice(("LargeList", "LargeList", "List", "Struct", "FixedSizeList"))
    inside = [drawn_word(draw, levels - 1) for _ in range(draw.randrange(1, 4) if kind == "Struct" else 1)]
    size = [str(draw.randrange(3))] if kind == "FixedSizeList" else []
    return f"{kind}({','.join(size + inside)})"


def drawn_batch(draw):
    """A random batch with a Large type in it, of few rows or none; its first, last, every second or all rows may be null."""
    types = []
    while not any(map(has_large, types)):
        types = [batch_model.type_of(drawn_word(draw, MOST_LEVELS)) for _ in range(draw.choice((1, 1, 2, 3)))]
    rows, is_null = draw.choice((0, 1, 2, 3, 5, 8, 9, 17)), PATTERNS[draw.choice(sorted(PATTERNS))]
    nulls = draw.choice((0, 0.2, 0.5))
    columns = [[None if is_null(row, rows) else drawn(type, draw, nulls, 2) for row in range(rows)] for type in types]
    return Drawn(types, rows, columns)


def check_written(model, it):
    """What is written is the plain layout; and with offsets of four bytes it is what is written for the types without Large."""
    written, plain = model.canonical(it.types, it.rows, it.columns), plain_parts(it.types, it.columns, slice(0, it.rows))
    expect(written == batch_of_parts(plain, 8), "written in another way than plainly:", it)
    expect(model.lay_out(it.types, it.rows, it.columns) == written, "laid out in another way than written:", it)
    expect(model.meaning(it.types, *written) == it.columns, "written, and read as another batch:", it)
    small = batch_model.canonical(it.small(), it.rows, it.columns)
    expect(batch_of_parts(plain, 4) == small, "with narrow offsets another batch than of small types:", it)
    expect(batch_of_parts(parts_in(it.types, *small, 4), 8) == written, "small types with wide offsets are another batch:", it)


def check_layouts(model, it, draw):
    """In many layouts the cells are the same, with offsets of eight bytes and of four; and so are those of a slice of the rows."""
    ways, seed = draw.sample(WAYS, draw.randrange(len(WAYS) + 1)), draw.randrange(1 << 20)
    large = model.lay_out(it.types, it.rows, it.columns, ways, seed)
    expect(model.meaning(it.types, *large) == it.columns, "laid out, and read as another batch:", it, ways, seed)
    narrowed = batch_of_parts(parts_in(it.types, *large, 8), 4)
    expect(batch_model.meaning(it.small(), *narrowed) == it.columns, "another batch with narrow offsets:", it, ways, seed)
    small = batch_model.lay_out(it.small(), it.rows, it.columns, ways, seed)
    widened = batch_of_parts(parts_in(it.types, *small, 4), 8)
    expect(model.meaning(it.types, *widened) == it.columns, "another batch with wide offsets:", it, ways, seed)
    first, last = sorted(draw.randrange(it.rows + 1) for _ in range(2))
    columns = [cells[first:last] for cells in it.columns]
    sliced = batch_of_parts(plain_parts(it.types, it.columns, slice(first, last)), 8)
    expect(model.meaning(it.types, *sliced) == columns, "a slice that is read as another batch:", it, first, last)
    return parts_in(it.types, *large, 8)


# ---- damaged batches


def number_damaged(draw, parts):
    """An offset that is negative, one more or less, that of another item, or far away in four bytes."""
    numbers = draw.choice([it for it in parts.contents if isinstance(it, list)])
    if numbers:
        at = draw.randrange(len(numbers))
        numbers[at] = draw.choice((-1, numbers[at] + 1, numbers[at] - 1, draw.choice(numbers), (1 << 31) - 2, 1 - (1 << 31)))


def node_damaged(draw, parts):
    """A node of one item more or less, of too many or of none, or of another null count."""
    at = draw.randrange(len(parts.nodes))
    length, nulls = parts.nodes[at]
    parts.nodes[at] = draw.choice(((length + 1, nulls), (length - 1, nulls), (length, nulls + 1), ((1 << 24) + 1, nulls), (0, 0)))


def content_damaged(draw, parts):
    """A buffer without its last byte, or its last offset, or without any."""
    at = draw.randrange(len(parts.contents))
    parts.contents[at] = parts.contents[at][: draw.choice((-1, 0))]


def byte_damaged(draw, parts):
    """Another byte in a bitmap or in data: none that a text in UTF-8 has, one that a letter may end with, or zero."""
    places = [(at, place) for at, it in enumerate(parts.contents) if isinstance(it, bytes) for place in range(len(it))]
    if places:
        at, place = draw.choice(places)
        content = parts.contents[at]
        parts.contents[at] = content[:place] + draw.choice((b"\xff", b"\xff", b"\x80", b"\0")) + content[place + 1 :]


def count_damaged(draw, parts):
    """One node more, or one buffer less."""
    if draw.random() < 0.5:
        parts.nodes.append((0, 0))
    else:
        parts.contents.pop()


def check_damaged(model, it, parts, draw):
    """A damaged batch has the fault that it has with offsets of four bytes, or is still one, with the same cells. Returns that."""
    for _ in range(draw.choice((1, 1, 2))):
        draw.choice((number_damaged, number_damaged, node_damaged, content_damaged, byte_damaged, byte_damaged, count_damaged))(draw, parts)
    parts = parts._replace(rows=it.rows + draw.choice((0,) * 9 + (1,)))
    large, small = batch_of_parts(parts, 8), batch_of_parts(parts, 4)
    told = batch_model.meaning(it.small(), *small)
    expect(model.meaning(it.types, *large) == told, "damaged, with another fault than of small types:", it, large)
    return told


def check_far(model, it, draw):
    """An offset that differs from the right one in its upper four bytes alone falls, and a buffer that lacks a part of the last offset is
    too short, but for one of no bytes where there are no items."""
    head, body = model.canonical(it.types, it.rows, it.columns)
    parts = parts_in(it.types, head, body, 8)
    numbers = draw.choice([it for it in parts.contents if isinstance(it, list)])
    numbers[draw.randrange(len(numbers))] += draw.choice((1, 1 << 20, (1 << 31) - 1, -1, -(1 << 31))) << 32
    told = model.meaning(it.types, *batch_of_parts(parts, 8))
    expect(told == "OffsetsFall", "an offset in another four GiB is", told, it)
    at = draw.choice([at for at, content in enumerate(parts.contents) if isinstance(content, list)])
    place, length = head.buffers[at]
    short = head.buffers[:at] + ((place, length - draw.randrange(1, 9)),) + head.buffers[at + 1 :]
    told = model.meaning(it.types, head._replace(buffers=short), body)
    expect(told == (it.columns if short[at][1] == 0 else "BufferRange"), "offsets of", short[at][1], "bytes are", told, it)


def check_batch(model, draw):
    """Draws a batch, and checks all of that. Returns what the damaged one is told to be."""
    it = drawn_batch(draw)
    check_written(model, it)
    parts = check_layouts(model, it, draw)
    check_far(model, it, draw)
    return check_damaged(model, it, parts, draw)


# ---- headers


def names_in(columns):
    """The names of the types of fields and of those inside them, in the order in which they are written."""
    for it in columns:
        yield it["type_type"]
        yield from names_in(it["children"])


def schema_of(types, draw):
    """A schema of these types, with random names, whose fields may be null or not."""
    fields = [{**field_of(type), "name": draw.choice(("", "a", "\u20ac")), "nullable": draw.random() < 0.5} for type in types]
    return tables_model.bare({"fields": fields, "custom_metadata": []})


def faults_of(model, text, large):
    """The faults of a header, none if it is read."""
    try:
        return model.header_of(text, large) and set()
    except Faults as found:
        return found.names


def check_header(model, draw):
    """The header of a schema is that of the small types but for the numbers of its Large types; it is read only where these are carried,
    and their tables are not looked at."""
    it, seed = drawn_batch(draw), draw.randrange(1 << 20)
    schema, small = [schema_of(types, random.Random(seed)) for types in (it.types, it.small())]
    text, other = tables_model.schema_text(schema), tables_model.schema_text(small)
    places = [place for place, pair in enumerate(zip(text, other, strict=True)) if pair[0] != pair[1]]
    numbers = [LARGE[name] for name in names_in(schema["fields"]) if name in LARGE]
    expect([text[place] for place in places] == numbers, "another header than of small types:", schema)
    expect(model.header_of(text, True)["header"] == tables_model.schema_at(text, True) == schema, "written, and read as another:", schema)
    told = faults_of(model, text, False)
    expect(told == {f"Unsupported({number})" for number in numbers}, "today it is", told, schema)
    for place in places:
        # the number is at 9 of the field's table, and the reference to the type's table at 12
        text = text[: place + 3] + b"\xff" * 4 + text[place + 7 :]
    expect(model.header_of(text, True)["header"] == schema, "a table without parameters is looked at:", schema)


def check_children():
    """A LargeList has one child, and the two others have none."""
    inside = field_of(batch_model.type_of("Bool"))
    for name, most in itertools.product(LARGE, range(3)):
        column = {"type_type": name, "children": [inside] * most}
        told = faults_of(headers_model, tables_model.schema_text({"fields": [column]}), True)
        expect(told == (set() if most == (name == "LargeList") else {"BadHeader"}), name, "with", most, "children is", told)


def check_vectors():
    """Headers that the FlatBuffers compiler made of these types, which the crates refuse, are read as what they were made of."""
    for name, number in (("binary", 19), ("utf8", 20), ("list", 21)):
        file = VECTORS / f"refused_large_{name}.hex"
        text, said = bytes.fromhex(file.read_text(encoding="utf-8")), json.loads(file.with_suffix(".json").read_text(encoding="utf-8"))
        expect(faults_of(headers_model, text, False) == {f"Unsupported({number})"}, file.name, "is not refused")
        written = headers_model.written(headers_model.header_of(text, True))
        expect(written == headers_model.canonical.message(said), file.name, "is read as another header")


# ---- uploads and tables


def check_upload(model, draw):
    """An upload with a Large type is one only where these are carried. To a table of the small types it has another shape, and the other
    way round, though its cells are the same."""
    it, seed = drawn_batch(draw), draw.randrange(1 << 20)
    batches, schemas = [(it.rows, it.columns)], [schema_of(types, random.Random(seed)) for types in (it.types, it.small())]
    large, small = [model.Upload(b"t", tables.id_of(last), schema, batches) for last, schema in enumerate(schemas)]
    read = model.upload_of(large.text, True)
    expect(read is not None and (read.schema, read.batches) == (schemas[0], batches), "an upload that is read as another:", it)
    expect(model.upload_of(large.text) is None, "an upload with Large types is one today:", it)
    expect(model.upload_of(small.text).text == model.upload_of(small.text, True).text == small.text, "a small one is another:", it)
    for one, other in ((large, small), (small, large)):
        told = [model.outcome([one, other], upload) for upload in (one, other)]
        expect(told == ["Applied(1)", "SchemaMismatch"], "small and Large types in one table:", told, it)
    expect(model.answer([large, small], b"t", 1) == model.answer([large], b"t", 1), "a version with both:", it)


def upload_of_size(size, type_word):
    """An upload of so many bytes: of batches of one value each, of which the last one and the name of the table fill up what is left."""
    schema = schema_of([batch_model.type_of(type_word)], random.Random(1))
    longest, name = 4_000_000, tables.id_of(0)
    count = (size - 1000) // (longest + 300)

    def filled(table, last):
        return tables_model.Upload(table, name, schema, [(1, [[bytes(longest)]])] * count + [(1, [[bytes(last)]])])

    last = size - count * (longest + 300) - 1000
    last += (size - len(filled(b"t", last).text)) // 8 * 8
    found = filled(b"t" * (1 + size - len(filled(b"t", last).text)), last)
    expect(len(found.text) == size, "an upload of", len(found.text), "bytes")
    return found


def check_limits():
    """The most bytes of an upload: today's, and the greater one where Large types are carried, whatever types it has itself."""
    for size, type_word, today, with_large in (
        (1 << 24, "Binary", True, True), ((1 << 24) + 1, "Binary", False, True),
        (1 << 26, "LargeBinary", False, True), ((1 << 26) + 1, "LargeBinary", False, False),
    ):
        upload = upload_of_size(size, type_word)
        told = upload.is_taken(), upload.is_taken(large=True)
        expect(told == (today, with_large), "an upload of", size, "bytes is taken today and then:", told)
    too_long = tables_model.Upload(b"t", tables.id_of(0), upload.schema, [(1, [[bytes(1 << 22)]])])
    expect(not too_long.is_taken(large=True), "a frame is longer")


# ---- wrong models


CHECKED = {"batch_model": (check_batch, BATCHES), "headers_model": (check_header, SCHEMAS), "tables_model": (check_upload, UPLOADS)}
RIGHT = {"batch_model": batch_model, "headers_model": headers_model, "tables_model": tables_model}


def draw_of(name, number):
    return random.Random(f"{name} {number}")


def check_drawn():
    """Checks all that is drawn. Each fault of a column is told of some damaged batch."""
    told = []
    for name, (check, count) in CHECKED.items():
        told += [check(RIGHT[name], draw_of(name, number)) for number in range(count)]
    for fault in ("BufferRange", "NullCount", "OffsetsFall", "ChildShort", "NotUtf8"):
        expect(told.count(fault) >= 20, "too few damaged batches are", fault)


def is_caught(name, text, count):
    """Whether one of this many drawn things shows that a model of this text is wrong."""
    model, (check, _) = ModuleType(name), CHECKED[name]
    exec(compile(text, name, "exec"), model.__dict__)
    for number in range(count):
        try:
            check(model, draw_of(name, number))
        except Exception:
            return True
    return False


def check_wrong():
    """Each edit makes a wrong model, and the same model without it is right."""
    for edit in sorted((ROWS / "wrong").glob("*.edit")):
        ((file, text),) = edited(TOP, edit).items()
        expect(is_caught(file.stem, text, CHECKED[file.stem][1]), "nothing that is drawn shows what is wrong with", edit.stem)
    for name in CHECKED:
        text = (TOP / "tools" / f"{name}.py").read_text(encoding="utf-8")
        expect(not is_caught(name, text, FEW), f"a copy of {name}.py is wrong")


def main():
    try:
        check_rows()
        check_children()
        check_vectors()
        check_limits()
        check_drawn()
        check_wrong()
    except Differs as found:
        print(f"large_types: {found}")
        return 1
    return 0


if __name__ == "__main__":
    show_help(__doc__)
    sys.exit(main())
