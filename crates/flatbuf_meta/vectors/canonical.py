#!/usr/bin/env python3
"""Lays out the one text that is written of a header (docs/FORMATS.md, "How headers are written").

    python3 canonical.py [--check]     anywhere; not a part of the gate

ours/NAME.hex is the text of NAME.json, for each header that can be written: none that is refused, and no batch that is
compressed or has more than 512 nodes. Then stories.py makes the stories of them. With --check it changes nothing, and its exit
status is 1 where a file is another one.
An object is here a function that writes it, and then all that it refers to, behind a text, and returns the object's place.
"""
import json
import sys

sys.dont_write_bytecode = True
from make import HERE, TYPES, is_written, write_hex

NUMBERS = dict(zip(TYPES, (1, 4, 5, 6, 12, 13, 2, 3, 7, 8, 9, 10, 15, 16, 18), strict=True))
VALUES = {"Date": "DAY MILLISECOND", "FloatingPoint": "HALF SINGLE DOUBLE"}  # and the units of the other types


def number(value, size):
    return value.to_bytes(size, "little", signed=value < 0)


def placed(content, multiple, shift=0, inside=(), vtable=b""):
    """The object of these bytes, which so far behind its place has such a multiple, and the objects that its cells refer to."""
    def write(text):
        text += bytes(-(len(text) + len(vtable) + shift) % multiple) + vtable
        place = len(text)
        text += content
        for cell, write_inside in inside:
            text[place + cell:place + cell + 4] = number(write_inside(text) - place - cell, 4)
        return place
    return write


def string(value):
    return placed(number(len(value.encode()), 4) + value.encode() + b"\0", 4)


def structs(pairs, *slots):
    return placed(number(len(pairs), 4) + b"".join(number(pair.get(slot, 0), 8) for pair in pairs for slot in slots), 8, 4)


def references(objects):
    cells = [(4 + 4 * index, each) for index, each in enumerate(objects)]
    return placed(number(len(objects), 4) + bytes(4 * len(objects)), 4, 0, cells)


def table(size, *fields):
    """A field is its place in the table, and its bytes, or the object that it refers to, or None where it is absent."""
    numbers = [4 + 2 * len(fields), size, *(0 if content is None else cell for cell, content in fields)]
    content = bytearray(number(numbers[0], 4) + bytes(size - 4))
    for cell, value in fields:
        if isinstance(value, bytes):
            content[cell:cell + len(value)] = value
    inside = [(cell, value) for cell, value in fields if callable(value)]
    return placed(content, 8, 0, inside, b"".join(number(each, 2) for each in numbers))


def parameter(name, slot, value):
    if slot in ("unit", "precision") and isinstance(value, str):
        return number(VALUES.get(name, "SECOND MILLISECOND MICROSECOND NANOSECOND").split().index(value), 2)
    if slot == "timezone":
        return None if value is None else string(value)
    return number(int(value), 1 if slot == "is_signed" else 4)


def metadata(holder):
    pairs = [(string(entry.get("key", "")), string(entry.get("value", ""))) for entry in holder.get("custom_metadata", [])]
    return references([table(12, (4, key), (8, value)) for key, value in pairs]) if pairs else None


def column(field):
    name, said = field["type_type"], field.get("type", {})
    values = [parameter(name, slot, said.get(slot, default)) for slot, default in TYPES[name].items()]
    cells = [(4 + 4 * index, value) for index, value in enumerate(values)]
    inside = references([column(child) for child in field.get("children", [])])
    return table(
        24, (4, string(field.get("name", ""))), (8, number(int(field.get("nullable", False)), 1)), (9, number(NUMBERS[name], 1)),
        (12, table(4 + 4 * len(cells), *cells)), (0, None), (16, inside), (20, metadata(field)),
    )


def message(said):
    """The text of a header, in hexadecimal."""
    header, body = said["header"], said.get("bodyLength", 0)
    if said["header_type"] == "Schema":
        columns = references([column(field) for field in header.get("fields", [])])
        of_type, body, inside = 1, 0, table(12, (0, None), (4, columns), (8, metadata(header)))
    else:
        nodes = structs(header.get("nodes", []), "length", "null_count")
        buffers = structs(header.get("buffers", []), "offset", "length")
        of_type, inside = 3, table(24, (8, number(header.get("length", 0), 8)), (4, nodes), (16, buffers))
    text = bytearray()
    top = table(24, (4, number(4, 2)), (6, number(of_type, 1)), (8, inside), (16, number(body, 8)))
    placed(bytes(4), 4, 0, [(0, top)])(text)
    return (text + bytes(-len(text) % 8)).hex()


def main():
    status = 0
    for source in sorted(HERE.glob("*.json")):
        if not is_written(source):
            continue
        digits, file = message(json.loads(source.read_text("utf-8"))), HERE / f"ours/{source.stem}.hex"
        if "--check" not in sys.argv[1:]:
            write_hex(file, digits)
        elif "".join(file.read_text("utf-8").split()) != digits:
            print(f"canonical: {file.name} is another text")
            status = 1
    return status


if __name__ == "__main__":
    sys.exit(main())
