"""Writes headers of messages as FlatBuffers: the canonical ones of schemas and batches, by
crates/flatbuf_meta/vectors/canonical.py; and others, which may share tables (FlatBuffers, "FlatBuffer Internals")."""
import sys
from pathlib import Path

TOP = Path(__file__).resolve().parent.parent
sys.dont_write_bytecode = True
sys.path.append(str(TOP / "crates" / "flatbuf_meta" / "vectors"))

import canonical
from canonical import number
from make import TYPES

# ---- canonical texts


def parameter(word):
    """A type's parameter by its word: a dash is an absent one, and a text is in quotation marks."""
    if word in ("-", "true", "false"):
        return {"-": None, "true": True, "false": False}[word]
    if word.startswith('"'):
        return word[1:-1]
    return int(word) if word.lstrip("-").isdigit() else word


def field(type_name, parameters=(), children=(), name="", nullable=False):
    """A field with the names of Schema.fbs; its parameters are given as in stories."""
    values = dict(zip(TYPES[type_name], map(parameter, parameters)))
    if type_name == "Time":
        values["bitWidth"] = 32 if parameters[0] in ("SECOND", "MILLISECOND") else 64
    return {"name": name, "nullable": nullable, "type_type": type_name, "type": values, "children": list(children)}


def schema_text(fields):
    """The text of a schema of these fields, without metadata, in hexadecimal."""
    return canonical.message({"header_type": "Schema", "header": {"fields": fields}})


def pairs(items, *names):
    return canonical.structs([dict(zip(names, item)) for item in items], *names)


def batch_text(length, nodes, buffers, compressed, body_length):
    """The text of a batch's header, in hexadecimal: the canonical one, or for a compressed batch one whose compression is an empty
    table."""
    placed = [(8, number(length, 8)), (4, pairs(nodes, "length", "null_count")), (16, pairs(buffers, "offset", "length"))]
    batch = canonical.table(28, *placed, (20, canonical.table(4))) if compressed else canonical.table(24, *placed)
    top = canonical.table(24, (4, number(4, 2)), (6, number(3, 1)), (8, batch), (16, number(body_length, 8)))
    text = bytearray()
    canonical.placed(bytes(4), 4, 0, [(0, top)])(text)
    return (text + bytes(-len(text) % 8)).hex()


# ---- other texts


NONE = ("-", 0)  # a field of a table that is absent


class Text:
    """A text that is written from its last byte to its first, since references lead forward. A part that has been written is
    identified by the number of bytes from its first byte to the end."""

    def __init__(self):
        self.bytes = b""

    def put(self, content):
        self.bytes = content + self.bytes
        return len(self.bytes)

    def number(self, value, size):
        return self.put((value % 256**size).to_bytes(size, "little"))

    def reference(self, target):
        return self.number(len(self.bytes) + 4 - target, 4)

    def table(self, *fields):
        """A table, after its vtable. A field is absent (`-`), has a number (`=`), or refers to a part that has been written (`>`).
        It has eight bytes, of which a reader uses the first few."""
        for kind, value in reversed(fields):
            self.number(len(self.bytes) + 8 - value if kind == ">" else value, 8)
        size, own_size = 8 * len(fields) + 4, 2 * len(fields) + 4
        place = self.number(own_size, 4)
        slots = [0 if kind == "-" else 4 + 8 * index for index, (kind, _) in enumerate(fields)]
        self.put(b"".join(slot.to_bytes(2, "little") for slot in (own_size, size, *slots)))
        return place

    def vector(self, *targets):
        """A vector of references to parts that have been written."""
        behind = len(self.bytes) + 4 * len(targets)
        references = [behind - 4 * index - target for index, target in enumerate(targets)]
        self.put(b"".join(it.to_bytes(4, "little") for it in references))
        return self.number(len(targets), 4)

    def string(self, content):
        self.put(content)
        return self.number(len(content), 4)

    def schema(self, fields, entries):
        """The whole message of a schema, whose vectors of fields and of entries of metadata have been written."""
        schema = self.table(NONE, (">", fields), (">", entries))
        message = self.table(("=", 4), ("=", 1), (">", schema))
        self.reference(message)
        return self.bytes
