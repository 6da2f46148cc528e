"""A client of the Felzoren dataset service: one file, which needs only Python's standard library (3.8 or newer).

    import felzoren

    client = felzoren.connect("127.0.0.1:42000", timeout=10)
    client.put("sales", [{"shop": "Bern", "sold": 3}, {"shop": "Zürich", "sold": None}])
    client.get("sales").to_pylist()

A table grows by uploads. Each has an id, and makes one version of its table, however often it is put. A call ends with a result, with
`Refused` (the service refused it, and says why), with `BadAnswer` (what came back is no answer), or with `OSError` (the connection
failed, or the timeout is over). Where a put's exception leaves open whether the upload was taken, it is `Undecided` too.

The layers of the file, from the wire upwards: fields, frames, FlatBuffers, types, headers, values, columns, tables, inputs,
connections, calls. The client does not trust what a service sends: each layer raises `BadAnswer` if lengths, counts, places, limits or
texts are not as docs/FORMATS.md says, before it allocates memory for what they announce."""
import array
import contextlib
import datetime
import decimal
import itertools
import json
import numbers
import os
import re
import reprlib
import selectors
import socket
import struct
import sys
import threading
import time
from collections import namedtuple
from typing import (Any, BinaryIO, Callable, Dict, Iterable, Iterator, List, Literal, Mapping, NamedTuple, Optional, Protocol, Sequence,
                    Tuple, TypeVar, Union)

__all__ = ["Ack", "BadAnswer", "Behind", "Client", "Column", "DataType", "Field", "Info", "RecordBatch", "Refused", "Schema", "Table",
           "Ticket", "Undecided", "Upload", "connect", "connect_files", "infer_schema"]
__version__ = "0.1.0"

# The service's limits: bytes of a frame's payload and of an upload, batches of an upload, rows of a batch, values of a column.
MAX_FRAME_BYTES = 4_194_304
MAX_UPLOAD_BYTES = 16_777_216
MAX_BATCHES = 1_024
MAX_ROWS = 1_048_576
MAX_VALUES = 16_777_216
# The limits of a schema: levels and fields, entries of metadata, and bytes of names, time zones, keys and values.
MAX_DEPTH = 16
MAX_FIELDS = 512
MAX_METADATA_ENTRIES = 4_096
MAX_TEXT_BYTES = 1_048_576
# The most fields of a received Flight message: far more than any has.
MAX_MESSAGE_FIELDS = 65_536
# How many rows `put` puts into a batch, if they fit, and the most bytes of an answer, if `connect` is given no other limit.
BATCH_ROWS = 65_536
MAX_ANSWER_BYTES = 1 << 30
# How many seconds `get` and `info` wait for a version if they are given no other number, and the pauses between two questions: the first
# ones, and each further one.
WAIT_SECONDS = 10.0
FIRST_PAUSES, LAST_PAUSE = (0.05, 0.1, 0.2, 0.4, 0.8), 1.0

# gRPC's names of statuses, by their numbers from 0 on ("Status codes and their use in gRPC").
# `FINAL_STATUSES` are those with which the service refuses an upload for good: it was not taken.
STATUSES = """OK CANCELLED UNKNOWN INVALID_ARGUMENT DEADLINE_EXCEEDED NOT_FOUND ALREADY_EXISTS PERMISSION_DENIED RESOURCE_EXHAUSTED
    FAILED_PRECONDITION ABORTED OUT_OF_RANGE UNIMPLEMENTED INTERNAL UNAVAILABLE DATA_LOSS UNAUTHENTICATED""".split()
FINAL_STATUSES = (3, 5, 6, 9, 12)


class Refused(Exception):
    """The service refused the call: `status` is gRPC's, and `name` the service's, such as `NoTable` or `Conflict`. For a put, `id` is
    the upload's.

    >>> try:
    ...     client.get("nothing")
    ... except felzoren.Refused as refused:
    ...     print(refused.name, refused.status)
    NoTable 5
    """

    id: Optional[str] = None
    status: int
    name: str

    def __init__(self, status: int, name: str) -> None:
        super().__init__(status, name)
        self.status, self.name = status, name

    def __str__(self) -> str:
        return f"{self.name} ({self.status}{' ' + STATUSES[self.status] if self.status < len(STATUSES) else ''})"


class BadAnswer(Exception):
    """What came back is no answer to the call. For a put, `id` is the upload's."""

    id: Optional[str] = None


class Undecided(Exception):
    """A put ended, and its upload may have been taken or may still be: the service refused it by a fault of its own, such as
    `Unavailable`, `Down` or `JournalFull`, or the connection was lost, or what came back is no answer. Put it again with its `id`: it
    counts once, however often it is put.

    >>> try:
    ...     ack = client.put("sales", rows)
    ... except felzoren.Undecided as undecided:
    ...     ack = client.put("sales", rows, id=undecided.id)

    It is a `Refused`, a `BadAnswer` or an `OSError` too, of the class and with the attributes of `fault`, which says what happened."""

    id: str
    fault: Exception

    def __str__(self) -> str:
        return f"{self.fault}; the upload may have been taken, or may still be: put it again with id={self.id!r}, and it counts once"

    def __reduce__(self) -> Tuple[Any, ...]:
        return undecided, (self.fault, self.id)  # its class is made by each call, so pickle can't name it


def undecided(fault, id):
    """The fault of a put as one that is `Undecided` besides what it is, so that whoever catches it by its own class still does."""
    kind = type(fault)
    both = type(f"Undecided{kind.__name__}", (Undecided, kind), {})
    found = both.__new__(both, *fault.args)
    vars(found).update(vars(fault), id=id, fault=fault)
    return found


class Behind(Exception):
    """The node that was asked does not have a version yet that `at_least` asked for, though it was waited for: it has `version` of
    `table`, or none of it, which is 0. It can be asked again, or another node can.

    >>> try:
    ...     client.get("sales", at_least=2, wait=0.1)
    ... except felzoren.Behind as behind:
    ...     print(behind)
    the node has version 1 of sales, and not yet version 2
    """

    table: str
    at_least: int
    version: int

    def __init__(self, table: str, at_least: int, version: int) -> None:
        super().__init__(table, at_least, version)
        self.table, self.at_least, self.version = table, at_least, version

    def __str__(self) -> str:
        found = f"version {self.version}" if self.version else "no version"
        return f"the node has {found} of {self.table}, and not yet version {self.at_least}"


def check(holds, why):
    """Raises `BadAnswer` if a condition on what was received does not hold."""
    if not holds:
        raise BadAnswer(why)


# ---- fields (Protocol Buffers, "Encoding")


def varint(number):
    out = bytearray()
    while number > 127:
        out.append(number & 127 | 128)
        number >>= 7
    out.append(number)
    return bytes(out)


def number_field(number, value):
    """A field with a number, which is left out if it is 0."""
    return varint(number * 8) + varint(value) if value else b""


def bytes_field(number, content):
    return varint(number * 8 + 2) + varint(len(content)) + content


def read_varint(text, place):
    """A number of at most ten bytes and 64 bits, and the place after it."""
    number = 0
    for shift in range(0, 70, 7):
        check(place < len(text), "CutShort")
        byte = text[place]
        place, number = place + 1, number | (byte & 127) << shift
        if byte < 128:
            check(number < 1 << 64, "BadVarint")
            return number, place
    raise BadAnswer("BadVarint")


class Message:
    """The fields of a received message, of all its pieces: for each field number the contents, numbers and bytes, in order."""

    def __init__(self, *pieces):
        self.found, self.count = {}, 0
        for piece in pieces:
            self.read(piece)

    def read(self, text):
        place = 0
        while place < len(text):
            key, place = read_varint(text, place)
            number, wire_type = key >> 3, key & 7
            check(1 <= number < 1 << 29, "BadKey")
            check(wire_type in (0, 1, 2, 5), "BadWireType")
            content, place = read_varint(text, place) if wire_type in (0, 2) else ({1: 8, 5: 4}[wire_type], place)
            if wire_type:
                check(content <= len(text) - place, "CutShort")
                content, place = text[place : place + content], place + content
            self.found.setdefault(number, []).append((wire_type, content))
            self.count += 1
            check(self.count <= MAX_MESSAGE_FIELDS, "a message has too many fields")

    def all(self, number, wire_type=2):
        """The contents of a repeated field."""
        found = self.found.get(number, [])
        check(all(it[0] == wire_type for it in found), "BadWireType")
        return [content for _, content in found]

    def bytes(self, number):
        return (self.all(number) or [b""])[-1]

    def text(self, number):
        return (self.texts(number) or [""])[-1]

    def texts(self, number):
        return [utf8(it) for it in self.all(number)]

    def number(self, number):
        return (self.all(number, 0) or [0])[-1]

    def message(self, number):
        """An embedded message, whose pieces are merged."""
        return Message(*self.all(number))


def utf8(content):
    try:
        return str(content, "utf-8")
    except UnicodeDecodeError:
        raise BadAnswer("NotUtf8") from None


# ---- frames (gRPC over HTTP/2, "Length-Prefixed-Message")

END = 0x80
PATH = b"/arrow.flight.protocol.FlightService/"


def frame(flag, payload):
    return struct.pack(">BI", flag, len(payload)) + payload


def request(method, messages):
    """The frames of the request for a call."""
    return b"".join(frame(0, it) for it in (PATH + method.encode(), *messages)) + frame(END, b"")


def read_exactly(read, count):
    """`count` bytes of a reader that returns some at a time, and none at its end."""
    found = bytearray()
    while len(found) < count:
        part = read(min(count - len(found), 1 << 18))
        check(part, "the answer is cut short")
        found += part
    return bytes(found)


def read_messages(read, max_bytes=MAX_ANSWER_BYTES):
    """The messages of an answer, one by one as they come, up to its trailer. A trailer that is not OK raises `Refused`."""
    while True:
        flag, length = struct.unpack(">BI", read_exactly(read, 5))
        check(flag in (0, END), f"a frame has the flag {flag}")
        check(length <= MAX_FRAME_BYTES, f"a frame has {length} bytes")
        max_bytes -= 5 + length
        check(max_bytes >= 0, "the answer is longer than max_bytes")
        payload = read_exactly(read, length)
        if flag == END:
            return read_trailer(payload)
        yield payload


def read_trailer(payload):
    check(payload, "a trailer has no status")
    status, text = payload[0], utf8(payload[1:])
    if status:
        raise Refused(status, text)
    check(not text, "a trailer that is OK has a text")


# ---- FlatBuffers (FlatBuffers, "FlatBuffer Internals")


class View:
    """A table at a place of a received text."""

    def __init__(self, text, place):
        self.text, self.place = text, place
        self.vtable = place - self.at("<i", place)[0]
        self.size = self.at("<H", self.vtable)[0]
        check(self.size >= 4, "SmallVtable")

    def at(self, form, place):
        """Numbers at a place."""
        check(0 <= place <= len(self.text) - struct.calcsize(form), "OutOfBounds")
        return struct.unpack_from(form, self.text, place)

    def slot(self, number):
        """The place of a field, None if it is absent."""
        cell = self.at("<H", self.vtable + 4 + 2 * number)[0] if self.size >= 6 + 2 * number else 0
        return self.place + cell if cell else None

    def number(self, slot, form, absent=0):
        place = self.slot(slot)
        return absent if place is None else self.at("<" + form, place)[0]

    def follow(self, place):
        return place + self.at("<I", place)[0]

    def table(self, slot):
        """The table that a field refers to, None if it is absent."""
        place = self.slot(slot)
        return None if place is None else View(self.text, self.follow(place))

    def string(self, slot):
        """The bytes of a string, None if it is absent."""
        place, count = self.vector(slot, 1)
        return None if place is None else self.text[place : place + count]

    def vector(self, slot, size):
        """The place of a vector's first element, and the number of elements, of `size` bytes each: all are inside the text."""
        place = self.slot(slot)
        if place is None:
            return None, 0
        place = self.follow(place)
        count = self.at("<I", place)[0]
        check(count * size <= len(self.text) - place - 4, "OutOfBounds")
        return place + 4, count

    def tables(self, slot):
        place, count = self.vector(slot, 4)
        return (View(self.text, self.follow(place + 4 * it)) for it in range(count))

    def pairs(self, slot, most):
        """A vector of at most `most` pairs of numbers."""
        place, count = self.vector(slot, 16)
        check(count <= most, "a batch has more columns than a schema")
        return list(struct.iter_unpack("<qq", self.text[place : place + 16 * count])) if count else []


# A table to be written: its size, and for each slot None, (place, format, number), or (place, object), where an object is a string as
# bytes, a list of tables, `Pairs`, or a table.
FlatTable = namedtuple("FlatTable", "size cells")
Pairs = namedtuple("Pairs", "items")


def pad(out, size, rest=0):
    out += bytes((rest - len(out)) % size)


def put_object(out, thing):
    """Appends an object and all that it refers to, each whole before the next, and returns its place."""
    if isinstance(thing, FlatTable):
        return put_table(out, thing)
    if isinstance(thing, Pairs):
        pad(out, 8, 4)
        place = len(out)
        out += struct.pack("<I", len(thing.items)) + b"".join(struct.pack("<qq", *it) for it in thing.items)
        return place
    pad(out, 4)
    place = len(out)
    out += struct.pack("<I", len(thing))
    if isinstance(thing, bytes):
        out += thing + b"\0"
    else:
        out += bytes(4 * len(thing))
        for count, each in enumerate(thing):
            put_reference(out, place + 4 + 4 * count, each)
    return place


def put_table(out, table):
    size = 4 + 2 * len(table.cells)
    pad(out, 8, -size % 8)
    out += struct.pack(f"<HH{len(table.cells)}H", size, table.size, *(it[0] if it else 0 for it in table.cells))
    place = len(out)
    out += struct.pack("<i", size) + bytes(table.size - 4)
    for cell in filter(None, table.cells):
        if len(cell) == 3:
            struct.pack_into("<" + cell[1], out, place + cell[0], cell[2])
        else:
            put_reference(out, place + cell[0], cell[1])
    return place


def put_reference(out, place, thing):
    named = put_object(out, thing)
    struct.pack_into("<I", out, place, named - place)


# ---- types and schemas (Apache Arrow, "Schema.fbs")

# Each kind of type with its number, the formats of its parameters (`t` is a text or None), and their defaults.
KINDS = {
    "Null": (1, "", ()), "Int": (2, "iB", (0, 0)), "FloatingPoint": (3, "h", (0,)), "Binary": (4, "", ()), "Utf8": (5, "", ()),
    "Bool": (6, "", ()), "Decimal": (7, "iii", (0, 0, 128)), "Date": (8, "h", (1,)), "Time": (9, "hi", (1, 32)),
    "Timestamp": (10, "ht", (0, None)), "List": (12, "", ()), "Struct": (13, "", ()), "FixedSizeBinary": (15, "i", (0,)),
    "FixedSizeList": (16, "i", (0,)), "Duration": (18, "h", (1,)),
}
KIND_OF = {number: kind for kind, (number, _, _) in KINDS.items()}
UNITS = ("s", "ms", "us", "ns")

PLAIN_TYPES = {
    "null": ("Null", ()), "bool": ("Bool", ()), "utf8": ("Utf8", ()), "binary": ("Binary", ()),
    **{f"int{bits}": ("Int", (bits, 1)) for bits in (8, 16, 32, 64)}, **{f"uint{bits}": ("Int", (bits, 0)) for bits in (8, 16, 32, 64)},
    "float16": ("FloatingPoint", (0,)), "float32": ("FloatingPoint", (1,)), "float64": ("FloatingPoint", (2,)),
    "date32": ("Date", (0,)), "date64": ("Date", (1,)),
    **{f"{'time32' if unit < 2 else 'time64'}[{UNITS[unit]}]": ("Time", (unit, 32 if unit < 2 else 64)) for unit in range(4)},
    **{f"timestamp[{UNITS[unit]}]": ("Timestamp", (unit, None)) for unit in range(4)},
    **{f"duration[{UNITS[unit]}]": ("Duration", (unit,)) for unit in range(4)},
}
PLAIN_TEXTS = {type: text for text, type in PLAIN_TYPES.items()}
ALIASES = {"string": "utf8", "str": "utf8", "bytes": "binary", "boolean": "bool", "halffloat": "float16", "float": "float32",
           "double": "float64"}


class DataType(NamedTuple("DataType", [("kind", str), ("parameters", Tuple[Any, ...]), ("fields", "Tuple[Field, ...]")])):
    """A type of Arrow: the name of its table in Schema.fbs, that table's parameters, and its child fields. It is written as a short
    text, which can be used wherever a type is expected:

    >>> felzoren.Field("tags", "list<utf8>").type
    DataType('list<utf8>')

    `null`, `bool`, `int8` to `int64`, `uint8` to `uint64`, `float16`, `float32`, `float64`, `utf8`, `binary`, `fixed_size_binary[16]`,
    `decimal128(10, 2)`, `decimal256(50, 0)`, `date32`, `date64`, `time32[s]`, `time32[ms]`, `time64[us]`, `time64[ns]`, `timestamp[us]`,
    `timestamp[us, UTC]`, `duration[ms]`, `list<int64>`, `list<item: int64 not null>`, `fixed_size_list<int8>[3]`,
    `struct<x: int32, y: utf8>`. Names that are not letters, digits and `_`, and time zones with other signs than `+-/:`, are written as
    JSON strings."""

    __slots__ = ()

    def __new__(cls, kind: str, parameters: Iterable[Any] = (), fields: "Iterable[Field]" = ()) -> "DataType":
        return super().__new__(cls, kind, tuple(parameters), tuple(fields))

    def __repr__(self) -> str:
        return f"DataType('{self}')"

    def __str__(self) -> str:
        plain = PLAIN_TEXTS.get((self.kind, self.parameters))
        if plain:
            return plain
        inside = ", ".join(map(str, self.fields))
        if self.kind == "Timestamp":
            return f"timestamp[{UNITS[self.parameters[0]]}, {quoted(self.parameters[1], ZONE)}]"
        if self.kind == "Decimal":
            return "decimal{2}({0}, {1})".format(*self.parameters)
        if self.kind == "FixedSizeBinary":
            return f"fixed_size_binary[{self.parameters[0]}]"
        if self.kind == "Struct":
            return f"struct<{inside}>"
        inside = inside[6:] if inside.startswith("item: ") else inside
        return f"list<{inside}>" if self.kind == "List" else f"fixed_size_list<{inside}>[{self.parameters[0]}]"


NAME, ZONE = r"\w+", r"[\w+\-/:]+"
TEXT = r'"(?:[^"\\]|\\.)*"'
FIELD_NAME = rf"({TEXT}|{NAME})\s*:\s*"


def quoted(text, plain):
    return text if re.fullmatch(plain, text) else json.dumps(text)


def unquoted(text):
    return json.loads(text) if text.startswith('"') else text


# Types with parameters and without children, by their texts.
LEAVES = (
    (rf"timestamp\[(s|ms|us|ns),\s*({TEXT}|{ZONE})\]", lambda unit, zone: ("Timestamp", (UNITS.index(unit), unquoted(zone)))),
    (r"fixed_size_binary\[(\d+)\]", lambda width: ("FixedSizeBinary", (int(width),))),
    (r"decimal(128|256)\(\s*(-?\d+)\s*,\s*(-?\d+)\s*\)", lambda bits, digits, scale: ("Decimal", (int(digits), int(scale), int(bits)))),
    (r"([a-z]\w*(?:\[\w+\])?)(?![<\[(])", lambda plain: PLAIN_TYPES[ALIASES.get(plain, plain)]),
)


class TypeReader:
    """Reads the text of a type from left to right."""

    def __init__(self, text):
        self.whole, self.rest = text, text.strip()

    def take(self, pattern):
        """Takes what comes next, if it matches the pattern."""
        found = re.match(pattern + r"\s*", self.rest)
        self.rest = self.rest[found.end() :] if found else self.rest
        return found

    def need(self, pattern):
        return self.take(pattern) or self.fail()

    def fail(self):
        raise ValueError(f"{self.whole!r} is no type: the fault is at {self.rest!r}")

    def type(self):
        if self.take("struct<"):
            return DataType("Struct", (), self.inside(self.field))
        if self.take("list<"):
            return DataType("List", (), self.inside(self.item))
        if self.take("fixed_size_list<"):
            inside = self.inside(self.item)
            return DataType("FixedSizeList", (int(self.need(r"\[(\d+)\]")[1]),), inside)
        for pattern, type_of in LEAVES:
            found = self.take(pattern)
            if found:
                with contextlib.suppress(KeyError):
                    return DataType(*type_of(*found.groups()))
        return self.fail()

    def inside(self, each):
        fields = []
        while not self.take(">"):
            if fields:
                self.need(",")
            fields.append(each())
        return fields

    def field(self):
        name = self.need(FIELD_NAME)[1]
        return Field(unquoted(name), self.type(), not self.take("not null"))

    def item(self):
        return self.field() if re.match(FIELD_NAME, self.rest) else Field("item", self.type(), not self.take("not null"))

    def whole_of(self, part):
        """What a method reads, which must be all of the text."""
        found = part()
        self.need("$")
        return found


def as_type(type):
    """The type, or the one that a text describes."""
    if isinstance(type, DataType):
        return type
    if not isinstance(type, str):
        raise ValueError(f"{type!r} is neither a type nor the text of one")
    reader = TypeReader(type)
    return reader.whole_of(reader.type)


def as_field(field):
    """The field, or the one that a text describes, or that of a name, a type and so on."""
    if isinstance(field, str):
        reader = TypeReader(field)
        return reader.whole_of(reader.field)
    return field if isinstance(field, Field) else Field(*field)


def as_metadata(entries):
    return tuple((str(key), str(value)) for key, value in (entries.items() if isinstance(entries, Mapping) else entries))


# What makes a type, and what makes the metadata of a field or a schema: texts by keys, or pairs of them.
TypeLike = Union[DataType, str]
Metadata = Union[Mapping[str, str], Iterable[Tuple[str, str]]]


class Field(NamedTuple("Field", [("name", str), ("type", DataType), ("nullable", bool), ("metadata", Tuple[Tuple[str, str], ...])])):
    """A named type: of a column, or of a child of another type. `metadata` are pairs of texts.

    >>> felzoren.Field("day", "date32", nullable=False)
    Field('day: date32 not null')
    """

    __slots__ = ()

    def __new__(cls, name: str, type: TypeLike, nullable: bool = True, metadata: Metadata = ()) -> "Field":
        return super().__new__(cls, name, as_type(type), bool(nullable), as_metadata(metadata))

    def __str__(self) -> str:
        return f"{quoted(self.name, NAME)}: {self.type}{'' if self.nullable else ' not null'}"

    def __repr__(self) -> str:
        return f"Field('{self}')"


# What makes a field, such as `"sold: int64"` or `("sold", "int64")`, and what makes the fields of a schema.
FieldLike = Union[Field, str, Sequence[Any]]
Fields = Union[Mapping[str, TypeLike], Iterable[FieldLike]]


class Schema(NamedTuple("Schema", [("fields", Tuple[Field, ...]), ("metadata", Tuple[Tuple[str, str], ...])])):
    """The fields of a table's columns, in order: a dict of names and types, or a list of `Field`s, of pairs, or of texts.

    >>> felzoren.Schema({"shop": "utf8", "sold": "int64"}) == felzoren.Schema(["shop: utf8", "sold: int64"])
    True
    """

    __slots__ = ()

    def __new__(cls, fields: Fields, metadata: Metadata = ()) -> "Schema":
        fields = fields.items() if isinstance(fields, Mapping) else fields
        return super().__new__(cls, tuple(map(as_field, fields)), as_metadata(metadata))

    @property
    def names(self) -> List[str]:
        return [it.name for it in self.fields]

    def __str__(self) -> str:
        return "\n".join(map(str, self.fields))


# What makes a schema.
SchemaLike = Union[Schema, Fields]


# ---- headers (Apache Arrow, "Message.fbs" and "Schema.fbs")

SCHEMA_HEADER, BATCH_HEADER = 1, 3


class Limits:
    """Counts the parts of a schema, and raises `fault` beyond its limits."""

    def __init__(self, fault):
        self.fault, self.counts = fault, {}

    def add(self, what, most, count=1):
        self.counts[what] = self.counts.get(what, 0) + count
        if self.counts[what] > most:
            raise self.fault(f"a schema has at most {most} {what}")

    def field(self, depth):
        self.add("fields", MAX_FIELDS)
        if depth > MAX_DEPTH:
            raise self.fault(f"a schema has at most {MAX_DEPTH} levels of fields")

    def entry(self):
        self.add("entries of metadata", MAX_METADATA_ENTRIES)

    def text(self, content):
        self.add("bytes of names, time zones, keys and values", MAX_TEXT_BYTES, len(content))
        return content


def is_proper(type):
    """Whether the type has the parameters and the number of child fields that its kind requires."""
    kind, parameters, count = type.kind, type.parameters, len(type.fields)
    if kind not in KINDS or len(parameters) != len(KINDS[kind][1]):
        return False
    if count != {"List": 1, "FixedSizeList": 1, "Struct": count}.get(kind, 0):
        return False
    if kind == "Time":
        return parameters in ((0, 32), (1, 32), (2, 64), (3, 64))
    if kind == "Decimal":
        return parameters[2] in (128, 256) and all(it in range(-(1 << 31), 1 << 31) for it in parameters[:2])
    sizes = range(1 << 31)
    first = {"Int": (8, 16, 32, 64), "FloatingPoint": range(3), "Date": range(2), "FixedSizeBinary": sizes, "FixedSizeList": sizes}
    return not parameters or parameters[0] in first.get(kind, range(4))


def read_header(text, kind):
    """The message of a header of this kind, and the table in it."""
    check(len(text) >= 4, "OutOfBounds")
    message = View(text, struct.unpack_from("<I", text)[0])
    check(message.number(0, "h") == 4, "Version")
    check(message.number(1, "B") == kind, "BadHeader")
    header = message.table(2)
    check(header, "BadHeader")
    return message, header


def read_schema(text):
    """The schema in a header."""
    _, view = read_header(text, SCHEMA_HEADER)
    limits = Limits(BadAnswer)
    check(view.number(0, "h") == 0, "Endianness")
    fields = [read_field(it, 1, limits) for it in view.tables(1)]
    return Schema(fields, read_entries(view, 2, limits))


def read_text(view, slot, limits):
    return utf8(limits.text(view.string(slot) or b""))


def read_entries(view, slot, limits):
    entries = []
    for entry in view.tables(slot):
        limits.entry()
        entries.append((read_text(entry, 0, limits), read_text(entry, 1, limits)))
    return entries


def read_field(view, depth, limits):
    limits.field(depth)
    name = read_text(view, 0, limits)
    number = view.number(2, "B")
    check(number in KIND_OF, f"Unsupported({number})")
    check(view.slot(4) is None, "Dictionary")
    kind = KIND_OF[number]
    parameters = read_parameters(view, kind, limits)
    fields = [read_field(it, depth + 1, limits) for it in view.tables(5)]
    type = DataType(kind, parameters, fields)
    check(is_proper(type), "BadHeader")
    return Field(name, type, view.number(1, "B"), read_entries(view, 6, limits))


def read_parameters(view, kind, limits):
    _, forms, parameters = KINDS[kind]
    table = view.table(3) if forms else None
    if table is None:
        return parameters
    found = []
    for slot, form in enumerate(forms):
        if form == "t":
            text = table.string(slot)
            found.append(text if text is None else utf8(limits.text(text)))
        else:
            number = table.number(slot, form, parameters[slot])
            found.append(int(number != 0) if form == "B" else number)
    return found


def header_text(kind, header, body_length):
    out = bytearray(4)
    put_reference(out, 0, FlatTable(24, ((4, "h", 4), (6, "B", kind), (8, header), (16, "q", body_length))))
    pad(out, 8)
    return bytes(out)


def schema_header(schema):
    """The header of a schema; `ValueError` if the service does not support such a schema."""
    limits = Limits(ValueError)
    fields = [field_table(it, 1, limits) for it in schema.fields]
    return header_text(SCHEMA_HEADER, FlatTable(12, (None, (4, fields), entries_cell(8, schema.metadata, limits))), 0)


def entries_cell(place, entries, limits):
    tables = []
    for key, value in entries:
        limits.entry()
        tables.append(FlatTable(12, ((4, limits.text(key.encode())), (8, limits.text(value.encode())))))
    return (place, tables) if tables else None


def field_table(field, depth, limits):
    limits.field(depth)
    if not isinstance(field.name, str) or not is_proper(field.type):
        raise ValueError(f"the field {field.name!r} has a name or a type that can't be sent")
    name, number = limits.text(field.name.encode()), KINDS[field.type.kind][0]
    type = type_table(field.type, limits)
    inside = [field_table(it, depth + 1, limits) for it in field.type.fields]
    return FlatTable(24, ((4, name), (8, "B", field.nullable), (9, "B", number), (12, type), None, (16, inside),
                          entries_cell(20, field.metadata, limits)))


def type_table(type, limits):
    cells = []
    for count, (form, parameter) in enumerate(zip(KINDS[type.kind][1], type.parameters)):
        place = 4 + 4 * count
        if form == "t":
            cells.append(None if parameter is None else (place, limits.text(parameter.encode())))
        else:
            cells.append((place, form, parameter))
    return FlatTable(4 + 4 * len(cells), cells)


def batch_header(rows, nodes, buffers, body_length):
    """The header of a batch: its rows, a pair (length, nulls) for each column, and a pair (offset, length) for each buffer."""
    return header_text(BATCH_HEADER, FlatTable(24, ((8, "q", rows), (4, Pairs(nodes)), (16, Pairs(buffers)))), body_length)


def read_schema_as_written(text):
    """The schema of a canonical header, which can't encode more than it has bytes for."""
    schema = read_schema(text)
    check(text == schema_header(schema), "a header is not the canonical one of its schema")
    return schema


def encapsulated(header):
    return b"\xff\xff\xff\xff" + struct.pack("<I", len(header)) + header


def read_encapsulated(text):
    check(text[:8] == b"\xff\xff\xff\xff" + struct.pack("<I", max(len(text) - 8, 0)), "a schema is not encapsulated")
    return read_schema_as_written(text[8:])


# ---- values and their storage

EPOCH = datetime.datetime(1970, 1, 1)
NANOSECONDS = (10**9, 10**6, 10**3, 1)  # of each unit
DAY = 86_400 * 10**9
# Stands for a value under a null of its parent: it exists, and has only zero bytes.
BLANK = object()

# How the values of a type with a width are stored: the format of one, None if it is bytes; its width; the stored form of a blank one;
# the function that stores a value; and the one that loads it, None if it is loaded as it is stored.
Storage = namedtuple("Storage", "form width blank store load")


def storage_of(type):
    """The storage of a type whose values all have the same width."""
    return STORAGES[type.kind](str(type), *type.parameters)


def refuse(value, what):
    raise ValueError(f"{reprlib.repr(value)} ({type(value).__name__}) is no {what}")


def whole(value, what):
    """A whole number as a Python int."""
    is_whole = isinstance(value, numbers.Integral) and not isinstance(value, bool)
    return int(value) if is_whole else refuse(value, what)


def as_bytes(value, what="binary"):
    return bytes(value) if isinstance(value, (bytes, bytearray, memoryview)) else refuse(value, what)


def as_utf8(value):
    return value.encode() if isinstance(value, str) else refuse(value, "utf8")


def integers(what, bits, signed):
    least, most = (-(1 << bits - 1), (1 << bits - 1) - 1) if signed else (0, (1 << bits) - 1)

    def store(value):
        number = value if type(value) is int else whole(value, what)
        return number if least <= number <= most else refuse(value, what)

    form = "bhiq"[(8, 16, 32, 64).index(bits)]
    return Storage(form if signed else form.upper(), bits // 8, 0, store, None)


def floats(what, precision):
    form = "efd"[precision]

    def store(value):
        if isinstance(value, float):
            return value
        number = float(value) if isinstance(value, numbers.Real) and not isinstance(value, bool) else refuse(value, what)
        is_kept = not isinstance(value, numbers.Integral) or struct.unpack(form, struct.pack(form, number))[0] == value
        return number if is_kept else refuse(value, f"number that {what} can hold")

    return Storage(form, 2 << precision, 0.0, store, None)


def decimals(what, precision, scale, bits):
    most_digits = 38 if bits == 128 else 76

    def store(value):
        given = value if isinstance(value, decimal.Decimal) else decimal.Decimal(whole(value, what))
        sign, digits, exponent = given.as_tuple()
        if not given.is_finite() or given and given.adjusted() + 1 + scale > min(max(precision, 1), most_digits):
            refuse(value, what)
        digits, shift = "".join(map(str, digits)), exponent + scale
        if shift < 0 and digits[shift:].strip("0"):
            refuse(value, what)
        number = int((digits[:shift] if shift < 0 else digits + "0" * shift) or "0") if given else 0
        return (-number if sign else number).to_bytes(bits // 8, "little", signed=True)

    def load(content):
        number = int.from_bytes(content, "little", signed=True)
        return decimal.Decimal((int(number < 0), tuple(map(int, str(abs(number)))), -scale))

    return Storage(None, bits // 8, bytes(bits // 8), store, load)


def counts(what, form, step, nanoseconds, value_of):
    """Numbers that count steps of `step` nanoseconds: `nanoseconds` returns those of a Python value, None if it is no such value, and
    `value_of` makes the value again. A plain number is stored as it is, and a count that no Python value can express is loaded as a number."""
    limit = 1 << 8 * struct.calcsize("<" + form) - 1

    def store(value):
        found = nanoseconds(value)
        count, rest = (whole(value, what), 0) if found is None else divmod(found, step)
        return count if not rest and -limit <= count < limit else refuse(value, f"value that {what} can hold")

    def load(count):
        try:
            return value_of(count * step)
        except (OverflowError, ValueError):
            return count

    # Counts of nanoseconds remain numbers: Python has no such values.
    return Storage(form, struct.calcsize("<" + form), 0, store, None if step == 1 else load)


def span(nanoseconds):
    return datetime.timedelta(microseconds=nanoseconds // 1000)


def nanoseconds_of(delta):
    """The nanoseconds of a `timedelta`, with those that only pandas has besides its microseconds."""
    return ((delta.days * 86_400 + delta.seconds) * 10**6 + delta.microseconds) * 1000 + getattr(delta, "nanoseconds", 0)


def time_of_day(nanoseconds):
    if not 0 <= nanoseconds < DAY:
        raise ValueError("no time of a day")
    return (EPOCH + span(nanoseconds)).time()


def date_of(nanoseconds):
    if nanoseconds % DAY:
        raise ValueError("no whole day")
    return datetime.date.fromordinal(nanoseconds // DAY + EPOCH.toordinal())


def dates(what, unit):
    def nanoseconds(value):
        if isinstance(value, datetime.date) and not isinstance(value, datetime.datetime):
            return (value.toordinal() - EPOCH.toordinal()) * DAY
        return None

    return counts(what, "q" if unit else "i", 10**6 if unit else DAY, nanoseconds, date_of)


def times(what, unit, bits):
    def nanoseconds(value):
        is_time = isinstance(value, datetime.time) and value.tzinfo is None
        return nanoseconds_of(datetime.datetime.combine(EPOCH, value) - EPOCH) if is_time else None

    return counts(what, "i" if bits == 32 else "q", NANOSECONDS[unit], nanoseconds, time_of_day)


def timestamps(what, unit, timezone):
    epoch = EPOCH if timezone is None else EPOCH.replace(tzinfo=datetime.timezone.utc)

    def nanoseconds(value):
        if not isinstance(value, datetime.datetime) or (value.utcoffset() is None) != (timezone is None):
            return None
        plain = datetime.datetime.combine(value.date(), value.timetz())
        return nanoseconds_of(plain - epoch) + getattr(value, "nanosecond", 0)

    return counts(what, "q", NANOSECONDS[unit], nanoseconds, lambda nanoseconds: epoch + span(nanoseconds))


def durations(what, unit):
    def nanoseconds(value):
        return nanoseconds_of(value) if isinstance(value, datetime.timedelta) else None

    return counts(what, "q", NANOSECONDS[unit], nanoseconds, span)


def fixed_bytes(what, width):
    def store(value):
        content = as_bytes(value, what)
        return content if len(content) == width else refuse(value, what)

    return Storage(None, width, bytes(width), store, None)


STORAGES = {"Int": integers, "FloatingPoint": floats, "Decimal": decimals, "Date": dates, "Time": times, "Timestamp": timestamps,
            "Duration": durations, "FixedSizeBinary": fixed_bytes}


# ---- columns (Apache Arrow Columnar Format, "Physical memory layout" and "RecordBatch message")


def bits_text(flags):
    """A bit for each flag, the lowest first."""
    digits = "".join("1" if it else "0" for it in flags)[::-1]
    return int(digits or "0", 2).to_bytes((len(flags) + 7) // 8, "little")


def read_bits(content, count):
    return [it == "1" for it in bin(int.from_bytes(content, "little") | 1 << count)[:2:-1]]


class Body:
    """A body of a batch to be written: the nodes of its columns, and its buffers, each at the next multiple of eight bytes."""

    def __init__(self):
        self.nodes, self.buffers, self.text = [], [], bytearray()

    def buffer(self, content):
        self.buffers.append((len(self.text), len(content)))
        self.text += content
        pad(self.text, 8)

    def offsets(self, lengths):
        self.buffer(struct.pack(f"<{len(lengths) + 1}i", 0, *itertools.accumulate(lengths)))

    def column(self, field, cells):
        """Lays out the cells of a column: None is a null."""
        nulls = sum(it is None for it in cells)
        if nulls and not field.nullable:
            raise ValueError(f"{field.name}: None where nothing may be null")
        if len(cells) > MAX_VALUES:
            raise ValueError(f"{field.name}: a column of a batch has at most {MAX_VALUES} values")
        if field.type.kind == "Null":
            if any(it is not None and it is not BLANK for it in cells):
                raise ValueError(f"{field.name}: a column of nulls has a value")
            self.nodes.append((len(cells), len(cells)))
            return
        self.nodes.append((len(cells), nulls))
        self.buffer(bits_text([it is not None for it in cells]) if nulls else b"")
        try:
            getattr(self, LAYOUTS.get(field.type.kind, "fixed"))(field.type, cells)
        except (ValueError, OverflowError, struct.error) as why:
            raise ValueError(f"{field.name}: {why}") from None

    def fixed(self, type, cells):
        storage = storage_of(type)
        stored = [storage.blank if it is None or it is BLANK else storage.store(it) for it in cells]
        self.buffer(struct.pack(f"<{len(stored)}{storage.form}", *stored) if storage.form else b"".join(stored))

    def bools(self, _, cells):
        self.buffer(bits_text([it is not None and it is not BLANK and as_bool(it) for it in cells]))

    def texts(self, type, cells):
        stored = as_utf8 if type.kind == "Utf8" else as_bytes
        texts = [b"" if it is None or it is BLANK else stored(it) for it in cells]
        self.offsets(list(map(len, texts)))
        self.buffer(b"".join(texts))

    def lists(self, type, cells):
        lists = [() if it is None or it is BLANK else as_list(it) for it in cells]
        self.offsets(list(map(len, lists)))
        self.column(type.fields[0], list(itertools.chain.from_iterable(lists)))

    def fixed_lists(self, type, cells):
        size = type.parameters[0]
        if size * len(cells) > MAX_VALUES:
            raise ValueError(f"a column of a batch has at most {MAX_VALUES} values")
        lists = [[BLANK] * size if it is None or it is BLANK else as_list(it) for it in cells]
        if any(len(it) != size for it in lists):
            raise ValueError(f"a list has another number of values than {size}")
        self.column(type.fields[0], list(itertools.chain.from_iterable(lists)))

    def structs(self, type, cells):
        for field, values in zip(type.fields, columns_of(type.fields, cells)):
            self.column(field, values)


LAYOUTS = {"Bool": "bools", "Utf8": "texts", "Binary": "texts", "List": "lists", "FixedSizeList": "fixed_lists", "Struct": "structs"}


def as_bool(value):
    return value if isinstance(value, bool) else refuse(value, "bool")


def as_list(value):
    value = value.tolist() if hasattr(value, "tolist") else value
    return value if isinstance(value, (list, tuple)) else refuse(value, "list")


def columns_of(fields, rows):
    """The values of each field of rows, or of structs. A row is a dict by the names of the fields, in which a missing name means None, or
    a sequence with a value for each field."""
    names, blank, found = [it.name for it in fields], [BLANK] * len(fields), []
    known = set(names)
    for row in rows:
        if isinstance(row, dict):
            if not known.issuperset(row):
                raise ValueError(f"there is no field {next(it for it in row if it not in known)!r}")
            values = [row.get(it) for it in names]
        else:
            values = blank if row is None or row is BLANK else as_list(row)
        if len(values) != len(names):
            refuse(row, f"row of {len(names)} values")
        found.append(values)
    return [list(it) for it in zip(*found)] if found else [[] for _ in names]


def write_batch(schema, columns, rows):
    """The header and the body of a batch, whose columns are given as lists of cells."""
    body = Body()
    for field, cells in zip(schema.fields, columns):
        body.column(field, cells)
    return batch_header(rows, body.nodes, body.buffers, len(body.text)), bytes(body.text)


class Column(NamedTuple):
    """A column of a received batch, checked: Arrow's buffers `validity` (empty if nothing is null) and `buffers`, read-only views of the
    body as it was received, and the child columns."""

    type: DataType
    length: int
    null_count: int
    validity: bytes
    buffers: List[memoryview]
    children: "List[Column]"

    def __reduce__(self) -> Tuple[Any, ...]:
        return Column, (*self[:4], self.data, self.children)  # views can't be pickled

    @property
    def data(self) -> List[bytes]:
        """Copies of `buffers`."""
        return [bytes(it) for it in self.buffers]

    def buffer(self) -> memoryview:
        """The stored values, if each has the same number of bytes and none is null: a read-only view of the body as it was received, of
        which nothing is copied.

        >>> ack = client.put("days", {"sold": [3, 40]})
        >>> client.get("days").batches[0].column("sold").buffer().tolist()
        [3, 40]

        The view's format is that of the stored numbers: Int and FloatingPoint as they are, but a half float as its bits, `H`; a date, a
        time, a timestamp or a duration as the count of its unit. Decimal and FixedSizeBinary are bytes, `B`, so many for each value. The
        values in a list of fixed size are those of `children[0]`.

        `ValueError`: there is no such view."""
        if self.type.kind not in STORAGES:
            raise ValueError(f"{self.type} has no values of a fixed number of bytes: use to_pylist()")
        if self.null_count:
            raise ValueError(f"a view has no nulls, and the column has {self.null_count}: use to_pylist()")
        view, form = memoryview(self.buffers[0]), storage_of(self.type).form
        if form is None:
            return view
        if sys.byteorder != "little" and storage_of(self.type).width > 1:
            raise ValueError("the stored numbers have their low byte first, unlike this machine's: use to_pylist()")
        form = "H" if form == "e" else form  # no view before Python 3.12 has half floats
        return view.cast(form) if self.length else memoryview(array.array(form)).toreadonly()

    def to_pylist(self) -> List[Any]:
        """The values, None for nulls."""
        cells = getattr(self, LAYOUTS.get(self.type.kind, "fixed"))()
        if not self.validity:
            return cells
        return [cell if there else None for cell, there in zip(cells, read_bits(self.validity, self.length))]

    def fixed(self) -> List[Any]:
        if self.type.kind == "Null":
            return [None] * self.length
        storage = storage_of(self.type)
        if storage.form:
            cells = list(struct.unpack(f"<{self.length}{storage.form}", self.buffers[0]))
        else:
            data = bytes(self.buffers[0])
            cells = [data[it * storage.width : (it + 1) * storage.width] for it in range(self.length)]
        return list(map(storage.load, cells)) if storage.load else cells

    def bools(self) -> List[bool]:
        return read_bits(self.buffers[0], self.length)

    def slices(self, values: Any) -> List[Any]:
        ends = struct.unpack(f"<{self.length + 1}i", self.buffers[0])
        return [values[first:last] for first, last in zip(ends, ends[1:])]

    def texts(self) -> List[Any]:
        found = self.slices(bytes(self.buffers[1]))
        return [it.decode() for it in found] if self.type.kind == "Utf8" else found

    def lists(self) -> List[Any]:
        return self.slices(self.children[0].to_pylist())

    def fixed_lists(self) -> List[Any]:
        size, values = self.type.parameters[0], self.children[0].to_pylist()
        return [values[it * size : (it + 1) * size] for it in range(self.length)]

    def structs(self) -> List[Any]:
        names = [it.name for it in self.type.fields]
        rows = rows_of([it.to_pylist() for it in self.children], self.length)
        return [dict(zip(names, it)) for it in rows] if len(set(names)) == len(names) else list(rows)


def rows_of(columns, count):
    """The rows of columns as tuples, `count` of them even if there is no column."""
    return zip(*columns) if columns else itertools.repeat((), count)


class BodyReader:
    """Takes the parts of a received body, which must be the canonical one: each buffer at the next multiple of eight bytes and no longer
    than its values, and nothing under nulls. The values of a column that must be empty are the bits of a number, the lowest first, which
    is only made if a column has bytes of its own for each value."""

    def __init__(self, nodes, buffers, text):
        self.nodes, self.buffers, self.text, self.place = iter(nodes), iter(buffers), memoryview(text), 0

    def buffer(self, length):
        """A view of the next buffer, which must have `length` bytes, and then zero bytes up to a multiple of eight."""
        check(next(self.buffers, None) == (self.place, length), "BufferRange")
        end = self.place + length
        content, self.place = self.text[self.place : end], end + -end % 8
        check(self.place <= len(self.text) and not any(self.text[end : self.place]), "BufferRange")
        return content

    def bits(self, count):
        content = self.buffer((count + 7) // 8)
        check(int.from_bytes(content, "little") >> count == 0, "a bit is set after the last value")
        return content

    def offsets(self, count, empty):
        content = self.buffer(4 * (count + 1))
        ends = struct.unpack(f"<{count + 1}i", content)
        check(ends[0] == 0 and list(ends) == sorted(ends), "OffsetsFall")
        check(all(ends[it] == ends[it + 1] for it in places_in(empty())), "a null has bytes or elements")
        return content, ends

    def column(self, type, length, blank=lambda: 0):
        """A column, which must have `length` values, of which the blank ones are under a null of its parent."""
        check(length <= MAX_VALUES, "TooManyRows")
        node_length, nulls = next(self.nodes, (None, None))
        check(node_length == length, "ChildShort")
        if type.kind == "Null":
            check(nulls == length, "NullCount")
            return Column(type, length, nulls, b"", [], [])
        validity = bytes(self.bits(length if nulls else 0))
        gaps = (1 << length) - 1 ^ int.from_bytes(validity, "little") if nulls else 0
        check(nulls == bin(gaps).count("1"), "NullCount")
        check(not gaps or not gaps & blank(), "there is a null under a null")
        data, children = getattr(self, LAYOUTS.get(type.kind, "fixed"))(type, length, lambda: gaps | blank())
        return Column(type, length, nulls, validity, data, children)

    def fixed(self, type, length, empty):
        width = storage_of(type).width
        data = self.buffer(length * width)
        check(not data or not any(any(data[it * width : it * width + width]) for it in places_in(empty())), "a null has bytes")
        return [data], []

    def bools(self, _, length, empty):
        data = self.bits(length)
        check(not int.from_bytes(data, "little") & empty(), "a null has a bit")
        return [data], []

    def texts(self, type, length, empty):
        offsets, ends = self.offsets(length, empty)
        data = self.buffer(ends[-1])
        if type.kind == "Utf8":
            utf8(data)
            check(not any(data[it] & 0xC0 == 0x80 for it in ends if it < len(data)), "NotUtf8")
        return [offsets, data], []

    def lists(self, type, length, empty):
        offsets, ends = self.offsets(length, empty)
        return [offsets], [self.column(type.fields[0].type, ends[-1])]

    def fixed_lists(self, type, length, empty):
        size = type.parameters[0]
        return [], [self.column(type.fields[0].type, size * length, lambda: spread(empty(), size))]

    def structs(self, type, length, empty):
        return [], [self.column(it.type, length, empty) for it in type.fields]


def places_in(bits):
    """The places of the bits that are set, from the lowest on."""
    return (place for place, it in enumerate(f"{bits:b}"[::-1]) if it == "1") if bits else ()


def spread(bits, size):
    """Each bit `size` times."""
    return bits if size == 1 else int(f"{bits:b}".replace("0", "0" * size).replace("1", "1" * size) or "0", 2)


def read_batch(schema, header, text):
    """The batch of a header and a body, which must be the canonical ones."""
    _, view = read_header(header, BATCH_HEADER)
    rows, nodes, buffers = view.number(0, "q"), view.pairs(1, MAX_FIELDS), view.pairs(2, 3 * MAX_FIELDS)
    check(0 <= rows <= MAX_ROWS, "TooManyRows")
    check(header == batch_header(rows, nodes, buffers, len(text)), "a header is not the canonical one of its batch")
    reader = BodyReader(nodes, buffers, text)
    columns = [reader.column(it.type, rows) for it in schema.fields]
    check(next(reader.nodes, None) is None, "NodeCount")
    check(next(reader.buffers, None) is None, "BufferCount")
    check(reader.place == len(text), "BufferRange")
    return RecordBatch(schema, rows, columns)


# ---- tables


class RecordBatch(NamedTuple):
    """A received batch of a table: its columns hold Arrow's buffers, and the values are made when they are asked for."""

    schema: Schema
    num_rows: int
    columns: List[Column]

    def column(self, name: str) -> Column:
        """The column of this name; `KeyError` if there is none, and `ValueError` if there are several.

        >>> client.get("sales").batches[0].column("sold").to_pylist()
        [3, None]
        """
        return dict(zip(distinct(self.schema.names), self.columns))[name]

    def to_columns(self) -> List[List[Any]]:
        """The values of each column, as lists."""
        return [it.to_pylist() for it in self.columns]

    def to_pylist(self) -> List[Dict[str, Any]]:
        """The rows as dicts."""
        names = distinct(self.schema.names)
        return [dict(zip(names, row)) for row in rows_of(self.to_columns(), self.num_rows)]


def distinct(names):
    if len(set(names)) < len(names):
        twice = next(it for place, it in enumerate(names) if it in names[:place])
        raise ValueError(f"two columns have the name {twice!r}, and a dict has room for one: use to_columns()")
    return names


class Upload(NamedTuple):
    """An upload of a version: its id, as 32 hexadecimal digits, and its batches."""

    id: str
    batches: List[RecordBatch]


class Table:
    """A received version of a table: `schema`, `uploads` in the order in which they count, and `num_bytes` of the answer.

    >>> table = client.get("sales")
    >>> table.num_rows, table.schema.names, [upload.id for upload in table.uploads]
    (2, ['shop', 'sold'], ['000102030405060708090a0b0c0d0e0f'])
    """

    schema: Schema
    uploads: List[Upload]
    num_bytes: int

    def __init__(self, schema: Schema, uploads: List[Upload], num_bytes: int) -> None:
        self.schema, self.uploads, self.num_bytes = schema, uploads, num_bytes

    def __repr__(self) -> str:
        return f"<felzoren.Table of {self.num_rows} rows, {len(self.uploads)} uploads: {', '.join(map(str, self.schema.fields))}>"

    @property
    def batches(self) -> List[RecordBatch]:
        """The batches of all uploads."""
        return [batch for upload in self.uploads for batch in upload.batches]

    @property
    def num_rows(self) -> int:
        return sum(it.num_rows for it in self.batches)

    def to_columns(self) -> List[List[Any]]:
        """The values of each column, as lists, in the order of the schema: also of columns that share a name."""
        columns: List[List[Any]] = [[] for _ in self.schema.fields]
        for batch in self.batches:
            for cells, more in zip(columns, batch.to_columns()):
                cells += more
        return columns

    def to_pydict(self) -> Dict[str, List[Any]]:
        """The columns by name.

        >>> client.get("sales").to_pydict()
        {'shop': ['Bern', 'Zürich'], 'sold': [3, None]}
        """
        return dict(zip(distinct(self.schema.names), self.to_columns()))

    def to_pylist(self) -> List[Dict[str, Any]]:
        """The rows as dicts.

        >>> client.get("sales").to_pylist()
        [{'shop': 'Bern', 'sold': 3}, {'shop': 'Zürich', 'sold': None}]
        """
        return [row for batch in self.batches for row in batch.to_pylist()]

    def to_pandas(self) -> Any:
        """A pandas `DataFrame` of the columns, with the types that pandas chooses.

        >>> client.get("sales").to_pandas().groupby("shop").sum()
        """
        import pandas  # only this method needs it

        return pandas.DataFrame(self.to_pydict(), index=range(self.num_rows))


def read_table(messages):
    """The table in the messages of an answer: one of the schema, and then those of the uploads."""
    schema, uploads, last, num_bytes = None, {}, None, 0
    for message in messages:
        num_bytes += 5 + len(message)
        found = Message(message)
        header, name, body = (found.bytes(it) for it in (2, 3, 1000))
        check(message == data_message(header, name, body), "a message is not the canonical one of its contents")
        if schema is None:
            schema = read_schema_as_written(header)
            check(not name and not body, "an answer begins with the header of a schema")
            continue
        check(len(name) == 16 and (header or not body), "a message is neither a batch of an upload nor its id alone")
        if last is None or name.hex() != last.id or not header or not last.batches:
            last = Upload(name.hex(), [])
            check(uploads.setdefault(last.id, last) is last, "an upload is in two places")
        if header:
            last.batches.append(read_batch(schema, header, body))
    check(schema is not None, "an answer has no schema")
    return Table(schema, list(uploads.values()), num_bytes)


def data_message(header, name, body):
    return b"".join(bytes_field(number, content) for number, content in ((2, header), (3, name), (1000, body)) if content)


# ---- inputs: rows and columns of Python values


class DataFrameLike(Protocol):
    """What `put` uses of a pandas DataFrame."""

    @property
    def iloc(self) -> Any: ...

    @property
    def columns(self) -> Any: ...


# What `put` takes: rows, a dict of columns, or a DataFrame.
Data = Union[Dict[str, Any], Iterable[Union[Dict[str, Any], Sequence[Any]]], DataFrameLike]


def infer_type(values, name):
    """The type of these values; None fits any type."""
    values = [it for it in values if it is not None]
    words = {word_of(it, name) for it in {type(it): it for it in values}.values()}
    if words == {"int64", "float64"}:
        return as_type("float64")
    if len(words) > 1:
        raise ValueError(f"{name}: values of {' and '.join(sorted(words))} do not fit one type; give a schema")
    word = words.pop() if words else "null"
    if word == "list":
        return DataType("List", (), (Field("item", infer_type(itertools.chain.from_iterable(map(as_list, values)), f"{name}.item")),))
    if word == "struct":
        return DataType("Struct", (), infer_fields(columns_by_name(values), f"{name}."))
    if word == "decimal":
        scale = max(max(-it.as_tuple().exponent, 0) if it.is_finite() else 0 for it in values)
        digits = max(it.adjusted() + 1 if it.is_finite() else 0 for it in values) + scale
        return DataType("Decimal", (38, scale, 128) if digits <= 38 else (76, scale, 256))
    return as_type(word)


# The names of the types of values: the first one that fits a value counts.
WORDS = ((bool, "bool"), (numbers.Integral, "int64"), (numbers.Real, "float64"), (str, "utf8"), ((bytes, bytearray, memoryview), "binary"),
         (dict, "struct"), (decimal.Decimal, "decimal"), (datetime.date, "date32"), (datetime.time, "time64[us]"),
         (datetime.timedelta, "duration[us]"))


def word_of(value, name):
    if isinstance(value, datetime.datetime):
        return "timestamp[us]" if value.utcoffset() is None else "timestamp[us, UTC]"
    for kinds, word in WORDS:
        if isinstance(value, kinds):
            return word
    if isinstance(value, (list, tuple)) or hasattr(value, "tolist"):
        return "list"
    raise ValueError(f"{name}: {reprlib.repr(value)} ({type(value).__name__}) is of no type that can be inferred")


def infer_fields(columns, path=""):
    for name in columns:
        if not isinstance(name, str):
            raise ValueError(f"{path}{name!r}: a name is a text")
    return [Field(name, infer_type(cells, path + name)) for name, cells in columns.items()]


def infer_schema(data: Data) -> Schema:
    """The schema that `put` uses for rows or columns if it is given none: bool, int (int64), float (float64), str (utf8), bytes
    (binary), list, dict (struct), `Decimal`, `date`, `time`, `datetime` (timestamp[us]), `timedelta`; None alone is null. Every field
    is nullable.

    >>> print(felzoren.infer_schema([{"a": 1, "b": [0.5]}, {"a": None, "b": []}]))
    a: int64
    b: list<float64>
    """
    return columns_in(data, None)[0]


def columns_by_name(rows):
    """The columns of rows that are dicts, by the names in them."""
    names = dict.fromkeys(itertools.chain.from_iterable(rows))
    return {name: [row.get(name) for row in rows] for name in names}


def cells_of(name, column):
    """The values of a column as a list."""
    if isinstance(column, (str, bytes, dict)) or not hasattr(column, "__iter__"):
        raise ValueError(f"{name}: {reprlib.repr(column)} is no column of values")
    return column.tolist() if hasattr(column, "tolist") else list(column)


def columns_in(data, schema):
    """The schema, the columns as lists, and the number of rows of a dict of columns, a DataFrame, or rows."""
    if hasattr(data, "iloc") and hasattr(data, "columns"):
        data = pandas_columns(data)
    if isinstance(data, dict):
        columns = {name: cells_of(name, it) for name, it in data.items()}
        lengths = {len(it) for it in columns.values()} or {0}
        if len(lengths) > 1:
            raise ValueError(f"the columns are of several lengths: {sorted(lengths)}")
        count = lengths.pop()
        schema = schema_of(columns, count) if schema is None else schema
        row = {**dict.fromkeys(schema.names, [None] * count), **columns}
        return schema, [cells for cells, in columns_of(schema.fields, [row])], count
    rows = list(data)
    if not all(isinstance(it, dict) or schema is not None and it is not None for it in rows):
        raise ValueError("rows must be dicts, or sequences if a schema is given")
    schema = schema_of(columns_by_name(rows), len(rows)) if schema is None else schema
    return schema, columns_of(schema.fields, rows), len(rows)


def schema_of(columns, count):
    if not count:
        raise ValueError("no schema can be inferred from no rows: give one")
    return Schema(infer_fields(columns))


def pandas_columns(frame):
    """The columns of a DataFrame; missing values there (NaN, NaT and None) are None."""
    columns = [frame.iloc[:, place] for place in range(len(frame.columns))]
    return {str(name): [None if gone else it for gone, it in zip(column.isna().tolist(), column.tolist())]
            for name, column in zip(distinct(list(frame.columns)), columns)}


def encode_batches(schema, columns, first, last):
    """The batches of these rows, each a header and a body. Rows that make no batch are halved, down to a single row."""
    try:
        batch = write_batch(schema, [it[first:last] for it in columns], last - first)
        check_batch(batch, last - first)
        return [batch]
    except ValueError as why:
        if last - first <= 1:
            raise ValueError(f"row {first}: {why}") from None
    middle = (first + last) // 2
    return encode_batches(schema, columns, first, middle) + encode_batches(schema, columns, middle, last)


def check_batch(batch, rows):
    """Checks the size of a batch, which is served with the id of its upload."""
    size = len(data_message(batch[0], bytes(16), batch[1]))
    if size > MAX_FRAME_BYTES or rows > MAX_ROWS:
        raise ValueError(f"a batch of {rows} rows and {size} bytes; it has at most {MAX_ROWS} rows and {MAX_FRAME_BYTES} bytes")


def upload_size(table, header, batches):
    """How many bytes the encoding of an upload has."""
    size = len(bytes_field(1, table.encode()) + bytes_field(2, bytes(16)) + bytes_field(3, header))
    for head, body in batches:
        size += len(bytes_field(4, bytes_field(1, head) + (bytes_field(2, body) if body else b"")))
    return size


def check_upload(table, header, batches):
    size = upload_size(table, header, batches)
    if size > MAX_UPLOAD_BYTES or len(batches) > MAX_BATCHES:
        raise ValueError(f"an upload of {len(batches)} batches and {size} bytes; it has at most {MAX_BATCHES} batches and "
                         f"{MAX_UPLOAD_BYTES} bytes: put the rows in several uploads")


# ---- connections


def parse_location(location):
    """The host and the port of `127.0.0.1:42000` or `plain+tcp://127.0.0.1:42000`."""
    found = re.fullmatch(r"(?:plain\+tcp://)?(?:\[([^\]/]+)\]|([^\[\]:/]+)):(\d{1,5})", location)
    if not found or int(found[3]) > 65_535:
        raise ValueError(f"{location!r} is no location such as 127.0.0.1:42000")
    return found[1] or found[2], int(found[3])


class SocketConnection:
    """A TCP connection for one call, which ends at a deadline."""

    def __init__(self, addresses, timeout):
        self.deadline = None if timeout is None else time.monotonic() + timeout
        self.socket = self.connected(addresses)
        self.close = self.socket.close

    def left(self, share=1):
        """How many seconds are left for the call, or for one of `share` tries."""
        if self.deadline is None:
            return None
        seconds = self.deadline - time.monotonic()
        if seconds <= 0:
            raise socket.timeout("the call took longer than its timeout")
        return seconds / share

    def connected(self, addresses):
        for place, address in enumerate(addresses):
            try:
                found = socket.getaddrinfo(*address, type=socket.SOCK_STREAM)
                return socket.create_connection(address, self.left((len(addresses) - place) * len(found)))
            except OSError:
                if place == len(addresses) - 1:
                    raise

    def write(self, data):
        """Sends data, and stops if the service answers before it has all, as it does if it refuses a call."""
        view = memoryview(data)
        self.socket.setblocking(False)
        with selectors.DefaultSelector() as selector:
            selector.register(self.socket, selectors.EVENT_READ | selectors.EVENT_WRITE)
            while view:
                for _, events in selector.select(self.left()):
                    if events & selectors.EVENT_READ:
                        return
                    try:
                        view = view[self.socket.send(view) :]
                    except BlockingIOError:
                        continue
                    except ConnectionError:
                        return  # what can still be read says why

    def read(self, count):
        self.socket.settimeout(self.left())
        return self.socket.recv(count)


class FilesConnection(namedtuple("FilesConnection", "reader writer")):
    """Two binary files, which one call after another uses."""

    __slots__ = ()

    def write(self, data):
        self.writer.write(data)
        self.writer.flush()

    def read(self, count):
        return self.reader.read(count)

    def close(self):
        """They stay open for the next call."""


# ---- calls (Apache Arrow, "Arrow Flight RPC")



class Ack(NamedTuple):
    """The acknowledgement of an upload: its id, as 32 hexadecimal digits, and the version of the table that it made."""

    id: str
    version: int


class Ticket(NamedTuple):
    """A request for a version of a table.

    >>> felzoren.Ticket("sales", 3).encode().hex()
    '0a0573616c65731003'
    """

    table: str
    version: int

    def encode(self) -> bytes:
        if not isinstance(self.version, int) or not 1 <= self.version < 1 << 64:
            raise ValueError(f"{self.version!r} is no version: they are numbered from 1 on")
        return bytes_field(1, table_name(self.table)) + number_field(2, self.version)


class Info(NamedTuple):
    """What the service reports about the latest version of a table: the schema, the ticket that asks for it, where it is served, and how
    many rows and bytes it has.

    >>> info = client.info("sales")
    >>> info.ticket.version, info.total_records
    (1, 2)
    """

    table: str
    schema: Schema
    ticket: Ticket
    locations: List[str]
    total_records: int
    total_bytes: int


def table_name(table):
    if not isinstance(table, str) or not re.fullmatch(r"[0-9A-Za-z_.-]{1,64}", table):
        raise ValueError(f"{table!r} is no table's name: those are 1 to 64 letters of ASCII, digits, _, . and -")
    return table.encode()


def descriptor(*path):
    return number_field(1, 1) + b"".join(bytes_field(3, it) for it in path)


def upload_id(id):
    """The 16 bytes of an upload's id: those given, as bytes or as 32 hexadecimal digits, or random ones."""
    if id is None:
        return os.urandom(16)
    try:
        found = bytes.fromhex(id) if isinstance(id, str) else bytes(id) if isinstance(id, (bytes, bytearray)) else b""
    except ValueError:
        found = b""
    if len(found) != 16:
        raise ValueError(f"{id!r} is no id of an upload: that is 16 bytes or 32 hexadecimal digits")
    return found


def read_ticket(content):
    found = Message(content)
    name, version = found.text(1), found.number(2)
    check(re.fullmatch(r"[0-9A-Za-z_.-]{1,64}", name) and version, "BadTicket")
    check(content == Ticket(name, version).encode(), "BadTicket")
    return Ticket(name, version)


def signed(number):
    return number - (1 << 64) if number >> 63 else number


def read_info(message):
    found = Message(message)
    endpoints = [Message(it) for it in found.all(3)]
    check(len(endpoints) == 1, "an info does not have exactly one endpoint")
    ticket = read_ticket(endpoints[0].message(1).bytes(1))
    asked = found.message(2)
    check(asked.number(1) == 1 and asked.texts(3) == [ticket.table], "an info is of another table than its ticket")
    locations = [Message(it).text(1) for it in endpoints[0].all(2)]
    records, size = signed(found.number(4)), signed(found.number(5))
    check(records >= 0 and size >= 0 and found.number(6), "an info has no rows, no bytes or no order")
    return Info(ticket.table, read_encapsulated(found.bytes(1)), ticket, locations, records, size)


def read_version(message, id):
    """The version that acknowledges an upload of this id."""
    version = Message(Message(message).bytes(1)).number(2)
    check(version and message == bytes_field(1, bytes_field(1, id) + number_field(2, version)), "an upload of another id is acknowledged")
    return version


def only(messages):
    """The one message of an answer, which is read to its end."""
    found = list(itertools.islice(messages, 2))
    check(len(found) == 1, "an answer does not have exactly one message")
    return found[0]


class Connection(Protocol):
    """What a call needs of its connection: `read` returns at most `count` bytes, and none at the end."""

    def write(self, data: bytes) -> None: ...

    def read(self, count: int) -> bytes: ...

    def close(self) -> None: ...


# The id of an upload and the version to wait for, as they are given, and what a call returns.
UploadId = Union[str, bytes, bytearray, None]
AtLeast = Union[int, Literal["mine"], None]
Result = TypeVar("Result")


class Client:
    """Makes calls to a service, with a connection for each; see `connect`. Several threads can use it at a time."""

    def __init__(self, open_connection: Callable[[], Connection], max_bytes: int = MAX_ANSWER_BYTES) -> None:
        self.open_connection, self.max_bytes = open_connection, max_bytes
        # The latest version of each table that an upload of this client made.
        self.put_versions: Dict[str, int] = {}
        self.lock = threading.Lock()

    def call(self, method: str, messages: Iterable[bytes], read: Callable[[Iterator[bytes]], Result]) -> Result:
        """Makes a call, and returns what `read` makes of the messages of its answer."""
        return self.call_over(self.open_connection(), method, messages, read)

    def call_over(self, connection: Connection, method: str, messages: Iterable[bytes], read: Callable[[Iterator[bytes]], Result]) -> Result:
        """Makes a call over an open connection, and closes it."""
        with contextlib.closing(connection):
            connection.write(request(method, messages))
            return read(read_messages(connection.read, self.max_bytes))

    def put(self, table: str, data: Data, schema: Optional[SchemaLike] = None, id: UploadId = None) -> Ack:
        """Uploads rows to a table, which the first upload to it creates, and returns its `Ack`.

        `data` are rows (dicts, or sequences if a schema is given), a dict of columns, or a pandas DataFrame. `schema` is a `Schema`, or
        what makes one; without one it is inferred, see `infer_schema`. `id` identifies the upload: put again with the same id it counts
        once, and gets the same version. An exception has the upload's id as its `id`, and is `Undecided` if it leaves open whether the
        upload was taken.

        >>> client.put("sales", {"shop": ["Basel"], "sold": [40]}, schema={"shop": "utf8", "sold": "int64"})
        Ack(id='5b1c...', version=2)

        `ValueError`: the values do not fit the schema, or the upload is larger than the service's limits."""
        schema, columns, count = columns_in(data, None if schema is None else as_schema(schema))
        starts = range(0, count, BATCH_ROWS)
        batches = [it for first in starts for it in encode_batches(schema, columns, first, min(first + BATCH_ROWS, count))]
        return self.put_encoded(table, schema, batches, id)

    def put_batches(self, table: str, batches: Iterable[Data], schema: SchemaLike, id: UploadId = None) -> Ack:
        """Uploads like `put`, in exactly these batches, each of rows or columns.

        >>> client.put_batches("sales", [[("Basel", 40)], [("Genf", None)]], {"shop": "utf8", "sold": "int64"})
        Ack(id='b0a7...', version=2)
        """
        schema, encoded = as_schema(schema), []
        for batch in batches:
            _, columns, count = columns_in(batch, schema)
            encoded.append(write_batch(schema, columns, count))
            check_batch(encoded[-1], count)
        return self.put_encoded(table, schema, encoded, id)

    def put_encoded(self, table: str, schema: Schema, batches: Sequence[Tuple[bytes, bytes]], id: UploadId) -> Ack:
        """Uploads batches that are given as a header and a body each."""
        id, header, path = upload_id(id), schema_header(schema), table_name(table)
        check_upload(table, header, batches)
        messages = [bytes_field(1, descriptor(path, id.hex().encode())) + bytes_field(2, header)]
        messages += [data_message(head, b"", body) for head, body in batches]
        version = self.put_messages(messages, id)
        with self.lock:
            self.put_versions[table] = max(version, self.put_versions.get(table, 0))
        return Ack(id.hex(), version)

    def put_messages(self, messages: Iterable[bytes], id: bytes) -> int:
        """The version that the upload in these messages made. Exceptions have its id."""
        try:
            connection = self.open_connection()
        except OSError as fault:
            fault.id = id.hex()  # nothing was sent
            raise
        try:
            return self.call_over(connection, "DoPut", messages, lambda answer: read_version(only(answer), id))
        except (Refused, BadAnswer, OSError) as fault:
            fault.id = id.hex()
            if isinstance(fault, Refused) and fault.status in FINAL_STATUSES:
                raise
            raise undecided(fault, fault.id) from fault

    def get(self, table: str, version: Optional[int] = None, *, at_least: AtLeast = None, wait: float = WAIT_SECONDS) -> Table:
        """A version of a table, or the latest that the node has which is asked.

        >>> client.get("sales", version=1).num_rows
        2

        `at_least` and `wait` are those of `info`: what this client has put is in what it gets with `at_least="mine"`.

        >>> ack = client.put("sales", [{"shop": "Basel", "sold": 40}])
        >>> client.get("sales", at_least="mine").num_rows
        3
        """
        if version is not None and at_least is None:
            return self.redeem(Ticket(table, version))
        info = self.info(table, at_least=at_least, wait=wait)
        return self.redeem(info.ticket if version is None else Ticket(table, version))

    def redeem(self, ticket: Union[Ticket, bytes]) -> Table:
        """The version of a table that a ticket asks for: a `Ticket`, or the bytes of one.

        >>> client.redeem(client.info("sales").ticket).num_rows
        2
        """
        content = ticket.encode() if isinstance(ticket, Ticket) else ticket
        return self.call("DoGet", [bytes_field(1, content)], read_table)

    def info(self, table: str, *, at_least: AtLeast = None, wait: float = WAIT_SECONDS) -> Info:
        """What the service reports about the latest version of a table, as `Info`.

        >>> client.info("sales").locations[0]
        'plain+tcp://127.0.0.1:42000'

        A node learns what was put at another one a moment later. `at_least` is a version that the node has to have, such as that of an
        `Ack`, or `"mine"`: the latest version that an upload of this client made. Then the node is asked again and again, at most for
        `wait` seconds, and `Behind` is raised if it still does not have the version. Each question is a call, with its own timeout."""
        least = self.least_version(table, at_least)
        deadline = time.monotonic() + wait
        for pause in itertools.chain(FIRST_PAUSES, itertools.repeat(LAST_PAUSE)):
            try:
                info = self.latest(table)
                if info.ticket.version >= least:
                    return info
                version = info.ticket.version
            except Refused as refused:
                if not least or refused.name != "NoTable":
                    raise
                version = 0
            left = deadline - time.monotonic()
            if left <= 0:
                break
            time.sleep(min(pause, left))
        raise Behind(table, least, version)

    def least_version(self, table: str, at_least: AtLeast) -> int:
        """The version that a node has to have, 0 for any."""
        if at_least is None:
            return 0
        if at_least == "mine":
            return self.put_versions.get(table, 0)
        if not isinstance(at_least, int) or not 0 <= at_least < 1 << 64:
            raise ValueError(f"{at_least!r} is neither a version nor \"mine\"")
        return at_least

    def latest(self, table: str) -> Info:
        """What the node reports that is asked once."""
        info = self.call("GetFlightInfo", [descriptor(table_name(table))], lambda answer: read_info(only(answer)))
        check(info.table == table, "an info is of another table")
        return info

    def schema(self, table: str) -> Schema:
        """The schema of a table.

        >>> print(client.schema("sales"))
        shop: utf8
        sold: int64
        """
        message = self.call("GetSchema", [descriptor(table_name(table))], only)
        return read_encapsulated(Message(message).bytes(1))

    def list(self) -> List[Info]:
        """An `Info` of each table.

        >>> [info.table for info in client.list()]
        ['sales']
        """
        return self.call("ListFlights", [b""], lambda answer: [read_info(it) for it in answer])


def as_schema(schema):
    return schema if isinstance(schema, Schema) else Schema(schema)


def connect(location: Union[str, Iterable[str]], timeout: Optional[float] = None, max_bytes: int = MAX_ANSWER_BYTES) -> Client:
    """A client of the service at a location, `"127.0.0.1:42000"` or `"plain+tcp://127.0.0.1:42000"`, or at a list of them, of which each
    call uses the first that can be reached.

    `timeout` is how many seconds a call may take from its connection to its last byte; then `socket.timeout` (an `OSError`) is raised.
    It does not limit how long the system takes to look up a host's name.
    `max_bytes` is how many bytes an answer may have; a longer one is a `BadAnswer`. Nothing is connected before the first call.

    >>> client = felzoren.connect(["127.0.0.1:42000", "127.0.0.1:42001"], timeout=10)
    """
    addresses = [parse_location(it) for it in ([location] if isinstance(location, str) else location)]
    if not addresses:
        raise ValueError("there is no location")
    return Client(lambda: SocketConnection(addresses, timeout), max_bytes)


def connect_files(reader: BinaryIO, writer: BinaryIO, max_bytes: int = MAX_ANSWER_BYTES) -> Client:
    """A client of a service that answers one call after another over two buffered binary files, such as the pipes of a process. There
    is no timeout; and after a `BadAnswer` the files can't be used any more.

    >>> process = subprocess.Popen(program, stdin=subprocess.PIPE, stdout=subprocess.PIPE)
    >>> client = felzoren.connect_files(process.stdout, process.stdin)
    """
    return Client(lambda: FilesConnection(reader, writer), max_bytes)
