"""A model of uploads, of tickets, and of the tables that agreed values make. It is written from Protocol Buffers, "Encoding", from
the columnar format, Schema.fbs, Message.fbs and Flight.proto of Apache Arrow, from gRPC, "gRPC over HTTP2", and from
docs/FORMATS.md, and not from the code. It keeps whole lists, and computes from all values each time which uploads count, which
versions there are and what is answered.

Bytes are an upload if writing what is read in them gives the same bytes; so a reader that accepts too much does no harm. The model
does not check the limits of schemas, and expects columns of the supported types. With `large` these are also LargeBinary, LargeUtf8
and LargeList, and every upload may be longer. With `is_conditional` it also reads uploads that name the version of their table which
they expect (conditional_model.py); to the crates these are no uploads yet."""
import re

from batch_model import Head, Type, meaning
from batch_model import canonical as written_batch
from carried_types import canonical, make, names_of_types
from conditional_model import Agreed, condition_in, condition_text, may_be_expected
from wire_model import Faults, bytes_field, fields_of, frame, number_field

MOST_BATCHES, MOST_SERVED = 1024, 1 << 22
# The most bytes of an upload, today and where the types whose names begin with Large are carried.
MOST_BYTES, MOST_BYTES_WITH_LARGE = 1 << 24, 1 << 26


# ---- headers, read by their offsets


class NoUpload(Exception):
    """Bytes are no upload."""


def number_in(text, place, size, signed=False):
    if not 0 <= place <= len(text) - size:
        raise NoUpload
    return int.from_bytes(text[place : place + size], "little", signed=signed)


def follow(text, place):
    return place + number_in(text, place, 4)


def slot(text, table, number):
    """The place of a field of a table, None if it is absent."""
    vtable = table - number_in(text, table, 4, True)
    is_there = 4 + 2 * number < number_in(text, vtable, 2)
    cell = number_in(text, vtable + 4 + 2 * number, 2) if is_there else 0
    return table + cell if cell else None


def inside(text, table, number):
    """The tables of the vector in a field."""
    place = slot(text, table, number)
    if place is None:
        return []
    vector = follow(text, place)
    return [follow(text, vector + 4 + 4 * index) for index in range(number_in(text, vector, 4))]


def string(text, table, number):
    place = slot(text, table, number)
    if place is None:
        return None
    vector = follow(text, place)
    return text[vector + 4 : vector + 4 + number_in(text, vector, 4)].decode("utf-8")


def metadata(text, table, number):
    return [{"key": string(text, it, 0) or "", "value": string(text, it, 1) or ""} for it in inside(text, table, number)]


def parameter(text, table, name, place, word, default):
    found = slot(text, table, place)
    if word == "timezone":
        return string(text, table, place)
    if found is None:
        return default
    # the precision of a Decimal is a number, and that of a FloatingPoint a name
    if word == "unit" or name == "FloatingPoint":
        names = canonical.VALUES.get(name, "SECOND MILLISECOND MICROSECOND NANOSECOND").split()
        return names[number_in(text, found, 2)]
    return bool(number_in(text, found, 1)) if word == "is_signed" else number_in(text, found, 4, True)


def column_at(text, table, large):
    """A field of a schema, in the form of canonical.py."""
    name = names_of_types(large)[number_in(text, slot(text, table, 2), 1)]
    type_table = follow(text, slot(text, table, 3))
    words = enumerate(make.TYPES[name].items())
    said = {word: parameter(text, type_table, name, place, word, default) for place, (word, default) in words}
    make.kind({"type_type": name, "type": said})
    nullable = slot(text, table, 1)
    return {
        "name": string(text, table, 0) or "", "nullable": nullable is not None and number_in(text, nullable, 1) != 0, "type_type": name,
        "type": said, "children": [column_at(text, it, large) for it in inside(text, table, 5)],
        "custom_metadata": metadata(text, table, 6),
    }


def header_in(text):
    return follow(text, slot(text, follow(text, 0), 2))


def schema_at(text, large=False):
    table = header_in(text)
    columns = [column_at(text, it, large) for it in inside(text, table, 1)]
    return {"fields": columns, "custom_metadata": metadata(text, table, 2)}


def pairs_at(text, table, number):
    vector = follow(text, slot(text, table, number))
    count = number_in(text, vector, 4)
    if count > len(text):
        raise NoUpload
    return tuple(tuple(number_in(text, vector + 4 + 16 * at + half, 8, True) for half in (0, 8)) for at in range(count))


def head_at(text):
    table = header_in(text)
    length = number_in(text, slot(text, table, 0), 8, True)
    body_length = number_in(text, slot(text, follow(text, 0), 3), 8, True)
    return Head(length, pairs_at(text, table, 1), pairs_at(text, table, 2), slot(text, table, 3) is not None, body_length)


# ---- uploads


def type_in(column):
    """The type of a field, in the form of batch_model.py."""
    words = tuple(str(it).lower() if isinstance(it, bool) else str(it) for it in column["type"].values())
    return Type(column["type_type"].rstrip("_"), words, tuple(type_in(it) for it in column["children"]))


def schema_text(schema):
    return bytes.fromhex(canonical.message({"header_type": "Schema", "header": schema}))


def bare(schema):
    """A schema, or a field, without metadata."""
    inner = "fields" if "fields" in schema else "children"
    return {**schema, "custom_metadata": [], inner: [bare(it) for it in schema[inner]]}


class Upload:
    """An upload: its table, its id, its schema, its batches, each a number of rows and a list of cells for each column, and the version
    of its table that it expects, None if it has no condition."""

    def __init__(self, table, id, schema, batches, expected=None):
        self.table, self.id, self.schema, self.batches, self.expected = table, id, schema, batches, expected
        self.schema_text, self.shape = schema_text(schema), schema_text(bare(schema))
        self.parts = [self.written(rows, columns) for rows, columns in batches]
        fields = [bytes_field(1, header) + (bytes_field(2, body) if body else b"") for header, body in self.parts]
        front = [bytes_field(1, table), bytes_field(2, id), bytes_field(3, self.schema_text)]
        self.text = b"".join([*front, *(bytes_field(4, it) for it in fields), condition_text(expected)])

    def written(self, rows, columns):
        """The header and the body of a batch."""
        head, body = written_batch([type_in(it) for it in self.schema["fields"]], rows, columns)
        said = {"length": rows, "nodes": [dict(zip(("length", "null_count"), it)) for it in head.nodes]}
        said["buffers"] = [dict(zip(("offset", "length"), it)) for it in head.buffers]
        header = canonical.message({"header_type": "RecordBatch", "header": said, "bodyLength": len(body)})
        return bytes.fromhex(header), body

    def messages(self):
        """The messages with which it is served."""
        name = bytes_field(3, self.id)
        served = [bytes_field(2, header) + name + (bytes_field(1000, body) if body else b"") for header, body in self.parts]
        return served or [name]

    def refusals(self, large=False):
        """The names of what stands against its being made, of which the first is reported. Batches are expected to be of the schema."""
        served = [bytes_field(2, self.schema_text), *self.messages()]
        most = MOST_BYTES_WITH_LARGE if large else MOST_BYTES
        is_large = len(self.text) > most or any(len(it) > MOST_SERVED for it in served)
        faults = {"BadExpected": not may_be_expected(self.expected), "BadTable": not is_table_name(self.table)}
        faults |= {"TooManyBatches": len(self.batches) > MOST_BATCHES, "TooLarge": is_large}
        return [name for name, stands in faults.items() if stands]

    def is_taken(self, large=False):
        return len(self.id) == 16 and not self.refusals(large)


def is_table_name(name):
    return re.fullmatch(rb"[0-9A-Za-z_.-]{1,64}", name) is not None


def batch_at(schema, text):
    fields = {number: held for number, kind, held in fields_of(text) if kind == 2}
    head, body = head_at(fields[1]), fields.get(2, b"")
    columns = meaning([type_in(it) for it in schema["fields"]], head, body)
    if isinstance(columns, str):
        raise NoUpload
    return head.length, columns


def upload_of(text, large=False, is_conditional=False):
    """The upload that the bytes encode, None if they are no upload."""
    try:
        every = fields_of(text)
        fields = [(number, held) for number, kind, held in every if kind == 2]
        table, id, header = (dict(fields)[number] for number in (1, 2, 3))
        schema, expected = schema_at(header, large), condition_in(every) if is_conditional else None
        upload = Upload(table, id, schema, [batch_at(schema, held) for number, held in fields if number == 4], expected)
    except (NoUpload, Faults, make.Refused, LookupError, TypeError, ValueError, OverflowError):
        return None
    return upload if upload.is_taken(large) and upload.text == text else None


# ---- tickets


def ticket_text(table, version):
    """The ticket for a version of a table, None if there can be none."""
    is_one = is_table_name(table) and 1 <= version < 2**64
    return bytes_field(1, table) + number_field(2, version) if is_one else None


def ticket_of(text):
    """The table and the version that a ticket asks for, None if the bytes are no ticket."""
    try:
        held = {number: it for number, _, it in fields_of(text)}
        asked = held[1], held[2]
        return asked if ticket_text(*asked) == text else None
    except (Faults, KeyError, TypeError):
        return None


# ---- tables, from whole lists of uploads


def effective(uploads, table):
    """The uploads to the table that count, in their order."""
    return Agreed(uploads).effective(table)


def outcome(uploads, upload):
    """What became of an upload, given these: a name, with the number of a version in brackets if it has one."""
    name, *version = Agreed(uploads).outcome(upload)
    return f"{name}({version[0]})" if version else name


def answer(uploads, table, version):
    """The frames of a version of a table, None if there is no such version."""
    counted = effective(uploads, table)
    if not 1 <= version <= len(counted):
        return None
    schema = bytes_field(2, counted[0].schema_text)
    return [frame(0, it) for it in [schema, *(it for upload in counted[:version] for it in upload.messages())]]


def latest(uploads, table):
    """The number, the rows, the bytes and the schema of a table's latest version; None if there is none."""
    counted = effective(uploads, table)
    if not counted:
        return None
    rows = sum(rows for upload in counted for rows, _ in upload.batches)
    return len(counted), rows, sum(map(len, answer(uploads, table, len(counted)))), counted[0].schema_text


def table_names(uploads):
    """The tables, in the order of their first effective uploads."""
    tables = {it.table for it in uploads if effective(uploads, it.table)}
    return sorted(tables, key=lambda table: uploads.index(effective(uploads, table)[0]))
