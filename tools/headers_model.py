"""A model of headers of messages: it returns the header that bytes encode, or every fault in them. It is written from FlatBuffers,
"FlatBuffer Internals", from Message.fbs and Schema.fbs of Apache Arrow and from docs/FORMATS.md, and not from the code. A header has the
form of the JSON files of crates/flatbuf_meta/vectors, whose scripts print its lines and write its canonical text.

Fields and entries beyond the most that a schema may have are not read. The types LargeBinary, LargeUtf8 and LargeList are refused,
unless `large` is true."""
import struct

from carried_types import canonical, children_wanted, make, names_of_types
from wire_model import Faults

MOST_LEVELS, MOST_FIELDS, MOST_ENTRIES, MOST_TEXT, MOST_NODES, MOST_BUFFERS = 16, 512, 4096, 1 << 20, 512, 1536
SCHEMA, DICTIONARY, BATCH, VERSION_5 = 1, 2, 3, 4
UNITS = ("SECOND", "MILLISECOND", "MICROSECOND", "NANOSECOND")
VALUES = {"FloatingPoint": ("HALF", "SINGLE", "DOUBLE"), "Date": ("DAY", "MILLISECOND")}
SIZES = {"unit": 2, "is_signed": 1}


class Reader:
    """A text, every fault that was found in it, and how many fields, entries and bytes of texts have been read."""

    def __init__(self, text, large=False):
        self.text, self.found, self.seen = text, set(), [0, 0, 0]
        self.names = names_of_types(large)

    def number(self, place, size, is_signed=False):
        if not 0 <= place <= len(self.text) - size:
            raise Faults("OutOfBounds")
        return int.from_bytes(self.text[place : place + size], "little", signed=is_signed)

    def follow(self, place):
        return place + self.number(place, 4)

    def slot(self, table, number):
        """The place of a field of the table, None if it is absent."""
        vtable = table - self.number(table, 4, True)
        own_size = self.number(vtable, 2)
        if own_size < 4:
            raise Faults("BadHeader")
        cell = self.number(vtable + 4 + 2 * number, 2) if own_size >= 6 + 2 * number else 0
        return table + cell if cell else None

    def tried(self, read, *arguments):
        """What the read returns, or None if it raises faults, which are kept."""
        try:
            return read(*arguments)
        except Faults as faults:
            self.found |= faults.names
            return None

    def number_in(self, table, number, size, default=0, is_signed=False):
        place = self.slot(table, number)
        return default if place is None else self.number(place, size, is_signed)

    def reference_in(self, table, number):
        place = self.slot(table, number)
        return None if place is None else self.follow(place)

    def vector_in(self, table, number, size):
        """The place of the first element, and the number of elements."""
        vector = self.reference_in(table, number)
        if vector is None:
            return 0, 0
        count = self.number(vector, 4)
        if vector + 4 + count * size > len(self.text):
            raise Faults("OutOfBounds")
        return vector + 4, count

    def string_in(self, table, number):
        vector = self.reference_in(table, number)
        if vector is None:
            return None
        first, count = self.vector_in(table, number, 1)
        try:
            return self.text[first : first + count].decode("utf-8")
        except UnicodeDecodeError:
            raise Faults("NotUtf8") from None

    # schemas

    def counts(self, kind, count):
        """Counts more of this kind, and returns whether fields and entries are still within the limits of a schema."""
        self.seen[kind] += count
        if self.seen[kind] > (MOST_FIELDS, MOST_ENTRIES, MOST_TEXT)[kind]:
            self.found.add("TooManyFields")
        return self.seen[0] <= MOST_FIELDS and self.seen[1] <= MOST_ENTRIES

    def counted_text(self, table, number):
        text = self.tried(self.string_in, table, number)
        self.counts(2, len((text or "").encode()))
        return text

    def elements(self, table, number, kind):
        """The tables of a vector of references, each of which is counted."""
        first, count = self.tried(self.vector_in, table, number, 4) or (0, 0)
        for place in range(first, first + 4 * count, 4):
            if not self.counts(kind, 1):
                return
            yield self.follow(place)

    def metadata(self, table, number):
        return [{"key": self.counted_text(it, 0) or "", "value": self.counted_text(it, 1) or ""} for it in self.elements(table, number, 1)]

    def parameter(self, table, name, place, word, default):
        if word == "timezone":
            return None if table is None else self.counted_text(table, place)
        values = VALUES.get(name, UNITS) if word == "unit" or name == "FloatingPoint" else None
        size = 2 if values else SIZES.get(word, 4)
        found = None if table is None else self.tried(self.number_in, table, place, size, None, size == 4)
        if found is None:
            return default
        if values:
            # an unknown unit has no name, and its number is no bit width of a Time
            return values[found] if found < len(values) else found
        return found != 0 if word == "is_signed" else found

    def type_of(self, table):
        """The name of a field's type, and its parameters."""
        number = self.tried(self.number_in, table, 2, 1)
        if number is None:
            return None, {}
        if number not in self.names:
            self.found.add(f"Unsupported({number})")
            return None, {}
        name = self.names[number]
        if not make.TYPES[name]:
            return name, {}
        before = set(self.found)
        self.found.clear()
        place = self.tried(self.reference_in, table, 3)
        words = enumerate(make.TYPES[name].items())
        said = {word: self.parameter(place, name, at, word, default) for at, (word, default) in words}
        if not self.found - {"NotUtf8", "TooManyFields"}:
            self.found |= self.wrong_parameters(name, said)
        self.found |= before
        return name, said

    @staticmethod
    def wrong_parameters(name, said):
        for word, value in said.items():
            if isinstance(value, int) and (word == "unit" or name == "FloatingPoint"):
                return {"BadHeader"}
        try:
            make.kind({"type_type": name, "type": said})
        except make.Refused as refused:
            return {str(refused)}
        return set()

    def field(self, table, level):
        said = {"name": self.counted_text(table, 0) or "", "nullable": bool(self.tried(self.number_in, table, 1, 1))}
        said["type_type"], said["type"] = self.type_of(table)
        if self.tried(self.slot, table, 4) is not None:
            self.found.add("Dictionary")
        _, count = self.tried(self.vector_in, table, 5, 4) or (0, None)
        if said["type_type"] and count is not None and count != children_wanted(said["type_type"], count):
            self.found.add("BadHeader")
        said["custom_metadata"] = self.metadata(table, 6)
        said["children"] = self.fields(table, 5, level + 1)
        return said

    def fields(self, table, number, level):
        if level > MOST_LEVELS:
            _, count = self.tried(self.vector_in, table, number, 4) or (0, 0)
            self.found |= {"TooDeep"} if count else set()
            return []
        return [self.field(it, level) for it in self.elements(table, number, 0)]

    def schema(self, table):
        if self.tried(self.number_in, table, 0, 2):
            self.found.add("Endianness")
        return {"fields": self.fields(table, 1, 1), "custom_metadata": self.metadata(table, 2)}

    # batches

    def pairs(self, table, number, *names):
        first, count = self.tried(self.vector_in, table, number, 16) or (0, 0)
        return [dict(zip(names, it)) for it in struct.iter_unpack("<qq", self.text[first : first + 16 * count])]

    def batch(self, table):
        said = {"length": self.tried(self.number_in, table, 0, 8, 0, True), "nodes": self.pairs(table, 1, "length", "null_count")}
        said["buffers"] = self.pairs(table, 2, "offset", "length")
        return said | ({} if self.tried(self.slot, table, 3) is None else {"compression": {}})

    def header_table(self, message):
        table = self.reference_in(message, 2)
        if table is None:
            raise Faults("BadHeader")
        return table

    def message(self):
        """The header, or None if the message around it has a fault."""
        message = self.follow(0)
        version = self.tried(self.number_in, message, 0, 2)
        self.found |= {"Version"} if version not in (None, VERSION_5) else set()
        kind, table = self.tried(self.number_in, message, 1, 1), self.tried(self.header_table, message)
        self.found |= {"Dictionary"} if kind == DICTIONARY else {"BadHeader"} if kind not in (None, SCHEMA, BATCH) else set()
        if self.found:
            return None
        said = {"version": "V5", "header_type": "Schema" if kind == SCHEMA else "RecordBatch"}
        if kind == SCHEMA:
            return said | {"header": self.schema(table)}
        return said | {"header": self.batch(table), "bodyLength": self.tried(self.number_in, message, 3, 8, 0, True)}


def header_of(text, large=False):
    """The header that the bytes encode. Raises the faults in them."""
    reader = Reader(text, large)
    said = reader.tried(reader.message)
    if reader.found:
        raise Faults(*reader.found)
    return said


def columns_shown(columns, indent):
    """The lines for fields: for each its own, those for its metadata, and those for its children."""
    lines = []
    for it in columns:
        nullable = ", nullable" if it["nullable"] else ""
        lines.append(f"{indent}{make.quoted(it['name'])}: {make.kind(it)}{nullable}")
        lines += make.entries(it, indent + "  ") + columns_shown(it["children"], indent + "  ")
    return lines


def shown(said):
    """The lines for a header in a story."""
    if said["header_type"] == "Schema":
        return ["schema", *make.entries(said["header"], "  "), *columns_shown(said["header"]["fields"], "  ")]
    return [line[2:] for line in make.header(said)]


def written(said):
    """The canonical text of a header, in hexadecimal; None if it can't be written."""
    header = said["header"]
    if said["header_type"] == "Schema":
        return canonical.message(said)
    is_within = len(header["nodes"]) <= MOST_NODES and len(header["buffers"]) <= MOST_BUFFERS
    return canonical.message(said) if is_within and "compression" not in header else None
