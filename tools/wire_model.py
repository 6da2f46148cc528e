#!/usr/bin/env python3
"""Makes the stories of fields, frames and messages of Arrow Flight from a model of them, in crates/wire_stories/data.

The stories are every short text over a few chosen pieces, with its meaning. The model is written from the standards (Protocol Buffers,
"Encoding"; gRPC over HTTP/2, "Length-Prefixed-Message"; Apache Arrow, "Flight.proto") and not from the code. The other tools read and
write numbers, fields and frames with the functions of this module.

    tools/wire_model.py [--check]

It writes `crates/wire_stories/data/every_*.txt`. With --check it changes nothing, and names those that differ from what it makes. If a
text has more than one fault, a reader may report any of them: the command then begins with `one-of` and names them."""
import itertools
import sys
from pathlib import Path

from toolbox import show_help

DATA = Path(__file__).resolve().parent.parent / "crates" / "wire_stories" / "data"
MAX_FIELD_NUMBER = 2**29 - 1
MAX_FRAME_PAYLOAD = 4 * 1024 * 1024
# The flag of the frame that ends a call.
END = 0x80


class Faults(Exception):
    """The names of the faults in a text."""

    def __init__(self, *names):
        super().__init__()
        self.names = set(names)


class BadFrame(Exception):
    """The name of a frame's fault, and the text that was not read."""

    def __init__(self, name, rest):
        super().__init__(name)
        self.name, self.rest = name, rest


def hexadecimal(text):
    return text.hex() or "-"


# ---- numbered fields


def varint(number):
    """The number in as few bytes as possible, seven bits in each, the lowest first, and 128 added to each but the last."""
    groups = [number >> place & 127 for place in range(0, max(number.bit_length(), 1), 7)]
    return bytes([it | 128 for it in groups[:-1]] + groups[-1:])


def joined(groups):
    """The number in these bytes, seven bits in each, the lowest first."""
    return sum((it & 127) << 7 * at for at, it in enumerate(groups))


def number_from(text, place):
    """The number at a place, of at most ten bytes and 64 bits, and the place after it."""
    groups = text[place : place + 10]
    for count, byte in enumerate(groups, 1):
        if byte < 128:
            number = joined(groups[:count])
            if number >= 2**64:
                raise Faults("BadVarint")
            return number, place + count
    raise Faults("CutShort" if len(groups) < 10 else "BadVarint")


def number_at(text):
    """The number at the front, and the text after it."""
    number, place = number_from(text, 0)
    return number, text[place:]


def counted_at(text, count):
    """The first `count` bytes, and the text after them."""
    if len(text) < count:
        raise Faults("CutShort")
    return text[:count], text[count:]


def held_at(kind, text):
    """The content of a field of this wire type, and the text after it."""
    if kind == 0:
        return number_at(text)
    if kind == 1:
        return counted_at(text, 8)
    if kind == 2:
        count, rest = number_at(text)
        return counted_at(rest, count)
    if kind == 5:
        return counted_at(text, 4)
    raise Faults("BadWireType")


def field_at(text):
    """The field at the front, as its number, its wire type and its content, and the text after it."""
    key, rest = number_at(text)
    number, kind = key >> 3, key & 7
    faults = set() if 1 <= number <= MAX_FIELD_NUMBER else {"BadKey"}
    try:
        held, rest = held_at(kind, rest)
    except Faults as found:
        raise Faults(*faults, *found.names) from None
    if faults:
        raise Faults(*faults)
    return (number, kind, held), rest


def split(text):
    """The fields at the front of a text, and the faults after them."""
    fields = []
    while text:
        try:
            field, text = field_at(text)
        except Faults as found:
            return fields, found.names
        fields.append(field)
    return fields, set()


def fields_of(text):
    """All fields of a text."""
    fields, faults = split(text)
    if faults:
        raise Faults(*faults)
    return fields


def values_by_number(text):
    """The value of each field of a message by its number, a number or bytes; the last one if a field is repeated. The text is not copied
    for each field, and wire types of eight and four bytes are not expected."""
    place, found = 0, {}
    while place < len(text):
        key, place = number_from(text, place)
        value, place = number_from(text, place)
        if key & 7 == 2:
            value, place = text[place : place + value], place + value
        found[key >> 3] = value
    return found


def told(command, call, text):
    """The command with the text, and the lines that the call returns for it; or the text's fault, or that one of its faults is reported
    if there are several."""
    line = f"{command} {text.hex()}".rstrip()
    try:
        return [line, *(f"  {it}" for it in call(text))]
    except Faults as found:
        names = sorted(found.names)
        return [line, f"  {names[0]}"] if len(names) == 1 else [f"one-of {' '.join(names)}: {line}", "  one of them"]


KINDS = {0: "varint", 1: "eight bytes", 2: "bytes", 5: "four bytes"}


def line_of(field):
    number, kind, held = field
    return f"{number}: {KINDS[kind]} {held if kind == 0 else hexadecimal(held)}"


def told_fields(text):
    return [line_of(it) for it in fields_of(text)] or ["none"]


def told_front(text):
    field, rest = field_at(text)
    lent = []
    if field[1] == 0:
        lent = [f"number {field[2]}"]
    if field[1] == 2:
        lent = [f"bytes {hexadecimal(field[2])}"]
    return [line_of(field), *lent, f"left {hexadecimal(rest)}"]


# ---- frames


def frame(flag, payload):
    """A frame: the flag, the length of the payload in four bytes, the most significant first, and the payload."""
    return bytes([flag]) + len(payload).to_bytes(4, "big") + payload


def head_of(text):
    """The flag and the length in the head of the frame at the front."""
    return text[0], int.from_bytes(text[1:5], "big")


def frame_at(text):
    """The flag and the payload of the frame at the front, and what follows it. Raises BadFrame."""
    if len(text) < 5:
        raise BadFrame("Truncated", b"")
    (flag, length), rest = head_of(text), text[5:]
    if flag not in (0, END):
        raise BadFrame("Compressed" if flag == 1 else "BadFlag", rest)
    if length > MAX_FRAME_PAYLOAD:
        raise BadFrame("TooLong", rest)
    if len(rest) < length:
        raise BadFrame("Truncated", b"")
    return flag, rest[:length], rest[length:]


def whole_frames(text):
    """The flags and payloads of the whole frames at the front of a text, with any flags and lengths, and the text after them."""
    found = []
    while len(text) >= 5:
        flag, length = head_of(text)
        if len(text) < 5 + length:
            break
        found, text = [*found, (flag, text[5 : 5 + length])], text[5 + length :]
    return found, text


def told_frames(text):
    """The frames one after another, and how they end."""
    if not text:
        return ["no more"]
    try:
        flag, payload, rest = frame_at(text)
    except BadFrame as fault:
        return [f"{fault.name}, left {hexadecimal(fault.rest)}"]
    return [f"flag {flag}, payload {hexadecimal(payload)}", *told_frames(rest)]


# ---- messages of Arrow Flight: each field's number, name and kind; an embedded message is a list of its own fields

TICKET = [(1, "ticket", "bytes")]
LOCATION = [(1, "uri", "text")]
DESCRIPTOR = [(1, "type", "enumeration"), (2, "cmd", "bytes"), (3, "path", "texts")]
ENDPOINT = [(1, "ticket", ("one", TICKET)), (2, "location", ("each", LOCATION))]
INFO = [
    (1, "schema", "bytes"),
    (2, "flight_descriptor", ("one", DESCRIPTOR)),
    (3, "endpoint", ("each", ENDPOINT)),
    (4, "total_records", "int64"),
    (5, "total_bytes", "int64"),
    (6, "ordered", "bool"),
]
DATA_MESSAGE = [
    (1, "flight_descriptor", ("one", DESCRIPTOR)),
    (2, "data_header", "bytes"),
    (3, "app_metadata", "bytes"),
    (1000, "data_body", "bytes"),
]


def signed(number, bits):
    number %= 2**bits
    return number - 2**bits if number >= 2 ** (bits - 1) else number


def value_of(kind, wire_type, held):
    """The value of a field of this kind."""
    if wire_type != (0 if kind in ("enumeration", "int64", "bool") else 2):
        raise Faults("BadWireType")
    if kind == "enumeration":
        return signed(held, 32)
    if kind == "int64":
        return signed(held, 64)
    if kind == "bool":
        return held != 0
    if kind in ("text", "texts"):
        try:
            return held.decode("utf-8")
        except UnicodeDecodeError:
            raise Faults("NotUtf8") from None
    return held


def values_of(kind, number, fields, faults):
    """The values of the fields of one number, in order; the faults of the others are added to `faults`."""
    values = []
    for at, wire_type, held in fields:
        if at == number:
            try:
                values.append(value_of(kind, wire_type, held))
            except Faults as found:
                faults |= found.names
    return values


def meant_inside(texts, table, faults):
    """The meaning of an embedded message that comes in these parts: its fields are those of all parts, one after another."""
    fields = []
    for text in texts:
        more, wrong = split(text)
        fields += more
        faults |= wrong
    return meant_by(fields, table, faults)


def meant_by(fields, table, faults):
    """The meaning of fields: the value, or the values, of each field of the message."""
    meant = []
    for number, _, kind in table:
        values = values_of(kind, number, fields, faults)
        if kind == "texts":
            meant.append(values)
        elif isinstance(kind, tuple) and kind[0] == "each":
            meant.append([meant_inside([it], kind[1], faults) for it in values])
        elif isinstance(kind, tuple):
            meant.append(meant_inside(values, kind[1], faults) if values else None)
        else:
            default = {"enumeration": 0, "int64": 0, "bool": False, "text": ""}.get(kind, b"")
            meant.append(values[-1] if values else default)
    return meant


def shown(meant, table, depth):
    """The message as lines, one per field."""
    lines = []
    for (_, name, kind), value in zip(table, meant):
        if isinstance(kind, tuple):
            inner = value if kind[0] == "each" else [] if value is None else [value]
            for message in inner:
                lines += ["  " * depth + name, *shown(message, kind[1], depth + 1)]
        else:
            for each in value if kind == "texts" else [value]:
                lines.append("  " * depth + f"{name} {spoken(each)}")
    return lines


def spoken(value):
    if isinstance(value, bool):
        return "true" if value else "false"
    if isinstance(value, str):
        return f'"{value}"'
    return hexadecimal(value) if isinstance(value, bytes) else str(value)


def number_field(number, value):
    return varint(number << 3) + varint(value)


def bytes_field(number, value):
    return varint(number << 3 | 2) + varint(len(value)) + value


def encoding(meant, table):
    """The one encoding: fields in order of their numbers, each value once, and no defaults of single fields."""
    text = b""
    for (number, _, kind), value in zip(table, meant):
        if kind == "texts":
            text += b"".join(bytes_field(number, it.encode()) for it in value)
        elif isinstance(kind, tuple):
            inner = value if kind[0] == "each" else [] if value is None else [value]
            text += b"".join(bytes_field(number, encoding(it, kind[1])) for it in inner)
        elif kind in ("enumeration", "int64", "bool"):
            text += number_field(number, int(value) % 2**64) if value else b""
        else:
            value = value.encode() if kind == "text" else value
            text += bytes_field(number, value) if value else b""
    return text


def told_as(table):
    def call(text):
        faults = set()
        meant = meant_inside([text], table, faults)
        if faults:
            raise Faults(*faults)
        return [*shown(meant, table, 0), f"encoding {hexadecimal(encoding(meant, table))}"]

    return call


# ---- the texts


def texts_of(pieces, most):
    """The texts of at most `most` of the pieces, each once."""
    pieces = [bytes.fromhex(it) for it in pieces.split("|")]
    every = (b"".join(it) for count in range(most + 1) for it in itertools.product(pieces, repeat=count))
    return list(dict.fromkeys(every))


# Keys of field 1 of most wire types and of field 0, a short length, and bytes with a continuation bit.
BYTES = "00|01|02|08|0a|0b|0d|80|ff"
# Keys of fields 1 and 2, a key of field 0 that is a length too, and a byte with a continuation bit.
FEW_BYTES = "01|02|08|0a|80"
# Keys before runs of three, four and seven bytes, so that fields of four and eight bytes come whole and cut.
PIECES = "09|0d|0a07|8d8000|0e|00|010203|80818201|11121314151617"
# What comes before a long number, its beginning, middle and end, and what comes after it.
FRONTS, LOWEST = "|08|0a|0d", "88|8a|8f|80"
MIDDLES = "80808080808080|8080808080808080|808080808080808080|ffffffffffffffff|ffffffffffffffffff"
HIGHEST, ENDS = "|01|02|7f", "|0161"
# Announced lengths, each near the first value of another of the four bytes, or at the limit.
FLAGS = "00|80|01|02|ff"
LENGTHS = "00000000|00000001|00000002|00000100|00010000|00400000|00400001|01000000"
PAYLOADS = "|07|0708|070809"
# Keys of a descriptor's fields, short lengths, and bytes with a continuation bit or no UTF-8; keys of an endpoint's fields, and lengths.
BYTES_IN_DESCRIPTORS = "00|01|02|08|0a|12|1a|80|ff"
BYTES_IN_ENDPOINTS = "00|01|02|0a|12"
# Fields of a message, fields of another, and no fields: the last ones are cut short if nothing comes after them.
IN_DESCRIPTORS = "0801|088280808010|08ffffffffffffffffff01|120161|1200|1a0161|1a00|1a02c3a9|1a01ff|0a0162|1000|3801|3d01020304|0b|1a0361"
IN_ENDPOINTS = "0a00|0a030a0161|0a020a00|0a0438010a00|0a020801|0a010a|1200|12030a0162|12060a01620a0163|12030a01ff|1000|3a01ff|0f|0a05"
IN_INFOS = (
    "0a0173|12020801|12031a0161|12031a01ff|12020880|1a00|1a050a030a0174|1a070a0012030a0175|1a0512030a01ff|"
    "20ffffffffffffffffff01|2005|28ac02|3002|3000|2d01020304|30ffffffffffffffffff02"
)
IN_DATA = "0a020801|0a031a0161|0a00|0a031a01ff|0a020a00|120168|1a016d|1800|c23e0162|c23e00|ca3e0163|1a02|8000"


def long_numbers():
    parts = [it.split("|") for it in (FRONTS, LOWEST, MIDDLES, HIGHEST, ENDS)]
    return [bytes.fromhex("".join(it)) for it in itertools.product(*parts)]


def frame_texts():
    parts = [it.split("|") for it in (FLAGS, LENGTHS, PAYLOADS)]
    return [bytes.fromhex("".join(it)) for it in itertools.product(*parts)]


def rows(command, call, texts):
    """The command with each text, and its result. A text whose meaning has an unprintable character is left out."""
    every = (told(command, call, text) for text in texts)
    return [line for lines in every if all(it.isprintable() for it in lines) for line in lines]


def written():
    """Each number of 64 bits next to a power of two, written as a field."""
    numbers = sorted({2**place + step for place in range(65) for step in (-1, 0, 1)})
    return [line for it in numbers if it < 2**64 for line in (f"varint 1 {it}", f"  {hexadecimal(number_field(1, it))}")]


def file_of(made, *parts):
    """A story file: a comment about how it was made, and parts, each a comment and rows."""
    return "\n\n".join([f"# {made}"] + ["\n".join([f"# {comment}", *lines]) for comment, lines in parts]) + "\n"


def stories():
    made = "What stands in every short text of a few telling pieces, as tools/wire_model.py says."
    several = f"{made} Where several faults stand, a\n# reader may tell any of them: `one-of` names them, before the command."
    fields = file_of(
        several,
        ("At most three bytes: keys, short lengths, and bytes that go on.", rows("fields", told_fields, texts_of(BYTES, 3))),
        ("At most five bytes of a few.", rows("fields", told_fields, texts_of(FEW_BYTES, 5))),
        ("At most two pieces: fields of four and of eight bytes come whole and cut.", rows("fields", told_fields, texts_of(PIECES, 2))),
        ("Long numbers, as a key, behind a key, and as a length.", rows("fields", told_fields, long_numbers())),
        ("The field at the front alone, and what stands behind it.", rows("front", told_front, texts_of(PIECES, 2))),
        ("The same of at most two bytes.", rows("front", told_front, texts_of(BYTES, 2))),
        ("The same of long numbers.", rows("front", told_front, long_numbers())),
        ("A number is written in as few bytes as hold it: here is each about a power of two.", written()),
    )
    behind = [bytes.fromhex("000000000107") + it for it in texts_of("00|01|80", 3)]
    frames = file_of(
        made,
        ("A flag, a length and some bytes.", rows("frames", told_frames, frame_texts())),
        ("At most three bytes, behind the frame of one byte.", rows("frames", told_frames, behind)),
    )
    messages = file_of(
        several,
        ("Descriptors.", rows("descriptor", told_as(DESCRIPTOR), texts_of(IN_DESCRIPTORS, 2))),
        ("Endpoints.", rows("endpoint", told_as(ENDPOINT), texts_of(IN_ENDPOINTS, 2))),
        ("Infos.", rows("info", told_as(INFO), texts_of(IN_INFOS, 2))),
        ("Data.", rows("data", told_as(DATA_MESSAGE), texts_of(IN_DATA, 2))),
        ("Descriptors of at most three bytes.", rows("descriptor", told_as(DESCRIPTOR), texts_of(BYTES_IN_DESCRIPTORS, 3))),
        ("Endpoints of at most four bytes.", rows("endpoint", told_as(ENDPOINT), texts_of(BYTES_IN_ENDPOINTS, 4))),
    )
    return {"every_field.txt": fields, "every_frame.txt": frames, "every_message.txt": messages}


def put(folder, files, is_check):
    """Writes the files, or names those that differ."""
    status = 0
    for name, text in files.items():
        file = folder / name
        if file.exists() and file.read_text(encoding="utf-8") == text:
            continue
        if is_check:
            print(f"{Path(sys.argv[0]).name}: {file} differs from what the model makes")
            status = 1
        else:
            file.write_text(text, encoding="utf-8")
    return status


if __name__ == "__main__":
    show_help(__doc__)
    sys.exit(put(DATA, stories(), "--check" in sys.argv[1:]))
