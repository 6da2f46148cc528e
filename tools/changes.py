"""Random changes of inputs: of their bytes, and of the numbers, fields, frames, offsets and JSON values in them, which are written
again with right lengths."""
import json
import re

from wire_model import joined, varint

# An input is no longer than this.
MOST_BYTES = 1 << 16
EDGES = (0, 1, 2, 3, 6, 7, 8, 127, 128, 255, 256, 999_999, 1_000_000, 4_000_000_000, 1 << 31, (1 << 32) + 1, (1 << 53) + 1, (1 << 64) - 1, 1 << 64)


def number(draw):
    return draw.choice((draw.choice(EDGES), draw.getrandbits(draw.choice((2, 2, 3, 3, 3, 8, 16, 32, 64)))))


def signed(draw):
    return draw.choice((1, 1, 1, -1)) * number(draw)


def bytes_changed(draw, text):
    """The bytes with one change."""
    at, end = sorted(draw.randint(0, len(text)) for _ in range(2))
    end = min(end, at + draw.choice((1, 1, 2, 4, 64, MOST_BYTES)))
    new = draw.choice((
        lambda: draw.randbytes(draw.choice((1, 2, 4, 9))),
        lambda: varint(number(draw)),
        lambda: (number(draw) % (1 << 32)).to_bytes(4, draw.choice(("big", "little"))),
        lambda: b"",
        lambda: text[at:end] * draw.choice((2, 2, 3, 50)),
        lambda: bytes([draw.choice((0, 1, 0x80, 0xFF))]) * draw.choice((1, 5, 11, 400)),
        lambda: bytes([text[at] ^ 1 << draw.randrange(8)]) + text[at + 1 : end] if at < end else b"[" * 300,
    ))()
    return (text[:at] + new + text[draw.choice((at, end)) :])[:MOST_BYTES]


def places_changed(draw, text):
    """A text that has offsets, with some of its numbers changed: each to another number, or to the offset of another place."""
    text = bytearray(text)
    for _ in range(draw.choice((1, 1, 2, 3))):
        size = draw.choice((1, 2, 4, 4, 4, 8))
        if len(text) < size:
            return bytes(text) + draw.randbytes(size)
        at = draw.randrange(len(text) - size + 1) // min(size, 4) * min(size, 4)
        old = int.from_bytes(text[at : at + size], "little")
        target = draw.randrange(len(text)) // 4 * 4
        moved, flipped = old + draw.choice((1, -1, 4, 8, -4, -8)), old ^ 1 << draw.randrange(8 * size)
        new = draw.choice((number(draw), moved, moved, target - at, at - target, flipped))
        text[at : at + size] = (new % (1 << 8 * size)).to_bytes(size, "little")
    return bytes(text)


# ---- fields and frames


def fields_in(text):
    """The numbers and length-delimited fields that a text begins with, as their bytes; and the rest."""
    found, at = [], 0
    while at < len(text) and text[at] & 7 in (0, 2):
        key = at
        while key < min(len(text), at + 5) and text[key] > 127:
            key += 1
        end = key + 1
        while end < min(len(text), key + 10) and text[end] > 127:
            end += 1
        length = joined(text[key + 1 : end + 1]) if text[at] & 7 else 0
        if end + 1 + length > len(text):
            break
        found.append((text[at : key + 1], text[key + 1 : end + 1], text[end + 1 : end + 1 + length]))
        at = end + 1 + length
    return found, text[at:]


def field_text(field):
    """The bytes of a field: its key, its number or its corrected length, and its content."""
    key, told, held = field
    return key + (varint(len(held)) + held if key and key[0] & 7 == 2 else told)


def drawn_field(draw):
    key = draw.choice((*range(1, 11), 1000))
    if draw.random() < 0.5:
        return varint(key << 3), varint(number(draw)), b""
    return varint(key << 3 | 2), b"", draw.choice((b"", b"a", b"\xff", b"\xc3\xa9", draw.randbytes(4), bytes(draw.choice((1, 344, 5000)))))


def fields_changed(draw, text, inside=None, levels=3):
    """A message with other fields: one less, one more, one twice, another number, or one with changed content, which is changed as a
    message or by `inside`."""
    fields, rest = fields_in(text)
    for _ in range(draw.choice((1, 1, 1, 2, 4))):
        place = draw.randrange(len(fields)) if fields else 0
        if not fields or draw.random() < 0.15:
            fields.insert(draw.randint(0, len(fields)), drawn_field(draw))
        elif draw.random() < 0.1:
            fields[place : place + 1] = draw.choice(([], [fields[place]] * 2, [draw.choice(fields)]))
        elif not fields[place][2] and fields[place][0][0] & 7 == 0:
            fields[place] = fields[place][0], varint(number(draw)), b""
        else:
            held = fields[place][2]
            other = fields_changed(draw, held, inside, levels - 1) if levels and draw.random() < 0.5 else (inside or bytes_changed)(draw, held)
            fields[place] = draw.choice((fields[place][0],) * 9 + (drawn_field(draw)[0],)), b"", other
    return (b"".join(map(field_text, fields)) + rest)[:MOST_BYTES]


def parts_in(text, order, is_flagged):
    """The payloads of frames, or the records of a file, with the byte before each."""
    at, found = 0, []
    while at + 5 <= len(text) and (is_flagged or text[at] == 1):
        size = int.from_bytes(text[at + 1 : at + 5], order)
        found.append((text[at], text[at + 5 : at + 5 + size]))
        at += 5 + size
    return found


def parts_text(parts, order):
    return b"".join(bytes([flag]) + len(it).to_bytes(4, order) + it for flag, it in parts)


def list_changed(draw, items, others, change):
    """A list in which items are changed, left out, repeated, moved or taken from another list."""
    items = list(items)
    for _ in range(draw.choice((1, 1, 2, 3))):
        place, kind = draw.randrange(len(items)) if items else 0, draw.random()
        if (kind < 0.2 or not items) and others:
            items.insert(draw.randint(0, len(items)), draw.choice(others))
        elif kind < 0.3:
            items[place : place + 1] = []
        elif kind < 0.4:
            items[place : place + 1] = items[place : place + 1] * 2
        elif kind < 0.5:
            draw.shuffle(items)
        elif items:
            items[place] = change(draw, items[place])
    return items


def frames_changed(draw, text, other, order="big", inside=fields_changed):
    """Changed frames, or records of a file, written again with right lengths; a flag may be changed too."""
    parts, others = parts_in(text, order, order == "big"), parts_in(other, order, order == "big")

    def change(draw, part):
        flag = draw.choice((part[0],) * 6 + (0, 1, 0x80))
        return flag, inside(draw, part[1])

    text = parts_text(list_changed(draw, parts, others, change), order)[:MOST_BYTES]
    return text if order == "big" else text + b"\0"


# ---- JSON


def value_changed(draw, value, rate, of_text):
    """A JSON value in which each value is replaced with this chance; `of_text` changes texts."""
    if isinstance(value, dict):
        value = {key: value_changed(draw, it, rate, of_text) for key, it in value.items()}
    elif isinstance(value, list):
        value = [value_changed(draw, it, rate, of_text) for it in value]
    return other_value(draw, value, of_text) if draw.random() < rate else value


def other_value(draw, value, of_text):
    """Another value, mostly of the same kind."""
    if draw.random() < 0.1:
        return draw.choice((None, True, [], {}, "", "0" * 64, "\U0001f600", -1, 0.5, 1e300, number(draw), [value] * 20, {"members": value}))
    if isinstance(value, dict):
        return {draw.choice((key, key, key, "x" + key)): it for key, it in value.items()}
    if isinstance(value, list) and value:
        place, other = draw.randrange(len(value)), draw.choice(value)
        return draw.choice((value[:place] + [other] * draw.choice((1, 2, 200)) + value[place:], value[:place] + value[place + 1 :],
                            draw.sample(value, len(value))))
    if isinstance(value, int):
        return draw.choice((number(draw), value + 1, abs(value - 1)))
    return of_text(draw, value) if isinstance(value, str) else value


def digits_changed(draw, digits):
    """The hexadecimal digits of a changed message, or another text."""
    if re.fullmatch("(?:[0-9a-f]{2})+", digits):
        return fields_changed(draw, bytes.fromhex(digits)).hex()
    return draw.choice((digits + "a", digits[1:], "", "t"))


TOKENS = ("{", "}", "[", "]", ":", ",", '"', "\\", "\\u00e9", "\\ud83d\\ude00", "\\n", "\\x", "\t", "\u20ac", "0", "-", "-0", "01", "1.5", "1e5",
          "1E+", "true", "nul", "false", "null", '"a"', '"a":1,', "18446744073709551616", "-9223372036854775809", "\x7f", "\x00", "/", " ", "\r\n",
          "NaN")


def tokens_changed(draw, text):
    """The text of a JSON value with another token inserted or in place of some."""
    pieces = re.findall(rb"[0-9.eE+-]+|[a-z_]+|\s+|.", text, re.DOTALL)
    place, drawn = draw.randint(0, len(pieces)), draw.choice(TOKENS).encode()
    new = draw.choice(([], [drawn], [drawn], pieces[place : place + 3] * 2))
    pieces[place : place + draw.choice((0, 0, 1, 1, 2, 8))] = new
    return b"".join(pieces)[:MOST_BYTES]


def json_changed(draw, text, of_text=digits_changed):
    """The text of a JSON value with some values changed, or with other tokens, or with other bytes."""
    kind = draw.random()
    if kind < 0.5:
        return (bytes_changed if kind < 0.08 else tokens_changed)(draw, text)
    try:
        rate = draw.choice((0.5, 2, 8)) / (1 + text.count(b","))
        value = value_changed(draw, json.loads(text), rate, of_text)
        return json.dumps(value, ensure_ascii=draw.random() < 0.5).encode(errors="surrogatepass")[:MOST_BYTES]
    except (ValueError, RecursionError):
        return bytes_changed(draw, text)


# ---- smaller inputs


def shorter(text):
    """The text, or list, without a part of it: first without halves, then without ever smaller parts, last without single items."""
    size = len(text)
    while size > 1:
        size = (size + 1) // 2
        for at in range(0, len(text), size):
            yield text[:at] + text[at + size :]


def shorter_json(text):
    """The text of a JSON object with one of its lists shorter; nothing if it is no object."""
    try:
        value = json.loads(text)
    except (ValueError, RecursionError):
        return
    for name, items in value.items() if isinstance(value, dict) else ():
        if isinstance(items, list):
            yield from (json.dumps({**value, name: it}).encode() for it in shorter(items))
