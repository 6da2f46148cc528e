"""Batches laid out plainly, from the Apache Arrow Columnar Format ("Physical memory layout", "Buffer Listing for Each Layout") and apart
from batch_model.py, which tools/large_types.py compares with it. In between are parts, in which the offsets of LargeBinary, LargeUtf8 and
LargeList are lists of numbers: so one batch can be written with each of them in eight bytes, and in four, which then is a batch of
Binary, Utf8 and List. Types, heads and cells have the form of batch_model.py, of which this has the width of other types too."""
from itertools import accumulate, chain
from typing import NamedTuple

from batch_model import Head, width

OWN_BUFFERS = {"Null": [], "Struct": ["validity"], "FixedSizeList": ["validity"], "List": ["validity", "offsets"],
               "Binary": ["validity", "offsets", "data"], "Utf8": ["validity", "offsets", "data"]}


class Parts(NamedTuple):
    """The rows of a batch, its nodes, and the contents of its buffers: lists of numbers for the offsets of a Large type, else bytes."""

    rows: int
    nodes: list
    contents: list


def is_large(type):
    return type.name in ("LargeBinary", "LargeUtf8", "LargeList")


def small_name(type):
    """The name of the type, or of the one that is like it but for the size of its offsets."""
    return {"LargeBinary": "Binary", "LargeUtf8": "Utf8", "LargeList": "List"}.get(type.name, type.name)


def small_of(type):
    """The type with Binary, Utf8 and List in the places of LargeBinary, LargeUtf8 and LargeList."""
    return type._replace(name=small_name(type), children=tuple(map(small_of, type.children)))


def has_large(type):
    return is_large(type) or any(map(has_large, type.children))


# ---- parts and bytes


def buffers_in(type):
    """For each buffer of a column and then of those inside it, whether it has the offsets of a Large type."""
    for kind in OWN_BUFFERS.get(small_name(type), ["validity", "data"]):
        yield kind == "offsets" and is_large(type)
    for child in type.children:
        yield from buffers_in(child)


def parts_in(types, head, body, size):
    """The parts of a batch of these types, whose numbers have so many bytes, without what is behind the last whole one."""
    contents = []
    for has_numbers, (offset, length) in zip(chain(*map(buffers_in, types)), head.buffers, strict=True):
        content = body[offset : offset + length]
        pieces = [content[at : at + size] for at in range(0, length - size + 1, size)]
        contents.append([int.from_bytes(it, "little", signed=True) for it in pieces] if has_numbers else content)
    return Parts(head.length, list(head.nodes), contents)


def in_bytes(parts, size):
    """The contents of the buffers, with so many bytes for each of the numbers."""
    return [
        it if isinstance(it, bytes) else b"".join(number.to_bytes(size, "little", signed=True) for number in it) for it in parts.contents
    ]


def batch_of_parts(parts, size):
    """The head and the body: each buffer at the next multiple of eight ("Buffer Alignment and Padding")."""
    body, buffers = b"", []
    for content in in_bytes(parts, size):
        buffers.append((len(body), len(content)))
        body += content + bytes(-len(content) % 8)
    return Head(parts.rows, tuple(parts.nodes), tuple(buffers), False, len(body)), body


# ---- parts of cells


def bits_of(flags):
    """A bitmap, in which the lowest bit of the first byte is the first one ("Validity bitmaps")."""
    return sum(1 << place for place, flag in enumerate(flags) if flag).to_bytes((len(flags) + 7) // 8, "little")


def blank_of(type):
    """What has the place of an item that a null column above it has too."""
    blanks = {"Null": None, "Bool": False, "List": [], "Binary": b"", "Utf8": b""}
    if type.name == "Struct":
        return tuple(map(blank_of, type.children))
    if type.name == "FixedSizeList":
        return [blank_of(type.children[0])] * int(type.parameters[0])
    return blanks[small_name(type)] if small_name(type) in blanks else bytes(width(type))


def filled(type, cells):
    """The cells with blank ones in the places of nulls."""
    blank = blank_of(type)
    return [blank if cell is None else cell for cell in cells]


def offsets_of(type, cells, span):
    """The offsets of items before a slice and in it, from that at which the slice begins on."""
    numbers = list(accumulate((len(cell or ()) for cell in cells[: span.stop]), initial=0))[span.start :]
    return numbers if is_large(type) else b"".join(number.to_bytes(4, "little") for number in numbers)


def own_contents(type, cells, span):
    """The contents of a column's own buffers, but its children's, in a slice of its items."""
    name, inside = small_name(type), cells[span]
    if name == "Null":
        return []
    validity = bits_of([cell is not None for cell in inside]) if None in inside else b""
    full = filled(type, cells)
    if name in ("Struct", "FixedSizeList"):
        return [validity]
    if name == "Bool":
        return [validity, bits_of(full[span])]
    if name == "List":
        return [validity, offsets_of(type, cells, span)]
    if name in ("Binary", "Utf8"):
        return [validity, offsets_of(type, cells, span), b"".join(full)]
    return [validity, b"".join(full[span])]


def column_parts(type, cells, span):
    """The nodes and the contents of a slice of a column. Bytes and items of lists that the slice does not use stay where they are, as in
    arrays that share their buffers; those of a slice of all items are used all."""
    full = filled(type, cells)
    nodes, contents = [(span.stop - span.start, cells[span].count(None))], own_contents(type, cells, span)
    for place, child in enumerate(type.children):
        if type.name == "Struct":
            items, inner = [cell[place] for cell in full], span
        elif type.name == "FixedSizeList":
            size = int(type.parameters[0])
            items, inner = list(chain(*full)), slice(size * span.start, size * span.stop)
        else:
            items = list(chain(*full))
            inner = slice(0, len(items))
        more_nodes, more_contents = column_parts(child, items, inner)
        nodes, contents = nodes + more_nodes, contents + more_contents
    return nodes, contents


def plain_parts(types, columns, span):
    """The parts of a slice of the rows of columns."""
    found = [column_parts(type, cells, span) for type, cells in zip(types, columns)]
    nodes, contents = [list(chain(*lists)) for lists in zip(*found)]
    return Parts(span.stop - span.start, nodes, contents)
