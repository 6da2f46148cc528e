"""A model of Arrow record batches, written from the Apache Arrow Columnar Format alone ("Physical memory layout",
"RecordBatch message", and the tables of Schema.fbs and Message.fbs). Its three parts share only types and heads:
`lay_out` lays cells out as nodes, buffers and a body, in one of many ways; `meaning` returns the cells of a head and a
body, or the name of their first fault; `canonical` returns the one head and body that are written for cells.

A cell is None (a null), a bool, bytes, a list of cells (List, LargeList, FixedSizeList) or a tuple of cells (Struct). A
column is a list of cells, and a batch a number of rows and a column for each type. Which types a service carries is not
asked here: see carried_types.py."""
from itertools import accumulate, chain
import random
from typing import NamedTuple

MOST_ROWS = 1 << 20  # of a batch
MOST_ITEMS = 1 << 24  # of a node

# The types whose items are found by offsets: of bytes, those of them that are texts, and of the items of a child.
OF_BYTES, OF_TEXTS, OF_ITEMS = ("Binary", "Utf8", "LargeBinary", "LargeUtf8"), ("Utf8", "LargeUtf8"), ("List", "LargeList")


class Type(NamedTuple):
    name: str
    parameters: tuple
    children: tuple


class Head(NamedTuple):
    length: int
    nodes: tuple  # of a length and a null count
    buffers: tuple  # of an offset and a length
    compressed: bool
    body_length: int


def type_of(word):
    """The type of a word such as `Struct(Int(8,true),List(Utf8))`."""
    name, _, rest = word.partition("(")
    parts, depth = [""], 0
    for letter in rest[:-1]:
        depth += {"(": 1, ")": -1}.get(letter, 0)
        if letter == "," and depth == 0:
            parts.append("")
        else:
            parts[-1] += letter
    parts = [part for part in parts if part]
    own = {"List": 0, "LargeList": 0, "Struct": 0, "FixedSizeList": 1}.get(name, len(parts))
    return Type(name, tuple(parts[:own]), tuple(map(type_of, parts[own:])))


def width(type):
    """How many bytes an item has ("Fixed-size primitive layout"), or None if items have another layout."""
    eight = dict.fromkeys(("SECOND", "MILLISECOND", "MICROSECOND", "NANOSECOND"), 8)
    units = {
        "FloatingPoint": {"HALF": 2, "SINGLE": 4, "DOUBLE": 8},
        "Date": {"DAY": 4, "MILLISECOND": 8},
        "Time": {**eight, "SECOND": 4, "MILLISECOND": 4},
        "Timestamp": eight,
        "Duration": eight,
    }
    if type.name in units:
        return units[type.name][type.parameters[0]]
    bits = {"Int": 0, "Decimal": 2}
    if type.name in bits:
        return int(type.parameters[bits[type.name]]) // 8
    return int(type.parameters[0]) if type.name == "FixedSizeBinary" else None


def offset_size(type):
    """How many bytes an offset has ("Variable-size Binary Layout", "Variable-size List Layout"; Schema.fbs, LargeBinary,
    LargeUtf8 and LargeList)."""
    return 8 if type.name.startswith("Large") else 4


# Part 1: cells laid out in many ways.

FREE = object()  # A cell that is not the batch's: under a null, outside each span, or after the last row.

WAYS = {  # How a layout may differ from the canonical one.
    "sixty-four": "each buffer begins at a multiple of 64",
    "unaligned": "each buffer begins at the next byte",
    "gaps": "the bytes between buffers and behind the last one are not zero",
    "behind": "bytes stand behind the body",
    "order": "the buffers stand in another order",
    "overlap": "a buffer may lie in the bytes of others, where it finds its own there",
    "longer": "each buffer that is not empty is longer than it has to be",
    "bits": "the bits behind the last one are not zero",
    "junk": "under nulls, and where else no cell of the batch stands, is anything, also texts that are not UTF-8",
    "validity": "validity bitmaps are there where nothing is null",
    "first offset": "offsets do not begin at 0",
    "null spans": "the spans of nulls are not empty",
    "children": "each column has values behind the last one that is asked for",
    "null counts": "the null count of a Null column says nothing",
    "no offsets": "without items there are no offsets",
}


class Layout:
    """Nodes, and contents of buffers, in depth-first order."""

    def __init__(self, ways, seed):
        self.ways, self.draw = frozenset(ways), random.Random(seed)
        self.nodes, self.contents = [], []

    def junk(self, count):
        return self.draw.randbytes(count) if "junk" in self.ways else bytes(count)

    def free_cell(self, type):
        """What is in the place of a cell that the batch doesn't have."""
        is_junk = "junk" in self.ways
        if type.name == "Null" or is_junk and self.draw.random() < 0.3:
            return None
        if type.name == "Bool":
            return is_junk and self.draw.random() < 0.5
        if width(type) is not None:
            return self.junk(width(type))
        if type.name in OF_BYTES:
            return self.unused(b"", is_junk)
        if type.name in OF_ITEMS:
            return self.unused([], is_junk)
        if type.name == "Struct":
            return (FREE,) * len(type.children)
        return [FREE] * int(type.parameters[0])

    def unused(self, empty, is_wanted):
        """Bytes or items that no cell of the batch uses, or none if they are not wanted."""
        count = self.draw.randrange(1, 4) if is_wanted else 0
        if isinstance(empty, list):
            return [FREE] * count
        return (b"\xff" + self.junk(2))[:count]

    def bits(self, flags):
        spare = -len(flags) % 8 if "bits" in self.ways else 0
        number = sum(flag << place for place, flag in enumerate(flags))
        number += self.draw.randrange(2**spare) << len(flags)
        return number.to_bytes((len(flags) + 7) // 8, "little")

    def spans(self, type, cells, empty):
        """Offsets, and the bytes or items that they are offsets into."""
        pieces = [self.unused(empty, "first offset" in self.ways)]
        pieces += [self.unused(empty, "null spans" in self.ways) if cell is None else cell for cell in cells]
        offsets = [] if not cells and "no offsets" in self.ways else list(accumulate(map(len, pieces)))
        self.contents.append(b"".join(offset.to_bytes(offset_size(type), "little") for offset in offsets))
        pieces.append(self.unused(empty, "children" in self.ways))
        return b"".join(pieces) if empty == b"" else list(chain(*pieces))

    def column(self, type, cells):
        cells = [self.free_cell(type) if cell is FREE else cell for cell in cells]
        nulls = cells.count(None)
        if type.name == "Null":
            self.nodes.append((len(cells), self.draw.randrange(-9, 9) if "null counts" in self.ways else nulls))
            return
        self.nodes.append((len(cells), nulls))
        is_there = nulls > 0 or "validity" in self.ways
        self.contents.append(self.bits([cell is not None for cell in cells]) if is_there else b"")
        if type.name == "Bool":
            anything = self.junk(1) > b"\x7f"
            self.contents.append(self.bits([anything if cell is None else cell for cell in cells]))
        elif width(type) is not None:
            self.contents.append(b"".join(self.junk(width(type)) if cell is None else cell for cell in cells))
        elif type.name in OF_BYTES:
            self.contents.append(self.spans(type, cells, b""))
        elif type.name in OF_ITEMS:
            self.column(type.children[0], self.spans(type, cells, []))
        else:
            self.equal_parts(type, cells)

    def equal_parts(self, type, cells):
        """The children of a Struct or a FixedSizeList, where each item has equally many items of a child."""
        more = [FREE] * self.draw.randrange(1, 4) if "children" in self.ways else []
        for place, child in enumerate(type.children):
            if type.name == "Struct":
                items = [FREE if cell is None else cell[place] for cell in cells]
            else:
                items = chain(*([FREE] * int(type.parameters[0]) if cell is None else cell for cell in cells))
            self.column(child, list(items) + more)

    def placed(self, rows):
        """The buffers in a body."""
        unit = 64 if "sixty-four" in self.ways else 1 if "unaligned" in self.ways else 8
        body, buffers, order = bytearray(), [None] * len(self.contents), list(range(len(self.contents)))
        fill = self.draw.randbytes if "gaps" in self.ways else bytes
        if "order" in self.ways:
            self.draw.shuffle(order)
        for number in order:
            content = self.contents[number]
            content += self.draw.randbytes(3) if content and "longer" in self.ways else b""
            place = body.find(content) if "overlap" in self.ways else -1
            if place < 0:
                body += fill(self.draw.randrange(3) if "gaps" in self.ways else 0)
                body += fill(-len(body) % unit)
                place = len(body)
                body += content
            buffers[number] = (place, len(content))
        body += fill(-len(body) % unit)
        behind = self.draw.randbytes(5) if "behind" in self.ways else b""
        return Head(rows, tuple(self.nodes), tuple(buffers), False, len(body)), bytes(body) + behind


def lay_out(types, rows, columns, ways=(), seed=0):
    """A head and a body that lay the columns out in these ways, or in the canonical one if there are none."""
    layout = Layout(ways, seed)
    for type, cells in zip(types, columns):
        layout.column(type, cells + [FREE] * ("children" in layout.ways))
    return layout.placed(rows)


# Part 2: what a head and a body mean.

KINDS = {"Null": (), "Bool": ("validity", "bits"), "Struct": ("validity",), "FixedSizeList": ("validity",),
         **dict.fromkeys(OF_ITEMS, ("validity", "offsets")), **dict.fromkeys(OF_BYTES, ("validity", "offsets", "data"))}


def kinds(type):
    """The kinds of a type's buffers ("Buffer Listing for Each Layout"; a Null has none)."""
    return KINDS.get(type.name, ("validity", "data"))


def whole_tree(type):
    """The type, then its children's whole trees: the order of nodes and buffers ("RecordBatch message")."""
    yield type
    for child in type.children:
        yield from whole_tree(child)


class Column:
    """A column as its nodes and buffers describe it."""

    def __init__(self, type, nodes, buffers, body, end):
        self.type, self.body, self.end = type, body, end
        self.length, self.null_count = next(nodes)
        self.buffers = {kind: next(buffers) for kind in kinds(type)}
        self.children = [Column(child, nodes, buffers, body, end) for child in type.children]
        self.size = int(type.parameters[0]) if type.name == "FixedSizeList" else 1

    def content(self, kind):
        offset, length = self.buffers[kind]
        return self.body[offset:offset + length]

    def bit(self, kind, item):
        return self.content(kind)[item // 8] >> item % 8 & 1 == 1

    def is_valid(self, item):
        return self.type.name != "Null" and (self.buffers["validity"][1] == 0 or self.bit("validity", item))

    def offset(self, item):
        size = offset_size(self.type)
        return int.from_bytes(self.content("offsets")[size * item:size * item + size], "little", signed=True)

    def text(self, item):
        return self.content("data")[self.offset(item):self.offset(item + 1)]

    def reach(self, item):
        """The items of each child that belong to a valid item."""
        if self.type.name in OF_ITEMS:
            return range(self.offset(item), self.offset(item + 1))
        return range(item * self.size, (item + 1) * self.size)

    def cell(self, item):
        if not self.is_valid(item):
            return None
        if self.type.name == "Bool":
            return self.bit("bits", item)
        if self.type.name in OF_BYTES:
            return self.text(item)
        if self.type.name == "Struct":
            return tuple(child.cell(item) for child in self.children)
        if self.children:
            return [self.children[0].cell(part) for part in self.reach(item)]
        return self.content("data")[item * width(self.type):(item + 1) * width(self.type)]

    def stands(self, kind):
        """Whether the buffer is inside the body, and long enough for the items or, if it may be, empty."""
        offset, length = self.buffers[kind]
        in_bits = (self.length + 7) // 8
        least = {"validity": in_bits, "bits": in_bits, "offsets": offset_size(self.type) * (self.length + 1),
                 "data": self.length * (width(self.type) or 0)}[kind]
        may_be_empty = {"validity": self.null_count == 0, "offsets": self.length == 0}.get(kind, False)
        is_inside = 0 <= offset and 0 <= length and offset + length <= self.end
        return is_inside and (length >= least or length == 0 and may_be_empty)

    def offsets_rise(self):
        """Whether no offset is negative, below the one before, or past the end. True if there are no offsets."""
        if self.buffers["offsets"][1] == 0:
            return True
        there = self.children[0].length if self.children else self.buffers["data"][1]
        offsets = [0, *map(self.offset, range(self.length + 1)), there]
        return offsets == sorted(offsets)

    def faults(self, asked, reached):
        """The column's faults, then its children's. `asked` is how many items it must have, and `reached` are those that
        belong to the batch. A fault after the first may only be due to the first."""
        if not all(map(self.stands, self.buffers)):
            yield "BufferRange"
        if self.buffers and self.null_count != sum(not self.is_valid(item) for item in range(self.length)):
            yield "NullCount"
        if "offsets" in self.buffers and not self.offsets_rise():
            yield "OffsetsFall"
        if self.length < asked:
            yield "ChildShort"
        reached = [item for item in reached if self.is_valid(item)]
        if self.type.name in OF_TEXTS and not all(is_utf8(self.text(item)) for item in reached):
            yield "NotUtf8"
        asked_below = 0 if self.type.name in OF_ITEMS else self.length * self.size
        for child in self.children:
            yield from child.faults(asked_below, list(chain(*map(self.reach, reached))))


def is_utf8(text):
    try:
        return text.decode("utf-8") is not None
    except UnicodeDecodeError:
        return False


def all_columns(types, head, body):
    nodes, buffers = iter(head.nodes), iter(head.buffers)
    return [Column(type, nodes, buffers, body, head.body_length) for type in types]


def all_faults(types, head, body):
    """The faults of a batch, in the order in which they are looked for: the first is the one reported."""
    if head.compressed:
        yield "Compressed"
    lengths = [length for length, _ in head.nodes]
    if not (0 <= head.length <= MOST_ROWS and all(0 <= length <= MOST_ITEMS for length in lengths)):
        yield "TooManyRows"
    trees = list(chain(*map(whole_tree, types)))
    if len(head.nodes) != len(trees):
        yield "NodeCount"
    if len(head.buffers) != sum(len(kinds(type)) for type in trees):
        yield "BufferCount"
    if not 0 <= head.body_length <= len(body):
        yield "BufferRange"
    for column in all_columns(types, head, body):
        yield from column.faults(head.length, range(head.length))


def meaning(types, head, body):
    """The columns of the batch, or the name of the first fault."""
    fault = next(all_faults(types, head, body), None)
    return fault or [list(map(column.cell, range(head.length))) for column in all_columns(types, head, body)]


# Part 3: the canonical head and body.

def blank(type):
    """The cell under a null Struct or FixedSizeList."""
    if type.name in ("Null", "Bool"):
        return {"Null": None, "Bool": False}[type.name]
    if type.name == "Struct":
        return tuple(map(blank, type.children))
    if type.name == "FixedSizeList":
        return [blank(type.children[0])] * int(type.parameters[0])
    return [] if type.name in OF_ITEMS else bytes(width(type) or 0)


def packed(flags):
    eights = [flags[place:place + 8] for place in range(0, len(flags), 8)]
    return bytes(sum(2**place for place, flag in enumerate(eight) if flag) for eight in eights)


def canonical_parts(type, cells):
    """The nodes and the contents of the buffers of a column and of its children."""
    if type.name == "Null":
        return [(len(cells), len(cells))], []
    nulls = sum(cell is None for cell in cells)
    nodes, contents = [(len(cells), nulls)], [packed([cell is not None for cell in cells]) if nulls else b""]
    inner = [[]] * len(type.children)
    if type.name in ("Struct", "FixedSizeList"):
        full = [blank(type) if cell is None else cell for cell in cells]
        inner = list(zip(*full)) if type.name == "Struct" and cells else [sum(full, [])] if full else inner
    elif type.name == "Bool":
        contents.append(packed(cells))
    elif width(type) is not None:
        contents.append(b"".join(bytes(width(type)) if cell is None else cell for cell in cells))
    else:
        ends = [sum(len(cell or b"") for cell in cells[:count]) for count in range(len(cells) + 1)]
        contents.append(b"".join(end.to_bytes(offset_size(type), "little") for end in ends))
        there = [cell for cell in cells if cell is not None]
        inner = [sum(there, [])] if type.name in OF_ITEMS else []
        contents += [] if type.name in OF_ITEMS else [b"".join(there)]
    for child, items in zip(type.children, inner):
        more_nodes, more_contents = canonical_parts(child, list(items))
        nodes, contents = nodes + more_nodes, contents + more_contents
    return nodes, contents


def canonical(types, rows, columns):
    """The one head and body that are written for the columns."""
    parts = [canonical_parts(type, cells) for type, cells in zip(types, columns)]
    nodes, contents = [tuple(chain(*lists)) for lists in zip(*parts)] or [(), ()]
    padded = [content + bytes(-len(content) % 8) for content in contents]
    places = accumulate(map(len, padded[:-1]), initial=0)
    body = b"".join(padded)
    return Head(rows, nodes, tuple(zip(places, map(len, contents))), False, len(body)), body
