#!/usr/bin/env python3
"""Makes the stories of batches in crates/batch_stories/data from the model in batch_model.py.

They are `flat.txt`, `nested.txt`, `depths.txt`, `layouts.txt` and `faults.txt`; `examples.txt`, `borders.txt` and `heads.txt`
were worked out by hand. First it tests the model: a layout is read as the cells that were laid out; so is what is written for them,
and that is written the same way again; and the model gives the results in each story, also in those worked out by hand. With --check
it changes no file, and names those that differ."""
import itertools
import random
import re
import sys
import textwrap
from pathlib import Path

from batch_model import OF_ITEMS, OF_TEXTS, WAYS, Head, canonical, kinds, lay_out, meaning, type_of, whole_tree, width
from toolbox import show_help

DATA = Path(__file__).resolve().parent.parent / "crates" / "batch_stories" / "data"
BY_HAND = ("examples.txt", "borders.txt", "heads.txt")
TEXTS = [text.encode() for text in ("", "a", "bc", "joe", "mark", "\u00e9", "\u20ac", "\U0001d11e")]
PATTERNS = {
    "none": lambda row, rows: False,
    "all": lambda row, rows: True,
    "every second one": lambda row, rows: row % 2 == 1,
    "the first": lambda row, rows: row == 0,
    "the last": lambda row, rows: row == rows - 1,
}
UNITS = ("SECOND", "MILLISECOND", "MICROSECOND", "NANOSECOND")
FLAT = ["Null", "Bool", *(f"Int({bits},{sign})" for bits in (8, 16, 32, 64) for sign in ("true", "false")),
        *(f"FloatingPoint({precision})" for precision in ("HALF", "SINGLE", "DOUBLE")), "Binary", "Utf8",
        "Decimal(38,10,128)", "Decimal(76,-3,256)", "Date(DAY)", "Date(MILLISECOND)",
        *(f"Time({unit})" for unit in UNITS), *(f"Timestamp({unit},-)" for unit in UNITS), 'Timestamp(SECOND,"UTC")',
        *(f"FixedSizeBinary({size})" for size in (0, 1, 5)), *(f"Duration({unit})" for unit in UNITS)]
NESTED = ["List(Int(8,true))", "List(Utf8)", "List(Bool)", "List(Null)", "Struct()", "Struct(Int(8,true),Bool)",
          "Struct(Null,Utf8)", "FixedSizeList(2,Int(16,true))", "FixedSizeList(3,Utf8)", "FixedSizeList(0,Int(8,true))",
          "FixedSizeList(1,Null)", "List(List(Utf8))", "List(Struct())", "List(Struct(Bool,Utf8))",
          "List(FixedSizeList(2,Bool))", "List(FixedSizeList(0,Utf8))", "Struct(Struct(Struct()))",
          "Struct(List(Int(8,true)),FixedSizeList(2,Utf8))", "FixedSizeList(2,List(Int(8,true)))",
          "FixedSizeList(2,Struct(Bool,Binary))", "FixedSizeList(2,FixedSizeList(3,Bool))", "FixedSizeList(2,Struct())",
          "Struct(FixedSizeList(0,Struct(Utf8)),Null)", "List(Struct(List(Utf8),FixedSizeList(2,List(Bool))))"]
FREELY = set(WAYS) - {"sixty-four", "unaligned", "overlap"}
MIXED = "Bool List(Utf8) Struct(Int(16,true),Utf8) FixedSizeList(2,Binary) Null"


def shown(cell):
    """A cell as the program prints it."""
    if cell is None or isinstance(cell, bool):
        return {None: "null", True: "true", False: "false"}[cell]
    if isinstance(cell, bytes):
        return cell.hex() or "-"
    return ("[%s]" if isinstance(cell, list) else "(%s)") % " ".join(map(shown, cell))


def spelled(body):
    """The bytes in hexadecimal, eight bytes a word; three or more zero words are written as letters."""
    words = []
    for is_zero, run in itertools.groupby((body[place:place + 8] for place in range(0, len(body), 8)), bytes(8).__eq__):
        run = [word.hex() for word in run]
        twenties, rest = divmod(8 * len(run), 20)
        words += ["z" * twenties + (chr(ord("f") + rest) if rest else "")] if is_zero and len(run) > 2 else run
    return " ".join(words)


def bytes_of(digits):
    zeros = re.sub("[g-z]", lambda letter: "00" * (ord(letter[0]) - ord("f")), digits.replace(" ", ""))
    return bytes.fromhex(zeros)


def pairs_shown(pairs):
    return [f"({first},{second})" for first, second in pairs]


def pairs_of(words):
    return tuple((int(first), int(second)) for first, second in re.findall(r"\((-?\d+),(-?\d+)\)", words))


def read_line(head, body):
    parts = ["read", *["compressed"] * head.compressed, str(head.length), *pairs_shown(head.nodes), "|",
             *pairs_shown(head.buffers), "|", str(head.body_length), spelled(body)]
    return " ".join(filter(None, parts))


def batch_of(line):
    """The head and the body in a `read` line."""
    front, buffers, back = line.split("|")
    compressed, length = re.match(r"read (compressed )?(-?\d+)", front).groups()
    body_length, _, digits = back.strip().partition(" ")
    return Head(int(length), pairs_of(front), pairs_of(buffers), bool(compressed), int(body_length)), bytes_of(digits)


def schema_told(types):
    trees = list(itertools.chain(*map(whole_tree, types)))
    return [f"columns {len(types)}, nodes {len(trees)}, buffers {sum(len(kinds(type)) for type in trees)}"]


def batch_told(types, head, body):
    columns = meaning(types, head, body)
    if isinstance(columns, str):
        return [columns]
    told = [f"rows {head.length}"] + ["  " + " ".join(map(shown, cells)) for cells in columns if cells]
    written, content = canonical(types, head.length, columns)
    if (written, content) == (head, body):
        return told + ["canonical"]
    parts = ["nodes", *pairs_shown(written.nodes)], ["buffers", *pairs_shown(written.buffers)]
    return told + [" ".join(part) for part in parts] + [f"body {len(content)} {spelled(content)}".rstrip()]


def tell(text):
    """The story with the model's answers: what the story program must print for it."""
    lines, types = [], []
    for line in text.splitlines():
        if line.startswith("  "):
            continue
        lines.append(line)
        if line.startswith("schema"):
            types = list(map(type_of, line.split()[1:]))
            lines += ["  " + told for told in schema_told(types)]
        elif line.startswith("read"):
            lines += ["  " + told for told in batch_told(types, *batch_of(line))]
    return "\n".join(lines) + "\n"


class Story:
    """Comments and commands; the answers are added at the end."""

    def __init__(self, beginning):
        self.lines, self.types = [], []
        self.say(beginning + " The notation is that of examples.txt. Made by tools/batches.py, and not by hand.")

    def say(self, comment):
        self.lines += [""] * bool(self.lines)
        self.lines += textwrap.wrap(comment, 118, initial_indent="# ", subsequent_indent="# ", break_on_hyphens=False)

    def schema(self, words):
        self.types = list(map(type_of, words.split()))
        self.lines.append(f"schema {words}")

    def lay_out(self, rows, columns, ways=(), seed=0):
        """Adds a batch that is laid out in these ways, and so has these columns."""
        head, body = lay_out(self.types, rows, columns, ways, seed)
        assert meaning(self.types, head, body) == columns, (self.types, columns, ways)
        self.lines.append(read_line(head, body))

    def refuse(self, fault, head, body):
        assert meaning(self.types, head, body) == fault, (fault, self.types, head, body.hex())
        self.lines.append(read_line(head, body))

    def text(self):
        return tell("\n".join(self.lines))


def drawn(type, draw, nulls, most=3):
    """A random cell of the type. It and its parts are null with the chance `nulls`; a list has at most `most` elements,
    or one if `most` is 0."""
    if type.name == "Null" or draw.random() < nulls:
        return None
    if type.name == "Bool":
        return draw.random() < 0.5
    if type.name in OF_TEXTS:
        return draw.choice(TEXTS)
    if type.name in (*OF_ITEMS, "FixedSizeList"):
        count = (draw.randrange(most + 1) if most else 1) if type.name in OF_ITEMS else int(type.parameters[0])
        return [drawn(type.children[0], draw, nulls, most) for _ in range(count)]
    if type.name == "Struct":
        return tuple(drawn(child, draw, nulls, most) for child in type.children)
    return draw.randbytes(draw.randrange(5) if width(type) is None else width(type))


def flat():
    story = Story("Columns of each type without others inside (Apache Arrow Columnar Format, \"Fixed-size Primitive "
                  "Layout\", \"Variable-size Binary Layout\", \"Null Layout\"), with nulls at none, all, every second, "
                  "the first or the last of 7, 8, 9 or 17 rows, so that bitmaps end within a byte, at its end and "
                  "behind it.")
    draw, freely = random.Random(1), (FREELY, {"junk", "bits", "validity"})
    choices = list(itertools.product((7, 8, 9, 17), PATTERNS))
    for number, word in enumerate(FLAT):
        type = type_of(word)
        is_whole = word in ("Bool", "Int(8,true)", "Utf8")
        story.say(f"{word}. Each pattern and number of rows; no rows." if is_whole else
                  f"{word}. Each pattern, the second laid out freely; no rows.")
        story.schema(word)
        mine = choices if is_whole else [choices[6 * (number + place) % 20] for place in range(5)]
        for place, (rows, pattern) in enumerate(mine):
            cells = [None if PATTERNS[pattern](row, rows) else drawn(type, draw, 0) for row in range(rows)]
            story.lay_out(rows, [cells], freely[number % 2] if place % 20 == 1 else (), number)
        story.lay_out(0, [[]])
        if "offsets" in kinds(type):
            story.lay_out(0, [[]], {"no offsets"})
    return story.text()


def deep(wrap, leaf, cell, depth):
    """Types nested to this depth, and rows: for each depth one with a null at that depth, and one without nulls."""
    word, rows = leaf, [None, cell]
    for _ in range(depth - 1):
        word = wrap(word)
        is_tuple = word.startswith("Struct")
        rows = [None] + [(row,) if is_tuple else [row] for row in rows]
    return word, rows


def nested():
    story = Story("Columns with others inside (Apache Arrow Columnar Format, \"Variable-size List Layout\", "
                  "\"Fixed-Size List Layout\", \"Struct Layout\"), with nulls at each level. Each is laid out as it "
                  "would be written, and then freely; then no rows, and nulls alone.")
    for number, word in enumerate(NESTED):
        story.say(f"{word}.")
        story.schema(word)
        cells = [drawn(type_of(word), random.Random(100 * number + row), 0.3) for row in range(5)]
        cells.insert(number % 5, None)
        story.lay_out(6, [cells])
        story.lay_out(6, [cells], FREELY, number)
        story.lay_out(0, [[]])
        story.lay_out(5, [[None] * 5])
        story.lay_out(5, [[None] * 5], FREELY, number)
    forms = {"Lists": "List(%s)", "Structs": "Struct(%s)", "FixedSizeLists": "FixedSizeList(1,%s)"}
    wraps = {name: form.__mod__ for name, form in forms.items()}
    leaves = (("Int(8,true)", b"\7"), ("Bool", True), ("Utf8", b"joe"))
    for (name, wrap), (leaf, cell) in zip(wraps.items(), leaves):
        story.say(f"{name} in one another, down to depth 16, with a null at each depth, and a row without any.")
        word, rows = deep(wrap, leaf, cell, 16)
        story.schema(word)
        story.lay_out(len(rows), [rows])
        story.lay_out(len(rows), [rows], {"bits", "null spans", "first offset", "children", "order"}, 7)
    story.say("All three in turn.")
    turns = itertools.cycle(wraps.values())
    word, rows = deep(lambda word: next(turns)(word), "Binary", b"\0", 16)
    story.schema(word)
    story.lay_out(len(rows), [rows])
    return story.text()


def depths():
    story = Story("Lists, lists of fixed size and structs in one another, in every order down to depth 4, and in drawn "
                  "ones down to each depth from 5 to 16 (Apache Arrow Columnar Format, \"Physical memory layout\"). "
                  "Each is laid out as it would be written, and then freely.")
    draw = random.Random(16)
    leaves = itertools.cycle(("Int(8,true)", "Utf8", "Bool", "Null", "Binary", "FixedSizeBinary(2)"))
    orders = [order for depth in (1, 2, 3) for order in itertools.product(("L", "F", "S"), repeat=depth)]
    orders += [[top, *draw.choices("LFS", k=depth - 2)] for depth in range(5, 17) for top in "LFS"]
    for number, order in enumerate(orders):
        is_deep, word = len(order) > 3, next(leaves)
        forms = {"L": "List(%s)", "F": "FixedSizeList(1,%s)" if is_deep else "FixedSizeList(2,%s)",
                 "S": draw.choice(("Struct(%s)", "Struct(Bool,%s)", "Struct(%s,Utf8)"))}
        for kind in reversed(order):
            word = forms[kind] % word
        story.say(f"Depth {len(order) + 1}.")
        story.schema(word)
        nulls, most, ways = (0.1, 2, {"junk", "bits", "order", "gaps"}) if is_deep else (0.25, 2, FREELY)
        cells = [drawn(story.types[0], draw, 0, 0), None]
        cells += [drawn(story.types[0], draw, nulls, most) for _ in range(1 if is_deep else 3)]
        cells = cells[number % 3:] + cells[:number % 3]
        story.lay_out(len(cells), [cells])
        story.lay_out(len(cells), [cells], ways, number)
    return story.text()


def layouts():
    story = Story("One batch, laid out in many ways: each is read as the same cells, and written again in the one "
                  "canonical way (Apache Arrow Columnar Format, \"Buffer Alignment and Padding\", \"Validity "
                  "bitmaps\"). What no cell of the batch uses may hold anything.")
    small = "Int(8,true)", [[b"\1", None, b"\3"]]
    lists = "List(Utf8)", [[[b"a", None], None, [], [b"bc", b"\xc3\xa9"]]]
    draw = random.Random(4)
    mixed = MIXED, [[drawn(type_of(word), draw, 0.25) for _ in range(5)] for word in MIXED.split()]
    for name, ways in [("", ()), *((way, (way, "junk")) for way in WAYS if way != "no offsets")]:
        story.say(f"{WAYS[name][0].upper()}{WAYS[name][1:]}." if name else "As it would be written.")
        for words, columns in (small, lists, mixed):
            story.schema(words)
            story.lay_out(len(columns[0]), columns, ways, 3)
    story.say("All ways at once, and half of them, as they are drawn.")
    for seed in range(16):
        ways = sorted(WAYS) if seed < 2 else random.Random(seed).sample(sorted(WAYS), 8)
        story.lay_out(5, mixed[1], ways, seed)
    return story.text()


def altered(laid, nodes={}, buffers={}, places={}, **others):
    """The batch with the nodes and buffers of these numbers, the bytes at these places, and other parts of the head replaced."""
    head, body = laid
    nodes = tuple(nodes.get(number, node) for number, node in enumerate(head.nodes))
    buffers = tuple(buffers.get(number, buffer) for number, buffer in enumerate(head.buffers))
    body = bytes(places.get(place, byte) for place, byte in enumerate(body))
    return head._replace(**{"nodes": nodes, "buffers": buffers, **others}), body


IN_TURN = [  # Of a column of texts: a fault, and a change of the batch that causes it, whichever other faults there are.
    ("Compressed", lambda laid: altered(laid, compressed=True)),
    ("TooManyRows", lambda laid: altered(laid, length=(1 << 20) + 1)),
    ("NodeCount", lambda laid: (laid[0]._replace(nodes=laid[0].nodes + ((0, 0),)), laid[1])),
    ("BufferCount", lambda laid: (laid[0]._replace(buffers=laid[0].buffers + ((0, 0),)), laid[1])),
    ("BufferRange", lambda laid: altered(laid, body_length=len(laid[1]) + 1)),
    ("BufferRange", lambda laid: altered(laid, buffers={2: (laid[0].buffers[2][0], 99)})),
    ("NullCount", lambda laid: altered(laid, nodes={0: (4, 2)})),
    ("OffsetsFall", lambda laid: altered(laid, places={laid[0].buffers[1][0] + 8: 0})),
    ("ChildShort", lambda laid: altered(laid, length=max(5, laid[0].length))),
    ("NotUtf8", lambda laid: altered(laid, places={laid[0].buffers[2][0]: 0xff})),
]
NUMBERS, WORDS = [b"\1", None, b"\3", b"\4"], [b"a", b"bc", None, b"joe"]
AT_COLUMN = [  # A fault, the column's type and cells, and the change, a function of the numbers of its node and first buffer.
    ("TooManyRows", "Int(8,true)", NUMBERS, lambda head, node, first: {"nodes": {node: ((1 << 24) + 1, 1)}}),
    ("BufferRange", "Int(8,true)", NUMBERS,
     lambda head, node, first: {"buffers": {first + 1: (head.buffers[first + 1][0], 3)}}),
    ("NullCount", "Int(8,true)", NUMBERS, lambda head, node, first: {"nodes": {node: (4, 0)}}),
    ("NullCount", "Int(8,true)", NUMBERS, lambda head, node, first: {"nodes": {node: (4, 2)}}),
    ("OffsetsFall", "Utf8", WORDS, lambda head, node, first: {"places": {head.buffers[first + 1][0] + 8: 0}}),
    ("OffsetsFall", "List(Null)", [[None], [], [None], []],
     lambda head, node, first: {"nodes": {node + 1: (1, 1)}}),
    ("ChildShort", "Struct(Int(8,true))", [(cell,) for cell in NUMBERS],
     lambda head, node, first: {"nodes": {node + 1: (3, 1)}}),
    ("ChildShort", "FixedSizeList(2,Null)", [[None, None]] * 4,
     lambda head, node, first: {"nodes": {node + 1: (7, 7)}}),
    ("NotUtf8", "Utf8", WORDS, lambda head, node, first: {"places": {head.buffers[first + 2][0] + 1: 0xe9}}),
]


def surroundings(word, cells):
    """The column by itself and inside each nested type, with the numbers of its node and first buffer."""
    halves = [cells[:2], cells[2:]]
    yield word, cells, 0, 0
    yield f"List({word})", halves, 1, 2
    yield f"Struct(Null,{word})", [(None, cell) for cell in cells], 2, 1
    yield f"FixedSizeList(2,{word})", halves, 1, 1


INSIDE = [  # Of nested texts: a fault and its change, as above; here the change keeps the column's stated length.
    ("BufferRange", lambda head, node, first: {"buffers": {first + 2: (head.buffers[first + 2][0], 99)}}),
    ("NullCount", lambda head, node, first: {"nodes": {node: (head.nodes[node][0], 2)}}),
    ("OffsetsFall", lambda head, node, first: {"places": {head.buffers[first + 1][0] + 8: 0}}),
    ("ChildShort", lambda head, node, first: {"nodes": {node: (3, head.nodes[node][1])}}),
    ("NotUtf8", lambda head, node, first: {"places": {head.buffers[first + 2][0]: 0xff}}),
]


def inside_columns(story):
    """Two faults of one nested column."""
    story.say("Of two faults of texts inside a List, a Struct and a FixedSizeList the first is told, as of those at "
              "the top. A List asks for no length of what is inside it.")
    for outer, column, node, first in list(surroundings("Utf8", WORDS))[1:]:
        story.schema(outer)
        rules = [rule for rule in INSIDE if rule[0] != "ChildShort" or not outer.startswith("List")]
        for (fault, one), (_, other) in itertools.combinations(rules, 2):
            laid = lay_out(story.types, len(column), [column])
            for change in (one, other):
                laid = altered(laid, **change(laid[0], node, first))
            story.refuse(fault, *laid)


def between_columns(story):
    """Faults of two columns in one batch."""
    laid = lay_out([type_of("Utf8")] * 2, 4, [WORDS, WORDS])
    story.say("Each fault of a column comes before each of the next one.")
    story.schema("Utf8 Utf8")
    for fault, change in IN_TURN[5:]:
        story.refuse(fault, *change(altered(laid, buffers={3: (-8, 8)})))
    lists = [[b"a", None], None, [b"bc"], [b"joe"]]
    story.say("Each fault of a parent comes before each of its child. The child's null count is wrong; then its texts "
              "lie before the body too, without a fault of the parent and with each.")
    story.schema("List(Utf8)")
    laid = altered(lay_out(story.types, 4, [lists]), nodes={1: (4, 3)})
    story.refuse("BufferRange", *altered(laid, buffers={1: (8, 19)}))
    laid = altered(laid, buffers={4: (-8, 8)})
    story.refuse("BufferRange", *laid)
    for fault, change in (("NullCount", {"nodes": {0: (4, 2), 1: (4, 3)}}), ("OffsetsFall", {"places": {12: 9}}),
                          ("ChildShort", {"length": 5})):
        story.refuse(fault, *altered(laid, **change))
    story.say("Each fault inside a column comes before each of the next one: here texts that are not UTF-8 inside, and "
              "behind them bits that lie nowhere.")
    story.schema("Struct(Utf8) Bool")
    laid = lay_out(story.types, 4, [[(text,) for text in WORDS], [True, False, None, True]])
    story.refuse("NotUtf8", *altered(laid, places={laid[0].buffers[3][0]: 0xff}, buffers={5: (0, 99)}))


def faults():
    story = Story("Batches that are none, and why: of more faults than one, the first is told in the order of a "
                  "compressed batch, too many rows, the count of nodes, that of buffers, the length of the body; then "
                  "for each column, and before those inside it, buffers, null count, offsets, length and texts (Apache "
                  "Arrow Columnar Format, \"RecordBatch message\", for the counts and their order).")
    for fault, word, cells, change in AT_COLUMN:
        story.say(f"{fault}, of {word} at the top, and inside a List, a Struct and a FixedSizeList.")
        for outer, column, node, first in surroundings(word, cells):
            story.schema(outer)
            laid = lay_out(story.types, len(column), [column])
            story.lay_out(len(column), [column])
            story.refuse(fault, *altered(laid, **change(laid[0], node, first)))
    laid = lay_out([type_of("Utf8")], 4, [WORDS])
    for place, (fault, change) in enumerate(IN_TURN):
        note = " of the body's length" if place == 4 else " of a buffer" if place == 5 else ""
        story.say(f"{fault}{note}, alone and with each that comes behind it, from the nearest on.")
        story.schema("Utf8")
        story.refuse(fault, *change(laid))
        for _, other in IN_TURN[place + 1:]:
            story.refuse(fault, *other(change(laid)))
    inside_columns(story)
    between_columns(story)
    return story.text()


def try_model():
    """Tests the model: a layout in any of the ways is read as its cells; so is what is written, and it is written the same again."""
    draw = random.Random(11)
    for number in range(200):
        words = draw.sample(NESTED + FLAT, 3)
        types, rows = list(map(type_of, words)), draw.randrange(20)
        columns = [[drawn(type, draw, draw.choice((0, 0.3, 1))) for _ in range(rows)] for type in types]
        written = canonical(types, rows, columns)
        ways = draw.sample(sorted(WAYS), draw.randrange(len(WAYS) + 1))
        assert lay_out(types, rows, columns) == written, words
        assert meaning(types, *written) == columns, words
        told = meaning(types, *lay_out(types, rows, columns, ways, number))
        assert told == columns and canonical(types, rows, told) == written, (words, ways)


def main():
    is_check, status = "--check" in sys.argv[1:], 0
    try_model()
    texts = {f"{make.__name__}.txt": make() for make in (flat, nested, depths, layouts, faults)}
    texts |= {name: tell((DATA / name).read_text(encoding="utf-8")) for name in BY_HAND}
    for name, text in texts.items():
        file = DATA / name
        assert tell(text) == text, name
        if file.exists() and file.read_text(encoding="utf-8") == text:
            continue
        if is_check or name in BY_HAND:
            print(f"batches: {name} differs from what tools/batches.py makes")
            status = 1
        else:
            file.write_text(text, encoding="utf-8")
    return status


if __name__ == "__main__":
    show_help(__doc__)
    sys.exit(main())
