"""The teller of the stories of batches, and of the bitmaps and columns that they are made of."""
from itertools import groupby

from batch_model import type_of
from batches import batch_of, pairs_shown, shown, spelled
from debug_text import value_of
from header_texts import batch_text, field, schema_text

BUFFERS = {"Null": 0, "FixedSizeList": 1, "Struct": 1, "Bits": 2, "Bytes": 2, "List": 2, "Binary": 3, "Utf8": 3}


def hexadecimal(content):
    return content.hex() or "-"


def bytes_in(word):
    return bytes.fromhex(word.strip("-"))


def value_in(word):
    return value_of(bytes_in(word).decode())


def field_of(type):
    name = "Struct_" if type.name == "Struct" else type.name
    return field(name, type.parameters, map(field_of, type.children), nullable=True)


def layouts(words):
    """The layouts of fields and of their children."""
    for _ in range(int(next(words))):
        yield value_in(next(words))[0]
        yield from layouts(words)


class Column:
    """A column in an answer: its cells, if they have no others inside them, its second buffer, and the columns inside it."""

    def __init__(self, type, words):
        self.type, self.words = type, [next(words) for _ in range(int(next(words)))]
        self.second = bytes_in(next(words))
        self.inside = columns(type.children, words)

    def span(self, row):
        """The places of the row's elements among the cells of the column inside: the first, and the one after the last."""
        if self.type.name == "FixedSizeList":
            size = int(self.type.parameters[0])
            return row * size, (row + 1) * size
        return [int.from_bytes(self.second[4 * place : 4 * place + 4], "little") for place in (row, row + 1)]

    def cell(self, row):
        word = self.words[row]
        if word != "inside":
            return {"null": None, "true": True, "false": False}[word] if word in ("null", "true", "false") else bytes_in(word)
        if self.type.name == "Struct":
            return tuple(column.cell(row) for column in self.inside)
        (inside,) = self.inside
        return [inside.cell(place) for place in range(*self.span(row))]

    def cells(self):
        return map(self.cell, range(len(self.words)))


def columns(types, words):
    assert int(next(words)) == len(types), "a column for each type"
    return [Column(type, words) for type in types]


class Teller:
    def __init__(self):
        self.types = []

    def tell(self, command):
        asked, *words = command.split()
        if asked == "schema":
            self.types = list(map(type_of, words))
            return self.tell_schema()
        if asked == "read":
            return self.tell_read(*batch_of(command))
        return OTHERS[asked](*words)

    def schema_text(self):
        return schema_text(map(field_of, self.types))

    def tell_schema(self):
        (answer,) = yield [f"layouts {self.schema_text()}"]
        words = iter(answer.split(" "))
        count = answer.split(" ")[0]
        found = list(layouts(words))
        return [f"columns {count}, nodes {len(found)}, buffers {sum(map(BUFFERS.get, found))}"]

    def tell_read(self, head, body):
        types = self.types
        (answer,) = yield [f"read {self.schema_text()} {batch_text(*head)} {hexadecimal(body)}"]
        if " " not in answer:
            return [answer]
        rows, *words = answer.split(" ")
        words = iter(words)
        lines = [f"rows {rows}"]
        found = [list(column.cells()) for column in columns(types, words)]
        lines += ["  " + " ".join(map(shown, cells)) for cells in found if cells]
        return lines + made_shown(found, next(words), next(words)) + written_shown(list(words), head, body)


def plain(value):
    """A cell of `batch_cells`."""
    name, held = value
    if name in ("List", "Tuple"):
        return {"List": list, "Tuple": tuple}[name](map(plain, held[0]))
    return {"Null": lambda: None, "Bit": lambda bit: bit, "Bytes": bytes}[name](*held)


def made_shown(found, cells, made):
    """Lines if the plain cells differ from those that are found one by one, or don't make the batch again."""
    lines = [] if [list(map(plain, column)) for column in value_in(cells)] == found else ["other plain cells"]
    return lines + ([] if made == "same" else ["another batch is made of the cells"])


def written_shown(words, head, body):
    """How what was read is written, compared with the head and the body from which it was read."""
    if len(words) != 2:
        return words
    name, written = value_in(words[0])
    assert name == "BatchHead"
    content = bytes_in(words[1])
    read = {**head._asdict(), "nodes": list(head.nodes), "buffers": list(head.buffers)}
    if (written, content) == (read, body):
        return ["canonical"]
    parts = ["nodes", *pairs_shown(written["nodes"])], ["buffers", *pairs_shown(written["buffers"])]
    return [" ".join(part) for part in parts] + [f"body {len(content)} {spelled(content)}".rstrip()]


# ---- bitmaps, and columns of bits and nulls


def bitmap_request(*steps):
    """The request to build a bitmap by these steps, without those that add nothing."""
    steps = [step for step in steps if not step.endswith(" -")]
    return " ".join(["bitmap", str(len(steps)), *steps])


def bitmap_shown(answer):
    """How many bits there are, their bytes, and how many are not set. Each bit, both counts, the copy and the bytes that it leaves
    must agree with that, or the whole answer is shown."""
    emptiness, count, content, *counts, looks, copy, left = answer.split(" ")
    bits = "".join(f"{byte:08b}"[::-1] for byte in bytes_in(content))[: int(count)]
    agreed = ["filled" if bits else "empty", [str(bits.count("0"))] * 2, bits + "-" * 10, "copied", content]
    return f"{count}:{content}:{counts[0]}" if [emptiness, counts, looks, copy, left] == agreed else answer


def a_list(digits):
    (answer,) = yield [bitmap_request(f"bits {digits}")]
    return [bitmap_shown(answer)]


def runs(front, content, start):
    answers = yield [bitmap_request(f"bits {front}", f"part {content} {start} {count}") for count in range(41)]
    return [" ".join(map(bitmap_shown, answers))]


def equal(front, bit, count):
    (answer,) = yield [bitmap_request(f"bits {front}", f"equal {bit} {count}", f"bits {1 - int(bit)}")]
    return [bitmap_shown(answer)]


def zeros(content):
    """Which bits count from the first place on; and each place from which other bits do."""
    answers = yield [f"zeros {content} 0 58", *(f"zeros {content} {start} 41" for start in range(18))]
    counts = [list(map(int, answer.split())) for answer in answers]
    first, *others = ["".join(str(more - less) for less, more in zip(run, run[1:])) for run in counts]
    lines = [f"from {start}: {bits}" for start, bits in enumerate(others) if bits != first[start : start + 40]]
    return [first, *lines, *([] if all(run[0] == 0 for run in counts) else ["an empty run has zeros"])]


def column_shown(answer):
    layout, emptiness, count, nulls, validity, second, third, inside, looks = answer.split(" ")
    if layout == "Null":
        looks = " ".join(f"{letter}*{len(list(run))}" for letter, run in groupby(looks))
    line = f"{layout} of {count}, nulls {nulls}, buffers {validity} {second} {third}, inside {inside}, seen {looks}"
    return line if (emptiness == "empty") == (count == "0") else f"{line}, {emptiness}"


def column(cells=""):
    (answer,) = yield [f"bits {cells}"]
    return [column_shown(answer)]


def nulls(count):
    (answer,) = yield [f"nulls {count}"]
    return [column_shown(answer)]


def layout(word):
    (answer,) = yield [f"layouts {schema_text([field_of(type_of(word))])}"]
    return [bytes_in(answer.split(" ")[1]).decode()]


OTHERS = {
    "list": a_list, "runs": runs, "equal": equal, "zeros": zeros, "column": column, "nulls": nulls, "layout": layout,
}
