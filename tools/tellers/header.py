"""The teller of the stories of headers of messages, and of the places at which they are read."""
from batches import bytes_of
from debug_text import quoted, value_of
from header_texts import NONE, Text, batch_text, field, schema_text
from make import quoted as name_shown

WIDTHS = {
    "Eight": "8", "Sixteen": "16", "ThirtyTwo": "32", "SixtyFour": "64",
    "OneHundredTwentyEight": "128", "TwoHundredFiftySix": "256",
}
KINDS = {
    "List": (12, ("List", [])), "Struct_": (13, ("Struct", [])), "FixedSizeList(0)": (16, ("FixedSizeList", {"list_size": 0})),
}
WHOLE_NUMBERS = ("Int", {"bit_width": ("SixtyFour", []), "is_signed": True})


def hexadecimal(content):
    return content.hex() or "-"


# ---- headers, as they are shown


def parameter_shown(value):
    """A type's parameter as stories show it."""
    if isinstance(value, bool):
        return str(value).lower()
    if isinstance(value, int):
        return str(value)
    name, held = value
    if name == "Some":
        return name_shown(held[0])
    return "-" if name == "None" else WIDTHS.get(name, name.upper())


def type_shown(ty):
    name, parameters = ty
    if not parameters:
        return "Struct_" if name == "Struct" else name
    return f"{name}({','.join(map(parameter_shown, parameters.values()))})"


def entries_shown(entries, indent):
    return [f"{indent}metadata {name_shown(key)} = {name_shown(value)}" for key, value in entries]


def fields_shown(fields, indent):
    lines = []
    for _, it in fields:
        nullable = ", nullable" if it["nullable"] else ""
        lines.append(f"{indent}{name_shown(it['name'])}: {type_shown(it['ty'])}{nullable}")
        lines += entries_shown(it["metadata"], indent + "  ") + fields_shown(it["children"], indent + "  ")
    return lines


def header_shown(header):
    kind, ((_, held),) = header
    if kind == "Schema":
        return ["schema"] + entries_shown(held["metadata"], "  ") + fields_shown(held["fields"], "  ")
    compressed = ", compressed" if held["compressed"] else ""
    lines = [f"batch of {held['length']} rows, body of {held['body_length']} bytes{compressed}"]
    lines += [f"  node of {length}, nulls {nulls}" for length, nulls in held["nodes"]]
    return lines + [f"  buffer at {offset} of {length}" for offset, length in held["buffers"]]


def header_in(answer):
    """The header of an answer, or None if it is a fault."""
    word, _, digits = answer.partition(" ")
    return value_of(bytes.fromhex(digits).decode()) if word == "header" else None


def shown(answer):
    """The lines of an answer to `message`."""
    header = header_in(answer)
    return header_shown(header) if header else [answer]


# ---- schemas with a type or an entry given as bytes, or with shared tables


def text_of_type(kind, count, spelled):
    """A schema of one field with the type of this number, with `count` Null fields inside it, and these bytes as the vtable and
    the table of its type. The vtable's first number is its size, and the table comes after it."""
    text = Text()
    null = text.table(NONE, NONE, ("=", 1))
    children = text.vector(*[null] * count)
    text.put(spelled)
    ty = (">", len(text.bytes) - spelled[0]) if spelled else NONE
    named = text.table(NONE, NONE, ("=", kind), ty, NONE, (">", children))
    return text.schema(text.vector(named), text.vector())


def put_entry(text, key, value):
    spelled = [NONE if it == "absent" else (">", text.string(bytes_of("" if it == "empty" else it))) for it in (key, value)]
    return text.table(*spelled)


def text_with_entry(key, value, is_inside):
    """A schema of one field. The entry is in the field's metadata after one without a key and a value, or in the schema's
    before such an entry."""
    text = Text()
    named = put_entry(text, key, value)
    bare = text.table()
    if is_inside:
        entries = text.vector(bare, named)
        only = text.table(NONE, NONE, ("=", 1), NONE, NONE, NONE, (">", entries))
        return text.schema(text.vector(only), text.vector())
    only = text.table(NONE, NONE, ("=", 1))
    return text.schema(text.vector(only), text.vector(named, bare))


def field_value(name, ty, children, metadata):
    return "Field", {"name": name, "nullable": False, "ty": ty, "children": children, "metadata": metadata}


def schema_value(fields, metadata):
    return "Schema", [("Schema", {"fields": fields, "metadata": metadata})]


def tree(kind, levels, width, tops):
    """The text of a tree of fields, and the header that it encodes."""
    text, (number, ty) = Text(), KINDS[kind]
    only, value = text.table(("=", 64), ("=", 1)), field_value("", WHOLE_NUMBERS, [], [])
    only = text.table(NONE, NONE, ("=", 2), (">", only))
    for _ in range(1, levels):
        children = text.vector(*[only] * width)
        only = text.table(NONE, NONE, ("=", number), NONE, NONE, (">", children))
        value = field_value("", ty, [value] * width, [])
    return text.schema(text.vector(*[only] * tops), text.vector()), schema_value([value] * tops, [])


def sized(tops, inner, outer, *lengths):
    """The text of a schema of these sizes, and the header that it encodes."""
    text, (name, zone, key, value) = Text(), [letter * length for letter, length in zip("nzkv", lengths)]
    entry = [(">", text.string(it.encode())) for it in (key, value)]
    entry = text.table(*entry)
    entries = text.vector(*[entry] * inner)
    ty = text.table(("=", 3), (">", text.string(zone.encode())))
    named = (">", text.string(name.encode()))
    only = text.table(named, NONE, ("=", 10), (">", ty), NONE, NONE, (">", entries))
    fields = text.vector(*[only] * tops)
    ty = "Timestamp", {"unit": ("Nanosecond", []), "timezone": ("Some", [zone])}
    fields_read = [field_value(name, ty, [], [(key, value)] * inner)] * tops
    return text.schema(fields, text.vector(*[entry] * outer)), schema_value(fields_read, [(key, value)] * outer)


def unlike_pairs(count):
    """This many different pairs of numbers."""
    first = 0x0123_4567_89AB_CDEF
    return [(number, number - 2**63) for number in range(first, first + count)]


def batch_of_nodes(count):
    """The text of a batch of this many nodes, with three buffers each, and the header that it encodes."""
    nodes, buffers = unlike_pairs(count), unlike_pairs(3 * count)
    head = {"length": 7, "nodes": nodes, "buffers": buffers, "compressed": False, "body_length": 64}
    return batch_text(7, nodes, buffers, False, 64), ("Batch", [("BatchHead", head)])


def whole_shown(answer, value):
    """Whether the header of an answer is this one, or the answer if it is a fault."""
    header = header_in(answer)
    return answer if header is None else "whole" if header == value else "in part"


# ---- schemas from words


class Node:
    """A field that is made from words, and its children."""

    def __init__(self, type_word, inside=()):
        self.type_word, self.inside = type_word, list(inside)
        self.name, self.letters, self.entries, self.nullable = "", 0, 0, False

    def bare(self):
        """The words of the field in a request, without those of its children."""
        type_name, _, rest = self.type_word.partition("(")
        parameters = rest[:-1].split(",") if rest else []
        name = {"FixedSizeBinary": "binary", "FixedSizeList": "list"}.get(type_name)
        if name and int(parameters[0]) < 0:
            assert not self.name and not self.nullable, "no message has such a type"
            beginning = f"- {name} {parameters[0]}"
        else:
            inside = [field("Null")] if type_name in ("List", "FixedSizeList") else []
            beginning = schema_text([field(type_name, parameters, inside, self.name, self.nullable)])
        return f"{beginning} {self.letters} {self.entries}"

    def steps(self):
        """The steps for the field's children, the last one first, and then for the field, which takes them."""
        inside = [step for node in reversed(self.inside) for step in node.steps()]
        return inside + [f"{self.bare()} {len(self.inside)}"]


def step(pile, word):
    """Applies a word to the pile of fields, or to the topmost of them."""
    name, _, rest = word.partition(":")
    if name == "nullable":
        pile[-1].nullable = True
    elif not rest:
        pile.append(Node(word))
    elif name == "named":
        pile[-1].name, pile[-1].letters = rest, 0
    elif name == "name-bytes":
        pile[-1].name, pile[-1].letters = "", int(rest)
    elif name == "entries":
        pile[-1].entries = int(rest)
    elif name == "nulls":
        pile += [Node("Null") for _ in range(int(rest))]
    elif name == "with":
        outer = pile.pop()
        outer.inside = [pile.pop() for _ in range(int(rest))]
        pile.append(outer)
    else:
        assert name == "in-lists", word
        for _ in range(int(rest)):
            pile.append(Node("List", [pile.pop()]))


def schema_words(words):
    """The words of a schema in a request: how many entries of metadata it has, and its fields."""
    entries, *rest = words.split()
    pile = []
    for word in rest:
        step(pile, word)
    steps = [step for node in pile for step in node.steps()]
    return " ".join([entries, str(len(steps)), *steps])


# ---- commands


class Teller:
    def __init__(self):
        self.bytes = b""

    def tell(self, command):
        asked, _, rest = command.partition(" ")
        return getattr(self, "tell_" + asked.replace("-", "_"))(rest)

    def tell_bytes(self, words):
        self.bytes = bytes_of(words)
        told = [f"{len(self.bytes)} bytes"]
        yield []
        return told

    def at_place(self, asked, words):
        return [f"{asked} {hexadecimal(self.bytes)} {words}"]

    def tell_uint(self, words):
        return (yield self.at_place("uint", words))

    def tell_follow(self, words):
        (answer,) = yield self.at_place("follow", words)
        return [f"to {answer}" if answer.isdigit() else answer]

    def tell_slot(self, words):
        (answer,) = yield self.at_place("slot", words)
        return [slot_shown(answer)]

    def tell_vector(self, words):
        (answer,) = yield self.at_place("vector", words)
        first, _, count = answer.partition(" ")
        return [f"{count} from {first}" if count else answer]

    def tell_text(self, words):
        (answer,) = yield self.at_place("text", words)
        word, _, digits = answer.partition(" ")
        return [quoted(bytes.fromhex(digits.strip("-")).decode()) if word == "utf8" else answer]

    def tell_cut_slot(self, words):
        answers = yield [f"slot {hexadecimal(self.bytes[:count])} {words}" for count in range(len(self.bytes) + 1)]
        lines, last = [], None
        for count, answer in enumerate(map(slot_shown, answers)):
            lines += [f"from {count} bytes on: {answer}"] if answer != last else []
            last = answer
        return lines

    def tell_header(self, words):
        (answer,) = yield [f"message {hexadecimal(bytes_of(words))}"]
        return shown(answer)

    def tell_one_of(self, words):
        """Whether one of these faults is reported of a header, else the answer."""
        faults, _, header = words.partition(": header")
        (answer,) = yield [f"message {hexadecimal(bytes_of(header))}"]
        return ["one of them"] if answer in faults.split(" ") else shown(answer)

    def tell_changed(self, words):
        """What the bytes encode with others at a place; and for a header how many bytes it needs: those of the shortest beginning
        that is not out of bounds, if that encodes it already."""
        place, _, digits = words.partition(" ")
        place, change = int(place), bytes_of(digits)
        text = self.bytes[:place] + change + self.bytes[place + len(change) :]
        *shorter, whole = yield [f"message {hexadecimal(text[:count])}" for count in range(len(text) + 1)]
        lines = shown(whole)
        if header_in(whole) is None:
            return lines
        needed = next((count for count, answer in enumerate(shorter) if answer != "OutOfBounds"), len(text))
        is_shown = [*shorter, whole][needed] == whole
        return lines + [f"needs {needed} bytes" if is_shown else f"{needed} bytes show something else"]

    def tell_type(self, words):
        kind, count, *digits = words.split()
        (answer,) = yield [f"message {text_of_type(int(kind), int(count), bytes_of(''.join(digits))).hex()}"]
        return shown(answer)

    def tell_entry(self, words):
        texts = [text_with_entry(*words.split(), is_inside) for is_inside in (True, False)]
        answers = yield [f"message {text.hex()}" for text in texts]
        return [line for answer in answers for line in shown(answer)]

    def tell_batch(self, words):
        """What is read from the header of a batch of this many nodes, and what is written for that."""
        text, value = batch_of_nodes(int(words))
        answer, rewritten = yield [f"message {text}", f"rewritten {text}"]
        return [whole_shown(answer, value), "the same bytes" if rewritten == text else rewritten]

    def whole(self, text, value):
        (answer,) = yield [f"message {text.hex()}"]
        return [whole_shown(answer, value)]

    def tell_tree(self, words):
        kind, *numbers = words.split()
        return self.whole(*tree(kind, *map(int, numbers)))

    def tell_sizes(self, words):
        return self.whole(*sized(*map(int, words.split())))

    def tell_respelled(self, words):
        text = hexadecimal(bytes_of(words))
        (answer,) = yield [f"rewritten {text}"]
        return ["the same bytes" if answer == text else answer]

    def tell_encapsulated(self, words):
        return (yield [f"encapsulated {' '.join(hexadecimal(bytes_of(word)) for word in words.split(' '))}"])

    def tell_profile(self, words):
        (answer,) = yield [f"profile {schema_words(words)}"]
        return [{"outside": "no", "same": "yes, and read back", "other": "yes, and another one is read"}[answer]]

    def tell_written(self, words):
        return (yield [f"written {schema_words(words)}"])

    def tell_shapes(self, words):
        (answer,) = yield [f"shapes {' '.join(map(schema_words, words.split(' | ')))}"]
        return [{"same": "the same", "other": "not the same"}[answer]]


def slot_shown(answer):
    return f"at {answer}" if answer.isdigit() else answer
