"""Reads values that Rust's `{:?}` has printed.

A number becomes an int, `true` a bool, a text a str, a list a list, and a tuple a tuple. What has a name becomes a pair of the
name and its content: a dict of its fields, or a list if they have no names, which is empty for a name alone."""
import re

ESCAPES = {"n": "\n", "r": "\r", "t": "\t", "0": "\0", "'": "'", '"': '"', "\\": "\\"}
TOKEN = re.compile(r'\s*("(?:[^"\\]|\\.)*"|-?\d+|\w+|.)', re.DOTALL)
ESCAPE = re.compile(r"\\(?:u\{([0-9a-f]+)\}|(.))", re.DOTALL)
ENDS = {"{": "}", "[": "]", "(": ")"}


def unescaped(text):
    return ESCAPE.sub(lambda it: chr(int(it[1], 16)) if it[1] else ESCAPES[it[2]], text)


class Reader:
    def __init__(self, text):
        self.tokens = TOKEN.findall(text) + [""]
        self.place = 0

    def next(self):
        self.place += 1
        return self.tokens[self.place - 1]

    def passes(self, token):
        """Whether the token comes next; if so, skips it."""
        is_next = self.tokens[self.place] == token
        self.place += is_next
        return is_next

    def listed(self, opening, item):
        """The items up to the bracket that closes the opening one."""
        items = []
        while not self.passes(ENDS[opening]):
            items.append(item())
            self.passes(",")
        return items

    def field(self):
        name = self.next()
        assert self.next() == ":", "a field has a value"
        return name, self.value()

    def named(self, name):
        if self.passes("{"):
            return name, dict(self.listed("{", self.field))
        return name, self.listed("(", self.value) if self.passes("(") else []

    def value(self):
        token = self.next()
        if token[0] == '"':
            return unescaped(token[1:-1])
        if token in ("true", "false"):
            return token == "true"
        if token == "[":
            return self.listed("[", self.value)
        if token == "(":
            return tuple(self.listed("(", self.value))
        return int(token) if token.lstrip("-").isdigit() else self.named(token)


def value_of(text):
    reader = Reader(text)
    value = reader.value()
    assert reader.next() == "", "one value"
    return value


def quoted(text):
    """A text as `{:?}` prints it, if it has no unprintable characters but the control characters of ASCII."""
    letters = {letter: "\\" + name for name, letter in ESCAPES.items() if name != "'"}
    for code in [*range(32), 127]:
        letters.setdefault(chr(code), f"\\u{{{code:x}}}")
    return '"' + "".join(letters.get(letter, letter) for letter in text) + '"'
