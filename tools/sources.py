"""Reads Rattle sources: the modules of a crate, what they declare, and the clauses of each function. It checks no types, and expects
files that the toolchain accepts: others may be read in any way."""
import re
from pathlib import Path
from typing import NamedTuple

TOP = Path(__file__).resolve().parent.parent
HIDDEN = re.compile(r"""//[^\n]*|/\*.*?\*/|r(#*)".*?"\1|"(?:\\.|[^"\\])*"|'(?:\\.[^']*|[^\\'\n])'""", re.S)
CLAUSE = re.compile(r"(requires|ensures)\b(?:\s+([A-Za-z_]\w*))?\s*(?=\{)")
ATTRIBUTE = re.compile(r"#!?\[")
FUNCTION = re.compile(r"(pub(?:\([a-z]+\))? )?(?:final |const |unsafe )*fn (\w+)")
TYPE = re.compile(r"(pub(?:\([a-z]+\))? )?(struct|enum|trait|type|const|static) (\w+)")
MODULE = re.compile(r"(pub(?:\([a-z]+\))? )?mod (\w+)")
USE = re.compile(r"(pub(?:\([a-z]+\))? )?use ([^;]+)")
IMPL = re.compile(r"(?:unsafe )?impl\b")
GHOST = re.compile(r"(?:pub )?ghost (\w+)\s*[=:]")
BRACKET = re.compile(r"[][(){}]")
OPENING = "([{"


class Clause(NamedTuple):
    """A clause of a contract: `requires` or `ensures`, its name or an empty one, its text in braces, and the comment above it."""

    kind: str
    name: str
    text: str
    comment: str


class Item(NamedTuple):
    """What a module, a trait or an `impl` declares. `ghosts` are those of a trait or an `impl`, and `inside` its functions; `names`
    are the fields, variants or paths that it names."""

    kind: str
    name: str
    public: bool
    file: Path
    line: int
    doc: str = ""
    signature: str = ""
    clauses: tuple = ()
    ghosts: tuple = ()
    inside: tuple = ()
    names: tuple = ()


def masked(text):
    """The text with spaces in place of comments, strings and characters, so that each brace that is left is one of the code."""
    return HIDDEN.sub(lambda found: re.sub(r"[^\n]", " ", found.group()), text)


def skip(mask, at):
    """The place after the bracket that closes the one at this place."""
    depth = 0
    for bracket in BRACKET.finditer(mask, at):
        depth += 1 if bracket.group() in OPENING else -1
        if depth == 0:
            return bracket.end()
    return len(mask)


def end_of_head(mask, at, end):
    """The place of the brace or semicolon that ends the head of an item, past its brackets and its clauses."""
    while at < end and mask[at] not in ";{":
        clause = CLAUSE.match(mask, at) if mask[at - 1].isspace() else None
        if clause:
            at = skip(mask, clause.end())
        else:
            at = skip(mask, at) if mask[at] in "([" else at + 1
    return at


def comment_above(text, at, mark):
    """The comment that ends on the line before this place, its lines joined; attributes may come between."""
    said = []
    for line in reversed(text[:at].splitlines()[: None if text[:at].endswith("\n") else -1]):
        line = line.strip()
        if line.startswith(mark) and not (mark == "//" and line.startswith("///")):
            said.insert(0, line.removeprefix(mark).strip())
        elif not (mark == "///" and line.startswith("#[")) or said:
            break
    return "\n".join(said)


def dedented(text, at, end):
    """The text between two places, its later lines moved left by the indentation of the first one."""
    line = text[text.rfind("\n", 0, at) + 1 : at]
    indentation = len(line) - len(line.lstrip())
    first, *rest = text[at:end].strip().split("\n")
    return "\n".join([first, *(it[min(indentation, len(it) - len(it.lstrip())) :] for it in rest)])


def clauses_of(text, mask, at, end):
    """The clauses between two places, and the place of the first one, or the end if there is none."""
    found, first = [], end
    while at < end:
        clause = CLAUSE.match(mask, at) if mask[at - 1].isspace() else None
        if clause:
            after = skip(mask, clause.end())
            inner = dedented(text, at, after).partition("{")[2][:-1].strip()
            found.append(Clause(clause.group(1), clause.group(2) or "", inner, comment_above(text, at, "//")))
            first, at = min(first, at), after
        else:
            at = skip(mask, at) if mask[at] in "([" else at + 1
    return tuple(found), first


def ghosts_of(text, mask, at, end):
    """The ghost members that are declared between two places, each as its name, its text and its comment."""
    found = []
    while at < end:
        ghost = GHOST.match(mask, at)
        if ghost and not mask[at - 1].isalnum():
            after = skip(mask, mask.index("{", ghost.end()))
            comment = comment_above(text, at, "///")
            found.append((ghost.group(1), dedented(text, at, after), comment))
            at = after
        else:
            at = skip(mask, at) if mask[at] in OPENING else at + 1
    return tuple(found)


def use_paths(tree, before=()):
    """The paths of a `use`, each as a tuple of its segments and the name under which it is known."""
    tree = tree.strip()
    head, brace, inner = tree.partition("{")
    if not brace:
        path, _, name = tree.partition(" as ")
        parts = (*before, *path.strip().split("::"))
        return [(parts, name.strip() or parts[-1])]
    parts = (*before, *(part for part in head.strip().split("::") if part))
    depth, pieces = 0, [""]
    for char in inner[: inner.rindex("}")]:
        depth += (char == "{") - (char == "}")
        pieces = [*pieces, ""] if char == "," and not depth else [*pieces[:-1], pieces[-1] + char]
    return [path for piece in pieces if piece.strip() for path in use_paths(piece, parts)]


class Reader:
    """Reads one file. `items` is what it declares at a level, in order."""

    def __init__(self, file):
        self.file = file
        self.text = file.read_text(encoding="utf-8")
        self.mask = masked(self.text)

    def items(self, at=0, end=None):
        """What is declared between two places, without tests."""
        found, end, is_test = [], len(self.mask) if end is None else end, False
        while at < end:
            char = self.mask[at]
            if char.isspace() or char in ";,":
                at += 1
            elif ATTRIBUTE.match(self.mask, at):
                after = skip(self.mask, self.mask.index("[", at))
                is_test, at = is_test or self.text[at:after] == "#[cfg(test)]", after
            else:
                item, at = self.item(at, end)
                found += [item] if item and not is_test else []
                is_test = False
        return found

    def item(self, at, end):
        """The item at this place, or None if it is of a kind without contracts, and the place after it."""
        head = end_of_head(self.mask, at, end)
        after = head + 1 if head >= end or self.mask[head] == ";" else skip(self.mask, head)
        if self.mask.startswith("ghost ", at):
            return None, self.after_ghost(at)
        for pattern, read in ((USE, self.use), (FUNCTION, self.function), (IMPL, self.block), (TYPE, self.type), (MODULE, self.module)):
            found = pattern.match(self.mask, at)
            if found:
                return read(found, head, after), self.after_use(at) if pattern is USE else after
        return None, after

    def after_ghost(self, at):
        """The place after a ghost item, which ends with a semicolon outside of brackets."""
        while at < len(self.mask) and self.mask[at] != ";":
            at = skip(self.mask, at) if self.mask[at] in OPENING else at + 1
        return at + 1

    after_use = after_ghost

    def base(self, kind, name, public, at):
        """What every item has: its kind, its name, whether it is public, its file, its line and its doc comment."""
        line = self.text.count("\n", 0, at) + 1
        return Item(kind, name, public, self.file, line, comment_above(self.text, at, "///"))

    def use(self, found, _head, _after):
        """A `use`, with the paths that it names."""
        at = found.start()
        tree = self.text[found.start(2) : self.mask.index(";", at)]
        return self.base("use", "", found.group(1) == "pub ", at)._replace(names=tuple(use_paths(tree)))

    def module(self, found, _head, _after):
        """A `mod`."""
        return self.base("mod", found.group(2), found.group(1) == "pub ", found.start())

    def function(self, found, head, _after):
        """A function with its signature, without the comments in it, and its clauses."""
        clauses, first = clauses_of(self.text, self.mask, found.end(), head)
        signature = dedented(self.text, found.start(), first).rstrip()
        if clauses:
            signature = re.sub(r"\s*//[^\n]*(?=\n|$)", "", signature).rstrip()
        base = self.base("fn", found.group(2), found.group(1) == "pub ", found.start())
        return base._replace(signature=signature, clauses=clauses)

    def type(self, found, head, after):
        """A type, constant or trait: what it names, or the members of a trait."""
        base = self.base(found.group(2), found.group(3), found.group(1) == "pub ", found.start())
        body = self.mask[head:after]
        names = tuple(re.findall(r"[A-Za-z_]\w*", body)) if base.kind in ("struct", "enum") else ()
        signature = self.text[found.start() : head].strip()
        if base.kind != "trait":
            return base._replace(signature=signature, names=names)
        return base._replace(signature=signature, **self.members(head, after))

    def block(self, found, head, after):
        """An `impl`: its kind is that of the trait, its name that of the type."""
        signature = re.sub(r"\s+", " ", self.text[found.start() : head].strip())
        kind, name = impl_of(signature)
        return self.base(kind, name, False, found.start())._replace(signature=signature, **self.members(head, after))

    def members(self, head, after):
        """The ghosts and the functions of a trait or an `impl`."""
        inside = tuple(item for item in self.items(head + 1, after - 1) if item.kind == "fn")
        return {"ghosts": ghosts_of(self.text, self.mask, head + 1, after - 1), "inside": inside}


def impl_of(signature):
    """The trait in the head of an `impl`, or `impl` if there is none, and the name of the type."""
    plain = re.sub(r"^(?:unsafe )?impl\s*", "", signature)
    while re.search(r"<[^<>]*>", plain):
        plain = re.sub(r"<[^<>]*>", "", plain.replace("->", "  "))
    plain = plain.split(" where ")[0]
    before, is_of, after = plain.partition(" for ")
    named = re.search(r"(\w+)\s*$", (after if is_of else before).strip())
    trait = re.search(r"(\w+)\s*$", before.strip()) if is_of else None
    return (trait.group(1) if trait else "impl"), (named.group(1) if named else "")
