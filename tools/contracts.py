#!/usr/bin/env python3
"""Prints the contracts of public functions, as the sources have them.

For each function it prints its path, its file and line, the first sentence of its doc comment, its signature, and its clauses with the
comments above them; for a type its `invariant`; for a trait or an `impl` the ghost members that the clauses of its functions cite.

    tools/contracts.py                        each crate with the number of its public functions that have clauses, and of the others
    tools/contracts.py CRATE [NAME ..]        the contracts of a crate: all, or those of the functions, types and traits of these names,
                                              such as `read_frame`, `Column` or `Column::from_bits`
    tools/contracts.py --all                  those of all crates
    tools/contracts.py --markdown ..          the same as Markdown, with links from the top of the repository
    tools/contracts.py --check                checks that what docs/PROOFS.md cites exists, and does what --selftest does
    tools/contracts.py --selftest             checks that the samples in tools/contracts/ are printed and judged as expected

A table row of the page cites functions in its second cell, as `CRATE`: `NAME` (`CLAUSE`, `CLAUSE`), `NAME`; `CRATE`: `NAME`, and
definitions and laws in its third, as `NAME` (`CRATE`) and law `NAME` (`CRATE`), of one of the row's crates if none is named. With
--check it prints each that does not exist, and each other word of the page in backticks that names nothing; the status is then 1."""
import difflib
import functools
import re
import signal
import sys
import tempfile
from pathlib import Path
from typing import NamedTuple

import definitions
from sources import IMPL, TOP, Item, Reader
from toolbox import show_help

PAGE = TOP / "docs" / "PROOFS.md"
SAMPLES = TOP / "tools" / "contracts"
TYPES = ("struct", "enum", "trait", "type")


class Found(NamedTuple):
    """A public item under a path of its crate: a function, or a type with its `impl` blocks."""

    path: str
    item: Item
    blocks: tuple = ()


class Crate:
    """The sources of a crate, read from its root file on."""

    def __init__(self, folder):
        self.folder, self.name = folder, folder.name
        self.modules = {}
        root = next((folder / "src" / name for name in ("lib.rt", "main.rt") if (folder / "src" / name).is_file()), None)
        if root:
            self.read(root, ())

    def read(self, file, path):
        """Reads a module and those inside it. `modules` has the items of each by its path."""
        self.modules[path] = Reader(file).items()
        for item in self.modules[path]:
            inner = (*path, item.name)
            stem = self.folder.joinpath("src", *inner)
            for candidate in (stem.with_suffix(".rt"), stem / "mod.rt"):
                if item.kind == "mod" and candidate.is_file():
                    self.read(candidate, inner)

    def blocks_of(self, name):
        """The `impl` blocks of a type, in all modules."""
        items = (item for items in self.modules.values() for item in items)
        return tuple(item for item in items if item.name == name and IMPL.match(item.signature))

    def resolve(self, path, segments):
        """The item of this crate that a path names in a module, or None if it is of another crate."""
        place = {"crate": (), "self": path, "super": path[:-1]}.get(segments[0])
        base, rest = (place, segments[1:]) if place is not None else (path, segments)
        module, name = (*base, *rest[:-1]), rest[-1]
        for item in self.modules.get(module, ()):
            if item.name == name and item.kind not in ("mod", "use"):
                return item
            # A crate that is re-exported under its own name is another crate.
            known = [parts for parts, known in item.names if known == name and parts != segments] if item.kind == "use" else []
            found = self.resolve(module, known[0]) if known else None
            if found:
                return found
        return None

    def public(self, path=()):
        """What a module and its public modules make public: each item, and each path of another crate."""
        for item in self.modules.get(path, ()):
            if not item.public:
                continue
            if item.kind == "mod":
                yield from self.public((*path, item.name))
            for parts, name in item.names if item.kind == "use" else ():
                found = self.resolve(path, parts)
                inner = (*path, *parts) if not found and (*path, *parts) in self.modules else None
                if inner:
                    yield from self.public(inner)
                else:
                    yield "::".join((*path, name)), found, parts
            if item.kind in ("fn", *TYPES):
                yield "::".join((*path, item.name)), item, ()

    @functools.cached_property
    def found(self):
        """The public functions, types and traits, with the blocks of each type."""
        items = [(path, item) for path, item, _ in self.public() if item]
        return [Found(path, item, self.blocks_of(item.name) if item.kind in TYPES else ()) for path, item in items]

    @functools.cached_property
    def passed_on(self):
        """The names that this crate re-exports from other crates, each with its path there."""
        return [(path, "::".join(parts)) for path, item, parts in self.public() if not item]


@functools.cache
def crate(name):
    """The crate of this name, or None if there is none."""
    folder = TOP / "crates" / name
    return Crate(folder) if (folder / "src").is_dir() else None


def crate_names():
    """All crates, in the order of crates.txt."""
    lines = (TOP / "crates.txt").read_text(encoding="utf-8").splitlines()
    return [line.split(":")[0].split()[0] for line in lines if ":" in line.partition("#")[0]]


# ---- contracts


class Contract(NamedTuple):
    """A function with its path, or a type or a block with its ghost members."""

    path: str
    item: Item
    ghosts: tuple = ()


def contracts_of(found):
    """The contracts of a public item: its own, then those in its blocks."""
    kept = ("invariant",)
    if found.item.kind == "fn":
        yield Contract(found.path, found.item)
        return
    yield Contract(found.path, found.item, found.item.ghosts)
    for function in found.item.inside:
        yield Contract(f"{found.path}::{function.name}", function)
    for block in found.blocks:
        ghosts = tuple(ghost for ghost in block.ghosts if ghost[0] in kept or block.kind not in ("impl", "Model", "Drop"))
        if block.kind != "impl" and ghosts:
            yield Contract(f"{found.path} as {block.kind}", block, ghosts)
        for function in block.inside:
            if block.kind == "impl" and function.public:
                yield Contract(f"{found.path}::{function.name}", function)
            elif block.kind != "impl" and function.clauses:
                yield Contract(f"{found.path}::{function.name} as {block.kind}", function)


def all_of(of):
    """The contracts of a crate: of its public functions, and of what has ghost members."""
    told = [contract for found in of.found for contract in contracts_of(found)]
    return [contract for contract in told if contract.ghosts or contract.item.kind == "fn"]


def is_named(path, name):
    """Whether a path has the parts of a name in a row: a type's name matches all its members."""
    plain = path.partition(" as ")[0].split("::")
    parts = name.split("::")
    return any(plain[at : at + len(parts)] == parts for at in range(len(plain)))


def first_sentence(doc):
    """The first sentence of a doc comment."""
    paragraph = " ".join(doc.split("\n\n")[0].splitlines()).strip()
    return re.sub(r"\[(`[^`]*`)\]", r"\1", re.split(r"(?<=[.:!?])\s+(?=[A-Z`])", paragraph)[0])


# ---- printing


def source_of(contract):
    """The signature and the clauses as lines of source, each clause below its comment."""
    lines = contract.item.signature.splitlines() if contract.item.kind == "fn" or contract.ghosts else []
    for _, text, comment in contract.ghosts:
        lines += [f"    /// {line}" for line in comment.splitlines()]
        lines += [f"    {line}" for line in text.splitlines()]
    for clause in contract.item.clauses:
        lines += [f"    // {line}" for line in clause.comment.splitlines()]
        name = f" {clause.name}" if clause.name else ""
        lines += [f"    {line}" for line in f"{clause.kind}{name} {{ {clause.text} }}".splitlines()]
    return lines


def place_of(of, contract):
    """The file of a contract, relative to the folder that has the crates' folder, and its line."""
    return contract.item.file.relative_to(of.folder.parent.parent), contract.item.line


def as_text(of, contract):
    """A contract as plain text."""
    file, line = place_of(of, contract)
    said = first_sentence(contract.item.doc)
    lines = [f"{of.name}::{contract.path}", f"  {file}:{line}", *([f"  {said}"] if said else [])]
    return "\n".join([*lines, *(f"  {it}" for it in source_of(contract)), ""])


def as_markdown(of, contract):
    """A contract as Markdown."""
    file, line = place_of(of, contract)
    said = first_sentence(contract.item.doc)
    link = f"[{file}:{line}]({file}#L{line})"
    source = source_of(contract)
    block = ["", "```rust", *source, "```"] if source else []
    return "\n".join([f"### `{of.name}::{contract.path}`", "", f"{said} {link}".strip(), *block, ""])


def show(name, words, shape):
    """Prints the contracts of a crate, or those that the words name; returns whether there was one."""
    told = [it for it in all_of(crate(name)) if not words or any(is_named(it.path, word) for word in words)]
    for contract in told:
        print(shape(crate(name), contract))
    passed = [(path, of) for path, of in crate(name).passed_on if not words or any(is_named(path, word) for word in words)]
    for path, of in passed:
        print(f"{name}::{path} is {of}\n")
    return bool(told or passed)


def show_counts():
    """Prints for each crate how many public functions have clauses and how many have none."""
    print("with clauses, without, crate")
    for name in crate_names():
        functions = [it.item for it in all_of(crate(name)) if it.item.kind == "fn"]
        having = sum(bool(it.clauses) for it in functions)
        if functions:
            print(f"{having:5} {len(functions) - having:5} {name}")


# ---- the page


NAME = r"`([\w:]+)`"
FUNCTION = re.compile(rf"(?:law )?{NAME}(?: \(((?:`\w+`(?:, )?)+)\))?")
DEFINITION = re.compile(rf"(law )?{NAME}(?: \({NAME}\))?")
OF_CRATE = re.compile(rf"\s*{NAME}: ")
WORD = re.compile(r"`(\w+(?:(?:::|[./-])\w+)*)`")
DECLARING = r"\b(?:fn|struct|enum|trait|type|const|mod|ensures|requires|ghost) (\w+)"
DECLARED = re.compile(DECLARING + r"|^ +(?:pub )?([A-Za-z]\w*)\s*(?:[,({:=]|$)", re.M)


def unread(cell, pattern):
    """What is left of a cell without what the pattern matches and without separators."""
    return re.sub(r"[,;\s]|\band\b", "", pattern.sub("", cell))


def cited_functions(cell):
    """The functions that a cell cites, each as its crate, its name and its clauses; and the rest of the cell."""
    name, cited, besides = "", [], ""
    for part in cell.split(";"):
        found = OF_CRATE.match(part)
        name, rest = (found.group(1), part[found.end() :]) if found else (name, part)
        cited += [(name, function, re.findall(r"`(\w+)`", clauses)) for function, clauses in FUNCTION.findall(rest)]
        besides += unread(rest, FUNCTION)
    return cited, besides


def wrong_function(of, name, clauses):
    """What is wrong with a citation of a function of a crate and of these clauses, one fault per line."""
    if of is None:
        return [f"`{name}` is cited of no crate"]
    told = [it for found in of.found for it in contracts_of(found) if f"::{it.path.partition(' as ')[0]}".endswith(f"::{name}")]
    having = {clause.name for it in told for clause in it.item.clauses} | {ghost[0] for it in told for ghost in it.ghosts}
    if not told:
        return [f"`{of.name}` has no public `{name}`"]
    if not having:
        return [f"`{name}` of `{of.name}` has no clause"]
    return [f"`{name}` of `{of.name}` has no clause `{clause}`" for clause in clauses if clause not in having]


@functools.cache
def definitions_of(folder):
    """The names in the definitions of a crate, also those of constructors and fields."""
    names = set()
    for path in sorted((folder / "specs").glob("*.antt")):
        _, rows = definitions.index(path)
        names |= {name for before, beside, _ in rows for name in (*before, *beside)}
        names |= set(definitions.INSIDE.findall(path.read_text(encoding="utf-8")))
    return names


def wrong_definition(crates, is_law, name):
    """What is wrong with a citation of a definition or a law of one of these crates, one line or none."""
    crates = [of for of in crates if of]
    for of in crates:
        if is_law and not wrong_function(of, name, ()) or not is_law and name in definitions_of(of.folder):
            return []
    kind = "law" if is_law else "definition"
    return [f"{' and '.join(f'`{of.name}`' for of in crates) or 'no crate'} has no {kind} `{name}`"]


def wrong_row(cells, lookup):
    """What is wrong with the second and the third cell of a row, one fault per line."""
    cited, besides = cited_functions(cells[1])
    wrong = [line for name, function, clauses in cited for line in wrong_function(lookup(name), function, clauses)]
    crates = list(dict.fromkeys(lookup(name) for name, _, _ in cited))
    for is_law, name, own in DEFINITION.findall(cells[2]):
        wrong += wrong_definition([lookup(own)] if own else crates, is_law, name)
    besides += unread(cells[2], DEFINITION)
    return wrong + ([f"a row says `{besides}` where it cites"] if besides else [])


@functools.cache
def declared(top):
    """The names that the sources, the definitions and the tools in a folder declare, and the names of crates and tools."""
    names = {path.name for path in (top / "crates").glob("*")} | {path.name for path in (top / "tools").glob("*")}
    for path in (top / "crates").glob("*/src/**/*.rt"):
        names |= {name for both in DECLARED.findall(re.sub(r"//.*", "", path.read_text(encoding="utf-8"))) for name in both}
    for path in (top / "crates").glob("*"):
        names |= definitions_of(path)
        names |= {module.stem for module in (path / "specs").glob("*.antt")}
    for path in (top / "tools").glob("*.py"):
        names |= set(re.findall(r"^ *def (\w+)", path.read_text(encoding="utf-8"), re.M))
    return names


def wrong_in(text, lookup, top):
    """What the page cites and does not exist, one line each."""
    wrong, known = [], declared(top)
    for line in text.splitlines():
        cells = [cell.strip() for cell in line.strip("|").split(" | ")] if line.startswith("| ") else []
        if len(cells) == 3 and cells[1] != "Contract":
            wrong += wrong_row(cells, lookup)
        elif cells and len(cells) != 3:
            wrong.append(f"a row has {len(cells)} cells: {line[:60]}")
        words = WORD.findall(cells[0] if cells else line)
        wrong += [f"nothing is named `{word}`" for word in words if not set(re.split("::", word)) <= known and not (top / word).exists()]
    return wrong


# ---- commands


def check():
    """Prints what docs/PROOFS.md cites and does not exist, and how the samples differ. Returns the status."""
    wrong = wrong_in(PAGE.read_text(encoding="utf-8"), crate, TOP)
    for line in dict.fromkeys(wrong):
        print(f"contracts: docs/PROOFS.md: {line}")
    return selftest() or (1 if wrong else 0)


def differing(name, made):
    """The lines of the difference between an expected sample and what is made."""
    expected = (SAMPLES / name).read_text(encoding="utf-8").splitlines()
    return list(difflib.unified_diff(expected, made.splitlines(), name, "made", lineterm=""))


def selftest():
    """Prints how the expected samples differ from what is made. Returns the status."""
    with tempfile.TemporaryDirectory() as folder:
        top = Path(folder)
        for file in SAMPLES.glob("*/*.txt"):
            copy = top / "crates" / "sample" / file.relative_to(SAMPLES).with_suffix("")
            copy.parent.mkdir(parents=True, exist_ok=True)
            copy.write_text(file.read_text(encoding="utf-8"), encoding="utf-8")
        sample = Crate(top / "crates" / "sample")
        page = (SAMPLES / "page.md").read_text(encoding="utf-8")
        lines = differing("contracts.txt", "\n".join(as_text(sample, contract) for contract in all_of(sample)))
        lines += differing("contracts.md", "\n".join(as_markdown(sample, contract) for contract in all_of(sample)))
        lines += differing("wrong.txt", "\n".join(wrong_in(page, {"sample": sample}.get, top)))
    print("\n".join(lines), end="\n" if lines else "")
    return 1 if lines else 0


def main():
    """Runs the command that the arguments name. Returns the status."""
    signal.signal(signal.SIGPIPE, signal.SIG_DFL)
    show_help(__doc__)
    words = sys.argv[1:]
    if words in (["--check"], ["--selftest"]):
        return check() if words == ["--check"] else selftest()
    shape = as_markdown if "--markdown" in words else as_text
    words = [word for word in words if word != "--markdown"]
    names = crate_names() if words == ["--all"] else words[:1]
    if not words:
        show_counts()
    for name in names:
        if name not in crate_names():
            sys.exit(f"contracts: crates.txt has no crate {name}")
        if not show(name, words[1:], shape) and words != ["--all"]:
            sys.exit(f"contracts: {name} has no public contract of that name")
    return 0


if __name__ == "__main__":
    sys.exit(main())
