#!/usr/bin/env python3
"""Prints the definitions of a crate: each module of its `specs/` with its head comment, and each name with the comment above it.

Names in brackets belong to the name before them, and have no comment of their own.

    tools/definitions.py                    each crate that has definitions, with their number
    tools/definitions.py CRATE [WORD ..]    those of a crate: all, or those with one of the words in their names or comments
    tools/definitions.py --check            checks that what docs/DEFINITIONS.md cites exists

The page cites a name as `NAME` (`CRATE`), several of one crate as `NAME`, `OTHER` (`CRATE`), and in a table as
| `NAME` | `CRATE`, `MODULE` |. Each must be defined in the crate's `specs/`, in that module if one is named, also as a
constructor or a field; after the word `law`, `type` or `function` it must be in the crate's `src/`. With --check it prints
each that is not, and each other word of the page in backticks that is cited with no crate, and the status is then 1."""
import re
import sys
from pathlib import Path

from toolbox import show_help

TOP = Path(__file__).resolve().parent.parent
PAGE = TOP / "docs" / "DEFINITIONS.md"
DEFINED = re.compile(r"^\s*(?:(?:abbrev|unfoldable)\s+)?pub (?:record |data )?([^\s:(]+)")
OWN_LINE = re.compile(r"^(?:(?:abbrev|unfoldable) )?pub |^(?:abbrev )?mutual$")
PASSED_ON = re.compile(r"^pub use Rattle\.(\w+)\.specs\.[\w.]+\.\{([^}]*)\}")
INSIDE = re.compile(r"^ +(?:abbrev )?(?:pub )?(?:record |data )?([A-Za-z]\w*)(?: \([^)]*\))* :", re.M)
NAMES = r"(`\w+`(?:(?:, | and )`\w+`)*)"
CITED = re.compile(rf"(?:\b(laws?|types?|functions?) )?{NAMES}(?: \(| \| )`(\w+)`(?:, `(\w+)`)?")
IN_SOURCES = r"\bpub (?:fn|enum|struct|trait) {}\b"


# ---- the index


def names_of(lines, at):
    """The names that the line at this place defines: one, or those inside a `mutual`, each with the comment above it there."""
    if not lines[at].rstrip().endswith("mutual"):
        found = DEFINED.match(lines[at])
        return [(found.group(1), "")] if found else []
    names, comment = [], []
    for line in lines[at + 1 :]:
        if line and not line.startswith(" "):
            break
        found = re.match(r"^  (?:abbrev |unfoldable )?pub (?:record |data )?([^\s:(]+)", line)
        if found:
            names.append((found.group(1), " ".join(comment)))
        comment = [*comment, line.strip().removeprefix("--").strip()] if line.startswith("  --") else []
    return names


def put_rows(rows, names, said, title):
    """Adds rows: the names that a comment is for, those beside them that have none, and the comment. Names without a comment
    of their own get the title of their section if no others come before them in it."""
    if said:
        rows.append([[name for name, _ in names], [], said])
        return
    for name, own in names:
        if own:
            rows.append([[name], [], own])
        elif title and rows and rows[-1][2] == title:
            rows[-1][0].append(name)
        elif title or not rows:
            rows.append([[name], [], title])
        else:
            rows[-1][1 if rows[-1][2] else 0].append(name)
        title = title if not own else ""


def index(path):
    """The head comment of a module, and its rows: first the names that it re-exports from other crates."""
    lines = path.read_text(encoding="utf-8").splitlines()
    head, at = [], 0
    while at < len(lines) and lines[at].startswith("--"):
        head.append(lines[at].removeprefix("--").strip())
        at += 1
    passed, rows, comment, title, goes_on = [], [], [], "", False
    while at < len(lines):
        line = lines[at]
        in_title, goes_on = goes_on, False
        passed_on = PASSED_ON.match(line)
        if line.startswith("-- ----") or (in_title and line.startswith("--")):
            words = line.removeprefix("-- ----").removeprefix("--").strip()
            title, comment, goes_on = f"{title} {words}" if in_title else words, [], True
        elif line.startswith("--"):
            comment.append(line.removeprefix("--").strip())
        elif passed_on:
            passed.append([re.split(", *", passed_on.group(2)), [], f"of `{passed_on.group(1)}`"])
            comment = []
        elif OWN_LINE.match(line):
            names = names_of(lines, at)
            put_rows(rows, names, " ".join(comment), title)
            title = "" if comment or any(own for _, own in names) else title
            comment = []
        elif not line.strip():
            comment = comment if at + 1 < len(lines) and OWN_LINE.match(lines[at + 1]) else []
        at += 1
    return " ".join(head), [row for row in [*passed, *rows] if row[0]]


def crates():
    """The crates that have definitions, in the order of crates.txt."""
    lines = (TOP / "crates.txt").read_text(encoding="utf-8").splitlines()
    names = [line.split(":")[0].split()[0] for line in lines if ":" in line.partition("#")[0]]
    return [name for name in names if (TOP / "crates" / name / "specs" / "Lib.antt").is_file()]


def modules(crate):
    """The modules of a crate's definitions, in the order of its list, each with its file."""
    specs = TOP / "crates" / crate / "specs"
    for line in (specs / "Lib.antt").read_text(encoding="utf-8").splitlines():
        name = line.removeprefix("pub mod ").strip()
        path = specs / f"{name}.antt"
        if line.startswith("pub mod ") and path.is_file():
            yield name, path


def count(crate):
    """How many names a crate defines."""
    rows = [row for _, path in modules(crate) for row in index(path)[1] if not row[2].startswith("of `")]
    return sum(len(names) + len(beside) for names, beside, _ in rows)


def listed(names):
    return ", ".join(f"`{name}`" for name in names)


def lines_of(rows):
    """A line for each row."""
    for names, beside, said in rows:
        more = f" ({listed(beside)})" if beside else ""
        yield f"- {listed(names)}{more}{': ' + said if said else ''}"


def show(crate, words):
    """Prints the index of a crate, or its lines that have one of these words."""
    for name, path in modules(crate):
        head, rows = index(path)
        lines = [line for line in lines_of(rows) if not words or any(word.lower() in line.lower() for word in words)]
        if lines or not words:
            print("\n".join([f"{name}: {head}", *lines, ""]))


# ---- the page


def is_defined(name, crate, module):
    """Whether the definitions of a crate have this name, in this module if one is named."""
    for found, path in modules(crate):
        if module in (None, found):
            _, rows = index(path)
            inside = INSIDE.findall(path.read_text(encoding="utf-8"))
            if name in inside or any(name in names or name in beside for names, beside, _ in rows):
                return True
    return False


def is_in_sources(name, crate):
    """Whether the sources of a crate have a public function or type of this name."""
    sources = (TOP / "crates" / crate / "src").rglob("*.rt")
    return any(re.search(IN_SOURCES.format(re.escape(name)), file.read_text(encoding="utf-8")) for file in sources)


def wrong_in(text):
    """What the page cites and does not exist, and words in backticks that are cited with no crate, one line each."""
    all_crates, cited, wrong = crates(), set(), []
    for word, names, crate, module in CITED.findall(text):
        for name in re.findall(r"`(\w+)`", names):
            cited |= {name, crate, module}
            if crate not in all_crates:
                wrong.append(f"`{name}`: there is no crate `{crate}` with definitions")
            elif not (is_in_sources(name, crate) if word else is_defined(name, crate, module or None)):
                wrong.append(f"`{name}` is not in {crate}{' ' + module if module else ''}")
    others = {word for word in re.findall(r"`(\w+)`", text) if word not in cited and word not in all_crates}
    return wrong + [f"`{word}` is cited with no crate" for word in sorted(others)]


def main():
    words = sys.argv[1:]
    if words == ["--check"]:
        wrong = wrong_in(PAGE.read_text(encoding="utf-8"))
        for line in wrong:
            print(f"definitions: docs/DEFINITIONS.md: {line}")
        return 1 if wrong else 0
    if words and words[0] not in crates():
        sys.exit(f"definitions: crates.txt has no crate {words[0]} with definitions")
    if words:
        show(words[0], words[1:])
    else:
        for crate in crates():
            print(f"{count(crate):5} {crate}")
    return 0


if __name__ == "__main__":
    show_help(__doc__)
    sys.exit(main())
