#!/usr/bin/env python3
"""Writes the table of crates in docs/ARCHITECTURE.md: each layer of crates.txt with its crates, and what each crate is.

The table is between the two comments that mark its place. A crate's text is the first paragraph of its `src/lib.rt` or `src/main.rt`.

    tools/architecture.py [--check]

With --check it changes nothing. It checks that the table is up to date, that each crate of crates.txt comes before those that use it
and is under the heading of a layer, and that at most MOST_PATHS paths lead down from crates to those that they use. The status is 1 if
one of these checks fails."""
import re
import sys
from pathlib import Path

from toolbox import show_help

TOP = Path(__file__).resolve().parent.parent
PAGE = TOP / "docs" / "ARCHITECTURE.md"
FIRST = "<!-- The table below is made by tools/architecture.py. -->"
LAST = "<!-- The table above is made by tools/architecture.py. -->"
# The gate reads the sources of a crate once for each path to it from each library above, and again once that library is proved.
MOST_PATHS = 150_000
HEADING = re.compile(r"# (?:Layer (\w+), (.*)|(Tests and benches))$")


def layers():
    """The layers of crates.txt: the heading of each, and its crates with those that they use."""
    found = [("", {})]
    for line in (TOP / "crates.txt").read_text(encoding="utf-8").splitlines():
        heading, row = HEADING.match(line), line.partition("#")[0]
        if heading:
            layer, what, last = heading.groups()
            found.append((last or f"`{layer}`: {what}", {}))
        elif ":" in row:
            crate, _, uses = row.partition(":")
            found[-1][1][crate.split()[0]] = uses.split()
    return found


def first_paragraph(crate):
    """The doc comment at the top of a crate's root file, up to the first empty line."""
    sources = TOP / "crates" / crate / "src"
    root = next(file for name in ("lib.rt", "main.rt") if (file := sources / name).is_file())
    words = []
    for line in root.read_text(encoding="utf-8").splitlines():
        said = line.removeprefix("//!").strip()
        if not line.startswith("//!") or not said:
            break
        words.append(said)
    return re.sub(r"\[(`[^`]*`)\]", r"\1", " ".join(words)).replace("|", "\\|")


def table(found):
    """The lines of the table, a part for each layer."""
    lines = []
    for heading, crates in found:
        if not heading:
            continue
        lines += ["", f"### {heading[0].upper()}{heading[1:]}"]
        if crates:
            lines += ["", "| Crate | What it is |", "|---|---|"]
        lines += [f"| `{crate}` | {first_paragraph(crate)} |" for crate in crates]
    return lines


def with_table(text, lines):
    """The page with this table between the two comments."""
    head, first, rest = text.partition(FIRST)
    _, last, tail = rest.partition(LAST)
    if not first or not last:
        sys.exit(f"architecture: {PAGE} has no place for the table")
    return head + "\n".join([FIRST, *lines, "", LAST]) + tail


def out_of_order(found):
    """The faults in the order of crates.txt, one per line."""
    places = {crate: place for place, crate in enumerate(crate for _, crates in found for crate in crates)}
    wrong = [f"crates.txt: {crate} is under no layer" for crate in found[0][1]]
    for _, crates in found:
        for crate, uses in crates.items():
            above = [used for used in uses if places.get(used, -1) >= places[crate]]
            wrong += [f"crates.txt: {crate} uses {used}, whose line comes later" for used in above]
    return wrong


def too_many_paths(found):
    """A line if too many paths lead down from libraries to the crates that they use; a library by itself counts as one path."""
    paths, libraries = {}, set()
    for _, crates in found:
        for crate, uses in crates.items():
            paths[crate] = 1 + sum(paths.get(used, 0) for used in uses)
            libraries.update(used for used in uses if used in paths)
    total = sum(paths[crate] for crate in libraries)
    return [f"crates.txt has {total:,} paths, more than {MOST_PATHS:,}: list a crate that passes others on"] if total > MOST_PATHS else []


def main():
    found = layers()
    text = PAGE.read_text(encoding="utf-8")
    made = with_table(text, table(found))
    if sys.argv[1:] != ["--check"]:
        PAGE.write_text(made, encoding="utf-8")
        return 0
    wrong = out_of_order(found) + too_many_paths(found)
    if text != made:
        wrong.append("docs/ARCHITECTURE.md does not have the table that tools/architecture.py makes")
    for line in wrong:
        print(f"architecture: {line}")
    return 1 if wrong else 0


if __name__ == "__main__":
    show_help(__doc__)
    sys.exit(main())
