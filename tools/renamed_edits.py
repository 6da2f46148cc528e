#!/usr/bin/env python3
"""Keeps the lines of edits of crates in which only names have changed since a commit.

    tools/renamed_edits.py COMMIT [OLD=NEW ..]

A line of `edits-refused.txt` has a checksum of the sources and definitions of its crate that refused an edit (tools/edits.py). If a crate
differs from the one of the commit only in names, a refusal there is a refusal here, and the line gets the present checksum. A crate that
has been renamed since is given as OLD=NEW.

A crate differs only in names if its files can be paired so that each name of the commit is one name now, and the other way round, in all
files and in the edit: each word is compared in its place, without comments, line breaks, and the commas that these bring. Names of code
are one such pairing, and those of definitions and clauses another, since a type and its definition may have one name. Imports are
compared without order and path, by the names that the crate uses for what they bring in; a crate may make more names public than before.
It prints how many lines were kept, and which crates differ in more than names, each with the first word that does."""
import re
import subprocess
import sys
import tempfile
from pathlib import Path

import edits
from toolbox import show_help

# An import of code, of a clause, and of a file of definitions; and a module of the crate.
IMPORT = re.compile(r"^[ \t]*(?:ghost )?use [^;]*;", re.M)
PASSED_ON = re.compile(r"^[ \t]*pub(?:\([a-z ]+\))? use [^;]*;|^(?:#\[cfg\(test\)\]\n)?(?:pub )?mod \w+;", re.M)
IMPORT_OF_DEFINITIONS = re.compile(r"^(?:pub )?use .*$|^pub mod .*$", re.M)
BROUGHT = re.compile(r"([^\s,{}]+)(?: as ([^\s,{}]+))?")
WORD = re.compile(r"\w+|[^\w\s]")
CLAUSE = re.compile(r"\b(?:ensures|requires|ghost)\b[^{;]*\{")


def brought_in(item):
    """The names that an import brings in, each as the crate calls it."""
    listed = re.search(r"\{(.*)\}", item, re.S)
    words = listed[1] if listed else item.rstrip(";").rpartition("use ")[2]
    return [re.split(r"::|\.", alias or name)[-1] for name, alias in BROUGHT.findall(words)]


def end_of(text, start):
    """The end of the block whose opening brace is before this place."""
    depth = 1
    while depth and start < len(text):
        depth += {"{": 1, "}": -1}.get(text[start], 0)
        start += 1
    return start


def parts_of(text):
    """The words of a source file, each with whether it is in a clause."""
    place = 0
    while found := CLAUSE.search(text, place):
        yield from ((word, False) for word in WORD.findall(text[place:found.start()]))
        place = end_of(text, found.end())
        yield from ((word, True) for word in WORD.findall(text[found.start():place]))
    yield from ((word, False) for word in WORD.findall(text[place:]))


def words_of(path, text):
    """The words of a file without its imports, each with whether it is of definitions or clauses; and the imports."""
    if path.endswith(".antt"):
        imports = IMPORT_OF_DEFINITIONS.findall(text)
        return [(word, True) for word in WORD.findall(IMPORT_OF_DEFINITIONS.sub("", text))], imports
    imports = IMPORT.findall(text)
    code = re.sub(r",(?=\s*[)\]}>])", "", PASSED_ON.sub("", IMPORT.sub("", text)))
    return list(parts_of(code)), imports


def files_of(crate):
    """The files of a crate's sources and definitions without comments, by their paths."""
    parts = [part.partition("\n") for part in edits.code_of(crate).split("\0")]
    return {path: words_of(path, text) for path, _, text in parts}


class Renaming:
    """Which old name is which new name, in code and in definitions."""

    def __init__(self):
        self.new, self.old = {}, {}

    def fits(self, old, new):
        """Whether the new name may be the old one renamed. If neither had a partner yet, they are partners from here on."""
        (one, of_definitions), (other, is_too) = old, new
        if of_definitions != is_too or not re.match(r"\w", one):
            return old == new
        return self.new.setdefault(old, other) == other and self.old.setdefault(new, one) == one

    def misfit(self, old, new):
        """The first two words that do not fit, or None."""
        found = next(((one[0], other[0]) for one, other in zip(old, new) if not self.fits(one, other)), None)
        return found or (None if len(old) == len(new) else ("the end of one", "more of the other"))

    def names_now(self, names):
        """The present names for these names of imports, in either of the two pairings."""
        return {self.new.get((name, kind), name) for name in names for kind in (False, True)}


def pairs(old, new):
    """Pairs of old and new files: those with the same path, and of the others those with the same length. None if a file is left."""
    found = [(old[path], new[path]) for path in sorted(old) if path in new]
    left = [words for path, words in sorted(new.items()) if path not in old]
    for path, words in sorted(old.items()):
        if path not in new:
            same = next((it for it in left if len(it[0]) == len(words[0])), None)
            if same is None:
                return None
            left.remove(same)
            found.append((words, same))
    return None if left else found


def renaming_of(old, new):
    """The renaming that turns the old files into the new ones, or the first words that differ."""
    renaming, paired = Renaming(), pairs(old, new)
    if paired is None:
        return None, ("its files", "others")
    for (code, _), (now, _) in paired:
        if wrong := renaming.misfit(code, now):
            return None, wrong
    for (_, before), (_, now) in paired:
        names = {name for item in before for name in brought_in(item)}
        found = {name for item in now if not item.startswith("pub ") for name in brought_in(item)}
        if strangers := found - renaming.names_now(names):
            return None, ("no import", " ".join(sorted(strangers)))
    return renaming, None


def words_of_edit(edit):
    """The words of an edit, without the path of its file, each with whether it is of definitions or clauses."""
    found = []
    for file, old, new in edits.changes(edit):
        texts = [re.sub(r",(?=\s*[)\]}>])", "", text) for text in (old, new)]
        found += [word for text in texts for word in ([(it, True) for it in WORD.findall(text)] if file.endswith(".antt") else parts_of(text))]
    return found


def state_of(top, crate):
    """The files, the edits and their checksums of a crate in a checkout."""
    before, edits.TOP = edits.TOP, top
    try:
        found = {edit.stem: words_of_edit(edit) for edit in edits.edits_of(crate)}
        return files_of(crate), found, edits.checksums([crate])
    finally:
        edits.TOP = before


def kept_of(commit, old, new):
    """The lines of a crate's edits that are kept, and the first words that differ."""
    was, edits_then, sums_then = state_of(commit, old)
    now, edits_now, sums_now = state_of(edits.TOP, new)
    renaming, wrong = renaming_of(was, now)
    if renaming is None:
        return {}, wrong
    lines, kept = edits.refused_lines(), {}
    for name, words in edits_now.items():
        line = lines.get(f"{new}/{name}", lines.get(f"{old}/{name}"))
        refused_then = line is not None and line == sums_then.get(f"{old}/{name}")
        if refused_then and name in edits_then and renaming.misfit(edits_then[name], words) is None:
            kept[f"{new}/{name}"] = sums_now[f"{new}/{name}"]
    return kept, None


def main():
    if len(sys.argv) < 2:
        sys.exit(__doc__)
    names = {new: old for old, _, new in (word.partition("=") for word in sys.argv[2:])}
    stale = sorted({edit.parent.parent.name for edit in edits.old_edits(edits.crates_with_edits())})
    count = 0
    with tempfile.TemporaryDirectory() as scratch:
        archive = subprocess.run(["git", "archive", sys.argv[1], "crates"], cwd=edits.TOP, capture_output=True, check=True).stdout
        subprocess.run(["tar", "x", "-C", scratch], input=archive, check=True)
        for crate in stale:
            old = names.get(crate, crate)
            if not (Path(scratch) / "crates" / old).is_dir():
                print(f"renamed_edits: {crate} was not there")
                continue
            kept, wrong = kept_of(Path(scratch), old, crate)
            edits.keep_lines(kept)
            count += len(kept)
            if wrong:
                print(f"renamed_edits: {crate} is not the same: {wrong[0]}, now {wrong[1]}")
    print(f"renamed_edits: {count} lines kept")
    return 0


if __name__ == "__main__":
    show_help(__doc__)
    sys.exit(main())
