"""Preloads a library into programs that refuses one of their requests for memory or a thread, and chooses which requests are refused: what
refusals.py and refused_program.py share."""
import os
import random
import struct
import subprocess
from pathlib import Path

TOP = Path(__file__).resolve().parent.parent
SOURCE = TOP / "tools" / "refused.c"
SEED = 20261128
# The places that are refused are in so many parts, and TURN is the part whose turn it is.
PARTS, TURN = 4, "turn"


class Refusing:
    """The library that is preloaded into a program, and the file to which it reports."""

    def __init__(self, program, folder):
        self.program, self.folder = program, Path(folder)
        self.library, self.told = self.folder / "refused.so", self.folder / "told"
        if not self.library.exists():
            subprocess.run(["cc", "-O2", "-shared", "-fPIC", "-o", self.library, SOURCE], check=True)
        self.told.write_bytes(bytes(16))

    def start(self, words, at, cwd=None, **more):
        """Starts a process whose request of this number is refused, with more variables in its environment."""
        there = {**os.environ, "LD_PRELOAD": str(self.library), "REFUSED_TOLD": str(self.told), "REFUSED_AT": str(at), **more}
        called = [self.program, *map(str, words)]
        how = {"stdout": subprocess.PIPE, "stderr": subprocess.PIPE, "text": True, "errors": "replace"}
        return subprocess.Popen(called, **how, env=there, cwd=cwd)

    def seen(self):
        """How many requests there were, and whether one was refused."""
        return struct.unpack("<QQ", self.told.read_bytes())


# ---- the requests that are refused


def places_of(count, first, drawn, part=None):
    """Which of `count` requests are refused, by their numbers from 1: each of the first ones, and so many of the others, drawn by SEED. A
    part has every fourth of these."""
    others = range(first + 1, count + 1)
    found = [*range(1, min(first, count) + 1), *sorted(random.Random(SEED).sample(others, min(drawn, len(others))))]
    return found if part is None else found[part::PARTS]


def said_by_git(*words):
    """What git prints for these words, or nothing if it fails or is not there."""
    try:
        return subprocess.run(["git", *words], cwd=TOP, capture_output=True, text=True, check=True).stdout.strip()
    except (OSError, subprocess.CalledProcessError):
        return ""


def part_in_turn():
    """The part whose turn it is: the number of commits modulo PARTS. In a shallow clone, which doesn't have that number, it is the commit's
    id modulo PARTS; without git it is part 0."""
    if said_by_git("rev-parse", "--is-shallow-repository") == "true":
        return int(said_by_git("rev-parse", "HEAD") or "0", 16) % PARTS
    return int(said_by_git("rev-list", "--count", "HEAD") or "0") % PARTS


def add_part(parser):
    """The argument --part of a tool."""
    parser.add_argument("--part", metavar="K", choices=[*map(str, range(PARTS)), TURN])


def part_of(word, called):
    """The part that the argument --part names, or None if all places are refused; prints which one it is, and how to try it again."""
    if word is None:
        return None
    part = part_in_turn() if word == TURN else int(word)
    print(f"part {part} of 0 to {PARTS - 1}, every fourth place: {called} --part {part}", flush=True)
    return part
