#!/usr/bin/env python3
"""Draws events at a node's worker, and computes from the whole list of them when a tick is due and how many free slots it leaves.

The result is crates/worker_conformance/src/pace_rows.rt.

    tools/paces.py --write      writes it
    tools/paces.py --check      reports whether it differs

A row is a list of words. After each is what follows from all words up to it: whether a tick is due if no upload waits, whether
one is due if one waits (0 or 1), and how many free slots a tick leaves. The words are about node 1 of three:
pN no message came for N milliseconds; a an event of the node that is no tick, no delivery and no answer; t a tick that sent
nothing; q a tick that sent an Ask; bRS a tick that sent a Prepare of round R for slot S; cNX a message of node N came, where X
is k for an Ask, rRS for a Promise and nRS for a Nack of the ballot of round R of node 1 for slot S, yRS for an Accepted at it,
and dS for a Decided of slot S."""
import random
import sys
from pathlib import Path

from toolbox import show_help

ROWS = Path(__file__).resolve().parent.parent / "crates" / "worker_conformance" / "src" / "pace_rows.rt"
ME, MEMBERS, COUNT, LENGTH = 1, 3, 64, 14
HEAD = """//! What may come to pass at a worker, and when a tick is due: rows that `tools/paces.py` draws.

/// A row a line: each word and, behind it, whether a tick is due without an upload that waits and with one, and what it leaves.
pub(crate) const ROWS: &str = "\\
"""


def is_message(word):
    return word[0] == "c"


def is_tick(word):
    return word[0] in "tqb"


def quiet(words):
    """For how long no message and no tick has come."""
    time = 0
    for word in reversed(words):
        if is_message(word) or is_tick(word):
            break
        time += int(word[1:]) if word[0] == "p" else 0
    return time


def behind(words, kinds):
    """The words behind the last one that is an event of the node, or a message of one of these kinds."""
    places = [place for place, word in enumerate(words) if word[0] == "a" or (is_message(word) and word[2] in kinds)]
    return words[places[-1] + 1 :] if places else words


def asked(words):
    """How many Asks its ticks sent since the last event of the node, Accepted or Decided."""
    return behind(words, "yd").count("q")


def tried(words):
    """How many attempts its ticks began since then, or since the last Ask that came."""
    return sum(word[0] == "b" for word in behind(words, "ydk"))


def wait(words):
    """How long it waits: 50 ms, doubled by each Ask, or by each attempt, whichever makes it longer; at most 51,200 ms."""
    return min(50 * 2 ** max(asked(words), tried(words)), 51200)


def attempt(words):
    """The round and the slot of the latest attempt, and the messages that came since it began."""
    begun = [place for place, word in enumerate(words) if word[0] == "b"]
    if not begun:
        return None
    return words[begun[-1]][1:], [word for word in words[begun[-1] :] if is_message(word)]


def is_open(attempted, messages):
    """Whether no node refused it, nothing was decided for its slot, and no majority accepted it."""
    said = [word[2:] for word in messages]
    accepted = {word[1] for word in messages if word[2:] == "y" + attempted and int(word[1]) < MEMBERS}
    return "n" + attempted not in said and "d" + attempted[1] not in said and 2 * len(accepted) <= MEMBERS


def is_lost(attempted, messages):
    """Whether a refusal came while it was open."""
    refusals = [place for place, word in enumerate(messages) if word[2:] == "n" + attempted]
    return any(is_open(attempted, messages[:place]) for place in refusals)


def told(words):
    """Whether a tick is due if no upload waits and if one does, and how many free slots it leaves."""
    latest = attempt(words)
    long_enough = quiet(words) >= wait(words)
    at_once = (latest is None or not is_open(*latest)) and tried(words) == 0
    left = ME if latest and is_lost(*latest) else 0
    return f"{int(long_enough)}{int(long_enough or at_once)}{left}"


def word(draw):
    kind = draw.choice("ppppaqqqqtbbcccccccccc")
    of = f"{draw.choice('1112')}{draw.choice('001')}"
    if kind == "p":
        return f"p{draw.choice((0, 1, 49, 50, 50, 99, 100, 200, 700, 51199, 51200, 99999))}"
    if kind == "b":
        return f"b{of}"
    if kind == "c":
        said = draw.choice("kkrnnyyyyyd")
        return f"c{draw.choice('00223')}{said}{ {'k': '', 'd': of[1]}.get(said, of)}"
    return kind


def rows():
    draw = random.Random(1)
    for row in range(COUNT):
        words = [f"b{'10'}"] if row % 3 == 0 else ["q"] * 4 if row % 3 == 1 else []
        while len(words) < LENGTH:
            words.append(word(draw))
        yield [f"{it}={told(words[: place + 1])}" for place, it in enumerate(words)]
    # the longest wait, step by step, behind Asks and behind attempts
    for tick in ("q", "b10"):
        words = []
        for ticks in range(13):
            time = min(50 * 2**ticks, 51200)
            words += [f"p{time - 1}", "p1", tick]
        yield [f"{it}={told(words[: place + 1])}" for place, it in enumerate(words)]


def text():
    lines = []
    for row in rows():
        line = ""
        for it in row:
            if len(line) + len(it) > 110:
                lines.append(f"{line} \\")
                line = ""
            line += f" {it}" if line else it
        lines.append(f"{line}\\n\\")
    return HEAD + "\n".join(lines) + '\n";\n'


def main(words):
    if words == ["--write"]:
        ROWS.write_text(text(), encoding="utf-8")
        return 0
    if words != ["--check"]:
        print(__doc__)
        return 2
    if not ROWS.exists() or ROWS.read_text(encoding="utf-8") != text():
        print("paces: the rows differ: tools/paces.py --write makes them")
        return 1
    return 0


if __name__ == "__main__":
    show_help(__doc__)
    sys.exit(main(sys.argv[1:]))
