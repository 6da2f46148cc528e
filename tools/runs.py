#!/usr/bin/env python3
"""Makes the stories of runs in crates/run_stories/data from the model in runs_model.py.

They are `examples.txt`, the schedules of examples/, and `drawn.txt`, random schedules, with the results of each event and the messages.

    tools/runs.py --write               writes them
    tools/runs.py --check               names those that differ
    tools/runs.py --tell FIRST LAST     has the built `run_stories` play the random runs from one seed up to another, and reports where
                                        it differs from the model"""
import hashlib
import sys
from pathlib import Path

import stories
from ranged_model import parts_in, text_of
from runs_model import drawn, is_lawful, lines_of, schedules
from tellers.run import Teller
from toolbox import show_help
from wire_model import put

CRATES = Path(__file__).resolve().parent.parent / "crates"
DATA = CRATES / "run_stories" / "data"
# how many runs are drawn for the stories
DRAWN = 120
NOTATION = """\
# `nodes COUNT SLOTS` begins with so many nodes, which agree on values for so many slots, and `upload BYTES` numbers an
# upload, from 0 on: its bytes are hexadecimal, and a letter from `g` to `z` stands for one to twenty zero bytes. The events
# that follow have the words of schedules (docs/FORMATS.md): `put NODE UPLOAD` hands an upload in, `tick NODE LEFT` lets time
# go by, `deliver NODE NUMBER` brings the message of this number, `tickcut` and `delivercut` cut the node off before it sends,
# `restart NODE` starts it again; `get NODE TABLE VERSION`, `info NODE TABLE` and `outcome NODE UPLOAD` ask.
#
# `play` lets the events happen, and tells by their numbers what they gave, of an answer its length and its digest (MD5,
# RFC 1321). `messages` tells the bytes of each message that was sent, and `digest` how many there were and the digest of all
# of them; both tell whether they are lawful.""".splitlines()
# the letters for zero bytes: `g` is one, and each letter after it one more
MOST_ZEROS = 20


def md5(text):
    return hashlib.md5(text).hexdigest()


def message_text(said):
    """The bytes of a message."""
    return text_of(parts_in(said))


def spelled(text):
    """The bytes in hexadecimal, with a letter for zero bytes in a row."""
    out, place = [], 0
    while place < len(text):
        zeros = 0
        while place + zeros < len(text) and zeros < MOST_ZEROS and text[place + zeros] == 0:
            zeros += 1
        out.append(chr(ord("g") + zeros - 1) if zeros else f"{text[place]:02x}")
        place += zeros or 1
    return "".join(out)


def told_line(line):
    """The line of an event; an answer is shown by its length and digest."""
    place, word, *rest = line.split(" ")
    if word != "answer":
        return line
    text = bytes.fromhex(rest[0])
    return f"{place} answer of {len(text)} bytes, md5 {md5(text)}"


def begun(run):
    return [f"nodes {run.members} {run.slot_limit}", *(f"upload {spelled(it.text)}" for it in run.uploads)]


def happened(events):
    return [" ".join(str(it) for it in event) for event in events]


def played(lines):
    return ["play", *("  " + told_line(it) for it in lines)]


def judged(run):
    return ["  lawful" if is_lawful(run) else "  unlawful"]


def messages(run):
    return ["messages", *(f"  {number} {message_text(it).hex()}" for number, it in enumerate(run.sent)), *judged(run)]


def digest(run):
    return ["digest", f"  messages {len(run.sent)}, md5 {md5(b''.join(message_text(it) for it in run.sent))}", *judged(run)]


def examples():
    lines = ["# The schedules of examples/, with each message that is sent. Made by tools/runs.py, and not by hand.", "#", *NOTATION]
    for file, schedule in schedules():
        run, told = lines_of(schedule)
        lines += ["", *(f"# {it}" for it in schedule.get("note", [file.stem]))]
        lines += [*begun(run), *happened(schedule["events"]), *played(told), *messages(run)]
    return "\n".join(lines) + "\n"


def drawn_runs(seeds):
    lines = ["# Drawn runs, in which messages are lost, late and repeated, and nodes go down and start again. The notation is that of",
             "# examples.txt. Made by tools/runs.py, and not by hand."]
    for seed in seeds:
        run = drawn(seed)
        told = [f"{place} {' '.join(str(it) for it in gave)}" for place, (_, gave) in enumerate(run.steps)]
        lines += ["", *begun(run), *happened(event for event, _ in run.steps), *played(told), *digest(run)]
    return "\n".join(lines) + "\n"


def tell(first, last):
    """Whether a program is missing or differs from the model in these random runs."""
    text, built = drawn_runs(range(first, last)), stories.programs("run_stories")
    return not built or any(stories.differs(it.name, stories.told(it, Teller(), text), text) for it in built)


def main():
    if "--tell" in sys.argv[1:]:
        return tell(*map(int, sys.argv[2:]))
    checks = "--write" not in sys.argv[1:]
    return put(DATA, {"examples.txt": examples(), "drawn.txt": drawn_runs(range(DRAWN))}, checks)


if __name__ == "__main__":
    show_help(__doc__)
    sys.exit(main())
