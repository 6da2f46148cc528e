#!/usr/bin/env python3
"""Makes the expected results of the inputs that tools/fuzz.py has kept, from the models.

They are rows of stories in `reached.txt` of the crates named .._stories, and files and conversations in tools/program/reached.txt.

    tools/reached.py --check     names the files that differ
    tools/reached.py --write     writes them anew

`TOLD` has for each crate a class that makes a row of a command: the command, and the lines under it. If a text has several faults, of which a
reader may report any, the command begins with `one-of` and names them, as in all stories. A class raises LookupError for a command that asks
for what does not exist, and Unjudged if its model does not judge the result."""
import functools
import sys
from pathlib import Path

import batches
import calls
import headers_model
import tables
from calls_model import Unjudged
from files_model import COMMANDS, MOST_SLOTS, audit
from paxos_model import told_message, told_record
from runs import digest, told_line
from runs_model import Run, Upload
from tables_model import upload_of
from tellers.wire import MESSAGES
from toolbox import show_help
from wire_model import Faults, told, told_as, told_fields, told_frames, told_front

TOP = Path(__file__).resolve().parent.parent
PROGRAM_ROWS = TOP / "tools" / "program" / "reached.txt"
# A batch of more rows, or a column of more values, is not judged: that takes long, and its result is long too.
MOST_VALUES = 4096


def plain(command):
    """The command without the list of faults of which one is reported."""
    return command.rpartition(": ")[2] if command.startswith("one-of ") else command


def row_of(lines):
    return lines[0], [it.removeprefix("  ") for it in lines[1:]]


class Texts:
    """Texts that are read independently of earlier commands: `calls` has for each command the function that returns its result."""

    calls = {}

    def row(self, command):
        name, _, digits = plain(command).partition(" ")
        return row_of(told(name, self.calls[name], batches.bytes_of(digits)))


class Wire(Texts):
    calls = {"fields": told_fields, "front": told_front, **{name: told_as(table) for name, table in MESSAGES.items()}}

    def row(self, command):
        name, _, digits = plain(command).partition(" ")
        return (command, told_frames(bytes.fromhex(digits))) if name == "frames" else super().row(command)


class Paxos(Texts):
    calls = {"decode": told_message, "decode-record": told_record}

    def row(self, command):
        name, _, digits = command.partition(" ")
        return (command, self.audited(bytes.fromhex(digits))) if name == "audited" else super().row(command)

    @staticmethod
    def audited(file):
        _, output, said = audit(file, True)
        if len(said) > 1:
            raise Unjudged(file)
        return [*output.splitlines(), *said[0].splitlines()]


class Headers(Texts):
    calls = {"header": lambda text: headers_model.shown(headers_model.header_of(text))}

    def row(self, command):
        name, _, digits = command.partition(" ")
        return (command, self.respelled(digits)) if name == "respelled" else super().row(command)

    @staticmethod
    def respelled(digits):
        text = batches.bytes_of(digits)
        try:
            written = headers_model.written(headers_model.header_of(text))
        except Faults:
            written = None
        if written is None:
            raise LookupError(digits)
        return ["the same bytes" if written == text.hex() else written]


class Batches:
    def __init__(self):
        self.types = []

    def row(self, command):
        if command.startswith("schema"):
            self.types = list(map(batches.type_of, command.split()[1:]))
            return command, batches.schema_told(self.types)
        head, body = batches.batch_of(command)
        if any(it > MOST_VALUES for it in (head.length, *(length for length, _ in head.nodes))):
            raise Unjudged(command)
        return command, batches.batch_told(self.types, head, body)


class Tables(tables.Story):
    def row(self, command):
        word, *names = command.split(" ")
        if word == "outcome" and not all(tables.known(self.named[it]) for it in names):
            raise LookupError(command)
        return command, self.tell(command)


class Calls(calls.Story):
    def row(self, command):
        return command, self.tell(command)


class Runs:
    """Nodes, uploads and events; the events happen when they are played."""

    def __init__(self):
        self.nodes, self.uploads, self.events = (1, 1), [], []

    def row(self, command):
        word, *rest = command.split(" ")
        if word == "nodes":
            self.nodes, self.uploads, self.events = tuple(map(int, rest)), [], []
        elif word == "upload":
            self.uploads.append(self.upload(batches.bytes_of(rest[0])))
        elif word in ("play", "digest") and not 1 <= self.nodes[1] <= MOST_SLOTS:
            return command, ["BadConfig"]
        elif word == "play":
            return command, [told_line(f"{place} {line}") for place, line in enumerate(self.played()[1])]
        elif word == "digest":
            return command, [it.removeprefix("  ") for it in digest(self.played()[0])[1:]]
        elif word in ("put", "outcome") and int(rest[1]) >= len(self.uploads):
            raise LookupError(command)
        else:
            self.events.append([word, *(int(it) if it.isdigit() else it for it in rest)])
        return command, []

    @staticmethod
    @functools.cache
    def upload(text):
        """The upload of one column of Int8 that the bytes encode."""
        found = upload_of(text)
        if found is None or len(found.schema["fields"]) != 1:
            raise LookupError(text)
        batches_in = [[None if it is None else int.from_bytes(it, "little", signed=True) for it in cells] for _, (cells,) in found.batches]
        upload = Upload(found.table.decode(), found.id.hex(), found.schema["fields"][0]["name"], batches_in)
        if upload.text != text:
            raise LookupError(text)
        return upload

    def played(self):
        run = Run({"members": self.nodes[0], "slot_limit": self.nodes[1], "uploads": []})
        run.uploads, run.by_text = self.uploads, {it.text: it for it in self.uploads}
        return run, [run.play(event) for event in self.events]


TOLD = {"batch": Batches, "call": Calls, "header": Headers, "paxos": Paxos, "run": Runs, "table": Tables, "wire": Wire}


def retold(crate, text):
    """A story with its commands and answers made anew."""
    telling, lines = TOLD[crate](), []
    for line in text.splitlines():
        if line and not line.startswith(("#", "  ")):
            command, answers = telling.row(line)
            lines += [command, *(f"  {it}" for it in answers)]
        elif not line.startswith("  "):
            lines.append(line)
    return "\n".join(lines) + "\n"


# ---- files and conversations


def file_row(command, given):
    """A row of a file: the command, the bytes of the file, the status, the output, and the alternatives for standard error."""
    status, output, said = COMMANDS[command](given)
    output = output if isinstance(output, bytes) else output.encode()
    return "|".join([command, given.hex() or "-", str(status), output.hex() or "-", " // ".join(it.strip().replace("\n", " / ") for it in said)])


def retold_files(text):
    lines = []
    for line in text.splitlines():
        command, _, rest = line.partition("|")
        lines.append(file_row(command, bytes.fromhex(rest.partition("|")[0].strip("-"))) if command in COMMANDS else line)
    return "\n".join(lines) + "\n"


def files():
    """The files that exist, each with its expected text."""
    for crate in sorted(TOLD):
        file = TOP / "crates" / f"{crate}_stories" / "data" / "reached.txt"
        if file.exists():
            yield file, retold(crate, file.read_text(encoding="utf-8"))
    if PROGRAM_ROWS.exists():
        yield PROGRAM_ROWS, retold_files(PROGRAM_ROWS.read_text(encoding="utf-8"))


def main():
    status = 0
    for file, text in files():
        if file.read_text(encoding="utf-8") == text:
            continue
        if "--write" in sys.argv[1:]:
            file.write_text(text, encoding="utf-8")
        else:
            print(f"reached: {file.relative_to(TOP)} differs from what tools/reached.py makes")
            status = 1
    return status


if __name__ == "__main__":
    show_help(__doc__)
    sys.exit(main())
