#!/usr/bin/env python3
"""Fuzzes the story programs and the commands of `flightd` that read input, and keeps each input that reaches a new basic block.

It is not part of the gate.

    tools/fuzz.py [SECONDS] [FOLDER] [TARGET ..]

For each TARGET (of tools/targets.py, or all of them) it draws inputs for SECONDS (60), from a few plain ones, from those kept before and from
those kept on the way: it changes some of their bytes, or what these encode. What is running then is finished. The programs are those in
FOLDER/crates/NAME/out as the gate built them (FOLDER is this repository); only the driver that runs them is built, in a folder of its own.
tools/blocks.py finds the basic blocks that an input is the first to reach, by a breakpoint at each block that none has reached.

An input that reached a block is made smaller, as long as it still does. If the models judge it and it is small, it is written with what they
say of it (tools/reached.py) as a row of `reached.txt`, among the stories of its crate or in tools/program/. The answers to every input are
compared with the model's.

At the end a table shows for each target how many inputs ran, how many blocks they reached of how many in the program, how many were kept,
how many ended by a signal, did not end, were answered otherwise than the model says, or cost too much, and the dearest one. An input costs too
much if it takes more processor time than LEAST_SECONDS and SECONDS_A_BYTE for each byte that is read or written, or holds more memory than
LEAST_HELD and HELD_A_BYTE for each. Each faulty input is printed, and the status is then 1, as it is if a program is not built. Each run
draws other inputs. It needs x86-64, cc and objdump (GNU binutils)."""
import collections
import contextlib
import importlib
import itertools
import os
import random
import sys
import tempfile
import time
from pathlib import Path
from typing import NamedTuple

from batches import bytes_of, spelled
from blocks import Traced
from changes import parts_in, parts_text, shorter, shorter_json
from files_model import COMMANDS
from reached import PROGRAM_ROWS, TOLD, TOP, Unjudged, file_row, plain
from repeated import ended
from targets import targets
from toolbox import show_help

LEAST_SECONDS, SECONDS_A_BYTE = 0.03, 1e-6
LEAST_HELD, HELD_A_BYTE = 16 << 20, 64
# A run that has not ended after this many seconds of the clock hangs.
MOST_WAIT = 30
# How many inputs a story program gets in one run, and how many runs are requested at once.
TOGETHER, AT_ONCE = 40, 8
# A run of many inputs that takes at most this many seconds plus twice those of the dearest input is not repeated one by one.
DOUBT = 0.004
# How many smaller inputs are tried for one that reached something new, and the most characters of rows that are kept.
MOST_SMALLER, MOST_LETTERS = 32, 4000
# Half of the inputs are drawn from this many last ones, and half from all.
LAST = 24
HEAD = """\
# Inputs that reached something new in the program, one behind the other, each made small. The notation is that of the other files. Made by
# tools/fuzz.py, with what the models say of them, as tools/reached.py --check tries, and not by hand.
"""


class Case(NamedTuple):
    """An input: its lines; its rows, None if the models don't judge it; what the program reads; and how many answers it must give."""

    lines: list
    rows: list
    given: bytes
    count: int


class Wrong(NamedTuple):
    """What was wrong with a run: the kind of fault, and a text."""

    kind: str
    told: str


def cost_of(outcome, given):
    size = given + len(outcome.output)
    if outcome.seconds > LEAST_SECONDS + SECONDS_A_BYTE * size:
        return Wrong("cost", f"{outcome.seconds:.3f} s for {size} bytes")
    if outcome.held > LEAST_HELD + HELD_A_BYTE * size:
        return Wrong("cost", f"{outcome.held >> 10} KiB for {size} bytes")
    return None


def ended_wrong(outcome):
    """What is wrong with how a run ended."""
    if os.WIFSIGNALED(outcome.status):
        signal = os.WTERMSIG(outcome.status)
        return Wrong("hang", "it did not end") if signal == 9 else Wrong("crash", f"signal {signal}")
    return None


# ---- what a program is asked, and what it must answer


class Stories:
    """A story program: one run answers many inputs."""

    def __init__(self, target):
        self.model, self.module = TOLD[target.crate], importlib.import_module(f"tellers.{target.crate}")

    def rows(self, lines):
        model = self.model()
        try:
            return [model.row(it) for it in lines]
        except (Unjudged, RecursionError):
            return None

    def case(self, lines):
        rows = self.rows(lines)
        teller = self.module.Teller()
        requests = [it for line in self.commands(lines, rows) for it in next(teller.tell(line))]
        return Case(lines, rows, "".join(f"{it}\n" for it in requests).encode(), len(requests))

    @staticmethod
    def commands(lines, rows):
        return lines if rows is None else [command for command, _ in rows]

    def wrong(self, case, answers):
        """How the answers to a case differ from the model's."""
        teller, answers = self.module.Teller(), iter(answers)
        for place, command in enumerate(self.commands(case.lines, case.rows)):
            telling = teller.tell(command)
            told = ended(telling, list(itertools.islice(answers, len(next(telling)))))
            if case.rows is not None and told != case.rows[place][1]:
                return Wrong("answer", f"{command[:300]}\n  told {told!r}\n  the model says {case.rows[place][1]!r}")
        return None

    def alone(self, case, outcome):
        """What is wrong with a run of one case."""
        answers = outcome.output.decode(errors="replace").splitlines()
        if outcome.status or len(answers) != case.count:
            status = os.waitstatus_to_exitcode(outcome.status)
            return Wrong("answer", f"status {status}, {len(answers)} of {case.count} answers, {outcome.errors[:200]!r}")
        return self.wrong(case, answers)

    @staticmethod
    def kept(case):
        """The rows of a case that the model judges and that has any result."""
        is_told = case.rows is not None and any(told for _, told in case.rows)
        return "".join(f"{command}\n" + "".join(f"  {it}\n" for it in told) for command, told in case.rows) if is_told else ""


class Files:
    """A command of `flightd`: one run reads one input."""

    def __init__(self, target):
        self.command = target.name

    def case(self, lines):
        given = bytes_of(lines[0].partition(" ")[2])
        try:
            return Case(lines, [COMMANDS[self.command](given)], given, 1)
        except (Unjudged, RecursionError):
            return Case(lines, None, given, 1)

    def alone(self, case, outcome):
        if case.rows is None:
            return None
        ((status, output, said),) = case.rows
        output = output if isinstance(output, bytes) else output.encode()
        told = os.waitstatus_to_exitcode(outcome.status), outcome.output, outcome.errors.decode(errors="replace")
        if told[:2] != (status, output) or told[2] not in said:
            return Wrong("answer", f"told {told!r}\n  the model says {case.rows[0]!r}")
        return None

    def kept(self, case):
        return "" if case.rows is None else file_row(self.command, case.given) + "\n"


# ---- smaller inputs


def with_bytes(line):
    """The words of a line before its bytes, and the bytes; None if it has none."""
    word = line.split(" ")[0]
    if word == "read":
        head, _, digits = line.rpartition("| ")
        size, _, digits = digits.partition(" ")
        return f"{head}| {size}", bytes_of(digits)
    words = line.split(" ", 2 if word in ("upload", "bytes") else 1)
    if word in ("new", "call", "take", "outcome", "tables", "latest", "answer", "schema", "nodes", "play", "digest") or len(words[-1]) < 2:
        return None
    try:
        return " ".join(words[:-1]), bytes_of(words[-1])
    except ValueError:
        return None


def smaller_bytes(text):
    parts = parts_in(text, "big", True)
    if parts_text(parts, "big") == text and len(parts) > 1:
        yield from (parts_text(it, "big") for it in shorter(parts))
    yield from shorter_json(text)
    yield from shorter(text)


def smaller(lines):
    """The lines without some of them, or with fewer bytes in one."""
    yield from shorter(lines)
    for place, line in enumerate(lines):
        found = with_bytes(line)
        for it in smaller_bytes(found[1]) if found else ():
            digits = it.hex() if line.split(" ")[0] in SHORT else spelled(it)
            yield [*lines[:place], f"{found[0]} {digits}".rstrip(), *lines[place + 1 :]]


# Commands whose bytes are written without letters for zeros.
SHORT = ("frames", "fields", "front", "descriptor", "ticket", "location", "endpoint", "info", "schema", "criteria", "data", "put-result", "decode",
         "decode-record", "audited", "audit", "audit_--explain", "replay", "records", "acceptor", "read-ticket")


# ---- exploring a target


class Exploration:
    """The inputs of a target: those to draw from, those that were kept, and what was counted."""

    def __init__(self, target, program, folder):
        self.target, self.draw = target, random.Random()
        self.asks = (Files if target.crate == "flightd" else Stories)(target)
        self.traced = Traced(program, target.words, folder, MOST_WAIT)
        self.reached, self.pool, self.rows, self.pending = set(), [], [], []
        self.ran, self.wrong, self.dearest = 0, collections.Counter(), (0.0, 0)

    # runs

    def case(self, lines):
        """The case of these lines, None if they ask for what does not exist, or depend on other lines."""
        with contextlib.suppress(LookupError, ValueError):
            return self.asks.case(lines) if self.target.stands_alone(lines) else None
        return None

    def together(self, cases):
        """Has a story program answer these cases in one run, and returns those that were the first to reach blocks, with the blocks."""
        (outcome,) = self.traced.run([b"".join(it.given for it in cases)])
        answers = outcome.output.decode(errors="replace").splitlines()
        # if one of them may be the dearest, or ended the run, each gets a run of its own
        may_be_dear = outcome.seconds > (LEAST_SECONDS if outcome.reached else 2 * self.dearest[0] + DOUBT)
        self.ran += len(cases)
        if outcome.status or len(answers) != sum(it.count for it in cases) or may_be_dear:
            return self.reachers(cases, set(outcome.reached)) + self.one_by_one(cases)
        answers = iter(answers)
        for case in cases:
            self.look(case, self.asks.wrong(case, list(itertools.islice(answers, case.count))))
        # the cost of one of them is measured alone
        return self.reachers(cases, set(outcome.reached)) + self.one_by_one([self.draw.choice(cases)])

    def reachers(self, cases, blocks):
        """The cases that are the first to reach these blocks, each with its own."""
        if not blocks or len(cases) == 1:
            return [(cases[0], blocks)] if blocks else []
        half = len(cases) // 2
        (outcome,) = self.traced.run([b"".join(it.given for it in cases[:half])], blocks)
        mine = blocks & set(outcome.reached)
        return self.reachers(cases[:half], mine) + self.reachers(cases[half:], blocks - mine)

    def one_by_one(self, cases):
        """Runs each of the cases by itself, and returns those that were the first to reach blocks."""
        found = []
        for start in range(0, len(cases), AT_ONCE):
            group = cases[start : start + AT_ONCE]
            for case, outcome in zip(group, self.traced.run([it.given for it in group])):
                self.look(case, ended_wrong(outcome) or self.asks.alone(case, outcome) or self.cost(case, outcome))
                if outcome.reached:
                    found.append((case, set(outcome.reached)))
        return found

    def cost(self, case, outcome):
        """What is wrong with the cost of a run. A run that reached something new was stopped there, so it is repeated."""
        if outcome.reached or cost_of(outcome, len(case.given)):
            (outcome,) = self.traced.run([case.given])
        self.dearest = max(self.dearest, (outcome.seconds, len(case.given)))
        return cost_of(outcome, len(case.given))

    def look(self, case, wrong):
        if wrong:
            self.wrong[wrong.kind] += 1
            print(f"{self.target.name}: {wrong.kind}: {wrong.told}", *case.lines, sep="\n  ", flush=True)

    def run(self, cases):
        if isinstance(self.asks, Stories):
            return self.together(cases)
        self.ran += len(cases)
        return self.one_by_one(cases)

    # what reached something new

    def made_small(self, case, blocks):
        """The smallest case found that reaches these blocks too. None if this case does not reach them again, or if the answers to the
        smallest differ from the model's."""
        best, tried, candidates = None, 0, iter([case.lines])
        while tried < MOST_SMALLER:
            drawn = filter(None, map(self.case, candidates))
            group = list(itertools.islice(drawn, AT_ONCE if best else 1))
            if not group:
                break
            tried += len(group)
            outcomes = self.traced.run([it.given for it in group], blocks)
            self.pending += [(it, set(outcome.reached) - blocks) for it, outcome in zip(group, outcomes) if set(outcome.reached) - blocks]
            hit = next((it for it, outcome in zip(group, outcomes) if blocks <= set(outcome.reached)), None)
            if hit:
                best, candidates = hit, smaller(hit.lines)
            elif best is None:
                return None
        (outcome,) = self.traced.run([best.given], blocks)
        wrong = ended_wrong(outcome) or self.asks.alone(best, outcome)
        self.look(best, wrong)
        return None if wrong else best

    def keep(self, found):
        """Keeps cases that reached new blocks, and those that are found while cases are made smaller."""
        self.pending += found
        while self.pending:
            case, blocks = self.pending.pop()
            blocks -= self.reached
            self.reached |= blocks
            small = self.made_small(case, blocks) if blocks else None
            if not small:
                continue
            self.pool.append(small.lines)
            text = self.asks.kept(small)
            if 0 < len(text) <= MOST_LETTERS and text not in self.rows and all(it.isprintable() for it in text.split("\n")):
                self.rows.append(text)

    # the whole

    def begin(self, lines_kept):
        """Runs the plain inputs and those that were kept before."""
        self.pool = [*self.target.seeds, *lines_kept]
        cases = list(filter(None, map(self.case, self.pool)))
        for start in range(0, len(cases), TOGETHER):
            for _, blocks in self.run(cases[start : start + TOGETHER]):
                self.reached |= blocks

    def drawn(self):
        """A random input."""
        lines, other = (self.draw.choice(self.pool[-LAST:] if self.draw.random() < 0.5 else self.pool) for _ in range(2))
        return self.target.other(self.draw, lines, other)

    def explore(self, seconds):
        end = time.monotonic() + seconds
        while time.monotonic() < end:
            cases = filter(None, (self.case(self.drawn()) for _ in itertools.count()))
            self.keep(self.run(list(itertools.islice(cases, TOGETHER))))
        self.traced.close()


# ---- rows that were kept


def file_kept(target):
    return PROGRAM_ROWS if target.crate == "flightd" else TOP / "crates" / f"{target.crate}_stories" / "data" / "reached.txt"


def lines_kept(target):
    """The inputs of a target that were kept before."""
    file = file_kept(target)
    text = file.read_text(encoding="utf-8") if file.exists() else ""
    if target.crate == "flightd":
        rows = [it.split("|") for it in text.splitlines() if it.startswith(f"{target.name}|")]
        return [[f"{target.name.replace(' ', '_')} {row[1].strip('-')}".rstrip()] for row in rows]
    groups = [[plain(line) for line in group.splitlines() if not line.startswith(("#", "  "))] for group in text.split("\n\n")]
    return [it for it in groups if it]


def write_kept(target, rows):
    """Adds rows after those that were kept before."""
    file = file_kept(target)
    is_file = target.crate == "flightd"
    before = file.read_text(encoding="utf-8") if file.exists() else HEAD
    file.write_text(before + "".join(rows if is_file else (f"\n{it}" for it in rows)), encoding="utf-8")


def program_of(target, folder):
    crate = "flightd" if target.crate == "flightd" else f"{target.crate}_stories"
    return Path(folder) / "crates" / crate / "out" / crate


# ---- the table


def printed(rows):
    """Prints the rows as a table, with columns as wide as needed."""
    widths = [max(map(len, column)) for column in zip(*rows)]
    for row in rows:
        print("  ".join(it.ljust(width) if place == 0 else it.rjust(width) for place, (it, width) in enumerate(zip(row, widths))).rstrip())


NAMES = ("target", "inputs", "blocks", "of", "kept", "crashes", "hangs", "wrong", "too dear", "dearest", "bytes")


def row_of(it):
    counts = [it.ran, len(it.reached), len(it.traced.blocks), len(it.rows), *(it.wrong[kind] for kind in ("crash", "hang", "answer", "cost"))]
    seconds, size = it.dearest
    return [it.target.name, *map(str, counts), f"{seconds:.4f} s", str(size)]


def explored(target, program, seconds):
    """Explores a target, and keeps what was found, also if it is interrupted."""
    with tempfile.TemporaryDirectory() as folder:
        exploration = Exploration(target, program, folder)
        try:
            exploration.begin(lines_kept(target))
            exploration.explore(seconds)
        finally:
            write_kept(target, exploration.rows)
    return exploration


def main(seconds=60, folder=TOP, *names):
    rows, status = [list(NAMES)], 0
    for target in targets():
        program = program_of(target, folder)
        if names and target.name not in names:
            continue
        if program.exists():
            exploration = explored(target, program, seconds)
            rows.append(row_of(exploration))
            status |= bool(exploration.wrong)
        else:
            print(f"fuzz: {program} is not built")
            status = 1
    printed(rows)
    return status


if __name__ == "__main__":
    show_help(__doc__)
    try:
        sys.exit(main(*[float(it) for it in sys.argv[1:2]], *sys.argv[2:]))
    except OSError as error:
        sys.exit(f"tools/fuzz.py: {error}")
