#!/usr/bin/env python3
"""Runs the gate, and reports what each crate cost it in processor seconds.

    tools/gate_costs.py [--write] [COMMAND ..]

It passes on what the gate prints. The costs of a crate are those of its first check, of the check of its tests, of its must-fail edits, and of
the runs of its program and tests. Machines differ by more than a factor of two, so first one fixed example of the toolchain is proved three
times from nothing, and the total is printed in minutes and as a multiple of the least time that this took.

--write puts the table into docs/TESTS.md, between the two lines that mark its place. What a run did not do, since it was kept from an earlier
one, has the figure of the table that is there, so a run over what changed is enough to bring the table up to date. If the run is ended early
(SIGTERM), what was under way keeps its old figure too. After the table the edits are named that took 20 seconds or more, the dearest first;
they are printed alone. The gate is ./test, or the command that is given, such as `rt must-fail ballots` at the top of the repository.

Every process that the gate starts is looked at five times a second, and its time is added to the crate that its arguments name. The total is
the kernel's own figure, so that what was missed shows."""
import os
import re
import resource
import shutil
import signal
import subprocess
import sys
import tempfile
import time
from pathlib import Path

from toolbox import show_help

TOP = Path(__file__).resolve().parent.parent
PAGE = TOP / "docs" / "TESTS.md"
FIRST = "<!-- The table below is made by tools/gate_costs.py. -->"
LAST = "<!-- The table above is made by tools/gate_costs.py. -->"
KINDS = ("proof", "tests", "edits", "runs")
TICKS = os.sysconf("SC_CLK_TCK")
# The processor seconds from which on an edit is named.
DEAR = 20
# The example of the toolchain that measures the machine, and the libraries of the toolchain that it uses.
EXAMPLE = "rattle/examples/worked/bikes"
EXAMPLE_USES = "bikes: anyhow crossbeam_channel\n"


def crates():
    """The crates that crates.txt lists, in its order."""
    lines = (TOP / "crates.txt").read_text(encoding="utf-8").splitlines()
    return [line.split(":")[0].split()[0] for line in lines if ":" in line.split("#")[0]]


def stat(pid):
    """The parent of a process, when it started, and the ticks of processor that it has had."""
    text = Path(f"/proc/{pid}/stat").read_text(encoding="utf-8", errors="replace")
    words = text.rpartition(")")[2].split()
    return int(words[1]), words[19], int(words[11]) + int(words[12])


def edit_of(crate, words):
    """The name of the edit that is tried, which is told by its place among those of the crate; nothing where it is not told."""
    kept = Path(words[words.index("--incremental") + 1]).name if "--incremental" in words else ""
    edits = sorted((TOP / "crates" / crate / "must-fail").glob("*.edit"))
    return edits[int(kept)].stem if kept.isdigit() and int(kept) < len(edits) else None


def what_it_is(pid, names):
    """The crate that a process works for, at what, and with which edit."""
    words = Path(f"/proc/{pid}/cmdline").read_bytes().decode(errors="replace").split("\0")
    ran = re.fullmatch(r"(.*?)(_tests)?", os.path.basename(words[0]))
    if ran.group(1) in names and "/out/" in words[0]:
        return ran.group(1), "runs", None
    if "--crate-name" not in words:
        return None
    crate = words[words.index("--crate-name") + 1]
    if "rt-edit-" in os.readlink(f"/proc/{pid}/cwd"):
        return crate, "edits", edit_of(crate, words)
    return crate, "tests" if "--test" in words else "proof", None


def example_seconds():
    """The processor seconds in which the example is proved: the least of three first checks."""
    example = Path(subprocess.run(["rt", "doc"], capture_output=True, text=True, check=True).stdout.strip()).parent / EXAMPLE
    taken = []
    for _ in range(3):
        with tempfile.TemporaryDirectory() as scratch:
            Path(scratch, "crates.txt").write_text(EXAMPLE_USES, encoding="utf-8")
            shutil.copy(TOP / "HANDLES", scratch)
            folder = Path(scratch, "crates", "bikes")
            for part in ("src", "specs", "proofs"):
                shutil.copytree(example / part, folder / part)
            before = resource.getrusage(resource.RUSAGE_CHILDREN)
            subprocess.run(["rt", "check", "--jobs", "1"], cwd=folder, stdout=subprocess.DEVNULL, check=True)
            after = resource.getrusage(resource.RUSAGE_CHILDREN)
            taken.append(after.ru_utime + after.ru_stime - before.ru_utime - before.ru_stime)
    return min(taken)


class Costs:
    """What the processes below one were seen to take."""

    def __init__(self, top, names):
        self.top, self.names = top, names
        self.ticks, self.labels = {}, {}
        self.under_way = set()

    def look(self):
        """Looks at each process below the top once."""
        found = {}
        for entry in os.listdir("/proc"):
            if entry.isdigit():
                try:
                    found[int(entry)] = stat(entry)
                except (OSError, IndexError, ValueError):
                    pass
        below = [pid for pid in found if self.is_below(pid, found)]
        for pid in below:
            self.note(pid, found[pid])
        if below:
            labels = [self.labels.get((pid, found[pid][1])) for pid in below]
            self.under_way = {label[:2] for label in labels if label}

    def is_below(self, pid, found):
        """Whether the process was started by the top one, or by one that was."""
        for _ in range(64):
            if pid == self.top:
                return True
            if pid not in found:
                return False
            pid = found[pid][0]
        return False

    def note(self, pid, seen):
        """Keeps how much the process has had so far. What it works for is read again as long as it is not known."""
        key = pid, seen[1]
        self.ticks[key] = seen[2]
        if self.labels.get(key) is None:
            try:
                self.labels[key] = what_it_is(pid, self.names)
            except OSError:
                pass

    def seconds(self, crate, kind):
        """Processor seconds of one crate at one kind of work."""
        return sum(it for key, it in self.ticks.items() if (self.labels.get(key) or ())[:2] == (crate, kind)) / TICKS

    def dear_edits(self):
        """The edits that took long, each with its crate and its seconds, the dearest first."""
        taken = {}
        for key, ticks in self.ticks.items():
            crate, _, edit = self.labels.get(key) or (None, None, None)
            if edit is not None:
                taken[crate, edit] = taken.get((crate, edit), 0) + ticks / TICKS
        return sorted(((it, *key) for key, it in taken.items() if it >= DEAR), reverse=True)


def kept_cells():
    """For each crate of the table that stands, the processor seconds of each kind of work."""
    kept = {}
    for line in PAGE.read_text(encoding="utf-8").partition(FIRST)[2].partition(LAST)[0].splitlines():
        cells = [cell.strip() for cell in line.strip("|").split("|")]
        if line.startswith("| `") and len(cells) == 7:
            seconds = [float(cell.partition("(")[0] or 0) for cell in (cells[1], cells[2], cells[3], cells[5])]
            kept[cells[0].strip("`")] = dict(zip(KINDS, seconds))
    return kept


def seconds_of(costs, crate, kept, ended):
    """What a crate cost at each kind of work, in this run or, where it did not do it whole, as the table has it."""
    found = {}
    for kind in KINDS:
        seconds = costs.seconds(crate, kind)
        is_whole = seconds > 0 and not (ended and (crate, kind) in costs.under_way)
        found[kind] = seconds if is_whole else kept.get(crate, {}).get(kind, 0)
    return found


def page_of(costs, total, wall, ending, ended, example):
    """The table, as lines of the page."""
    rows = ["| Crate | First check | Tests | Edits | An edit | Runs | Lines of `.rt` |", "|---|---|---|---|---|---|---|"]
    kept, known = kept_cells(), 0
    for crate in crates():
        seconds = seconds_of(costs, crate, kept, ended)
        known += sum(seconds.values())
        edits = len(list((TOP / "crates" / crate / "must-fail").glob("*.edit")))
        sources = (TOP / "crates" / crate / "src").rglob("*.rt")
        lines = sum(file.read_text(encoding="utf-8").count("\n") for file in sources)
        tests, edit, runs = seconds["tests"], seconds["edits"] / max(edits, 1), seconds["runs"]
        cells = [f"`{crate}`", f"{seconds['proof']:.0f}", f"{tests:.0f}" if tests else ""]
        cells += [f"{seconds['edits']:.0f} ({edits})" if edit else f"({edits})" if edits else "", f"{edit:.1f}" if edit else ""]
        cells += [f"{runs:.0f}" if runs >= 0.5 else "", f"{lines:,}"]
        rows.append("| " + " | ".join(cells) + " |")
    processors = len(os.sched_getaffinity(0))
    text = [
        f"The last gate that was measured printed `{ending}`. It took {wall / 60:.0f} minutes on {processors} processors, and",
        f"{total / 60:.0f} processor minutes. The table has processor seconds, {known / 60:.0f} minutes in all, each as it was when the crate was",
        f"last proved from nothing: {known / example:.0f} times the {example:.0f} processor seconds in which the toolchain's example `bikes` was",
        "proved there.",
    ]
    return [*text, "", *rows]


def write(lines):
    """Puts the lines between the two marks of the page."""
    text = PAGE.read_text(encoding="utf-8")
    head, _, rest = text.partition(FIRST)
    _, mark, tail = rest.partition(LAST)
    if not mark:
        sys.exit(f"gate_costs: {PAGE} has no place for the table")
    PAGE.write_text(head + "\n".join([FIRST, "", *lines, "", LAST]) + tail, encoding="utf-8")


def run(words, names):
    """Runs the command, passes on what it prints, and gives how it ended, its last line, and what was seen of its costs."""
    gate = subprocess.Popen(words, cwd=TOP, stdout=subprocess.PIPE, stderr=subprocess.STDOUT, start_new_session=True)
    signal.signal(signal.SIGTERM, lambda *_: os.killpg(gate.pid, signal.SIGTERM))
    os.set_blocking(gate.stdout.fileno(), False)
    costs, told = Costs(gate.pid, names), b""
    while True:
        is_over = gate.poll() is not None
        costs.look()
        try:
            while part := os.read(gate.stdout.fileno(), 65536):
                sys.stdout.buffer.write(part)
                sys.stdout.flush()
                told = (told + part)[-400:]
        except BlockingIOError:
            pass
        if is_over:
            return gate.returncode, told.decode(errors="replace").rstrip().rpartition("\n")[2], costs
        time.sleep(0.2)


def main():
    writes = "--write" in sys.argv[1:]
    words = [it for it in sys.argv[1:] if it != "--write"] or [str(TOP / "test")]
    example = example_seconds()
    before, began = resource.getrusage(resource.RUSAGE_CHILDREN), time.monotonic()
    status, ending, costs = run(words, set(crates()))
    after = resource.getrusage(resource.RUSAGE_CHILDREN)
    total = after.ru_utime + after.ru_stime - before.ru_utime - before.ru_stime
    lines = page_of(costs, total, time.monotonic() - began, ending, status < 0, example)
    print("\n".join(lines))
    for seconds, crate, edit in costs.dear_edits():
        print(f"{seconds:6.1f} s  {crate}/{edit}")
    if writes:
        write(lines)
    return status


if __name__ == "__main__":
    show_help(__doc__)
    sys.exit(main())
