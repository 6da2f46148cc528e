#!/usr/bin/env python3
"""Proves and builds the program `flightd` from the present sources, with several crates at once.

It checks as many crates at once as there are processors and memory for, each once those that it uses are built. It prints progress and
the time so far on standard error. If it is interrupted, the next call continues where this one stopped.

    tools/build.py

`rt` lets one command at a time work in a crate and in those below it. So each of the checks that run at once has a copy of the sources
in a folder of the user's cache. It copies the built crates below into it, and moves its own result back."""
import contextlib
import hashlib
import os
import shutil
import signal
import subprocess
import sys
import time
from pathlib import Path

from toolbox import show_help

TOP = Path(__file__).resolve().parent.parent
PROGRAM = "flightd"
# The memory that one check may take, in bytes.
CHECK_BYTES = 3_500_000_000
# A check that has more processors than this gains nothing.
MOST_JOBS = 4
SOURCES = ("src", "specs", "proofs")


def uses():
    """For each crate that the program consists of, the libraries that it uses, the lowest crate first."""
    lines = [line.partition("#")[0] for line in (TOP / "crates.txt").read_text(encoding="utf-8").splitlines()]
    listed = {line.split(":")[0].split()[0]: line.partition(":")[2].split() for line in lines if ":" in line}
    found = {}

    def add(crate):
        if crate in listed and crate not in found:
            for library in listed[crate]:
                add(library)
            found[crate] = listed[crate]

    add(PROGRAM)
    return found


def below(crate, used):
    """All crates of this repository that a crate depends on."""
    found, left = [], list(used[crate])
    while left:
        name = left.pop()
        if name in used and name not in found:
            found.append(name)
            left += used[name]
    return found


def lines_of(crate):
    """How many lines a check of the crate reads, a measure of how long it takes."""
    files = [file for part in SOURCES for file in (TOP / "crates" / crate / part).rglob("*") if file.suffix in (".rt", ".antt")]
    return sum(file.read_bytes().count(b"\n") for file in files)


def chain_lengths(used):
    """For each crate, the number of lines in the longest chain of crates above it that wait for each other, its own included."""
    lengths = {}
    for crate in reversed(used):
        above = [lengths[name] for name in lengths if crate in used[name]]
        lengths[crate] = lines_of(crate) + max(above, default=0)
    return lengths


def side_by_side():
    """How many checks may run at once: one per processor, if there is memory for them."""
    lines = Path("/proc/meminfo").read_text(encoding="utf-8").splitlines()
    available = next((int(line.split()[1]) * 1024 for line in lines if line.startswith("MemAvailable:")), CHECK_BYTES)
    return max(1, min(len(os.sched_getaffinity(0)), available // CHECK_BYTES))


def cache():
    """The folder for the copies of this checkout."""
    home = os.environ.get("XDG_CACHE_HOME") or os.path.expanduser("~/.cache")
    return Path(home) / "felzoren" / hashlib.sha256(str(TOP).encode()).hexdigest()[:16]


def link_or_copy(source, target):
    try:
        os.link(source, target)
    except OSError:
        shutil.copy2(source, target)


def move(source, target):
    """Moves a folder into the place of another, if there is something to move."""
    if source.is_dir():
        target.parent.mkdir(parents=True, exist_ok=True)
        shutil.rmtree(target, ignore_errors=True)
        shutil.move(source, target)


class Lane:
    """A copy of the sources in which one check at a time runs."""

    def __init__(self, number, names):
        self.folder, self.crate = cache() / str(number), None
        for name in names:
            # What a killed check left here.
            if not (TOP / "crates" / name / "out").exists():
                move(self.folder / "crates" / name / "out", TOP / "crates" / name / "out")
        shutil.rmtree(self.folder, ignore_errors=True)
        self.folder.mkdir(parents=True)
        shutil.copy(TOP / "HANDLES", self.folder)
        lines = [f"{name}: {' '.join(libraries)}\n" for name, libraries in names.items()]
        (self.folder / "crates.txt").write_text("".join(lines), encoding="utf-8")
        for name in names:
            for part in SOURCES:
                if (TOP / "crates" / name / part).is_dir():
                    shutil.copytree(TOP / "crates" / name / part, self.folder / "crates" / name / part)

    def out(self, crate):
        return self.folder / "crates" / crate / "out"

    def start(self, crate, used, jobs):
        """Starts the check of a library, with the built libraries below it."""
        self.crate, self.jobs = crate, jobs
        for name in below(crate, used):
            if not self.out(name).exists():
                built = TOP / "crates" / name / "out" / "rlib"
                shutil.copytree(built, self.out(name) / "rlib", copy_function=link_or_copy)
        move(TOP / "crates" / crate / "out", self.out(crate))
        with open(self.folder / "log", "wb") as log:
            how = {"stdin": subprocess.DEVNULL, "stdout": log, "stderr": subprocess.STDOUT, "start_new_session": True}
            self.running = subprocess.Popen(["rt", "lib", "--jobs", str(jobs)], cwd=self.out(crate).parent, **how)

    def end(self):
        """Moves the result of the check back, and returns the crate."""
        crate, self.crate = self.crate, None
        move(self.out(crate), TOP / "crates" / crate / "out")
        return crate

    def stop(self):
        if self.crate:
            with contextlib.suppress(ProcessLookupError):
                os.killpg(self.running.pid, signal.SIGKILL)
            self.running.wait()
            self.end()

    def log(self):
        return (self.folder / "log").read_text(encoding="utf-8", errors="replace")


class Progress:
    """The line that reports progress."""

    def __init__(self, total):
        self.total, self.began, self.next = total, time.monotonic(), 0

    def show(self, done, names):
        seconds = int(time.monotonic() - self.began)
        text = f"flightd: {done} of {self.total} crates are proved, now {', '.join(names)}; {seconds} s so far"
        if sys.stderr.isatty():
            width = shutil.get_terminal_size().columns - 1
            print(f"\r\033[K{text[:width]}", end="", file=sys.stderr, flush=True)
        elif seconds >= self.next:
            print(text, file=sys.stderr, flush=True)
            self.next = seconds + 30

    def end(self):
        if sys.stderr.isatty():
            print("\r\033[K", end="", file=sys.stderr, flush=True)


def prove_libraries(used, lanes, progress):
    """Proves and builds the libraries, those with the longest chain above them first. Returns the log of one that fails."""
    lengths, built = chain_lengths(used), set()
    left = sorted((name for name in used if name != PROGRAM), key=lambda name: -lengths[name])
    while left or any(lane.crate for lane in lanes):
        for lane in lanes:
            if lane.crate and lane.running.poll() is not None:
                crate = lane.end()
                if lane.running.returncode:
                    return lane.log()
                built.add(crate)
        ready = [name for name in left if built.issuperset(below(name, used))]
        free = [lane for lane in lanes if not lane.crate]
        idle = len(lanes) - sum(lane.jobs for lane in lanes if lane.crate)
        for lane in free[: max(idle, 0)]:
            if ready and idle > 0:
                # A check gets the processors that no other check waits for.
                jobs = max(1, min(MOST_JOBS, idle // len(ready)))
                lane.start(ready[0], used, jobs)
                left.remove(ready.pop(0))
                idle -= jobs
        progress.show(len(built), [lane.crate for lane in lanes if lane.crate])
        time.sleep(0.2)
    return None


def build_program(used, lanes, progress):
    """Proves and builds the program over its libraries. Returns the log if it fails."""
    how = {"stdin": subprocess.DEVNULL, "stdout": subprocess.PIPE, "stderr": subprocess.STDOUT, "start_new_session": True}
    words = ["rt", "run", "--jobs", str(len(lanes)), "--", "--version"]
    running = subprocess.Popen(words, cwd=TOP / "crates" / PROGRAM, **how)
    try:
        while True:
            try:
                said, _ = running.communicate(timeout=1)
                return said.decode(errors="replace") if running.returncode else None
            except subprocess.TimeoutExpired:
                progress.show(len(used) - 1, [PROGRAM])
    finally:
        if running.poll() is None:
            os.killpg(running.pid, signal.SIGKILL)


def main():
    if shutil.which("rt") is None:
        sys.exit("flightd: the Rattle toolchain is not here: install it, so that its command rt is on the PATH")
    signal.signal(signal.SIGTERM, lambda *_: sys.exit(130))
    used = uses()
    progress, lanes = Progress(len(used)), []
    try:
        lanes += [Lane(number, used) for number in range(side_by_side())]
        failed = prove_libraries(used, lanes, progress) or build_program(used, lanes, progress)
    except KeyboardInterrupt:
        return 130
    finally:
        progress.end()
        for lane in lanes:
            lane.stop()
        shutil.rmtree(cache(), ignore_errors=True)
    if failed:
        print(failed, end="", file=sys.stderr)
        return 1
    (TOP / "crates" / PROGRAM / "out" / PROGRAM).touch()
    return 0


if __name__ == "__main__":
    show_help(__doc__)
    sys.exit(main())
