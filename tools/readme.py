#!/usr/bin/env python3
"""Runs every command of README.md from the top of the repository, and compares its output with what the README shows.

A server is ended once it has printed where it is served; one that is started in the background, after the commands of its block. The
folder of records that they make is removed, unless it existed before. ./test is the gate itself, and is not run here. If the program is
not built and no release fits the sources, the first command proves and builds it, which takes more than half an hour on four cores."""
import contextlib
import re
import shutil
import subprocess
import sys
from pathlib import Path

from toolbox import show_help

TOP = Path(__file__).resolve().parent.parent
GATE, SERVER, RECORDS = "./test", "./flightd serve ", TOP / "records"


def blocks(text, kind):
    """The lines of each fenced block of this kind."""
    return [block.splitlines() for block in re.findall(rf"^```{kind}\n(.*?)^```$", text, re.M | re.S)]


def commands(text):
    """Each command with the output that is shown for it, or None if none is shown; and None after each block."""
    for lines in blocks(text, "sh"):
        for line in lines:
            yield line.partition("  #")[0].rstrip(), None
    for lines in blocks(text, "text"):
        command, shown = None, []
        for line in [*lines, "$ "]:
            if not line.startswith("$ "):
                shown.append(line)
                continue
            if command:
                yield command, shown
            command, shown = line[2:], []
        yield None, None


@contextlib.contextmanager
def started(command, shown):
    """Starts a server, and yields whether it first prints these lines, or any line if none are shown."""
    with subprocess.Popen(["bash", "-c", f"exec {command}"], cwd=TOP, stdout=subprocess.PIPE, text=True) as server:
        try:
            first = [server.stdout.readline().rstrip("\n") for _ in shown or [None]]
            yield first == shown if shown else bool(first[0])
        finally:
            server.terminate()


def runs_as_shown(command, shown):
    """Runs a command, and returns whether it prints what is shown."""
    ran = subprocess.run(["bash", "-c", command], cwd=TOP, stdout=subprocess.PIPE, check=False, text=True, errors="replace")
    if shown is None:
        return ran.returncode == 0
    return ran.stdout.splitlines() == shown


def is_as_shown(command, shown, servers):
    """Runs a command of README, and returns whether it prints what is shown. One that is started in the background runs until `servers`
    is closed."""
    if command.endswith(" &"):
        return servers.enter_context(started(command[:-2], shown))
    if command.startswith(SERVER):
        with started(command, shown) as well:
            return well
    return runs_as_shown(command, shown)


def main():
    status, had_records = 0, RECORDS.exists()
    with contextlib.ExitStack() as servers:
        for command, shown in commands((TOP / "README.md").read_text(encoding="utf-8")):
            if command is None:
                servers.close()
            if command in (None, GATE):
                continue
            well = is_as_shown(command, shown, servers)
            print(f"readme: {command}: {'as shown' if well else 'NOT AS SHOWN'}", flush=True)
            status |= not well
    if not had_records:
        shutil.rmtree(RECORDS, ignore_errors=True)
    return status


if __name__ == "__main__":
    show_help(__doc__)
    sys.exit(main())
