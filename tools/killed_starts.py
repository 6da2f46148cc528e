#!/usr/bin/env python3
"""Kills servers at each file call of their start, and checks what they leave.

It is not part of the gate: it takes a minute or two for three nodes.

    tools/killed_starts.py [--nodes COUNT] [PROGRAM]

PROGRAM is crates/flightd/out/flightd, as it was built. killed.c, which cc builds into a folder, is preloaded into it: it counts the calls by
which the program reads and changes files, and kills it (SIGKILL) before one of them, or in the middle of its write. The calls of a start
are counted for three folders: one that does not exist; one whose server was killed, with a record that was begun after the closed gate of
each file and a missing sum; and one without `cluster.json`. Then for each of these calls a start over a copy is killed there. Records must
only have been added to the files, and a server that starts over them must serve each upload that was acknowledged before, at once, at each
node, with the same bytes, and accept others. Last it prints how many starts were killed. The status is 1 if a check fails."""
import argparse
import os
import shutil
import signal
import struct
import subprocess
import sys
import tempfile
from pathlib import Path

from servers import CALL_SECONDS, PROGRAM, TOP, Wrong, felzoren, free_port, serve_words, server, want
from serving import begin_records, only_added, put_more, stands_at_once, texts_in

SOURCE = TOP / "tools" / "killed.c"
# The length of a record's entry in the file of sums, in bytes.
SUM_BYTES = 24


class Killing:
    """The library that is preloaded into a program, and the file in which it counts the calls of a start."""

    def __init__(self, program, nodes, top):
        self.program, self.nodes, self.top = program, nodes, Path(top)
        self.library, self.told = self.top / "killed.so", self.top / "told"
        subprocess.run(["cc", "-O2", "-shared", "-fPIC", "-o", self.library, SOURCE], check=True)
        self.told.write_bytes(bytes(8))

    def start(self, folder, at, part=False):
        """Starts a server over a folder. It is killed at the call of this number, or ended once it prints where its nodes are served. Returns
        whether it was killed."""
        more = {"LD_PRELOAD": str(self.library), "KILLED_TOLD": str(self.told), "KILLED_AT": str(at), "KILLED_PART": str(int(part))}
        words = serve_words(self.program, self.nodes, free_port(self.nodes), folder, resumed=True)
        process = subprocess.Popen(words, stdout=subprocess.PIPE, stderr=subprocess.PIPE, text=True, env={**os.environ, **more})
        served = process.stdout.readline() != ""
        if served:
            process.terminate()
        _, error = process.communicate(timeout=CALL_SECONDS)
        want((process.returncode, error), (-(signal.SIGTERM if served else signal.SIGKILL), ""))
        return not served

    def calls(self, folder):
        """How many calls a start over a folder makes until it prints where its nodes are served, or somewhat more."""
        want(self.start(folder, 0), False)
        return struct.unpack("<Q", self.told.read_bytes())[0]


def copy_of(folder, to):
    """A copy of a folder, if there is one."""
    shutil.rmtree(to, ignore_errors=True)
    if os.path.isdir(folder):
        shutil.copytree(folder, to)
    return str(to)


def goes_on(killing, folder, ids, served):
    """A server starts over what a killed start left, and serves what was acknowledged before."""
    ids, served = [*ids], [*served]
    with server(killing.program, killing.nodes, folder, resumed=True) as (clients, _):
        stands_at_once(clients, ids, served)
        put_more(clients, ids, served)


def kill_each(killing, folder, ids, served):
    """Kills a start over copies of a folder at each of its calls: how many were killed."""
    count, killed = killing.calls(copy_of(folder, killing.top / "copy")), 0
    for at in range(1, count + 1):
        for part in (False, True):
            copy = copy_of(folder, killing.top / "copy")
            old = texts_in(copy)
            killed += killing.start(copy, at, part)
            if old:
                only_added(old, texts_in(copy))
            goes_on(killing, copy, ids, served)
    return killed


def leave(killing, folder):
    """Makes the folder of a server that was killed as it took puts at each node: their ids, and digests of their versions' frames."""
    ids, served = [], []
    with server(killing.program, killing.nodes, folder, ending=signal.SIGKILL) as (clients, _):
        put_more(clients, ids, served)
    begin_records(folder, killing.nodes)
    sums = Path(folder) / "node-0.sum"
    os.truncate(sums, sums.stat().st_size - SUM_BYTES)
    return ids, served


def main(program, nodes):
    with tempfile.TemporaryDirectory() as top:
        killing = Killing(program, nodes, top)
        killed = [kill_each(killing, f"{top}/not/there", [], [])]
        ids, served = leave(killing, f"{top}/left")
        killed.append(kill_each(killing, f"{top}/left", ids, served))
        os.unlink(f"{top}/left/cluster.json")
        killed.append(kill_each(killing, f"{top}/left", ids, served))
    print(f"{sum(killed)} starts of {nodes} nodes were killed, {killed[0]} of them over no folder, {killed[1]} over records and {killed[2]} over records "
          "without a mark: the servers started after them serve what was acknowledged")


if __name__ == "__main__":
    words = argparse.ArgumentParser(description="Kills servers at each file call of their start, and checks what they leave.")
    words.add_argument("--nodes", type=int, choices=(3, 5), default=3)
    words.add_argument("program", nargs="?", default=str(PROGRAM))
    given = words.parse_args()
    try:
        main(given.program, given.nodes)
    except (Wrong, OSError, felzoren.Refused, felzoren.BadAnswer) as error:
        sys.exit(f"tools/killed_starts.py: {error}")
