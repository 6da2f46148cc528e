#!/usr/bin/env python3
"""Refuses `flightd` one allocation or thread after another while it plays a script and while it serves, and gives a script faulty peers.

    tools/refused_program.py [--part K] [PROGRAM]

PROGRAM is crates/flightd/out/flightd, as it was built. refused.c, which cc builds into a folder, is preloaded into it: it counts all calls of
malloc and the like and all starts of threads in the whole process, and refuses one of them. It refuses each of the first FIRST of a process,
and DRAWN of the others, drawn by SEED. As threads run at the same time, a number does not mean the same request in each run.

With --part it refuses only every fourth of these, from the first, second, third or fourth on, as K is 0, 1, 2 or 3. With `--part turn` K is
the number of commits modulo 4, and is printed: so each gate (./test) tries the next part.

- `flightd script` plays the calls of the script of examples/scripts in another order, and a script without calls. It must end with the
  expected lines; or with a refusal for want of memory in some of them, and after these what follows from it; or with `receipts bad`; or with
  status 1 and the name of a fault after a beginning of such lines; or, while its arguments are read, as it does for wrong ones, with
  `error: out of memory`. Or it asks a node that is down for a version again and again; the tool does not wait for the end of that.
- `flightd serve` must end in the same way for its arguments, or with status 1 and `OutOfMemory` after a beginning of its lines. Or it serves:
  an upload is put at each of the three nodes in turn, and its version is read at the next. A call that is refused for want of memory, or
  whose connection is cut, is repeated, and must then be answered; if its node went down, the next one must answer. Each upload must be its
  own version and in the files of most nodes; the server must end by SIGTERM alone, and report nothing.

It prints a row for each of the three: how many requests there are, how many were refused, and how the runs ended. The status is 1 if a run
ended in another way: by a signal, without an answer, with another name, or with a wrong answer. It needs no proofs but those of the program,
and a minute or some minutes, or a quarter of that for one part."""
import argparse
import collections
import json
import re
import socket
import subprocess
import sys
import tempfile
import threading
import time
from typing import NamedTuple

from refusing import Refusing, add_part, part_of, places_of
from servers import CALL_SECONDS, LEARN_SECONDS, PROGRAM, TOP, Wrong, addresses, felzoren, free_port, records_in, reset, want

SCRIPT = TOP / "examples" / "scripts" / "first_upload.json"
# How many of the first requests are refused one after another, and how many of the others.
FIRST, DRAWN = 300, 100
# A run that has not ended after this many seconds counts as hung, but for a script that asks for a version: it does so up to 10,000 times if
# the node is down, and takes a minute or more on a machine that does other things too.
RUN_SECONDS, ASKS = 20, "still asked for a version"
NODES = 3
# The refusals of a node that was refused memory, and of one that went down because it was refused memory for its record.
REFUSALS = {("OutOfMemory", 8), ("Store", 13), ("Down", 14)}
# The port of node 0 of a script's cluster, and the frame at the end of a request.
FIRST_PORT, END_FRAME = 42_000, bytes.fromhex("8000000000")
# The message, with status 2, if memory is refused while the arguments are read.
WORDS_REFUSED = "error: out of memory\n"


# ---- scripts


def is_line_of(number, line, due, acknowledged):
    """Whether a call of the script may have this line, given whether the upload was acknowledged before."""
    if line == due:
        return True
    refused = re.fullmatch(r"(\d+) status (\d+) (\w+)", line)
    if refused and int(refused[1]) == number and (refused[3], int(refused[2])) in REFUSALS:
        return True
    others = {f"{number} status 14 Unavailable", f"{number} status 5 NoTable", f"{number} put 1"}
    return not acknowledged and line in others


def judged_lines(lines, due):
    """Checks that lines are those of the first calls, and returns how many differ from those without a refusal."""
    acknowledged = False
    for number, line in enumerate(lines):
        if not is_line_of(number, line, due[number], acknowledged):
            raise Wrong(f"line {line!r} in place of {due[number]!r}")
        acknowledged = acknowledged or line == due[number] and " put " in line
    return sum(line != it for line, it in zip(lines, due))


def script_ended(status, output, error, due):
    """How a script ended, as a name."""
    lines = output.splitlines()
    if output and not output.endswith("\n") or len(lines) > len(due):
        raise Wrong(f"the output {output[-200:]!r}")
    others = judged_lines(lines[: len(due) - 1], due)
    ending = (status, error, lines[len(due) - 1 :])
    if ending == (0, "", ["receipts ok"]):
        return "went on, with calls refused" if others else "went on"
    if ending == (1, "", ["receipts bad"]):
        return "`receipts bad`"
    if (status, output, error) == (2, "", WORDS_REFUSED):
        return "`out of memory` of the words"
    name = re.fullmatch(r"flightd: (OutOfMemory|Io|BadAnswer)\n", error)
    if status == 1 and name and len(lines) < len(due):
        return f"`{name[1]}`"
    raise Wrong(f"status {status}, {error!r} after {len(lines)} lines")


def play(refusing, file, due, at):
    """How a script ends if the request of this number is refused."""
    process = refusing.start(["script", file], at)
    try:
        output, error = process.communicate(timeout=RUN_SECONDS)
    except subprocess.TimeoutExpired:
        before = refusing.seen()
        time.sleep(1)
        after = refusing.seen()
        process.kill()
        output, error = process.communicate()
        lines = output.splitlines()
        judged_lines(lines, due)
        if before != after and " get " in due[len(lines)] and not error:
            return ASKS
        raise Wrong(f"no end in {RUN_SECONDS} seconds, after {output[-200:]!r} and {error!r}") from None
    return script_ended(process.returncode, output, error, due)


def play_example(refusing, at):
    """Plays the calls of the example in another order: the upload is put twice before it is asked for, so that one put succeeds."""
    script, lines = json.loads(SCRIPT.read_text(encoding="utf-8")), SCRIPT.with_suffix(".lines").read_text(encoding="utf-8").splitlines()
    order = [0, 5, 1, 2, 3, 4, 6, 7]
    file = refusing.folder / "example.json"
    file.write_text(json.dumps({**script, "calls": [script["calls"][it] for it in order]}), encoding="utf-8")
    due = [f"{number} {lines[it].partition(' ')[2]}" for number, it in enumerate(order)]
    return play(refusing, file, [*due, lines[-1]], at)


def play_nothing(refusing, at):
    file = refusing.folder / "nothing.json"
    file.write_text('{"nodes":3,"calls":[]}', encoding="ascii")
    return play(refusing, file, ["receipts ok"], at)


# ---- servers


def tried(call):
    """What a call returns, and the fault if it was not answered."""
    try:
        return call(), None
    except felzoren.Refused as refused:
        if (refused.name, refused.status) not in REFUSALS:
            raise
        return None, refused.name
    except felzoren.BadAnswer:
        return None, "BadAnswer"
    except ConnectionError:
        return None, "reset"


class Caller:
    """Makes calls at the nodes of a server, and keeps what they were refused for."""

    def __init__(self, port):
        self.clients = [felzoren.connect(f"127.0.0.1:{port + number}", timeout=CALL_SECONDS) for number in range(NODES)]
        self.faults = []

    def insist(self, node, call):
        """What a call at this node returns. One request is refused in a run, so a repeated call is answered, unless the node is down."""
        for place in (node, node, node + 1):
            found, fault = tried(lambda place=place: call(self.clients[place % NODES]))
            if fault is None:
                return found
            self.faults.append(fault)
            if sum(it not in ("Store", "Down") for it in self.faults) > 1:
                break
        raise Wrong(f"a call that is not answered: {self.faults}")

    def version(self, node, number):
        """The rows of a version, once the node has learned it."""
        end = time.monotonic() + LEARN_SECONDS

        def once(client):
            while True:
                try:
                    return client.get("t", number).to_pylist()
                except felzoren.Refused as refused:
                    if refused.name != "Unavailable" or time.monotonic() > end:
                        raise
                    time.sleep(0.01)

        return self.insist(node, once)


def calls(port, folder):
    """Makes puts and gets at each node, and checks their results; returns the faults for which they were refused."""
    caller = Caller(port)
    rows, ids = [], []
    for node in range(NODES):
        rows.append({"number": node})
        ids.append(bytes([node]) * 16)
        ack = caller.insist(node, lambda client, node=node: client.put("t", [rows[node]], id=ids[node]))
        want((ack.version, ack.id), (node + 1, ids[node].hex()))
        want(caller.version(node + 1, node + 1), rows)
    files = [b"".join(records_in(f"{folder}/node-{number}.rec")) for number in range(NODES)]
    for name in ids:
        want(2 * sum(name in file for file in files) > NODES, True)
    return caller.faults


def serve(refusing, at):
    """How a server ends, or serves, if the request of this number is refused."""
    with tempfile.TemporaryDirectory() as folder:
        port = free_port(NODES)
        due = addresses(port, NODES)
        process = refusing.start(["serve", "--data", folder, "--port", port], at)
        watch = threading.Timer(RUN_SECONDS, process.kill)
        watch.start()
        try:
            lines = [process.stdout.readline() for _ in due]
            if lines == due:
                faults = calls(port, folder)
                want(process.poll(), None)
                process.terminate()
            output, error = process.communicate(timeout=CALL_SECONDS)
        finally:
            watch.cancel()
            process.kill()
    if lines == due:
        want((process.returncode, output, error), (-15, "", ""))
        return "went on, with calls refused" if faults else "went on"
    output = "".join(lines) + output
    if (process.returncode, output, error) == (2, "", WORDS_REFUSED):
        return "`out of memory` of the words"
    want((process.returncode, error, "".join(due).startswith(output)), (1, "flightd: OutOfMemory\n", True))
    return "`OutOfMemory`"


# ---- another peer than the nodes


def read_request(peer):
    request = b""
    while not request.endswith(END_FRAME):
        data = peer.recv(65_536)
        want(data != b"", True)
        request += data
    return request


def relayed(peer):
    """Has a call answered by node 0 of a script's cluster."""
    request = read_request(peer)
    with socket.create_connection(("127.0.0.1", FIRST_PORT), CALL_SECONDS) as node:
        node.sendall(request)
        while data := node.recv(65_536):
            peer.sendall(data)


def says_nothing(peer):
    read_request(peer)


def says_no_frame(peer):
    read_request(peer)
    peer.sendall(b"HTTP/1.1 400 Bad Request\r\n\r\n")


def ends_early(peer):
    """An answer without its trailer."""
    read_request(peer)
    peer.sendall(bytes(5))


def resets(peer):
    peer.recv(1)
    reset(peer)


def played_over(refusing, answers):
    """How a script ends whose calls are answered in these ways, one after another."""
    with socket.create_server(("127.0.0.1", 0)) as listener:
        listener.settimeout(CALL_SECONDS)
        process = refusing.start(["script", SCRIPT], 0, CONNECT_TO=str(listener.getsockname()[1]))
        for answer in answers:
            with listener.accept()[0] as peer:
                peer.settimeout(CALL_SECONDS)
                answer(peer)
        return (*process.communicate(timeout=CALL_SECONDS), process.returncode)


def other_peers(refusing):
    """Scripts whose first calls are answered by a node, and the next one by a faulty peer or by nobody: the lines of the first calls are
    printed, and the fault is reported."""
    due = SCRIPT.with_suffix(".lines").read_text(encoding="utf-8").splitlines(keepends=True)
    answers = ((says_nothing, "BadAnswer"), (says_no_frame, "BadAnswer"), (ends_early, "BadAnswer"), (resets, "Io"))
    for count in (0, 1, 2, len(due) - 2):
        for answer, name in answers:
            ended = played_over(refusing, [*([relayed] * count), answer])
            want(ended, ("".join(due[:count]), f"flightd: {name}\n", 1))
    process = refusing.start(["script", SCRIPT], 0, CONNECT_TO=str(free_port(1)))
    want((*process.communicate(timeout=CALL_SECONDS), process.returncode), ("", "flightd: Io\n", 1))
    want(played_over(refusing, [relayed] * (len(due) - 1)), ("".join(due), "", 0))
    return 4 * len(answers) + 1


# ---- the results


class Sum(NamedTuple):
    """The results of the runs of a command."""

    command: str
    asked: int
    ended: collections.Counter
    faults: list


def runs_of(command, run, refusing, part):
    """Refuses one request after another to a command, or those of a part."""
    ended, faults = collections.Counter(), []
    want(run(refusing, 0), "went on")
    asked = refusing.seen()[0]
    for at in places_of(asked, FIRST, DRAWN, part):
        try:
            found = run(refusing, at)
            ended[found if refusing.seen()[1] else "not asked for"] += 1
        except (Wrong, OSError, subprocess.TimeoutExpired, felzoren.Refused, felzoren.BadAnswer) as error:
            faults.append(f"{command}, {at}: {error!r}")
    return Sum(command, asked, ended, faults)


def told(found):
    refused = sum(found.ended.values()) - found.ended["not asked for"] + len(found.faults)
    named = ", ".join(f"{count} {name}" for name, count in sorted(found.ended.items()) if name.startswith("`"))
    on, calls_refused = found.ended["went on"], found.ended["went on, with calls refused"]
    return f"| {found.command} | {found.asked:,} | {refused} | {named} | {on} | {calls_refused} | {found.ended[ASKS]} | {len(found.faults)} |"


def main(program, part):
    began = time.monotonic()
    with tempfile.TemporaryDirectory() as folder:
        refusing = Refusing(program, folder)
        print(f"{other_peers(refusing)} scripts with a call that is answered by another peer: each ends with its fault, after its lines")
        runs = (("`flightd script`", play_example), ("`flightd script`, without calls", play_nothing), ("`flightd serve`", serve))
        sums = [runs_of(command, run, refusing, part) for command, run in runs]
    print("| Command | Asked for | Refused | Ended by a name | Went on | with a call that was refused | Still asked for a version | Otherwise |\n"
          "|---|---|---|---|---|---|---|---|")
    for found in sums:
        print(told(found))
    for found in sums:
        for fault in found.faults:
            print(f"refused_program: {fault}")
    print(f"{time.monotonic() - began:.0f} seconds")
    sys.exit(1 if any(found.faults for found in sums) else 0)


if __name__ == "__main__":
    given = argparse.ArgumentParser(description=__doc__, formatter_class=argparse.RawDescriptionHelpFormatter)
    given.add_argument("program", nargs="?", metavar="PROGRAM", default=str(PROGRAM))
    add_part(given)
    words = given.parse_args()
    try:
        main(words.program, part_of(words.part, "tools/refused_program.py"))
    except (Wrong, OSError) as error:
        sys.exit(f"tools/refused_program.py: {error}")
