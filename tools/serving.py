#!/usr/bin/env python3
"""Starts servers, calls each of their nodes with the library in clients/python, and checks what a user sees.

    tools/serving.py [PROGRAM]

It plays the scripts of examples/scripts, and compares the output with the lines beside them. Then it starts `PROGRAM serve`
(crates/flightd/out/flightd) with three nodes and then with five, at ports that it finds free, and checks: the lines with the nodes'
addresses; an upload that is put at one node and got at each; its repetition, and another upload with its id; puts of several callers at
once; calls that are cut off; silent peers; the commands of a client, and their progress in a slow call; and the files of records: which a
server accepts, and that each acknowledged upload is in the files of most nodes, even if the server is killed while it takes others.
Servers with `--resume` are started over the files of earlier ones that were killed or ended by SIGTERM: each node serves at once what was
acknowledged before, byte for byte, an upload that is put again gets its version, and records are only added to the files; if there are no
files, they start anew. A folder in which a file is missing, cut, damaged, old, exchanged or in use, or whose cluster.json does not fit,
keeps a server from starting, and is left as it was. The tool causes each fault that keeps a server or a script from starting or from
reporting, except for an unreadable file, and for memory that is refused later than at the start (tools/refused_program.py).

Last it preloads disks.c, which cc builds into a folder, into servers. The library counts the syncs of their records. It has a sync fail:
that node stays down, and the others serve. And it has the disks of two of three nodes be full, so that no put is decided: callers leave, or
are refused after as many seconds as `--wait` says, and once there is room puts are acknowledged again. The status is 1 if a check fails."""
import concurrent.futures
import contextlib
import fcntl
import hashlib
import json
import os
import pty
import random
import re
import resource
import shutil
import signal
import socket
import struct
import subprocess
import sys
import tempfile
import threading
import time
from pathlib import Path

from servers import CALL_SECONDS, LEARN_SECONDS, MEMORY, MOST_CONNECTIONS, PROGRAM, TOP, Wrong, addresses, felzoren, file_limit, free_port
from folder_model import chosen_by, missing_sums, report_of
from servers import got, learned, limited, look, records_in, records_of, request_of, reset, serve_words, server, started, want
from servers import without_progress
from toolbox import show_help

# For how long an answer is held back: a call shows no progress for a second.
HELD_SECONDS = 1.5
CALLERS, PUTS = 8, 6
# The steps in which a process is given more memory, and the most that it is given, in bytes.
MEMORY_STEP, MOST_MEMORY = 4 << 20, 1 << 30
CUTS, SEED = 60, 20261127
# The limit of files for a process whose standard output is a file with little room: a server's other files are smaller.
FILE_BYTES = 1 << 16
# The limit of files for a server whose files are full after some uploads.
FULL_BYTES = 8_000
# How many servers are resumed over one folder, one after another.
RESUMED = 5
# Which syncs after a start fail: the two of the first record of a put, which begins an attempt, of the third one, which promises, and of
# the sixth one, which accepts the upload if no node is late. And how many tries to start the node again are waited for.
UNSYNCED, TRIES = (1, 2, 5, 6, 11, 12), 2
# How many callers leave, more than a node has places; how many seconds a put waits until it is refused; and by how many an answer may be
# late.
LEAVING, WAIT_SECONDS, LATE_SECONDS = 140, 10, 5
# How many bytes are cut off a file that a server has.
CUT_BYTES = 10
ROWS = [{"shop": "Bern", "sold": 3}, {"shop": "Zürich", "sold": None}]
# The second line of a fault about a file or a folder, or how that line begins.
OLD, MISSING = "has records: --resume goes on over them", "is missing: "
# Its text about damage, after the byte; and that about a file whose first record is not whole.
COPIES = "; put back whole copies of the node's two files, as they were last"
NO_RECORD, CHANGED = "this gate is open, but the record after it is incomplete", "the record after this gate is not the one that was written"
CLOSED = "this gate is closed, but a record was written after it"
NO_RECORDS = f"byte 0: {NO_RECORD}{COPIES}"
IN_USE, NOT_OPENED = "is in use by another process", "can't be opened or made"
SHORTER, OTHER_COUNT = "is shorter than the last server left it: ", "has the files of another number of nodes: "
NOT_LEFT, NOT_ITS_OWN = "is not the file that the last server left: ", "has the records of another node or cluster: "
TWO_CLUSTERS, NOT_WRITTEN = "has the files of two clusters: ", "has a cluster.json that no server wrote: "
# A promise to node 4 in slot 0: in the file of a node of three it names a node that does not exist.
TO_NODE_4 = bytes.fromhex("0802180c2004")
# What a process that ends during a write may leave after a closed gate: the length of a record, the record and a gate. It is longer than the
# next record, and what is left of it after that looks like open gates.
BEGUN = struct.pack("<I", 40) + b"\x01" * 40 + b"\0"


def refusal(call, *given, **named):
    """The name and the status of a call's refusal."""
    try:
        found = call(*given, **named)
    except felzoren.Refused as refused:
        return refused.name, refused.status
    raise Wrong(f"{found!r} in place of a refusal")


def puts_and_gets(clients):
    """An upload is put at the last node and got at each; put again it is the same version, and another upload with its id is refused."""
    ack = clients[-1].put("sales", ROWS)
    want(ack.version, 1)
    for client in clients:
        want(got(client, "sales", 1), ROWS)
    want(clients[0].put("sales", ROWS, id=ack.id).version, 1)
    want(refusal(clients[1].put, "sales", ROWS[:1], id=ack.id), ("Conflict", 6))
    want(refusal(clients[1].put, "sales", [{"other": 1}]), ("SchemaMismatch", 9))
    want(refusal(clients[0].get, "sales", 2), ("Unavailable", 14))
    want(refusal(clients[0].info, "nothing"), ("NoTable", 5))


def describes(clients, port):
    """Each node describes the table, and where it is served."""
    locations = [f"plain+tcp://127.0.0.1:{port + number}" for number in range(len(clients))]
    for client in clients:
        info = client.info("sales")
        want((info.ticket, list(info.locations)), (felzoren.Ticket("sales", 1), locations))
        want((info.total_records, [it.table for it in client.list()]), (len(ROWS), ["sales"]))


def first_upload(clients):
    """Puts an upload of three numbers, and checks how many bytes its version has."""
    want(clients[0].put("t", {"a": [1, None, 3]}, schema={"a": "int8"}, id=bytes(range(16))).version, 1)
    info = clients[0].info("t")
    want((info.ticket.version, len(info.locations), info.total_records, info.total_bytes), (1, len(clients), 3, 349))


def put_many(clients, caller):
    """The versions of uploads that a caller puts one after another, and their rows."""
    client = clients[caller % len(clients)]
    return {client.put("many", [{"number": caller * PUTS + it}]).version: caller * PUTS + it for it in range(PUTS)}


def several_callers(clients):
    """Callers at once: each upload makes one version, in which it comes after the earlier ones, at each node."""
    with concurrent.futures.ThreadPoolExecutor(CALLERS) as pool:
        versions = {}
        for found in pool.map(lambda caller: put_many(clients, caller), range(CALLERS)):
            versions.update(found)
    want(sorted(versions), list(range(1, CALLERS * PUTS + 1)))
    wanted = [{"number": versions[it]} for it in sorted(versions)]
    for client in clients:
        want(got(client, "many", len(wanted)), wanted)
        want(got(client, "many", 3), wanted[:3])


def cut_calls(clients, port):
    """Calls that are cut at any byte, some with a reset: the nodes go on, and the calls have no effect."""
    drawn, calls = random.Random(SEED), (lambda client: client.put("cut", ROWS, id=bytes(16)), lambda client: client.get("sales", 1))
    texts = list(map(request_of, calls))
    for _ in range(CUTS):
        text = drawn.choice(texts)
        with socket.create_connection(("127.0.0.1", port + drawn.randrange(len(clients))), CALL_SECONDS) as peer:
            peer.sendall(text[: drawn.randrange(len(text))])
            if drawn.randrange(2):
                reset(peer)
    want(got(clients[0], "sales", 1), ROWS)
    want(refusal(clients[0].info, "cut"), ("NoTable", 5))


def silent_peers(clients, port):
    """Silent peers hold nobody up while there is a place left; if they have all places, others wait until one of them ends."""
    with contextlib.ExitStack() as peers:
        for _ in range(MOST_CONNECTIONS - 1):
            peers.enter_context(socket.create_connection(("127.0.0.1", port), CALL_SECONDS))
        want(got(clients[0], "sales", 1), ROWS)
        peers.enter_context(socket.create_connection(("127.0.0.1", port), CALL_SECONDS))
        want(got(clients[1], "sales", 1), ROWS)
        with concurrent.futures.ThreadPoolExecutor(1) as pool:
            waiting = pool.submit(got, clients[0], "sales", 1)
            time.sleep(0.3)
            want(waiting.done(), False)
            peers.close()
            want(waiting.result(CALL_SECONDS), ROWS)


def not_served(program, folder, name, says=None, nodes=3, resumed=False, port=None, limit=None):
    """A server with its records in this folder does not start, and reports this fault; if that is about the folder or a file, with a second
    line, which begins with `says`."""
    words = serve_words(program, nodes, port or free_port(nodes), folder, resumed)
    status, output, error = ended(words, limit=limit)
    lines = (without_progress(error) if resumed else error).splitlines(keepends=True)
    found = lines[:1] + [line[: len(says)] for line in lines[1:]] if says else lines
    want((status, output, found, error[-1:]), (1, "", [f"flightd: {name}\n", *([says] if says else [])], "\n"))


def taken_port(program, port):
    """A port that is in use."""
    with tempfile.TemporaryDirectory() as folder:
        not_served(program, folder, "Bind", port=port - 1)


def ended(words, stdout=subprocess.PIPE, stderr=subprocess.PIPE, limit=None):
    """The status, standard output and standard error of these words."""
    ran = subprocess.run(words, stdout=stdout, stderr=stderr, text=True, timeout=CALL_SECONDS, check=False, preexec_fn=limit)
    return ran.returncode, ran.stdout or "", ran.stderr or ""


def into_room(words, room):
    """The same, with a standard output that is a file with room for `room` bytes."""
    with tempfile.TemporaryFile("w+", encoding="utf-8") as file:
        file.write(" " * (FILE_BYTES - room))
        file.flush()
        status, _, error = ended(words, stdout=file, limit=file_limit(FILE_BYTES))
        file.seek(FILE_BYTES - room)
        return status, file.read(), error


def into_nothing(words):
    """The status and standard error of a program whose standard output takes nothing: a full disk, a pipe that nobody reads, and none."""
    read, write = os.pipe()
    os.close(read)
    with open("/dev/full", "w", encoding="utf-8") as full, os.fdopen(write, "w") as unread:
        for output, limit in ((full, None), (unread, None), (None, lambda: os.close(1))):
            status, _, error = ended(words, stdout=output, limit=limit)
            yield status, error


def lost_addresses(program):
    """The lines with the addresses can't be written, or only in part: the output is a beginning of them."""
    port = free_port(3)
    lines = "".join(addresses(port, 3))
    with tempfile.TemporaryDirectory() as folder:
        words = [program, "serve", "--port", str(port), "--data", folder]
        want(list(into_nothing(words)), [(1, "flightd: Io\n")] * 3)
        for room in (1, 24, 25, 26, len(lines) - 1):
            want(into_room(words, room), (1, lines[:room], "flightd: Io\n"))


def without_descriptors(program):
    """A process that may have few files and sockets open, of which three are its standard streams and a fourth serves to load it. With each
    further one it fails later: a server first at the nodes' files of records, the last node's first, then at those of sums, then at
    cluster.json, then at a port; a script first at a port, then at a connection."""
    names = [f"/node-{number}.{ending}" for ending in ("rec", "sum") for number in (2, 1, 0)]
    opened = [(count, "Open", f"{name} {NOT_OPENED}") for count, name in enumerate(names, 4)]
    for count, name, says in (*opened, (10, "Device", " has a cluster.json that can't be read or written"), (11, "Bind", None)):
        with tempfile.TemporaryDirectory() as folder:
            not_served(program, folder, name, says and folder + says, limit=limited(resource.RLIMIT_NOFILE, count))
    for count, name in ((4, "Bind"), (5, "Bind"), (6, "Io")):
        found = ended([program, "script", SCRIPT], limit=limited(resource.RLIMIT_NOFILE, count))
        want(found, (1, "", f"flightd: {name}\n"))


def with_memory(size):
    return limited(resource.RLIMIT_AS, size)


def starts(program, size):
    """Whether a server with this much memory prints where its nodes are. If not, it must have ended for want of memory."""
    with tempfile.TemporaryDirectory() as folder:
        port = free_port(3)
        words = [program, "serve", "--port", str(port), "--data", folder]
        lines = "".join(addresses(port, 3))
        with subprocess.Popen(words, stdout=subprocess.PIPE, stderr=subprocess.PIPE, text=True, preexec_fn=with_memory(size)) as process:
            told_of = "".join(process.stdout.readline() for _ in range(3))
            process.terminate()
            output, error = process.communicate(timeout=CALL_SECONDS)
        if told_of == lines:
            want((process.returncode, output, error), (-15, "", ""))
            return True
        want((process.returncode, lines.startswith(told_of + output), error), (1, True, "flightd: OutOfMemory\n"))
        return False


def little_memory(program):
    """A process with little memory (RLIMIT_AS), from the least with which the program prints its version: each thread asks for more. A
    server ends for want of memory until it has enough to start, and so does a script with the least."""
    sizes = iter(range(MEMORY_STEP, MOST_MEMORY, MEMORY_STEP))
    least = next(it for it in sizes if ended([program, "--version"], limit=with_memory(it))[0] == 0)
    want(ended([program, "script", SCRIPT], limit=with_memory(least)), (1, "", "flightd: OutOfMemory\n"))
    tries = next(count for count, size in enumerate(sizes) if starts(program, size))
    want(tries > 1, True)


# ---- the commands of a client

ID = "101112131415161718191a1b1c1d1e1f"
# The port of node 0 of a script's cluster.
FIRST_PORT = 42_000
LINES = '{"shop":"Bern","sold":3}\n{"shop":"Zürich","sold":null}\n'
SCRIPT = str(TOP / "examples" / "scripts" / "first_upload.json")
# The frame at the end of a request.
END_FRAME = bytes.fromhex("8000000000")


def told(program, words, given=""):
    """The status, standard output and standard error of the program."""
    ran = subprocess.run([program, *words], input=given, capture_output=True, text=True, timeout=CALL_SECONDS, check=False)
    return ran.returncode, ran.stdout, ran.stderr


def latest(program, address, table, rows):
    """Waits until a node serves these rows as the latest version."""
    end = time.monotonic() + LEARN_SECONDS
    while told(program, ["get", address, table]) != (0, rows, ""):
        if time.monotonic() > end:
            raise Wrong(f"not the rows {rows!r}")
        time.sleep(0.05)


def client_words(program, clients, port):
    """Rows are put and got by the commands of a client, and tables are listed and described."""
    here = [f"127.0.0.1:{port + number}" for number in range(len(clients))]
    put = ["put", here[0], "words", "-", "--id", ID]
    want(told(program, put, LINES), (0, f"{ID} 1\n", ""))
    want(told(program, put, LINES), (0, f"{ID} 1\n", ""))
    want(told(program, put, LINES[:25]), (6, "", "flightd: Conflict\n"))
    for address in here:
        latest(program, address, "words", LINES)
    with tempfile.TemporaryDirectory() as folder:
        file = Path(folder) / "rows.jsonl"
        file.write_text(LINES, encoding="utf-8")
        status, line, error = told(program, ["put", f"localhost:{port + 1}", "words", str(file)])
    want((status, line[32:], error), (0, " 2\n", ""))
    for address in here:
        latest(program, address, "words", LINES + LINES)
    want(told(program, ["get", here[1], "words", "1"]), (0, LINES, ""))
    locations = [f"plain+tcp://{address}" for address in here]
    everywhere = "".join(f"{it} same\n" for it in locations)
    want(told(program, ["get", here[0], "words", "--all-locations"]), (0, LINES + LINES, everywhere))
    info = clients[0].info("words")
    want(told(program, ["list", here[0]])[1].splitlines()[-1], f"words 2 4 {info.total_bytes}")
    served = [*(f"location {it}" for it in locations), "field shop: utf8", "field sold: int64"]
    told_of = "".join(f"{it}\n" for it in ["version 2", "rows 4", f"bytes {info.total_bytes}", *served])
    want(told(program, ["info", here[0], "words"]), (0, told_of, ""))
    typed = ["put", here[0], "typed", "-", "--schema", "small: int8 not null, day: date32"]
    want(told(program, typed, '{"small":1,"day":2}\n')[0], 0)
    want(str(clients[0].schema("typed")), "small: int8 not null\nday: date32")
    for words, given, status, name in (
        (typed, '{"small":1000,"day":2}\n', 1, "line 1, field 0: OutOfRange"),
        (["get", here[0], "words", "9"], "", 14, "Unavailable"),
        (["get", here[0], "none"], "", 5, "NoTable"),
        (["info", here[0], "none"], "", 5, "NoTable"),
        (["list", f"127.0.0.1:{free_port(1)}"], "", 1, "Connect"),
        (["put", here[0], "words", "/no/such/file"], "", 1, "Io"),
        (["put", "here", "words", "/no/such/file"], "", 2, "BadAddress"),
        (["put", here[0], "no words", "/no/such/file"], "", 2, "BadTable"),
        (["put", here[0], "words", "/no/such/file", "--id", ID.upper()], "", 2, "BadId"),
        (["get", here[0], "no words", "1"], "", 2, "BadTable"),
        (["get", here[0], "no words"], "", 2, "BadTable"),
        (["get", here[0], "no words", "--all-locations"], "", 2, "BadTable"),
        (["info", here[0], "no words"], "", 2, "BadTable"),
        (["put", here[0], "words", "-"], "", 1, "NoRows"),
    ):
        want(told(program, words, given), (status, "", f"flightd: {name}\n"))


def held_back(port):
    """The port of a relay to this one, which holds each answer back for a while after its first byte."""

    def relay(near):
        with near, socket.create_connection(("127.0.0.1", port)) as far:
            threading.Thread(target=copied, args=(near, far), daemon=True).start()
            near.sendall(far.recv(1))
            time.sleep(HELD_SECONDS)
            copied(far, near)

    def copied(one, other):
        with contextlib.suppress(OSError):
            while data := one.recv(65_536):
                other.sendall(data)
            other.shutdown(socket.SHUT_WR)

    def serve():
        while True:
            threading.Thread(target=relay, args=(listener.accept()[0],), daemon=True).start()

    listener = socket.create_server(("127.0.0.1", 0))
    threading.Thread(target=serve, daemon=True).start()
    return listener.getsockname()[1]


def at_terminal(program, words):
    """What the program prints, and what it reports to a terminal."""
    terminal, errors = pty.openpty()
    with subprocess.Popen([program, *words], stdout=subprocess.PIPE, stderr=errors, text=True) as ran:
        os.close(errors)
        printed = ran.stdout.read()
    reported = b""
    # A terminal that nobody has open any more fails a read.
    with contextlib.suppress(OSError):
        while data := os.read(terminal, 1_024):
            reported += data
    os.close(terminal)
    return printed, reported.decode()


def slow_answers(program, port):
    """A call that takes long shows its progress at a terminal, and nowhere else."""
    words = ["get", f"127.0.0.1:{held_back(port)}", "words", "1"]
    printed, reported = at_terminal(program, words)
    want((printed, re.fullmatch(r"(\d+ MiB received so far\r\n)+", reported) is not None), (LINES, True))
    want(told(program, words), (0, LINES, ""))


def lost_answer(program):
    """A put whose server takes the request and closes without an answer prints the id to put it again with: that of the request."""
    with socket.create_server(("127.0.0.1", 0)) as listener, concurrent.futures.ThreadPoolExecutor(1) as pool:
        listener.settimeout(CALL_SECONDS)
        words = ["put", f"127.0.0.1:{listener.getsockname()[1]}", "words", "-"]
        running = pool.submit(told, program, words, LINES)
        peer, _ = listener.accept()
        request = b""
        with peer:
            peer.settimeout(CALL_SECONDS)
            while not request.endswith(END_FRAME):
                request += peer.recv(65_536)
        status, output, error = running.result(CALL_SECONDS)
    again = "flightd: BadAnswer\nflightd: put it again with --id "
    want((status, output, error[: len(again)]), (1, "", again))
    want((error[len(again) + 32 :], request.count(error[len(again) :][:32].encode())), ("\n", 1))


def bad_script(program):
    """A script with an invalid call reports which one it is."""
    with tempfile.TemporaryDirectory() as folder:
        file = Path(folder) / "calls.json"
        file.write_text('{"nodes":3,"calls":[["info",0,"t"],["info",3,"t"]]}', encoding="utf-8")
        call = "call 1 of `calls` is not an array of a word, a node's number and that word's arguments"
        want(told(program, ["script", str(file)]), (1, "", f"flightd: BadScript\nflightd: {call}\n"))


def script_without_a_port(program):
    """A script one of whose ports is in use."""
    for node in range(3):
        with socket.create_server(("127.0.0.1", FIRST_PORT + node)):
            want(told(program, ["script", SCRIPT]), (1, "", "flightd: Bind\n"))


def unread_script(program):
    """A script that does not exist, and a folder in its place."""
    for name in ("/no/such/file", "/"):
        want(told(program, ["script", name]), (1, "", "flightd: Io\n"))


def lost_lines(program):
    """A script whose lines can't be written, or only in part: the output is a beginning of them. With room for all of them it is played."""
    words, lines = [program, "script", SCRIPT], Path(SCRIPT).with_suffix(".lines").read_text(encoding="utf-8")
    want(list(into_nothing(words)), [(1, "flightd: Io\n")] * 3)
    first = lines.index("\n")
    for room in (0, 1, first, first + 1, first + 2, len(lines) // 2, lines.index("receipts"), len(lines) - 1):
        want(into_room(words, room), (1, lines[:room], "flightd: Io\n"))
    want(into_room(words, len(lines)), (0, lines, ""))


def lost_fault(program):
    """If a fault can't be reported, only the status shows it."""
    with socket.create_server(("127.0.0.1", FIRST_PORT)), open("/dev/full", "w", encoding="utf-8") as full:
        for stderr, limit in ((full, None), (None, lambda: os.close(2))):
            want(ended([program, "script", SCRIPT], stderr=stderr, limit=limit), (1, "", ""))
            with tempfile.TemporaryDirectory() as folder:
                words = [program, "serve", "--port", str(FIRST_PORT - 2), "--data", folder]
                want(ended(words, stderr=stderr, limit=limit), (1, "", ""))


# ---- the files of records


def uploads_kept(folder, nodes, ids):
    """Each of these uploads is in a record of most nodes."""
    files = [b"".join(records_in(f"{folder}/node-{number}.rec")) for number in range(nodes)]
    for name in ids:
        want(2 * sum(name in file for file in files) > nodes, True)


def show_records(program, file):
    """`flightd records` prints a line for each record of a file, and where the file is damaged once its end is cut off."""
    status, lines, error = told(program, ["records", file])
    want((status, len(lines.splitlines()), error), (0, len(records_in(file)), ""))
    want([line.split()[0] for line in lines.splitlines()], [str(number) for number in range(len(records_in(file)))])
    *front, last = records_in(file)
    place = sum(5 + len(record) for record in front)
    Path(file).write_bytes(Path(file).read_bytes()[: place + 5 + len(last) - 1])
    damage = f"byte {place}: this gate is open, but the record after it is incomplete\n"
    want(told(program, ["records", file]), (1, "", "flightd: Damaged\n" + damage))


def texts_in(folder):
    """The bytes of each file of a folder, if there is a folder."""
    folder = Path(folder)
    return {it.name: it.read_bytes() if it.is_file() else None for it in (folder.iterdir() if folder.is_dir() else ())}


def only_added(old, new):
    """Each file still begins with its old records, and may have more. So its closed gate may be open now, and what was after that gate, and
    meant nothing, may be overwritten."""
    for name in [it for it in old if it.endswith(".rec")]:
        gate = records_of(old[name])[1]
        again = new[name] == old[name] or records_of(new[name])[1] > gate
        want((name, again, new[name][:gate] == old[name][:gate], len(new[name]) >= len(old[name])), (name, True, True, True))


def refused(program, folder, name, says, nodes=3, resumed=False):
    """A server does not start over a folder, and neither changes nor adds a file there. Its line about the folder begins with `says`."""
    before = texts_in(folder)
    not_served(program, folder, name, folder + says, nodes, resumed)
    after = texts_in(folder)
    want([it for it in {**before, **after} if it not in before or it not in after or before[it] != after[it]], [])


def go_on_over(program, nodes, folder, table, acks):
    """A server is resumed over a folder: each node serves at once all that was acknowledged, each of these uploads at its version; one that
    is put again gets that version, and a new one, which is added to these, a later one."""
    old, latest = texts_in(folder), max((ack.version for ack in acks), default=0)
    with server(program, nodes, folder, resumed=True) as (clients, _):
        for client in clients if acks else ():
            found = client.get(table, latest)
            want((found.to_pylist() == ROWS * latest, len(found.uploads)), (True, latest))
            want([ack for ack in acks if found.uploads[ack.version - 1].id != ack.id], [])
        for ack in acks[:1] + acks[-1:]:
            want(clients[-1].put(table, ROWS, id=ack.id), ack)
        acks.append(clients[0].put(table, ROWS))
        want(acks[-1].version > latest, True)
        # A node that is ended before it opens the first gate leaves a file that has changed and has no more records.
        stand_everywhere(folder, nodes, bytes.fromhex(acks[-1].id))
    only_added(old, texts_in(folder))


def old_and_locked_files(program, nodes):
    """Files with records are not taken for a new cluster, and no files are taken while another server has them."""
    with tempfile.TemporaryDirectory() as top:
        folder = f"{top}/made/here"
        with server(program, nodes, folder) as (clients, _):
            acks = [client.put("kept", ROWS) for client in clients]
            for resumed in (False, True):
                not_served(program, folder, "Locked", f"{folder}/node-{nodes - 1}.rec {IN_USE}", nodes, resumed)
        uploads_kept(folder, nodes, [bytes.fromhex(ack.id) for ack in acks])
        refused(program, folder, "OldRecords", f"/node-0.rec {OLD}", nodes)
        show_records(program, f"{folder}/node-0.rec")


def bad_files(program):
    """For each node in turn a file that is damaged, has records or is locked by another process, and a folder in its place."""
    for number in range(3):
        for text, name, says in (("0104000000080118", "Damaged", NO_RECORDS), ("01040000000801180100", "OldRecords", OLD)):
            with tempfile.TemporaryDirectory() as folder:
                file = Path(f"{folder}/node-{number}.rec")
                file.write_bytes(bytes.fromhex(text))
                not_served(program, folder, name, f"{file} {says}")
                want(file.read_bytes(), bytes.fromhex(text))
        with tempfile.TemporaryDirectory() as folder, open(f"{folder}/node-{number}.rec", "wb") as file:
            fcntl.flock(file, fcntl.LOCK_EX)
            for resumed in (False, True):
                not_served(program, folder, "Locked", f"{file.name} {IN_USE}", resumed=resumed)
        with tempfile.TemporaryDirectory() as folder:
            os.mkdir(f"{folder}/node-{number}.rec")
            not_served(program, folder, "Open", f"{folder}/node-{number}.rec {NOT_OPENED}")


def no_folder(program):
    """A folder in which nothing can be written or made, and paths that can't be a folder."""
    for resumed in (False, True):
        with tempfile.TemporaryDirectory() as folder:
            says = f"{folder}/node-0.rec can't be read or written"
            not_served(program, folder, "Device", says, resumed=resumed, limit=file_limit(0))
            Path(f"{folder}/file").write_bytes(b"")
            os.symlink("itself", f"{folder}/itself")
            for name in (f"{folder}/file/below", f"{folder}/itself", "/proc/none"):
                not_served(program, name, "Open", f"{name} {NOT_OPENED}", resumed=resumed)
    with tempfile.NamedTemporaryFile() as file:
        not_served(program, file.name, "Open", f"{file.name}/node-2.rec {NOT_OPENED}")


def in_time(call, seconds=LEARN_SECONDS):
    """What a call returns once it is no longer refused, for example by a node that is down for a while."""
    end = time.monotonic() + seconds
    while True:
        try:
            return call()
        except felzoren.Refused:
            if time.monotonic() > end:
                raise
            time.sleep(0.1)


def full_later(program, limit, resumes_with):
    """Files that are full after some uploads: the next put ends with Store, and what was acknowledged is served by the other nodes, and soon
    by this one too, which starts again. Once there is room, it takes puts. A server of `resumes_with` over these files serves the same."""
    with tempfile.TemporaryDirectory() as folder:
        acks = []
        process, clients, _ = started(program, 3, folder, limit)
        try:
            try:
                while True:
                    acks.append(clients[0].put("full", ROWS))
            except felzoren.Refused as refused:
                want((refused.name, len(acks) > 0), ("Store", True))
            want(got(clients[1], "full", len(acks)), ROWS * len(acks))
            want(in_time(lambda: clients[0].get("full", len(acks)).to_pylist()), ROWS * len(acks))
            want(refusal(clients[0].put, "full", ROWS)[0] in ("Store", "Down"), True)
            uploads_kept(folder, 3, [bytes.fromhex(ack.id) for ack in acks])
            resource.prlimit(process.pid, resource.RLIMIT_FSIZE, (resource.RLIM_INFINITY, resource.RLIM_INFINITY))
            acks.append(in_time(lambda: clients[0].put("full", ROWS, id="77" * 16), 4 * LEARN_SECONDS))
            for client in clients:
                in_time(lambda node=client: node.get("full", acks[-1].version), 4 * LEARN_SECONDS)
        finally:
            process.terminate()
            _, error = process.communicate(timeout=CALL_SECONDS)
        want(without_progress(error), "")
        want("was down, and has started again" in error, True)
        acks.sort(key=lambda ack: ack.version)
        go_on_over(resumes_with, 3, folder, "full", acks)


def by_script(program):
    """The same for the script ./flightd, started by somebody who does not ignore SIGXFSZ. The script and the program are copied into a
    folder where the program counts as built from the sources, so that it isn't built."""
    with tempfile.TemporaryDirectory() as top:
        built = Path(f"{top}/crates/flightd/out/flightd")
        built.parent.mkdir(parents=True)
        for name in ("crates.txt", "HANDLES"):
            Path(f"{top}/{name}").touch()
        shutil.copy(program, built)
        full_later(shutil.copy(TOP / "flightd", top), file_limit(FULL_BYTES, ignores=False), program)


def acknowledged_until_killed(program, nodes, folder, seconds, least):
    """What a server acknowledged that was killed while callers put: after `seconds`, once at least `least` uploads were acknowledged."""
    acks = []

    def puts(client):
        with contextlib.suppress(OSError, felzoren.Refused, felzoren.BadAnswer):
            while True:
                acks.append(client.put("killed", ROWS))

    process, clients, _ = started(program, nodes, folder)
    callers = [threading.Thread(target=puts, args=(client,)) for client in clients for _ in range(2)]
    for caller in callers:
        caller.start()
    time.sleep(seconds)
    until = time.monotonic() + CALL_SECONDS
    while len(acks) < least and time.monotonic() < until:
        time.sleep(0.01)
    process.kill()
    process.communicate(timeout=CALL_SECONDS)
    for caller in callers:
        caller.join(CALL_SECONDS)
    want(len(acks) >= least, True)
    return acks


def killed(program, nodes, seconds, look=None, least=1):
    """A server is killed while callers put: each acknowledged upload is in the files of most nodes. `look`, if given, checks the files too.
    No server takes them for a new cluster, but one is resumed over them, and then another, and each node serves each of these uploads at
    once."""
    with tempfile.TemporaryDirectory() as folder:
        acks = acknowledged_until_killed(program, nodes, folder, seconds, least)
        files = [f"{folder}/node-{number}.rec" for number in range(nodes)]
        uploads_kept(folder, nodes, [bytes.fromhex(ack.id) for ack in acks])
        sums_stand(folder, nodes)
        tells_of_folder(program, folder, nodes)
        if look:
            look(files)
        # A server that was killed at once may have kept nothing, and its files count as new.
        first = next((number for number, file in enumerate(files) if records_in(file)), None)
        if first is not None:
            refused(program, folder, "OldRecords", f"/node-{first}.rec {OLD}", nodes)
        count = len(acks)
        for _ in range(2):
            go_on_over(program, nodes, folder, "killed", acks)
    return count


# ---- resumed servers


def mark_of(text):
    """The mark of a file that begins with these bytes: their number, and a digest of the first and the last of them."""
    return {"length": len(text), "sha256": hashlib.sha256(text[:4_096] + text[-4_096:]).hexdigest()}


def cluster_in(folder, nodes):
    """The id of the cluster in a folder whose server has just started. Checks that each file's mark is of a beginning with all its records."""
    text = Path(f"{folder}/cluster.json").read_text(encoding="ascii")
    told = json.loads(text)
    want((text.rstrip("\n"), list(told)), (json.dumps(told, separators=(",", ":")), ["members", "id", "files"]))
    files = [Path(f"{folder}/node-{number}.rec").read_bytes() for number in range(nodes)]
    want((told["members"], told["files"]), (nodes, [mark_of(file[: it["length"]]) for file, it in zip(files, told["files"])]))
    want([number for number, file in enumerate(files) if told["files"][number]["length"] < records_of(file)[1]], [])
    want(re.fullmatch("[0-9a-f]{32}", told["id"]) is not None, True)
    return told["id"]


def rows_of(version):
    """The row of a version, of up to some 6,000 bytes."""
    return [{"number": version, "text": "x" * (2_500 * version % 6_007)}]


def answered(client, version):
    """A digest of the frames of a version, as a node serves it now."""
    ticket = felzoren.bytes_field(1, felzoren.Ticket("kept", version).encode())
    return client.call("DoGet", [ticket], lambda messages: hashlib.sha256(b"".join(felzoren.frame(0, it) for it in messages)).hexdigest())


def stands_at_once(clients, ids, served):
    """Each node serves each version at once with the bytes that it had, and an upload that is put again at any node gets its version."""
    for client in clients:
        want([answered(client, version) for version in range(1, len(ids) + 1)], served)
    for version, name in enumerate(ids, 1):
        want(clients[version % len(clients)].put("kept", rows_of(version), id=name).version, version)


def put_more(clients, ids, served):
    """A put at each node makes the next version, which all nodes then serve with the same bytes."""
    for client in clients:
        ack = client.put("kept", rows_of(len(ids) + 1))
        want(ack.version, len(ids) + 1)
        ids.append(ack.id)
        found = {learned(lambda node=node: answered(node, len(ids))) for node in clients}
        want(len(found), 1)
        served += found


def begin_records(folder, nodes):
    """Leaves an unfinished record after the closed gate of each file, like a process that ends before it opens the gate."""
    for number in range(nodes):
        file = Path(f"{folder}/node-{number}.rec")
        text = file.read_bytes()
        file.write_bytes(text[: records_of(text)[1]] + b"\0" + BEGUN)


def sums_stand(folder, nodes):
    """Each record has its sum in the file beside it, except the last one if the process was killed before it wrote that."""
    want([number for number in range(nodes) if missing_sums(folder, number) > 1], [])


def tells_of_folder(program, folder, nodes):
    """`flightd records` prints for a folder what a plain program finds in its files, and changes nothing in it."""
    before = texts_in(folder)
    want(told(program, ["records", folder]), (0, report_of(folder, nodes), ""))
    want(texts_in(folder), before)


def resumes(program, nodes):
    """A server takes puts at each node and is killed, and others are resumed over its folder, one after another: each serves at once what was
    acknowledged before, and the cluster keeps its id. Some find an unfinished record; the last is ended by SIGTERM, and then checked."""
    ids, served, names = [], [], set()
    with tempfile.TemporaryDirectory() as top:
        folder = f"{top}/made/here"
        for number in range(RESUMED + 1):
            ending = signal.SIGTERM if number == RESUMED else signal.SIGKILL
            if number % 2:
                begin_records(folder, nodes)
            old = texts_in(folder)
            with server(program, nodes, folder, resumed=number > 0, ending=ending) as (clients, _):
                names.add(cluster_in(folder, nodes))
                stands_at_once(clients, ids, served)
                put_more(clients, ids, served)
            only_added(old, texts_in(folder))
            sums_stand(folder, nodes)
            tells_of_folder(program, folder, nodes)
        with server(program, nodes, folder, resumed=True) as (clients, _):
            tells_of_folder(program, folder, nodes)
            names.add(cluster_in(folder, nodes))
            stands_at_once(clients, ids, served)
    want(len(names), 1)
    return len(ids)


def resumes_nothing(program):
    """If there is nothing to resume, a server starts anew: no folder, one without files, and one with files of at most a byte. Others are
    resumed over its folder, the first over files without records."""
    for texts in (None, (), (b"", b"", b""), (b"\0", b"\1", b"")):
        with tempfile.TemporaryDirectory() as top:
            folder = f"{top}/made/here"
            if texts is not None:
                os.makedirs(folder)
            for number, text in enumerate(texts or ()):
                Path(f"{folder}/node-{number}.rec").write_bytes(text)
            with server(program, 3, folder, resumed=True, ending=signal.SIGKILL) as (clients, _):
                name = cluster_in(folder, 3)
                want(refusal(clients[0].info, "kept"), ("NoTable", 5))
            ids, served = [], []
            for _ in range(2):
                with server(program, 3, folder, resumed=True, ending=signal.SIGKILL) as (clients, _):
                    want(cluster_in(folder, 3), name)
                    stands_at_once(clients, ids, served)
                    put_more(clients, ids, served)


def resumes_unmarked(program):
    """A server is resumed over a folder from which cluster.json and the files of sums were removed, and writes them again: the next one uses
    that id of the cluster and those sums."""
    ids, served, names = [], [], []
    with tempfile.TemporaryDirectory() as folder:
        for number in range(3):
            if number == 1:
                for name in ("cluster.json", *(f"node-{it}.sum" for it in range(3))):
                    os.remove(f"{folder}/{name}")
            with server(program, 3, folder, resumed=number > 0, ending=signal.SIGKILL) as (clients, _):
                names.append(cluster_in(folder, 3))
                stands_at_once(clients, ids, served)
                put_more(clients, ids, served)
            sums_stand(folder, 3)
    want(names[1], names[2])


# ---- folders over which no server is resumed


def sizes_in(folder, nodes):
    """How long the nodes' files are, or 0 if there is no folder."""
    return [os.path.getsize(f"{folder}/node-{number}.rec") for number in range(nodes)] if os.path.isdir(folder) else [0] * nodes


def stand_everywhere(folder, nodes, name):
    """Waits until an upload is in the file of each node."""
    end = time.monotonic() + LEARN_SECONDS
    while not all(name in b"".join(records_in(f"{folder}/node-{number}.rec")) for number in range(nodes)):
        if time.monotonic() > end:
            raise Wrong(f"upload {name.hex()} is not in the files of all nodes")
        time.sleep(0.01)


def leave_records(program, nodes, folder, least=0):
    """Starts a server over a folder, new if there is none, and kills it once it took an upload at each node, and more until each file is
    longer than any was before, and than `least` bytes. Each upload is in the files of all nodes before the next one is put."""
    least, count = max(least, *sizes_in(folder, nodes)), 0
    with server(program, nodes, folder, resumed=os.path.isdir(folder), ending=signal.SIGKILL) as (clients, _):
        while count < nodes or min(sizes_in(folder, nodes)) <= least:
            ack = clients[count % nodes].put("left", rows_of(count))
            stand_everywhere(folder, nodes, bytes.fromhex(ack.id))
            count += 1


def swap_files(folder, *endings):
    """Swaps the files of nodes 0 and 1 with these endings."""
    for ending in endings or ("rec", "sum"):
        os.rename(folder / f"node-0.{ending}", folder / "swapped")
        os.rename(folder / f"node-1.{ending}", folder / f"node-0.{ending}")
        os.rename(folder / "swapped", folder / f"node-1.{ending}")


def copy_files(other, folder, number):
    """Replaces a node's files with those of another folder."""
    for ending in ("rec", "sum"):
        shutil.copy(f"{other}/node-{number}.{ending}", folder)


def link_to_itself(file):
    file.unlink()
    os.symlink(file.name, file)


def cut_last_record(file):
    """Cuts off the gate after a file's last record, and what is after that."""
    text = file.read_bytes()
    file.write_bytes(text[: records_of(text)[1]])


def place_of(file, number):
    """The place of the gate of the record of this number."""
    return sum(5 + len(record) for record in records_in(file)[:number])


def change_byte(file, place, change):
    """Changes a byte of a file; -1 is the place of the last one."""
    text = bytearray(file.read_bytes())
    text[place] = change(text[place])
    file.write_bytes(text)


def add_record(file, record):
    """Adds a record after those of a file."""
    text = file.read_bytes()
    file.write_bytes(text[: records_of(text)[1]] + b"\x01" + struct.pack("<I", len(record)) + record + b"\0")


def change_mark(file, **more):
    """Changes the mark of the file of node 1."""
    told = json.loads(file.read_text(encoding="ascii"))
    told["files"][1].update(more)
    file.write_text(json.dumps(told, separators=(",", ":")) + "\n", encoding="ascii")


def marked_faults(early, other):
    """Faults of a folder with its cluster.json: the name of each, how its second line begins, and the change that causes it. `early` has
    older copies of the same files, and `other` those of another cluster."""

    def cut_mark(folder):
        length = json.loads((folder / "cluster.json").read_text(encoding="ascii"))["files"][1]["length"]
        os.truncate(folder / "node-1.rec", length - 1)

    def broken(change):
        return lambda to: (to / "cluster.json").write_bytes(change((to / "cluster.json").read_bytes()))

    one = "/node-1.rec "
    yield from (("Damaged", f" {NOT_WRITTEN}", broken(it)) for it in (
        lambda text: b"", lambda text: text[: len(text) // 2], lambda text: text[1:], lambda text: b"\xff" + text,
        lambda text: text.replace(b'"members":3', b'"members":5'), lambda text: text.replace(b'"sha256":"', b'"sha256":"0', 1),
    ))
    yield "Missing", f"/node-0.rec {MISSING}", lambda to: [it.unlink() for it in to.glob("*.rec")]
    yield "Truncated", one + SHORTER, cut_mark
    yield "Truncated", one + SHORTER, lambda to: shutil.copy(f"{early}/node-1.rec", to)
    yield "Truncated", one + SHORTER, lambda to: change_mark(to / "cluster.json", length=1 << 40)
    yield "Foreign", f"/node-0.rec {NOT_LEFT}", swap_files
    yield "Foreign", one + NOT_LEFT, lambda to: shutil.copy(f"{other}/node-1.rec", to)
    yield "Foreign", f"/node-0.rec {NOT_LEFT}", lambda to: shutil.copy(f"{other}/cluster.json", to)
    yield "Foreign", one + NOT_LEFT, lambda to: change_mark(to / "cluster.json", sha256="00" * 32)


def unmarked_faults(other):
    """The same for a folder without cluster.json."""
    yield "Members", f" {OTHER_COUNT}", lambda to: shutil.copy(f"{other}/node-2.rec", to / "node-3.rec")
    yield "Foreign", f"/node-0.rec {NOT_ITS_OWN}", swap_files
    yield "Foreign", f" {TWO_CLUSTERS}", lambda to: copy_files(other, to, 1)
    yield from changed_bytes()


def changed_bytes():
    """The same for changed bytes that are found by the sums: the first record's gate, that of another one, and the last byte of a value."""
    yield "Damaged", f"/node-1.rec byte 0: {CLOSED}{COPIES}", lambda to: change_byte(to / "node-1.rec", 0, lambda _: 0)
    for number in (1, 3):
        yield "Damaged", f"/node-1.rec byte ", lambda to, it=number: change_byte(to / "node-1.rec", place_of(to / "node-1.rec", it), lambda _: 0)
    yield "Damaged", f"/node-1.rec byte ", lambda to: change_byte(to / "node-1.rec", end_of_value(to / "node-1.rec"), lambda it: it ^ 1)
    yield "Damaged", f"/node-0.rec byte 0: {CHANGED}{COPIES}", lambda to: swap_files(to, "sum")
    yield "Damaged", f"/node-0.rec byte 0: {CLOSED}{COPIES}", lambda to: (to / "node-0.rec").write_bytes(b"\0\0")


def end_of_value(file):
    """The place of the last byte of the first record with an upload."""
    number = next(number for number, record in enumerate(records_in(file)) if len(record) > 100)
    return place_of(file, number + 1) - 1


def any_faults():
    """The same for a folder with cluster.json or without."""
    one = "/node-1.rec "
    yield "Missing", one + MISSING, lambda to: (to / "node-1.rec").unlink()
    yield "Truncated", one + SHORTER, lambda to: os.truncate(to / "node-1.rec", 0)
    yield "Damaged", one + "byte ", lambda to: cut_last_record(to / "node-1.rec")
    yield "Foreign", one + NOT_ITS_OWN, lambda to: add_record(to / "node-1.rec", TO_NODE_4)
    yield "Open", one + NOT_OPENED, lambda to: link_to_itself(to / "node-1.rec")


def refuses_to_tell(program, folder, name, says):
    """`flightd records` refuses such a folder too; for damage its line is the same but for what can be done."""
    if name in ("Damaged", "Foreign") and NOT_ITS_OWN not in says:
        status, output, error = told(program, ["records", str(folder)])
        first, *more = error.splitlines()
        want((status, output, first, len(more)), (1, "", f"flightd: {name}", 1))
        want(more[0].startswith(f"{folder}{says}".split(COPIES)[0].split(TWO_CLUSTERS)[0]), True)


def refuses_changed(program, folder, faults, is_marked):
    """No server is resumed over a copy of a folder in which one thing was changed."""
    for name, says, change in faults:
        with tempfile.TemporaryDirectory() as top:
            copy = Path(shutil.copytree(folder, f"{top}/copy"))
            if not is_marked:
                (copy / "cluster.json").unlink()
            change(copy)
            refused(program, str(copy), name, says, resumed=True)
            refuses_to_tell(program, copy, name, says)


def refuses_as_it_is(program, folder, is_marked):
    """An unchanged folder: no server takes it for a new cluster, or is resumed over it with another number of nodes or while it is in use.
    Then one is resumed over it."""
    with tempfile.TemporaryDirectory() as top:
        copy = shutil.copytree(folder, f"{top}/copy")
        if not is_marked:
            os.remove(f"{copy}/cluster.json")
        refused(program, copy, "OldRecords", f"/node-0.rec {OLD}")
        name, says = ("Members", f" {OTHER_COUNT}") if is_marked else ("Missing", f"/node-3.rec {MISSING}")
        refused(program, copy, name, says, nodes=5, resumed=True)
        for number in range(3):
            with open(f"{copy}/node-{number}.rec", "rb") as file:
                fcntl.flock(file, fcntl.LOCK_EX)
                refused(program, copy, "Locked", f"/node-{number}.rec {IN_USE}", resumed=True)
        with server(program, 3, copy, resumed=True):
            for resumed in (False, True):
                refused(program, copy, "Locked", f"/node-2.rec {IN_USE}", resumed=resumed)


def refuses_to_resume(program):
    """No server is resumed over files other than those that the last one left, each in its place, and it leaves them as they are."""
    with tempfile.TemporaryDirectory() as top:
        folder, early, other = (f"{top}/{it}" for it in ("folder", "early", "other"))
        leave_records(program, 3, folder)
        shutil.copytree(folder, early)
        leave_records(program, 3, folder)
        leave_records(program, 3, folder)
        leave_records(program, 3, other)
        leave_records(program, 3, other, max(sizes_in(folder, 3)))
        refuses_changed(program, folder, [*marked_faults(early, other), *any_faults()], is_marked=True)
        refuses_changed(program, folder, [*unmarked_faults(other), *any_faults()], is_marked=False)
        for is_marked in (True, False):
            refuses_as_it_is(program, folder, is_marked)


# ---- disks that fail


class Disk:
    """The library that is preloaded into a server as its disk, and the file in which it counts."""

    def __init__(self, top):
        self.library, self.told = Path(top) / "disks.so", Path(top) / "told"
        subprocess.run(["cc", "-O2", "-shared", "-fPIC", "-o", self.library, TOP / "tools" / "disks.c"], check=True)
        self.told.write_bytes(bytes(16))

    def variables(self, **more):
        """The variables of a server that has this disk."""
        return {"LD_PRELOAD": str(self.library), "DISK_TOLD": str(self.told), **more}

    def counted(self):
        """How many syncs of files of records there were, and how many writes to such a file over one that was not synced."""
        return struct.unpack("<QQ", self.told.read_bytes())


def synced(program):
    """Six puts at one node: each record is written and synced, and then its gate is opened and synced. Returns the syncs of a start, and
    how many records there were."""
    with tempfile.TemporaryDirectory() as top:
        disk, folder = Disk(top), f"{top}/data"
        with server(program, 3, folder, variables=disk.variables()) as (clients, _):
            start, _ = disk.counted()
            for _ in range(PUTS):
                name = bytes.fromhex(clients[0].put("synced", ROWS).id)
                uploads_kept(folder, 3, [name])
                stand_everywhere(folder, 3, name)
            # A node answers a get once it has kept the record that it was at.
            for client in clients:
                want(got(client, "synced", PUTS), ROWS * PUTS)
            count = sum(len(records_in(f"{folder}/node-{number}.rec")) for number in range(3))
            want(disk.counted(), (start + 2 * count, 0))
    return start, count


def acknowledged_by(clients, node):
    """The acknowledgement of an upload by this node, or by the next one if this one is down."""
    try:
        return clients[node].put("unsynced", ROWS)
    except felzoren.Refused as refused:
        want(refused.name in ("Store", "Down"), True)
        return clients[(node + 1) % len(clients)].put("unsynced", ROWS, id=refused.id)


def stays_down(process, fault):
    """The node of a server that is reported to be down for this fault of its disk, at each try to start it again."""
    told_of = "".join(process.stderr.readline() for _ in range(TRIES))
    node = told_of[5:6]
    want(told_of, f"node {node} is down, and can't be started again yet: Store: {fault}\n" * TRIES)
    return int(node)


def chosen_once(folder, nodes, acks):
    """Each acknowledged upload was accepted by most nodes at one ballot, in one slot alone."""
    chosen, _ = chosen_by([records_in(f"{folder}/node-{number}.rec") for number in range(nodes)])
    counts = [sum(bytes.fromhex(ack.id) in (value or b"") for value in chosen.values()) for ack in acks]
    want(counts, [1] * len(acks))


def failed_sync(program, folder, disk, number):
    """The sync of this number fails: its node stays down, and the others serve. Returns what was acknowledged."""
    process, clients, _ = started(program, 3, folder, variables=disk.variables(DISK_FAILS=str(number)))
    watch = threading.Timer(CALL_SECONDS, process.kill)
    watch.start()
    try:
        acks = [acknowledged_by(clients, node) for node in range(3)]
        down = clients.pop(stays_down(process, "Device"))
        want(refusal(down.put, "unsynced", ROWS), ("Down", 14))
        want(refusal(down.get, "unsynced", 1), ("Down", 14))
        acks += [client.put("unsynced", ROWS) for client in clients]
        for client in clients:
            want(got(client, "unsynced", len(acks)), ROWS * len(acks))
        want(process.poll(), None)
    finally:
        watch.cancel()
        process.terminate()
        error = process.stderr.read()
        process.communicate(timeout=CALL_SECONDS)
    want(without_progress(error), "")
    return acks


def unsynced(program, start):
    """Servers one of whose syncs fails, another one for each: what was acknowledged is in most nodes' files, once, and the next server
    serves it."""
    for number in UNSYNCED:
        with tempfile.TemporaryDirectory() as top:
            folder = f"{top}/data"
            acks = failed_sync(program, folder, Disk(top), start + number)
            chosen_once(folder, 3, acks)
            go_on_over(program, 3, folder, "unsynced", acks)


def cut_beneath(program):
    """The file of a node is cut while its server has it: the node goes down at its next record and stays down, and nothing is written to the
    file. The others serve what was acknowledged."""
    with tempfile.TemporaryDirectory() as folder:
        process, clients, _ = started(program, 3, folder)
        watch = threading.Timer(CALL_SECONDS, process.kill)
        watch.start()
        try:
            stand_everywhere(folder, 3, bytes.fromhex(clients[0].put("cut", ROWS).id))
            file = Path(f"{folder}/node-1.rec")
            os.truncate(file, file.stat().st_size - CUT_BYTES)
            left = file.read_bytes()
            clients[0].put("cut", ROWS)
            want(stays_down(process, "Damaged"), 1)
            want(file.read_bytes() == left, True)
            want(refusal(clients[1].get, "cut", 1), ("Down", 14))
            for client in (clients[0], clients[2]):
                want(got(client, "cut", 2), ROWS * 2)
            want(process.poll(), None)
        finally:
            watch.cancel()
            process.terminate()
            process.communicate(timeout=CALL_SECONDS)


# ---- puts that are not decided


def has_threads(process, count):
    """Waits until a server has so many threads."""
    end = time.monotonic() + LEARN_SECONDS
    while look(process).threads != count:
        if time.monotonic() > end:
            raise Wrong(f"{look(process).threads} threads in place of {count}")
        time.sleep(0.01)


def refused_after(client, name):
    """The refusal of a put that is not decided, and after how many seconds it comes."""
    began = time.monotonic()
    return refusal(client.put, "left", ROWS, id=name), time.monotonic() - began


def callers_leave(process, idle, client, port, names):
    """While a caller waits at node 0 until it is refused, others begin puts there and close their connections. The server, which has `idle`
    threads when nobody calls, then has none for them any more."""
    with concurrent.futures.ThreadPoolExecutor(1) as pool, contextlib.ExitStack() as callers:
        has_threads(process, idle)
        waiting = pool.submit(refused_after, client, names[0])
        has_threads(process, idle + 1)
        for name in names[1:]:
            caller = callers.enter_context(socket.create_connection(("127.0.0.1", port), CALL_SECONDS))
            caller.sendall(request_of(lambda client, name=name: client.put("left", ROWS, id=name)))
        has_threads(process, idle + MOST_CONNECTIONS)
        callers.close()
        has_threads(process, idle + 1)
        want(waiting.done(), False)
        found, seconds = waiting.result(WAIT_SECONDS + CALL_SECONDS)
        want((found, WAIT_SECONDS <= seconds < WAIT_SECONDS + LATE_SECONDS), (("Unavailable", 14), True))
    has_threads(process, idle)


def room_again(client, name, seconds):
    """Once there is room again, after so many seconds, a put is acknowledged. A node is down for at most a second longer than all the time
    since it first was, and whether that is over is looked up each second."""
    began = time.monotonic()
    learned(lambda: client.put("left", ROWS, id=name))
    want(time.monotonic() - began < seconds + 2 + LATE_SECONDS, True)


def count_once(clients, names):
    """Each upload is put again, also those whose callers left, and makes one version, at each node. Returns how many had been decided."""
    before = clients[0].info("left").ticket.version
    acks = [clients[0].put("left", ROWS, id=name) for name in names]
    wanted = [ack.id for ack in sorted(acks, key=lambda ack: ack.version)]
    want(sorted(ack.version for ack in acks), list(range(1, len(names) + 1)))
    for client in clients:
        found = in_time(lambda client=client: client.get("left", len(names)), 4 * LEARN_SECONDS)
        want([it.id for it in found.uploads], wanted)
    return before


def undecided_puts(program):
    """The disks of two of three nodes are full, so no put is decided: callers leave and give their places back, one is refused in time, and
    once there is room a put is acknowledged. The uploads of the callers that left may be decided too. Returns how many were, with the
    others."""
    # The upload of the caller that is refused, those of the callers that leave, and that of the put which is acknowledged.
    names = [bytes([number]) * 16 for number in range(1, 1 + LEAVING + 2)]
    with tempfile.TemporaryDirectory(dir=MEMORY) as top:
        full = Path(f"{top}/full")
        variables = Disk(top).variables(DISK_FULL="node-1:node-2", DISK_FULL_WHILE=str(full))
        process, clients, port = started(program, 3, f"{top}/data", more=("--wait", str(WAIT_SECONDS)), variables=variables)
        try:
            idle = look(process).threads
            want(clients[0].put("sales", ROWS).version, 1)
            full.touch()
            began = time.monotonic()
            callers_leave(process, idle, clients[0], port, names[:-1])
            full.unlink()
            room_again(clients[0], names[-1], time.monotonic() - began)
            count = count_once(clients, names)
            silent_peers(clients, port)
            want(process.poll(), None)
        finally:
            process.terminate()
            _, error = process.communicate(timeout=CALL_SECONDS)
        want(without_progress(error), "")
    return count


def failing_disks(program):
    """Runs the checks of servers whose disks fail, or are full, and prints what they found."""
    start, count = synced(program)
    print(f"{count} records of {PUTS} puts: each was synced twice, before its gate is opened and after")
    unsynced(program, start)
    print(f"{len(UNSYNCED)} servers one of whose syncs failed: that node stays down, the others serve, and the next server serves what was "
          "acknowledged")
    cut_beneath(program)
    count = undecided_puts(program)
    print(f"{LEAVING} callers left while no put could be decided, and gave their places back; once there was room, {count} of "
          f"{LEAVING + 2} uploads were decided before they were put again, and each counts once")


def scripts(program):
    """Each script prints the lines in the file beside it."""
    files = sorted((TOP / "examples" / "scripts").glob("*.json"))
    for file in files:
        ran = subprocess.run([program, "script", file], capture_output=True, text=True, timeout=CALL_SECONDS, check=False)
        want((ran.returncode, ran.stderr, ran.stdout), (0, "", file.with_suffix(".lines").read_text(encoding="utf-8")))
    return len(files)


def main(program):
    print(f"{scripts(program)} scripts: each line is as expected")
    for nodes in (3, 5):
        with server(program, nodes) as (clients, port):
            puts_and_gets(clients)
            describes(clients, port)
            first_upload(clients)
            client_words(program, clients, port)
            slow_answers(program, port)
            several_callers(clients)
            cut_calls(clients, port)
            silent_peers(clients, port)
            taken_port(program, port)
        print(f"{nodes} nodes: puts at one are got at all, by several callers at once, beside calls that are cut off and peers that stay silent")
        old_and_locked_files(program, nodes)
        count = resumes(program, nodes)
        print(f"{nodes} nodes: {count} uploads put at {RESUMED + 1} servers, one after another over one folder, are served at once by the next")
    resumes_nothing(program)
    resumes_unmarked(program)
    refuses_to_resume(program)
    lost_answer(program)
    bad_script(program)
    unread_script(program)
    script_without_a_port(program)
    lost_lines(program)
    lost_addresses(program)
    lost_fault(program)
    without_descriptors(program)
    little_memory(program)
    bad_files(program)
    no_folder(program)
    full_later(program, file_limit(FULL_BYTES), program)
    by_script(program)
    counts = [killed(program, nodes, seconds) for nodes in (3, 5) for seconds in (1, 2)]
    print(f"{sum(counts)} uploads were acknowledged by servers that were then killed: each is in the files of most nodes, and is served by servers "
          "that are resumed over them")
    failing_disks(program)


if __name__ == "__main__":
    show_help(__doc__)
    try:
        main(sys.argv[1] if len(sys.argv) > 1 else str(PROGRAM))
    except (Wrong, OSError, felzoren.Refused, felzoren.BadAnswer) as error:
        sys.exit(f"tools/serving.py: {error}")
