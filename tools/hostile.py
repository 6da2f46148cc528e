#!/usr/bin/env python3
"""Sends servers input that would make them hold or do too much, and measures the cost: batches that share bytes, or hostile peers.

    tools/hostile.py [PROGRAM] [--only WORDS]
    tools/hostile.py --peers [PROGRAM] [--only WORDS]

Without --peers, as the gate calls it, it sends batches whose columns refer to the same bytes, so that a frame of some 4 MiB describes
gigabytes, and one batch of that size whose columns have their own bytes. It starts PROGRAM (crates/call_server/out/call_server) once for
each upload, sends a DoPut of one batch, and checks the answer: the batch as it would be written is too large for a frame, a column is too
long, or the upload is accepted. The status is 1 if an answer differs, if the server ever held more than MOST_HELD bytes, or if a call took
more than MOST_TIME processor seconds. Memory and time are those that the kernel counts for the process while it runs (Linux, proc(5)).

With --peers, which is not part of the gate, it starts `PROGRAM serve` (crates/flightd/out/flightd) with three nodes for each kind of peer, and
has the peers call node 0. Meanwhile a good client makes GOOD_CALLS puts and gets at that node, and as many at node 1, one after another.
It prints a line for each kind: the most memory that the server held, and what it holds once the peers have gone; its most threads; its
processor seconds; how long puts and gets took at both nodes (the median and the longest, in milliseconds); and how the peers were
answered: the name of a refusal, or `closed`. The slow peer of docs/SECURITY.md sends a byte a minute; here it sends one in SLOW_SECONDS,
for longer than silence may last.

Its status is 1 if a limit of docs/SECURITY.md was exceeded: more than MOST_CONNECTIONS calls at once at a node, silence for longer than
SILENCE_SECONDS, more bytes discarded after an answer, more memory than FIRST_ROOM for a frame that does not come or than MOST_HELD
for a call, another answer than the refusal that the page names, or chosen names that make look-ups slow; or if a good client was not
served within GOOD_SECONDS: at another node, at this one once the peers have gone, or at this one before that if they leave it places. The
limits of batches and of schemas (crates `batch_stories` and `header_stories`) and the number of slots are not measured here.

With --only it tries those batches, or those kinds of peers, whose name has WORDS."""
import argparse
import collections
import contextlib
import datetime
import multiprocessing
import os
import random
import resource
import selectors
import socket
import statistics
import struct
import sys
import tempfile
import threading
import time
from pathlib import Path

from peer import PROGRAM as CALL_SERVER
from peer import Server, name_of, opening
from servers import MEMORY, MOST_CONNECTIONS, PROGRAM, Wrong, felzoren, learned, look, request_of, reset, started, want
from felzoren import DataType, Field, Schema, batch_header, bytes_field, data_message, frame, schema_header

# ---- batches whose columns refer to the same bytes

# The most that a server may hold: a frame as it came, the message in it, the batch, the upload's encoding and its frames, each
# once, and the server itself.
MOST_HELD = 48 << 20
MOST_TIME = 30.0
# The bytes of a body that leave room for the rest of a frame.
BODY = (4 << 20) - (1 << 16)
# The most fields of a schema, rows of a batch and values of a column; and a number of lists that leaves room for their bitmap.
FIELDS, ROWS, VALUES = 512, 1 << 20, 1 << 24
LISTS = BODY // 6 // 8 * 8
TOO_LARGE = (8, "TooLarge")
TAKEN = (0, "")


class Laid:
    """A batch as it is laid out: its nodes, and its buffers by name, which columns may share."""

    def __init__(self):
        self.nodes, self.buffers, self.body, self.places = [], [], bytearray(), {}

    def bytes(self, name, content=b""):
        """The place of these bytes, under a name: they are added once."""
        if name not in self.places:
            self.places[name] = (len(self.body), len(content))
            self.body += content + bytes(-len(content) % 8)
        return self.places[name]

    def column(self, count, nulls, *buffers):
        self.nodes.append((count, nulls))
        self.buffers += buffers

    def parts(self, rows):
        return batch_header(rows, self.nodes, self.buffers, len(self.body)), bytes(self.body)


NONE = (0, 0)


def columns(count, type):
    return [Field(f"c{it}", type) for it in range(count)]


def struct_of(fields):
    return DataType("Struct", (), fields)


def list_of(type):
    return DataType("List", (), [Field("item", type)])


def plain():
    """Eight columns of numbers, each with bytes of its own."""
    laid, rows = Laid(), BODY // 64
    for count in range(8):
        laid.column(rows, 0, NONE, laid.bytes(count, os.urandom(8 * rows)))
    return columns(8, "int64"), laid.parts(rows), TAKEN


def shared_numbers():
    laid, rows = Laid(), BODY // 8
    place = laid.bytes("numbers", bytes(8 * rows))
    for _ in range(FIELDS):
        laid.column(rows, 0, NONE, place)
    return columns(FIELDS, "int64"), laid.parts(rows), TOO_LARGE


def half_null(count):
    """A bitmap in which every other value is null."""
    return b"\x55" * ((count + 7) // 8)


def null_by_twos(count):
    """A bitmap in which every other two values are null."""
    return b"\x33" * ((count + 7) // 8)


def shared_bits_in_a_struct():
    """Bits in structures, half of them null, that all have one bitmap."""
    laid, rows = Laid(), ROWS
    place = laid.bytes("bits", half_null(rows))
    laid.column(rows, rows // 2, place)
    for _ in range(FIELDS - 1):
        laid.column(rows, rows // 2, place, place)
    return [Field("s", struct_of(columns(FIELDS - 1, "bool")))], laid.parts(rows), TOO_LARGE


def shared_structs():
    """Structures without fields that all have one bitmap."""
    laid, rows = Laid(), ROWS
    place = laid.bytes("bits", half_null(rows))
    for _ in range(FIELDS):
        laid.column(rows, rows // 2, place)
    return columns(FIELDS, "struct<>"), laid.parts(rows), TOO_LARGE


def one_element_each(count):
    return struct.pack(f"<{count + 1}i", *range(count + 1))


def lists_half_null(type):
    """Lists of one element each, half of them null, of structures of many columns that share their bytes."""
    laid, rows = Laid(), LISTS
    validity = laid.bytes("validity", half_null(rows))
    laid.column(rows, rows // 2, validity, laid.bytes("offsets", one_element_each(rows)))
    laid.column(rows, 0, NONE)
    inside = laid.bytes("inside", null_by_twos(rows))
    values = {"null": (), "struct<>": (inside,), "bool": (inside, inside), "int8": (inside, laid.bytes("offsets"))}[type]
    for _ in range(FIELDS - 2):
        laid.column(rows, rows if type == "null" else rows // 2, *values)
    wanted = TAKEN if type == "null" else TOO_LARGE
    return [Field("l", list_of(struct_of(columns(FIELDS - 2, type))))], laid.parts(rows), wanted


def many_lists():
    """Lists that share their offsets, half of them null."""
    laid, rows = Laid(), LISTS
    validity = laid.bytes("validity", half_null(rows))
    ends = laid.bytes("offsets", one_element_each(rows))
    for _ in range(FIELDS // 2):
        laid.column(rows, rows // 2, validity, ends)
        laid.column(rows, rows // 2, validity, validity)
    return columns(FIELDS // 2, "list<bool>"), laid.parts(rows), TOO_LARGE


def lists_of_lists():
    """Columns of lists of lists, fourteen deep, that all share their offsets, half of them null."""
    laid, rows, deep = Laid(), LISTS, 14
    validity = laid.bytes("validity", half_null(rows))
    ends = laid.bytes("offsets", one_element_each(rows))
    type, count = "int8", FIELDS // (deep + 1)
    for _ in range(deep):
        type = list_of(type)
    for _ in range(count):
        for _ in range(deep):
            laid.column(rows, rows // 2, validity, ends)
        laid.column(rows, 0, NONE, ends)
    return columns(count, type), laid.parts(rows), TOO_LARGE


def shared_texts():
    laid, rows = Laid(), BODY // 8
    ends = laid.bytes("offsets", struct.pack(f"<{rows + 1}i", *(4 * it for it in range(rows + 1))))
    place = laid.bytes("texts", b"text" * rows)
    count = FIELDS
    for _ in range(count):
        laid.column(rows, 0, NONE, ends, place)
    return columns(count, "utf8"), laid.parts(rows), TOO_LARGE


def long_list_of_bits():
    """One list of the most elements: structures, half of them null, of bits that all have one bitmap."""
    laid = Laid()
    place = laid.bytes("bits", half_null(VALUES))
    laid.column(1, 0, NONE, laid.bytes("offsets", struct.pack("<2i", 0, VALUES)))
    laid.column(VALUES, VALUES // 2, place)
    for _ in range(FIELDS - 2):
        laid.column(VALUES, VALUES // 2, place, place)
    return [Field("l", list_of(struct_of(columns(FIELDS - 2, "bool"))))], laid.parts(1), TOO_LARGE


def long_list_of_nulls(size, wanted):
    """One list of `size` elements that have no bytes."""
    laid = Laid()
    laid.column(1, 0, NONE)
    laid.column(size, size)
    return [Field("f", f"fixed_size_list<null>[{size}]")], laid.parts(1), wanted


def lists_in_lists_of_nulls():
    """Lists of four lists of four elements that have no bytes; half of the outer lists are null."""
    laid = Laid()
    laid.column(ROWS, ROWS // 2, laid.bytes("validity", half_null(ROWS)))
    laid.column(4 * ROWS, 0, NONE)
    laid.column(16 * ROWS, 16 * ROWS)
    return [Field("f", "fixed_size_list<fixed_size_list<null>[4]>[4]")], laid.parts(ROWS), TAKEN


def pairs_of_bits():
    """Lists of two bits, half of them null, whose columns share their bytes."""
    laid, rows, count = Laid(), ROWS, FIELDS // 2
    outer = laid.bytes("bits", half_null(2 * rows))
    for _ in range(count):
        laid.column(rows, rows // 2, outer)
        laid.column(2 * rows, rows, outer, outer)
    return columns(count, "fixed_size_list<bool>[2]"), laid.parts(rows), TOO_LARGE


CASES = {
    "numbers with bytes of their own": plain,
    "512 columns of the same numbers": shared_numbers,
    "511 columns of the same bits in structures": shared_bits_in_a_struct,
    "512 structures with one bitmap": shared_structs,
    "510 columns of nulls in lists": lambda: lists_half_null("null"),
    "510 structures with one bitmap in lists": lambda: lists_half_null("struct<>"),
    "510 columns of the same bits in lists": lambda: lists_half_null("bool"),
    "510 columns of the same numbers in lists": lambda: lists_half_null("int8"),
    "256 lists with the same offsets": many_lists,
    "34 lists of lists with the same offsets": lists_of_lists,
    "512 columns of the same texts": shared_texts,
    "510 columns of the same bits in one list": long_list_of_bits,
    "one list of 2^24 nulls": lambda: long_list_of_nulls(VALUES, TAKEN),
    "one list of 2^30 nulls": lambda: long_list_of_nulls(1 << 30, (3, "TooManyRows")),
    "lists of four lists of four nulls": lists_in_lists_of_nulls,
    "256 lists of two of the same bits": pairs_of_bits,
}


def try_case(program, name, case):
    fields, (header, body), wanted = case()
    parts = [opening("t", name_of("t", 0), schema_header(Schema(fields))), data_message(header, b"", body)]
    server = Server(program)
    _, *told = server.call("DoPut", *parts)
    found = look(server.process)
    print(f"{name:<45} {len(parts[1]):>9,} bytes  {found.most / 2**20:6.1f} MiB  {found.seconds:6.2f} s  {told[1] or 'taken'}")
    server.process.communicate()
    want(tuple(told), wanted)
    if found.most > MOST_HELD or found.seconds > MOST_TIME:
        raise Wrong(f"{found.most} bytes and {found.seconds} s are more than {MOST_HELD} and {MOST_TIME}")


def try_batches(program, only):
    """Sends the batches whose name has these words: 1 if an answer differed or a batch cost too much."""
    wrong = 0
    for name, case in CASES.items():
        if only in name:
            try:
                try_case(program, name, case)
            except Wrong as why:
                print(f"hostile: {name}: {why}")
                wrong = 1
    return wrong


# ---- hostile peers

# The limits of docs/SECURITY.md: how much later than SILENCE_SECONDS a connection may be seen to end, and how much longer to wait for
# that.
SILENCE_SECONDS, LATE_SECONDS, WAIT_SECONDS = 60, 10, 300
FIRST_ROOM, MAX_FRAME, MOST_LEFT = 64 << 10, 4 << 20, 32 << 20
# How far the kernel's figures may be above a bound in memory; and how long it takes until connections are open, or have gone.
SLACK, SETTLE_SECONDS = 1 << 20, 2
GOOD_CALLS, GOOD_SECONDS = 20, 10
CONNECTIONS, EMPTY_FRAMES, READERS, LARGE_CALLERS, RESETTERS = 2_000, 1_000_000, 16, 8, 4
SLOW_SECONDS = 5
# Uploads of some 15 MiB in batches of nearly a frame, which together make a version of more than 64 MiB; and how many such batches make
# an upload too large.
UPLOADS, BATCHES, TOO_MANY = 5, 4, 10
# How many tables, if NAMES_SECONDS are enough; and by what factor chosen names may cost more processor time than random ones.
NAMES, NAMES_SECONDS, NAMES_FACTOR = 20_000, 60, 2
# How many files this program may have open, and a server too.
FILES = resource.getrlimit(resource.RLIMIT_NOFILE)
SCHEMA = Schema({"content": "binary"})
LINE = "{:<42} {:>8} {:>7} {:>7} {:>8}  {:<22} {:<22} {}"


# ---- a server, and its good clients


class Served:
    """A server of three nodes: what it took before there were peers, the most threads that it had, and the limits that were exceeded."""

    def __init__(self, process, clients, port):
        self.process, self.port, self.wrong, self.over = process, port, [], threading.Event()
        clients[0].put("good", [{"row": 0}])
        for client in clients:
            learned(lambda to=client: to.get("good", 1))
        time.sleep(SETTLE_SECONDS)
        self.before = look(process)
        self.threads = self.before.threads
        self.watcher = threading.Thread(target=self.watch)
        self.watcher.start()

    def watch(self):
        while not self.over.wait(0.05):
            self.threads = max(self.threads, look(self.process).threads)

    def look(self):
        return look(self.process)

    def at_most(self, what, found, most):
        if found > most:
            self.wrong.append(f"{what}: {found:,.0f}, and at most {most:,.0f}")

    def is_one(self, what, found, *wanted):
        if found not in wanted:
            self.wrong.append(f"{what}: {found!r} in place of {' or '.join(map(repr, wanted))}")

    def held(self, calls):
        """Checks that this many calls held at most what the page says."""
        self.at_most("bytes held", self.look().most, self.before.most + calls * MOST_HELD)

    def ended(self, start, seconds):
        """How long after the start all connections have ended, by the number of threads; checks that it is at most this many seconds."""
        while self.look().threads > self.before.threads and time.monotonic() - start < seconds + WAIT_SECONDS:
            time.sleep(0.1)
        found = time.monotonic() - start
        self.at_most("seconds until the connections have ended", found, seconds)
        return found


@contextlib.contextmanager
def served(program, folder):
    """A server whose records are in a folder below this one, and which has this program's first limit of open files."""
    with tempfile.TemporaryDirectory(dir=folder) as data:
        process, clients, port = started(program, 3, data, lambda: resource.setrlimit(resource.RLIMIT_NOFILE, FILES))
        found = None
        try:
            found = Served(process, clients, port)
            yield found
            found.is_one("status", process.poll(), None)
        finally:
            if found:
                found.over.set()
                found.watcher.join()
            process.terminate()
            process.communicate()


# How long calls took, in milliseconds, and the fault of one that was not served.
Times = collections.namedtuple("Times", "puts gets faults")


def good_calls(served, node):
    """Puts and gets of a client at a node, one after another, up to the first that is not served in time."""
    client, times = felzoren.connect(f"127.0.0.1:{served.port + node}", timeout=GOOD_SECONDS), Times([], [], [])
    calls = (times.puts, lambda: client.put("good", [{"row": 1}])), (times.gets, lambda: client.get("good", 1))
    for _ in range(GOOD_CALLS):
        for found, call in calls:
            before = time.perf_counter()
            try:
                call()
            except (OSError, felzoren.Refused, felzoren.BadAnswer) as fault:
                times.faults.append(f"{type(fault).__name__} {fault}")
                return times
            found.append(1000 * (time.perf_counter() - before))
    return times


def shown(times):
    if not times.puts or not times.gets:
        return f"not in {GOOD_SECONDS} s"
    puts, gets = ("{:,.0f}/{:,.0f}".format(statistics.median(it), max(it)) for it in (times.puts, times.gets))
    return f"{puts} {gets}{'' if not times.faults else ' ..'}"


# ---- peers


def connected(served, node=0):
    return socket.create_connection(("127.0.0.1", served.port + node), GOOD_SECONDS)


def answer_to(peer):
    """How a peer is answered: the name of the refusal, `answered`, or `closed` if there is no whole answer."""
    try:
        for _ in felzoren.read_messages(peer.recv):
            pass
        return "answered"
    except felzoren.Refused as refused:
        return refused.name
    except (felzoren.BadAnswer, OSError):
        return "closed"


def sent(served, text):
    """How a peer is answered that sends all these bytes, as far as it can, before it reads."""
    with connected(served) as peer:
        peer.settimeout(SILENCE_SECONDS)
        with contextlib.suppress(OSError):
            peer.sendall(text)
        return answer_to(peer)


class Peers:
    """Processes that act again and again: each act returns how it was answered."""

    def __init__(self, count, act, *words):
        self.stop, self.answers = multiprocessing.Event(), multiprocessing.Queue()
        self.processes = [multiprocessing.Process(target=self.act, args=(act, words)) for _ in range(count)]
        for process in self.processes:
            process.start()

    def act(self, act, words):
        found = collections.Counter()
        while not found or not self.stop.is_set():
            found[act(*words)] += 1
        self.answers.put(found)

    def end(self):
        """Stops them, and returns how often they got each answer."""
        self.stop.set()
        found = sum((self.answers.get() for _ in self.processes), collections.Counter())
        for process in self.processes:
            process.join()
        return found


def counted(answers):
    return ", ".join(f"{count:,} {name}" for name, count in answers.most_common())


# ---- kinds of peers: each is ready at its `yield`, after which good clients call, and returns how it was answered


def silent(served):
    """Connections that send nothing: MOST_CONNECTIONS are served at once, and these end after SILENCE_SECONDS."""
    start, peers = time.monotonic(), [socket.socket() for _ in range(CONNECTIONS)]
    with contextlib.ExitStack() as stack, selectors.DefaultSelector() as waiting:
        for peer in map(stack.enter_context, peers):
            peer.setblocking(False)
            peer.connect_ex(("127.0.0.1", served.port))
            waiting.register(peer, selectors.EVENT_WRITE)
        time.sleep(SETTLE_SECONDS)
        there = [key.fileobj for key, _ in waiting.select(0) if not key.fileobj.getsockopt(socket.SOL_SOCKET, socket.SO_ERROR)]
        served.is_one("threads more", served.look().threads - served.before.threads, MOST_CONNECTIONS)
        yield False
        ended, answers = ended_by(there, start + SILENCE_SECONDS + LATE_SECONDS)
        first, last = (int(of(ended, default=start) - start) for of in (min, max))
        if len(ended) < MOST_CONNECTIONS or first < SILENCE_SECONDS - 1:
            served.wrong.append(f"{len(ended)} silent peers were ended in {SILENCE_SECONDS + LATE_SECONDS} s, the first after {first} s")
        said = f"{len(there):,} connected; {counted(answers)} after {first} to {last} s"
    return said


def ended_by(peers, end):
    """When the first of these peers were disconnected, as many as a node serves at once, and how they were answered."""
    ended, answers = [], collections.Counter()
    with selectors.DefaultSelector() as selector:
        for peer in peers:
            selector.register(peer, selectors.EVENT_READ)
        while len(ended) < MOST_CONNECTIONS and time.monotonic() < end:
            for key, _ in selector.select(0.1):
                selector.unregister(key.fileobj)
                answers[answer_to(key.fileobj)] += 1
                ended.append(time.monotonic())
    return ended, answers


def slow(served):
    """Connections that send a byte at a time, as many as a node serves at once, and one at another node. They keep their places."""
    text, over = request_of(lambda client: client.put("slow", [{"row": 1}])), threading.Event()
    with contextlib.ExitStack() as stack:
        peers = [stack.enter_context(connected(served, node)) for node in [0] * MOST_CONNECTIONS + [2]]
        places = iter(range(len(text)))

        def send():
            while not over.wait(SLOW_SECONDS):
                place = next(places)
                for peer in peers:
                    peer.send(text[place : place + 1])

        sender, start = threading.Thread(target=send), time.monotonic()
        sender.start()
        time.sleep(SETTLE_SECONDS)
        served.is_one("threads more", served.look().threads - served.before.threads, MOST_CONNECTIONS + 1)
        yield False
        time.sleep(max(start + SILENCE_SECONDS + LATE_SECONDS - time.monotonic(), 0))
        over.set()
        sender.join()
        kept = served.look().threads - served.before.threads
    return f"{kept} of {len(peers)} kept their places for {SILENCE_SECONDS + LATE_SECONDS} s, with a byte in {SLOW_SECONDS} s"


def announcing(served):
    """Connections that announce a frame of 4 MiB and send nothing of it, as many as a node serves at once."""
    with contextlib.ExitStack() as stack:
        peers = [stack.enter_context(connected(served)) for _ in range(MOST_CONNECTIONS)]
        for peer in peers:
            peer.sendall(frame(0, felzoren.PATH + b"DoPut"))
        time.sleep(SETTLE_SECONDS)
        before = served.look()
        for peer in peers:
            peer.sendall(frame(0, bytes(MAX_FRAME))[:5])
        time.sleep(SETTLE_SECONDS)
        now = served.look()
        served.at_most("bytes held for frames that do not come", now.most - before.now, MOST_CONNECTIONS * FIRST_ROOM + SLACK)
        served.is_one("threads more", now.threads - served.before.threads, MOST_CONNECTIONS)
        yield False
        for peer in peers:
            peer.shutdown(socket.SHUT_WR)
            peer.settimeout(GOOD_SECONDS)
        answers = collections.Counter(map(answer_to, peers))
    return f"{counted(answers)} once they ended; {(now.most - before.now) / 2**10 / MOST_CONNECTIONS:,.0f} KiB each for the frame"


def empty_frames(served):
    """A call of a million empty frames after a right beginning, again and again."""
    upload = request_of(lambda client: client.put_encoded("empty", SCHEMA, [], bytes(16)))
    text = upload[: -len(frame(felzoren.END, b""))] + frame(0, b"") * EMPTY_FRAMES + frame(felzoren.END, b"")
    peers = Peers(1, sent, served, text)
    yield True
    answers = peers.end()
    served.is_one("answers", set(answers), {"MessageCount"})
    served.held(1)
    return counted(answers)


def large_table(served):
    """Puts a table of more than 64 MiB, and returns the request for a get of all of it."""
    client = felzoren.connect(f"127.0.0.1:{served.port}", timeout=SILENCE_SECONDS)
    content = random.Random(1).randbytes(MAX_FRAME - (1 << 18))
    for _ in range(UPLOADS):
        version = client.put_batches("large", [{"content": [content]}] * BATCHES, SCHEMA).version
    time.sleep(SETTLE_SECONDS)
    served.before = served.look()
    return felzoren.request("DoGet", [bytes_field(1, felzoren.Ticket("large", version).encode())])


def unread(served):
    """Clients that ask for a large answer, and read nothing of it."""
    request = large_table(served)
    with contextlib.ExitStack() as stack:
        start = time.monotonic()
        for _ in range(READERS):
            stack.enter_context(connected(served)).sendall(request)
        time.sleep(SETTLE_SECONDS)
        served.is_one("threads more", served.look().threads - served.before.threads, READERS)
        yield True
        held = served.look().now - served.before.now
        seconds = served.ended(start, SILENCE_SECONDS + LATE_SECONDS)
        served.held(READERS)
    return f"the last ended after {seconds:.0f} s; {held / 2**20 / READERS:.1f} MiB held for each"


def read_and_reset(served, request):
    """A reader that reads a part of an answer, and then resets the connection."""
    with connected(served) as peer:
        peer.sendall(request)
        count = 0
        while count < 1 << 16:
            found = peer.recv(1 << 16)
            if not found:
                return "closed"
            count += len(found)
        reset(peer)
    return "reset"


def resetting(served):
    """Readers that ask for a large answer, read a little and reset the connection, again and again."""
    peers = Peers(RESETTERS, read_and_reset, served, large_table(served))
    yield True
    answers = peers.end()
    seconds = served.ended(time.monotonic(), GOOD_SECONDS)
    served.held(RESETTERS)
    return f"{counted(answers)}; the last ended {seconds:.1f} s later"


def too_large(served):
    """Puts of more than twice as much as an upload may have, again and again."""
    batch = felzoren.write_batch(SCHEMA, [[bytes(MAX_FRAME - (1 << 18))]], 1)
    text = felzoren.request("DoPut", [opening("large", bytes(16), schema_header(SCHEMA))] + [data_message(batch[0], b"", batch[1])] * TOO_MANY)
    peers = Peers(LARGE_CALLERS, sent, served, text)
    yield True
    answers = peers.end()
    served.is_one("answers", set(answers), {"TooLarge"})
    served.held(LARGE_CALLERS)
    return counted(answers)


def goes_on(served):
    """A peer that is refused at its first frame, and goes on to send: MOST_LEFT bytes are discarded, and then the connection ends."""
    count, part = 0, bytes(1 << 16)
    with connected(served) as peer:
        peer.setsockopt(socket.SOL_SOCKET, socket.SO_SNDBUF, len(part))
        peer.sendall(frame(0, b"/none"))
        yield True
        with contextlib.suppress(OSError):
            while count < 8 * MOST_LEFT:
                count += peer.send(part)
    # What the system buffers for the peer besides: a receive buffer and a send buffer.
    room = int(Path("/proc/sys/net/ipv4/tcp_rmem").read_text(encoding="ascii").split()[2]) + 4 * len(part)
    served.at_most("bytes that could be sent after a refusal", count, MOST_LEFT + room)
    served.held(1)
    return f"{sent(served, frame(0, b'/none'))}, and closed after {count / 2**20:.1f} MiB"


# Names of tables and ids of uploads, all of one length: alike except at their ends, or random.
NAMINGS = {
    "alike": lambda number, _: (f"{'a' * 54}{number:010}".encode(), f"{'a' * 24}{number:08x}".encode()),
    "drawn": lambda _, drawn: ("".join(drawn.choices("abcdefghijklmnop", k=64)).encode(), drawn.randbytes(16).hex().encode()),
}


def put_tables(served, naming, costs):
    """Puts an upload to each of many tables, while there is time: how many, how the last was answered, and processor seconds."""
    blank, end, used = NAMINGS[naming](0, random.Random(0)), time.monotonic() + NAMES_SECONDS, served.look().seconds
    text = request_of(lambda client: client.put(blank[0].decode(), [{"row": 1}], id=blank[1].decode()))
    drawn, count, answer = random.Random(1), 0, "answered"
    while count < NAMES and answer == "answered" and time.monotonic() < end:
        count += 1
        name, id = NAMINGS[naming](count, drawn)
        answer = sent(served, text.replace(blank[0], name).replace(blank[1], id))
    costs.put((count, answer, served.look().seconds - used))


def named(naming):
    def names(served):
        costs = multiprocessing.Queue()
        caller = multiprocessing.Process(target=put_tables, args=(served, naming, costs))
        caller.start()
        time.sleep(1)
        yield True
        count, answer, seconds = costs.get()
        caller.join()
        served.is_one("the last answer", answer, "answered")
        COSTS[naming] = 1000 * seconds / count
        if len(COSTS) == len(NAMINGS):
            served.at_most("microseconds of processors a put", 1000 * COSTS["alike"], 1000 * NAMES_FACTOR * COSTS["drawn"])
        before = time.perf_counter()
        found = sent(served, felzoren.request("ListFlights", [b""]))
        served.is_one("a list", found, "answered")
        return f"{count:,} tables, {COSTS[naming]:.2f} ms of processors a put; a list of them took {time.perf_counter() - before:.1f} s"

    return names


COSTS = {}
KINDS = {
    f"{CONNECTIONS:,} silent connections": silent,
    f"{MOST_CONNECTIONS} that send a byte at a time, and one": slow,
    f"{MOST_CONNECTIONS} that announce 4 MiB": announcing,
    "a million empty frames": empty_frames,
    f"{READERS} that read no large answer": unread,
    f"{RESETTERS} that read a little and reset": resetting,
    f"{LARGE_CALLERS} that put 38 MiB": too_large,
    "one that goes on behind its refusal": goes_on,
    "drawn names": named("drawn"),
    "names alike": named("alike"),
}


def last_of(steps):
    """What a generator returns at its end."""
    try:
        next(steps)
    except StopIteration as end:
        return end.value


def play(program, name, kind):
    """Plays one kind of peer, prints what was measured, and returns what was wrong."""
    with served(program, MEMORY if "names" in name else None) as found:
        steps = kind(found)
        has_places = next(steps)
        here, there = good_calls(found, 0), good_calls(found, 1)
        said = last_of(steps)
        seconds, again = found.look().seconds - found.before.seconds, good_calls(found, 0)
        for node, times in (("another node", there), ("this node afterwards", again), ("this node", here if has_places else again)):
            found.is_one(f"a good client at {node}", times.faults, [])
        now = found.look()
        memory = [f"{it / 2**20:.1f}" for it in (now.most, now.now)]
        print(LINE.format(name, *memory, found.threads, f"{seconds:.1f}", shown(here), shown(there), said), flush=True)
        return found.wrong


def try_peers(program, only):
    """Plays the kinds of peers whose name has these words: 1 if a limit was exceeded."""
    resource.setrlimit(resource.RLIMIT_NOFILE, (max(FILES[0], min(FILES[1], 2 * CONNECTIONS)), FILES[1]))
    print(f"{datetime.date.today()}, load {os.getloadavg()[0]:.1f} at the start")
    print(LINE.format("peers", "most MiB", "MiB", "threads", "seconds", "put, get here in ms", "at another node", "answered"), flush=True)
    wrong = []
    for name, kind in KINDS.items():
        if only in name:
            try:
                wrong += [f"{name}: {fault}" for fault in play(program, name, kind)]
            except (Wrong, OSError, felzoren.Refused, felzoren.BadAnswer) as fault:
                wrong.append(f"{name}: {type(fault).__name__} {fault}")
    print(f"load {os.getloadavg()[0]:.1f} at the end")
    for fault in wrong:
        print(f"hostile: {fault}")
    return 1 if wrong else 0


def main():
    parser = argparse.ArgumentParser(description="Sends servers input that would make them hold or do too much, and measures the cost.")
    parser.add_argument("program", nargs="?")
    parser.add_argument("--peers", action="store_true")
    parser.add_argument("--only", default="", metavar="WORDS")
    words = parser.parse_args()
    if words.peers:
        return try_peers(words.program or str(PROGRAM), words.only)
    return try_batches(words.program or CALL_SERVER, words.only)


if __name__ == "__main__":
    sys.exit(main())
