#!/usr/bin/env python3
"""Restarts and kills servers under load, round after round, and checks that what they acknowledged is kept.

It is not part of the gate.

    tools/soak.py [MINUTES] [PROGRAM] [--seed SEED] [--round NUMBER]
    tools/soak.py [MINUTES] [PROGRAM] [--seed SEED] --kills COUNT

It runs rounds until MINUTES (60) are over. A round starts `PROGRAM serve` (crates/flightd/out/flightd) with three or five nodes over a new
folder. Four to 32 callers put uploads of several types and sizes to a few tables at all nodes, get versions at other nodes than those that
they put at, and ask for tables. Some cut a connection at a random byte of the request or of the answer, with a reset or without; some put an
upload again under its id, at another node, after its connection was cut or its answer was ignored. At a random moment the server is killed
(SIGKILL), or ended (SIGTERM), or the callers just end: then every node must describe each table and serve it with equal bytes, with
each acknowledged upload once, at its version, with the rows and the frames that were sent, and none whose request was cut; and the server
is ended.

Up to four more servers, by a random number, are then started over the folder, one after another (`--resume`), each until a random moment and
with a random end of its own. Once one of them has started, each node must at once report all that was acknowledged before, and all that any
node had reported, and serve it with the same bytes; uploads that are put again must get the versions that they had; and the callers go on,
first with most of the puts that the server before had left without an answer.

However the last server ends, `PROGRAM records` must print the files of all nodes as this tool reads them; a value that most nodes have
accepted at one ballot is the only one of its slot; and the slots from 0 on must make each upload that any server acknowledged, byte for byte,
at its version. The next round has a new folder.

After every other round it runs the next of the tests that play the nodes in threads: those that cluster_conformance_tests and
thread_conformance_tests list, which it looks for each time beside PROGRAM and where the gate builds them. They compare each receipt with the
journal, and judge the messages of nodes that are restarted under load.

With --kills it kills COUNT servers in place of the rounds, or as many as MINUTES allow; each takes a second or two. A server of three nodes
or five starts over a new folder, two callers a node put uploads, one after another, and the server is killed (SIGKILL) up to KILL_SECONDS
after it has reported its addresses. `PROGRAM records` must print each file as records. Each upload that was acknowledged must be in the files
of most nodes, the files of sums must be those of the records, and `PROGRAM records` of the folder must report what tools/folder_model.py reads
there. A server without `--resume` must refuse the folder. Two servers with `--resume` then start over it, one after another: each node must
serve every acknowledged upload at once, at its version, the same version must be the answer to an upload that is put again, a new upload must
make the next version, and records may only be added to the files. The first fault ends it.

A round is drawn from SEED and its NUMBER alone: --round plays it again, by itself. Threads and disks keep their own times. It prints a line
for each round, with its faults, and at the end a table. The records of a round with a fault are left in the folder that it prints. The status
is 1 if an upload was lost, doubled or different, a call failed or did not end within CALL_SECONDS while the server had to serve, a server
ended by itself, or a test failed, for example because a receipt is not confirmed."""
import argparse
import collections
import datetime
import decimal
import hashlib
import random
import secrets
import shutil
import signal
import socket
import subprocess
import sys
import tempfile
import threading
import time
from pathlib import Path

from servers import CALL_SECONDS, LEARN_SECONDS, PROGRAM, TOP, Wrong, felzoren, learned, look, records_in, reset, started, want, without_progress
from serving import killed
from felzoren import bytes_field, data_message, descriptor, schema_header

TESTS = ("cluster_conformance", "thread_conformance")
# A test runs after every TEST_ROUNDS rounds, for at most TEST_SECONDS.
TEST_ROUNDS, TEST_SECONDS = 2, 300
# For how long callers call a server at most, and how often together: its journal has room for a million entries.
MOST_SECONDS, MOST_CALLS = 15, 8_000
# At most MOST_RESUMED servers are resumed over the folder of a round. Of the acknowledged uploads with fewer bytes than SMALL one in KEPT_EACH
# is kept, and once a server has started over old records, MOST_AGAIN of these are put again. LEFT_SHARE of the puts that the server before had
# left without an answer are made again.
MOST_RESUMED, SMALL, KEPT_EACH, MOST_AGAIN, LEFT_SHARE = 4, 1 << 16, 10, 10, 0.75
ENDINGS = {"kill -9": signal.SIGKILL, "SIGTERM": signal.SIGTERM, "callers end": None}
# How many bytes the large uploads of a round may have together: it draws one of these.
BUDGETS = (8 << 20, 32 << 20, 128 << 20)
# How many faults of a round are printed, and how often ports are looked for.
MOST_FAULTS, STARTS = 5, 5
# With --kills: the longest time after which a server is killed, and after how many of them a line is printed.
KILL_SECONDS, KILLS_A_LINE = 2.0, 20

# `PROGRAM records` shows 32 bytes of an upload: they include the id, which comes after a table's name of at most 12 bytes.
TABLES = {
    name: felzoren.Schema(schema)
    for name, schema in {
        "numbers": {"row": "int64", "part": "int16", "share": "float64"},
        "texts": {"name": "utf8", "note": "utf8"},
        "blobs": {"content": "binary"},
        "nested": {"some": "list<int32>", "point": "struct<x: float64, y: utf8>", "three": "fixed_size_list<int8>[3]"},
        "times": {"at": "timestamp[us, UTC]", "day": "date32", "price": "decimal128(12, 2)", "open": "bool"},
    }.items()
}
START = datetime.datetime(2026, 1, 1, tzinfo=datetime.timezone.utc)


# ---- uploads

# Makes a value of each kind of type.
VALUES = {
    "Int": lambda drawn, type: drawn.getrandbits(type.parameters[0]) - (1 << type.parameters[0] - 1),
    "FloatingPoint": lambda drawn, type: drawn.random(),
    "Bool": lambda drawn, type: drawn.random() < 0.5,
    "Utf8": lambda drawn, type: "".join(drawn.choices("abcdeäß漢😀 ", k=drawn.randrange(20))),
    "Binary": lambda drawn, type: drawn.randbytes(drawn.randrange(200)),
    "Timestamp": lambda drawn, type: START + datetime.timedelta(microseconds=drawn.getrandbits(45)),
    "Date": lambda drawn, type: START.date() + datetime.timedelta(days=drawn.randrange(1_000)),
    "Decimal": lambda drawn, type: decimal.Decimal(drawn.randrange(-(10**12) + 1, 10**12)).scaleb(-type.parameters[1]),
    "List": lambda drawn, type: [value(drawn, type.fields[0].type) for _ in range(drawn.randrange(5))],
    "FixedSizeList": lambda drawn, type: [value(drawn, type.fields[0].type) for _ in range(type.parameters[0])],
    "Struct": lambda drawn, type: {it.name: value(drawn, it.type) for it in type.fields},
}


def value(drawn, type):
    """A value of a type, or a null."""
    return None if drawn.random() < 0.1 else VALUES[type.kind](drawn, type)


def drawn_batches(drawn, table, large):
    """The batches of an upload, each a list of columns: small ones, or for a large upload a few cells with many bytes."""
    if large:
        most = drawn.choice((1 << 16, 1 << 20, 4_100_000))
        return [[[drawn.randbytes(drawn.randrange(most))]] for _ in range(drawn.randint(1, 4))]
    most = drawn.choices((0, 1, 20, 500), (1, 3, 8, 2))[0]
    counts = [drawn.randint(0, most) for _ in range(drawn.choices((0, 1, 2, 4), (1, 10, 3, 1))[0])]
    return [[[value(drawn, it.type) for _ in range(count)] for it in TABLES[table].fields] for count in counts]


def digest(*parts):
    found = hashlib.sha256()
    for part in parts:
        found.update(len(part).to_bytes(8, "little") + part)
    return found.digest()


# An upload: its messages, how many rows it has, and the digests of its rows, of the frames that serve it, and of its bytes in records.
Upload = collections.namedtuple("Upload", "table id messages rows cells served kept")


def rows_digest(batches):
    """A digest of batches, each a list of columns."""
    return digest(*(repr(columns).encode() for columns in batches))


def drawn_upload(drawn, large):
    table = "blobs" if large else drawn.choice(list(TABLES))
    schema, id, batches = TABLES[table], drawn.randbytes(16), drawn_batches(drawn, table, large)
    counts = [len(columns[0]) for columns in batches]
    encoded = [felzoren.write_batch(schema, columns, count) for columns, count in zip(batches, counts)]
    header, name = schema_header(schema), table.encode()
    opening = bytes_field(1, descriptor(name, id.hex().encode())) + bytes_field(2, header)
    served = [data_message(head, id, body) for head, body in encoded] or [data_message(b"", id, b"")]
    kept = bytes_field(1, name) + bytes_field(2, id) + bytes_field(3, header)
    kept += b"".join(bytes_field(4, bytes_field(1, head) + (bytes_field(2, body) if body else b"")) for head, body in encoded)
    messages = [opening, *(data_message(head, b"", body) for head, body in encoded)]
    return Upload(table, id, messages, sum(counts), rows_digest(batches), digest(*served), digest(kept))


# The answer to a ticket: the ids of the uploads in order, each with the digest of its frames; and the number of bytes and their digest.
Answer = collections.namedtuple("Answer", "uploads size whole")


def read_answer(table, messages):
    """The answer in these messages of a version."""
    want(next(messages, None), data_message(schema_header(TABLES[table]), b"", b""))
    uploads, whole, size = [], hashlib.sha256(), 0
    for message in messages:
        id = felzoren.Message(message).bytes(3)
        if not uploads or uploads[-1][0] != id:
            uploads.append((id, hashlib.sha256()))
        uploads[-1][1].update(len(message).to_bytes(8, "little") + message)
        whole.update(message)
        size += 5 + len(message)
    return Answer([(id, found.digest()) for id, found in uploads], size, whole.digest())


# ---- rounds


class Round:
    """A round: what is drawn for it, what its callers sent and received, and what was wrong."""

    def __init__(self, program, seed, number):
        self.program, self.seed, self.number = program, seed, number
        self.drawn = drawn = random.Random(f"{seed} {number}")
        self.nodes, self.callers = drawn.choice((3, 5)), drawn.randint(4, 32)
        # How each server ends, and after how many seconds; and what each caller draws from.
        self.endings = [(drawn.choice(list(ENDINGS)), drawn.uniform(0.2, MOST_SECONDS)) for _ in range(1 + drawn.randint(0, MOST_RESUMED))]
        self.draws = [random.Random(f"{seed} {number} {caller}") for caller in range(self.callers)]
        self.budget = drawn.choice(BUDGETS)
        self.lock, self.over, self.ended = threading.Lock(), threading.Event(), threading.Event()
        # The uploads that may be served; the ids of those that may not; the versions that were acknowledged, by id and by table; and for each
        # node and table the latest version that the node has reported.
        self.sent, self.never, self.acknowledged = {}, set(), {}
        self.versions, self.heard = {table: {} for table in TABLES}, collections.Counter()
        # For each table the latest version that an earlier server has reported; and for each version that was served a digest.
        self.old, self.served = collections.Counter(), {}
        # Uploads with their messages: those whose put has no answer, those that are to be put again for that, and some others.
        self.unanswered, self.left, self.kept = {}, [], []
        self.counts, self.faults, self.held, self.last_call = collections.Counter(), [], 0, MOST_CALLS

    def blame(self, fault):
        with self.lock:
            self.faults.append(str(fault))

    def count(self, what):
        with self.lock:
            self.counts[what] += 1

    # ---- what callers do

    def client(self, node):
        return felzoren.connect(f"127.0.0.1:{self.port + node}", timeout=CALL_SECONDS)

    def upload(self, drawn):
        large = drawn.random() < 0.04 and self.budget > 0
        upload = drawn_upload(drawn, large)
        with self.lock:
            self.budget -= sum(map(len, upload.messages)) if large else 0
            self.sent[upload.id] = upload._replace(messages=None)
        return upload

    def put(self, upload, node):
        """Puts an upload at a node, and checks that it is always acknowledged at one version, which no other upload has."""
        id, table = upload.id, upload.table
        with self.lock:
            self.unanswered[id] = upload
        version = self.client(node).call("DoPut", upload.messages, lambda answer: felzoren.read_version(felzoren.only(answer), id))
        with self.lock:
            self.unanswered.pop(id, None)
            is_new = id not in self.acknowledged
            told = self.acknowledged.setdefault(id, version), self.versions[table].setdefault(version, id)
            if told != (version, id):
                raise Wrong(f"upload {id.hex()} of {table} got version {version}, and had {told[0]}, which is that of {told[1].hex()}")
            self.heard[node, table] = max(self.heard[node, table], version)
            if is_new and len(self.acknowledged) % KEPT_EACH == 0 and sum(map(len, upload.messages)) < SMALL:
                self.kept.append(upload)
        return version

    def put_again(self, upload, drawn):
        """Puts an earlier upload again, at any node."""
        self.put(upload, drawn.randrange(self.nodes))
        self.count("puts repeated")

    def put_left(self, drawn):
        """Puts an upload again that the server before had left without an answer, if there is one."""
        with self.lock:
            upload = self.left.pop() if self.left else None
        if upload:
            self.put_again(upload, drawn)

    def puts(self, drawn):
        """A put, and a get of its version at another node, or a second put of the same upload."""
        upload, node = self.upload(drawn), drawn.randrange(self.nodes)
        version, other = self.put(upload, node), (node + drawn.randrange(1, self.nodes)) % self.nodes
        self.count("puts")
        then = drawn.choice(("get", "again", "nothing"))
        if then == "get":
            self.compare(other, upload.table, version)
        elif then == "again":
            want(self.put(upload, other), version)
            self.count("puts repeated")

    def connected(self, drawn):
        return socket.create_connection(("127.0.0.1", self.port + drawn.randrange(self.nodes)), CALL_SECONDS)

    def send_cut(self, drawn, text, answer=0):
        """Sends bytes over a connection that ends after them, or after `answer` bytes of an answer, with a reset or without."""
        with self.connected(drawn) as peer:
            peer.sendall(text)
            while answer > 0 and (found := peer.recv(min(answer, 1 << 16))):
                answer -= len(found)
            if drawn.random() < 0.5:
                reset(peer)
        self.count("connections cut")

    def cut_puts(self, drawn):
        """A put whose request is cut, or whose answer nobody waits for; and then mostly a put of the same upload at any node."""
        upload, again = self.upload(drawn), drawn.random() < 0.75
        text = felzoren.request("DoPut", upload.messages)
        whole = drawn.random() < 0.5
        if not whole and not again:
            with self.lock:
                self.never.add(upload.id)
        self.send_cut(drawn, text if whole else text[: drawn.randrange(len(text))])
        if again:
            self.put_again(upload, drawn)

    def cut_gets(self, drawn):
        """A get whose request or answer is cut."""
        table, version = self.known(drawn)
        text = felzoren.request("DoGet", [bytes_field(1, felzoren.Ticket(table, version).encode())])
        if drawn.random() < 0.3:
            self.send_cut(drawn, text[: drawn.randrange(len(text))])
        else:
            self.send_cut(drawn, text, drawn.randrange(1, drawn.choice((100, 100_000, 10_000_000))))

    def known(self, drawn):
        """A table, and a version of it that was acknowledged, mostly one of the first."""
        table = drawn.choice(list(TABLES))
        with self.lock:
            versions = list(self.versions[table])
        return table, min(drawn.sample(versions, min(len(versions), 3)), default=1)

    def gets(self, drawn):
        table, version = self.known(drawn)
        with self.lock:
            known = bool(self.versions[table])
        if known:
            self.compare(drawn.randrange(self.nodes), table, version)

    def asks(self, drawn):
        """Questions about a table, or all: a node reports no version before one that it has reported."""
        node, table = drawn.randrange(self.nodes), drawn.choice(list(TABLES))
        with self.lock:
            heard = {it: self.heard[node, it] for it in TABLES}
        if drawn.random() < 0.3:
            infos = {it.table: it for it in self.client(node).list()}
            want([it for it in TABLES if heard[it] and it not in infos], [])
        elif heard[table]:
            infos = {table: self.client(node).info(table)}
        else:
            return
        for info in infos.values():
            self.check_info(node, info, heard[info.table])
        self.count("questions")

    def check_info(self, node, info, least):
        want((info.schema, info.ticket.version >= least), (TABLES[info.table], True))
        with self.lock:
            self.heard[node, info.table] = max(self.heard[node, info.table], info.ticket.version)

    # ---- what is compared

    def answer(self, node, table, version):
        """What a node serves for a ticket: at once if an earlier server has reported the version, and else once it has learned it."""
        ticket = bytes_field(1, felzoren.Ticket(table, version).encode())

        def call():
            return self.client(node).call("DoGet", [ticket], lambda messages: read_answer(table, messages))

        return call() if version <= self.old[table] else learned(call)

    def compare(self, node, table, version):
        """Checks a version at a node: it has as many uploads as its number, each once and as it was sent, those that were acknowledged at their
        versions, and the same bytes as at any node of this or an earlier server."""
        found = self.answer(node, table, version)
        ids = [id for id, _ in found.uploads]
        if (len(ids), len(set(ids))) != (version, version):
            raise Wrong(f"version {version} of {table} at node {node} has {len(ids)} uploads, with {len(set(ids))} ids")
        with self.lock:
            sent, told = self.sent, self.versions[table]
            wrong = [id.hex() for id, served in found.uploads if id not in sent or id in self.never or sent[id].served != served]
            wrong += [id.hex() for place, id in enumerate(ids, 1) if told.get(place, id) != id or self.acknowledged.get(id, place) != place]
            self.heard[node, table] = max(self.heard[node, table], version)
            self.counts["gets compared"] += 1
            is_same = self.served.setdefault((table, version), found.whole) == found.whole
        if wrong:
            raise Wrong(f"version {version} of {table} at node {node} has uploads not as they were sent or acknowledged: {wrong[:3]}")
        if not is_same:
            raise Wrong(f"version {version} of {table} has other bytes at node {node} than it was served with before")
        return found

    def compare_rows(self, table, version):
        """Checks the rows of a version, as the library reads them, upload by upload."""
        found = self.client(0).get(table, version)
        want(found.schema, TABLES[table])
        for upload in found.uploads:
            batches = [batch.to_columns() for batch in upload.batches]
            if rows_digest(batches) != self.sent[bytes.fromhex(upload.id)].cells:
                raise Wrong(f"upload {upload.id} of {table} has other rows than were put")

    def agreed_info(self, table, least):
        """What all nodes report of a table, once they agree: a put whose answer nobody waited for may still be decided."""
        versions, end = [], time.monotonic() + LEARN_SECONDS
        while len(set(versions)) != 1 or versions[0] < least:
            if time.monotonic() > end:
                raise Wrong(f"the nodes do not agree about {table}: versions {versions}, of which {least} was acknowledged")
            infos = [learned_info(self.client(node), table) for node in range(self.nodes)]
            versions = [it.ticket.version for it in infos]
        want(infos, [infos[0]] * self.nodes)
        return infos[0]

    def compare_all(self):
        """Checks each table at each node: the same version, with all that was acknowledged, with the same bytes, and as it is described."""
        for table, told in self.versions.items():
            if not told:
                continue
            info = self.agreed_info(table, max(told))
            found = [self.compare(node, table, info.ticket.version) for node in range(self.nodes)]
            header = 5 + len(data_message(schema_header(TABLES[table]), b"", b""))
            rows = sum(self.sent[id].rows for id, _ in found[0].uploads)
            want((info.schema, info.total_records, info.total_bytes), (TABLES[table], rows, header + found[0].size))
            want(len(info.locations), self.nodes)
            self.compare_rows(table, info.ticket.version)

    def compare_old(self):
        """Checks what any earlier server has reported, once this one has started: each node reports it at once, and serves it with the same
        bytes; and uploads that are put again get their versions. A put that had no answer may be decided only now: then a node may report a
        later version before another does, and in the end all agree."""
        for table in [it for it in TABLES if self.old[it]]:
            for node in range(self.nodes):
                self.check_info(node, self.client(node).info(table), self.old[table])
                self.compare(node, table, self.old[table])
            self.old[table] = self.agreed_info(table, self.old[table]).ticket.version
            for node in range(self.nodes):
                self.compare(node, table, self.old[table])
        for upload in self.drawn.sample(self.kept, min(len(self.kept), MOST_AGAIN)):
            self.put_again(upload, self.drawn)

    # ---- the files of records

    def check_files(self, folder):
        """Checks the files of all nodes: `PROGRAM records` prints them as they are, and they have what was acknowledged, at its version."""
        accepted = collections.defaultdict(list)
        for node in range(self.nodes):
            lines, file = [], f"{folder}/node-{node}.rec"
            for number, record in enumerate(records_in(file)):
                place, kept, line = read_record(record)
                lines.append(f"{number} {line}\n")
                if place:
                    accepted[place].append((node, kept))
            words = [self.program, "records", file]
            ran = subprocess.run(words, capture_output=True, text=True, timeout=CALL_SECONDS, check=False)
            want((ran.returncode, ran.stderr, ran.stdout == "".join(lines)), (0, "", True))
            self.counts["records"] += len(lines)
        self.check_versions(values_in(accepted, self.nodes))

    def check_versions(self, values):
        """Checks that the values of the slots from 0 on make each acknowledged upload, as it was sent, at its version."""
        uploads = {upload.kept: upload for upload in self.sent.values()}
        stand = {table: {} for table in TABLES}
        for slot in range(len(values)):
            if slot not in values:
                break
            if values[slot] is not None:
                upload = uploads.get(values[slot])
                if upload is None or upload.id in self.never:
                    raise Wrong(f"slot {slot} has an upload that nobody sent with these bytes")
                stand[upload.table].setdefault(upload.id, len(stand[upload.table]) + 1)
        wrong = [(id.hex(), version) for id, version in self.acknowledged.items() if stand[self.sent[id].table].get(id) != version]
        if wrong:
            raise Wrong(f"{len(wrong)} acknowledged uploads are not at their versions in the files of most nodes: {wrong[:3]}")

    # ---- how a round goes

    def caller(self, number):
        drawn = self.draws[number]
        acts = {self.puts: 45, self.cut_puts: 15, self.gets: 15, self.cut_gets: 10, self.asks: 15}
        while not self.over.is_set() and self.counts["calls"] < self.last_call:
            act = self.put_left if self.left else drawn.choices(list(acts), list(acts.values()))[0]
            self.count("calls")
            try:
                act(drawn)
            except Exception as fault:
                is_cut = self.ended.is_set() and isinstance(fault, (OSError, felzoren.Refused, felzoren.BadAnswer))
                if not is_cut:
                    self.blame(f"caller {number}, {act.__name__}: {type(fault).__name__}: {fault}")
                    return

    def load(self, process, ending, seconds):
        """Lets the callers call for this many seconds, and ends the server if a signal is to end it."""
        callers = [threading.Thread(target=self.caller, args=(number,), daemon=True) for number in range(self.callers)]
        for caller in callers:
            caller.start()
        time.sleep(seconds)
        self.end(process, ENDINGS[ending])
        self.over.set()
        end = time.monotonic() + 2 * CALL_SECONDS + LEARN_SECONDS
        for number, caller in enumerate(callers):
            caller.join(max(end - time.monotonic(), 0))
            if caller.is_alive():
                self.blame(f"caller {number} is in a call that does not end")

    def end(self, process, number):
        """Reads the server's memory, and then ends it by a signal, if there is one to send."""
        if process.poll() is not None:
            raise Wrong(f"the server has ended by itself, with status {process.returncode}: {process.communicate()[1]!r}")
        self.held = max(self.held, look(process).most)
        if number is not None:
            self.ended.set()
            process.send_signal(number)
            told = process.communicate(timeout=CALL_SECONDS)[1]
            want((without_progress(told), process.returncode), ("", -number))

    def go_on(self):
        """Prepares for a resumed server: what any node has reported is now old, and known to each node; and most puts without an answer are to
        be made again."""
        for table in TABLES:
            self.old[table] = max(self.heard[node, table] for node in range(self.nodes))
            for node in range(self.nodes):
                self.heard[node, table] = self.old[table]
        self.left += [it for it in self.unanswered.values() if self.drawn.random() < LEFT_SHARE]
        self.unanswered.clear()
        self.count("starts over old records")

    def serve(self, folder, number):
        """Runs the server of this number in the round; all but the first are resumed over the records of the earlier ones."""
        ending, seconds = self.endings[number]
        process, _, self.port = started_anew(self.program, self.nodes, folder, number > 0)
        self.over, self.ended, self.last_call = threading.Event(), threading.Event(), self.counts["calls"] + MOST_CALLS
        self.count(ending)
        try:
            if number > 0:
                self.go_on()
                self.compare_old()
            self.load(process, ending, seconds)
            if ENDINGS[ending] is None:
                self.compare_all()
                self.end(process, signal.SIGTERM)
        finally:
            self.ended.set()
            self.over.set()
            process.kill()
            process.communicate()

    def play(self, folder):
        """Runs one server after another, up to the first at which callers find a fault, and then checks the files that they leave."""
        try:
            for number in range(len(self.endings)):
                if not self.faults:
                    self.serve(folder, number)
            self.check_files(folder)
        except (Wrong, OSError, felzoren.Refused, felzoren.BadAnswer, subprocess.TimeoutExpired) as fault:
            self.blame(f"{type(fault).__name__}: {fault}")

    def tell(self):
        counts = self.counts
        endings = ", then ".join(f"{ending} after {seconds:.1f} s" for ending, seconds in self.endings)
        print(f"round {self.number}: {self.nodes} nodes, {self.callers} callers, {endings}: "
              f"{len(self.acknowledged)} uploads acknowledged, {counts['puts repeated']} puts repeated, {counts['gets compared']} gets, "
              f"{counts['questions']} questions, {counts['connections cut']} cut, {counts['records']} records, "
              f"{self.held / 2**20:.0f} MiB{'' if not self.faults else f', WRONG {len(self.faults)}'}", flush=True)
        for fault in self.faults[:MOST_FAULTS]:
            print(f"  {fault}", flush=True)


def learned_info(client, table):
    """What a node reports of a table, once it knows it."""
    end = time.monotonic() + LEARN_SECONDS
    while True:
        try:
            return client.info(table)
        except felzoren.Refused as refused:
            want(refused.name, "NoTable")
            if time.monotonic() > end:
                raise
            time.sleep(0.01)


def started_anew(program, nodes, folder, resumed):
    """Starts a server. A port that was free may be in use by the time that it is opened; then it looks for others."""
    for _ in range(STARTS):
        try:
            return started(program, nodes, folder, resumed=resumed)
        except Wrong as fault:
            if "flightd: Bind" not in str(fault):
                raise
    raise Wrong("ports that were free are taken each time")


def read_record(record):
    """The slot and the ballot of a record that a value was accepted, and the digest of an upload's bytes; and the record's line."""
    found = felzoren.Message(record)
    kind, slot, ballot, value = found.number(1), found.number(2), f"{found.number(3)}.{found.number(4)}", found.bytes(5)
    if kind == 1:
        return None, None, f"began {ballot}"
    if kind == 2:
        return None, None, f"promised slot {slot} {ballot}"
    if kind == 4:
        return None, None, f"promised from slot {slot} {ballot}"
    if not value:
        return (slot, ballot), None, f"accepted slot {slot} {ballot} noop"
    return (slot, ballot), digest(value), f"accepted slot {slot} {ballot} upload of {len(value)} bytes {value[:32].hex()}"


def values_in(accepted, nodes):
    """The value of each slot that most nodes have accepted at one ballot. No slot may have two, and no ballot of a slot either."""
    values = {}
    for (slot, ballot), found in accepted.items():
        if len({kept for _, kept in found}) > 1:
            raise Wrong(f"slot {slot} has two values at ballot {ballot}")
        if 2 * len({node for node, _ in found}) > nodes and values.setdefault(slot, found[0][1]) != found[0][1]:
            raise Wrong(f"two values are chosen for slot {slot}")
    return values


# ---- the tests


def tests_beside(program):
    """The tests that play nodes in threads, each with its program, if that is built."""
    for crate in TESTS:
        places = (Path(program).resolve().parent / f"{crate}_tests", TOP / "crates" / crate / "out" / f"{crate}_tests")
        for file in [it for it in places if it.is_file()][:1]:
            listed = subprocess.run([file, "--list"], capture_output=True, text=True, check=True).stdout
            yield from ((file, line[: -len(": test")]) for line in listed.splitlines() if line.endswith(": test"))


def run_test(file, name):
    """Runs a test by its name, and returns what is wrong with it, if anything."""
    try:
        ran = subprocess.run([file, name], capture_output=True, text=True, timeout=TEST_SECONDS, check=False)
    except subprocess.TimeoutExpired:
        return f"{name} has not ended in {TEST_SECONDS} s"
    passed = ran.returncode == 0 and "test result: ok" in ran.stdout
    return None if passed else f"{name} ended with status {ran.returncode}: {ran.stdout[-200:]!r} {ran.stderr[-200:]!r}"


# ---- all of it


def play_round(program, seed, number):
    played = Round(program, seed, number)
    folder = tempfile.mkdtemp(prefix=f"soak-{number}-")
    played.play(folder)
    if played.faults:
        played.faults.append(f"its records are left in {folder}")
    else:
        shutil.rmtree(folder)
    played.tell()
    return played


class Sums:
    """The results of all rounds."""

    def __init__(self):
        self.counts, self.tests, self.wrong = collections.Counter(), collections.Counter(), []
        self.held, self.start = (0, 0), time.monotonic()

    def add(self, played):
        self.counts.update(played.counts)
        self.counts.update({"rounds": 1, "uploads acknowledged": len(played.acknowledged)})
        self.wrong += [f"round {played.number}: {fault}" for fault in played.faults]
        self.held = max(self.held, (played.held, played.number))

    def add_test(self, name, fault):
        self.tests[name] += 1
        if fault:
            self.wrong.append(fault)
            print(f"  {fault}", flush=True)

    def tell(self):
        print(f"{'minutes':<28} {(time.monotonic() - self.start) / 60:.1f}")
        for name in ("rounds", *ENDINGS, "starts over old records", "uploads acknowledged", "gets compared", "puts repeated",
                     "connections cut", "questions", "records"):
            print(f"{name:<28} {self.counts[name]:,}")
        print(f"{'runs of tests':<28} {sum(self.tests.values())}{''.join(f', {count} {name}' for name, count in self.tests.items())}")
        print(f"{'most memory of a server':<28} {self.held[0] / 2**20:.1f} MiB, in round {self.held[1]}")
        print(f"{'wrong':<28} {len(self.wrong)}")
        for fault in self.wrong:
            print(f"  {fault}")


def count_records(program, files):
    """How many records the program prints for these files. Raises Wrong if it reports a fault of one."""
    count = 0
    for file in files:
        ran = subprocess.run([program, "records", file], capture_output=True, text=True, timeout=CALL_SECONDS, check=False)
        want((ran.returncode, ran.stderr), (0, ""))
        count += len(ran.stdout.splitlines())
    return count


def kill_servers(program, seed, most, end):
    """Kills up to `most` servers before the end, each over a folder of its own, and prints what they acknowledged. Raises Wrong at the first
    fault."""
    drawn, count, uploads, records = random.Random(seed), 0, 0, []

    def tell():
        print(f"{count} servers were killed: {uploads} uploads were acknowledged and served again, {sum(records)} records, "
              f"{2 * count} starts over them", flush=True)

    while count < most and time.monotonic() < end:
        nodes, seconds = drawn.choice((3, 5)), drawn.uniform(0, KILL_SECONDS)
        uploads += killed(program, nodes, seconds, lambda files: records.append(count_records(program, files)), least=0)
        count += 1
        if count % KILLS_A_LINE == 0:
            tell()
    if count % KILLS_A_LINE:
        tell()


def parse_words():
    parser = argparse.ArgumentParser(description="Restarts and kills servers under load, and checks that what they acknowledged is kept.")
    parser.add_argument("minutes", nargs="?", type=float, default=60)
    parser.add_argument("program", nargs="?", default=str(PROGRAM))
    parser.add_argument("--seed", type=int, default=secrets.randbits(32))
    choice = parser.add_mutually_exclusive_group()
    choice.add_argument("--round", type=int)
    choice.add_argument("--kills", type=int, metavar="COUNT")
    return parser.parse_args()


def main():
    words = parse_words()
    print(f"seed {words.seed}", flush=True)
    end, number = time.monotonic() + 60 * words.minutes, 0
    if words.kills is not None:
        return kill_servers(words.program, words.seed, words.kills, end)
    sums = Sums()
    if words.round is not None:
        sums.add(play_round(words.program, words.seed, words.round))
    while words.round is None and time.monotonic() < end:
        sums.add(play_round(words.program, words.seed, number))
        tests = list(tests_beside(words.program)) if number % TEST_ROUNDS == 0 else []
        if tests:
            file, name = tests[number // TEST_ROUNDS % len(tests)]
            sums.add_test(name, run_test(file, name))
        number += 1
    sums.tell()
    return 1 if sums.wrong else 0


if __name__ == "__main__":
    try:
        sys.exit(main())
    except (Wrong, OSError, felzoren.Refused, felzoren.BadAnswer, subprocess.TimeoutExpired) as error:
        sys.exit(f"tools/soak.py: {error}")
