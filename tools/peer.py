#!/usr/bin/env python3
"""Calls a server over pipes with the client library in clients/python, and compares what it reads with what it put.

The library was written from docs/FORMATS.md and uses only Python's standard library.

    tools/peer.py [PROGRAM]
    tools/peer.py [put TABLE NUMBER .. | get TABLE VERSION] ..

It starts PROGRAM (crates/call_server/out/call_server), puts uploads of several types, asks for the description of their tables,
gets every version, and compares cell for cell what it reads with what it put. Each upload is put twice: as the library writes it,
and with another layout, which must be the same upload to the service. Then it makes calls that must be refused. It prints a line for
each table and each refusal, and ends with status 1 if anything differs from what is expected.

With put and get it makes these calls to one server, whose tables are empty at first: `put` uploads one batch of these numbers in a
column of Int of 64 bits, `-` for a null, and prints the version that acknowledges it; `get` prints the rows of a version, one per
line."""
import hashlib
import struct
import subprocess
import sys

from servers import TOP, Wrong, felzoren, want
from felzoren import BadAnswer, Field, Refused, Schema, Ticket
from felzoren import bytes_field, data_message, descriptor, frame, number_field, schema_header, write_batch
from toolbox import show_help

PROGRAM = TOP / "crates" / "call_server" / "out" / "call_server"
LOCATIONS = [f"plain+tcp://127.0.0.1:{port}" for port in (42000, 42001, 42002)]


# ---- the server, and calls that the library does not make


class Server:
    """A program that answers calls over its pipes, and a client of it."""

    def __init__(self, program):
        self.process = subprocess.Popen([program], stdin=subprocess.PIPE, stdout=subprocess.PIPE)
        self.client = felzoren.connect_files(self.process.stdout, self.process.stdin)

    def answer(self, text):
        """The messages, the status and the text of the answer to these bytes."""
        self.process.stdin.write(text)
        self.process.stdin.flush()
        messages = []
        try:
            messages += felzoren.read_messages(self.process.stdout.read)
        except Refused as refused:
            return messages, refused.status, refused.name
        return messages, 0, ""

    def call(self, method, *messages):
        return self.answer(felzoren.request(method, messages))

    def end(self):
        self.process.stdin.close()
        want(self.process.stdout.read(), b"")
        return self.process.wait(60)


def name_of(table, count):
    return hashlib.md5(f"{table} {count}".encode()).digest()


def opening(table, name, header):
    """The first message of a put."""
    return bytes_field(1, descriptor(table.encode(), name.hex().encode())) + bytes_field(2, header)


def otherwise(header):
    """A header whose table is eight bytes further on, after bytes without a meaning."""
    return struct.pack("<I", struct.unpack_from("<I", header)[0] + 8) + b"\xaa" * 8 + header[4:]


def batch_otherwise(header, body):
    """A batch whose buffers are eight bytes further on, and in reverse order in the body."""
    _, view = felzoren.read_header(header, felzoren.BATCH_HEADER)
    nodes, buffers = view.pairs(1, felzoren.MAX_FIELDS), view.pairs(2, 3 * felzoren.MAX_FIELDS)
    text, places = bytearray(b"\xaa" * 8), {}
    for offset, length in sorted(set(buffers), reverse=True):
        places[offset, length] = (len(text), length)
        text += body[offset : offset + length] + b"\xaa" * 3
    found = felzoren.batch_header(view.number(0, "q"), nodes, [places[it] for it in buffers], len(text))
    return otherwise(found), bytes(text)


def put_otherwise(server, table, name, schema, batches):
    """Puts an upload whose headers and bodies have another layout than the library's, and returns its version."""
    parts = [opening(table, name, otherwise(schema_header(schema)))]
    for rows in batches:
        header, body = batch_otherwise(*write_batch(schema, *felzoren.columns_in(rows, schema)[1:]))
        parts.append(data_message(header, b"", body))
    messages, *told = server.call("DoPut", *parts)
    want((len(messages), told), (1, [0, ""]))
    return felzoren.read_version(messages[0], name)


# ---- tables


def downloaded(table):
    """The schema of a version, and each upload's id with its batches."""
    return table.schema, [(it.id, [batch.to_pylist() for batch in it.batches]) for it in table.uploads]


def check_info(info, table, version, schema, records, size):
    want(info, (table, schema, (table, version), LOCATIONS, records, size))


def check_table(server, table, schema, uploads):
    """Puts each upload, twice, and gets each version after it."""
    schema, put = Schema(schema), []
    for count, batches in enumerate(uploads):
        name = name_of(table, count)
        put.append((name.hex(), batches))
        want(server.client.put_batches(table, batches, schema, name), (name.hex(), count + 1))
        want(put_otherwise(server, table, name, schema, batches), count + 1)
        for version in range(1, count + 2):
            found = server.client.get(table, version)
            want(downloaded(found), (schema, put[:version]))
        records = sum(len(rows) for _, batches in put for rows in batches)
        info = server.client.info(table)
        check_info(info, table, count + 1, schema, records, found.num_bytes)
    want(server.client.schema(table), schema)
    print(f"{table}: {len(uploads)} uploads, {records} rows, {found.num_bytes} bytes in version {len(uploads)}")
    return info


def column(*cells):
    """Rows of one column."""
    return [{"a": it} for it in cells]


TABLES = {
    "int8": ({"a": "int8"}, [[column(1, None, 3)], [column(-128), column(127, None)]]),
    "int64": ({"a": "int64", "b": "int16"}, [[[{"a": -(2**63), "b": 1}, {"a": 2**63 - 1, "b": -2}]]]),
    "utf8": ({"a": "utf8"}, [[column("", None, "zürich", "b" * 300)], [[]]]),
    "binary": ({"a": "binary"}, [[column(b"\xff\x00", None)]]),
    "bool": ({"a": "bool"}, [[column(*(bool(it % 3) if it % 5 else None for it in range(21)))]]),
    "null": ({"a": "null"}, [[column(None, None, None)]]),
    "list": ({"a": "list<int32>"}, [[column([1, 2, None], None, [], [7])]]),
    "texts": ({"a": "list<utf8>"}, [[column(["a", None, "bc"], [])]]),
    "struct": ({"a": "struct<x: int32, y: utf8>"}, [[column({"x": 1, "y": "one"}, None, {"x": None, "y": None})]]),
    "fixed": ({"a": "fixed_size_list<int8>[2]"}, [[column([1, 2], None, [3, None])]]),
    "deep": ({"a": "list<b: struct<c: list<d: bool>>>"}, [[column([{"c": [True, None]}, None])]]),
    "none": ({"a": "int8"}, [[], [column(1)], []]),
    "bare": ({}, [[[{}, {}]]]),
    "many": ({"a": "int32"}, [[column(*range(batch * 1000, batch * 1000 + 1000)) for batch in range(20)]]),
}


# ---- refusals


def refused(server, wanted, method, *messages):
    want(server.call(method, *messages), ([], *wanted))
    print(f"{method}: {wanted[0]} {wanted[1]}")


def ticket(table, version):
    return bytes_field(1, Ticket(table, version).encode())


def put_messages(table, name, schema, batches):
    schema = Schema(schema)
    encoded = [write_batch(schema, *felzoren.columns_in(rows, schema)[1:]) for rows in batches]
    return [opening(table, name, schema_header(schema)), *(data_message(header, b"", body) for header, body in encoded)]


def check_refusals(server):
    """Calls that are refused once they are read: the connection goes on after them."""
    refused(server, (6, "Conflict"), "DoPut", *put_messages("int8", name_of("int8", 0), {"a": "int8"}, [column(4)]))
    refused(server, (9, "SchemaMismatch"), "DoPut", *put_messages("int8", name_of("int8", 9), {"b": "int8"}, []))
    refused(server, (14, "Unavailable"), "DoGet", ticket("int8", 3))
    refused(server, (14, "Unavailable"), "DoGet", ticket("sales", 1))
    refused(server, (5, "NoTable"), "GetFlightInfo", descriptor(b"sales"))
    refused(server, (5, "NoTable"), "GetSchema", descriptor(b"sales"))


def asked(method, *messages):
    """The frames of a call without its end."""
    return b"".join(frame(0, it) for it in (felzoren.PATH + method, *messages))


BREAKS = [
    ((3, "BadPath"), frame(0, b"/other")),
    ((12, "NoCall"), asked(b"DoExchange")),
    ((12, "Compressed"), asked(b"DoGet") + frame(1, b"")),
    ((3, "BadTicket"), asked(b"DoGet", bytes_field(1, b"?"))),
    ((12, "Criteria"), asked(b"ListFlights", bytes_field(1, b"a"))),
    ((12, "CmdDescriptor"), asked(b"GetSchema", number_field(1, 2) + bytes_field(2, b"a"))),
    ((3, "NoSchema"), asked(b"DoPut", bytes_field(1, descriptor(b"t", b"00" * 16)))),
    ((3, "BadDescriptor"), asked(b"DoPut", bytes_field(1, descriptor(b"t")) + bytes_field(2, schema_header(Schema([]))))),
]


def main(program=PROGRAM):
    server = Server(program)
    infos = [check_table(server, table, *it) for table, it in TABLES.items()]
    want(server.client.list(), infos)
    check_refusals(server)
    want(server.client.list(), infos)
    want(server.end(), 0)
    for wanted, text in BREAKS:
        server = Server(program)
        want(server.answer(text), ([], *wanted))
        want(server.end(), 0)
        print(f"{wanted[0]} {wanted[1]}")
    print(f"{len(TABLES)} tables and {6 + len(BREAKS)} refusals are as expected")


# ---- calls from the shell


NUMBERS_ALONE = Schema([Field("a", "int64")])


def commands(words):
    """The calls that the arguments ask for, each with its own words."""
    found = []
    for word in words:
        if word in ("put", "get"):
            found.append([word])
        else:
            found[-1].append(word)
    if all(len(it) == 3 if it[0] == "get" else len(it) >= 2 for it in found):
        return found
    sys.exit(__doc__)


def put_numbers(client, table, numbers, count):
    rows = column(*(None if it == "-" else int(it) for it in numbers))
    print(f"{table}: version {client.put_batches(table, [rows], NUMBERS_ALONE, name_of(table, count)).version}")


def print_version(client, table, version):
    found = client.get(table, int(version))
    want(found.schema, NUMBERS_ALONE)
    for (number,) in zip(*found.to_columns()):
        print("-" if number is None else number)


def make_calls(words, program=PROGRAM):
    """Makes the calls of these arguments, one after another, to one server."""
    calls = commands(words)
    if not program.is_file():
        sys.exit(f"peer: {program} is not built: run `rt run < /dev/null` in crates/call_server")
    server = Server(program)
    for count, (word, table, *others) in enumerate(calls):
        try:
            if word == "put":
                put_numbers(server.client, table, others, count)
            else:
                print_version(server.client, table, *others)
        except (Wrong, Refused, BadAnswer) as wrong:
            sys.exit(f"peer: {word} {table}: {wrong}")
    want(server.end(), 0)


if __name__ == "__main__":
    show_help(__doc__)
    if sys.argv[1:2] in (["put"], ["get"]):
        make_calls(sys.argv[1:])
    else:
        main(*sys.argv[1:])
