#!/usr/bin/env python3
"""Measures how long a server takes to start over the records of an earlier one, and how much memory it then holds.

    bench/resume.py [COUNT [BYTES]]

A server takes one upload, and its record is written COUNT (100,000) times into the files of three nodes, with other ids and in other slots,
as if a cluster had taken as many. With BYTES the uploads have a column of texts with that many bytes together. Then a server is started over
these files, first without files of sums and then with them. It prints the seconds until the server has reported its addresses, those that
`cat` takes for the files, and the most memory that the server held. Each node must report all versions at once.

Seen with three nodes, on four processors: 100,000 uploads of 542 bytes served after 4.9 and 5.0 s, with at most 382 MiB held; 70 of 15 MB after
25.9 and 27.8 s, while `cat` took 1.3 s, with at most 4,066 MiB. Before nodes shared values and learned side by side it was 489 and 6,015 MiB.
"""
import struct
import subprocess
import sys
import tempfile
import time
from pathlib import Path

sys.path.insert(0, str(Path(__file__).resolve().parent.parent / "tools"))

from servers import PROGRAM, look, records_in, server, started, want
from timing import count_of
from toolbox import show_help
from wire_model import bytes_field, number_field, values_by_number

NODES, COUNT = 3, count_of(100_000, 2)
ROWS = [{"shop": "Bern", "sold": 3}, {"shop": "Zürich", "sold": None}]
# The most bytes of a row's text; there are as many rows as needed.
TEXT_BYTES = 1 << 16


def rows_of(size):
    return ROWS if not size else [{"text": "x" * min(TEXT_BYTES, size - at)} for at in range(0, size, TEXT_BYTES)]


def template_of(program, size):
    """The bytes of an upload, and its id."""
    with tempfile.TemporaryDirectory() as folder:
        with server(program, NODES, folder) as (clients, _):
            ack = clients[0].put("resumed", rows_of(size))
        records = [values_by_number(it) for it in records_in(f"{folder}/node-0.rec")]
    return next(it[5] for it in records if 5 in it), bytes.fromhex(ack.id)


def write_files(folder, count, upload, name):
    """Writes the files of nodes that have accepted `count` uploads, each at round 1 of node 0."""
    at = upload.index(name)
    with open(f"{folder}/node-0.rec", "wb") as file:
        for slot in range(count):
            value = upload[:at] + struct.pack(">QQ", 7, slot) + upload[at + len(name) :]
            record = number_field(1, 3) + (number_field(2, slot) if slot else b"") + number_field(3, 1) + bytes_field(5, value)
            file.write(b"\x01" + struct.pack("<I", len(record)) + record)
        file.write(b"\x00")
    for number in range(1, NODES):
        Path(f"{folder}/node-{number}.rec").write_bytes(Path(f"{folder}/node-0.rec").read_bytes())


def main(count, size, program=str(PROGRAM)):
    upload, name = template_of(program, size)
    with tempfile.TemporaryDirectory() as folder:
        write_files(folder, count, upload, name)
        files = sorted(str(it) for it in Path(folder).glob("*.rec"))
        begun = time.monotonic()
        subprocess.run(["cat", *files], stdout=subprocess.DEVNULL, check=True)
        copied = time.monotonic() - begun
        for turn in ("without sums", "with sums"):
            begun = time.monotonic()
            process, clients, _ = started(program, NODES, folder, resumed=True)
            taken = time.monotonic() - begun
            want([client.info("resumed").ticket.version for client in clients], [count] * NODES)
            held = look(process)
            process.kill()
            process.communicate()
            print(f"{count} uploads of {len(upload)} bytes, {turn}: served after {taken:.2f} s, cat takes {copied:.2f} s; "
                  f"at most {held.most >> 20} MiB held")


if __name__ == "__main__":
    show_help(__doc__)
    main(*map(int, sys.argv[1:3] + [COUNT, 0][len(sys.argv[1:3]) :]))
