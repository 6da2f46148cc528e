"""A plain program that reads a cluster's folder: the sums of the records, and what the records say was decided. It shares nothing with
the server but docs/FORMATS.md."""
import hashlib
import struct
from collections import defaultdict
from pathlib import Path

from servers import records_in
from wire_model import values_by_number

ENTRY_BYTES = 24
BEGAN, PROMISED, ACCEPTED, PROMISED_FROM = 1, 2, 3, 4


def entry_of(number, record):
    """The entry of the record of this number: the record's digest, and the seal of that."""
    digest = hashlib.md5(record).digest()
    return digest + hashlib.md5(struct.pack("<Q", number) + digest).digest()[:8]


def entries_of(records):
    return b"".join(entry_of(number, record) for number, record in enumerate(records))


def accepted_by(records):
    """What a node accepted, by its records: slot, ballot and value, which is None for a Noop."""
    for record in map(values_by_number, records):
        if record.get(1) == ACCEPTED:
            yield record.get(2, 0), (record.get(3, 0), record.get(4, 0)), record.get(5)


def chosen_by(nodes):
    """For each slot the value that most nodes accepted at one ballot, if there is one; and all slots for which a node accepted one."""
    counted, slots = defaultdict(set), set()
    for number, records in enumerate(nodes):
        for slot, ballot, value in accepted_by(records):
            counted[slot, ballot, value].add(number)
            slots.add(slot)
    return {slot: value for (slot, _, value), members in counted.items() if 2 * len(members) > len(nodes)}, slots


def tables_of(values):
    """The latest version of each table: how many uploads with different ids it has, if all uploads of a table have one schema."""
    ids = defaultdict(dict)
    for value in values:
        if value is not None:
            upload = values_by_number(value)
            ids[upload[1].decode()][upload[2]] = True
    return {table: len(names) for table, names in ids.items()}


def report_of(folder, nodes):
    """The lines that `flightd records` prints for a folder with this many nodes."""
    records = [records_in(f"{folder}/node-{number}.rec") for number in range(nodes)]
    chosen, slots = chosen_by(records)
    decided = next(slot for slot in range(len(chosen) + 1) if slot not in chosen)
    lines = [f"node {number} records {len(own)}" for number, own in enumerate(records)]
    lines.append(f"slots {decided}")
    lines += [f"table {table} version {version}" for table, version in tables_of([chosen[slot] for slot in range(decided)]).items()]
    state = {True: "decided, and served once the slots before it are", False: "undecided"}
    lines += [f"slot {slot} {state[slot in chosen]}" for slot in sorted(slots) if slot >= decided]
    return "".join(f"{line}\n" for line in lines)


def missing_sums(folder, number):
    """How many of the last records of a node have no entry. Each entry that exists must be that of its record."""
    records = records_in(f"{folder}/node-{number}.rec")
    sums = Path(f"{folder}/node-{number}.sum").read_bytes()
    whole = entries_of(records)
    if not whole.startswith(sums[: len(whole)]) or len(sums) > len(whole):
        raise ValueError(f"{folder}/node-{number}.sum does not fit its records")
    return len(records) - len(sums) // ENTRY_BYTES
