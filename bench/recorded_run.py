"""Writes a lawful recorded run of MESSAGES messages over SLOTS slots, ten by default, to standard output, in the form
that `flightd audit` reads.

There are three nodes. Each round of a slot has nine messages: a Prepare by one of the nodes at the next ballot,
the promises of all three, its Accept, the three Accepteds, and a Decided. What was accepted in one round is reported
and proposed again in the next, so every promise from the second round on has a report. Slots take turns, round by
round.
"""

import json
import sys
from pathlib import Path

sys.dont_write_bytecode = True
sys.path.append(str(Path(__file__).resolve().parent.parent / "tools"))

from toolbox import show_help
from wire_model import bytes_field, number_field

MEMBERS = 3
PREPARE, PROMISE, ACCEPT, ACCEPTED, DECIDED = 1, 2, 4, 5, 7
KIND, SENDER, SLOT, ROUND, NODE, SECOND_ROUND, SECOND_NODE, VALUE = 1, 2, 3, 5, 6, 7, 8, 9


def message(kind, sender, slot, ballot=None, reported=None, value=b""):
    numbers = [(KIND, kind), (SENDER, sender), (SLOT, slot)]
    if ballot:
        numbers += [(ROUND, ballot[0]), (NODE, ballot[1])]
    if reported:
        numbers += [(SECOND_ROUND, reported[0]), (SECOND_NODE, reported[1])]
    out = b"".join(number_field(field, number) for field, number in numbers if number)
    if value:
        out += bytes_field(VALUE, value)
    return out.hex()


def one_round(slot, number):
    leader = number % MEMBERS
    ballot = (number, leader)
    reported = (number - 1, (number - 1) % MEMBERS) if number > 1 else None
    value = b"upload %d" % slot
    yield message(PREPARE, leader, slot, ballot)
    for node in range(MEMBERS):
        yield message(PROMISE, node, slot, ballot, reported, value if reported else b"")
    yield message(ACCEPT, leader, slot, ballot, value=value)
    for node in range(MEMBERS):
        yield message(ACCEPTED, node, slot, ballot, value=value)
    yield message(DECIDED, leader, slot, value=value)


def sent(count, slots):
    number = 1
    while True:
        for slot in range(slots):
            for text in one_round(slot, number):
                if count == 0:
                    return
                count -= 1
                yield text
        number += 1


def main(count, slots=10):
    json.dump({"members": MEMBERS, "sent": list(sent(int(count), int(slots)))}, sys.stdout, separators=(",", ":"))


if __name__ == "__main__":
    show_help(__doc__)
    main(*sys.argv[1:3])
