#!/usr/bin/env python3
"""Has the programs run_stories and table_stories play runs that are too long for a story, and checks their answers.

    tools/sweeps.py

Runs: an upload whose messages are delivered in 10,000 random orders; two nodes that begin at once, in 1,000 random orders; 2,000
uploads that one leader has decided; a value that two of three choose while the third is refused; two leaders that duel for
twenty ballots; a node that was away while forty slots were decided; and clusters of one to seven nodes. Tables: 5,000 uploads.
The expected results follow from the rules alone (Lamport, "Paxos Made Simple"), and are compared with the results of the events
and with the bytes of the messages. In how many random orders two or more nodes answer is from the model in runs_model.py.

The programs are those that `rt ci` built, with each of two compilers. The status is 1 if one answers wrongly, or is not built."""
import sys
import time

from runs_model import Run, Upload
from stories import answers_of, programs
from tellers.run import bytes_in, told_steps
from toolbox import show_help
from wire_model import values_by_number

# how many random orders there are of one upload, and of two, and in how many of them two or more nodes answer
ORDERS, ANSWERED = 10_000, 30
TWO_ORDERS, TWO_ANSWERED = 1_000, 154
# how many uploads a leader has decided, how many while a node is away, and how many slots that node is then told at a time
LED, AWAY, AT_A_TIME = 2_000, 40, 16
# how many ballots two leaders begin
BALLOTS = 20
# how many messages are delivered at most: more than seven nodes send
HANDED = 150
# how many uploads tables take
TAKEN = 5_000
# the numbers of the kind of message that refuses, and of the one that accepts (docs/FORMATS.md)
NACK, ACCEPTED = 3, 5


# ---- runs, played by the program


def upload(number, table="t"):
    """The upload of this number, to this table and without batches."""
    return Upload(table, f"{number:032x}", "a", []).text


def drawn_after(drawn):
    """The next random number (a linear congruence modulo 2 to the power of 64: Knuth, "The Art of Computer Programming",
    volume 2, section 3.3.4)."""
    return (drawn * 6_364_136_223_846_793_005 + 1_442_695_040_888_963_407) % 2**64


class Told:
    """What the program answered for a run: the result of each event, whether the messages are lawful, and their bytes."""

    def __init__(self, steps, messages):
        self.steps = steps.split()
        self.judged, *self.texts = messages.split(" ")

    @property
    def sent(self):
        """The fields of each message."""
        return [values_by_number(bytes_in(it)) for it in self.texts]

    def is_lawful(self):
        return self.judged == "lawful"

    def following(self, name):
        """The word after each occurrence of this name."""
        return [self.steps[place + 1] for place, it in enumerate(self.steps) if it == name]

    def counts(self):
        """How many messages each tick and each delivery sent."""
        return [int(self.steps[place + 2]) for place, it in enumerate(self.steps) if it == "sent"]

    def answers(self):
        return self.following("answer")

    def is_one_answer(self):
        return len(set(self.answers())) <= 1

    def outcomes(self):
        """The outcomes of uploads, in order."""
        gave = [it.partition(" ")[2] for it in told_steps(self.steps)]
        return [it for it in gave if it.partition(" ")[0] in ("applied", "unknown", "conflict", "mismatch")]


def requests_of(members, slots, uploads, events):
    """The requests that play a run, and ask for its messages."""
    return [f"nodes {members} {slots}", *(f"upload {it.hex()}" for it in uploads), *map(spoken, events), "play", "messages"]


def spoken(event):
    return " ".join(map(str, event))


def played(program, runs):
    """What the program answers for these runs."""
    asked = [requests_of(*run) for run in runs]
    answers, place, told = answers_of(program, [line for lines in asked for line in lines]), 0, []
    for lines in asked:
        place += len(lines)
        told.append(Told(*answers[place - 2 : place]))
    return told


def deliveries(*pairs):
    return [("deliver", *it) for it in pairs]


def attempt(first):
    """The deliveries by which an attempt of node 0, whose Prepare has this number, is decided there. Six messages are sent."""
    pairs = ((0, 0), (1, 0), (0, 1), (0, 2), (0, 3), (1, 3), (0, 4), (0, 5))
    return deliveries(*((node, first + number) for node, number in pairs))


def asked_of(nodes, version):
    return [("get", node, "t", version) for node in nodes]


# ---- what was chosen, by the messages alone: at one ballot a majority accepted the value for the slot (Lamport, "Paxos Made
# Simple", section 2.2)


def vote(message):
    """The slot, the ballot and the value of an acceptance."""
    return tuple(message.get(it, 0) for it in (3, 5, 6)) + (message.get(9, b""),)


def choices(members, sent):
    """The slots and values that were chosen."""
    votes = [(vote(it), it.get(2, 0)) for it in sent if it[1] == ACCEPTED]
    counts = {told: len({sender for other, sender in votes if other == told}) for told, _ in votes}
    return {(told[0], told[3]) for told, count in counts.items() if 2 * count > members}


def is_chosen_twice(members, sent):
    slots = [slot for slot, _ in choices(members, sent)]
    return len(slots) > len(set(slots))


# ---- random orders


def one_upload(order):
    """Node 0 begins an attempt for an upload; then any of the first ten messages is delivered to any node, again and again;
    then each node is asked for the first version."""
    events, drawn = [("put", 0, 0), ("tick", 0, 0)], drawn_after(order)
    for _ in range(40):
        drawn = drawn_after(drawn)
        events.append(("deliver", (drawn >> 32) % 3, (drawn >> 40) % 10))
    return 3, 4, [upload(1)], events + asked_of(range(3), 1)


def two_uploads(order):
    """Two nodes begin at once, each for its own upload: random ones of the last messages are delivered to random nodes, and some are
    late, lost or repeated. The model knows how many were sent."""
    uploads = [{"table": "t", "id": f"{it:032x}", "values": []} for it in (1, 2)]
    run = Run({"members": 3, "slot_limit": 4, "uploads": uploads})
    for event in (("put", 0, 0), ("put", 1, 1), ("tick", 0, 0)):
        run.play(event)
    drawn = drawn_after(order)
    for number in range(60):
        if number == 10:
            run.play(("tick", 1, 0))
        drawn = drawn_after(drawn)
        last = max(len(run.sent) - 1, 0)
        run.play(("deliver", (drawn >> 32) % 3, max(last - (drawn >> 40) % 8, 0)))
    return 3, 4, [upload(1), upload(2)], [event for event, _ in run.steps] + asked_of(range(3), 1)


def orders(program):
    for draw, count, answered in ((one_upload, ORDERS, ANSWERED), (two_uploads, TWO_ORDERS, TWO_ANSWERED)):
        runs = played(program, [draw(order) for order in range(count)])
        yield f"{draw.__name__}: lawful", all(it.is_lawful() for it in runs)
        yield f"{draw.__name__}: one answer", all(it.is_one_answer() for it in runs)
        yield f"{draw.__name__}: two nodes and more answer", sum(len(it.answers()) > 1 for it in runs) == answered


# ---- leaders


def led(count):
    """Node 0 has uploads decided with node 1, one after another."""
    return [event for it in range(count) for event in (("put", 0, it), ("tick", 0, 0), *attempt(6 * it))]


def leader(program):
    events = led(LED) + asked_of([0], LED) + asked_of([0], LED + 1)
    requests = requests_of(3, LED, [upload(it) for it in range(LED)], events)
    told = Told(answers_of(program, requests[:-1])[-1], "not asked")
    lines = told_steps(told.steps)
    yield "2,000 uploads: messages", sum(told.counts()) == 6 * LED
    yield "2,000 uploads: answers", " answer of " in lines[-2] and lines[-1].endswith(" unavailable")


def two_of_three(program):
    """Nodes 0 and 1 begin at the same time. Nodes 1 and 2 promise the ballot of node 1, which is the higher one, and refuse
    that of node 0; they choose the upload of node 1. Then node 0 begins again, learns from node 1 what was accepted, and has
    that chosen."""
    uploads = [upload(1), upload(2)]
    choice = [("put", 0, 0), ("put", 1, 1), ("tick", 0, 0), ("tick", 1, 0)]
    choice += deliveries((1, 1), (2, 1), (1, 0), (2, 0), (1, 2), (1, 3), (1, 6), (2, 6), (1, 7), (1, 8), (0, 4), (0, 5))
    choice += [("outcome", 0, 0), ("outcome", 1, 1)]
    other = [("tick", 0, 0), *deliveries((0, 9), (1, 9), (0, 10), (0, 11), (0, 12), (1, 12), (0, 13), (0, 14))]
    other += [("outcome", 0, 0), ("outcome", 0, 1)]
    first, second = played(program, [(3, 4, uploads, choice), (3, 4, uploads, choice + other)])
    refusals = [it for it in first.sent if it[1] == NACK and (it.get(5), it.get(6, 0)) == (1, 0)]
    yield "two choose: outcomes", first.outcomes() == ["unknown", "applied 1"]
    yield "two choose: chosen", bool(choices(3, first.sent)) and first.is_lawful()
    yield "two choose: messages", len(first.sent) == 9 and len(refusals) == 2
    yield "the third: outcomes", second.outcomes() == ["unknown", "applied 1"] * 2
    yield "the third: not twice", not is_chosen_twice(3, second.sent) and second.is_lawful()
    yield "the third: messages", len(second.sent) == 15


def prepare_of(ballot):
    """The message number of the Prepare of this ballot, from 0 on: the first is message 0, and five more are sent between the
    later ones."""
    return max(6 * ballot - 3, 0)


def begins(ballot):
    """The leader of this ballot begins: it and node 2 promise."""
    prepare = prepare_of(ballot)
    return [("tick", ballot % 2, 0), *deliveries((ballot % 2, prepare), (2, prepare))]


def proposes(ballot, accept):
    """The leader of this ballot, after the other began the next one, gets its two promises and proposes: it accepts that itself;
    node 2 refuses it, and tells the leader."""
    leads, prepare = ballot % 2, prepare_of(ballot)
    pairs = [(leads, prepare + 1), (leads, prepare + 2), (leads, accept), (2, accept)]
    return deliveries(*pairs, (leads, accept + 1), (leads, accept + 2))


def duel(program):
    """Nodes 0 and 1 duel: each begins a higher ballot before the other's proposal comes to node 2. Then node 1, which began
    last, does no more, and node 0 begins once more, message 120."""
    events = [("put", 0, 0), ("put", 1, 1), *begins(0)]
    for ballot in range(1, BALLOTS):
        events += begins(ballot) + proposes(ballot - 1, 6 * ballot)
    end = proposes(BALLOTS - 1, 117) + [("tick", 0, 0)]
    end += deliveries((0, 120), (2, 120), (0, 121), (0, 122), (0, 123), (2, 123), (0, 124), (0, 125))
    end += [("outcome", node, number) for node in range(2) for number in range(2)]
    uploads = [upload(0), upload(1)]
    first, second = played(program, [(3, 4, uploads, events), (3, 4, uploads, events + end)])
    yield "a duel: nothing is chosen", not choices(3, first.sent) and first.is_lawful()
    yield "a duel: messages", len(first.sent) == 117
    yield "a duel: something is chosen", bool(choices(3, second.sent)) and second.is_lawful()
    yield "a duel: not twice", not is_chosen_twice(3, second.sent)
    yield "a duel: outcomes", second.outcomes() == ["unknown", "applied 1"] * 2


# ---- a node that was away, and clusters


def question(ask, count):
    """Node 2 asks, with the message of this number, and is told of `count` slots, the last one first."""
    told = deliveries(*((2, ask + count - it) for it in range(count)))
    return [("tick", 2, 0), ("deliver", 0, ask), *told, ("info", 2, "t")]


def away(program):
    last = AWAY - 2 * AT_A_TIME
    events = led(AWAY) + question(240, AT_A_TIME) + question(257, AT_A_TIME) + question(274, last) + asked_of((0, 2), AWAY)
    (told,) = played(program, [(3, 100, [upload(it) for it in range(AWAY)], events)])
    yield "away: versions", told.following("info") == ["16", "32", "40"]
    yield "away: messages", [it for it in told.counts() if it > 1] == [AT_A_TIME, AT_A_TIME, last] and told.is_lawful()
    yield "away: answers", len(told.answers()) == 2 and told.is_one_answer()


def tried(count, there):
    """Node 0 begins for an upload. `there` nodes are up, node 0 included: they promise; if they are a majority, an Accept is
    sent after the promises, and they accept."""
    nodes = range(there)
    events = [("put", 0, 0), ("tick", 0, 0), *deliveries(*((node, 0) for node in nodes))]
    events += deliveries(*((0, 1 + it) for it in nodes), *((node, there + 1) for node in nodes))
    return count, 4, [upload(1)], events + deliveries(*((0, there + 2 + it) for it in nodes)) + [("outcome", 0, 0)]


def all_begin(count):
    """All nodes begin at once, each for its own upload. Every message is delivered to every node, in the order of sending. Then
    each is asked for the first version."""
    nodes = range(count)
    events = [event for node in nodes for event in (("put", node, node), ("tick", node, 0))]
    events += deliveries(*((node, number) for number in range(HANDED) for node in nodes))
    return count, 8, [upload(it) for it in nodes], events + asked_of(nodes, 1)


def clusters(program):
    """An upload is applied exactly if more than half of all nodes are up; and if all begin, all answer alike."""
    sizes = [(count, there) for count in range(1, 8) for there in range(1, count + 1)]
    for (count, there), told in zip(sizes, played(program, [tried(*it) for it in sizes])):
        wanted = ["applied 1" if 2 * there > count else "unknown"]
        yield f"{there} of {count} are there", told.outcomes() == wanted and told.is_lawful()
    for count, told in enumerate(played(program, [all_begin(count) for count in range(1, 8)]), 1):
        yield f"all {count} begin", len(told.answers()) == count and told.is_one_answer() and told.is_lawful()


# ---- tables


def table_of(number):
    """The table of an upload: three tables get uploads in turn."""
    return "abc"[number % 3]


def tables(program):
    """Tables that took many uploads, one by one, report each as the version that it made. The frame with the schema has 160
    bytes, and that of each upload without batches 23."""
    uploads = [upload(it, table_of(it)).hex() for it in range(TAKEN)]
    requests = ["new", *(f"take {it}" for it in uploads), *(f"outcome {it}" for it in uploads)]
    answers = answers_of(program, [*requests, "answer 1667 61", "answer 1668 61"])
    yield "5,000 uploads: outcomes", answers[1 + TAKEN : 1 + 2 * TAKEN] == [str(it // 3 + 1) for it in range(TAKEN)]
    yield "5,000 uploads: an answer", [len(it) for it in answers[-2].split(" ")] == [2 * 160] + 1667 * [2 * 23]
    yield "5,000 uploads: no version behind the latest", answers[-1] == "none"


def main():
    status = 0
    kinds = {"run_stories": (orders, leader, two_of_three, duel, away, clusters), "table_stories": (tables,)}
    for crate, sweeps in kinds.items():
        built = programs(crate)
        if not built:
            print(f"sweeps: {crate} is not built")
            status = 1
        for program in built:
            for sweep in sweeps:
                began = time.monotonic()
                found = list(sweep(program))
                for label, is_so in found:
                    if not is_so:
                        print(f"sweeps: {program.name} answers wrongly, {label}")
                        status = 1
                took = time.monotonic() - began
                print(f"sweeps: {program.name}, {len(found)} rows of {sweep.__name__} in {took:.0f} seconds")
    return status


if __name__ == "__main__":
    show_help(__doc__)
    sys.exit(main())
