"""Random runs of nodes that ask for promises of all slots from a first one on, and wrong nodes that such runs have to find out.

Some of the nodes ask for the promise of one slot at a time, though a schedule can't say so of some alone, and some are of an older
version, which skips the field that tells the second form of a message, as the crates do (docs/FORMATS.md, "Paxos messages"). Whether a run
is lawful and safe is judged from its messages and its answers alone, and not by the rules of nodes (`is_lawful`, `is_safe`)."""
import functools
import itertools
import random

from ranged_model import FROM, Acceptor, Attempt
from runs_model import Node, Run

TABLE, VERSIONS = "t", (1, 2, 3)
# How often a message is drawn until one is found that is awaited.
TRIES = 24


# ---- nodes that do not ask so


class AsksPlainly:
    """Asks for the promise of one slot, and answers both forms."""

    def is_ranged(self):
        return False


class SkipsTheForm(AsksPlainly):
    """Reads a message of the second form as one of the first, whose field for reports is skipped too."""

    def deliver(self, said):
        return super().deliver(said | {"what": FROM.get(said["what"], said["what"]), "reports": []})


@functools.cache
def kinds_of(node):
    """The classes of nodes that behave like this one: as it is, asking plainly, and of the older version."""
    return node, type("PlainNode", (AsksPlainly, node), {}), type("OlderNode", (SkipsTheForm, node), {})


# ---- nodes with a wrong part


class StaysAtItsSlot(Attempt):
    """Goes on to the slot behind its first one, however often it has gone on."""

    def next(self):
        return self.slot + 1


class CountsEitherForm(Attempt):
    """Counts the promise of one slot for an attempt at all slots from it on."""

    def counts(self, call):
        is_promise = call["what"] in ("Promise", "PromiseFrom") and call["sender"] < self.members
        return is_promise and (call["slot"], call["ballot"]) == (self.slot, self.ballot)


class GoesOnWithItsOwn(Attempt):
    """Proposes its own value in a further slot, though a promise reports one there."""

    def go_on(self, me, candidate):
        found = super().go_on(me, candidate)
        return found and found | {"value": candidate}


class LetsAPromiseFallBelowARange(Acceptor):
    """Has what a slot promised or accepted by itself stand for the slot, though a promise of all slots from one on is above it."""

    def promised(self, slot):
        own = [it["ballot"] for it in self.records if it["what"] != "promised-from" and it["slot"] == slot]
        return max(own, default=super().promised(slot))


class AsksItsFirstSlotAlone(Acceptor):
    """Promises all slots from one on if the first of them has promised nothing above."""

    def promised_from(self, first):
        return self.promised(first)


class ReportsItsFirstSlotAlone(Acceptor):
    """Reports of all slots from one on what the first of them accepted."""

    def accepted_from(self, first):
        return [it for it in super().accepted_from(first) if it[0] == first]


class ForgetsRangesAtAStart(Node):
    """Starts without its promises of all slots from one on."""

    def __init__(self, run, me, records):
        super().__init__(run, me, [it for it in records if it["what"] != "promised-from"])


def with_part(part):
    """The class of nodes that have this acceptor, or make such attempts."""
    return type(part.__name__, (Node,), {"acceptor" if issubclass(part, Acceptor) else "attempts": part})


WRONG_PARTS = (StaysAtItsSlot, CountsEitherForm, GoesOnWithItsOwn, LetsAPromiseFallBelowARange, AsksItsFirstSlotAlone, ReportsItsFirstSlotAlone)
WRONG = (*map(with_part, WRONG_PARTS), ForgetsRangesAtAStart)


# ---- runs


def drawn_kinds(draw, node, members):
    """The classes of the nodes of a run: in half of the runs all are alike, and in the others a minority asks plainly or is older."""
    ranged, plain, older = kinds_of(node)
    kinds = [ranged] * members
    if draw.random() < 0.5:
        for member in draw.sample(range(members), draw.randint(1, members // 2)):
            kinds[member] = draw.choice((plain, older))
    return kinds


class Phases:
    """Draws the events of a run. A run has phases: for some events one node mostly has the ticks and puts, at most one hears nothing, and
    acceptances come to all or to the node that asked for them alone."""

    def __init__(self, draw, run):
        self.draw, self.run, self.left, self.had = draw, run, 0, set()

    def begin(self):
        draw, members = self.draw, range(self.run.members)
        self.left, self.leader = draw.choice((12, 24, 40)), draw.choice(members)
        self.deaf = draw.sample(members, draw.choice((0, 0, 1)))
        self.are_all_told, self.delivers = draw.random() < 0.3, draw.choice((0.8, 0.9, 0.95))
        self.puts, self.ahead = draw.choice((0, 2, 5)), draw.choice((0, 0, 0, 0, 1, 2))

    def is_awaited(self, member, number):
        """Whether a member that hears has not had a message and has a use for it."""
        said = self.run.sent[number]
        is_answer = said["what"] in ("Promise", "PromiseFrom", "Nack") or said["what"] == "Accepted" and not self.are_all_told
        is_its_own = not is_answer or said["ballot"][1] == member
        return is_its_own and member not in self.deaf and (member, number) not in self.had

    def delivery(self):
        """The delivery of a message that is awaited, mostly of one of the last, or None where a few tries find none."""
        draw, count = self.draw, len(self.run.sent)
        for _ in range(TRIES if count else 0):
            number = count - 1 - draw.randrange(min(count, 6) if draw.random() < 0.8 else count)
            member = draw.randrange(self.run.members)
            if self.is_awaited(member, number):
                self.had.add((member, number))
                return ["deliver", member, number]
        return None

    def event(self):
        if not self.left:
            self.begin()
        self.left -= 1
        draw, leader, down = self.draw, self.run.nodes[self.leader], [it for it, node in self.run.nodes.items() if node is None]
        if leader and self.puts and draw.random() < 0.2:
            self.puts -= 1
            return ["put", self.leader, draw.randrange(len(self.run.uploads))]
        may_fill = leader and leader.leading() and not leader.waiting and draw.random() < 0.5
        if may_fill or leader and leader.is_ready() and draw.random() < 0.7:
            return ["tick", self.leader, self.ahead]
        if down and draw.random() < 0.1:
            return ["restart", draw.choice(down)]
        awaited = self.delivery() if draw.random() < self.delivers else None
        return awaited or self.other()

    def other(self):
        draw, run = self.draw, self.run
        member = self.leader if draw.random() < 0.7 else draw.randrange(run.members)
        number, upload = draw.randrange(len(run.sent) + 1), draw.randrange(len(run.uploads))
        kind = draw.choices(("put", "tick", "deliver", "tickcut", "delivercut", "restart", "get"), (1, 1, 3, 0.2, 0.4, 0.4, 0.5))[0]
        words = {"put": [upload], "tick": [draw.choice((0, 0, 0, 1, 8))], "tickcut": [0], "restart": [], "get": [TABLE, draw.choice(VERSIONS)]}
        return [kind, draw.randrange(run.members) if "deliver" in kind else member, *words.get(kind, [number])]


def leave_votes(draw, run):
    """Has a node begin ahead of free slots, and its Accept come to some nodes, which report it from then on; nobody learns of it."""
    leader, first = draw.randrange(run.members), len(run.sent)
    run.play(["put", leader, draw.randrange(len(run.uploads))])
    run.play(["tick", leader, draw.choice((1, 2, 2))])
    for member in range(run.members):
        run.play(["deliver", member, first])
    for number in range(first + 1, len(run.sent)):
        run.play(["deliver", leader, number])
    for number in range(first, len(run.sent)):
        if run.sent[number]["what"] == "Accept":
            for member in draw.sample(range(run.members), draw.randint(1, run.members)):
                run.play(["deliver", member, number])


def drawn_run(seed, node=Node):
    """A random run of three or five such nodes, and at its end questions at each of them."""
    draw = random.Random(seed)
    members = draw.choice((3, 3, 3, 5))
    uploads = [{"table": TABLE, "id": f"{it:032x}", "values": [[it]]} for it in range(6)]
    schedule = {"members": members, "slot_limit": draw.choice((3, 5, 8)), "ranged": True, "uploads": uploads}
    run = Run(schedule, drawn_kinds(draw, node, members))
    for _ in range(draw.choice((0, 1, 2))):
        leave_votes(draw, run)
    phases = Phases(draw, run)
    for _ in range(draw.choice((40, 60, 90))):
        run.play(phases.event())
    for member, version in itertools.product(range(members), VERSIONS):
        run.play(["get", member, TABLE, version])
    return run
