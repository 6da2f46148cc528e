"""Times programs from outside, and counts their instructions if valgrind is installed."""
import collections
import os
import re
import shutil
import subprocess
import time

# Whether the smallest counts are wanted, for a smoke test: then each program runs once, and no instructions are counted.
SMALLEST = bool(os.environ.get("SMALLEST"))
COUNTING = ["valgrind", "--tool=callgrind", "--callgrind-out-file=/dev/null"]

# What something costs: seconds, and instructions or None.
Cost = collections.namedtuple("Cost", "seconds instructions")


def count_of(usual, smallest):
    """The usual count, or the smallest one if that is wanted."""
    return smallest if SMALLEST else usual


def counts_of(*usual):
    """All of these counts, or the first one if the smallest are wanted."""
    return usual[:1] if SMALLEST else usual


def run(words, file="/dev/null", check=True):
    """Runs a program with a file as its standard input, and returns what it printed on standard error."""
    with open(file, "rb") as source:
        done = subprocess.run(words, stdin=source, stdout=subprocess.DEVNULL, stderr=subprocess.PIPE, check=check)
    return done.stderr.decode()


def seconds(words, file="/dev/null", check=True):
    """The time of one run."""
    start = time.monotonic()
    run(words, file, check)
    return time.monotonic() - start


def instructions(words, file="/dev/null", check=True):
    """The instructions of one run."""
    if SMALLEST or not shutil.which("valgrind"):
        return None
    return int(re.search(r"Collected : (\d+)", run(COUNTING + words, file, check))[1])


def less(whole, empty, count):
    """The cost of one repetition, from the costs of `count` repetitions and of none."""
    counted = None if whole.instructions is None else (whole.instructions - empty.instructions) / count
    return Cost(max(whole.seconds - empty.seconds, 1e-9) / count, counted)


def cost(words, file="/dev/null", runs=5, check=True):
    """The cost of one run: the best time of some, and its instructions."""
    best = min(seconds(words, file, check) for _ in range(count_of(runs, 1)))
    return Cost(best, instructions(words, file, check))


def one(program, task, file):
    """The cost of one repetition of `PROGRAM TASK COUNT FILE`: the best time of five runs of about a second, minus an
    empty run, and the instructions of fewer repetitions, minus those of none."""
    words = lambda count: [program, task, str(count), file]
    count = 1
    while (taken := seconds(words(count))) < 0.2 and not SMALLEST:
        count *= 4
    many, few = count_of((max(1, round(count / taken)), max(1, round(count / taken / 50))), (1, 1))
    best = lambda count: min(seconds(words(count)) for _ in range(count_of(5, 1)))
    timed = less(Cost(best(many), None), Cost(best(0), None), many)
    counted = less(*(Cost(0, instructions(words(count))) for count in (few, 0)), few)
    return Cost(timed.seconds, counted.instructions)


def processor_seconds(words):
    """The processor time of one run, of the program and of the system for it, whatever else runs on the machine."""
    child = subprocess.Popen(words, stdin=subprocess.DEVNULL, stdout=subprocess.DEVNULL, stderr=subprocess.DEVNULL)
    _, _, usage = os.wait4(child.pid, 0)
    return usage.ru_utime + usage.ru_stime


def in_turn(tasks, file, runs=15, most=None):
    """The cost of one repetition of each `PROGRAM TASK COUNT FILE`: the least processor time of some runs of a twentieth
    of a second, or of at most `most` repetitions, of all the tasks in turn, so that all see the same machine; each minus
    an empty run, and the instructions of one repetition, minus those of none."""
    words = lambda task, count: [*task, str(count), file]
    taken = lambda task, count: processor_seconds(words(task, count))
    empty = {task: taken(task, 0) for task in tasks}
    counts = {task: repetitions(lambda count: taken(task, count) - empty[task], count_of(most, 1)) for task in tasks}
    best = dict.fromkeys(tasks, float("inf"))
    for _ in range(count_of(runs, 1)):
        for task in tasks:
            empty[task] = min(empty[task], taken(task, 0))
            best[task] = min(best[task], taken(task, counts[task]))
    words_of = lambda task: lambda count: words(task, count)
    return [one_of(best[task], empty[task], counts[task], words_of(task)) for task in tasks]


def repetitions(taken, most):
    """How many repetitions take a twentieth of a second or more, or the most that there may be."""
    count = 1
    while count != most and taken(count) < 0.05:
        count *= 2
    return count


def one_of(best, empty, count, words):
    """The cost of one repetition, from the least times of `count` repetitions and of none, and the instructions of one and of none."""
    timed = less(Cost(best, None), Cost(empty, None), count)
    whole, none = (Cost(0, instructions(words(count), check=False)) for count in (1, 0))
    return Cost(timed.seconds, less(whole, none, 1).instructions)


def compared(name, ours, theirs, program="flight_bench"):
    """A line with the costs of one operation in a program of ours and in plain Rust."""
    both = [f"{cost.seconds * 1e6:,.3f} us ({1 / cost.seconds:,.0f}/s)" for cost in (ours, theirs)]
    line = f"{name}: {program} {both[0]}, plain Rust {both[1]}, ratio {ours.seconds / theirs.seconds:.2f}"
    if ours.instructions is None:
        return line
    counts = f"{ours.instructions:,.0f}, plain Rust {theirs.instructions:,.0f}"
    return f"{line}; instructions {counts}, ratio {ours.instructions / theirs.instructions:.2f}"
