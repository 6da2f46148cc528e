#!/usr/bin/env python3
"""Runs flightd, as the gate built it, and checks its output, its errors and its status.

    tools/program.py

The rows of tools/program/ were worked out by hand: conversations with the acceptor, good and bad recorded runs and schedules,
command lines, and lines of the help. The schedules of examples/ are played too; their results are from the model in
runs_model.py. Each row is tried with the program as each of the two compilers built it. It prints the number of rows of each
kind, and ends with status 1 if the program differs from a row or is not built."""
import json
import subprocess
import sys
import tempfile
from pathlib import Path

from toolbox import show_help
from wire_model import frame, number_field

TOP = Path(__file__).resolve().parent.parent
ROWS = TOP / "tools" / "program"
EXAMPLES = TOP / "examples"
# a frame that needs no answer, and the frame of the end
ASK, END = bytes.fromhex("00000000020806"), bytes.fromhex("8000000000")
MOST_FRAMES = 1_000_000
# the longest value of an Accept that a Promise can report: the Promise has a second round too, and is as long as a payload
# may be
REPORTED = 4_194_293
ID = "000102030405060708090a0b0c0d0e0f"
UPLOAD = '{"table":"t","id":"%s","values":[[1,null,3]]}' % ID
# An upload is decided without a lost message, and two nodes are asked for it.
DECIDED = """["put",0,0],["tick",0,0],["deliver",0,0],["deliver",1,0],["deliver",0,1],["deliver",0,2],["deliver",0,3],
["deliver",1,3],["deliver",0,4],["deliver",0,5],["outcome",0,0],["get",2,"t",1]"""
DECIDED_LINES = ["done", *(f"sent {it}" for it in "012-345--"), "applied 1", "unavailable"]
# a file that is an unlawful run, and a schedule of one event
BOTH = b'{"members":3,"sent":["08042801"],"slot_limit":2,"uploads":[],"events":[["tick",0,0]]}'
# the records of a begun ballot, a promise, an acceptance of forty bytes and a promise of all slots from slot 5 on, and their lines
FORTY = bytes(range(40)).hex()
RECORDS = ("08011801", "08021801", f"080318012a28{FORTY}", "080410051802")
RECORD_LINES = ("0 began 1.0", "1 promised slot 0 1.0", f"2 accepted slot 0 1.0 upload of 40 bytes {FORTY[:64]}",
                "3 promised from slot 5 2.0")
PREPARE, PROMISE = bytes.fromhex("000000000408012801"), bytes.fromhex("000000000408022801")


def rows(name, parts):
    """The rows of a file, each split at bars into this many parts."""
    lines = (ROWS / name).read_text(encoding="utf-8").splitlines()
    return [line.split("|", parts - 1) for line in lines if "|" in line and not line.startswith("#")]


class Program:
    """The program, and a folder for the files that it reads."""

    def __init__(self, path, folder):
        self.path, self.folder = path, Path(folder)

    def run(self, words, given=b"", name="flightd"):
        """The status of a run, and the bytes of its standard output and standard error."""
        ran = subprocess.run([name, *words], executable=self.path, input=given, capture_output=True, cwd=self.folder,
                             timeout=120, check=False)
        return ran.returncode, ran.stdout, ran.stderr

    def over(self, command, text):
        """The outcome of a command over a file of these bytes."""
        file = self.folder / "file.json"
        file.write_bytes(text)
        return self.run([*command.split(" "), file.name])


def said(line):
    """The status and the standard error of a run that fails with this line, or of one that succeeds without one."""
    return (1, b"flightd: %s\n" % line.encode()) if line else (0, b"")


def is_conversation(outcome, answers, lines):
    status, output, line = outcome
    return output == answers and (status, line) in [said(it) for it in lines]


# ---- the acceptor


def conversations(program):
    for given, answers, line in rows("conversations.txt", 3):
        first, _, other = line.partition(" or ")
        lines = [first, f"frame 0: {other}"] if other else [line]
        outcome = program.run(["acceptor"], bytes.fromhex(given))
        yield f"{given} {line}", is_conversation(outcome, bytes.fromhex(answers), lines)
    competing = rows("competing.txt", 2)
    given, answers = (bytes.fromhex("".join(texts)) for texts in zip(*competing))
    yield "competing.txt", is_conversation(program.run([], given), answers, [""])
    given = "00 00000004 08012801 00 00000008 0804100128023001 00 00000004 08042801 00 00000008 0801100228033002"
    answers = "00 00000004 08022801 00 00000006 080528023001 00 00000008 0803280138024001 00 0000000a 08022803300238024001"
    yield given, is_conversation(program.run([], bytes.fromhex(given)), bytes.fromhex(answers), [""])


def frame_of(kind, slot):
    """The frame of a message of this kind, about ballot (1, 0) and a slot."""
    return frame(0, number_field(1, kind) + number_field(3, slot) + number_field(5, 1))


def frames(program):
    """The limit of frames, which is reported before any fault of the next frame; and 5,000 slots."""
    for count, behind, line in (
        (MOST_FRAMES - 1, b"", ""), (MOST_FRAMES, b"", "frame 1000000: Io"), (MOST_FRAMES, ASK, "frame 1000000: Io"),
        (MOST_FRAMES - 1, END, "frame 999999: BadFlag"), (MOST_FRAMES, END, "frame 1000000: Io"),
    ):
        outcome = program.run([], count * ASK + behind)
        yield f"{count} frames and {behind.hex()}", is_conversation(outcome, b"", [line])
    slots = [128 * high + low for high in range(1, 41) for low in range(125)]
    given, answers = (b"".join(frame_of(kind, slot) for slot in slots) for kind in (1, 2))
    yield "5,000 slots", is_conversation(program.run([], given), answers, [""])


def with_value(beginning, size):
    return bytes.fromhex(beginning) + bytes([7]) * size


def values(program):
    """An Accept of a long value, and then a Prepare of a higher ballot, whose Promise has room for the value or not."""
    prepare = bytes.fromhex("00 00000004 08012802")
    accepted = with_value("00 003ffffe 0805 2801 4af5ffff01", REPORTED)
    promise = with_value("00 00400000 0802 2802 3801 4af5ffff01", REPORTED)
    outcome = program.run([], with_value("00 003ffffe 0804 2801 4af5ffff01", REPORTED) + prepare)
    yield "the longest value", is_conversation(outcome, accepted + promise, [""])
    accepted = with_value("00 003fffff 0805 2801 4af6ffff01", REPORTED + 1)
    outcome = program.run([], with_value("00 003fffff 0804 2801 4af6ffff01", REPORTED + 1) + prepare)
    yield "a longer value", is_conversation(outcome, accepted, ["frame 1: TooLong"])


def beginnings_of_a_conversation(program):
    """For each beginning of a conversation the whole frames are answered, and a cut frame is reported."""
    given, answers = (list(map(bytes.fromhex, texts)) for texts in zip(*rows("competing.txt", 2)))
    whole = b"".join(given)
    ends = [sum(map(len, given[:count])) for count in range(len(given) + 1)]
    for size in range(len(whole)):
        count = sum(end <= size for end in ends) - 1
        line = "" if size in ends else f"frame {count}: Truncated"
        outcome = program.run(["acceptor"], whole[:size])
        yield f"its first {size} bytes", is_conversation(outcome, b"".join(answers[:count]), [line])


# ---- recorded runs


JUDGED = {"lawful": (0, b"lawful\n", b""), "unlawful": (1, b"unlawful\n", b"")}


def is_judged(outcome, judgement):
    """Whether a file was judged so; if it is no run, a second line says what is wrong with it."""
    if judgement in JUDGED:
        return outcome == JUDGED[judgement]
    status, output, error = outcome
    lines = error.split(b"\n")
    return (status, output, lines[0], lines[2:]) == (1, b"", b"flightd: BadTrace", [b""]) and lines[1].startswith(b"flightd: ")


def audits(program):
    files = [(judgement, why, file.encode()) for judgement, why, file in rows("runs.txt", 3)]
    files += [
        # white space where RFC 8259, section 2, allows it; no UTF-8; and a byte order mark, which JSON doesn't have (section 8.1)
        ("lawful", "spaces", b'\n{ "members" : 3 ,\t"sent" : [ ] }\r\n'),
        ("no run", "no text", b'{"members":3,"sent":[],"note":"\xff"}'),
        ("no run", "a mark", b'\xef\xbb\xbf{"members":3,"sent":[]}'),
        ("no run", "no text behind", b'{"members":3,"sent":[]}\xff'),
    ]
    whole = next(file for _, why, file in files if why == "an acceptance above")
    files += [("no run", f"its first {size} bytes", whole[:size]) for size in range(len(whole))]
    for judgement, why, file in files:
        yield f"{judgement}: {why}", is_judged(program.over("audit", file), judgement)


# ---- schedules


def schedule(uploads, events):
    """The schedule of three nodes and two slots with these uploads and events."""
    return f'{{"members":3,"slot_limit":2,"uploads":[{uploads}],"events":[{events}]}}'.encode()


def is_played(outcome, lines):
    return outcome == (0, "".join(f"{place} {line}\n" for place, line in enumerate(lines)).encode(), b"")


FLAWS = {
    "text": "the file is not UTF-8",
    "json": "the file is not one JSON value",
    "members": "`members` is missing or not a whole number from 1 to 7",
    "slot_limit": "`slot_limit` is missing or not a whole number from 1 to 1,000,000",
    "uploads": "`uploads` is missing or not an array",
    "events": "`events` is missing or not an array",
    "upload": "upload 0 of `uploads` is not a valid upload",
    "event": "event 0 of `events` is not an array of a word, a node's number and that word's arguments",
    "last event": "event 3 of `events` is not an array of a word, a node's number and that word's arguments",
}


def is_told(outcome, told, lines=()):
    """Whether a file was played with these lines, or refused for the flaw `told`."""
    if told in FLAWS:
        return outcome == (1, b"", f"flightd: BadSchedule\nflightd: {FLAWS[told]}\n".encode())
    return is_played(outcome, lines)


def schedules(program):
    for told, file in rows("schedules.txt", 2):
        yield f"{told}: {file}", is_told(program.over("replay", file.encode()), told)
    no_text = b'{"members":3,"slot_limit":2,"uploads":[],"events":[],"note":"\xff"}'
    yield "no text", is_told(program.over("replay", no_text), "text")
    for told, upload in rows("uploads.txt", 2):
        yield f"{told}: {upload}", is_told(program.over("replay", schedule(upload, "")), "upload" if told == "bad" else told)
    for count, told in ((1024, "good"), (1025, "upload")):
        upload = json.dumps({"table": "t", "id": ID, "values": count * [[]]})
        yield f"{count} batches", is_told(program.over("replay", schedule(upload, "")), told)


def events(program):
    for told, event in rows("events.txt", 2):
        yield f"{told}: {event}", is_told(program.over("replay", schedule(UPLOAD, event)), "event" if told == "bad" else told, [told])
        if told == "bad":
            behind = f'["tick",0,0],["restart",7],["info",0,""],{event},["tick"]'
            yield f"fourth: {event}", is_told(program.over("replay", schedule(UPLOAD, behind)), "last event")
    yield "an upload", is_played(program.over("replay", schedule(UPLOAD, DECIDED)), DECIDED_LINES)
    # a node at which nothing waits asks for the first slot at each tick
    ticks = ",".join(5000 * ['["tick",2,0]'])
    yield "5,000 ticks", is_played(program.over("replay", schedule("", ticks)), [f"sent {number}" for number in range(5000)])


def examples(program):
    for lines in sorted(EXAMPLES.glob("*.lines")):
        outcome = program.run(["replay", lines.with_suffix(".json")])
        yield lines.name, outcome == (0, lines.read_bytes(), b"")


# ---- files that are cut off


def beginnings_of_files(program):
    """No beginning of the object of a schedule or of a script is JSON (RFC 8259, section 2)."""
    whole = schedule(UPLOAD, DECIDED)
    for size in range(len(whole)):
        yield f"a schedule's first {size} bytes", is_told(program.over("replay", whole[:size]), "json")
    whole = (EXAMPLES / "scripts" / "first_upload.json").read_bytes().rstrip()
    refused = (1, b"", f"flightd: BadScript\nflightd: {FLAWS['json']}\n".encode())
    for size in range(len(whole)):
        yield f"a script's first {size} bytes", program.over("script", whole[:size]) == refused


def beginnings_of_records(program):
    """A file of two or more bytes is damaged if it ends before the gate after a record whose own gate is open (docs/FORMATS.md, "Files of
    records")."""
    blocks = [b"\1" + len(it).to_bytes(4, "little") + it for it in map(bytes.fromhex, RECORDS)]
    whole = b"".join(blocks) + b"\0"
    gates = [sum(map(len, blocks[:count])) for count in range(len(blocks) + 1)]
    for size in range(len(whole)):
        place = max(gate for gate in gates if gate < max(size, 1))
        damage = f"byte {place}: this gate is open, but the record after it is incomplete"
        wanted = (1, b"", f"flightd: Damaged\n{damage}\n".encode()) if size > 1 else (0, b"", b"")
        yield f"the first {size} bytes of a file of records", program.over("records", whole[:size]) == wanted
    outcome = program.over("records", whole)
    yield "a file of records", outcome == (0, "".join(f"{line}\n" for line in RECORD_LINES).encode(), b"")


# ---- inputs that reached something new


def reached(program):
    """What tools/fuzz.py has kept: for each input its bytes, the status, the output, and the alternatives for standard error."""
    for command, given, status, output, said in rows("reached.txt", 5):
        given, output = (bytes.fromhex(it.strip("-")) for it in (given, output))
        outcome = program.run([command], given) if command == "acceptor" else program.over(command, given)
        lines = [it.replace(" / ", "\n").encode() + b"\n" * bool(it) for it in said.split(" // ")]
        yield f"{command} {given.hex()}", outcome[:2] == (int(status), output) and outcome[2] in lines


# ---- command lines


def file_of(wanted):
    """The name of the file that is expected to be read, if there is one."""
    return wanted[1:-1] if wanted[0] + wanted[-1] in ("[]", "()", "{}") else None


def asked(outcome, name):
    """How a command line was understood, by its output: standard input is a Prepare, and a file of this name is the only one."""
    status, output, line = outcome
    if line:
        return f"{status} error"
    if (status, output) == (0, PROMISE):
        return "acceptor"
    if (status, output) == (0, b"0 sent 0\n"):
        return f"{{{name}}}"
    if status == 1 and output.startswith(b"unlawful\n"):
        return f"[{name}]" if output == b"unlawful\n" else f"({name})"
    return f"{status} output"


def calls(program):
    for call, wanted in rows("calls.txt", 2):
        with tempfile.TemporaryDirectory(dir=program.folder) as folder:
            there = Program(program.path, folder)
            name, *words = (word.replace("FOLDER", folder) for word in call.split(" "))
            wanted = wanted.replace("FOLDER", folder)
            if file := file_of(wanted):
                (there.folder / file).write_bytes(BOTH)
            outcome = there.run(words, PREPARE, name)
            yield call, asked(outcome, file) == wanted


def helps(program):
    for call, line in rows("helps.txt", 2):
        name, *words = call.split(" ")
        status, output, error = program.run(words, name=name)
        yield f"{call}: {line}", (status, error) == (0, b"") and line in output.decode()


def main():
    built = [file for end in ("", ".by-rattle") if (file := TOP / "crates" / "flightd" / "out" / f"flightd{end}").is_file()]
    if not built:
        print("program: flightd is not built")
        return 1
    status = 0
    for path in built:
        for kind in (conversations, beginnings_of_a_conversation, frames, values, audits, schedules, events, examples, beginnings_of_files,
                     beginnings_of_records, reached, calls, helps):
            with tempfile.TemporaryDirectory() as folder:
                found = list(kind(Program(path, folder)))
            for label, is_so in found:
                if not is_so:
                    print(f"program: {path.name} differs from a row, {kind.__name__}: {label[:160]}")
                    status = 1
            print(f"program: {path.name}, {len(found)} {kind.__name__}")
    return status


if __name__ == "__main__":
    show_help(__doc__)
    sys.exit(main())
