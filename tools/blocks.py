"""Finds which basic blocks of a built program its inputs reach, without building it again.

The blocks are read from the disassembly by objdump (GNU binutils): one begins at the start of a function, at the target of a jump, and
after a jump, a call or a return. `traced.c`, which cc builds into a folder, stops a copy of the program at each block that no run has
reached yet. So the program measured is the one that two compilers built, x86-64 and ELF, and a block that was reached costs nothing from
then on."""
import re
import struct
import subprocess
from pathlib import Path
from typing import NamedTuple

SOURCE = Path(__file__).resolve().parent / "traced.c"
LINE = re.compile(r"\s*([0-9a-f]+):\t(\S+)\s*([0-9a-f]+)?\b")
SYMBOL = re.compile(r"([0-9a-f]+) <")
ENDS = re.compile(r"(j|call|ret|loop|ud2|hlt)")
FILLING = re.compile(r"(nop|int3|xchg|data16|cs|\(bad\))")
# the type of a part of the file that is loaded, and the flag of one that is executed (System V ABI, "Program Header")
LOADED, EXECUTED = 1, 1


class Outcome(NamedTuple):
    """How a run ended: its status of wait(2), processor seconds, bytes of memory, the blocks that it was the first to reach, and its
    output."""

    status: int
    seconds: float
    held: int
    reached: list
    output: bytes
    errors: bytes


def executed_parts(content):
    """The executable parts of a program: the address of each, its place in the file, and its length."""
    if content[:5] != b"\x7fELF\x02":
        raise OSError("the program is no ELF of 64 bits")
    first, size, count = *struct.unpack_from("<Q", content, 32), *struct.unpack_from("<HH", content, 54)
    for place in range(first, first + size * count, size):
        kind, flags, offset, address, _, length = struct.unpack_from("<IIQQQQ", content, place)
        if kind == LOADED and flags & EXECUTED:
            yield address, offset, length


def block_addresses(listing):
    """The addresses at which blocks begin, in the listing of objdump."""
    starts, instructions, is_behind = set(), set(), False
    for line in listing.splitlines():
        if symbol := SYMBOL.match(line):
            starts.add(int(symbol[1], 16))
        if not (found := LINE.match(line)):
            continue
        address, word, target = int(found[1], 16), found[2], found[3]
        is_filling = FILLING.match(word) is not None
        if not is_filling:
            instructions.add(address)
        if is_behind and not is_filling:
            starts.add(address)
            is_behind = False
        if ENDS.match(word):
            is_behind = True
            if target and not word.startswith("ret"):
                starts.add(int(target, 16))
    return sorted(starts & instructions)


def blocks_of(program):
    """The blocks of a program: the address of each and its place in the file."""
    content = Path(program).read_bytes()
    listing = subprocess.run(["objdump", "-d", "--no-show-raw-insn", program], capture_output=True, encoding="utf-8", check=True).stdout
    parts = list(executed_parts(content))
    places = ((it, address, offset, length) for it in block_addresses(listing) for address, offset, length in parts)
    return [(it, it - address + offset) for it, address, offset, length in places if address <= it < address + length]


class Traced:
    """A program that runs on one input after another, and the blocks that no run has reached yet."""

    def __init__(self, program, words, folder, most_seconds):
        self.folder = Path(folder)
        driver, copy = self.folder / "traced", self.folder / "program"
        subprocess.run(["cc", "-O2", "-o", driver, SOURCE], check=True)
        copy.write_bytes(Path(program).read_bytes())
        copy.chmod(0o700)
        self.blocks = blocks_of(program)
        listed = "".join(f"{address:x} {offset:x}\n" for address, offset in self.blocks)
        (self.folder / "blocks").write_text(listed, encoding="ascii")
        called = [driver, copy, "blocks", str(most_seconds), *words]
        self.process = subprocess.Popen(called, stdin=subprocess.PIPE, stdout=subprocess.PIPE, cwd=self.folder)

    def file(self, number, end):
        return self.folder / f"{number}.{end}"

    def run(self, inputs, again=()):
        """Runs the program on these inputs in turn, and returns their outcomes. Before each, the blocks in `again` count as not reached."""
        marked = "".join(f" {it}" for it in again)
        for number, given in enumerate(inputs):
            self.file(number, "input").write_bytes(given)
            self.process.stdin.write(f"{number}{marked}\n".encode())
        self.process.stdin.flush()
        return [self.outcome(number) for number in range(len(inputs))]

    def outcome(self, number):
        line = self.process.stdout.readline()
        if not line:
            raise OSError("the program `traced` has ended")
        status, spent, held, *reached = map(int, line.split())
        return Outcome(status, spent / 1e6, held << 10, reached, self.file(number, "output").read_bytes(), self.file(number, "errors").read_bytes())

    def close(self):
        self.process.stdin.close()
        self.process.wait()
