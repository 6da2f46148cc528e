#!/usr/bin/env python3
"""Makes the stories of bitmaps, and of columns of bits and nulls, in crates/batch_stories/data: `bitmaps.txt` and `columns.txt`.

Bits are a list here, and a byte is a sum of powers of two (Apache Arrow Columnar Format, "Validity bitmaps": the lowest bit first).
With --check it changes no file, and names those that differ."""
import itertools
import sys
from pathlib import Path

from batch_model import type_of, width
from batches import FLAT, NESTED
from toolbox import show_help

DATA = Path(__file__).resolve().parent.parent / "crates" / "batch_stories" / "data"
RUN_BYTES = bytes([0b1010_0110, 0xFF, 0x00, 0x81, 0b0011_1101])
STARTS, COUNTS = 18, 41  # upper bounds of where runs begin and of their lengths
NAMES = {"Bool": "Bits", "List": "List", "Struct": "Struct", "Null": "Null", "Binary": "Binary", "Utf8": "Utf8"}


def packed(bits):
    eights = [bits[place : place + 8] for place in range(0, len(bits), 8)]
    return bytes(sum(2**place for place, bit in enumerate(eight) if bit) for eight in eights)


def bits_in(content, start, count):
    """`count` bits from `start` on; after the last byte none is set."""
    all_bits = [bit == "1" for byte in content for bit in reversed(f"{byte:08b}")]
    return [place < len(all_bits) and all_bits[place] for place in range(start, start + count)]


def digits(bits):
    return "".join("01"[bit] for bit in bits) or "-"


def hexadecimal(content):
    return content.hex() or "-"


def bitmap_told(bits):
    return f"{len(bits)}:{hexadecimal(packed(bits))}:{bits.count(False)}"


def lists():
    yield "# Every list of up to ten bits, put bit by bit."
    for count in range(11):
        for bits in itertools.product([False, True], repeat=count):
            yield from (f"list {digits(bits)}", f"  {bitmap_told(list(bits))}")


def runs():
    yield from ("", "# Runs of up to 40 bits from 18 places of some bytes and behind them, put behind up to nine bits.")
    for length, start in itertools.product(range(10), range(STARTS)):
        front = [place % 3 != 1 for place in range(length)]
        told = [bitmap_told(front + bits_in(RUN_BYTES, start, count)) for count in range(COUNTS)]
        yield from (f"runs {digits(front)} {RUN_BYTES.hex()} {start}", f"  {' '.join(told)}")


def equal_runs():
    yield from ("", "# Up to 19 equal bits, or thousands, put behind up to nine bits, and one of the other kind behind them.")
    for length, count, bit in itertools.product(range(10), (*range(20), 5000), (True, False)):
        front = [place % 3 != 1 for place in range(length)]
        yield f"equal {digits(front)} {digits([bit])} {count}"
        yield f"  {bitmap_told(front + [bit] * count + [not bit])}"


def zeros():
    yield from ("", "# The zeros of runs of up to 40 bits from 18 places of some bytes: which bits count, from the first on.")
    for content in (RUN_BYTES, *(bytes([byte, 255 - byte]) for byte in range(256))):
        bits = [not bit for bit in bits_in(content, 0, STARTS + COUNTS - 2)]
        yield from (f"zeros {content.hex()}", f"  {digits(bits)}")


def bitmaps():
    yield "# Bitmaps, and runs of bits in bytes (Apache Arrow Columnar Format, \"Validity bitmaps\"): how many bits there are,"
    yield "# their bytes, and how many of the bits are not set. Made by tools/bits.py, and not by hand."
    yield from ("", *lists(), *runs(), *equal_runs(), *zeros())


def column(name, cells):
    """A column of bits and nulls: without nulls it has no bitmap, and under a null the bit is not set."""
    nulls = cells.count("n")
    validity = packed([cell != "n" for cell in cells]) if nulls and name == "Bits" else b""
    second = packed([cell == "1" for cell in cells]) if name == "Bits" else b""
    seen = cells + "---"
    if name == "Null":
        seen = " ".join(f"{letter}*{len(list(run))}" for letter, run in itertools.groupby(seen))
    buffers = f"{hexadecimal(validity)} {hexadecimal(second)} -"
    return f"  {name} of {len(cells)}, nulls {nulls}, buffers {buffers}, inside 0, seen {seen}"


def layout(type):
    if type.name == "FixedSizeList":
        return f"FixedSizeList {{ size: {type.parameters[0]} }}"
    return NAMES.get(type.name) or f"Bytes {{ size: {width(type)} }}"


def columns():
    yield "# Columns that are made of their cells: their buffers, and what is seen of each cell and behind the last one."
    yield "# Then the layouts of types (Apache Arrow Columnar Format, \"Physical memory layout\"). Made by tools/bits.py, and"
    yield "# not by hand."
    yield from ("", "# Every list of up to six bits and nulls.")
    for count in range(7):
        for cells in map("".join, itertools.product("n01", repeat=count)):
            yield from (f"column {cells}".rstrip(), column("Bits", cells))
    yield from ("", "# Thousands of them.")
    cells = "".join("n" if row % 7 == 3 else "01"[row % 3 == 0] for row in range(10_000))
    yield from (f"column {cells}", column("Bits", cells), "", "# Nulls alone.")
    for count in range(300):
        yield from (f"nulls {count}", column("Null", "n" * count))
    yield from ("", "# How the values of each type stand in buffers.")
    for word in FLAT + [word for word in NESTED if word.count("(") == 1] + ["FixedSizeList(3,Null)", "FixedSizeBinary(7)"]:
        yield from (f"layout {word}", f"  {layout(type_of(word))}")


def main():
    status = 0
    for make in (bitmaps, columns):
        file, text = DATA / f"{make.__name__}.txt", "".join(f"{line}\n" for line in make())
        if file.exists() and file.read_text(encoding="utf-8") == text:
            continue
        if "--check" in sys.argv[1:]:
            print(f"bits: {file.name} differs from what tools/bits.py makes")
            status = 1
        else:
            file.write_text(text, encoding="utf-8")
    return status


if __name__ == "__main__":
    show_help(__doc__)
    sys.exit(main())
