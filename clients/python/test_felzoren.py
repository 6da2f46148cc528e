#!/usr/bin/env python3
"""Tests of the client in felzoren.py.

    clients/python/test_felzoren.py [PROGRAM]

Codecs are compared with independent examples: those of docs/FORMATS.md, the stories of the crates, and headers that the FlatBuffers
compiler made. Calls are made over local sockets to PROGRAM (crates/call_server/out/call_server), which `rt ci call_server` builds.
Without it the tests of calls fail."""
import array
import base64
import contextlib
import copy
import datetime
import decimal
import doctest
import hashlib
import importlib.util
import inspect
import io
import itertools
import math
import os
import pickle
import re
import socket
import struct
import subprocess
import sys
import tarfile
import tempfile
import threading
import time
import tracemalloc
import types
import typing
import unittest
import zipfile
from pathlib import Path
from unittest import mock

sys.dont_write_bytecode = True
sys.path.insert(0, str(Path(__file__).resolve().parent))

import felzoren
import felzoren_build
from felzoren import BadAnswer, DataType, Field, Refused, Schema, Ticket, bytes_field, data_message

FOLDER = Path(__file__).resolve().parent
CRATES = FOLDER.parent.parent / "crates"
PROGRAM = CRATES / "call_server" / "out" / "call_server"
LOCATIONS = [f"plain+tcp://127.0.0.1:{port}" for port in (42000, 42001, 42002)]
ID = bytes(range(16))
UTC = datetime.timezone.utc


# ---- stories


def bytes_of(text):
    """Bytes in hexadecimal; a letter from `g` to `z` stands for one to twenty zero bytes, a dash for none."""
    digits = "".join("00" * (ord(it) - ord("f")) if "g" <= it <= "z" else it for it in text.replace(" ", ""))
    return b"" if text == "-" else bytes.fromhex(digits)


def stories(*names):
    """Each command in files of stories, with the lines under it."""
    for name in names:
        found = []
        for line in (CRATES / name).read_text(encoding="utf-8").splitlines():
            if line.startswith("  "):
                found[-1][1].append(line[2:])
            elif line and not line.startswith("#"):
                found.append((line, []))
        yield from found


UNITS = ("SECOND", "MILLISECOND", "MICROSECOND", "NANOSECOND")
WORDS = {"true": 1, "false": 0, "-": None, "HALF": 0, "SINGLE": 1, "DOUBLE": 2, "DAY": 0}


def story_type(text):
    """The type at the front of a story's text, and the text after it."""
    kind, rest = re.match(r"(\w+)(.*)", text).groups()
    words, fields = [], []
    while rest.startswith(("(", ",")) and not rest.startswith("()") and (rest[0] == "(" or words or fields):
        rest = rest[1:]
        word = re.match(r'(-?\d+|-|"[^"]*"|[a-z]+|[A-Z]+)(?=[,)])', rest)
        if word:
            words.append(word[0])
            rest = rest[word.end() :]
        else:
            type, rest = story_type(rest)
            fields.append(Field(f"f{len(fields)}", type))
    if rest.startswith(("()", ")")) and (words or fields or rest.startswith("()")):
        rest = rest[2 if rest.startswith("()") else 1 :]
    return DataType(kind.rstrip("_"), parameters(kind, words), fields), rest


def parameters(kind, words):
    if kind in ("Time", "Timestamp", "Duration"):
        words[0] = str(UNITS.index(words[0]))
    if kind == "Time":
        words.append("32" if words[0] in "01" else "64")
    if kind == "Date":
        words = ["0" if words[0] == "DAY" else "1"]
    return [it[1:-1] if it.startswith('"') else WORDS[it] if it in WORDS else int(it) for it in words]


def story_schema(text):
    types, rest = [], text.strip()
    while rest:
        type, rest = story_type(rest)
        types.append(type)
        rest = rest.strip()
    return Schema([(f"c{place}", type) for place, type in enumerate(types)])


def told(type, cell):
    """A cell as stories show it, by its stored bytes."""
    if cell is None:
        return "null"
    if type.kind == "Bool":
        return "true" if cell else "false"
    if type.kind in ("List", "FixedSizeList"):
        return "[" + " ".join(told(type.fields[0].type, it) for it in cell) + "]"
    if type.kind == "Struct":
        return "(" + " ".join(told(it.type, cell[it.name]) for it in type.fields) + ")"
    if type.kind in ("Utf8", "Binary"):
        return (cell.encode() if type.kind == "Utf8" else cell).hex() or "-"
    if isinstance(cell, decimal.Decimal):
        sign, digits, _ = cell.as_tuple()
        number = int("".join(map(str, digits))) * (-1 if sign else 1)
        return number.to_bytes(type.parameters[2] // 8, "little", signed=True).hex()
    if cell != cell:
        return "nan"
    storage = felzoren.storage_of(type)
    stored = storage.store(cell)
    return (struct.pack("<" + storage.form, stored) if storage.form else stored).hex() or "-"


def is_nan(digits):
    """Whether the bytes of a floating point number are a NaN (IEEE 754)."""
    form = {4: "<e", 8: "<f", 16: "<d"}.get(len(digits))
    return digits != "null" and math.isnan(struct.unpack(form, bytes.fromhex(digits))[0])


def has_too_many_digits(type, cell):
    return isinstance(cell, decimal.Decimal) and len(cell.as_tuple().digits) > type.parameters[0]


def pairs(text):
    return [tuple(map(int, it.split(","))) for it in re.findall(r"\(([^)]*)\)", text)]


class BatchStory:
    """A batch of a story: what is read, and the expected result."""

    def __init__(self, schema, command, lines):
        head, buffers, body = command.split("|")
        words = head.split()
        self.compressed = "compressed" in words
        self.rows = int(words[2 if self.compressed else 1])
        self.nodes, self.buffers = pairs(head), pairs(buffers)
        self.length, _, body = body.strip().partition(" ")
        self.body = bytes_of(body)
        self.fault = None if lines[0].startswith("rows") else lines[0]
        self.canonical = lines[-1] == "canonical"
        self.told = [it.strip() for it in lines[1 : -1 if self.canonical else -3]]
        if schema.fields and schema.fields[0].type.kind == "FloatingPoint":
            self.told = [" ".join("nan" if is_nan(it) else it for it in line.split()) for line in self.told]
        if not self.fault and not self.canonical:
            self.canonical_nodes, self.canonical_buffers = pairs(lines[-3]), pairs(lines[-2])
            self.canonical_body = bytes_of(lines[-1].split(" ", 2)[2] if lines[-1].count(" ") > 1 else "")

    def header(self):
        if not self.compressed:
            return felzoren.batch_header(self.rows, self.nodes, self.buffers, int(self.length))
        cells = (8, "q", self.rows), (4, felzoren.Pairs(self.nodes)), (16, felzoren.Pairs(self.buffers)), (20, felzoren.FlatTable(4, ()))
        return felzoren.header_text(felzoren.BATCH_HEADER, felzoren.FlatTable(24, cells), int(self.length))

    def as_written(self):
        """The header and the body that are written for the batch."""
        if self.canonical:
            return self.header(), self.body
        body = self.canonical_body
        return felzoren.batch_header(self.rows, self.canonical_nodes, self.canonical_buffers, len(body)), body


class Stories(unittest.TestCase):
    """The client reads the bytes of the stories with the results there."""

    def test_examples_of_the_formats(self):
        """The bytes that docs/FORMATS.md shows."""
        self.assertEqual(felzoren.frame(0, bytes.fromhex("08012801")), bytes.fromhex("00 00000004 08012801"))
        self.assertEqual(felzoren.descriptor(b"sales"), bytes.fromhex("08011a0573616c6573"))
        self.assertEqual(felzoren.Message(bytes.fromhex("0a060a04702d3137")).message(1).bytes(1), b"p-17")
        self.assertEqual(Ticket("sales", 3).encode(), bytes.fromhex("0a05 73616c6573 1003"))
        view = felzoren.View(bytes.fromhex("06000800 0400 06000000 2a000000"), 6)
        self.assertEqual((view.number(0, "I"), view.number(1, "I", 7)), (42, 7))
        header = "10000000 0a000c00 0400 0600 0800 0000 0c000000 0400 01 00 08000000 04000400 04000000"
        self.assertEqual(felzoren.read_schema(bytes.fromhex(header)), Schema([]))
        header, body = felzoren.write_batch(Schema({"a": "int8"}), [[1, None, 3]], 3)
        self.assertEqual(body, bytes.fromhex("0500000000000000 0100030000000000"))
        _, view = felzoren.read_header(header, felzoren.BATCH_HEADER)
        self.assertEqual((view.pairs(1, 1), view.pairs(2, 2)), ([(3, 1)], [(0, 1), (8, 3)]))

    def test_fields(self):
        count = 0
        for command, lines in stories("wire_stories/data/fields.txt", "wire_stories/data/every_field.txt"):
            words = command.partition("fields")
            if words[1] and not words[0].startswith("front"):
                count += 1
                self.check_fields(bytes_of(words[2].strip()), lines)
        self.assertGreater(count, 1000)

    def check_fields(self, text, lines):
        if ":" not in lines[0] and lines[0] != "none":
            with self.assertRaises(BadAnswer):
                felzoren.Message(text)
            return
        found, wire_types = {}, {"varint": 0, "eight": 1, "bytes": 2, "four": 5}
        for line in lines if lines[0] != "none" else ():
            number, kind, *_, content = line.replace(":", "").split()
            content = int(content) if kind == "varint" else bytes_of(content)
            found.setdefault(int(number), []).append((wire_types[kind], content))
        self.assertEqual(felzoren.Message(text).found, found, text.hex())

    def test_frames(self):
        count = 0
        for command, lines in stories("wire_stories/data/frames.txt", "wire_stories/data/every_frame.txt"):
            if command.startswith("frames"):
                count += 1
                self.check_frames(bytes_of(command[6:].strip()), lines)
        self.assertEqual(count, 222)

    def check_frames(self, text, lines):
        """Messages up to the first end, and then the result of the trailer; or a fault."""
        messages = [it.split("payload ")[1] for it in itertools.takewhile(lambda it: it.startswith("flag 0,"), lines)]
        trailer = next((it for it in lines[len(messages) :] if it.startswith("flag 128")), None)
        payload = bytes_of(trailer.split("payload ")[1]) if trailer else b""
        found, raised = [], None
        try:
            found += felzoren.read_messages(io.BytesIO(text).read)
        except (BadAnswer, Refused) as fault:
            raised = fault
        if payload[:1] == b"\0":
            self.assertEqual(([it.hex() or "-" for it in found], raised), (messages, None), text.hex())
        elif payload:
            self.assertIsInstance(raised, (Refused, BadAnswer))
        else:
            self.assertIsInstance(raised, BadAnswer)

    def test_headers_of_the_compiler(self):
        read = refused = 0
        for command, lines in stories("header_stories/data/compiled.txt"):
            text = bytes_of(command.partition(" ")[2])
            if lines[0] == "schema":
                schema = felzoren.read_schema(text)
                self.assertEqual(felzoren.read_schema(felzoren.schema_header(schema)), schema)
                self.assertEqual(story_lines(schema), lines[1:])
                read += 1
            elif lines[0].startswith("batch"):
                message, view = felzoren.read_header(text, felzoren.BATCH_HEADER)
                length = message.number(3, "q")
                rows = re.match(r"batch of (-?\d+) rows, body of (-?\d+) bytes", lines[0])
                self.assertEqual((view.number(0, "q"), length), tuple(map(int, rows.groups())))
                nodes = [tuple(map(int, re.findall(r"-?\d+", it))) for it in lines if it.strip().startswith("node")]
                self.assertEqual(view.pairs(1, 512), nodes)
                read += 1
            else:
                with self.assertRaises(BadAnswer):
                    felzoren.read_schema(text)
                refused += 1
        self.assertEqual((read, refused), (70, 30))

    def test_headers_that_are_none(self):
        """A vtable of fewer bytes than its own two numbers need, and more nodes than a schema has fields."""
        header = felzoren.header_text(felzoren.SCHEMA_HEADER, felzoren.FlatTable(4, ()), 0)
        self.assertEqual(felzoren.read_schema(header), Schema([]))
        self.assertEqual(header[-12:], bytes.fromhex("04000400 04000000 00000000"))
        for size in range(4):
            with self.assertRaises(BadAnswer):
                felzoren.read_schema(header[:-12] + bytes([size]) + header[-11:])
        _, view = felzoren.read_header(felzoren.batch_header(0, [(0, 0)] * 513, [], 0), felzoren.BATCH_HEADER)
        self.assertEqual(len(view.pairs(1, 513)), 513)
        with self.assertRaises(BadAnswer):
            view.pairs(1, 512)

    def test_each_beginning_of_a_header(self):
        """The zero byte after a string, and those at the end, are not needed; all others are."""
        schema = Schema({"a": "int8"}, {"key": "value"})
        header = felzoren.schema_header(schema)
        needed = header.rindex(b"value") + 5
        for length in range(len(header)):
            if length < needed:
                self.assertRaises(BadAnswer, felzoren.read_schema, header[:length])
            else:
                self.assertEqual(felzoren.read_schema(header[:length]), schema)
        header = felzoren.batch_header(1, [(1, 0)], [(0, 0), (0, 8)], 8)
        for length in range(len(header)):
            with self.assertRaises(BadAnswer):
                felzoren.read_header(header[:length], felzoren.BATCH_HEADER)[1].pairs(2, 2)

    def test_a_null_under_a_null(self):
        """A null Struct of a byte: its child is a blank byte, and not a null."""
        schema = Schema({"a": "struct<x: int8>"})
        blank = felzoren.batch_header(1, [(1, 1), (1, 0)], [(0, 1), (8, 0), (8, 1)], 16), bytes(16)
        null = felzoren.batch_header(1, [(1, 1), (1, 1)], [(0, 1), (8, 1), (16, 1)], 24), bytes(24)
        self.assertEqual(felzoren.write_batch(schema, [[None]], 1), blank)
        self.assertEqual(felzoren.read_batch(schema, *blank).to_columns(), [[None]])
        self.assertRaises(BadAnswer, felzoren.read_batch, schema, *null)

    def test_too_many_values(self):
        """A list of as many nulls as a column may have, and of one more."""
        schema = Schema({"a": "list<null>"})
        for count in (1 << 24, (1 << 24) + 1):
            header = felzoren.batch_header(1, [(1, 0), (count, count)], [(0, 0), (0, 8)], 8)
            body = struct.pack("<2i", 0, count)
            if count == 1 << 24:
                self.assertEqual(felzoren.read_batch(schema, header, body).num_rows, 1)
            else:
                self.assertRaises(BadAnswer, felzoren.read_batch, schema, header, body)

    def test_headers_as_they_are_written(self):
        count = 0
        for command, lines in stories("header_stories/data/canonical.txt"):
            if command.startswith("respelled"):
                text = bytes_of(command.partition(" ")[2])
                if text[22:23] == b"\1":
                    self.assertEqual(felzoren.schema_header(felzoren.read_schema(text)), text)
                else:
                    message, view = felzoren.read_header(text, felzoren.BATCH_HEADER)
                    length = message.number(3, "q")
                    self.assertEqual(felzoren.batch_header(view.number(0, "q"), view.pairs(1, 512), view.pairs(2, 1536), length), text)
                count += 1
        self.assertEqual(count, 47)

    def test_batches(self):
        names = "examples heads borders flat nested depths layouts faults".split()
        counts, schema = {"written": 0, "otherwise": 0, "faults": 0}, None
        for command, lines in stories(*(f"batch_stories/data/{it}.txt" for it in names)):
            if command.startswith("schema"):
                schema = story_schema(command[6:])
            elif command.startswith("read"):
                with self.subTest(command[:200], schema=str(schema)[:100]):
                    counts[self.check_batch(schema, BatchStory(schema, command, lines))] += 1
        self.assertEqual(sum(counts.values()), 913)
        self.assertGreater(min(counts.values()), 150, counts)

    def check_batch(self, schema, story):
        if story.fault or not story.canonical:
            with self.assertRaises(BadAnswer):
                felzoren.read_batch(schema, story.header(), story.body)
            if story.fault:
                return "faults"
        header, body = story.as_written()
        batch = felzoren.read_batch(schema, header, body)
        columns = batch.to_columns()
        found = [" ".join(told(field.type, it) for it in cells) for field, cells in zip(schema.fields, columns)]
        self.assertEqual(found, story.told if batch.num_rows else [""] * len(found))
        if any(has_too_many_digits(field.type, it) for field, cells in zip(schema.fields, columns) for it in cells):
            with self.assertRaises(ValueError):  # such numbers are read, and not written
                felzoren.write_batch(schema, columns, batch.num_rows)
        elif not any("nan" in it.split() for it in found):  # which bytes a NaN has is not kept
            self.assertEqual(felzoren.write_batch(schema, columns, batch.num_rows), (header, body))
        return "written" if story.canonical else "otherwise"


def story_lines(schema):
    """A schema as stories show it."""
    lines = [f'  metadata "{key}" = "{value}"' for key, value in schema.metadata]

    def tell(field, depth):
        type, words = field.type, list(field.type.parameters)
        name = {"Struct": "Struct_"}.get(type.kind, type.kind)
        if type.kind in ("Time", "Timestamp", "Duration"):
            words[0] = UNITS[words[0]]
        if type.kind == "Time":
            words.pop()
        if type.kind == "Timestamp":
            words[1] = "-" if words[1] is None else f'"{words[1]}"'
        if type.kind == "Int":
            words[1] = "true" if words[1] else "false"
        if type.kind in ("Date", "FloatingPoint"):
            words = [{"Date": ("DAY", "MILLISECOND"), "FloatingPoint": ("HALF", "SINGLE", "DOUBLE")}[type.kind][words[0]]]
        spelled = f"({','.join(map(str, words))})" if words else ""
        named = f'"{field.name}"' if field.name.isprintable() and not set(field.name) & set('"\\') else "x" + field.name.encode().hex()
        lines.append(f'{"  " * depth}{named}: {name}{spelled}{", nullable" if field.nullable else ""}')
        for key, value in field.metadata:
            lines.append(f'{"  " * depth}  metadata "{key}" = "{value}"')
        for each in type.fields:
            tell(each, depth + 1)

    for field in schema.fields:
        tell(field, 1)
    return lines


# ---- types and values


moment, decimals = datetime.datetime, decimal.Decimal
PARIS = datetime.timezone(datetime.timedelta(hours=1))

# How values are stored, worked out by hand from the columnar format and Schema.fbs.
STORED = [
    ("int8", -2, "fe"), ("uint16", 65535, "ffff"), ("int64", -(2**63), "0000000000000080"), ("uint64", 2**64 - 1, "ff" * 8),
    ("float16", 1.0, "003c"), ("float32", 0.5, "0000003f"), ("float64", -2, "00000000000000c0"),
    ("date32", datetime.date(1970, 1, 2), "01000000"), ("date32", datetime.date(1969, 12, 31), "ffffffff"),
    ("date64", datetime.date(1970, 1, 2), "005c260500000000"), ("date64", 1, "0100000000000000"),
    ("time32[s]", datetime.time(0, 1, 1), "3d000000"), ("time32[ms]", datetime.time(0, 0, 1), "e8030000"),
    ("time64[us]", datetime.time(0, 0, 0, 7), "0700000000000000"), ("time64[ns]", datetime.time(0, 0, 0, 1), "e803000000000000"),
    ("timestamp[s]", moment(1970, 1, 1, 0, 1), "3c00000000000000"),
    ("timestamp[us]", moment(1969, 12, 31, 23, 59, 59, 999999), "ff" * 8),
    ("timestamp[s, Europe/Paris]", moment(1970, 1, 1, 1, 0, 1, tzinfo=PARIS), "0100000000000000"),
    ("duration[ms]", datetime.timedelta(seconds=-1), "18fcffffffffffff"), ("duration[ns]", 5, "0500000000000000"),
    ("decimal128(5, 2)", decimals("1.5"), "96" + "00" * 15), ("decimal128(5, 2)", decimals("-0.01"), "ff" * 16),
    ("decimal128(5, -2)", decimals(1200), "0c" + "00" * 15), ("decimal256(3, 0)", 7, "07" + "00" * 31),
    ("fixed_size_binary[2]", b"ab", "6162"),
]
# Values that do not fit a type.
MISFITS = {
    "int8": [128, True, 1.0], "uint8": [-1], "int64": ["1", 2**63], "uint64": [2**64], "bool": [1], "utf8": [b"a", "\ud800"],
    "float64": ["1", True, 2**53 + 1, 10**400, decimals(1)], "float32": [1e39, 2**24 + 1], "float16": [65520.0],
    "binary": ["a", 3], "fixed_size_binary[2]": [b"a", "ab"], "date32": [moment(2020, 1, 1), 2**31],
    "time32[s]": [datetime.time(0, 0, 0, 1)], "time64[us]": [datetime.time(tzinfo=UTC)],
    "timestamp[us]": [moment(2020, 1, 1, tzinfo=UTC), 2**63, datetime.date(2020, 1, 1)], "timestamp[us, UTC]": [moment(2020, 1, 1)],
    "timestamp[ms]": [moment(2020, 1, 1, 0, 0, 0, 1)], "duration[s]": [datetime.timedelta(milliseconds=1), 1.0],
    "decimal128(3, 1)": [1.5, *map(decimals, ("100.0", "0.15", "NaN", "sNaN", "Infinity", "1e999999999", "1e-999999999"))],
    "decimal128(100, 0)": [10**38], "list<int8>": [3, "ab", [300]], "fixed_size_list<int8>[2]": [[1]],
    "struct<a: int8>": [{"b": 1}, [1, 2], 1], "null": [0], "list<int8 not null>": [[None]],
}
# The types that are inferred from columns.
INFERRED = [
    ("null", [None, None]), ("bool", [True, None]), ("int64", [1, None, 2]), ("float64", [1, 2.5], [0.5]), ("utf8", ["a"]),
    ("binary", [b"a", bytearray(b"b")]), ("list<int64>", [[1], [], None], [(1, 2)]), ("list<null>", [[], []]),
    ("list<list<float64>>", [[[1.5]], [[]]]), ("struct<x: int64, y: utf8>", [{"x": 1}, {"y": "a"}]), ("struct<>", [{}]),
    ("date32", [datetime.date(2020, 1, 1)]), ("time64[us]", [datetime.time(1)]), ("duration[us]", [datetime.timedelta(1)]),
    ("timestamp[us]", [moment(2020, 1, 1)]), ("timestamp[us, UTC]", [moment(2020, 1, 1, tzinfo=PARIS)]),
    ("decimal128(38, 2)", [decimals("1.25"), decimals("1e3")]), ("decimal128(38, 0)", [decimals(10**38 - 1)]),
    ("decimal256(76, 0)", [decimals(10**38)]),
]
# Columns from which no type is inferred, and why.
NOT_INFERRED = [
    ("a: values of int64 and utf8 do not fit one type", [1, "a"]), ("bool and int64", [True, 1]), ("int64 and list", [[1], 2]),
    ("a.x: values of binary and int64", [{"x": 1}, {"x": b""}]), ("a.item: values", [[1, "a"]]),
    ("is no timestamp", [moment(2020, 1, 1), moment(2020, 1, 1, tzinfo=UTC)]), ("of no type that can be inferred", [object()]),
    ("a name is a text", [{1: 2}]), ("date32 and timestamp", [moment(2020, 1, 1), datetime.date(2020, 1, 1)]),
]


class Types(unittest.TestCase):
    def test_texts(self):
        texts = [*felzoren.PLAIN_TYPES, "timestamp[us, UTC]", "timestamp[ns, Europe/Paris]", "timestamp[s, +02:00]", 'timestamp[s, ""]',
                 'timestamp[s, "a]\\"b"]', "fixed_size_binary[16]", "decimal128(10, 2)", "decimal256(76, -3)", "list<int64>",
                 "list<int64 not null>", "list<element: utf8>", "fixed_size_list<float32>[3]", "struct<>",
                 'struct<a: int8 not null, "b c": list<struct<x: bool>>>', "list<list<list<null>>>"]
        for text in texts:
            self.assertEqual(str(felzoren.as_type(text)), text)
        self.assertEqual(felzoren.as_type(" list< item : string > "), felzoren.as_type("list<utf8>"))
        self.assertEqual(felzoren.as_type("double"), DataType("FloatingPoint", (2,)))
        self.assertEqual(felzoren.as_type("struct<list: int8, struct: utf8, decimal128: bool>").fields[0].name, "list")
        self.assertEqual(repr(Field("day", "date32", nullable=False)), "Field('day: date32 not null')")

    def test_texts_of_no_type(self):
        for text in ("", "int7", "list", "list<", "list<int8", "list<int8,>", "list<int8> x", "time32[us]", "timestamp[d]",
                     "decimal128(10)", "fixed_size_binary[-1]", "fixed_size_list<int8>", "struct<int8>", "map<int8, int8>", "int8(3)",
                     "utf8[]", "int8 int8"):
            with self.assertRaises(ValueError, msg=text):
                felzoren.as_type(text)
        for type in (3, None, b"int8"):
            with self.assertRaises(ValueError):
                felzoren.as_type(type)

    def test_stored_bytes(self):
        for type, value, wanted in STORED:
            _, body = felzoren.write_batch(Schema({"a": type}), [[value]], 1)
            self.assertEqual(body, bytes.fromhex(wanted) + bytes(-len(wanted) // 2 % 8), (type, value))

    def test_values_of_no_type(self):
        for type, values in MISFITS.items():
            for value in values:
                with self.assertRaises(ValueError, msg=(type, value)) as raised:
                    felzoren.write_batch(Schema({"column": type}), [[value]], 1)
                self.assertIn("column", str(raised.exception))
        for type, value in (("int8", 128), ("int8", -129), ("uint8", 256), ("uint8", -1), ("int64", 2**63),
                            ("date32", 2**31), ("date32", -(2**31) - 1)):
            with self.assertRaisesRegex(ValueError, rf"^a: {value} \(int\) is no .*{type}"):
                felzoren.write_batch(Schema({"a": type}), [[value]], 1)
        with self.assertRaises(ValueError):
            felzoren.write_batch(Schema([("a", "int8", False)]), [[None]], 1)

    def test_nanoseconds_of_pandas(self):
        """Its values are those of `datetime`, with additional nanoseconds."""
        stamp = type("Timestamp", (moment,), {"nanosecond": 7})(1970, 1, 1, 0, 0, 1)
        delta = type("Timedelta", (datetime.timedelta,), {"nanoseconds": 7})(seconds=1)
        for type_of, value in (("timestamp", stamp), ("duration", delta)):
            _, body = felzoren.write_batch(Schema({"a": f"{type_of}[ns]"}), [[value]], 1)
            self.assertEqual(struct.unpack("<q", body), (1_000_000_007,))
            with self.assertRaises(ValueError):
                felzoren.write_batch(Schema({"a": f"{type_of}[us]"}), [[value]], 1)

    def test_too_many_values(self):
        """As many values as a column may have, four here, and more."""
        with mock.patch.object(felzoren, "MAX_VALUES", 4):
            for type, taken, refused in (("list<null>", [None] * 4, [None] * 5), ("fixed_size_list<null>[2]", [None] * 2, [None] * 2)):
                schema = Schema({"a": type})
                felzoren.write_batch(schema, [[taken]], 1)
                with self.assertRaisesRegex(ValueError, "at most 4 values"):
                    felzoren.write_batch(schema, [[refused] * 3], 3)

    def test_the_row_is_told(self):
        client = felzoren.connect_files(io.BytesIO(), io.BytesIO())
        with self.assertRaisesRegex(ValueError, r"^row 70001: a: 'x' \(str\) is no int64"):
            client.put("t", {"a": [1] * 70_001 + ["x"] + [1] * 10}, schema={"a": "int64"})
        with self.assertRaisesRegex(ValueError, "^row 3: a batch of 1 rows and 4194"):
            client.put("t", [{"a": "x" * size} for size in (1, 2, 3, 4_194_200)])

    def test_inferred(self):
        for wanted, *columns in INFERRED:
            for values in columns:
                schema = felzoren.infer_schema({"a": values})
                self.assertEqual(str(schema), f"a: {wanted}")
                felzoren.write_batch(schema, [values], len(values))
        schema = felzoren.infer_schema([{"a": 1}, {"b": "x", "a": None}, {}])
        self.assertEqual(str(schema), "a: int64\nb: utf8")
        self.assertEqual(felzoren.infer_schema([{}]), Schema([]))
        for nothing in ([], {}, {"a": []}):
            self.assertRaisesRegex(ValueError, "no rows", felzoren.infer_schema, nothing)

    def test_not_inferred(self):
        for why, values in NOT_INFERRED:
            with self.assertRaisesRegex(ValueError, why):
                schema = felzoren.infer_schema({"a": values})
                felzoren.write_batch(schema, [values], len(values))

    def test_rows_and_columns(self):
        schema = Schema({"a": "int8", "b": "utf8"})
        wanted = (schema, [[1, None], ["x", None]], 2)
        for data in ([{"a": 1, "b": "x"}, {}], iter([{"b": "x", "a": 1}, {}]), [(1, "x"), [None, None]],
                     {"a": [1, None], "b": ("x", None)}, Frame({"a": [1, None], "b": ["x", None]})):
            self.assertEqual(felzoren.columns_in(data, schema), wanted)
        self.assertEqual(felzoren.columns_in({"b": ["x"]}, schema)[1], [[None], ["x"]])
        self.assertEqual(felzoren.columns_in([{}, {}], None), (Schema([]), [], 2))
        self.assertEqual(felzoren.columns_in({}, Schema([])), (Schema([]), [], 0))
        for data in ({"a": [1], "b": []}, {"c": [1]}, [{"c": 1}], [(1,)], [3], [None], {"a": 1}, {"b": "xy"}):
            with self.assertRaises(ValueError, msg=data):
                felzoren.columns_in(data, schema)
        with self.assertRaises(ValueError):
            felzoren.columns_in([(1, "x")], None)

    def test_schemas_beyond_the_limits(self):
        deep = "int8"
        for _ in range(15):
            deep = f"list<{deep}>"
        felzoren.schema_header(Schema({"a": deep}))
        wide = [(f"c{it}", "int8") for it in range(512)]
        felzoren.schema_header(Schema(wide))
        types = [("Int", (7, 1)), ("Int", (8,)), ("List",), ("Map",), ("Utf8", (1,)), ("Time", (0, 64)), ("FixedSizeBinary", (-1,)),
                 ("Decimal", (1, 1, 64)), ("Decimal", (2**31, 1, 128)), ("Timestamp", (4, None)), ("Bool", (), [Field("a", "bool")])]
        schemas = [Schema({"a": f"list<{deep}>"}), Schema([*wide, ("more", "int8")]), Schema({"a": "int8"}, [("k", "v")] * 4097),
                   Schema({"a" * 1_048_577: "int8"}), *(Schema([("a", DataType(*it))]) for it in types)]
        for schema in schemas:
            with self.assertRaises(ValueError):
                felzoren.schema_header(schema)


class Frame:
    """What `put` uses of a pandas DataFrame, which need not be installed."""

    def __init__(self, columns):
        self.columns, self.values, self.iloc = list(columns), list(columns.values()), self

    def __getitem__(self, key):
        cells = self.values[key[1]]
        missing = types.SimpleNamespace(tolist=lambda: [it is None or it != it for it in cells])
        return types.SimpleNamespace(isna=lambda: missing, tolist=lambda: cells)


# ---- answers


def answer(messages, status=0, text=""):
    return b"".join(felzoren.frame(0, it) for it in messages) + felzoren.frame(felzoren.END, bytes([status]) + text.encode())


def schema_message(schema):
    """The first message with which a version is served."""
    return data_message(felzoren.schema_header(schema), b"", b"")


def client_of(text, **options):
    """A client that gets these bytes as its answer."""
    return felzoren.connect_files(io.BytesIO(text), io.BytesIO(), **options)


def messages_of(table):
    """The messages that serve a version, made again from what was read."""
    found = [schema_message(table.schema)]
    schema = Schema([(it.name, all_nullable(it.type)) for it in table.schema.fields])
    for upload in table.uploads:
        batches = [felzoren.write_batch(schema, it.to_columns(), it.num_rows) for it in upload.batches]
        found += [data_message(header, bytes.fromhex(upload.id), body) for header, body in batches or [(b"", b"")]]
    return found


CALLS = {
    "GetFlightInfo": lambda client: client.info("t"), "GetSchema": lambda client: client.schema("t"),
    "ListFlights": lambda client: client.list(), "DoGet": lambda client: client.get("t", 1),
    "DoPut": lambda client: client.put("t", [], {}, id=ID),
}
# Three values of every type, the second of them a null.
EVERY_TYPE = {
    "null": [None, None, None], "bool": [True, None, False],
    **{it: [1, None, 0] for it in "int8 int16 int32 int64 uint8 uint16 uint32 uint64".split()},
    "float16": [0.5, None, -1.0], "float32": [0.25, None, math.inf], "float64": [1e300, None, -0.0],
    "utf8": ["é", None, ""], "binary": [b"\xff", None, b""],
    "fixed_size_binary[3]": [b"abc", None, b"\0\0\0"], "fixed_size_binary[0]": [b"", None, b""],
    "decimal128(10, 2)": [decimals("1.25"), None, decimals("-1.00")],
    "decimal256(76, -3)": [decimals("5E+3"), None, decimals("0E+3")],
    "date32": [datetime.date(2024, 2, 29), None, 2**31 - 1], "date64": [datetime.date(1, 1, 1), None, 5],
    "time32[s]": [datetime.time(23, 59, 59), None, 86400], "time32[ms]": [datetime.time(1, 2, 3, 4000), None, -1],
    "time64[us]": [datetime.time(0), None, 2**62], "time64[ns]": [1, None, 2],
    "timestamp[s]": [moment(2024, 2, 29, 1), None, 2**62],
    "timestamp[ms]": [moment(1960, 1, 1), None, moment(9999, 12, 31)],
    "timestamp[us]": [moment(2024, 1, 1, 0, 0, 0, 1), None, -(2**63)], "timestamp[ns]": [1, None, -1],
    "timestamp[us, Europe/Paris]": [moment(2024, 1, 1, tzinfo=UTC), None, moment(1970, 1, 1, tzinfo=UTC)],
    "duration[s]": [datetime.timedelta(1), None, 2**62],
    "duration[ms]": [datetime.timedelta(milliseconds=-5), None, datetime.timedelta(0)],
    "duration[us]": [datetime.timedelta(microseconds=1), None, datetime.timedelta(-1)], "duration[ns]": [7, None, -7],
    "list<int16>": [[1, None], None, []], "list<utf8>": [["a", None, "bc"], None, []],
    "list<list<bool>>": [[[True], None, []], None, [[False] * 9]],
    "fixed_size_list<int8>[2]": [[1, None], None, [3, 4]], "fixed_size_list<utf8>[0]": [[], None, []],
    "fixed_size_list<struct<x: int8, y: list<bool>>>[2]": [[{"x": 1, "y": [True]}, None], None, [{"x": None, "y": None}] * 2],
    "struct<x: int32, y: utf8>": [{"x": 1, "y": "a"}, None, {"x": None, "y": None}], "struct<>": [{}, None, {}],
    "struct<x: null, y: struct<z: fixed_size_list<decimal128(3, 0)>[1]>>":
        [{"x": None, "y": {"z": [decimals(7)]}}, None, {"x": None, "y": None}],
    "list<struct<a: timestamp[s, UTC], b: fixed_size_binary[2]>>":
        [[{"a": moment(2000, 1, 1, tzinfo=UTC), "b": b"xy"}, None], None, []],
}


def version_of(types):
    """The messages that serve a version with a column of each of these types."""
    schema = Schema({f"c {place}": type for place, type in enumerate(types)}, {"made by": "a test"})
    batch = felzoren.write_batch(schema, [EVERY_TYPE[it] for it in types], 3)
    return [schema_message(schema), data_message(batch[0], ID, batch[1])]


def story_answers():
    """The answers in the stories of calls: a method and its messages."""
    for command, lines in stories("call_stories/data/rows.txt"):
        method = re.match(r"call /(\w+)", command)
        messages = [it.partition(" ")[2] for it in lines if it.startswith("message")]
        if method and lines[-1] != "trailer 5 NoTable" and not any("md5" in it for it in messages):
            status, _, text = next(it for it in lines if it.startswith("trailer"))[8:].partition(" ")
            yield method[1], [bytes_of(it) for it in messages], int(status), text


INFO_SCHEMA = felzoren.encapsulated(felzoren.schema_header(Schema({"a": "int8"})))


def endpoint_of(ticket):
    return bytes_field(1, bytes_field(1, ticket)) + bytes_field(2, bytes_field(1, b"x"))


def info_message(path=b"t", endpoints=(endpoint_of(Ticket("t", 2).encode()),), records=5, size=6, ordered=1, schema=INFO_SCHEMA):
    """What a node reports about a table."""
    texts = [(1, schema), (2, felzoren.descriptor(path)), *((3, it) for it in endpoints)]
    numbers = [(4, records), (5, size), (6, ordered)]
    return b"".join([*(bytes_field(*it) for it in texts), *(felzoren.number_field(*it) for it in numbers)])


def info_answer(version):
    """The answer of a node that has this version of table `t`, 0 for no such table."""
    if not version:
        return answer([], 5, "NoTable")
    return answer([info_message(endpoints=(endpoint_of(Ticket("t", version).encode()),))])


def put_answer(id, version):
    """The answer that acknowledges an upload."""
    return answer([bytes_field(1, bytes_field(1, id) + felzoren.number_field(2, version))])


def good_answers():
    """The answers of the stories, and one for each type: a method and its bytes."""
    told = {(method, answer(messages)) for method, messages, status, _ in story_answers() if not status}
    return sorted(told) + [("DoGet", answer(version_of([it]))) for it in EVERY_TYPE]


class Answers(unittest.TestCase):
    def result(self, method, text):
        """What a call returns for these bytes: a result, or why there is none. Any other exception fails."""
        try:
            return CALLS[method](client_of(text))
        except (BadAnswer, Refused) as why:
            return why

    def test_answers_of_the_stories(self):
        counts = dict.fromkeys(CALLS, 0)
        for method, messages, status, text in story_answers():
            found = self.result(method, answer(messages, status, text))
            counts[method] += not status
            if status:
                self.assertIsInstance(found, Refused)
                self.assertEqual((found.status, found.name), (status, text))
            elif method == "DoGet":
                self.assertEqual(messages_of(found), messages)
                self.assertEqual(found.num_bytes, sum(5 + len(it) for it in messages))
            elif method == "DoPut" and ID in messages[0]:
                self.assertEqual(found, (ID.hex(), felzoren.Message(felzoren.Message(messages[0]).bytes(1)).number(2)))
        self.assertGreater(min(counts.values()), 1, counts)

    def test_each_beginning(self):
        for method, text in good_answers():
            whole = self.result(method, text)
            for length in range(len(text)):
                self.assertIsInstance(self.result(method, text[:length]), BadAnswer, (method, length, whole))

    def test_each_byte_changed(self):
        """A changed answer for a version is only read if it is the canonical answer for what was read."""
        counts = {"read": 0, "bad": 0, "compared": 0}
        for method, text in good_answers():
            for place, byte in enumerate(text):
                changed = text[:place] + bytes([byte ^ 1 << place % 8]) + text[place + 1 :]
                self.check_changed(method, changed, counts)
        self.assertGreater(min(counts.values()), 500, counts)

    def check_changed(self, method, text, counts):
        found = self.result(method, text)
        counts["bad" if isinstance(found, Exception) else "read"] += 1
        if isinstance(found, felzoren.Table):
            self.assertIn(f"{found.num_rows} rows", repr(found))
            pairs = [(field.type, it) for field, cells in zip(found.schema.fields, found.to_columns()) for it in cells]
            if not any(has_other_bytes(*it) for it in pairs):
                counts["compared"] += 1
                self.assertEqual(answer(messages_of(found)), text)

    def test_no_answers(self):
        schema, batch = version_of(EVERY_TYPE)
        alone = data_message(b"", ID, b"")
        other = data_message(b"", bytes(16), b"")
        rows = {
            "DoGet": [[], [batch], [schema, schema], [schema, alone, alone], [schema, batch, alone], [schema, alone, batch],
                      [schema, batch, other, batch], [schema, data_message(b"", ID[:15], b"")], [schema, b""], [schema + b"\x08\0"],
                      [schema, data_message(b"", ID, b"x")]],
            "DoPut": [[], [b""], [b"", b""]], "GetSchema": [[b"", b""], [b""]], "ListFlights": [[b""]], "GetFlightInfo": [[b""]],
        }
        for method, messages in [(method, it) for method, answers in rows.items() for it in answers]:
            self.assertIsInstance(self.result(method, answer(messages)), BadAnswer, (method, messages))
        felzoren.Message(b"\x78\0" * 65_536)
        self.assertRaises(BadAnswer, felzoren.Message, b"\x78\0" * 65_537)
        for text in (b"", b"\0", felzoren.frame(1, b""), felzoren.frame(2, b""), b"\0\xff\xff\xff\xff", felzoren.frame(felzoren.END, b""),
                     felzoren.frame(felzoren.END, b"\0x"), felzoren.frame(felzoren.END, b"\5\xff"), felzoren.frame(0, b"x" * 9)):
            self.assertIsInstance(self.result("ListFlights", text), BadAnswer, text)
        for status, name in ((3, "INVALID_ARGUMENT"), (5, "NOT_FOUND"), (6, "ALREADY_EXISTS"), (8, "RESOURCE_EXHAUSTED"),
                             (9, "FAILED_PRECONDITION"), (12, "UNIMPLEMENTED"), (13, "INTERNAL"), (14, "UNAVAILABLE"),
                             (16, "UNAUTHENTICATED")):
            self.assertEqual(str(self.result("DoGet", answer([schema], status, "Down"))), f"Down ({status} {name})")
        self.assertEqual(str(self.result("DoGet", answer([schema], 17, "Down"))), "Down (17)")
        self.assertEqual(len(self.result("DoGet", answer([schema, batch, other])).uploads), 2)

    def test_an_upload_of_another_id(self):
        told = lambda id, version: bytes_field(1, bytes_field(1, id) + felzoren.number_field(2, version))
        self.assertEqual(self.result("DoPut", put_answer(ID, 3)), (ID.hex(), 3))
        for message in (told(bytes(16), 3), told(ID, 0), told(ID, 3) + b"\x10\1"):
            fault = self.result("DoPut", answer([message]))
            self.assertIsInstance(fault, BadAnswer)
            self.assertEqual(fault.id, ID.hex())

    def test_infos(self):
        schema, info, endpoint = INFO_SCHEMA, info_message, endpoint_of(Ticket("t", 2).encode())
        wanted = ("t", Schema({"a": "int8"}), ("t", 2), ["x"], 5, 6)
        self.assertEqual(self.result("GetFlightInfo", answer([info()])), wanted)
        others = [info(path=b"u"), info(endpoints=()), info(endpoints=(endpoint, endpoint)), info(records=2**64 - 1), info(size=2**64 - 1),
                  info(ordered=0)]
        others += [info(schema=it) for it in (schema[8:], schema + b"\0", b"", felzoren.encapsulated(b"\0" * 3))]
        tickets = [b"", b"?", b"\x0a\1t", b"\x0a\1t\x10\0", b"\x10\2\x0a\1t", b"\x0a\1t\x10\x82\0", b"\x0a\1u\x10\2", b"\x0a\1/\x10\2"]
        others += [info(endpoints=(endpoint_of(it),)) for it in tickets]
        others.append(info(path=b"u", endpoints=(endpoint_of(Ticket("u", 2).encode()),)))
        for message in others:
            self.assertIsInstance(self.result("GetFlightInfo", answer([message])), BadAnswer, message)
        self.assertEqual(len(self.result("ListFlights", answer([info(), info()]))), 2)
        self.assertEqual(self.result("GetFlightInfo", answer([info(records=0, size=0)]))[4:], (0, 0))
        length = felzoren.MAX_FRAME_BYTES - len(info()) - 6
        self.assertEqual(self.result("GetFlightInfo", answer([info() + bytes_field(200, bytes(length))])), wanted)
        self.assertIsInstance(self.result("GetFlightInfo", answer([info() + bytes_field(200, bytes(length + 1))])), BadAnswer)

    def test_fields_that_share_a_table(self):
        """Few bytes could encode many fields this way: a header may, but the answer of a service does not."""
        schema = Schema([("a", "int8"), ("a", "int8")])
        header = bytearray(felzoren.schema_header(schema))
        place = header.index(struct.pack("<I", 2)) + 4
        first, second = struct.unpack_from("<II", header, place)
        struct.pack_into("<I", header, place + 4, first - 4)
        self.assertNotEqual(first - 4, second)
        self.assertEqual(felzoren.read_schema(bytes(header)), schema)
        schema_result = bytes_field(1, felzoren.encapsulated(bytes(header)))
        for method, message in (("DoGet", data_message(header, b"", b"")), ("GetSchema", schema_result)):
            self.assertIsInstance(self.result(method, answer([message])), BadAnswer)

    def test_the_longest_answer_is_said(self):
        text = answer(version_of(EVERY_TYPE))
        client_of(text, max_bytes=len(text)).get("t", 1)
        with self.assertRaisesRegex(BadAnswer, "max_bytes"):
            client_of(text, max_bytes=len(text) - 1).get("t", 1)

    def test_few_bytes_that_speak_of_many_values(self):
        """512 columns of a million nulls, and 256 of sixteen million nulls or structs each, are read in little memory and time."""
        longest = 1 << 24
        for type, count, rows, nodes, buffers in (
            ("null", 512, 1 << 20, [(1 << 20, 1 << 20)], []),
            (f"fixed_size_list<null>[{longest}]", 256, 1, [(1, 1), (longest, longest)], [1]),
            (f"fixed_size_list<struct<>>[{longest}]", 256, 1, [(1, 1), (longest, 0)], [1, 0]),
        ):
            schema = Schema([(f"c{place}", type) for place in range(count)])
            length = 8 * count * sum(buffers)
            places = [(8 * place + 8 * (size == 0), size) for place in range(count) for size in buffers]
            header = felzoren.batch_header(rows, nodes * count, places, length)
            text = answer([schema_message(schema), data_message(header, ID, bytes(length))])
            tracemalloc.start()
            began = time.process_time()
            self.assertEqual(client_of(text).get("t", 1).num_rows, rows)
            self.assertLess(time.process_time() - began, 2)
            self.assertLess(tracemalloc.get_traced_memory()[1], 8 << 20)
            tracemalloc.stop()

    def test_names_that_repeat(self):
        schema = Schema([("a", "int8"), ("a", "struct<x: int8, x: int8>")])
        batch = felzoren.write_batch(schema, [[1], [(2, 3)]], 1)
        table = felzoren.read_table([schema_message(schema), data_message(batch[0], ID, batch[1])])
        self.assertEqual(table.to_columns(), [[1], [(2, 3)]])
        for call in (table.to_pydict, table.to_pylist, table.to_pandas):
            with self.assertRaises((ValueError, ImportError)):
                call()


# The format of the view that a column without nulls has, by its type.
VIEWED = {
    **dict(zip("int8 int16 int32 int64 uint8 uint16 uint32 uint64".split(), "bhiqBHIQ")), "float16": "H", "float32": "f", "float64": "d",
    "date32": "i", "date64": "q", "time32[s]": "i", "time32[ms]": "i", "time64[us]": "q", "time64[ns]": "q", "duration[s]": "q",
    **{f"timestamp[{it}]": "q" for it in ("s", "ms", "us", "ns", "us, Europe/Paris")}, **{f"duration[{it}]": "q" for it in ("ms", "us", "ns")},
    "decimal128(10, 2)": "B", "decimal256(76, -3)": "B", "fixed_size_binary[3]": "B", "fixed_size_binary[0]": "B",
}


class Views(unittest.TestCase):
    """What `Column.buffer` returns."""

    def column_of(self, type, values):
        """The column with these values, and the body from which it was read."""
        schema = Schema({"a": type})
        header, body = felzoren.write_batch(schema, [values], len(values))
        return felzoren.read_batch(schema, header, body).column("a"), body

    def test_each_type_without_nulls(self):
        for type, values in EVERY_TYPE.items():
            column, body = self.column_of(type, [it for it in values if it is not None])
            if type not in VIEWED:
                self.assertRaisesRegex(ValueError, "fixed number of bytes", column.buffer)
                continue
            view, width = column.buffer(), felzoren.storage_of(column.type).width
            self.assertEqual((view.format, view.readonly, view.nbytes), (VIEWED[type], True, 2 * width), type)
            self.assertEqual((view.obj is body, bytes(view)), (True, body[: 2 * width]), type)
            if type.startswith(("int", "uint", "float32", "float64")):
                self.assertEqual(view.tolist(), column.to_pylist(), type)
        self.assertLess(set(VIEWED), set(EVERY_TYPE))

    def test_the_counts_of_times(self):
        for type, value, stored in STORED:
            if type in VIEWED and VIEWED[type] in "iq":
                column, _ = self.column_of(type, [value])
                self.assertEqual(column.buffer().tolist(), [int.from_bytes(bytes.fromhex(stored), "little", signed=True)], type)

    def test_columns_without_values(self):
        for type, form in VIEWED.items():
            view = self.column_of(type, [])[0].buffer()
            self.assertEqual((view.format, view.readonly, view.tolist()), (form, True, []), type)

    def test_columns_without_a_view(self):
        for type in VIEWED:
            self.assertRaisesRegex(ValueError, "has no nulls, and the column has 1", self.column_of(type, EVERY_TYPE[type])[0].buffer)
        with mock.patch.object(sys, "byteorder", "big"):
            self.assertRaisesRegex(ValueError, "low byte first", self.column_of("int16", [1])[0].buffer)
            self.assertEqual(self.column_of("int8", [1])[0].buffer().tolist(), [1])

    def test_the_values_in_lists(self):
        column, body = self.column_of("fixed_size_list<float32>[2]", [[0.5, 1.0], [1.5, 2.0]])
        self.assertEqual(column.children[0].buffer().tolist(), [0.5, 1.0, 1.5, 2.0])
        self.assertIs(column.children[0].buffer().obj, body)
        self.assertRaises(ValueError, column.buffer)

    def test_nothing_is_copied(self):
        column, body = self.column_of("int64", list(range(500_000)))
        tracemalloc.start()
        view = column.buffer()
        self.assertLess(tracemalloc.get_traced_memory()[1], 10_000)
        tracemalloc.stop()
        self.assertEqual((len(view), view[-1], view[499_998]), (500_000, 499_999, 499_998))
        with self.assertRaises(TypeError):
            view[0] = 1
        numbers = array.array(view.format)
        numbers.frombytes(view.cast("B"))
        self.assertEqual(numbers, array.array("q", range(500_000)))

    def test_lists_and_bytes_are_as_ever(self):
        """Also of a copy, and where a table was sent to another process."""
        types = [it for it in EVERY_TYPE if it != "null"]
        table = felzoren.read_table(version_of(types))
        for found in (table, copy.deepcopy(table), pickle.loads(pickle.dumps(table))):
            self.assertEqual(found.to_columns(), [EVERY_TYPE[it] for it in types])
            for column, same in zip(found.batches[0].columns, table.batches[0].columns):
                self.assertEqual({type(it) for it in (column.validity, *column.data)}, {bytes})
                self.assertEqual(column, same)
        column = pickle.loads(pickle.dumps(self.column_of("int16", [1, -2])[0]))
        self.assertEqual((column.buffer().tolist(), column.buffer().readonly), ([1, -2], True))

    def test_columns_by_their_names(self):
        schema = Schema([("a", "int8"), ("b", "int8")])
        batch = felzoren.read_batch(schema, *felzoren.write_batch(schema, [[1], [2]], 1))
        self.assertEqual(batch.column("b").to_pylist(), [2])
        self.assertRaises(KeyError, batch.column, "c")
        schema = Schema([("a", "int8"), ("a", "int8")])
        self.assertRaises(ValueError, batch._replace(schema=schema).column, "a")

    @unittest.skipUnless(importlib.util.find_spec("numpy"), "numpy is not installed")
    def test_numpy(self):
        import numpy

        column, body = self.column_of("int64", [1, -2])
        found = numpy.asarray(column.buffer())
        self.assertEqual((found.dtype.name, found.tolist(), found.flags.writeable, found.flags.owndata), ("int64", [1, -2], False, False))
        days = numpy.frombuffer(self.column_of("date32", [1, 2])[0].buffer(), "int32").astype("datetime64[D]")
        self.assertEqual(days.tolist(), [datetime.date(1970, 1, 2), datetime.date(1970, 1, 3)])
        stamps = numpy.frombuffer(self.column_of("timestamp[us]", [moment(2024, 1, 1)])[0].buffer(), "datetime64[us]")
        self.assertEqual(stamps.tolist(), [moment(2024, 1, 1)])


def has_other_bytes(type, cell):
    """Whether a value, or one inside it, is not written as it came: a NaN, or one of more digits than its type has."""
    if isinstance(cell, (list, tuple, dict)):
        inside = type.fields if type.kind == "Struct" else itertools.repeat(type.fields[0])
        return any(has_other_bytes(field.type, it) for field, it in zip(inside, cell.values() if isinstance(cell, dict) else cell))
    return cell != cell or has_too_many_digits(type, cell)


def all_nullable(type):
    """The type, with all children nullable: a service does not check that."""
    return type._replace(fields=[Field(it.name, all_nullable(it.type)) for it in type.fields])


class LostPuts(unittest.TestCase):
    """The exceptions of puts, and what they say that can be done."""

    ADVICE = f"; the upload may have been taken, or may still be: put it again with id='{ID.hex()}', and it counts once"

    def fault_of(self, client, kind):
        """What a put raises."""
        with self.assertRaises(kind) as raised:
            client.put("t", [], {}, id=ID)
        self.assertEqual(raised.exception.id, ID.hex())
        return raised.exception

    def test_refused_for_good(self):
        for status, name in ((3, "BadPath"), (5, "NoTable"), (6, "Conflict"), (9, "SchemaMismatch"), (12, "Unsupported")):
            fault = self.fault_of(client_of(answer([], status, name)), Refused)
            self.assertEqual((type(fault), str(fault)), (Refused, f"{name} ({status} {felzoren.STATUSES[status]})"))

    def test_refused_and_undecided(self):
        names = {8: ("JournalFull", "SlotsSpent", "RoundsSpent", "OutOfMemory"), 13: ("Store", "Io"), 14: ("Unavailable", "Down")}
        for status, name in [(status, name) for status, found in names.items() for name in found]:
            for kind in (felzoren.Undecided, Refused):
                fault = self.fault_of(client_of(answer([], status, name)), kind)
                self.assertEqual((fault.status, fault.name), (status, name))
                self.assertEqual(str(fault), f"{name} ({status} {felzoren.STATUSES[status]})" + self.ADVICE)
                self.assertEqual((type(fault.fault), fault.__cause__), (Refused, fault.fault))
        self.assertIsInstance(self.fault_of(client_of(answer([], 17, "New")), Refused), felzoren.Undecided)

    def test_no_answer(self):
        for text, why in ((b"", "the answer is cut short"), (answer([]), "an answer does not have exactly one message")):
            for kind in (felzoren.Undecided, BadAnswer):
                self.assertEqual(str(self.fault_of(client_of(text), kind)), why + self.ADVICE)

    def test_lost_connections(self):
        """Of any class of `OSError`, with its number."""
        for lost in (ConnectionResetError(104, "reset by peer"), BrokenPipeError(32, "broken"), socket.timeout("late"), OSError("x"),
                     OSError(5, "input/output"), socket.gaierror(-2, "unknown")):
            reader = types.SimpleNamespace(read=mock.Mock(side_effect=lost))
            for kind in (felzoren.Undecided, OSError, type(lost)):
                fault = self.fault_of(felzoren.connect_files(reader, io.BytesIO()), kind)
                self.assertEqual((fault.args, fault.errno, fault.strerror), (lost.args, lost.errno, lost.strerror))
                self.assertEqual((str(fault), fault.fault), (str(lost) + self.ADVICE, lost))

    def test_no_connection(self):
        """Nothing was sent, so nothing is undecided."""
        def refuse():
            raise ConnectionRefusedError(111, "refused")

        self.assertIs(type(self.fault_of(felzoren.Client(refuse), OSError)), ConnectionRefusedError)

    def test_put_again(self):
        client = client_of(answer([], 14, "Unavailable") + put_answer(ID, 7))
        try:
            client.put("t", [], {}, id=ID)
        except felzoren.Undecided as undecided:
            self.assertEqual(client.put("t", [], {}, id=undecided.id), (ID.hex(), 7))

    def test_other_calls_are_not_undecided(self):
        for method in ("GetFlightInfo", "GetSchema", "ListFlights", "DoGet"):
            for text, kind in ((answer([], 14, "Down"), Refused), (b"", BadAnswer)):
                with self.assertRaises(kind) as raised:
                    CALLS[method](client_of(text))
                self.assertIs(type(raised.exception), kind)

    def test_sent_to_another_process(self):
        for text in (answer([], 14, "Down"), b""):
            fault = self.fault_of(client_of(text), felzoren.Undecided)
            found = pickle.loads(pickle.dumps(fault))
            self.assertIsInstance(found, (felzoren.Undecided, type(fault.fault)))
            self.assertEqual((str(found), found.id, found.args), (str(fault), fault.id, fault.args))


class OwnWrites(unittest.TestCase):
    """Calls that wait for a version, of a node that answers one question after the other with the next version."""

    def setUp(self):
        self.pauses = []
        self.start(mock.patch.object(time, "sleep", self.pauses.append))

    def start(self, patch):
        self.addCleanup(patch.stop)
        return patch.start()

    def client(self, *versions, more=b""):
        return client_of(b"".join(map(info_answer, versions)) + more)

    def behind(self, call, *words, **options):
        """What is told of a version that did not come."""
        with self.assertRaises(felzoren.Behind) as raised:
            call(*words, **options)
        return raised.exception

    def test_the_node_has_it(self):
        for least in (0, 1, 2, None, "mine"):
            self.assertEqual(self.client(2).info("t", at_least=least).ticket, ("t", 2))
        served = answer(version_of(["int8"]))
        self.assertEqual(self.client(2, more=served).get("t", at_least=2).num_rows, 3)
        self.assertEqual(self.pauses, [])

    def test_the_pauses_grow(self):
        client = self.client(0, 1, 1, 2, 2, 2, 2, 3, more=answer(version_of(["int8"])))
        self.assertEqual(client.get("t", at_least=3, wait=60).num_rows, 3)
        self.assertEqual(self.pauses, [0.05, 0.1, 0.2, 0.4, 0.8, 1, 1])

    def test_a_version_and_one_to_wait_for(self):
        asked = io.BytesIO()
        served = info_answer(4) + info_answer(5) + answer(version_of(["int8"]))
        felzoren.connect_files(io.BytesIO(served), asked).get("t", 3, at_least=5)
        self.assertEqual(self.pauses, [0.05])
        self.assertTrue(asked.getvalue().endswith(felzoren.request("DoGet", [bytes_field(1, Ticket("t", 3).encode())])))

    def test_it_does_not_come(self):
        told = self.behind(self.client(3).get, "t", at_least=4, wait=0)
        self.assertEqual((told.table, told.at_least, told.version), ("t", 4, 3))
        self.assertEqual(str(told), "the node has version 3 of t, and not yet version 4")
        told = self.behind(self.client(0).info, "t", at_least=1, wait=-1)
        self.assertEqual(str(told), "the node has no version of t, and not yet version 1")
        self.assertEqual(str(pickle.loads(pickle.dumps(told))), str(told))
        self.assertEqual(self.pauses, [])

    def test_it_is_asked_at_the_end(self):
        """The last pause is as long as the time that is left, and then the node is asked once more."""
        now = [100.0]
        self.start(mock.patch.object(time, "monotonic", lambda: now[0]))
        self.start(mock.patch.object(time, "sleep", lambda pause: (self.pauses.append(pause), now.append(now.pop() + pause))))
        self.assertEqual(self.behind(self.client(1, 2, 3, 4).info, "t", at_least=9, wait=0.25).version, 4)
        for found, wanted in zip(self.pauses, (0.05, 0.1, 0.1, None)):
            self.assertAlmostEqual(found, wanted)

    def test_own_puts(self):
        """A put that was acknowledged counts, for its table alone, and not one that was refused."""
        client = client_of(put_answer(ID, 3) + put_answer(ID, 2) + answer([], 14, "Unavailable") + info_answer(2) + info_answer(3))
        for _ in range(2):
            client.put("t", [], {}, id=ID)
        self.assertRaises(Refused, client.put, "t", [], {}, id=ID)
        self.assertEqual(client.info("t", at_least="mine").ticket.version, 3)
        self.assertEqual(self.pauses, [0.05])
        self.assertEqual((client.least_version("t", "mine"), client.least_version("u", "mine")), (3, 0))

    def test_other_refusals_are_told_at_once(self):
        self.assertRaises(Refused, self.client(0).info, "t")
        self.assertRaises(Refused, self.client(0).get, "t", at_least="mine")
        self.assertRaises(Refused, client_of(answer([], 14, "Down")).info, "t", at_least=1)
        self.assertRaises(BadAnswer, client_of(b"").info, "t", at_least=1)
        self.assertEqual(self.pauses, [])

    def test_no_versions(self):
        for least in (-1, 1 << 64, "yours", "1", 1.0, b"mine"):
            self.assertRaises(ValueError, self.client(1).info, "t", at_least=least)


# ---- calls


def read_call(read):
    """The bytes of a request or of an answer, up to its end."""
    text = b""
    while True:
        head = felzoren.read_exactly(read, 5)
        text += head + felzoren.read_exactly(read, int.from_bytes(head[1:], "big"))
        if head[0] == felzoren.END:
            return text


class Listener:
    """A service that calls a given function for each connection."""

    def __init__(self, serve):
        self.serve, self.socket = serve, socket.create_server(("127.0.0.1", 0))
        self.location = "127.0.0.1:%d" % self.socket.getsockname()[1]
        self.thread = threading.Thread(target=self.run, daemon=True)

    def run(self):
        while True:
            try:
                connection, _ = self.socket.accept()
            except OSError:
                return
            with connection, contextlib.suppress(OSError, BadAnswer):
                self.serve(connection)

    def __enter__(self):
        self.thread.start()
        return self

    def __exit__(self, *_):
        self.socket.shutdown(socket.SHUT_RDWR)
        self.socket.close()
        self.thread.join(10)


@contextlib.contextmanager
def program():
    """The location at which PROGRAM is served, with empty tables: each connection is one call, which goes through its pipes."""
    if not PROGRAM.is_file():
        raise FileNotFoundError(f"{PROGRAM} is not built: run `rt run < /dev/null` in crates/call_server")
    with subprocess.Popen([PROGRAM], stdin=subprocess.PIPE, stdout=subprocess.PIPE) as process:

        def serve(connection):
            process.stdin.write(read_call(connection.recv))
            process.stdin.flush()
            connection.sendall(read_call(process.stdout.read))

        with Listener(serve) as listener:
            yield listener.location
        process.stdin.close()
        if process.wait(10):
            raise AssertionError(f"{PROGRAM} ended with status {process.returncode}")


class Calls(unittest.TestCase):
    """Whole calls to the program, over sockets."""

    def setUp(self):
        self.location = self.enter(program())
        self.client = felzoren.connect(self.location, timeout=20)

    def enter(self, context):
        value = context.__enter__()
        self.addCleanup(context.__exit__, None, None, None)
        return value

    def refused(self, status, name, call, *words, **options):
        with self.assertRaises(Refused) as raised:
            call(*words, **options)
        self.assertEqual((raised.exception.status, raised.exception.name), (status, name))
        return raised.exception

    def test_each_type_there_and_back(self):
        for place, (type, values) in enumerate(EVERY_TYPE.items()):
            schema = Schema([Field("a", type, metadata={"k": "v"})], {"made by": "a test"})
            ack = self.client.put(f"t{place}", {"a": values}, schema, id=bytes([place] * 16))
            table = self.client.get(f"t{place}")
            self.assertEqual((ack, table.schema, table.to_pydict()), ((bytes([place] * 16).hex(), 1), schema, {"a": values}), type)
        schema = Schema({str(place): type for place, type in enumerate(EVERY_TYPE)})
        self.client.put("all", dict(zip(schema.names, EVERY_TYPE.values())), schema)
        table, info = self.client.get("all"), self.client.info("all")
        self.assertEqual((table.schema, table.to_columns()), (schema, list(EVERY_TYPE.values())))
        self.assertEqual(table.to_pylist()[1], dict.fromkeys(schema.names))
        self.assertEqual((info.total_bytes, info.total_records, info.locations), (table.num_bytes, 3, LOCATIONS))
        self.assertEqual(self.client.schema("all"), schema)
        self.assertEqual([it.table for it in self.client.list()], [*(f"t{place}" for place in range(len(EVERY_TYPE))), "all"])

    def test_uploads_and_versions(self):
        first = self.client.put("sales", [{"shop": "Bern", "sold": 3}, {"shop": "Zürich", "sold": None}])
        self.assertEqual((len(first.id), first.version), (32, 1))
        second = self.client.put("sales", {"shop": ["Basel"], "sold": [40]}, id=ID.hex().upper())
        self.assertEqual(second, (ID.hex(), 2))
        self.assertEqual(self.client.put("sales", {"shop": ["Basel"], "sold": [40]}, id=ID), second)
        third = self.client.put_batches("sales", [[("a", 1)], [], {"shop": ["b"], "sold": [2]}], {"shop": "utf8", "sold": "int64"})
        fourth = self.client.put("sales", [], {"shop": "utf8", "sold": "int64"})
        table = self.client.get("sales")
        self.assertEqual([it.id for it in table.uploads], [first.id, second.id, third.id, fourth.id])
        self.assertEqual([[batch.num_rows for batch in it.batches] for it in table.uploads], [[2], [1], [1, 0, 1], []])
        self.assertEqual(table.to_pydict(), {"shop": ["Bern", "Zürich", "Basel", "a", "b"], "sold": [3, None, 40, 1, 2]})
        self.assertEqual(self.client.get("sales", 1).to_pylist(), [{"shop": "Bern", "sold": 3}, {"shop": "Zürich", "sold": None}])
        self.assertEqual(self.client.redeem(self.client.info("sales").ticket).num_rows, 5)
        self.assertEqual(self.client.redeem(Ticket("sales", 2).encode()).num_rows, 3)
        self.assertEqual(self.client.info("sales").ticket, ("sales", 4))
        self.assertEqual(self.client.get("sales", at_least="mine").num_rows, 5)
        with self.assertRaisesRegex(felzoren.Behind, "the node has version 4 of sales, and not yet version 5"):
            felzoren.connect(self.location, timeout=20).get("sales", at_least=5, wait=0.2)

    def test_refusals(self):
        schema = {"a": "int64"}
        self.client.put("t", [{"a": 1}], id=ID)
        self.assertEqual(self.refused(6, "Conflict", self.client.put, "t", [{"a": 2}], id=ID).id, ID.hex())
        self.refused(9, "SchemaMismatch", self.client.put, "t", [{"b": 1}])
        self.refused(14, "Unavailable", self.client.get, "t", 2)
        for call in (self.client.info, self.client.schema, self.client.get):
            self.refused(5, "NoTable", call, "nothing")
        self.refused(3, "BadTicket", self.client.redeem, b"?")
        for table in ("", "a b", "ü", "x" * 65, None):
            for call in (lambda it: self.client.put(it, [], schema), self.client.info, self.client.get, self.client.schema):
                self.assertRaises(ValueError, call, table)
        for id in ("", "0" * 31, "g" * 32, b"a", 5, ["a"]):
            self.assertRaises(ValueError, self.client.put, "t", [], schema, id=id)
        for version in (0, -1, 1 << 64, "1", 1.0):
            self.assertRaises(ValueError, self.client.get, "t", version)

    def test_large_uploads(self):
        columns = {"n": list(range(500_000)), "s": [str(it) for it in range(500_000)]}
        self.client.put("large", columns)
        table = self.client.get("large")
        self.assertEqual(table.to_pydict(), columns)
        self.assertEqual([it.num_rows for it in table.batches], [65_536] * 7 + [41_248])
        texts = ["x" * 1_000_000] * 16
        self.client.put("texts", {"s": texts})
        self.assertEqual([it.num_rows for it in self.client.get("texts").batches], [4] * 4)
        self.assertEqual(self.client.get("texts").to_pydict(), {"s": texts})
        with self.assertRaisesRegex(ValueError, "an upload of 5 batches and 170"):
            self.client.put("texts", {"s": texts + texts[:1]})
        self.assertEqual(self.client.put_batches("t", [[]] * 1024, {"a": "null"}).version, 1)
        with self.assertRaisesRegex(ValueError, "an upload of 1025 batches"):
            self.client.put_batches("t", [[]] * 1025, {"a": "null"})
        self.assertEqual(self.client.put_batches("t", [{"a": [None] * 1_048_576}], {"a": "null"}).version, 2)
        with self.assertRaisesRegex(ValueError, "a batch of 1048577 rows"):
            self.client.put_batches("t", [{"a": [None] * 1_048_577}], {"a": "null"})

    def test_the_largest_upload(self):
        """An upload of 16,777,216 bytes, and one whose table's name has one letter more: client and service have the same limit."""
        schema = Schema({"a": "binary"})
        batches = [felzoren.write_batch(schema, [[bytes(size)]], 1) for size in (*[4_000_000] * 4, 776_144)]
        self.assertEqual(felzoren.upload_size("tt", felzoren.schema_header(schema), batches), 16_777_216)
        self.assertEqual(self.client.put_encoded("tt", schema, batches, None).version, 1)
        with self.assertRaisesRegex(ValueError, "an upload of 5 batches and 16777217 bytes"):
            self.client.put_encoded("ttt", schema, batches, None)
        with mock.patch.object(felzoren, "check_upload"):
            self.refused(8, "TooLarge", felzoren.connect(self.location).put_encoded, "ttt", schema, batches, None)

    def test_several_threads(self):
        threads = [threading.Thread(target=self.client.put, args=("t", [{"a": place}])) for place in range(8)]
        for each in threads:
            each.start()
        for each in threads:
            each.join()
        self.assertEqual(sorted(self.client.get("t").to_pydict()["a"]), list(range(8)))

    def test_locations(self):
        with socket.create_server(("127.0.0.1", 0)) as closed:
            nobody = "plain+tcp://127.0.0.1:%d" % closed.getsockname()[1]
        client = felzoren.connect([nobody, f"plain+tcp://{self.location}", nobody])
        self.assertEqual(client.list(), [])
        with self.assertRaises(ConnectionRefusedError):
            felzoren.connect([nobody, nobody], timeout=5).list()
        with self.assertRaises(ConnectionRefusedError) as raised:
            felzoren.connect(nobody).put("t", [], {"a": "int8"}, id=ID)
        self.assertEqual((raised.exception.id, type(raised.exception)), (ID.hex(), ConnectionRefusedError))
        for location in ("", "127.0.0.1", "127.0.0.1:x", "127.0.0.1:65536", "http://127.0.0.1:1", "a:1:2", [], ["127.0.0.1"]):
            self.assertRaises(ValueError, felzoren.connect, location)
        self.assertEqual(felzoren.parse_location("plain+tcp://[::1]:65535"), ("::1", 65535))


class Examples(unittest.TestCase):
    def test_docstrings(self):
        """The examples in docstrings are right if `sales` has two rows in one version; an id may be any with as many digits."""
        examples = 0
        for test in doctest.DocTestFinder().find(felzoren, "felzoren"):
            if test.examples and not test.name.endswith("to_pandas"):
                with program() as location, contextlib.ExitStack() as stack:
                    client, rows = felzoren.connect(location, timeout=10), [{"shop": "Bern", "sold": 3}, {"shop": "Zürich", "sold": None}]
                    client.put("sales", rows, id=ID)
                    popen = lambda *words, **options: stack.enter_context(subprocess.Popen(*words, **options))
                    pipes = types.SimpleNamespace(Popen=popen, PIPE=subprocess.PIPE)
                    test.globs = {"felzoren": felzoren, "client": client, "rows": rows, "subprocess": pipes, "program": [PROGRAM]}
                    said = io.StringIO()
                    outcome = doctest.DocTestRunner(IdOutput(), optionflags=doctest.ELLIPSIS).run(test, out=said.write)
                    self.assertEqual(outcome.failed, 0, said.getvalue())
                    examples += outcome.attempted
        self.assertGreater(examples, 20)


    def test_the_readme(self):
        """Its first example prints what the comments there show, and those on versions and on errors work after it."""
        blocks = re.findall(r"^```python\n(.*?)^```$", (FOLDER / "README.md").read_text(encoding="utf-8"), re.MULTILINE | re.DOTALL)
        first, versions, errors, views = blocks
        with program() as location, contextlib.redirect_stdout(io.StringIO()) as printed:
            connected = felzoren.connect(location, timeout=20)
            space = {"numpy": types.SimpleNamespace(asarray=list), "rows": [{"day": datetime.date(2024, 3, 4), "shop": "Genf", "sold": 1}]}
            with mock.patch.object(felzoren, "connect", lambda *words, **options: connected):
                for block in (first, versions, errors, views):
                    exec(block, space)
            rows = connected.get("daily", at_least="mine").num_rows
        self.assertEqual(printed.getvalue().splitlines(), re.findall(r"^print.*?  # (.*)$", first, re.MULTILINE))
        self.assertEqual((space["numbers"], rows), ([40], 4))


class IdOutput(doctest.OutputChecker):
    def check_output(self, want, got, flags):
        return super().check_output(re.sub(r"'[0-9a-f]+\.\.\.'", "'...'", want), got, flags)


class Connections(unittest.TestCase):
    """Services that answer late, early, or not at all."""

    def test_the_time_for_each_location(self):
        """Each of three has its share of the time that is left."""
        with mock.patch.object(socket, "create_connection", side_effect=ConnectionRefusedError) as tried:
            with self.assertRaises(ConnectionRefusedError):
                felzoren.connect([f"127.0.0.{place}:1" for place in (1, 2, 3)], timeout=60).list()
        self.assertEqual([call[0][0] for call in tried.call_args_list], [("127.0.0.1", 1), ("127.0.0.2", 1), ("127.0.0.3", 1)])
        for call, share in zip(tried.call_args_list, (20, 30, 60)):
            self.assertAlmostEqual(call[0][1], share, delta=1)

    def timed_out(self, serve):
        """The call ends in time, whatever the service does; its batches are made before the clock starts."""
        schema, done = Schema({"a": "utf8"}), threading.Event()
        batches = [felzoren.write_batch(schema, [["x" * 1_000_000] * 3], 3)] * 5
        with Listener(lambda connection: serve(connection, done)) as listener:
            began = time.monotonic()
            with self.assertRaises(socket.timeout) as raised:
                felzoren.connect(listener.location, timeout=0.3).put_encoded("t", schema, batches, ID)
            self.assertLess(time.monotonic() - began, 2)
            self.assertEqual(raised.exception.id, ID.hex())
            self.assertIsInstance(raised.exception, OSError)
            self.assertIsInstance(raised.exception, felzoren.Undecided)
            done.set()

    def test_timeouts(self):
        def trickle(connection, done):
            read_call(connection.recv)
            connection.sendall(b"\0\0\1\0\0")
            while not done.wait(0.02):
                connection.sendall(b"\0")

        self.timed_out(lambda connection, done: done.wait(5))
        self.timed_out(lambda connection, done: (read_call(connection.recv), done.wait(5)))
        self.timed_out(trickle)

    def test_refused_before_all_is_sent(self):
        """The service reads the path alone, refuses, and closes its end, or leaves it open."""
        for close in (True, False):
            done = threading.Event()
            self.addCleanup(done.set)

            def refuse(connection):
                felzoren.read_exactly(connection.recv, 20)
                connection.sendall(answer([], 8, "TooLarge"))
                if not close:
                    done.wait(5)
                else:
                    connection.shutdown(socket.SHUT_WR)
                    done.wait(0.2)

            with Listener(refuse) as listener:
                with self.assertRaises(Refused) as raised:
                    felzoren.connect(listener.location, timeout=5).put("t", {"a": ["x" * 1_000_000] * 15}, id=ID)
                self.assertEqual((raised.exception.name, raised.exception.id), ("TooLarge", ID.hex()))
                self.assertIsInstance(raised.exception, felzoren.Undecided)
                done.set()

    def test_closed_connections(self):
        for sent in (b"", b"\0\0", answer([b"x"])[:-1]):
            with Listener(lambda connection: (read_call(connection.recv), connection.sendall(sent))) as listener:
                self.assertRaises(BadAnswer, felzoren.connect(listener.location, timeout=5).list)

        def reset(connection):
            felzoren.read_exactly(connection.recv, 5)
            connection.setsockopt(socket.SOL_SOCKET, socket.SO_LINGER, struct.pack("ii", 1, 0))

        with Listener(reset) as listener:
            with self.assertRaises((ConnectionError, BadAnswer)) as raised:
                felzoren.connect(listener.location, timeout=5).put("t", {"a": ["x" * 1_000_000] * 15}, id=ID)
            self.assertEqual(raised.exception.id, ID.hex())
            self.assertIsInstance(raised.exception, felzoren.Undecided)

    def test_an_endless_answer(self):
        def serve(connection):
            read_call(connection.recv)
            while True:
                connection.sendall(felzoren.frame(0, bytes(1 << 20)))

        with Listener(serve) as listener:
            for call in ("DoPut", "GetSchema"):
                self.assertRaises(BadAnswer, CALLS[call], felzoren.connect(listener.location, max_bytes=10 << 20))


class Pandas(unittest.TestCase):
    def test_to_pandas(self):
        """A stand-in for pandas, which need not be installed, gets the columns and the number of rows."""
        real = sys.modules.get("pandas")
        self.addCleanup(lambda: sys.modules.update(pandas=real) if real else sys.modules.pop("pandas"))
        sys.modules["pandas"] = types.SimpleNamespace(DataFrame=lambda columns, index: (columns, len(index)))
        schema = Schema({"a": "int8"})
        batch = felzoren.write_batch(schema, [[1, None]], 2)
        table = felzoren.read_table([schema_message(schema), data_message(batch[0], ID, batch[1])])
        self.assertEqual(table.to_pandas(), ({"a": [1, None]}, 2))


def public_functions():
    """The functions of the library that are public, and those of its public classes, by their names."""
    for name in felzoren.__all__:
        thing = getattr(felzoren, name)
        for key, member in (vars(thing) if isinstance(thing, type) else {"": thing}).items():
            function = getattr(member, "fget", None) or getattr(member, "__func__", member)
            is_written = isinstance(function, types.FunctionType) and function.__code__.co_filename == felzoren.__file__
            if is_written and (key in ("__init__", "__new__", "__str__", "__repr__") or not key.startswith("_")):
                yield f"{name}.{key}".rstrip("."), function


class Annotations(unittest.TestCase):
    """What editors and type checkers are told."""

    def test_each_signature(self):
        """Each parameter and each result has a type, which resolves."""
        count = 0
        for name, function in public_functions():
            parameters = set(inspect.signature(function).parameters) - {"self", "cls"}
            self.assertEqual(set(typing.get_type_hints(function)), parameters | {"return"}, name)
            count += 1
        self.assertGreater(count, 40)

    def test_each_attribute(self):
        attributes = {"Refused": ("status", "name", "id"), "BadAnswer": ("id",), "Undecided": ("id", "fault"),
                      "Behind": ("table", "at_least", "version"), "Table": ("schema", "uploads", "num_bytes")}
        for name in felzoren.__all__:
            thing = getattr(felzoren, name)
            hints = typing.get_type_hints(thing) if isinstance(thing, type) else {}
            self.assertLessEqual({*getattr(thing, "_fields", ()), *attributes.get(name, ())}, set(hints), name)
        self.assertEqual(typing.get_type_hints(felzoren.Ticket), {"table": str, "version": int})

    def test_all_that_is_public_is_there(self):
        self.assertEqual(felzoren.__all__, sorted(felzoren.__all__))
        self.assertTrue(all(getattr(felzoren, it).__doc__ for it in felzoren.__all__))


class Package(unittest.TestCase):
    """What pip installs."""

    def setUp(self):
        found = tempfile.TemporaryDirectory()
        self.addCleanup(found.cleanup)
        self.folder = Path(found.name)

    def run_python(self, *words, path=""):
        """What Python prints, started away from this folder."""
        environment = {**os.environ, "PYTHONPATH": str(path), "PIP_DISABLE_PIP_VERSION_CHECK": "1"}
        done = subprocess.run([sys.executable, "-B", *map(str, words)], cwd=self.folder, env=environment, stdout=subprocess.PIPE,
                              stderr=subprocess.STDOUT, text=True)
        self.assertEqual(done.returncode, 0, done.stdout)
        return done.stdout

    def test_the_wheel(self):
        name = felzoren_build.build_wheel(self.folder)
        self.assertEqual(name, f"felzoren-{felzoren.__version__}-py3-none-any.whl")
        with zipfile.ZipFile(self.folder / name) as wheel:
            files = {it: wheel.read(it) for it in wheel.namelist()}
        about = name[: -len("-py3-none-any.whl")] + ".dist-info"
        self.assertEqual(sorted(files), sorted(["felzoren/__init__.py", "felzoren/py.typed",
                                                *(f"{about}/{it}" for it in ("METADATA", "RECORD", "WHEEL"))]))
        self.assertEqual(files["felzoren/__init__.py"], (FOLDER / "felzoren.py").read_bytes())
        told = dict(line.split(",", 1) for line in files[f"{about}/RECORD"].decode().splitlines())
        self.assertEqual(told.pop(f"{about}/RECORD"), ",")
        self.assertEqual(told, {it: self.sum_of(files[it]) for it in files if not it.endswith("RECORD")})
        self.assertIn("Requires-Python: >=3.8\n", files[f"{about}/METADATA"].decode())
        place = self.run_python("-c", "import felzoren; print(felzoren.__file__)", path=self.folder / name)
        self.assertEqual(Path(place.strip()), self.folder / name / "felzoren" / "__init__.py")

    def sum_of(self, content):
        digest = base64.urlsafe_b64encode(hashlib.sha256(content).digest()).decode().rstrip("=")
        return f"sha256={digest},{len(content)}"

    def test_the_source_distribution(self):
        """It has all that builds the wheel again."""
        name = felzoren_build.build_sdist(self.folder)
        with tarfile.open(self.folder / name) as archive:
            for member in archive.getmembers():
                self.assertTrue(member.isfile() and member.name.startswith(name[: -len("tar.gz")].rstrip(".") + "/"), member.name)
                place = self.folder / member.name
                place.parent.mkdir(exist_ok=True)
                place.write_bytes(archive.extractfile(member).read())
        built = self.folder / "built"
        built.mkdir()
        self.run_python("-c", f"import felzoren_build; felzoren_build.build_wheel({str(built)!r})", path=place.parent)
        wheel = felzoren_build.build_wheel(self.folder)
        self.assertEqual((built / wheel).read_bytes(), (self.folder / wheel).read_bytes())

    def test_the_project_is_read_as_it_is(self):
        """As a reader of TOML has it, where Python has one (3.11)."""
        found = felzoren_build.project()
        self.assertEqual((found["name"], found["version"]), ("felzoren", felzoren.__version__))
        if importlib.util.find_spec("tomllib"):
            import tomllib

            self.assertEqual(found, tomllib.loads((FOLDER / "pyproject.toml").read_text(encoding="utf-8"))["project"])

    @unittest.skipUnless(importlib.util.find_spec("pip"), "pip is not installed")
    def test_pip_installs_it_offline(self):
        before = sorted(FOLDER.iterdir())
        target = self.folder / "installed"
        words = "-m pip install --quiet --no-build-isolation --no-index --no-compile --target".split()
        self.run_python(*words, target, FOLDER)
        self.assertEqual(sorted(it for it in FOLDER.iterdir() if it.name != "__pycache__"), [it for it in before if it.name != "__pycache__"])
        self.assertEqual((target / "felzoren" / "py.typed").read_bytes(), b"")
        place = self.run_python("-c", "import felzoren; print(felzoren.__file__)", path=target)
        self.assertEqual(Path(place.strip()), target / "felzoren" / "__init__.py")


if __name__ == "__main__":
    if len(sys.argv) > 1 and os.path.sep in sys.argv[1]:
        PROGRAM = Path(sys.argv.pop(1))
    unittest.main()
