#!/usr/bin/env python3
"""Makes the headers that the FlatBuffers compiler writes.

    python3 make.py        anywhere, with flatc (Debian's flatbuffers-compiler) on the PATH; not a part of the gate

NAME.hex is what `flatc -b` makes of NAME.json; where `--force-defaults`, which writes numbers that are their defaults too,
makes other bytes, NAME.full.hex is that. Then stories.py makes the stories of them. Running it again changes nothing; the files
here are from flatc 2.0.8, and another version may order the parts of a header in another way.
"""
import json
import pathlib
import re
import subprocess
import tempfile

HERE = pathlib.Path(__file__).resolve().parent

# The types that are carried, each with its parameters and their defaults; and the numbers of the others (docs/FORMATS.md).
TYPES = {
    "Null": {}, "Binary": {}, "Utf8": {}, "Bool": {}, "List": {}, "Struct_": {},
    "Int": {"bitWidth": 0, "is_signed": False}, "FloatingPoint": {"precision": "HALF"},
    "Decimal": {"precision": 0, "scale": 0, "bitWidth": 128}, "Date": {"unit": "MILLISECOND"},
    "Time": {"unit": "MILLISECOND", "bitWidth": 32}, "Timestamp": {"unit": "SECOND", "timezone": None},
    "FixedSizeBinary": {"byteWidth": 0}, "FixedSizeList": {"listSize": 0}, "Duration": {"unit": "MILLISECOND"},
}
OTHER_TYPES = {
    "NONE": 0, "Interval": 11, "Union": 14, "Map": 17, "LargeBinary": 19, "LargeUtf8": 20, "LargeList": 21,
    "RunEndEncoded": 22, "BinaryView": 23, "Utf8View": 24, "ListView": 25, "LargeListView": 26,
}


class Refused(Exception):
    """The header is refused with the fault of this name."""


def check(holds, fault):
    if not holds:
        raise Refused(fault)


def quoted(text):
    """A name, a key, a value or a time zone, as stories have it: its bytes behind an x, where it would need an escape."""
    if re.search(r'[\x00-\x1f\x7f"\\]', text):
        return "x" + text.encode().hex()
    return f'"{text}"'


def word(value):
    """A parameter: a dash where it is absent; a name of an enum; a number; true or false."""
    if value is None:
        return "-"
    return str(value).lower() if isinstance(value, bool) else str(value)


def entries(table, indent):
    pairs = [(quoted(entry.get("key", "")), quoted(entry.get("value", ""))) for entry in table.get("custom_metadata", [])]
    return [f"{indent}metadata {key} = {value}" for key, value in pairs]


def kind(field):
    name = field.get("type_type", "NONE")
    check(name in TYPES, f"Unsupported({OTHER_TYPES.get(name)})")
    values = {**TYPES[name], **field.get("type", {})}
    if name == "Int":
        check(values["bitWidth"] in (8, 16, 32, 64), "BadHeader")
    if name == "Decimal":
        check(values["bitWidth"] in (128, 256), "Unsupported(7)")
    if name == "Time":
        check(values.pop("bitWidth") == (32 if values["unit"] in ("SECOND", "MILLISECOND") else 64), "BadHeader")
    if name == "Timestamp" and values["timezone"] is not None:
        values["timezone"] = quoted(values["timezone"])
    check(min(values.get("byteWidth", 0), values.get("listSize", 0)) >= 0, "BadHeader")
    return name + ("(" + ",".join(map(word, values.values())) + ")" if values else "")


def columns(fields, level):
    shown = []
    indent = "  " * (level + 1)
    for field in fields:
        check(level <= 16, "TooDeep")
        check("dictionary" not in field, "Dictionary")
        inside = field.get("children", [])
        wanted = {"List": 1, "FixedSizeList": 1, "Struct_": len(inside)}.get(field.get("type_type"), 0)
        nullable = ", nullable" if field.get("nullable") else ""
        shown.append(f"{indent}{quoted(field.get('name', ''))}: {kind(field)}{nullable}")
        check(len(inside) == wanted, "BadHeader")
        shown += entries(field, indent + "  ") + columns(inside, level + 1)
    return shown


def header(message):
    check(message.get("version") == "V5", "Version")
    table = message.get("header", {})
    if message.get("header_type") == "Schema":
        check(table.get("endianness", "Little") == "Little", "Endianness")
        return ["  schema"] + entries(table, "    ") + columns(table.get("fields", []), 1)
    check(message.get("header_type") != "DictionaryBatch", "Dictionary")
    check(message.get("header_type") == "RecordBatch", "BadHeader")
    compressed = ", compressed" if "compression" in table else ""
    shown = [f"  batch of {table.get('length', 0)} rows, body of {message.get('bodyLength', 0)} bytes{compressed}"]
    shown += [f"    node of {node['length']}, nulls {node['null_count']}" for node in table.get("nodes", [])]
    return shown + [f"    buffer at {buffer['offset']} of {buffer['length']}" for buffer in table.get("buffers", [])]


def shown(source):
    """What is to be read, or which fault is to be told, as the lines of a story."""
    try:
        return header(json.loads(source.read_text("utf-8")))
    except Refused as refused:
        return [f"  {refused}"]


def is_written(source):
    """The header can be written: it is not refused, and no compressed batch or one of more than 512 nodes."""
    said, first = json.loads(source.read_text("utf-8")), shown(source)[0]
    is_header = first.startswith(("  schema", "  batch"))
    return is_header and not first.endswith(", compressed") and len(said["header"].get("nodes", [])) <= 512


def flatc(name, *words):
    """The file of this name that flatc makes; its warnings about names are passed over."""
    with tempfile.TemporaryDirectory() as folder:
        done = subprocess.run(["flatc", "-o", folder, *map(str, words)], cwd=HERE, capture_output=True, text=True)
        if done.returncode != 0:
            raise SystemExit(done.stdout + done.stderr)
        return (pathlib.Path(folder) / name).read_bytes()


def compiled(source, *words):
    """The header of the JSON file, in hexadecimal."""
    return flatc(source.stem + ".bin", "-b", *words, "Message.fbs", source).hex()


def write_hex(file, digits):
    file.write_text("".join(digits[at:at + 64] + "\n" for at in range(0, len(digits), 64)))


def main():
    for old in HERE.glob("*.hex"):
        old.unlink()
    for source in sorted(HERE.glob("*.json")):
        forms = {source.stem: compiled(source), source.stem + ".full": compiled(source, "--force-defaults")}
        if len(set(forms.values())) == 1:
            del forms[source.stem + ".full"]
        for name, digits in forms.items():
            write_hex(HERE / f"{name}.hex", digits)


if __name__ == "__main__":
    main()
