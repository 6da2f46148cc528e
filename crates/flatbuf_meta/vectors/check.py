#!/usr/bin/env python3
"""Reads headers that this program wrote with the FlatBuffers compiler, and compares them with what they should say.

    python3 check.py                       each ours/NAME.hex against NAME.json
    python3 check.py HEX_FILE JSON_FILE    one header against one JSON file
    python3 check.py HEX_FILE              prints what the compiler reads there

A .hex file holds hexadecimal digits; spaces and ends of lines are passed over. What is compared is what flatc prints of both
with all defaults: a number that is left out is the same as its default. A name, a vector or a table that is absent in one
and empty in the other is told apart from what differs; a time zone that is, differs. What a JSON file says that is not written
(docs/FORMATS.md) is left out first, and so it is not to be said. The exit status is 0 where none differs.
flatc has to be on the PATH; this is not a part of the gate.
"""
import json
import pathlib
import sys
import tempfile

sys.dont_write_bytecode = True
from make import HERE, compiled, flatc


def read_back(digits):
    """What flatc reads in a header that is given in hexadecimal."""
    with tempfile.TemporaryDirectory() as folder:
        header = pathlib.Path(folder) / "header.bin"
        header.write_bytes(bytes.fromhex(digits))
        words = ("--json", "--raw-binary", "--strict-json", "--defaults-json")
        return json.loads(flatc("header.json", *words, "Message.fbs", "--", header))


def without_empty(value):
    """The same, but for names, vectors and tables that are empty."""
    if isinstance(value, list):
        return [without_empty(item) for item in value]
    if not isinstance(value, dict):
        return value
    return {key: without_empty(item) for key, item in value.items() if item not in ([], {}, "") or key == "timezone"}


def carried(said, *unwritten):
    """What is to be written of a table of a JSON file, with the table of each column's type."""
    said = {slot: value for slot, value in said.items() if slot not in unwritten}
    if "type_type" in said:
        said["type"] = said.get("type", {})
    for slot in {"fields", "children"} & set(said):
        said[slot] = [carried(field) for field in said[slot]]
    return said


def to_be_said(wanted):
    """What flatc reads in the header that it makes of the JSON file, without what is not written."""
    said = json.loads(wanted.read_text("utf-8"))
    said = carried(said, "custom_metadata", *(["bodyLength"] if said["header_type"] == "Schema" else []))
    said["header"] = carried(said["header"], "features", "variadicBufferCounts")
    with tempfile.TemporaryDirectory() as folder:
        source = pathlib.Path(folder) / wanted.name
        source.write_text(json.dumps(said), "utf-8")
        return read_back(compiled(source))


def differs(given, wanted):
    """Whether the header says something else than the JSON file; prints it, and both where they are not alike."""
    ours, theirs = read_back(given.read_text("ascii")), to_be_said(wanted)
    is_other = without_empty(ours) != without_empty(theirs)
    told = "differs from" if is_other else "is" if ours == theirs else "is, but for what is absent or empty,"
    print(given.name, told, wanted.name)
    if ours != theirs:
        print("it says:", json.dumps(ours), "and should say:", json.dumps(theirs), sep="\n")
    return is_other


def main(words):
    files = [pathlib.Path(word).resolve() for word in words]
    if len(files) == 1:
        print(json.dumps(read_back(files[0].read_text("ascii")), indent=2, ensure_ascii=False))
        return 0
    ours = sorted((HERE / "ours").glob("*.hex"))
    pairs = [tuple(files)] if files else [(given, HERE / f"{given.stem}.json") for given in ours]
    different = sum(differs(*pair) for pair in pairs)
    print(f"{different} of {len(pairs)} differ")
    return 1 if different else 0


if __name__ == "__main__":
    sys.exit(main(sys.argv[1:]))
