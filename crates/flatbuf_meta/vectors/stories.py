#!/usr/bin/env python3
"""Makes the stories of the headers here: compiled.txt, what is to be read of each header that the FlatBuffers compiler
made, and canonical.txt, the one text that is written of each.

    python3 stories.py [--check]       anywhere; it needs no flatc

The bytes are those of NAME.hex, NAME.full.hex and ours/NAME.hex, with a letter for each run of zero bytes, and the
answers come from NAME.json alone. With --check it changes nothing, and its exit status is 1 where a file of stories is
another one. Then tools/stories.py puts the stories together.
"""
import json
import re
import sys

sys.dont_write_bytecode = True
from make import HERE, is_written, kind, shown

STORIES = HERE.parent.parent / "header_stories/data"
COMPILED = """\
# What the FlatBuffers compiler made of the JSON files in flatbuf_meta/vectors, each by its name there, and what is to
# be read of it; ".full" is with numbers that are their defaults too. Bytes are hexadecimal, and a letter from `g` to `z`
# stands for one to twenty zero bytes. Made by stories.py there, and not by hand.
"""
CANONICAL = """\
# The one text of each header in flatbuf_meta/vectors that can be written: `respelled` reads it, and what is read is
# written as the same bytes. Of a schema without metadata and inner fields, `written` makes it from how many entries of
# metadata there are and the words of its fields, as in limits.txt. Bytes are hexadecimal, and a letter from `g` to `z`
# stands for one to twenty zero bytes. Made by stories.py there, and not by hand.
"""
BEHIND = """
# A message behind its marker and its length, which are written behind a byte that stands there already.
"""


def digits_of(file):
    return "".join(file.read_text("utf-8").split())


def packed(digits):
    """The digits with a letter for zero bytes, up to twenty of them: g is one, h is two."""
    parts = re.findall(rb"\0{1,20}|[^\0]", bytes.fromhex(digits))
    return "".join(part.hex() if part[0] else chr(ord("f") + len(part)) for part in parts)


def words(source):
    """The words of the schema's fields, or None where there are no such words."""
    said = json.loads(source.read_text("utf-8"))
    table = said["header"]
    fields = table.get("fields", [])
    is_flat = not any("custom_metadata" in each or "children" in each for each in [table, *fields])
    if said["header_type"] != "Schema" or not is_flat:
        return None
    named = [field.get("name", "") for field in fields]
    shown_types = [kind(field) for field in fields]
    if any(re.search(r"\s", text) for text in [*named, *shown_types]) or len(fields) > 10:
        return None
    parts = zip(shown_types, named, fields, strict=True)
    nullable = {True: " nullable", False: "", None: ""}
    return " ".join(f"{ty}{name and ' named:' + name}{nullable[field.get('nullable')]}" for ty, name, field in parts)


def compiled():
    lines = []
    for source in sorted(HERE.glob("*.json")):
        for name in (source.stem, source.stem + ".full"):
            file = HERE / f"{name}.hex"
            if file.exists():
                lines += ["", f"# {name}", f"header {packed(digits_of(file))}", *shown(source)]
    return COMPILED + "\n".join(lines) + "\n"


def canonical():
    lines = []
    for source in filter(is_written, sorted(HERE.glob("*.json"))):
        digits, fields = digits_of(HERE / f"ours/{source.stem}.hex"), words(source)
        lines += ["", f"# {source.stem}", f"respelled {packed(digits)}", "  the same bytes"]
        if fields is not None:
            lines += [f"written 0 {fields}".rstrip(), f"  {digits}"]
    one = digits_of(HERE / "ours/schema_one_column.hex")
    length = (len(one) // 2).to_bytes(4, "little").hex()
    return CANONICAL + "\n".join(lines) + "\n" + BEHIND + f"encapsulated ee {one}\n  eeffffffff{length}{one}\n"


def main():
    status = 0
    for name, text in (("compiled.txt", compiled()), ("canonical.txt", canonical())):
        file = STORIES / name
        if "--check" not in sys.argv[1:]:
            file.write_text(text, "utf-8")
        elif file.read_text("utf-8") != text:
            print(f"stories: {name} is another one")
            status = 1
    return status


if __name__ == "__main__":
    sys.exit(main())
