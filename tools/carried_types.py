"""The types of columns that headers may have, by their numbers in the union `Type` of Schema.fbs.

The crates carry the types of crates/flatbuf_meta/vectors/make.py, and refuse all others. LargeBinary, LargeUtf8 and LargeList are
Binary, Utf8 and List with offsets of eight bytes (Apache Arrow Columnar Format, "Variable-size Binary Layout" and "Variable-size List
Layout"); their tables in Schema.fbs are empty. The models know these three ahead of the crates: what takes the word `large` refuses
them as well unless it is true. Headers with them are written by canonical.py, whose tables get their names here."""
import sys
from pathlib import Path

TOP = Path(__file__).resolve().parent.parent
sys.dont_write_bytecode = True
sys.path.append(str(TOP / "crates" / "flatbuf_meta" / "vectors"))

import canonical
import make

LARGE = {"LargeBinary": 19, "LargeUtf8": 20, "LargeList": 21}
CARRIED = {number: name for name, number in canonical.NUMBERS.items()}
CARRIED_WITH_LARGE = CARRIED | {number: name for name, number in LARGE.items()}
canonical.NUMBERS.update(LARGE)
make.TYPES.update(dict.fromkeys(LARGE, {}))


def names_of_types(large):
    """The name of each type that is carried, by its number."""
    return CARRIED_WITH_LARGE if large else CARRIED


def children_wanted(name, count):
    """How many children a type has, of which there are `count`: a struct may have any number."""
    return {"List": 1, "LargeList": 1, "FixedSizeList": 1, "Struct_": count}.get(name, 0)
