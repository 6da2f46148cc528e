"""A model of uploads that name the version of their table which they expect before them. No crate has them yet.

A client that has read a version of a table names its number with its upload, which then counts only if no other upload to that table has
counted since: the version that it makes comes right behind the one that it expects. A version of 0 is that of a table that has none.

The condition is field 5 of an upload's encoding, the third element of a put's path, and the member `expected` of an upload in a schedule or
a script. Today's crates know none of these: bytes with field 5 are no upload to them, a path of three elements is `BadDescriptor`, and the
member is skipped. So the models read conditions only where they are asked to, and judge uploads without one as they always did.

Of uploads this module knows that they have a table, an id, a shape, an encoding (`text`) and what they expect, None if they have no
condition."""
import re

from wire_model import number_field

MOST_EXPECTED = 1_000_000
# The number of the field that has the condition: the expected version and 1, since 0 is what a field that is absent means.
CONDITION = 5


# ---- conditions as bytes and as digits


def condition_text(expected):
    """The field of a condition, which is left out if there is none."""
    return b"" if expected is None else number_field(CONDITION, expected + 1)


def condition_in(fields):
    """What the fields of an upload expect, None if none of them has a condition. A field that is written as 0 gives -1."""
    found = [held for number, wire_type, held in fields if (number, wire_type) == (CONDITION, 0)]
    return found[-1] - 1 if found else None


def may_be_expected(expected):
    return expected is None or 0 <= expected <= MOST_EXPECTED


def version_in(digits):
    """The version that the third element of a put's path names, None if it names none: a decimal number without leading zeros, which is
    judged by its value, however long it is."""
    is_short = len(digits) <= len(str(MOST_EXPECTED))
    is_number = is_short and re.fullmatch(rb"0|[1-9][0-9]*", digits)
    return int(digits) if is_number and may_be_expected(int(digits)) else None


# ---- agreed lists


class Agreed:
    """An agreed list, of which each upload is judged once, at its place, by those before it. A value that is no upload is None, and does
    not count anywhere.

    An upload counts if it is the first with its id in the whole list, if it has the shape of the first upload to its table that counts
    before it, where there is one, and if it expects the number of the uploads to its table that count before it, or has no condition."""

    def __init__(self, values):
        # the place at which each id was used first, what became of the upload there, and the places of each table's uploads that count
        self.values, self.used, self.told, self.counted = values, {}, {}, {}
        for place, upload in enumerate(values):
            if upload is not None and self.is_free(upload):
                self.take(place)

    def take(self, place):
        upload = self.values[place]
        self.used[upload.id], self.told[place] = place, self.judged(place)
        if self.told[place][0] == "Applied":
            self.counted.setdefault(upload.table, []).append(place)

    def is_free(self, upload):
        """Whether its id has not been used: it is by the first upload that has it, whatever became of that one."""
        return upload.id not in self.used

    def before(self, upload):
        """The places of the uploads to its table that count so far."""
        return self.counted.get(upload.table, [])

    def has_shape(self, place):
        """Whether it has the shape of its table, which has none before the first upload that counts."""
        upload = self.values[place]
        return all(self.values[it].shape == upload.shape for it in self.before(upload)[:1])

    def version(self, place):
        """The number that the upload at this place has to expect, if it has a condition."""
        return len(self.before(self.values[place]))

    def judged(self, place):
        """What becomes of the upload at this place: a name, and the number of a version with two of them."""
        upload = self.values[place]
        if not self.has_shape(place):
            return ("SchemaMismatch",)
        if upload.expected not in (None, self.version(place)):
            return "VersionMismatch", self.version(place)
        return "Applied", len(self.before(upload)) + 1

    def outcome(self, upload):
        """What became of an upload: an equal one is judged as the one at its place, and another one under its id conflicts with it."""
        if upload.id not in self.used:
            return ("Unknown",)
        place = self.used[upload.id]
        return self.told[place] if self.values[place].text == upload.text else ("Conflict",)

    def effective(self, table):
        """The uploads to a table that count, in their order: a version is that many of them."""
        return [self.values[it] for it in self.counted.get(table, [])]
