"""Random agreed lists of uploads that expect versions of their tables, what is due to them, and wrong rules that such lists find out.

What is due is read from the rule as it is said, upload by upload, of the answers that were given: `contradiction` has no list of its own of
what counts, and takes the one that it judges, since of each upload the rule speaks of those before it alone."""
import functools

from conditional_model import MOST_EXPECTED, Agreed
from tables import A, TAGGED, column, id_of, integer, schema
from tables_model import Upload

TABLES = (b"s", b"t", b"t.2")
# Schemas of three shapes: metadata is no part of a shape.
SCHEMAS = {"a": A, "tagged": TAGGED, "b": schema(column("b")), "wide": integer(16)}
MOST_VALUES, MOST_IDS = 14, 16


@functools.cache
def made(table, name, number, rows, expected):
    """An upload of a schema of this name, with a null in each of its rows."""
    return Upload(table, id_of(number), SCHEMAS[name], [(1, [[None]])] * rows, expected)


# ---- lists


def drawn_parts(draw, tables, before):
    """The parts of an upload to one of these tables. The version that it expects is mostly near the one that these before it have made."""
    table = draw.choice(tables)
    near = len(Agreed(before).effective(table))
    expected = draw.choice((None, None, 0, 1, near, near, near, max(near - 1, 0), near + 1, len(before), draw.randrange(8), MOST_EXPECTED))
    name = draw.choices(tuple(SCHEMAS), (6, 2, 2, 1))[0]
    return table, name, draw.randrange(MOST_IDS), draw.randrange(2), expected


def varied(draw, parts):
    """The same parts, or some with one or two of them drawn again, mostly of the condition."""
    table, name, number, rows, expected = parts
    kind = draw.choice(("same", "condition", "condition", "rows", "table", "shape"))
    if kind == "condition":
        expected = draw.choice((None, 0, 1, 2, 3))
    elif kind == "rows":
        rows = 1 - rows
    elif kind == "table":
        table, expected = draw.choice(TABLES), draw.choice((None, expected))
    elif kind == "shape":
        name = draw.choice(tuple(SCHEMAS))
    return table, name, number, rows, expected


def drawn_list(draw):
    """Values of an agreed list, some of them None, since they are no uploads; and uploads whose outcomes are asked for: those in the list,
    and others, of which some have an id that is used there."""
    tables, drawn, values = draw.sample(TABLES, draw.choice((1, 2, 2, 3))), [], []
    for _ in range(draw.randint(0, MOST_VALUES)):
        if draw.random() < 0.1:
            values.append(None)
            continue
        is_again = drawn and draw.random() < 0.25
        drawn.append(varied(draw, draw.choice(drawn)) if is_again else drawn_parts(draw, tables, values))
        values.append(made(*drawn[-1]))
    others = [made(*varied(draw, it)) for it in drawn[:3]] + [made(*drawn_parts(draw, tables, []))]
    return values, list(dict.fromkeys([it for it in values if it] + others))


# ---- what has to become of uploads


def counts(values, places, place):
    """Whether the upload at a place has to count, where of the uploads to its table before it those at these places do."""
    upload, before = values[place], [values[it] for it in places if it < place]
    is_first = all(it is None or it.id != upload.id for it in values[:place])
    has_shape = not before or before[0].shape == upload.shape
    is_expected = upload.expected is None or upload.expected == len(before)
    return is_first and has_shape and is_expected


def due(values, counted, upload):
    """What has to be told of an upload, where of each table's uploads those at these places count."""
    places = [it for it, other in enumerate(values) if other and other.id == upload.id]
    if not places:
        return ("Unknown",)
    if values[places[0]].text != upload.text:
        return ("Conflict",)
    its_table = counted.get(upload.table, [])
    before = [values[it] for it in its_table if it < places[0]]
    if places[0] in its_table:
        return "Applied", len(before) + 1
    if before and before[0].shape != upload.shape:
        return ("SchemaMismatch",)
    return "VersionMismatch", len(before)


def contradiction(values, asked, cut, rule):
    """What is wrong with the answers of a rule about a list, and about its beginning that is cut off here; None if all is right."""
    whole, part = rule(values), rule(values[:cut])
    for place, upload in enumerate(values):
        if upload and counts(values, whole.counted.get(upload.table, []), place) != (place in whole.counted.get(upload.table, [])):
            return f"whether the upload at place {place} counts"
    for upload in asked:
        if whole.outcome(upload) != due(values, whole.counted, upload):
            return f"the outcome of {upload.id.hex()}"
        if part.outcome(upload) not in (("Unknown",), whole.outcome(upload)):
            return f"the outcome of {upload.id.hex()}, which changes when more come"
    for table in TABLES:
        before, after = ([it.text for it in agreed.effective(table)] for agreed in (part, whole))
        if after[: len(before)] != before:
            return f"the versions of {table.decode()}, which change when more come"
    return None


# ---- what such lists have to bring about


TURNS = (
    "a condition is met by a table without versions", "a condition is met by one version or two",
    "a condition is met by three versions or more",
    "a condition is not met, with no version there", "a condition is not met, with versions there",
    "a condition is not met, and its table gets another shape", "a condition comes with another shape",
    "two uploads under an id differ in their conditions alone", "an id comes again whose first upload did not count",
)


def is_but_for_its_condition(upload, other):
    """Whether two uploads under one id are equal but for what they expect."""
    return (upload.table, upload.schema_text, upload.parts) == (other.table, other.schema_text, other.parts)


def turns_by(agreed, place):
    """Which of these an upload brings about that was judged, at its place."""
    upload, (name, *version) = agreed.values[place], agreed.told[place]
    if name == "Applied" and upload.expected is not None:
        yield TURNS[0] if upload.expected == 0 else TURNS[1] if upload.expected < 3 else TURNS[2]
    if name == "VersionMismatch":
        yield TURNS[3] if version == [0] else TURNS[4]
        if any(it.shape != upload.shape for it in agreed.effective(upload.table)):
            yield TURNS[5]
    if name == "SchemaMismatch" and upload.expected is not None:
        yield TURNS[6]


def turns_in(values):
    """What happened in a list of what only conditions bring about."""
    agreed = Agreed(values)
    found = {turn for place in agreed.told for turn in turns_by(agreed, place)}
    for place, upload in enumerate(values):
        if upload and place not in agreed.told:
            first = agreed.used[upload.id]
            is_other = values[first].text != upload.text and is_but_for_its_condition(values[first], upload)
            found |= {TURNS[7]} if is_other else set()
            found |= {TURNS[8]} if agreed.told[first][0] != "Applied" else set()
    return found


# ---- wrong rules


class CountsSlots(Agreed):
    """Has an upload expect the number of its slot in the list."""

    def version(self, place):
        return place


class CountsEveryTable(Agreed):
    """Has an upload expect the number of uploads that count before it, to whichever table."""

    def version(self, place):
        return sum(map(len, self.counted.values()))


class CountsWhatDidNotCount(Agreed):
    """Has an upload expect the number of those to its table before it, whatever became of them."""

    def version(self, place):
        return sum(self.values[it].table == self.values[place].table for it in self.told)


class CountsItself(Agreed):
    """Has an upload expect the version that it makes itself."""

    def version(self, place):
        return super().version(place) + 1


class TakesLaterVersions(Agreed):
    """Has a condition met if the expected version is there, though others have come behind it."""

    def version(self, place):
        expected, version = self.values[place].expected, super().version(place)
        return version if expected is None else min(expected, version)


class JudgesShapesAtTheEnd(Agreed):
    """Judges a shape by the first upload to its table that counts in the whole list."""

    def __init__(self, values):
        self.at_the_end = Agreed(values)
        super().__init__(values)

    def has_shape(self, place):
        upload = self.values[place]
        return all(it.shape == upload.shape for it in self.at_the_end.effective(upload.table)[:1])


class HasTheFirstMakeTheShape(Agreed):
    """Has the first upload to a table make its shape, though it did not count."""

    def has_shape(self, place):
        to_table = [it for it in self.told if self.values[it].table == self.values[place].table]
        return all(self.values[it].shape == self.values[place].shape for it in to_table[:1])


class JudgesARepeatByItsLaterBytes(Agreed):
    """Judges an upload again if other bytes come under its id."""

    def is_free(self, upload):
        return super().is_free(upload) or self.values[self.used[upload.id]].text != upload.text


class FreesTheIdOfWhatDidNotCount(Agreed):
    """Lets an id be used again if the first upload under it did not count."""

    def is_free(self, upload):
        return super().is_free(upload) or self.told[self.used[upload.id]][0] != "Applied"


class SkipsTheConditionOfARepeat(Agreed):
    """Takes an upload for the first one under its id if they differ in what they expect alone."""

    def outcome(self, upload):
        first = self.values[self.used[upload.id]] if upload.id in self.used else upload
        return super().outcome(first if is_but_for_its_condition(first, upload) else upload)


class TellsTheVersionFirst(Agreed):
    """Tells of an upload of another shape that it expects another version, if it does."""

    def judged(self, place):
        upload = self.values[place]
        is_met = upload.expected in (None, self.version(place))
        return super().judged(place) if is_met else ("VersionMismatch", self.version(place))


class TellsWhatWasExpected(Agreed):
    """Tells the version that an upload expected, and not the one that was there."""

    def judged(self, place):
        name, *version = super().judged(place)
        return (name, self.values[place].expected) if name == "VersionMismatch" else (name, *version)


WRONG = (
    CountsSlots, CountsEveryTable, CountsWhatDidNotCount, CountsItself, TakesLaterVersions, JudgesShapesAtTheEnd, HasTheFirstMakeTheShape,
    JudgesARepeatByItsLaterBytes, FreesTheIdOfWhatDidNotCount, SkipsTheConditionOfARepeat, TellsTheVersionFirst, TellsWhatWasExpected,
)
