"""A model of Flight calls: the answers of a service to the bytes that come in, from the tables of all uploads that it took. It
is written from gRPC, "gRPC over HTTP2", from Arrow Flight ("Flight.proto", "Arrow Flight RPC") and from docs/FORMATS.md, and not
from the code. Uploads, tables and tickets are those of tables_model.py, messages those of wire_model.py.

Headers are those of headers_model.py. The model does not judge which fault is reported of a header or message with several. A service
with `large` takes uploads with LargeBinary, LargeUtf8 and LargeList, and longer ones.

A service with `is_conditional` knows uploads that name the version of their table which they expect, as the third element of a put's
path (conditional_model.py). The crates do not know them yet."""
import headers_model
from batch_model import Head, meaning
from conditional_model import version_in
from tables_model import MOST_BATCHES, Upload, answer, effective, is_table_name, latest, outcome, table_names, ticket_of, ticket_text, type_in
from wire_model import DATA_MESSAGE, DESCRIPTOR, END, INFO, TICKET, BadFrame, Faults, bytes_field, encoding, frame, frame_at, meant_inside
from wire_model import number_field

SERVICE = b"/arrow.flight.protocol.FlightService/"
METHODS = (b"GetFlightInfo", b"GetSchema", b"ListFlights", b"DoGet", b"DoPut")
CRITERIA = [(1, "expression", "bytes")]
UNKNOWN, PATH, CMD = 0, 1, 2
# The most frames of a call before its end.
MOST_FRAMES = 65_536
STATUSES = {
    3: "Truncated BadFlag TooLong BadVarint BadKey BadWireType CutShort NotUtf8 OutOfBounds Version Endianness TooDeep TooManyFields "
    "BadHeader TooManyRows NodeCount BufferCount BufferRange NullCount OffsetsFall ChildShort BadPath BadDescriptor BadTicket NoSchema "
    "NoEnd MessageCount",
    5: "NoTable", 6: "Conflict", 8: "SlotsSpent TooLarge TooManyBatches", 9: "SchemaMismatch VersionMismatch",
    12: "Compressed Unsupported Dictionary CmdDescriptor Criteria NoCall", 14: "Unavailable",
}
STATUS_OF = {name: status for status, names in STATUSES.items() for name in names.split()}


class Refusal(Exception):
    """A call is refused with this name, and `left` is what remains of the text."""

    def __init__(self, name, left):
        super().__init__(name)
        self.name, self.left = name, left


class Unjudged(Exception):
    """The model does not judge how such a call is answered."""


# ---- frames, and messages


def next_frame(text):
    """Whether the frame at the front is the end of the call, its payload, and what follows it."""
    if not text:
        raise Refusal("NoEnd", b"")
    try:
        flag, payload, rest = frame_at(text)
    except BadFrame as fault:
        raise Refusal(fault.name, fault.rest) from None
    if flag and payload:
        raise Refusal("BadFlag", rest)
    return bool(flag), payload, rest


def meant(text, table, left):
    faults = set()
    message = meant_inside([text], table, faults)
    if len(faults) > 1:
        raise Unjudged(text)
    if faults:
        raise Refusal(faults.pop(), left)
    return message


# ---- requests


def path_in(descriptor, left):
    if descriptor[0] == CMD:
        raise Refusal("CmdDescriptor", left)
    if descriptor[0] != PATH:
        raise Refusal("BadDescriptor", left)
    return [it.encode() for it in descriptor[2]]


def table_asked(text, left):
    path = path_in(meant(text, DESCRIPTOR, left), left)
    if len(path) != 1 or not is_table_name(path[0]):
        raise Refusal("BadDescriptor", left)
    return path[0]


def all_asked(text, left):
    if meant(text, CRITERIA, left)[0]:
        raise Refusal("Criteria", left)


def version_asked(text, left):
    asked = ticket_of(meant(text, TICKET, left)[0])
    if asked is None:
        raise Refusal("BadTicket", left)
    return asked


ASKED = {b"GetFlightInfo": table_asked, b"GetSchema": table_asked, b"ListFlights": all_asked, b"DoGet": version_asked}


def one_message(method, text):
    """What the one message of a method asks for, and the text after the call's end."""
    is_end, message, text = next_frame(text)
    if is_end:
        raise Refusal("MessageCount", text)
    asked = ASKED[method](message, text)
    is_end, _, text = next_frame(text)
    if not is_end:
        raise Refusal("MessageCount", text)
    return asked, text


# ---- uploads


def header_of(text, left, large):
    """The schema or the head that the bytes encode: a pair of its kind and of itself."""
    try:
        said = headers_model.header_of(text, large)
    except Faults as found:
        # a fault that has the number of a type is reported without it
        names = {it.partition("(")[0] for it in found.names}
        if len(names) > 1:
            raise Unjudged(text) from None
        raise Refusal(names.pop(), left) from None
    header = said["header"]
    if said["header_type"] == "Schema":
        return "schema", header
    pairs = [tuple(tuple(it.values()) for it in header[part]) for part in ("nodes", "buffers")]
    return "batch", Head(header["length"], *pairs, "compression" in header, said["bodyLength"])


def is_id(text):
    return len(text) == 32 and all(it in b"0123456789abcdef" for it in text)


def put_in(path, is_conditional):
    """The table and the id that a put's path names, and the version that it expects, None if it names none; None for another path."""
    if not 2 <= len(path) <= 2 + is_conditional or not is_table_name(path[0]) or not is_id(path[1]):
        return None
    expected = version_in(path[2]) if len(path) == 3 else None
    is_put = len(path) == 2 or expected is not None
    return (path[0], bytes.fromhex(path[1].decode()), expected) if is_put else None


def opening(text, left, large, is_conditional):
    """The table, the id, the version that is expected, and the schema, of the first message."""
    descriptor, header, _, _ = meant(text, DATA_MESSAGE, left)
    if descriptor is None:
        raise Refusal("BadDescriptor", left)
    named = put_in(path_in(descriptor, left), is_conditional)
    if named is None:
        raise Refusal("BadDescriptor", left)
    kind, schema = header_of(header, left, large) if header else ("batch", None)
    if kind == "batch":
        raise Refusal("NoSchema", left)
    return *named, schema


def addition(schema, batches, text, left, large):
    """What a further message adds to the batches."""
    _, header, _, body = meant(text, DATA_MESSAGE, left)
    if not header and not body:
        return []
    if not header:
        raise Refusal("OutOfBounds", left)
    kind, head = header_of(header, left, large)
    if kind == "schema":
        raise Refusal("BadHeader", left)
    columns = meaning([type_in(it) for it in schema["fields"]], head, body)
    if len(batches) == MOST_BATCHES:
        raise Refusal("TooManyBatches", left)
    if isinstance(columns, str):
        raise Refusal(columns, left)
    return [(head.length, columns)]


def upload_asked(text, large, is_conditional):
    """The upload of the messages, and the text after their end."""
    is_end, message, text = next_frame(text)
    if is_end:
        raise Refusal("NoSchema", text)
    table, name, expected, schema = opening(message, text, large, is_conditional)
    batches = []
    for count in range(2, MOST_FRAMES + 2):
        is_end, message, text = next_frame(text)
        if is_end:
            upload = Upload(table, name, schema, batches, expected)
            if not upload.is_taken(large):
                raise Refusal("TooLarge", text)
            return upload, text
        if count == MOST_FRAMES:
            raise Refusal("MessageCount", text)
        batches += addition(schema, batches, message, text, large)
    raise AssertionError


def call_asked(text, large, is_conditional):
    """The method, what it asks for, and the text after the call."""
    is_end, path, text = next_frame(text)
    if is_end or not path.startswith(SERVICE):
        raise Refusal("BadPath", text)
    method = path.removeprefix(SERVICE)
    if method not in METHODS:
        raise Refusal("NoCall", text)
    return method, *(upload_asked(text, large, is_conditional) if method == b"DoPut" else one_message(method, text))


# ---- a service, and its answers


def encapsulated(text):
    return b"\xff\xff\xff\xff" + len(text).to_bytes(4, "little") + text


class Service:
    """The uploads that were taken, in order; how many it takes; its locations; the ids of the uploads that were handed over; and whether
    it knows uploads that expect a version."""

    def __init__(self, slots, locations, large=False, is_conditional=False):
        self.slots, self.locations, self.uploads, self.handed = slots, locations, [], []
        self.large, self.is_conditional = large, is_conditional

    def info(self, table, left):
        known = latest(self.uploads, table)
        if known is None:
            raise Refusal("NoTable", left)
        version, rows, size, schema = known
        endpoint = [[ticket_text(table, version)], [[it] for it in self.locations]]
        descriptor = [PATH, b"", [table.decode()]]
        return encoding([encapsulated(schema), descriptor, [endpoint], rows, size, True], INFO)

    def schema(self, table, left):
        known = latest(self.uploads, table)
        if known is None:
            raise Refusal("NoTable", left)
        return bytes_field(1, encapsulated(known[3]))

    def get(self, asked, left):
        frames = answer(self.uploads, *asked)
        if frames is None:
            raise Refusal("Unavailable", left)
        return [it[5:] for it in frames]

    def put(self, upload, left):
        self.handed.append(upload.id)
        if outcome(self.uploads, upload) == "Unknown":
            if len(self.uploads) >= self.slots:
                raise Refusal("SlotsSpent", left)
            self.uploads.append(upload)
        told = outcome(self.uploads, upload)
        if not told.startswith("Applied"):
            # which version it was is not told
            raise Refusal(told.partition("(")[0], left)
        version = 1 + [it.id for it in effective(self.uploads, upload.table)].index(upload.id)
        return bytes_field(1, bytes_field(1, upload.id) + number_field(2, version))

    def messages(self, method, asked, left):
        if method == b"GetFlightInfo":
            return [self.info(asked, left)]
        if method == b"GetSchema":
            return [self.schema(asked, left)]
        if method == b"ListFlights":
            return [self.info(it, left) for it in table_names(self.uploads)]
        return self.get(asked, left) if method == b"DoGet" else [self.put(asked, left)]

    def serve(self, text):
        """The messages of the answer, its status and text, and what is left."""
        try:
            method, asked, left = call_asked(text, self.large, self.is_conditional)
            return self.messages(method, asked, left), 0, "", left
        except Refusal as it:
            return [], STATUS_OF[it.name], it.name, it.left


# ---- what clients write


def descriptor(*path, kind=PATH, command=b""):
    return encoding([kind, command, list(path)], DESCRIPTOR)


def data(header=b"", body=b"", said=None, metadata=b""):
    """A FlightData message with those of a descriptor, header, metadata and body that are given."""
    parts = [] if said is None else [bytes_field(1, said)]
    parts += [bytes_field(number, held) for number, held in ((2, header), (3, metadata), (1000, body)) if held]
    return b"".join(parts)


def first_message(upload):
    """The first message of a put. The version that is expected is the third element of its path, if there is one."""
    expected = [] if upload.expected is None else [str(upload.expected)]
    return data(upload.schema_text, said=descriptor(upload.table.decode(), upload.id.hex(), *expected))


def put_messages(upload):
    return [first_message(upload), *(data(*it) for it in upload.parts)]


def call_text(method, messages):
    """The frames of a call."""
    return b"".join([frame(0, SERVICE + method), *(frame(0, it) for it in messages), frame(END, b"")])
