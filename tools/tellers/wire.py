"""The teller of the stories of frames, numbered fields, and the messages of Arrow Flight."""
from repeated import tell_each
from wire_model import DATA_MESSAGE, DESCRIPTOR, ENDPOINT, INFO, KINDS, LOCATION, TICKET, bytes_field, frame, shown

MESSAGES = {
    "descriptor": DESCRIPTOR,
    "ticket": TICKET,
    "location": LOCATION,
    "endpoint": ENDPOINT,
    "info": INFO,
    "schema": [(1, "schema", "bytes")],
    "criteria": [(1, "expression", "bytes")],
    "data": DATA_MESSAGE,
    "put-result": [(1, "app_metadata", "bytes")],
}
WRITTEN_KINDS = {name.split()[0]: name for name in KINDS.values()}


def digits(words):
    """The digits of bytes, without spaces, as a word of a request."""
    return words.replace(" ", "") or "-"


def is_fault(answer):
    """Whether this is the name of a fault: an answer without one has no words, or several."""
    return answer != "" and " " not in answer


def bytes_in(words):
    word = next(words)
    return b"" if word == "-" else bytes.fromhex(word)


def value_in(words, kind):
    """The value of a field of this kind, from the next words."""
    if kind == "texts":
        return [bytes_in(words).decode("utf-8") for _ in range(int(next(words)))]
    if isinstance(kind, tuple):
        each = [message_in(words, kind[1]) for _ in range(int(next(words)))]
        return each if kind[0] == "each" else each[0] if each else None
    if kind in ("enumeration", "int64"):
        return int(next(words))
    if kind == "bool":
        return next(words) == "1"
    return bytes_in(words).decode("utf-8") if kind == "text" else bytes_in(words)


def message_in(words, table):
    return [value_in(words, kind) for _, _, kind in table]


def outcome(answer):
    """The fault of a message, or its encoding."""
    return answer if is_fault(answer) else f"encoding {answer.split(' ')[-1]}"


def message_lines(name, answer):
    if is_fault(answer):
        return [answer]
    words = iter(answer.split(" "))
    return [*shown(message_in(words, MESSAGES[name]), MESSAGES[name], 0), f"encoding {' '.join(words)}"]


def field_line(number, kind, held):
    return f"{number}: {WRITTEN_KINDS[kind]} {held}"


def fields_lines(answer):
    if is_fault(answer):
        return [answer]
    words = answer.split()
    return [field_line(*words[place : place + 3]) for place in range(0, len(words), 3)] or ["none"]


def front_lines(answer):
    """The field, its content as a number or as bytes, and the text after it."""
    if is_fault(answer):
        return [answer]
    *field, rest = answer.split(" ")
    number, kind, held, *lent = field
    lending = "number" if kind == "varint" else kind
    return [field_line(number, kind, held), *(f"{lending} {it}" for it in lent), f"left {rest}"]


def payload_of(length):
    """This many bytes, which differ from place to place and from length to length."""
    return bytes((place + length) % 251 for place in range(length))


def frame_of(flag, length):
    """A frame with such a payload."""
    return frame(flag, payload_of(length))


def frames_lines(answer):
    *frames, end, rest = answer.split(" ")
    lines = [f"flag {frames[place]}, payload {frames[place + 1]}" for place in range(0, len(frames), 2)]
    return [*lines, "no more" if end == "NoMore" and rest == "-" else f"{end}, left {rest}"]


READINGS = {"frames": frames_lines, "fields": fields_lines, "front": front_lines}


def tell_long_frame(flag, length):
    """Whether a frame with a payload of this length is written right, and read as its flag and its payload."""
    payload, framed = payload_of(length).hex() or "-", frame_of(flag, length).hex()
    written, read = yield [f"frame {flag} {payload}", f"frames {framed}"]
    is_read = read == f"{flag} {payload} NoMore -"
    return ["written" if written == framed else "written otherwise", "read back" if is_read else "read otherwise"]


def tell_cut_frame(flag, length):
    """Such a frame without its last byte, without its last two, and with another frame after it that has an invalid flag."""
    framed = frame_of(flag, length).hex()
    *cuts, behind = yield [f"frames {framed[:-2]}", f"frames {framed[:-4]}", f"frames {framed}020000000007"]
    return [*(line for it in cuts for line in frames_lines(it)), *frames_lines(behind)[1:]]


def end_told(answer):
    """How many frames an answer to `frames` has, and how they end."""
    lines = frames_lines(answer)
    return f"frames {len(lines) - 1}, {lines[-1].removesuffix(', left -')}"


def tell_beginnings(text):
    """What is read from each beginning of a stream: a line for the shortest beginning of each result."""
    answers = yield [f"frames {text[: 2 * count] or '-'}" for count in range(len(text) // 2 + 1)]
    told = list(map(end_told, answers))
    return [f"from {count} bytes on: {it}" for count, it in enumerate(told) if count == 0 or it != told[count - 1]]


def tell_stream(count):
    """This many frames in one text, with payloads of 0 to 96 bytes, every third of them with the other flag."""
    frames = [(128 if number % 3 == 1 else 0, number % 97) for number in range(count)]
    (read,) = yield ["frames " + b"".join(frame_of(*it) for it in frames).hex()]
    told = [f"flag {flag}, payload {payload_of(length).hex() or '-'}" for flag, length in frames]
    lines = frames_lines(read)
    return [f"{count} frames", *lines[count:]] if lines[:count] == told else lines


def tell_long_field(number, length):
    """What is before the bytes in a field of this many bytes, and whether they are read back."""
    held = b"\7" * length
    written, read = yield [f"bytes {number} {held.hex()}", f"fields {bytes_field(number, held).hex()}"]
    front = written.removesuffix(held.hex())
    return [front, "read back" if read == f"{number} bytes {held.hex()}" else "read otherwise"]


LONG_COMMANDS = {
    "long-frame": tell_long_frame,
    "cut-frame": tell_cut_frame,
    "stream": tell_stream,
    "long-field": tell_long_field,
}


class Teller:
    """The teller of a story. No command depends on those before it."""

    def tell(self, command):
        name, _, rest = command.partition(" ")
        if name == "one-of":
            return self.tell_one_of(*rest.split(": "))
        if name == "each":
            return tell_each(self, rest)
        if name in LONG_COMMANDS:
            return LONG_COMMANDS[name](*map(int, rest.split(" ")))
        if name == "beginnings":
            return tell_beginnings(digits(rest))
        if name == "each-message":
            return self.tell_each(digits(rest))
        if name in ("frame", "varint", "nonzero-varint", "bytes", "nonempty-bytes"):
            return self.tell_written(name, *rest.partition(" "))
        return self.tell_read(name, digits(rest))

    def tell_read(self, name, text):
        (answer,) = yield [f"{name} {text}"]
        return READINGS[name](answer) if name in READINGS else message_lines(name, answer)

    def tell_written(self, name, number, _, rest):
        (answer,) = yield [f"{name} {number} {digits(rest)}"]
        return [answer]

    def tell_each(self, text):
        """The outcome for each of the nine messages, in one line if all nine are the same."""
        answers = yield [f"{name} {text}" for name in MESSAGES]
        outcomes = [outcome(it) for it in answers]
        if len(set(outcomes)) == 1:
            return [f"all nine: {outcomes[0]}"]
        return [f"{name}: {it}" for name, it in zip(MESSAGES, outcomes)]

    def tell_one_of(self, faults, call):
        """Whether one of these faults is reported, else the answer."""
        name, _, rest = call.partition(" ")
        (answer,) = yield [f"{name} {digits(rest)}"]
        if is_fault(answer):
            return ["one of them" if answer in faults.split(" ") else answer]
        return ["no fault" if name in READINGS else outcome(answer)]
