"""The teller of the stories of uploads, tickets and tables."""
import hashlib

from batches import bytes_of, spelled
from wire_model import frame, whole_frames


def word(text):
    """Bytes as a word of a request."""
    return text.hex() or "-"


def text_of(word):
    """The text in a word of an answer."""
    return bytes.fromhex(word.strip("-")).decode()


def md5(text):
    return hashlib.md5(text).hexdigest()


def frames_of(text):
    """The frames of an answer, which must have nothing else."""
    frames, rest = whole_frames(text)
    if rest:
        raise ValueError("an answer ends within a frame")
    return [frame(flag, payload) for flag, payload in frames]


def told_frames(answer):
    """The frames in an answer, each a word of it."""
    frames = [bytes.fromhex(it) for it in answer.split(" ")]
    if frames != frames_of(b"".join(frames)):
        raise ValueError("a word of an answer is not one frame")
    return frames


def told_upload(answer):
    """The line about the upload that bytes encode."""
    if answer == "NotAnUpload":
        return answer
    table, name, length, batches, *columns = answer.split(" ")
    names = "".join(f" {text_of(column)}" for column in columns)
    return f"{text_of(table)} {name}, schema of {length} bytes:{names}, batches {batches}"


def told_outcome(answer):
    return f"Applied({answer})" if answer.isdigit() else answer


def told_latest(answer):
    if answer == "none":
        return answer
    table, version, rows, size, schema = answer.split(" ")
    return f"{text_of(table)} {version}, rows {rows}, bytes {size}, schema md5 {md5(bytes.fromhex(schema))}"


def told_ticket(answer):
    if answer == "BadTicket":
        return answer
    version, table = answer.split(" ")
    return f"version {version} of {text_of(table)}"


class Teller:
    """The teller of a story, with the bytes that the story has named."""

    def __init__(self):
        self.named = {}

    def tell(self, command):
        asked, _, rest = command.partition(" ")
        return getattr(self, asked.replace("-", "_"))(rest)

    def upload(self, words):
        name, _, digits = words.partition(" ")
        front, _, back = digits.partition("|")
        count, _, more = back.strip().partition(" ")
        self.named[name] = bytes_of(front) + int(count or 0) * bytes_of(more)
        return self.read(self.named[name])

    def cut(self, words):
        name, count = words.split()
        text = self.named[name]
        if int(count) > len(text):
            raise ValueError(words)
        return self.read(text[: int(count)])

    def change(self, words):
        name, place, byte = words.split()
        text = bytearray(self.named[name])
        text[int(place)] = int(byte)
        return self.read(bytes(text))

    def read(self, text):
        (answer,) = yield [f"upload {word(text)}"]
        return [told_upload(answer)]

    def ticket(self, words):
        version, _, table = words.partition(" ")
        (answer,) = yield [f"ticket {version} {word(table.encode())}"]
        return ["no ticket" if answer == "none" else answer]

    def read_ticket(self, digits):
        (answer,) = yield [f"read-ticket {word(bytes_of(digits))}"]
        return [told_ticket(answer)]

    def new(self, _):
        yield ["new"]
        return []

    def take(self, words):
        values = ["-" if it == "noop" else self.named[it].hex() for it in words.split()]
        if "" in values:
            raise ValueError(words)
        (answer,) = yield [" ".join(["take", *values])]
        return [f"taken {answer}"]

    def outcome(self, words):
        answers = yield [f"outcome {word(self.named[it])}" for it in words.split()]
        return [" ".join(map(told_outcome, answers))]

    def tables(self, _):
        (answer,) = yield ["tables"]
        return [" ".join(map(text_of, answer.split())) or "none"]

    def latest(self, table):
        (answer,) = yield [f"latest {word(table.encode())}"]
        return [told_latest(answer)]

    def asked(self, words):
        version, _, table = words.partition(" ")
        return [f"answer {version} {word(table.encode())}"]

    def answer(self, words):
        (answer,) = yield self.asked(words)
        if answer == "none":
            return ["none"]
        frames = told_frames(answer)
        lengths = " ".join(str(len(frame)) for frame in frames)
        text = b"".join(frames)
        return [f"{len(text)} bytes in frames of {lengths}, md5 {md5(text)}"]

    def frames(self, words):
        (answer,) = yield self.asked(words)
        return ["none"] if answer == "none" else [spelled(it) for it in told_frames(answer)]
