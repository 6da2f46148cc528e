"""The teller of the stories of Flight calls."""
import hashlib

from batches import bytes_of, spelled
from wire_model import END, frame, whole_frames

SERVICE = "/arrow.flight.protocol.FlightService/"
MESSAGE = 0
# the most bytes of a message that are shown one by one
MOST_TOLD = 400


def trailer(payload):
    """The status and the text of a trailer."""
    if not payload:
        return "none"
    text = payload[1:].decode(errors="replace")
    return f"{payload[0]} {text}" if text else str(payload[0])


def told_message(payload):
    if len(payload) > MOST_TOLD:
        return f"message of {len(payload)} bytes, md5 {hashlib.md5(payload).hexdigest()}"
    return f"message {spelled(payload)}" if payload else "message"


def told_frames(text):
    frames, rest = whole_frames(text)
    lines = [told_message(payload) if flag == MESSAGE else f"trailer {trailer(payload)}" for flag, payload in frames]
    return lines + ["cut"] * bool(rest)


def refusal(text):
    """The trailer of an answer that has nothing else."""
    frames, rest = whole_frames(text)
    if not rest and len(frames) == 1 and frames[0][0] == END:
        return trailer(frames[0][1])
    return "another answer"


def parts_of(answer):
    """The parts of an answer to a call: its bytes, how many bytes were left, and the ids that were handed over."""
    text, left, *handed = answer.split(" ")
    return bytes.fromhex(text.strip("-")), int(left), [f"handed {name}" for name in handed]


def call(parts):
    """The request to serve a call of these bytes, each with how often they come."""
    return " ".join(["call", *(f"{count} {text.hex()}" for count, text in parts if text)])


class Teller:
    """The teller of a story, with the bytes that the story has named."""

    def __init__(self):
        self.named = {"empty": b""}

    def tell(self, command):
        asked, _, rest = command.partition(" ")
        return getattr(self, asked)(rest)

    def bytes(self, words):
        name, _, digits = words.partition(" ")
        front, _, back = digits.partition("|")
        count, _, more = back.strip().partition(" ")
        if name != "empty":
            self.named[name] = bytes_of(front) + int(count or 0) * bytes_of(more)
        yield []
        return []

    def part(self, word):
        """The bytes of a part of a call, and how often they come."""
        if word == "end":
            return 1, frame(END, b"")
        if word.startswith("/"):
            return 1, frame(MESSAGE, (SERVICE + word[1:]).encode())
        if word.startswith("+"):
            return 1, self.named[word[1:]]
        count, star, name = word.partition("*")
        return (int(count), frame(MESSAGE, self.named[name])) if star else (1, frame(MESSAGE, self.named[word]))

    def new(self, words):
        yield [f"new {words}"]
        return []

    def call(self, words):
        (answer,) = yield [call(map(self.part, words.split()))]
        text, left, handed = parts_of(answer)
        return [*told_frames(text), *[f"left {left}"] * bool(left), *handed]

    def cuts(self, words):
        """The trailer for each beginning of a call: one line for beginnings in a row with the same trailer."""
        whole = b"".join(count * text for count, text in map(self.part, words.split()))
        answers = yield [call([(1, whole[:size])]) for size in range(len(whole))]
        lines, first, told = [], 0, [parts_of(answer) for answer in answers]
        refusals = [refusal(text) for text, _, _ in told]
        for size, given in enumerate(refusals):
            if size + 1 == len(refusals) or refusals[size + 1] != given:
                lines.append(f"{first} to {size}: {given}")
                first = size + 1
        return lines + [line for _, _, handed in told for line in handed]
