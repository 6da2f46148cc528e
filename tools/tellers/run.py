"""The teller of the stories of runs."""
import hashlib

from batches import bytes_of

# how many words follow the first word of an event's result, if any do
FOLLOWING = {"sent": 2, "answer": 1, "info": 1, "applied": 1, "refused": 1}


def md5(text):
    return hashlib.md5(text).hexdigest()


def bytes_in(word):
    """The bytes of a word of an answer."""
    return bytes.fromhex(word.strip("-"))


def told_step(gave, following):
    """The result of an event: the numbers of messages, or the length and the digest of an answer."""
    if gave == "sent":
        first, count = map(int, following)
        return "sent " + (",".join(map(str, range(first, first + count))) or "-")
    if gave == "answer":
        text = bytes_in(*following)
        return f"answer of {len(text)} bytes, md5 {md5(text)}"
    return " ".join([gave, *following])


def told_steps(words):
    """A line for each step: its place and its result."""
    lines, words = [], list(reversed(words))
    while words:
        gave = words.pop()
        following = [words.pop() for _ in range(FOLLOWING.get(gave, 0))]
        lines.append(f"{len(lines)} {told_step(gave, following)}")
    return lines


class Teller:
    """The teller of a story, with the number of its events so far."""

    def __init__(self):
        self.events = 0

    def tell(self, command):
        asked, _, rest = command.partition(" ")
        return getattr(self, asked, self.event)(command, rest)

    def nodes(self, command, _):
        self.events = 0
        yield [command]
        return []

    def upload(self, _, digits):
        yield [f"upload {bytes_of(digits).hex()}"]
        return []

    def event(self, command, _):
        self.events += 1
        yield [command]
        return []

    def play(self, command, _):
        events = self.events
        (answer,) = yield [command]
        if answer == "BadConfig":
            return [answer]
        lines = told_steps(answer.split())
        return lines if len(lines) == events else [*lines, f"{len(lines)} of {events} events"]

    def sent(self):
        """Whether the messages are lawful, and the bytes of each."""
        (answer,) = yield ["messages"]
        judged, *words = answer.split(" ")
        return judged, list(map(bytes_in, words))

    def messages(self, *_):
        judged, texts = yield from self.sent()
        return [*(f"{number} {text.hex()}" for number, text in enumerate(texts)), judged]

    def digest(self, *_):
        judged, texts = yield from self.sent()
        count = [] if judged == "BadConfig" else [f"messages {len(texts)}, md5 {md5(b''.join(texts))}"]
        return [*count, judged]
