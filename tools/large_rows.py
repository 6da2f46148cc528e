"""The rows of tools/large_types/, with the results that the models give: what is read where LargeBinary, LargeUtf8 and LargeList are
carried, and, for commands that end in `-today`, what the crates read today."""
import batch_model
import calls
import headers_model
import paxos_model
import ranged_model
import tables
from batches import batch_of, batch_told, bytes_of, schema_told
from wire_model import Faults


def told_or_fault(call, *arguments):
    """The lines that the call returns, or the faults that it finds."""
    try:
        return call(*arguments)
    except Faults as found:
        return sorted(found.names)


class Batches:
    """The rows of batches."""

    def __init__(self):
        self.types = []

    def tell(self, command):
        if command.startswith("schema"):
            self.types = list(map(batch_model.type_of, command.split()[1:]))
            return schema_told(self.types)
        return batch_told(self.types, *batch_of(command))


class Headers:
    """The rows of headers."""

    def tell(self, command):
        word, _, digits = command.partition(" ")
        text, large = bytes_of(digits), not word.endswith("-today")
        if word == "respelled":
            written = headers_model.written(headers_model.header_of(text, large))
            return ["the same bytes" if written == text.hex() else written]
        return told_or_fault(lambda: headers_model.shown(headers_model.header_of(text, large)))


class Tables(tables.Story):
    """The rows of uploads and tables."""

    def upload_today(self, name):
        return tables.told_of(tables.known(self.named[name]))


class Values:
    """The rows of messages and records with long values: `decode BYTES | COUNT BYTES`, the last ones so many times."""

    def tell(self, command):
        word, _, rest = command.partition(" ")
        front, _, back = rest.partition("|")
        count, _, more = back.strip().partition(" ")
        most = paxos_model.MAX_VALUE if word.endswith("-today") else paxos_model.MAX_VALUE_WITH_LARGE
        value_of = self.in_record if word.startswith("decode-record") else self.in_message
        return told_or_fault(lambda: self.value_told(value_of(bytes_of(front) + int(count) * bytes_of(more), most)))

    @staticmethod
    def value_told(value):
        return ["no value"] if value is None else [f"a value of {len(value)} bytes"]

    @staticmethod
    def in_record(text, most):
        parts = paxos_model.record_parts(text, most)
        return parts["value"] if "value" in paxos_model.IN_RECORD[parts["kind"]] else None

    @staticmethod
    def in_message(text, most):
        """The value of a message, or that of its report, of which there is at most one."""
        said = ranged_model.said_of(ranged_model.message_parts(text, most))
        reported = [it[-1] for it in ([said["report"]] if said["report"] else []) + said["reports"]]
        has_value = said["what"] in ("Accept", "Accepted", "Decided")
        return said["value"] if has_value else reported[0] if reported else None


class Calls(calls.Story):
    """The rows of calls."""

    def tell(self, command):
        if not command.startswith("new"):
            return super().tell(command)
        word, _, rest = command.partition(" ")
        self.large = word == "new"
        return self.new(rest)


def told(story, lines):
    """The rows with the results that the models give."""
    out = []
    for line in lines:
        if not line.startswith("  "):
            out.append(line)
            if line and not line.startswith("#"):
                out += ["  " + it for it in story.tell(line)]
    return "\n".join(out) + "\n"


def stories():
    """What gives the results of the rows of each file, by its name."""
    return {"batches": Batches(), "headers": Headers(), "tables": Tables(large=True), "values": Values(), "calls": Calls()}
