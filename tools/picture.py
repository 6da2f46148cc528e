#!/usr/bin/env python3
"""Draws a schedule, as `flightd replay` plays it, or a recorded run, as `flightd audit` judges it, as a picture in SVG.

    tools/picture.py FILE [-o PICTURE] [--html] [--program PROGRAM]
    tools/picture.py --check [--program PROGRAM]

Each node has a lane, and time goes from left to right. Of a schedule each event has a mark, and an arrow leads from the step that sent a
message to each step at which it came. The messages, and the slots that a node learned, are those of the model in runs_model.py, whose
lines have to be those that PROGRAM prints. Of a recorded run each message has a mark, and what `PROGRAM audit --explain` names is red. A
file with `events` is a schedule. The picture goes to standard output, or into PICTURE; --html makes a page that lists the events too.

PROGRAM is crates/flightd/out/flightd, as it was built, or else release/flightd. --check draws all files of examples/, and reports each
event, message and arrow that is not drawn exactly once, and whether examples/pictures/ has what is drawn."""
import argparse
import json
import re
import subprocess
import sys
import xml.etree.ElementTree as ET
from collections import Counter, namedtuple
from dataclasses import dataclass, field
from itertools import product, zip_longest
from pathlib import Path
from textwrap import shorten, wrap

from paxos_model import told_message
from runs import message_text, told_line
from runs_model import EXAMPLES, Run, learned
from servers import PROGRAM, TOP

SHOWN = EXAMPLES / "pictures" / "cut_before_it_sent.svg"
# In pixels: how wide all columns are where they have room, and one of them at most and at least; the margins, and the least picture.
WIDTH, MOST_STEP, LEAST_STEP, LEFT, RIGHT, LEAST_WIDTH = 1360, 110, 34, 80, 30, 980
# The height of a row of labels, the room that a lane has on either side at least, and how wide a character is at most.
ROW, ROOM, CHARACTER = 13, 46, 6.2
# How many characters a label has, also of a value that has no name; how many messages of a step have labels; how often lanes are named.
MOST_LABEL, MOST_DIGITS, MOST_LABELS, NAMED_EVERY = 44, 16, 3, 40
DIAMOND, SQUARE, BARRED = "M0 -8L6 0L0 8L-6 0z", "M-6 -6H6V6H-6z", "M-6 0a6 6 0 1 0 12 0a6 6 0 1 0 -12 0zM-4 -4L4 4"
STAR = "M0 -9L2.4 -3L8.6 -2.8L3.7 1.2L5.3 7.3L0 3.7L-5.3 7.3L-3.7 1.2L-8.6 -2.8L-2.4 -3z"
# The shapes of marks about their places, for events and for the messages of a recorded run, and of the ring about a named message.
SHAPES = {"put": "M-7 -5H7L0 7z", "tick": DIAMOND, "delivery": "M-4 0a4 4 0 1 0 8 0a4 4 0 1 0 -8 0z", "learns": STAR, "question": SQUARE}
SHAPES |= {"cut": "M-6 -6L6 6M6 -6L-6 6", "restart": "M-7 5H7L0 -7z", "refused": BARRED, "Prepare": DIAMOND, "Promise": DIAMOND}
SHAPES |= {"Nack": BARRED, "Accept": SQUARE, "Accepted": SQUARE, "Ask": "M-5 0a5 5 0 1 0 10 0a5 5 0 1 0 -10 0z", "Decided": STAR}
RING = "M-12 0a12 12 0 1 0 24 0a12 12 0 1 0 -24 0z"
# The legend: words and a sample for each class of marks, of messages and of other lines.
LEGEND = {f"mark {name}": (name, shape) for name, shape in SHAPES.items()}
LEGEND |= {"mark learns": ("delivery by which a slot is learned", STAR), "mark question": ("question and its answer", SQUARE)}
LEGEND |= {"mark cut": ("the node goes down", SHAPES["cut"]), "ring named": ("named by audit --explain", RING)}
LEGEND |= {f"message {name}": (name, "M-14 0H14") for name in SHAPES if name[0].isupper()}
LEGEND |= {"line late": ("came at a cut or was refused", "M-14 0H14"), "line lost": ("never delivered", "M-12 0H10M10 -5V5")}
LEGEND |= {"lane down": ("the node is down", "M-14 0H14")}
# What the label of an event says.
LABELS = {"put": "put upload {}", "tick": "tick {}", "deliver": "#{}", "tickcut": "cut at tick {}", "delivercut": "cut at #{}"}
LABELS |= {"restart": "restart", "get": "get {} {}", "info": "info {}", "outcome": "outcome upload {}"}
# Where the point is that bends an end of an arrow to another lane, in parts of its width and height: first that of a straight line.
BENDS = ((1 / 3, 1 / 3), (0.06, 0.4), (0.12, 0.55), (0.3, 0.15))
STYLE = """
svg { background: #fff; color: #222 } text { font: 11px Arial, "Liberation Sans", sans-serif; fill: currentColor }
.title { font-size: 15px; font-weight: bold } .axis { color: #666 } .number { text-anchor: middle }
.label, .name, .again { paint-order: stroke; stroke: #fff; stroke-width: 3px; stroke-linejoin: round }
.grid { stroke: #e4e4e4 } .pole { stroke: #999; stroke-dasharray: 1 2 }
.lane { stroke: #444; stroke-width: 1.5 } .lane.down { stroke: #999; stroke-dasharray: 5 5 }
.line { fill: none; stroke: currentColor; stroke-width: 1.3 } .tip { fill: currentColor } .message:hover .line { stroke-width: 3.5 }
.Prepare, .Promise { color: #0b5cad }
.Accept, .Accepted { color: #1a6b2f } .Accept .line, .Accepted .line { stroke-width: 2.2 }
.Nack { color: #8a4b00 } .Nack .line { stroke-dasharray: 7 3 }
.Ask, .Decided { color: #6b2fa0 } .Ask .line, .Decided .line { stroke-dasharray: 9 3 2 3 }
.line.late { stroke-width: 1.3; stroke-dasharray: 1.5 3 }
.mark { stroke: currentColor; stroke-width: 1.5; fill: currentColor } .mark.cut { stroke-width: 3 } .mark.learns { fill: #f2b705 }
.mark.question, .mark.refused, .mark.Prepare, .mark.Accept, .mark.Nack, .mark.Ask { fill: #fff }
.named { color: #c00000 } .ring { fill: none; stroke: currentColor; stroke-width: 2.5 }
"""
PAGE_STYLE = """
body { margin: 0; display: flex; height: 100vh; font: 13px sans-serif; color: #222 }
div { overflow: auto; flex: 1 } div.list { flex: 0 0 34em; border-left: 1px solid #aaa }
table { border-collapse: collapse; table-layout: fixed; width: 100% } th:nth-child(-n+2) { width: 4.5em }
tr { border-bottom: 1px solid #ddd } td, th { padding: 2px 6px; text-align: left; vertical-align: top }
td { white-space: pre-line; overflow-wrap: anywhere }
"""

Message = namedtuple("Message", "sender kind line label")
Message.__doc__ = """A message that was sent: its sender, its kind, its line, and that line without the sender."""


class NoPicture(Exception):
    """Why there is no picture."""


@dataclass
class Step:
    """A column of the picture, an event of a schedule or a message of a recorded run. A label is a text and a class."""

    node: int
    mark: str
    words: str
    result: str
    labels: list
    sent: list = field(default_factory=list)
    took: int = None


@dataclass
class Scene:
    """What a picture shows. A recorded run has no messages apart from its steps, but lines that explain it and the steps that they name."""

    title: str
    note: str
    columns: tuple
    members: int
    steps: list
    messages: list = field(default_factory=list)
    explanation: list = field(default_factory=list)
    named: dict = field(default_factory=dict)

    def travels(self):
        """Of each message its number, that of the step which sent it, and those of the steps at which it came."""
        came = {number: [at for at, it in enumerate(self.steps) if it.took == number] for number in range(len(self.messages))}
        return [(number, place, came[number]) for place, step in enumerate(self.steps) for number in step.sent]


# ---- what happened


def output_of(program, *words):
    """The lines that a call of the program prints. Raises NoPicture where it reports a fault."""
    ran = subprocess.run([program, *words], capture_output=True, encoding="utf-8", errors="replace", check=False)
    lines = ran.stdout.splitlines()
    is_verdict = (lines[:1], ran.returncode) in ((["lawful"], 0), (["unlawful"], 1))
    if ran.stderr or not (is_verdict if words[0] == "audit" else ran.returncode == 0):
        said = ": ".join(it.removeprefix("flightd: ") for it in ran.stderr.splitlines()) or f"status {ran.returncode}"
        raise NoPicture(f"{words[-1]}: flightd {words[0]}: {said}")
    return lines


def head_of(file, read, **counts):
    """The title of a file's picture, and the note in the file, which is there for people alone."""
    note = read.get("note", "")
    title = f"{Path(file).name}: {', '.join(f'{count} {noun[: len(noun) - (count == 1)]}' for noun, count in counts.items())}"
    return title, " ".join(map(str, note if isinstance(note, list) else [note]))


def message_of(text, names):
    """The message that some bytes mean. A value is spelled by its name, if it has one."""
    *words, last = told_message(text)[0].split()
    words.append(names.get(last, last))
    return Message(int(words[1]), words[4], " ".join(words), " ".join([words[4], words[3], *words[5:]]))


def values_in(texts):
    """The names of the long values in some messages, and a text that says what they are; a very long one is spelled without its middle."""
    found = dict.fromkeys(it for text in texts if len(it := told_message(text)[0].split()[-1]) > MOST_DIGITS)
    spelled = [it if len(it) <= 64 else f"{it[:48]}..{it[-16:]} ({len(it) // 2} bytes)" for it in found]
    return {it: f"value {at}" for at, it in enumerate(found)}, "".join(f" Value {at} is {it}." for at, it in enumerate(spelled))


def label_of(text, kind):
    """A label of some kind, which is not too long."""
    return shorten(text, MOST_LABEL, placeholder=".."), kind


def shown_as(event, result, slot):
    """The mark and the label of an event. A delivery has a label where the node learned a slot by it, or refused it."""
    word, _, *rest = event
    said = LABELS[word].format(*rest)
    if result == "cut":
        return "cut", said
    if result.startswith("refused"):
        return "refused", f"{said}: {result}"
    if word in ("get", "info", "outcome"):
        return "question", f"{said}: {re.sub('^(answer of|info) ', '', result.split(',')[0])}"
    if word == "deliver":
        return ("delivery", "") if slot is None else ("learns", f"learns slot {slot}")
    return word, said


def step_of(event, result, slot, messages, first):
    """The step of an event, by which the messages from the first number on were sent. Of many the first and the last have labels."""
    word, node, *rest = event
    mark, said = shown_as(event, result, slot)
    sent, took = list(range(first, len(messages))), rest[0] if word.startswith("deliver") and rest[0] < first else None
    labels = [label_of(f"#{it} {messages[it].label}", messages[it].kind) for it in sent]
    if len(labels) > MOST_LABELS:
        labels = [(f"{labels[0][0]}, and so on to", labels[0][1]), labels[-1]]
    words = [*map(str, [word, *rest]), *([] if took is None else [f"({messages[took].line})"])]
    result += f": {', '.join(messages[it].label for it in sent)}" * bool(sent) + f", learns slot {slot}" * (slot is not None)
    return Step(node, mark, " ".join(words), result, [label_of(said, "own")] * bool(said) + labels, sent, took)


def slot_learned(run, event, known):
    """The slot whose value a node learned by an event, if there is one. What each node knows is then in `known`."""
    node, before = run.nodes.get(event[1]), known.get(event[1], {})
    if node is None or event[0] not in ("deliver", "restart"):
        return None
    known[event[1]] = learned(run.members, node.heard)
    return next((it for it in known[event[1]] if it not in before), None)


def schedule_scene(file, schedule, program):
    """A schedule as the program and the model play it. Raises NoPicture where they differ."""
    lines, run, steps, messages, known = output_of(program, "replay", file), Run(schedule), [], [], {}
    names = {it.text.hex(): f"upload {place}" for place, it in reversed([*enumerate(run.uploads)])}
    for number, (event, line) in enumerate(zip_longest(schedule["events"], lines)):
        said = None if event is None else f"{number} {run.play(event)}"
        if said != line:
            raise NoPicture(f"{file}: event {number}: the program prints {line!r:.200}, and the model says {said!r:.200}")
        first = len(messages)
        messages += [message_of(message_text(it), names) for it in run.sent[first:]]
        steps.append(step_of(event, told_line(line).partition(" ")[2], slot_learned(run, event, known), messages, first))
    title, note = head_of(file, schedule, nodes=run.members, events=len(steps), messages=len(messages))
    return Scene(title, note, ("event", "delivers", "what came", "result"), run.members, steps, messages)


def recorded_scene(file, recorded, program):
    """A recorded run as the program judges it."""
    verdict, *explanation = output_of(program, "audit", "--explain", file)
    named, steps, texts = {}, [], [bytes.fromhex(it) for it in recorded["sent"]]
    names, meaning = values_in(texts)
    for line in explanation:
        for number in re.findall(r"(?:^|; )message (\d+)", line):
            named.setdefault(int(number), line if named else "\n".join(explanation))
    for number, sent in enumerate(message_of(it, names) for it in texts):
        label = label_of(f"#{number} {sent.label}", "named" if number in named else sent.kind)
        steps.append(Step(sent.sender, sent.kind, sent.label, named.get(number, "-"), [label]))
    title, note = head_of(file, recorded, nodes=recorded["members"], messages=len(steps))
    columns = ("message", "", "what was sent", "explanation")
    return Scene(f"{title}: {verdict}", note + meaning, columns, recorded["members"], steps, explanation=explanation, named=named)


def scene_of(file, program):
    """What the picture of a file shows. Raises NoPicture if the file is neither a schedule nor a recorded run."""
    try:
        read = json.loads(Path(file).read_text(encoding="utf-8"))
    except (ValueError, RecursionError) as error:
        raise NoPicture(f"{file}: neither a schedule nor a recorded run: {error}") from None
    if not isinstance(read, dict) or not {"events", "sent"} & set(read):
        raise NoPicture(f"{file}: neither a schedule nor a recorded run: there are neither `events` nor `sent`")
    return (schedule_scene if "events" in read else recorded_scene)(file, read, program)


# ---- where it is drawn: a point is a complex number


class Layout:
    """Where the columns, the lanes and the labels of a scene are, and how wide and high they are together."""

    def __init__(self, scene):
        self.step = min(MOST_STEP, max(LEAST_STEP, WIDTH / max(1, len(scene.steps))))
        self.width, self.height = max(LEAST_WIDTH, LEFT + self.step * len(scene.steps) + RIGHT), 30
        self.rows, self.lanes, self.sides = {}, {}, self.label_sides(scene)
        for node in sorted({*range(scene.members), *(it.node for it in scene.steps)}):
            above, below = (self.place(scene, node, side) for side in (-1, 1))
            self.lanes[node] = self.height + above
            self.height += above + below
        self.spots = [complex(self.x(number), self.lanes[it.node]) for number, it in enumerate(scene.steps)]

    def x(self, number):
        return LEFT + self.step * (number + 0.5)

    @staticmethod
    def label_sides(scene):
        """The side of its lane, -1 above and 1 below, on which each step has its labels: opposite to most of its arrows to other lanes."""
        pulls = Counter()
        for place, at in ((place, at) for _, place, came in scene.travels() for at in came):
            way = scene.steps[at].node - scene.steps[place].node
            pulls[place] += (way > 0) - (way < 0)
            pulls[at] -= (way > 0) - (way < 0)
        return [-1 if pulls[place] > 0 or it.node == 0 else 1 for place, it in enumerate(scene.steps)]

    def place(self, scene, node, side):
        """Places the labels on a side of a lane, each step's in the first rows that have room: the height that the side needs."""
        ends = []
        for number, step in enumerate(scene.steps):
            if step.node == node and self.sides[number] == side:
                left, count = self.x(number) - 5, len(step.labels)
                row = next(it for it in range(len(ends) + 1) if all(end <= left for end in ends[it : it + count]))
                right = left + CHARACTER * max((len(text) for text, _ in step.labels), default=0) + 6
                ends[row : row + count] = [right] * count
                self.rows[number], self.width = row, max(self.width, right)
        return max(ROOM, ROW * len(ends) + 28)


def touched(curve, others):
    """How many other marks a curve touches."""
    a, b, c, d = curve
    count = 20 + int(abs(d - a) / 8)
    spots = [(1 - t) ** 3 * a + 3 * (1 - t) ** 2 * t * b + 3 * (1 - t) * t**2 * c + t**3 * d for t in (it / count for it in range(count))]
    return sum(any(abs(spot - other) < 12 for spot in spots) for other in others)


def curve_of(start, end, side, others):
    """The four points of an arrow: on a side of the lane of both ends, or bent at both ends so that it touches the fewest other marks."""
    span = end - start
    if not span.imag:
        near, depth = min(span.real * 0.35, 45), side * 1j * min(14 + span.real / 25, 26)
        return start, start + near + depth, end - near + depth, end
    ways = [complex(width * span.real, height * span.imag) for width, height in BENDS]
    return min(((start, start + first, end - last, end) for first, last in product(ways, ways)), key=lambda it: touched(it, others))


# ---- the parts of a picture


def add(parent, name, text=None, **attributes):
    """A new element inside another one. A character of its text that can't be printed is escaped."""
    named = {key.strip("_"): it if isinstance(it, str) else f"{round(it, 1):g}" for key, it in attributes.items()}
    made = ET.SubElement(parent, name, named)
    made.text = text and "".join(it if it.isprintable() or it == "\n" else f"\\u{ord(it):04x}" for it in text)
    return made


def path(*parts):
    """What a path draws: letters and points."""
    return " ".join(it if isinstance(it, str) else f"{round(it.real, 1):g} {round(it.imag, 1):g}" for it in parts)


def draw_arrow(parent, curve, **attributes):
    """An arrow, whose tip ends before the mark to which it leads."""
    start, first, last, end = curve
    way = (end - last) / abs(end - last)
    tip, base = end - 7 * way, end - 15 * way
    add(parent, "path", d=path("M", start, "C", first, last, base), **attributes)
    add(parent, "path", class_="tip", d=path("M", tip, "L", base + 4j * way, base - 4j * way, "z"))


def draw_messages(body, scene, layout):
    """Each message of a schedule: an arrow to each step at which it came, or a stub that ends in a bar where there is none."""
    spots = layout.spots
    for number, place, came in scene.travels():
        message, side, index = scene.messages[number], -layout.sides[place], scene.steps[place].sent.index(number)
        group = add(body, "g", id=f"message-{number}", class_=f"message {message.kind}")
        add(group, "title", f"message {number}: {message.line}\nsent at event {place}, came at {', '.join(map(str, came)) or 'none'}")
        for at in came:
            curve = curve_of(spots[place], spots[at], side, spots[place + 1 : at])
            is_late = scene.steps[at].mark in ("cut", "refused")
            draw_arrow(group, curve, id=f"arrow-{number}-{at}", class_="line late" if is_late else "line")
        if not came:
            end = spots[place] + complex(16 + 9 * (index % 4), side * (18 + 9 * (index // 4)))
            bar = 5j * (end - spots[place]) / abs(end - spots[place])
            add(group, "path", class_="line lost", d=path("M", spots[place], "L", end, "M", end - bar, "L", end + bar))


def draw_steps(body, scene, layout):
    """The mark and the labels of each step, with the whole of it as a tooltip."""
    word, poles = scene.columns[0], add(body, "g", class_="pole")
    for number, (step, spot, side) in enumerate(zip(scene.steps, layout.spots, layout.sides)):
        group, row, place = add(body, "g", id=f"{word}-{number}"), layout.rows[number], f"translate({path(spot)})"
        add(group, "title", f"{word} {number} of node {step.node}: {step.words}\n{step.result}")
        add(group, "path", class_=f"mark {step.mark}", d=SHAPES[step.mark], transform=place)
        if number in scene.named:
            add(group, "path", class_="ring named", d=RING, transform=place)
        if step.labels:
            add(poles, "path", d=path("M", spot, "L", spot + side * 1j * (22 + ROW * row)))
        for above, (text, kind) in enumerate(step.labels if side > 0 else reversed(step.labels), row):
            add(group, "text", text, class_=f"label {kind}", x=spot.real - 5, y=spot.imag + side * (26 + ROW * above) + 4)


def draw_columns(body, scene, layout):
    """A line for each step with its number, and below that the number of the message that came."""
    numbers = [(layout.x(at), "number", str(at), "" if it.took is None else f"#{it.took}") for at, it in enumerate(scene.steps)]
    for x, kind, *texts in [(12, "first", *scene.columns[:2]), *numbers]:
        for y, text in zip((10, 22), filter(None, texts)):
            add(body, "text", text, class_=f"axis {kind}", x=x, y=y)
    grid = [path("M", complex(x, 28), "L", complex(x, layout.height)) for x, *_ in numbers]
    add(body, "path", class_="grid", d="".join(grid))


def draw_lanes(body, scene, layout):
    """The lane of each node, which is dashed while the node is down, with its name here and there."""
    for node, y in layout.lanes.items():
        at, kind = LEFT - 10, "lane"
        turns = [(layout.x(number), it.mark) for number, it in enumerate(scene.steps) if it.node == node and it.mark in ("cut", "restart")]
        for x, mark in [*turns, (layout.width - RIGHT / 2, "")]:
            add(body, "path", class_=kind, d=path("M", complex(at, y), "L", complex(x, y)))
            at, kind = x, "lane down" if mark == "cut" else "lane"
        add(body, "text", f"node {node}", class_="name", x=12, y=y + 4)
        if node >= scene.members:
            add(body, "text", "no member", class_="axis", x=12, y=y + 17)
        for number in range(NAMED_EVERY, len(scene.steps), NAMED_EVERY):
            add(body, "text", f"node {node}", class_="axis again", x=layout.x(number - 0.5), y=y - 10)


def draw_legend(parent, body, width, y):
    """The classes that a picture shows, with their words, in rows from a height on: the height below them."""
    used, x = {it.get("class") for it in body.iter()}, 12
    for name, (words, sample) in ((name, it) for name, it in LEGEND.items() if name in used):
        if x + 40 + CHARACTER * len(words) > width:
            x, y = 12, y + 22
        is_message = name.startswith("message")
        group = add(parent, "g", class_=name if is_message else "legend", transform=f"translate({x + 14:g} {y})")
        add(group, "path", class_="line" if is_message else name, d=sample)
        add(group, "text", words, x=20, y=4)
        x += 48 + CHARACTER * len(words)
    return y + 26


def draw_lines(parent, text, kind, width, y):
    """A text in lines that are as long as the width allows: the height below them."""
    for line in wrap(text, int((width - 24) / CHARACTER)):
        add(parent, "text", line, class_=kind, x=12, y=y)
        y += 15
    return y


def picture_of(scene):
    """The picture of a scene, an element `svg`."""
    layout, body = Layout(scene), ET.Element("g")
    for draw in (draw_columns, draw_lanes, draw_messages, draw_steps):
        draw(body, scene, layout)
    root, width = ET.Element("svg", {"xmlns": "http://www.w3.org/2000/svg", "role": "img"}), min(layout.width, LEFT + WIDTH)
    add(root, "title", scene.title)
    add(root, "style", STYLE)
    add(root, "text", scene.title, class_="title", x=12, y=24)
    y = draw_legend(root, body, width, draw_lines(root, scene.note, "note", width, 44) + 10)
    body.set("transform", f"translate(0 {y})")
    root.append(body)
    y += layout.height + 20
    for line in scene.explanation:
        y = draw_lines(root, line, "named", width, y)
    root.attrib |= {"width": f"{layout.width:.0f}", "height": str(y), "viewBox": f"0 0 {layout.width:.0f} {y}"}
    return root


def page_of(scene):
    """A page with the picture of a scene and the list of its steps."""
    page = ET.Element("html", {"lang": "en"})
    head, body = add(page, "head"), add(page, "body")
    add(head, "meta", charset="utf-8")
    add(head, "title", scene.title)
    add(head, "style", PAGE_STYLE)
    add(body, "div").append(picture_of(scene))
    table, (word, _, *names) = add(add(body, "div", class_="list"), "table"), scene.columns
    for number, row in enumerate([(word, "node", *names), *((at, it.node, it.words, it.result) for at, it in enumerate(scene.steps))], -1):
        line = add(table, "tr", class_="named" if number in scene.named else "step")
        for text in row:
            add(line, "th" if number < 0 else "td", str(text))
    return page


def text_of(root):
    """An element as a text of ASCII characters."""
    ET.indent(root, "")
    return f"{'<!DOCTYPE html>' if root.tag == 'html' else ''}{ET.tostring(root).decode('ascii')}\n"


# ---- the check


def ids_of(file, program):
    """The ids that the picture of a file has to have: of its events, its messages, and the arrows to the steps at which these came."""
    read = json.loads(file.read_text(encoding="utf-8"))
    if "events" not in read:
        return Counter(f"message-{number}" for number in range(len(read["sent"])))
    ids, count = Counter(), 0
    for number, (event, line) in enumerate(zip(read["events"], output_of(program, "replay", file))):
        sent = re.findall(r"\d+", line.partition(" sent ")[2])
        ids.update([f"event-{number}", *(f"message-{it}" for it in sent)])
        ids.update([f"arrow-{event[2]}-{number}"] if event[0].startswith("deliver") and event[2] < count else [])
        count += len(sent)
    return ids


def faults_in(file, program):
    """What is wrong with the picture of a file."""
    scene = scene_of(file, program)
    text, page = text_of(picture_of(scene)), ET.fromstring(text_of(page_of(scene)))
    root = ET.fromstring(text)
    needed, found = ids_of(file, program), Counter(it.get("id") for it in root.iter() if it.get("id"))
    yield from (f"{file.name}: {it} is missing" for it in needed - found)
    yield from (f"{file.name}: {it} is drawn too often" for it in found - needed)
    if len([*page.iter("tr")]) != len(scene.steps) + 1:
        yield f"{file.name}: the page does not list each step once"
    if file.stem == SHOWN.stem and (not SHOWN.exists() or SHOWN.read_text(encoding="utf-8") != text):
        yield f"{SHOWN.relative_to(TOP)} is not what is drawn: tools/picture.py {file.relative_to(TOP)} -o {SHOWN.relative_to(TOP)}"


def main():
    parser = argparse.ArgumentParser(description=__doc__, formatter_class=argparse.RawDescriptionHelpFormatter)
    parser.add_argument("file", nargs="?", metavar="FILE")
    parser.add_argument("-o", metavar="PICTURE", dest="picture")
    parser.add_argument("--html", action="store_true")
    parser.add_argument("--program", default=PROGRAM if PROGRAM.is_file() else TOP / "release" / "flightd")
    parser.add_argument("--check", action="store_true")
    words = parser.parse_args()
    if words.check == bool(words.file):
        parser.error("either FILE or --check is needed")
    try:
        if words.check:
            faults = [fault for file in sorted(EXAMPLES.glob("*.json")) for fault in faults_in(file, words.program)]
            print(*(f"picture: {fault}\n" for fault in faults), sep="", end="")
            return 1 if faults else 0
        text = text_of((page_of if words.html else picture_of)(scene_of(words.file, words.program)))
        if words.picture:
            Path(words.picture).write_text(text, encoding="ascii")
        else:
            print(text, end="")
    except (NoPicture, OSError) as error:
        sys.exit(f"tools/picture.py: {error}")
    return 0


if __name__ == "__main__":
    sys.exit(main())
