"""The command `each` of stories, which repeats commands for many numbers and shows one result if it is the same for all.

`each FIRST LAST: COMMAND; ..`, where LAST may be followed by `by STEP`. In a command `#` stands for the number, `#+1` and `#+2`
for the next two, and `%` for a byte in hexadecimal, the number modulo 251. The result is written with the same signs."""
import itertools
import re


def filled(template, number):
    """The template with this number."""
    template = template.replace("%", f"{number % 251:02x}")
    return re.sub(r"#(?:\+(\d))?", lambda it: str(number + int(it[1] or 0)), template)


def template_of(line, number):
    """The template from which this number makes this line."""
    signs = {f"{number % 251:02x}": "%", str(number + 1): "#+1", str(number + 2): "#+2", str(number): "#"}
    return re.sub(r"\w+", lambda it: signs.get(it[0], it[0]), line)


def numbers_in(words):
    first, last, *step = words.split(" ")
    step = int(step[1]) if step else 1
    return range(int(first), int(last) + (1 if step > 0 else -1), step)


def ended(telling, answers):
    """The lines that a teller's generator returns for these answers."""
    try:
        telling.send(answers)
    except StopIteration as end:
        return end.value
    raise AssertionError("a telling asks once")


def tell_each(teller, words):
    """The teller's generator for `each` and the words after it, made of the generators for its commands."""
    numbers, _, commands = words.partition(": ")
    numbers, commands = numbers_in(numbers), commands.split("; ")
    tellings = [teller.tell(filled(command, number)) for number in numbers for command in commands]
    asked = [next(it) for it in tellings]
    answers = iter((yield list(itertools.chain(*asked))))
    told = [ended(it, list(itertools.islice(answers, len(requests)))) for it, requests in zip(tellings, asked)]
    lines = [list(itertools.chain(*told[place : place + len(commands)])) for place in range(0, len(told), len(commands))]
    templates = [template_of(line, numbers[-1]) for line in lines[-1]]
    for number, given in zip(numbers, lines):
        if given != [filled(template, number) for template in templates]:
            return [*templates, f"but of {number}: {'; '.join(given)}"]
    return templates
