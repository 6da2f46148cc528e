#!/usr/bin/env python3
"""Runs each story through the program of its crate, and reports where the results differ from the file.

    tools/stories.py [CRATE ..]

A crate named .._stories is a thin program: it reads requests on standard input, one per line, and answers each with a line of
numbers, bytes and names. Its stories are the files of its `data/`. A story has lines of four kinds: empty ones;
comments, which begin with `#`; commands; and results, which begin with two spaces. The module of tools/tellers/ that has the
crate's name without `_stories` turns each command into requests, and their answers into the lines of its result.

The program must be built: by `rt ci`, with two compilers, or by `rt run`. The status is 1 if a story differs, or if its
program is not built."""
import importlib
import subprocess
import sys
from pathlib import Path

from repeated import ended
from toolbox import show_help

TOP = Path(__file__).resolve().parent.parent


def crates(words):
    """The crates that are named, or all that have a teller."""
    tellers = sorted(file.stem for file in (TOP / "tools" / "tellers").glob("*.py"))
    named = {word.removesuffix("_stories") for word in words}
    return [name for name in tellers if not named or name in named]


def programs(crate):
    """The built programs of a crate: one by each of the two compilers, if `rt ci` built them."""
    return [file for end in ("", ".by-rattle") if (file := TOP / "crates" / crate / "out" / f"{crate}{end}").is_file()]


def commands(text):
    """The commands of a story."""
    return [line for line in text.splitlines() if line and not line.startswith(("#", "  "))]


def answers_of(program, requests):
    """What the program answers to each request."""
    given = "".join(f"{request}\n" for request in requests)
    ran = subprocess.run([program], input=given, capture_output=True, encoding="utf-8", timeout=600, check=False)
    answers = ran.stdout.splitlines()
    if ran.returncode != 0 or len(answers) != len(requests):
        at = requests[len(answers)][:200] if len(answers) < len(requests) else ""
        sys.exit(f"stories: {program.name} ended with {ran.returncode} {ran.stderr.strip()} at: {at}")
    return answers


def told(program, teller, text):
    """The story with the program's present results: comments, empty lines and commands unchanged, and each result under its
    command."""
    tellings, requests = [], []
    for command in commands(text):
        telling = teller.tell(command)
        asked = next(telling)
        tellings.append((telling, len(requests), len(requests) + len(asked)))
        requests += asked
    answers, lines, coming = answers_of(program, requests), [], iter(tellings)
    for line in text.splitlines():
        if line.startswith("  "):
            continue
        lines.append(line)
        if line and not line.startswith("#"):
            telling, start, end = next(coming)
            lines += [f"  {line}" for line in ended(telling, answers[start:end])]
    return lines


def differs(name, lines, text):
    """Prints the first line at which the results differ from the file, and returns whether there is one."""
    kept = text.splitlines()
    for number, (new, old) in enumerate(zip(lines + [None], kept + [None]), 1):
        if new != old:
            print(f"stories: {name}, line {number}: got `{str(new)[:160]}`, expected `{str(old)[:160]}`")
            return True
    return False


def main():
    status = 0
    for name in crates(sys.argv[1:]):
        crate = f"{name}_stories"
        teller = importlib.import_module(f"tellers.{name}")
        built = programs(crate)
        if not built:
            print(f"stories: {crate} is not built")
            status = 1
        for program in built:
            rows = 0
            for file in sorted((TOP / "crates" / crate / "data").glob("*.txt")):
                text = file.read_text(encoding="utf-8")
                status |= differs(f"{crate}/{file.name}", told(program, teller.Teller(), text), text)
                rows += len(commands(text))
            print(f"stories: {program.name}, {rows} rows")
    return status


if __name__ == "__main__":
    show_help(__doc__)
    sys.exit(main())
