"""The help of the tools, and what tools/run and bench/run share: the description of a script, which calls fail, and similar names."""
import ast
import concurrent.futures
import difflib
import os
import re
import subprocess
import sys


def show_help(text):
    """Prints the description of a tool and ends the process with status 0, if its first argument is `--help` or `-h`."""
    if sys.argv[1:2] in (["--help"], ["-h"]):
        print(text)
        sys.exit(0)


def description_of(file):
    """The text at the head of a script: the docstring if it is in Python, else the comment after the first line."""
    text = file.read_text(encoding="utf-8")
    if file.suffix == ".sh":
        return re.match(r"#!.*\n((?:#.*\n)*)", text)[1].replace("\n# ", "\n").replace("\n#", "\n").removeprefix("# ")
    return ast.get_docstring(ast.parse(text)) or ""


def first_sentence(text):
    """The first sentence of a text, in one line."""
    return re.split(r"(?<=\.) ", " ".join(text.split("\n\n")[0].split()))[0]


def failed(calls, folder):
    """Runs calls at the same time in a folder, each a list of words under a name, and yields a line for each that ends with another status
    than 0, or that prints nothing although --help is among its words."""
    how = {"capture_output": True, "text": True, "check": False, "cwd": folder}
    with concurrent.futures.ThreadPoolExecutor(os.cpu_count()) as pool:
        running = {name: pool.submit(subprocess.run, words, **how) for name, words in calls.items()}
    for name, words in calls.items():
        ran = running[name].result()
        if ran.returncode or "--help" in words and not ran.stdout.strip():
            yield f"{name}: status {ran.returncode}: {ran.stderr.strip()[-400:]}"


def unknown(program, kind, word, names):
    """Prints a line on standard error for a word that is no name, with the names that are similar to it."""
    near = difflib.get_close_matches(word, names, n=4, cutoff=0.5) or [name for name in names if word and word in name]
    print(f"{program}: no {kind} is named {word}{': ' if near else ''}{', '.join(near)}", file=sys.stderr)
