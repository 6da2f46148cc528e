#!/usr/bin/env python3
"""Tries edits that the proofs must refuse.

    tools/edits.py --since COMMIT
    tools/edits.py --all CRATE ..
    tools/edits.py --old
    tools/edits.py [--answer] [--together] CRATE [EDIT ..]

The edits of a crate are in its folders `must-fail/`, which the gate tries too, and `more-edits/`. --since tries the edits of
each crate whose sources, definitions or edits changed since that commit, in the way of the gate, and --all those of the named
crates; both leave out edits that were refused before in their present form. An edit of a definition that a crate above
refuses, and not its own, has a line `law: CRATE`, and is tried there. Each refused edit has a line in `edits-refused.txt`, with
a checksum of the sources and definitions that refused it, without comments, and of the edit itself. --old tries nothing: it
counts the edits without a line that fits the present sources, and the status is 1 if the old text of an edit does not occur
exactly once in its file, if an edit changes nothing, or if a page says another number of edits that the gate tries.

Without these options the edits of one crate are tried one after another over one copy of it. For each the processor seconds
and the goals that refused it are printed; an edit that the prover accepts is shown as TAKEN, and the status is then 1. A goal
that has no answer in `proofs/` is marked with a star: an answer with a bound there makes such an edit cheaper. --answer writes
such an answer for each goal with a star, if the crate is proved with it, and names the others.

--together tries only the edits that were not refused before in their present form, with edits of several bodies in one check.
A function is proved from its own body and the contracts of the others, so the goals of each function show whether its edit is
refused; a function that only calls an unproved one has no failed goal of its own. No two of these functions have the same name,
and none names another. An edit that is not refused this way is tried alone."""
import hashlib
import itertools
import re
import resource
import shutil
import subprocess
import sys
import tempfile
from pathlib import Path

from toolbox import show_help

TOP = Path(__file__).resolve().parent.parent
REFUSED = TOP / "edits-refused.txt"
HEAD = "# Of each edit the checksum of what it was refused for: its crate's sources and definitions, comments aside, and itself.\n"
HEAD_OF_FUNCTION = re.compile(r"( *)(?:pub(?:\([a-z ]+\))? )?(?:const )?(?:unsafe )?fn (\w+)")
OPEN = re.compile(r"^note: \S+: it is not proved .*\(`([^`]+)`\)")
FUNCTION = re.compile(r"^fn (\S+): (?:not proved|no proof: expected answers)")
UNPROVED = re.compile(r"^fn (?:\S+::)?(\S+): (?:not proved$|no proof: expected answers)", re.M)
ANSWER = re.compile(r"^note: `([^`]+)` of proofs/(\S+)/Answers\.antt must prove")
# The pages that say how many edits the gate tries, and how they say it.
COUNTING = ("README.md", "docs/PROOFS.md", "docs/TESTS.md")
COUNTED = re.compile(r"\b(\d+)\s+(?:wrong\s+function\s+bodies|edits\s+in)(?:,?\s+(?:in\s+)?(\d+)\s+crates)?")
FORMS = ("search rules steps 300000", "grind (arith, common_steps) steps 600000")


def libraries(crate):
    """The lines of crates.txt for the crate and for the crates of this repository that it uses, also indirectly, by name."""
    lines = (TOP / "crates.txt").read_text(encoding="utf-8").splitlines()
    uses = {line.split(":")[0].split()[0]: line for line in lines if ":" in line.partition("#")[0]}
    found, left = {}, [crate]
    while left:
        name = left.pop()
        if name in uses and name not in found:
            found[name] = uses[name]
            left += uses[name].partition(":")[2].split()
    return found


def copy_of(crate, folder):
    """Copies what a check of the crate reads, with the results of earlier checks."""
    lines = libraries(crate)
    (folder / "crates.txt").write_text("\n".join(lines.values()) + "\n", encoding="utf-8")
    shutil.copy(TOP / "HANDLES", folder)
    (folder / "crates").mkdir()
    for name in lines:
        subprocess.run(["cp", "-a", "--reflink=auto", TOP / "crates" / name, folder / "crates"], check=True)
    return folder / "crates" / crate


def changes(edit):
    """The files that an edit changes, each with its old and new text."""
    found, file, old = [], None, None
    for line in edit.read_text(encoding="utf-8").splitlines():
        word, _, text = line.partition(": ")
        if word == "file":
            file = text
        elif word == "old":
            old = text
        elif word == "new":
            found.append((file, old, text))
    return found


def edited(folder, *edits):
    """The files of a crate that edits change, with their new texts. Each old text must occur exactly once in its file."""
    texts = {}
    for edit, (file, old, new) in ((edit, change) for edit in edits for change in changes(edit)):
        path = folder / file
        text = texts.get(path) or path.read_text(encoding="utf-8")
        if text.count(old) != 1:
            raise ValueError(f"{edit.parent.parent.name}/{edit.name}: `{old}` occurs {text.count(old)} times in {file}")
        texts[path] = text.replace(old, new)
        if old == new:
            raise ValueError(f"{edit.parent.parent.name}/{edit.name}: it changes nothing in {file}")
    return texts


def bodies(text):
    """The functions of a source file: the name of each, and the line numbers of its body."""
    lines = text.splitlines()
    for number, line in enumerate(lines):
        if head := HEAD_OF_FUNCTION.match(line):
            opening = re.compile(rf"{head[1]}(\{{|\).* \{{)")
            whole = itertools.takewhile(lambda at: lines[at], range(number, len(lines)))
            begin = next((at for at in whole if opening.fullmatch(lines[at]) or at == number and line.endswith(" {")), None)
            if begin is not None:
                yield head[2], range(begin + 1, lines.index(f"{head[1]}}}", begin))


def body_of(folder, edit):
    """The name and the text of the one function whose body an edit changes, or None if it changes anything else."""
    found = set()
    for file, old, _ in changes(edit):
        text = (folder / file).read_text(encoding="utf-8")
        number = text.partition(old)[0].count("\n")
        holds = [(name, body) for name, body in (bodies(text) if file.startswith("src/") else ()) if number in body]
        found.add((holds[-1][0], "\n".join(text.splitlines()[at] for at in holds[-1][1])) if holds else None)
    return found.pop() if len(found) == 1 else None


def are_apart(one, other):
    """Whether two functions have different names, and neither names the other."""
    names = lambda body, name: re.search(rf"\b{name}\b", body) is not None
    return one[0] != other[0] and not names(one[1], other[0]) and not names(other[1], one[0])


def groups_of(folder, edits):
    """The edits in groups, one for each check: each edit with the name of its function, or alone with None."""
    groups = []
    for edit in edits:
        body = body_of(folder, edit)
        group = next((it for it in groups if body and all(of and are_apart(body, of) for _, of in it)), None)
        if group is None:
            groups.append(group := [])
        group.append((edit, body))
    return [[(edit, body and body[0]) for edit, body in group] for group in groups]


def check(folder):
    """Checks the crate: whether it is proved, the processor seconds, and the output."""
    before = resource.getrusage(resource.RUSAGE_CHILDREN)
    how = {"stdout": subprocess.PIPE, "stderr": subprocess.STDOUT, "check": False}
    ran = subprocess.run(["rt", "check", "--jobs", "1"], cwd=folder, **how)
    after = resource.getrusage(resource.RUSAGE_CHILDREN)
    taken = after.ru_utime + after.ru_stime - before.ru_utime - before.ru_stime
    return ran.returncode == 0, taken, ran.stdout.decode(errors="replace")


def refusals(printed):
    """The goals that are not proved, each after its function's name."""
    goals, open_goals = [], []
    for line in printed.splitlines():
        if found := OPEN.match(line):
            open_goals.append(found[1])
        elif found := FUNCTION.match(line):
            goals += [(found[1], goal) for goal in open_goals]
            open_goals = []
        elif found := ANSWER.match(line):
            goals.append(("::".join(["", *found[2].split("/")]), found[1]))
    return goals


def try_together(folder, edits):
    """Checks the crate with the edits, and reverts them."""
    whole = edited(folder, *edits)
    before = {path: path.read_text(encoding="utf-8") for path in whole}
    for path, text in whole.items():
        path.write_text(text, encoding="utf-8")
    result = check(folder)
    for path, text in before.items():
        path.write_text(text, encoding="utf-8")
    return result


def answers_file(folder, function):
    """The file of a function's answers."""
    return folder / "proofs" / Path(*function.split("::")[1:]) / "Answers.antt"


def has_answer(folder, function, goal):
    file = answers_file(folder, function)
    return file.exists() and re.search(rf"^pub {re.escape(goal)} :", file.read_text(encoding="utf-8"), re.M) is not None


def add_answer(crate, folder, function, goal, form, given):
    """Adds an answer of this form with these parameters, and returns what `take_back` needs to revert it."""
    file = answers_file(folder, function)
    old = file.read_text(encoding="utf-8") if file.exists() else None
    text = old or f"use {'.'.join(['Rattle', crate, 'proofs', *function.split('::')[1:], 'Goals'])} as goal\n"
    for name in re.findall(r"\b(rules|arith|common_steps)\b", form):
        text = with_use(text, name)
    file.parent.mkdir(parents=True, exist_ok=True)
    file.write_text(f"{text.rstrip()}\n\npub {goal} : goal.{goal}\n{goal} {given} = {form}\n", encoding="utf-8")
    return file, old


def with_use(text, name):
    """The text with an import of this name of the standard library's proofs."""
    common = re.search(r"^use Rattle\.std\.proofs\.Common\.\{([^}]*)\}", text, re.M)
    if common is None:
        return f"use Rattle.std.proofs.Common.{{{name}}}\n{text}"
    if name in re.split(r", *", common[1]):
        return text
    return text.replace(common[0], common[0][:-1] + f", {name}}}", 1)


def take_back(change):
    file, old = change
    if old is None:
        file.unlink()
    else:
        file.write_text(old, encoding="utf-8")


def write_answers(crate, folder, goals):
    """Writes answers with a bound, if the crate is proved with them."""
    for function, goal in sorted(goals):
        for form, given in itertools.product(FORMS, ("c", "g c")):
            change = add_answer(crate, folder, function, goal, form, given)
            proved, _, printed = check(folder)
            if proved:
                file = change[0].relative_to(folder)
                (TOP / "crates" / crate / file).parent.mkdir(parents=True, exist_ok=True)
                shutil.copy(folder / file, TOP / "crates" / crate / file)
                print(f"{function} {goal}: {form}", flush=True)
                break
            take_back(change)
        else:
            print(f"{function} {goal}: no answer of these forms", flush=True)


def edits_of(crate, names=()):
    """The edits of a crate, or those of these names."""
    found = [edit for part in ("must-fail", "more-edits") for edit in sorted((TOP / "crates" / crate / part).glob("*.edit"))]
    return [edit for edit in found if not names or edit.stem in names]


def crates_with_edits():
    return [folder.name for folder in sorted((TOP / "crates").iterdir()) if edits_of(folder.name)]


def name_of(edit):
    """The edit's crate and its own name."""
    return f"{edit.parent.parent.name}/{edit.stem}"


def without_comments(file, mark):
    """The lines of a file that are not empty or only a comment."""
    lines = file.read_text(encoding="utf-8").splitlines()
    return "\n".join(line for line in lines if line.strip() and not line.lstrip().startswith(mark))


def code_of(crate):
    """The crate's sources and definitions, without their comments."""
    folder = TOP / "crates" / crate
    files = [(file, "//") for file in sorted((folder / "src").rglob("*.rt"))]
    files += [(file, "--") for file in sorted((folder / "specs").rglob("*.antt"))]
    return "\0".join(f"{file.relative_to(folder)}\n{without_comments(file, mark)}" for file, mark in files)


def checksums(crates):
    """The checksum of each edit of these crates and of the sources it is tried on, by the edit's name."""
    found = {}
    for crate in crates:
        code = code_of(crate)
        for edit in edits_of(crate):
            text = f"{code}\0{edit.read_text(encoding='utf-8')}"
            found[name_of(edit)] = hashlib.sha256(text.encode()).hexdigest()[:16]
    return found


def refused_lines():
    """The checksum in each edit's line."""
    lines = REFUSED.read_text(encoding="utf-8").splitlines() if REFUSED.exists() else []
    return dict(line.split() for line in lines if line and not line.startswith("#"))


def keep_lines(sums):
    """Replaces the old lines of these edits. Edits that no longer exist lose theirs."""
    kept = {**refused_lines(), **sums}
    names = [name_of(edit) for crate in crates_with_edits() for edit in edits_of(crate)]
    REFUSED.write_text(HEAD + "".join(f"{name} {kept[name]}\n" for name in sorted(names) if name in kept), encoding="utf-8")


def old_edits(crates):
    """The edits of these crates without a line that says they were refused in their present form."""
    kept, sums = refused_lines(), checksums(crates)
    return [edit for crate in crates for edit in edits_of(crate) if kept.get(name_of(edit)) != sums[name_of(edit)]]


def lost_edits():
    """For each edit that can't be applied to its crate's files, a line that says why."""
    for crate in crates_with_edits():
        for edit in edits_of(crate):
            try:
                edited(TOP / "crates" / crate, edit)
            except (OSError, ValueError) as fault:
                yield str(fault)


def wrong_counts():
    """For each page that says with another number how many edits the gate tries, or of how many crates, a line that says so."""
    tried = [edit for crate in crates_with_edits() for edit in edits_of(crate) if edit.parent.name == "must-fail"]
    numbers = str(len(tried)), str(len({edit.parent.parent for edit in tried}))
    for page in COUNTING:
        found = COUNTED.findall((TOP / page).read_text(encoding="utf-8"))
        if not found:
            yield f"{page} does not say how many edits the gate tries"
        for edits, crates in found:
            if (edits, crates or numbers[1]) != numbers:
                yield f"{page} says {edits} edits{f' in {crates} crates' if crates else ''}, and the gate tries {numbers[0]} in {numbers[1]}"


def changed_since(commit):
    """The crates whose sources, definitions or edits differ from those of the commit."""
    words = ["git", "diff", "--name-only", "--no-renames", commit, "--", "crates"]
    paths = subprocess.run(words, cwd=TOP, capture_output=True, text=True, check=True).stdout.split()
    parts = ("src", "specs", "must-fail", "more-edits")
    names = {path.split("/")[1] for path in paths if path.split("/")[2] in parts}
    return [crate for crate in crates_with_edits() if crate in names]


def law_of(edit):
    """The crate above whose law refuses the edit, if it names one."""
    lines = edit.read_text(encoding="utf-8").splitlines()
    return next((line.removeprefix("law: ") for line in lines if line.startswith("law: ")), None)


def is_refused(proved, printed):
    """Whether the prover refused what it checked, and did not merely fail to read it."""
    return not proved and re.search(r"^logic=not-proved", printed, re.M) is not None


def show(edit, folder, taken, proved, printed):
    """Prints the result of an edit, and returns the goals without an answer that refused it."""
    goals = refusals(printed)
    loose = {goal for goal in goals if not has_answer(folder, *goal)}
    shown = [f"{goal[0].partition('::')[2]} {goal[1]}{'*' * (goal in loose)}" for goal in goals]
    shown = shown or re.findall(r"^fn [^:]+::(\S+): not proved", printed, re.M) or printed.strip().splitlines()[-1:]
    fault = "TAKEN" if proved else "" if is_refused(proved, printed) else "BAD EDIT: "
    print(f"{taken:6.1f} s  {edit.stem}: {fault if proved else fault + ', '.join(shown)}", flush=True)
    return loose


def refused_of(group, folder):
    """Tries the edits of a group, and returns those that were refused, the processor seconds, and the goals without an answer.
    Of several edits each is refused if a goal of its own function is not proved, and the others are tried alone."""
    proved, taken, printed = try_together(folder, [edit for edit, _ in group])
    if len(group) == 1:
        loose = show(group[0][0], folder, taken, proved, printed)
        return [group[0][0]] if is_refused(proved, printed) else [], taken, loose
    unproved = UNPROVED.findall(printed) if is_refused(proved, printed) else []
    refused = [edit for edit, function in group if function in unproved]
    print(f"{taken:6.1f} s  together: {', '.join(edit.stem for edit in refused) or 'none'}", flush=True)
    loose = set()
    for pair in (it for it in group if it[0] not in refused):
        more, seconds, goals = refused_of([pair], folder)
        refused, taken, loose = refused + more, taken + seconds, loose | goals
    return refused, taken, loose


def try_edits(crate, edits, is_together, answers):
    """Tries these edits of the crate, and keeps a line for each that was refused. Returns whether all were."""
    sums = checksums([crate])
    with tempfile.TemporaryDirectory() as scratch:
        folder = copy_of(crate, Path(scratch))
        proved, taken, printed = check(folder)
        if not proved:
            sys.exit(f"{printed}\n{crate} is not proved without an edit")
        print(f"{taken:6.1f} s  the crate without an edit", flush=True)
        refused, total, unbound = [], 0.0, set()
        for group in groups_of(folder, edits) if is_together else [[(edit, None)] for edit in edits]:
            more, taken, loose = refused_of(group, folder)
            refused, total, unbound = refused + more, total + taken, unbound | loose
            keep_lines({name_of(edit): sums[name_of(edit)] for edit in more})
        print(f"{total:6.1f} s  in all", flush=True)
        if answers:
            write_answers(crate, folder, unbound)
    return len(refused) == len(edits)


def put_together(folder, edits):
    """Copies all sources, with these edits as the only ones that the gate tries."""
    for file in ("crates.txt", "HANDLES"):
        shutil.copy(TOP / file, folder)
    shutil.copytree(TOP / "crates", folder / "crates", ignore=shutil.ignore_patterns("out", "must-fail", "more-edits"))
    for edit in edits:
        place = folder / "crates" / edit.parent.parent.name / "must-fail"
        place.mkdir(exist_ok=True)
        shutil.copy(edit, place)


def lines_of_gate(folder, crates):
    """What `rt ci` prints for these crates, line by line; prints each line about edits too."""
    words = ["rt", "ci", *crates]
    ran = subprocess.Popen(words, cwd=folder, stdout=subprocess.PIPE, stderr=subprocess.STDOUT, text=True, errors="replace")
    for line in ran.stdout:
        if re.match(r"rt: (must-fail|.*NOT PROVED)", line):
            print(line.removeprefix("rt: ").rstrip()[:200], flush=True)
        yield line
    ran.wait()


def is_refused_above(edit):
    """Whether the crate above that the edit names is no longer proved with it."""
    with tempfile.TemporaryDirectory() as scratch:
        folder, crate = Path(scratch), edit.parent.parent.name
        put_together(folder, [])
        for path, text in edited(folder / "crates" / crate, edit).items():
            path.write_text(text, encoding="utf-8")
        return any(re.match(r"logic=not-proved", line) for line in lines_of_gate(folder, [law_of(edit)]))


def try_all(crates):
    """Tries the edits of these crates that were not refused in their present form, and keeps lines. Returns whether all were refused."""
    edits, sums = old_edits(crates), checksums(crates)
    with tempfile.TemporaryDirectory() as scratch:
        put_together(Path(scratch), [edit for edit in edits if law_of(edit) is None])
        for line in lines_of_gate(Path(scratch), crates):
            if found := re.match(r"rt: must-fail (\S+)\.edit: refused", line):
                keep_lines({found[1]: sums[found[1]]})
    for edit in edits:
        if law_of(edit) is not None and is_refused_above(edit):
            keep_lines({name_of(edit): sums[name_of(edit)]})
    left = old_edits(crates)
    print(f"not refused: {' '.join(map(name_of, left)) or 'none'}")
    return not left


def main():
    words = sys.argv[1:]
    names = [word for word in words if not word.startswith("--")]
    if words == ["--old"]:
        old, total = old_edits(crates_with_edits()), len(checksums(crates_with_edits()))
        of = sorted({edit.parent.parent.name for edit in old})
        print(f"edits: {len(old)} of {total} have no line that fits the present sources, in {len(of)} crates: {' '.join(of) or 'none'}")
        faults = [*lost_edits(), *wrong_counts()]
        for fault in faults:
            print(f"edits: {fault}")
        return 1 if faults else 0
    if "--since" in words and len(names) == 1:
        return 0 if try_all(changed_since(names[0])) else 1
    if "--all" in words and names:
        return 0 if try_all(names) else 1
    if not names:
        sys.exit(__doc__)
    try:
        edits, is_together = edits_of(names[0], names[1:]), "--together" in words
        if is_together:
            edits = [edit for edit in old_edits(names[:1]) if edit in edits and law_of(edit) is None]
        return 0 if try_edits(names[0], edits, is_together, "--answer" in words) else 1
    except ValueError as fault:
        sys.exit(str(fault))


if __name__ == "__main__":
    show_help(__doc__)
    sys.exit(main())
