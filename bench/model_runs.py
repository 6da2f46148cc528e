"""`model_runs.py PROGRAM FILE COUNT` plays schedules with `PROGRAM play FILE`, each written into the file, and ends with
status 1 if a line differs from that of tools/runs_model.py. The schedules are those of examples/, those of leaders that
lose no message, and COUNT random ones."""
import subprocess
import sys
from pathlib import Path

sys.dont_write_bytecode = True
sys.path.append(str(Path(__file__).resolve().parent.parent / "tools"))

import runs_model
from toolbox import show_help


def told(run, events):
    """A run's configuration, its uploads and these events in the form that the program reads."""
    lines = [f"{run.members} {run.slot_limit}", *(it.text.hex() for it in run.uploads)]
    return "\n".join([*lines, *(" ".join(map(str, it)) for it in events)]) + "\n"


def loss_free(members, uploads):
    """A run of a leader that has this many uploads decided, in which every message is delivered to all its receivers."""
    events, prepare = [], 0
    for upload in range(uploads):
        everyone = range(members)
        events += [["put", 0, upload], ["tick", 0, 0]]
        events += [["deliver", node, prepare] for node in everyone]
        events += [["deliver", 0, prepare + 1 + node] for node in everyone]
        events += [["deliver", node, prepare + 1 + members] for node in everyone]
        events += [["deliver", node, prepare + 2 + members + sender] for sender in everyone for node in everyone]
        prepare += 2 + 2 * members
    events += [["outcome", node, uploads - 1] for node in range(members)]
    puts = [{"table": "t", "id": f"{it:032x}", "values": [[it]]} for it in range(uploads)]
    run = runs_model.Run({"members": members, "slot_limit": uploads, "uploads": puts})
    for event in events:
        run.play(event)
    if [gave for _, gave in run.steps[-members:]] != [[f"applied {uploads}"]] * members:
        sys.exit("model_runs: not all of the leader's uploads were learned")
    return run


def runs(drawn):
    for _, schedule in runs_model.schedules():
        yield runs_model.lines_of(schedule)[0]
    for members in (1, 2, 3, 5, 7):
        yield loss_free(members, 4)
    for seed in range(drawn):
        yield runs_model.drawn(seed)


def main():
    program, file, drawn = sys.argv[1], Path(sys.argv[2]), int(sys.argv[3])
    count = 0
    for run in runs(drawn):
        file.write_text(told(run, [event for event, _ in run.steps]), encoding="utf-8")
        lines = [" ".join([str(place), *map(str, gave)]) for place, (_, gave) in enumerate(run.steps)]
        printed = subprocess.run([program, "play", str(file)], stdout=subprocess.PIPE, check=True).stdout.decode()
        if printed != "".join(f"{it}\n" for it in lines):
            sys.exit(f"model_runs: {program} differs from tools/runs_model.py for {file}")
        count += len(lines)
    print(f"{count:,} events have the model's results")


if __name__ == "__main__":
    show_help(__doc__)
    main()
