#!/usr/bin/env python3
"""Keeps `release/flightd`, the program as it was proved and built from these sources, and checks whether it still is.

    tools/release.py --agrees   status 0 if the release was built from the present sources, else 1
    tools/release.py --compare  compares it with the program that was proved and built here
    tools/release.py --make     makes the release anew from that program, and release/SOURCES with it

The program depends on the crates that `crates.txt` lists below it: on their `src/`, `specs/` and `proofs/`, on their lines of
`crates.txt`, on `HANDLES`, and on the toolchain. `release/SOURCES` has one SHA-256 over all of these, the SHA-256 of the program, and
the version line of the toolchain. Two builds from equal sources by the same toolchain, in two folders, were equal byte for byte. So
anyone who proves the program here can compare: --compare has status 1 if the sources agree and a byte differs.
"""
import hashlib
import shutil
import subprocess
import sys
from pathlib import Path

import build
from toolbox import show_help

TOP = build.TOP
RELEASE = TOP / "release" / build.PROGRAM
SUMS = TOP / "release" / "SOURCES"
BUILT = TOP / "crates" / build.PROGRAM / "out" / build.PROGRAM


def source_files(names):
    """The files that the program is made of, by their paths in the repository, in order."""
    found = [TOP / "HANDLES"]
    for name in names:
        for part in build.SOURCES:
            found += [file for file in (TOP / "crates" / name / part).rglob("*") if file.is_file()]
    return sorted(found)


def sources_sum():
    """The SHA-256 over the names and bytes of all files that the program is made of, and its lines of crates.txt."""
    used, total = build.uses(), hashlib.sha256()
    for name, libraries in sorted(used.items()):
        total.update(f"{name}: {' '.join(libraries)}\n".encode())
    for file in source_files(used):
        total.update(f"{hashlib.sha256(file.read_bytes()).hexdigest()}  {file.relative_to(TOP).as_posix()}\n".encode())
    return total.hexdigest()


def file_sum(file):
    """The SHA-256 of a file, or None if there is no such file."""
    return hashlib.sha256(file.read_bytes()).hexdigest() if file.is_file() else None


def recorded():
    """The values in release/SOURCES by their words; a line has one of each."""
    if not SUMS.is_file():
        return {}
    lines = SUMS.read_text(encoding="utf-8").splitlines()
    return dict(line.split(" ", 1) for line in lines if line and not line.startswith("#"))


def disagreement():
    """Why the release is not that of the present sources, or None if it is."""
    said = recorded()
    if not said:
        return "there is no release"
    if file_sum(RELEASE) != said.get("program"):
        return "release/flightd is not the program that release/SOURCES names"
    if sources_sum() != said.get("sources"):
        return "release/flightd was built from other sources"
    return None


def compare():
    """Compares the release with the program that was built here. Returns the exit status."""
    if not BUILT.is_file():
        print("release: the program is not built here", file=sys.stderr)
        return 1
    why = disagreement()
    if why:
        print(f"release: not compared, since {why}")
        return 0
    if file_sum(BUILT) != recorded()["program"]:
        print("release: the sources agree, and the program that was built here differs from release/flightd", file=sys.stderr)
        return 1
    print("release: the program that was built here is release/flightd, byte for byte")
    return 0


def toolchain():
    """The version line of the toolchain."""
    return subprocess.run(["rt", "version"], capture_output=True, text=True, check=True).stdout.strip()


def make():
    """Makes the release from the program that was built here. Returns the exit status."""
    if not BUILT.is_file():
        print("release: the program is not built here: ./flightd --prove builds it", file=sys.stderr)
        return 1
    RELEASE.parent.mkdir(exist_ok=True)
    shutil.copyfile(BUILT, RELEASE)
    RELEASE.chmod(0o755)
    lines = [
        "# What release/flightd was proved and built from, for x86-64 Linux. tools/release.py compares and makes it.",
        f"toolchain {toolchain()}",
        f"sources {sources_sum()}",
        f"program {file_sum(RELEASE)}",
    ]
    SUMS.write_text("\n".join(lines) + "\n", encoding="utf-8")
    return 0


def main(words):
    if words == ["--agrees"]:
        why = disagreement()
        if why:
            print(f"release: {why}", file=sys.stderr)
        return 1 if why else 0
    if words == ["--compare"]:
        return compare()
    if words == ["--make"]:
        return make()
    print(__doc__, end="", file=sys.stderr)
    return 2


if __name__ == "__main__":
    show_help(__doc__)
    sys.exit(main(sys.argv[1:]))
