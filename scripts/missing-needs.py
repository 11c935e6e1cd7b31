#!/usr/bin/env python3
"""Asks for what make needs in places where it is missing, and compares what is said.

    scripts/missing-needs.py

A place has a copy of scripts/needs.sh, and in PATH the programs of ALL, a line each, but for those
that a row changes or leaves out. The copy asks for one gigabyte of memory, or for more than there
is. The exit status is 1 where a check failed.
"""

from __future__ import annotations

import pathlib
import re
import shutil
import subprocess
import sys
import tempfile

TOP = pathlib.Path(__file__).resolve().parent.parent
TARGETS = {"make": [], "quick": ["quick"], "test": ["test"]}
SCRIPT = (TOP / "scripts" / "needs.sh").read_text()
LOGIC = re.findall(r"^logic=([0-9a-f]{16})$", SCRIPT, re.MULTILINE)[0]
ALL = {
    "python3": "echo 3 9",
    "rt": f"echo kit 1 logic {LOGIC}",
    "cc": "",
    "git": "",
    "df": "echo free; echo disk 9 9 99999999 9% /",
}
KIT = "there is no rt in PATH, which proves and compiles; it comes with the Rattle kit"
OLD = f"rt is kit 0 logic 0000, and cbrowse is proved with logic {LOGIC}"
PYTHON = "there is no python3 in PATH, which runs the scripts; Python 3.9 will do"
COMPILER = "there is no cc in PATH, the C compiler, which builds scripts/growths.c"
GIT = "git does not list the files here, and scripts/documents.py checks those"
# What is otherwise than in ALL, and the line on it of each target, or of `make test` alone.
EVERY = [
    ({"rt": None}, KIT),
    ({"rt": "echo kit 0 logic 0000"}, OLD),
    ({"rt": "exit 1"}, "rt, which proves and compiles, does not start"),
    ({"python3": None}, PYTHON),
    ({"python3": "echo 3 8"}, "python3 is Python 3.8, and the scripts need 3.9"),
    ({"python3": "echo 2 12"}, "python3 is Python 2.12, and the scripts need 3.9"),
    ({"python3": "exit 1"}, "python3, which runs the scripts, does not start"),
]
GATE = [({"cc": None}, COMPILER), ({"git": "exit 128"}, GIT)]
SMALL = {"df": "echo free; echo disk 9 9 740000 9% /"}
DISK = {
    "make": "0.7 GB of disk are free in ., and proving takes 3 GB",
    "quick": "0.7 GB of disk are free in /tmp, and compiling takes 1 GB",
    "test": "0.7 GB of disk are free in ., and proving takes 1 GB",
}


class Checks:
    """Places with programs of a line each, and what is said there."""

    def __init__(self, room: pathlib.Path):
        self.room = room
        self.runs = self.failed = 0
        self.script = room / "scripts" / "needs.sh"
        self.script.parent.mkdir()
        self.ask(1)

    def ask(self, gigabytes: int) -> None:
        """Asks for this much memory from here on."""
        text, changed = re.subn(r"\bmemory=\d+", f"memory={gigabytes}", SCRIPT)
        self.script.write_text(text)
        self.script.chmod(0o755)
        self.same("the memory that is asked for", changed, len(TARGETS))

    def same(self, what: object, found: object, wanted: object) -> None:
        self.runs += 1
        if found != wanted:
            self.failed += 1
            print(f"FAILED: {what}: {found!r} and not {wanted!r}")

    def run(self, words: list[object], programs: dict) -> tuple[int, str]:
        """The exit status and what is said, where PATH has these programs."""
        path = self.room / "bin"
        shutil.rmtree(path, ignore_errors=True)
        path.mkdir()
        for name, line in programs.items():
            if line is not None:
                (path / name).write_text(f"#!/bin/sh\n{line}\n")
                (path / name).chmod(0o755)
        how = {"stdout": subprocess.PIPE, "stderr": subprocess.STDOUT, "text": True}
        done = subprocess.run([*map(str, words)], cwd=self.room, env={"PATH": str(path)}, **how)
        return done.returncode, done.stdout

    def needs(self, target: str, other: dict, *lines: str) -> None:
        words = [self.script, target]
        found = self.run(words, {**ALL, **other})
        name = " ".join(["make", *TARGETS[target]])
        told = "".join(f"{name}: {line}\n" for line in lines)
        self.same((target, other), found, (1 if lines else 0, told))

    def begins(self, make: str, target: str) -> None:
        """A target of the Makefile asks first, and nothing else is said."""
        words = [make, "-s", "-f", TOP / "Makefile", *TARGETS[target]]
        status, said = self.run(words, {**ALL, "rt": None})
        name = " ".join(["make", *TARGETS[target]])
        lines = [it for it in said.splitlines() if not it.startswith("make: ***")]
        self.same(name, (status, lines), (2, [f"{name}: {KIT}"]))


def main() -> int:
    with tempfile.TemporaryDirectory() as room:
        checks = Checks(pathlib.Path(room))
        for target in TARGETS:
            checks.needs(target, {})
            for other, line in EVERY:
                checks.needs(target, other, line)
            for other, line in GATE:
                checks.needs(target, other, *([line] if target == "test" else []))
            checks.needs(target, SMALL, DISK[target])
        checks.needs("test", {"rt": None, "python3": None, "cc": None}, PYTHON, KIT, COMPILER)
        make = shutil.which("make")
        for target in TARGETS if make else ():
            checks.begins(make, target)
        readme = (TOP / "README.md").read_text()
        checks.same("the toolchain of README.md", readme.count(f"logic `{LOGIC}`"), 1)
        checks.ask(1_000_000)
        for target in TARGETS:
            status, said = checks.run([checks.script, target], ALL)
            form = r"make[a-z ]*: \d+\.\d GB of memory are free, and [a-z]+ takes 1000000 GB\n"
            checks.same((target, "memory"), (status, bool(re.fullmatch(form, said))), (1, True))
    print(f"needs: {checks.runs - checks.failed} passed, {checks.failed} failed")
    return 1 if checks.failed else 0


if __name__ == "__main__":
    sys.exit(main())
