#!/usr/bin/env python3
"""Runs scripts/quick.py, which builds the program without proofs.

    verify/tools/compiling.py

Others   toolchains that work in another way, or lack a part: the last line says in which, and no
         program is written.
Wrong    sources that do not compile: the place of the fault is in the sources that were given.
Program  the program of these sources passes the steps of the gate that run it, says that it is not
         proved, and is not packed.

It needs the toolchain, as `make quick` does.
"""

from __future__ import annotations

import os
import pathlib
import shutil
import subprocess
import sys
import tempfile

sys.path.insert(0, str(pathlib.Path(__file__).resolve().parents[1]))
from shared import TOP, Report, left_over, options  # noqa: E402

DIFFERS = "scripts/quick.py does not fit this toolchain: "
NO_CALL = "and called no clang with -fsanitize=address on module.bc"
# What a toolchain's `rt try` calls clang with, in a folder of its own.
CALL = 'mkdir "$TMPDIR/own" && cd "$TMPDIR/own" && : >module.bc && "$KIT/toolchain/bin/clang" '
WORDS = "-O0 -march=x86-64 -c -x ir module.bc -o module.o -fsanitize=address"
# What `rt try` of a toolchain does, and the last line.
OTHERS = [
    ("exit 0", f"rt try ended with status 0, {NO_CALL}"),
    ("exit 2", f"rt try ended with status 2, {NO_CALL}"),
    (CALL + WORDS.replace("-fsanitize=address", "-v"), f"rt try ended with status 0, {NO_CALL}"),
    (CALL + WORDS.replace("-O0", "-O1"), f"{DIFFERS}rt try calls clang without -O0"),
    (CALL + WORDS.replace("module.o", "own.o"), f"{DIFFERS}rt try calls clang without module.o"),
    (CALL + WORDS, f"{DIFFERS}the module has no rattle-llvm-checks"),
]
LINE = "pub const VERSION: &str"
NOT_PACKED = "bin/cbrowse is not proved, so it is not packed; make proves and builds it"
STEPS = [
    ["whole-program.py", "--not-proved"],
    ["editor-sessions.py"],
    ["each-growth-refused.py"],
    ["ample-memory.py"],
    ["completions.py", "--check"],
]
report = Report()


class Place:
    """A copy of the sources and the scripts, and where programs are written."""

    def __init__(self, room: pathlib.Path):
        self.room, self.top = room, room / "top"
        self.program = self.top / "bin" / "cbrowse"
        without = shutil.ignore_patterns("out", "__pycache__")
        for name in "crates", "scripts":
            shutil.copytree(TOP / name, self.top / name, ignore=without)
        for name in "crates.txt", "HANDLES":
            shutil.copy(TOP / name, self.top)

    def run(self, script: str, *words: str, **env: str) -> tuple[int, list[str]]:
        """The exit status, and the lines that are written."""
        done = subprocess.run(
            [self.top / "scripts" / script, *words],
            stdout=subprocess.PIPE,
            stderr=subprocess.STDOUT,
            text=True,
            env={**os.environ, "TMPDIR": str(self.room), **env},
        )
        return done.returncode, done.stdout.splitlines()

    def fails(self, what: str, line: str, **env: str) -> list[str]:
        """Whether nothing is built, and this is the last line."""
        status, lines = self.run("quick.py", **env)
        told = status == 1 and lines[-1] == f"make quick: {line}"
        is_clean = not left_over(self.room) and not self.program.exists()
        report.check(what, told and is_clean, (status, lines[-3:]))
        return lines


def put_kit(real: pathlib.Path, kit: pathlib.Path, does: str) -> str:
    """A toolchain of links whose `rt try` does this; a PATH in which `rt doc` leads to it."""
    (kit / "bin").mkdir(parents=True)
    (kit / "path").mkdir()
    for path in real.iterdir():
        if path.name != "bin":
            (kit / path.name).symlink_to(path)
    for path in (real / "bin").iterdir():
        if path.name != "rt":
            (kit / "bin" / path.name).symlink_to(path)
    texts = {"bin": f'KIT=$(dirname "$(dirname "$0")")\n{does}', "path": f"echo '{kit}/START'"}
    for name, text in texts.items():
        (kit / name / "rt").write_text(f"#!/bin/sh\n{text}\n")
        (kit / name / "rt").chmod(0o755)
    return f"{kit / 'path'}:{os.environ['PATH']}"


def others(place: Place, real: pathlib.Path) -> None:
    for number, (does, line) in enumerate(OTHERS):
        path = put_kit(real, place.room / f"kit-{number}", does)
        place.fails(f"rt try: {does.removeprefix(CALL)}", line, PATH=path)
    kit = place.room / "kit-0"
    (kit / "c").unlink()
    path = f"{kit / 'path'}:{os.environ['PATH']}"
    place.fails("no C library", f"{DIFFERS}there is no {kit}/c/libos_c.a", PATH=path)


def wrong(place: Place) -> None:
    file = place.top / "crates" / "cb_words" / "src" / "job.rt"
    text = file.read_text()
    file.write_text(text.replace(LINE, f"pub const WRONG: u8 = true;\n{LINE}"))
    lines = place.fails("sources that do not compile", "the program does not compile")
    number = text[: text.index(LINE)].count("\n") + 1
    report.check("where", any(it.startswith(f"{file}:{number}:") for it in lines), lines)
    file.write_text(text.replace(LINE, "pub const VERSION: &'static str"))
    names = "crates/cb_words/src/job.rt and crates/cb_words/src/job/command.rt"
    line = f"scripts/quick.py does not find the version in {names}"
    place.fails("a version in another form", line)
    file.write_text(text)


def program(place: Place) -> None:
    status, lines = place.run("quick.py")
    report.check("the program", status == 0 and place.program.is_file(), lines)
    for name, *words in STEPS:
        done = subprocess.run(
            [TOP / "scripts" / name, *words, place.program], stdout=subprocess.PIPE, text=True
        )
        report.check(name, done.returncode == 0, done.stdout[-300:])
    for kind in "deb", "tar":
        status, lines = place.run("package.sh", kind)
        report.check(f"no {kind}", (status, lines) == (1, [NOT_PACKED]), lines)
    report.check("nothing is left over", not left_over(place.room), os.listdir(place.room))


def main() -> int:
    options(__doc__).parse_args()
    if not shutil.which("rt"):
        raise SystemExit("there is no rt in PATH, which compiles; it comes with the Rattle kit")
    page = subprocess.run(["rt", "doc"], stdout=subprocess.PIPE, check=True, text=True).stdout
    with tempfile.TemporaryDirectory() as room:
        os.chmod(room, 0o755)  # so that a run without the rights of root finds the program
        place = Place(pathlib.Path(room))
        others(place, pathlib.Path(page.strip()).parent)
        wrong(place)
        program(place)
    return report.status()


if __name__ == "__main__":
    sys.exit(main())
