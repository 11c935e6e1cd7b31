#!/usr/bin/env python3
"""Runs scripts/prove.py over crates of a few lines, with an `rt` that proves what it is told to.

    verify/tools/proving.py

First    a program and all that it stands on are proved, the lowest first, and nothing else.
Again    the program alone is proved.
Changed  after a change of a file, or one more or less, or under another name, its crate and all
         that stand on it are proved, and no crate beside it; what a check leaves in `out` is none.
Kit      another version of the toolchain proves all.
Failed   a crate that is not proved ends the run with status 1 and what was said of it, before the
         crates above it; the next run takes it up again, unless its old text is back.
"""

from __future__ import annotations

import os
import pathlib
import shutil
import subprocess
import sys
import tempfile

sys.path.insert(0, str(pathlib.Path(__file__).resolve().parents[1]))
from shared import TOP, Report, options  # noqa: E402

# The crate `beside` stands on `low` alone, and no crate stands on `other`.
CRATES = """# one a line
low: kit
beside: low
middle: low kit
other: low
program: low beside middle
"""
RT = """#!/bin/sh
case $1 in
version) cat "$PLACE/version" ;;
check)
    crate=${PWD##*/}
    echo "$crate" >>"$PLACE/proved"
    mkdir -p out
    date +%s%N >out/made
    ! grep -q wrong src/* || { echo "$crate is wrong"; exit 1; }
    ;;
esac
"""
SOURCE = "src/lib.rt"
NAMES = "low", "beside", "middle", "other", "program"
report = Report()


class Place:
    """A copy of the script with its crates."""

    def __init__(self, folder: pathlib.Path):
        self.folder = folder
        for crate in NAMES:
            self.change(crate, f"// {crate}\n")
        self.put("crates.txt", CRATES)
        self.put("version", "kit 1\n")
        self.put("bin/rt", RT)
        (folder / "bin/rt").chmod(0o755)
        (folder / "scripts").mkdir()
        shutil.copy(TOP / "scripts/prove.py", folder / "scripts")

    def put(self, name: str, text: str) -> None:
        path = self.folder / name
        path.parent.mkdir(parents=True, exist_ok=True)
        path.write_text(text)

    def crate(self, crate: str) -> pathlib.Path:
        return self.folder / "crates" / crate

    def change(self, crate: str, text: str, name: str = SOURCE) -> None:
        self.put(f"crates/{crate}/{name}", text)

    def run(self) -> tuple[int, list[str], str]:
        """The exit status, the crates that were proved, and what was said."""
        self.put("proved", "")
        path = f"{self.folder / 'bin'}:{os.environ['PATH']}"
        done = subprocess.run(
            [sys.executable, self.folder / "scripts/prove.py", "program"],
            stdout=subprocess.PIPE,
            text=True,
            env={**os.environ, "PATH": path, "PLACE": str(self.folder)},
        )
        return done.returncode, (self.folder / "proved").read_text().split(), done.stdout


def check(place: Place, what: str, *proved: str, status: int = 0) -> str:
    found = place.run()
    report.check(what, found[:2] == (status, list(proved)), found)
    return found[2]


def changed(place: Place) -> None:
    middle = place.crate("middle")
    place.change("middle", "// more\n")
    check(place, "a changed file", "middle", "program")
    place.change("middle", "", "proofs/Lib.antt")
    check(place, "a new file without a byte", "middle", "program")
    (middle / SOURCE).rename(middle / "src/main.rt")
    check(place, "a file under another name", "middle", "program")
    (middle / "src/main.rt").rename(middle / SOURCE)
    check(place, "the old name", "middle", "program")
    (middle / "proofs/Lib.antt").unlink()
    check(place, "a file less", "middle", "program")
    place.change("low", "low\n", "README.md")
    check(place, "the lowest crate", "low", "beside", "middle", "program")
    place.change("other", "// more\n")
    check(place, "a crate on which the program does not stand", "program")
    shutil.rmtree(place.crate("beside") / "out")
    check(place, "what a check left is gone", "beside", "program")


def failed(place: Place) -> None:
    old = (place.crate("beside") / SOURCE).read_text()
    place.change("beside", "// wrong\n")
    said = check(place, "a crate that is not proved", "beside", status=1)
    lines = said.splitlines()
    is_said = "beside is wrong" in lines and lines[-1] == "NOT PROVED"
    report.check("what was said of it", is_said, said)
    check(place, "the same once more", "beside", status=1)
    place.change("beside", old)
    check(place, "the old text again", "program")
    place.change("program", "// wrong\n")
    check(place, "a program that is not proved", "program", status=1)
    place.change("program", "// program\n")
    check(place, "the program again", "program")


def main() -> int:
    options(__doc__).parse_args()
    with tempfile.TemporaryDirectory() as folder:
        place = Place(pathlib.Path(folder))
        said = check(place, "the first run", "low", "beside", "middle", "program")
        report.check("how long it took", said.splitlines()[-1].startswith("all proved in 0:"), said)
        check(place, "once more", "program")
        changed(place)
        place.put("version", "kit 2\n")
        check(place, "another toolchain", "low", "beside", "middle", "program")
        failed(place)
    print(f"{report.failures} failures")
    return report.failures > 0


if __name__ == "__main__":
    sys.exit(main())
