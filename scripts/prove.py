#!/usr/bin/env python3
"""Proves the crates on which a program stands, and the program itself.

    scripts/prove.py [PROGRAM]      cbrowse, if none is named

They are proved one after another, each with as many jobs as there are cores, or fewer where memory
is short: a job takes up to 2.5 GB. Two crates are not proved side by side, since `rt check` keeps
every other check away from the crates that it stands on. A crate that an earlier run proved here is
passed over where its files, the crates below it and the toolchain are as they were then. The
program is checked in every run, and a check builds anew what changed below it. A crate is told when
it begins and when it ends, with its time, and the whole at the end. The exit status is 1 where a
crate is not proved; what the check said then comes first.
"""

from __future__ import annotations

import hashlib
import os
import pathlib
import signal
import subprocess
import sys
import time

TOP = pathlib.Path(__file__).resolve().parent.parent
BYTES_OF_A_JOB = 2_500_000_000


def stands_on() -> dict[str, list[str]]:
    """The crates that each crate names, in the order of crates.txt: the lowest come first."""
    found = {}
    for line in (TOP / "crates.txt").read_text().splitlines():
        crate, _, below = line.partition("#")[0].partition(":")
        if crate.strip():
            found[crate.strip()] = below.split()
    return {crate: [it for it in below if it in found] for crate, below in found.items()}


def needed(crate: str, below: dict[str, list[str]]) -> set[str]:
    return {crate}.union(*(needed(it, below) for it in below[crate]))


def digest(crate: str, below: list[str], digests: dict[str, str]) -> str:
    """Of all that a check of the crate reads: its files, the crates below it, the toolchain."""
    folder = TOP / "crates" / crate
    said = subprocess.run(["rt", "version"], stdout=subprocess.PIPE, check=True).stdout
    found = hashlib.sha256(said)
    for it in below:
        found.update(digests[it].encode())
    for path in sorted(folder.rglob("*")):
        if path.is_file() and path.relative_to(folder).parts[0] != "out":
            text = path.read_bytes()
            found.update(f"{path.relative_to(folder)} {len(text)}\n".encode() + text)
    return found.hexdigest()


def jobs() -> int:
    cores = len(os.sched_getaffinity(0))
    lines = pathlib.Path("/proc/meminfo").read_text().splitlines()
    free = next((1024 * int(it.split()[1]) for it in lines if it.startswith("MemAvailable")), 0)
    return max(1, min(cores, free // BYTES_OF_A_JOB))


def minutes(seconds: float) -> str:
    return f"{int(seconds) // 60}:{int(seconds) % 60:02} min"


def prove(crate: str) -> bool:
    began = time.monotonic()
    ran = subprocess.run(
        ["rt", "check", "--jobs", str(jobs())],
        cwd=TOP / "crates" / crate,
        stdout=subprocess.PIPE,
        stderr=subprocess.STDOUT,
    )
    if ran.returncode:
        print(ran.stdout.decode(errors="replace"), end="")
    word = "NOT PROVED" if ran.returncode else "proved"
    print(f"{crate}: {word} ({minutes(time.monotonic() - began)})", flush=True)
    return not ran.returncode


def main() -> int:
    # an interrupt ends it without a word
    signal.signal(signal.SIGINT, signal.SIG_DFL)
    program = sys.argv[1] if len(sys.argv) > 1 else "cbrowse"
    below = stands_on()
    crates = [it for it in below if it in needed(program, below)]
    began = time.monotonic()
    digests: dict[str, str] = {}
    for number, crate in enumerate(crates, 1):
        digests[crate] = digest(crate, below[crate], digests)
        proved = TOP / "crates" / crate / "out" / "proved"
        if crate != program and proved.is_file() and proved.read_text() == digests[crate]:
            print(f"{crate}: proved before", flush=True)
            continue
        print(f"{crate}: proving, {number} of {len(crates)} crates, {jobs()} jobs", flush=True)
        if not prove(crate):
            print("NOT PROVED", flush=True)
            return 1
        proved.write_text(digests[crate])
    print(f"all proved in {minutes(time.monotonic() - began)}", flush=True)
    return 0


if __name__ == "__main__":
    sys.exit(main())
