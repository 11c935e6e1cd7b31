#!/usr/bin/env python3
"""The gate: what every change has to pass. `make test` runs it.

1. What documents, scripts and wrong bodies say about the repository is so (documents.py).
2. `make` says what it needs where that is missing (missing-needs.py).
3. `rt ci` proves each crate from nothing, tries the wrong bodies, and runs the tests and programs.
   It has as many tasks as cores, or as RT_JOBS says: left to itself it believes that a proof of a
   large crate takes 10 GB, where it takes 3, and lets the wrong bodies wait for it.
4. The program that it built is run on words, files and failing devices (whole-program.py).
5. Editors have sessions with its language server (editor-sessions.py).
6. Each growth of memory is refused to it in turn (each-growth-refused.py).
7. It runs past round numbers with ample memory, and says nowhere that there is none
   (ample-memory.py).
8. The completions for shells are those of its words (completions.py).

It begins with how long that takes. At the end it says how long each step took, and how many checks
passed and failed; the exit status is 1 where one failed.
"""

from __future__ import annotations

import os
import pathlib
import re
import signal
import subprocess
import sys
import time

TOP = pathlib.Path(__file__).resolve().parent.parent
PROGRAM = TOP / "crates" / "cbrowse" / "out" / "cbrowse"
BUILD = ["rt", "ci"]
STEPS = (
    ("the documents", ["scripts/documents.py"]),
    ("what make needs", ["scripts/missing-needs.py"]),
    ("rt ci", BUILD),
    ("the whole program", ["scripts/whole-program.py", str(PROGRAM)]),
    ("sessions of editors", ["scripts/editor-sessions.py", str(PROGRAM)]),
    ("each growth refused", ["scripts/each-growth-refused.py", str(PROGRAM)]),
    ("ample memory", ["scripts/ample-memory.py", str(PROGRAM)]),
    ("the completions", ["scripts/completions.py", "--check", str(PROGRAM)]),
)
# Of all steps together, where rt has kept nothing from earlier runs: as they were counted last.
PROCESSOR_MINUTES = 172
BYTES_OF_A_TASK = 4_500_000_000
COUNTS = re.compile(r"(\d+) passed, (\d+) failed")


def tasks() -> int:
    """As RT_JOBS says, else as many as there are cores, or fewer where memory is short."""
    said = os.environ.get("RT_JOBS", "")
    if said.isdigit() and int(said):
        return int(said)
    lines = pathlib.Path("/proc/meminfo").read_text().splitlines()
    free = next((1024 * int(it.split()[1]) for it in lines if it.startswith("MemAvailable")), 0)
    return max(1, min(len(os.sched_getaffinity(0)), free // BYTES_OF_A_TASK))


def step(words: list[str]) -> tuple[int, int, float]:
    """Runs a step and shows what it writes: how many passed and failed, and its seconds."""
    began, counts = time.monotonic(), None
    how = {"cwd": TOP, "env": {**os.environ, "RT_JOBS": str(tasks())}}
    run = subprocess.Popen(
        words, stdout=subprocess.PIPE, stderr=subprocess.STDOUT, text=True, errors="replace", **how
    )
    for line in run.stdout:
        print(line, end="", flush=True)
        counts = COUNTS.search(line) or counts
    status = run.wait()
    passed, failed = (int(counts[1]), int(counts[2])) if counts else (0, 0)
    if status and not failed:
        failed = 1
    return passed, failed, time.monotonic() - began


def main() -> int:
    # an interrupt ends it without a word
    signal.signal(signal.SIGINT, signal.SIG_DFL)
    cores = min(tasks(), len(os.sched_getaffinity(0)))
    print(
        f"The gate takes about {PROCESSOR_MINUTES} processor minutes from nothing:"
        f" {PROCESSOR_MINUTES // cores} minutes or more on {cores} cores.",
        flush=True,
    )
    passed, failed, told = 0, 0, []
    for name, words in STEPS:
        good, bad, seconds = step(words)
        passed, failed = passed + good, failed + bad
        told.append(
            f"{name}: {int(seconds) // 60}:{int(seconds) % 60:02} min, {good} passed, {bad} failed"
        )
        if bad and words == BUILD:
            # without a proved program there is nothing to run
            break
    print("\n".join(told))
    print(f"{passed} passed, {failed} failed")
    return 1 if failed else 0


if __name__ == "__main__":
    sys.exit(main())
