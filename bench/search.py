#!/usr/bin/env python3
"""How fast a session finds a text in real sources, beside ripgrep, and changes many lines.

    make && bench/search.py FOLDER
    bench/search.py --cbrowse PATH FOLDER      or: CBROWSE=PATH bench/search.py FOLDER

Found. Files of the folder are copied to a temporary folder, drawn at random and the same in each
run, until they have as many megabytes as asked for. A session loads them all and asks `4PATTERN`
several times; the time of the same session without questions is taken away, so what is left is the
search of the loaded bytes and the writing of the rows. The patterns: a rare word, and words that
about a hundredth and a tenth of all lines hold. `rg -j1 -F -n -a` finds the same lines in the same
files; it opens and reads them, and its start counts. The number of lines found must be the same,
else the run ends with a message. "times" is the time of rg as a multiple of cbrowse's.

Changed. A file of short lines, each holding the wanted text: 20,000 lines in 100 KB and 200,000 in
1 MB. Each of `5TEXT`, `:markall`, `:marks`, and `:to` (with an undo, which costs nothing) is done
several times in one session, and the time of the session without it is taken away. "per byte" is
the time of the larger file per byte as a multiple of the smaller's: near 1.0 where the time grows
in proportion.

Times are processor time (user and system) on one core where the system lets a process choose one,
the best of several runs. Other work on the machine still makes them longer: run it twice, and on an
idle machine.
"""

from __future__ import annotations

import collections
import pathlib
import random
import re
import subprocess
import tempfile

from measure import MOST_FILES, PATIENCE, c_files, copy, installed, keep_to_one_core
from measure import options, processor_time, words_given

RUNS = 5
QUESTIONS = 20  # in one session
CHANGES = 10  # in one session
RG = ["rg", "--no-config", "-j1", "-F", "-n", "-a", "--no-heading", "--no-ignore", "--hidden", "-e"]


def copied(source, folder, most):
    """Copies files until they have that many bytes: their names."""
    sizes = c_files(source)
    names, size = [], 0
    for name in random.Random(1).sample([*sizes], len(sizes)):
        if size >= most or len(names) == MOST_FILES:
            break
        size += sizes[name]
        names.append(name)
    copy(source, names, folder)
    return sorted(names), size


def patterns(names, folder):
    """How many lines there are, and words that a few, a hundredth and a tenth of them hold."""
    lines_with, lines = collections.Counter(), 0
    for name in names:
        for line in (folder / name).read_bytes().split(b"\n"):
            lines += 1
            lines_with.update(set(re.findall(rb"[A-Za-z_]{2,}", line)))

    def nearest(number):
        return min(
            sorted(lines_with),
            key=lambda word: (abs(lines_with[word] - number), abs(len(word) - 8)),
        ).decode()

    return lines, [
        ("rare", nearest(3)),
        ("1 in 100", nearest(lines / 100)),
        ("1 in 10", nearest(lines / 10)),
    ]


def best(words, folder, stdin=b""):
    """The seconds of the best run."""
    return min(processor_time(words, folder, stdin) for _ in range(RUNS))


def output(words, folder, stdin=b""):
    return subprocess.run(
        words, cwd=folder, input=stdin, stdout=subprocess.PIPE, timeout=PATIENCE
    ).stdout


def measure_search(given, beside, folder):
    names, size = copied(
        pathlib.Path(given.folder).resolve(), folder / "files", given.megabytes * 1_000_000
    )
    lines, asked = patterns(names, folder / "files")
    print(f"{len(names)} files, {size / 1e6:.1f} MB, {lines} lines")
    row = "{:<10}{:<20}{:>9}{:>9}{:>8}" + "{:>9}{:>8}" * beside
    print(row.format("lines", "pattern", "found", "seconds", "MB/s", *["rg", "times"] * beside))
    session = [given.cbrowse, "line", "--"] + names
    loaded = best(session, folder / "files")
    for label, pattern in asked:
        question = b"4%s\n" % pattern.encode()
        found = int(
            re.match(rb">> cscope: ([0-9]+) lines", output(session, folder / "files", question))[1]
        )
        seconds = (
            max(best(session, folder / "files", question * QUESTIONS) - loaded, 1e-6) / QUESTIONS
        )
        cells = [label, pattern[:19], found, f"{seconds:.4f}", f"{size / seconds / 1e6:.0f}"]
        if beside:
            words = RG + [pattern, "--"] + names
            other = output(words, folder / "files").count(b"\n")
            if other != found:
                raise SystemExit(f"{pattern}: {found} lines, and rg has {other}")
            other_seconds = best(words, folder / "files")
            cells += [f"{other_seconds:.4f}", f"{other_seconds / seconds:.1f}"]
        print(row.format(*cells), flush=True)


def seconds_of(cbrowse, folder, before, command):
    """The seconds of a command that is given several times after others."""
    words = [cbrowse, "line"]
    return (
        max(best(words, folder, before + command * CHANGES) - best(words, folder, before), 1e-6)
        / CHANGES
    )


def measure_changes(cbrowse, folder):
    row = "{:<12}{:>16}{:>18}{:>10}"
    print(row.format("command", "20,000 lines", "200,000 lines", "per byte"))
    commands = [
        ("5TEXT", b"", b"5b\n"),
        (":markall", b"5b\n", b":markall\n"),
        (":marks", b"5b\n:markall\n", b":marks\n"),
        (":to same", b"5b\n:markall\n", b":to c\n:undo\n"),
        (":to nothing", b"5b\n:markall\n", b":to\n:undo\n"),
        (":mark N", b"5b\n:markall\n", b":mark 10000\n"),
    ]
    for label, before, command in commands:
        times = []
        for lines in 20_000, 200_000:
            load = b":load a.c %d\n" % (5 * lines) + b"abcd\n" * lines
            times.append(seconds_of(cbrowse, folder, load + before, command))
        print(
            row.format(
                label,
                f"{times[0] * 1000:.2f} ms",
                f"{times[1] * 1000:.2f} ms",
                f"{times[1] / times[0] / 10:.2f}",
            ),
            flush=True,
        )


def main():
    parser = options(__doc__)
    parser.add_argument(
        "folder",
        help="a folder with C files",
    )
    parser.add_argument("--megabytes", type=int, default=60, help="how much of it, 60 by default")
    given = words_given(parser)
    keep_to_one_core()
    beside = installed("rg", "--version", "ripgrep", "ripgrep")
    with tempfile.TemporaryDirectory() as place:
        measure_search(given, beside, pathlib.Path(place))
        measure_changes(given.cbrowse, pathlib.Path(place))


if __name__ == "__main__":
    main()
