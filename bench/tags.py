#!/usr/bin/env python3
"""How fast cbrowse writes tags files of real sources, and in how much memory, beside ctags.

    make && bench/tags.py FOLDER
    bench/tags.py --cbrowse PATH FOLDER      or: CBROWSE=PATH bench/tags.py FOLDER

Files of the folder are copied to a temporary folder, by their names in it, drawn at random and the
same in each run. Of them 50, 100, 200 and 400 get a plain tags file, each number with the files of
the one before, and the greatest number an extended file and a listing too.

`ctags` does the same for the same files, with the same six kinds, whole lines as addresses and all
files taken for C. It finds functions and typedefs in another way, so "times" says an order of
magnitude and no more. Where it is missing its columns are left out.

Times are processor time (user and system) of a whole run, its start included, on one core where the
system lets a process choose one, the best of several runs. Other work on the machine still makes
them longer: run it twice, and on an idle machine. Memory is the most that a run had resident, as
`time -f %M` (GNU time) tells; without that its column is left out.

Columns: files, their bytes and definitions; seconds and MB/s of cbrowse; time per byte, and per n
log n of n definitions, as multiples of the first row's (near 1.0 where the time grows in
proportion); peak memory as a multiple of the bytes; MB/s of ctags, and the MB/s of cbrowse as a
multiple of it.
"""

from __future__ import annotations

import math
import pathlib
import random
import subprocess
import tempfile

from measure import PATIENCE, c_files, copy, installed, keep_to_one_core
from measure import options, processor_time, words_given

SERIES = [50, 100, 200, 400]
RUNS = 7
CTAGS = [
    "ctags",
    "--options=NONE",
    "--languages=C",
    "--langmap=C:.c.h",
    "--kinds-C=fdtsug",
    "--pattern-length-limit=0",
]

# What is written: the words of cbrowse and of ctags.
PLAIN = ["-f", "own.tags"], ["--format=1", "-f", "other.tags"]
EXTENDED = ["-f", "own.tags", "--format", "2"], ["--format=2", "--fields=+n", "-f", "other.tags"]
LISTING = ["-x"], ["-x"]


def drawn(folder, number):
    """The names of this many C files of the folder, at random."""
    names = [*c_files(folder)]
    if len(names) < number:
        told = f"{len(names)} files that cbrowse takes, and {number} are asked for (see --files)"
        raise SystemExit(f"{folder}: {told}")
    return random.Random(1).sample(names, number)


def best(words, folder):
    """The seconds of the best run."""
    return min(processor_time(words, folder) for _ in range(RUNS))


def peak(words, folder):
    """The most bytes that a run had resident."""
    subprocess.run(
        ["time", "-f", "%M", "-o", "peak"] + words,
        cwd=folder,
        stdin=subprocess.DEVNULL,
        stdout=subprocess.DEVNULL,
        timeout=PATIENCE,
        check=True,
    )
    return int((folder / "peak").read_text()) * 1024


def definitions(cbrowse, names, folder):
    listing = subprocess.run(
        [cbrowse, "tags", "-x", "--"] + names,
        cwd=folder,
        stdin=subprocess.DEVNULL,
        stdout=subprocess.PIPE,
        timeout=PATIENCE,
        check=True,
    ).stdout
    return listing.count(b"\n")


def main():
    parser = options(__doc__)
    parser.add_argument(
        "folder",
        help="a folder with C files",
    )
    parser.add_argument(
        "--files", type=int, nargs="+", default=SERIES, help="the numbers of files, ascending"
    )
    given = words_given(parser)
    source = pathlib.Path(given.folder).resolve()
    drawn_names = drawn(source, max(given.files))
    keep_to_one_core()
    beside = installed("ctags", "--version", "Universal Ctags", "universal-ctags")
    timed = installed("time", "--version", "GNU", "GNU time")
    row = "{:<10}{:>6}{:>8}{:>8}{:>10}{:>8}{:>10}{:>13}" + "{:>8}" * timed + "{:>10}{:>8}" * beside
    print(
        row.format(
            "written",
            "files",
            "MB",
            "defs",
            "seconds",
            "MB/s",
            "per byte",
            "per n log n",
            *["memory"] * timed,
            *["ctags", "times"] * beside,
        )
    )
    with tempfile.TemporaryDirectory() as place:
        folder = pathlib.Path(place)
        copy(source, drawn_names, folder)
        first = None
        jobs = [("plain", PLAIN, number) for number in given.files]
        jobs += [("extended", EXTENDED, given.files[-1]), ("listing", LISTING, given.files[-1])]
        for label, (own, other), number in jobs:
            names = sorted(drawn_names[:number])
            size = sum((folder / name).stat().st_size for name in names)
            count = definitions(given.cbrowse, names, folder)
            words = [given.cbrowse, "tags"] + own + ["--"] + names
            seconds = best(words, folder)
            rates = seconds / size, seconds / (max(count, 2) * math.log2(max(count, 2)))
            first = first or rates
            cells = [
                label,
                number,
                f"{size / 1e6:.2f}",
                count,
                f"{seconds:.3f}",
                f"{size / seconds / 1e6:.1f}",
                f"{rates[0] / first[0]:.2f}",
                f"{rates[1] / first[1]:.2f}",
            ]
            if timed:
                cells.append(f"{peak(words, folder) / size:.1f}")
            if beside:
                other_seconds = best(CTAGS + other + names, folder)
                cells += [f"{size / other_seconds / 1e6:.1f}", f"{other_seconds / seconds:.2f}"]
            print(row.format(*cells), flush=True)


if __name__ == "__main__":
    main()
