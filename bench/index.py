#!/usr/bin/env python3
"""How fast a shelf of real sources is filled, changed and asked, beside cscope.

    (cd crates/index_bench && rt run) && bench/index.py FOLDER
    bench/index.py --program PATH FOLDER

The program `crates/index_bench` scans the C sources of the folder, at most 4,096 of them or as many
as `--files` says, and keeps them on a shelf of `cb_index`. Then it measures, with the clock of its
processor time:

filled      all files shown together, which fills the two indexes; and hidden together
one by one  all files shown one after the other
one file    a file of median size, and the largest, hidden and shown again among all others
first row   the first row of a question, for the names of some definitions: definitions, uses, calls
            of, calls in

Memory, as bytes a byte of source: what is kept; what more is resident once all files are shown and
links are laid; and what more is resident once room is made, which nothing has touched.

`cscope -b -q` builds its own indexes of the same files; its time includes reading and scanning. A
question of cscope is the time of a session of `cscope -d -l` with many questions, without that of
one with none.

The times are the best of several. Other work on the machine still makes them longer: run it twice,
and on an idle machine.
"""

from __future__ import annotations

import argparse
import os
import pathlib
import re
import subprocess
import tempfile

from measure import PATIENCE, TOP, c_files, installed, keep_to_one_core, processor_time

QUESTIONS = 200  # in one session of cscope
RUNS = 3
WANTED = {  # the figures that were aimed at: milliseconds, or bytes
    "filled": 500,
    "hidden": 1000,
    "median hide": 8,
    "median show": 8,
    "largest hide": 20,
    "largest show": 20,
    "first row": 0.05,
}


def measured(program, folder, sizes):
    """What the program prints, in order: pairs of a word and the rest of the line."""
    by_size = sorted(sizes, key=lambda name: sizes[name])
    words = [program, by_size[len(by_size) // 2], by_size[-1]] + list(sizes)
    lines = (
        subprocess.run(words, cwd=folder, stdout=subprocess.PIPE, timeout=PATIENCE, check=True)
        .stdout.decode()
        .splitlines()
    )
    if any(line.startswith("failed") for line in lines) or not lines:
        raise SystemExit(f"{program}: no figures")
    return [tuple(line.split(" ", 1)) for line in lines]


def resident(pairs, label):
    """The resident bytes at a label."""
    pages = next(rest for word, rest in pairs if word == f"memory_{label}").split()[1]
    return int(pages) * os.sysconf("SC_PAGE_SIZE")


def put(label, value, unit, beside=""):
    print(f"{label:<34}{value:>12} {unit:<12}{beside}".rstrip(), flush=True)


def put_time(label, nanoseconds, key=None):
    aim = f"aimed at {WANTED[key]} ms" if key else ""
    put(label, f"{nanoseconds / 1e6:.3f}", "ms", aim)
    return nanoseconds / 1e9


def report(pairs):
    """The figures of the program; the seconds in which both indexes are filled."""
    counts = {
        word: int(rest)
        for word, rest in pairs
        if word in ("files", "bytes", "defs", "uses", "calls")
    }
    print(", ".join(f"{number:,} {word}" for word, number in counts.items()))
    filled = min(int(rest) for word, rest in pairs if word == "show_all")
    seconds = put_time("all shown together", filled, "filled")
    put_time(
        "all hidden together",
        min(int(rest) for word, rest in pairs if word == "hide_all"),
        "hidden",
    )
    put_time("all shown one by one", next(int(rest) for word, rest in pairs if word == "show_each"))
    place = None
    times = {}
    for word, rest in pairs:
        if word == "one":
            place = rest
        elif word in ("hide", "show"):
            times.setdefault(f"{place} {word}", []).append(int(rest))
    for label, all_times in times.items():
        put_time(label, min(all_times), label)
    for at, (word, rest) in enumerate(pairs):
        if word.startswith("first_"):
            most, count, rows = (int(pairs[at + i][1]) for i in (1, 2, 3))
            put_time(f"first row, {word[6:]}, mean of {count}", int(rest) / count, "first row")
            put_time(f"first row, {word[6:]}, worst", most)
            put(f"first row, {word[6:]}, names with one", rows, "")
    grown = resident(pairs, "shown") - resident(pairs, "reserved")
    put("indexes, resident", f"{grown / counts['bytes']:.2f}", "bytes/byte")
    put(
        "room, resident",
        f"{(resident(pairs, 'reserved') - resident(pairs, 'kept')) / 1024:.0f}",
        "KiB",
        "aimed at none",
    )
    put(
        "all that is kept, resident",
        f"{resident(pairs, 'kept') / counts['bytes']:.2f}",
        "bytes/byte",
    )
    return seconds


def report_cscope(folder, sizes, place, seconds):
    """The figures of cscope on the same files."""
    (place / "files").write_text("\n".join(sizes) + "\n")
    build = ["cscope", "-b", "-q", "-i", str(place / "files"), "-f", str(place / "out")]

    def built():
        for path in place.glob("out*"):
            path.unlink()
        with open(os.devnull, "rb") as nothing:
            before = os.times()
            subprocess.run(
                build,
                cwd=folder,
                stdin=nothing,
                stdout=subprocess.DEVNULL,
                timeout=PATIENCE,
                check=True,
            )
            after = os.times()
        return (
            after.children_user
            - before.children_user
            + after.children_system
            - before.children_system
        )

    best = min(built() for _ in range(RUNS))
    put(
        "cscope -b -q",
        f"{best * 1000:.0f}",
        "ms",
        f"{best / seconds:.1f} times all shown together; aimed at 4",
    )
    session = ["cscope", "-d", "-l", "-q", "-f", str(place / "out")]
    for field, kind in ("0", "uses"), ("1", "defs"), ("3", "calling"), ("2", "called_by"):
        asked = b"".join(b"%s%s\n" % (field.encode(), name) for name in names_of(place)) + b"q\n"
        least = min(processor_time(session, place, asked) for _ in range(RUNS)) - min(
            processor_time(session, place, b"q\n") for _ in range(RUNS)
        )
        put(
            f"cscope, one question, {kind}",
            f"{max(least, 0) * 1000 / QUESTIONS:.3f}",
            "ms",
            "all rows, also written",
        )


def names_of(place):
    """Names of functions that cscope has found."""
    found = re.findall(rb"\n\t\$(\w+)\n", (place / "out").read_bytes()) or [b"main"]
    step = max(len(found) // QUESTIONS, 1)
    return (found[::step] * QUESTIONS)[:QUESTIONS]


def main():
    parser = argparse.ArgumentParser(
        description=__doc__, formatter_class=argparse.RawDescriptionHelpFormatter
    )
    parser.add_argument(
        "folder", help="a folder with C files, at least 3,000 for figures that mean something"
    )
    parser.add_argument(
        "--files", type=int, default=4096, help="how many of them at most, 4,096 by default"
    )
    parser.add_argument(
        "--program",
        default=TOP / "crates" / "index_bench" / "out" / "index_bench",
        help="the program",
    )
    given = parser.parse_args()
    program = str(pathlib.Path(given.program).resolve())
    if not os.path.isfile(program):
        raise SystemExit(
            f"{program}: there is no such program; rt run in crates/index_bench builds it"
        )
    folder = pathlib.Path(given.folder).resolve()
    keep_to_one_core()
    sizes = c_files(folder, most=given.files)
    if not sizes:
        raise SystemExit(f"{folder}: no C files")
    seconds = report(measured(program, folder, sizes))
    if installed("cscope", "-V", "version"):
        with tempfile.TemporaryDirectory() as place:
            report_cscope(folder, sizes, pathlib.Path(place), seconds)


if __name__ == "__main__":
    main()
