#!/usr/bin/env python3
"""How fast cbrowse scans: megabytes a second, beside ctags and cscope.

    make && bench/scan.py
    bench/scan.py --cbrowse PATH      or: CBROWSE=PATH bench/scan.py
    bench/scan.py --folder FOLDER --before PATH

What is measured. `:load` takes a file in; then `r`, which scans every loaded file again, is given N
times. The time of a session that loads the same bytes, undoes the load and gives `r` as often over
no file is taken away: start, reading, loading, prompts and replies. What is left are N scans: all
lists of facts, and the freeing of them. N is 10 MB / size.

`ctags -x` and `cscope -b -k` do their whole work once on the file of 1 MB, and print or write what
they found; their time on an empty file is taken away. They look for other things than cbrowse does,
so "times" says an order of magnitude and no more. Where one is missing its columns are left out;
where one fails on an input the table says so.

All times are processor time (user and system) of the program, on one core where the system lets a
process choose one, the best of several runs. Other work on the machine still makes them longer: run
it twice, and on an idle machine.

Inputs, the same in each run, of at most 10,000, 100,000 and 1,000,000 bytes (the most that a file
may have), cut at the end of a line: ordinary code with includes, macros, typedefs, comments,
strings and functions; one `{` after another; names; `#define` lines; CR LF alone; a comment that is
never closed.

With --folder there is one more row, of the C files in a folder, at most 4,096 of them: one session
loads them all and scans them N times, and the time of a session that loads them and scans them once
is taken away. The row also has the MB/s by the wide profile, and those of the standard one as a
multiple of them. `ctags` takes the same files in one run. With --before it has those of another
cbrowse, too. The programs take turns, so that other work on the machine slows each of them alike.

Columns: MB/s of cbrowse; time per byte as a multiple of that at 10 KB (1.0 is linear); at 1 MB the
MB/s of ctags and of cscope, each with the MB/s of cbrowse as a multiple of it.
"""

from __future__ import annotations

import pathlib
import random
import subprocess
import tempfile

from measure import MOST_FILES, PATIENCE, c_files, installed, keep_to_one_core
from measure import options, processor_time, words_given

SIZES = [("10 KB", 10_000), ("100 KB", 100_000), ("1 MB", 1_000_000)]
SCANNED = 10_000_000  # bytes scanned by one session
RUNS = 15
REAL_TIMES, REAL_RUNS = 3, 5

AGAIN = b"r\n"  # scans all files of a session
PROMPT, DONE = b">> ", b"cscope: done\n"


def code():
    """Lines of a plausible C program, without end."""
    rng = random.Random(1)
    words = """
        node list size next head table entry buffer count flags state index value key name data
        offset limit
        """.split()
    types = [
        "int",
        "char *",
        "unsigned long ",
        "size_t ",
        "const char *",
        "struct node *",
        "void *",
    ]

    def name():
        return rng.choice(words) + "_" + rng.choice(words)

    def expression():
        return rng.choice(
            [
                f"{name()} + {rng.randrange(4096)}",
                f"{name()}->{rng.choice(words)}",
                f"{name()}({name()}, {rng.choice(words)}[i])",
                f"0x{rng.randrange(65536):04x}u & ~{name()}",
                f"{name()} == '\\n' ? {name()} : {rng.randrange(99)}",
                f"({rng.choice(types).strip()}) {name()}(&{name()})",
            ]
        )

    def statement():
        return rng.choice(
            [
                lambda: [f"\t{name()} = {expression()};"],
                lambda: [f"\tif ({expression()} < {name()})", f"\t\treturn {expression()};"],
                lambda: [
                    f"\tfor (i = 0; i < {name()}; i++) {{",
                    f"\t\t{name()}[i] += {expression()};",
                    "\t}",
                ],
                lambda: [
                    f"\twhile ({name()} != NULL)",
                    f"\t\t{name()} = {name()}->next; // {name()}",
                ],
                lambda: [
                    f'\tfprintf(stderr, "%s: no {name()} in \\"%d\\"\\n", {name()}, {name()});'
                ],
                lambda: [f"\t/* The {name()} is {name()} here. */"],
                lambda: [""],
            ]
        )()

    number = 0
    while True:
        yield f'#include "{name()}.h"'
        yield f"#define {name().upper()}_{number} {rng.randrange(1024)}"
        yield f"#define {name().upper()}(a, b) \\"
        yield f"\t{name()}((a), (b) + {name().upper()}_{number})"
        yield f"typedef struct {name()}_{number} {{"
        for _ in range(rng.randrange(2, 7)):
            yield f"\t{rng.choice(types)}{name()};"
        yield f"}} {name()}_{number}_t;"
        yield ""
        for _ in range(5):
            number += 1
            yield "/*"
            yield f" * Gives the {name()} of a {rng.choice(words)}, or {name()} if there is none;"
            yield f" * the caller's {name()} is left as it was."
            yield " */"
            yield rng.choice(["static ", ""]) + rng.choice(types).strip()
            first, second = rng.choice(types) + rng.choice(words), rng.choice(types) + name()
            yield f"{name()}_{number}({first}, {second})"
            yield "{"
            yield f"\tint i, {name()} = {rng.randrange(100)};"
            for _ in range(rng.randrange(3, 15)):
                yield from statement()
            yield f"\treturn {expression()};"
            yield "}"
            yield ""


def names():
    while True:
        yield "alpha b c_1 delta_of_the_fourth e list_entry x table size_of_it node"


def defines():
    number = 0
    while True:
        yield f"#define NAME_{number} {number}"
        number += 1


def comment():
    yield "/*"
    while True:
        yield " * A line of a comment * that nobody / has closed, with a name_of_something in it."


def lines(source, size):
    """As many whole lines as the size allows."""
    text = bytearray()
    for line in source:
        end = len(text) + len(line) + 1
        if end > size:
            return bytes(text)
        text += line.encode() + b"\n"


INPUTS = [
    ("ordinary code", lambda size: lines(code(), size)),
    ("{ only", lambda size: b"{" * size),
    ("names only", lambda size: lines(names(), size)),
    ("#define only", lambda size: lines(defines(), size)),
    ("CR LF only", lambda size: b"\r\n" * (size // 2)),
    ("unclosed comment", lambda size: lines(comment(), size)),
]


def speed(size, with_work, without):
    """MB/s from the best runs with and without the work; each function runs once."""
    runs = [(with_work(), without()) for _ in range(RUNS)]
    seconds = min(run[0] for run in runs) - min(run[1] for run in runs)
    return size / max(seconds, 1e-6) / 1e6


def replies_of(words, commands):
    """What a session writes."""
    return subprocess.run(
        words, input=commands, stdout=subprocess.PIPE, timeout=PATIENCE, check=True
    ).stdout


def cbrowse_speed(cbrowse, folder, text):
    times = SCANNED // len(text)
    load = b":load f.c %d\n%s" % (len(text), text)
    words = [cbrowse, "line"]
    scanning, idle = load + AGAIN * times, load + b":undo\n" + AGAIN * times
    replies = replies_of(words, scanning)
    if replies != (PROMPT + DONE) * (1 + times) + PROMPT:
        raise SystemExit(f"{cbrowse}: other replies than {DONE!r}: {replies[:200]!r}")
    return speed(
        len(text) * times,
        lambda: processor_time(words, folder, scanning),
        lambda: processor_time(words, folder, idle),
    )


def other_speed(words, folder, text):
    """The speed of a program on a file, without the database that cscope left before."""
    (folder / "text.c").write_bytes(text)
    (folder / "empty.c").write_bytes(b"")

    def run(file):
        (folder / "cscope.out").unlink(missing_ok=True)
        return processor_time(words + [file], folder)

    return speed(len(text), lambda: run("text.c"), lambda: run("empty.c"))


def real_texts(folder):
    """The C files of a folder and the folders in it, as many and as large as a session takes."""
    return [(folder / name).read_bytes() for name in c_files(folder, most=MOST_FILES)]


def real_row(sessions, ctags, folder, texts):
    """Speeds on real files: in a session by each of some words, and of ctags, runs taking turns."""
    size = sum(len(text) for text in texts)
    load = b"".join(
        b":load %d.c %d\n%s" % (number, len(text), text) for number, text in enumerate(texts)
    )
    sources = folder / "real"
    sources.mkdir()
    for number, text in enumerate(texts):
        (sources / f"{number}.c").write_bytes(text)
    (folder / "list").write_text("".join(f"real/{number}.c\n" for number in range(len(texts))))
    best = {}

    def note(key, seconds):
        best[key] = min(best.get(key, seconds), seconds)

    for _ in range(REAL_RUNS):
        for name, words in sessions.items():
            note((name, "one"), processor_time(words, folder, load + AGAIN))
            scans = load + AGAIN * (1 + REAL_TIMES)
            note((name, "all"), processor_time(words, folder, scans))
        if ctags:
            note("ctags", processor_time(ctags + ["-L", "list"], folder))
    speeds = {
        name: size * REAL_TIMES / (best[name, "all"] - best[name, "one"]) / 1e6 for name in sessions
    }
    if ctags:
        speeds["ctags"] = size / best["ctags"] / 1e6
    return size, speeds


def others():
    """The other programs that are installed, by name."""
    found = {}
    if installed("ctags", "--version", "Universal Ctags", "universal-ctags"):
        found["ctags"] = ["ctags", "--options=NONE", "-x"]
    if installed("cscope", "-V", "version"):
        found["cscope"] = ["cscope", "-b", "-k"]
    return found


def main():
    parser = options(__doc__)
    parser.add_argument("--folder", type=pathlib.Path, help="a folder with C files to scan too")
    parser.add_argument("--before", help="another cbrowse to scan them with")
    given = words_given(parser)
    cbrowse = given.cbrowse
    keep_to_one_core()
    found = others()
    if given.folder:
        texts = real_texts(given.folder)
        sessions = {"cbrowse": [cbrowse, "line"], "wide": [cbrowse, "line", "--wide"]}
        if given.before:
            sessions["before"] = [str(pathlib.Path(given.before).resolve()), "line"]
        with tempfile.TemporaryDirectory() as place:
            size, speeds = real_row(sessions, found.get("ctags"), pathlib.Path(place), texts)
        print(
            f"{len(texts)} real files, {size / 1e6:.1f} MB: "
            + ", ".join(
                f"{name} {speed:.1f} MB/s"
                + (f" (times {speeds['cbrowse'] / speed:.2f})" if name != "cbrowse" else "")
                for name, speed in speeds.items()
            ),
            flush=True,
        )
    row = "{:<18}{:>8}{:>12}{:>12}" + "{:>12}{:>8}" * len(found)
    print(
        row.format(
            "input",
            "size",
            "cbrowse",
            "per byte",
            *(word for name in found for word in (name, "times")),
        )
    )
    with tempfile.TemporaryDirectory() as place:
        folder = pathlib.Path(place)
        for kind, make in INPUTS:
            first = None
            for label, size in SIZES:
                text = make(size)
                own = cbrowse_speed(cbrowse, folder, text)
                first = first or own
                cells = [kind, label, f"{own:.1f}", f"{first / own:.2f}"]
                for words in found.values():
                    if size != SIZES[-1][1]:
                        cells += ["", ""]
                        continue
                    try:
                        other = other_speed(words, folder, text)
                        cells += [f"{other:.1f}", f"{own / other:.2f}"]
                    except subprocess.TimeoutExpired:
                        cells += ["too slow", ""]
                    except subprocess.CalledProcessError as error:
                        cells += ["crashes" if error.returncode < 0 else "fails", ""]
                print(row.format(*cells).rstrip(), flush=True)


if __name__ == "__main__":
    main()
