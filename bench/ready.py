#!/usr/bin/env python3
"""What a user of a large tree waits for: the start, the first answer, a tags file; and the memory.

    bench/corpus.sh FOLDER && make && bench/ready.py FOLDER/files
    bench/ready.py --cbrowse PATH FOLDER      or: CBROWSE=PATH bench/ready.py FOLDER

It takes the C sources of the folder, at most 4,096 of them. Times are processor time (user and
system) of a whole run on one core where the system lets a process choose one, the least of five, in
turn with the programs beside it. A session is ended as soon as it is ready, by the end of its
input. "part" is the time of cbrowse as a part of that beside it. A row with "wide" is that of the
wide profile (`--wide`), and has the standard one beside it, too.

Ready     `cbrowse line FILES`, beside `cscope -b` and `cscope -b -q`, which write the index that a
          session of cscope opens.
Tags      `cbrowse tags`, plain and extended, beside `ctags` (universal and exuberant): with the
          kinds of tags that it takes by itself, and with those of the standard profile alone. By
          itself universal ctags takes the kinds of the wide profile, and writes scopes.
Question  `cbrowse find 1 NAME FILES`, the whole process, beside `cscope -b` and one query.
One more  `:load` of one more file, of the size nearest to 17 kB, in a session that has all others;
          by the clock.
Memory    the most that a session has resident, and per byte of source; beside it that of the
          standard profile.
"""

from __future__ import annotations

import os
import pathlib
import shutil
import statistics
import tempfile

from measure import MOST_FILES, PATIENCE, c_files, copy, installed, keep_to_one_core
from measure import options, processor_time, words_given
from session import Session

RUNS = 5
ONE_MORE = 17_000
PROFILES = [], ["--wide"]
SAME_KINDS = {"universal": "--kinds-C=dfgstu", "exuberant": "--c-kinds=dfgstu"}


def best_of_each(commands, folder, runs=RUNS, patience=PATIENCE):
    """The seconds of the best run of each command, in turn, so that other work slows all alike."""
    rounds = [
        [processor_time(words, folder, patience=patience) for words in commands]
        for _ in range(runs)
    ]
    return [min(seconds) for seconds in zip(*rounds)]


def put(label, seconds, beside=()):
    """One line: a figure of cbrowse, and those of other programs with what part of each it is."""
    others = "   ".join(
        f"{name} {other * 1000:.0f} ms, part {seconds / other:.3f}" for name, other in beside
    )
    print(f"{label:<24}{seconds * 1000:>10.1f} ms   {others}".rstrip(), flush=True)


def put_profiles(label, standard, wide, beside):
    """A line for each profile."""
    put(label, standard, beside)
    put(f"{label}, wide", wide, [("standard", standard), *beside])


def ready(cbrowse, names, folder, out):
    """A session until its first prompt, beside cscope."""
    commands, others = [[cbrowse, "line", *profile, "--"] + names for profile in PROFILES], []
    if installed("cscope", "-V", "version"):
        (folder / "cscope.list").write_text("\n".join(names) + "\n")
        cscope = ["cscope", "-b", "-u", "-i", "cscope.list", "-f", str(out / "cscope.out")]
        commands += [cscope, cscope + ["-q"]]
        others = ["cscope -b", "cscope -b -q"]
    standard, wide, *beside = best_of_each(commands, folder)
    put_profiles("ready", standard, wide, [*zip(others, beside)])


def tags(cbrowse, names, folder, out):
    """Tags files, beside each ctags that is there."""
    (folder / "ctags.list").write_text("\n".join(names) + "\n")
    for form in "1", "2":
        commands = [
            [cbrowse, "tags", "-f", str(out / f"{number}.tags"), "--format", form, *profile, "--"]
            + names
            for number, profile in enumerate(PROFILES)
        ]
        others = []
        for maker, same_kinds in SAME_KINDS.items():
            program = shutil.which(f"ctags-{maker}")
            if program:
                words = [
                    program,
                    "--options=NONE",
                    "--languages=C",
                    "--langmap=C:.c.h",
                    f"--format={form}",
                ]
                words += ["-L", "ctags.list", "-f", str(out / "other.tags")]
                commands += [words, words + [same_kinds]]
                others += [maker, f"{maker}, same kinds"]
        standard, wide, *beside = best_of_each(commands, folder)
        label = "plain tags" if form == "1" else "extended tags"
        put_profiles(label, standard, wide, [*zip(others, beside)])


def question(cbrowse, names, folder, out):
    """One definition, by a process of its own."""
    with open(out / "0.tags", "rb") as it:
        lines = [line for line in it if not line.startswith(b"!")]
    name = lines[len(lines) // 2].split(b"\t")[0].decode()
    commands = [[cbrowse, "find", "1", name, "--"] + names]
    if shutil.which("cscope"):
        build = ["cscope", "-b", "-u", "-i", "cscope.list", "-f", str(out / "again.out")]
        ask = ["cscope", "-d", "-L", "-1", name, "-f", str(out / "again.out")]
        commands += [build, ask]
    seconds, *beside = best_of_each(commands, folder)
    put(f"find 1 {name}", seconds, [("cscope -b and a query", sum(beside))] if beside else [])


def one_more(cbrowse, sizes, folder):
    """One more file comes into a session that has all others."""
    whole = [name for name in sizes if (folder / name).read_bytes().endswith(b"\n")]
    last = min(whole, key=lambda name: abs(sizes[name] - ONE_MORE))
    session = Session([cbrowse, "line", "--"] + [name for name in sizes if name != last], folder)
    load = b":load %s %d\n%s" % (os.fsencode(last), sizes[last], (folder / last).read_bytes()[:-1])
    nothing = statistics.median(session.ask(b"")[1] for _ in range(RUNS * 20))
    seconds = []
    for _ in range(RUNS):
        seconds.append(session.do(load))
        session.do(b":undo")
    session.end()
    put(f":load of {sizes[last]:,} bytes", min(seconds) - nothing)


def memory(cbrowse, names, sizes, folder):
    """The most that a session has resident when it is ready, by each profile."""
    seen = []
    for label, profile in zip(("memory of a session", "the same, wide"), PROFILES):
        session = Session([cbrowse, "line", *profile, "--"] + names, folder)
        seen.append(session.most_memory())
        session.end()
        per_byte = f"{seen[-1] / sum(sizes.values()):.2f} bytes a byte of source"
        times = f", times standard {seen[-1] / seen[0]:.2f}"
        print(f"{label:<24}{seen[-1] / 1e6:>10.1f} MB   {per_byte}{times if profile else ''}")


def main():
    parser = options(__doc__)
    parser.add_argument(
        "folder", help="a folder with C files, at least 3,000 for figures that mean something"
    )
    given = words_given(parser)
    keep_to_one_core()
    source = pathlib.Path(given.folder).resolve()
    sizes = c_files(source, most=MOST_FILES)
    with tempfile.TemporaryDirectory() as place:
        folder, out = pathlib.Path(place, "src"), pathlib.Path(place, "out")
        out.mkdir()
        copy(source, sizes, folder)
        names = list(sizes)
        print(f"{len(sizes):,} files, {sum(sizes.values()) / 1e6:.1f} MB")
        ready(given.cbrowse, names, folder, out)
        tags(given.cbrowse, names, folder, out)
        question(given.cbrowse, names, folder, out)
        one_more(given.cbrowse, sizes, folder)
        memory(given.cbrowse, names, sizes, folder)


if __name__ == "__main__":
    main()
