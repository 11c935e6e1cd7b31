#!/usr/bin/env python3
"""What a session of a very large tree takes, as of the sources of Linux, and very large files.

    make && bench/largest.py FOLDER
    bench/largest.py --cbrowse PATH --wide --part ready --part changes FOLDER

It takes all C sources of the folder, where they are, and changes none of them. Names come from a
list, with the widest bounds. Times are processor time (user and system) on one core where the
system lets a process choose one, or by the clock where a command is answered, as in
`bench/ready.py` and `bench/session.py`, whose pages say more. By --wide all sessions are of the
wide profile. With --part only what is named is measured; other work on the machine makes the times
longer.

tags      `cbrowse-tree` beside `ctags -R` (universal), on all cores, by the clock, the best of two:
          by the wide profile and with the kinds that ctags takes by itself, and by the standard one
          and with its kinds.
ready     `cbrowse line` until its first prompt, by both profiles, beside `cscope -b -k` and `cscope
          -b -q -k`; the best of two, in turn. Then the most that a session has resident.
first     the first question of each kind, and what the session has resident after them.
names     where a name is defined, for a thousand names: the median, and the time that 95 in 100
          stay below; `cscope -d -q -k -l` answers the same.
changes   a change of one file, and what takes it back: among all files, and among 4,096 of them.
files     one file of 200 MB, and the time as a multiple of that of one of 20 MB: read, scanned, and
          asked the first question of each kind. The texts are ordinary code, `f(){}` again and
          again, and names on one line.
"""

from __future__ import annotations

import os
import pathlib
import subprocess
import tempfile
import time

from measure import LARGEST, MOST_FILES, TOP, c_files, installed, keep_to_one_core
from measure import options, processor_time, spread, words_given
from ready import PROFILES, SAME_KINDS, best_of_each, put
from scan import code, lines, names
from session import Session, defined, first_questions, one_file, put_questions, questions
from worst import again

RUNS = 2
PATIENCE = 600  # seconds until a run is given up
BOUNDS = ["--max-files", "1048576", "--max-file-bytes", str(LARGEST)]
PARTS = "tags", "ready", "first", "names", "changes", "files"
MEGABYTES = 20, 200
UNIT = 1_000_000  # bytes of a text that is repeated
SHAPES = {
    "ordinary code": lambda: lines(code(), 20 * UNIT),
    "f(){} on one line": lambda: b"f(){}",
    "names on one line": lambda: lines(names(), UNIT).replace(b"\n", b" "),
}
FIRST = [b"%snone\n" % field for field in (b"0", b"1", b"2", b"3", b"4", b"7", b"8")]


class Tree:
    """The C sources of a folder, and a place for what is made of them."""

    def __init__(self, given, place):
        self.cbrowse, self.profile = given.cbrowse, ["--wide"] if given.wide else []
        self.folder, self.place = pathlib.Path(given.folder).resolve(), pathlib.Path(place)
        self.sizes = c_files(self.folder, largest=LARGEST)
        self.bytes = sum(self.sizes.values())

    def list_of(self, files):
        """A file with these names."""
        path = self.place / f"{len(files)}.list"
        path.write_text("".join(f"{name}\n" for name in files))
        return str(path)

    def line(self, profile, files):
        """The words of a session of these files."""
        return [self.cbrowse, "line", *profile, *BOUNDS, "--files-from", self.list_of(files)]

    def words_for(self, files):
        return self.line(self.profile, files)

    def all(self):
        return self.words_for([*self.sizes])


def by_the_clock(words, tree):
    """The seconds of a run."""
    begin = time.perf_counter()
    subprocess.run(
        words,
        cwd=tree.folder,
        env={**os.environ, "CBROWSE": tree.cbrowse},
        stdin=subprocess.DEVNULL,
        stderr=subprocess.DEVNULL,
        check=True,
    )
    return time.perf_counter() - begin


def tags(tree):
    """Tags files, by all cores, beside ctags."""
    companion = [str(TOP / "editors" / "cbrowse-tree"), "-f", str(tree.place / "own.tags")]
    ctags = ["ctags", "--options=NONE", "-R", "--links=no", "--languages=C", "--langmap=C:.c.h"]
    ctags += ["-f", str(tree.place / "other.tags")]
    is_there = installed("ctags", "--version", "Universal Ctags", "universal-ctags")
    for label, own, other in (
        ("cbrowse-tree, wide", [], []),
        ("cbrowse-tree, standard", ["--standard"], [SAME_KINDS["universal"]]),
    ):
        commands = [[*companion, *own, "."]] + [[*ctags, *other, "."]] * is_there
        rounds = [[by_the_clock(words, tree) for words in commands] for _ in range(RUNS)]
        seconds, *beside = (min(some) for some in zip(*rounds))
        put(label, seconds, [("ctags -R", some) for some in beside])


def cscope(tree):
    """The words that write the two indexes of cscope."""
    build = ["cscope", "-b", "-k", "-u", "-i", tree.list_of([*tree.sizes])]
    return [*build, "-f", str(tree.place / "plain.out")], [*build, "-q", "-f", out_of(tree)]


def out_of(tree):
    return str(tree.place / "quick.out")


def ready(tree):
    """A session until its first prompt, beside cscope; and its memory."""
    own = [tree.line(profile, [*tree.sizes]) for profile in PROFILES]
    others = cscope(tree) if installed("cscope", "-V", "version") else ()
    seconds = best_of_each([*own, *others], tree.folder, RUNS, PATIENCE)
    beside = [*zip(("cscope -b -k", "cscope -b -q -k"), seconds[2:])]
    put("ready", seconds[0], beside)
    put("ready, wide", seconds[1], [("standard", seconds[0]), *beside])
    for label, words in zip(("memory when ready", "the same, wide"), own):
        session = Session(words, tree.folder)
        put_memory(label, session, tree.bytes)
        session.end()


def put_memory(label, session, size):
    most = session.most_memory()
    print(f"{label:<34}{most / 1e6:>10.1f} MB   {most / size:.2f} bytes a byte", flush=True)


def first(tree):
    """The first question of each kind, and the memory after them."""
    session = first_questions(tree.all(), tree.folder)
    put_memory("memory after these questions", session, tree.bytes)
    session.end()


def named(tree):
    """Where names are defined."""
    made = tree.place / "names.tags"
    words = [tree.cbrowse, "tags", *BOUNDS, "-f", made, "--files-from"]
    subprocess.run([*words, tree.list_of([*tree.sizes])], cwd=tree.folder, check=True)
    asked = defined(made)
    put_questions(f"{len(asked):,} names, cbrowse", questions(tree.all(), tree.folder, asked))
    if installed("cscope", "-V", "version"):
        if not os.path.exists(out_of(tree)):
            processor_time(cscope(tree)[1], tree.folder, patience=PATIENCE)
        words = ["cscope", "-d", "-q", "-k", "-l", "-f", out_of(tree)]
        put_questions(f"{len(asked):,} names, cscope", questions(words, tree.folder, asked))


def changes(tree):
    """The changes of one file, among all files and among few."""
    one_file(tree.words_for, tree.folder, tree.sizes, spread(tree.sizes, MOST_FILES))


def files(tree):
    """One file of each shape and size."""
    words = [tree.cbrowse, "line", *tree.profile, *BOUNDS, "f.c"]
    for shape, unit in SHAPES.items():
        seconds, text = [], unit()
        for size in MEGABYTES:
            (tree.place / "f.c").write_bytes(again(text, size * UNIT))
            asking = b"".join(FIRST)
            runs = [processor_time(words, tree.place, asking, PATIENCE) for _ in range(RUNS)]
            seconds.append(min(runs))
            put(f"{shape}, {size} MB", seconds[-1], [(f"{MEGABYTES[0]} MB", seconds[0])])
            session = Session(words, tree.place)
            put_memory("memory when ready", session, size * UNIT)
            for question in FIRST:
                session.do(question.rstrip())
            put_memory("memory after these questions", session, size * UNIT)
            session.end()
        (tree.place / "f.c").unlink()


def main():
    parser = options(__doc__)
    parser.add_argument("folder", help="a folder with C files, as those of Linux")
    parser.add_argument("--wide", action="store_true", help="sessions by the wide profile")
    parser.add_argument("--part", action="append", choices=PARTS, help="measures this part")
    given = words_given(parser)
    parts = given.part or PARTS
    with tempfile.TemporaryDirectory() as place:
        tree = Tree(given, place)
        print(f"{len(tree.sizes):,} files, {tree.bytes / 1e6:.1f} MB", flush=True)
        if "tags" in parts:
            tags(tree)
        keep_to_one_core()
        for name, part in zip(PARTS[1:], (ready, first, named, changes, files)):
            if name in parts:
                part(tree)


if __name__ == "__main__":
    main()
