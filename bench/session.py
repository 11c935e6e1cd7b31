#!/usr/bin/env python3
"""How fast a session over thousands of real files changes, goes back and answers, beside cscope.

    make && bench/session.py FOLDER
    bench/session.py --cbrowse PATH FOLDER      or: CBROWSE=PATH bench/session.py FOLDER

It takes the C sources of the folder, at most 4,096 of them. One session has them all as operands,
another one only every tenth of them. In both, one at a time, a command is written and its reply is
read up to the next prompt; the figure is the time until then by the clock, the median of several.
An empty line does nothing: its time, which is that of the pipes between the programs, is printed
first and taken away from the others. "few" is the figure in the small session, and "times" the one
as a multiple of the other: near 1 where a small change is little work.

One file      of median size: dropped, and that undone and redone; renamed; reloaded with the same
              bytes; a text on one of its lines changed; and each of these undone.
Pairs         a change of that file and what takes it back, 10,000 times in one go, where no reply
              is waited for: such changes take less than the pipes do, so that their times one at a
              time say little. Nothing is taken away from these.
All files     a text is changed in all of them, and that undone and redone. The change scans the new
              contents, so the time of `r`, which scans all files, is taken away from it. For this
              each file is copied with a comment at its end.
Many changes  65,536 times `:mark 1`, and as many times `:undo`, in one go.
Loads         all files by `:load`, one after the other, in one go, as a multiple of the time of
              `r`.
First         the first question of each kind in a new session, for a name that is not there, and
              the same once more. The first one about definitions puts their index in order.
Questions     where a name is defined, for a thousand names: the median, and the time that 95 in 100
              stay below. `cscope -d -q -l` answers the same in the same way.
Rows          the uses of the names that stand most often in the files: until the first bytes of the
              reply, which begins with the number of rows, so that all of them are found and counted
              first, and has as many rows as fill a buffer; and until its last ones, by row.
              `cscope -d -q -l` answers the same. They are read on another core: on one core the
              program goes on writing before the first bytes are seen.
Tags          `:tags 2`.

Other work on the machine makes the times longer: run it twice, and on an idle machine.
"""

from __future__ import annotations

import collections
import os
import pathlib
import re
import select
import statistics
import subprocess
import tempfile
import time

from measure import MOST_BYTES, MOST_FILES, c_files, copy, installed, keep_to_one_core
from measure import options, use_another_core, words_given

FEW = 10  # the small session has every tenth file
TIMES = 9  # each change is made so often
QUESTIONS = 1000
USED_NAMES = 50
MOST_CHANGES = 65_536
PAIRS = 10_000
PROMPT = b">> "
LAST_LINE = b"\n/* a text in every file */\n"


class Session:
    """A program in line mode: commands go in, replies come out."""

    def __init__(self, words, folder):
        self.process = subprocess.Popen(
            words,
            cwd=folder,
            stdin=subprocess.PIPE,
            stdout=subprocess.PIPE,
            stderr=subprocess.DEVNULL,
            bufsize=0,
        )
        self.read()

    def read(self):
        """The reply up to the next prompt."""
        output = self.process.stdout.fileno()
        reply = bytearray()
        while not (reply == PROMPT or reply.endswith(b"\n" + PROMPT)):
            more = os.read(output, 1 << 20)
            if not more:
                raise SystemExit(f"the session ended: {bytes(reply[-200:])!r}")
            reply += more
        return bytes(reply[: -len(PROMPT)])

    def ask(self, command):
        """The reply to a command, and the seconds until it is there."""
        begin = time.perf_counter()
        self.process.stdin.write(command + b"\n")
        reply = self.read()
        return reply, time.perf_counter() - begin

    def ask_for_rows(self, command):
        """The rows of a reply, and the seconds until its first bytes and until its last ones."""
        begin = time.perf_counter()
        self.process.stdin.write(command + b"\n")
        select.select([self.process.stdout], [], [])
        first = time.perf_counter() - begin
        reply = self.read()
        return reply.count(b"\n") - 1, first, time.perf_counter() - begin

    def do(self, command):
        """The seconds of a command that must be accepted."""
        reply, seconds = self.ask(command)
        if reply.startswith(b"cscope: refused"):
            raise SystemExit(f"{command!r}: {reply!r}")
        return seconds

    def many(self, commands, count):
        """The seconds of many commands in one go, each with a reply of one line."""
        begin = time.perf_counter()
        self.process.stdin.write(b"")
        feeder = os.fork()
        if feeder == 0:
            try:
                self.write_all(commands)
            finally:
                os._exit(0)
        prompts, seen, output = 0, b"", self.process.stdout.fileno()
        while prompts < count:
            more = os.read(output, 1 << 20)
            if not more:
                raise SystemExit("the session ended")
            if b"refused" in more:
                raise SystemExit(f"refused: {more[:200]!r}")
            prompts += (seen + more).count(b"\n" + PROMPT)
            seen = (seen + more)[-len(PROMPT) :]
        os.waitpid(feeder, 0)
        return time.perf_counter() - begin

    def write_all(self, commands):
        for command in commands:
            self.process.stdin.write(command)

    def most_memory(self):
        """The most bytes that it had resident so far, as Linux tells it."""
        status = pathlib.Path("/proc", str(self.process.pid), "status").read_text()
        return int(status.split("VmHWM:")[1].split()[0]) * 1024

    def end(self):
        self.process.stdin.close()
        self.process.stdout.read()
        self.process.wait()


def line_of_its_own(content):
    """A word that stands on one line of a file, and no word of which it is a part."""
    words = collections.Counter(re.findall(rb"[A-Za-z_]\w{11,}", content))
    return next((word for word, count in words.items() if count == 1), None)


def mark_in(session, name, text):
    """Wants a text and marks its first line in a file, and nothing else."""
    reply, _ = session.ask(b"5" + text)
    rows = reply.split(b"\n")[1:-1]
    at = next(n for n, row in enumerate(rows, 1) if row.startswith(name + b" "))
    session.do(b":mark %d" % at)


def small_changes(session, name, text, content):
    """The median seconds of each change of one file, whose content ends with a line feed."""
    seen = collections.defaultdict(list)
    for _ in range(TIMES):
        for label, command in (
            ("nothing", b""),
            ("drop", b":drop " + name),
            ("undo of the drop", b":undo"),
            ("redo of the drop", b":redo"),
            (None, b":undo"),
            ("rename", b":rename %s z/%s" % (name, name)),
            ("undo of the rename", b":undo"),
            ("reload", b":reload %s %d\n%s" % (name, len(content), content[:-1])),
            ("undo of the reload", b":undo"),
        ):
            seen[label].append(session.do(command))
        mark_in(session, name, text)
        seen["text on one line"].append(session.do(b":to other"))
        seen["undo of the text"].append(session.do(b":undo"))
        session.do(b":undo")
        session.do(b":undo")
    nothing = statistics.median(seen["nothing"])
    return {
        label: statistics.median(times) - (nothing if label != "nothing" else 0)
        for label, times in seen.items()
        if label
    }


def pairs_of_changes(session, name):
    """The seconds of a change of one file and of what takes it back, in one go, each an average."""

    def pair(first, second):
        return session.many([first + b"\n" + second + b"\n"] * PAIRS, 2 * PAIRS) / PAIRS

    drop = b":drop " + name
    seen = {"drop and undo": pair(drop, b":undo")}
    session.do(drop)
    seen["undo and redo of it"] = pair(b":undo", b":redo")
    session.do(b":undo")
    seen["rename and undo"] = pair(b":rename %s z/%s" % (name, name), b":undo")
    return seen


def put(label, milliseconds, beside=""):
    print(f"{label:<34}{milliseconds:>12.4f} ms   {beside}".rstrip(), flush=True)


def one_file(words_for, folder, sizes, few):
    """The changes of one file, in a session of all files and in one of few."""
    names, median = list(sizes), statistics.median(sizes.values())
    name, text, content = next(
        (name, text, content)
        for name in sorted(few, key=lambda name: abs(sizes[name] - median))
        for content in [(folder / name).read_bytes()]
        for text in [line_of_its_own(content)]
        if text and content.endswith(b"\n")
    )
    figures = []
    for files in (names, few):
        session = Session(words_for(files), folder)
        figure = small_changes(session, os.fsencode(name), text, content)
        figures.append(figure | pairs_of_changes(session, os.fsencode(name)))
        session.end()
    print(f"{name}, {sizes[name]} bytes, among {len(names)} files and among {len(few)}")
    for label in figures[0]:
        many, few = (figure[label] * 1000 for figure in figures)
        put(label, many, f"few {few:.4f} ms, times {many / few:.2f}")


def all_files(cbrowse, folder, sizes):
    """A text that stands in every file is changed; 65,536 marks; tags."""
    session = Session([cbrowse, "line"] + list(sizes), folder)
    nothing = statistics.median(session.do(b"") for _ in range(TIMES))
    scanned = min(session.do(b"r") for _ in range(3))
    put("all files scanned (r)", scanned * 1000)
    session.do(b"5a text in every file")
    session.do(b":markall")
    put(
        "a text changed in all files",
        (session.do(b":to another text") - scanned) * 1000,
        "beside the scan",
    )
    put("undo of it", session.do(b":undo") * 1000)
    put("redo of it", session.do(b":redo") * 1000)
    for _ in range(3):
        session.do(b":undo")
    listed = min((session.ask(b":tags 2") for _ in range(3)), key=lambda reply: reply[1])
    put(":tags 2", (listed[1] - nothing) * 1000, f"{listed[0].count(bytes([10])) - 1:,} lines")
    session.end()
    return scanned


def many_changes(cbrowse, folder, sizes):
    """As many changes as the past may have, and all taken back."""
    session = Session([cbrowse, "line"] + list(sizes), folder)
    made = len(sizes) + 1
    session.do(b"5a text in every file")
    count = MOST_CHANGES - made
    begin = session.many([b":mark 1\n"] * count, count)
    back = session.many([b":undo\n"] * count, count)
    put(
        f"{count:,} times :mark 1",
        begin * 1000,
        f"and :undo {back * 1000:.0f} ms, together {(begin + back) * 1000:.0f}",
    )
    session.end()


def loads(cbrowse, folder, sizes, scanned):
    """All files loaded one after the other."""
    session = Session([cbrowse, "line"], folder)
    blocks = [
        b":load %s %d\n%s" % (os.fsencode(name), size, (folder / name).read_bytes())
        for name, size in sizes.items()
    ]
    seconds = session.many(blocks, len(blocks))
    put(
        f"{len(blocks):,} times :load",
        seconds * 1000,
        f"{seconds / scanned:.2f} times the scan of all files",
    )
    session.end()


def first_questions(words, folder):
    """The first question of each kind; the session, which has put its definitions in order."""
    session = Session(words, folder)
    for label, field in (
        ("uses", b"0"),
        ("definitions", b"1"),
        ("callees", b"2"),
        ("callers", b"3"),
    ):
        first, again = (session.do(field + b"NoSuchName") for _ in range(2))
        put(f"first question about {label}", first * 1000, f"again {again * 1000:.4f} ms")
    return session


def used_most(folder, sizes):
    """The words that stand most often in the files."""
    words = collections.Counter()
    for name in sizes:
        words.update(re.findall(rb"[A-Za-z_]\w*", (folder / name).read_bytes()))
    return [word for word, _ in words.most_common(2 * USED_NAMES)]


def rows(label, words, folder, names):
    """The uses of the first of these names that have any."""
    session = Session(words, folder)
    session.ask(b"0" + names[0])
    before = os.sched_getaffinity(0)
    use_another_core()
    seen = [it for it in (session.ask_for_rows(b"0" + name) for name in names) if it[0] > 0][
        :USED_NAMES
    ]
    session.end()
    os.sched_setaffinity(0, before)
    count, first, last = (sum(it[at] for it in seen) for at in range(3))
    put(
        f"{len(seen)} names used most, {label}",
        last * 1000,
        f"{count:,} rows: {first / count * 1e9:.0f} ns a row until the first bytes,"
        f" {last / count * 1e9:.0f} in all",
    )


def defined(tags):
    """Names of the definitions of a tags file, evenly drawn, as many as there are questions."""
    lines = (line for line in tags.read_bytes().split(b"\n") if line and line[:1] != b"!")
    names = sorted({line.split(b"\t", 1)[0] for line in lines})
    return (names[:: max(len(names) // QUESTIONS, 1)] * QUESTIONS)[:QUESTIONS]


def questions(words, folder, names):
    """The seconds of each question, without what an empty line takes."""
    session = Session(words, folder)
    nothing = statistics.median(session.ask(b"")[1] for _ in range(QUESTIONS))
    times = sorted(session.ask(b"1" + name)[1] - nothing for name in names)
    session.end()
    return times


def put_questions(label, times):
    put(
        label,
        statistics.median(times) * 1000,
        f"95 in 100 below {times[len(times) * 95 // 100] * 1000:.3f} ms",
    )


def cscope_words(folder, sizes, place):
    """A session of cscope over the same files."""
    (place / "files").write_text("\n".join(sizes) + "\n")
    subprocess.run(
        ["cscope", "-b", "-q", "-i", str(place / "files"), "-f", str(place / "out")],
        cwd=folder,
        check=True,
        stdout=subprocess.DEVNULL,
        stderr=subprocess.DEVNULL,
    )
    return ["cscope", "-d", "-q", "-l", "-f", str(place / "out")]


def main():
    parser = options(__doc__)
    parser.add_argument(
        "folder", help="a folder with C files, at least 3,000 for figures that mean something"
    )
    given = words_given(parser)
    keep_to_one_core()
    with tempfile.TemporaryDirectory() as place:
        place = pathlib.Path(place)
        source, folder = pathlib.Path(given.folder).resolve(), place / "src"
        sizes = c_files(source, largest=MOST_BYTES - len(LAST_LINE), most=MOST_FILES)
        copy(source, sizes, folder)
        for name in sizes:
            with open(folder / name, "ab") as file:
                sizes[name] += file.write(LAST_LINE)
        print(f"{len(sizes):,} files, {sum(sizes.values()) / 1e6:.1f} MB")
        names = list(sizes)

        def words_for(files):
            return [given.cbrowse, "line"] + files

        one_file(words_for, folder, sizes, names[::FEW])
        scanned = all_files(given.cbrowse, folder, sizes)
        many_changes(given.cbrowse, folder, sizes)
        loads(given.cbrowse, folder, sizes, scanned)
        first_questions(words_for(names), folder).end()
        tags = place / "tags"
        subprocess.run([given.cbrowse, "tags", "-f", tags] + names, cwd=folder, check=True)
        asked, used = defined(tags), used_most(folder, sizes)
        put_questions(f"{len(asked):,} names, cbrowse", questions(words_for(names), folder, asked))
        rows("cbrowse", words_for(names), folder, used)
        if installed("cscope", "-V", "version"):
            words = cscope_words(folder, sizes, place)
            put_questions(f"{len(asked):,} names, cscope", questions(words, folder, asked))
            rows("cscope", words, folder, used)


if __name__ == "__main__":
    main()
