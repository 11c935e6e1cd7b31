#!/usr/bin/env python3
"""Runs editors/cbrowse-cscope on lists of names: long ones, odd ones, and lists that are none.

    make && verify/tools/lists-of-names.py
    verify/tools/lists-of-names.py --cbrowse PATH

Long    more names than one command can be given, and more than a session takes that is given no
        bounds: all are listed, and all are browsed, by one question and line by line.
Odd     names with blanks, in quotes or not, and in UTF-8, with a backquote, a `$` and a line feed,
        also of a folder, files that are too large and folders are passed over, and told with how
        many they are, in each mode.
None    a folder is no list: an old list stays, and the status is 1.
Away    a list in another folder is read there, whatever CDPATH says; names that the way to it makes
        too long, or gives a blank, are left out and told.
Profile a variable is found in each mode, and not with --standard; of --wide and --standard the last
        one counts; another long option is refused.
Pattern by -L the fields 0 to 3 take a name alone, also between ^ and $; anything else and -C are
        refused, with what to do. Line by line it is found nowhere.
Ends    no standard input, no program and no temporary folder: status 1. A session ends by a signal
        and when the editor goes away. Nothing is left behind.
Others  a text and a database of cscope are left alone, unless -W or --force is given. What is
        browsed, an operand and what is named like a source are left alone even so. The mode of an
        old list is kept. On a full disk the old list stays as it was, and two runs at once do not
        mix.
"""

from __future__ import annotations

import os
import pathlib
import signal
import subprocess
import sys
import tempfile

sys.path.insert(0, str(pathlib.Path(__file__).resolve().parents[1]))
from shared import Place, Report, fill, left_over, small_disk, words_given, options  # noqa: E402

ROW = b"a.c f 1 int f(void) {\n"
report = Report()
check = report.check


def left(*counts: object) -> str:
    """The line that tells how many files are left out: a number and a reason, again and again."""
    reasons = ", ".join(f"{counts[i]} {counts[i + 1]}" for i in range(0, len(counts), 2))
    return f"cbrowse-cscope: files left out: {reasons}\n"


def long_list(place: Place) -> None:
    place.put("long/a.c")
    for folder in range(70):
        inner = place.folder / f"long/drivers_and_more_{folder:03d}"
        inner.mkdir()
        for number in range(1000):
            (inner / f"source_{folder * 1000 + number:07d}.c").touch()
    status, _, said = place.run("-b", "-R", below="long")
    lines = (place.folder / "long/cscope.out").read_text().splitlines()
    check("70,001 names", (status, len(lines), said) == (0, 70001, ""), said)
    last = inner / "source_0069999.c"
    last.write_text("int last(void) {\n}\n")
    row = f"{last.relative_to(place.folder / 'long')} last 1 int last(void) {{\n".encode()
    for words in ["-R"], ["-f", "cscope.out"]:
        found = place.run("-L", "-1", "last", *words, below="long")
        check("the last of them is found", found == (0, row, ""), found)
    found = place.run("-l", below="long", stdin="1last\n1f\n")
    out = b">> cscope: 1 lines\n" + row + b">> cscope: 1 lines\n" + ROW + b">> "
    check("line by line", found == (0, out, ""), found)
    (inner / "source_0069998.c").write_bytes(b"\0\nint none(void) {\n}\n")
    found = place.run("-l", below="long", stdin="1none\n1last\n")
    out = b">> cscope: 0 lines\n>> cscope: 1 lines\n" + row + b">> "
    check("one with a byte 0 is passed over", found == (0, out, ""), found)


def odd_names(place: Place) -> None:
    for name in "a.c", "a b.c", "\u00e9.c", "c.h":
        place.put(f"odd/{name}")
    place.put_large("odd/large.c")
    (place.folder / "odd/d.c").mkdir()
    said = left(2, "with a bad name", 1, "too large or not there to read")
    status, _, heard = place.run("-b", below="odd")
    lines = (place.folder / "odd/cscope.out").read_text()
    check("odd names", (status, lines, heard) == (0, "a.c\nc.h\n", said), heard)
    (place.folder / "odd/cscope.out").unlink()
    found = place.run("-L", "-1", "f", below="odd")
    check(
        "the same, one question",
        found == (0, ROW + b"c" + ROW[1:].replace(b".c", b".h"), said),
        found,
    )
    found = place.run("-l", below="odd", stdin="1none\n")
    check("the same, line by line", found == (0, b">> cscope: 0 lines\n>> ", said), found)
    place.put("odd/names", '"a.c" "a b.c"\t"c.h"\r\nd.c no.c "\n')
    said = left(1, "with a bad name", 2, "too large or not there to read")
    status, _, heard = place.run("-b", "-i", "names", below="odd")
    lines = (place.folder / "odd/cscope.out").read_text()
    check("names in quotes", (status, lines, heard) == (0, "a.c\nc.h\n", said), (lines, heard))
    place.put("feeds/a.c")
    for name in "x\n/etc/a.c", "y\nb.c", "b`id`.c", "$HOME.c", "\033.c":
        place.put(f"feeds/{name}")
    said = left(5, "with a bad name")
    status, _, heard = place.run("-b", "-R", below="feeds")
    lines = (place.folder / "feeds/cscope.out").read_text()
    check("line feeds in names", (status, lines, heard) == (0, "a.c\n", said), (lines, heard))
    status, _, heard = place.run("-b", "y\nb.c", "a.c", below="feeds")
    lines = (place.folder / "feeds/cscope.out").read_text()
    said = left(1, "with a bad name")
    check("a line feed in an operand", (status, lines, heard) == (0, "a.c\n", said), (lines, heard))
    found = place.writes("-b", "-i", "\033[2J", below="feeds")
    told = [b"cbrowse-cscope: \\x1b[2J: cannot be read\n"]
    check("a message is one write, without control bytes", found == told, found)
    for word in "--help", "-h", "--version", "-V":
        status, out, heard = place.run(word)
        check(word, status == 0 and out.startswith(b"cbrowse-cscope") and heard == "", heard)


def no_list(place: Place) -> None:
    place.put("none/s/a.c")
    place.put("none/cscope.out", "s/a.c\n")
    status, _, said = place.run("-b", "-i", "s", below="none")
    check(
        "NAMES is a folder",
        status == 1
        and said == "cbrowse-cscope: s: cannot be read\n"
        and (place.folder / "none/cscope.out").read_text() == "s/a.c\n",
        said,
    )
    (place.folder / "none/cscope.files").mkdir()
    check(
        "cscope.files is a folder", place.run("-L", "-1", "f", below="none")[:2] == (0, b"s/" + ROW)
    )


def away(place: Place) -> None:
    place.put("away/s/a.c")
    place.put("away/s/list", "a.c\n")
    (place.folder / "away/other/s").mkdir(parents=True)
    for path in ".", str(place.folder / "away/other"):
        check(
            f"CDPATH={path}",
            place.run("-L", "-1", "f", "-f", "s/list", below="away", CDPATH=path)[:2] == (0, ROW),
        )
        check(
            "the same, line by line",
            place.run("-l", "-f", "s/list", below="away", CDPATH=path, stdin="1f\n")[:2]
            == (0, b">> cscope: 1 lines\n" + ROW + b">> "),
        )
    place.put("a blank/a.c")
    (place.folder / "a blank/s").mkdir()
    status, _, said = place.run("-b", "-f", "s/list", "a.c", below="a blank")
    check(
        "a blank on the way",
        status == 0
        and said == left(1, "with a bad name from the folder of the list")
        and (place.folder / "a blank/s/list").read_text() == "",
        said,
    )


def profiles(place: Place) -> None:
    """What is found by the wide profile, and not by the standard one."""
    place.put("profiles/a.c", "int v;\n")
    row = b"a.c v 1 int v;\n"
    for words, rows in ([], row), (["--standard"], b""):
        found = place.run("-L", *words, "-1", "v", "a.c", below="profiles")
        check(f"a variable {' '.join(words)}", found == (0, rows, ""), found)
        found = place.run("-dl", *words, "a.c", below="profiles", stdin="1v\n")
        out = b">> cscope: %d lines\n%s>> " % (len(rows) > 0, rows)
        check("the same, line by line", found == (0, out, ""), found)
    for words, rows in (["--standard", "--wide"], row), (["--wide", "--standard"], b""):
        found = place.run("-L", *words, "-1", "v", "a.c", below="profiles")
        check(f"a variable {' '.join(words)}", found == (0, rows, ""), found)
    status, _, said = place.run("-L", "--stand", "-1", "v", "a.c", below="profiles")
    told = "cbrowse-cscope: --stand: no such option\n"
    check("another long option", (status, said) == (2, told), said)


def patterns(place: Place) -> None:
    """What is asked for in place of a name."""
    place.put("patterns/a.c", "int f(void) {\n\treturn g_1();\n}\n")
    is_none = ": not a name of C; -L takes no expressions\n"
    f = b"a.c f 1 int f(void) {\n"
    g = b"a.c f 2 return g_1();\n"
    for field, asked, rows in [
        ("0", "^f$", f),
        ("1", "f", f),
        ("2", "f$", b"a.c g_1 2 return g_1();\n"),
        ("3", "^g_1", g),
        ("1", "_0", b""),
        ("4", "^f$", b""),
        ("7", "a.c", b"a.c <unknown> 1 <unknown>\n"),
    ]:
        found = place.run("-L", f"-{field}", asked, "a.c", below="patterns")
        check(f"{field}{asked}", found == (0, rows, ""), found)
    for field in "0123":
        for asked in "ma.n", "^^f", "f$$", "f*", "1f", "f g", "g-1":
            found = place.run("-L", f"-{field}", asked, "a.c", below="patterns")
            check(f"{field}{asked}", found == (2, b"", f"cbrowse-cscope: {asked}{is_none}"), found)
            found = place.run("-l", "a.c", below="patterns", stdin=f"{field}{asked}\n")
            out = b">> cscope: 0 lines\n>> "
            check("the same, line by line", found == (0, out, ""), found)
        told = f"cbrowse-cscope: a name is needed, as in -L -{field} NAME\n"
        for asked in "", "^", "$", "^$":
            found = place.run("-L", f"-{field}", asked, "a.c", below="patterns")
            check(f"no name: {field}{asked}", found == (2, b"", told), found)
    told = "cbrowse-cscope: -C is not taken: case matters in names of C; leave it out\n"
    for words in ["-lC"], ["-C", "-L", "-1", "f"], ["-b", "-C"]:
        found = place.run(*words, "a.c", below="patterns")
        check(f"-C in {words}", found == (2, b"", told), found)


def ends(place: Place) -> None:
    place.put("ends/a.c")
    room = place.folder / "room"
    room.mkdir()
    closed = ["sh", "-c", 'exec sh "$0" -l a.c <&-', place.script]
    status, _, said = place.run_by(closed, below="ends", TMPDIR=room)
    check(
        "no standard input",
        status == 1 and said == "cbrowse: read fault\n" and not os.listdir(room),
        said,
    )
    for words in ["-l"], ["-l", "a.c"]:
        status, _, said = place.run(*words, below="ends", TMPDIR="/nowhere")
        told = "cbrowse-cscope: /nowhere: no temporary file can be made\n"
        check("no temporary folder", (status, said) == (1, told), said)
    status, _, said = place.run("-L", "-1", "f", "a.c", below="ends", CBROWSE="/nowhere/cbrowse")
    check(
        "no program",
        status == 1 and said == "cbrowse-cscope: /nowhere/cbrowse: no such program\n",
        said,
    )


def sessions(place: Place) -> None:
    """How a session ends, and what it leaves."""
    room = place.folder / "sessions"
    room.mkdir()

    def begun() -> subprocess.Popen:
        running = subprocess.Popen(
            ["sh", place.script, "-l", "a.c"],
            cwd=place.folder / "ends",
            env=place.settings(TMPDIR=room),
            stdin=subprocess.PIPE,
            stdout=subprocess.PIPE,
            stderr=subprocess.STDOUT,
        )
        running.stdin.write(b"1f\n")
        running.stdin.flush()
        answer = b">> cscope: 1 lines\n" + ROW + b">> "
        found = running.stdout.read(len(answer))
        check("a session answers, and has no temporary file", found == answer, found)
        check("none has a name", os.listdir(room) == [], os.listdir(room))
        return running

    for number in signal.SIGINT, signal.SIGTERM, signal.SIGHUP:
        running = begun()
        running.send_signal(number)
        found = running.stdout.read()  # up to the end of all that have it
        check(f"a session and {number.name}", (running.wait(), found) == (1, b""), found)
        check("nothing is left", os.listdir(room) == [], os.listdir(room))
    running = begun()
    running.stdin.close()
    found = running.stdout.read()
    check("the editor goes away", (running.wait(), found) == (0, b""), found)
    place.put("failing", "#!/bin/sh\nexit 3\n")
    (place.folder / "failing").chmod(0o755)
    asleep = ["sh", "-c", 'sleep 9 | sh "$0" -l a.c', place.script]
    found = place.run_by(asleep, below="ends", TMPDIR=room, CBROWSE=place.folder / "failing")
    check("a program that ends before the editor does", found == (3, b"", ""), found)
    for wait in range(0, 40, 2):
        running = subprocess.Popen(
            ["sh", place.script, "-l", "a.c"],
            cwd=place.folder / "ends",
            env=place.settings(TMPDIR=room),
            stdin=subprocess.PIPE,
            stdout=subprocess.DEVNULL,
        )
        try:
            running.wait(wait / 1000)
        except subprocess.TimeoutExpired:
            running.terminate()
        running.wait()
        running.stdin.close()
    check("a signal at any time leaves nothing", left_over(room) == [], os.listdir(room))


def others(place: Place) -> None:
    """What stands under the name of the list, and is left alone or replaced."""
    folder = place.folder / "others"
    is_none = ": cannot be written: it is not a list (-W replaces it)\n"
    is_one = ": cannot be written: it is a source or an operand\n"
    is_source = ": cannot be written: a name that ends in .c or .h is a source's\n"

    def run(name: str, *words: str) -> tuple[int, str, str]:
        """Status, standard error, and what stands there then."""
        status, _, said = place.run("-b", "-f", name, *words, below="others")
        return status, said, (folder / name).read_text()

    place.put("others/a.c")
    for name, text in [
        ("source", "int f(void) {\n}\n"),
        ("comment", "//a.c\nint f(void) {\n}\n"),
        ("name", "//a.c\n"),
        ("Makefile", "a.c\nb.o\n"),
        ("cscope.out", "cscope 15 $HOME -c\n"),
    ]:
        place.put(f"others/{name}", text)
        found = run(name, "a.c")
        check(f"{name} as a list", found == (1, f"cbrowse-cscope: {name}{is_none}", text), found)
        for force in "-W", "--force":
            place.put(f"others/{name}", text)
            found = run(name, force, "a.c")
            check(f"{name} and {force}", found == (0, "", "a.c\n"), found)
        (folder / name).unlink()
    place.put("others/cscope.out", "a.c\nsrc/b.h")
    (folder / "cscope.out").chmod(0o640)
    check("an old list", run("cscope.out", "a.c") == (0, "", "a.c\n"))
    mode = (folder / "cscope.out").stat().st_mode & 0o7777
    check("its mode is kept", mode == 0o640, oct(mode))
    place.put("others/names", "a.c\n")
    place.put("others/empty.c", "")
    os.link(folder / "a.c", folder / "hard")
    (folder / "soft").symlink_to("a.c")
    place.put("others/other.h", "a.c\n")
    (folder / "away").symlink_to("other.h")
    for name, why, words in [
        ("hard", is_one, ["a.c"]),
        ("names", is_one, ["-i", "names"]),
        ("names", is_one, ["a.c", "names"]),
        ("a.c", is_source, ["a.c"]),
        ("a.c", is_source, []),
        ("soft", is_source, ["-R"]),
        ("empty.c", is_source, ["a.c"]),
        ("other.h", is_source, ["a.c"]),
        ("away", is_source, ["a.c"]),
    ]:
        before = (folder / name).read_text()
        status, said, text = run(name, "-W", *words)
        said = said.splitlines(keepends=True)[-1]
        told = f"cbrowse-cscope: {name}{why}"
        check(f"{name} and -W over {words}", (status, said, text) == (1, told, before), said)
    (folder / "cscope.files").write_text("a.c\n")
    status, said, text = run("cscope.files")
    is_right = (status, text) == (1, "a.c\n") and said.endswith(is_one)
    check("cscope.files over itself", is_right, said)
    (folder / "cscope.files").unlink()
    (folder / "link").symlink_to("linked")
    found = run("link", "a.c")
    is_link = (folder / "link").is_symlink() and (folder / "linked").is_file()
    check("a link", found == (0, "", "a.c\n") and is_link, found)
    small = place.folder / "small"
    small.mkdir()
    with small_disk(small, 64) as is_mounted:
        if is_mounted:
            (small / "list").write_text("old.c\n")
            fill(small)
            status, _, said = place.run("-b", "-f", small / "list", "a.c", below="others")
            found = (status, said, (small / "list").read_text(), sorted(os.listdir(small)))
            told = f"cbrowse-cscope: {small}/list: cannot be written\n"
            check("a full disk", found == (1, told, "old.c\n", ["filled", "list"]), found)
    expected = {""}
    for name in "ab":
        names = [f"{name}/{'x' * 99}{number:03}.c" for number in range(200)]
        for it in names:
            place.put(f"others/twice/{it}", "")
        expected.add("".join(f"{it}\n" for it in names))
    (folder / "twice/list").write_text("")
    runs = []
    for name in "ab" * 4:
        names = sorted(f"{name}/{it.name}" for it in (folder / f"twice/{name}").iterdir())
        runs.append(["sh", place.script, "-b", "-f", "list", *names])
    started = [subprocess.Popen(it, cwd=folder / "twice", env=place.settings()) for it in runs]
    texts = set()
    while any(it.poll() is None for it in started):
        texts.add((folder / "twice/list").read_text())
    is_right = texts <= expected and len(texts) > 1 and not any(it.returncode for it in started)
    check("two runs at once do not mix", is_right, [it[:200] for it in texts - expected])
    check("nothing is left", sorted(os.listdir(folder / "twice")) == ["a", "b", "list"])
    status, _, said = place.run("-b", "a.c", below="others")
    check("a list that is written again", status == 0, said)
    for words, why in (["-b", "-Z"], "-Z: no such option"), (["-b", "-i"], "-i needs a value"):
        status, _, said = place.run(*words, below="others")
        check(f"wrong words {words}", (status, said) == (2, f"cbrowse-cscope: {why}\n"), said)
    for words, why in (["-b"], "cannot be written"), (["-L", "-1", "f"], "cannot be read"):
        status, _, said = place.run(*words, "-f", "nowhere/list", below="others")
        check(
            f"{words[0]} and a list in no folder",
            (status, said) == (1, f"cbrowse-cscope: nowhere/list: {why}\n"),
            said,
        )


def main() -> int:
    cbrowse = words_given(options(__doc__)).cbrowse
    with tempfile.TemporaryDirectory() as folder:
        place = Place(folder, cbrowse, "cbrowse-cscope")
        no_list(place)
        odd_names(place)
        away(place)
        profiles(place)
        patterns(place)
        ends(place)
        sessions(place)
        others(place)
        long_list(place)
    return report.status()


if __name__ == "__main__":
    sys.exit(main())
