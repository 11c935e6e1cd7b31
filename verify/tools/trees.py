#!/usr/bin/env python3
"""Runs editors/cbrowse-tree on trees of odd names, in full folders and with programs that fail.

    make && verify/tools/trees.py
    verify/tools/trees.py --cbrowse PATH      or: CBROWSE=PATH verify/tools/trees.py

Whole      the tags file, plain and extended, and the listing of a tree are those of one
           `cbrowse tags --wide` over its files, byte for byte, by one process and by four; so they
           are with --standard and with --prototypes.
Questions  the rows of `find` are those of one `cbrowse find --wide`, byte for byte, for each field,
           by one process and by four; so are those of many questions, and those by --standard; a
           question that is none is refused.
Very large a file with very large tags is left out and told, unless --all is given: many names on a
           line, in a file of 12 MB too, and many enumerators of an enumeration with a long name.
           Two files are taken whose tags are very large together.
Refused    a file that the program refuses is left out and told with its reason, and all else is
           there.
Names      names from lists and from standard input, folders and files in any mix, what is left out
           by --exclude, and which of them decide the status.
Odd names  what cbrowse does not take is listed once for each reason, with how many and three names
           in printable ASCII, and left out, and all else is there: names with a blank, a backquote,
           a `$`, control bytes and a line feed, also in the name of a folder. Each message is one
           write. Folders named `!`, `(` and `-x`, and a tags file named `-t`, are taken.
Ends       numbers that begin with 0; a tags file that is a link, a pipe or the name of another's
           folder; no standard error; a program in a folder of PATH that does not begin with /;
           folders that cannot be read (as root, who runs as nobody), by their names.
Others     a file that is not a tags file is left alone, unless --force is given; a source, an
           operand and a list are left alone even so, under whatever name, and so is any name of a
           source. The mode of an old tags file is kept. Two runs at once do not mix. A signal
           leaves an old tags file as it was.
Changes    files and folders that come, go and change meanwhile are taken or listed as left out.
Failures   an old tags file stays as it was, and the status is 1, where a folder is not there, where
           the program or `sort` fails, and where the temporary folder is full: each size of a small
           one is tried (as root alone, with `mount`), and one line says so. So it is where its
           own folder is full.
"""

from __future__ import annotations

import contextlib
import os
import pathlib
import random
import re
import shutil
import signal
import subprocess
import sys
import tempfile
import threading
import time
from typing import Iterable

sys.path.insert(0, str(pathlib.Path(__file__).resolve().parents[1]))
from shared import Place, Report, fill, left_over, small_disk, words_given, options  # noqa: E402

OLD = "old\told.c\t/^old$/\n"
TEXT = "int g(void) {\n}\n"
CALLS = "#include <stdio.h>\nint f{number}(void) {{\n\treturn f{other}('*') + f7();\n}}\n"
BODY = (
    "#define M{number} 1\nstruct s {{\nint x;\n}};\nint main(void) {{\n}}\n"
    "extern int v{number}, w{number};\nint v{number};\n"
)
report = Report()
check = report.check


def profile(words: Iterable[str]) -> list[str]:
    """What cbrowse is told of the profile, where these are words of cbrowse-tree."""
    if "--standard" in words:
        return []
    return ["--wide", "--prototypes"] if "--prototypes" in words else ["--wide"]


def one(place: Place, names: list[str], *words: str) -> bytes:
    """What one run of cbrowse makes of these files, for these words of cbrowse-tree."""
    form = "1" if "1" in words else "2"
    command = [place.cbrowse, "tags", *profile(words), "-f", "whole", "--format", form, *names]
    subprocess.run(command, cwd=place.folder, check=True)
    return (place.folder / "whole").read_bytes()


def whole(place: Place) -> None:
    names = []
    for number in range(1500):
        names.append(f"many/d{number % 7}/f{number}.{'ch'[number % 2]}")
        place.put(
            names[-1],
            f"int f{number % 100}(void) {{\n}}\n" + BODY.format(number=number),
        )
    profiles = ["--standard"], ["--prototypes"]
    sizes = set()
    for words in ([], ["--format", "1"], *profiles, ["--standard", "--format", "1"]):
        for jobs in "1", "4":
            status, _, said = place.run("-j", jobs, "-f", "parts", *words, "many")
            same = (place.folder / "parts").read_bytes() == one(place, sorted(names), *words)
            check(f"one tags file {' '.join(words)} by {jobs}", status == 0 and same, said)
        sizes.add((place.folder / "parts").stat().st_size)
    check("each of these is another one", len(sizes) == 5, sizes)
    for words in [], *profiles:
        listing = subprocess.run(
            [place.cbrowse, "tags", *profile(words), "-x", "--", *sorted(names)],
            cwd=place.folder,
            stdout=subprocess.PIPE,
        ).stdout
        status, out, said = place.run("-x", *words, "many")
        check(f"one listing {' '.join(words)}", status == 0 and out == listing, said)
    status, out, said = place.run("--standard", "--prototypes", "-f", "-", "many")
    check("two profiles", (status, out) == (2, b"") and said.startswith("cbrowse-tree: "), said)
    status, out, said = place.run("-f", "-", "many")
    check("standard output", status == 0 and out == one(place, sorted(names)), said)
    check("no progress where nobody looks", said == "", said)
    for words, expected in (
        (["-R", "--standard", "--wide", "-o", "-"], one(place, sorted(names))),
        (["--wide", "--standard", "-o-"], one(place, sorted(names), "--standard")),
    ):
        status, out, said = place.run(*words, "many")
        check(f"one tags file {' '.join(words)}", (status, out, said) == (0, expected, ""), said)


def questions(place: Place) -> None:
    """The rows of one question, and of many."""
    names = []
    for number in range(1200):
        names.append(f"asked/d{number % 5}/f{number}.c")
        place.put(names[-1], CALLS.format(number=number, other=number * 7 % 1200))
    place.put("asked/!.c", CALLS.format(number=9999, other=7))
    place.put("asked/s.h", "struct s {\n\tint f7;\n};\n")
    names = sorted([*names, "asked/!.c", "asked/s.h"])
    asked = ["0f7", "1f7", "2f9", "3f7", "4return", "4'", "7f1", "8stdio.h", "1none", "4*", "4 "]
    rows = {}

    def found(question: str, *words: str) -> bytes:
        command = [place.cbrowse, "find", *words, question[0], "--", question[1:], *names]
        return subprocess.run(command, cwd=place.folder, capture_output=True).stdout

    standard = found("1f7")
    for question in asked:
        rows[question] = found(question, "--wide")
        for jobs in "1", "4":
            words = ["find", "-j", jobs, "--", question[0], question[1:], "asked"]
            status, out, said = place.run(*words)
            check(f"find {question} by {jobs}", (status, out) == (0, rows[question]), said)
    check("a member is found by the wide profile alone", standard != rows["1f7"])
    for words, expected in (["--standard"], standard), (["--prototypes"], rows["1f7"]):
        status, out, said = place.run("find", *words, "1", "f7", "asked")
        check(f"find {words[0]}", (status, out) == (0, expected), said)
    place.put("one question", "1f7\n")
    status, out, said = place.run("find", "--standard", "--questions", "one question", "asked")
    expected = b"".join(b"1f7\t" + row for row in standard.splitlines(keepends=True))
    check("many questions by --standard", (status, out) == (0, expected), said)
    place.put("questions", "".join(f"{question}\n" for question in asked))
    expected = b"".join(
        question.encode() + b"\t" + row
        for question in asked
        for row in rows[question].splitlines(keepends=True)
    )
    for jobs in "1", "4":
        status, out, said = place.run("find", "-j", jobs, "--questions", "questions", "asked")
        check(f"many questions by {jobs}", (status, out) == (0, expected), said)
    place.put("questions", "1f7\n6f7\n")
    check("a question that is none", place.run("find", "--questions", "questions", "asked")[0] == 2)
    for size, expected in (4096, 0), (4097, 2):
        place.put("questions", "4" + "x" * (size - 1))
        status, _, said = place.run("find", "--questions", "questions", "asked")
        is_told = (said != "") == (expected != 0)
        check(f"a question of {size} bytes", status == expected and is_told, said)
    for words, said in (("6", "x"), "field not in this profile"), (("1", ""), "no pattern"):
        found = place.run("find", *words, "asked")
        check(f"find {words}", found == (2, b"", f"cbrowse: {said}\n"), found)
    check("find without a pattern", place.run("find", "1")[0] == 2)


def very_large(place: Place) -> None:
    """Files whose tags are very large, in one form or in each."""
    place.put("vast/line.c", f"enum {{ {'ab,' * 7_000} }};\n")
    place.put("vast/name.c", f"enum {'a' * 100_000} {{\n{chr(10).join(['x,'] * 1100)}\n}};\n")
    place.put("vast/huge.c", f"enum {{ {'ab,' * 4_000_000} }};\n")
    place.put("vast/large.c", TEXT + "/* */\n" * 2_000_000)
    place.put("vast/small.c", TEXT)
    for words, left in (
        ([], ["huge.c", "line.c", "name.c"]),
        (["--format", "1"], ["huge.c", "line.c"]),
        (["--standard"], []),
    ):
        status, out, said = place.run("-f", "-", *words, "vast")
        names = ", ".join(f"vast/{name}" for name in left)
        told = f"cbrowse-tree: {len(left)} left out, tags very large (--all takes them): {names}\n"
        is_right = (status, said) == (0, told if left else "")
        is_right &= all(b"\tvast/%s.c\t" % name in out for name in (b"small", b"large"))
        check(f"very large tags {' '.join(words)}", is_right, (status, said))
    status, _, said = place.run("-f", "-", "vast/line.c", "vast/small.c")
    check("very large tags of a file that is named", status == 1 and "1 left out" in said, said)
    reader = ["sh", "-c", 'sh "$0" -f - --all vast/name.c | wc -c', place.script]
    status, out, said = place.run_by(reader)
    check("--all", status == 0 and int(out) > 100_000_000, (out, said))
    for name in "ab":
        place.put(f"together/{name}.c", f"enum {{ {f'{name},' * 7_000} }};\n")
    place.put("together/c.c", TEXT + "/* */\n" * 20_000)
    expected = one(place, [f"together/{name}.c" for name in "abc"])
    status, out, said = place.run("-j", "1", "-f", "-", "together")
    is_right = len(expected) > 150_000_000 and (status, out, said) == (0, expected, "")
    check("tags that are very large together", is_right, (status, len(out), said))


def refused(place: Place) -> None:
    """A program that refuses one file of a part."""
    for name in "abc":
        place.put(f"refused/{name}.c", TEXT)
    place.put(
        "refusing",
        '#!/bin/sh\ncase "$*" in *refused/b.c*)\n'
        f'echo "cbrowse: refused/b.c: odd" >&2; exit 1\nesac\nexec {place.cbrowse} "$@"\n',
    )
    (place.folder / "refusing").chmod(0o755)
    expected = one(place, ["refused/a.c", "refused/c.c"])
    told = "cbrowse-tree: 1 left out, odd: refused/b.c\n"
    for status, words in (0, ["refused"]), (1, ["refused", "refused/b.c"]):
        found = place.run("-j", "1", "-f", "-", *words, CBROWSE=place.folder / "refusing")
        check(f"a refused file in {' '.join(words)}", found == (status, expected, told), found)


def names_given(place: Place) -> None:
    """Lists, folders and files in any mix."""
    for name in "x/a.c", "x/b.h", "x/build/c.c", "y/d.c", "y/test_e.c", "-z.c":
        place.put(f"given/{name}", TEXT)
    place.put("given/list", "y/d.c\n\ny/test_e.c\n")

    def files(*words: str, stdin: str = "") -> tuple[int, list[str], str]:
        status, out, said = place.run(
            "--format", "1", "-f", "-", *words, below="given", stdin=stdin
        )
        return status, [line.split("\t")[1] for line in out.decode().splitlines()], said

    def takes(what: str, found: object, *expected: str, status: int = 0, said: str = "") -> None:
        check(what, found == (status, list(expected), said), found)

    whole = ["x/a.c", "x/b.h", "x/build/c.c"]
    takes("a list", files("-L", "list"), "y/d.c", "y/test_e.c")
    takes("two lists", files("-Llist", "-L", "list"), "y/d.c", "y/test_e.c")
    takes("standard input", files("-L", "-", stdin="x/b.h\nx/a.c"), "x/a.c", "x/b.h")
    takes("a mix", files("y/d.c", "-L", "list", "x", "x/a.c"), *whole, "y/d.c", "y/test_e.c")
    takes("a name with a dash", files("--", "-z.c"), "./-z.c")
    takes("excluded by a name", files("x", "--exclude", "build"), "x/a.c", "x/b.h")
    takes(
        "excluded by a glob",
        files("x", "y", "--exclude=test_*", "--exclude", "*.h"),
        "x/a.c",
        "x/build/c.c",
        "y/d.c",
    )
    takes(
        "excluded by a path",
        files("x", "y", "--exclude", "x/build/"),
        "x/a.c",
        "x/b.h",
        "y/d.c",
        "y/test_e.c",
    )
    takes(
        "excluded by the end of a path",
        files(".", "--exclude", "y/*.c", "--exclude", "-z.c"),
        *(f"./{name}" for name in whole),
    )
    takes(
        "excluded from a list",
        files("-L", "list", "x/build/c.c", "--exclude", "build", "--exclude", "test_*"),
        "y/d.c",
    )
    left = "cbrowse-tree: 1 left out, {}\n"
    takes(
        "a file that is not there",
        files("x/a.c", "no.c"),
        "x/a.c",
        status=1,
        said=left.format("no such file: no.c"),
    )
    takes(
        "a name of a list that is not there",
        files("-L", "-", stdin="x/a.c\nno/no.h\n"),
        "x/a.c",
        status=1,
        said=left.format("no such file: no/no.h"),
    )
    takes(
        "a file that is not C",
        files("list", "x/a.c"),
        "x/a.c",
        status=1,
        said=left.format("not named .c or .h: list"),
    )
    takes(
        "a folder in a list",
        files("-L", "-", stdin="x\ny/d.c\n"),
        "y/d.c",
        status=1,
        said=left.format("not named .c or .h: x"),
    )
    place.put_large("given/large.c")
    takes(
        "a large file that is named",
        files("large.c", "y/d.c"),
        "y/d.c",
        status=1,
        said=left.format("too large: large.c"),
    )
    takes(
        "a large file that is found",
        files(".", "--exclude", "[xy]", "--exclude", "-*"),
        said=left.format("too large: ./large.c"),
    )
    status, _, said = place.run("-L", "nowhere", below="given")
    check(
        "a list that is not there",
        status == 1 and said == "cbrowse-tree: nowhere: cannot be read\n",
        said,
    )
    check("nothing to take", place.run(below="given")[0] == 2)
    for word in "--help", "-h", "--version", "-V":
        status, out, said = place.run(word)
        check(word, status == 0 and out.startswith(b"cbrowse-tree") and said == "", (out, said))


def odd_names(place: Place) -> None:
    text = TEXT
    bad = [
        "odd/$HOME.c",
        "odd/a b.c",
        "odd/a\n/odd/good.c",
        "odd/b`id`.c",
        "odd/back\\slash \033.c",
        "odd/\u00e9.c",
    ]
    for name in [*bad, "odd/'(x)*.c", "odd/good.c", "odd/\\.c", "!/a.c", "(/a.c", "-x/a.c"]:
        place.put(name, text)
    place.put_large("odd/large.c")
    status, _, said = place.run("-f", "odd.tags", "odd")
    lines = (place.folder / "odd.tags").read_text().splitlines()
    told = [
        "cbrowse-tree: 1 left out, too large: odd/large.c",
        "cbrowse-tree: 6 left out, bad name: odd/$HOME.c, odd/\\xc3\\xa9.c, odd/a b.c ..",
    ]
    check("odd names", (status, said.splitlines()) == (0, told), said)
    taken = [line.split("\t")[1] for line in lines[2:]]
    check("and the others", taken == ["odd/'(x)*.c", "odd/\\.c", "odd/good.c"], taken)
    names = [*bad, "odd/large.c"]
    shown = [
        "".join(it if " " <= it <= "~" and it != "\\" else "\\x%02x" % ord(it) for it in name)
        for name in (os.fsencode(name).decode("latin-1") for name in names)
    ]
    expected = sorted(
        f"cbrowse-tree: {name}: {'too large' if 'large' in name else 'bad name'}\n"
        for name in shown
    )
    found = place.writes("--verbose", "-f", "odd.tags", "odd")
    check("each message is one write", [it.decode() for it in found] == expected, found)
    found = place.writes("-f", "-", "odd/\033[2J.x")
    told = [b"cbrowse-tree: odd/\\x1b[2J.x: no such file or folder\n"]
    check("an odd operand", found == told, found)
    lines = ["odd/good.c", "odd/b`id`.c", "x" * 254 + ".c", "x" * 99_999, "odd/$HOME.c\t"]
    place.put("odd names", "\n".join(lines))
    status, out, said = place.run("-f", "-", "-L", "odd names", "--verbose")
    told = [
        "cbrowse-tree: odd/$HOME.c\\x09: bad name",
        "cbrowse-tree: odd/b`id`.c: bad name",
        f"cbrowse-tree: {'x' * 254}.c: bad name",
        f"cbrowse-tree: {'x' * 4096}: not named .c or .h",
    ]
    check("odd names in a list", (status, said.splitlines()) == (1, told), said[:300])
    for folder in "!", "(", "./-x":
        status, _, said = place.run("-f", "-t", folder)
        check(
            f"a folder named {folder}",
            status == 0 and "\ng\t" in (place.folder / "-t").read_text(),
            said,
        )


def ends(place: Place) -> None:
    """What stands where it writes, and what it is started with."""
    place.put("few/a.c", TEXT)
    expected = one(place, ["few/a.c"])
    for number in "08", "09", "010":
        status, _, said = place.run("-j", number, "-f", "few.tags", "few")
        check(
            f"-j {number}",
            status == 0 and (place.folder / "few.tags").read_bytes() == expected,
            said,
        )
    status, _, said = place.run("-j", "000", "few")
    check("-j 000", status == 2 and said.startswith("cbrowse-tree: -j 000: "), said)
    status, _, said = place.run("--transfer", "-f", "few.tags", "few")
    check("--transfer to no machine", status == 2 and not (place.folder / "tree").exists(), said)
    lost = "cbrowse-tree: standard output cannot be written\n"
    for words, ended in (["-f", "few.tags"], (0, "")), (["-x"], (1, lost)):
        closed = ["sh", "-c", 'exec sh "$0" "$@" few >&-', place.script, *words]
        status, _, said = place.run_by(closed)
        check(f"{words[0]} and no standard output", (status, said) == ended, said)
    (place.folder / "a blank").mkdir()
    status, _, said = place.run("-f", "few.tags", "few", TMPDIR=place.folder / "a blank")
    check(
        "a temporary folder with a blank",
        status == 0 and (place.folder / "few.tags").read_bytes() == expected,
        said,
    )
    left = left_over(place.folder / "a blank")
    check("nothing is left there", left == [], left)
    place.put("real", OLD)
    (place.folder / "link").symlink_to("real")
    status, _, said = place.run("-f", "link", "few")
    check(
        "a link",
        status == 0
        and (place.folder / "link").is_symlink()
        and (place.folder / "real").read_bytes() == expected,
        said,
    )
    pipe = place.folder / "pipe"
    os.mkfifo(pipe)
    reader = subprocess.Popen(["cat", pipe], stdout=subprocess.PIPE)
    status, _, said = place.run("-f", "pipe", "few")
    check(
        "a pipe",
        status == 0 and reader.communicate(timeout=60)[0] == expected and pipe.is_fifo(),
        said,
    )
    mine = 'mkdir tags.$$; echo x >tags.$$/file; exec sh "$0" few'
    status, _, _ = place.run_by(["sh", "-c", mine, place.script])
    check(
        "a folder that has the name of the new file",
        status == 1 and len(list(place.folder.glob("tags.*/file"))) == 1,
    )
    status, _, _ = place.run_by(["sh", "-c", 'exec sh "$0" -f few.tags few 2>&-', place.script])
    check(
        "no standard error",
        status == 0 and (place.folder / "few.tags").read_bytes() == expected,
    )
    (place.folder / "near").mkdir()
    (place.folder / "near" / "cbrowse").symlink_to(place.cbrowse)
    status, _, said = place.run(
        "-f", "few.tags", "few", CBROWSE="cbrowse", PATH=f"near:{os.environ['PATH']}"
    )
    check(
        "a program in a near folder of PATH",
        status == 0 and (place.folder / "few.tags").read_bytes() == expected,
        said,
    )
    if os.geteuid() != 0:
        return
    place.put("closed/a.c", TEXT)
    (place.folder / "closed").chmod(0o700)
    place.folder.chmod(0o777)
    place.put("old", OLD)
    (place.folder / "old").chmod(0o666)
    nobody = ["setpriv", "--reuid=65534", "--regid=65534", "--clear-groups", "sh", place.script]
    status, _, said = place.run_by(nobody, "-f", "old", "closed")
    check(
        "a folder that cannot be read",
        status == 1 and (place.folder / "old").read_text() == OLD,
        said,
    )
    for name in "it's", "a\\'7", "pc%s", "n\nl":
        place.put(f"shut/{name}/a.c", TEXT)
        (place.folder / f"shut/{name}").chmod(0)
    status, out, said = place.run_by(nobody, "--verbose", "-f", "-", "shut", "few")
    names = "a\\x5c'7", "it's", "n\\x0al", "pc%s"
    told = "".join(f"cbrowse-tree: shut/{name}: cannot be read\n" for name in names)
    check("folders below that cannot be read", (status, out, said) == (0, expected, told), said)
    (place.folder / "old").chmod(0o444)
    status, _, said = place.run_by(nobody, "-f", "old", "few")
    check(
        "a tags file that may not be written",
        status == 1 and (place.folder / "old").read_text() == OLD,
        said,
    )


def others(place: Place) -> None:
    """What stands under the name of the tags file, and is left alone or replaced."""
    folder = place.folder / "others"
    texts = {
        "notes.txt": "int\tf\n",
        "bsd": "/*\t$OpenBSD: a.c\t*/\nint f(void) {\n}\n",
        "lexer.l": "%{\n#include <stdio.h>\n",
        "GTAGS": "\0\1\2\0",
        "\033": "x",
    }
    is_none = ": cannot be written: it is not a tags file (--force replaces it)\n"
    is_one = ": cannot be written: it is a source or an operand\n"
    is_source = ": cannot be written: a name that ends in .c or .h is a source's\n"

    def run(name: str, *words: object) -> tuple[int, str, str]:
        """Status, standard error, and what stands there then."""
        status, _, said = place.run("-f", name, *words, below="others")
        return status, said, (folder / name).read_text()

    place.put("others/s/a.c", TEXT)
    place.put("others/s/bsd.c", texts["bsd"])
    expected = subprocess.run(
        [place.cbrowse, "tags", "--wide", "--format", "2", "-f", "-", "s/a.c", "s/bsd.c"],
        cwd=folder,
        stdout=subprocess.PIPE,
    ).stdout.decode()
    for name, text in texts.items():
        place.put(f"others/{name}", text)
        shown = name.replace("\033", "\\x1b")
        found = run(name, "s")
        told = f"cbrowse-tree: {shown}{is_none}"
        check(f"{shown} is left alone", found == (1, told, text), found)
        found = run(name, "--force", "s")
        check(f"{shown} is replaced by --force", found == (0, "", expected), found)
    for text in "!_TAG_x\ty\n", "f\ta.c\t/^int f/\n", "f\ta.c\t12\n", "":
        place.put("others/tags", text)
        found = run("tags", "s")
        check(f"a tags file that begins with {text!r}", found == (0, "", expected), found)
    (folder / "tags").chmod(0o640)
    check("written again", run("tags", "s") == (0, "", expected))
    mode = (folder / "tags").stat().st_mode & 0o7777
    check("its mode is kept", mode == 0o640, oct(mode))
    place.put("others/empty.c", "")
    place.put("others/list", "s/a.c\n")
    place.put("others/asked", "1f\n")
    os.link(folder / "s/a.c", folder / "hard")
    (folder / "soft").symlink_to("s/a.c")
    (folder / "s/linked.c").symlink_to("../soft")
    place.put("others/other.h", "int x;\n")
    (folder / "away").symlink_to("other.h")
    for name, why, words in [
        ("hard", is_one, ["s"]),
        ("list", is_one, ["-L", "list"]),
        ("list", is_one, ["s", "list"]),
        ("s/a.c", is_source, ["s"]),
        ("s/a.c", is_source, ["s/linked.c"]),
        ("soft", is_source, ["s"]),
        ("empty.c", is_source, ["s"]),
        ("other.h", is_source, ["s"]),
        ("away", is_source, ["s/a.c"]),
    ]:
        before = (folder / name).read_text()
        for force in [], ["--force"]:
            found = run(name, *force, *words)
            is_kept = found[::2] == (1, before)
            is_told = found[1] == f"cbrowse-tree: {name}{why}" or (not force and why == is_one)
            check(f"{name} {' '.join(force)} over {words}", is_kept and is_told, found)
    status, _, said = place.run("-f", "new.c", "s", below="others")
    is_right = (status, said) == (1, f"cbrowse-tree: new.c{is_source}")
    check("a new name of a source", is_right and not (folder / "new.c").exists(), said)
    check("and no other file", not list(folder.glob("*.[0-9]*")), os.listdir(folder))


def at_once(place: Place) -> None:
    """Two runs that write the same tags file, over and over."""
    expected = []
    for name in "ab":
        names = [f"twice/{name}/f{number}.c" for number in range(50)]
        for number, file in enumerate(names):
            place.put(file, f"int {name}{number}(void) {{\n}}\n")
        expected.append(one(place, sorted(names)))
    expected.append(b"")
    place.put("twice.tags", "")
    runs = [
        ["sh", place.script, "-j", "1", "-f", "twice.tags", f"twice/{name}"] for name in "ab" * 4
    ]
    started = [subprocess.Popen(run, cwd=place.folder, env=place.settings()) for run in runs]
    found = set()
    while any(it.poll() is None for it in started):
        found.add((place.folder / "twice.tags").read_bytes())
    is_whole = found <= set(expected) and len(found) > 1
    check("two runs at once do not mix", is_whole and not any(it.returncode for it in started))
    check("nothing is left", not list(place.folder.glob("twice.tags?*")))


def signals(place: Place) -> None:
    """A signal while parts run."""
    room = place.folder / "signals"
    room.mkdir()
    slow = f'#!/bin/sh\n: >"{room}/begun"\nsleep 1\nexec {place.cbrowse} "$@"\n'
    place.put("slow", slow)
    (place.folder / "slow").chmod(0o755)
    for number in signal.SIGINT, signal.SIGTERM, signal.SIGHUP:
        place.put("old", OLD)
        with contextlib.suppress(FileNotFoundError):
            (room / "begun").unlink()
        running = subprocess.Popen(
            ["sh", place.script, "-f", "old", "-j", "2", "many"],
            cwd=place.folder,
            env=place.settings(TMPDIR=room, CBROWSE=place.folder / "slow"),
            stderr=subprocess.PIPE,
        )
        while not (room / "begun").exists():
            time.sleep(0.05)
        began = time.monotonic()
        running.send_signal(number)
        said = running.communicate(timeout=60)[1].decode()
        taken = time.monotonic() - began
        told = "cbrowse-tree: old: cannot be written: ended by a signal\n"
        found = (running.returncode, said, (place.folder / "old").read_text())
        check(f"{number.name} while it runs", found == (1, told, OLD), found)
        check("it ends soon, and nothing is left", taken < 10 and left_over(room) == [], taken)


def changes(place: Place) -> None:
    """A tree whose files and folders come and go all the time."""
    tree, room = place.folder / "changing", place.folder / "changes"
    room.mkdir()

    def fill_folder(number: int) -> None:
        (tree / f"d{number}").mkdir(parents=True)
        for file in range(100):
            (tree / f"d{number}/f{file}.c").write_text(TEXT)

    for number in range(6):
        fill_folder(number)
    place.put("changing/stays.c", "int stays(void) {\n}\n")
    ended = threading.Event()

    def change() -> None:
        drawn = random.Random(1)
        while not ended.is_set():
            folder = drawn.randrange(6)
            if drawn.random() < 0.05:
                shutil.rmtree(tree / f"d{folder}")
                fill_folder(folder)
            else:
                file = tree / f"d{folder}/f{drawn.randrange(100)}.c"
                file.unlink()
                ended.wait(0.001)
                file.write_text(drawn.choice(["", TEXT, TEXT * 2000]))

    changing = threading.Thread(target=change)
    changing.start()
    left = set()
    try:
        for number in range(20):
            status, out, said = place.run("-f", "-", "-j", 4, "changing", TMPDIR=room)
            lines = [line.split(b"\t") for line in out.splitlines()]
            is_whole = all(len(line) > 3 for line in lines[2:])
            if status or not is_whole or b"stays" not in {line[0] for line in lines}:
                check(f"a tree that changes, run {number}", False, (status, said[:300]))
            left |= {line.split(": ")[1] for line in said.splitlines()}
    finally:
        ended.set()
        changing.join()
    reasons = {it.split("left out, ")[1] for it in left}
    is_right = reasons <= {"went away meanwhile", "cannot be read", "bad name"}
    check("a tree that changes", is_right and "went away meanwhile" in reasons, left)
    check("no temporary folder is left", left_over(room) == [], os.listdir(room))
    place.put("gone.c", TEXT)
    vanishing = f'#!/bin/sh\nrm -f changing/stays.c\nexec {place.cbrowse} "$@"\n'
    place.put("vanishing", vanishing)
    (place.folder / "vanishing").chmod(0o755)
    for words, expected in (["changing"], 0), (["changing/stays.c", "gone.c"], 1):
        place.put("changing/stays.c")
        found = place.run("-f", "-", *words, CBROWSE=place.folder / "vanishing")
        told = "cbrowse-tree: 1 left out, went away meanwhile: changing/stays.c\n"
        check(f"a file that goes away in {words}", (found[0], found[2]) == (expected, told), found)


def stays(place: Place, what: str, *words: str, **more: object) -> None:
    """The old tags file stays, nothing else is left, and the status is 1."""
    place.put("old", OLD)
    before = sorted(os.listdir(place.folder))
    status, _, said = place.run("-f", "old", *words, **more)
    rest = sorted(os.listdir(place.folder))
    check(
        what,
        status == 1 and (place.folder / "old").read_text() == OLD and rest == before and said != "",
        (status, said),
    )


def failures(place: Place) -> None:
    stays(place, "a folder that is not there", "many", "nowhere")
    stays(place, "a program that says nothing", "many", CBROWSE="/bin/false")
    place.put(
        "bin/sort",
        '#!/bin/sh\ncase "$*" in *-m*) echo no >&2; exit 2;; esac\n'
        'PATH=${PATH#*:}; exec sort "$@"\n',
    )
    (place.folder / "bin" / "sort").chmod(0o755)
    stays(place, "a sort that fails", "many", PATH=f"{place.folder}/bin:{os.environ['PATH']}")
    small, many = place.folder / "small", place.folder / "many/d0"
    small.mkdir()
    names = sorted(f"many/d0/{path.name}" for path in many.iterdir())
    with small_disk(small, 64) as is_mounted:
        if not is_mounted:
            return
        (small / "tags").write_text(OLD)
        fill(small)
        status, _, said = place.run("-f", "small/tags", "many/d0")
        found = (status, said, (small / "tags").read_text(), sorted(os.listdir(small)))
        told = "cbrowse-tree: small/tags: cannot be written\n"
        check("a full disk", found == (1, told, OLD, ["filled", "tags"]), found)
    for blocks in (*range(1, 40), *range(40, 240, 8)):
        with small_disk(small, blocks * 4):
            place.put("old", OLD)
            status, _, said = place.run("-j", "1", "-f", "old", "many/d0", TMPDIR=small)
            held = (place.folder / "old").read_text()
            if status == 0:
                is_whole = held == one(place, names).decode()
                check(f"a temporary folder of {blocks * 4} kB is enough", is_whole, said)
                return
            if held != OLD or not re.fullmatch("cbrowse-tree: .*: cannot be written\n", said):
                check(f"a temporary folder of {blocks * 4} kB", False, (status, said, held[:80]))
    check("a temporary folder is never enough", False)


def main() -> int:
    cbrowse = words_given(options(__doc__)).cbrowse
    with tempfile.TemporaryDirectory() as folder:
        place = Place(folder, cbrowse, "cbrowse-tree")
        whole(place)
        questions(place)
        very_large(place)
        refused(place)
        names_given(place)
        odd_names(place)
        ends(place)
        others(place)
        at_once(place)
        signals(place)
        changes(place)
        failures(place)
    return report.status()


if __name__ == "__main__":
    sys.exit(main())
