#!/usr/bin/env python3
"""Runs the program past round numbers, and asks that memory is never said to be refused.

    scripts/ample-memory.py [PROGRAM]      bin/cbrowse, if none is named

`make test` runs it on the program that it built. Where a contract says that memory may be refused,
a program that gives up at a round number would be proved. So each run below goes past some: 65,536
definitions of each kind, files, operands of a tags file, names of a list, marks and bytes of a
block, 1,048,576 facts of one file, 131,072 changes, 4,096 files, documents and bytes of a pattern,
10,000 words, 16 million bytes of a block, 12 million of a message. One text has as many bytes as a
text may have. Blocks and questions begin with each byte. An editor asks each kind of question at
the end of a large document, below a root with a long path, and at names of functions with 70,001 of
them. All that is written is compared with what this script counts from the sources that it makes.
Then come files that cannot be read, folders that are not there and wrong words, each of which has
its own message. The exit status is 1 where a check failed.
"""

from __future__ import annotations

import argparse
import gc
import json
import os
import pathlib
import re
import subprocess
import sys
import tempfile
from typing import Iterator, Optional, Sequence

TOP = pathlib.Path(__file__).resolve().parent.parent
PATIENCE = 60  # seconds until a run is given up
PROMPT = b">> "
DONE = b"cscope: done\n"
DEFINITIONS = 70_000
LINES = 1_100_000  # each has a use and a call
CHANGES = 135_000
FILES = 5_000
NAMES = 71_000  # of one file
WORDS = 12_000
BLOCK = 70_000
LARGE = 20_000_000
BODY = 12_000_000
WIDEST = ["--max-files", "1048576", "--max-file-bytes", "268435456"]
LONG = "l" * 200
REFUSED = b"out of memory"
TRY_HELP = b"\n\nFor more information, try '--help'.\n"
MANY = 70_001  # of each kind of a thing in one file
MACROS = 4_200  # each is compared with those before it
DOCUMENTS = 5_000
LARGEST = 268_435_456  # the most bytes of a file
LONGER = 100_000  # bytes of a word or of a URI
# Functions with many names. A use of `p` is an argument of a macro that calls another argument.
OF_USES = """\
#define SAME(x) x
#define CALL(f, x) f(x)
int f(int p) {
%s}
""" % "".join(f"{{ g{n}(CALL(SAME, p)); }}\n" for n in range(MANY))
OF_LABELS = "int f(void) {\n%sout:\nreturn 0;\n}\n" % ("goto out;\n" * MANY)
OF_NAMES = "\n".join(
    [
        *(f"#define M{n}() 0" for n in range(MACROS)),
        "#define WIDE(x) \\",
        *(f"w{n}() \\" for n in range(MANY)),
        "",
        "int f(void) {",
        "struct {",
        *(f"int m{n};" for n in range(MANY)),
        " } s;",
        "int",
        *(f"l{n}," for n in range(MANY)),
        "last;",
        *(f"M{n}();" for n in range(MACROS)),
        "WIDE(0);",
        "last = 1;",
        "}",
        "",
    ]
)


def rows(lines: list[bytes]) -> bytes:
    """The reply to a question with these rows."""
    return b"cscope: %d lines\n" % len(lines) + b"".join(line + b"\n" for line in lines)


def session(*replies: bytes) -> bytes:
    """What a session writes: a prompt before each reply, and one at its end."""
    return PROMPT + PROMPT.join(replies) + PROMPT


class Checks:
    """Runs of the program in one folder, and how many failed."""

    def __init__(self, program: str, folder: pathlib.Path):
        self.program, self.folder = program, folder
        self.runs = self.failed = 0

    def run(self, words: list[str], given: bytes = b"", before=None) -> tuple[int, bytes, bytes]:
        how = {"input": given, "capture_output": True, "cwd": self.folder, "timeout": PATIENCE}
        how["preexec_fn"] = before
        run = subprocess.run([self.program, *words], **how)
        return run.returncode, run.stdout, run.stderr

    def expect(self, name: str, got, want) -> None:
        self.runs += 1
        if got == want:
            return
        self.failed += 1
        print(f"FAILED {name}: {short(got)} in place of {short(want)}")

    def write(self, name: str, text: bytes) -> None:
        (self.folder / name).write_bytes(text)

    def read(self, name: str) -> Optional[bytes]:
        path = self.folder / name
        return path.read_bytes() if path.exists() else None

    # ---- sessions and jobs

    def definitions(self) -> None:
        """70,000 functions in one file, by name and by tag name, in a session and in jobs."""
        names = sorted(b"f%d" % n for n in range(DEFINITIONS))
        text = b"".join(b"int f%d(void) {\n}\n" % n for n in range(DEFINITIONS))
        self.write("defs.c", text)
        wider = ["--max-file-bytes", "4000000"]
        line_of = {b"f%d" % n: 2 * n + 1 for n in range(DEFINITIONS)}
        listing = [b"%s %d defs.c int %s(void) {" % (it, line_of[it], it) for it in names]
        tags = [b"%s\tdefs.c\t/^int %s(void) {$/" % (it, it) for it in names]
        last = b"f%d" % (DEFINITIONS - 1)
        row = b"defs.c %s %d int %s(void) {" % (last, line_of[last], last)
        given = b"1%s\nr\n:listing\n:tags\n:tag %s\n" % (last, last)
        want = session(rows([row]), DONE, rows(listing), rows(tags), DONE)
        self.expect(
            "70,000 definitions", self.run(["line", *wider, "defs.c"], given), (0, want, b"")
        )
        whole = b"".join(it + b"\n" for it in tags)
        words = ["tags", *wider, "defs.c"]
        self.expect("a tags file of 70,000", self.run(words), (0, b"", b""))
        self.expect("the tags file of 70,000", self.read("tags"), whole)
        words = ["find", *wider, "1", last.decode(), "defs.c"]
        self.expect("one of 70,000", self.run(words), (0, row + b"\n", b""))

    def kinds(self) -> None:
        """70,001 definitions of each kind in one file, by both profiles, and as many includes,
        calls in macros and tokens of one macro."""
        lines = [b'#include "h.h"'] * MANY
        # names with their lines, which both profiles find and which the wide one does
        both: dict[bytes, int] = {}
        wide: dict[bytes, int] = {}

        def add(found: dict, form: bytes) -> None:
            """Lines of a form; the name in each is its number and the letter before that."""
            letter = form[: form.index(b"%d")][-1:]
            found.update((b"%s%d" % (letter, n), len(lines) + n + 1) for n in range(MANY))
            lines.extend(form % n for n in range(MANY))

        add(both, b"#define d%d() c()")
        add(both, b"struct s%d { };")
        add(both, b"typedef int t%d;")
        lines.append(b"typedef int")
        add(both, b"u%d,")
        lines += [b"*last;", b"struct {"]
        both[b"last"] = len(lines) - 1
        add(wide, b"int m%d;")
        lines += [b"};", b"enum {"]
        add(wide, b"e%d,")
        lines.append(b"};")
        add(wide, b"int v%d;")
        add(wide, b"extern int x%d;")
        add(wide, b"int p%d(void);")
        lines.append(b"#define w() \\")
        macro = both[b"w"] = len(lines)
        lines += [*[b"c() \\"] * MANY, b"", b"int f(void) {", b"}"]
        both[b"f"] = len(lines) - 1
        self.write("kinds.c", b"\n".join(lines) + b"\n")
        for profile, found in ([], both), (["--wide", "--prototypes"], both | wide):
            rows_of = [(it, n, lines[n - 1]) for it, n in sorted(found.items())]
            want = b"".join(b"%s %d kinds.c %s\n" % it for it in rows_of)
            got = self.run(["tags", "-x", *WIDEST, *profile, "kinds.c"])
            self.expect(f"70,001 of each kind {profile}", got, (0, want, b""))
        row = b'kinds.c <global> %d #include "h.h"\n'
        want = b"".join(row % n for n in range(1, MANY + 1))
        got = self.run(["find", *WIDEST, "8", "h.h", "kinds.c"])
        self.expect("70,001 includes", got, (0, want, b""))
        calls = [(b"d%d" % n, both[b"d%d" % n]) for n in range(MANY)]
        calls += [(b"w", macro + n) for n in range(1, MANY + 1)]
        want = b"".join(b"kinds.c %s %d %s\n" % (it, n, lines[n - 1]) for it, n in calls)
        got = self.run(["find", *WIDEST, "3", "c", "kinds.c"])
        self.expect("70,001 calls in macros, and in one", got, (0, want, b""))

    def depth(self) -> None:
        """70,001 structures and 70,001 blocks, each in the one before."""
        text = b"struct {\n" * MANY + b"int deep;\n"
        text += b"".join(b" } b%d;\n" % n for n in range(MANY))
        text += b"int f(void) {\n" + b"{\n" * MANY + b"g();\n" + b" }\n" * MANY + b"}\nint v;\n"
        lines = text.splitlines()
        found = [(b"deep", MANY + 1), (b"f", 2 * MANY + 2), (b"v", len(lines))]
        found += [(b"b%d" % n, MANY + 2 + n) for n in range(MANY)]
        rows_of = [b"%s %d deep.c %s\n" % (it, n, lines[n - 1]) for it, n in sorted(found)]
        self.write("deep.c", text)
        got = self.run(["tags", "-x", "--wide", *WIDEST, "deep.c"])
        self.expect("a depth of 70,001", got, (0, b"".join(rows_of), b""))
        got = self.run(["find", *WIDEST, "3", "g", "deep.c"])
        self.expect("a call there", got, (0, b"deep.c f %d g();\n" % (3 * MANY + 3), b""))

    def crowded(self) -> None:
        """70,001 names that are called on one line."""
        calls = b"".join(b"g%d(n); " % n for n in range(MANY))
        row = b"line.c f 1 int f(void) { %s}" % calls
        self.write("line.c", b"int f(void) { %s}\n" % calls)
        given = b"3g0\n3g%d\n0n\n" % (MANY - 1)
        want = session(*[rows([row])] * 3)
        got = self.run(["line", *WIDEST, "line.c"], given)
        self.expect("a line with 70,001 calls", got, (0, want, b""))
        got = self.run(["find", *WIDEST, "3", f"g{MANY - 1}", "line.c"])
        self.expect("one of them", got, (0, row + b"\n", b""))

    def largest(self) -> None:
        """A text of the most bytes, nearly all of which are a comment."""
        first, last = b"int first(void) {\n}\n/*", b"*/\nint last(void) {\n}\n"
        with open(self.folder / "largest.c", "wb") as file:
            file.write(first)
            file.seek(LARGEST - len(last))
            file.write(last)
        want = b"first 1 largest.c int first(void) {\nlast 4 largest.c int last(void) {\n"
        got = self.run(["tags", "-x", "--wide", *WIDEST, "largest.c"])
        self.expect("268,435,456 bytes", got, (0, want, b""))
        row = b"largest.c last 4 int last(void) {\n"
        got = self.run(["find", *WIDEST, "0", "last", "largest.c"])
        self.expect("a name behind them", got, (0, row, b""))
        (self.folder / "largest.c").unlink()

    def long_words(self) -> None:
        """A name and a pattern of 100,000 bytes, and a tags file with a path of 4,000."""
        name = b"n" * LONGER
        line = b"int %s(void) {" % name
        self.write("long.c", line + b"\n\ta %s b;\n}\n" % name)
        rows_of = [b"long.c %s 1 %s\n" % (name, line), b"long.c %s 2 a %s b;\n" % (name, name)]
        uses = b"".join(rows_of)
        for field, want in (
            ("0", uses),
            ("1", rows_of[0]),
            ("4", uses.replace(b"long.c %s" % name, b"long.c <unknown>")),
        ):
            got = self.run(["find", field, name.decode(), "long.c"])
            self.expect(f"a pattern of 100,000 bytes, field {field}", got, (0, want, b""))
        path = "./" * 2_000 + "far"
        for text in (b"", b"old\told.c\t1\n"):
            self.write("far", text)
            self.expect("a path of 4,000 bytes", self.run(["tags", "-f", path, "long.c"])[0], 0)
            want = b"%s\tlong.c\t/^%s$/\n" % (name, line)
            self.expect("the file of that path", self.read("far"), want)

    def facts(self) -> None:
        """1,100,000 uses and as many calls in one file."""
        self.write("facts.c", b"int f(void) {\n" + b"g();\n" * LINES + b"}\n")
        lines = [b"%d g();\n" % n for n in range(2, LINES + 2)]
        for field, name, around in (("0", "g", b"f"), ("3", "g", b"f"), ("2", "f", b"g")):
            words = ["find", "--max-file-bytes", "8000000", field, name, "facts.c"]
            want = b"facts.c %s " % around + (b"facts.c %s " % around).join(lines)
            self.expect(f"1,100,000 facts, field {field}", self.run(words), (0, want, b""))

    def changes(self) -> None:
        """135,000 changes of one session, taken back and done again."""
        wider = ["line", *WIDEST]  # the more files, the more changes may be undone
        begin = b":load a.c 2\na\n5a\n"
        marked = rows([b"a.c <unknown> 1 a"])
        given = begin + b":mark 1\n" * CHANGES + b":marks\n"
        given += b":undo\n" * (CHANGES + 2) + b":undo\n" + b":redo\n" * (CHANGES + 2) + b":redo\n"
        none = b"cscope: refused: nothing to %s\n"
        want = [DONE, marked, *[DONE] * CHANGES, rows([]), *[DONE] * (CHANGES + 2)]
        want += [none % b"undo", *[DONE] * (CHANGES + 2), none % b"redo"]
        self.expect("135,000 changes", self.run(wider, given), (0, session(*want), b""))

    def marks_and_frames(self) -> None:
        """70,001 frames and 70,001 marks of one session, and marks in 5,000 files."""
        self.write("marks.c", b"a\n" * MANY + b"int f(void) {\n}\n")
        row = b"marks.c <unknown> %d %s"
        marked = [rows([row % (n, it) for n in range(1, MANY + 1)]) for it in (b"a", b"bb")]
        frames = rows([row % (MANY + 1, b"int f(void) {")] * MANY)
        given = b":tag f\n" * MANY + b":stack\n:pop\n"
        want = [*[DONE] * MANY, frames, DONE]
        given += b"5a\n:markall\n:marks\n:to bb\n4bb\n:undo\n:marks\n"
        want += [marked[0], DONE, marked[0], DONE, marked[1], DONE, marked[0]]
        got = self.run(["line", *WIDEST, "marks.c"], given)
        self.expect("70,001 frames and marks", got, (0, session(*want), b""))
        names = [b"m%04d.c" % n for n in range(FILES)]
        for name in names:
            self.write(name.decode(), b"a\n")
        self.write("marks.list", b"\n".join(names))
        marked = [rows([b"%s <unknown> 1 %s" % (it, x) for it in names]) for x in (b"a", b"b")]
        given = b"5a\n:markall\n:to b\n4b\n:undo\n:marks\n"
        want = [marked[0], DONE, DONE, marked[1], DONE, marked[0]]
        got = self.run(["line", *WIDEST, "--files-from", "marks.list"], given)
        self.expect("marks in 5,000 files", got, (0, session(*want), b""))

    def files(self) -> None:
        """5,000 files that a list names, and one more that a session loads."""
        names = [b"n%04d.c" % n for n in range(FILES)]
        for number, name in enumerate(names):
            self.write(name.decode(), b"int d%d(void) {\n}\n" % number)
        self.write("names.list", b"".join(name + b"\n" for name in names))
        words = ["line", "--max-files", "8192", "--files-from", "names.list"]
        given = b"1d4999\n:load o.c 0\n:drop o.c\n7n\nr\n:undo\n"
        row = b"n4999.c d4999 1 int d4999(void) {"
        found = [b"%s <unknown> 1 <unknown>" % name for name in names]
        want = session(rows([row]), DONE, DONE, rows(found), DONE, DONE)
        self.expect("5,000 files", self.run(words, given), (0, want, b""))

    def names(self) -> None:
        """71,000 names of one file, by a list, and 12,000 of them by words."""
        (self.folder / "d").mkdir()
        names = [f"d/{number:05}.c" for number in range(NAMES)]
        for name in names:
            self.write(name, b"int d(void) {\n}\n")
        self.write("names.list", b"".join(name.encode() + b"\n" for name in names))
        rows_of = [b"%s d 1 int d(void) {\n" % name.encode() for name in names]
        words = ["find", *WIDEST, "--files-from", "names.list", "1", "d"]
        self.expect("71,000 names", self.run(words), (0, b"".join(rows_of), b""))
        self.write("many.tags", b"old\told.c\t1\n")
        words = ["tags", *WIDEST, "-f", "many.tags", "--files-from", "names.list"]
        self.expect("a tags file of 71,000 files", self.run(words), (0, b"", b""))
        whole = b"".join(b"d\t%s\t/^int d(void) {$/\n" % name.encode() for name in names)
        self.expect("the tags file of 71,000 files", self.read("many.tags"), whole)
        words = ["find", *WIDEST, "1", "d", *names[:WORDS]]
        self.expect("12,000 words", self.run(words), (0, b"".join(rows_of[:WORDS]), b""))
        asked = frame("initialize", 1, {"rootUri": f"file://{self.folder}", "capabilities": {}})
        asked += frame("workspace/symbol", 2, {"query": "d"})
        asked += frame("shutdown", 3, None) + frame("exit", None, None)
        status, out, said = self.run(["lsp", *WIDEST, *names[:FILES]], asked)
        found = dict(replies_in(out)).get(2) or []
        self.expect("an editor of 5,000 files", (status, said, len(found)), (0, b"", 1_000))

    def large(self) -> None:
        """Changes of all kinds in a session of large files with long names."""
        text = b"int g(void) {\n" + b"\tw();\n" * (LARGE // 6) + b"}\n"
        row = b"%s.c g 1 int g(void) {" % LONG.encode()
        given = b":load g.c %d\n%s" % (len(text), text)
        given += b":rename g.c %s.c\n1g\n:tag g\n:pop\n5int g\n:markall\n" % LONG.encode()
        given += b":to long k\n1k\n" + b":undo\n" * 7
        want = [DONE, DONE, rows([row]), DONE, DONE, rows([row.replace(b" g 1", b" <unknown> 1")])]
        want += [DONE, DONE, rows([row.replace(b" g 1 int g", b" k 1 long k")]), *[DONE] * 7]
        got = self.run(["line", *WIDEST], given)
        self.expect("20 million bytes", got, (0, session(*want), b""))
        self.write("g.c", text + b"int h(void) {\n}\n")
        row = b"g.c h %d int h(void) {\n" % (LARGE // 6 + 3)
        got = self.run(["find", *WIDEST, "1", "h", "g.c"])
        self.expect("behind 20 million bytes", got, (0, row, b""))
        self.write("f.c", b"int f(void) {\n}\n")
        self.expect("a long name", self.run(["tags", "-f", LONG, "f.c"]), (0, b"", b""))
        want = b"f\tf.c\t/^int f(void) {$/\n"
        self.expect("the file of a long name", self.read(LONG), want)

    def blocks(self) -> None:
        """Blocks of 70,000 bytes."""
        text = b"int b(void) {\n" + b" " * (BLOCK - 17) + b"\n}\n"
        size = b"%d" % len(text)
        given = b":load b.c %s\n%s" % (size, text) + b":reload b.c %s\n%s" % (size, text)
        given += b"1b\n:undo\n:undo\n"
        want = session(DONE, DONE, rows([b"b.c b 1 int b(void) {"]), DONE, DONE)
        self.expect("blocks of 70,000 bytes", len(text), BLOCK)
        self.expect("a block of 70,000 bytes", self.run(["line"], given), (0, want, b""))

    def bytes_of_all_values(self) -> None:
        """Blocks that begin with each byte, and questions that do, each a line."""
        given, want = b"", []
        for byte in range(256):
            given += b":load b%d.c 3\n%cx\n" % (byte, byte)
            want.append(DONE)
        for byte in (it for it in range(256) if it != ord("\n")):
            given += b"4%cx\n" % byte
            shown = b"%cx" % byte
            want.append(rows([b"b%d.c <unknown> 1 %s" % (byte, shown.lstrip(b" \t"))]))
        self.expect("all bytes", self.run(["line"], given), (0, session(*want), b""))

    # ---- an editor

    def editor(self) -> None:
        """A document of 70,000 functions, a change of 70,000 bytes, and 70,000 uses; below a root
        with a long path, and beside a document of 12 million bytes."""
        root = f"file://{self.folder}/{LONG}/{LONG}"
        text = b"".join(b"int f%d(void) {\n}\n" % n for n in range(DEFINITIONS)).decode()
        text += "int u(void) {\n" + "u();\n" * BLOCK + "}\n"
        uri = f"{root}/{LONG}.c"
        document = {"uri": uri}
        place = {"line": 2 * DEFINITIONS, "character": 4}
        note = {"text": "/*" + "x" * BLOCK + "*/\n", "range": None}
        at = {"line": 0, "character": 0}
        note["range"] = {"start": at, "end": at}
        asked = {"textDocument": document, "position": {**place, "line": place["line"] + 1}}
        typed = {"textDocument": document, "position": {**asked["position"], "character": 5}}
        opened = {"uri": uri, "languageId": "c", "version": 1, "text": text}
        first = 2 * DEFINITIONS + 1  # the line of `int u(void) {` after the change
        item = {"name": "u", "kind": 12, "uri": uri, "range": line_range(first, 0, 13)}
        item["selectionRange"] = line_range(first, 4, 5)
        large = f"{root}/large.c"
        body = "/*" + "x" * BODY + "*/\nint large(void) {\n}\n"
        beside = {**opened, "uri": large, "text": body}
        changed = {"textDocument": {"uri": uri, "version": 2}, "contentChanges": [note]}
        messages = (
            ("initialize", 1, {"rootUri": root, "capabilities": {}}),
            ("initialized", None, {}),
            ("textDocument/didOpen", None, {"textDocument": opened}),
            ("textDocument/documentSymbol", 2, {"textDocument": document}),
            ("textDocument/didChange", None, changed),
            ("textDocument/references", 3, {**asked, "context": {"includeDeclaration": True}}),
            ("textDocument/rename", 4, {**asked, "newName": "v"}),
            ("textDocument/foldingRange", 5, {"textDocument": document}),
            ("textDocument/definition", 6, asked),
            ("textDocument/hover", 7, asked),
            ("textDocument/documentHighlight", 8, asked),
            ("textDocument/completion", 9, typed),
            ("textDocument/prepareRename", 10, asked),
            ("textDocument/prepareCallHierarchy", 11, asked),
            ("callHierarchy/incomingCalls", 12, {"item": item}),
            ("callHierarchy/outgoingCalls", 13, {"item": item}),
            ("workspace/symbol", 14, {"query": "u"}),
            ("textDocument/didOpen", None, {"textDocument": beside}),
            ("textDocument/documentSymbol", 15, {"textDocument": {"uri": large}}),
            ("shutdown", 16, None),
            ("exit", None, None),
        )
        status, out, said = self.run(["lsp", *WIDEST], b"".join(frame(*it) for it in messages))
        replies = dict(replies_in(out))
        self.expect("an editor", (status, said), (0, b""))
        self.expect("an editor, its replies", list(replies), list(range(1, 17)))
        if list(replies) != list(range(1, 17)):
            return
        self.questions(replies, uri, first)
        names = [it["name"] for it in replies[2]]
        want = [f"f{n}" for n in range(DEFINITIONS)] + ["u"]
        self.expect("an editor, 70,001 symbols", names, want)
        lines = [it["range"]["start"]["line"] for it in replies[3]]
        self.expect("an editor, 70,001 uses", lines, list(range(first, first + BLOCK + 1)))
        edits = [len(edits) for edits in replies[4]["changes"].values()]
        self.expect("an editor, 70,001 edits", edits, [BLOCK + 1])
        folds = [it["startLine"] for it in replies[5]]
        want = list(range(1, 2 * DEFINITIONS + 2, 2))
        self.expect("an editor, 70,001 folds", folds, want)

    def questions(self, replies: dict, uri: str, first: int) -> None:
        """What an editor is told at the end of that document."""
        name, line = line_range(first, 4, 5), line_range(first, 0, 13)
        place = {"uri": uri, "range": name}
        item = {"name": "u", "kind": 12, "uri": uri, "range": line, "selectionRange": name}
        calls = [line_range(one, 0, 1) for one in range(first + 1, first + BLOCK + 1)]
        hover = {"kind": "plaintext", "value": f"{LONG}.c:{first + 1}\nint u(void) {{"}
        for number, want in (
            (6, [place]),
            (7, {"contents": hover, "range": name}),
            (8, [{"range": it} for it in [name, *calls]]),
            (9, {"isIncomplete": False, "items": [{"label": "u", "kind": 3, "sortText": "1u"}]}),
            (10, name),
            (11, [item]),
            (12, [{"from": item, "fromRanges": calls}]),
            (13, [{"to": item, "fromRanges": calls}]),
            (14, [{"name": "u", "kind": 12, "location": place}]),
        ):
            self.expect(f"an editor, reply {number}", replies[number], want)
        names = [it["name"] for it in replies[15]]
        self.expect("an editor, a message of 12 million bytes", names, ["large"])

    def serve(
        self, name: str, words: list[str], messages: list[tuple | bytes], told: Sequence[str] = ()
    ) -> dict:
        """The replies of a server to the messages of an editor. It tells these texts, and writes
        nothing else."""
        root = {"rootUri": "file:///w", "capabilities": {}}
        given = [it if isinstance(it, bytes) else frame(*it) for it in messages]
        given = [frame("initialize", -2, root), *given, frame("shutdown", -1, None)]
        given.append(frame("exit", None, None))
        status, out, said = self.run(["lsp", *WIDEST, *words], b"".join(given))
        written = list(messages_in(out))
        replies = {it["id"]: it.get("result") for it in written if "id" in it}
        shown = [it["params"]["message"] for it in written if "params" in it]
        numbers = [it[1] for it in messages if isinstance(it, tuple) and it[1] is not None]
        self.expect(name, (status, said, list(replies)), (0, b"", [-2, *numbers, -1]))
        self.expect(f"{name}, what is told", shown, list(told))
        return {number: replies.get(number) for number in numbers}

    def locals(self) -> None:
        """A local with 70,001 uses that are arguments, a label with as many, and a local beside as
        many names of its declaration, members of a structure and names of a macro."""
        messages: list[tuple | bytes] = []
        wants: list[tuple] = []
        for file, text, name, kind in (
            ("u.c", OF_USES, "p", 2),
            ("o.c", OF_LABELS, "out", 1),
            ("n.c", OF_NAMES, "last", 3),
        ):
            uri = f"file:///w/{file}"
            words = re.compile(rf"\b{name}\b").finditer
            ranges = []
            for n, line in enumerate(text.splitlines()):
                ranges += [line_range(n, *it.span()) for it in words(line)]
            kinds = [1] + [kind] * (len(ranges) - 1)
            asked = {"textDocument": {"uri": uri}, "position": ranges[-1]["start"]}
            marks = [{"range": it, "kind": kind} for it, kind in zip(ranges, kinds)]
            edits = [{"range": it, "newText": "new"} for it in ranges]
            messages.append(opened(uri, text))
            messages.append(("textDocument/documentHighlight", len(wants), asked))
            wants.append((f"{len(ranges)} uses of {name}", marks))
            messages.append(("textDocument/rename", len(wants), {**asked, "newName": "new"}))
            wants.append((f"{len(ranges)} edits of {name}", {"changes": {uri: edits}}))
        replies = self.serve("functions with 70,001 names", [], messages)
        for number, (name, want) in enumerate(wants):
            self.expect(name, replies[number], want)

    def hierarchy(self) -> None:
        """A function that 70,001 others call and that calls them all, and 140,002 symbols."""
        uri = "file:///w/h.c"
        names = [f"f{n}" for n in range(MANY)]
        heads = [f"int {name}(void) {{ " for name in names]
        members = [f"e{n}," for n in range(MANY)]
        text = "".join(f"{head}hub(); }}\n" for head in heads)
        text += "int hub(void) {\n" + "".join(f"{name}();\n" for name in names) + "}\n"
        text += "enum { " + " ".join(members) + " };\n"

        def item(line: int, name: str, length: int) -> dict:
            whole, of_name = line_range(line, 0, length), line_range(line, 4, 4 + len(name))
            it = {"name": name, "kind": 12, "uri": uri, "range": whole}
            return {**it, "selectionRange": of_name}

        ends = [len(it) + len("hub(); }") for it in heads]
        items = [item(*it) for it in zip(range(MANY), names, ends)]
        hub = {"item": item(MANY, "hub", len("int hub(void) {"))}
        replies = self.serve(
            "140,002 symbols",
            ["--wide"],
            [
                opened(uri, text),
                ("callHierarchy/incomingCalls", 1, hub),
                ("callHierarchy/outgoingCalls", 2, hub),
                ("textDocument/documentSymbol", 3, {"textDocument": {"uri": uri}}),
            ],
        )
        calls = [line_range(n, len(it), len(it) + 3) for n, it in enumerate(heads)]
        want = [{"from": it, "fromRanges": [at]} for it, at in zip(items, calls)]
        self.expect("70,001 incoming calls", replies[1], want)
        calls = [line_range(MANY + 1 + n, 0, len(it)) for n, it in enumerate(names)]
        want = [{"to": it, "fromRanges": [at]} for it, at in zip(items[:1_000], calls)]
        self.expect("outgoing calls of 70,001 names", replies[2], want)
        found = [(it["name"], it["location"]["range"]["end"]) for it in replies[3] or []]
        want = [*names, "hub", *(it[:-1] for it in members)]
        self.expect("140,002 symbols", [name for name, _ in found], want)
        end = {"line": 2 * MANY + 2, "character": len("enum { " + " ".join(members)) - 1}
        self.expect("the last one of a long line", found[-1:], [(members[-1][:-1], end)])

    def documents(self) -> None:
        """5,000 open documents, which a dropped message of 12 million bytes puts out of date."""
        names = [f"d{n}" for n in range(DOCUMENTS)]
        messages = [opened(f"file:///w/{it}.c", f"int {it}(void) {{\n}}\n") for it in names]
        last = {"textDocument": {"uri": f"file:///w/{names[-1]}.c"}}
        change = {**last, "contentChanges": [{"text": "int last(void) {\n}\n"}]}
        messages.append(("textDocument/didChange", None, change))
        messages.append(("textDocument/documentSymbol", 1, last))
        messages.append(b"Content-Length: %d\r\n\r\n[" % BODY + b" " * (BODY - 1))
        for name in names:
            document = {"textDocument": {"uri": f"file:///w/{name}.c"}}
            messages.append(("textDocument/didClose", None, document))
        messages.append(("textDocument/documentSymbol", 2, last))
        why = "out of date, a message was dropped: close the file and open it again"
        told = ["cbrowse: not JSON", *(f"cbrowse: {name}.c: {why}" for name in names)]
        replies = self.serve("5,000 documents", [], messages, told)
        for number, name in ((1, "last"), (2, names[-1])):
            found = [it["name"] for it in replies[number] or []]
            self.expect(f"5,000 documents, reply {number}", found, [name])

    def odd_bodies(self) -> None:
        """Bodies of 12 million bytes with half of a surrogate pair, and with what is not UTF-8."""
        uri = "file:///w/odd.c"
        half = frame(*opened(uri, "/*" + "x" * BODY + "\ud83d*/\nint f(void) {\n}\n"))
        symbols = ("textDocument/documentSymbol", 1, {"textDocument": {"uri": uri}})
        for body in (half, half.replace(b"\\ud83d", b"\xf0" * 6)):
            replies = self.serve("a body of 12 million bytes", [], [body, symbols])
            found = [it["name"] for it in replies[1] or []]
            self.expect("a body of 12 million bytes, its symbols", found, ["f"])

    def long_uris(self) -> None:
        """URIs and a root of 100,000 bytes, and a name of as many."""
        name = "n" * LONGER
        text = f"int {name}(void) {{\n}}\n"
        folder = "/" + "r" * LONGER
        far = "file:///w/" + "%2E/" * (LONGER // 4) + "a%2Ec"
        for what, words, uri, place in (
            ("URI", [], far, "file:///w/a.c"),
            ("root", ["--root", folder], f"file://{folder}/a.c", f"file://{folder}/a.c"),
        ):
            asked = {"textDocument": {"uri": uri}, "position": {"line": 0, "character": 4 + LONGER}}
            where = {"uri": place, "range": line_range(0, 4, 4 + LONGER)}
            symbol = {"name": name, "kind": 12, "location": where}
            labels = [{"label": name, "kind": 3, "sortText": "1" + name}]
            wants = (
                ("textDocument/definition", asked, [where]),
                ("textDocument/completion", asked, {"isIncomplete": False, "items": labels}),
                ("textDocument/documentSymbol", asked, [symbol]),
                ("workspace/symbol", {"query": name}, [symbol]),
            )
            messages = [opened(uri, text)]
            messages += [(method, n, sent) for n, (method, sent, _) in enumerate(wants)]
            replies = self.serve(f"a {what} of 100,000 bytes", words, messages)
            for number, (method, _, want) in enumerate(wants):
                self.expect(f"a {what} of 100,000 bytes, {method}", replies[number], want)

    # ---- what goes wrong for another reason

    def reasons(self) -> None:
        """Each failure has its own message, and none is want of memory."""
        self.write("a.c", b"int a;\n")
        (self.folder / "folder.c").mkdir()
        os.mkfifo(self.folder / "pipe.c")
        cannot = b"cbrowse: %s: cannot be %s\n"
        for name in ("folder.c", "pipe.c", "none.c", "none/a.c", "a.c/a.c"):
            for words in (["line"], ["tags"], ["find", "1", "a"], ["lsp"]):
                got = self.run([*words, "a.c", name])
                want = (1, b"", cannot % (name.encode(), b"read"))
                self.expect(f"{words[0]} {name}", got, want)
        self.write("shut.c", b"int s;\n")
        (self.folder / "shut.c").chmod(0)
        got = self.run(["find", "1", "s", "shut.c"], before=as_nobody)
        self.expect("find shut.c", got, (1, b"", cannot % (b"shut.c", b"read")))
        for name in ("none/tags", "folder.c", "a.c/tags"):
            got = self.run(["tags", "-f", name, "a.c"])
            self.expect(f"tags -f {name}", got, (1, b"", cannot % (name.encode(), b"written")))
        for name in ("none.list", "folder.c"):
            got = self.run(["tags", "--files-from", name])
            self.expect(f"--files-from {name}", got, (1, b"", cannot % (name.encode(), b"read")))
        said = b"cbrowse: field not in this profile\n"
        self.expect("find 9", self.run(["find", "9", "a", "a.c"]), (2, b"", said))
        said = b"cbrowse: no pattern\n"
        self.expect("find 1 ''", self.run(["find", "1", "", "a.c"]), (2, b"", said))
        for words in (
            ["lines"],
            ["tags"],
            ["line", "--max-files", "0"],
            ["find", "1"],
            ["lsp", "-x"],
        ):
            status, out, said = self.run(words)
            is_usage = said.startswith(b"error: ") and said.endswith(TRY_HELP)
            told = (status, out, is_usage, REFUSED in said)
            self.expect(" ".join(words), told, (2, b"", True, False))


def as_nobody() -> None:
    """Gives up the rights of root, who may read every file."""
    if os.geteuid() == 0:
        os.setuid(65534)


def short(value) -> str:
    text = repr(value)
    return text if len(text) < 400 else f"{text[:200]} .. {text[-150:]}"


def line_range(line: int, start: int, end: int) -> dict:
    """The range of some characters of a line."""
    return {
        "start": {"line": line, "character": start},
        "end": {"line": line, "character": end},
    }


def frame(method: str, number: Optional[int], params: Optional[dict]) -> bytes:
    message = {"jsonrpc": "2.0", "method": method, "params": params}
    if number is not None:
        message["id"] = number
    body = json.dumps(message).encode()
    return b"Content-Length: %d\r\n\r\n%s" % (len(body), body)


def opened(uri: str, text: str) -> tuple:
    """The message that opens a document."""
    document = {"uri": uri, "languageId": "c", "version": 1, "text": text}
    return "textDocument/didOpen", None, {"textDocument": document}


def messages_in(out: bytes) -> Iterator[dict]:
    """The messages that a server wrote."""
    place = 0
    while place < len(out):
        end = out.index(b"\r\n\r\n", place) + 4
        size = int(out[place : end - 4].removeprefix(b"Content-Length: "))
        if len(out) < end + size:
            return  # a message that is cut off is none
        yield json.loads(out[end : end + size])
        place = end + size


def replies_in(out: bytes) -> Iterator[tuple]:
    """The replies of a server by number, and any other message by its method."""
    for message in messages_in(out):
        yield message.get("id", message.get("method")), message.get("result")


def main() -> int:
    parser = argparse.ArgumentParser(
        description=__doc__, formatter_class=argparse.RawDescriptionHelpFormatter
    )
    parser.add_argument(
        "program", nargs="?", default=str(TOP / "bin" / "cbrowse"), metavar="PROGRAM"
    )
    program = str(pathlib.Path(parser.parse_args().program).resolve())
    gc.disable()  # it looks at millions of ranges again and again, and finds nothing
    with tempfile.TemporaryDirectory() as room:
        os.chmod(room, 0o755)  # so that a run without the rights of root finds it
        checks = Checks(program, pathlib.Path(room).resolve())
        for check in (
            checks.definitions,
            checks.kinds,
            checks.depth,
            checks.crowded,
            checks.largest,
            checks.long_words,
            checks.facts,
            checks.changes,
            checks.marks_and_frames,
            checks.files,
            checks.names,
            checks.large,
            checks.blocks,
            checks.bytes_of_all_values,
            checks.editor,
            checks.locals,
            checks.hierarchy,
            checks.documents,
            checks.odd_bodies,
            checks.long_uris,
            checks.reasons,
        ):
            check()
    print(f"ample memory: {checks.runs - checks.failed} passed, {checks.failed} failed")
    return 1 if checks.failed else 0


if __name__ == "__main__":
    sys.exit(main())
