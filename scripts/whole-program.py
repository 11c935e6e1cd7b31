#!/usr/bin/env python3
"""Runs the program on words and files, and compares all that it writes with what it should.

    scripts/whole-program.py [PROGRAM]                  bin/cbrowse, if none is named
    scripts/whole-program.py --not-proved [PROGRAM]     one of `make quick`, whose version says so

`make test` runs it on the program that it built. Each row below is the words, what standard output
and standard error have, the exit status, and the tags file that is then there. After the rows come
devices: a bound on the size of a file at each byte, standard input that fails after each byte, and
full devices; then
sources and operands in the place of a tags file, files that it may replace and may not, folders
and files that may not be written, runs at once, what is not a regular file as an operand, 4,096
files and one more, and lists as large as they may be. The exit status is 1 where a check failed.
"""

from __future__ import annotations

import argparse
import json
import os
import pathlib
import re
import resource
import signal
import socket
import stat
import subprocess
import sys
import tempfile
import tty
from typing import NamedTuple, Optional

TOP = pathlib.Path(__file__).resolve().parent.parent
PATIENCE = 60  # seconds until a run is given up

A_C = b"""\
#include "a.h"
#define TWICE(x) ((x) + add(x, 0))
typedef unsigned long word;
static int add(int a, int b) {
	return a + b;
}
int main(void) {
	return add(1, 2) / TWICE(3);
}
"""
MANY_CALLS = b"int f(int n) { %s}\n" % b"".join(b"g%d(n); " % k for k in range(33))
FILES = {
    "a.c": A_C,
    "many.c": MANY_CALLS,
    "m.c": b"int Mb(void) {\n}\n",
    "n.c": b"int a = -x;\n",
    "a.txt": A_C,
    "none.h": b"",
    "w.h": b"enum color { RED };\nstruct pair { int first; } pairs[2];\n"
    b"extern int n;\nint f(int);\n",
    "last.c": b" " * (1_000_000 - 20) + b"\nint last(void) {\n}\n",
    "big.c": b" " * 1_000_002,
    # lists of files
    "one.list": b"a.c",
    "two.list": b"m.c\r\nn.c\n",
    "none.list": b"",
    "gone.list": b"a.c\nnone.c\n",
    "gap.list": b"a.c\n\nm.c\n",
    "big.list": b"big.c\n",
    "quoted.list": b'"a.c"\n',
    "return.list": b"a.c\r",
    "latin.list": b"a.c\n\xe9.c\n",
    # names with letters outside ASCII
    "\u00fc.c": A_C,
    "\u00e9.list": b"a.c\n",
    "letters.list": "a.c\n\u00fc.c\n".encode(),
}
PLAIN = b"""\
Ma	a.c	/^int main(void) {$/
TWICE	a.c	/^#define TWICE(x) ((x) + add(x, 0))$/
add	a.c	/^static int add(int a, int b) {$/
word	a.c	/^typedef unsigned long word;$/
"""
EXTENDED = b"""\
!_TAG_FILE_FORMAT	2	/extended format; --format=1 will not append ;" to lines/
!_TAG_FILE_SORTED	1	/0=unsorted, 1=sorted, 2=foldcase/
TWICE	a.c	/^#define TWICE(x) ((x) + add(x, 0))$/;"	d	line:2
add	a.c	/^static int add(int a, int b) {$/;"	f	line:4	file:
main	a.c	/^int main(void) {$/;"	f	line:7
word	a.c	/^typedef unsigned long word;$/;"	t	line:3
"""
LISTING = b"""\
TWICE 2 a.c #define TWICE(x) ((x) + add(x, 0))
add 4 a.c static int add(int a, int b) {
main 7 a.c int main(void) {
word 3 a.c typedef unsigned long word;
"""
WIDE_TAGS = b"""\
!_TAG_FILE_FORMAT	2	/extended format; --format=1 will not append ;" to lines/
!_TAG_FILE_SORTED	1	/0=unsorted, 1=sorted, 2=foldcase/
RED	w.h	/^enum color { RED };$/;"	e	line:1	enum:color
color	w.h	/^enum color { RED };$/;"	g	line:1
first	w.h	/^struct pair { int first; } pairs[2];$/;"	m	line:2	struct:pair
pair	w.h	/^struct pair { int first; } pairs[2];$/;"	s	line:2
pairs	w.h	/^struct pair { int first; } pairs[2];$/;"	v	line:2
"""
WIDE_LISTING = b"""\
RED 1 w.h enum color { RED };
color 1 w.h enum color { RED };
f 4 w.h int f(int);
first 2 w.h struct pair { int first; } pairs[2];
n 3 w.h extern int n;
pair 2 w.h struct pair { int first; } pairs[2];
pairs 2 w.h struct pair { int first; } pairs[2];
"""
OLD = b"old\told.c\t1\n"  # an old tags file
ROWS_OF_ADD = b"""\
a.c TWICE 2 #define TWICE(x) ((x) + add(x, 0))
a.c add 4 static int add(int a, int b) {
a.c main 8 return add(1, 2) / TWICE(3);
"""
CALLS_ADD = b"""\
a.c TWICE 2 #define TWICE(x) ((x) + add(x, 0))
a.c main 8 return add(1, 2) / TWICE(3);
"""
HELP = b"""\
Browses C sources

Usage: cbrowse <COMMAND>

Commands:
  line  Reads commands from standard input and writes their replies
  find  Writes the rows that answer one question about C sources
  tags  Writes the tags of C sources to a tags file
  lsp   Serves an editor by the Language Server Protocol, over standard input and output
  help  Print this message or the help of the given subcommand(s)

Options:
  -h, --help     Print help
  -V, --version  Print version
"""
HELP_LINE = b"""\
Reads commands from standard input and writes their replies

Usage: cbrowse line [OPTIONS] [FILE]...

Arguments:
  [FILE]...  C source to load first

Options:
      --wide                Find enumerators, members and variables too, and names that macros hide
      --prototypes          With --wide: find external declarations and prototypes too
      --max-files <N>       Most files, 1 to 1048576 [default: 4096]
      --max-file-bytes <N>  Most bytes of a file, 1 to 268435456 [default: 1000000]
      --files-from <LIST>   File with the names of more files, one a line
  -h, --help                Print help

Example: cbrowse line a.c
"""
HELP_LSP = b"""\
Serves an editor by the Language Server Protocol, over standard input and output

Usage: cbrowse lsp [OPTIONS] [FILE]...

Arguments:
  [FILE]...  C source to load first

Options:
      --root <DIR>          Folder that the names of files are relative to; that of the \
editor if not given
      --wide                Find enumerators, members and variables too, and names that macros hide
      --prototypes          With --wide: find external declarations and prototypes too
      --max-files <N>       Most files, 1 to 1048576 [default: 4096]
      --max-file-bytes <N>  Most bytes of a file, 1 to 268435456 [default: 1000000]
      --files-from <LIST>   File with the names of more files, one a line
  -h, --help                Print help

Example: cbrowse lsp --root /home/me/project a.c
"""
HELP_TAGS = b"""\
Writes the tags of C sources to a tags file

Usage: cbrowse tags [OPTIONS] [FILE]...

Arguments:
  [FILE]...  C source to write the tags of

Options:
  -x                        Write a listing to standard output instead
  -f <TAGSFILE>             Tags file to write, - for standard output [default: tags]
      --force               Replace a file that is not a tags file
      --format <FORMAT>     Format of the tags file: 1 for POSIX ctags, 2 with extension fields \
[default: 1] [possible values: 1, 2]
      --wide                Find enumerators, members and variables too, and names that macros hide
      --prototypes          With --wide: find external declarations and prototypes too
      --max-files <N>       Most files, 1 to 1048576 [default: 4096]
      --max-file-bytes <N>  Most bytes of a file, 1 to 268435456 [default: 1000000]
      --files-from <LIST>   File with the names of more files, one a line; - for standard input
  -h, --help                Print help

Example: cbrowse tags a.c
"""
HELP_FIND = b"""\
Writes the rows that answer one question about C sources

Usage: cbrowse find [OPTIONS] <NUM> <PATTERN> [FILE]...

Arguments:
  <NUM>      Field of the search: 0 uses of a name, 1 its definitions, 2 calls in a function, \
3 calls of it, 4 a text, 7 file names, 8 includes
  <PATTERN>  What is searched for; after -- where it begins with -
  [FILE]...  C source to search

Options:
      --wide                Find enumerators, members and variables too, and names that macros hide
      --prototypes          With --wide: find external declarations and prototypes too
      --max-files <N>       Most files, 1 to 1048576 [default: 4096]
      --max-file-bytes <N>  Most bytes of a file, 1 to 268435456 [default: 1000000]
      --files-from <LIST>   File with the names of more files, one a line; - for standard input
  -h, --help                Print help

Example: cbrowse find 1 main a.c
"""


NOTES = (TOP / "docs" / "RELEASES.md").read_text()
VERSION = b"cbrowse " + re.findall(r"^## (\S+)", NOTES, re.MULTILINE)[0].encode()


class Row(NamedTuple):
    """The words; what is written; and, where one is made, a tags file and its bytes."""

    words: list[str | bytes]
    out: bytes = b""
    said: bytes = b""
    status: int = 0
    tags: Optional[tuple[str, bytes]] = None
    given: bytes = b":undo\n"


def line(given: bytes, out: bytes, said: bytes = b"", status: int = 0, files: tuple = ()) -> Row:
    return Row(["line", *files], out, said, status, given=given)


def refused(words: list[str], said: bytes, status: int = 1) -> Row:
    return Row(words, b"", b"cbrowse: " + said + b"\n", status)


def wrong(words: list[str | bytes], said: bytes, usage: bytes = b"") -> Row:
    """Wrong words: what is said of them, and how the program or a command is used, if that is."""
    usage = usage and b"\n\nUsage: " + usage
    return Row(words, b"", b"error: " + said + usage + TRY_HELP, 2)


def no_bound(option: str, value: str, most: int) -> bytes:
    """Why a value is no bound."""
    why = f"{value} is not in 1..={most}" if value.isdigit() else "invalid digit found in string"
    return f"invalid value '{value}' for '{option} <N>': {why}".encode()


def help_of(words: list[str], said: bytes) -> Row:
    return Row(words, b"", said, 0)


BIG_ROW = b"big.c <unknown> 1 \n"
NO_FIELD, NO_PATTERN = b"field not in this profile", b"no pattern"
TRY_HELP = b"\n\nFor more information, try '--help'.\n"
LACKS = b"the following required arguments were not provided:\n"
LACKS_FILES = LACKS + b"  <FILE>... or --files-from <LIST>"
LACKS_WIDE = LACKS + b"  --wide"
TAKEN = b"invalid value '-' for '--files-from <LIST>': standard input has the "
NO_ROOT = b"invalid value for '--root <DIR>': it must begin with '/'"
NO_VALUE = b"a value is required for '%s' but none was supplied"
UNEXPECTED = b"unexpected argument '%s' found\n\n  tip: to pass '%s' as a value, use '-- %s'"
UNKNOWN = b"unrecognized subcommand '%s'"
COMMAND_USAGE = b"cbrowse <COMMAND>"
LINE_USAGE = b"cbrowse line [OPTIONS] [FILE]..."
FIND_USAGE = b"cbrowse find [OPTIONS] <NUM> <PATTERN> [FILE]..."
TAGS_USAGE = b"cbrowse tags [OPTIONS] [FILE]..."
LSP_USAGE = b"cbrowse lsp [OPTIONS] [FILE]..."
ROWS = [
    # sessions
    line(b"q\n", b">> "),
    line(b"", b">> "),
    line(
        b":load t.c 50\n01234567890123456789",
        b">> cscope: refused: input ended\n",
        b"cbrowse: input ended\n",
        1,
    ),
    line(
        b"a" * 1_000_000 + b"\n:undo\n",
        b">> cscope: refused: line too long\n>> cscope: refused: nothing to undo\n>> ",
    ),
    line(b"a" * 1_000_001, b">> ", b"cbrowse: line over 1000000 bytes\n", 1),
    line(
        b":load b.c 1000001\n:undo\n",
        b">> cscope: refused: bad count\n>> cscope: refused: nothing to undo\n>> ",
    ),
    # bounds of other sizes: a line is as long as the largest file, and never shorter by default
    line(
        b":load b.c 1000001\n" + b"\n" * 1_000_001 + b"7b.c\n",
        b">> cscope: done\n>> cscope: 1 lines\nb.c <unknown> 1 <unknown>\n>> ",
        files=("--max-file-bytes", "1000001"),
    ),
    line(
        b"a" * 1_000_001 + b"\n" + b"a" * 1_000_002,
        b">> cscope: refused: line too long\n>> ",
        b"cbrowse: line over 1000001 bytes\n",
        1,
        files=("--max-file-bytes=1000001",),
    ),
    line(
        b":load b.c 31\nint f(void) {\n\treturn 1 + 2;\n}\n:load n.h 0\n",
        b">> cscope: refused: too large\n>> cscope: refused: too many files\n>> ",
        files=("--max-file-bytes", "30", "--max-files", "1", "m.c"),
    ),
    line(
        b"1add\n:undo\n1add\n1Mb\n",
        b">> cscope: 1 lines\na.c add 4 static int add(int a, int b) {\n>> cscope: done\n"
        b">> cscope: 0 lines\n>> cscope: 1 lines\nm.c Mb 1 int Mb(void) {\n>> ",
        files=("m.c", "a.c"),
    ),
    # tags files and listings
    Row(["tags", "a.c"], tags=("tags", PLAIN)),
    Row(["tags", "--format", "1", "-f", "one", "a.c"], tags=("one", PLAIN)),
    Row(["tags", "--format", "2", "-f", "two", "a.c"], tags=("two", EXTENDED)),
    Row(["tags", "a.c", "--format", "2"], tags=("tags", EXTENDED)),
    Row(["tags", "a.c", "--format=2", "-fout"], tags=("out", EXTENDED)),
    Row(["tags", "none.h"], tags=("tags", b"")),
    Row(["tags", "-x", "-f", "no", "--format", "1", "a.c"], LISTING),
    Row(["tags", "a.c", "-x"], LISTING),
    Row(["tags", "-f", "-", "a.c"], PLAIN),
    Row(["tags", "-f-", "--format", "2", "a.c"], EXTENDED),
    Row(["tags", "-x", "-f", "-", "a.c"], LISTING),
    Row(["tags", "-f", "./-", "a.c"], tags=("-", PLAIN)),
    Row(["tags", "-x", "last.c"], b"last 2 last.c int last(void) {\n"),
    # searches
    Row(["find", "0", "add", "a.c"], ROWS_OF_ADD),
    Row(["find", "1", "word", "a.c"], b"a.c word 3 typedef unsigned long word;\n"),
    Row(["find", "2", "TWICE", "a.c"], b"a.c add 2 #define TWICE(x) ((x) + add(x, 0))\n"),
    Row(["find", "3", "add", "a.c"], CALLS_ADD),
    Row(["find", "4", "a +", "a.c"], b"a.c <unknown> 5 return a + b;\n"),
    Row(["find", "4", "--", "-x", "n.c", "a.c"], b"n.c <unknown> 1 int a = -x;\n"),
    Row(
        ["find", "7", ".c", "n.c", "a.c"], b"a.c <unknown> 1 <unknown>\nn.c <unknown> 1 <unknown>\n"
    ),
    Row(["find", "8", "a.h", "a.c"], b'a.c <global> 1 #include "a.h"\n'),
    Row(["find", "1", "none", "a.c"]),
    # more on one line than is searched for
    Row(
        ["find", "2", "f", "many.c"],
        b"".join(b"many.c g%d 1 %s" % (k, MANY_CALLS) for k in range(33)),
    ),
    Row(["find", "0", "n", "many.c"], b"many.c f 1 " + MANY_CALLS),
    # the number is judged first, then the pattern, then the files
    *(
        refused(["find", num, pattern, "none.c"], NO_FIELD, 2)
        for num in ("5", "6", "9", "", "01", "1 ", "x")
        for pattern in ("f", "")
    ),
    refused(["find", "1", "", "none.c"], NO_PATTERN, 2),
    refused(["find", "1", "f", "none.c"], b"none.c: cannot be read"),
    refused(["find", "1", "f", "a.c", "a.c"], b"a.c: file exists"),
    refused(["find", "1", "f", "a.txt", "none.c"], b"none.c: cannot be read"),
    refused(["find", "1", "f", "a.c", "a.txt"], b"a.txt: bad name"),
    # by the wide profile
    Row(["tags", "--wide", "--format=2", "w.h"], tags=("tags", WIDE_TAGS)),
    Row(["tags", "-x", "w.h", "--prototypes", "--wide"], WIDE_LISTING),
    Row(["tags", "--wide", "a.c"], tags=("tags", PLAIN)),
    Row(
        ["tags", "-x", "w.h"],
        b"color 1 w.h enum color { RED };\npair 2 w.h struct pair { int first; } pairs[2];\n",
    ),
    Row(["find", "1", "first", "w.h"]),
    Row(["find", "1", "--wide", "n", "w.h"]),
    Row(["find", "1", "--wide", "RED", "w.h"], b"w.h RED 1 enum color { RED };\n"),
    # declarations are rows of uses, and of no definitions
    Row(["find", "--wide", "--prototypes", "1", "n", "w.h"]),
    Row(["find", "--wide", "--prototypes", "1", "f", "w.h"]),
    Row(["find", "--wide", "--prototypes", "0", "n", "w.h"], b"w.h <global> 3 extern int n;\n"),
    line(
        b"1RED\n:load v.c 6\nint v;1v\n:undo\n1v\n",
        b">> cscope: 1 lines\nw.h RED 1 enum color { RED };\n>> cscope: done\n"
        b">> cscope: 1 lines\nv.c v 1 int v;\n>> cscope: done\n>> cscope: 0 lines\n>> ",
        files=("--wide", "w.h"),
    ),
    *(
        wrong([*words, "--prototypes", "a.c"], LACKS_WIDE)
        for words in (["line"], ["find", "1", "f"], ["tags"])
    ),
    # other bounds
    Row(["find", "4", "--max-file-bytes", "1000002", " ", "big.c"], BIG_ROW),
    Row(["find", "7", "x", "n.c", "m.c", "--max-files", "2", "--max-file-bytes=17"]),
    refused(["find", "7", "x", "n.c", "m.c", "--max-files", "1"], b"m.c: too many files"),
    refused(["find", "7", "x", "n.c", "m.c", "--max-file-bytes", "16"], b"m.c: too large"),
    refused(["tags", "--max-files", "1", "n.c", "m.c"], b"m.c: too many files"),
    *(
        wrong([*words, option, value, "a.c"], no_bound(option, value, most))
        for words in (["line"], ["find", "1", "f"], ["tags"])
        for option, most in (("--max-files", 1_048_576), ("--max-file-bytes", 268_435_456))
        for value in ("0", str(most + 1), "x", "1e3")
    ),
    *(
        Row([*words, "--max-files", "1048576", "--max-file-bytes", "268435456", "none.h"])
        for words in (["find", "1", "f"], ["tags", "-f", "-"])
    ),
    # lists of files: their names stand behind the others, and in order
    line(
        b"1add\n1Mb\n:undo\n:undo\n1Mb\n1add\n",
        b">> cscope: 1 lines\na.c add 4 static int add(int a, int b) {\n"
        b">> cscope: 1 lines\nm.c Mb 1 int Mb(void) {\n>> cscope: done\n>> cscope: done\n"
        b">> cscope: 0 lines\n>> cscope: 1 lines\na.c add 4 static int add(int a, int b) {\n>> ",
        files=("--files-from", "two.list", "a.c"),
    ),
    line(b"7c\n", b">> cscope: 0 lines\n>> ", files=("--files-from=none.list",)),
    Row(["tags", "--files-from", "one.list"], tags=("tags", PLAIN)),
    Row(["tags", "-x", "a.c", "--files-from", "/dev/null"], LISTING),
    Row(["tags", "--files-from", "none.list"], tags=("tags", b"")),
    Row(["find", "0", "add", "--files-from", "-"], ROWS_OF_ADD, given=b"n.c\na.c\nm.c"),
    Row(["find", "1", "Mb", "--files-from=two.list"], b"m.c Mb 1 int Mb(void) {\n"),
    Row(["find", "1", "Mb", "--files-from", "none.list"]),
    Row(["tags", "-f-", "--files-from", "-"], given=b""),
    refused(["tags", "--files-from", "one.list", "a.c"], b"a.c: file exists"),
    refused(["tags", "--files-from", "big.list", "a.txt"], b"a.txt: bad name"),
    refused(["tags", "--files-from", "big.list", "m.c"], b"big.c: too large"),
    refused(
        ["tags", "a.c", "--max-files", "2", "--files-from", "two.list"], b"n.c: too many files"
    ),
    refused(["line", "none.c", "--files-from", "gone.list"], b"none.c: cannot be read"),
    refused(["find", "1", "f", "m.c", "--files-from", "gone.list"], b"none.c: cannot be read"),
    refused(["tags", "--files-from", "gap.list"], b": cannot be read"),
    refused(["tags", "--files-from", "quoted.list"], b'"a.c": cannot be read'),
    refused(["tags", "--files-from", "return.list"], b"a.c\\x0d: cannot be read"),
    # names with letters outside ASCII: a list and a tags file may have them, a source may not
    Row(["tags", "-x", "--files-from", "\u00e9.list"], LISTING),
    Row(["tags", "-f", "\u00e9\u65e5.tags", "a.c"], tags=("\u00e9\u65e5.tags", PLAIN)),
    *(
        refused([*words, "--files-from", "letters.list"], b"\\xc3\\xbc.c: bad name")
        for words in (["line"], ["find", "1", "f"], ["tags"], ["lsp"])
    ),
    # lists that cannot be read
    refused(["line", "--files-from", "none"], b"none: cannot be read"),
    refused(["find", "1", "f", "none.c", "--files-from", "none"], b"none: cannot be read"),
    refused(["tags", "a.txt", "--files-from", "d.c"], b"d.c: cannot be read"),
    refused(["tags", "--files-from", "latin.list"], b"latin.list: cannot be read"),
    refused(["tags", "--files-from", ""], b": cannot be read"),
    refused(["line", "--files-from", "./-"], b"./-: cannot be read"),
    wrong(["line", "--files-from", "-"], TAKEN + b"commands"),
    wrong(["line", "a.c", "--files-from=-"], TAKEN + b"commands"),
    wrong(["lsp", "a.c", "--files-from", "-"], TAKEN + b"messages"),
    wrong(["lsp", "--root", "w", "a.c"], NO_ROOT),
    wrong(["lsp", "--root", ""], NO_ROOT),
    wrong(["lsp", "--prototypes", "a.c"], LACKS_WIDE),
    refused(["find", "5", "f", "--files-from", "none"], NO_FIELD, 2),
    refused(["find", "1", "", "--files-from", "none"], NO_PATTERN, 2),
    # files that cannot be read or loaded, or written
    refused(["tags", "a.c", "a.c"], b"a.c: file exists"),
    refused(["tags", "a.c", "a.txt", "a.c"], b"a.txt: bad name"),
    refused(["tags", "a.c", "none.c", "a.txt"], b"none.c: cannot be read"),
    refused(["tags", "a.c", "big.c"], b"big.c: too large"),
    refused(["tags", "-x", "d.c"], b"d.c: cannot be read"),
    refused(["tags", "-f", "d.c", "a.c"], b"d.c: cannot be written"),
    refused(["tags", "-f", "", "a.c"], b": cannot be written"),
    refused(["tags", "-f", "-", "none.c"], b"none.c: cannot be read"),
    refused(["line", "a.c", "none2.h"], b"none2.h: cannot be read"),
    refused(["lsp", "a.c", "none2.h"], b"none2.h: cannot be read"),
    refused(["lsp", "a.c", "--files-from", "none"], b"none: cannot be read"),
    refused(["tags", "--", "-x"], b"-x: cannot be read"),
    # a message is one line whatever bytes a name has
    refused(["find", "0", "x", "a\x1b\n\\.c"], b"a\\x1b\\x0a\\x5c.c: cannot be read"),
    refused(["line", "\u00e9.c"], b"\\xc3\\xa9.c: cannot be read"),
    refused(["tags", "-f", "none/\n", "a.c"], b"none/\\x0a: cannot be written"),
    # words that are wrong, and help
    wrong(
        [],
        b"'cbrowse' requires a subcommand but one was not provided\n"
        b"  [subcommands: line, find, tags, lsp, help]",
        COMMAND_USAGE,
    ),
    wrong(["search"], UNKNOWN % b"search", COMMAND_USAGE),
    wrong(
        ["lines"],
        UNKNOWN % b"lines" + b"\n\n  tip: a similar subcommand exists: 'line'",
        COMMAND_USAGE,
    ),
    wrong(
        ["find"],
        LACKS + b"  <NUM>\n  <PATTERN>",
        b"cbrowse find <NUM> <PATTERN> [FILE]...",
    ),
    wrong(["find", "1"], LACKS + b"  <PATTERN>", b"cbrowse find <NUM> <PATTERN> [FILE]..."),
    wrong(["find", "1", "f"], LACKS_FILES),
    wrong(["find", "5", "f"], LACKS_FILES),
    *(
        wrong([*words, "-x", "a.c"], UNEXPECTED % ((b"-x",) * 3), usage)
        for words, usage in (
            (["line"], LINE_USAGE),
            (["find", "4"], FIND_USAGE),
            (["lsp"], LSP_USAGE),
        )
    ),
    wrong(["tags", "-q", "a.c"], UNEXPECTED % ((b"-q",) * 3), TAGS_USAGE),
    wrong(["tags"], LACKS_FILES),
    wrong(["tags", "--files-from"], NO_VALUE % b"--files-from <LIST>"),
    wrong(["tags", "a.c", "-f"], NO_VALUE % b"-f <TAGSFILE>"),
    wrong(["lsp", "--root"], NO_VALUE % b"--root <DIR>"),
    wrong(
        ["tags", "--format", "3", "a.c"],
        b"invalid value '3' for '--format <FORMAT>'\n  [possible values: 1, 2]",
    ),
    wrong(["find", "0", b"\xff", "a.c"], b"a word is not UTF-8"),
    help_of(["--help"], HELP),
    help_of(["line", "--help"], HELP_LINE),
    help_of(["find", "--help"], HELP_FIND),
    help_of(["tags", "--help"], HELP_TAGS),
    help_of(["help", "tags"], HELP_TAGS),
    help_of(["lsp", "--help"], HELP_LSP),
]

# a session over a.c: a question, tags, a listing, marks, a change and an undo
INPUT = b"1add\n:tags\n:listing\n5add\n:markall\n:to sum\n3sum\n:undo\n:marks\n"
REPLIES = [
    b"cscope: 1 lines\na.c add 4 static int add(int a, int b) {\n",
    b"cscope: 4 lines\n" + PLAIN,
    b"cscope: 4 lines\n" + LISTING,
    b"cscope: 3 lines\n"
    + ROWS_OF_ADD.replace(b" TWICE 2", b" <unknown> 2")
    .replace(b" add 4", b" <unknown> 4")
    .replace(b" main 8", b" <unknown> 8"),
    b"cscope: done\n",
    b"cscope: done\n",
    b"cscope: 2 lines\n" + CALLS_ADD.replace(b"add", b"sum"),
    b"cscope: done\n",
]
REPLIES.append(REPLIES[3])
OUTPUT = b"".join(b">> " + reply for reply in REPLIES) + b">> "
WRITERS = [
    (["tags", "-x", "a.c"], b"", LISTING),
    (["find", "0", "add", "a.c"], b"", ROWS_OF_ADD),
    (["tags", "-f", "-", "--format", "2", "a.c"], b"", EXTENDED),
    (["line", "a.c"], INPUT, OUTPUT),
]


def bounded(size: int):
    """Files may have at most this size; a write beyond it fails, and sends no signal."""

    def before():
        signal.signal(signal.SIGXFSZ, signal.SIG_IGN)
        resource.setrlimit(resource.RLIMIT_FSIZE, (size, size))

    return before


class Checks:
    """Runs in a folder with the files; what failed."""

    def __init__(self, program: str, folder: pathlib.Path):
        self.program, self.folder, self.runs, self.failed = program, folder, 0, 0
        for name, text in FILES.items():
            (folder / name).write_bytes(text)
        (folder / "d.c").mkdir()

    def run(self, words, given=b"", before=None, **how):
        """Status, standard output and standard error."""
        self.runs += 1
        how = {"stdout": subprocess.PIPE, "stderr": subprocess.PIPE, **how}
        if "stdin" not in how:
            how["input"] = given
        ran = subprocess.run(
            [self.program, *words], preexec_fn=before, cwd=self.folder, timeout=PATIENCE, **how
        )
        return ran.returncode, ran.stdout, ran.stderr

    def expect(self, what, found, meant):
        if found != meant:
            print(f"FAILED: {what}: {str(found)[:400]} and not {str(meant)[:400]}", flush=True)
            self.failed += 1

    def row(self, row: Row):
        name, text = row.tags or ("tags", OLD)
        path = self.folder / name
        path.write_bytes(OLD)
        before = set(os.listdir(self.folder))
        status, out, said = self.run(row.words, row.given)
        self.expect(row.words, (status, out, said), (row.status, row.out, row.said))
        self.expect([*row.words, "the tags file"], path.read_bytes(), text)
        path.unlink()
        self.expect([*row.words, "the folder"], set(os.listdir(self.folder)) | {name}, before)

    def at_each_byte(self):
        """A file that takes each number of bytes, as standard output and as the tags file."""
        out = self.folder / "out"
        for words, given, whole in WRITERS:
            for size in range(len(whole) + 1):
                with open(out, "wb") as file:
                    status, _, said = self.run(words, given, bounded(size), stdout=file)
                is_whole = size == len(whole)
                meant = (0, b"") if is_whole else (1, b"cbrowse: write fault\n")
                self.expect(
                    [*words, size], (status, said, out.read_bytes()), (*meant, whole[:size])
                )
        out.write_bytes(OLD)
        before = set(os.listdir(self.folder))
        for size in range(len(EXTENDED) + 1):
            found = self.run(["tags", "--format", "2", "-f", "out", "a.c"], b"", bounded(size))
            meant = (1, b"", b"cbrowse: out: cannot be written\n", OLD)
            if size == len(EXTENDED):
                meant = (0, b"", b"", EXTENDED)
            self.expect(["tags -f out", size], (*found, out.read_bytes()), meant)
            self.expect(["tags -f out", size, "the folder"], set(os.listdir(self.folder)), before)
        message = b"cbrowse: none.c: cannot be read\n"
        for size in range(len(message) + 1):
            with open(out, "wb") as file:
                status, _, _ = self.run(["tags", "none.c"], b"", bounded(size), stderr=file)
            self.expect(["tags none.c", size], (status, out.read_bytes()), (1, message[:size]))

    def reader_fails(self):
        """Standard input that fails after each byte: the replies of whole lines, and one prompt."""
        for size in range(len(INPUT) + 1):
            near, far = os.openpty()
            tty.setraw(far)
            started = subprocess.Popen(
                [self.program, "line", "a.c"],
                cwd=self.folder,
                stdin=near,
                stdout=subprocess.PIPE,
                stderr=subprocess.PIPE,
                pass_fds=(),
            )
            os.close(near)
            os.write(far, INPUT[:size])
            os.close(far)
            out, said = started.communicate(timeout=PATIENCE)
            self.runs += 1
            whole = INPUT[:size].count(b"\n")
            meant = b"".join(b">> " + reply for reply in REPLIES[:whole]) + b">> "
            self.expect(
                ["a reader that fails after", size],
                (started.returncode, out, said),
                (1, meant, b"cbrowse: read fault\n"),
            )
        near, far = os.openpty()
        tty.setraw(far)
        os.write(far, b"a.c\n")
        os.close(far)
        found = self.run(["tags", "-x", "--files-from", "-"], stdin=near)
        os.close(near)
        self.expect("a list that fails", found, (1, b"", b"cbrowse: -: cannot be read\n"))

    def full(self):
        """/dev/full as standard output and as the tags file."""
        with open("/dev/full", "wb") as device:
            for words, given, _ in WRITERS:
                self.expect(
                    [*words, "/dev/full"],
                    self.run(words, given, stdout=device)[::2],
                    (1, b"cbrowse: write fault\n"),
                )
        (self.folder / "full").symlink_to("/dev/full")
        for name in ("/dev/full", "full"):
            found = self.run(["tags", "-f", name, "a.c"])
            message = b"cbrowse: %s: cannot be written\n" % name.encode()
            self.expect(["tags -f", name], found, (1, b"", message))
        self.expect("tags -f /dev/null", self.run(["tags", "-f", "/dev/null", "a.c"])[0], 0)

    def sources(self):
        """A C source that holds something is no tags file, whatever way leads to it. One that is
        empty or not there is written."""
        source = self.folder / "source.h"
        (self.folder / "link").symlink_to("source.h")
        (self.folder / "link.c").symlink_to("source.h")
        for name in ("source.h", "./source.h", "link.c", "link", str(source)):
            for text in (A_C, OLD):
                source.write_bytes(text)
                for words in (["tags", "-f", name, "m.c"], ["tags", "--force", "m.c", "-f", name]):
                    self.keeps(words, name, text)
        found = self.run(["tags", "-f", "a.c", "m.c", "a.c"])
        self.expect(
            "tags -f a.c over itself", found, (1, b"", b"cbrowse: a.c: cannot be written\n")
        )
        found = self.run(["tags", "-f", "a.c", "none.c"])
        self.expect("tags -f a.c none.c", found, (1, b"", b"cbrowse: none.c: cannot be read\n"))
        self.expect(
            "tags -x -f a.c", self.run(["tags", "-x", "-f", "a.c", "a.c"]), (0, LISTING, b"")
        )
        self.expect("a.c after these runs", (self.folder / "a.c").read_bytes(), A_C)
        for given in (b"", None):
            source.unlink()
            if given is not None:
                source.write_bytes(given)
            self.expect(
                ["tags -f source.h", given],
                self.run(["tags", "-f", "source.h", "a.c"]),
                (0, b"", b""),
            )
            self.expect(["source.h", given], source.read_bytes(), PLAIN)

    def keeps(self, words, name, text):
        """A tags file of this name cannot be written, and what has the name holds this text."""
        before = set(os.listdir(self.folder))
        message = b"cbrowse: %s: cannot be written\n" % name.encode()
        self.expect(words, self.run(words), (1, b"", message))
        self.expect([*words, "the file"], (self.folder / name).read_bytes(), text)
        self.expect([*words, "the folder"], set(os.listdir(self.folder)), before)

    def replaces(self, words, name, text):
        """A tags file is written under this name, and nothing else changes."""
        before = set(os.listdir(self.folder)) | {name}
        self.expect(words, self.run(words), (0, b"", b""))
        self.expect([*words, "the file"], (self.folder / name).read_bytes(), text)
        self.expect([*words, "the folder"], set(os.listdir(self.folder)), before)

    def kinds(self):
        """What an old file has to hold so that it is replaced. By force each is."""
        tags = self.folder / "notes.txt"
        own = (
            b"",
            OLD,
            b"!_TAG_FILE_FORMAT\t2\n",
            b"!_TAG_",
            b"x\tx.c\t/^x",
            b"x\tx.c\t/^",
            b"x\tx.c\t9",
            b"\t\t0\n",
            b"x y\tx.c\t/^x\nany line\n",
            b"n" * 1_000_000 + b"\tx.c\t1\n",
        )
        other = (
            b"buy milk\n",
            b"\n",
            b"\n" + OLD,
            b"!_TAG",
            b"x\tx.c\n",
            b"x\tx.c\t\n",
            b"x\tx.c\t/x\n",
            b"x\tx.c\t?^x\n",
            b"x\tx.c\t:\n",
            b"x\tx.c\t-1\n",
            b"x\tx.c\n\t1\n",
            b"/*\t$OpenBSD: x.c,v 1.1\t*/\n",
            b"cscope 15 /w 0000000000\n",
            b"a.c\nm.c\n",
            A_C,
        )
        for text in own + other:
            for force in ([], ["--force"]):
                words = ["tags", "-f", "notes.txt", *force, "a.c"]
                tags.write_bytes(text)
                if text in own or force:
                    self.replaces(words, "notes.txt", PLAIN)
                else:
                    self.keeps(words, "notes.txt", text)
        tags.write_bytes(b"buy milk\n")
        for words in (["tags", "-x", "-f", "notes.txt", "a.c"], ["tags", "-f-", "--force", "a.c"]):
            self.expect(words, self.run(words)[0], 0)
            self.expect([*words, "the file"], tags.read_bytes(), b"buy milk\n")
        tags.unlink()
        self.replaces(["tags", "-f", "notes.txt", "--force", "a.c"], "notes.txt", PLAIN)

    def operands_as_tags(self):
        """An operand is no tags file, by whatever name, and not by force."""
        os.link(self.folder / "a.c", self.folder / "hard")
        (self.folder / "soft").symlink_to("a.c")
        (self.folder / "empty").symlink_to("none.h")
        for force in ([], ["--force"]):
            for name in ("hard", "soft", "a.c"):
                self.keeps(["tags", "-f", name, *force, "m.c", "a.c"], name, A_C)
                self.keeps(["tags", "-f", name, *force, "--files-from", "one.list"], name, A_C)
            for name in ("none.h", "empty"):
                self.keeps(["tags", "-f", name, *force, "none.h"], name, b"")

    def in_place(self):
        """A file behind a link is written where it stands, and so is a pipe."""
        file, link, pipe = (self.folder / name for name in ("file", "to_file", "pipe"))
        link.symlink_to("file")
        self.replaces(["tags", "-f", "to_file", "a.c"], "file", PLAIN)
        for text in (OLD, EXTENDED, b""):
            file.write_bytes(text)
            inode = os.stat(file).st_ino
            self.replaces(["tags", "-f", "to_file", "a.c"], "to_file", PLAIN)
            self.expect("the link", (link.is_symlink(), os.stat(file).st_ino), (True, inode))
        file.write_bytes(b"buy milk\n")
        self.keeps(["tags", "-f", "to_file", "a.c"], "to_file", b"buy milk\n")
        self.replaces(["tags", "-f", "to_file", "--force", "a.c"], "to_file", PLAIN)
        os.mkfifo(pipe)
        reader = subprocess.Popen(["cat", "pipe"], cwd=self.folder, stdout=subprocess.PIPE)
        self.expect("tags -f pipe", self.run(["tags", "-f", "pipe", "a.c"]), (0, b"", b""))
        self.expect("the pipe", reader.communicate(timeout=PATIENCE)[0], PLAIN)

    def permissions(self):
        """A new file has the permissions of the old one; and what may not be written stays."""
        tags = self.folder / "mode"
        for mode in (0o600, 0o640, 0o666, 0o755):
            tags.write_bytes(OLD)
            tags.chmod(mode)
            self.replaces(["tags", "-f", "mode", "a.c"], "mode", PLAIN)
            self.expect(["the mode", mode], stat.S_IMODE(os.stat(tags).st_mode), mode)
        tags.unlink()
        before = lambda: os.umask(0o027)
        self.expect("umask 027", self.run(["tags", "-f", "mode", "a.c"], b"", before)[0], 0)
        self.expect("umask 027, the mode", stat.S_IMODE(os.stat(tags).st_mode), 0o640)

        def as_nobody():
            if os.geteuid() == 0:
                os.setuid(65534)

        shut = self.folder / "shut"
        shut.mkdir()
        (shut / "tags").write_bytes(OLD)
        (shut / "tags").chmod(0o666)
        shut.chmod(0o555)
        open_ = self.folder / "open"
        open_.mkdir()
        open_.chmod(0o777)
        (open_ / "tags").write_bytes(OLD)
        (open_ / "tags").chmod(0o444)
        for name in ("shut/tags", "open/tags", "shut/new"):
            words = ["tags", "-f", name, "a.c"]
            message = b"cbrowse: %s: cannot be written\n" % name.encode()
            self.expect(words, self.run(words, b"", as_nobody), (1, b"", message))
        found = [sorted(os.listdir(folder)) for folder in (shut, open_)]
        self.expect("both folders", found, [["tags"], ["tags"]])
        found = [(folder / "tags").read_bytes() for folder in (shut, open_)]
        self.expect("their tags files", found, [OLD, OLD])
        shut.chmod(0o755)

    def at_once(self):
        """Of runs at once each leaves a whole file, and nothing else. A draft has a name of its
        own."""
        texts = []
        for letter in "pqrs":
            lines = [b"int %s%04d(void) {\n}\n" % (letter.encode(), k) for k in range(2_000)]
            (self.folder / f"{letter}.c").write_bytes(b"".join(lines))
            entry = b"%s%04d\t%s.c\t/^int %s%04d(void) {$/\n"
            name = letter.encode()
            texts.append(b"".join(entry % (name, k, name, name, k) for k in range(2_000)))
        before = set(os.listdir(self.folder)) | {"shared"}
        for _ in range(5):
            runs = [
                subprocess.Popen([self.program, "tags", "-f", "shared", f], cwd=self.folder)
                for f in ("p.c", "q.c", "r.c", "s.c")
            ]
            self.runs += len(runs)
            ended = [run.wait(PATIENCE) for run in runs]
            self.expect("four runs at once", ended, [0] * 4)
            is_whole = (self.folder / "shared").read_bytes() in texts
            self.expect("the tags file of one of four runs", is_whole, True)
        self.expect("four runs, the folder", set(os.listdir(self.folder)), before)
        drafts = [self.folder / f"shared.{number}.tmp" for number in range(1, 100)]
        for draft in drafts[:-1]:
            draft.write_bytes(b"another draft")
        self.replaces(["tags", "-f", "shared", "p.c"], "shared", texts[0])
        drafts[-1].write_bytes(b"another draft")
        self.keeps(["tags", "-f", "shared", "q.c"], "shared", texts[0])
        for draft in drafts:
            self.expect(draft.name, draft.read_bytes(), b"another draft")
            draft.unlink()

    def not_regular(self):
        """What is not a regular file cannot be read; a link to one can be. A list may be a pipe."""
        os.mkfifo(self.folder / "pipe.c")
        with socket.socket(socket.AF_UNIX) as end:
            end.bind(str(self.folder / "sock.c"))
        links = {"zero.c": "/dev/zero", "input.c": "/proc/self/fd/0", "loose.c": "none"}
        for name, target in links.items():
            (self.folder / name).symlink_to(target)
        for name in ("pipe.c", "sock.c", "d.c", *links):
            message = b"cbrowse: %s: cannot be read\n" % name.encode()
            for words in (["find", "1", "add", name], ["tags", "a.c", name], ["line", name]):
                self.expect(words, self.run(words, b"q\n"), (1, b"", message))
        (self.folder / "linked.c").symlink_to("a.c")
        row = b"linked.c add 4 static int add(int a, int b) {\n"
        self.expect("a link", self.run(["find", "1", "add", "linked.c"]), (0, row, b""))
        self.of_no_size()
        uri = "file://" + str(self.folder)
        changed = [{"uri": f"{uri}/{name}", "type": 1} for name in ("pipe.c", "zero.c", "linked.c")]
        messages = (
            {"id": 1, "method": "initialize", "params": {"rootUri": uri, "capabilities": {}}},
            {"method": "workspace/didChangeWatchedFiles", "params": {"changes": changed}},
            {"id": 2, "method": "workspace/symbol", "params": {"query": "add"}},
            {"id": 3, "method": "shutdown"},
            {"method": "exit"},
        )
        bodies = [json.dumps({"jsonrpc": "2.0", **message}) for message in messages]
        given = "".join(f"Content-Length: {len(body)}\r\n\r\n{body}" for body in bodies)
        status, out, said = self.run(["lsp"], given.encode())
        self.expect("a server", (status, said, out.count(b"linked.c")), (0, b"", 0))
        for name in (b"pipe.c", b"zero.c"):
            shown = out.count(b"cbrowse: %s: cannot be read" % name)
            self.expect(["a server", name], shown, 1)
        feeder = subprocess.Popen(["sh", "-c", "echo a.c > pipe.c"], cwd=self.folder)
        found = self.run(["tags", "-x", "--files-from", "pipe.c"])
        self.expect("a list that is a pipe", found, (0, LISTING, b""))
        feeder.wait(PATIENCE)

    def of_no_size(self):
        """A regular file that has bytes, and of which the system says that it has none."""
        version = pathlib.Path("/proc/version")
        if not version.is_file() or version.stat().st_size:
            print(f"passed over: a file of no size with bytes, for which {version} is not there")
            return
        (self.folder / "version.c").symlink_to(version)
        text = version.read_bytes()
        row = b"version.c <unknown> 1 " + text.splitlines()[0].lstrip(b" \t") + b"\n"
        found = self.run(["find", "4", text.split()[0], "version.c"])
        self.expect("a file of no size", found, (0, row, b""))

    def many(self):
        """4,096 files and one more."""
        for number in range(1, 4098):
            (self.folder / f"f{number}.c").write_bytes(b"g();\n" if number == 4096 else b"")
        names = [f"f{number}.c" for number in range(1, 4098)]
        self.expect(
            "4,096 files",
            self.run(["find", "0", "g", *names[:4096]]),
            (0, b"f4096.c <global> 1 g();\n", b""),
        )
        self.expect(
            "4,097 files",
            self.run(["find", "0", "g", *names]),
            (1, b"", b"cbrowse: f4097.c: too many files\n"),
        )

    def lists(self):
        """Lists of more files than are in one history of 65,536 changes, and of the most bytes."""
        bits = ("./", ".//")
        names = ["".join(bits[n >> i & 1] for i in range(17)) + "none.h" for n in range(65_600)]
        (self.folder / "many.list").write_text("\n".join(names))
        words = ["line", "--max-files", "65601", "--files-from", "many.list"]
        self.expect(
            "65,600 files",
            self.run(words, b":load n.c 0\n:undo\n:redo\n:load o.c 0\n"),
            (
                0,
                b">> cscope: done\n" * 3 + b">> cscope: refused: too many files\n>> ",
                b"",
            ),
        )
        huge = self.folder / "huge.list"
        huge.write_bytes(b"none.c\n")
        for size, name in ((268_435_456, b"none.c"), (268_435_457, b"huge.list")):
            os.truncate(huge, size)
            self.expect(
                ["a list of so many bytes", size],
                self.run(["tags", "-x", "--files-from", "huge.list"]),
                (1, b"", b"cbrowse: " + name + b": cannot be read\n"),
            )
        with open(huge, "rb") as file:
            self.expect(
                "such a list on standard input",
                self.run(["tags", "-x", "--files-from", "-"], stdin=file),
                (1, b"", b"cbrowse: -: cannot be read\n"),
            )
        huge.unlink()


def main():
    parser = argparse.ArgumentParser(
        description=__doc__, formatter_class=argparse.RawDescriptionHelpFormatter
    )
    parser.add_argument(
        "program", nargs="?", default=str(TOP / "bin" / "cbrowse"), metavar="PROGRAM"
    )
    parser.add_argument("--not-proved", action="store_true", help="it is a program of make quick")
    given = parser.parse_args()
    program = str(pathlib.Path(given.program).resolve())
    version = VERSION + (b", not proved\n" if given.not_proved else b"\n")
    with tempfile.TemporaryDirectory() as room:
        os.chmod(room, 0o755)  # so that a run without the rights of root finds it
        checks = Checks(program, pathlib.Path(room))
        for row in [*ROWS, help_of(["--version"], version), help_of(["-V"], version)]:
            checks.row(row)
        for check in (
            checks.at_each_byte,
            checks.reader_fails,
            checks.full,
            checks.sources,
            checks.kinds,
            checks.operands_as_tags,
            checks.in_place,
            checks.permissions,
            checks.at_once,
            checks.not_regular,
            checks.many,
            checks.lists,
        ):
            check()
    print(f"whole program: {checks.runs - checks.failed} passed, {checks.failed} failed")
    return 1 if checks.failed else 0


if __name__ == "__main__":
    sys.exit(main())
