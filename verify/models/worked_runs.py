"""Runs of the program that are worked out by hand.

They take place in a folder. Each has its words, standard output, standard error and exit status; an
error of None is a text of clap's. Worked sessions are in crates/worked_cases/data.
"""

A_C = b"""\
#include "a.h"
#define TWICE(x) ((x) + add(x, 0))
typedef unsigned long word;
static int add(int a, int b) {
	return a + b;
}
int main(void) {
	return add(1, 2) / TWICE(3);
}
"""
FOLDER = {
    b"a.c": A_C,
    b"n.c": b"int a = -x;\n",
    b"a.txt": b"int a;\n",
    b"both": b"n.c\r\na.c",
    b"gap": b"a.c\n\n",
    b"none": b"",
    b"latin": b"\xe9.c\n",
}
WRONG_FIELD = b"", b"cbrowse: field not in this profile\n", 2
NO_PATTERN = b"", b"cbrowse: no pattern\n", 2
WRONG_WORDS = b"", None, 2


def output(*lines):
    return b"".join(line + b"\n" for line in lines), b"", 0


PROGRAM = [
    (
        [b"tags", b"-x", b"a.c"],
        output(
            b"TWICE 2 a.c #define TWICE(x) ((x) + add(x, 0))",
            b"add 4 a.c static int add(int a, int b) {",
            b"main 7 a.c int main(void) {",
            b"word 3 a.c typedef unsigned long word;",
        ),
    ),
    (
        [b"find", b"0", b"add", b"a.c"],
        output(
            b"a.c TWICE 2 #define TWICE(x) ((x) + add(x, 0))",
            b"a.c add 4 static int add(int a, int b) {",
            b"a.c main 8 return add(1, 2) / TWICE(3);",
        ),
    ),
    ([b"find", b"8", b"a.h", b"a.c"], output(b'a.c <global> 1 #include "a.h"')),
    ([b"find", b"4", b"--", b"-x", b"n.c"], output(b"n.c <unknown> 1 int a = -x;")),
    (
        [b"find", b"7", b".c", b"n.c", b"a.c"],
        output(b"a.c <unknown> 1 <unknown>", b"n.c <unknown> 1 <unknown>"),
    ),
    ([b"find", b"1", b"none", b"a.c"], output()),
    ([b"find", b"6", b"x", b"a.c"], WRONG_FIELD),
    ([b"find", b"5", b"x", b"a.c"], WRONG_FIELD),
    ([b"find", b"01", b"x", b"a.c"], WRONG_FIELD),
    ([b"find", b"", b"x", b"a.c"], WRONG_FIELD),
    ([b"find", b"1", b"", b"a.c"], NO_PATTERN),
    ([b"find", b"9", b"", b"none.c"], WRONG_FIELD),
    ([b"find", b"1", b"", b"none.c"], NO_PATTERN),
    ([b"find", b"1", b"x", b"a.c", b"none.c"], (b"", b"cbrowse: none.c: cannot be read\n", 1)),
    ([b"find", b"1", b"x", b"a.txt", b"none.c"], (b"", b"cbrowse: none.c: cannot be read\n", 1)),
    ([b"find", b"1", b"x", b"a.c", b"a.txt"], (b"", b"cbrowse: a.txt: bad name\n", 1)),
    ([b"find", b"1", b"x", b"a.c", b"a.c"], (b"", b"cbrowse: a.c: file exists\n", 1)),
    ([b"tags", b"a.c", b"a.c"], (b"", b"cbrowse: a.c: file exists\n", 1)),
    (
        [b"find", b"--max-files", b"1", b"1", b"add", b"a.c"],
        output(b"a.c add 4 static int add(int a, int b) {"),
    ),
    (
        [b"find", b"--max-files=1", b"1", b"add", b"a.c", b"n.c"],
        (b"", b"cbrowse: n.c: too many files\n", 1),
    ),
    (
        [b"find", b"4", b"a", b"n.c", b"--max-file-bytes", b"12"],
        output(b"n.c <unknown> 1 int a = -x;"),
    ),
    (
        [b"find", b"4", b"a", b"n.c", b"--max-file-bytes", b"11"],
        (b"", b"cbrowse: n.c: too large\n", 1),
    ),
    ([b"find", b"--max-files", b"0", b"1", b"add", b"a.c"], WRONG_WORDS),
    ([b"find", b"--max-files", b"1048576", b"1", b"none", b"a.c"], output()),
    ([b"find", b"--max-files", b"1048577", b"1", b"add", b"a.c"], WRONG_WORDS),
    ([b"find", b"--max-file-bytes", b"268435456", b"1", b"none", b"a.c"], output()),
    ([b"tags", b"--max-file-bytes", b"268435457", b"a.c"], WRONG_WORDS),
    ([b"tags", b"--max-files", b"1", b"a.c", b"n.c"], (b"", b"cbrowse: n.c: too many files\n", 1)),
    (
        [b"find", b"7", b".c", b"--files-from", b"both"],
        output(b"a.c <unknown> 1 <unknown>", b"n.c <unknown> 1 <unknown>"),
    ),
    ([b"find", b"7", b".c", b"--files-from=none", b"n.c"], output(b"n.c <unknown> 1 <unknown>")),
    ([b"find", b"7", b".c", b"--files-from", b"none"], output()),
    ([b"find", b"7", b".c", b"--files-from", b"-"], output()),
    (
        [b"find", b"7", b".c", b"--files-from", b"both", b"a.c"],
        (b"", b"cbrowse: a.c: file exists\n", 1),
    ),
    (
        [b"find", b"7", b".c", b"--files-from", b"both", b"a.txt"],
        (b"", b"cbrowse: a.txt: bad name\n", 1),
    ),
    ([b"find", b"7", b".c", b"--files-from", b"gap"], (b"", b"cbrowse: : cannot be read\n", 1)),
    (
        [b"find", b"7", b".c", b"--files-from", b"latin"],
        (b"", b"cbrowse: latin: cannot be read\n", 1),
    ),
    (
        [b"find", b"7", b".c", b"--files-from", b"no", b"none.c"],
        (b"", b"cbrowse: no: cannot be read\n", 1),
    ),
    ([b"find", b"9", b".c", b"--files-from", b"no"], WRONG_FIELD),
    ([b"find", b"7", b"", b"--files-from", b"no"], NO_PATTERN),
    ([b"line", b"--files-from", b"-"], WRONG_WORDS),
    ([b"line", b"--files-from", b"none"], (b">> ", b"", 0)),
    ([b"find", b"4", b"-x", b"n.c"], WRONG_WORDS),
    ([b"find", b"1", b"x"], WRONG_WORDS),
    ([b"find"], WRONG_WORDS),
    ([b"tags"], WRONG_WORDS),
    ([b"tags", b"-x"], WRONG_WORDS),
]
