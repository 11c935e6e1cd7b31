"""Draws random texts, names, patterns and inputs of sessions."""

import random
import re

from session_model import FIELDS
from text_model import cut_lines, facts

# fmt: off
NAMES = [
    b"a.c", b"b.c", b"a.h", b"B.c", b"a-b.c", b"z/a.c", b"main.c", b"src/main.h", b".c",
    b"x" * 253 + b".c",
]
WRONG_NAMES = [
    b"", b"a", b"c", b".cc", b"a.txt", b"a.C", b"\x7f.c", b"\xe9.c", b"a\t.c", b"x" * 254 + b".c",
]
WORDS = [b"f", b"g", b"ab", b"main", b"F", b"aa", b"if", b"int", b"b_1"]
WIDE_WORDS = [b"f", b"g", b"h", b"s", b"t", b"x", b"__a", b"__b", b"T", b"M", b"int"]
LINES = [
    b"int %s(void) {", b"static int %s(int a) {", b"\tint %s(int a) { return a; }",
    b"int %s(void) { } int %s(void) { }", b"}", b"  }", b"\treturn %s(1) + %s(2);",
    b"#define %s(x) x", b"  # define %s(a, b) (a %s/b)", b"#define %s x", b"#define %s (x)",
    b"#include <%s.h>", b"int %s = 1;", b"%s;", b"%s", b"", b" ", b"aaa", b"\taabaa", b"abab ab",
    b"struct %s {", b"};", b"a\rb\r", b"\x0b\x0ca", b"\x00\xff\xe9a", b"{ }",
    b"%s(x) int %s(void) {", b"/* %s( */ int %s(void) { // %s(1)", b"/*", b"*/ %s(a)", b"// %s \\",
    b"\t%s(%s(1), %s); %s(1);", b"\tif (%s(1)) return %s;", b'char *%s = "%s(";',
    b"\t%s('\"'); '%s(", b'"%s(', b'L"\\"%s" %s', b"#define %s(x) %s(x) + %s(%s(1))",
    b"#define %s(x \\", b"  %s(1) \\", b"#if %s(%s)", b"#else", b"#endif", b'#include "%s.h"',
    b"# include <sys/%s.h>", b'\t#include "a/%s.h" // %s', b"#include < %s.h >", b"#include %s",
    b"#include_next <%s.h>", b"# 1 %s", b"/**/ # /**/ define %s(x) %s(x)",
    b"typedef int (**%s)(%s), *%s, q[%s];", b"typedef struct %s { int a; } %s;", b"typedef int %s",
    b'extern "C" {', b"int %s(a, %s)", b"int %s(a) int a; {", b"int a; char *%s, b[2];", b"{",
    b"union %s { enum %s { A } x; } %s;", b"int a[] = { %s(1) };", b"static",
    b"int (*%s(int a))(void) {", b"\tint %s(void);", b"- %s;",
]
HEAP = [
    b"{", b"}", b"\n}", b"(", b")", b";", b",", b"=", b"*", b"[", b"]", b"<", b">", b"#", b"\n#",
    b'"', b"'", b"\\", b"\\\n", b"\\\r\n", b"/", b"//", b"/*", b"*/", b"\n", b"\r\n", b"\r", b" ",
    b"\t", b"\x0b", b".", b"-", b"1e+", b".5", b"0x1F", b"\xe9", b"define", b"include", b"typedef",
    b"struct", b"enum", b'extern "C"', b"static", b"if", b"\n#define ", b"\n#include ", b"typedef ",
    b"f(", b"g(", b"ab", b" f ", b" g ", b"main(", b"(a)", b") {",
]
# What the wide profile looks at: declarations in lines, and pieces of them.
WIDE_LINES = [
    b"enum %s { %s, %s = 3, %s = F(1, x) };", b"enum { KEY(%s), %s(1) %s, %s", b"  %s,", b", %s",
    b"  %s = 1 << 2,", b"enum %s {", b"} %s;", b"} %s, *%s[2];", b"};", b"\n};", b"} __packed;",
    b"struct %s { int %s; } __packed %s;", b"typedef struct { int %s; enum %s { %s } %s; } %s;",
    b"struct __attribute__((packed)) %s {", b"union %s %s {", b"struct {", b"union {",
    b"struct %s { struct { int %s; union { int %s; } %s; }; struct %s { int %s; } %s; };",
    b"  unsigned %s : 3, : 0, %s : 2;", b"  uint32_t : 5;", b"  int *%s, %s[N], (*%s)(int, char);",
    b"  TAILQ_ENTRY(%s) %s;", b"  int %s __aligned(8);", b"  char %s[2] __packed;",
    b"static int %s, *%s = &%s, %s[2] = { 1, 2 }, (*%s)(int) = %s;", b"static struct %s %s = {",
    b"  .%s = 1, .%s = { 2 },", b"extern int %s, %s = 1;", b'extern "C" int %s;', b'extern "C" {',
    b"static int %s __initdata = 1;", b"int __initdata %s;", b"__u32 __%s;", b"int __%s __%s;",
    b"DEFINE_X(%s)", b"static DEFINE_X(%s);", b"LIST_HEAD(%s, t) %s;", b"MACRO", b"MACRO;",
    b"int %s(void), *%s(int (*%s)(int));", b"static void %s(char *) ATTR(1);", b"%s(%s);",
    b"int (*%s(int %s))(int);", b"int (%s) (int %s);", b"extern int %s OF((int %s));",
    b"int %s __P((int));", b'printflike(1, 2) void %s(char *%s, ...);', b'asm("x");', b"SEC(\"x\")",
    b'NO_SANITIZE("x") int %s(void) {', b"STACK_OF(X) *%s(int);", b"static STACK_OF(X) *%s = 0;",
    b"x.%s = 1;", b"for (i = 0; i < N; i++) %s(i);", b"INIT(A) = { 1 } END(A)", b"static int %s;",
    b"FOO(x) static int %s(void) {", b"OBJECT_DECLARE(%s, %s)", b"G_BEGIN_DECLS",
    b"typedef void (%s)(int); typedef int (*%s) OF((int));", b"typedef int %s(int), *%s;",
    b"typedef void %s(int) UNUSED;", b"typedef void %s(void *p) __unused, *%s;",
    b"typedef NTSTATUS NTAPI %s(int);", b"typedef int (WINAPI *%s)(void);",
    b"static void (CALL *%s)(int), (CALL %s)(int);",
    b"int %s(a, b) int a, %s;", b"char *%s, (*%s)();", b"int %s(a) int a; {", b"TEST(%s) {",
    b"int %s(a, %s)", b"int %s;", b"%s *%s;", b"#if %s", b"#else", b"#endif", b"#define %s int %s;",
    b"int %s[] = {", b"  { 1, %s },", b"}, %s = { 2 }, *%s;", b"\treturn 1; }", b"int %s = 1, %s(",
    b"case %s: default: int %s;", b"int a ? %s : 1;", b"return %s;", b"int %s { 1 };", b"const",
    b"int %s(int), *%s(int a), %s(int b) {", b"int %s(a) int a; *b; {", b"int %s(a) int a;",
    b"*%s; {", b"int %s[] = { 1 }, (*%s(x))(y) { }, %s;", b"int %s = 1, (W %s)(a) { 1 }, %s;",
]
WIDE_HEAP = [
    b"{", b"{", b"}", b"}", b"\n}", b"(", b"(", b")", b")", b";", b";", b",", b",", b"=", b"=",
    b"*", b"*", b"[", b"]", b"\n#if 1\n", b"\n#define f g\n", b"/**/", b'"x"', b" struct ",
    b" struct ", b" union ", b" enum ", b" typedef ", b" static ", b" extern ", b" extern ",
    b' extern "C" {', b" const ", b" int ", b" int ", b" __attribute__((x)) ", b" asm(", b" F(1",
    b" F(1) ", b' F("x") ', b" __attribute__(", b" _Alignas ", b" __a ", b" __b ", b" __c(", b" a ",
    b" a ", b" b ", b" c ", b" d ", b" e ", b" f(", b" g(", b" h(a) ", b" (*", b" (*p)(",
    b" (W *q)(", b" (W r)(", b" (s)(", b")(", b")(", b"((", b") {", b") {", b" int m;", b" int n,",
    b", o", b" = {", b" struct t {", b" enum {", b"};", b" f(a, b) int a;", b" f(a) int a; {",
    b" int x;", b" static int y;", b")\nstatic",
]
STRAY = [b":", b".", b"1", b"'c'", b" if ", b" return ", b" sizeof ", b"+", b"?", b"#"]
WRONG = [
    b"0", b"1", b"2", b"3", b"4", b"5", b"6", b"7", b"8", b"9", b"6a", b"9a", b"r ", b"rr", b"R",
    b"r 1", b"zzz", b" :undo", b":", b": undo", b":Undo", b":undo ", b":redo x", b":pop ",
    b":stack\r", b":marks ", b":markall ", b":markall 1", b":listing x", b":tox", b":to\r",
    b":mark", b":mark ", b":mark x", b":mark 1 2", b":mark 1 ", b":mark -1", b":mark 1\r",
    b":mark 0000000001", b":mark  1", b":tag", b":tag ", b":tag f ", b":tag f x", b":tag f 1 2",
    b":tag f 0", b":tag f 999999999", b":tags ", b":tags 0", b":tags 3", b":tags 1 2", b":drop",
    b":drop a.c ", b":rename", b":rename a.c", b":rename a.c b.c c.c", b":load", b":load a.c",
    b":load a.c x", b":load a.c 1 2", b":load a.c 1000001", b":load a.c 1\r",
    b":load a.c 0000000001", b"\r", b":reload", b":reload a.c", b":reload a.c x", b":reload a.c 1 ",
    b":reload a.c 1000001", b":reloada.c 1", b"\t", b"\xff",
]
# fmt: on


class Draw:
    """Draws the inputs of one session."""

    def __init__(self, seed):
        self.random = random.Random(seed)

    def input(self, session):
        """An input, more often one that the session will accept."""
        world = session.present
        files, wanted, marked = len(world.files), world.wanted is not None, bool(world.marks)
        weights = {
            self.load: 8 if files < 2 else 3,
            self.reload: 3 if files else 0.2,
            self.drop: 1 if files else 0.2,
            self.rename: 4 if marked else 2 if files else 0.2,
            self.want: 6 if files and not marked else 2,
            self.mark: 8 if wanted else 0.3,
            self.mark_all: 3 if wanted else 0.2,
            self.to: 6 if marked else 0.5,
            self.change: 3 if files else 0.2,
            self.vanish: 0.6,
            self.grow: 0.1,
            self.tag: 5 if files else 0.5,
            self.pop: 1 if world.frames else 0.2,
            self.undo: 4 if session.past else 0.2,
            self.redo: 4 if session.future else 0.3,
            self.query: 10 if files else 1,
            self.rebuild: 1,
            self.stack: 3,
            self.marks: 3,
            self.tags: 2,
            self.listing: 1,
            self.wrong: 2,
            self.long: 0.2,
            self.end: 0.2,
        }
        return self.random.choices([*weights], [*weights.values()])[0](world)

    def one(self, *choices):
        return self.random.choice(choices)

    # ---- texts

    def line(self):
        """A line without its end."""
        if self.random.random() < 0.3:
            return bytes(self.random.choices(b"aab \r\t", k=self.random.randrange(9)))
        return self.line_of(LINES)

    def line_of(self, lines, words=WORDS):
        line = self.random.choice(lines)
        return re.sub(b"%s", lambda _: self.random.choice(words), line)

    def heap(self):
        """Tokens in no order."""
        return b"".join(self.random.choices(HEAP, k=self.random.choice([3, 10, 30, 60])))

    def file(self):
        """The bytes of a file: LF or CR LF or both, with a last LF or without one, or nothing."""
        if self.random.random() < 0.1:
            return self.heap()
        ends = self.one([b"\n"], [b"\n"], [b"\r\n"], [b"\n", b"\r\n", b"\r\r\n"])
        lines = [self.line() for _ in range(self.random.choice([0, 1, 1, 2, 3, 5, 8, 13, 21]))]
        text = b"".join(line + self.random.choice(ends) for line in lines)
        return text + (self.line() if self.random.random() < 0.3 else b"")

    def wide_file(self):
        """The bytes of a file with declarations: lines, tokens in no order, or lines broken up."""
        kind = self.random.random()
        if kind < 0.4:
            number = self.random.choice([3, 5, 10, 20, 40, 80])
            return b"".join(
                self.random.choices(self.one(WIDE_HEAP, WIDE_HEAP, WIDE_HEAP + STRAY), k=number)
            )
        lines = [
            self.line_of(WIDE_LINES, WIDE_WORDS)
            if self.random.random() < 0.8
            else self.line_of(LINES)
            for _ in range(self.random.choice([1, 2, 3, 5, 8, 13, 21]))
        ]
        text = self.one(b"\n", b"\n", b"\r\n", b" ").join(lines)
        return self.broken(text) if kind < 0.7 else text

    def broken(self, text):
        """A text in which pieces are left out, doubled, moved or replaced."""
        pieces = re.findall(rb"\w+|\s+|.", text, re.DOTALL)
        for _ in range(self.random.choice([1, 1, 2, 4, 8])):
            if pieces:
                place = self.random.randrange(len(pieces))
                piece = pieces.pop(place)
                more = self.random.choice(WIDE_HEAP + STRAY)
                pieces[place:place] = self.one([], [], [piece] * 2, [more], [piece, more])
                if self.random.random() < 0.2:
                    pieces.insert(self.random.randint(0, len(pieces)), piece)
        return b"".join(pieces)

    def lines_of(self, world):
        """The lines of all files, with a CR of their ends."""
        return [shown + end[:-1] for text in world.files.values() for shown, end in cut_lines(text)]

    def pattern(self, world):
        """A text to look for: mostly a part of a line."""
        lines = [line for line in self.lines_of(world) if line]
        if not lines or self.random.random() < 0.3:
            return self.one(
                b"a",
                b"aa",
                b"ab",
                b"aba",
                b"int",
                b" ",
                b"\r",
                b"\t",
                b"a\r",
                b"none",
                b"(",
                *WORDS
            )
        line = self.random.choice(lines)[:4000]
        start = self.random.randrange(len(line))
        kind = self.random.randrange(4)
        end = len(line) if kind == 0 else start + self.random.choice([1, 2, 3, 5])
        return line if kind == 1 else line[start:end]

    def replacement(self, world):
        wanted = world.wanted or b"a"
        return self.one(
            b"",
            b"",
            b"b",
            b"x\r",
            b"\r",
            b" ",
            b" x",
            wanted,
            wanted + wanted,
            b"a" + wanted + b"a",
            wanted[1:],
            wanted[:-1],
            b"}",
            b"{",
            b"a" * 3000,
            b"\tx",
            self.line(),
            self.random.choice(WORDS),
        )[:4000]

    def word(self, world):
        """A name: mostly one that is defined."""
        return self.known(world, lambda held: [one.name for one in held.definitions])

    def known(self, world, words):
        """Mostly a word that is in one of the files."""
        names = [word for text in world.files.values() for word in words(facts(text))]
        return self.random.choice(names if names and self.random.random() < 0.8 else WORDS)

    def header(self, world):
        """A header, or an end of one, after a `/` or not."""
        header = self.known(world, lambda held: [one.header for one in held.includes])
        end = header[self.random.randrange(len(header)) :]
        return self.one(header, header, header.rsplit(b"/", 1)[-1], end, b"/" + header)

    def pattern_of(self, digit, world):
        """What to ask a field for."""
        if digit == b"4" or self.random.random() < 0.1:
            return self.pattern(world)
        if digit == b"7":
            name = self.random.choice([*world.files] or NAMES)
            start = self.random.randrange(len(name))
            return name[start : self.random.randint(start + 1, len(name))]
        if digit == b"8":
            return self.header(world)
        return self.known(
            world,
            {
                b"0": lambda held: [use.name for use in held.uses],
                b"1": lambda held: [one.name for one in held.definitions],
                b"2": lambda held: [call.caller for call in held.calls],
                b"3": lambda held: [call.callee for call in held.calls],
            }[digit],
        )

    def name(self, world, there):
        """A file name: mostly one that is there, or one that is not."""
        if self.random.random() < 0.08:
            return self.random.choice(WRONG_NAMES)
        names = [name for name in NAMES if (name in world.files) == there]
        return self.random.choice(names if names and self.random.random() < 0.9 else NAMES)

    # ---- inputs

    def load(self, world):
        name, text = self.name(world, False), self.file()
        return self.load_of(name, text)

    def load_of(self, name, text, word=b":load"):
        return b"%s %s %s\n%s" % (word, name, self.one(b"%d", b"%d", b"%09d") % len(text), text)

    def reload(self, world):
        """Other bytes for a file: new ones, those that it has, or these with a line more."""
        name = self.place_name(world)
        held = world.files.get(name, b"")
        text = self.one(self.file(), self.file(), held, self.line() + b"\n" + held)
        return self.load_of(name, text, b":reload") + self.one(
            b"", b":marks\n", b":stack\n", b":undo\n"
        )

    def place_name(self, world):
        """The name of a file: often one with a mark or a frame."""
        names = [name for name, _ in world.marks + world.frames]
        return (
            self.random.choice(names)
            if names and self.random.random() < 0.5
            else self.name(world, True)
        )

    def drop(self, world):
        return b":drop %s\n" % self.place_name(world) + self.one(b"", b":marks\n", b":stack\n")

    def rename(self, world):
        names = self.place_name(world), self.name(world, self.random.random() < 0.1)
        return b":rename %s %s\n" % names + self.one(b"", b":marks\n", b":stack\n")

    def want(self, world):
        return b"5%s\n" % self.pattern(world)

    def mark(self, world):
        most = sum((world.wanted or b"") in line for line in self.lines_of(world))
        number = (
            self.random.randint(0, most + 1)
            if self.random.random() < 0.2
            else self.random.randint(1, max(most, 1))
        )
        return self.one(b":mark %d\n", b":mark %d\n", b":mark %09d\n") % number

    def mark_all(self, _):
        return b":markall\n"

    def to(self, world):
        text = self.replacement(world)
        return b":to\n" if not text and self.random.random() < 0.5 else b":to %s\n" % text

    def change(self, world):
        """A whole change of a text, on all its lines or on all but one."""
        return self.want(world) + b":markall\n" + self.one(b"", self.mark(world)) + self.to(world)

    def vanish(self, world):
        """A last line without LF that becomes empty, with frames on, below and above it."""
        name, line = self.random.choice(WORDS), self.one(
            b"#define %s(x) x", b"int %s(void) { }", b"\tint %s(int a) {"
        )
        line = line.replace(b"%s", name)
        load = self.load_of(self.name(world, False), self.one(b"int u;\n", b"", self.file()) + line)
        tags = (
            self.tag(world)
            + b":tag %s %d\n" % (name, self.one(1, 1, 2, 3))
            + self.one(b"", self.tag(world))
        )
        return (
            load
            + tags
            + b"5%s\n:markall\n:to%s\n:stack\n" % (line, self.one(b"", b"", b" ", b" x"))
        )

    def grow(self, world):
        """A file that becomes too large, or nearly so."""
        load = self.load_of(self.name(world, False), b"a\n" * 400)
        return (
            load
            + b"5a\n:markall\n:to %s\n" % (b"a" * self.one(2490, 2500, 2600))
            + b":marks\n:undo\n:undo\n:undo\n"
        )

    def query(self, world):
        digit = self.random.choice(FIELDS)
        return digit + self.pattern_of(digit, world).replace(b"\n", b" ") + b"\n"

    def rebuild(self, _):
        return b"r\n" + self.one(b"", b":redo\n", b":undo\n")

    def tag(self, world):
        return self.one(
            b":tag %s\n", b":tag %s\n", b":tag %s 1\n", b":tag %s 2\n", b":tag %s 3\n"
        ) % self.word(world)

    def pop(self, _):
        return b":pop\n"

    def undo(self, _):
        return b":undo\n" * self.one(1, 1, 1, 2, 3)

    def redo(self, _):
        return b":redo\n" * self.one(1, 1, 2)

    def stack(self, _):
        return b":stack\n"

    def marks(self, _):
        return b":marks\n"

    def tags(self, _):
        return self.one(b":tags\n", b":tags 1\n", b":tags 2\n", b":tags 000000002\n")

    def listing(self, _):
        return b":listing\n"

    def wrong(self, _):
        return self.random.choice(WRONG) + b"\n" * self.one(1, 1, 2)

    def long(self, _):
        return (
            self.one(b"4", b":to ", b"a", b"q", b":load ").ljust(
                self.one(4096, 4097, 4098, 9000), b"a"
            )
            + b"\n"
        )

    def end(self, _):
        return self.one(
            b"q\n",
            b"q and more\n",
            b"\x04\n",
            b"\x04a\n",
            b":load b.h 9\nint",
            b":load b.txt 1\n",
            b":load a.c 1",
            b":reload a.c 9\nint",
            b":reload a.c 1",
        )
