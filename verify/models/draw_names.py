"""Draws random texts of C that are rich in names: few spellings, many ways to declare and use them.

Most texts are C, or nearly; in others brackets, words and lines are missing or stand twice.
"""

from __future__ import annotations

import random

# fmt: off
NAMES = ["a", "a", "b", "b", "c", "x", "T", "f", "out"]
TYPES = ["int", "int", "T", "T *", "char *", "struct s", "struct a *", "unsigned long", "const T",
         "static int", "register T", "typeof(a)", "__typeof__(*b)", "enum { a, b = c }",
         "enum a { c }", "struct { int a; } ", "struct x { T a; int (*b)(int c); } ", "union a",
         "__attribute__((unused)) int", "FOO(a) int", "FOO(1) T", "LIST(a) *", "extern int",
         "typedef int", "typedef T *", "volatile int", "_Alignas(8) int", "__extension__ int",
         "int __attribute__((x)) *", "struct __attribute__((packed)) x", "__b", "T __b", "auto"]
EDITS = ["{", "}", "\n}", "(", ")", "[", "]", ";", ",", "=", ":", "::", "*", "?", ".", "->", "...",
         " for (", " goto a;", " case ", " default:", " else ", " if (a) ", " do ", " while (a)",
         "\n#if a\n", "\n#else\n", "\n#endif\n", "\n#define b a\n", " int ", " T ", " struct a ",
         " enum { ", " typeof(", " __attribute__((a)) ", " asm(", "({", "})", " a ", " b ", " a:",
         " extern ", " extern \"C\" {", " static ", " typedef ", " return ", "1", "\"s\"", "'c'",
         "/*", "*/", "//", "\\\n", "\r\n", "$", "@", "\u00e9", "++", "--", "&", "&&", "="]
# fmt: on
MOST_DEPTH = 4


class DrawNames:
    """Draws one text after the other."""

    def __init__(self, seed):
        self.random = random.Random(f"names {seed}")
        self.depth = 0

    def one(self, *choices):
        return self.random.choice(choices)

    def chance(self, share):
        return self.random.random() < share

    def some(self, draw, least, most, between=""):
        return between.join(draw() for _ in range(self.random.randint(least, most)))

    def name(self):
        return self.one(*NAMES)

    def text(self) -> bytes:
        text = self.some(self.item, 1, 5, "\n")
        if self.chance(0.4):
            for _ in range(self.one(1, 1, 2, 3, 6)):
                text = self.edited(text)
        return (text + self.one("", "\n")).encode()

    def files(self) -> dict:
        """One to three files by name: a source, often a header and another source beside it."""
        files = {b"a.c": self.text()}
        if self.chance(0.4):
            lines = [self.one(self.macro, self.prototype, self.other)() for _ in range(3)]
            name = self.one(b"a.h", b"b.h", b"x/b.h")
            files[name] = ("\n".join(lines) + "\n").encode()
        if self.chance(0.3):
            files[self.one(b"b.c", b"x/a.c")] = self.text()
        return files

    def edited(self, text):
        """A text with one edit: something is put in, taken away, or stands twice."""
        place = self.random.randint(0, len(text))
        kind = self.one("put", "put", "take", "take", "twice", "line")
        if kind == "put":
            return text[:place] + self.one(*EDITS) + text[place:]
        if kind == "line":
            lines = text.split("\n")
            lines[self.random.randrange(len(lines))] = self.one("", "}", "{", *lines)
            return "\n".join(lines)
        brackets = [number for number, one in enumerate(text) if one in "()[]{};,=:*"]
        if brackets and self.chance(0.8):
            place = self.one(*brackets)
        again = text[place : place + 1] if kind == "twice" else ""
        return text[:place] + again * 2 + text[place + 1 :]

    # ---- the file

    def item(self):
        return self.one(
            self.function,
            self.function,
            self.function,
            self.function,
            self.old_function,
            self.prototype,
            self.macro,
            self.macro,
            self.other,
        )()

    def function(self):
        begin = self.one("", "", "static ", "FOO(a) ", "__attribute__((x)) ", "extern ")
        result = self.one("int ", "T *", "void ", "struct a *", "\nint\n")
        name = self.one("f", "g", "g", "a", "(g)", "TEST")
        after = self.one("", "", "", " __attribute__((x))", " UNUSED", "\n#if a\n#endif\n")
        if self.chance(0.08):
            return f"{begin}int (*{name}({self.parameters()}))({self.parameters()}) {self.body()}"
        return f"{begin}{result}{name}({self.parameters()}){after} {self.body()}"

    def old_function(self):
        names = [self.name() for _ in range(self.random.randint(1, 3))]
        declared = self.some(
            lambda: f"{self.one('int', 'T', 'char *', 'register int')} {self.declarators()}; ", 0, 2
        )
        return f"int {self.one('f', 'g')}({', '.join(names)}) {declared}{self.body()}"

    def prototype(self):
        kind = self.one("int f({});", "T *g({});", "typedef int (*x)({});", "int (g)({});",
                        "struct s {{ int (*a)({}); }};", "int (*b)({}), c;",
                        "extern T *(WINAPI *f)({}), *a;", "int f({}) UNUSED;")  # fmt: skip
        return kind.format(self.parameters())

    def parameters(self):
        return self.one("void", "", *[self.some(self.parameter, 1, 3, ", ")] * 6)

    def parameter(self):
        name, kind = self.name(), self.one("int", "T", "T *", "const char *", "struct s *")
        self.depth += 1
        inner = "int" if self.depth > 2 else self.parameters()
        self.depth -= 1
        return self.one(
            f"{kind} {name}", f"{kind} {name}", f"{kind} {name}", f"{kind} {name}[]",
            f"{kind} (*{name})({inner})", f"int {name}({inner})", f"{kind} {name} UNUSED", name,
            kind, f"{kind} *{name}[2]", "...", f"int UNUSED({name})", f"{kind} (*{name}[2])(int b)",
            f"int {name} __attribute__((x))",
        )  # fmt: skip

    def macro(self):
        name = self.one("F", "M", "FOO", "a", "G")
        if self.chance(0.3):
            return f"#define {name} {self.macro_text()}"
        names = [self.one("a", "b", "c", "x", "__b") for _ in range(self.random.randint(0, 3))]
        names += self.one([], [], [], ["..."], ["c..."])
        return f"#define {name}({', '.join(names)}) {self.macro_text()}"

    def macro_text(self):
        pieces = ["a", "b", "c", "x", "(a)", "#a", "a ## b", "a.b", "b->a", "G(a)", "F(b, x)", "=",
                  "do {", "} while (0)", "goto out", "struct a", "int a;", "1", "+", "a ? b : c",
                  "offsetof(a, b)", "(", ")", "\\\n", "{ .a = b }", "a:", "++a", "&b"]  # fmt: skip
        return " ".join(self.one(*pieces) for _ in range(self.random.randint(0, 6)))

    def other(self):
        return self.one(
            "typedef int T;", "int a, *b = &a;", "struct s { int a, b; } x;", "enum { a, b };",
            "typedef struct a { T b; } x;", 'extern "C" {', "}", "#include \"a.h\"", "#if a",
            "#else", "#endif", "#undef a", "struct s x = { .a = { .b = 1 }, b };",
            "static int out;",
            "LIST_HEAD(a, b)", "T a[] = { f(a), { .x = b } };", "#ifdef a\nint b;\n#endif", "",
        )  # fmt: skip

    # ---- blocks

    def body(self):
        self.depth = 0
        return self.one("{", "\n{", "{ ") + self.statements(2, 7) + self.one(" }", "\n}")

    def statements(self, least, most):
        return self.some(self.statement, least, most, self.one(" ", "\n\t"))

    def statement(self):
        self.depth += 1
        is_deep = self.depth > MOST_DEPTH
        simple = [self.declaration, self.declaration, self.use, self.use, self.plain, self.line]
        deep = [self.block, self.loop, self.branch, self.switch, self.labelled, self.each]
        made = self.one(*simple, *([] if is_deep else deep))()
        self.depth -= 1
        return made

    def inner(self):
        """A statement that can be a block."""
        return self.one(self.block, self.use, self.statement)()

    def declaration(self):
        return f"{self.one(*TYPES)} {self.declarators()};"

    def declarators(self):
        return self.some(self.declarator, 1, 2, ", ")

    def declarator(self):
        name = self.name()
        made = self.one(
            name, name, name, f"*{name}", f"{name}[{self.value()}]",
            f"(*{name})({self.parameters()})",
            f"(*{name}[2])(int b)", f"{name}({self.parameters()})", f"{name} __attribute__((x))",
            f"{name} __aligned(8)", f"(*{self.name()}(int b))(T c)", f"({name})(int a)",
            f"{name} __b",
        )  # fmt: skip
        return made + self.one("", "", f" = {self.value()}", f" = {self.initializer()}")

    def initializer(self):
        inner = self.one(self.value, self.value, self.initializer if self.depth < 6 else self.value)
        self.depth += 1
        begin = self.one("", "", f".{self.name()} = ", "[1] = ", f".{self.name()}.a = ", "[0].b = ")
        made = "{ " + begin + inner() + self.one("", ", " + inner(), ", .a = 1") + " }"
        self.depth -= 1
        return made

    def block(self):
        return "{ " + self.statements(0, 3) + " }"

    def loop(self):
        begin = self.one("", self.value(), f"int {self.declarators()}", f"T *{self.name()} = 0",
                         f"{self.name()} = 0")  # fmt: skip
        head = f"for ({begin}; {self.value()}; {self.value()})"
        return head + " " + self.one(self.inner, self.inner, self.branch)()

    def branch(self):
        made = f"if ({self.value()}) {self.inner()}"
        return made + (f" else {self.inner()}" if self.chance(0.5) else "")

    def switch(self):
        cases = self.some(
            lambda: self.one(
                f"case {self.value()}: {self.statement()}",
                f"case a ... b: {self.statement()}",
                f"case a ? b : c: {self.statement()}",
                f"default: {self.statement()}",
            ),
            1,
            3,
            " ",
        )
        head = self.one("switch (a)", "switch (a)", "while (b)", "do")
        return f"{head} {{ {cases} }}" + (" while (a);" if head == "do" else "")

    def labelled(self):
        return f"{self.name()}: {self.one(';', self.statement())}"

    def each(self):
        return f"{self.one('EACH(a, b)', 'FOO(a)', 'f(1, a)')} {self.block()}"

    def plain(self):
        return self.one(
            f"goto {self.name()};", f"return {self.value()};", ";", "break;",
            f"asm(\"x\" : {self.name()});",
            f"struct {self.name()} {{ int a; enum {{ x, b }} c; }};", f"f({self.value()}) T b = 1;",
            f"FOO(a) {self.name()} = 1;", f"int (*{self.name()})(int a, T (*b)(int c));",
            f"extern int {self.name()}, b;", f"void *{self.name()} = &&out;",
            f"struct {self.name()} *{self.name()};", f"{self.name()} * {self.name()};",
            f"T (*{self.name()})(int a);", f"typedef struct {self.name()} T;",
        )  # fmt: skip

    def line(self):
        """A directive on a line of its own."""
        made = self.one("#if a", "#else", "#endif", "#ifdef b", "#define c a", "#undef x",
                        '#include "b.h"', "#define F(a) a b", "#pragma a")  # fmt: skip
        return f"\n{made}\n" if self.chance(0.5) else self.use()

    def use(self):
        return f"{self.value()};"

    def value(self):
        self.depth += 1
        made = self.deep_value() if self.depth < 7 and self.chance(0.7) else self.name()
        self.depth -= 1
        return made

    def deep_value(self):
        value, name = self.value, self.name()
        return self.one(
            lambda: f"{name}", lambda: "1", lambda: f"{name} = {value()}",
            lambda: f"{name} {self.one('+=', '<<=', '==', '<=', '&', '*', '|=', '- -')} {value()}",
            lambda: f"{self.one('++', '--', '*', '&', '!', '*++', '&*', '-', '& &')}{name}",
            lambda: f"{name}{self.one('++', '--', '[1]', '.a', '->b', '->a[1].b')}",
            lambda: f"{name}{self.one('[a]++', '.b = 1', '[b] = 1', ' -- ')}",
            lambda: f"{self.one('f', 'F', 'g', 'a', 'offsetof', 'S')}({value()}, {value()})",
            lambda: f"({self.one('T', 'struct s', 'int *')}){value()}",
            lambda: f"(struct s)" + self.initializer(), lambda: f"&(T[]){self.initializer()}",
            lambda: f"{value()} ? {value()} : {value()}",
            lambda: f"({{ {self.statements(1, 3)} }})",
            lambda: f"sizeof({value()})", lambda: f"({value()})", lambda: f"(*{name})(b)",
            lambda: f"f(1, {value()})", lambda: f"{value()} && {value()}", lambda: f"*{name}->b++",
            lambda: f"++{name}.a", lambda: f"&{name}->b", lambda: f"f(\"s\", (T){{ a }}, {name})",
        )()  # fmt: skip
