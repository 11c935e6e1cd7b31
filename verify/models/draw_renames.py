"""Draws random texts of C in which renames of locals meet macros, directives and odd bytes.

They are those of `draw_names.py` with more: macros that lead to one another, up to 18 deep, and end
with a name, a parameter, a member, a tag, a string or a pasted name; functions that name them, with
locals as arguments; directives and includes in functions; bytes beside names that make a rename
unsafe; macros that use their parameters in many ways, on joined lines and in functions, too.
"""

from __future__ import annotations

import re

from draw_names import DrawNames

# fmt: off
MACROS = ["M", "S", "F", "G", "FOO", "EACH"]
# what a macro's text can end with
LEAVES = [
    "a", "b", "c", "x", "out", "q", "(a + 1)", "1", "", "f(b)", "e", "T", "goto out", "out:",
    "e->a", "e->b", "e . b", "(e).a", "v[0].b", "{ .a = 1 }", "(T){ .x = 1, .b = 2 }", ".a",
    "-> a", "e- > a", "1 .a", "\"s\".a", "e..a", "e...b", "a.b.c", "a->b->x", "struct a *",
    "enum b", "union x { int c; }", "struct /**/ a", "struct\\\n b", "struct __attribute__((x)) a",
    "/* a */ 1 // b", "\"a\"", "'a'", "#a", "#e", "# x", "a ## b", "e ## 1", "%:a", "a$b",
    "L\"a\"", "offsetof(a, b)", "__builtin_offsetof", "offsetof", "e.x", "x.e", "e->x", "x->e",
    "struct e", "struct x", "goto e", "goto x", "e:", "x :", "c ? x : e", "x ? e : x", "(x)",
    "((e))", "x e", "__b", "__VA_ARGS__", "#__VA_ARGS__", "defined a", "int a;", "if a",
    "do { a++; } while (0)", "(", ")", "{", "}",
]
PARAMETERS = [
    "", "x", "e", "x, e", "e, x", "a", "b, x", "x, a", "x, ...", "...", "x...", " e , x ",
    "offsetof", "S, x", "M", "x", "x, e",
]
LISTS = [
    "a", "b", "x", "e", "out", "q", "a, b", "x, e", "b, a, x", "k, l", "a, a", "x, e, x", "x, ...",
    "a...", " a , /**/ b ", "a,\\\n b", "a\\\r\n, x", "a b", "a = 1", "b[2] = a", "a(b)", "f, g",
    "a(b) x", "e, M", "T, a", "F", "int, a", "__b, c", "a, b x", "define, a", "a, b)", "a$, b",
]
# how a macro uses its parameters: % stands for a name
USES = [
    "%", "%", "(%)", "% = %", "% += %", "%++", "--%", "&%", "&&%", "*%", "*%++", "!&%", "%[1] = %",
    "(%)[%]++", "%->%", "%.% = 1", "x->%", "x.%", "e. . .%", "#%", "# %", "% ## %", "##%", "%##",
    "1 & %", "'c' & %", "\"s\" & %", ") & %", "] & %", "% & %", "struct %", "enum % {", "? % : %",
    "goto %; %:", "int % = %;", "% == %", "sizeof %", "M(%)", "S(%, 1)", "F((%))", "G (S(%))",
    "FOO[%]", "f(%)", "%(%)", "EACH(%", "S(1) %", "offsetof(T, %)", "__attribute__((%))", "%: %",
    "% __attribute__((x)) = 1", "M __attribute__((x)) (%)", "typeof(%)", "{ .% = % }", "[%", "%]",
    "(", ")", "{", "}", "%$", "@%", "'%'", "L\"%\"", "/**/%/**/", "%\u00e9", "\\\n%", "%\\\n",
    "\\\n % ", "\\\r\n % = ", "% // %", ", %", "%, %", "% <<= 1", "- -%", "+ +%++",
]
ARGUMENTS = [
    "a", "b", "c", "x", "out", "1, a", "a, b", "b, a", "(a)", "g(b)", "a[b]", "&a", "*b++",
    "({ a; })", "(T){ a }", "a->b", "b.a", "struct a, b", "T, x", "\"s\", c", "S(a)", "F(b, 1)",
    "M(x)", "G(a), 1", "(1, (b))", "", "{ a", "[a", "a]", "a; b", "S", "offsetof", "a\n#if a\n",
]
ODD = [
    "a$b", "$a", "a$", "@a", "a@b", "b\u00e9", "\u00e9a", "\U0001f600a", "a\\\n", "\\\na",
    "a\\\r\n", "a\\\nb", "L\"x\"", "a\"x\"", "\"x\"a", "'x'b", "a'x'", "L'a'", "a\r", "\rb",
    "a\x01", "\x7fb", "a/**/b", "/**/a", "a #b", "b\\", "1a", "a1", ".5a", "0xa", "a\f",
]
DIRECTIVES = [
    "#if a", "#ifdef b", "#elif c", "#else", "#endif", "#define r b", "#define q a", "# undef x",
    "#define F(a) a b", "#pragma a", "#include \"b.h\"", "#include <sys/f.h>", "#include a",
    "#include \"\u00e9 \\ .h\"", "#include \"\"", "# 1 \"a\" b", "#", "#if defined(M) && F(a)",
    "#define M(x) S(x)", "#define \\\n S a", "/* */ #define G out", "#error a b", "#line a",
    "#include <a", "#include_next <a.h>", "#include \"f.h\" b",
]
ATTRIBUTES = [
    'asm("" : [a] "=r"(b) : "0"(c));', 'asm volatile ("" : [b] "=r"(a));', "asm(b);",
    "__attribute__((cleanup(a))) int b;", "int c __attribute__((aligned(sizeof a)));",
    "__asm__(M);", "__attribute__((F(x)));", '__asm__ __volatile__("" :: [x] "r"(S(a)));',
    "int a asm(\"b\");", "_Alignas(a) int x;", "__declspec(b) int a;", "void *a = &&out;",
    "asm goto(\"\" :::: out);", "__label__ out;", "({ int a asm(\"a\"); a; });",
]
PLAIN = [
    "a = b + c;", "x = f(a, b);", "if (a) goto out;", "out: ;", "{ int a = b; c = a; }", "q;",
    "for (int x = 0; x < a; x++) b += x;", "e->a = a;", "x.b = c;", "struct a *x = e;",
    "enum { q, r };", "int (*g)(int a, int b);", "typedef int t;", "T y = { .a = a };", "goto no;",
    "return a;", "int k, *l = &k;", "extern int c;", "int g(int b, int r);", "k++;", "t l;",
    "struct r { int a, k; } l;", "sizeof(struct a);", "a: b: ;", "goto a;", "b = ({ int c; c; });",
    "switch (a) { case 1: b++; default: c = a; }", "void *l = &&out;", "l.k = a;",
]
# fmt: on
MOST_CHAIN = 18


class DrawRenames(DrawNames):
    """Draws one text after the other."""

    def text(self) -> bytes:
        return self.one(self.tidy_text, self.tidy_text, super().text)()

    def tidy_text(self) -> bytes:
        """A text of plain functions; in most are a few things that can hinder a rename."""
        kinds = [self.chain, self.macro, self.tangle, self.other]
        kinds += [self.strange] * 4 + [self.listed] * 3
        lines = [self.one(*kinds)() for _ in range(self.one(0, 1, 1, 2, 3, 4))]
        for number in range(self.one(1, 1, 2, 3)):
            made = [self.one(*PLAIN) for _ in range(self.one(1, 2, 3, 5, 8))]
            for _ in range(self.one(0, 0, 1, 1, 1, 2, 3)):
                place = self.random.randint(0, len(made))
                made.insert(place, self.hindrance())
            parameters = self.one("int a, int b", "int a", "void", "T *e, int out", "a, b")
            begin = self.one("", "", "static ", "\n", "FOO(x) ")
            between = self.one(" ", "\n\t", "\r\n")
            body = between.join(["{", *made])
            lines.append(f"{begin}int {self.one('f', 'g', 'h')}({parameters}) {body}{between}}}")
        if self.chance(0.3):
            self.random.shuffle(lines)
        return ("\n".join(lines) + self.one("", "\n")).encode()

    def hindrance(self):
        kinds = [self.called] * 5 + [self.nested] * 2 + [self.odd] * 2
        kinds += [self.directive, self.attribute]
        return self.one(*kinds)()

    def nested(self):
        """Macros in the arguments of macros, with a local."""
        inner = self.one("a", "b", "a, 1", "b, a", "1, c")
        for _ in range(self.one(1, 2, 2, 3)):
            inner = self.one("", "", "1, ") + f"{self.one(*MACROS)}({inner})"
        return f"{inner};"

    def odd(self):
        return f"{self.one(*ODD)};"

    def directive(self):
        made = self.listed() if self.chance(0.15) else self.one(*DIRECTIVES)
        return f"\n{made}\n"

    def attribute(self):
        return self.one(*ATTRIBUTES)

    def item(self):
        if self.depth == 0 and self.chance(0.35):
            return self.one(self.chain, self.macro, self.tangle, self.listed)()
        return super().item()

    def name(self):
        names = "a", "a", "b", "b", "c", "x", "out", "q", "e"
        return self.one(*names) if self.chance(0.95) else "T"

    def macro(self):
        if self.chance(0.05):
            return super().macro()
        name = self.one("a", "T", "c") if self.chance(0.05) else self.one(*MACROS)
        return self.define(name, self.leaf())

    def define(self, name, text):
        if self.chance(0.35):
            return f"#define {name} {text}"
        return f"#define {name}({self.one(*PARAMETERS)}) {text}"

    def leaf(self):
        return " ".join(self.one(*LEAVES) for _ in range(self.one(1, 1, 1, 2, 3)))

    def chain(self):
        """Macros of which each names the next one, in any order; the first is named like others."""
        size = self.one(1, 2, 3, 5, 8, 14, 15, 15, 16, 16, 17, 17, MOST_CHAIN)
        begin = self.one("M", "S", "F", "G")
        names = [begin] + [f"{begin}{number}" for number in range(1, size)]
        lines = []
        for number, name in enumerate(names):
            text = names[number + 1] if number + 1 < size else self.leaf()
            if self.chance(0.15):
                text += " " + self.one(f"({self.one('x', 'e', 'a')})", f"{begin}{size // 2}", "1")
            is_plain = self.chance(0.8)
            lines.append(f"#define {name} {text}" if is_plain else self.define(name, text))
        if self.chance(0.3):
            self.random.shuffle(lines)
        return "\n".join(lines)

    def strange(self):
        """A macro that makes something else of its first argument."""
        text = self.one("#x", "x ## 1", "(e)->x", "offsetof(T, x)", "struct x *", "goto x", "x: ;",
                        "S(x)", "f(e.x)", "1 ? x : e", "e ## x", "F(x)")  # fmt: skip
        return f"#define {self.one(*MACROS)}({self.one('x', 'x, e', 'x, ...')}) {text}"

    def listed(self):
        """A macro that uses its parameters, often on more lines than one."""
        given = self.one(*LISTS)
        names = re.findall(r"[A-Za-z_]\w*", given) * 3 + [self.name()]
        uses = [self.one(*USES) for _ in range(self.one(1, 2, 3, 5, 8))]
        text = self.one(" ", " ", " ", " \\\n\t", " \\\r\n").join(uses)
        text = re.sub("%", lambda _: self.one(*names), text)
        blank = self.one(*[""] * 12, " ", "\\\n", "/**/")
        end = self.one(*[")"] * 12, "")
        return f"#define {self.one(*MACROS, 'k')}{blank}({given}{end} {text}"

    def tangle(self):
        """Macros that name one another, some more than once and some in a circle."""
        names = self.random.sample(MACROS, 3)
        lines = []
        for name in names:
            inner = [self.one(*names, self.leaf()) for _ in range(self.one(1, 2))]
            calls = [
                f"{it}({self.one('x', 'e', 'a', '')})" if self.chance(0.5) else it for it in inner
            ]
            lines.append(self.define(name, " ".join(calls)))
        return "\n".join(lines)

    def plain(self):
        return self.hindrance() if self.chance(0.5) else super().plain()

    def called(self):
        """A statement that names a macro, mostly with arguments."""
        name = self.one(*MACROS, "offsetof", "__builtin_offsetof", "f", "M1", "S2")
        if self.chance(0.15):
            return self.one(
                f"{name};", f"({name})(a);", f"{name}[a](b);", f"a.{name}(b);", f"{name}(b;"
            )
        between = self.one("", "", "", " ", "/**/", "\\\n", "\n#if a\n")
        arguments = self.one(*ARGUMENTS)
        if self.chance(0.3):
            arguments += ", " + self.one(*ARGUMENTS)
        return f"{name}{between}({arguments});"

    def line(self):
        return self.directive() if self.chance(0.4) else self.use()

    def value(self):
        is_called = self.depth < 6 and self.chance(0.12)
        return self.called().rstrip(";") if is_called else super().value()
