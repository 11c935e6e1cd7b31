"""Draws random texts in which one spelling means many things, in files that include each other.

A name is a function, a member, a tag, a variable, a parameter, a label, a macro and a parameter of
a macro, often in one text. It stands in conditions, in other directives, in attributes, in comments
and in strings, too, and beside bytes that make a rename unsafe. Most sessions have one such name.
"""

from __future__ import annotations

import re

from draw_includes import DrawIncludes

# fmt: off
NAMES = ["f", "g", "ab", "F"]
OWN_NAMES = ["same", "same", "same2"]  # no other texts have them
# functions, variables, types, tags, members, enumerators and macros of this name
DEFINING = [
    "int {}(int a) {{ return a; }}", "static int {}(int a) {{ return a; }}", "int {}(int a);",
    "extern int {};", "int {};", "static int {} = 1;", "typedef int {};", "struct {} {{ int a; }};",
    "union {} {{ int {}; }};", "enum {} {{ A }};", "enum {{ {}, B = {} }};",
    "struct s {{ int {}; }};", "struct s {{ int (*{})(int), {}[2]; }};",
    "typedef struct {{ struct {} *{}; }} T;", "struct s {{ union {{ int {}; }}; struct {} x; }};",
    "#define {} 1", "#define {}(x) x", "#define {} {}", "#define {}", "# define {}({}) {}",
    "struct A {} {{ int b; }};", "struct __attribute__((x)) {} {{ int {}; }};",
    "int ({})(int a), *{}[2];", "struct {} {{ int {}; }} {};",
]
USING = [
    "int u(struct s *p) {{ return p->{}(1) + {}(2); }}", "int v(int {}) {{ return {}; }}",
    "int w(void) {{ int {} = 1; return {} + p->{} + q.{}; }}",
    "int x(int {}) {{ goto {}; {}: return p->{}({}); }}", "struct {} *y;",
    "int z(union {} *{}) {{ {}: ; goto {}; return {}->{}.{}; }}",
    "struct s o = {{ .{} = {}, .a = {} }};", "struct s o[] = {{ [1].{}.{} = {{ .{} = 1 }} }};",
    "int t(void) {{ {{ int {}; {} = 1; }} return {}; }}", "enum {} e; union {} *{};",
    "int r(void) {{ struct {} {{ int {}; }} {}; return {}.{}; }}",
    "int q({}, a) int {}; {{ return {} ? {} : {}; }}", "int i(void) {{ case {}: return &{}; }}",
    "int k(void) {{ typedef int {}; enum {{ {} }}; return sizeof(struct {}); }}",
    "int l(int (*g)(int {}), int {}) {{ return {}; }}", "int m(int (*{})(int {}));",
    "#define R(p) ((p)->{}(1))", "#define CALL {}(1) + {}", "#define ID({}) ({}) + p->{}",
    "#define U(x) union {} *{}; struct {}", "#define V {{ .{} = {} }}", "#define W ...{} ..{} x.{}",
    "#define X(x, {}) x {} \\\n\t{}->{} {}.x", "#define {} {}->{} struct {}",
    "#define Y - >{} - {}",
    "#if {}", "#ifdef {}", "#ifndef {}", "#elif {} + {}", "#elifdef {}", "#undef {}", "#endif",
    "#endif", "#else", "#pragma {} ({})", "#line {}", "# {} {}", "#if p->{} || struct {}",
    "#elifndef {}", "#error {} .{}", "int b __attribute__(({}, x->{})); {} d;",
    "int c(void) {{ asm({} : struct {}); return x-> __attribute__(({})) {}; }}",
    "/* {} */ // {}", 'char *d = "{}" L"{}";', '#include "{}.h"', "#include {}",
    "int e = x . {} + x.\n{} + x-> /* */ {} + x-\n>{};", "int h = a...{} + b. .{} + c..{};",
    "struct /* {} */ {} *n; struct\n{} *o; struct * {}; x struct;", "struct {} {} *{}; enum {};",
    "int j = {}$ + {};", "int p = @{} + {}\u00e9;", 'int s = {}"s" + {}\'c\';', "int G = {}\\\n;",
    "int H = \\\n{} + x->\\\n{};", "int {}", "{}->{} }}", "int I(void) {{ {}",
    "int J(void) {{ f({}, x->{}, struct {}); F ({}) {{ {} }} }}", "x = {{ {}: 1, {}:: 2 }};",
]
# fmt: on


class DrawUses(DrawIncludes):
    """Draws texts of files with these names."""

    def __init__(self, seed, files):
        super().__init__(f"uses {seed}", files)
        # macros of a name that has other definitions, too, refuse each rename
        self.has_macros = self.one(True, False)
        self.names = self.one(NAMES[:1], NAMES[1:2], NAMES[:2], NAMES)
        if not self.has_macros:
            self.names = self.one(OWN_NAMES[:1], OWN_NAMES[:1], OWN_NAMES)

    def text(self) -> bytes:
        lines = [self.include() for _ in range(self.one(0, 0, 1, 1, 2))]
        lines += [self.line(DEFINING) for _ in range(self.one(0, 1, 1, 2, 3, 5))]
        lines += [self.line(USING) for _ in range(self.one(1, 2, 4, 6, 9))]
        if self.random.random() < 0.5:
            self.random.shuffle(lines)
        return "".join(line + self.one("\n", "\n", "\n", "\r\n") for line in lines).encode()

    def line(self, lines):
        line = self.one(*lines)
        if re.match("# ?define {", line) and not self.has_macros:
            line = lines[0]
        return line.format(*self.random.choices(self.names, k=8))
