"""Draws random texts of C that include each other and have the same few names.

A text includes some files, by their whole names or the last parts of them, with steps before that
or without: files beside it, above it and elsewhere, itself, files that include it, sources too, and
files that are not there. Some of its lines define or declare a name: as a macro, a function, a
variable, a type or a tag, private or not. Other lines use the names, in code, comments and strings.
"""

from __future__ import annotations

import random

# fmt: off
NAMES = ["f", "f", "f", "g", "g", "ab"]
ALL_NAMES = [*NAMES, "b_1"]  # the last one is seldom more than declared
STEPS = [*[""] * 10, "./", *["../"] * 5, "../../", "./../", ".././../", "../../../", "../a/", "/",
         "x/../", ".//"]
UP = ["../", "../", "../", "../../", "./../"]
INCLUDES = ['#include "{}"', '#include "{}"', "#include <{}>", '  # include "{}" // f']
DEFINING = [
    "#define {} 1", *["#define {}(x) x"] * 3, "int {}(int a) {{\n\treturn a;\n}}",
    "int {}(void) {{ }}", "static int {}(int a) {{ return a; }}",
    "static inline int {}(void) {{ }}", "int {}(int a);", "int {}(int a);", "static int {}(void);",
    "extern int {};", "extern int {};", "int {};", "static int {} = 1;", "typedef int {};",
    "struct {} {{ int a; }};", "enum {{ {} }};", "struct s {{ int {}; }};", "int b_1(int a);",
    "int b_1(int a);", "extern int b_1, {};", "int {}(int a) {{ return b_1; }}",
    "extern int b_1(int a), {}(int a);",
]
USING = [
    "int u(int k) {{ return {}(1) + {}; }}", "int v(struct {} *k) {{ return {}(k); }}",
    "#define M(x) {}(x) + {}", "/* {} and {} */", 'char *w = "{} {}";', "int y = {}(2), z[{}];",
    "int t(int k) {{ return {}({}(k)) + k->{}; }}", "#if {}\n#endif",
]
# fmt: on


class DrawIncludes:
    """Draws texts of files with these names."""

    def __init__(self, seed, files):
        self.random, self.files = random.Random(f"includes {seed}"), files
        self.steps = self.one(STEPS, STEPS, UP, [""])

    def one(self, *choices):
        return self.random.choice(choices)

    def text(self) -> bytes:
        lines = [self.include() for _ in range(self.one(0, 1, 2, 2, 3, 3))]
        lines += [self.line(DEFINING) for _ in range(self.one(0, 1, 1, 2, 3))]
        if self.random.random() < 0.3:
            self.random.shuffle(lines)
        lines += [self.line(USING) for _ in range(self.one(1, 2, 3))]
        return "".join(line + "\n" for line in lines).encode()

    def include(self):
        parts = self.one(*self.files).split("/")
        last = "/".join(parts[self.one(0, self.random.randrange(len(parts))) :])
        return self.one(*INCLUDES).format(self.one(*self.steps) + last)

    def line(self, lines):
        names = ALL_NAMES if lines is USING else NAMES
        return self.one(*lines).format(*self.random.choices(names, k=3))
