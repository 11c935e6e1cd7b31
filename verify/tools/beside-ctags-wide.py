#!/usr/bin/env python3
"""Compares the definitions of the wide profile in real C sources with those of Universal Ctags.

    make && verify/tools/beside-ctags-wide.py FOLDER
    verify/tools/beside-ctags-wide.py --cbrowse PATH --rows FILE --without deps FOLDER

It takes every file of the folder that cbrowse takes, at most 4,096 of them, except those below a
folder that `--without` names. Both programs get the same files:

    cbrowse tags --wide --prototypes --format 2
    ctags --language-force=C --kinds-C=+px --if0=yes

Two definitions are the same if kind, name, file and line are. The names that ctags makes up
(`__anon..`) are left out. For each kind a table says how many definitions each program finds, what
part of those of ctags cbrowse finds, and the other way round. Then each row that only one side has
is counted under its likely reason, judged by its line and the lines around it, and `--rows` writes
all of them to a file. Last, the scope fields of the enumerators and members that both have are
counted. It compares and judges nothing, so it has no failures.
"""

from __future__ import annotations

import collections
import pathlib
import re
import sys

from tags_files import OWN_WIDE, WIDE, Found, counted, definitions, put_table

sys.path.insert(0, str(pathlib.Path(__file__).resolve().parents[1]))
from shared import MOST_FILES, RESERVED, c_files, options, words_given  # noqa: E402

KINDS = {
    "f": "functions",
    "d": "macros",
    "t": "typedefs",
    "s": "structures",
    "u": "unions",
    "g": "enumerations",
    "e": "enumerators",
    "m": "members",
    "v": "variables",
    "x": "external",
    "p": "prototypes",
}
SCOPES = "struct", "union", "enum"


def is_in_function(lines: list[str], line: int) -> bool:
    """Whether the last line before it that has a brace and is not indented opens a body."""
    for text in reversed(lines[: line - 1]):
        if text.startswith(("{", "}")):
            return text.startswith("{")
        if re.match(r"[^\s#/*].*\{\s*$", text):
            return not re.search(r"^(typedef|struct|union|enum)\b|=", text)
    return False


def is_value_of_enum(lines: list[str], line: int) -> bool:
    """Whether it lies in the braces after `enum .. =`."""
    text = "\n".join(lines[max(line - 20, 0) : line])
    return re.search(r"\benum\b[^;{}]*=\s*\{[^{}]*$", text) is not None


def reason(item: Found, by_ctags: bool, near: list[Found], lines: list[str]) -> str:
    """Why one finds it and the other does not."""
    text = lines[item.line - 1] if item.line <= len(lines) else ""
    name = re.escape(item.name)
    kinds = {other.kind for other in near if other.name == item.name}
    if kinds:
        return f"the other says {', '.join(sorted(kinds))}"
    if item.kind == "d" and by_ctags and re.match(r"\s*#\s*pragma\b", text):
        return "a name after #pragma weak, taken for a macro"
    if item.kind == "d" and by_ctags:
        return "the name is a reserved word" if item.name in RESERVED else "a name with $"
    if item.kind == "d":
        return "ctags passes over a branch of #if"
    if item.kind == "e" and re.search(rf"\b{name}\s*\(", text):
        return "an enumerator made by a macro"
    if re.search(rf"\(\s*{name}\s*\)\s*\(", text):
        return "a name in parentheses"
    if by_ctags and item.kind in "mv" and item.name.startswith("__"):
        return "a word with two underscores, likely an attribute"
    if by_ctags and item.kind == "p" and re.match(rf"\s*(\w+\s+)?{name}\s*\(", text):
        return "a macro with arguments, as a prototype"
    if by_ctags and item.kind == "e" and is_value_of_enum(lines, item.line):
        return "a value of an array, taken for an enumerator"
    if by_ctags and item.kind in "tvxp" and is_in_function(lines, item.line):
        return "likely in a function"
    if re.search(rf"\b[A-Z_]{{3,}}\s*\(.*\b{name}\b", text):
        return "a macro with arguments before the name"
    if re.search(rf"\b{name}\b.*\b[A-Za-z_]\w*\s*\(", text):
        return "a macro with arguments after the name"
    return "other"


def put_scopes(own: list[tuple[Found, dict]], other: list[tuple[Found, dict]]) -> None:
    """How the scope fields of the enumerators and members that both have differ."""
    of_other = {item: fields for item, fields in other}
    told: collections.Counter = collections.Counter()
    for item, fields in own:
        if item.kind not in "em" or item not in of_other:
            continue
        mine, its = (
            next((f"{word}:{named[word]}" for word in SCOPES if word in named), "")
            for named in (fields, of_other[item])
        )
        if mine == its:
            told["the same"] += 1
        elif "__anon" in its.split("::")[-1].split(":")[-1]:
            told[("the body around" if mine else "none") + ", where ctags makes a name up"] += 1
        elif mine.split(":")[-1] == its.split(":")[-1]:
            told["the last of the chain of ctags"] += 1
        else:
            told["another"] += 1
            print("    scope", item, mine or "none", its or "none")
    print("scope fields: " + ", ".join(f"{what} {count}" for what, count in told.items()))


def main() -> None:
    parser = options(__doc__)
    parser.add_argument("folder", type=pathlib.Path, help="a folder with C files")
    parser.add_argument("--ctags", default="ctags", help="Universal Ctags")
    parser.add_argument(
        "--without", action="append", default=[], help="a folder's name; what is below is left out"
    )
    parser.add_argument(
        "--shown", type=int, default=3, help="how many of each difference to show, 3 by default"
    )
    parser.add_argument("--rows", type=pathlib.Path, help="a file for all rows that differ")
    words = words_given(parser)
    folder = words.folder.resolve()
    sizes = c_files(folder, words.without, most=MOST_FILES)
    of_own = definitions([words.cbrowse, *OWN_WIDE], [*sizes], folder)
    of_ctags = definitions([words.ctags, *WIDE], [*sizes], folder)
    own, other = counted(of_own), counted(of_ctags)
    print(f"{len(sizes)} files with {sum(sizes.values())} bytes")
    put_table(KINDS, own, other, "cbrowse")
    texts: dict[str, list[str]] = {}
    places = collections.defaultdict(list)
    for item in own | other:
        places[item.file, item.line].append(item)
    rows = []
    for by_ctags, some, others in (True, other - own, own), (False, own - other, other):
        side = "ctags" if by_ctags else "cbrowse"
        reasons = collections.defaultdict(list)
        for item in sorted(some.elements()):
            if item.file not in texts:
                texts[item.file] = (folder / item.file).read_text("latin-1").split("\n")
            near = [it for it in places[item.file, item.line] if it in others]
            why = reason(item, by_ctags, near, texts[item.file])
            line = texts[item.file][item.line - 1].strip()
            shown = f"{item.name}, {item.file}:{item.line}: {line}"
            reasons[f"{KINDS[item.kind]}: {why}"].append(shown[:150])
            rows.append(f"{side}\t{item.kind}\t{why}\t{shown}\n")
        for why, items in sorted(reasons.items()):
            print(f"{side} alone: {len(items)} {why}")
            for shown in items[: words.shown]:
                print("   ", shown)
    put_scopes(of_own, of_ctags)
    if words.rows:
        words.rows.write_text("".join(rows))


if __name__ == "__main__":
    main()
