#!/usr/bin/env python3
"""Compares the definitions that cbrowse finds in real C sources with those of Universal Ctags.

    make && verify/tools/beside-ctags.py --without deps --without contrib FOLDER
    verify/tools/beside-ctags.py --cbrowse PATH --shown 0 FOLDER

Sources come from Debian's packages, for instance: `apt-get source --download-only zlib lua5.4 redis
tmux`, with each `.orig.tar.*` unpacked side by side in one folder. It takes every file of the
folder that cbrowse takes, except those below a folder that `--without` names. Both programs get the
same files:

    cbrowse tags --format 2
    ctags --language-force=C --kinds-C=fdtsug --if0=yes

Two definitions are the same if kind, name, file and line are. The names that ctags makes up
(`__anon..`) are left out. For each kind a table says how many definitions each program finds, what
part of those of ctags cbrowse finds, and the other way round. Then each difference is counted under
its likely reason, judged by its line and the lines around it. It compares and judges nothing, so it
has no failures.
"""

from __future__ import annotations

import collections
import pathlib
import re
import sys

from tags_files import Found, counted, definitions, put_table

sys.path.insert(0, str(pathlib.Path(__file__).resolve().parents[1]))
from shared import RESERVED, c_files, words_given, options  # noqa: E402

KINDS = {
    "f": "functions",
    "d": "macros",
    "t": "typedefs",
    "s": "structures",
    "u": "unions",
    "g": "enumerations",
}
NEAR = 3  # lines between two names of one declaration
CPP = re.compile(r"^\s*(class|public|private|template)\b|Q_OBJECT|::")
CTAGS = ["--options=NONE", "--language-force=C", "--kinds-C=fdtsug", "--if0=yes", "--fields=+kn"]


def follows_no_stop(lines: list[str]) -> bool:
    """Whether the last `typedef` of these lines follows what is no end of a declaration."""
    text = re.sub(r"(?m)^[ \t]*#(?:.*\\\n)*.*", "", "\n".join(lines))
    text = re.sub(r"/\*.*?\*/|//[^\n]*", "", text, flags=re.DOTALL)
    before = text[: text.rfind("typedef")].rstrip()
    return before != "" and before[-1] not in ";{}"


def reason(item: Found, by_ctags: bool, other_side: collections.Counter, lines: list) -> str:
    """Why one program finds it and the other does not."""
    text = lines[item.line - 1] if item.line <= len(lines) else ""
    near = [
        other
        for other in other_side
        if other.file == item.file
        and other.kind == item.kind
        and abs(other.line - item.line) <= NEAR
    ]
    if item.kind == "d":
        is_reserved = item.name in RESERVED
        return "the name is a reserved word" if is_reserved else "ctags passes over a branch of #if"
    if item.kind in "sug":
        return "something stands between the keyword, the name and the brace"
    if item.kind == "f":
        if near:
            return "a macro with arguments stands before the function, and cbrowse takes its name"
        if any(CPP.search(line) for line in lines):
            return "the file is C++"
        return "other functions"
    if by_ctags and follows_no_stop(lines[: item.line]):
        return "what stands before `typedef` has no `;`, as a macro on a line of its own"
    if by_ctags and re.search(r"[(]\s*\w+\b[\s*]*\b%s\s*[)]" % re.escape(item.name), text):
        return "a macro stands before the star and the name of a pointer to a function"
    if near or re.search(r"[)]\s*\w+\s*[(]", text):
        return "a macro with arguments follows the name of a typedef"
    if re.search(r"[(]\s*%s\s*[)]" % re.escape(item.name), text):
        return "the name of a typedef stands in parentheses without a star"
    return "the typedef is in a body" if by_ctags else "ctags passes over it"


def main() -> None:
    parser = options(__doc__)
    parser.add_argument("folder", type=pathlib.Path, help="a folder with C files")
    parser.add_argument("--ctags", default="ctags", help="Universal Ctags")
    parser.add_argument(
        "--without", action="append", default=[], help="a folder's name; what is below is left out"
    )
    parser.add_argument(
        "--shown", type=int, default=5, help="how many of each difference to show, 5 by default"
    )
    words = words_given(parser)
    folder = words.folder.resolve()
    sizes = c_files(folder, words.without)
    own = counted(definitions([words.cbrowse, "tags", "--format", "2"], [*sizes], folder))
    other = counted(definitions([words.ctags, *CTAGS], [*sizes], folder))
    print(f"{len(sizes)} files with {sum(sizes.values())} bytes")
    put_table(KINDS, own, other, "cbrowse")
    texts: dict[str, list[str]] = {}
    for by_ctags, some, others in (True, other - own, own - other), (
        False,
        own - other,
        other - own,
    ):
        reasons = collections.defaultdict(list)
        for item in sorted(some.elements()):
            if item.file not in texts:
                texts[item.file] = (folder / item.file).read_text("latin-1").split("\n")
            why = reason(item, by_ctags, others, texts[item.file])
            reasons[KINDS[item.kind] + ": " + why].append(f"{item.name}, {item.file}:{item.line}")
        for why, items in sorted(reasons.items()):
            print(f"{'ctags' if by_ctags else 'cbrowse'} alone: {len(items)} {why}")
            for item in items[: words.shown]:
                print("   ", item)


if __name__ == "__main__":
    main()
