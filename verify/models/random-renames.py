#!/usr/bin/env python3
"""Tries the law of renaming on the models of names, over real texts and random ones.

    verify/models/random-renames.py --sources FOLDER
    verify/models/random-renames.py --first 4711 --texts 1 --drawn     one that is drawn

Text number n has the seed n. It is one of the C files below FOLDER, as it stands or with up to nine
random edits (brackets, `;`, `for (`, `goto`, `#if`, names), or it is drawn as a whole. Half of the
texts are read within the limits of the program. In each some locals, labels and parameters of
macros get another name: one that is new, or one of the text. Each rename that is accepted is made.
Then the new text has to have the same pieces but for the names of those that were edited; and each
name has to have its space and its letter as before, and be bound to what it was bound to, with the
places moved.

At the first wrong rename the seed and the texts are shown and the exit status is 1. Else lines tell
how many renames were accepted, and how often each reason refused one.
"""

from __future__ import annotations

import argparse
import collections
import pathlib
import random
import sys

from draw_names import EDITS, DrawNames
from draw_renames import DrawRenames
from locals_model import Names
from names_model import Text
from reach_model import Refusal, Tree
from rename_law import Difference, check

HERE = pathlib.Path(__file__).resolve().parent
sys.path.insert(0, str(HERE.parent))
from shared import c_files  # noqa: E402

FILE = b"a.c"
LARGEST = 60_000  # bytes of a real text


def edited(text, draw):
    for _ in range(draw.randint(1, 9)):
        place = draw.randint(0, len(text))
        put = draw.choice(EDITS).encode() if draw.random() < 0.8 else b""
        text = text[:place] + put + text[place + (not put) :]
    return text


def names_of(text):
    return sorted({token.text for token in text.tokens})


def tried(text, draw, number, read=Text):
    """Renames some bound names of a text: what came of each; it raises the first difference."""
    tree = Tree({FILE: text}, read)
    old = tree.text(FILE)
    bound = [one for one in old.tokens if old.binding(one.place).kind != "free"]
    words = names_of(old)
    for token in draw.sample(bound, min(number, len(bound))):
        new = draw.choice([b"fresh", b"fresh", draw.choice(words), b"__x", b"q"])
        kind = old.binding(token.place).kind
        try:
            places = tree.rename(FILE, token.place, new)[FILE]
        except Refusal as refusal:
            yield kind, refusal.args[0].partition(b":")[0].decode()
            continue
        try:
            check(old, places, token.text, new, read)
        except Difference as difference:
            said, made = difference.args
            raise Difference(
                f"{token.text!r} at {token.place}, a {kind}, to {new!r}: {said}\n"
                f"before: {text!r}\nafter: {made!r}"
            )
        yield kind, "accepted"


def main() -> int:
    parser = argparse.ArgumentParser(
        description=__doc__, formatter_class=argparse.RawDescriptionHelpFormatter
    )
    parser.add_argument("--sources", type=pathlib.Path, help="a folder of C files")
    parser.add_argument("--texts", type=int, default=400, help="how many texts, 400 by default")
    parser.add_argument("--first", type=int, default=1, help="the first seed, 1 by default")
    parser.add_argument("--renames", type=int, default=4, help="how many in each, 4 by default")
    parser.add_argument("--drawn", action="store_true", help="texts are drawn as a whole")
    given = parser.parse_args()
    if not given.drawn and given.sources is None:
        parser.error("--sources or --drawn is needed")
    files = [] if given.drawn else [*c_files(given.sources, form=".*", largest=LARGEST)]
    counts: collections.Counter = collections.Counter()
    for seed in range(given.first, given.first + given.texts):
        draw = random.Random(f"renames {seed}")
        read = draw.choice([Text, Names])
        if given.drawn:
            text = draw.choice([DrawNames, DrawRenames])(seed).text()
        else:
            text = (given.sources / draw.choice(files)).read_bytes()
            text = edited(text, draw) if draw.random() < 0.5 else text
        try:
            counts.update(tried(text, draw, given.renames, read))
        except Difference as difference:
            print(f"the text of seed {seed}: {difference.args[0]}")
            return 1
    accepted = sum(count for (_, said), count in counts.items() if said == "accepted")
    print(
        f"{given.texts} texts from seed {given.first} on: {accepted} renames accepted,"
        f" {sum(counts.values()) - accepted} refused, none wrong"
    )
    for (kind, said), count in sorted(counts.items()):
        print(f"  {kind}: {said}: {count}")
    return 0


if __name__ == "__main__":
    sys.exit(main())
