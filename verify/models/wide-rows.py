#!/usr/bin/env python3
"""Compares the models of the wide profile with texts that are worked out by hand.

    verify/models/wide-rows.py

The texts and what is found in them are in `data/facts-wide.txt` of `worked_cases`, whose README
tells the form. For each text the definitions of both models (`wide_model.py`, `wide_pass.py`) have
to be these by place. The tags file in the plain and the extended format, the listing and the rows
of field 1 have to be, byte for byte, those that are put together here from the definitions by hand.
Each difference is told, and the exit status is 1 if there is one. The scanner is compared with the
same texts by the gate.
"""

from __future__ import annotations

import pathlib
import sys
from typing import NamedTuple

import wide_model
import wide_pass
from session_model import HEADS, MAY_BE_LOCAL, World
from session_model import answer, extended_lines, listing_lines, plain_lines

HERE = pathlib.Path(__file__).resolve().parent
sys.path.insert(0, str(HERE.parent))
from shared import TOP, Report  # noqa: E402

sys.path.insert(0, str(TOP / "scripts"))
from cases import plain  # noqa: E402

TEXTS = TOP / "crates/worked_cases/data/facts-wide.txt"
FILE = b"w.c"


class Row(NamedTuple):
    """A definition that is worked out by hand."""

    kind: bytes
    name: bytes
    line: int
    scope: bytes
    local: bool


def row_of(words: str) -> Row:
    name, kind, number, *more = words.encode().split(b" ")
    scope = b"".join(more)
    is_local = scope == b"static"
    return Row(kind, name, int(number), b"" if is_local else scope, is_local)


def cases():
    """What each text shows, the text, and its rows with external declarations and prototypes."""
    for case in TEXTS.read_text().split("\n\n# ")[1:]:
        what, *lines = [line for line in case.split("\n") if line]
        text = b"".join(plain(line[2:]) for line in lines if line.startswith("| "))
        told = next(line for line in lines if line.startswith("prototypes:"))
        rows = told.partition(":")[2].split(";")
        yield what, text, [row_of(row.strip()) for row in rows if row.strip()]


def files_of(text: bytes, rows: list[Row]) -> tuple[bytes, bytes, bytes]:
    """The tags files and the listing of a text with these rows; no name is `main` twice."""
    shown = text.split(b"\n")
    plain_file, extended, listing = [], [], []
    for row in rows:
        line = shown[row.line - 1]
        address = line.replace(b"\\", b"\\\\").replace(b"/", b"\\/")
        tag_name = b"M" + FILE[:-2] if row.name == b"main" else row.name
        fields = [row.kind, b"line:%d" % row.line]
        is_local = row.local and row.kind in MAY_BE_LOCAL
        fields += [row.scope] if row.scope else [b"file:"] if is_local else []
        after = b"\t" + FILE + b"\t/^" + address + b"$/"
        plain_file.append((tag_name, tag_name + after + b"\n"))
        extended.append((row.name, row.name + after + b';"\t' + b"\t".join(fields) + b"\n"))
        listing.append((row.name, b"%s %d %s %s\n" % (row.name, row.line, FILE, line)))
    plain_lines, *others = (
        b"".join(line for _, line in sorted(lines, key=lambda pair: pair[0]))
        for lines in (plain_file, extended, listing)
    )
    return plain_lines, b"".join(HEADS) + others[0], others[1]


def rows_of_field_1(text: bytes, rows: list[Row], name: bytes) -> list[bytes]:
    """The rows of the definitions of a name; equal ones stand once, `x` and `p` are none."""
    shown = text.split(b"\n")
    found = [row for row in rows if row.name == name and row.kind not in (b"x", b"p")]
    lines = dict.fromkeys(row.line for row in found)
    return [b"%s %s %d %s\n" % (FILE, name, n, shown[n - 1].lstrip(b" \t")) for n in lines]


def main() -> int:
    report, number = Report(), 0
    for number, (what, text, rows) in enumerate(cases(), 1):
        for model in wide_model, wide_pass:
            found = [
                Row(one.kind, one.name, one.line, one.scope, one.local)
                for one in model.facts(text).definitions
            ]
            report.same(f"{what}: definitions of {model.__name__}", rows, found)
            world = World({FILE: text})
            made = [
                b"".join(lines(world, model.facts))
                for lines in (plain_lines, extended_lines, listing_lines)
            ]
            expected = files_of(text, rows)
            for form, one, other in zip(("plain", "extended", "listing"), expected, made):
                report.same(f"{what}: {form} by {model.__name__}", one, other)
            for name in sorted({row.name for row in rows}):
                report.same(
                    f"{what}: field 1 of {name.decode()} by {model.__name__}",
                    rows_of_field_1(text, rows, name),
                    answer(world, b"1", name, model.facts),
                )
    print(f"{number} texts")
    return report.status()


if __name__ == "__main__":
    sys.exit(main())
