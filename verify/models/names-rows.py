#!/usr/bin/env python3
"""Compares the models of names with texts that are worked out by hand.

    verify/models/names-rows.py

The texts, the questions and the answers are in `names-rows.txt`, which tells their form. What
`names_model.py`, `reach_model.py` and `uses_model.py` answer has to be the same. Each difference is
printed, and the exit status is 1 if there is one.
"""

from __future__ import annotations

import pathlib
import re
import sys
from typing import NamedTuple

from reach_model import Refusal, Tree
from server_model import Document, Error, Server, word_at
from session_model import World

HERE = pathlib.Path(__file__).resolve().parent
sys.path.insert(0, str(HERE.parent))
from shared import Report  # noqa: E402

TEXTS = HERE / "names-rows.txt"
ESCAPES = {b"\\n": b"\n", b"\\t": b"\t", b"\\r": b"\r", b"\\\\": b"\\"}


class Case(NamedTuple):
    """Files, the places of the marks in them, and questions with their answers."""

    what: str
    files: dict
    marks: dict
    questions: list


def plain(text):
    """The bytes of a text with escapes."""
    return re.sub(
        rb"\\(?:[ntr\\]|x[0-9a-f]{2})",
        lambda it: ESCAPES.get(it[0]) or bytes([int(it[0][2:], 16)]),
        text,
    )


def cases():
    for block in TEXTS.read_text().split("\n\n# ")[1:]:
        what, *lines = block.strip("\n").split("\n")
        case = Case(what, {}, {}, [])
        for line in lines:
            words, _, rest = line.partition(": ")
            if re.fullmatch(r"\S+\.[ch]", words):
                pieces = re.split(rb"@(\d+)", rest.encode())
                text = plain(pieces[0])
                for mark, piece in zip(pieces[1::2], pieces[2::2]):
                    case.marks[mark.decode()] = words.encode(), len(text)
                    text += plain(piece)
                case.files[words.encode()] = text
            else:
                case.questions.append((words.split(" "), rest))
        yield case


def answer(tree, case, verb, mark, *more):
    """What the models say to a question, in the words of the texts."""
    marks = {place: mark for mark, place in case.marks.items()}
    file, place = case.marks[mark]

    def shown(places):
        return " ".join(marks.get(one, f"{one[0].decode()}:{one[1]}") for one in places) or "-"

    if verb == "space":
        return tree.text(file).space(place)
    if verb == "bound":
        return tree.text(file).binding(place).kind
    if verb == "def":
        return shown(tree.definition(file, place))
    if verb == "decl":
        return shown(tree.declaration(file, place))
    if verb == "uses":
        uses = tree.uses(file, place)
        return " ".join(shown([(one, use)]) + letter for one, use, letter in uses)
    server = server_of(case.files)
    word = word_at(case.files[file], place)
    try:
        if verb == "refs":
            name, sort = server.wanted(file, case.files[file], place, word)
            edits = server.uses_in(server.reached(file, name), name, sort)
        elif verb == "edits":
            edits = server.renamed(file, word, more[0].encode())
        else:
            edits = tree.rename(file, place, more[0].encode())
    except Refusal as refusal:
        return "refused " + refusal.args[0].decode()
    except Error as error:
        return "refused " + error.args[1].decode()
    return shown((one, use) for one, uses in edits.items() for use in uses)


def server_of(files):
    """A language server with the wide profile that has these files open."""
    server = Server(profile=b"--wide")
    server.world = World(files)
    server.documents = {name: Document(text) for name, text in files.items()}
    return server


def main() -> int:
    report, asked = Report(), 0
    number = 0
    for number, case in enumerate(cases(), 1):
        tree = Tree(case.files)
        for words, expected in case.questions:
            asked += 1
            report.same(f"{case.what}: {' '.join(words)}", expected, answer(tree, case, *words))
    print(f"{number} cases, {asked} questions")
    return report.status()


if __name__ == "__main__":
    sys.exit(main())
