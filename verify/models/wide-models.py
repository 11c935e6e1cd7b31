#!/usr/bin/env python3
"""Compares the two models of the wide profile with one another.

    verify/models/wide-models.py                               on random texts
    verify/models/wide-models.py --texts 1000 --first 4711     on some, by their seeds
    verify/models/wide-models.py FOLDER                        on the C files of a folder

One looks at whole lists (`wide_model.py`), the other reads a text in one pass (`wide_pass.py`). All
that they find has to be the same: definitions, uses, calls, includes. In random texts macros, uses
and includes have to be those of the standard profile too, each name has to stand at its place, and
no place has two definitions of one kind.

Text number n has the seed n. Random texts have declarations of all sorts, in lines, broken up, or
as mere heaps of pieces. At the first difference the text and both lists are shown, and the exit
status is 1. Else a line tells how many definitions of each kind were found. `wide-program.py`
compares the program with the first of them.
"""

from __future__ import annotations

import argparse
import collections
import concurrent.futures
import pathlib
import sys

import wide_model
import wide_pass
from draw import Draw
from text_model import facts as standard_facts

sys.path.insert(0, str(pathlib.Path(__file__).resolve().parents[1]))
from shared import c_files  # noqa: E402

BATCH = 500  # texts between two looks at the outcome


def difference(what: str, text: bytes) -> str:
    """What the models find otherwise, if anything."""
    one, other = wide_model.facts(text), wide_pass.facts(text)
    for kind, mine, its in zip(one._fields, one, other):
        if mine != its:
            alone = [it for it in mine if it not in its], [it for it in its if it not in mine]
            return (
                f"{what}: {kind} differ\ntext: {text[:5000]!r}\n"
                f"by lists alone: {alone[0][:10]}\nin one pass alone: {alone[1][:10]}"
            )
    return ""


def broken_law(what: str, text: bytes) -> str:
    """A law of the two profiles that does not hold, if any."""
    wide, standard = wide_model.facts(text), standard_facts(text)

    def macros(found):
        return [one for one in found.definitions if one.kind == b"d"]

    def names(found):
        return [use[:2] for use in found.uses]

    if macros(wide) != macros(standard) or names(wide) != names(standard):
        return f"{what}: macros or uses are others than those of the standard profile: {text!r}"
    if [one[:2] for one in wide.includes] != [one[:2] for one in standard.includes]:
        return f"{what}: includes are others than those of the standard profile: {text!r}"
    for one in wide.definitions:
        if text[one.place : one.place + len(one.name)] != one.name:
            return f"{what}: a name is not at its place: {one} in {text!r}"
    if len({(one.place, one.kind) for one in wide.definitions}) < len(wide.definitions):
        return f"{what}: two definitions of one kind at a place: {text!r}"
    return ""


def batch(first: int, number: int) -> tuple[str, collections.Counter]:
    """Some random texts by their seeds: the first difference, and the kinds that were found."""
    kinds = collections.Counter()
    for seed in range(first, first + number):
        text = Draw(seed).wide_file()
        told = difference(f"seed {seed}", text) or broken_law(f"seed {seed}", text)
        if told:
            return told, kinds
        kinds.update(one.kind.decode() for one in wide_model.facts(text).definitions)
    return "", kinds


def of_files(paths: list[pathlib.Path]) -> tuple[str, collections.Counter]:
    kinds = collections.Counter()
    for path in paths:
        text = path.read_bytes()
        told = difference(str(path), text)
        if told:
            return told, kinds
        kinds.update(one.kind.decode() for one in wide_model.facts(text).definitions)
        for model in wide_model, wide_pass:
            model.facts.cache_clear()
    return "", kinds


def main() -> None:
    parser = argparse.ArgumentParser(
        description=__doc__, formatter_class=argparse.RawDescriptionHelpFormatter
    )
    parser.add_argument("folder", nargs="?", type=pathlib.Path, help="a folder with C files")
    parser.add_argument("--texts", type=int, default=50_000, help="random texts, 50,000 by default")
    parser.add_argument("--first", type=int, default=1, help="the seed of the first, 1 by default")
    parser.add_argument(
        "-j", dest="workers", type=int, default=2, help="how many at once, 2 by default"
    )
    given = parser.parse_args()
    if given.folder:
        paths = [given.folder / name for name in c_files(given.folder)]
        jobs = [(of_files, paths[start : start + 20]) for start in range(0, len(paths), 20)]
        what = f"{len(paths)} files"
    else:
        last = given.first + given.texts
        jobs = [
            (batch, first, min(BATCH, last - first)) for first in range(given.first, last, BATCH)
        ]
        what = f"{given.texts} random texts from seed {given.first} on"
    kinds = collections.Counter()
    with concurrent.futures.ProcessPoolExecutor(given.workers) as pool:
        for done in [pool.submit(*job) for job in jobs]:
            told, more = done.result()
            if told:
                pool.shutdown(cancel_futures=True)
                raise SystemExit(told)
            kinds += more
    print(f"{what}: no difference")
    print(", ".join(f"{kind} {kinds[kind]}" for kind in wide_model.KINDS.decode()))


if __name__ == "__main__":
    main()
