#!/usr/bin/env python3
"""Compares the program by the wide profile with the model of that profile.

    verify/models/wide-program.py                              on random texts
    verify/models/wide-program.py --texts 1000 --first 4711    on some, by their seeds
    verify/models/wide-program.py FOLDER                       on the C files of a folder

Of each text the plain and the extended tags file, the listing, the uses of its names and their
definitions have to be byte for byte those of the model (`wide_model.py`), without and with external
declarations and prototypes. Text number n has the seed n. At the first difference the text and both
outputs are shown, and the exit status is 1.
"""

from __future__ import annotations

import concurrent.futures
import pathlib
import subprocess
import sys
import tempfile

import wide_model
from draw import Draw
from session_model import World, answer, extended_lines, listing_lines, plain_lines

sys.path.insert(0, str(pathlib.Path(__file__).resolve().parents[1]))
from shared import c_files, options, words_given  # noqa: E402

BATCH = 200  # texts between two looks at the outcome
ASKED = 6  # names of a text that are asked for
FORMS = (
    (["-f", "-"], plain_lines),
    (["--format=2", "-f", "-"], extended_lines),
    (["-x"], listing_lines),
)


def wide(text: bytes):
    """What the model finds without external declarations and prototypes."""
    found = wide_model.facts(text)
    return found._replace(definitions=[it for it in found.definitions if it.kind not in b"xp"])


def difference(program: str, place: pathlib.Path, name: str) -> str:
    """What the program says otherwise of a file below a folder, if anything."""
    text = (place / name).read_bytes()
    world = World({name.encode(): text})

    def said(words: list[str]) -> bytes:
        return subprocess.run([program, *words, name], cwd=place, stdout=subprocess.PIPE).stdout

    for facts, option in (wide, ["--wide"]), (wide_model.facts, ["--wide", "--prototypes"]):
        for words, lines in FORMS:
            made, wanted = said(["tags", *option, *words]), b"".join(lines(world, facts))
            if made != wanted:
                return f"{option} {words} of {text!r}\nis {made!r}\nand not {wanted!r}"
        for asked in sorted({it.name for it in facts(text).definitions})[:ASKED]:
            for field in "0123":
                made = said(["find", *option, field, asked.decode()])
                wanted = b"".join(answer(world, field.encode(), asked, facts))
                if made != wanted:
                    return f"{option} {field}{asked} of {text!r}\nis {made!r}\nand not {wanted!r}"
    return ""


def of_texts(program: str, first: int, number: int) -> str:
    with tempfile.TemporaryDirectory() as folder:
        place = pathlib.Path(folder)
        for seed in range(first, first + number):
            (place / "w.c").write_bytes(Draw(seed).wide_file())
            told = difference(program, place, "w.c")
            if told:
                return f"seed {seed}: {told}"
    return ""


def of_files(program: str, place: pathlib.Path, names: list[str]) -> str:
    for name in names:
        told = difference(program, place, name)
        if told:
            return f"{name}: {told}"
        wide_model.facts.cache_clear()
    return ""


def main() -> None:
    parser = options(__doc__)
    parser.add_argument("folder", nargs="?", type=pathlib.Path, help="a folder with C files")
    parser.add_argument("--texts", type=int, default=5_000, help="random texts, 5,000 by default")
    parser.add_argument("--first", type=int, default=1, help="the seed of the first, 1 by default")
    parser.add_argument(
        "-j", dest="workers", type=int, default=2, help="how many at once, 2 by default"
    )
    given = words_given(parser)
    if given.folder:
        names = list(c_files(given.folder))
        jobs = [
            (of_files, given.cbrowse, given.folder, names[start : start + 20])
            for start in range(0, len(names), 20)
        ]
        what = f"{len(names)} files"
    else:
        last = given.first + given.texts
        jobs = [
            (of_texts, given.cbrowse, first, min(BATCH, last - first))
            for first in range(given.first, last, BATCH)
        ]
        what = f"{given.texts} random texts from seed {given.first} on"
    with concurrent.futures.ProcessPoolExecutor(given.workers) as pool:
        for done in [pool.submit(*job) for job in jobs]:
            told = done.result()
            if told:
                pool.shutdown(cancel_futures=True)
                raise SystemExit(told)
    print(f"{what}: no difference")


if __name__ == "__main__":
    main()
