#!/usr/bin/env python3
"""Compares the locals that `cb_names` finds in random texts with those of the model of names.

    verify/models/random-locals.py [--texts N] [--first SEED] [--bytes N] [--most N]
    verify/models/random-locals.py --sources FOLDER [--bytes N] [--most N]
    verify/models/random-locals.py --self-test [--texts N] [--first SEED] [--bytes N]

A local is a label, a parameter or a variable of a function. A small program asks `local_at` at one
of the names that mean the same, and at one of each name that means nothing. `rt try` runs it in a
copy of the sources, without a proof. Compared are whether a name is that of a local, its
definition, and all uses: where they stand, what is done with the name there, and which of them are
declarations. For each kind of difference a small text is printed. The exit status is 1 if there is
a difference.

With a folder of sources the texts are the functions of C files there, each alone.

Left out is what `docs/NAMES.md` names as a limit. The self-test puts each wrong rule of
`names_plants.py` into the model in place of the program: the texts have to show each.
"""

from __future__ import annotations

import argparse
import collections
import os
import pathlib
import re
import shutil
import subprocess
import sys
import tempfile
from typing import NamedTuple, Optional

import names_plants
from draw_names import DrawNames
from names_model import Text

TOP = pathlib.Path(__file__).resolve().parent.parent.parent
sys.path.insert(0, str(TOP / "verify"))
from shared import c_files  # noqa: E402

MOST_TRIES = 200  # for a smaller text with the same difference
NAME = "show_locals"
LINE_FEED = b"\x01"  # stands for an LF within a text
PROGRAM = r"""//! Prints what names mean in their functions.
#![tactic(auto)]

use cb_names::{Access, Local, local_at};
use cb_scan::{ScanError, Source};
use std::alloc::AllocError;
use std::fmt::Write as _;
use std::io::{BufRead, BufReader, Write};
use std::{fs, io};

fn letter(access: Access) -> char {
    match access {
        Access::Named => 't',
        Access::Read => 'r',
        Access::Written => 'w',
        Access::Address => 'a',
    }
}

fn number(digits: &[u8]) -> u32 {
    let mut n: u32 = 0;
    for digit in digits {
        n = n.wrapping_mul(10).wrapping_add(u32::from(*digit).wrapping_sub(48));
    }
    n
}

fn source(rt: &HostRuntime, line: &[u8]) -> Result<Source, ScanError> {
    let mut text = Vec::new(rt.alloc());
    for byte in line {
        if text.push(if *byte == 1 { b'\n' } else { *byte }).is_err() {
            return Err(ScanError::OutOfMemory);
        }
    }
    Source::new(rt.alloc(), text)
}

fn show(out: &mut String, place: u32, local: &Local) -> Result<(), AllocError> {
    match local.definition() {
        Some(span) => {
            let start = span.start;
            write!(out, "{place} {start}")?;
        }
        None => write!(out, "{place} -")?,
    }
    for one in local.uses() {
        let start = one.name.start;
        let access = letter(one.access);
        let mark = if one.declares { "!" } else { "" };
        write!(out, " {start}{access}{mark}")?;
    }
    writeln!(out, "")
}

fn answers(
    rt: &HostRuntime,
    text: &[u8],
    places: &[u8],
    out: &mut String,
) -> Result<(), AllocError> {
    let Ok(text) = source(rt, text) else {
        return writeln!(out, "failed");
    };
    for place in places.split(|byte| *byte == b' ') {
        let place = number(place);
        match local_at(rt.alloc(), &text, place) {
            Ok(Some(local)) => show(out, place, &local)?,
            Ok(None) => {}
            Err(_) => writeln!(out, "{place} failed")?,
        }
    }
    writeln!(out, ".")
}

fn main(rt: HostRuntime) -> io::Result<()> {
    let asked = BufReader::new(rt.alloc(), fs::open(&rt, "FOLDER/asked")?)?;
    let mut answered = fs::create(&rt, "FOLDER/answered")?;
    let mut text: Option<String> = None;
    for line in asked.lines(rt.alloc()) {
        let line = line?;
        match text {
            None => text = Some(line),
            Some(one) => {
                let mut out = String::new(rt.alloc());
                answers(&rt, one.as_str().as_bytes(), line.as_str().as_bytes(), &mut out)?;
                answered.write_all(out.as_str().as_bytes())?;
                text = None;
            }
        }
    }
    Ok(())
}
"""


class Use(NamedTuple):
    """A token that names a local."""

    place: int
    letter: str
    declares: bool


class Local(NamedTuple):
    """What a name means in its function."""

    definition: Optional[int]
    uses: tuple


class Program:
    """The program that asks `local_at`, run by `rt try`."""

    def __init__(self, folder):
        copy = pathlib.Path(folder, "crates")
        shutil.copytree(TOP / "crates", copy, ignore=shutil.ignore_patterns("out"))
        crates = (TOP / "crates.txt").read_text()
        pathlib.Path(folder, "crates.txt").write_text(f"{crates}{NAME}: cb_names cb_scan\n")
        source = copy / NAME / "src"
        source.mkdir(parents=True)
        (source / "main.rt").write_text(PROGRAM.replace("FOLDER", str(folder)))
        asked, answered = pathlib.Path(folder, "asked"), pathlib.Path(folder, "answered")
        os.mkfifo(asked)
        os.mkfifo(answered)
        self.run = subprocess.Popen(
            ["rt", "try", "--steps", str(10**14), "--seconds", "100000"],
            cwd=copy / NAME,
            stdin=subprocess.DEVNULL,
            stdout=sys.stderr,
        )
        self.asked, self.answered = asked.open("wb"), answered.open("rb")

    def locals(self, text, places):
        """What the names at some places of a text mean; a name that means nothing is left out."""
        rows = text.replace(b"\n", LINE_FEED) + b"\n" + b" ".join(b"%d" % it for it in places)
        self.asked.write(rows + b"\n")
        self.asked.flush()
        found = {}
        while (line := self.answered.readline()) != b".\n":
            if not line:
                raise SystemExit("the program ended")
            place, definition, *uses = line.decode().split()
            found[int(place)] = Local(
                None if definition == "-" else int(definition),
                tuple(use_of(one) for one in uses),
            )
        return found

    def end(self):
        self.asked.close()
        self.run.wait()


def use_of(word):
    place, letter, mark = re.fullmatch(r"(\d+)(\w)(!?)", word).groups()
    return Use(int(place), letter, mark == "!")


class Expected:
    """What the model says of the locals of a text."""

    def __init__(self, text, rules=Text):
        self.model = model = rules(text)
        self.hidden = self.hidden_places()
        self.tokens = [
            token
            for token in model.code.tokens
            if token.is_name and token.place not in self.hidden
        ]
        self.places = [token.place for token in self.tokens]

    def hidden_places(self):
        """Names that are not compared: in attributes that the program leaves out, and members that
        are declared in the body of a structure within a function, with their lists."""
        code, hidden = self.model.code, set()
        for first, last in code.hard_last.items():
            hidden.update(range(first, last + 1))
        for one in self.model.scopes:
            if one.kind == "list" and self.is_in_structure(one.first):
                hidden.update(range(one.first, one.last + 1))
        places = {code.tokens[index].place for index in hidden}
        for place in self.model.members:
            if self.model.in_body[self.model.index[place]]:
                places.add(place)
        return places

    def is_in_structure(self, index):
        """Whether the innermost open brace of a function opens a body."""
        code, around = self.model.code, index
        while around >= 0 and code.text(around) != b"{":
            around = code.around[around]
        return self.model.kinds.get(around) == "body"

    def is_in_function(self, thing):
        """Whether a thing is of a function: else it is of a list of the file."""
        tokens = self.model.code.tokens
        return any(
            thing.start == tokens[one.start].place
            or tokens[one.name].place <= thing.start <= tokens[one.last].place
            for one in self.model.functions
        )

    def local(self, place):
        """What the name at a place means in its function, if it does."""
        model = self.model
        thing = model.binding(place)
        if thing.kind == "local":
            if thing.space != "ordinary" or not self.is_in_function(thing):
                return None
        elif thing.kind != "label":
            return None
        declared = model.definitions.get(thing, [])
        uses = tuple(
            Use(one, letter, one in declared)
            for one, letter in model.uses(thing)
            if one not in self.hidden
        )
        return Local(model.definition(place), uses)

    def asked(self):
        """One of the names that mean the same, and one of each name that means nothing here."""
        found = {}
        for token in self.tokens:
            place, local = token.place, self.local(token.place)
            key = token.text, local and local.definition, local and local.uses
            found.setdefault(key, []).append(place)
        return sorted(places[len(places) // 2] for places in found.values())

    def is_far_value(self, place):
        """Whether a declaration has a value that more than `[..]` separates from the name."""
        stream, index = self.model.stream_at(place)
        end = stream.behind_indexes(index + 1)
        return not self.model.is_assigned(stream, end)


def kind_of_use(expected, model, program):
    """How two uses at a place differ, if they do."""
    if model.declares != program.declares:
        return "declares"
    if model.letter == program.letter:
        return None
    if model.declares and (model.letter, program.letter) == ("w", "t"):
        return None if expected.is_far_value(model.place) else "letter w t of a declaration"
    return f"letter {model.letter} {program.letter}"


def kinds_of(expected, model, program):
    """How what the model says of a name differs from what the program says."""
    if model is None and program is None:
        return
    if model is None or program is None:
        yield "only the program" if model is None else "only the model"
        return
    if model.definition != program.definition:
        yield "definition"
    ours = {one.place: one for one in model.uses}
    theirs = {one.place: one for one in program.uses if one.place not in expected.hidden}
    if ours.keys() - theirs.keys():
        yield "uses: the model has more"
    if theirs.keys() - ours.keys():
        yield "uses: the program has more"
    for place in ours.keys() & theirs.keys():
        kind = kind_of_use(expected, ours[place], theirs[place])
        if kind:
            yield kind


def differences(program, text):
    """The differences in a text: of each kind the first place, and what both say there."""
    expected, found = Expected(text), {}
    asked = expected.asked()
    answered = program.locals(text, asked) if asked else {}
    for place in asked:
        model, other = expected.local(place), answered.get(place)
        for kind in kinds_of(expected, model, other):
            found.setdefault(kind, (place, model, other))
    return found


def pieces_of(text):
    return re.findall(rb"\s+|\w+|[^\w\s]", text)


def smaller(program, text, kind):
    """A text that is as small as tries make it, with the same kind of difference."""
    pieces, size, tries = pieces_of(text), len(pieces_of(text)) // 2, 0
    while size:
        at = 0
        while at < len(pieces) and tries < MOST_TRIES:
            tried = pieces[:at] + pieces[at + size :]
            tries += 1
            if tried and kind in differences(program, b"".join(tried)):
                pieces = tried
            else:
                at += size
        size //= 2
    return b"".join(pieces)


def shown(local):
    if local is None:
        return "-"
    uses = " ".join(f"{one.place}{one.letter}{'!' * one.declares}" for one in local.uses)
    return f"{'-' if local.definition is None else local.definition}: {uses}"


def report(program, text, kind):
    text = smaller(program, text, kind)
    place, model, other = differences(program, text)[kind]
    print(f"{kind}, at {place}\n    {text!r}")
    print(f"    program {shown(other)}\n    model   {shown(model)}", flush=True)


def drawn(args):
    """Random texts, each with its seed."""
    for seed in range(args.first, args.first + args.texts):
        yield f"seed {seed}", DrawNames(seed).text()


def functions(folder):
    """The functions of the C files of a folder, each with its file."""
    for name in c_files(folder, form=".*"):
        model = Text((folder / name).read_bytes())
        tokens = model.code.tokens
        for one in model.functions:
            yield name, model.text[tokens[one.start].place : tokens[one.last].end]


def texts(args):
    """What is compared, each text with where it is from."""
    for where, text in functions(args.sources) if args.sources else drawn(args):
        if len(text) <= args.bytes and is_plain(text):
            yield where, text


def is_plain(text):
    """Whether a text can be handed to the program as a line."""
    try:
        return LINE_FEED not in text and not text.endswith(b"\r") and bool(text.decode())
    except UnicodeDecodeError:
        return False


def shows(text, rules):
    """Whether a text shows that rules are wrong."""
    expected, wrong = Expected(text), Expected(text, rules)
    return any(
        [*kinds_of(expected, expected.local(place), wrong.local(place))]
        for place in expected.asked()
    )


def self_test(args):
    """Prints the first text that shows each wrong rule; the exit status is 1 if none does."""
    found, status = [*texts(args)], 0
    for rules in names_plants.PLANTS:
        if issubclass(rules, Text) and rules is not names_plants.TagsOfFile:
            first = next((where for where, text in found if shows(text, rules)), None)
            print(f"{rules.__name__}: {first or 'NOT FOUND'}")
            status |= first is None
    return status


def main() -> int:
    parser = argparse.ArgumentParser(description=__doc__.splitlines()[0])
    parser.add_argument("--texts", type=int, default=6000, help="of any length are drawn")
    parser.add_argument("--first", type=int, default=1, help="the seed of the first text")
    parser.add_argument("--bytes", type=int, default=300, help="of the longest text that is taken")
    parser.add_argument("--most", type=int, default=2, help="how many are shown of each kind")
    parser.add_argument("--sources", type=pathlib.Path, help="a folder of C files")
    parser.add_argument("--self-test", action="store_true")
    args = parser.parse_args()
    if args.self_test:
        return self_test(args)
    found, taken, asked = collections.Counter(), 0, 0
    with tempfile.TemporaryDirectory() as folder:
        program = Program(folder)
        for where, text in texts(args):
            taken, asked = taken + 1, asked + len(Expected(text).asked())
            for kind in differences(program, text):
                found[kind] += 1
                if found[kind] <= args.most:
                    print(f"{where}: ", end="")
                    report(program, text, kind)
        program.end()
    print(f"{taken} texts, {asked} names asked for, {found.total()} differences")
    for kind, count in found.most_common():
        print(f"{count} {kind}")
    return 1 if found else 0


if __name__ == "__main__":
    sys.exit(main())
