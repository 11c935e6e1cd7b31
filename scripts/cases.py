"""Reads the sessions of crates/worked_cases/data, whose form the README of that crate tells."""

from __future__ import annotations

import pathlib
import re
from typing import NamedTuple

DATA = pathlib.Path(__file__).resolve().parent.parent / "crates" / "worked_cases" / "data"
PROMPT = b">> "


class Exchange(NamedTuple):
    """A command with its block, and the reply."""

    command: bytes
    reply: bytes


class Case(NamedTuple):
    name: str
    files: list[tuple[bytes, bytes]]
    exchanges: list[Exchange]
    end: str  # empty where the input ends at a prompt
    bounds: tuple[int, ...] = ()  # the most files and bytes of each, where they are not the usual


def plain(line: str) -> bytes:
    """The bytes of a line, with an LF unless it ends in `%.`."""
    out, place = bytearray(), 0
    while place < len(line):
        if line[place:] == "%.":
            return bytes(out)
        found = re.match(r"%(?:\((\d+)\))?([0-9A-F]{2})", line[place:])
        if found:
            out += bytes([int(found[2], 16)]) * int(found[1] or 1)
            place += found.end()
        else:
            out += line[place].encode()
            place += 1
    return bytes(out) + b"\n"


def case_of(lines: list[str]) -> Case:
    files: list[tuple[bytes, bytes]] = []
    exchanges: list[Exchange] = []
    end, bounds = "", ()
    for line in lines[1:]:
        word, _, rest = line.partition(" ")
        if line == "at each byte" or word in ("", "#", "limits"):
            continue
        if word == "bounds":
            bounds = tuple(map(int, rest.split()))
        elif word in ("file", "with"):
            files.append((rest.encode(), (DATA / rest).read_bytes() if word == "with" else b""))
        elif word == "end":
            end = rest
        elif word == ">>":
            exchanges.append(Exchange(plain(rest), b""))
        elif word == "|" and exchanges:
            exchanges[-1] = exchanges[-1]._replace(command=exchanges[-1].command + plain(rest))
        elif word == "|":
            files[-1] = (files[-1][0], files[-1][1] + plain(rest))
        else:
            exchanges[-1] = exchanges[-1]._replace(reply=exchanges[-1].reply + plain(line))
    return Case(lines[0].removeprefix("== "), files, exchanges, end, bounds)


def cases_of(name: str) -> list[Case]:
    """The sessions of a file."""
    lines = (DATA / name).read_text().split("\n")
    starts = [i for i, line in enumerate(lines) if line.startswith("== ")]
    return [case_of(lines[a:b]) for a, b in zip(starts, [*starts[1:], len(lines)])]


def all_cases() -> list[Case]:
    """The sessions of all files."""
    names = sorted(it.name for it in DATA.glob("*.txt") if not it.name.startswith("facts"))
    return [case for name in names for case in cases_of(name)]
