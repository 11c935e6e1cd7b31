"""Reads the edits of must-fail, and finds what each of them breaks."""

from __future__ import annotations

import functools
import pathlib
import re
from typing import NamedTuple

TOP = pathlib.Path(__file__).resolve().parent.parent
FUNCTION = re.compile(r"^( *)(pub(?:\([a-z]+\))? )?(?:const |ghost )*fn (\w+)", re.MULTILINE)
TYPE = re.compile(r"^impl(?:<[^{]*?>)? (?:[^{]*? for )?(\w+)|^(?:pub )?trait (\w+)", re.MULTILINE)
CONSTANT = re.compile(r"^ *(?:pub(?:\([a-z]+\))? )?(?:const|static) (\w+)", re.MULTILINE)
DEFINITION = re.compile(r"^(?:define |rec |let )?(\w+)[^=\n]* [:=]", re.MULTILINE)


class Function(NamedTuple):
    """A function of a source file."""

    file: pathlib.Path
    name: str
    owner: str  # its type, or nothing
    public: bool
    start: int  # of its signature
    end: int

    @property
    def path(self) -> str:
        return f"{self.owner}::{self.name}" if self.owner else self.name


def snake(name: str) -> str:
    return re.sub(r"(?<=[a-z0-9])(?=[A-Z])", "_", name).lower()


def end_of_item(text: str, start: int, indent: str) -> int:
    """The end of an item: a line that begins with its indentation and `}`, or its only line."""
    line_end = text.find("\n", start)
    if text[:line_end].endswith("}") and "{" in text[start:line_end]:
        return line_end
    found = re.compile(rf"^{indent}\}}", re.MULTILINE).search(text, start)
    return found.end() if found else len(text)


@functools.lru_cache(maxsize=None)
def functions(file: pathlib.Path) -> tuple[Function, ...]:
    """The functions of a file, in their order."""
    text = file.read_text()
    blocks = [(it.start(), end_of_item(text, it.start(), ""), it) for it in TYPE.finditer(text)]
    found = []
    for it in FUNCTION.finditer(text):
        owner = next((one[1] or one[2] for a, b, one in blocks if a < it.start() < b), "")
        end = end_of_item(text, it.start(), it[1])
        found.append(Function(file, it[3], owner, it[2] == "pub ", it.start(), end))
    return tuple(found)


@functools.lru_cache(maxsize=None)
def all_functions(crate: pathlib.Path) -> tuple[Function, ...]:
    """The functions of a crate."""
    return tuple(it for file in sorted(crate.glob("src/**/*.rt")) for it in functions(file))


class Edit(NamedTuple):
    """An edit: its file, and its changes in turn, each a source, a text in it, and a new text."""

    path: pathlib.Path
    crate: pathlib.Path
    changes: tuple[tuple[pathlib.Path, str, str], ...]

    @property
    def name(self) -> str:
        return self.path.name.split(".")[0]

    @property
    def in_gate(self) -> bool:
        return self.path.suffix == ".edit"

    def applies(self) -> bool:
        """Whether each text stands once in its file when its turn comes."""
        texts: dict[pathlib.Path, str] = {}
        for file, old, new in self.changes:
            text = texts.setdefault(file, file.read_text() if file.exists() else "")
            if text.count(old) != 1:
                return False
            texts[file] = text.replace(old, new)
        return True

    def function(self) -> Function | None:
        """The function whose body it breaks: of several changes the last in a body."""
        for file, old, _ in reversed(self.changes):
            place = file.read_text().find(old) if file.exists() else -1
            around = (
                [it for it in functions(file) if it.start <= place < it.end] if place >= 0 else []
            )
            if around:
                return around[-1]
        return None

    def names(self) -> list[str]:
        """What its name may begin with: the function, the constant or the definition it breaks.

        The function stands with its type, or alone where no other of the crate has its name.
        """
        function = self.function()
        if function:
            alike = [it for it in all_functions(self.crate) if it.name == function.name]
            with_type = snake(f"{function.owner}_{function.name}").strip("_")
            return [function.name, with_type] if len(alike) == 1 else [with_type]
        file, old, _ = self.changes[-1]
        text = file.read_text() if file.exists() else ""
        form = CONSTANT if file.suffix == ".rt" else DEFINITION
        before = [it[1] for it in form.finditer(text, 0, text.find(old) + len(old))]
        return [snake(before[-1])] if before else []


def edits(crate: pathlib.Path) -> list[Edit]:
    """The edits of a crate, those of the gate first."""
    found = []
    folder = crate / "must-fail"
    for path in [*sorted(folder.glob("*.edit")), *sorted(folder.glob("more/*.edit.md"))]:
        file, old, changes = crate, "", []
        for line in path.read_text().split("\n"):
            word, _, rest = line.partition(": ")
            if word == "file":
                file = crate / rest
            elif word == "old":
                old = rest
            elif word == "new":
                changes.append((file, old, rest))
        found.append(Edit(path, crate, tuple(changes)))
    return found
