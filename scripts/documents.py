#!/usr/bin/env python3
"""Checks what documents, scripts and wrong bodies say about the repository.

    scripts/documents.py

1. docs/INDEX.md is what scripts/index.py writes.
2. Each text that a wrong body replaces stands once in its file, and the name of the wrong body
   begins with the function, the constant or the definition that it breaks.
3. Each file and folder that a document or a script names is there. A name may leave out the folders
   before it, as `state.rt` does.
4. docs/DESIGN.md names each module and each file of definitions of the crates of the program, or
   the folder that holds it.
5. No line of a document or a script in Python is longer than 100 columns, except in tables and in
   pictures of what a program writes.

The exit status is 1 where one is not so; each is told.
"""

from __future__ import annotations

import pathlib
import re
import subprocess
import sys

import index
from edits import TOP, edits

WIDTH = 100
# What is made, and what stands for any name.
NOT_KEPT = re.compile(r"(^|/)(bin|out|NAME|CRATE|FOLDER|MODULE|FUNCTION)(/|$)|[A-Z]{3,}_|\.\.")
FILE = re.compile(
    r"(?<![\w$}/.-])[\w./+-]*[\w+-]\.(?:rt|antt|py|sh|md|edit)\b(?!\.)|[\w./-]+/[\w-]+\.vim\b"
)
FOLDER = re.compile(r"`([\w-]+(?:/[\w-]+)*/)`")


def tracked() -> list[pathlib.PurePath]:
    words = ["git", "ls-files", "--cached", "--others", "--exclude-standard"]
    lines = subprocess.run(words, cwd=TOP, stdout=subprocess.PIPE, check=True, text=True).stdout
    return [pathlib.PurePath(it) for it in lines.splitlines() if (TOP / it).exists()]


def ends(paths: list[pathlib.PurePath]) -> set[str]:
    """The ends of paths, whole part by whole part."""
    return {"/".join(it.parts[n:]) for it in paths for n in range(len(it.parts))}


def is_text(path: pathlib.PurePath) -> bool:
    """Whether it is a document or a script."""
    return (
        path.suffix in (".md", ".py", ".sh", ".1", ".vim")
        and not path.name.endswith(".edit.md")
        or path.parts[0] == "editors"
        or path.name in ("Makefile", "run")
    )


def wrong_edits() -> list[str]:
    told = []
    for name in index.CRATES:
        for it in edits(TOP / "crates" / name):
            where = it.path.relative_to(TOP)
            if not it.applies():
                told.append(f"{where}: its old text does not stand once in its file")
            elif not any(it.name.startswith(f"{name}_") for name in it.names()):
                told.append(f"{where}: its name does not begin with {' or '.join(it.names())}")
    return told


def missing(paths: list[pathlib.PurePath]) -> list[str]:
    """Names of files and folders that are not there."""
    files = ends(paths)
    folders = ends(
        sorted({folder for it in paths for folder in it.parents} - {paths[0].parents[-1]})
    )
    told = []
    for path in filter(is_text, paths):
        for number, line in enumerate((TOP / path).read_text(errors="replace").splitlines(), 1):
            names = [(it, files) for it in FILE.findall(line)]
            if path.suffix == ".md":
                names += [(it.rstrip("/"), folders) for it in FOLDER.findall(line)]
            for name, there in names:
                plain = re.sub(r"^(\.{1,2}/)+", "", name)
                if NOT_KEPT.search(plain) or plain.startswith((".", "/", "-")):
                    continue
                if plain not in there:
                    told.append(f"{path}:{number}: there is no {name}")
    return told


def unnamed() -> list[str]:
    """Modules and definitions that the page on the design leaves out."""
    named = set(re.findall(r"`([\w./]+)`", (TOP / "docs" / "DESIGN.md").read_text()))
    told = []
    for name in index.CRATES:
        for folder, ending in ("src", "rt"), ("specs", "antt"):
            base = TOP / "crates" / name / folder
            for file in sorted(base.rglob(f"*.{ending}")):
                path = file.relative_to(base)
                if path.parts[0] in ("steps", f"steps.{ending}") or path.stem.lower() in (
                    "lib",
                    "main",
                ):
                    continue
                above = {f"{'/'.join(path.parts[:n])}/" for n in range(1, len(path.parts))}
                if not named & {str(path), f"{path.with_suffix('')}/", *above}:
                    told.append(f"docs/DESIGN.md: it leaves out {file.relative_to(TOP)}")
    return told


def wide(paths: list[pathlib.PurePath]) -> list[str]:
    told = []
    for path in filter(is_text, paths):
        is_document = path.suffix == ".md"
        if not is_document and path.suffix != ".py" and path.name != "run":
            continue
        for number, line in enumerate((TOP / path).read_text(errors="replace").splitlines(), 1):
            if len(line) > WIDTH and not (is_document and line.startswith(("|", "    "))):
                told.append(f"{path}:{number}: {len(line)} columns")
    return told


def main() -> int:
    paths = tracked()
    stale = (
        [] if index.is_current() else ["docs/INDEX.md is not current: scripts/index.py writes it"]
    )
    checks = [stale, wrong_edits(), missing(paths), unnamed(), wide(paths)]
    for it in checks:
        print("".join(f"{line}\n" for line in it), end="")
    failed = sum(map(bool, checks))
    print(f"documents: {len(checks) - failed} passed, {failed} failed")
    return 1 if failed else 0


if __name__ == "__main__":
    sys.exit(main())
