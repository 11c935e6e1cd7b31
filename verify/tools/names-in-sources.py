#!/usr/bin/env python3
"""Renames functions, variables, types and macros in real C sources by the language server, and
compiles the result.

    make && verify/tools/names-in-sources.py FOLDER..
    verify/tools/names-in-sources.py --renames 100 --first 7 FOLDER -- -D NDEBUG -I src

The C files of each folder are copied, and the program is started there. Definitions are drawn at
random from all that the server lists, and it is asked to rename each to a name that no file has.
The edits are made in the copy. Then gcc has to take each source that it took before: those that are
edited, or all of them where a header is edited. A name that is left behind, or changed where it
means something else, is an error of the compiler: a function that is not declared, a conversion
between pointers or integers. Behind that the old texts come back.

Words behind `--` are for gcc, which looks for headers in all folders of the sources that have some.
Each rename after which a source does not compile is told, and the exit status is 1 if there is one.
Then lines count what was asked, accepted, refused for which reason and wrong.
"""

from __future__ import annotations

import collections
import concurrent.futures
import importlib.machinery
import importlib.util
import os
import pathlib
import random
import shutil
import subprocess
import sys
import tempfile
from typing import Iterable

HERE = pathlib.Path(__file__).resolve().parent
sys.path[:0] = [str(HERE.parent), str(HERE.parent / "models")]
from server_model import place_of  # noqa: E402
from shared import MOST_FILES, c_files, options, words_given  # noqa: E402

ERRORS = "implicit-function-declaration", "int-conversion", "incompatible-pointer-types"
FRESH = "cbrowse_fresh"


def script(name: str):
    """Another script of this folder."""
    loader = importlib.machinery.SourceFileLoader(name.replace("-", "_"), str(HERE / f"{name}.py"))
    module = importlib.util.module_from_spec(importlib.util.spec_from_loader(loader.name, loader))
    sys.modules[loader.name] = module
    loader.exec_module(module)
    return module


Client = script("renames-in-sources").Client


class Sources:
    """The C files of a folder, and what gcc says of them."""

    def __init__(self, folder: pathlib.Path, words: list[str]):
        self.folder, self.names = folder, list(c_files(folder, most=MOST_FILES))
        headers = {str(pathlib.Path(it).parent) for it in self.names if it.endswith(".h")}
        errors = [f"-Werror={it}" for it in ERRORS]
        places = [f"-I{it}" for it in [".", *sorted(headers)]]
        self.words = ["gcc", "-fsyntax-only", "-w", *errors, *places, *words]
        self.compiled = self.compiling(it for it in self.names if it.endswith(".c"))

    def compiles(self, name: str) -> bool:
        done = subprocess.run([*self.words, name], cwd=self.folder, capture_output=True)
        return done.returncode == 0

    def compiling(self, names: Iterable[str]) -> set[str]:
        """Those of some sources that gcc takes."""
        with concurrent.futures.ThreadPoolExecutor(os.cpu_count()) as pool:
            names = list(names)
            return {it for it, is_taken in zip(names, pool.map(self.compiles, names)) if is_taken}

    def text(self, name: str) -> bytes:
        return (self.folder / name).read_bytes()

    def broken(self, changes: dict[str, list]) -> set[str]:
        """The sources that do not compile any more with these edits."""
        before = {name: self.text(name) for name in changes}
        edited = self.compiled & set(changes)
        looked = self.compiled if any(it.endswith(".h") for it in changes) else edited
        try:
            for name, edits in changes.items():
                (self.folder / name).write_bytes(changed(before[name], edits))
            return looked - self.compiling(looked)
        finally:
            for name, text in before.items():
                (self.folder / name).write_bytes(text)


def changed(text: bytes, edits: list) -> bytes:
    """A text with edits, which are by place."""
    for edit in reversed(edits):
        start, end = (
            place_of(text, it["line"], it["character"], True)
            for it in (edit["range"]["start"], edit["range"]["end"])
        )
        text = text[:start] + edit["newText"].encode() + text[end:]
    return text


def definitions(client, names: list[str]):
    """The names of the definitions of files, and where they are."""
    for name in names:
        document = {"textDocument": {"uri": client.uri(name)}}
        for it in client.ask("textDocument/documentSymbol", document)["result"] or []:
            yield name, it["name"], it["location"]["range"]["start"]


def measure(sources: Sources, client, number: int, draw: random.Random) -> collections.Counter:
    """Asks for renames until so many are accepted, and tells the wrong ones."""
    found, counts = list(definitions(client, sources.names)), collections.Counter()
    draw.shuffle(found)
    for file, name, place in found:
        if counts["accepted"] == number:
            break
        where = {"textDocument": {"uri": client.uri(file)}, "position": place}
        reply = client.ask("textDocument/rename", {**where, "newName": f"{FRESH}_{name}"})
        counts["asked"] += 1
        if "error" in reply:
            counts["refused, " + reply["error"]["message"].partition(":")[0]] += 1
            continue
        front = len(client.uri(""))
        changes = {uri[front:]: it for uri, it in reply["result"]["changes"].items()}
        counts["accepted"] += 1
        counts["edits"] += sum(len(it) for it in changes.values())
        broken = sources.broken(changes)
        if broken:
            counts["wrong"] += 1
            print(f"WRONG: {file}: {name}: {', '.join(sorted(broken)[:3])}", flush=True)
    return counts


def main() -> int:
    parser = options(__doc__)
    parser.add_argument("folders", nargs="+", type=pathlib.Path, metavar="FOLDER")
    parser.add_argument("--renames", type=int, default=50, help="accepted ones of each folder")
    parser.add_argument("--first", type=int, default=1, help="the seed of the draws")
    rest = sys.argv.index("--") if "--" in sys.argv else len(sys.argv)
    behind, sys.argv = sys.argv[rest + 1 :], sys.argv[:rest]
    words, wrong = words_given(parser), 0
    for given in words.folders:
        with tempfile.TemporaryDirectory() as made:
            folder = pathlib.Path(made).resolve() / "sources"
            shutil.copytree(given, folder, symlinks=True)
            sources = Sources(folder, behind)
            print(f"{given}: {len(sources.names)} files, {len(sources.compiled)} compile")
            client = Client(words.cbrowse, folder, sources.names)
            counts = measure(sources, client, words.renames, random.Random(words.first))
            client.end()
            print("; ".join(f"{name} {count:,}" for name, count in counts.items()), flush=True)
            wrong += counts["wrong"]
    return 1 if wrong else 0


if __name__ == "__main__":
    sys.exit(main())
