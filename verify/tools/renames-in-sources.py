#!/usr/bin/python3
"""Renames locals and parameters of macros in real C sources by the language server, and checks what
comes of it.

    make && verify/tools/renames-in-sources.py FOLDER..
    verify/tools/renames-in-sources.py --renames 500 --first 7 FOLDER -- -D NDEBUG -I src
    verify/tools/renames-in-sources.py --taken FOLDER          to names of the file

The program is started in each folder, with the C files below it. Names are drawn at random from
files, of large ones more often, and the server is asked to rename each to a name that no file has,
or with `--taken` to any name of its file. No file is written. What is checked:

model      what is answered is what the models of `verify/models` say. The edits are made, and then
           each name has to mean what it meant, with its places moved.
compiler   where gcc compiles the file alone, it writes the same assembly for the new text. Words
           behind `--` are for it and for libclang. Both look for `#include ".."` in all folders
           with headers. Where it does not, and a macro has to do with it that only a header of the
           system defines, it is counted by itself: no one can know such a macro by the files.
libclang   where it parses the file, it takes each place that is edited for the same variable, and
           misses none. A place that it does not see has to be in lines that are passed over, in the
           arguments of a macro, or in the list of a function in the old style. Parameters of macros
           it does not see at all.

gcc and libclang (`python3-clang-14` and `libclang-common-14-dev` of Debian 12) are left out where
they are missing. With `--model` the model is asked in place of the program. Each wrong rename is
told, and the exit status is 1 if there is one. Then lines count what was asked, accepted, refused
for which reason and wrong.
"""

from __future__ import annotations

import argparse
import collections
import ctypes
import json
import os
import pathlib
import random
import re
import shutil
import subprocess
import sys
import tempfile
from typing import Iterator, Optional

HERE = pathlib.Path(__file__).resolve().parent
sys.path[:0] = [str(HERE.parent), str(HERE.parent / "models")]
from locals_model import local_at, locals_of, names_of  # noqa: E402
from names_model import Text  # noqa: E402
from reach_model import Refusal, Tree  # noqa: E402
from rename_law import Difference, check, renamed  # noqa: E402
from server_model import PROFILES, frame, place_of, position_of  # noqa: E402
from shared import MOST_FILES, c_files, options, words_given  # noqa: E402

try:
    import clang.cindex
except ImportError:
    clang = None  # it is left out then

LARGEST = 400_000  # bytes of a file that locals are drawn from
PATIENCE = 120  # seconds for a compiler
HEADERS = sorted(pathlib.Path("/usr/lib/llvm-14/lib/clang").glob("*/include"))
FRESH = b"cbrowse_fresh"


# ---- who renames


class Client:
    """A client of the program, over the files of a folder."""

    def __init__(self, cbrowse: str, folder: pathlib.Path, names: list[str]):
        self.folder, self.number = folder, 0
        with tempfile.NamedTemporaryFile("w", suffix=".files", delete=False) as listed:
            listed.write("".join(f"{name}\n" for name in names))
        words = [cbrowse, "lsp", "--wide", "--root", str(folder), "--files-from", listed.name]
        self.run = subprocess.Popen(
            words, cwd=folder, stdin=subprocess.PIPE, stdout=subprocess.PIPE
        )
        self.ask("initialize", {"capabilities": {}})
        os.unlink(listed.name)

    def ask(self, method: str, params: object) -> dict:
        """The reply to a request."""
        self.number += 1
        body = {"jsonrpc": "2.0", "id": self.number, "method": method, "params": params}
        self.run.stdin.write(frame(json.dumps(body).encode()))
        self.run.stdin.flush()
        while True:
            head = self.run.stdout.readline()
            if not head:
                raise SystemExit("the program ended")
            self.run.stdout.readline()
            reply = json.loads(self.run.stdout.read(int(head.split(b":")[1])))
            if reply.get("id") == self.number and "method" not in reply:
                return reply

    def uri(self, name: str) -> str:
        return f"file://{self.folder}/{name}"

    def at(self, name: str, text: bytes, place: int, method: str, **more: object) -> dict:
        line, column = position_of(text, place, True)
        position = {"line": line, "character": column}
        params = {"textDocument": {"uri": self.uri(name)}, "position": position, **more}
        return self.ask(f"textDocument/{method}", params)

    def may_rename(self, name: str, text: bytes, place: int) -> Optional[tuple[int, int]]:
        """The places of what would be renamed, if it may be."""
        found = self.at(name, text, place, "prepareRename")["result"]
        return None if found is None else places_of(text, found)

    def rename(self, name: str, text: bytes, place: int, new: bytes):
        """The places that are edited, or the text of the refusal."""
        reply = self.at(name, text, place, "rename", newName=new.decode())
        if "error" in reply:
            return reply["error"]["message"]
        [[uri, edits]] = reply["result"]["changes"].items()
        assert uri == self.uri(name) and all(it["newText"] == new.decode() for it in edits)
        return [places_of(text, it["range"]) for it in edits]

    def end(self) -> None:
        self.ask("shutdown", None)
        self.run.stdin.write(frame(b'{"method":"exit"}'))
        self.run.stdin.close()
        self.run.wait()


def places_of(text: bytes, span: dict) -> tuple[int, int]:
    """The bytes of a range."""
    ends = span["start"], span["end"]
    return tuple(place_of(text, it["line"], it["character"], True) for it in ends)


class Model:
    """What the models say of the files of a folder."""

    def __init__(self, texts: dict[str, bytes]):
        files = {os.fsencode(name): text for name, text in texts.items()}
        self.tree = Tree(files, names_of, PROFILES[b"--wide"])

    def may_rename(self, name: str, text: bytes, place: int) -> Optional[tuple[int, int]]:
        token = names_of(text).token_at(place)
        return (token.place, token.end) if local_at(text, place).definition is not None else None

    def rename(self, name: str, text: bytes, place: int, new: bytes):
        if local_at(text, place).definition is None:
            return "no such definition"
        token = names_of(text).token_at(place)
        try:
            [places] = self.tree.rename(os.fsencode(name), token.place, new).values()
        except Refusal as refusal:
            return refusal.args[0].decode("utf-8", "replace")
        return [(it, it + len(token.text)) for it in sorted(places)]


# ---- what judges


class Compiler:
    """gcc over single files of a folder."""

    def __init__(self, folder: pathlib.Path, words: list[str]):
        self.folder, self.words = folder, words
        self.known: dict[str, Optional[bytes]] = {}
        self.defined: dict[str, set[bytes]] = {}

    def words_for(self, name: str) -> list[str]:
        place = str(pathlib.Path(name).parent)
        return ["gcc", "-O1", "-g0", "-w", "-x", "c", "-iquote", place, *self.words]

    def assembly(self, name: str, text: bytes) -> Optional[bytes]:
        """What it writes for a text in the place of a file, or none."""
        words = [*self.words_for(name), "-S", "-o", "-", "-"]
        how = {"cwd": self.folder, "input": text, "timeout": PATIENCE}
        try:
            # the name of the file is that of standard input, before and after
            done = subprocess.run(words, capture_output=True, **how)
        except subprocess.TimeoutExpired:
            return None
        return done.stdout if done.returncode == 0 else None

    def macros(self, name: str, text: bytes) -> set[bytes]:
        """The macros that are defined at the end of a file."""
        if name not in self.defined:
            words = [*self.words_for(name), "-E", "-dM", "-"]
            done = subprocess.run(words, cwd=self.folder, input=text, capture_output=True)
            self.defined[name] = {*re.findall(rb"^#define (\w+)", done.stdout, re.MULTILINE)}
        return self.defined[name]

    def is_same(
        self, name: str, text: bytes, made: bytes, old: bytes, new: bytes
    ) -> Optional[bool]:
        """Whether both texts are the same to it; none if it does not compile the old one."""
        if name not in self.known:
            self.known[name] = self.assembly(name, text)
        before = self.known[name]
        if before is None:
            return None
        # a variable that is static in a function has its name and a number
        plain = re.compile(rb"\b(%s|%s)(?=\.\d)" % (old, new))
        after = self.assembly(name, made)
        return after is not None and plain.sub(b"", before) == plain.sub(b"", after)


class Parsed:
    """What libclang finds in a file: by place the place of what a name there means."""

    def __init__(self, name: str, text: bytes, words: list[str]):
        self.text, self.named, self.passed_over, self.called = text, {}, [], []
        options = clang.cindex.TranslationUnit.PARSE_DETAILED_PROCESSING_RECORD
        self.unit = clang.cindex.Index.create().parse(name, args=words, options=options)
        worst = max((it.severity for it in self.unit.diagnostics), default=0)
        self.is_whole = worst < clang.cindex.Diagnostic.Error
        if not self.is_whole:
            return
        self.file = self.unit.get_file(name)
        for cursor in self.unit.cursor.get_children():
            where = cursor.location.file
            if where and where.name == name:
                if cursor.kind == clang.cindex.CursorKind.MACRO_INSTANTIATION:
                    self.called.append(self.with_arguments(cursor.extent))
                else:
                    self.walk(cursor)
        self.passed_over = passed_over(self.unit, name) + [*self.old_lists()]

    def old_lists(self) -> Iterator[tuple[int, int]]:
        """The bytes of the lists of functions in the old style, of whose names it tells nothing."""
        names = names_of(self.text)
        tokens, pair = names.code.tokens, names.code.pair
        for function in names.functions:
            if function.is_old:
                for opened in names.lists_of_function(function)[:1]:
                    yield tokens[opened].place, tokens[pair[opened]].end

    def walk(self, cursor) -> None:
        """Notes what the names below a cursor mean."""
        waiting = [cursor]
        while waiting:
            one = waiting.pop()
            waiting += one.get_children()
            is_label = one.kind == clang.cindex.CursorKind.LABEL_STMT
            named = one if is_label else one.referenced
            is_name = is_label or one.kind.is_reference() or one.kind.is_declaration()
            if named is None or not (is_name or one.kind in MEANING):
                continue
            place, meant = self.place_of(one), self.place_of(named)
            spelling = named.spelling.encode()
            if None in (place, meant):
                continue  # it is in another file
            if self.text[place : place + len(spelling)] == spelling:
                self.named[place] = meant

    def with_arguments(self, extent) -> tuple[int, int]:
        """The bytes of the name of a macro and of what follows it in parentheses: a name that
        stands for another macro has none of its own."""
        start, end, code = extent.start.offset, extent.end.offset, names_of(self.text)
        opened = code.index.get(start, -2) + 1
        if code.code.text(opened) == b"(" and code.code.pair[opened] >= 0:
            end = max(end, code.code.tokens[code.code.pair[opened]].end)
        return start, end

    def place_of(self, cursor) -> Optional[int]:
        """Where the name of a cursor is written, if that is in this file."""
        file, _, _, offset = spelled(cursor.location)
        return offset if file and file.name == self.file.name else None

    def is_seen(self, place: int) -> bool:
        """Whether it compiles what stands at a place, and no macro can have dropped it."""
        return not any(start <= place < end for start, end in self.passed_over + self.called)

    def faults(self, places: list[int], name: bytes):
        """What is wrong with a rename of these places."""
        edited = set(places)
        meant = {self.named[it] for it in edited if it in self.named}
        if meant - edited:
            yield "an edited place means something else"
        if len(meant) > 1:
            yield "two variables are edited"
        if any(one not in edited for one, it in self.named.items() if it in meant):
            yield "a place is missed"
        if any(it not in self.named and self.is_seen(it) for it in edited):
            yield "an edited place is no name of it"


if clang:
    MEANING = clang.cindex.CursorKind.DECL_REF_EXPR, clang.cindex.CursorKind.MEMBER_REF_EXPR


def spelled(location):
    """File, line, column and offset of where a name is written: of an argument of a macro where
    that is."""
    file, numbers = clang.cindex.c_object_p(), [clang.cindex.c_uint() for _ in range(3)]
    clang.cindex.conf.lib.clang_getSpellingLocation(
        location, clang.cindex.byref(file), *map(clang.cindex.byref, numbers)
    )
    return clang.cindex.File(file) if file else None, *(it.value for it in numbers)


def passed_over(unit, name: str) -> list[tuple[int, int]]:
    """The bytes of a file that the preprocessor passes over."""

    class Ranges(ctypes.Structure):
        _fields_ = [("count", ctypes.c_uint), ("ranges", ctypes.POINTER(clang.cindex.SourceRange))]

    call = clang.cindex.conf.lib.clang_getSkippedRanges
    call.argtypes = [clang.cindex.TranslationUnit, clang.cindex.File]
    call.restype = ctypes.POINTER(Ranges)
    found = call(unit, unit.get_file(name)).contents
    parts = (found.ranges[number] for number in range(found.count))
    return [(it.start.offset, it.end.offset) for it in parts]


# ---- a folder


class Folder:
    """Renames in the sources of a folder, and what comes of them."""

    def __init__(self, folder: pathlib.Path, words: argparse.Namespace):
        self.folder, self.words = folder, words
        names = [*c_files(folder, words.without, most=MOST_FILES)]
        self.texts = {name: (folder / name).read_bytes() for name in names}
        self.model = Model(self.texts)
        self.asked_of = self.model if words.model else Client(words.cbrowse, folder, names)
        places = {str(pathlib.Path(name).parent) for name in names if name.endswith(".h")}
        quoted = [it for place in sorted(places) for it in ("-iquote", place)]
        given = [*words.words, *quoted]
        self.compiler = Compiler(folder, given) if shutil.which("gcc") else None
        more = [it for path in HEADERS for it in ("-isystem", str(path))]
        self.clang_words = ["-x", "c", "-w", *more, *given]
        self.parsed: dict[str, Parsed] = {}
        self.counts: collections.Counter = collections.Counter()

    def drawn(self, draw: random.Random):
        """Names of locals, each with its file and a new name."""
        names = [it for it, text in self.texts.items() if len(text) <= LARGEST and b"{" in text]
        sizes = [len(self.texts[it]) for it in names]
        left = self.words.renames
        while left:
            name = draw.choices(names, sizes)[0]
            tokens = locals_of(self.texts[name])
            if not tokens:
                continue
            left -= 1
            new = draw.choice(names_of(self.texts[name]).tokens).text if self.words.taken else FRESH
            yield name, draw.choice(tokens), new

    def try_all(self) -> None:
        for name, token, new in self.drawn(random.Random(f"renames {self.words.first}")):
            wrong = [*self.tried(name, token, new)]
            self.counts["asked"] += 1
            if wrong:
                self.counts["wrong"] += 1
                line = self.texts[name].count(b"\n", 0, token.place) + 1
                what = f"{token.text.decode()} at {token.place} to {new.decode()}"
                print(f"WRONG: {self.folder}/{name}:{line}: {what}: {'; '.join(wrong)}", flush=True)
        if not self.words.model:
            self.asked_of.end()

    def tried(self, name: str, token, new: bytes):
        """What is wrong with a rename."""
        text = self.texts[name]
        expected = self.model.rename(name, text, token.place, new)
        found = self.asked_of.rename(name, text, token.place, new)
        if found != expected:
            yield f"the model says {expected}, the program {found}"
        if self.asked_of.may_rename(name, text, token.place) != self.model.may_rename(
            name, text, token.place
        ):
            yield "prepareRename differs"
        if isinstance(found, str):
            self.counts[f"refused: {found.partition(': ')[0]}"] += 1
            return
        self.counts["accepted"] += 1
        places = [start for start, _ in found]
        try:
            check(Text(text), places, token.text, new)
            check(names_of(text), places, token.text, new, names_of)
        except Difference as difference:
            yield f"model: {difference.args[0]}"
        yield from self.compiled(name, places, token.text, new)
        if clang and names_of(text).binding(token.place).kind != "parameter":
            yield from self.beside_clang(name, places, token.text)

    def compiled(self, name: str, places: list[int], old: bytes, new: bytes):
        made = renamed(self.texts[name], places, old, new)
        if self.compiler and name.endswith(".c"):
            is_same = self.compiler.is_same(name, self.texts[name], made, old, new)
            if is_same is not None:
                self.counts["accepted, in a file that gcc compiles"] += 1
                if not is_same and self.is_of_system(name, places, new):
                    self.counts["accepted, and compiled otherwise by macros of no file"] += 1
                elif not is_same:
                    yield "gcc writes another assembly"

    def is_of_system(self, name: str, places: list[int], new: bytes) -> bool:
        """Whether the new name is a macro that no file of the folder defines, or a place is in the
        arguments of one."""
        text = names_of(self.texts[name])
        things = {text.binding(it) for it in places}
        called = {
            token.text
            for thing in things
            for it in places
            for token in self.model.tree.called_around(text, it, thing)
        }
        macros = self.compiler.macros(name, self.texts[name]) - self.model.tree.macros.keys()
        return not macros.isdisjoint({new, *called})

    def beside_clang(self, name: str, places: list[int], old: bytes):
        if not name.endswith(".c"):
            return
        if name not in self.parsed:
            os.chdir(self.folder)
            place = ["-iquote", str(pathlib.Path(name).parent)]
            self.parsed[name] = Parsed(name, self.texts[name], self.clang_words + place)
        parsed = self.parsed[name]
        if parsed.is_whole:
            self.counts["accepted, in a file that libclang parses"] += 1
            unseen = [it for it in places if it not in parsed.named]
            self.counts["of these, with edits that libclang does not see"] += bool(unseen)
            for fault in parsed.faults(places, old):
                yield f"libclang: {fault}"


def main() -> int:
    parser = options(__doc__)
    parser.add_argument("folders", nargs="+", type=pathlib.Path, help="folders with C files")
    parser.add_argument("--renames", type=int, default=200, help="in each folder, 200 by default")
    parser.add_argument("--first", type=int, default=1, help="the seed, 1 by default")
    parser.add_argument("--taken", action="store_true", help="new names are those of the file")
    parser.add_argument("--model", action="store_true", help="asks the model, not the program")
    parser.add_argument(
        "--without", action="append", default=[], help="a folder's name; what is below is left out"
    )
    cut = sys.argv.index("--") if "--" in sys.argv else len(sys.argv)
    rest, sys.argv[cut:] = sys.argv[cut + 1 :], []
    words = parser.parse_args() if "--model" in sys.argv else words_given(parser)
    words.words = rest
    status = 0
    for folder in [it.resolve() for it in words.folders]:
        tried = Folder(folder, words)
        tried.try_all()
        print(f"{folder}: {tried.counts['asked']} renames of locals asked")
        for what, count in sorted(tried.counts.items()):
            print(f"  {what}: {count}")
        status |= tried.counts["wrong"] > 0
    return status


if __name__ == "__main__":
    sys.exit(main())
