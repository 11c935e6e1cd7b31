#!/usr/bin/python3
"""Compares the definitions of the wide profile in real C sources with what a compiler sees there.

    make && verify/tools/beside-clang-wide.py FOLDER
    verify/tools/beside-clang-wide.py --rows FILE --without deps FOLDER -- -std=gnu11 -D NDEBUG

It needs libclang and its module for the Python of the system (`python3-clang-14` and
`libclang-common-14-dev` of Debian 12). Each .c file below the folder is compiled from inside it,
with the words after `--`; headers are looked for in all folders below the same first folder. Files
in which the compiler finds an error are left out. Judged are the lines that the preprocessor keeps
in one of the others, in the folder's own files, by `cbrowse tags --wide --prototypes --format 2`
and by ctags with all kinds.

A name counts as declared where the compiler declares it and the bytes at that place are the name:
what macros make is left out. Enumerators, members, structures, unions and enumerations count
anywhere, all else outside functions. For each kind a table says how many are in both (true), with
cbrowse alone (wrong), with the compiler alone (missed), and the same for ctags. `--rows` writes
those that are not in both to a file. It compares and judges nothing, so it has no failures.
"""

from __future__ import annotations

import collections
import ctypes
import os
import pathlib
import sys
from typing import Iterator

import clang.cindex
from clang.cindex import CursorKind, StorageClass, TranslationUnit

HERE = pathlib.Path(__file__).resolve().parent
sys.path.insert(0, str(HERE))
from tags_files import OWN_WIDE, WIDE, Found, definitions  # noqa: E402

sys.path.insert(0, str(HERE.parent))
from shared import c_files, options, words_given  # noqa: E402

KINDS = "ftsugemvxp"
ANYWHERE = {
    CursorKind.ENUM_CONSTANT_DECL: "e",
    CursorKind.FIELD_DECL: "m",
    CursorKind.STRUCT_DECL: "s",
    CursorKind.UNION_DECL: "u",
    CursorKind.ENUM_DECL: "g",
}
HEADERS = sorted(pathlib.Path("/usr/lib/llvm-14/lib/clang").glob("*/include"))


class Ranges(ctypes.Structure):
    _fields_ = [("count", ctypes.c_uint), ("ranges", ctypes.POINTER(clang.cindex.SourceRange))]


def lines_passed_over(unit: TranslationUnit, name: str) -> set[int]:
    """The lines of a file that the preprocessor passes over, those of the directives too."""
    call = clang.cindex.conf.lib.clang_getSkippedRanges
    call.argtypes, call.restype = [TranslationUnit, clang.cindex.File], ctypes.POINTER(Ranges)
    found = call(unit, unit.get_file(name)).contents
    lines: set[int] = set()
    for number in range(found.count):
        part = found.ranges[number]
        lines.update(range(part.start.line, part.end.line + 1))
    return lines


def kind_of(cursor, in_file: bool) -> str:
    """The kind of what a cursor declares; empty if it is none of them."""
    kind = cursor.kind
    if kind in ANYWHERE:
        return ANYWHERE[kind] if defines(cursor) else ""
    if not in_file:
        return ""
    if kind == CursorKind.TYPEDEF_DECL:
        return "t"
    if kind == CursorKind.FUNCTION_DECL:
        return "f" if cursor.is_definition() else "p"
    if kind == CursorKind.VAR_DECL:
        is_external = cursor.storage_class == StorageClass.EXTERN
        return "x" if is_external and not cursor.is_definition() else "v"
    return ""


def defines(cursor) -> bool:
    """Whether it is more than the mention of a tag."""
    is_tag = cursor.kind in (CursorKind.STRUCT_DECL, CursorKind.UNION_DECL, CursorKind.ENUM_DECL)
    return not is_tag or cursor.is_definition()


def declared(cursor, in_file: bool) -> Iterator[tuple[str, str, str, int, int]]:
    """Kind, name, file, line and place of all that is declared below a cursor."""
    for child in cursor.get_children():
        kind, where = kind_of(child, in_file), child.location
        if kind and child.spelling and where.file:
            yield kind, child.spelling, where.file.name, where.line, where.offset
        inner = in_file and child.kind in (CursorKind.LINKAGE_SPEC, CursorKind.UNEXPOSED_DECL)
        yield from declared(child, inner)


def folders_of_headers(names: list[str]) -> dict[str, list[str]]:
    """For each first folder the words that name all folders with headers below it."""
    folders = collections.defaultdict(set)
    for name in names:
        if name.endswith(".h"):
            folders[name.split("/")[0]].add(os.path.dirname(name) or ".")
    return {first: [f"-I{it}" for it in sorted(some)] for first, some in folders.items()}


def compiled(names: list[str], words: list[str]) -> tuple[set[Found], dict[str, set[int]], int]:
    """What the compiler declares in these files, the lines that it keeps, and how many it takes."""
    index, own = clang.cindex.Index.create(), set(names)
    folders = folders_of_headers(names)
    found: set[Found] = set()
    kept: dict[str, set[int]] = collections.defaultdict(set)
    texts: dict[str, bytes] = {}
    units = 0
    for name in names:
        if not name.endswith(".c"):
            continue
        options = TranslationUnit.PARSE_DETAILED_PROCESSING_RECORD
        given = words + folders.get(name.split("/")[0], [])
        unit = index.parse(name, args=given, options=options)
        if any(one.severity >= clang.cindex.Diagnostic.Error for one in unit.diagnostics):
            continue
        units += 1
        for path in {name, *(str(it.include) for it in unit.get_includes())}:
            plain = os.path.normpath(path)
            if plain in own:
                text = texts.setdefault(plain, pathlib.Path(plain).read_bytes())
                all_lines = set(range(1, text.count(b"\n") + 2))
                kept[plain] |= all_lines - lines_passed_over(unit, path)
        for kind, spelling, path, line, place in declared(unit.cursor, True):
            plain, bytes_of = os.path.normpath(path), spelling.encode()
            if plain in kept and texts[plain][place : place + len(bytes_of)] == bytes_of:
                found.add(Found(kind, spelling, plain, line))
    return found, kept, units


def main() -> None:
    parser = options(__doc__)
    parser.add_argument("folder", type=pathlib.Path, help="a folder with C files")
    parser.add_argument("words", nargs="*", help="words for the compiler, after --")
    parser.add_argument(
        "--without", action="append", default=[], help="a folder's name; what is below is left out"
    )
    parser.add_argument("--rows", type=pathlib.Path, help="a file for the rows that differ")
    words = words_given(parser)
    rows_file = words.rows.resolve() if words.rows else None
    os.chdir(words.folder)
    names = [*c_files(pathlib.Path("."), words.without)]
    headers = [it for path in HEADERS for it in ("-isystem", str(path))]
    true, kept, units = compiled(names, ["-x", "c", *headers, *words.words])
    own, ctags = (
        {item for item, _ in definitions(asked, [*kept], pathlib.Path("."))}
        for asked in ([words.cbrowse, *OWN_WIDE], ["ctags", *WIDE])
    )
    print(f"{units} units, {len(kept)} files")
    print(f"{'kind':<6}{'true':>7}{'wrong':>7}{'missed':>7}   ctags:{'wrong':>7}{'missed':>7}")
    rows = []
    for kind in KINDS:
        of_kind = {it for it in true if it.kind == kind}
        mine, its = (
            {it for it in some if it.kind == kind and it.line in kept[it.file]}
            for some in (own, ctags)
        )
        counts = f"{len(mine & of_kind):>7}{len(mine - of_kind):>7}{len(of_kind - mine):>7}"
        print(f"{kind:<6}{counts}   {len(its - of_kind):>13}{len(of_kind - its):>7}")
        for word, some in ("wrong", mine - of_kind), ("missed", of_kind - mine):
            for it in sorted(some):
                line = pathlib.Path(it.file).read_text("latin-1").split("\n")[it.line - 1]
                rows.append(f"{word}\t{kind}\t{it.name}\t{it.file}:{it.line}\t{line.strip()}\n")
    if rows_file:
        rows_file.write_text("".join(rows))


if __name__ == "__main__":
    main()
