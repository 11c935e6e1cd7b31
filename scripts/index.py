#!/usr/bin/env python3
"""Writes docs/INDEX.md: for each public function its contract, definitions, tests and wrong bodies.

    scripts/index.py            writes the page
    scripts/index.py --check    status 1 where the page is not what would be written

Public is what the `lib.rt` of a crate hands out. Definitions are those that the contract names and
a `ghost use` line of the file takes from a crate of this repository. A test is a test function that
calls it, itself or by a function beside it, or a session of crates/worked_cases in which a command
asks for it (COMMANDS). Edits are those of must-fail that break its body, and then those that break
a private function that it stands on. What calls what is judged by names, without types.
"""

from __future__ import annotations

import functools
import pathlib
import re
import sys
from typing import Iterable

from cases import cases_of
from edits import TOP, Edit, Function, all_functions, edits, snake

PAGE = TOP / "docs" / "INDEX.md"
CRATES = [
    "cb_scan",
    "cb_names",
    "cb_tags",
    "cb_wire",
    "cb_index",
    "cb_desk",
    "cb_macros",
    "cb_lsp",
    "cb_session",
    "cb_words",
    "cbrowse",
]
TESTS = ["text_tests", "names_tests", "wire_tests", "index_tests", "desk_tests"]
MOST = 3  # of a kind are named, and the rest is counted

# The input lines of a session that ask for a function.
QUESTION, CHANGE = "[0-478].", ":(load|reload|drop|rename|mark|markall|to|tag|pop)( |$)|5."
COMMANDS = {
    "cb_desk Desk::change": CHANGE,
    "cb_desk Desk::undo": ":undo$",
    "cb_desk Desk::redo": ":redo$",
    "cb_desk Desk::rebuild": "r$",
    "cb_desk Desk::marks": ":marks$",
    "cb_desk Desk::wanted": ":(mark |markall|to)",
    "cb_desk Desk::source": ":(marks|stack)$",
    "cb_desk Desk::frames": ":stack$",
    "cb_desk Desk::rows": QUESTION,
    "cb_desk Desk::settle": QUESTION,
    "cb_desk Desk::tag_rows": ":(tags|listing)",
    "cb_desk Desk::settle_tags": ":(tags|listing)",
    "cb_index Entries::next": "r$",
    "cb_index FactRows::spots": "[023].",
    "cb_index FactSpots::next": "[023].",
    "cb_index FactSpots::row_count": "[023].",
    "cb_index Shelf::includes": "8.",
    "cb_index IncludeRows::next": "8.",
    "cb_desk Rows::next": QUESTION,
    "cb_desk Rows::count_left": QUESTION,
    "cb_desk TagRows::next": ":(tags|listing)",
    "cb_desk TagRows::len": ":(tags|listing)",
    "cb_desk Places::next": ":marks$",
    "cb_desk Places::next_back": ":stack$",
    "cb_desk Places::len": ":(marks|stack)$",
    "cb_desk Refusal::text": ":(undo|redo|pop)$",
    "cb_desk Field::of_digit": "[0-9]",
    "cb_desk line_row": ":(marks|stack)$",
    "cb_tags put_plain": ":tags( 1)?$",
    "cb_tags put_extended": ":tags 2$",
    "cb_tags put_heads": ":tags 2$",
    "cb_tags put_listing": ":listing$",
    "cb_tags compare_tag_names": ":tags( 1)?$",
    "cb_tags is_file_name": ":(load|rename) ",
    "cb_session Session::one": ".",
    "cb_session Session::serve": ".",
    "cb_session Intake::read": ":(load|reload) ",
    "cb_session put_row": QUESTION,
    "cb_session put_answer": QUESTION,
    "cb_session put_tags_file": ":tags",
    "cb_session put_listing_file": ":listing",
}
# What begins a session rather than a command of it.
BEGINS = {
    "cb_session prepare",
    "cb_session run",
}
# The rows of scripts/whole-program.py that show a function, by the note above them.
WHOLE = {
    "cb_words job_of": "words that are wrong, and help",
    "cb_session Session::into_desk": "searches",
    "cbrowse run_job": "searches",
    "cbrowse execute": "files that cannot be read or loaded, or written",
    "cbrowse execute_process": "words that are wrong, and help",
    "cbrowse run": "sessions",
}
# The words of crates/worked_cases/data/facts.txt that show a function.
FACTS = {
    "cb_scan scan": "defs|functions|uses|calls|includes",
    "cb_scan pieces": "pieces",
    "cb_scan Pieces::next": "pieces",
    "cb_scan Source::line_count": "lines",
    "cb_scan Source::line": "lines",
    "cb_scan Facts::defs": "defs|functions",
    "cb_scan Facts::uses": "uses",
    "cb_scan Facts::calls": "calls",
    "cb_scan Facts::includes": "includes",
}


# ---- what is public


def exported(crate: pathlib.Path) -> set[str]:
    """The names that `lib.rt` hands out; of a program the public functions of its module."""
    library = crate / "src" / "lib.rt"
    if not library.exists():
        return {it.name for it in all_functions(crate) if it.public}
    text = library.read_text()
    names = set()
    for found in re.finditer(r"^pub use [\w:]*?(?:(\w+)|\{([^}]*)\});", text, re.MULTILINE):
        names.update(re.findall(r"\w+", found[1] or found[2]))
    return names


def public(crate: pathlib.Path) -> list[Function]:
    """The public functions of a crate, by file and place; an iterator has its `next`."""
    names = exported(crate)
    found = []
    for it in all_functions(crate):
        is_law = it.file.name == "laws.rt"
        is_turn = (
            it.owner in names
            and it.name in ("next", "next_back")
            and "Iterator for" in (text_of(it.file))
        )
        if is_turn or (it.public and (is_law or (it.owner or it.name) in names)):
            found.append(it)
    return found


@functools.lru_cache(maxsize=None)
def text_of(file: pathlib.Path) -> str:
    return file.read_text()


def crate_of(function: Function) -> str:
    return function.file.relative_to(TOP / "crates").parts[0]


# ---- contracts


@functools.lru_cache(maxsize=None)
def used_definitions(file: pathlib.Path) -> dict[str, str]:
    """The definitions that `ghost use` lines of a file take from a crate here: name and file."""
    found = {}
    form = r"ghost use Rattle\.(cb\w+|cbrowse)\.specs\.([\w.]+)\.\{([^}]*)\}"
    for one in re.finditer(form, text_of(file)):
        crate = "" if (TOP / "crates" / one[1]) in file.parents else f"{one[1]}: "
        place = declared(TOP / "crates" / one[1], one[2].split("."))
        for name in re.findall(r"[\w◌]+", one[3]):
            found[name] = crate + place
    return found


def declared(crate: pathlib.Path, parts: list[str]) -> str:
    """The file of a definition; what code declares, as a type or a constant, is in its source."""
    if parts[0] != "declared":
        return "/".join(parts) + ".antt"
    sources = ["/".join(parts[1:n]) + ".rt" for n in range(len(parts), 1, -1)]
    return next((it for it in sources if (crate / "src" / it).exists()), "lib.rt")


def contract_text(function: Function) -> str:
    """Its signature down to the body; of an iterator's turn what its `impl` says."""
    text = text_of(function.file)
    if function.name in ("next", "next_back"):
        return text[text.rfind("\nimpl", 0, function.start) : function.start]
    found = re.compile(r"^ *\{", re.MULTILINE).search(text, function.start)
    return text[function.start : found.start() if found else function.end]


def clauses(function: Function) -> str:
    text = contract_text(function)
    found = re.findall(r"^ *ensures(?: (\w+))? \{", text, re.MULTILINE)
    found += re.findall(r"ghost (next_gives|next_back_gives|remaining) =", text)
    return ", ".join(it or "value" for it in found) or "safe and ends"


def definitions(function: Function) -> str:
    used = used_definitions(function.file)
    said = re.split(r"\b(?:ensures|requires|ghost)\b", contract_text(function), maxsplit=1)[-1]
    by_file: dict[str, list[str]] = {}
    for name, file in used.items():
        if re.search(rf"(?<![\w.]){re.escape(name)}(?!\w)", said):
            by_file.setdefault(file, []).append(f"`{name}`")
    return "<br>".join(f"{', '.join(names)} in {file}" for file, names in by_file.items())


# ---- what calls what

# Names of methods that collections and iterators have too.
STANDARD = set("add at clear clone end find get grow is_empty len new next push read write".split())
CALL = re.compile(r"(?:\b(\w+)::|(\bself)\.|(\w*\.))?\b(\w+)(?:::<[^>]*>)?\(")


@functools.lru_cache(maxsize=None)
def calls(function: Function) -> tuple[tuple[str, ...], ...]:
    """The calls of its body: what stands before the name, and the name."""
    text = text_of(function.file)[function.start : function.end]
    return tuple(dict.fromkeys(it.groups("") for it in CALL.finditer(text)))


@functools.lru_cache(maxsize=None)
def words_of(file: pathlib.Path) -> frozenset[str]:
    return frozenset(re.findall(r"\w+", text_of(file)))


class Functions:
    """Functions by their names."""

    def __init__(self, some: Iterable[Function]):
        self.by_name: dict[str, list[Function]] = {}
        for it in some:
            self.by_name.setdefault(it.name, []).append(it)

    def called(self, function: Function) -> list[Function]:
        """Which of them a function calls, judged by the names of functions and types."""
        found: list[Function] = []
        for path, own, dot, name in calls(function):
            alike = [it for it in self.by_name.get(name, []) if it != function]
            if path:
                owner = function.owner if path == "Self" else path
                alike = [it for it in alike if it.owner == (owner if owner[0].isupper() else "")]
            elif own and any(it.owner == function.owner for it in alike):
                alike = [it for it in alike if it.owner == function.owner]
            elif own or dot:
                methods = [it for it in alike if it.owner]
                alike = [it for it in methods if it.owner in words_of(function.file)]
                is_only = len({it.owner for it in methods}) == 1 and name not in STANDARD
                if not alike and is_only:
                    alike = methods
                alike = alike or [it for it in methods if f"{snake(it.owner)}." == dot]
            else:
                alike = [it for it in alike if not it.owner]
            found += [it for it in alike if it not in found]
        return found

    def reached(self, function: Function) -> list[Function]:
        """Which of them it calls, itself or by another of them, the nearest first."""
        found: list[Function] = []
        left = [function]
        while left:
            left = [it for one in left for it in self.called(one) if it not in found]
            left = list(dict.fromkeys(left))
            found += left
        return found


# ---- tests


class Tests:
    """What the test functions, sessions and texts show."""

    def __init__(self, product: list[Function]):
        self.product = Functions(product)
        self.by_function: dict[Function, list[Function]] = {}
        for crate in TESTS:
            own = all_functions(TOP / "crates" / crate)
            beside = Functions(own)
            for test in filter(is_test, own):
                reach = [test, *beside.reached(test)]
                for it in {it for one in reach for it in self.product.called(one)}:
                    self.by_function.setdefault(it, []).append(test)
        folder = TOP / "crates" / "worked_cases" / "data"
        self.facts = (folder / "facts.txt").read_text()
        files = [it.name for it in sorted(folder.glob("*.txt")) if not it.name.startswith("facts")]
        self.sessions = [(file, case) for file in files for case in cases_of(file)]

    def functions(self, function: Function) -> list[str]:
        """The test functions that call it: first those that name it, then those that do least."""
        found = self.by_function.get(function, [])
        words = set(snake(function.path.replace("::", "_")).split("_")) - {"new"}
        found.sort(key=lambda it: (-len(words & set(it.name.split("_"))), it.name))
        told = [f"`{it.name}` in {it.file.name}" for it in found[:MOST]]
        return told + ([f"{len(found) - MOST} more test functions"] if len(found) > MOST else [])

    def texts(self, key: str) -> list[str]:
        if key not in FACTS:
            return []
        count = len(re.findall(rf"^(?:{FACTS[key]}):", self.facts, re.MULTILINE))
        return [f"{count} texts in facts.txt"]

    def runs(self, key: str) -> list[str]:
        if key not in WHOLE:
            return []
        if f"# {WHOLE[key]}\n" not in (TOP / "scripts" / "whole-program.py").read_text():
            raise SystemExit(f"scripts/index.py: no '# {WHOLE[key]}' in scripts/whole-program.py")
        return [f"“{WHOLE[key]}” in whole-program.py"]

    def in_sessions(self, key: str) -> list[str]:
        """The sessions that ask for it: first those whose name has its words, then short names."""
        if key in BEGINS:
            found = [(file, case) for file, case in self.sessions if case.files]
        else:
            form = re.compile(COMMANDS.get(key, "$.").encode())
            found = [
                (file, case)
                for file, case in self.sessions
                if any(form.match(it.command.split(b"\n")[0]) for it in case.exchanges)
            ]
        asked = COMMANDS.get(key, "") + " " + snake(key.split(":")[-1])
        words = set(re.findall("[a-z]{3,}", asked))
        found.sort(
            key=lambda it: (not words & set(re.findall("[a-z]+", it[1].name)), len(it[1].name))
        )
        names = list(dict.fromkeys(f"“{case.name}” in {file}" for file, case in found))
        return names[:MOST] + ([f"{len(names) - MOST} more sessions"] if len(names) > MOST else [])

    def of(self, key: str, function: Function) -> list[str]:
        told = self.functions(function) + self.texts(key)
        return told + self.runs(key) + self.in_sessions(key)


def is_test(function: Function) -> bool:
    before = text_of(function.file)[: function.start]
    return re.search(r"#\[test[^\n]*\]\s*(?:#\[[^\n]*\]\s*)*$", before) is not None


# ---- wrong bodies


def edits_by_function() -> dict[Function, list[Edit]]:
    """The edits of all crates, by the function that each breaks."""
    found: dict[Function, list[Edit]] = {}
    for name in CRATES:
        for it in edits(TOP / "crates" / name):
            function = it.function()
            if function:
                found.setdefault(function, []).append(it)
    return found


# ---- the page

HEAD = """\
# Index of public functions

`scripts/index.py` writes this page, and the gate checks that it is up to date.

A row has a public function, the clauses of its contract, the definitions that they name with their
files in `specs/` (for types and constants in `src/`), what tests it, and the wrong bodies that the
prover has to refuse: its own, and then, below, those of functions that it stands on. Wrong bodies
are in `must-fail/` and `must-fail/more/` of the crate. A clause without a name is called `value`. A
function that is not tested itself names those that are and call it. A law has no test: it does
nothing, and its contract is what counts.
"""
COLUMNS = "| Function | Clauses | Definitions | Tests | Wrong bodies |\n|---|---|---|---|---|"


class Crate:
    """The public functions of a crate, and what it takes to tell about them."""

    def __init__(self, name: str, tests: Tests, broken: dict[Function, list[Edit]]):
        self.name, self.tests, self.broken = name, tests, broken
        path = TOP / "crates" / name
        self.public = public(path)
        self.private = Functions(it for it in all_functions(path) if not it.public)

    def callers(self, function: Function) -> list[Function]:
        """The tested functions that call it, themselves or by private ones."""
        found = []
        for it in self.public:
            inside = [it, *self.private.reached(it)]
            if it != function and any(function in self.tests.product.called(one) for one in inside):
                found += [it] if self.tests.of(f"{self.name} {it.path}", it) else []
        return found

    def shown_by(self, function: Function, crates: list[Crate]) -> list[str]:
        """The tests; without them the tested functions that call it, of this crate or above."""
        told = self.tests.of(f"{self.name} {function.path}", function)
        if told or function.file.name == "laws.rt":
            return told
        by = [f"`{it.path}`" for crate in crates for it in crate.callers(function)]
        return ["by " + ", ".join(by[:MOST])] if by else []

    def wrong_bodies(self, function: Function) -> list[str]:
        """Its own, and those of what it stands on: private functions, else what it calls."""
        told = [it.name for it in self.broken.get(function, [])]
        private = self.private.reached(function)
        below = [it.name for one in private for it in self.broken.get(one, [])]
        if not told and not below:
            called = self.tests.product.called(function)
            below = [it.name for one in called for it in self.broken.get(one, [])]
        if below:
            more = f", {len(below) - MOST} more" if len(below) > MOST else ""
            told.append("below: " + ", ".join(below[:MOST]) + more)
        return told

    def row(self, function: Function, crates: list[Crate]) -> str:
        is_law = function.file.name == "laws.rt"
        shown = f"laws::{function.name}" if is_law else function.path
        cells = [
            f"[`{shown}`](../crates/{function.file.relative_to(TOP / 'crates')})",
            clauses(function),
            definitions(function) or "none",
            "<br>".join(self.shown_by(function, crates)),
            "<br>".join(self.wrong_bodies(function)),
        ]
        return "| " + " | ".join(it.replace("|", "\\|") or "–" for it in cells) + " |"

    def table(self, crates: list[Crate]) -> str:
        rows = [self.row(it, crates) for it in self.public]
        return "\n".join([f"## {self.name}\n", COLUMNS, *rows]) + "\n"


def page() -> str:
    tests = Tests([it for name in CRATES for it in all_functions(TOP / "crates" / name)])
    broken = edits_by_function()
    crates = [Crate(name, tests, broken) for name in CRATES]
    return "\n".join([HEAD, *(it.table(crates) for it in crates)])


def is_current() -> bool:
    return PAGE.exists() and PAGE.read_text() == page()


def main() -> int:
    if sys.argv[1:] != ["--check"]:
        PAGE.write_text(page())
        return 0
    if is_current():
        return 0
    print("docs/INDEX.md is not current: scripts/index.py writes it")
    return 1


if __name__ == "__main__":
    sys.exit(main())
