#!/usr/bin/env python3
"""Compares what cbrowse answers about real C sources with what cscope answers.

    make && verify/tools/beside-cscope.py --known --without deps --without contrib FOLDER
    verify/tools/beside-cscope.py --cbrowse PATH --questions 100 --shown 0 FOLDER

Sources come from Debian's packages, for instance: `apt-get source --download-only zlib lua5.4 redis
tmux`, with each `.orig.tar.*` unpacked side by side in one folder. It takes every file of the
folder that cbrowse takes, except those below a folder that `--without` names. Both programs get the
same files and the same questions, line by line (`cbrowse line`, and `cscope -dl`, which answers as
`cscope -L` does). The questions of each field are spread over

    0    the names in the texts           4    parts of their lines
    1, 2 the names that one of the two    7    the names of the files
         finds defined, see KINDS         8    the headers that are included, with and without
    3    the names before a parenthesis        their folders

Two rows are the same if the file and the line are, and for field 2 the called name. For each field
a table says how many rows each program finds, what part of those of cscope cbrowse finds and the
other way round, and for what part of the common rows the function column is the same. Then each
difference is counted under its reason: what stands on the line, and what both answer to another
question about it. A row without a reason is a failure, and with --known so is a part below the
least that is known of the sources named above (`LEAST`); the exit status is then 1.
"""

from __future__ import annotations

import collections
import pathlib
import re
import subprocess
import sys
import tempfile
from typing import NamedTuple

sys.path.insert(0, str(pathlib.Path(__file__).resolve().parents[1]))
from shared import RESERVED, c_files, words_given, options, spread  # noqa: E402

FIELDS = {
    "0": "a name",
    "1": "definitions",
    "2": "called by it",
    "3": "calling it",
    "4": "a text",
    "7": "files",
    "8": "including it",
}
LEAST = {
    "0": (99, 99),
    "1": (75, 99),
    "2": (95, 93),
    "3": (93, 99),
    "4": (100, 100),
    "7": (100, 100),
    "8": (85, 99),
}
NAME = r"[A-Za-z_]\w*"
# functions, macros, typedefs, structures, unions, enumerations and classes in cscope's database
KINDS = "$#tsuec"
MARKS = {
    "g": "cscope takes it for a variable, which cbrowse does not look for",
    "m": "cscope takes it for a member or an enumerator, which cbrowse does not look for",
}  # what its database has before a name
LOST = "cscope's field {} has it in that function, and its field {} lost its place in the database"
LOST_HERE = (
    "cscope's field 3 does not know the call, and its field 2 lost its place in the database"
)
ELSEWHERE = "the two take another function for the one around it"


class Row(NamedTuple):
    file: str
    function: str
    line: int


# ---- questions and answers


class Program:
    """A program with the line-oriented interface."""

    def __init__(self, words, folder, pattern=lambda field, word: word):
        self.words, self.folder, self.pattern = words, folder, pattern
        self.rows = {}

    def ask(self, questions):
        """Asks a list of pairs of a field and a word, each once, in one session."""
        questions = [question for question in dict.fromkeys(questions) if question not in self.rows]
        self.rows.update(zip(questions, self.answers(questions)))

    def answers(self, questions):
        """The rows of each question."""
        lines = "".join(field + self.pattern(field, word) + "\n" for field, word in questions)
        stdin = (lines + "q\n").encode("latin-1")
        done = subprocess.run(
            self.words, cwd=self.folder, input=stdin, check=True, stdout=subprocess.PIPE
        )
        said = done.stdout.decode("latin-1").split("\n")
        found, place = [], 0
        while place < len(said):
            count = re.fullmatch(r"(?:>> )*cscope: ([0-9]+) lines", said[place])
            after = place + 1 + (int(count[1]) if count else 0)
            if count or "Unable to search database" in said[place]:
                columns = (row.split(" ", 3) for row in said[place + 1 : after])
                found.append([Row(file, where, int(line)) for file, where, line, _ in columns])
            place = after
        if len(found) != len(questions):
            raise SystemExit(
                f"{self.words[0]}: {len(questions)} questions and {len(found)} answers"
            )
        return found

    def functions(self, field, word, row):
        """The function columns of the rows of a question on the line of a row."""
        return {
            other.function
            for other in self.rows[field, word]
            if (other.file, other.line) == (row.file, row.line)
        }


def questions_of(texts, listed, marks, number):
    """The words to ask each field for."""
    words, called, headers, lines = set(), set(), set(), set()
    for text in texts.values():
        words.update(re.findall(NAME, text))
        called.update(re.findall(rf"({NAME})[ \t]*\(", text))
        headers.update(re.findall(r'#[ \t]*include[ \t]*[<"]([^>"\n]+)', text))
        lines.update(line.strip() for line in text.split("\n"))
    defined = listed | {name for (_, _, name), mark in marks.items() if mark in KINDS}
    parts = {
        line[len(line) // 3 : len(line) // 3 + 9].strip()
        for line in spread(lines, 4 * number)
        if len(line) > 20
    }
    files = {name.rsplit("/", 1)[-1] for name in texts} | {name[len(name) // 2 :] for name in texts}
    return {
        "0": spread(words - RESERVED, number),
        "1": spread(defined - RESERVED, number),
        "2": spread(defined - RESERVED, number),
        "3": spread(called - RESERVED, number),
        "4": spread(parts - {""}, number),
        "7": spread(files, number),
        "8": spread(headers | {header.rsplit("/", 1)[-1] for header in headers}, number),
    }


def marks_of(database):
    """The mark of each definition in cscope's database, by file, line and name."""
    marks, file, number = {}, "", 0
    for line in database.split("\n"):
        mark = re.match(r"\t(.)(.*)", line)
        if mark and mark[1] == "@":
            file = mark[2]
        elif mark and mark[1] in KINDS + "gm":
            marks[file, number, mark[2]] = mark[1]
        elif not mark and (start := re.match(r"([0-9]+) ", line)):
            number = int(start[1])
    return marks


def key(field, row):
    return row if field == "2" else (row.file, row.line)


# ---- reasons


class Reasons:
    """Why one program has a row and the other has not."""

    def __init__(self, texts, own, other, marks):
        self.lines = {name: text.split("\n") for name, text in texts.items()}
        self.own, self.other, self.marks = own, other, marks

    def follow_up(self, field, word, row):
        """Other questions about a row, which its reason rests on."""
        if field in "23":
            caller, callee = (word, row.function) if field == "2" else (row.function, word)
            return [("0", callee), ("1", caller), ("1", callee), ("3", callee)]
        return [("0", word)] if field == "1" else []

    def first_line(self, row):
        """The line of a row, or the one on which the directive around it begins."""
        lines, number = self.lines[row.file], row.line
        if number > len(lines):
            return ""
        while number > 1 and lines[number - 2].endswith("\\"):
            number -= 1
        return lines[number - 1]

    def of(self, field, word, row, by_cscope):
        """The reason, or None."""
        if by_cscope and row.line > len(self.lines.get(row.file, [])):
            return "cscope names a line past the end of the file"
        if field in "23":
            return self.of_call(field, word, row, by_cscope)
        if field == "0" and not by_cscope:
            return "cscope has the name on another line"
        if field == "1" and not by_cscope and self.other.functions("0", word, row):
            return "cscope takes it for a use"
        if by_cscope and field in "018":
            text = (self.lines[row.file] + [""] * row.line)[row.line - 1]
            return (
                self.of_header(word, text) if field == "8" else self.of_name(field, word, row, text)
            )
        return None

    def of_name(self, field, word, row, text):
        if not re.search(rf"\b{re.escape(word)}\b", text):
            return "cscope names a line that does not hold the word"
        if field == "1":
            return MARKS.get(
                self.marks.get((row.file, row.line, word)),
                "cscope takes a declaration for a definition",
            )
        return None

    def of_header(self, word, text):
        header = re.search(r'[<"](.*?)[>"]', text)
        if not header:
            return "cscope names a line that includes nothing"
        if word in header[1] and not ("/" + header[1]).endswith("/" + word):
            return "the word is a part of the header, as io.h is of <stdio.h>"
        return None

    def of_call(self, field, word, row, by_cscope):
        caller, callee = (word, row.function) if field == "2" else (row.function, word)
        own, other = (program.functions("3", callee, row) for program in (self.own, self.other))
        if not by_cscope:
            if caller in other:
                return LOST.format(3, 2)
            if caller in self.other.functions("0", callee, row):
                return LOST.format(0, "2 or 3")
            return ELSEWHERE if other else "cscope sees no function around it"
        line = self.first_line(row)
        if callee in RESERVED:
            return "a reserved word before a parenthesis, which is no call"
        if re.match(rf"\s*#\s*define\s+{NAME}(?!\w|\()", line):
            return "in a macro without arguments, which calls nothing"
        if self.own.functions("1", callee, row):
            return "cscope takes the head of a function for a call"
        outside = self.own.functions("0", callee, row) == {"<global>"}
        if outside or row.file not in {one.file for one in self.own.rows["1", caller]}:
            return "cscope takes a declaration or the call of a macro for the head of a function"
        if field == "2" and caller not in other:
            return LOST_HERE
        if own - {caller}:
            return ELSEWHERE
        if re.match(r"\s*#", line):
            return "in another directive than a macro, which calls nothing"
        return None


# ---- the comparison


def compare(field, asked, own, other):
    """Prints the line of a field; gives its differences and failures."""
    both = mine = its = same = 0
    differences = []
    for word in asked:
        rows, others = own.rows[field, word], other.rows[field, word]
        keys, other_keys = ({key(field, row): row for row in some} for some in (rows, others))
        common = keys.keys() & other_keys.keys()
        both, mine, its = both + len(common), mine + len(keys), its + len(other_keys)
        same += len({key(field, row) for row in {*rows} & {*others}})
        differences += [(word, row, False) for at, row in keys.items() if at not in common]
        differences += [(word, row, True) for at, row in other_keys.items() if at not in common]
    parts = [100 * both / max(1, of) for of in (its, mine)]
    counts = f"{len(asked):>9}{mine:>9}{its:>9}{both:>9}"
    percents = "".join(f"{part:>9.2f} %" for part in (*parts, 100 * same / max(1, both)))
    print(f"{field} {FIELDS[field]:<13}{counts}{percents}")
    failures = [
        f"field {field}: {part:.2f} % of the rows of {what}, at least {least} % is known"
        for part, what, least in zip(parts, ("cscope", "cbrowse"), LEAST[field])
        if part < least
    ]
    return differences, failures


def tell(field, differences, reasons, shown):
    """Prints the differences by their reasons; gives how many have none."""
    by_reason = collections.defaultdict(list)
    for word, row, by_cscope in differences:
        why = reasons.of(field, word, row, by_cscope)
        by_reason["cscope" if by_cscope else "cbrowse", why].append(
            f"{word}: {row.file}:{row.line} {row.function}"
        )
    for (who, why), rows in sorted(by_reason.items(), key=lambda one: (one[0][0], -len(one[1]))):
        print(f"field {field}, {who} alone: {len(rows)}: {why or 'NO REASON'}")
        for row in rows[:shown]:
            print("   ", row)
    return sum(len(rows) for (_, why), rows in by_reason.items() if why is None)


def main():
    parser = options(__doc__)
    parser.add_argument("folder", type=pathlib.Path, help="a folder with C files")
    parser.add_argument("--cscope", default="cscope", help="cscope")
    parser.add_argument(
        "--without", action="append", default=[], help="a folder's name; what is below is left out"
    )
    parser.add_argument(
        "--questions", type=int, default=300, help="how many of each field, 300 by default"
    )
    parser.add_argument(
        "--shown", type=int, default=3, help="how many of each difference to show, 3 by default"
    )
    parser.add_argument("--known", action="store_true", help="fail below what is known, see LEAST")
    wanted = words_given(parser)
    folder, cbrowse = wanted.folder.resolve(), wanted.cbrowse
    names = [*c_files(folder, wanted.without)]
    texts = {name: (folder / name).read_text("latin-1") for name in names}
    print(f"{len(names)} files with {sum(map(len, texts.values()))} bytes")
    with tempfile.TemporaryDirectory() as place:
        list_of_names = pathlib.Path(place, "names")
        list_of_names.write_text("".join(name + "\n" for name in names))
        base, plain = (
            [wanted.cscope, *more, "-f", str(pathlib.Path(place, file))]
            for more, file in (([], "cscope.out"), (["-c"], "plain.out"))
        )
        for words in base, plain:
            subprocess.run([*words, "-b", "-k", "-i", list_of_names], cwd=folder, check=True)
        marks = marks_of(pathlib.Path(plain[-1]).read_text("latin-1"))
        own = Program([cbrowse, "line", "--", *names], folder)
        other = Program(
            [*base, "-dl"],
            folder,
            lambda field, word: re.sub(r"([][.+*^$\\])", r"\\\1", word) if field in "78" else word,
        )
        listing = subprocess.run(
            [cbrowse, "tags", "-x", "--", *names], cwd=folder, check=True, stdout=subprocess.PIPE
        )
        listed = {line.split(" ")[0] for line in listing.stdout.decode("latin-1").split("\n")[:-1]}
        asked = questions_of(texts, listed, marks, wanted.questions)
        reasons = Reasons(texts, own, other, marks)
        for program in own, other:
            program.ask([(field, word) for field, some in asked.items() for word in some])
        print(
            f"{'field':<15}{'asked':>9}{'cbrowse':>9}{'cscope':>9}{'both':>9}"
            f"{'of cscope':>11}{'of cbrowse':>11}{'function':>11}"
        )
        found = {field: compare(field, asked[field], own, other) for field in FIELDS}
        for program in own, other:
            program.ask(
                [
                    question
                    for field, (differences, _) in found.items()
                    for word, row, _ in differences
                    for question in reasons.follow_up(field, word, row)
                ]
            )
        failures = [it for _, some in found.values() for it in some if wanted.known]
        for field, (differences, _) in found.items():
            without = tell(field, differences, reasons, wanted.shown)
            if without:
                failures.append(f"field {field}: {without} rows have no reason")
    for failure in failures:
        print("FAILED:", failure)
    raise SystemExit(1 if failures else 0)


if __name__ == "__main__":
    main()
