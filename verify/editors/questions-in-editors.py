#!/usr/bin/env python3
"""Asks questions about real C sources in vim and in emacs, over `cbrowse-cscope`.

    make && verify/editors/questions-in-editors.py FOLDER
    verify/editors/questions-in-editors.py --cbrowse PATH --files 30 --questions 5 FOLDER

Some files of the folder are copied to a temporary folder, by their names in it, and `cbrowse-cscope
-b -R` writes the list. vim has to be built with `+cscope` (Debian's vim-nox), and emacs has to have
xcscope (elpa-xcscope). One that is not there is passed over, and a line says so. Of each field some
questions are asked, for names, parts of lines, files and headers that are in the sources.

    vim      `:cs find` fills the quickfix list: its files, lines and functions are those of
             `cbrowse find --wide`. From another folder, by `cscoperelative` and by a folder after
             `:cs add`, it finds the same. The letters `e` and `a`, an empty name and a line that
             is too long are found nowhere, and vim asks on. `^NAME$` finds what NAME finds.
             `:cs reset` finds what was changed on disk. With --standard behind the folder it
             finds what `cbrowse find` finds. A list without C files is told
    emacs    each command of xcscope writes the files, lines and functions of `cbrowse find --wide`
             to its buffer. Its command to index writes the list

vim passes over rows of more than 2,047 bytes: those are not looked for. Each failure is printed,
and the exit status is 1 if there is one.
"""

from __future__ import annotations

import collections
import json
import os
import pathlib
import re
import shutil
import subprocess
import sys
import tempfile
import time

sys.path.insert(0, str(pathlib.Path(__file__).resolve().parents[1]))
from shared import TOP, Report, c_files, copy, words_given, options, spread  # noqa: E402

LETTERS = {"0": "s", "1": "g", "2": "d", "3": "c", "4": "t", "7": "f", "8": "i"}
COMMANDS = {
    "0": "this-symbol",
    "1": "global-definition",
    "2": "called-functions",
    "3": "functions-calling-this-function",
    "4": "this-text-string",
    "7": "this-file",
    "8": "files-including-file",
}
PATIENCE = 300  # seconds until an editor is given up
VIM_ROW = 2047  # the most bytes of a row that vim takes, with its LF

# Asks the questions of the file `asked`, and writes for each the places that vim found, or why it
# found none.
VIM_SCRIPT = r"""
set nocscopeverbose cscopequickfix=s-,g-,d-,c-,t-,e-,f-,i-,a-
let &csprg = $WRAPPER
let found = []
for [before, question] in json_decode(join(readfile($ASKED), ''))
  try
    for command in before
      execute command
    endfor
    if question != ''
      call setqflist([])
      execute 'cs find' question
    endif
    let rows = getqflist()
    call map(rows, {_, one -> [fnamemodify(bufname(one.bufnr), ':p'), one.lnum, one.text]})
    call add(found, rows)
  catch
    call add(found, v:exception)
  endtry
endfor
call writefile([json_encode(found)], $FOUND)
qall!
"""

# Asks the questions of the file `asked`, with the list in xcscope's buffer, and writes that buffer.
EMACS_SCRIPT = r"""
(require 'json)
(require 'xcscope)
(setq cscope-program (getenv "WRAPPER")
      cscope-display-cscope-buffer nil
      cscope-max-cscope-buffer-size -1)
(defun wait-for (name) (while (symbol-value name) (accept-process-output nil 0.05)))
(cscope-index-files default-directory)
(wait-for 'cscope-unix-index-process)
(mapc (lambda (one)
        (with-temp-buffer
          (funcall (intern (concat "cscope-find-" (aref one 0))) (aref one 1))
          (wait-for 'cscope-process)))
      (json-read-file (getenv "ASKED")))
(with-current-buffer "*cscope*"
  (let ((coding-system-for-write 'raw-text)) (write-region nil nil (getenv "FOUND"))))
"""


class Sources:
    """Copies of C files in a folder, and what `cbrowse find --wide` answers about them."""

    def __init__(self, cbrowse: str, folder: pathlib.Path, number: int, home: pathlib.Path):
        names = c_files(folder, form="[!-,.-~][!-~]*")
        taken = (name for name in names if b"\0" not in (folder / name).read_bytes())
        self.names = spread(taken, number)
        self.cbrowse, self.home = cbrowse, home
        copy(folder, self.names, home)

    def rows(self, field, word, profile=("--wide",)):
        """File, function and line of each row, and the bytes of the row."""
        said = subprocess.run(
            [self.cbrowse, "find", *profile, field, "--", word, *self.names],
            cwd=self.home,
            check=True,
            stdout=subprocess.PIPE,
        ).stdout.decode("latin-1")
        return [(row.split(" ", 3), len(row)) for row in said.split("\n")[:-1]]

    def questions(self, number):
        """Pairs of a field and a word."""
        texts = [(self.home / name).read_text("latin-1") for name in self.names]
        words = sorted({word for text in texts for word in re.findall(r"[A-Za-z_]\w*", text)})
        called = sorted(
            {word for text in texts for word in re.findall(r"([A-Za-z_]\w*)[ \t]*\(", text)}
        )
        headers = sorted(
            {word for text in texts for word in re.findall(r'include[ \t]*[<"]([^>" \n]+)', text)}
        )
        parts = sorted(
            {part for text in texts for part in re.findall(r"(?m)^[ \t]*([a-z]\w+ [\w(]\w+)", text)}
        )
        files = sorted({name.rsplit("/", 1)[-1] for name in self.names})
        listed = subprocess.run(
            [self.cbrowse, "tags", "--wide", "-x", *self.names],
            cwd=self.home,
            check=True,
            stdout=subprocess.PIPE,
        )
        known = sorted(
            {line.split(" ")[0] for line in listed.stdout.decode("latin-1").split("\n")[:-1]}
        )
        pools = {
            "0": words,
            "1": known,
            "2": known,
            "3": called,
            "4": parts,
            "7": files,
            "8": headers,
        }
        return [
            (field, pool[i * len(pool) // number])
            for field, pool in pools.items()
            for i in range(min(number, len(pool)))
        ]


def run_editor(words, home, settings, asked):
    """What an editor writes that is asked the questions."""
    files = {"ASKED": home / ".asked", "FOUND": home / ".found"}
    files["ASKED"].write_text(json.dumps(asked))
    files["FOUND"].unlink(missing_ok=True)
    subprocess.run(
        words,
        env={**os.environ, **settings, **{name: str(file) for name, file in files.items()}},
        check=True,
        timeout=PATIENCE,
        stdin=subprocess.DEVNULL,
        stdout=subprocess.DEVNULL,
        stderr=subprocess.DEVNULL,
        cwd=home,
    )
    return files["FOUND"].read_bytes().decode("latin-1")


def places_of(sources, field, word, *profile):
    """The places that vim has to show: file, line and function."""
    return [
        [str(sources.home / file), int(line), function]
        for (file, function, line, _), size in sources.rows(field, word, *profile)
        if size < VIM_ROW
    ]


def vim_cases(sources, questions):
    """Commands before a question, the question, and the places expected; None: not looked at."""
    home, other, new = sources.home, sources.home / ".other", sources.home / sources.names[0]
    other.mkdir()
    (other / "cscope.out").write_text("none.c\n")
    again, add = "silent! cs kill -1", f"cs add {home}/cscope.out"

    def asked(some, form="%s", *profile):
        return [
            ([], f"{LETTERS[field]} {form % word}", places_of(sources, field, word, *profile))
            for field, word in some
        ]

    cases = [([add], "", None), *asked(questions)]
    for before in [again, f"cd {other}", "set csre", add], [again, "set nocsre", f"{add} {home}"]:
        cases += [(before, "", None), *asked(questions[::10])]
    cases += [
        ([], question, [])
        for question in ("e int", "a int", "s ^$", "t " + "x" * 5000, "s none here")
    ]
    cases += asked([(field, word) for field, word in questions if field in "01237"][::5], "^%s$")
    cases += [([again, f"{add} {home} --standard"], "", None)]
    cases += asked([one for one in questions if one[0] == "1"], "%s", ())
    cases += [([again, f"{add} {home}"], "", None)]
    line = new.read_bytes().count(b"\n") + 1
    cases += [
        ([f"call writefile(['int cbrowse_is_here;'], '{new}', 'a')"], "s cbrowse_is_here", []),
        (["cs reset"], "s cbrowse_is_here", [[str(new), line, "<global>"]]),
    ]
    return cases + [
        ([again, "set csverb", f"cs add {other}/cscope.out"], "", "there are no C files to browse")
    ]


def check_vim(sources, settings, questions, report):
    script = sources.home / ".script"
    script.write_text(VIM_SCRIPT)
    cases = vim_cases(sources, questions)
    start = time.monotonic()
    answers = json.loads(
        run_editor(
            ["vim", "-N", "-u", "NONE", "-i", "NONE", "-n", "-es", "-S", script],
            sources.home,
            settings,
            [case[:2] for case in cases],
        )
    )
    for (before, question, expected), found in zip(cases, answers):
        if isinstance(found, list):
            found = [
                [file, line, re.match("<<(.*?)>>( |$)", text)[1]] for file, line, text in found
            ]
            found = [
                [file, line, "<global>" if function == "global" else function]
                for file, line, function in found
            ]
        if expected == [] or isinstance(expected, str):
            told = expected or "E259: No matches found"
            found, expected = told if told in found else found, told
        if expected is not None:
            report.same(f"vim, {' | '.join(before)} :cs find {question[:40]}", expected, found)
    print(f"vim: {len(cases)} questions in {time.monotonic() - start:.1f} s")


def check_emacs(sources, settings, questions, report):
    script = sources.home / ".script"
    script.write_text(EMACS_SCRIPT)
    (sources.home / "cscope.out").unlink()
    asked = [(COMMANDS[field], word) for field, word in questions]
    asked += [("egrep-pattern", "int"), ("assignments-to-this-symbol", "int")]
    start = time.monotonic()
    shown = run_editor(["emacs", "--batch", "-l", script], sources.home, settings, asked)
    listed = sorted((sources.home / "cscope.out").read_text().split())
    report.same("emacs, the list of files", sorted("./" + name for name in sources.names), listed)
    parts = re.split(r"\n?={79}\n", shown)[1:]
    report.same("emacs, answers", len(asked), len(parts))
    for (field, word), part in zip(questions, parts):
        expected = collections.Counter(
            (file, function, int(line))
            for (file, function, line, _), _ in sources.rows(field, word)
        )
        found, file = collections.Counter(), ""
        for line in part.split("\n"):
            if head := re.fullmatch(r"\*\*\* (?:\./)?(.*):", line):
                file = head[1]
            elif file and (row := re.match(r" *(\S+)\[([0-9]+)\] ", line)):
                found[file, row[1], int(row[2])] += 1
        report.same(f"emacs, {COMMANDS[field]} {word}", expected, found)
    for part in parts[-2:]:
        report.same(
            "emacs, a question without an answer",
            True,
            "cbrowse: field not in this profile" in part or part,
        )
    print(f"emacs: {len(asked)} questions in {time.monotonic() - start:.1f} s")


def has(words, wanted):
    """Whether a program is there and says that it has something."""
    if not shutil.which(words[0]):
        return False
    done = subprocess.run(words, stdin=subprocess.DEVNULL, capture_output=True)
    return done.returncode == 0 and wanted in done.stdout


def main() -> int:
    parser = options(__doc__)
    parser.add_argument("folder", type=pathlib.Path, help="a folder with C files")
    parser.add_argument(
        "--files", type=int, default=100, help="how many files at most, 100 by default"
    )
    parser.add_argument(
        "--questions", type=int, default=10, help="how many of each field, 10 by default"
    )
    words = words_given(parser)
    report = Report()
    settings = {"CBROWSE": words.cbrowse, "WRAPPER": str(TOP / "editors" / "cbrowse-cscope")}
    with tempfile.TemporaryDirectory() as place:
        home = pathlib.Path(place).resolve()
        sources = Sources(words.cbrowse, words.folder.resolve(), words.files, home)
        questions = sources.questions(words.questions)
        subprocess.run(
            [settings["WRAPPER"], "-b", "-R"], cwd=home, env={**os.environ, **settings}, check=True
        )
        print(f"{len(sources.names)} files, {len(questions)} questions")
        if has(["vim", "--version"], b"+cscope"):
            check_vim(sources, settings, questions, report)
        else:
            print("vim with +cscope: not installed, passed over")
        if has(["emacs", "--batch", "--eval", "(progn (require 'xcscope) (princ 'on))"], b"on"):
            check_emacs(sources, settings, questions, report)
        else:
            print("emacs with xcscope: not installed, passed over")
    return report.status()


if __name__ == "__main__":
    sys.exit(main())
