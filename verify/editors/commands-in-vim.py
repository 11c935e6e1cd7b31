#!/usr/bin/env python3
"""Gives each command of the plugin for vim and nvim, and brings about each of its failures.

    make && verify/editors/commands-in-vim.py
    verify/editors/commands-in-vim.py --cbrowse PATH --vim PATH --nvim PATH

The plugin is loaded as a user has it: from the folder `plugin` of a folder of the runtime path. In
vim and in nvim, whichever are there, a small tree is browsed. What a command says, the quickfix
list, the place of the cursor and the number of windows have to be those that the page of `:help
cbrowse` promises; rows are compared with those of `cbrowse find --wide`. A variable is found, and
by `g:cbrowse_standard` it is not. Each failure is printed, and the exit status is 1 if there is
one.
"""

from __future__ import annotations

import json
import os
import pathlib
import re
import shutil
import subprocess
import sys
import tempfile
from typing import NamedTuple, Optional

sys.path.insert(0, str(pathlib.Path(__file__).resolve().parents[1]))
from shared import TOP, Report, words_given, options  # noqa: E402

PATIENCE = 300  # seconds until an editor is given up
TREE = {
    "a.c": '#include "c.h"\nstatic int add(int a, int b) {\n\treturn a + b;\n}\n'
    "int main(void) {\n\treturn add(1, 2) + other(3);\n}\nstatic int count;\n",
    "sub/b.c": '#include "c.h"\nstatic int add(int a) {\n\treturn a;\n}\n'
    "int other(int n) {\n\treturn n ? add(n) : other(n - 1);\n}\n",
    "c.h": "#define TWICE(x) ((x) + (x))\nint other(int n);\n\n",
}
SCRIPT = r"""
set nomore nofixendofline autoread
let found = []
for step in json_decode(join(readfile($STEPS), ''))
  let said = ''
  try
    let said = execute(step)
  catch
    let said = 'THROWN ' .. v:exception
  endtry
  let rows = getqflist()
  call map(rows, {_, one -> [fnamemodify(bufname(one.bufnr), ':.'), one.lnum, one.text]})
  call add(found, [said, rows, fnamemodify(bufname('%'), ':.'), line('.'), winnr('$')])
endfor
call writefile([json_encode(found)], $FOUND)
qall!
"""
CHILDREN = "split(system('pgrep -P ' .. getpid() .. ' -f line'))"
# The program, which is told to take 4,096 files.
FEWER = ["#!/bin/sh", 'exec "$MINE" $(echo "$@" | sed "s/--max-files [0-9]*/--max-files 4096/")']
KILL = f"call system('kill ' .. join({CHILDREN})) | sleep 300m"


class Step(NamedTuple):
    """A command, and what has to be there after it; `None` where anything may be."""

    command: str
    said: Optional[str] = None
    rows: Optional[list] = None
    place: Optional[tuple[str, int]] = None
    windows: Optional[int] = None


class Plan:
    """The steps in one editor."""

    def __init__(self, cbrowse: str, home: pathlib.Path):
        self.cbrowse, self.home, self.steps = cbrowse, home, []
        self.texts = dict(TREE)

    def add(self, *words, **how) -> None:
        self.steps.append(Step(*words, **how))

    def rows(self, field: str, word: str) -> list:
        """What `cbrowse find --wide` gives over the texts as they are in the plan."""
        with tempfile.TemporaryDirectory() as place:
            for name, text in self.texts.items():
                path = pathlib.Path(place, name)
                path.parent.mkdir(parents=True, exist_ok=True)
                path.write_text(text)
            words = [self.cbrowse, "find", "--wide", field, "--", word, *sorted(self.texts)]
            said = subprocess.run(words, cwd=place, check=True, capture_output=True).stdout.decode()
        rows = (row.split(" ", 3) for row in said.splitlines())
        return [[file, int(line), f"{place}: {text}"] for file, place, line, text in rows]

    def ask(self, command: str, field: str, word: str, **how) -> None:
        rows = self.rows(field, word)
        said = "" if rows else "cbrowse: nothing is found"
        self.add(f"Cbrowse{command} {word}", said, rows, **how)

    def write(self, name: str, text: str) -> None:
        """Another program writes a file."""
        self.texts[name] = text
        lines = json.dumps(text.splitlines())
        self.add(
            f"call mkdir(fnamemodify('{name}', ':h'), 'p') | call writefile({lines}, '{name}')"
        )


def commands(plan: Plan) -> None:
    """Each command, as it should go."""
    plan.add("CbrowseStart", "cbrowse: 3 files")
    for command, field in ("Uses", "0"), ("Callees", "2"), ("Callers", "3"):
        for word in "add", "other", "none_such":
            plan.ask(command, field, word)
    plan.ask("Text", "4", "return a")
    plan.ask("Includes", "8", "c.h")
    plan.add("cclose | silent edit a.c | call cursor(6, 10)")
    plan.add("CbrowseDefine", "", plan.rows("1", "add"), ("a.c", 2), 2)
    plan.add("cclose | silent edit sub/b.c | call cursor(6, 1)")
    plan.ask("Define", "1", "add", place=("sub/b.c", 2), windows=2)
    plan.add("cclose | silent edit c.h | call cursor(1, 1)")
    plan.ask("Define", "1", "add", place=("a.c", 2), windows=2)
    plan.add("cclose")
    plan.ask("Define", "1", "TWICE", place=("c.h", 1), windows=1)
    plan.add("silent edit a.c | call cursor(6, 10)")
    plan.add("CbrowseCallers", "", plan.rows("3", "add"))
    plan.add("CbrowseStart sub *.h", "cbrowse: 2 files")
    plan.add("CbrowseUses add", "", [row for row in plan.rows("0", "add") if row[0] == "sub/b.c"])
    plan.add("cclose | CbrowseStart", "cbrowse: 3 files")
    plan.ask("Define", "1", "count", place=("a.c", 8), windows=1)
    plan.add("let g:cbrowse_standard = 1 | CbrowseStart", "cbrowse: 3 files")
    plan.add("CbrowseDefine count", "cbrowse: nothing is found", [])
    plan.add("unlet g:cbrowse_standard | CbrowseStart", "cbrowse: 3 files")


def unsaved(plan: Plan) -> None:
    """A buffer with changes keeps its window, or is hidden where that is allowed."""
    plan.add("silent edit a.c | set nohidden | call append(0, '// typed')")
    plan.ask("Define", "1", "TWICE", place=("c.h", 1), windows=2)
    plan.add("only! | silent edit! a.c | set hidden | call append(0, '// typed')")
    plan.ask("Define", "1", "TWICE", place=("c.h", 1), windows=1)
    plan.add("set nohidden | silent edit! a.c")
    plan.add("call append(0, '// typed')")
    plan.ask("Define", "1", "main", place=("a.c", 5), windows=1)
    plan.add("silent edit! a.c")


def outside(plan: Plan) -> None:
    """Files that another program changes, adds and takes away."""
    plan.write("sub/b.c", TREE["sub/b.c"] + "int more(void) {\n\treturn other(1);\n}\n")
    plan.add("doautocmd FocusGained")
    plan.ask("Callers", "3", "other")
    plan.add("cclose | silent edit a.c")
    plan.write("a.c", TREE["a.c"].replace("other(3)", "other(4) + more()"))
    plan.add("sleep 1100m | silent checktime a.c")
    plan.ask("Callers", "3", "more")
    plan.write("sub/new.h", "#define FRESH(x) more()\n")
    plan.add("CbrowseRefresh", "cbrowse: 4 files")
    plan.ask("Callers", "3", "more")
    plan.add("call delete('sub/new.h')")
    del plan.texts["sub/new.h"]
    plan.ask("Callers", "3", "more")
    plan.add(
        "cclose | silent edit sub/saved.c | call setline(1, 'int saved(void) { return more(); }')"
    )
    plan.add("silent write")
    plan.texts["sub/saved.c"] = "int saved(void) { return more(); }\n"
    plan.ask("Callers", "3", "more")
    plan.add("cclose")


def failures(plan: Plan) -> None:
    """Each failure is one line that says what to do."""
    none = "cbrowse: there is no session; :CbrowseStart begins one"
    ended = "cbrowse: the session ended; :CbrowseStart begins another one"
    plan.add("CbrowseStop", "")
    for command in "Define x", "Callers x", "Text x", "Refresh":
        plan.add(f"Cbrowse{command}", none)
    plan.add("let mine = g:cbrowse_program | let g:cbrowse_program = '/nowhere/cbrowse'")
    missing = "is not in the path; install it, or let g:cbrowse_program name it"
    plan.add("CbrowseStart", f"cbrowse: /nowhere/cbrowse {missing}")
    plan.add("let g:cbrowse_program = mine | CbrowseStart", "cbrowse: 4 files")
    plan.add(KILL)
    plan.add("CbrowseCallers add", ended)
    plan.add("CbrowseCallers add", none)
    plan.add("CbrowseStart", "cbrowse: 4 files")
    plan.ask("Callers", "3", "add")
    plan.add("cclose | silent edit c.h | call cursor(3, 1)")
    word = "cbrowse: there is no word under the cursor; name one after the command"
    plan.add("CbrowseDefine", word)
    plan.add("CbrowseLeftOut", "cbrowse: no file is left out")
    odd = (
        "call mkdir('odd') | for i in range(500)"
        " | call writefile([''], printf('odd/a %d.c', i)) | endfor"
    )
    plan.add(odd)
    plan.add("call system('truncate -s 268435457 odd/large.h')")
    said = "cbrowse: left out: 500 bad name, 1 too large; :CbrowseLeftOut lists them"
    plan.add("CbrowseRefresh", said)
    plan.add("CbrowseStart", said)
    plan.add("CbrowseLeftOut | let left = len(getqflist()) | cclose | echo left", "501")
    plan.ask("Callers", "3", "add")
    plan.add("cclose | silent edit odd/a\\ 1.c | silent write", None)
    plan.add("silent edit odd/a\\ 1.c | silent write | messages clear")
    plan.add(
        "edit c.h | cd odd | CbrowseStart *.x",
        "cbrowse: no C files are here; :cd to their folder, or name them after :CbrowseStart",
    )
    plan.add("cd ..")
    many = (
        "call mkdir('many') | for i in range(4200)"
        " | call writefile(['x;'], printf('many/%d.c', i)) | endfor"
    )
    plan.add(many)
    plan.add("CbrowseStart many", "cbrowse: 4200 files")
    plan.add(f"call writefile({json.dumps(FEWER)}, 'fewer') | call setfperm('fewer', 'rwx------')")
    plan.add(
        "let g:cbrowse_program = getcwd() .. '/fewer' | CbrowseStart many",
        "cbrowse: left out: 104 too many files; :CbrowseLeftOut lists them",
    )
    plan.add("let g:cbrowse_program = mine | CbrowseStart many", "cbrowse: 4200 files")
    plan.add("call writefile(repeat(['y;'], 10001), 'many/0.c') | doautocmd FocusGained")
    plan.add("CbrowseUses y", "cbrowse: the first 10000 of 10001 rows are listed")
    plan.add("CbrowseStop | call delete('many', 'rf') | call delete('odd', 'rf')")
    plan.add("help cbrowse | echo expand('%:t')", "cbrowse.txt")
    plan.add("help :CbrowseRefresh | echo expand('%:t')", "cbrowse.txt")


def drive(editor: str, cbrowse: str, report: Report) -> int:
    """The steps in one editor; how many there were."""
    with tempfile.TemporaryDirectory() as place, tempfile.TemporaryDirectory() as beside:
        home, beside = pathlib.Path(place).resolve(), pathlib.Path(beside)
        for name, text in TREE.items():
            (home / name).parent.mkdir(exist_ok=True)
            (home / name).write_text(text)
        shutil.copytree(TOP / "editors" / "vim", beside / "vim")
        plan = Plan(cbrowse, home)
        for part in commands, unsaved, outside, failures:
            part(plan)
        (beside / "steps").write_text(json.dumps([step.command for step in plan.steps]))
        (beside / "script.vim").write_text(SCRIPT)
        (beside / "vimrc").write_text("set nocompatible\n")
        env = {"STEPS": beside / "steps", "FOUND": beside / "found", "HOME": beside}
        env["MINE"] = cbrowse
        begin = [f"set rtp^={beside}/vim", f"let g:cbrowse_program = '{cbrowse}'"]
        words = [editor, "-u", str(beside / "vimrc"), "-i", "NONE", "-n", "-es"]
        words += [word for command in begin for word in ("--cmd", command)]
        words += ["-c", f"helptags {beside}/vim/doc", "-S", str(beside / "script.vim")]
        subprocess.run(
            words,
            cwd=home,
            timeout=PATIENCE,
            stdin=subprocess.DEVNULL,
            stderr=subprocess.DEVNULL,
            env={**os.environ, **{name: str(value) for name, value in env.items()}},
        )
        found = json.loads((beside / "found").read_text()) if (beside / "found").exists() else []
    report.same(f"{editor}: steps", len(plan.steps), len(found))
    for step, (said, rows, file, line, windows) in zip(plan.steps, found):
        what = f"{editor}: {step.command}"
        said = "\n".join(
            it for it in said.splitlines() if it and not re.match(r'"|\(\d+ of \d+\)', it)
        )
        if step.said is not None:
            report.same(f"{what}: says", step.said, said)
        elif "THROWN" in said:
            report.fail(f"{what}: {said}")
        if step.rows is not None and step.rows:
            report.same(f"{what}: lists", step.rows, rows)
        if step.place is not None:
            report.same(f"{what}: goes to", step.place, (file, line))
        if step.windows is not None:
            report.same(f"{what}: windows", step.windows, windows)
    return len(plan.steps)


def main() -> int:
    parser = options(__doc__)
    parser.add_argument("--vim", default="vim")
    parser.add_argument("--nvim", default="nvim")
    words = words_given(parser)
    report = Report()
    editors = [editor for editor in (words.vim, words.nvim) if shutil.which(editor)]
    if not editors:
        raise SystemExit("neither vim nor nvim is here")
    for editor in editors:
        print(f"{editor}: {drive(editor, words.cbrowse, report)} commands")
    return report.status()


if __name__ == "__main__":
    sys.exit(main())
