#!/usr/bin/env python3
"""Saves files in vim, and checks what the plugin finds before and after.

    make && verify/editors/saves-in-vim.py FOLDER
    verify/editors/saves-in-vim.py --cbrowse PATH --files 200 --vim nvim FOLDER

Some C files of the folder are copied to a temporary folder, by their names in it; for nvim those in
ASCII. vim (with +job and +channel) or nvim begins a session with them. A call that is typed into a
buffer is not found; once the buffer is written it is, and its line is the new one. A new file is
found once it is written. A file that is deleted is found no more, and neither is what a longer edit
took away. After each step the quickfix list of callers, uses, definitions and lines is that of
`cbrowse find --wide` over the files on disk. Each failure is printed, and the exit status is 1 if
there is one.
"""

from __future__ import annotations

import json
import os
import pathlib
import re
import subprocess
import sys
import tempfile

sys.path.insert(0, str(pathlib.Path(__file__).resolve().parents[1]))
from shared import TOP, Report, c_files, copy, words_given, options, spread  # noqa: E402

PATIENCE = 300  # seconds until vim is given up
CALLED = "cbrowse_is_called_here"

# Does the steps of the file `steps` and writes the quickfix list after each question.
SCRIPT = r"""
set nocompatible nomore nofixendofline hidden fileencodings=latin1
if !has('nvim')
  set encoding=latin1
endif
let g:cbrowse_program = $CBROWSE
execute 'source' $PLUGIN
let found = []
for step in json_decode(join(readfile($STEPS), ''))
  try
    execute step
    if step =~# '^Cbrowse[^S]'
      let rows = getqflist()
      call map(rows, {_, one -> [fnamemodify(bufname(one.bufnr), ':p'), one.lnum, one.text]})
      call add(found, rows)
    endif
  catch
    call add(found, [step, v:exception])
  endtry
endfor
call writefile([json_encode(found)], $FOUND)
qall!
"""


def copied(folder: pathlib.Path, number: int, home: pathlib.Path, ascii_alone: bool) -> list[str]:
    """The names of some C files, copied: none begins with `-`, and none holds a byte 0."""
    texts = {name: (folder / name).read_bytes() for name in c_files(folder, form="[!-,.-~][!-~]*")}
    names = (name for name, text in texts.items() if b"\0" not in text)
    names = spread((name for name in names if not ascii_alone or texts[name].isascii()), number)
    copy(folder, names, home)
    return names


class Steps:
    """What vim is told and has to find; the files are kept as vim will have written them."""

    def __init__(self, cbrowse, home, texts):
        self.cbrowse, self.home, self.texts = cbrowse, home, texts
        self.told, self.expected = ["CbrowseStart"], []

    def rows(self, field, word):
        """The quickfix list that `cbrowse find --wide` asks for."""
        with tempfile.TemporaryDirectory() as place:
            for name, text in self.texts.items():
                path = pathlib.Path(place, name)
                path.parent.mkdir(parents=True, exist_ok=True)
                path.write_bytes(text)
            said = subprocess.run(
                [self.cbrowse, "find", "--wide", field, "--", word, *sorted(self.texts)],
                cwd=place,
                check=True,
                stdout=subprocess.PIPE,
            ).stdout.decode("latin-1")
        rows = (row.split(" ", 3) for row in said.split("\n")[:-1])
        return [
            [str(self.home / file), int(line), f"{place}: {text}"]
            for file, place, line, text in rows
        ]

    def ask(self, *words):
        for word in words:
            for command, field in [
                ("Uses", "0"),
                ("Define", "1"),
                ("Callees", "2"),
                ("Callers", "3"),
                ("Text", "4"),
            ]:
                self.told.append(f"Cbrowse{command} {word}")
                self.expected.append((self.told[-1], self.rows(field, word)))

    def write(self, name, text):
        """Writes a file by vim, whatever its buffer has."""
        self.texts[name] = text
        self.told.append("silent write")


def steps(cbrowse, home, names):
    texts = {name: (home / name).read_bytes() for name in names}
    plan = Steps(cbrowse, home, texts)
    words = sorted(
        {
            word
            for text in texts.values()
            for word in re.findall(r"\b([a-z]\w{4,})[ \t]*\(", text.decode("latin-1"))
        }
    )
    some = [words[i * len(words) // 3] for i in range(3)] if len(words) >= 3 else words
    plan.ask(CALLED, *some)
    edited = max(names, key=lambda name: len(texts[name]))
    added = ["static int by_hand(void)", "{", f"\treturn {CALLED}(1);", "}"]
    plan.told += [f"silent edit {edited}", f"call append(0, {json.dumps(added)})"]
    plan.ask(CALLED)  # it is typed, and not yet saved
    end = (
        b"\r\n"
        if texts[edited].count(b"\r\n") == texts[edited].count(b"\n") and texts[edited]
        else b"\n"
    )
    plan.write(edited, b"".join(line.encode() + end for line in added) + texts[edited])
    plan.ask(CALLED, *some)
    plan.told += [
        "silent edit brand/new.c",
        "call mkdir('brand', 'p')",
        f"call setline(1, ['int fresh(void) {{ return {CALLED}(2); }}'])",
    ]
    plan.ask(CALLED)
    plan.write("brand/new.c", b"int fresh(void) { return %s(2); }\n" % CALLED.encode())
    plan.ask(CALLED, *some)
    plan.told += [f"silent buffer {edited}", "silent 1,4delete"]
    plan.write(edited, (home / edited).read_bytes())
    plan.ask(CALLED)
    gone = next(name for name in names if name != edited)
    del plan.texts[gone], plan.texts["brand/new.c"]
    plan.told += [f"call delete({json.dumps(gone)})", "call delete('brand/new.c')"]
    plan.ask(CALLED, *some)
    return plan


def main() -> int:
    parser = options(__doc__)
    parser.add_argument("--files", type=int, default=100)
    parser.add_argument("--vim", default="vim")
    parser.add_argument("folder", type=pathlib.Path)
    words = words_given(parser)
    with tempfile.TemporaryDirectory() as place, tempfile.TemporaryDirectory() as beside:
        home, beside = pathlib.Path(place).resolve(), pathlib.Path(beside)
        is_nvim = pathlib.Path(words.vim).name == "nvim"
        names = copied(words.folder.resolve(), words.files, home, is_nvim)
        plan = steps(words.cbrowse, home, names)
        (beside / "steps").write_text(json.dumps(plan.told))
        (beside / "script.vim").write_text(SCRIPT)
        files = {
            "STEPS": beside / "steps",
            "FOUND": beside / "found",
            "PLUGIN": TOP / "editors" / "vim" / "plugin" / "cbrowse.vim",
            "CBROWSE": words.cbrowse,
        }
        subprocess.run(
            [words.vim, "-Nu", "NONE", "-n", "-es", "-S", str(beside / "script.vim")],
            cwd=home,
            timeout=PATIENCE,
            stdin=subprocess.DEVNULL,
            check=True,
            env={**os.environ, **{name: str(path) for name, path in files.items()}},
        )
        found = json.loads((beside / "found").read_bytes().decode("latin-1"))
    report = Report()
    report.same("answers", len(plan.expected), len(found))
    for (what, expected), rows in zip(plan.expected, found):
        report.same(what, expected, rows)
    count = sum(len(expected) for _, expected in plan.expected)
    print(f"{len(plan.expected)} questions, {count:,} rows")
    return report.status()


if __name__ == "__main__":
    sys.exit(main())
