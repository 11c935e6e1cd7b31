#!/usr/bin/env python3
"""Jumps to members, enumerators and variables in the sources of redis, in vim.

    make && verify/editors/jumps-in-vim.py FOLDER
    verify/editors/jumps-in-vim.py --cbrowse PATH --vim PATH FOLDER

FOLDER holds the sources of redis 7.0, or has them somewhere below it, as `bench/corpus.sh` unpacks
them. They are copied, `cbrowse-tree` writes their tags file, and `cbrowse-cscope -b -R` the list.
For each name vim is asked by `:tag NAME` and by `:cs find g NAME`. vim has to be built with
`+cscope` (Debian's vim-nox).

Where it has to go does not come from cbrowse: beside each name stands a text that one line of these
sources holds, and no other. `:cs find g` has to find that line alone. By the standard profile the
functions among them are found, and neither question finds another name. Each failure is printed,
and the exit status is 1 if there is one.
"""

from __future__ import annotations

import json
import os
import pathlib
import subprocess
import sys
import tempfile

sys.path.insert(0, str(pathlib.Path(__file__).resolve().parents[1]))
from shared import TOP, Report, c_files, copy, options, words_given  # noqa: E402

PATIENCE = 300  # seconds until vim is given up
# Each name, and a text that stands on the line of its definition alone.
PLACES = {
    # members of structures
    "aof_last_fsync": "time_t aof_last_fsync; ",
    "repl_diskless_load": "int repl_diskless_load; ",
    "bindaddr": "char *bindaddr[CONFIG_BINDADDR_MAX];",
    "busy_module_yield_reply": "const char *busy_module_yield_reply;",
    # enumerators
    "REPL_STATE_SEND_PSYNC": "REPL_STATE_SEND_PSYNC,",
    "FAILOVER_IN_PROGRESS": "FAILOVER_IN_PROGRESS  ",
    "CHILD_INFO_TYPE_CURRENT_INFO": "    CHILD_INFO_TYPE_CURRENT_INFO,",
    # variables
    "ProcessingEventsWhileBlocked": "int ProcessingEventsWhileBlocked = 0;",
    "RDBGeneratedByReplication": "int RDBGeneratedByReplication = 0;",
    "ACLLog": "list *ACLLog; ",
    "functionDictType": "dictType functionDictType = {",
    # functions
    "raxRemoveChild": "raxNode *raxRemoveChild(raxNode *parent, raxNode *child) {",
    "ACLStringHasSpaces": "int ACLStringHasSpaces(",
}
FUNCTIONS = "raxRemoveChild", "ACLStringHasSpaces"
SCRIPT = r"""
set nocscopeverbose cscopequickfix=g- tags=./tags,tags nomore nowrapscan
let &csprg = $WRAPPER
let found = []
for command in json_decode(join(readfile($ASKED), ''))
  enew
  call setqflist([])
  let place = []
  try
    execute command
    let place = [expand('%:p'), line('.')]
  catch
  endtry
  call add(found, [place, len(getqflist())])
endfor
call writefile([json_encode(found)], $FOUND)
qall!
"""


def sources(folder: pathlib.Path) -> pathlib.Path:
    """The folder with the sources of redis."""
    for path in [folder, *sorted(folder.glob("**/redis-7*"))]:
        if (path / "src" / "server.h").is_file():
            return path
    raise SystemExit(f"{folder}: here and below are no sources of redis 7.0")


def places(home: pathlib.Path, names: list[str]) -> dict[str, list]:
    """The file and the line of each text; each has to be there once."""
    texts = {name: (home / name).read_text("latin-1").split("\n") for name in names}
    found = {}
    for word, text in PLACES.items():
        lines = [
            [str(home / file), number]
            for file, lines in texts.items()
            for number, line in enumerate(lines, 1)
            if text in line
        ]
        if len(lines) != 1:
            raise SystemExit(f"{text!r} stands on {len(lines)} lines, and has to stand on one")
        found[word] = lines[0]
    return found


def asked(vim: str, home: pathlib.Path, wrapper: str, settings: dict, cases: list) -> list:
    """Where vim is after each command, and how many rows its list has."""
    files = {name: home / f".{name.lower()}" for name in ("ASKED", "FOUND", "SCRIPT")}
    files["ASKED"].write_text(json.dumps(cases))
    files["SCRIPT"].write_text(SCRIPT)
    subprocess.run(
        [vim, "-N", "-u", "NONE", "-i", "NONE", "-n", "-es", "-S", files["SCRIPT"]],
        cwd=home,
        env={**settings, "WRAPPER": wrapper, **{name: str(it) for name, it in files.items()}},
        stdin=subprocess.DEVNULL,
        stdout=subprocess.DEVNULL,
        stderr=subprocess.DEVNULL,
        timeout=PATIENCE,
        check=True,
    )
    return json.loads(files["FOUND"].read_text())


def check(vim: str, home: pathlib.Path, settings: dict, report: Report) -> None:
    """All names, by both profiles."""
    tree, wrapper = (str(TOP / "editors" / it) for it in ("cbrowse-tree", "cbrowse-cscope"))
    names = [*c_files(home)]
    wanted = places(home, names)
    subprocess.run([wrapper, "-b", "-R"], cwd=home, env=settings, check=True)
    for profile, option in ("wide", []), ("standard", ["--standard"]):
        subprocess.run([tree, *option, "."], cwd=home, env=settings, check=True)
        before = ["silent! cs kill -1", " ".join([f"cs add {home}/cscope.out {home}", *option])]
        cases = [f"{command} {word}" for word in wanted for command in ("tag", "cs find g")]
        found = iter(asked(vim, home, wrapper, settings, before + cases)[len(before) :])
        for word, place in wanted.items():
            goes = profile == "wide" or word in FUNCTIONS
            for command, rows in ("tag", 0), ("cs find g", 1):
                expected = [place, rows] if goes else [[], 0]
                report.same(f"{profile}: :{command} {word}", expected, next(found))
        print(f"{profile}: {len(wanted)} names, each by :tag and by :cs find g")


def main() -> int:
    parser = options(__doc__)
    parser.add_argument("folder", type=pathlib.Path, help="a folder with the sources of redis")
    parser.add_argument("--vim", default="vim")
    words = words_given(parser)
    report = Report()
    folder = sources(words.folder.resolve())
    with tempfile.TemporaryDirectory() as place:
        home = pathlib.Path(place).resolve()
        copy(folder, c_files(folder), home)
        check(words.vim, home, {**os.environ, "CBROWSE": words.cbrowse}, report)
    return report.status()


if __name__ == "__main__":
    sys.exit(main())
