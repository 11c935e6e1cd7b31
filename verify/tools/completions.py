#!/usr/bin/env python3
"""Compares what bash, zsh and fish offer after the programs with what `--help` says.

    make && verify/tools/completions.py
    verify/tools/completions.py --cbrowse PATH      or: CBROWSE=PATH verify/tools/completions.py

The shells are asked as a user asks them: bash by its function, fish by `complete -C`, and zsh by
the tabulator in a terminal. After each program, and after each of its subcommands, exactly the
options of its help are offered; after `cbrowse` its subcommands, after `find` the numbers of the
fields, after `--format` its two values, and for a source folders and C files alone. A shell that is
not here is passed over. The files have to be those that scripts/completions.py writes.
"""

from __future__ import annotations

import os
import pathlib
import pty
import re
import select
import shutil
import subprocess
import sys
import tempfile
import time

sys.path.insert(0, str(pathlib.Path(__file__).resolve().parents[1]))
from shared import TOP, Report, words_given, options  # noqa: E402

PLACE = TOP / "editors" / "completions"
FIELDS = ["0", "1", "2", "3", "4", "7", "8"]
report = Report()
check = report.check


def helped(program: str, *words: str) -> list[str]:
    """The options that a help text names at the beginning of its lines."""
    path = program if "/" in program else TOP / "editors" / program
    done = subprocess.run([path, *words, "--help"], capture_output=True, text=True)
    found = set()
    for line in (done.stdout + done.stderr).splitlines():
        begin = re.match(r"\s*(-[^ ].*?)(?:  |$)", line)
        if begin:
            found |= set(re.findall(r"(?:^|[ ,])(--?[A-Za-z][A-Za-z-]*)", begin[1]))
        mode = re.match(r"cbrowse-cscope (-[A-Za-z])", line)
        if mode:
            found.add(mode[1])
    return sorted(found)


class Bash:
    name = "bash"

    def offers(self, room: pathlib.Path, line: str) -> list[str]:
        words = line.split(" ")
        script = (
            f'. "{PLACE}/cbrowse.bash"; COMP_WORDS=("$@"); COMP_CWORD=$(($# - 1)); COMP_LINE="$*"\n'
            '_cbrowse "$1" "${@: -1}" "${@: -2:1}"; printf "%s\\n" "${COMPREPLY[@]}"'
        )
        done = subprocess.run(
            ["bash", "-c", script, "bash", *words], cwd=room, capture_output=True, text=True
        )
        return sorted(done.stdout.split())


class Fish:
    name = "fish"

    def offers(self, room: pathlib.Path, line: str) -> list[str]:
        script = f"set -p fish_complete_path {PLACE}; complete -C '{line}'"
        # fish completes the words of programs that are there
        path = f"{room}/../programs:{os.environ['PATH']}"
        env = {**os.environ, "HOME": str(room / "../home"), "PATH": path}
        done = subprocess.run(
            ["fish", "-c", script], cwd=room, capture_output=True, text=True, env=env
        )
        return sorted(found.split("\t")[0].rstrip("/") for found in done.stdout.splitlines())


class Zsh:
    name = "zsh"

    def offers(self, room: pathlib.Path, line: str) -> list[str]:
        begin = (
            f"fpath=({PLACE} $fpath); autoload -U compinit; compinit -u -D; PS1='> '; LISTMAX=0\n"
            "setopt no_auto_menu no_list_beep; zstyle ':completion:*' list-separator '#'\n"
            "zstyle ':completion:*' insert-unambiguous false\n"
            "stty cols 300 rows 100; bindkey '^X' list-choices; echo READ''Y\n"
        )
        env = {**os.environ, "HOME": str(room / "../home"), "TERM": "dumb"}
        pid, master = pty.fork()
        if pid == 0:
            os.chdir(room)
            os.execvpe("zsh", ["zsh", "-f", "-i"], env)
        heard = b""

        def hear(until: bytes, seconds: float) -> bool:
            nonlocal heard
            end = time.monotonic() + seconds
            while time.monotonic() < end:
                if select.select([master], [], [], 0.1)[0]:
                    heard += os.read(master, 65536)
                if until and until in heard:
                    return True
            return False

        try:
            os.write(master, begin.encode())
            hear(b"READY", 20)
            hear(b"", 0.3)
            heard = b""
            os.write(master, line.encode() + b"\x18")
            hear(b"", 2.0)
        finally:
            os.close(master)
            os.kill(pid, 9)
            os.waitpid(pid, 0)
        text = re.sub(rb"\x1b\[[0-9;?]*[A-Za-z]", b"", heard).decode(errors="replace")
        found = []
        for shown in text.replace("\r", "\n").splitlines():
            if shown.startswith(("> ", line.split(" ")[0])) or shown.endswith(line):
                continue
            head = shown.split("#")[0] if "#" in shown else shown
            found += head.split()
        return sorted(set(word.rstrip("/") for word in found))


def main() -> int:
    program = words_given(options(__doc__)).cbrowse
    done = subprocess.run([TOP / "scripts" / "completions.py", "--check", program])
    check("the files are up to date", done.returncode == 0)
    contexts = {
        "cbrowse": helped(program),
        "cbrowse line": helped(program, "line"),
        "cbrowse find": helped(program, "find"),
        "cbrowse tags": helped(program, "tags"),
        "cbrowse lsp": helped(program, "lsp"),
        "cbrowse-tree": helped("cbrowse-tree"),
        "cbrowse-tree find": helped("cbrowse-tree"),
        "cbrowse-cscope": helped("cbrowse-cscope"),
        "cbrowse-graph": helped("cbrowse-graph"),
        "cbrowse-lsp": helped("cbrowse-lsp"),
    }
    check("help texts have options", all(len(it) >= 2 for it in contexts.values()), contexts)
    with tempfile.TemporaryDirectory() as folder:
        room = pathlib.Path(folder) / "room"
        for name in "room", "home", "programs":
            (room.parent / name).mkdir()
        (room.parent / "programs" / "cbrowse").symlink_to(program)
        for name in "cbrowse-tree", "cbrowse-cscope", "cbrowse-graph", "cbrowse-lsp":
            (room.parent / "programs" / name).symlink_to(TOP / "editors" / name)
        for name in "a.c", "b.h", "note.txt":
            (room / name).write_text("")
        (room / "sub").mkdir()
        for shell in Bash(), Fish(), Zsh():
            if not shutil.which(shell.name):
                print(f"       {shell.name} is not here")
                continue
            for context, names in contexts.items():
                found = shell.offers(room, context + " -")
                check(f"{shell.name}: {context}", found == names, (found, names))
            for line, expected in {
                "cbrowse ": ["find", "help", "line", "lsp", "tags"],
                "cbrowse find ": FIELDS,
                "cbrowse-tree find ": [*FIELDS, "a.c", "b.h", "sub"],
                "cbrowse tags --format ": ["1", "2"],
                "cbrowse tags ": ["a.c", "b.h", "sub"],
                "cbrowse lsp ": ["a.c", "b.h", "sub"],
                "cbrowse lsp --root ": ["sub"],
                "cbrowse-lsp --root ": ["sub"],
                "cbrowse-lsp ": [],
                "cbrowse-graph name ": ["a.c", "b.h", "sub"],
            }.items():
                found = shell.offers(room, line)
                if shell.name == "fish":  # it offers all files beside what it is told
                    is_right = set(expected) <= set(found)
                elif line == "cbrowse-tree find ":
                    is_right = set(FIELDS) <= set(found) <= set(expected)
                elif not expected:  # zsh offers options where there is nothing else
                    is_right = all(it.startswith("-") for it in found)
                else:
                    is_right = found == expected
                check(f"{shell.name}: {line}", is_right, (found, expected))
    return report.status()


if __name__ == "__main__":
    sys.exit(main())
