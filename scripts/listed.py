"""Lists the scripts of a folder with what each needs, and runs those that can run here."""

from __future__ import annotations

import argparse
import os
import pathlib
import shutil
import subprocess
import time
from typing import Callable, NamedTuple

TOP = pathlib.Path(__file__).resolve().parent.parent


def says(words: list[str], wanted: str) -> bool:
    """Whether a program is there and says this."""
    if not shutil.which(words[0]):
        return False
    done = subprocess.run(words, stdin=subprocess.DEVNULL, capture_output=True)
    return wanted.encode() in done.stdout + done.stderr


CLANG = "import clang.cindex; clang.cindex.Index.create(); print('loaded')"
XCSCOPE = "(progn (require 'xcscope) (princ 'loaded))"
EGLOT = "(progn (require 'eglot) (princ 'loaded))"
# What may be needed: how to see that it is there. Each is told by the name of its Debian package.
NEEDS: dict[str, Callable[[], bool]] = {
    "universal-ctags": lambda: says(["ctags", "--version"], "Universal Ctags"),
    "python3-clang-14": lambda: says(["/usr/bin/python3", "-c", CLANG], "loaded"),
    "cscope": lambda: says(["cscope", "-V"], "version"),
    "clangd": lambda: says(["clangd", "--version"], "clangd"),
    "ripgrep": lambda: says(["rg", "--version"], "ripgrep"),
    "vim-nox": lambda: says(["vim", "--version"], "+cscope")
    and says(["vim", "--version"], "+channel"),
    "elpa-xcscope": lambda: says(["emacs", "--batch", "--eval", XCSCOPE], "loaded"),
    "elpa-eglot": lambda: says(["emacs", "--batch", "--eval", EGLOT], "loaded"),
    "less": lambda: shutil.which("less") is not None,
    "valgrind": lambda: shutil.which("valgrind") is not None,
    "neovim": lambda: shutil.which("nvim") is not None,
    "parallel": lambda: says(["parallel", "--version"], "GNU parallel"),
    "openssh-server": lambda: os.path.exists("/usr/sbin/sshd"),
    "rsync": lambda: shutil.which("rsync") is not None,
    "graphviz": lambda: shutil.which("dot") is not None,
    "zsh": lambda: shutil.which("zsh") is not None,
    "fish": lambda: shutil.which("fish") is not None,
    "lintian": lambda: shutil.which("lintian") is not None,
    "debootstrap": lambda: shutil.which("debootstrap") is not None,
    "rt": lambda: shutil.which("rt") is not None,
    "root": lambda: os.geteuid() == 0,
    "index_bench": lambda: (TOP / "crates" / "index_bench" / "out" / "index_bench").is_file(),
}


class Script(NamedTuple):
    """A script of the folder."""

    path: str
    what: str
    minutes: float
    needs: tuple[str, ...] = ()  # without these it cannot run
    uses: tuple[str, ...] = ()  # without these it passes over a part
    sources: bool = False  # it takes a folder of C sources
    option: tuple[str, ...] = ()  # what comes before that folder

    @property
    def name(self) -> str:
        return pathlib.Path(self.path).stem


def told(minutes: float) -> str:
    return f"{minutes * 60:.0f} s" if minutes < 1 else f"{minutes:.0f} min"


def put_list(scripts: list[Script]) -> None:
    """What each does and needs, how long it takes, and what is missing here."""
    there = {need: NEEDS[need]() for it in scripts for need in it.needs + it.uses}
    for it in scripts:
        needs = [*it.needs, *(["SOURCES"] if it.sources else [])]
        parts = [told(it.minutes)]
        parts += ["needs " + ", ".join(needs)] if needs else []
        parts += ["uses " + ", ".join(it.uses)] if it.uses else []
        gone = [need for need in it.needs + it.uses if not there[need]]
        parts += ["missing here: " + ", ".join(gone)] if gone else []
        print(f"{it.path}\n    {it.what}\n    {'; '.join(parts)}")


def run(folder: pathlib.Path, page: str, scripts: list[Script]) -> int:
    """What the command line asks for; the exit status."""
    parser = argparse.ArgumentParser(
        description=page, formatter_class=argparse.RawDescriptionHelpFormatter
    )
    names = [it.name for it in scripts]
    parser.add_argument("names", nargs="*", metavar="NAME", help="scripts to run, or `all`")
    program = os.environ.get("CBROWSE", TOP / "bin" / "cbrowse")
    parser.add_argument("--cbrowse", default=program, metavar="PATH", help="the program")
    parser.add_argument("--sources", metavar="FOLDER", help="C sources for those that need them")
    given = parser.parse_args()
    if not given.names:
        put_list(scripts)
        return 0
    for name in given.names:
        if name not in [*names, "all"]:
            parser.error(f"{name}: no such script; there are {', '.join(names)}")
    chosen = [it for it in scripts if it.name in given.names or "all" in given.names]
    env = {**os.environ, "CBROWSE": str(pathlib.Path(given.cbrowse).resolve())}
    failed = passed = passed_over = 0
    for it in chosen:
        gone = [need for need in it.needs if not NEEDS[need]()]
        gone += ["--sources FOLDER"] if it.sources and not given.sources else []
        if gone:
            print(f"---- {it.name}: not run, without {', '.join(gone)}", flush=True)
            passed_over += 1
            continue
        print(f"---- {it.name}: {told(it.minutes)}", flush=True)
        began = time.monotonic()
        words = [str(folder / it.path)]
        words += [*it.option, str(pathlib.Path(given.sources).resolve())] if it.sources else []
        status = subprocess.run(words, cwd=TOP, env=env).returncode
        print(f"---- {it.name}: status {status}, {time.monotonic() - began:.0f} s", flush=True)
        failed, passed = failed + (status != 0), passed + (status == 0)
    print(f"{passed} passed, {failed} failed, {passed_over} not run")
    return 1 if failed else 0
