"""What the checks of this folder and the measurements of bench/ share."""

from __future__ import annotations

import argparse
import collections
import contextlib
import os
import pathlib
import re
import socket
import subprocess
import time
from typing import Iterable, Iterator, Optional, Sequence

TOP = pathlib.Path(__file__).resolve().parent.parent
MOST_BYTES = 1_000_000  # of a file, where nothing else is said
LARGEST = 268_435_456  # the most bytes of a file that can be said
MOST_FILES = 4096  # of a session
RESERVED = frozenset(
    """
    auto break case char const continue default do double else enum extern float for goto if inline
    int long register restrict return short signed sizeof static struct switch typedef union
    unsigned void volatile while _Alignas _Alignof _Atomic _Bool _Complex _Generic _Imaginary
    _Noreturn _Static_assert _Thread_local __attribute__ __declspec __asm__ asm __extension__
    defined
    """.split()
)


# ---- the program


def options(page: str) -> argparse.ArgumentParser:
    """The options that every script takes; `page` is the page on its use."""
    parser = argparse.ArgumentParser(
        description=page, formatter_class=argparse.RawDescriptionHelpFormatter
    )
    program = os.environ.get("CBROWSE", TOP / "bin" / "cbrowse")
    parser.add_argument("--cbrowse", default=program, metavar="PATH", help="the program")
    return parser


def words_given(parser: argparse.ArgumentParser) -> argparse.Namespace:
    """What the command line says; `cbrowse` is then the path of a program that is there."""
    words = parser.parse_args()
    words.cbrowse = str(pathlib.Path(words.cbrowse).resolve())
    if not os.path.isfile(words.cbrowse):
        raise SystemExit(f"{words.cbrowse}: there is no such program; make builds it")
    return words


# ---- C sources


def c_files(
    folder: pathlib.Path,
    without: Iterable[str] = (),
    form: str = "[!-~]{2,255}",
    largest: int = MOST_BYTES,
    most: Optional[int] = None,
) -> dict[str, int]:
    """The C files below a folder that cbrowse takes, by name, each with its size.

    Left out is what is below a folder that `without` names, and each name that is not of the form.
    """
    found, left_out = {}, set(without)
    for place, _, files in os.walk(folder):
        if left_out & set(pathlib.Path(place).relative_to(folder).parts):
            continue
        for file in files:
            path = pathlib.Path(place, file)
            name = str(path.relative_to(folder))
            if file.endswith((".c", ".h")) and re.fullmatch(form, name) and path.is_file():
                if path.stat().st_size <= largest:
                    found[name] = path.stat().st_size
    return {name: found[name] for name in sorted(found, key=os.fsencode)[:most]}


def spread(items: Iterable, number: int) -> list:
    """At most `number` of the items, evenly spread over their order."""
    items = sorted(items)
    number = min(number, len(items))
    return [items[i * len(items) // number] for i in range(number)]


def copy(source: pathlib.Path, names: Iterable[str], target: pathlib.Path) -> None:
    """Copies files to another folder, by their names in it."""
    for name in names:
        (target / name).parent.mkdir(parents=True, exist_ok=True)
        (target / name).write_bytes((source / name).read_bytes())


# ---- what is found


def left_over(folder: pathlib.Path) -> list[str]:
    """The temporary files of companions in a folder. They are removed behind, so it waits a bit."""
    for _ in range(100):
        names = [it.name for it in folder.iterdir() if it.name.startswith("cbrowse-")]
        if not names:
            break
        time.sleep(0.1)
    return names


class Report:
    """Tells what fails, and counts it."""

    def __init__(self):
        self.failures = 0

    def fail(self, text: str) -> None:
        self.failures += 1
        print("FAILED:", text, flush=True)

    def check(self, what: str, is_right: bool, said: object = "") -> None:
        """A line for each thing that is tried."""
        if is_right:
            print("ok     " + what, flush=True)
        else:
            self.fail(f"{what}: {said}" if said else what)

    def same(self, what: str, expected: object, found: object) -> None:
        """Nothing is said where both are the same."""
        if expected != found:
            self.fail(f"{what}: expected {str(expected)[:300]}, found {str(found)[:300]}")

    def same_rows(self, what: str, expected: Iterable, found: Iterable) -> None:
        """Compares rows of bytes: each has to be there as often as expected, in any order."""
        expected, found = collections.Counter(expected), collections.Counter(found)
        for word, rows in ("missing", expected - found), ("not expected", found - expected):
            for row in sorted(rows.elements()):
                columns = " | ".join(column.decode("latin-1") for column in row)
                self.fail(f"{what}: {word}: {columns}")

    def status(self) -> int:
        """Says how many failures there were; the exit status."""
        print(f"{self.failures} failures" if self.failures else "no failure", flush=True)
        return 1 if self.failures else 0


# ---- companions


class Place:
    """A folder in which a companion of the program runs."""

    def __init__(self, folder: str, cbrowse: str, script: str):
        self.folder, self.cbrowse = pathlib.Path(folder), cbrowse
        self.script = str(TOP / "editors" / script)

    def put(self, name: str, text: str = "int f(void) {\n}\n") -> None:
        path = self.folder / name
        path.parent.mkdir(parents=True, exist_ok=True)
        path.write_text(text)

    def put_large(self, name: str) -> None:
        """A file of one byte more than cbrowse takes, of bytes 0 that take no room on the disk."""
        self.put(name, "")
        os.truncate(self.folder / name, LARGEST + 1)

    def settings(self, **more: object) -> dict[str, str]:
        """The environment in which it runs."""
        added = {name: str(value) for name, value in more.items()}
        return {**os.environ, "CBROWSE": self.cbrowse, **added}

    def run(self, *words: object, **how) -> tuple[int, bytes, str]:
        """Status, standard output and standard error."""
        return self.run_by(["sh", self.script], *words, **how)

    def run_by(
        self,
        begin: Sequence[str],
        *words: object,
        below: str = ".",
        stdin: str = "",
        **more: object,
    ) -> tuple[int, bytes, str]:
        """The same, where the command begins with these words."""
        done = subprocess.run(
            [*begin, *map(str, words)],
            cwd=self.folder / below,
            env=self.settings(**more),
            input=stdin.encode(),
            capture_output=True,
        )
        return done.returncode, done.stdout, done.stderr.decode()

    def writes(self, *words: object, below: str = ".") -> list[bytes]:
        """What it writes to standard error, write by write: a datagram each."""
        near, far = socket.socketpair(socket.AF_UNIX, socket.SOCK_DGRAM)
        with near, far:
            subprocess.run(
                ["sh", self.script, *map(str, words)],
                cwd=self.folder / below,
                env=self.settings(),
                stdout=subprocess.DEVNULL,
                stderr=far,
            )
            near.settimeout(0)
            found = []
            with contextlib.suppress(BlockingIOError):
                while True:
                    found.append(near.recv(65536))
        return found


@contextlib.contextmanager
def small_disk(folder: pathlib.Path, kilobytes: int) -> Iterator[bool]:
    """A folder of this size; false where nothing can be mounted, as without root."""
    words = ["mount", "-t", "tmpfs", "-o", f"size={kilobytes}k", "tmpfs", str(folder)]
    is_root = os.geteuid() == 0
    if not is_root or subprocess.run(words, stderr=subprocess.DEVNULL).returncode:
        print("       a full disk is not tried: nothing can be mounted here")
        yield False
        return
    try:
        yield True
    finally:
        subprocess.run(["umount", str(folder)], check=True)


def fill(folder: pathlib.Path) -> None:
    """Takes all room that is left on a disk."""
    with open(folder / "filled", "wb", buffering=0) as file, contextlib.suppress(OSError):
        while True:
            file.write(b"x" * 4096)
