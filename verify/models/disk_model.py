"""A file system as the language server reads it, and the same writes to one that is there.

A file has one or more paths, which hard links give it. A folder and a pipe have no text. A link
leads to a path, where nothing may be.
"""

from __future__ import annotations

import contextlib
import os
import pathlib
from typing import NamedTuple, Optional

GONE, LINKED, UNREADABLE = object(), object(), object()  # no file; one of two names; no text


class Link(NamedTuple):
    """A link to a path."""

    target: bytes


class Write(NamedTuple):
    """What another program writes, before the message at a place of the input is read."""

    place: int
    what: tuple


class Disk:
    """Files, folders, pipes and links by their paths. The text of a file is under its number."""

    def __init__(self):
        self.at: dict = {}  # by path: the number of a file, a link, or the word "folder" or "pipe"
        self.texts: list[bytes] = []  # by the numbers of files

    def __len__(self):
        return len(self.at)

    def __contains__(self, path):
        return path in self.at

    def __iter__(self):
        return iter(self.at)

    def copy(self) -> Disk:
        """Another one that holds the same."""
        other = Disk()
        other.at, other.texts = dict(self.at), [*self.texts]
        return other

    # ---- what is read

    def end_of(self, path):
        """Where links lead from a path, in at most so many steps."""
        for _ in range(8):
            if not isinstance(self.at.get(path), Link):
                break
            path = self.at[path].target
        return path

    def is_alone(self, path) -> bool:
        """Whether what is there is no link, and no hard link leads to it."""
        there = self.at[path]
        return not isinstance(there, Link) and [*self.at.values()].count(there) == 1

    def read(self, path, alone=False):
        """The text of a file, or that it has two names, where only a file alone will do."""
        there = self.at.get(self.end_of(path))
        if there is None:
            return GONE
        if not isinstance(there, int):
            return UNREADABLE
        return LINKED if alone and not self.is_alone(path) else self.texts[there]

    # ---- what is written

    def do(self, verb: str, path: bytes, more: Optional[bytes] = None) -> None:
        """One write: `more` is a text, or another path."""
        if verb == "write" and isinstance(self.at.get(self.end_of(path)), int):
            self.texts[self.at[self.end_of(path)]] = more
            return
        self.at.pop(path, None)
        if verb in ("write", "replace"):
            self.at[path] = len(self.texts)
            self.texts.append(more)
        elif verb == "link":
            self.at[path] = Link(more)
        elif verb == "hard":
            self.at[path] = self.at[more]
        elif verb != "remove":
            self.at[path] = verb


def do_on_disk(verb: str, path: bytes, more: Optional[bytes] = None) -> None:
    """The same on the disk of this machine. `write` keeps the file and its other names, as an
    editor may, and `replace` makes another file, as git does."""
    there = pathlib.Path(os.fsdecode(path))
    there.parent.mkdir(parents=True, exist_ok=True)
    if verb == "write" and there.is_file():
        there.write_bytes(more)
        return
    if there.is_dir() and not there.is_symlink():
        there.rmdir()
    with contextlib.suppress(FileNotFoundError):
        there.unlink()
    if verb in ("write", "replace"):
        there.write_bytes(more)
    elif verb == "link":
        there.symlink_to(os.fsdecode(more))
    elif verb == "hard":
        os.link(os.fsdecode(more), there)
    elif verb == "folder":
        there.mkdir()
    elif verb == "pipe":
        os.mkfifo(there)
