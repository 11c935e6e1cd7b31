#!/usr/bin/env python3
"""Refuses each growth of memory of the program in turn.

    scripts/each-growth-refused.py [PROGRAM]      bin/cbrowse, if none is named

It runs the program as it was built, under growths.c, which counts the growths of memory and refuses
the Nth, for N from 1 on until nothing is left to refuse. `make test` runs it on the program that it
built.

Sessions: those of crates/worked_cases/data/memory.txt. A command whose growth is refused says so,
and has changed nothing: what is shown before and after it is the same, the world before and the
world after can still be reached, and the command is done when it is given once more. Where there is
no memory for the files to begin with, or to read the block of a load, the program says so and ends.
Undo, redo and questions take no memory.

Jobs: a search, a listing and a tags file, of files that are named or listed. Each is done, or says
that memory was refused and has written nothing; an old tags file then stays. It stays, too, where
the permissions of the new one are refused; and so does a file that takes its place while the
program runs. growths.c does both.

A session of an editor, by editor_growths.py: a message or a text whose growth is refused is told,
and all that follows is as if it had not been sent, or had been too large.

Printed is how many growths each session and job met. The exit status is 1 where a check failed.
"""

import argparse
import os
import pathlib
import subprocess
import sys
import tempfile

from cases import PROMPT, Case, Exchange, cases_of
from editor_growths import Editing
from growths import PATIENCE, Growths, Wrong

TOP = pathlib.Path(__file__).resolve().parent.parent
REFUSED = b"cscope: refused: out of memory\n"
TAKES_MEMORY = (
    b":load",
    b":reload",
    b":drop",
    b":rename",
    b":mark",
    b":to",
    b":tag ",
    b":pop",
    b"5",
    b"r\n",
)
# commands that show the present world, and those that show that past and future are there
SHOWS = (b":marks\n", b":stack\n", b":tags 2\n", b"7.\n")
MOVES = ((b":redo\n", b":undo\n"), (b":undo\n", b":redo\n"))
DONE = b"cscope: done\n"
FEWER = {"a wanted text among 64 files": (b"5g\n", 64)}  # its growths must not rise with the files
MOST = 10_000  # growths of one run


class Ended(Exception):
    """The program ended where a prompt was to come."""


class Talk:
    """A session of the program, spoken to command by command."""

    def __init__(self, growths, words, refuse, folder):
        pipes = {"stdin": subprocess.PIPE, "stdout": subprocess.PIPE, "stderr": subprocess.PIPE}
        self.run = growths.start(words, refuse, cwd=folder, bufsize=0, **pipes)

    def until_prompt(self):
        """What is written up to the next prompt; all, and that it ended, where it ends before."""
        got = b""
        while not (got == PROMPT or got.endswith(b"\n" + PROMPT)):
            piece = self.run.stdout.read(65536)
            if not piece:
                return got, True
            got += piece
        return got[: -len(PROMPT)], False

    def ask(self, command):
        self.run.stdin.write(command)
        reply, ended = self.until_prompt()
        if ended:
            raise Ended(f"it ended after {command!r}")
        return reply

    def close(self):
        """How it ends when the input does: the status and standard error."""
        self.run.stdin.close()
        said = self.run.stderr.read()
        self.run.stdout.close()
        self.run.stderr.close()
        return self.run.wait(PATIENCE), said


def shown(talk):
    """What the present world shows, and whether there is a past and a future; the world stays."""
    seen = [talk.ask(it) for it in SHOWS]
    for there, back in MOVES:
        moved = talk.ask(there)
        seen.append(moved)
        if moved == DONE:
            seen += [talk.ask(it) for it in SHOWS] + [talk.ask(back)]
    return seen


class Session:
    """A session, and the folder with its files."""

    def __init__(self, program, growths, case: Case, folder):
        self.case, self.growths, self.folder = case, growths, folder
        for name, text in case.files:
            pathlib.Path(folder, name.decode()).write_bytes(text)
        self.words = [program, "line", *(name.decode() for name, _ in case.files)]

    def start(self, refuse):
        return Talk(self.growths, self.words, refuse, self.folder)

    def ample(self):
        """A run in which nothing is refused: its growths, and what is shown before each command."""
        talk = self.start(0)
        talk.until_prompt()
        before = []
        for exchange in self.case.exchanges:
            met = self.growths.met
            before.append(shown(talk))
            if self.growths.met != met:
                raise Wrong(f"{self.case.name}: memory was taken to show what is there")
            if talk.ask(exchange.command) != exchange.reply:
                raise Wrong(f"{self.case.name}: another reply to {exchange.command!r}")
            self.count(exchange, self.growths.met - met)
        talk.close()
        return before

    def count(self, exchange: Exchange, growths):
        if growths and not exchange.command.startswith(TAKES_MEMORY):
            raise Wrong(f"{self.case.name}: {exchange.command!r} took memory, {growths} times")
        command, most = FEWER.get(self.case.name, (b"", 0))
        if exchange.command == command and growths >= most:
            raise Wrong(
                f"{self.case.name}: {exchange.command!r}: {growths} growths, not below {most}"
            )

    def refuse(self, number, before):
        """A run in which the growth of this number is refused. Whether there was one."""
        talk = self.start(number)
        _, ended = talk.until_prompt()
        if ended:
            return self.refused_at_start(number, talk)
        for exchange, seen in zip(self.case.exchanges, before):
            try:
                reply = talk.ask(exchange.command)
            except Ended:
                return self.refused_at_block(number, talk, exchange.command)
            if reply == REFUSED and self.growths.refused == 1:
                if shown(talk) != seen:
                    raise Wrong(
                        f"{self.case.name}: growth {number}:"
                        f" {exchange.command!r} was refused, and left a change"
                    )
                reply = talk.ask(exchange.command)
            if reply != exchange.reply:
                raise Wrong(
                    f"{self.case.name}: growth {number}:"
                    f" another reply to {exchange.command!r}: {reply!r}"
                )
        status, said = talk.close()
        if status or said:
            raise Wrong(f"{self.case.name}: growth {number}: status {status}, {said!r}")
        return self.growths.refused > 0

    def refused_at_start(self, number, talk):
        status, said = talk.close()
        names = [b"", *(name + b": " for name, _ in self.case.files)]
        if status != 1 or said not in [b"cbrowse: " + name + b"out of memory\n" for name in names]:
            raise Wrong(
                f"{self.case.name}: growth {number}: it ended with status {status}: {said!r}"
            )
        if self.growths.refused != 1:
            raise Wrong(f"{self.case.name}: growth {number}: it ended where nothing was refused")
        return True

    def refused_at_block(self, number, talk, command):
        """No memory for the block of a load or a reload ends the run."""
        status, said = talk.close()
        is_block = command.startswith((b":load", b":reload"))
        if (
            not is_block
            or status != 1
            or said != b"cbrowse: out of memory\n"
            or self.growths.refused != 1
        ):
            raise Wrong(
                f"{self.case.name}: growth {number}:"
                f" it ended at {command!r} with status {status}: {said!r}"
            )
        return True

    def each(self):
        before = self.ample()
        for number in range(1, MOST):
            if not self.refuse(number, before):
                return number - 1
        raise Wrong(f"{self.case.name}: more than {MOST} growths")


def job(growths, program, words, folder, number):
    """A job's status, output, standard error and tags file, with the growth of a number refused."""
    tags, listed = pathlib.Path(folder, "tags"), pathlib.Path(folder, "list")
    tags.write_bytes(OLD)
    before = set(os.listdir(folder)) | {"list"}
    listed.write_bytes(LISTED)
    with open(listed, "rb") as file:
        pipes = {"stdin": file, "stdout": subprocess.PIPE, "stderr": subprocess.PIPE}
        run = growths.start([program, *words], number, cwd=folder, **pipes)
        out, said = run.communicate(timeout=PATIENCE)
    if set(os.listdir(folder)) != before:
        raise Wrong(f"{words}: growth {number}: it leaves {set(os.listdir(folder)) - before}")
    return run.returncode, out, said, tags.read_bytes()


def each_of_job(growths, program, words, folder):
    """Refuses each growth of a job. How many there were."""
    names = [*(word.encode() for word in words if word.endswith(".c")), *LISTED.split()]
    starts = [b"", *(name + b": " for name in names)]
    messages = [b"cbrowse: " + start + b"out of memory\n" for start in starts]
    whole = job(growths, program, words, folder, 0)
    if whole[0] or whole[2]:
        raise Wrong(f"{words}: status {whole[0]}, {whole[2]!r}")
    for number in range(1, MOST):
        status, out, said, tags = found = job(growths, program, words, folder, number)
        refused = growths.refused
        is_told = status == 1 and not out and said in messages and tags == OLD
        if not (is_told and refused) and found != whole:
            raise Wrong(
                f"{words}: growth {number}:"
                f" status {status}, {said!r}, output {out!r}, tags {tags!r}"
            )
        if not refused:
            return number - 1
    raise Wrong(f"{words}: more than {MOST} growths")


def not_written(growths, program, folder, variables, **how):
    """A tags file that growths.c hinders by other means cannot be written, and no draft is left."""
    before = set(os.listdir(folder)) - set(variables.values())
    pipes = {"stdin": subprocess.DEVNULL, "stdout": subprocess.PIPE, "stderr": subprocess.PIPE}
    words = [program, "tags", "a.c"]
    run = growths.start(words, 0, variables, cwd=folder, **pipes, **how)
    out, said = run.communicate(timeout=PATIENCE)
    if (run.returncode, out, said) != (1, b"", b"cbrowse: tags: cannot be written\n"):
        raise Wrong(f"{variables}: status {run.returncode}, {out!r}, {said!r}")
    if set(os.listdir(folder)) != before:
        raise Wrong(f"{variables}: it leaves {set(os.listdir(folder)) - before}")


def without_modes(growths, program, folder):
    """Where the permissions of the new file are refused, the old one stays."""
    tags = pathlib.Path(folder, "tags")
    tags.write_bytes(OLD)
    tags.chmod(0o640)
    not_written(growths, program, folder, {"NO_MODES": "1"}, umask=0o077)
    if tags.read_bytes() != OLD:
        raise Wrong(f"permissions that are refused: the old file is {tags.read_bytes()!r}")


def swapped(growths, program, folder):
    """What takes the place of an old file behind a link just before that is opened stays."""
    tags, old, other = (pathlib.Path(folder, name) for name in ("tags", "old", "other"))
    tags.unlink(missing_ok=True)
    tags.symlink_to("old")
    old.write_bytes(OLD)
    other.write_bytes(b"buy milk\n")
    not_written(growths, program, folder, {"SWAPPED": "other"})
    if (tags.read_bytes(), old.read_bytes()) != (b"buy milk\n", OLD):
        raise Wrong(f"a file that is swapped: {tags.read_bytes()!r}, {old.read_bytes()!r}")


LISTED = b"m.c\n"  # the list of files of a job
OLD = b"old\told.c\t1\n"  # its old tags file
JOBS = (
    ["find", "0", "add", "a.c", "m.c"],
    ["find", "4", "add", "a.c"],
    ["tags", "-x", "a.c", "m.c"],
    ["tags", "a.c", "m.c"],
    ["tags", "--format", "2", "a.c"],
    ["tags", "a.c", "--files-from", "list"],
    ["find", "0", "add", "a.c", "--files-from", "-"],
)


def main():
    parser = argparse.ArgumentParser(
        description=__doc__, formatter_class=argparse.RawDescriptionHelpFormatter
    )
    parser.add_argument(
        "program", nargs="?", default=str(TOP / "bin" / "cbrowse"), metavar="PROGRAM"
    )
    program = str(pathlib.Path(parser.parse_args().program).resolve())
    failed = 0
    with tempfile.TemporaryDirectory() as room:
        growths = Growths(room)
        checks = []
        for place, case in enumerate(cases_of("memory.txt")):
            folder = pathlib.Path(room, str(place))
            folder.mkdir()
            checks.append((case.name, Session(program, growths, case, folder).each))
        for words in JOBS:
            # the files of the first session are those of the jobs
            checks.append(
                (
                    " ".join(words),
                    lambda words=words: each_of_job(growths, program, words, f"{room}/0"),
                )
            )
        for name, check in (
            ("a tags file whose permissions are refused is not made", without_modes),
            ("a file in the place of an old tags file stays", swapped),
        ):
            checks.append((name, lambda check=check: check(growths, program, f"{room}/0")))
        folder = pathlib.Path(room, "editor")
        folder.mkdir()
        checks.append(("a session of an editor", Editing(program, growths, folder).each))
        for name, check in checks:
            try:
                count = check()
                met = "" if count is None else f": {count} growths, each refused"
                print(f"{name}{met}", flush=True)
            except (Wrong, Ended) as wrong:
                print(f"FAILED: {wrong}", flush=True)
                failed += 1
    print(f"each growth refused: {len(checks) - failed} passed, {failed} failed")
    return 1 if failed else 0


if __name__ == "__main__":
    sys.exit(main())
