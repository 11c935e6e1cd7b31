#!/usr/bin/env python3
"""Runs the program into devices that are full, closed, or go away, and checks how it ends.

    make && verify/devices/full-devices.py
    verify/devices/full-devices.py --cbrowse PATH

As root it mounts a small file system of its own. Each of these is one line on standard error and
status 1. What was taken is a prefix of what the program writes elsewhere. An old tags file stays:

    /dev/full    as standard output, and as the tags file
    closed       standard output is closed, or the reader of the pipe is, with SIGPIPE as a shell
                 leaves it and with SIGPIPE ignored
    a reader     that takes some bytes of a pipe and goes away
    a bound      on the size of a file: standard output, and the tags file, take only these bytes
    a full disk  the tags file on a file system with few pages left
    no input     standard input is closed, or a folder

Standard error that is full or closed changes no status. Each failure is printed, and the exit
status is 1 if there is one. A line for each device says how many runs there were.
"""

from __future__ import annotations

import contextlib
import fcntl
import os
import pathlib
import resource
import signal
import subprocess
import sys
import tempfile

sys.path.insert(0, str(pathlib.Path(__file__).resolve().parents[1]))
from shared import words_given, options  # noqa: E402

PATIENCE = 60  # seconds until a run is given up
PIPE = 4096  # the least room of a pipe
READ, WRITE = b"cbrowse: read fault\n", b"cbrowse: write fault\n"
LARGE = b"".join(b"int function_%04d(int x) {\n\treturn x;\n}\n" % n for n in range(1500))
INPUT = (
    b"".join(b"1function_%04d\n" % n for n in range(200)) + b":tags\n:listing\n5return x\n:marks\n"
)

# What writes to standard output, with what it is given.
WRITERS = [
    (["find", "4", "return", "large.c"], b""),
    (["tags", "-x", "large.c"], b""),
    (["line", "large.c"], INPUT),
]
TAGS = ["tags", "-f"]  # and then the tags file and large.c
OLD = b"old\told.c\t1\n"  # a tags file that stays where a new one cannot be written


class Checks:
    """Runs of the program in a folder with a large file; what failed."""

    def __init__(self, program, folder):
        self.program, self.folder = str(program), folder
        self.failed, self.runs = 0, 0
        pathlib.Path(folder, "large.c").write_bytes(LARGE)

    def run(self, words, given=b"", before=lambda: None, **how):
        """The status and what standard error has; `before` is done in the new process."""
        self.runs += 1
        how = {"stdout": subprocess.DEVNULL, "stderr": subprocess.PIPE, "cwd": self.folder, **how}
        if "stdin" not in how:
            how["input"] = given
        words = [self.program, *words]
        ran = subprocess.run(words, preexec_fn=before, timeout=PATIENCE, **how)
        return ran.returncode, ran.stderr

    def whole_file(self):
        """The tags file, where nothing fails."""
        self.whole([*TAGS, "whole", "large.c"])
        return pathlib.Path(self.folder, "whole").read_bytes()

    def whole(self, words, given=b""):
        """What it writes to standard output, where nothing fails."""
        out = pathlib.Path(self.folder, "out")
        with open(out, "wb") as file:
            ended = self.run(words, given, stdout=file)
        self.expect(words, "with devices that do not fail", ended, (0, b""))
        return out.read_bytes()

    def expect(self, words, device, found, meant):
        if found != meant:
            print(f"{' '.join(words)}, {device}: {found!r} and not {meant!r}", flush=True)
            self.failed += 1

    def expect_prefix(self, words, device, taken, whole, at_least):
        if not whole.startswith(taken) or len(taken) < at_least:
            print(
                f"{' '.join(words)}, {device}: {len(taken)} bytes, which are no prefix or too few",
                flush=True,
            )
            self.failed += 1


def no_signal():
    """SIGPIPE and SIGXFSZ stop nothing, as Python leaves them to a program that it starts."""
    signal.signal(signal.SIGPIPE, signal.SIG_IGN)
    signal.signal(signal.SIGXFSZ, signal.SIG_IGN)


def full(checks):
    """/dev/full."""
    with open("/dev/full", "wb") as device:
        for words, given in WRITERS:
            checks.expect(
                words, "into /dev/full", checks.run(words, given, stdout=device), (1, WRITE)
            )
        words = [*TAGS, "whole", "large.c"]
        checks.expect(
            words,
            "into /dev/full, which it leaves alone",
            checks.run(words, stdout=device),
            (0, b""),
        )
    words = [*TAGS, "/dev/full", "large.c"]
    checks.expect(words, "", checks.run(words), (1, b"cbrowse: /dev/full: cannot be written\n"))


def closed(checks):
    """Standard output that is closed, or a pipe that nobody reads."""
    for words, given in WRITERS:
        ended = checks.run(words, given, before=lambda: os.close(1))
        checks.expect(words, "into closed standard output", ended, (1, WRITE))
        for before in (lambda: None, no_signal):
            reader, writer = os.pipe()
            os.close(reader)
            try:
                ended = checks.run(words, given, before=before, stdout=writer)
            finally:
                os.close(writer)
            checks.expect(words, "into a pipe that nobody reads", ended, (1, WRITE))


def reader_goes(checks):
    """A reader that takes some bytes of a pipe, and goes away."""
    for words, given in WRITERS:
        whole = checks.whole(words, given)
        for count in [
            *range(20),
            100,
            1000,
            4095,
            4096,
            4097,
            8191,
            8192,
            8193,
            20000,
            len(whole) - 3 * PIPE,
        ]:
            reader, writer = os.pipe()
            fcntl.fcntl(writer, fcntl.F_SETPIPE_SZ, PIPE)
            checks.runs += 1
            how = {"stdin": subprocess.PIPE, "stderr": subprocess.PIPE, "cwd": checks.folder}
            started = subprocess.Popen([checks.program, *words], stdout=writer, **how)
            os.close(writer)
            with contextlib.suppress(BrokenPipeError):
                started.stdin.write(given)
                started.stdin.flush()
            taken = b""
            while len(taken) < count:
                taken += os.read(reader, count - len(taken))
            os.close(reader)
            with contextlib.suppress(BrokenPipeError):
                started.stdin.close()
            said = started.stderr.read()
            started.stderr.close()
            device = f"into a pipe whose reader takes {count} bytes"
            checks.expect(words, device, (started.wait(PATIENCE), said), (1, WRITE))
            checks.expect_prefix(words, device, taken, whole, count)


def bounded(checks):
    """A bound on the size of a file, as of a disk quota: only these bytes are taken."""

    def with_bound(count):
        def before():
            no_signal()
            resource.setrlimit(resource.RLIMIT_FSIZE, (count, count))

        return before

    out = pathlib.Path(checks.folder, "out")
    tags = pathlib.Path(checks.folder, "bounded")
    for words, given in [*WRITERS, ([*TAGS, "bounded", "large.c"], b"")]:
        is_file = "-f" in words
        whole = checks.whole_file() if is_file else checks.whole(words, given)
        said = b"cbrowse: bounded: cannot be written\n" if is_file else WRITE
        tags.write_bytes(OLD)
        before = set(os.listdir(checks.folder))
        for count in [*range(0, len(whole), 997), *range(1, 60), len(whole) - 1]:
            with open(out, "wb") as file:
                ended = checks.run(words, given, before=with_bound(count), stdout=file)
            device = f"with a bound of {count} bytes"
            checks.expect(words, device, ended, (1, said))
            left = out.read_bytes(), tags.read_bytes(), set(os.listdir(checks.folder))
            checks.expect(words, device, left, (whole[: 0 if is_file else count], OLD, before))
        with open(out, "wb") as file:
            ended = checks.run(words, given, before=with_bound(len(whole)), stdout=file)
        checks.expect(words, "with a bound of all its bytes", ended, (0, b""))
        checks.expect(
            words,
            "with a bound of all its bytes",
            (tags if is_file else out).read_bytes() == whole,
            True,
        )


def full_disk(checks):
    """A file system with few pages left."""
    disk = pathlib.Path(checks.folder, "disk")
    disk.mkdir()
    size = 64 * PIPE
    mounted = subprocess.run(
        ["mount", "-t", "tmpfs", "-o", f"size={size}", "tmpfs", str(disk)], capture_output=True
    )
    if mounted.returncode:
        return "no file system can be mounted here, so a full disk was not tried"
    try:
        whole = checks.whole_file()
        tags, filler = disk / "tags", disk / "filler"
        words = [*TAGS, "disk/tags", "large.c"]
        for left in range(0, len(whole) // PIPE + 1):
            filler.unlink(missing_ok=True)
            tags.write_bytes(OLD)
            filler.write_bytes(b"x" * (size - (left + 1) * PIPE))
            ended = checks.run(words)
            device = f"on a disk with {left} pages left"
            checks.expect(words, device, ended, (1, b"cbrowse: disk/tags: cannot be written\n"))
            found = sorted(os.listdir(disk)), tags.read_bytes()
            checks.expect(words, device, found, (["filler", "tags"], OLD))
        filler.unlink()
        checks.expect(words, "on a disk with room", checks.run(words), (0, b""))
        checks.expect(words, "on a disk with room", tags.read_bytes() == whole, True)
    finally:
        subprocess.run(["umount", str(disk)], check=True)
    return None


def no_input(checks):
    """Standard input that cannot be read."""
    words = ["line", "large.c"]
    folder = os.open(checks.folder, os.O_RDONLY)
    try:
        checks.expect(
            words, "with a folder as its input", checks.run(words, stdin=folder), (1, READ)
        )
    finally:
        os.close(folder)
    ended = checks.run(words, stdin=subprocess.DEVNULL, before=lambda: os.close(0))
    checks.expect(words, "with closed standard input", ended, (1, READ))


def no_complaints(checks):
    """Standard error that is full or closed."""
    cases = [
        (["find", "1", "f", "none.c"], 1),
        (["find", "6", "f", "large.c"], 2),
        (["search"], 2),
        (["--help"], 0),
        (["find", "1", "f", "large.c"], 0),
    ]
    for words, status in cases:
        with open("/dev/full", "wb") as device:
            ended = checks.run(words, stderr=device)
        checks.expect(words, "with full standard error", ended, (status, None))
        ended = checks.run(words, stderr=subprocess.DEVNULL, before=lambda: os.close(2))
        checks.expect(words, "with closed standard error", ended, (status, None))


def main() -> int:
    program = words_given(options(__doc__)).cbrowse
    failed = 0
    with tempfile.TemporaryDirectory() as folder:
        for device in (full, closed, reader_goes, bounded, full_disk, no_input, no_complaints):
            checks = Checks(program, folder)
            passed_over = device(checks)
            title = device.__doc__.rstrip(".").split("\n")[0]
            told = passed_over or f"{checks.runs} runs, {checks.failed} failed"
            print(f"{title}: {told}", flush=True)
            failed += checks.failed
    return 1 if failed else 0


if __name__ == "__main__":
    sys.exit(main())
