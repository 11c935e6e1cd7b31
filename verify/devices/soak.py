#!/usr/bin/env python3
"""Feeds one session a million random commands, and compares it with fresh ones on the way.

    make && verify/devices/soak.py                   a million commands, about ten minutes
    verify/devices/soak.py --cbrowse PATH --commands 100000 --seed 7

The commands are of all kinds, drawn from the seed. Texts are small ones with definitions, uses and
calls, and now and then one of up to 1,000,000 bytes: ordinary code, or one of the shapes that are
hard for a scanner. A line of definitions has at most 20,000 bytes, since each tag shows its whole
line. Long runs of undo keep the past short, so the memory of the session stays bounded.

The reply to a change says whether it was accepted. After each ten thousand commands a fresh process
is given the changes that survive, and both are asked the same questions: tags, listing, marks, tag
stack, texts and names. At the first difference the seed and the question are shown and the exit
status is 1.

Then come command lines of 4,096 files, of which one is missing, a folder, unreadable or over the
limit: the program has to say so in one line, with status 1, and to leave the old tags file as it
was.

Printed at the end: commands a second, the longest past, how often each reply came, and the peak of
the memory.
"""

from __future__ import annotations

import collections
import os
import pathlib
import random
import subprocess
import sys
import tempfile
import time

sys.path.insert(0, str(pathlib.Path(__file__).resolve().parents[1]))
from shared import words_given, options  # noqa: E402

BATCH = 10_000  # commands between two comparisons
LONGEST_PAST = 1500
NAMES = [b"f%d.c" % n for n in range(40)] + [b"d/h%d.h" % n for n in range(10)]
WORDS = [b"alpha", b"beta", b"gamma", b"delta", b"main", b"next", b"x", b"count_of", b"list"]
SHAPES = [
    b"{",
    b"}",
    b"\n",
    b'"',
    b"\\",
    b"(",
    b"a(",
    b"#define a(\n",
    b"typedef a;",
    b"f(){}",
    b"/*",
    b"//\\\n",
    b"0.e+",
    b"a\n",
]
DEFINING = [b"typedef a;", b"f(){}"]  # one line of definitions: each tag shows the whole line
LONGEST_LINE = 20_000  # bytes of such a line, since its tags grow with its square
QUESTIONS = [
    b":tags",
    b":tags 2",
    b":listing",
    b":marks",
    b":stack",
    b"4alpha",
    b"4x",
    b"7d/",
    b"8a.h",
] + [digit + word for digit in (b"0", b"1", b"2", b"3") for word in WORDS[:5]]


class Session:
    """A session; its replies are read to their last line, and to the prompt."""

    def __init__(self, program):
        self.process = subprocess.Popen(
            [program, "line"], stdin=subprocess.PIPE, stdout=subprocess.PIPE
        )
        self.prompt()

    def prompt(self):
        if self.process.stdout.read(3) != b">> ":
            raise SystemExit("no prompt: the session ended")

    def ask(self, command):
        """The reply to a command that is no empty line: its lines."""
        self.process.stdin.write(command)
        self.process.stdin.flush()
        first = self.process.stdout.readline()
        lines = [first]
        if first.endswith(b" lines\n"):
            lines += [self.process.stdout.readline() for _ in range(int(first.split()[1]))]
        self.prompt()
        return lines

    def peak(self):
        """The most memory that it has had, in kB."""
        status = pathlib.Path(f"/proc/{self.process.pid}/status").read_text()
        return next(
            int(line.split()[1]) for line in status.splitlines() if line.startswith("VmHWM")
        )

    def end(self):
        self.process.stdin.close()
        self.process.stdout.read()
        return self.process.wait()


class Draw:
    """Draws commands; it knows which files there should be, so that most commands are accepted."""

    def __init__(self, seed):
        self.random = random.Random(seed)

    def text(self):
        """The bytes of a file."""
        kind = self.random.random()
        if kind < 0.0005:
            shape = self.random.choice(SHAPES)
            most = LONGEST_LINE if shape in DEFINING else 1_000_000
            return (shape * (most // len(shape)))[: self.random.randrange(most + 1)]
        size = 2000 if kind < 0.001 else self.random.choice([0, 1, 2, 5, 10, 30])
        return b"".join(self.function() for _ in range(size))

    def function(self):
        a, b, c = (self.random.choice(WORDS) for _ in range(3))
        return self.random.choice(
            [
                b"int %s(int %s) {\n\treturn %s(%s);\n}\n" % (a, b, c, b),
                b"#define %s(%s) %s(%s)\n" % (a, b, c, b),
                b"typedef struct %s { int %s; } %s;\n" % (a, b, c),
                b'#include "%s.h"\n' % a,
                b"\t/* %s\n %s */\n" % (a, b),
                b'%s(%s, "%s");\r\n' % (a, b, c),
            ]
        )

    def change(self, names):
        """A change."""
        some = (
            self.random.choice(sorted(names))
            if names and self.random.random() < 0.95
            else self.random.choice(NAMES)
        )
        other, word, number = (
            self.random.choice(NAMES),
            self.random.choice(WORDS),
            self.random.choice([1, 1, 2, 3, 17]),
        )
        text = self.text()
        return self.random.choices(
            [
                b":load %s %d\n%s" % (other, len(text), text),
                b":reload %s %d\n%s" % (some, len(text), text),
                b":drop %s\n" % some,
                b":rename %s %s\n" % (some, other),
                b"5%s\n" % word,
                b":mark %d\n" % number,
                b":markall\n",
                b":to %s\n" % self.random.choice(WORDS + [b""]),
                b":tag %s %d\n" % (word, number),
                b":pop\n",
            ],
            [20 if len(names) < 30 else 3, 6, 4, 4, 6, 10, 3, 4, 6, 3],
        )[0]

    def other(self):
        """A command that changes nothing."""
        return self.random.choices(
            [
                self.random.choice(QUESTIONS) + b"\n",
                b"r\n",
                b"6x\n",
                b"zzz\n",
                b":load q.c 1000001\n",
                b"4" + b"y" * 5000 + b"\n",
            ],
            [20, 0.05, 1, 1, 1, 0.5],
        )[0]


class Past:
    """The changes that survive and those that can be made again, each with the names after it."""

    def __init__(self):
        self.changes, self.done = [], 0

    def names(self):
        return self.changes[self.done - 1][1] if self.done else frozenset()

    def add(self, command):
        words = command.split(b"\n", 1)[0].split(b" ")
        names = set(self.names())
        if words[0] in (b":drop", b":rename"):
            names.discard(words[1])
        if words[0] == b":load":
            names.add(words[1])
        if words[0] == b":rename":
            names.add(words[2])
        self.changes[self.done :] = [(command, frozenset(names))]
        self.done += 1


def replayed(program, past):
    """A fresh session in which the changes that survive were made."""
    fresh = Session(program)
    for command, _ in past.changes[: past.done]:
        if fresh.ask(command)[0].startswith(b"cscope: refused"):
            raise SystemExit(f"refused when it is made again: {command[:200]!r}")
    return fresh


def soak(program, seed, commands):
    """A session of this many commands, compared with fresh ones."""
    draw, past, session = Draw(seed), Past(), Session(program)
    replies, longest, runs, begin = collections.Counter(), 0, 0, time.monotonic()
    for count in range(1, commands + 1):
        if runs == 0 and (past.done > LONGEST_PAST or draw.random.random() < 0.0005):
            runs = draw.random.randrange(past.done + 2)  # one more than there is to undo
        if runs:
            runs, command = runs - 1, b":undo\n"
        else:
            kind = draw.random.random()
            command = (
                b":undo\n"
                if kind < 0.1
                else b":redo\n"
                if kind < 0.16
                else draw.change(past.names())
                if kind < 0.6
                else draw.other()
            )
        reply = session.ask(command)
        accepted = not reply[0].startswith(b"cscope: refused")
        replies[reply[0] if not accepted or len(reply) == 1 else b"rows\n"] += 1
        if command == b":undo\n" or command == b":redo\n":
            step = -1 if command == b":undo\n" else 1
            if accepted != (0 <= past.done + step <= len(past.changes)):
                raise SystemExit(f"seed {seed}, command {count}: {command!r}: {reply!r}")
            past.done += step * accepted
        elif (
            accepted
            and command[:1] in b":5"
            and not command.startswith((b":tags", b":listing", b":marks", b":stack"))
        ):
            past.add(command)
        longest = max(longest, past.done)
        if count % BATCH == 0 or count == commands:
            fresh = replayed(program, past)
            for question in QUESTIONS:
                if session.ask(question + b"\n") != fresh.ask(question + b"\n"):
                    raise SystemExit(
                        f"seed {seed}, after {count} commands: another answer to {question!r}"
                        " than in a fresh session"
                    )
            fresh.end()
    seconds, peak = time.monotonic() - begin, session.peak()
    if session.end():
        raise SystemExit("the session failed at its end")
    print(
        f"{commands:,} commands, {commands / seconds:,.0f} a second with all comparisons,"
        f" longest past {longest:,}, peak {peak:,} kB"
    )
    for reply, number in replies.most_common():
        print(f"{number:>9,}  {reply.decode().strip()}")


def hostile_operands(program):
    """Command lines of as many files as there may be, of which one cannot be had."""
    with tempfile.TemporaryDirectory() as place:
        folder = pathlib.Path(place)
        folder.chmod(0o755)
        names = [f"{n}.c" for n in range(4096)]
        for name in names:
            (folder / name).write_bytes(b"int f(void) {\n}\n")
        tags = folder / "tags"
        tags.write_bytes(b"old\n")
        tags.chmod(0o666)
        odd = folder / "2048.c"
        nobody = {"user": 65534} if os.getuid() == 0 else {}
        for what, make in [
            ("missing", odd.unlink),
            ("a folder", lambda: odd.mkdir()),
            ("unreadable", lambda: (odd.rmdir(), odd.write_bytes(b""), odd.chmod(0))),
            ("over the limit", lambda: (odd.chmod(0o644), odd.write_bytes(b" " * 1_000_001))),
        ]:
            make()
            done = subprocess.run(
                [program, "tags", *names], cwd=folder, capture_output=True, **nobody
            )
            told = done.stderr.decode()
            if (
                done.returncode != 1
                or told.count("\n") != 1
                or "2048.c" not in told
                or tags.read_bytes() != b"old\n"
            ):
                raise SystemExit(
                    f"one of 4,096 files is {what}: status {done.returncode}, {told!r}"
                )
            print(f"one of 4,096 files is {what}: {told.strip()}")


def main() -> None:
    parser = options(__doc__)
    parser.add_argument("--commands", type=int, default=1_000_000)
    parser.add_argument("--seed", type=int, default=1)
    words = words_given(parser)
    soak(words.cbrowse, words.seed, words.commands)
    hostile_operands(words.cbrowse)


if __name__ == "__main__":
    main()
