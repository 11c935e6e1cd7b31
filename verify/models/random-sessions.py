#!/usr/bin/env python3
"""Compares random sessions with a model that is written from docs/ alone.

    make && verify/models/random-sessions.py
    verify/models/random-sessions.py --cbrowse PATH --sessions 1000 -j 2
    verify/models/random-sessions.py --first 4711 --sessions 1 --searches 0      one, by its seed

First come the worked sessions of crates/worked_cases and the runs of `worked_runs.py`, in which the
model and the program have to agree with what is worked out by hand. Then come sessions that reach
the limits, and then random ones: session number n has the seed n. Each has files of the command
line or none, and 5 to 40 inputs or short runs of inputs: all that there are, and wrong ones. Its
texts have comments, literals, joins, directives, old and new functions, CR LF, no last LF, CRs and
blanks within, and bytes that are no text; some are a mere heap of tokens. Its patterns are parts of
these texts, also across the end of a shown line, and names, callers and headers that are in them.
Each session is a process of its own. Standard output, standard error and the exit status are
compared with the model (`session_model.py`, `text_model.py`).

Then come random searches by `cbrowse find`, each with files of its own: the words are right, or
wrong in all ways that the documents name, several at once too. Search number n has the seed n.

At the first difference the seed, the input and both outputs are shown and the exit status is 1.
Else lines tell how often each kind of line was drawn and how often each reply came, so that one
sees what was reached.
"""

from __future__ import annotations

import collections
import concurrent.futures
import os
import pathlib
import re
import subprocess
import sys
import tempfile

from draw import NAMES, Draw
from session_model import FIELDS, MOST_CHANGES, Bounds, Outcome, Session, World, find
from text_model import cut_lines
from worked_runs import FOLDER, PROGRAM

sys.path.insert(0, str(pathlib.Path(__file__).resolve().parents[1]))
from shared import TOP, options, words_given  # noqa: E402

sys.path.insert(0, str(TOP / "scripts"))
from cases import PROMPT, all_cases  # noqa: E402

BATCH = 100  # sessions between two looks at the outcome
PATIENCE = 120  # seconds until a run is given up


class Difference(Exception):
    """The program wrote something else than was expected."""


def operands_of(draw):
    """Files of the command line, one in a while refused. They have to be files of a folder too."""
    if draw.random.random() < 0.7:
        return []
    names = draw.random.sample(NAMES, draw.random.choice([1, 2, 3]))
    if draw.random.random() < 0.05:
        names.append(draw.one(names[0], b"a.txt"))
    texts = {name: draw.file() for name in names}
    return [(name, texts[name]) for name in names]


def bounds_of(draw):
    """The standard bounds, or narrow ones."""
    if draw.random.random() < 0.9:
        return Bounds()
    return Bounds(draw.random.choice([1, 2, 3]), draw.random.choice([1, 20, 200, 2_000]))


def random_session(seed):
    """The operands, the input and the model of a session after it."""
    draw = Draw(seed)
    operands, model, data = operands_of(draw), Session(bounds_of(draw)), b""
    for name, text in operands:
        model.operand(name, text)
    left = draw.random.randint(5, 40)
    while left and model.ended is None:
        more = draw.input(model)
        model.feed(more)
        data += more
        left -= 1
    if model.ended is None and draw.random.random() < 0.2:
        last = draw.one(b":undo", b":marks", b"4a", b"0f", b"r", b"a\r", b":load y.c 0")
        model.feed(last)
        data += last
    model.finish()
    return operands, data, model


def limit_sessions():
    """Sessions at the limits: of the history, the files, the bytes of a file after a change."""
    rounds = b":mark 1\n" * (MOST_CHANGES - 2)
    yield [
        (b"a.c", b"a\n")
    ], b"5a\n" + rounds + b":mark 1\n:marks\n5a\n:undo\n:mark 1\n:undo\n:undo\n:marks\n"
    yield [], b"".join(
        b":load f%d.c 0\n" % n for n in range(Bounds().files + 1)
    ) + b":drop f7.c\n:load g.h 0\n:load h.h 0\n"
    many = b"a\n" * 200_000 + b"b" * 600_000
    yield [
        (b"a.c", many)
    ], b"5a\n:markall\n:to ccccc\n:to cc\n:marks\n4cc\n:undo\n:marks\n:mark 7\n:to\n4b\n"
    full = b"a" * (Bounds().file_bytes - 1)
    yield [
        (b"a.c", full),
        (b"b.c", b"a\n" * 9),
    ], b"5a\n:markall\n:to bb\n:to b\n5b\n:mark 1\n:mark 2\n:to\n4b\n:undo\n"
    yield [(b"a.c", b"a" + full), (b"b.c", b"")], b"5a\n:mark 1\n:to \n4\n:undo\n"
    calls = b"int f(void) {\n" + b" a(b(1)); a(2); c(3, x, x);\n" * 30_000 + b"}\n"
    yield [
        (b"a.c", calls),
        (b"b.c", b"x " * 40_000),
    ], b"2f\n3a\n3b\n0c\n0x\nr\n:drop a.c\n2f\n:undo\n3c\n2f\n"
    headers = b'#include <sys/a.h>\n#include "a.h"\n#define a(x) b(x)\n' * 15_000
    yield [(b"a.c", headers), (b"b.c", headers)], b"8a.h\n8sys/a.h\n1a\n3b\n2a\n7.c\nr\n"


def modelled(operands, data, bounds=Bounds()):
    model = Session(bounds)
    for name, text in operands:
        model.operand(name, text)
    model.feed(data)
    model.finish()
    return model


def random_search(seed):
    """The words after `find`, and the files of the folder."""
    draw = Draw(seed)
    names = draw.random.sample(NAMES, draw.random.choice([1, 1, 2, 3, 5]))
    files = {name: draw.file() for name in names}
    number = draw.random.choice(FIELDS)
    pattern = draw.pattern_of(number, World(files)).replace(b"\0", b"0") or b"f"
    if draw.random.random() < 0.05:
        number = draw.one(
            b"5", b"6", b"9", b"", b"10", b"01", b"x", b" 1", b"1 ", b"+1", b"\xc3\xa9"
        )
    if draw.random.random() < 0.05:
        pattern = b""
    if draw.random.random() < 0.05:
        names.insert(
            draw.random.randint(0, len(names)), draw.one(b"none.c", b"folder.c", b"", b"a/none.h")
        )
    if draw.random.random() < 0.05:
        names.insert(draw.random.randint(0, len(names)), draw.one(b"a.txt", b"a.C", names[0]))
        files[b"a.txt"] = files[b"a.C"] = b"int f;\n"
    if draw.random.random() < 0.02:
        files[draw.random.choice([*files])] = b"a" * (Bounds().file_bytes + 1)
    if draw.random.random() < 0.03:
        names = []
    words = draw.one(
        [number, pattern, *names],
        [b"--", number, pattern, *names],
        [number, b"--", pattern, *names],
        [number, pattern, b"--", *names],
    )
    if draw.random.random() < 0.1:
        end = draw.one(b"\n", b"\r\n")
        listed = names[draw.random.randint(0, len(names)) :]
        listed += draw.one([], [], [b""], [b"e\xcc\x81.c"])
        files[b"list"] = end.join(listed) + draw.one(b"", end, end, b"\r", b"\xff")
        name = draw.one(b"list", b"list", b"list", b"none", b"-", b"")
        words[:0] = draw.one([b"--files-from", name], [b"--files-from=" + name])
    elif draw.random.random() < 0.03:
        words.insert(
            draw.random.randint(0, len(words)), draw.one(b"-z", b"--all", b"-h", b"--help")
        )
    elif draw.random.random() < 0.1:
        option = draw.one(b"--max-files", b"--max-file-bytes")
        value = draw.one(b"0", b"1", b"2", b"200", b"+3", b"", b"x", b"1048576", b"1048577")
        words[:0] = draw.one([option, value], [option + b"=" + value])
    return words, files


def run(cbrowse, words, files, data):
    """Standard output, standard error and status in a folder of these files; no others are made."""
    with tempfile.TemporaryDirectory() as home:
        pathlib.Path(home, "folder.c").mkdir()
        for name, text in files.items():
            path = pathlib.Path(home, os.fsdecode(name))
            path.parent.mkdir(parents=True, exist_ok=True)
            path.write_bytes(text)
        words = [cbrowse, *map(os.fsdecode, words)]
        done = subprocess.run(words, cwd=home, input=data, capture_output=True, timeout=PATIENCE)
        there = sum(len(files) for _, _, files in os.walk(home))
    made = there - len(files)
    return done.stdout, done.stderr if not made else b"%d files were made" % made, done.returncode


def compare(cbrowse, what, operands, data, model):
    """Runs a session and compares it with the model's."""
    expected = Outcome(bytes(model.out), model.ended, 1 if model.ended else 0)
    words = [b"line", *model.present.bounds.words(), *(name for name, _ in operands)]
    compare_run(cbrowse, what, words, dict(operands), data, expected)


def compare_run(cbrowse, what, words, files, data, expected):
    """Runs the program and compares the outcome with the one that is expected."""
    found = Outcome(*run(cbrowse, words, files, data))
    if expected.error is None and found.error:
        expected = expected._replace(error=found.error)
    if found != expected:
        same = len(os.path.commonprefix([found.out, expected.out]))
        start = max(same - 300, 0)
        raise Difference(
            "\n".join(
                [
                    f"{what} differs",
                    *(f"file {name!r}: {text[:2000]!r}" for name, text in files.items()),
                    f"words: {words!r}",
                    f"input: {data[:20000]!r}",
                    f"expected, from byte {start} on: {expected.out[start:start + 2000]!r}"
                    f" {expected[1:]}",
                    f"found: {found.out[start:start + 2000]!r} {found[1:]}",
                    f"the first other byte is number {same}",
                ]
            )
        )


def outcomes(data, out):
    """How often each kind of line was drawn, blocks included, and each reply came; the prompts."""
    told = collections.Counter(
        re.findall(rb"^(?:>> )*cscope: (refused: .*|done)$", out, re.MULTILINE)
    )
    told[b"count and rows"] = len(re.findall(rb"^(?:>> )*cscope: [0-9]+ lines$", out, re.MULTILINE))
    inputs = collections.Counter(re.findall(rb"^(?::[a-z]+|[0-9]|r$)", data, re.MULTILINE))
    return inputs, told, out.count(b">> ")


def batch(cbrowse, first, number):
    """Some sessions by their seeds: what was met, or the first difference."""
    inputs, told, prompts = collections.Counter(), collections.Counter(), 0
    for seed in range(first, first + number):
        operands, data, model = random_session(seed)
        try:
            compare(cbrowse, f"the session of seed {seed}", operands, data, model)
        except Difference as difference:
            return str(difference), inputs, told, prompts
        more = outcomes(data, model.out)
        inputs, told, prompts = inputs + more[0], told + more[1], prompts + more[2]
    return None, inputs, told, prompts


def batch_of_searches(cbrowse, first, number):
    """Some searches by their seeds: what was met, or the first difference."""
    fields, told, rows = collections.Counter(), collections.Counter(), 0
    for seed in range(first, first + number):
        words, files = random_search(seed)
        expected = find(words, files)
        try:
            compare_run(
                cbrowse, f"the search of seed {seed}", [b"find", *words], files, b"", expected
            )
        except Difference as difference:
            return str(difference), fields, told, rows
        rows += len(cut_lines(expected.out))
        fields[next((word for word in words if word != b"--"), b"")] += expected.status == 0
        told[
            (expected.error or b"words").strip().split(b": ")[-1] if expected.status else b"done"
        ] += 1
    return None, fields, told, rows


def check_worked(cbrowse):
    worked = [case for case in all_cases() if not case.end]
    for what, operands, exchanges, _, given in worked:
        bounds = Bounds(*given)
        data = b"".join(exchange.command for exchange in exchanges)
        output = b"".join(PROMPT + exchange.reply for exchange in exchanges) + PROMPT
        model = modelled(operands, data, bounds)
        if bytes(model.out) != output:
            raise Difference(
                f"the model differs from the worked session '{what}':"
                f" {bytes(model.out)!r}, not {output!r}"
            )
        compare(
            cbrowse,
            f"the worked session '{what}'",
            operands,
            data,
            modelled(operands, data, bounds),
        )
    runs = [(words, Outcome(*outcome)) for words, outcome in PROGRAM]
    for words, expected in runs:
        if words[0] == b"find" and find(words[1:], FOLDER) != expected:
            raise Difference(
                f"the model differs from the worked run {words!r}: {find(words[1:], FOLDER)!r}"
            )
        compare_run(cbrowse, "the worked run", words, FOLDER, b"", expected)
    print(f"{len(worked)} worked sessions and {len(runs)} worked runs: no difference")


def check_limits(cbrowse):
    number = 0
    for operands, data in limit_sessions():
        number += 1
        compare(
            cbrowse,
            f"session {number} at the limits",
            operands,
            data,
            modelled(operands, data),
        )
    print(f"{number} sessions at the limits: no difference")


def check_random(what, some, given, number):
    """Random sessions or searches, some at a time."""
    inputs, told, size = collections.Counter(), collections.Counter(), 0
    last = given.first + number
    with concurrent.futures.ProcessPoolExecutor(given.workers) as pool:
        jobs = [
            pool.submit(some, given.cbrowse, first, min(BATCH, last - first))
            for first in range(given.first, last, BATCH)
        ]
        for job in jobs:
            difference, *more = job.result()
            if difference:
                pool.shutdown(cancel_futures=True)
                raise Difference(difference)
            inputs, told, size = inputs + more[0], told + more[1], size + more[2]
    print(
        f"{number} random {what} from seed {given.first} on,"
        f" with {size} prompts or rows: no difference"
    )
    for title, counts in ("begun with", inputs), ("answered with", told):
        print(
            f"{title}: "
            + ", ".join(
                f"{word.decode('latin-1')} {count}" for word, count in sorted(counts.items())
            )
        )


def main() -> None:
    parser = options(__doc__)
    parser.add_argument(
        "--sessions", type=int, default=20_000, help="how many random sessions, 20,000 by default"
    )
    parser.add_argument(
        "--searches", type=int, default=5_000, help="how many random searches, 5,000 by default"
    )
    parser.add_argument(
        "--first", type=int, default=1, help="the seed of the first ones, 1 by default"
    )
    parser.add_argument(
        "-j", dest="workers", type=int, default=2, help="how many at once, 2 by default"
    )
    given = words_given(parser)
    try:
        check_worked(given.cbrowse)
        check_limits(given.cbrowse)
        check_random("sessions", batch, given, given.sessions)
        check_random("searches", batch_of_searches, given, given.searches)
    except Difference as difference:
        raise SystemExit(str(difference))


if __name__ == "__main__":
    main()
