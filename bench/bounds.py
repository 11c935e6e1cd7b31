#!/usr/bin/env python3
"""What bounds the times: instructions, misses of the cache, wrong guesses of branches, pages.

    bench/corpus.sh FOLDER && make && bench/bounds.py FOLDER/files
    bench/bounds.py --cbrowse PATH --part rows --part scan FOLDER

It takes the C sources of the folder, at most 4,096 of them. Each piece of work is done with all of
them, by the clock of the processor, the least of three, and once more with large pages, which glibc
asks for where its tunable `malloc.hugetlb` says so. It is also done with every eighth file under
`valgrind --tool=cachegrind`, which counts. Where the work is only a part of a run, a shorter run of
the same kind is taken away from it.

A row is for one unit of the work: a byte that is scanned, a row that is written, and so on. It
tells the nanoseconds, those with large pages, and the pages of memory that Linux makes; then the
instructions, the reads and writes that miss the first cache, and the branches that cachegrind takes
the processor to guess wrong. Its cache fetches nothing ahead, and its table of branches is small,
so a real processor misses and errs less. What large pages gain is what the processor waits for
addresses of memory to be looked up.

Memory is what a session holds on the heap when it is ready, by the functions that took it, as
`valgrind --tool=massif` has them: those that took one part in 200 or more of it.
`bench/ready.py` says what is resident.

It takes ten minutes. Counts do not depend on what else runs on the machine; times do.
"""

from __future__ import annotations

import collections
import os
import pathlib
import re
import resource
import subprocess
import tempfile
from typing import NamedTuple

from measure import MOST_FILES, c_files, installed, keep_to_one_core, options, words_given

PARTS = "scan", "start", "tags", "first", "rows", "find", "memory"
RUNS = 3
EVERY = 8  # of the files that are counted
OFTEN = 15  # answers beside one, which takes less than a start does by chance more or less
LARGE = {"GLIBC_TUNABLES": "glibc.malloc.hugetlb=1"}
PATIENCE = 1200
USED_NAMES = 50  # those that stand most often in the files
NAME = re.compile(rb"[A-Za-z_]\w+")
# What took memory in a report of massif: under the sum of all and the allocator, so two deep.
TOOK = re.compile(r"^  n\d+: (\d+) 0x[0-9A-F]+: ([^\s<]+?)(?:::<| )", re.MULTILINE)
COUNTS = {
    "instructions": r"I\s+refs:\s+([\d,]+)",
    "misses": r"D1\s+misses:\s+([\d,]+)",
    "wrong": r"Mispredicts:\s+([\d,]+)",
}


def timed(words, folder, fed, more=None):
    """The seconds of the processor, the pages made, and the lines written."""
    before = resource.getrusage(resource.RUSAGE_CHILDREN)
    said = subprocess.run(
        words,
        cwd=folder,
        input=fed,
        stdout=subprocess.PIPE,
        env={**os.environ, **(more or {})},
        check=True,
        timeout=PATIENCE,
    ).stdout
    after = resource.getrusage(resource.RUSAGE_CHILDREN)
    seconds = after.ru_utime - before.ru_utime + after.ru_stime - before.ru_stime
    return {"seconds": seconds, "pages": after.ru_minflt - before.ru_minflt, "said": said}


def counted(words, folder, fed):
    """What cachegrind counts, and the lines written."""
    with tempfile.NamedTemporaryFile() as log:
        simulated = ["valgrind", "--tool=cachegrind", "--branch-sim=yes", f"--log-file={log.name}"]
        said = subprocess.run(
            simulated + ["--cachegrind-out-file=/dev/null", "--"] + words,
            cwd=folder,
            input=fed,
            stdout=subprocess.PIPE,
            check=True,
            timeout=PATIENCE,
        ).stdout
        told = pathlib.Path(log.name).read_text()
    found = {"lines": said.count(b"\n")}
    for name, pattern in COUNTS.items():
        found[name] = int(re.search(pattern, told)[1].replace(",", ""))
    return found


class Work(NamedTuple):
    """The words of a run but for the files, and its input."""

    words: list
    fed: bytes = b""


class Bench:
    """The files, and the program that works on them."""

    def __init__(self, cbrowse, folder, sizes):
        self.cbrowse, self.folder = cbrowse, folder
        self.all, self.few = list(sizes), list(sizes)[::EVERY]
        self.sizes, self.most = sizes, most_used(folder, sizes)

    def words(self, work, names):
        return [self.cbrowse, *work.words, "--", *names]

    def time(self, work, more=None):
        runs = [
            timed(self.words(work, self.all), self.folder, work.fed, more) for _ in range(RUNS)
        ]
        lines = runs[0]["said"].count(b"\n")
        pages = min(run["pages"] for run in runs)
        return {"seconds": min(run["seconds"] for run in runs), "pages": pages, "lines": lines}

    def count(self, work):
        return counted(self.words(work, self.few), self.folder, work.fed)

    def put(self, label, work, without=None, times=0):
        """A row: the work, less that of another run, for each byte of the files, so many times
        over, or else for each line that is written more."""
        found = {}
        for name, how in (
            ("plain", self.time),
            ("large", lambda it: self.time(it, LARGE)),
            ("count", self.count),
        ):
            got = collections.Counter(how(work))
            if without:
                got.subtract(how(without))
            names = self.few if name == "count" else self.all
            size = sum(self.sizes[it] for it in names)
            got["units"] = times * size if times else got["lines"]
            found[name] = {key: value / got["units"] for key, value in got.items()}
        plain, large, count = found["plain"], found["large"], found["count"]
        told = f"{label:<36}{'byte' if times else 'line':<6}{plain['seconds'] * 1e9:>8.1f}"
        told += f"{large['seconds'] * 1e9:>8.1f}{plain['pages']:>10.5f}"
        told += f"{count['instructions']:>10.1f}{count['misses']:>9.3f}{count['wrong']:>9.3f}"
        print(told, flush=True)


def scan(bench):
    for profile in [], ["--wide"]:
        once, thrice = (Work(["line", *profile], b"r\n" * n) for n in (1, 3))
        bench.put("scanned, " + ("wide" if profile else "standard"), thrice, once, 2)


def start(bench):
    for profile in [], ["--wide"]:
        label = "a session, ready, " + ("wide" if profile else "standard")
        bench.put(label, Work(["line", *profile]), None, 1)


def tags(bench):
    for form in "1", "2":
        work = Work(["tags", "--format", form, "-f", "-"])
        bench.put(f"a tags file, format {form}", work, None, 1)
    once, often = (Work(["line"], b":tags 2\n" * n) for n in (1, 1 + OFTEN))
    bench.put(":tags 2, the second time", often, once)


def first(bench):
    idle = Work(["line"])
    for label, field in ("uses", b"0"), ("callees", b"2"), ("callers", b"3"):
        name = most_answers(bench, field)
        bench.put(f"the first question, {label}", Work(["line"], field + name + b"\n"), idle, 1)


def most_answers(bench, field):
    """The one of the names used most that has most rows in this field."""
    asked = Work(["line"], b"".join(field + name + b"\n" for name in bench.most))
    said = timed(bench.words(asked, bench.all), bench.folder, asked.fed)["said"]
    counts = [int(it) for it in re.findall(rb"cscope: (\d+) lines", said)]
    return bench.most[counts.index(max(counts))]


def rows(bench):
    asked = b"".join(b"0" + name + b"\n" for name in bench.most)
    once, often = (Work(["line"], asked * n) for n in (1, 1 + OFTEN))
    bench.put("uses of the names used most", often, once)


def find(bench):
    for field, pattern in ("0", "main"), ("1", "main"), ("4", "zzqq"):
        bench.put(f"find {field}, the whole process", Work(["find", field, pattern]), None, 1)


def held(words, folder):
    """The bytes that a run holds on the heap at most, and the places that took them."""
    with tempfile.NamedTemporaryFile() as log:
        asked = ["valgrind", "--tool=massif", "--threshold=0.1", "--detailed-freq=1"]
        subprocess.run(
            asked + [f"--massif-out-file={log.name}", "--"] + words,
            cwd=folder,
            stdin=subprocess.DEVNULL,
            stdout=subprocess.DEVNULL,
            stderr=subprocess.DEVNULL,
            check=True,
            timeout=PATIENCE,
        )
        shots = pathlib.Path(log.name).read_text().split("snapshot=")[1:]
    size = re.compile(r"mem_heap_B=(\d+)")
    most = max(shots, key=lambda it: int(size.search(it)[1]))
    return int(size.search(most)[1]), [(int(n), name) for n, name in TOOK.findall(most)]


def memory(bench):
    heap, places = held(bench.words(Work(["line"]), bench.all), bench.folder)
    told = [(heap, "on the heap")]
    large = [place for place in places if place[0] * 200 > heap]
    told += [(took, "  " + name) for took, name in sorted(large, reverse=True)]
    for took, name in told:
        part = took / sum(bench.sizes.values())
        print(f"{name:<48}{took / 1e6:>8.1f} MB   {part:.3f} bytes a byte", flush=True)


def most_used(folder, names):
    """The names that stand most often in the files."""
    counts = collections.Counter()
    for name in names:
        counts.update(NAME.findall((folder / name).read_bytes()))
    return [name for name, _ in counts.most_common(USED_NAMES)]


def main():
    parser = options(__doc__)
    parser.add_argument("--part", action="append", choices=PARTS, help="measure this alone")
    parser.add_argument("folder", type=pathlib.Path, help="a folder with C files")
    given = words_given(parser)
    keep_to_one_core()
    if not installed("valgrind", "--version", "valgrind"):
        raise SystemExit(1)
    bench = Bench(given.cbrowse, given.folder, c_files(given.folder, most=MOST_FILES))
    print(f"{len(bench.all):,} files, {sum(bench.sizes.values()) / 1e6:.1f} MB")
    print(f"{'':<42}{'ns':>8}{'large':>8}{'pages':>10}{'instr.':>10}{'misses':>9}{'guesses':>9}")
    for part in given.part or PARTS:
        globals()[part](bench)


if __name__ == "__main__":
    main()
