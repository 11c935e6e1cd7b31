#!/usr/bin/env python3
"""Draws who calls whom, and compares each line of the picture with what `cbrowse find` says.

    make && verify/tools/graphs.py
    verify/tools/graphs.py --cbrowse PATH --names 20 FOLDER

Graphviz reads what `editors/cbrowse-graph` writes. For names of a small tree with recursion, macros
and names that are defined nowhere, and for some names of FOLDER, where one is given: the names are
those that so many calls lead to, each call is a row of field 2 or 3, and none is missing; the file
and the line are those of the first definition that looks like a function or a macro, or else of the
first one, and its box is that of the file; a call is red exactly where the picture has a way back.
With --standard all this is so by the standard profile. A picture that is cut says so. Without a
temporary folder, and where it is full, there is none, the status is 1 and a message says why: each
size of a small one is tried (as root alone, with `mount`).
"""

from __future__ import annotations

import json
import os
import pathlib
import re
import subprocess
import sys
import tempfile

sys.path.insert(0, str(pathlib.Path(__file__).resolve().parents[1]))
from shared import MOST_FILES, Place, Report, c_files, copy, left_over, small_disk  # noqa: E402
from shared import options, spread, words_given  # noqa: E402

TREE = {
    "a.c": "#define TWICE(x) (add(x) + add(x))\nint add(int n) {\n\treturn n;\n}\n"
    "int main(void) {\n\treturn TWICE(even(4)) + printf(0);\n}\n",
    "c.h": "struct calls {\n\tint (*even)(int), far;\n\tint (*printf)(const char *, ...);\n};\n",
    "sub/b.c": "int odd(int n) {\n\treturn n ? even(n - 1) : 0;\n}\n"
    "int even(int n) {\n\treturn n ? odd(n - 1) : self(1);\n}\n"
    "int self(int n) {\n\treturn n ? self(n - 1) : add(0);\n}\n",
    "sub/c.c": "static int add(int a, int b) {\n\treturn a + b;\n}\n",
    'sub/d\\".h': "int far(void) {\n\treturn main();\n}\n",
}
report = Report()
check = report.check


class Calls:
    """What `cbrowse find` says of a tree, by the wide profile or the standard one."""

    def __init__(self, place: Place, files: list[str], is_wide: bool = True):
        self.place, self.files, self.kept = place, files, {}
        self.profile = ["--wide"] if is_wide else []

    def rows(self, field: str, name: str) -> list[list[str]]:
        if (field, name) not in self.kept:
            words = [self.place.cbrowse, "find", *self.profile, field, name, "--", *self.files]
            done = subprocess.run(words, cwd=self.place.folder, capture_output=True, check=True)
            rows = done.stdout.decode("latin-1").split("\n")[:-1]
            self.kept[field, name] = [row.split(" ", 3) for row in rows]
        return self.kept[field, name]

    def of(self, way: str, name: str) -> list[tuple[str, str]]:
        """The calls that a name makes, or those of it: each a caller and a callee."""
        if way == "callees":
            return [(name, row[1]) for row in self.rows("2", name)]
        return [(row[1], name) for row in self.rows("3", name)]

    def around(self, name: str, ways: list[str], depth: int) -> tuple[set[str], set]:
        """The names and the calls of the picture."""
        names, calls = {name}, set()
        for way in ways:
            seen, front = {name}, [name]
            for _ in range(depth):
                found = [call for it in front for call in self.of(way, it)]
                calls.update(found)
                ends = [callee if way == "callees" else caller for caller, callee in found]
                front = [it for it in dict.fromkeys(ends) if it not in seen]
                seen.update(front)
            names |= seen
        return names, calls


def ways_back(calls: set[tuple[str, str]]) -> set[tuple[str, str]]:
    """The calls from whose callee calls lead to the caller."""
    after: dict[str, set[str]] = {}
    for caller, callee in calls:
        after.setdefault(caller, set()).add(callee)
    back = set()
    for caller, callee in calls:
        seen, front = {callee}, [callee]
        while front:
            front = [it for name in front for it in after.get(name, ()) if it not in seen]
            seen.update(front)
        if caller in seen:
            back.add((caller, callee))
    return back


def compare(place: Place, calls: Calls, name: str, ways: list[str], depth: int, *words: str):
    what, failures = " ".join([name, *ways, str(depth), *calls.profile]), report.failures
    options = [f"--{ways[0]}"] if len(ways) == 1 else []
    options += [] if calls.profile else ["--standard"]
    status, out, said = place.run("--nodes", 9999, "--depth", depth, *options, name, *words)
    drawn = subprocess.run(["dot", "-Tjson0"], input=out, capture_output=True)
    if status or drawn.returncode:
        check(what, False, (status, said, drawn.stderr))
        return
    picture = json.loads(drawn.stdout.decode("latin-1"))
    objects = picture.get("objects", [])
    nodes = {it["_gvid"]: it for it in objects if "nodes" not in it}
    boxes = [it for it in objects if it["name"].startswith("cluster")]
    names, expected = calls.around(name, ways, depth)
    report.same(f"{what}: names", names, {it["name"] for it in nodes.values()})
    edges = {
        (nodes[it["tail"]]["name"], nodes[it["head"]]["name"]): it.get("color") == "red"
        for it in picture.get("edges", [])
    }
    report.same(f"{what}: calls", expected, set(edges))
    red = {call for call, is_red in edges.items() if is_red}
    report.same(f"{what}: recursion", ways_back(expected), red)
    for number, node in nodes.items():
        rows = calls.rows("1", node["name"])
        box = [it["label"] for it in boxes if number in it.get("nodes", [])]
        if not rows:
            report.same(f"{what}: {node['name']}", ("dashed", []), (node.get("style"), box))
            continue
        form = rf"#|(.*\W)?{node['name']}[ \t]*(\(|$)"
        likely = [row for row in rows if re.match(form, row[3], re.A | re.S)]
        file, _, line, text = (likely or rows)[0]
        more = f" and {len(rows) - 1} more" if len(rows) > 1 else ""
        label = f"{node['name']}\\n{file}:{line}{more}"
        shape = "hexagon" if text.startswith("#") else "box"
        shown = node["label"].replace("\\\\", "\\")
        file_shown = [it.replace("\\\\", "\\") for it in box]
        found = (shown, file_shown, node.get("shape", "box"), node.get("style"))
        report.same(f"{what}: {node['name']}", (label, [file], shape, None), found)
    check(what, said == "" and report.failures == failures, said)


def cut(place: Place) -> None:
    status, out, said = place.run("--nodes", 2, "main", "tree")
    count = len(set(re.findall(rb'^ +"(\w+)" \[', out, re.M)))
    check("a picture that is cut", status == 0 and count == 2 and "cut off" in said, (said, out))
    for words, expected in (
        (["none_such", "tree"], 0),
        (["1x", "tree"], 2),
        ([], 2),
        (["main", "--depth", "x", "tree"], 2),
        (["main", "--depth"], 2),
        (["main", "--what", "tree"], 2),
        (["main", "nowhere"], 1),
        (["main"], 2),
        (["-j1", "--", "main", "tree"], 0),
        (["-R", "--standard", "--wide", "main", "tree"], 0),
        (["--help"], 0),
        (["--version"], 0),
        (["-V"], 0),
    ):
        status, out, said = place.run(*words)
        is_told = (said != "") == (expected != 0)
        check(f"status of {words}", status == expected and is_told, (status, said))
    full = place.run_by(["sh", "-c", 'exec sh "$0" main tree >/dev/full', place.script])
    told = "cbrowse-graph: standard output cannot be written\n"
    check("a picture that cannot be written", (full[0], full[2]) == (1, told), full)


def without_room(place: Place) -> None:
    """No temporary folder, and small ones."""
    status, out, said = place.run("main", "tree", TMPDIR="/nowhere")
    told = "cbrowse-graph: /nowhere: no temporary folder can be made\n"
    check("no temporary folder", (status, out, said) == (1, b"", told), (status, out, said))
    whole = place.run("main", "tree")[1]
    small = place.folder / "small"
    small.mkdir()
    failures = report.failures
    for blocks in range(1, 60):
        with small_disk(small, blocks * 4) as is_mounted:
            if not is_mounted:
                return
            status, out, said = place.run("main", "tree", TMPDIR=small)
            left = left_over(small)
        if status == 0:
            check(f"a temporary folder of {blocks * 4} kB is enough", (out, said) == (whole, ""))
            break
        last = "".join(said.splitlines()[-1:])
        if (status, out, left) != (1, b"", []) or not re.match("cbrowse-(tree|graph): ", last):
            check(f"a temporary folder of {blocks * 4} kB", False, (status, out, said, left))
    check("small temporary folders", report.failures == failures and blocks > 3, os.listdir(small))


def main() -> int:
    parser = options(__doc__)
    parser.add_argument("--names", type=int, default=12)
    parser.add_argument("folder", nargs="?", type=pathlib.Path)
    words = words_given(parser)
    with tempfile.TemporaryDirectory() as folder:
        place = Place(folder, words.cbrowse, "cbrowse-graph")
        for name, text in TREE.items():
            place.put(f"tree/{name}", text)
        files = sorted(f"tree/{name}" for name in TREE)
        names = ["main", "even", "self", "add", "TWICE", "printf", "far", "odd"]
        for calls in Calls(place, files), Calls(place, files, is_wide=False):
            for name in names:
                for ways in ["callees", "callers"], ["callees"], ["callers"]:
                    for depth in 1, 2, 4:
                        compare(place, calls, name, ways, depth, "tree")
        cut(place)
        without_room(place)
        if words.folder:
            files = spread(c_files(words.folder, form="[!-,.-~][!-~]*"), MOST_FILES)
            copy(words.folder, files, place.folder / "real")
            real = Calls(place, [f"real/{name}" for name in files])
            texts = [(words.folder / name).read_text("latin-1") for name in files]
            found = {it for text in texts for it in re.findall(r"^(\w{5,})[ \t]*\(", text, re.M)}
            for name in spread(found, words.names):
                if len(real.rows("3", name)) < 40:
                    compare(place, real, name, ["callees", "callers"], 1, "real")
    return report.status()


if __name__ == "__main__":
    sys.exit(main())
