#!/usr/bin/env python3
"""Runs editors/cbrowse-lsp in folders with odd names, and looks at what the program is given.

    make && verify/tools/files-of-servers.py
    verify/tools/files-of-servers.py --cbrowse PATH

Git     files that git knows and new ones are listed, also those of a submodule; ignored and
        deleted ones and links are not. A folder in which git knows nothing is listed as it is
Foreign work trees whose settings name a command for each key that takes one: in their own settings,
        those of a work tree, included ones, those that a `.git` file leads to, and those of a
        submodule. None runs, where git by itself runs some. An index that names files outside the
        tree brings none of them in. Pipes that git would read hold it up for a while only
Odd     names with signs of a shell are listed. Names with a blank, a `$`, a backquote, a line feed,
        outside ASCII or too long, and files that are too large are left out, and told with how many
        they are
Bounds  --max-files and --max-file-bytes leave out more, and are handed on
Profile --wide is handed on by default and not with --standard, and of the two the last one counts;
        --prototypes is handed on with it
Root    is the folder without links in its path; --root names another one
Names   closed files are edited under one name alone: not if a hard link from elsewhere leads to
        one. By a link to the root they are edited below the folder that it leads to. Files that
        are written or behind a link while the server runs are found as they are then, and one that
        is gone as it was
Input   what the editor writes is what the program reads, to the byte
Ends    an editor that shuts the server down gets status 0, and one that goes away 1; wrong words
        get 2, no such folder or program 1. No temporary file is left
Many    4,096 files are listed in 0.3 s, of three times the fastest
"""

from __future__ import annotations

import hashlib
import json
import os
import pathlib
import shutil
import subprocess
import sys
import tempfile
import time

sys.path.insert(0, str(pathlib.Path(__file__).resolve().parents[1]))
from shared import Place, Report, left_over, options, words_given  # noqa: E402

SPY = """\
#!/bin/sh
printf '%s\\n' "$*"
while IFS= read -r name <&4; do printf '%s\\n' "$name"; done
cat
"""
SIGNS = ("-x.c", "*.c", "[a].c", "b\\c.c", "q'.c", 'q".h', "!.c", "(.c", ",.h", ".c")
# Settings that name a command, each with what takes its place before the path of the trap.
COMMANDS = {
    "core.alternateRefsCommand": "",
    "core.askPass": "",
    "core.editor": "",
    "core.fsmonitor": "",
    "core.gitProxy": "",
    "core.pager": "",
    "core.sshCommand": "",
    "alias.ls-files": "!",
    "pager.ls-files": "",
    "credential.helper": "!",
    "diff.external": "",
    "diff.trap.command": "",
    "diff.trap.textconv": "",
    "merge.trap.driver": "",
    "filter.trap.clean": "",
    "filter.trap.smudge": "",
    "filter.trap.process": "",
    "gpg.program": "",
    "gpg.ssh.defaultKeyCommand": "",
    "interactive.diffFilter": "",
    "sequence.editor": "",
    "submodule.module.update": "!",
    "trailer.trap.command": "",
    "uploadpack.packObjectsHook": "",
    "web.browser": "",
    "remote.first.url": "ext::",
    "remote.third.uploadpack": "",
}
SETTINGS = {
    "core.untrackedCache": "true",
    "protocol.allow": "always",
    "extensions.partialClone": "first",
    "remote.first.promisor": "true",
    "remote.second.promisor": "true",
    "remote.second.url": "ssh://127.0.0.1/way",
    "remote.third.promisor": "true",
    "remote.third.url": "/",
    "remote.fourth.promisor": "true",
    "remote.fourth.url": "git://127.0.0.1/way",
}
HOOKS = ("post-index-change", "post-checkout", "pre-auto-gc", "reference-transaction")
report = Report()
check = report.check


def git(folder: pathlib.Path, *words: str) -> None:
    settings = ("user.name=a", "user.email=a@b.c", "protocol.file.allow=always")
    given = [word for it in settings for word in ("-c", it)]
    subprocess.run(["git", *given, *words], cwd=folder, check=True, capture_output=True)


class Spied(Place):
    """Runs with a program that tells its words, its list and its input."""

    def listed(self, *words: object, **how) -> tuple[list[str], str, str]:
        """The names of the list, the words of the program, and standard error."""
        status, out, said = self.run(*words, CBROWSE=self.folder / "spy", **how)
        check(f"status of {words}", status == 0, said)
        first, *names = out.decode(errors="surrogateescape").splitlines()
        return names, first, said


def left(*counts: object) -> str:
    reasons = ", ".join(f"{counts[i]} {counts[i + 1]}" for i in range(0, len(counts), 2))
    return f"cbrowse-lsp: files left out: {reasons}\n"


def in_git(place: Spied) -> None:
    for name in "a.c", "sub/b.h", "gone.c", "ignored/i.c", "note.txt":
        place.put(f"git/{name}")
    place.put("git/.gitignore", "ignored\n")
    place.put("other/s.c")
    (place.folder / "git/link.c").symlink_to("a.c")
    for name in "other", "git":
        git(place.folder / name, "init")
        git(place.folder / name, "add", "--all")
        git(place.folder / name, "commit", "-m", "Files")
    git(place.folder / "git", "submodule", "add", "../other", "module")
    place.put("git/late.c")
    (place.folder / "git/gone.c").unlink()
    names, _, said = place.listed(below="git")
    check("git", (names, said) == (["a.c", "late.c", "module/s.c", "sub/b.h"], ""), (names, said))
    names, _, said = place.listed(below="git/sub")
    check("a folder of git", (names, said) == (["b.h"], ""), (names, said))
    names, _, said = place.listed(below="git/ignored")
    check("a folder that git ignores", (names, said) == (["i.c"], ""), (names, said))


def set_traps(place: Spied, root: pathlib.Path, form: str, is_sparse: bool = False) -> None:
    """A work tree of this form, whose settings name the trap.

    If it is sparse, its index needs an object that is missing.
    """
    place.put(f"{root}/a.c")
    place.put(f"{root}/late.c")
    place.put(f"{root}/away/b.c")
    place.put(f"{root}/.gitattributes", "*.c filter=trap diff=trap merge=trap\n")
    git(root, "init")
    git(root, "add", "a.c", "away", ".gitattributes")
    git(root, "commit", "-m", "Files")
    inner, settings = root / ".git", root / ".git/config"
    folder = inner
    if is_sparse:
        words = ["git", "rev-parse", "HEAD:away"]
        tree = subprocess.run(words, cwd=root, capture_output=True, check=True).stdout.decode()
        git(root, "sparse-checkout", "set", "--cone", "--sparse-index", "none")
        (inner / "objects" / tree[:2] / tree[2:].strip()).unlink()
    if form == "of a work tree":
        git(root, "config", "core.repositoryFormatVersion", "1")
        git(root, "config", "extensions.worktreeConfig", "true")
        settings = inner / "config.worktree"
    elif form == "included":
        settings = root / "included"
        git(root, "config", "include.path", "../included")
    elif form == "elsewhere":
        folder = root.parent / f"{root.name}.git"
        inner.rename(folder)
        inner.write_text(f"gitdir: ../{folder.name}\n")
        settings = folder / "config"
    elif form == "of a submodule":
        git(root, "submodule", "add", "../own", "module")
        folder = inner / "modules/module"
        settings = folder / "config"
    trap, hooks = place.folder / "trap", place.folder / "hooks"
    for key, before in COMMANDS.items():
        command = f"{before}{trap} {key}"
        subprocess.run(["git", "config", "--file", settings, key, command], check=True)
    for key, value in {**SETTINGS, "core.hooksPath": str(hooks)}.items():
        subprocess.run(["git", "config", "--file", settings, key, value], check=True)
    for there in hooks, folder / "hooks":
        there.mkdir(exist_ok=True)
        for hook in HOOKS:
            (there / hook).write_text(f"#!/bin/sh\nexec {trap} {hook}\n")
            (there / hook).chmod(0o755)


def foreign(place: Spied) -> None:
    """Work trees whose settings name commands."""
    ran = place.folder / "ran"
    place.put("trap", f"#!/bin/sh\nprintf '%s\\n' \"$1\" >>{ran}\nexit 1\n")
    (place.folder / "trap").chmod(0o755)
    trees = place.folder / "trees"
    forms = ["own", "of a work tree", "included", "elsewhere", "of a submodule"]

    def taken(root: pathlib.Path) -> tuple[list[str], set[str], set[str]]:
        """The names of the list, the traps that ran, and the programs that git started."""
        trace = place.folder / "trace"
        names, _, _ = place.listed("--root", root, GIT_TRACE2_EVENT=trace)
        events = [json.loads(line) for line in trace.read_text().splitlines()]
        started = {it["argv"][0] for it in events if it["event"] == "child_start"}
        found = set(ran.read_text().split()) if ran.exists() else set()
        ran.unlink(missing_ok=True)
        trace.unlink()
        return names, found, started - {"git"}

    def runs(root: pathlib.Path) -> set[str]:
        """The traps that run where git is asked without care."""
        for words in ["--cached", "--recurse-submodules"], ["--others", "--exclude-standard"]:
            subprocess.run(["git", "ls-files", *words], cwd=root, capture_output=True)
        found = set(ran.read_text().split()) if ran.exists() else set()
        ran.unlink(missing_ok=True)
        return found

    for form in forms:
        root = trees / form
        set_traps(place, root, form)
        names = ["a.c", "away/b.c", "late.c"]
        if form == "of a submodule":
            names += ["module/a.c", "module/away/b.c"]
        found = taken(root)
        check(f"settings: {form}", found == (names, set(), set()), found)
        by_itself = runs(root)
        check("git by itself runs some", "core.fsmonitor" in by_itself, by_itself)
    for form in forms[:-1]:
        root = trees / f"sparse {form}"
        set_traps(place, root, form, is_sparse=True)
        found = taken(root)
        check(f"an object is missing: {form}", found == (["a.c", "late.c"], set(), set()), found)
        by_itself = runs(root)
        wanted = {"remote.first.url", "core.sshCommand", "remote.third.uploadpack"}
        check("git by itself runs some", wanted & by_itself != set(), by_itself)
    place.put("bin/timeout", f'#!/bin/sh\nshift\nexec {shutil.which("timeout")} 1 "$@"\n')
    (place.folder / "bin/timeout").chmod(0o755)
    for name in ".gitignore", ".git/index", ".git/config":
        root = trees / f"pipe {name.strip('.').replace('/', ' ')}"
        place.put(f"{root}/a.c")
        git(root, "init")
        git(root, "add", "a.c")
        place.put(f"{root}/late.c")
        (root / name).unlink(missing_ok=True)
        os.mkfifo(root / name)
        path = f"{place.folder}/bin:{os.environ['PATH']}"
        names, _, said = place.listed("--root", root, PATH=path)
        check(f"a pipe {name}", (names, said) == (["a.c", "late.c"], ""), (names, said))
    outside = trees / "outside"
    for name in "a.c", "A1/x.c", "Betc/x.c":
        place.put(f"{outside}/{name}")
    git(outside, "init")
    git(outside, "add", "--all")
    index = (outside / ".git/index").read_bytes()[:-20]
    index = index.replace(b"A1/x.c", b"../x.c").replace(b"Betc/x.c", b"/etc/x.c")
    (outside / ".git/index").write_bytes(index + hashlib.sha1(index).digest())
    shutil.rmtree(outside / "A1")
    (outside / "Betc").rename(outside / "etc")
    place.put("trees/x.c")
    names, _, said = place.listed("--root", outside)
    expected = (["a.c", "etc/x.c"], left(2, "with a bad name"))
    check("an index with names outside the tree", (names, said) == expected, (names, said))


def odd_names(place: Spied) -> None:
    for name in SIGNS + ("a b.c", "\u00e9.c", "$(id).c", "`id`.c", "d/" + "n" * 252 + ".c"):
        place.put(f"odd/{name}")
    (place.folder / "odd/d.c").mkdir()
    (place.folder / "odd/large.c").write_bytes(b"\n" * 1_000_001)
    (place.folder / "odd/fits.c").write_bytes(b"\n" * 1_000_000)
    large = (1, "too large or not to be read")
    told = left(5, "with a bad name", *large)
    expected = sorted((*SIGNS, "fits.c"))
    for what in "without git", "with git":
        names, _, said = place.listed(below="odd")
        check(f"odd names, {what}", (names, said) == (expected, told), (names, said))
        git(place.folder / "odd", "init")
    place.put("odd/\1.c")
    place.put("odd/line\nfeed.c")
    place.put("odd/line\n/etc/fits.c")
    told = left(8, "with a bad name", *large)
    for what in "with git", "without git":
        names, _, said = place.listed(below="odd")
        check(f"line feeds in names, {what}", (names, said) == (expected, told), (names, said))
        shutil.rmtree(place.folder / "odd/.git", ignore_errors=True)


def bounds(place: Spied) -> None:
    for name in "a.c", "b.c", "c.c":
        place.put(f"bounds/{name}", "x" * (9 if name == "b.c" else 10))
    many = "over 2 (--max-files N takes more)"
    for words, files, told in [
        (("--max-files", 2), ["a.c", "b.c"], left(1, many)),
        (("--max-files=2",), ["a.c", "b.c"], left(1, many)),
        (("--max-file-bytes", 9), ["b.c"], left(2, "too large or not to be read")),
    ]:
        names, given, said = place.listed(*words, below="bounds")
        check(f"{words}", (names, said) == (files, told), (names, said))
        handed = "=".join(map(str, words))
        check(f"{words} handed on", f" {handed} " in given, given)


def profiles(place: Spied) -> None:
    place.put("profiles/a.c")
    for words, handed in [
        ((), ["--wide"]),
        (("--standard",), []),
        (("--standard", "--wide", "-R"), ["--wide"]),
        (("-R", "--wide", "--standard"), []),
        (("--prototypes",), ["--wide", "--prototypes"]),
        (("--prototypes", "--max-files", 2), ["--wide", "--prototypes", "--max-files=2"]),
        (("--max-files", 2, "--standard"), ["--max-files=2"]),
    ]:
        names, given, said = place.listed(*words, below="profiles")
        check(f"the list by {words}", (names, said) == (["a.c"], ""), (names, said))
        root = place.folder.resolve() / "profiles"
        expected = ["lsp", "--root", str(root), *handed, "--files-from", "/dev/fd/4"]
        check(f"what is handed on by {words}", given.split(" ") == expected, given)


def roots(place: Spied) -> None:
    folder = place.folder.resolve() / "root \u00e9"
    place.put("root \u00e9/a.c")
    (place.folder / "way").symlink_to(folder)
    names, given, _ = place.listed(below="way", PWD=place.folder / "way")
    check("a link to the root", f"--root {folder} " in given and names == ["a.c"], given)
    names, given, _ = place.listed("--root", place.folder / "way", CDPATH="/")
    check("--root", f"--root {folder} " in given and names == ["a.c"], given)


class Client:
    """Speaks to a server that serves a folder, as an editor that cannot be asked for events."""

    def __init__(self, place: Spied, *words: object):
        self.root = place.folder.resolve() / "names"
        how = {"stdin": subprocess.PIPE, "stdout": subprocess.PIPE, "env": place.settings()}
        words = "sh", place.script, *map(str, words)
        self.server = subprocess.Popen(words, cwd=self.root, **how)
        self.ask("initialize", rootUri=None)

    def ask(self, method: str, name: str = "", place: tuple[int, int] = (0, 4), **more) -> object:
        """A question about a place of a file: the result, or the text of the error."""
        if name:
            more["textDocument"] = {"uri": f"file://{self.root}/{name}"}
            more["position"] = dict(zip(("line", "character"), place))
        body = json.dumps({"id": 1, "method": method, "params": more}).encode()
        self.server.stdin.write(b"Content-Length: %d\r\n\r\n%s" % (len(body), body))
        self.server.stdin.flush()
        while True:
            length = int(self.server.stdout.readline().split(b":")[1])
            self.server.stdout.readline()
            reply = json.loads(self.server.stdout.read(length))
            if "id" in reply:
                return reply["result"] if "result" in reply else reply["error"]["message"]

    def definitions(self) -> list[tuple[str, int]]:
        """Name and line of each definition of what stands at 1:1 of b.c."""
        found = self.ask("textDocument/definition", "b.c", (1, 1)) or []
        there = [(it["uri"], it["range"]["start"]["line"]) for it in found]
        return [(uri.removeprefix(f"file://{self.root}/"), line) for uri, line in there]

    def renamed(self) -> object:
        """The files in which f of a.c is renamed, or why it is not."""
        told = self.ask("textDocument/rename", "a.c", newName="h")
        uris = [] if isinstance(told, str) else sorted(told["changes"])
        return told if isinstance(told, str) else [it.removeprefix("file://") for it in uris]

    def end(self) -> int:
        self.ask("shutdown")
        self.server.communicate()
        return self.server.returncode


def names(place: Spied) -> None:
    place.put("names/a.c")
    place.put("names/b.c", "int g(void) {\n\tf();\n}\n")
    root = place.folder.resolve() / "names"
    (place.folder / "name").symlink_to(root)
    os.link(root / "b.c", place.folder / "b.c")
    both = [f"{root}/a.c", f"{root}/b.c"]
    client = Client(place)
    check("a hard link from elsewhere", client.renamed() == "not open: b.c")
    (place.folder / "b.c").unlink()
    check("which is taken away", client.renamed() == both)
    check("the end", client.end() == 0)
    client = Client(place, "--root", place.folder / "name")
    check("a rename by a link to the root", client.renamed() == both)
    for line in 2, 0:
        place.put("names/a.c", "\n" * line + "int f(void) {\n}\n")
        found = client.definitions()
        check(f"a file has the function on line {line}", found == [("a.c", line)], found)
    place.put("moved/a.c", "\nint f(void) {\n}\n")
    (root / "a.c").unlink()
    (root / "a.c").symlink_to("../moved/a.c")
    found = client.definitions()
    check("a link has taken its place", found == [("a.c", 1)], found)
    (root / "a.c").unlink()
    found = client.definitions()
    check("it is gone, and keeps its text", found == [("a.c", 1)], found)
    check("the end", client.end() == 0)


def input_and_ends(place: Spied) -> None:
    place.put("ends/a.c")
    room = place.folder / "room"
    room.mkdir()
    names, _, _ = place.listed(below="ends", stdin="one\ntwo\n", TMPDIR=room)
    check("standard input", names == ["a.c", "one", "two"], names)

    def framed(*bodies):
        return "".join(f"Content-Length: {len(it)}\r\n\r\n{it}" for it in bodies)

    begin = '{"id":0,"method":"initialize","params":{}}'
    down, gone = '{"id":1,"method":"shutdown"}', '{"method":"exit"}'
    for bodies, expected in [((begin, down, gone), 0), ((begin, down), 0), ((begin, gone), 1)]:
        status, out, said = place.run(below="ends", stdin=framed(*bodies), TMPDIR=room)
        check(f"{len(bodies)} messages", (status, said) == (expected, ""), (status, said))
        check("a reply to the first", b'"definitionProvider":true' in out, out)
    neither = "cbrowse-lsp: --prototypes does not go with --standard\n"
    for words, expected, told in [
        (("--max-files",), 2, "cbrowse-lsp: --max-files needs a value\n"),
        (("--max-files", "x"), 2, "cbrowse-lsp: x: a number from 1 up is needed\n"),
        (("--tags",), 2, "cbrowse-lsp: --tags: no such option\n"),
        (("--standard", "--prototypes"), 2, neither),
        (("--prototypes", "--standard"), 2, neither),
        (("a.c",), 2, "cbrowse-lsp: a.c: no such option\n"),
        (("--root", "nowhere"), 1, "cbrowse-lsp: nowhere: no such folder\n"),
    ]:
        status, _, said = place.run(*words, below="ends", TMPDIR=room)
        check(f"wrong words {words}", (status, said) == (expected, told), (status, said))
    status, _, said = place.run(below="ends", CBROWSE="/nowhere/cbrowse")
    told = "cbrowse-lsp: /nowhere/cbrowse: no such program\n"
    check("no program", (status, said) == (1, told), (status, said))
    status, _, said = place.run(below="ends", TMPDIR="/nowhere")
    told = "cbrowse-lsp: /nowhere: no temporary file can be made\n"
    check("no temporary folder", (status, said) == (1, told), (status, said))
    found = place.writes("--root", "\033[2J")
    told = [b"cbrowse-lsp: \\x1b[2J: no such folder\n"]
    check("a message is one write, without control bytes", found == told, found)
    for word in "--version", "-V":
        status, out, said = place.run(word)
        check(word, status == 0 and out.startswith(b"cbrowse-lsp of cbrowse "), out)
    place.put("removed/a.c")
    gone = ["sh", "-c", 'cd removed && rm -r ../removed && exec sh "$0"', place.script]
    status, _, said = place.run_by(gone, TMPDIR=room)
    told = "cbrowse-lsp: the current folder was removed: start in another one\n"
    check("a current folder that was removed", status == 1 and said.endswith(told), said)
    status, out, said = place.run("--help")
    check("--help", status == 0 and out.startswith(b"cbrowse-lsp [OPTION..]\n"), out)
    check("temporary files", left_over(room) == [], os.listdir(room))


def many(place: Spied) -> None:
    for number in range(4097):
        (place.folder / f"many/{number // 100}").mkdir(parents=True, exist_ok=True)
        (place.folder / f"many/{number // 100}/source_{number}.c").write_text("int x;\n")
    git(place.folder / "many", "init")
    git(place.folder / "many", "add", "--all")
    taken = []
    for _ in range(3):
        began = time.monotonic()
        names, _, said = place.listed(below="many")
        taken.append(time.monotonic() - began)
    told = left(1, "over 4096 (--max-files N takes more)")
    check("4,097 files", (len(names), said) == (4096, told), (len(names), said))
    check(f"in {min(taken):.2f} s", min(taken) <= 0.3)


def main() -> int:
    cbrowse = words_given(options(__doc__)).cbrowse
    with tempfile.TemporaryDirectory() as folder:
        place = Spied(folder, cbrowse, "cbrowse-lsp")
        (place.folder / "spy").write_text(SPY)
        (place.folder / "spy").chmod(0o755)
        in_git(place)
        foreign(place)
        odd_names(place)
        bounds(place)
        profiles(place)
        roots(place)
        names(place)
        input_and_ends(place)
        many(place)
    return report.status()


if __name__ == "__main__":
    sys.exit(main())
