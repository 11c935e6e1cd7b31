#!/usr/bin/env python3
"""Runs sessions of editors with the language server, and compares all that it writes.

    scripts/editor-sessions.py [PROGRAM]      bin/cbrowse, if none is named

`make test` runs it on the program that it built. The rows of editor-sessions.txt, which says at its
top how they are written, and some that are made here, have files, words, messages, and what
standard output, standard error and the status are. Each row is run with its input whole and in
pieces that the program reads one by one: of 1 byte and of 7 bytes, of a large input longer ones.
Then come a client that waits for each reply, and devices: input that ends and input that fails
after each byte of a short session, a bound on the size of the output at each byte, a full device,
and a client that goes away while a reply is written. The exit status is 1 where a check failed.
"""

from __future__ import annotations

import argparse
import contextlib
import json
import os
import pathlib
import re
import resource
import select
import subprocess
import sys
import tempfile
import tty
from typing import Iterator, NamedTuple, Optional

TOP = pathlib.Path(__file__).resolve().parent.parent
ROWS = pathlib.Path(__file__).resolve().with_suffix(".txt")
DATA = TOP / "crates" / "worked_cases" / "data"
PATIENCE = 60  # seconds until a run is given up
LARGE = 20_000  # an input of more bytes is cut into longer pieces
MOST_BODY = 16_000_000
# what follows the text of a row that ends with a status
LAST = {1: b"\n", 2: b"\n\nFor more information, try '--help'.\n"}

NOTES = (TOP / "docs" / "RELEASES.md").read_text()
VERSION = re.findall(r"^## (\S+)", NOTES, re.MULTILINE)[0]
WELCOME = (
    '{"capabilities":{"positionEncoding":"%s",'
    '"textDocumentSync":{"openClose":true,"change":2,"save":true},"hoverProvider":true,'
    '"completionProvider":{},'
    '"definitionProvider":true,"declarationProvider":true,"referencesProvider":true,'
    '"documentHighlightProvider":true,"documentSymbolProvider":true,'
    '"workspaceSymbolProvider":true,"renameProvider":%s,'
    '"callHierarchyProvider":true,"foldingRangeProvider":true},'
    '"serverInfo":{"name":"cbrowse","version":"%s"}}'
)
ASKS_FIRST = '{"prepareProvider":true}'  # told to a client that asks what would be renamed
WATCHES = '{"workspace":{"didChangeWatchedFiles":{"dynamicRegistration":true}}}'
# what a client with them is asked when it is ready
WATCH = (
    '{"jsonrpc":"2.0","id":"watch","method":"client/registerCapability","params":{"registrations":['
    '{"id":"files","method":"workspace/didChangeWatchedFiles",'
    '"registerOptions":{"watchers":[{"globPattern":"**/*.[ch]"}]}}]}}'
)
CAPABILITIES = {
    "plain": "{}",
    "watching": WATCHES,
    "tree": '{"textDocument":{"documentSymbol":{"hierarchicalDocumentSymbolSupport":true}}}',
    "bytes": '{"general":{"positionEncodings":["utf-8"]}}',
}


# ---- what is written


root = "/w"  # the folder that is the root of the row that is read


def frame(body: str | bytes) -> bytes:
    body = body.encode() if isinstance(body, str) else body
    body = body.replace(b"file:///w", b"file://" + root.encode())
    return b"Content-Length: %d\r\n\r\n%s" % (len(body), body)


def message(**members) -> bytes:
    return frame(json.dumps({"jsonrpc": "2.0", **members}, ensure_ascii=False))


def result(number: str, value: str) -> bytes:
    return frame('{"jsonrpc":"2.0","id":%s,"result":%s}' % (number, value))


def error(number: str, code: str, text: str) -> bytes:
    return frame(
        '{"jsonrpc":"2.0","id":%s,"error":{"code":%s,"message":"%s"}}' % (number, code, text)
    )


def told(method: str, kind: int, text: str) -> bytes:
    return frame(
        '{"jsonrpc":"2.0","method":"window/%s","params":{"type":%d,"message":"cbrowse: %s"}}'
        % (method, kind, text)
    )


def span(line: str, columns: str) -> str:
    start, _, end = columns.partition("-")
    return (
        '{"start":{"line":%s,"character":%s},"end":{"line":%s,"character":%s}}'
        % (line, start, line, end or start)
    )


def uri(name: str) -> str:
    """The URI of a file below the root."""
    return f"file:///w/{name}"


def location(place: str) -> str:
    """FILE:LINE:FROM-TO, of a file below the root."""
    name, line, columns = place.split(":")
    return '{"uri":"%s","range":%s}' % (uri(name), span(line, columns))


def symbol(words: str) -> str:
    """NAME=KIND@FILE:LINE:FROM-TO."""
    name, kind, place = re.fullmatch(r"(\w+)=(\d+)@(\S+)", words).groups()
    return '{"name":"%s","kind":%s,"location":%s}' % (name, kind, location(place))


def mark(place: str) -> str:
    """LINE:FROM-TO, marked, or LINE:FROM-TO=KIND."""
    place, _, kind = place.partition("=")
    return '{"range":%s%s}' % (span(*place.split(":")), kind and ',"kind":' + kind)


def completion(name: str) -> str:
    """NAME=KIND, or *NAME=KIND for a name of the function."""
    label, kind = name.removeprefix("*").split("=")
    rank = 0 if name.startswith("*") else 1
    return f'{{"label":"{label}","kind":{kind},"sortText":"{rank}{label}"}}'


def completions(names: list[str], more: bool = False) -> str:
    """Names that complete a word, and whether there are more."""
    items = map(completion, names)
    return '{"isIncomplete":%s,"items":[%s]}' % ("true" if more else "false", ",".join(items))


# ---- rows


class Row(NamedTuple):
    """A session: its words and files, each message with what is written before the next one is
    read, and its end."""

    name: str
    words: list[str]
    files: dict[str, bytes]
    turns: list[tuple[bytes, bytes]]
    status: int = 0
    said: bytes = b""
    disk: dict[pathlib.Path, Optional[bytes]] = {}  # files, and folders without a text
    links: dict[pathlib.Path, tuple[str, str]] = {}  # `link` or `hard`, and what they lead to
    writes: dict[int, dict[pathlib.Path, bytes]] = {}  # those that change before a message
    shut: tuple[pathlib.Path, ...] = ()  # those that may not be read

    @property
    def given(self) -> bytes:
        return b"".join(sent for sent, _ in self.turns)

    @property
    def out(self) -> bytes:
        return b"".join(written for _, written in self.turns)


def slug(name: str) -> str:
    return re.sub(r"\W", "-", name)


def plain(text: str) -> bytes:
    """The bytes of a text with escapes."""
    short = {"n": b"\n", "r": b"\r", "t": b"\t", "\\": b"\\"}
    out, place = b"", 0
    for found in re.finditer(r"\\(?:x([0-9a-f]{2})|([nrt\\]))", text):
        out += text[place : found.start()].encode()
        out += bytes([int(found[1], 16)]) if found[1] else short[found[2]]
        place = found.end()
    return out + text[place:].encode()


def repeated(line: str) -> str:
    return re.sub(r"\((\d+) of ([^()]+)\)", lambda it: it[2] * int(it[1]), line)


def welcome(encoding: str, renaming: str = "true") -> str:
    return WELCOME % (encoding, renaming, VERSION)


def initialize(capabilities: str) -> tuple[bytes, bytes]:
    sent = '{"jsonrpc":"2.0","id":0,"method":"initialize","params":%s}' % (
        '{"rootUri":"file:///w","capabilities":%s}' % CAPABILITIES[capabilities]
    )
    encoding = "utf-8" if capabilities == "bytes" else "utf-16"
    return frame(sent), result("0", welcome(encoding))


INITIALIZED = (message(method="initialized", params={}), b"")
ENDING = [
    (message(id=99, method="shutdown"), result("99", "null")),
    (message(method="exit"), b""),
]


def document(method: str, name: str, **more) -> bytes:
    params = {"textDocument": {"uri": uri(name), **more.pop("inside", {})}, **more}
    return message(method=f"textDocument/{method}", params=params)


def asked(number: str, method: str, name: str, *place: str, **more: dict) -> bytes:
    """A request about a document, at a line and a column where these are given."""
    params: dict = {"textDocument": {"uri": uri(name)}, **more}
    if place:
        params["position"] = {"line": int(place[0]), "character": int(place[1])}
    return message(id=int(number), method=f"textDocument/{method}", params=params)


def uses_asked(number: str, declarations: str, *place: str) -> bytes:
    """A request for the uses of a name, `with` the names of definitions or `without`."""
    context = {"includeDeclaration": declarations == "with"}
    return asked(number, "references", *place, context=context)


def rename_asked(number: str, new: str, *place: str) -> bytes:
    return asked(number, "rename", *place, newName=new)


def edits(new: str, places: list[str]) -> str:
    """A new name at NAME:LINE:FROM-TO .., by file."""
    changes: dict[str, list[str]] = {}
    for place in places:
        name, line, columns = place.split(":")
        edit = '{"range":%s,"newText":"%s"}' % (span(line, columns), new)
        changes.setdefault(uri(name), []).append(edit)
    made = ['"%s":[%s]' % (file, ",".join(some)) for file, some in changes.items()]
    return '{"changes":{%s}}' % ",".join(made)


def events(kind: int, names: list[str]) -> bytes:
    """File events of a kind."""
    changes = [{"uri": uri(it), "type": kind} for it in names]
    return message(method="workspace/didChangeWatchedFiles", params={"changes": changes})


def change(text: str) -> dict:
    """A change of a document, in a range or as a whole."""
    found = re.match(r"(\d+):(\d+)-(\d+):(\d+)=", text)
    if found is None:
        return {"text": plain(text[1:]).decode()}
    places = [int(it) for it in found.groups()]
    ends = [{"line": places[i], "character": places[i + 1]} for i in (0, 2)]
    new = plain(text[found.end() :]).decode()
    return {"range": {"start": ends[0], "end": ends[1]}, "text": new}


def sent_by(word: str, rest: str) -> Optional[bytes]:
    """The message of a line of a client."""
    first, _, after = rest.partition(" ")
    makes = {
        ">": lambda: frame(rest),
        ">>": lambda: frame(plain(rest)),
        "bytes": lambda: plain(rest),
        "open": lambda: document(
            "didOpen",
            first,
            inside={"languageId": "c", "version": 1, "text": plain(after).decode()},
        ),
        "change": lambda: document(
            "didChange",
            first,
            inside={"version": 2},
            contentChanges=[{"text": plain(after).decode()}],
        ),
        "parts": lambda: document(
            "didChange",
            first,
            inside={"version": 2},
            contentChanges=[change(it) for it in after.split(" | ")],
        ),
        "save": lambda: document("didSave", first),
        "close": lambda: document("didClose", first),
        "made": lambda: events(1, rest.split()),
        "written": lambda: events(2, rest.split()),
        "gone": lambda: events(3, rest.split()),
        "ask": lambda: asked(*rest.split()),
        "uses": lambda: uses_asked(*rest.split()),
        "rename": lambda: rename_asked(*rest.split()),
        "find": lambda: message(id=int(first), method="workspace/symbol", params={"query": after}),
        "shutdown": lambda: message(id=int(first), method="shutdown"),
        "exit": lambda: message(method="exit"),
    }
    return makes[word]() if word in makes else None


def written_by(word: str, rest: str) -> bytes:
    """What a line of the server writes."""
    if word == "<<":
        return frame(plain(rest))
    if word == "<":
        for macro, made in (
            ("(welcome)", welcome("utf-16")),
            ("(welcome in bytes)", welcome("utf-8")),
            ("(welcome that is asked first)", welcome("utf-8", ASKS_FIRST)),
            ("(watch)", WATCH),
        ):
            rest = rest.replace(macro, made)
        return frame(rest)
    first, _, after = rest.partition(" ")
    if word == "log":
        return told("logMessage", 1, rest)
    if word == "show":
        return told("showMessage", 2, rest)
    if word == "result":
        return result(first, after)
    if word == "places":
        return result(first, "[%s]" % ",".join(map(location, after.split())))
    if word == "marks":
        return result(first, "[%s]" % ",".join(map(mark, after.split())))
    if word == "edits":
        new, *places = after.split()
        return result(first, edits(new, places))
    if word == "symbols":
        return result(first, "[%s]" % ",".join(map(symbol, after.split())))
    if word == "names":
        return result(first, completions(after.split()))
    if word == "hover":
        place, _, text = after.partition(" ")
        line, columns = place.split(":")
        contents = '{"kind":"plaintext","value":"%s"}' % text
        return result(first, '{"contents":%s,"range":%s}' % (contents, span(line, columns)))
    if word == "error":
        return error(first, *after.split(" ", 1))
    raise SystemExit(f"{ROWS.name}: no line begins with {word}")


def row_of(lines: list[str], room: pathlib.Path = pathlib.Path("/w")) -> Row:
    """A row; the root of one that reads files again is a folder in a room."""
    global root
    name = lines[0].removeprefix("== ")
    reads = any(line == "here" or line.startswith(("disk ", "folder ")) for line in lines)
    root = str(room / slug(name)) if reads else "/w"
    words: list[str] = ["lsp"]
    files: dict[str, bytes] = {}
    turns = [initialize("plain"), INITIALIZED]
    ending, status, said = ENDING, 0, b""
    disk: dict[pathlib.Path, Optional[bytes]] = {}
    links: dict[pathlib.Path, tuple[str, str]] = {}
    writes: dict[int, dict[pathlib.Path, bytes]] = {}
    shut: tuple[pathlib.Path, ...] = ()
    for line in lines[1:]:
        word, _, rest = repeated(line).partition(" ")
        if word in ("", "#"):
            continue
        if word == "words":
            # a path in the root is one in the folder that is made for it
            words += [re.sub(r"^/w(?=/)", root, it) for it in rest.split()]
        elif word in ("file", "copy", "beside"):
            file, _, text = rest.partition(" ")
            is_copy = word == "copy"
            files[file] = (DATA / file.split("/")[-1]).read_bytes() if is_copy else plain(text)
            words += [file] * (word != "beside")
            if word == "beside":
                files[file] = re.sub(rb"(?m)^/w(?=/)", root.encode(), files[file])
        elif word == "here":
            disk |= {pathlib.Path(root, file): text for file, text in files.items()}
        elif word in ("disk", "folder"):
            file, _, text = rest.partition(" ")
            disk[pathlib.Path(root, file)] = plain(text) if word == "disk" else None
        elif word in ("link", "hard"):
            file, _, target = rest.partition(" ")
            links[pathlib.Path(root, file)] = (word, target)
        elif word == "write":
            file, _, text = rest.partition(" ")
            writes.setdefault(len(turns), {})[pathlib.Path(root, file)] = plain(text)
        elif word == "shut":
            shut += (pathlib.Path(root, rest),)
        elif word == "client":
            turns = [] if rest == "none" else [initialize(rest), INITIALIZED]
        elif word == "end":
            number, _, text = rest.partition(" ")
            ending, status = [], int(number)
            said = text.encode() + LAST[status] if text else b""
        else:
            sent = sent_by(word, rest)
            if sent is not None:
                turns.append((sent, b""))
            else:
                turns[-1] = (turns[-1][0], turns[-1][1] + written_by(word, rest))
    return Row(name, words, files, turns + ending, status, said, disk, links, writes, shut)


def rows(room: pathlib.Path) -> list[Row]:
    lines = ROWS.read_text().split("\n")
    starts = [i for i, line in enumerate(lines) if line.startswith("== ")]
    return [row_of(lines[a:b], room) for a, b in zip(starts, [*starts[1:], len(lines)])]


def outgoing_asked(line: int, called: list[int]) -> tuple[bytes, bytes]:
    """What `f` on this line of a.c calls: `G` of each line before, so many calls each."""
    places = [span(str(line), f"{13 + 4 * call}-{14 + 4 * call}") for call in range(300)]
    listed = [
        '{"to":{"name":"G","kind":14,"uri":"file:///w/a.c","range":%s,"selectionRange":%s},'
        '"fromRanges":[%s]}'
        % (span(str(at), "0-11"), span(str(at), "8-9"), ",".join(places[:calls]))
        for at, calls in enumerate(called)
    ]
    place = {"start": {"line": line, "character": 5}}
    item = {"name": "f", "uri": "file:///w/a.c", "selectionRange": place}
    sent = message(id=1, method="callHierarchy/outgoingCalls", params={"item": item})
    return sent, result("1", "[%s]" % ",".join(listed))


def made_rows() -> Iterator[Row]:
    """Rows with many symbols and with the largest bodies."""
    global root
    root = "/w"
    opening = [initialize("plain"), INITIALIZED]
    watching = [initialize("watching"), (INITIALIZED[0], frame(WATCH))]
    names = [f"m{number:04}" for number in range(1_005)]
    text = "".join(f"#define {name} 1\n" for name in names).encode()
    found = [symbol(f"{name}=14@many.h:{line}:8-13") for line, name in enumerate(names)]
    many = [
        (asked("1", "documentSymbol", "many.h"), result("1", "[%s]" % ",".join(found))),
    ]
    for number, query, chosen in (
        ("2", "", found[:1000]),
        ("3", "M", found[:1000]),
        ("4", "m1004", found[1004:]),
        ("5", "04", [it for name, it in zip(names, found) if "04" in name]),
    ):
        sent = message(id=int(number), method="workspace/symbol", params={"query": query})
        many.append((sent, result(number, "[%s]" % ",".join(chosen))))
    yield Row("over 1,000 symbols", ["lsp", "many.h"], {"many.h": text}, [*opening, *many, *ENDING])
    # 1,005 names begin with "m", and 1,000 with "m0"
    first = [f"{name}=21" for name in names[:1000]]
    completed = [
        (asked("1", "completion", "many.h", "0", "9"), result("1", completions(first, more=True))),
        (asked("2", "completion", "many.h", "0", "10"), result("2", completions(first))),
    ]
    yield Row(
        "over 1,000 names complete a word",
        ["lsp", "many.h"],
        {"many.h": text},
        [*opening, *completed, *ENDING],
    )
    # "m" is the name of two, and 1,005 others hold it
    exact = [symbol(f"m=14@{file}:0:8-9") for file in ("a.h", "b.h")]
    sent = message(id=1, method="workspace/symbol", params={"query": "m"})
    reply = result("1", "[%s]" % ",".join(exact + found[:998]))
    files = {name: b"#define m 1\n" for name in ("a.h", "b.h")}
    yield Row(
        "symbols by a name that over 1,000 others hold",
        ["lsp", "b.h", "many.h", "a.h"],
        {"many.h": text, **files},
        [*opening, (sent, reply), *ENDING],
    )
    # of 1,001 definitions 1,000 are listed, and of 400 times 300 calls 100,000
    for title, definitions, calls, told_calls in (
        ("over 1,000 outgoing calls", 1_001, 1, [1] * 1_000),
        ("over 100,000 places of outgoing calls", 400, 300, [300] * 333 + [100]),
    ):
        yield Row(
            title,
            ["lsp", "a.c"],
            {"a.c": b"#define G 1\n" * definitions + b"void f(void){%s}\n" % (b"G();" * calls)},
            [*watching, outgoing_asked(definitions, told_calls), *ENDING],
        )
    last = b'{"jsonrpc":"2.0","id":1,"method":"textDocument/formatting"}'
    bodies = [
        (last.rjust(MOST_BODY), error("1", "-32601", "unknown method")),
        (last.rjust(MOST_BODY + 1), told("logMessage", 1, "too large")),
        (last, error("1", "-32601", "unknown method")),
    ]
    yield Row(
        "the largest body, and one byte more",
        ["lsp"],
        {},
        [*opening, *((frame(body), written) for body, written in bodies), *ENDING],
    )


# a short session over m.c, for devices
SHORT = """\
== devices
copy m.c
open m.c /* \u00e9 */ int one(void) {\\n}\\n
ask 1 documentSymbol m.c
symbols 1 one=12@m.c:0:12-15
change m.c int two(void) {\\n
ask 2 hover m.c 0 5
hover 2 0:4-7 m.c:1\\nint two(void) {
> {
log not JSON
show m.c: out of date, a message was dropped: close the file and open it again
close m.c
"""


# ---- runs


@contextlib.contextmanager
def bounded(size: int) -> Iterator[None]:
    """Files of programs that are started here may have at most this size. As SIGXFSZ is ignored, a
    write beyond it fails."""
    soft, hard = resource.getrlimit(resource.RLIMIT_FSIZE)
    resource.setrlimit(resource.RLIMIT_FSIZE, (size, hard))
    try:
        yield
    finally:
        resource.setrlimit(resource.RLIMIT_FSIZE, (soft, hard))


def as_nobody() -> None:
    """Gives up the rights of root, who may read every file."""
    if os.geteuid() == 0:
        os.setuid(65534)


class Checks:
    """Runs in a folder of files; what failed."""

    def __init__(self, program: str, folder: pathlib.Path):
        self.program, self.folder, self.runs, self.failed = program, folder, 0, 0
        self.out = open(folder / "out", "w+b")
        self.error = open(folder / "error", "w+b")

    def expect(self, what: str, found: tuple, meant: tuple) -> None:
        if found == meant:
            return
        self.failed += 1
        shown = []
        for one, other in zip(found, meant):
            if one != other and isinstance(one, bytes):
                start = max(0, len(os.path.commonprefix([one, other])) - 100)
                one, other = one[start : start + 300], other[start : start + 300]
            shown += [f"{one!r} and not {other!r}"] * (one != other)
        print(f"FAILED: {what}: {'; '.join(shown)}", flush=True)

    def place(self, row: Row) -> pathlib.Path:
        """A folder with the files of a row."""
        folder = self.folder / slug(row.name)
        folder.mkdir(exist_ok=True)
        files = {folder / name: text for name, text in row.files.items()}
        for path, text in (files | row.disk).items():
            path.parent.mkdir(parents=True, exist_ok=True)
            if text is None:
                path.mkdir(exist_ok=True)
            else:
                path.write_bytes(text)
        for path, (kind, target) in row.links.items():
            path.unlink(missing_ok=True)
            (os.symlink if kind == "link" else os.link)(path.parent / target, path)
        for path in row.shut:
            path.chmod(0)
        return folder

    def start(self, row: Row, **how) -> subprocess.Popen:
        self.runs += 1
        folder = how.pop("folder")
        before = as_nobody if row.shut else None
        return subprocess.Popen([self.program, *row.words], cwd=folder, preexec_fn=before, **how)

    def run(self, row: Row, folder: pathlib.Path, given: bytes, piece: int = 0) -> tuple:
        """Status, standard output and standard error. With a size of pieces standard input is a
        pipe that keeps each write apart, so the program reads piece after piece."""
        for file in (self.out, self.error):
            file.seek(0)
            file.truncate()
        near, far = os.pipe2(os.O_CLOEXEC | (os.O_DIRECT if piece else 0))
        run = self.start(row, folder=folder, stdin=near, stdout=self.out, stderr=self.error)
        os.close(near)
        try:
            size = piece or max(1, len(given))
            for place in range(0, len(given), size):
                left = memoryview(given)[place : place + size]
                while left:
                    left = left[os.write(far, left) :]
        except BrokenPipeError:
            pass  # it ended before it read all
        os.close(far)
        status = run.wait(PATIENCE)
        self.out.seek(0)
        self.error.seek(0)
        return status, self.out.read(), self.error.read()

    def row(self, row: Row) -> None:
        folder = self.place(row)
        pieces = (1, 7) if len(row.given) <= LARGE else (509, 4093)
        for piece in (0, *pieces):
            status, out, said = self.run(row, folder, row.given, piece)
            what = f"{row.name}, in pieces of {piece}" if piece else row.name
            self.expect(what, (status, out, said), (row.status, row.out, row.said))

    def waits(self, row: Row) -> None:
        """A client that sends a message after it read what the ones before made."""
        pipes = {it: subprocess.PIPE for it in ("stdin", "stdout", "stderr")}
        run = self.start(row, folder=self.place(row), bufsize=0, **pipes)
        for number, (sent, written) in enumerate(row.turns):
            for path, text in row.writes.get(number, {}).items():
                path.write_bytes(text)
            run.stdin.write(sent)
            got = b""
            while len(got) < len(written):
                is_ready, _, _ = select.select([run.stdout], [], [], PATIENCE)
                more = run.stdout.read(len(written) - len(got)) if is_ready else b""
                if not more:
                    break
                got += more
            self.expect(f"{row.name}, message {number}", (got,), (written,))
        # it ends by itself, while the client still listens
        left, said = run.stdout.read(), run.stderr.read()
        self.expect("its end", (run.wait(PATIENCE), left, said), (row.status, b"", row.said))
        for file in (run.stdin, run.stdout, run.stderr):
            file.close()

    def ends(self, row: Row) -> None:
        """Input that ends after each byte."""
        folder, size, out = self.place(row), 0, b""
        for number, (sent, written) in enumerate(row.turns):
            for more in range(len(sent)):
                said = b"cbrowse: input ended\n" if more else b""
                # only after `shutdown` the end between two messages is a good one
                status = 1 if more or number < len(row.turns) - 1 else 0
                found = self.run(row, folder, row.given[: size + more])
                self.expect(f"input that ends after {size + more}", found, (status, out, said))
            size, out = size + len(sent), out + written

    def fails(self, row: Row) -> None:
        """Input that fails after each byte: the replies to whole messages."""
        folder, size, out = self.place(row), 0, b""
        for sent, written in row.turns:
            for more in range(len(sent)):
                near, far = os.openpty()
                tty.setraw(far)
                pipes = {"stdout": subprocess.PIPE, "stderr": subprocess.PIPE}
                run = self.start(row, folder=folder, stdin=near, **pipes)
                os.close(near)
                os.write(far, row.given[: size + more])
                os.close(far)
                found = run.communicate(timeout=PATIENCE)
                self.expect(
                    f"input that fails after {size + more}",
                    (run.returncode, *found),
                    (1, out, b"cbrowse: read fault\n"),
                )
            size, out = size + len(sent), out + written

    def bounds(self, row: Row) -> None:
        """A file that takes each number of bytes as standard output, and a full device."""
        folder, whole = self.place(row), row.out
        fault = b"cbrowse: write fault\n"
        for size in range(len(whole) + 1):
            with open(folder / "written", "wb") as file:
                pipes = {"stdin": subprocess.PIPE, "stdout": file, "stderr": subprocess.PIPE}
                with bounded(size):
                    run = self.start(row, folder=folder, restore_signals=False, **pipes)
                _, said = run.communicate(row.given, PATIENCE)
            found = run.returncode, (folder / "written").read_bytes(), said
            is_whole = size == len(whole)
            meant = (0, whole, b"") if is_whole else (1, whole[:size], fault)
            self.expect(f"an output that takes {size}", found, meant)
        with open("/dev/full", "wb") as file:
            pipes = {"stdin": subprocess.PIPE, "stdout": file, "stderr": subprocess.PIPE}
            run = self.start(row, folder=folder, **pipes)
            _, said = run.communicate(row.given, PATIENCE)
        self.expect("a full device", (run.returncode, said), (1, fault))

    def goes_away(self, row: Row) -> None:
        """A client that goes away before it reads, and one that does within a long reply."""
        folder = self.place(row)
        for much in (0, 5_000):
            pipes = {it: subprocess.PIPE for it in ("stdin", "stdout", "stderr")}
            run = self.start(row, folder=folder, **pipes)
            got = b""
            if not much:
                run.stdout.close()
            run.stdin.write(row.given)
            run.stdin.flush()
            if much:
                got = run.stdout.read(much)
                run.stdout.close()
            said = run.stderr.read()
            run.stdin.close()
            run.stderr.close()
            found = run.wait(PATIENCE), got, said
            meant = 1, row.out[:much], b"cbrowse: write fault\n"
            self.expect(f"a client that goes away after {much}", found, meant)


def main() -> int:
    parser = argparse.ArgumentParser(
        description=__doc__, formatter_class=argparse.RawDescriptionHelpFormatter
    )
    parser.add_argument(
        "program", nargs="?", default=str(TOP / "bin" / "cbrowse"), metavar="PROGRAM"
    )
    program = str(pathlib.Path(parser.parse_args().program).resolve())
    with tempfile.TemporaryDirectory() as room:
        os.chmod(room, 0o755)  # so that a run without the rights of root finds it
        checks = Checks(program, pathlib.Path(room))
        read = rows(pathlib.Path(room, "roots"))
        made = [*made_rows()]
        for row in [*read, *made]:
            check = checks.waits if row.writes else checks.row
            check(row)
        short = row_of(SHORT.split("\n"))
        checks.row(short)
        for check in (checks.waits, checks.ends, checks.fails, checks.bounds):
            check(short)
        checks.goes_away(made[0])
    print(f"sessions of editors: {checks.runs - checks.failed} passed, {checks.failed} failed")
    return 1 if checks.failed else 0


if __name__ == "__main__":
    sys.exit(main())
