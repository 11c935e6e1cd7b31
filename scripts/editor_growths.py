"""A session of an editor with the language server, in which each growth of memory is refused.

A message whose growth is refused is told by a log, by an error as its reply, or by what is shown
for its document. After an error, and after a show of the URI of a file event, all goes on as if the
message had not been sent. After a log, and after a show of the URI of a document, it goes on as if
a body that is not JSON had been sent: the open documents are out of date. After a show of the
file's name it goes on as if the text had been too large, and of a document that was closed, as if
it had been saved before; one that was opened may not be open then either, and a file that was
deleted or written stays as it was. A show of a file's name before a reply says that the file was
not read again for it; the reply is as ever, since the file is as it was. So runs in which nothing
is refused give each outcome that may be. At the start the program says that memory was refused, and
ends.
"""

from __future__ import annotations

import json
import pathlib
import re
import subprocess
import tempfile
import urllib.parse
from typing import Iterable, NamedTuple, Optional

from growths import PATIENCE, Growths, Wrong

MOST = 10_000  # growths of one run
MOST_BYTES = 200_000  # of a file
FILES = {
    "a.c": b'#include "b.h"\nint f(void) {\n\treturn g(TWICE(1));\n}\n',
    "b.h": b"#define TWICE(x) ((x) + (x))\nstatic int g(int a) { return a; }\n",
    "c.h": b"#define TWICE(x) (2 * (x))\n",  # so that what a.c includes is asked for
}
ROOM = tempfile.TemporaryDirectory(prefix="a tree ")  # the root, where a file is read again
pathlib.Path(ROOM.name, "disk.h").write_bytes(b"#define D TWICE(5)\n" * 200)
for name in ("b.h", "c.h"):  # a rename finds them as they are here
    pathlib.Path(ROOM.name, name).write_bytes(FILES[name])
TOO_LARGE = " " * (MOST_BYTES + 1)
NOT_JSON = "{"
WORDS = ["lsp", "--max-file-bytes", str(MOST_BYTES), *FILES]
AT_START = [
    b"cbrowse: " + name + b"out of memory\n" for name in (b"", b"a.c: ", b"b.h: ", b"c.h: ")
]
# requests that name a position
OTHERS = "definition hover references documentHighlight prepareRename rename".split()
OTHERS += ["prepareCallHierarchy", "completion"]
HEAD = re.compile(rb"Content-Length: (\d+)\r\n\r\n")


class Step(NamedTuple):
    """A message, and messages after which the server is as after one whose text was refused."""

    message: dict
    refused: Optional[list[dict]] = None


def uri_of(name: str) -> str:
    return f"file://{urllib.parse.quote(ROOM.name)}/{name}"


def document(method: str, name: str, **more) -> dict:
    inside = {"uri": uri_of(name), **more.pop("inside", {})}
    return {"method": f"textDocument/{method}", "params": {"textDocument": inside, **more}}


def opened(name: str, text: str) -> Step:
    made = [document("didOpen", name, inside={"text": it}) for it in (text, TOO_LARGE)]
    return Step(made[0], made[1:])


def changed(name: str, text: str) -> Step:
    made = [document("didChange", name, contentChanges=[{"text": it}]) for it in (text, TOO_LARGE)]
    return Step(made[0], made[1:])


def parted(name: str, *parts: tuple[int, str]) -> Step:
    """Texts are put in place of letters of the first line, in turn."""
    changes = []
    for place, text in parts:
        start, end = ({"line": 0, "character": it} for it in (place, place + 1))
        changes.append({"range": {"start": start, "end": end}, "text": text})
    made = [
        document("didChange", name, contentChanges=it) for it in (changes, [{"text": TOO_LARGE}])
    ]
    return Step(made[0], made[1:])


def closed(name: str) -> Step:
    instead = [document(it, name) for it in ("didSave", "didClose")]
    return Step(instead[-1], instead)


def gone(name: str) -> Step:
    changes = [{"uri": uri_of(name), "type": 3}]
    return Step({"method": "workspace/didChangeWatchedFiles", "params": {"changes": changes}})


def written(name: str) -> Step:
    changes = [{"uri": uri_of(name), "type": 2}]
    return Step({"method": "workspace/didChangeWatchedFiles", "params": {"changes": changes}})


def asked(number: int, method: str, name: str, line: int, column: int) -> Step:
    place = {"line": line, "character": column} if method in OTHERS else None
    context = {"includeDeclaration": False}
    more = {"position": place, "context": context, "newName": "renamed"}
    return Step({"id": number, **document(method, name, **more)})


def session() -> list[Step]:
    """The steps of the session. One text has more bytes than there is room for at the start."""
    root = {"rootUri": uri_of("").rstrip("/"), "capabilities": {}}
    named = [asked(3, "definition", "a.c", 2, 9), asked(4, "hover", "a.c", 2, 13)]
    named.append(asked(10, "documentHighlight", "a.c", 2, 9))
    named.append(asked(13, "references", "a.c", 2, 9))
    twice = {"name": "TWICE", "uri": uri_of("new.c")}
    start = {"line": 0, "character": 4}
    caller = {"name": "h", "uri": uri_of("new.c"), "selectionRange": {"start": start}}
    named += [asked(14, "prepareRename", "a.c", 2, 9), asked(15, "rename", "a.c", 2, 9)]
    named += [asked(16, "rename", "a.c", 0, 5), asked(17, "completion", "a.c", 2, 10)]
    return [
        Step({"id": 0, "method": "initialize", "params": root}),
        Step({"method": "initialized", "params": {}}),
        opened("a.c", '#include "b.h"\nint \u00e9(void) {\n\treturn g(TWICE(2));\n}\n#define H\n'),
        asked(1, "documentSymbol", "a.c", 0, 0),
        opened("new.c", "int h(void) {\n\treturn TWICE(3);\n}\n"),
        asked(14, "prepareCallHierarchy", "new.c", 1, 9),
        Step({"id": 15, "method": "callHierarchy/incomingCalls", "params": {"item": twice}}),
        Step({"id": 17, "method": "callHierarchy/outgoingCalls", "params": {"item": caller}}),
        asked(18, "foldingRange", "new.c", 0, 0),
        changed("a.c", "int i(void) {\r\n}\n\treturn g(TWICE(4)); // \u0001\"\\\n" * 2),
        asked(2, "documentSymbol", "a.c", 0, 0),
        *named,
        asked(5, "definition", "new.c", 1, 9),
        Step({"id": "\u00e9\n", "method": "workspace/symbol", "params": {"query": "I"}}),
        changed("new.c", "int j(void) {\n}\n" + "// \t\n" * 15_000),
        asked(6, "documentSymbol", "new.c", 0, 0),
        changed("new.c", "int k(void) {\n}\n"),
        parted("new.c", (4, "kk"), (5, "\u00e9l")),
        asked(12, "documentSymbol", "new.c", 0, 0),
        Step(document("didSave", "new.c")),
        changed("new.c", "int l(void) {\n}\n"),
        asked(7, "documentSymbol", "new.c", 0, 0),
        changed("new.c", "int o(int p) {\n\tp = TWICE(p);\n\treturn p;\n}\n"),
        asked(19, "definition", "new.c", 1, 1),
        asked(20, "prepareRename", "new.c", 1, 1),
        asked(21, "rename", "new.c", 2, 8),
        asked(22, "completion", "new.c", 2, 9),
        closed("a.c"),
        asked(8, "documentSymbol", "a.c", 0, 0),
        closed("new.c"),
        asked(9, "documentSymbol", "new.c", 0, 0),
        gone("b.h"),
        written("disk.h"),
        asked(18, "documentSymbol", "disk.h", 0, 0),
        written("disk.h"),
        opened("a.c", "int m(void) {\n}\n"),
        opened("a.c", "int n(void) {\n}\n"),
        Step({"id": 10, "method": "workspace/symbol", "params": {"query": ""}}),
        Step({"id": 11, "method": "shutdown"}),
        Step({"method": "exit"}),
    ]


def frame(message: dict | str) -> bytes:
    """A message, or a body as it is."""
    body = message
    if not isinstance(message, str):
        members = {"jsonrpc": "2.0", **message}
        body = json.dumps(members, ensure_ascii=False, separators=(",", ":"))
    return b"Content-Length: %d\r\n\r\n%s" % (len(body.encode()), body.encode())


def told_by(method: str, kind: int, name: str, why: str = "out of memory") -> bytes:
    params = {"type": kind, "message": f"cbrowse: {name}{why}"}
    return frame({"method": f"window/{method}", "params": params})


def told_uri(message: dict) -> str:
    """The URI of the file that a notification is about; nothing of other messages."""
    params = message.get("params", {})
    about = params.get("textDocument") or params.get("changes", [{}])[0]
    return "" if "id" in message else about.get("uri", "")


def error_to(number) -> bytes:
    return frame({"id": number, "error": {"code": -32803, "message": "out of memory"}})


def is_whole(out: bytes) -> bool:
    """Whether this is whole frames of JSON."""
    place = 0
    while place < len(out):
        head = HEAD.match(out, place)
        if not head:
            return False
        place = head.end() + int(head[1])
        try:
            json.loads(out[head.end() : place].decode())
        except ValueError:
            return False
    return place == len(out)


class Editing:
    """The session, and the folder with its files."""

    def __init__(self, program: str, growths: Growths, folder: pathlib.Path):
        self.program, self.growths, self.folder = program, growths, folder
        self.steps = session()
        for name, text in FILES.items():
            (folder / name).write_bytes(text)

    def run(self, messages: Iterable[dict | str], refuse: int = 0) -> tuple[int, bytes, bytes]:
        pipes = {it: subprocess.PIPE for it in ("stdin", "stdout", "stderr")}
        words = [self.program, *WORDS]
        run = self.growths.start(words, refuse, cwd=self.folder, **pipes)
        out, said = run.communicate(b"".join(map(frame, messages)), PATIENCE)
        return run.returncode, out, said

    def after(self, number: int, instead: list[dict]) -> tuple[int, bytes]:
        """The status, and what is written after these messages in place of that step."""
        before = [it.message for it in self.steps[:number]] + instead
        status, whole, _ = self.run(before + [it.message for it in self.steps[number + 1 :]])
        return status, whole[len(self.run(before)[1]) :]

    def outcomes(self) -> dict[tuple[int, bytes], str]:
        """Each status and output that may be, and what was refused."""
        messages = [it.message for it in self.steps]
        status, whole, said = self.run(messages)
        if status or said or not is_whole(whole):
            raise Wrong(f"a session of an editor: status {status}, {said!r}")
        found = {(0, whole): "nothing"}
        for number, step in enumerate(self.steps):
            out = self.run(messages[:number])[1]
            uri = told_uri(step.message)
            name = uri.split("/")[-1]
            is_event = step.message["method"].endswith("didChangeWatchedFiles")
            # nothing was sent
            status, rest = self.after(number, [])
            tells = []
            if "id" in step.message:
                tells.append(error_to(step.message["id"]))
                for file in ("a.c", "b.h", "c.h", "disk.h", "new.c"):
                    tell = told_by("showMessage", 2, file + ": ")
                    found[0, out + tell + whole[len(out) :]] = f"{file} before reply {number}"
            if is_event:
                tells.append(told_by("showMessage", 2, uri + ": "))
            if is_event or step.message["method"].endswith("didOpen"):
                tells.append(told_by("showMessage", 2, name + ": "))
            for tell in tells:
                found[status, out + tell + rest] = f"message {number}"
            # a body was dropped
            status, dropped, _ = self.run([*messages[:number], NOT_JSON, *messages[number + 1 :]])
            log = told_by("logMessage", 1, "", "not JSON")
            if not dropped.startswith(out + log):
                raise Wrong(f"a session of an editor: a body is not dropped: {dropped!r}")
            rest = dropped[len(out + log) :]
            tells = [told_by("logMessage", 1, "")]
            if uri and not is_event:
                tells.append(told_by("showMessage", 2, uri + ": "))
            for tell in tells:
                found[status, out + tell + rest] = f"the body of message {number}"
            if step.refused:
                status, rest = self.after(number, step.refused)
                tell = told_by("showMessage", 2, name + ": ")
                found[status, out + tell + rest] = f"the text of message {number}"
        return found

    def each(self) -> int:
        """How many growths there were."""
        outcomes, messages = self.outcomes(), [it.message for it in self.steps]
        for number in range(1, MOST):
            status, out, said = self.run(messages, number)
            if not self.growths.refused:
                if outcomes.get((status, out)) != "nothing" or said:
                    raise Wrong(f"a session of an editor: another end without a refusal: {said!r}")
                return number - 1
            if status == 1 and not out and said in AT_START:
                continue
            if said or not is_whole(out) or (status, out) not in outcomes:
                raise Wrong(
                    f"a session of an editor: growth {number}: status {status}, {said!r}, {out!r}"
                )
        raise Wrong(f"a session of an editor: more than {MOST} growths")
