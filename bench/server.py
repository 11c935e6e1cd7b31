#!/usr/bin/env python3
"""What an editor waits for from the language server over thousands of real files; its memory.

    bench/corpus.sh FOLDER && make && bench/server.py FOLDER/files
    bench/server.py --cbrowse PATH --part ask --most-changes FOLDER

It takes the C sources of the folder, at most 4,096 of them, copies them, and starts `cbrowse lsp`
with all of them as words. One message at a time is written, and its reply is read; a message is
made before the clock runs. Told are the median, what 99 in 100 stay below, and the worst, by the
clock, and the mean of the processor time of the server, as Linux tells it. The first row is a
request of an unknown method, which is answered from nothing: its median is that of the pipes and of
a process that wakes up, and is taken away from the other medians. Server and editor share one core
where the system lets a process choose one. With --part only what is named is measured.

ready     From the start to the reply to `initialize`, and from the start to the first prompt of
          `cbrowse line` with the same files, in turn: by the clock the least and the median of
          five, and the least processor time of whole runs. Then the most that each has resident.
          The first `definition` puts definitions in order: its time, that of the same once more,
          and what is resident then.
ask       `definition`, `hover` and `documentHighlight` at a thousand names in the files that are
          defined somewhere, `completion` behind the second letter of each, and `definition` at a
          thousand headers, which looks at all files;
          `references` at these names, the first of them alone, too, and at the name
          that is used most; `rename` of a name with 10,000 uses in ten documents; incoming and
          outgoing calls of the functions and macros that these names mean, and of a function that
          1,000 functions of its file call, and of one that calls these; `documentSymbol` of files
          of nearly 1,000 lines; `workspace/symbol` by parts of names, and by texts that no name
          holds. The last two look at all names, unless 1,000 of them hold the text.
locals    `definition`, `hover`, `documentHighlight` and `rename` at up to a hundred variables of
          functions, in a document of 50 kB and in one of 1 MB, and how many are renamed.
change    `didChange` of a document of 50 kB and of one of 1 MB, each time another text: until a
          `documentSymbol` of a tiny document behind it is answered; and the same where one letter
          is sent, which changes at its place, also with a `definition` in the tiny document behind
          it, which puts definitions in order; and `foldingRange` of that document. Beside them the
          message with a whole text for a document that is not open, which is read and passed over.
          Then the most that is resident, beside what it was before.
memory    What is resident after 20 and after 2,000 changes of a document of 50 kB.
line      `documentSymbol` of a text of one line, `f(){}` again and again, and of one twice as long.
clangd    The same of clangd with twenty of the files, where it is installed. There is no
          `compile_commands.json`, so it knows the open documents and what they include, as far as
          it finds that. It is asked about one file after another, since it keeps few of them
          parsed, and answers behind a change once it has parsed the document anew.

With --most-changes a document of 1 kB is changed 65,537 times, one more than what a session of
`cbrowse line` can undo; the first and the last thousand changes are told, and nothing is refused.

Other work on the machine makes the times longer: run it twice, and on an idle machine.
"""

from __future__ import annotations

import collections
import json
import os
import pathlib
import random
import re
import shutil
import statistics
import subprocess
import tempfile
import time
import urllib.parse

from measure import MOST_BYTES, MOST_FILES, c_files, copy, installed, keep_to_one_core
from measure import options, processor_time, spread, words_given

RUNS = 5
USES = 10_000  # of a name that is renamed
CALLS = 1_000  # functions that call one, and that one calls
ASKED = 1000  # questions of each kind
SEARCHES = 200
MUCH_USED = 50  # names among which the most used one is
CHANGES = 200
VARIABLES = 100  # of a document that are asked about
LONG = 20  # documents of nearly 1,000 lines
FEW = 20  # files of clangd
FEW_ASKED = 200
FEW_CHANGES = 10
LINES = 1000
SIZES = {"50 kB": 50_000, "1 MB": 990_000}
MANY_CHANGES = 20, 2000
LONG_LINES = 12_500, 25_000  # bytes
MOST_CHANGES = 65_537
PARTS = "ready", "ask", "locals", "change", "memory", "line", "clangd"
TINY, TINY_TEXT = "tiny.c", "int tiny(void) {\n}\n"
BIG = "big.c"
NAME = re.compile(rb"[A-Za-z_]\w+")
VARIABLE = re.compile(r"^[ \t]+int (\w+)(?= =|;)", re.MULTILINE)
INCLUDE = re.compile(rb"^[ \t]*#[ \t]*include[ \t]*[\"<]([!-~]+)[\">]", re.MULTILINE)


# ---- messages


def frame(method, params, number=None):
    """A request with this number, or a notification without one."""
    message = {"jsonrpc": "2.0", "method": method, "params": params}
    if number is not None:
        message["id"] = number
    text = json.dumps(message).encode()
    return b"Content-Length: %d\r\n\r\n%s" % (len(text), text)


class Server:
    """A language server of the files of a folder."""

    def __init__(self, words, folder):
        self.folder = folder
        self.began = time.perf_counter()
        self.process = subprocess.Popen(
            words,
            cwd=folder,
            stdin=subprocess.PIPE,
            stdout=subprocess.PIPE,
            stderr=subprocess.DEVNULL,
            bufsize=0,
        )
        self.unread, self.shown = bytearray(), 0
        self.ask(frame("initialize", {"rootUri": self.uri(""), "capabilities": {}}, 0))
        self.ready = time.perf_counter() - self.began
        self.tell("initialized", {})

    def uri(self, name):
        return "file://" + urllib.parse.quote(str(self.folder / name).rstrip("/"))

    def document(self, name):
        return {"textDocument": {"uri": self.uri(name)}}

    def tell(self, method, params):
        self.process.stdin.write(frame(method, params))

    def read(self, size):
        """So many bytes, or those up to the end of a head."""
        while True:
            end = self.unread.find(b"\r\n\r\n") + 4 if size is None else size
            if end >= 4 and len(self.unread) >= end:
                got = bytes(self.unread[:end])
                del self.unread[:end]
                return got
            more = os.read(self.process.stdout.fileno(), 1 << 20)
            if not more:
                raise SystemExit("the server ended")
            self.unread += more

    def ask(self, messages):
        """The reply to messages of which one is a request, and the seconds until it is there."""
        begin = time.perf_counter()
        self.process.stdin.write(messages)
        while True:
            head = self.read(None).lower()
            body = self.read(int(head.split(b"content-length:")[1].split(b"\r\n")[0]))
            seconds = time.perf_counter() - begin
            self.shown += b'"window/showMessage"' in body
            if b'"method":' not in body[:60]:  # what it tells of itself is no reply
                return body, seconds

    def open(self, name, text):
        document = {"uri": self.uri(name), "languageId": "c", "version": 1, "text": text}
        self.tell("textDocument/didOpen", {"textDocument": document})

    def change(self, name, text, version=2, place=None):
        """The message that a document has another text, or another letter at a place."""
        document = {"uri": self.uri(name), "version": version}
        changes = [{"text": text}]
        if place is not None:
            start, end = ({"line": place[0], "character": place[1] + more} for more in (0, 1))
            changes[0]["range"] = {"start": start, "end": end}
        return frame(
            "textDocument/didChange", {"textDocument": document, "contentChanges": changes}
        )

    def symbols(self, name):
        return frame("textDocument/documentSymbol", self.document(name), 1)

    def resident(self, what="VmHWM"):
        """The most bytes that it had resident so far, as Linux tells it, or those now (VmRSS)."""
        status = pathlib.Path("/proc", str(self.process.pid), "status").read_text()
        return int(status.split(f"{what}:")[1].split()[0]) * 1024

    def processor(self):
        """The seconds of the processor that all its threads took, as Linux tells them."""
        threads = pathlib.Path("/proc", str(self.process.pid), "task").glob("*/schedstat")
        return sum(int(it.read_text().split()[0]) for it in threads) / 1e9

    def end(self):
        self.ask(frame("shutdown", None, 2))
        self.tell("exit", None)
        self.process.stdin.close()
        self.process.stdout.read()
        self.process.wait()
        if self.shown:
            raise SystemExit(f"{self.shown} documents were refused")


# ---- figures


def put(label, times, nothing=0.0, processor=None, more=""):
    """A line: the median without what nothing takes, 99 in 100, the worst."""
    times = sorted(times)
    told = f"{label:<34}{(statistics.median(times) - nothing) * 1000:>10.3f} ms"
    told += f"   99 in 100 below {times[len(times) * 99 // 100] * 1000:.3f}"
    told += f"   worst {times[-1] * 1000:.3f}"
    if processor is not None:
        told += f"   processor {processor / len(times) * 1000:.3f}"
    print(f"{told}   {more}".rstrip(), flush=True)


def put_all(label, server, messages, nothing=0.0):
    """A line for these messages, each asked in turn; their seconds."""
    before, sizes, times = server.processor(), [], []
    for message in messages:
        body, seconds = server.ask(message)
        sizes.append(len(body))
        times.append(seconds)
    spent = server.processor() - before
    put(label, times, nothing, spent, f"replies of {statistics.median(sizes):,.0f} bytes")
    return times


def put_nothing(server):
    """The median seconds of a request that is answered from nothing."""
    return statistics.median(put_all("nothing", server, [frame("none", {}, 1)] * ASKED, 0.0))


def put_resident(label, server, beside=None, what="before"):
    most, now = server.resident(), server.resident("VmRSS")
    more = f"   {(most - beside) / 1e6:+.1f} beside {what}" if beside else ""
    print(f"{label:<34}{most / 1e6:>10.1f} MB at most, {now / 1e6:.1f} now{more}", flush=True)
    return most


def check_taken(server, number):
    """Whether the document has the text of this number."""
    body, _ = server.ask(server.symbols(BIG))
    if f'"changed_{number}"'.encode() not in body:
        raise SystemExit(f"the last change was not taken: {body[-200:]!r}")


# ---- what is asked


def defined(cbrowse, folder, names):
    """The names that are defined in the files."""
    said = subprocess.run(
        [cbrowse, "tags", "--format", "2", "-f", "-", "--"] + names,
        cwd=folder,
        stdout=subprocess.PIPE,
        check=True,
    ).stdout
    return {line.split(b"\t")[0] for line in said.split(b"\n") if line[:1] not in (b"", b"!")}


def places(folder, names, there, count, dice):
    """Places of names that are defined: file, line and column, on lines of ASCII."""
    found = []
    while len(found) < count:
        name = dice.choice(names)
        lines = (folder / name).read_bytes().split(b"\n")
        line = dice.randrange(len(lines))
        words = [it for it in NAME.finditer(lines[line]) if it[0] in there]
        if words and lines[line].isascii():
            found.append((name, line, dice.choice(words).start()))
    return found


def headers(folder, names, count, dice):
    """Places of headers of includes: file, line and column."""
    found = []
    for name in names:
        text = (folder / name).read_bytes()
        for it in INCLUDE.finditer(text):
            line, at = text.count(b"\n", 0, it.start(1)), text.rfind(b"\n", 0, it.start(1))
            found.append((name, line, it.start(1) - at - 1))
    return dice.choices(found, k=count)


def at_places(server, method, found, **more):
    places = [(name, {"line": line, "character": column}) for name, line, column in found]
    return [
        frame(method, {**server.document(name), "position": place, **more}, 1)
        for name, place in places
    ]


def much_used(folder, names, there):
    """A place of each of the names that are defined and stand most often in the files."""
    counts, first = collections.Counter(), {}
    for name in names:
        text = (folder / name).read_bytes()
        for it in NAME.finditer(text):
            if it[0] in there:
                counts[it[0]] += 1
                first.setdefault(it[0], (name, it.start()))
    found = []
    for name, at in (first[word] for word, _ in counts.most_common(MUCH_USED)):
        before = (folder / name).read_bytes()[:at]
        found.append((name, before.count(b"\n"), len(before.split(b"\n")[-1])))
    return found


def put_references(server, folder, names, there, found, nothing):
    """Lines for uses in all files: the first question, at these places, and the name used most."""
    method, context = "textDocument/references", {"includeDeclaration": True}
    messages = at_places(server, method, found, context=context)
    put("references, the first question", [server.ask(messages[0])[1]], nothing)
    put_all("references", server, messages, nothing)
    messages = at_places(server, method, much_used(folder, names, there), context=context)
    most = max(messages, key=lambda it: len(server.ask(it)[0]))
    put_all("references, the most used name", server, [most] * RUNS, nothing)


def items(server, found):
    """The functions and macros that names mean at some places."""
    asked = at_places(server, "textDocument/prepareCallHierarchy", found)
    replies = [json.loads(server.ask(message)[0])["result"] or [] for message in asked]
    return [item for reply in replies for item in reply]


def put_calls(server, found, nothing):
    """Lines for calls: the first question, who calls and what is called, at these places."""
    calling = items(server, found)
    first = True
    for label in "incoming", "outgoing":
        method = f"callHierarchy/{label}Calls"
        messages = [frame(method, {"item": item}, 1) for item in calling]
        if first:
            put("incoming calls, the first question", [server.ask(messages[0])[1]], nothing)
            first = False
        put_all(f"{label} calls", server, messages, nothing)
        most = max(messages, key=lambda it: len(server.ask(it)[0]))
        put_all(f"{label} calls, the longest reply", server, [most] * RUNS, nothing)


def calls(cbrowse, folder):
    """Lines for a function that 1,000 functions of its file call, and for one that calls them."""
    server = Server([cbrowse, "lsp"], folder)
    many = "".join(f"int f{number}(void) {{ return called(); }}\n" for number in range(CALLS))
    calling = "".join(f"\tf{number}();\n" for number in range(CALLS))
    server.open("calls.c", f"int called(void) {{\n}}\n{many}int all(void) {{\n{calling}}}\n")
    for label, line, name in ("incoming", 0, "called"), ("outgoing", 2 + CALLS, "all"):
        start = {"line": line, "character": 4}
        span = {"start": start, "end": start}
        item = {"name": name, "uri": server.uri("calls.c"), "selectionRange": span}
        message = frame(f"callHierarchy/{label}Calls", {"item": item}, 1)
        reply = server.ask(message)[0]
        if reply.count(b'"fromRanges"') != CALLS:
            raise SystemExit(f"not all calls are told: {reply[:200]!r}")
        put_all(f"{label} calls, {CALLS:,} of them", server, [message] * RUNS)
    server.end()


def renames(cbrowse, folder):
    """Lines for a name with 10,000 uses in ten documents: whether it may be renamed, and how."""
    server = Server([cbrowse, "lsp"], folder)
    used = "int used(void) {\n" + "\tused();\n" * (USES // 10 - 1) + "}\n"
    for number in range(10):
        server.open(f"renamed_{number}.c", used)
    place = {"position": {"line": 0, "character": 4}, "newName": "renamed"}
    params = {**server.document("renamed_0.c"), **place}
    message = frame("textDocument/rename", params, 1)
    first, seconds = server.ask(message)
    if first.count(b'"newText":"renamed"') != USES:
        raise SystemExit(f"not all uses are renamed: {first[:200]!r}")
    put("rename, the first question", [seconds])
    put_all(f"rename, {USES:,} uses", server, [message] * RUNS)
    put_all("prepareRename", server, [frame("textDocument/prepareRename", params, 1)] * RUNS)
    server.end()


def of_lines(folder, names, count):
    """The files whose number of lines is nearest to 1,000."""
    lines = {name: (folder / name).read_bytes().count(b"\n") for name in names}
    return sorted(names, key=lambda name: abs(lines[name] - LINES))[:count]


def parts_of_names(there, count, dice):
    """Parts of names, each of three to eight letters."""
    found = []
    for name in dice.choices(sorted(it for it in there if len(it) >= 8), k=count):
        size = dice.randint(3, 8)
        at = dice.randrange(len(name) - size + 1)
        found.append(name[at : at + size].decode())
    return found


def text_of(folder, names, size, number=0):
    """A text of so many bytes of ASCII from the files, with a name of its own."""
    last = f"\n*/\n}}\n;int changed_{number}(void) {{\n}}\n"  # behind an end of what is open
    text, left = [], size - len(last)
    for name in names:
        content = (folder / name).read_bytes()
        if content.isascii() and left > 0:
            text.append(content[:left].decode())
            left -= len(text[-1])
    return "".join(text) + last


# ---- parts


def ready(cbrowse, names, folder):
    """The start beside that of a session, and the memory of both."""
    seen = {"lsp": [], "line": []}
    for _ in range(RUNS):
        server = Server([cbrowse, "lsp", "--"] + names, folder)
        seen["lsp"].append(server.ready)
        server.end()
        begin = time.perf_counter()
        session = subprocess.Popen(
            [cbrowse, "line", "--"] + names,
            cwd=folder,
            stdin=subprocess.PIPE,
            stdout=subprocess.PIPE,
        )
        session.stdout.read(3)
        seen["line"].append(time.perf_counter() - begin)
        status = pathlib.Path("/proc", str(session.pid), "status").read_text()
        session.communicate()
    stops = b"".join([frame("initialize", {}, 0), frame("shutdown", None, 1), frame("exit", None)])
    spent = {"lsp": [], "line": []}
    for _ in range(RUNS):
        for word, text in (("lsp", stops), ("line", b"")):
            spent[word].append(processor_time([cbrowse, word, "--"] + names, folder, text))
    for word in "lsp", "line":
        least, median = min(seen[word]), statistics.median(seen[word])
        print(
            f"{'ready, cbrowse ' + word:<34}{least * 1000:>10.1f} ms   median {median * 1000:.1f}"
            f"   processor {min(spent[word]) * 1000:.1f}"
        )
    print(
        f"{'times cbrowse line':<34}{min(seen['lsp']) / min(seen['line']):>10.3f}"
        f"      by the processor {min(spent['lsp']) / min(spent['line']):.3f}"
    )
    most = int(status.split("VmHWM:")[1].split()[0]) * 1024
    print(f"{'memory of cbrowse line':<34}{most / 1e6:>10.1f} MB")
    server = Server([cbrowse, "lsp", "--"] + names, folder)
    put_resident("memory of cbrowse lsp", server, most, "cbrowse line")
    (question,) = at_places(server, "textDocument/definition", [(names[0], 0, 0)])
    first, again = (server.ask(question)[1] for _ in range(2))
    print(f"{'first question':<34}{first * 1000:>10.1f} ms   once more {again * 1000:.3f} ms")
    put_resident("memory then", server, most, "cbrowse line")
    server.end()


def ask(cbrowse, names, folder, there, dice):
    """Questions."""
    server = Server([cbrowse, "lsp", "--"] + names, folder)
    found = places(folder, names, there, ASKED, dice)
    longest = of_lines(folder, names, LONG)
    server.ask(frame("workspace/symbol", {"query": "main"}, 1))  # puts definitions in order
    nothing = put_nothing(server)
    for label in "definition", "hover", "documentHighlight":
        put_all(label, server, at_places(server, f"textDocument/{label}", found), nothing)
    behind = [(name, line, column + 2) for name, line, column in found]
    messages = at_places(server, "textDocument/completion", behind)
    put_all("completion of two letters", server, messages, nothing)
    put_references(server, folder, names, there, found, nothing)
    put_calls(server, found, nothing)
    found = headers(folder, names, ASKED, dice)
    messages = at_places(server, "textDocument/definition", found)
    put_all("definition, a header", server, messages, nothing)
    asked = [server.symbols(name) for name in longest] * (ASKED // LONG)
    put_all("documentSymbol, 1,000 lines", server, asked, nothing)
    queries = parts_of_names(there, SEARCHES, dice)
    searches = [frame("workspace/symbol", {"query": query}, 1) for query in queries]
    put_all("workspace/symbol", server, searches, nothing)
    rare = [frame("workspace/symbol", {"query": f"zq{number}"}, 1) for number in range(SEARCHES)]
    put_all("workspace/symbol, not there", server, rare, nothing)
    server.end()


def variables(text, dice):
    """Where some lines declare a variable of a function."""
    found = [
        (BIG, text.count("\n", 0, it.start(1)), it.start(1) - text.rfind("\n", 0, it.start(1)) - 1)
        for it in VARIABLE.finditer(text)
    ]
    return dice.sample(found, min(len(found), VARIABLES))


def put_locals(cbrowse, names, folder, dice):
    """Questions at variables of functions, and renames of them."""
    server = Server([cbrowse, "lsp", "--"] + names[: MOST_FILES - 1], folder)
    server.ask(frame("workspace/symbol", {"query": "main"}, 1))
    nothing = put_nothing(server)
    for label, size in SIZES.items():
        text = text_of(folder, names, size)
        server.open(BIG, text)
        found = variables(text, dice)
        for method in "definition", "hover", "documentHighlight":
            asked = at_places(server, f"textDocument/{method}", found)
            put_all(f"{method}, a local, {label}", server, asked, nothing)
        asked = at_places(server, "textDocument/rename", found, newName="renamed_by_the_bench")
        put_all(f"rename, a local, {label}", server, asked, nothing)
        renamed = sum(b'"changes"' in server.ask(message)[0] for message in asked)
        print(f"{'':<34}{renamed} of {len(asked)} are renamed")
        server.tell("textDocument/didClose", server.document(BIG))
    server.end()


def changes(server, folder, names, size, count):
    """Messages that change a document of that size, each followed by a question about another."""
    texts = [text_of(folder, names, size, number) for number in range(2)]
    question = server.symbols(TINY)
    return [server.change(BIG, texts[number % 2]) + question for number in range(count)]


def letters(server, text, count, question):
    """The same of one letter each time, in the name that a text has of its own."""
    place = text.count("\n") - 2, len(";int changed_")
    return [server.change(BIG, str(n % 2), place=place) + question for n in range(count)]


def change(cbrowse, names, folder):
    """Changes of documents."""
    server = Server([cbrowse, "lsp", "--"] + names[: MOST_FILES - 2], folder)
    server.ask(frame("workspace/symbol", {"query": "main"}, 1))
    server.open(TINY, TINY_TEXT)
    nothing = put_nothing(server)
    put_all("documentSymbol, tiny", server, [server.symbols(TINY)] * ASKED, nothing)
    (defined_there,) = at_places(server, "textDocument/definition", [(TINY, 0, 4)])
    before = server.resident()
    for label, size in SIZES.items():
        messages = changes(server, folder, names, size, CHANGES)
        put_all(f"passed over, {label}", server, messages, nothing)
        server.open(BIG, text_of(folder, names, size))
        put_all(f"didChange, {label}", server, messages, nothing)
        check_taken(server, (CHANGES - 1) % 2)
        for question, more in (server.symbols(TINY), ""), (defined_there, ", definition"):
            few = letters(server, text_of(folder, names, size), CHANGES, question)
            put_all(f"a letter of {label}{more}", server, few, nothing)
            check_taken(server, (CHANGES - 1) % 2)
        folds = frame("textDocument/foldingRange", server.document(BIG), 1)
        put_all(f"foldingRange, {label}", server, [folds] * CHANGES, nothing)
        put_resident(f"memory after {label}", server, before)
        server.tell("textDocument/didClose", server.document(BIG))
        print(f"{'':<34}the message has {len(messages[0]):,} bytes")
    server.end()


def memory(cbrowse, names, folder):
    """What is resident after some and after many changes."""
    server = Server([cbrowse, "lsp", "--"] + names[: MOST_FILES - 2], folder)
    server.ask(frame("workspace/symbol", {"query": "main"}, 1))
    server.open(TINY, TINY_TEXT)
    size = SIZES["50 kB"]
    server.open(BIG, text_of(folder, names, size))
    before, done = put_resident("memory with a document", server), 0
    for count in MANY_CHANGES:
        for message in changes(server, folder, names, size, count - done):
            server.ask(message)
        done = count
        put_resident(f"memory after {count:,} changes", server, before)
    check_taken(server, (MANY_CHANGES[1] - MANY_CHANGES[0] - 1) % 2)
    server.end()


def line(cbrowse, folder):
    """Symbols of a text of one line."""
    server = Server([cbrowse, "lsp"], folder)
    for size in LONG_LINES:
        text = "f(){}" * (size // 5)
        server.open(BIG, text)
        put_all(f"documentSymbol, {size:,} in a line", server, [server.symbols(BIG)] * RUNS)
    server.end()


def most_changes(cbrowse, names, folder):
    """More changes than a session can undo."""
    server = Server([cbrowse, "lsp", "--"] + names[: MOST_FILES - 2], folder)
    server.ask(frame("workspace/symbol", {"query": "main"}, 1))
    server.open(TINY, TINY_TEXT)
    server.open(BIG, text_of(folder, names, LINES))
    nothing = put_nothing(server)
    messages = changes(server, folder, names, LINES, 2)
    before, spent, times = put_resident("memory before", server), [server.processor()], []
    for number in range(MOST_CHANGES):
        times.append(server.ask(messages[number % 2])[1])
        if number in (ASKED - 1, MOST_CHANGES - ASKED - 1, MOST_CHANGES - 1):
            spent.append(server.processor())
    put("the first 1,000 changes", times[:ASKED], nothing, spent[1] - spent[0])
    put("the last 1,000 changes", times[-ASKED:], nothing, spent[3] - spent[2])
    check_taken(server, (MOST_CHANGES - 1) % 2)
    put_resident(f"memory after {MOST_CHANGES:,} changes", server, before)
    server.end()


def clangd(names, folder, there, dice):
    """The same of clangd, with few files."""
    if not installed("clangd", "--version", "clangd"):
        return
    longest = of_lines(folder, [it for it in names if it.endswith(".c")], FEW)
    server = Server([shutil.which("clangd"), "--log=error"], folder)
    print(f"{'ready, clangd':<34}{server.ready * 1000:>10.1f} ms")
    nothing = put_nothing(server)
    first = []
    for name in longest:
        server.open(name, (folder / name).read_text(errors="replace"))
        first.append(server.ask(server.symbols(name))[1])
    put("clangd, first documentSymbol", first)
    found = sorted(places(folder, longest, there, FEW_ASKED, dice))
    for label in "definition", "hover":
        messages = at_places(server, f"textDocument/{label}", found)
        put_all(f"clangd, {label}", server, messages, nothing)
    asked = [server.symbols(name) for name in longest for _ in range(FEW_ASKED // FEW)]
    put_all("clangd, documentSymbol", server, asked, nothing)
    queries = parts_of_names(there, FEW_ASKED, dice)
    searches = [frame("workspace/symbol", {"query": query}, 1) for query in queries]
    put_all("clangd, workspace/symbol", server, searches, nothing)
    server.open(BIG, text_of(folder, names, SIZES["50 kB"]))
    question, times = server.symbols(BIG), []
    for number in range(FEW_CHANGES):
        text = text_of(folder, names, SIZES["50 kB"], number)
        times.append(server.ask(server.change(BIG, text, number + 2) + question)[1])
    put("clangd, didChange, 50 kB", times, nothing)
    put_resident(f"memory of clangd, {len(longest)} files", server)
    server.end()


def main():
    parser = options(__doc__)
    parser.add_argument("--part", action="append", choices=PARTS, help="measure this alone")
    parser.add_argument(
        "--most-changes", action="store_true", help="change a document 65,537 times, too"
    )
    parser.add_argument(
        "folder", help="a folder with C files, at least 3,000 for figures that mean something"
    )
    given = words_given(parser)
    parts = given.part or ([] if given.most_changes else PARTS)
    keep_to_one_core()
    dice = random.Random(1)
    with tempfile.TemporaryDirectory() as place:
        folder = pathlib.Path(place).resolve() / "src"
        source = pathlib.Path(given.folder).resolve()
        sizes = c_files(source, largest=MOST_BYTES, most=MOST_FILES)
        copy(source, sizes, folder)
        names = list(sizes)
        print(f"{len(sizes):,} files, {sum(sizes.values()) / 1e6:.1f} MB")
        there = defined(given.cbrowse, folder, names)
        if "ready" in parts:
            ready(given.cbrowse, names, folder)
        if "ask" in parts:
            ask(given.cbrowse, names, folder, there, dice)
            renames(given.cbrowse, folder)
            calls(given.cbrowse, folder)
        if "locals" in parts:
            put_locals(given.cbrowse, names, folder, dice)
        if "change" in parts:
            change(given.cbrowse, names, folder)
        if "memory" in parts:
            memory(given.cbrowse, names, folder)
        if "line" in parts:
            line(given.cbrowse, folder)
        if "clangd" in parts:
            clangd(names, folder, there, dice)
        if given.most_changes:
            most_changes(given.cbrowse, names, folder)


if __name__ == "__main__":
    main()
