#!/usr/bin/env python3
"""What the hardest texts and messages cost: time and memory, beside ordinary ones.

    make && bench/worst.py
    bench/worst.py --cbrowse PATH      or: CBROWSE=PATH bench/worst.py

Each text is one file of a million bytes, the most that a file may have: one shape again and again,
most of them on a single line. Further rows have single lines on which equal rows are far apart or
very many, and 4,096 files that all define one name. A session takes the files as operands, scans
them again (`r`), and is asked each of the seven fields about the names in them. Of single lines,
where each row would show a million bytes, it is asked about a name that is not there. Shown are the
processor time (user and system) of the whole session on one core, the least of several, and the
most memory that it had resident; "times" is the time as a multiple of that of ordinary code in as
many bytes and files.

Braces that are nested, open and closed, are shown by the wide profile too.

The language server has one document of about a million bytes. The rows after `server:` show the
least processor time of several equal messages, each hard one beside an ordinary one in as many
bytes: a query that begins as each name goes on, over names of 30,000 bytes; the symbols of one line
with a letter outside ASCII, backwards; 2,000 parts of a change at the end of the document, at both
ends in turn and anywhere, beside a whole text; and nested braces, opened and folded.

No tags are asked for: each tag shows its whole line, so that n definitions on one line have n times
its length of them.
"""

from __future__ import annotations

import pathlib
import tempfile

from measure import MOST_BYTES, MOST_FILES, keep_to_one_core, options, processor_time, words_given
from scan import code, lines
from server import Server, frame
from session import Session

RUNS = 3
DOCUMENT, TINY = "document.c", "tiny.c"  # of the language server
CLOSED_BRACES = b"f(){" + b"{" * 490_000 + b"}" * 490_000 + b"}\n"
QUESTIONS = [b"r\n"] + [
    b"%s%s\n" % (field, name)
    for name in (b"a", b"f", b"none")
    for field in (b"0", b"1", b"2", b"3")
]
QUESTIONS += [b"4none\n", b"7none\n", b"8none\n"]
# a row shows its whole line, so of long lines only the first question of each field is asked
FIRST_QUESTIONS = [question for question in QUESTIONS if b"none" in question or question == b"r\n"]
SHAPES = [
    b"{",
    b"}",
    b"\n",
    b'"',
    b"\\",
    b"(",
    b"a(",
    b"#define a(",
    b"typedef a;",
    b"f(){}",
    b"/*",
    b"//\\\n",
    b"0.e+",
]


def numbered(form, size=MOST_BYTES):
    """A form with a number in it, for 1, 2, 3 and so on, up to a size."""
    text, number = bytearray(), 1
    while len(text) < size:
        text += form.replace(b"#", b"%d" % number)
        number += 1
    return bytes(text)


# single lines on which rows are equal and far apart, or many and all different
LINES = {
    "a, then f that uses a, on a line": b"a " * 250_000 + b"f(){" + b"a;" * 240_000 + b"}\n",
    "many callees of f on a line": b"f(){" + numbered(b"a#();", 990_000) + b"}\n",
    "many functions that use a on a line": numbered(b"f#(){a;}", 990_000) + b"\n",
    "many functions that call a on a line": numbered(b"f#(){a();}", 990_000) + b"\n",
    "two long functions, a in both": b"".join(
        b"f%s(){%s}" % (b"x" * 240_000, b"a;" * 120_000) for _ in range(2)
    )
    + b"\n",
    "three, whose middles differ": b"".join(
        b"%s%s%s(){%s}" % (b"x" * 100_000, middle, b"x" * 100_000, b"a;" * 60_000)
        for middle in (b"c", b"b", b"a")
    )
    + b"\n",
    "many names, the middles differ": b"f(){" + numbered(b"aaaaaaaa#bbbbbbbb;", 990_000) + b"}\n",
    "calls in calls": b"f(){" + b"a(" * 490_000 + b"\n",
    "many names of a typedef": b"typedef " + b"a," * 490_000 + b"a;\n",
}


def again(shape, size=MOST_BYTES):
    """A shape again and again."""
    return (shape * (size // len(shape) + 1))[:size]


def asked(cbrowse, folder, texts, questions=QUESTIONS, profile=()):
    """The least seconds of a session over these texts, and its memory in megabytes."""
    with tempfile.TemporaryDirectory(dir=folder) as place:
        names = [f"{number}.c" for number in range(len(texts))]
        for name, text in zip(names, texts):
            pathlib.Path(place, name).write_bytes(text)
        words = [cbrowse, "line", *profile, *names]
        asking = b"".join(questions)
        seconds = min(processor_time(words, pathlib.Path(place), asking) for _ in range(RUNS))
        session = Session(words, place)
        for question in questions:
            session.ask(question.rstrip())
        memory = session.most_memory() / 1e6
        session.end()
        return seconds, memory


# ---- the language server


def served(cbrowse, folder, text, messages, profile=()):
    """The least processor seconds of a server for messages about a document with this text, of
    which the last one is a request; and its memory in megabytes."""
    with tempfile.TemporaryDirectory(dir=folder) as place:
        server = Server([cbrowse, "lsp", *profile], pathlib.Path(place))
        server.open(TINY, "int tiny(void) {\n}\n")
        server.open(DOCUMENT, text.decode())
        server.ask(server.symbols(TINY))
        asking, times = b"".join(messages(server, text)), []
        for _ in range(RUNS):
            before = server.processor()
            server.ask(asking)
            times.append(server.processor() - before)
        memory = server.resident() / 1e6
        server.end()
        return min(times), memory


def query(words):
    """A query for symbols of all files."""
    return lambda server, text: [frame("workspace/symbol", {"query": words}, 1)]


def whole(server, text):
    """A document gets a whole text."""
    return [server.change(DOCUMENT, text.decode()), server.symbols(TINY)]


def at_end(number, last):
    return last


def at_both_ends(number, last):
    return last * (number % 2)


def anywhere(number, last):
    return number * 2_654_435_761 % 2**32 * last // 2**32


def parts(number, line_of=at_end):
    """So many blanks are put to lines of a document, one after another, by one message."""

    def messages(server, text):
        last = text.count(b"\n")
        places = [{"line": line_of(one, last), "character": 0} for one in range(number)]
        changes = [{"range": {"start": it, "end": it}, "text": " "} for it in places]
        document = {"uri": server.uri(DOCUMENT), "version": 2}
        params = {"textDocument": document, "contentChanges": changes}
        return [frame("textDocument/didChange", params), server.symbols(TINY)]

    return messages


def opened(server, text):
    """A document is opened, and its functions are folded."""
    document = {"uri": server.uri(DOCUMENT), "languageId": "c", "version": 1, "text": text.decode()}
    fold = frame("textDocument/foldingRange", server.document(DOCUMENT), 1)
    return [frame("textDocument/didOpen", {"textDocument": document}), fold]


def put_served(cbrowse, folder):
    """A row of each hard message, after the ordinary one that it is beside."""

    def row(label, text, messages, ordinary=None, profile=()):
        found = served(cbrowse, folder, text, messages, profile)
        put(label, found, ordinary)
        return found

    names = again(b"int " + b"a" * 30_000 + b"(void) {\n}\n", 950_000)
    usual = row("server: ab in names of aaa..", names, query("ab"))
    row("aaa..b of 255 bytes", names, query("a" * 254 + "b"), usual)
    row("aaa..b of 3,000 bytes", names, query("a" * 2_999 + "b"), usual)
    # the first ones by name stand last
    functions = [b"int f%06d(void) {}" % number for number in reversed(range(40_000))]
    usual = row("server: 1,000 symbols", b"\n".join(functions) + b"\n", query("f"))
    line, mark = b" ".join(functions), "/* é */".encode()
    row("on one line", line + b"\n", query("f"), usual)
    row("on one line, after an é", mark + line + b"\n", query("f"), usual)
    row("on one line, before an é", line + mark + b"\n", query("f"), usual)
    text = lines(code(), 950_000)
    usual = row("server: a whole text of 950,000", text, whole)
    row("one part at its end", text, parts(1), usual)
    row("2,000 parts at its end", text, parts(2_000), usual)
    row("2,000 parts at both ends in turn", text, parts(2_000, at_both_ends), usual)
    row("2,000 parts anywhere", text, parts(2_000, anywhere), usual)
    for profile in (), ("--wide",):
        named = " ".join(("server: opened, folded", *profile))
        usual = row(named, lines(code(), 990_000), opened, profile=profile)
        row("nested braces", again(b"{", 990_000), opened, usual, profile)
        row("nested braces that are closed", CLOSED_BRACES, opened, usual, profile)


# ---- rows


def put(label, found, ordinary=None):
    """One row."""
    times = f"{found[0] / ordinary[0]:>8.2f}" if ordinary else ""
    print(f"{label:<34}{found[0] * 1000:>10.1f} ms{found[1]:>10.1f} MB{times}".rstrip(), flush=True)


def main():
    parser = options(__doc__)
    given = words_given(parser)
    keep_to_one_core()
    print(f"{'':<34}{'time':>13}{'memory':>13}{'times':>8}")
    with tempfile.TemporaryDirectory() as folder:

        def measured(texts, questions=QUESTIONS, profile=()):
            return asked(given.cbrowse, folder, texts, questions, profile)

        ordinary = measured([lines(code(), MOST_BYTES)])
        put("ordinary code", ordinary)
        for shape in SHAPES:
            put(shape.decode().replace("\n", " LF"), measured([again(shape)]), ordinary)
        for label, line in LINES.items():
            put(label, measured([line], FIRST_QUESTIONS), ordinary)
        wide = measured([lines(code(), MOST_BYTES)], profile=("--wide",))
        put("ordinary code --wide", wide)
        put("{ --wide", measured([again(b"{")], profile=("--wide",)), wide)
        put("{..} --wide", measured([CLOSED_BRACES], profile=("--wide",)), wide)
        line = b"int a;\nvoid f(void) {" + again(b" a;", 300_000) + b"}\n"
        put(
            "100,000 uses of a name on a line",
            measured([line]),
            measured([lines(code(), len(line))]),
        )
        one = b"int a(void) { return 1; }\n"
        some = lines(code(), 4_000)
        many = [some[at : at + len(one)] for at in range(0, len(one) * 100, len(one))]
        put(
            "4,096 files that define one name",
            measured([one] * MOST_FILES),
            measured([many[number % len(many)] for number in range(MOST_FILES)]),
        )
        put_served(given.cbrowse, folder)


if __name__ == "__main__":
    main()
