#!/usr/bin/env python3
"""Compares what the language server answers at names with a model, byte for byte.

    make && verify/models/random-names.py
    verify/models/random-names.py --cbrowse PATH --texts 1000
    verify/models/random-names.py --first 4711 --texts 1      one, by its seed
    verify/models/random-names.py --free                      names of the file, too
    verify/models/random-names.py --self-test                 wrong rules have to be found

Text number n has the seed n. It is drawn, full of declarations and uses of a few names, and opened
as a document, often with a header and another source beside it. Some files are given in the words
of the command and have bytes that are not UTF-8. At some of its locals, labels and parameters of
macros the server is asked for the definition, the highlights, the references with and without
declarations, whether a rename is possible, and for a rename to a new name or to one of the text.
Columns are in bytes or in UTF-16. Each reply has to be that of `names_server.py`.

With --free it is also asked for the definition and the declaration of names of the file.

At the first difference the seed, the texts and both replies are shown and the exit status is 1.
Else lines tell how often each reply came. The self-test puts each wrong rule of `names_plants.py`
in the place of the right one, and tells how many texts it takes to see the difference.
"""

from __future__ import annotations

import collections
import functools
import json
import pathlib
import random
import re
import subprocess
import sys
import tempfile
from typing import NamedTuple

import names_plants
from draw_names import DrawNames
from names_server import NamesServer, read
from reach_model import Tree
from server_model import frame, position_of
from session_model import load

sys.path.insert(0, str(pathlib.Path(__file__).resolve().parents[1]))
from shared import options, words_given  # noqa: E402

PATIENCE = 120  # seconds until a run is given up
ASKED = 8  # names in each text, at most
BAD = [b"\xff", b"\xc3", b"\xed\xa0\x80", b"\x80"]
ROOT = "file:///w"


class Session(NamedTuple):
    """Files of the command line, and the messages that are sent."""

    files: dict
    messages: list


def message(method, params, number=None):
    body = {"method": method, "params": params}
    if number is not None:
        body = {"id": number, **body}
    return json.dumps(body).encode()


def uri_of(file):
    return f"{ROOT}/{file.decode()}"


def drawn(seed, with_free=False):
    """The session of a seed."""
    draw = random.Random(f"asked {seed}")
    files = DrawNames(seed).files()
    is_utf16 = draw.random() < 0.5
    capabilities = {"workspace": {"didChangeWatchedFiles": {"dynamicRegistration": True}}}
    if not is_utf16:
        capabilities["general"] = {"positionEncodings": ["utf-8"]}
    messages = [message("initialize", {"rootUri": ROOT, "capabilities": capabilities}, 0)]
    messages.append(message("initialized", {}))
    given = {}
    for file, text in files.items():
        if draw.random() < 0.1:
            place = draw.randint(0, len(text))
            files[file] = given[file] = text[:place] + draw.choice(BAD) + text[place:]
        else:
            document = {"uri": uri_of(file), "text": text.decode(), "version": 1}
            messages.append(message("textDocument/didOpen", {"textDocument": document}))
    tree = Tree(files, read)
    for number, (file, token, is_bound) in enumerate(asked(draw, tree, with_free), 1):
        text = files[file]
        place = draw.choice([token.place, token.end, draw.randint(token.place, token.end)])
        line, column = position_of(text, place, is_utf16)
        params = {
            "textDocument": {"uri": uri_of(file)},
            "position": {"line": line, "character": column},
        }
        words = [it.text.decode() for it in tree.text(b"a.c").tokens] or ["a"]
        new = draw.choice(["q"] * 6 + [draw.choice(words)] * 2 + ["int", "__b", "1", "M", "T"])
        context = {"includeDeclaration": draw.random() < 0.5}
        methods = {"definition": {}, "declaration": {}}
        if is_bound:
            methods = {
                "definition": {},
                "documentHighlight": {},
                "references": {"context": context},
                "prepareRename": {},
                "rename": {"newName": new},
            }
        for other, (method, more) in enumerate(methods.items()):
            name = f"textDocument/{method}"
            messages.append(message(name, {**params, **more}, number * 10 + other))
    messages += [message("shutdown", None, 1), message("exit", None)]
    return Session(given, messages)


def asked(draw, tree, with_free):
    """The names that are asked about: file, token, and whether it is bound."""
    bound, free = [], []
    for file in sorted(tree.files):
        text = tree.text(file)
        for token in text.tokens:
            if text.binding(token.place).kind != "free":
                bound.append((file, token, True))
            elif with_free and text.space(token.place) in ("ordinary", "tag", "macro"):
                if tree.meaning(file, token.place):
                    free.append((file, token, False))
    picked = draw.sample(bound, min(ASKED, len(bound)))
    return picked + draw.sample(free, min(ASKED // 2, len(free)))


# ---- runs


def bodies(out):
    """The bodies of frames."""
    found, place = [], 0
    head = re.compile(rb"Content-Length: (\d+)\r\n\r\n")
    while place < len(out):
        begin = head.match(out, place)
        if begin is None:
            return [*found, out[place:]]
        place = begin.end() + int(begin[1])
        found.append(out[begin.end() : place])
    return found


def expected(session, reading=read, tree=Tree):
    """What the model writes."""

    class Planted(NamesServer):
        def make_tree(self, files):
            return tree(files, reading)

    server = Planted(profile=b"--wide")
    for name, text in session.files.items():
        server.world = load(server.world, name, text)
    return bodies(server.run(b"".join(map(frame, session.messages))).out)


def found(cbrowse, session):
    """What the program writes."""
    with tempfile.TemporaryDirectory() as home:
        for name, text in session.files.items():
            path = pathlib.Path(home, name.decode())
            path.parent.mkdir(parents=True, exist_ok=True)
            path.write_bytes(text)
        words = [cbrowse, "lsp", "--wide", "--", *(it.decode() for it in session.files)]
        data = b"".join(map(frame, session.messages))
        done = subprocess.run(words, input=data, cwd=home, capture_output=True, timeout=PATIENCE)
        return bodies(done.stdout) + ([done.stderr] if done.stderr else [])


def difference(session, one, other):
    """The first reply that differs, with its request: nothing where all are the same. What the
    server can do, which it tells first, is not looked at."""
    for number in range(max(len(one), len(other))):
        pair = [it[number] if number < len(it) else b"nothing" for it in (one, other)]
        if pair[0] != pair[1] and b'"id":0,' not in pair[0]:
            match = re.match(rb'{"jsonrpc":"2.0","id":(\d+),', pair[0])
            begin = b'{"id": ' + (match[1] if match else b"-") + b","
            request = [it for it in session.messages if it.startswith(begin)]
            return request[:1], *pair
    return None


def compare(cbrowse, seed, with_free):
    """Compares one session; how often each reply came."""
    session = drawn(seed, with_free)
    right = expected(session)
    told = difference(session, right, found(cbrowse, session))
    if told is not None:
        opened = [json.loads(it)["params"] for it in session.messages if b"didOpen" in it]
        lines = [f"the text of seed {seed} differs"]
        lines += [f"file {name}: {text!r}" for name, text in session.files.items()]
        lines += [
            f"document {it['textDocument']['uri']}: {it['textDocument']['text']!r}" for it in opened
        ]
        lines += [f"request: {told[0]}", f"expected: {told[1]!r}", f"found: {told[2]!r}"]
        raise SystemExit("\n".join(lines))
    kinds = rb'"(?:message|result)":("[a-z ]*|null|\[\]|\[|\{"[A-Za-z]+")'
    return collections.Counter(it for body in right for it in re.findall(kinds, body))


def self_test(first, texts):
    """Looks for the first text that tells each wrong rule from the right one."""
    left = list(names_plants.PLANTS)
    for seed in range(first, first + texts):
        session = drawn(seed, with_free=True)
        right = expected(session)
        for plant in [*left]:
            is_tree = issubclass(plant, Tree)
            how = {"tree": plant} if is_tree else {"reading": functools.lru_cache()(plant)}
            if difference(session, right, expected(session, **how)) is not None:
                print(f"{plant.__name__}: text {seed - first + 1}, of seed {seed}", flush=True)
                left.remove(plant)
        if not left:
            break
    for plant in left:
        print(f"FAILED: {plant.__name__} is not found in {texts} texts")
    return 1 if left else 0


def main() -> int:
    parser = options(__doc__)
    parser.add_argument("--texts", type=int, default=2_000, help="how many, 2,000 by default")
    parser.add_argument("--first", type=int, default=1, help="the first seed, 1 by default")
    parser.add_argument("--free", action="store_true", help="names of the file, too")
    parser.add_argument("--self-test", action="store_true", help="wrong rules have to be found")
    if "--self-test" in sys.argv:
        given = parser.parse_args()
        return self_test(given.first, given.texts)
    given = words_given(parser)
    told: collections.Counter = collections.Counter()
    for seed in range(given.first, given.first + given.texts):
        told += compare(given.cbrowse, seed, given.free)
    print(f"{given.texts} random texts from seed {given.first} on: no difference")
    print("came: " + ", ".join(f"{it.decode()} {count}" for it, count in sorted(told.items())))
    return 0


if __name__ == "__main__":
    sys.exit(main())
