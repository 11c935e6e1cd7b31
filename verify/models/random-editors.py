#!/usr/bin/env python3
"""Compares random sessions of editors with a model of the language server, byte for byte.

    make && verify/models/random-editors.py
    verify/models/random-editors.py --cbrowse PATH --sessions 1000 -j 2
    verify/models/random-editors.py --first 4711 --sessions 1      one, by its seed
    verify/models/random-editors.py --self-test                    wrong rules have to be found

Session number n has the seed n. It has files of the command line or none, a profile, bounds and a
root, and then 3 to 60 messages, more often those that do something where the session stands:
documents are opened, changed as a whole and in parts, saved and closed, files are deleted and, in
some sessions, read again from a folder. Requests ask at names, often those of labels, parameters,
variables and parameters of macros, at headers and at any other place, in both encodings, for lists
and trees. The folder holds the texts of the files, or other ones, and links, hard links, folders
and pipes. In some sessions it is written to between two messages, with an event or without: files
change, vanish and come back, or get a second name. Clients can be asked for events or not. Some
sessions have more files of one name than are read again. In some, most files include each other and
have the same few names, and most questions ask what is shown of them. In some, one name is a
function, a member, a tag, a local, a label, a macro and a parameter of one, and most questions ask
for its uses, mark them or rename it. Names are renamed, often
where each file was opened or is on disk as the server has it, and then the client makes the edits:
in each file the new name has to be used where the old one was, and nowhere else. In some sessions
mostly locals and parameters of macros are renamed, in texts with macros that reach them, directives
in functions and odd bytes beside names, and the new name is often bad, taken or used. Texts have CR
LF, lone CRs, byte order marks, letters outside ASCII, halves of surrogate pairs and, in files and
in messages, bytes that are not UTF-8. Paths, of the command line too, have empty segments and dots,
or lead outside the root. Some messages have wrong parameters, ids or members, and between changes
of documents some are cut, are not JSON or are too large; some heads are odd, and some inputs end
within a message. The input comes in random pieces. Standard output, standard error and the status
are compared with `server_model.py`.

At the first difference the seed, the input and both outputs are shown and the exit status is 1.
Else lines tell how often each message was sent and each reply came. The self-test puts each wrong
rule of `names_plants.py` for renames, for what is shown and for which uses count in the place of
the right one, and tells how many sessions it takes to see the difference.
"""

from __future__ import annotations

import collections
import concurrent.futures
import contextlib
import json
import os
import pathlib
import random
import re
import subprocess
import sys
import tempfile
import time
from typing import NamedTuple, Optional

from disk_model import Disk, Write, do_on_disk
from draw import Draw
from draw_includes import ALL_NAMES, DrawIncludes
from draw_names import DrawNames
from draw_renames import DrawRenames
from draw_uses import DrawUses
from locals_model import locals_of, names_of
from names_plants import RENAME_PLANTS, SHOWN_PLANTS, USES_PLANTS
from reach_model import Tree
from server_model import MOST_BODY, Ended, Outcome, Server, frame, name_of_operand
from server_model import place_of, position_of, serve
from session_model import Bounds, Refused, load
from text_model import headers
from uses_model import Uses

sys.path.insert(0, str(pathlib.Path(__file__).resolve().parents[1]))
from shared import options, words_given  # noqa: E402

BATCH = 50  # sessions between two looks at the outcome
PATIENCE = 120  # seconds until a run is given up
# fmt: off
NAMES = [
    "a.c", "b.c", "f.h", "g.h", "sys/f.h", "sys/ab.h", "x/sys/f.h", "a/g.h", "src/a.c", "src/f.h",
    "z/a/main.h", "1%.c", "p#q.h", "~-_.c",
]
OUTSIDE = ["/usr/f.h", "/wx/a.c", "/w/../w/a.c", "/v/./b.c"]
STEPPING = "x/../y.c"  # a name that only a file of the command line may have
CROWD = [f"n{number:02}.c" for number in range(68)]  # more than are read again for one answer
CROWDED = ["int f(void) {{ return {}(1); }}\n", "#define f(x) {}(x)\n", "int f(int {}) {{\n}}\n",
           "int ab(void) {{ f({}); }}\n", "int g(void) {{ return {}(f(1)); }}\n"]
WAYS = ("definition", "declaration", "hover", "prepareCallHierarchy", "references", "rename",
        "incoming")
SHOWING = (*WAYS[:4], "definition", "declaration")
LOCAL_WAYS = [*WAYS[:6], "documentHighlight", "documentHighlight", "references", "prepareRename"]
USES_WAYS = [*["references", "documentHighlight", "rename"] * 4, *WAYS[:3], "prepareRename"]
SYNC = b'{"id":"sync","method":"sync"}'  # its reply says that all before it was read
DETOURS = ["//", "//", "/./", "/./", "///.//", "/../", "/x/../", "/.../", "/.x/"]
NOT_NAMES = ["a b.c", "\u00e9.h", "a.cc", "a.txt", "", ".", "x" * 254 + ".c", "\n.c", "a.c?x"]
ROOTS = ["file:///w", "file:///w/", "file://localhost/w", "FILE:///w//", "file:///a%20b%c3%a9",
         "file:///a b\u00e9", "file:///", "file://localhost//", "http://w", "file:", "", 7, None]
FOLDERS = ["/w", "/w", "/w//", "/", "/a b\u00e9", "/%41\\\""]
ODD = ["\u00e9", "\U0001f600", "\u0301", "\ud7ff", "\ufffd", "\r", "\r\r\n", "\x01", "\x7f", "\t",
       "f", "g(", "/* \u00e9\U0001f600 */ f ", "int \u00e9f(void) {\n}\n",
       "#define F f \U0001f600 f\n"]
DEFINING = [
    "static int {}(void) {{\n}}\n", "int {}(int a) {{\n\treturn {}(a);\n}}\n",
    "#define {} {}(1)\n",
    '#include "{}.h"\n', "#include <sys/{}.h>\n", '#include "../a/{}.h"\n', "\t{}({}); // {}\n",
    "typedef struct {} {{ int a; }} {};\r\n", "enum {} {{ A }}; /* \U0001f600 */ {} x;\n",
    "int {}(void) {{ /*" + "\u00e9\U0001f600x" * 60 + "*/ return {}(1); }}\n",
    " \tint " + "x" * 256 + "(void) {{ /*\U0001f600" + "\u0301" * 80 + "*/ return {}(2); }}\n",
    "int {}(void) {{ goto {}; {}: ; }}\n", "\tgoto {}; /*\U0001f600*/ goto {};\n", "{}:\n{}: ;\n",
    "int {}(int {}, int *{}) {{\n\tint {} = {}; {{ int {}, {}; {} = {}++ + *{}; }}\n}}\n",
    "int {}({}, {}) int {}; {{ for (int {} = 0; {}; ++{}) {}(&{}, {}); }}\n",
    "\tint (*{})(int {}) = {}, /*\u00e9\U0001f600*/ {}[2] = {{ {} }}; {}: {} += {};\n",
    "int {}(struct {} *{}) {{ struct {} {{ int {}; }} {}; enum {{ {} }}; return {}->{}.{}; }}\n",
    '\tasm("x" : "=r"({}) : {}); {} * {}; extern int {}; int {}(int {}); {} = {};\n',
    "#define {}({}, {}) {} + ({} = {}->{}) \\\n\t{}({}, &{})\r\n",
    "#define {}({}, ...) #{} {}##{} ({})[1]++ /*\U0001f600*/ {}.{}\n",
    "extern int {}, {};\nint {}(int {});\nstatic int {}(void);\n",
]
MARK = b"\xef\xbb\xbf"
HALVES = ["\ud83d", "\ude00", "\udbff\udfff", "\ude00\ud83d", "\\ud83d\ud83d", "\\\\\ud800f"]
WORDS = ["f", "f", "g", "g", "ab", "main", "F", "b_1"]
BAD = [b"\xff", b"\xc3", b"\xf0\x9f\x98", b"\xed\xa0\x80", b"\xe9\xa9", b"\xf4\x90\x80\x80",
       b"\x80"]
RAW = "\ue000"  # a letter that stands for bytes which are no UTF-8
QUERIES = ["", "", "f", "F", "a", "AB", "main", "Main", "b_1", "\u00e9", "f ", "\ud83d",
           "x" * 255, "X" * 255, "x" * 256, "X" * 256, "x" * 300]
NEW_NAMES = ["sum", "sum", "sum", "_2", "longer_name", *WORDS[:4], "A", "int", "", "1a", "a b",
             "\u00e9", "\ud83d", "sum\n", "x" * 300]
BAD_NAMES = ["__x", "__", "1x", "int", "asm", "typeof", "offsetof", "defined", "__attribute__",
             "_Bool", "a-b", "__builtin_offsetof", "\u00e9a", "a\u00e9", " a", "$a"]
METHODS = [
    "textDocument/implementation", "textDocument/formatting", "$/any", "",
    "exit", "callHierarchy/incomingCalls", "callHierarchy/outgoingCalls", "initialized",
    "textDocument/didOpen", "workspace/Symbol",
]
QUIET = ["initialized", "$/cancelRequest", "$/setTrace", "workspace/didChangeConfiguration",
         "textDocument/willSave", "any", "initialize", "shutdown", "textDocument/hover"]
NO_IDS = [None, True, [1], {}, 1.0, 1e300, 2**63, -(2**63) - 1]
IDS = [0, -1, 2**63 - 1, -(2**63), "", "a", "\u00e9\"\\\n\x00\x7f\U0001f600", "1", "-0", *HALVES]
WRONG = [None, True, 7, -1, 1.5, "", "7", [], {}, 2**64, "file:///w/a.c"]
NO_JSON = [b"", b"{", b"nul", b"[1,]", b"{} {}", b"{'a':1}", b'{"a":"\\ud800"', b"\xff", b"01",
           b"[" * 129 + b"]" * 129, b"[" * 200, b'{"a" 1}', b'"\\x"', b'"\t"', b"NaN", b"1e", b"-"]
NO_REQUESTS = [b"1", b"null", b'"a"', b"[]", b"{}", b'{"id":1}', b'{"method":7}', b'{"result":1}',
               b"[" * 128 + b"]" * 128, b'{"id":1,"method":null,"result":2}', b'"\\ud800"',
               b"-0.5E+7", b" [ ] "]
REPLIES = [b'{"id":1,"result":null}', b'{"id":null,"error":{}}', b'{"error":1,"id":{}}']
BAD_HEADS = [
    b"Content-Length: x\r\n\r\n", b"Content-Length: 2\n\n{}", b"\r\n", b"X: 1\r\n\r\n",
    b"Content-Length: 2\r\ncontent-length: 2\r\n\r\n{}", b"Content-Length: 0000000002\r\n\r\n{}",
    b"Content-Length : 2\r\n\r\n{}", b"Content-Length: -2\r\n\r\n{}", b"X" * 5000,
    b"Content-Length: 2\r\nX: " + b"x" * 4071 + b"\r\n\r\n{}", b"Content-Length:\r\n\r\n",
    b"Content-Length: 2\r\n: x\r\n\r\n{}", b"Content-Length: 2\r\nx\r\n\r\n{}",
]
# fmt: on


REFUSED_FOR = re.compile(
    rb"""(not \ open | used \ in \ a \ macro | in \ the \ arguments \ of \ a \ macro | odd \ bytes
    | used \ from \ outside | not \ text | outside \ the \ root | type \ is \ not \ known
    | open \ under \ a \ second \ name): \ (?: [^"\\] | \\. )+""",
    re.VERBOSE,
)


def is_of_macro(text: bytes, token) -> bool:
    """Whether a name is that of a parameter of a macro."""
    return names_of(text).binding(token.place).kind == "parameter"


class Difference(Exception):
    """The program wrote something else than was expected."""


class Session(NamedTuple):
    """The words and files of a run, the writes that make its root, the folder in which it runs if
    that is the root, what is sent and, in between, written to the root; `how` is for the model."""

    words: list[str]
    files: dict[str, bytes]
    root: list[tuple]
    below: Optional[str]
    data: bytes
    writes: list[Write]
    how: dict


class Editor:
    """Draws the messages of one session, beside a server that shows where it stands."""

    def __init__(self, seed: int, home: str):
        self.random, self.draw = random.Random(f"editor {seed}"), Draw(seed)
        self.names, self.renames = DrawNames(seed), DrawRenames(seed)
        self.includes, self.uses = DrawIncludes(seed, NAMES), DrawUses(seed, NAMES)
        self.is_of_includes = self.chance(0.3)  # more texts of its kind are drawn
        self.is_of_uses = self.chance(0.1 if self.is_of_includes else 0.3)
        self.profile = self.one(b"", b"", b"", b"--wide", b"--prototypes")
        if self.is_of_includes and self.chance(0.8):
            self.profile = self.one(b"--wide", b"--prototypes", b"--prototypes", b"--prototypes")
        if self.is_of_uses and self.chance(0.8):
            self.profile = self.one(b"--wide", b"--prototypes")
        self.folder = self.one(*FOLDERS) if self.chance(0.25) else None
        self.bounds = Bounds()
        if self.chance(0.1):
            self.bounds = Bounds(self.one(1, 2, 3), self.one(20, 200, 2_000))
        # where files are read again the root is a folder of its own
        self.home = home if self.chance(0.4) else None
        # renames then find closed files as the server has them
        self.stays_closed = self.home is not None and self.chance(0.4)
        self.start: list[tuple] = []  # the writes that make the root
        self.writes: list[Write] = []
        self.is_written = self.home is not None and self.chance(0.6)
        self.files: dict[str, bytes] = {}  # by the words that name them
        self.next: list[dict] = []  # what is to be sent before anything else is drawn
        self.is_renaming = False  # the next ones rename
        # more texts and renames of locals are drawn
        self.is_of_locals = self.chance(0.1 if self.is_of_includes else 0.4)
        self.edited: dict[bytes, list[bytes]] = {}  # the names that files have to use then
        self.disk = Disk()
        # the program runs in its root
        self.is_below = self.home is not None and self.chance(0.6)
        if self.home is not None:
            forms = home, home, f"{home}/", f"{home}/./", home.replace("/", "//")
            self.folder = self.one(*forms) if self.chance(0.5) else None
        self.is_crowd = self.home is not None and self.chance(0.08)
        self.put_files(self.crowd() if self.is_crowd else self.drawn_files())
        folder = self.folder and self.folder.encode()
        self.server = Server(self.bounds, self.profile, folder, self.disk)
        for given, text in self.files.items():
            root = None if folder is None else self.server.root
            name = name_of_operand(given.encode(), root)
            with contextlib.suppress(Refused):
                self.server.world = load(self.server.world, name, text)

    # ---- files

    def crowd(self) -> dict[str, bytes]:
        """Many small files that all define or use one name."""
        names = self.random.sample(CROWD, self.random.randint(64, len(CROWD)))
        return {name: self.one(*CROWDED).format(self.one(*WORDS)).encode() for name in names}

    def drawn_files(self) -> dict[str, bytes]:
        numbers = (5, 10, 14) if self.is_of_includes else (0, 1, 2, 3, 5, 8)
        names = self.random.sample(NAMES, self.one(*numbers))
        if self.chance(0.1):
            names.insert(0, STEPPING)
        return {name: self.text() for name in names}

    def put_files(self, texts: dict[str, bytes]) -> None:
        """Names files of the command line, and makes the root."""
        texts = {
            name: text[: self.bounds.file_bytes]
            for name, text in [*texts.items()][: self.bounds.files]
        }
        given = {name: self.word_of(name) for name in texts}
        if self.home is not None:
            self.make_root(texts, {it for it in texts if self.is_in_root(given[it])})
        for name, text in texts.items():
            word = given[name]
            self.files[word] = self.disk.read(self.path_of(name)) if self.is_in_root(word) else text
        if self.files and self.chance(0.02):
            again = self.one(*self.files)
            other = f"/{again}" if again.startswith("/") else f"./{again}"
            self.files[other] = self.files[again]

    def word_of(self, name: str) -> str:
        """A word that names a file of the command line."""
        if self.home is not None and self.chance(0.15):
            folder = self.folder or self.home
            name = self.one(f"{folder}/{name}", f"{self.home}//{name}", f"/{self.home}/./{name}")
        elif self.chance(0.2):
            name = self.one("./", ".//", "././/") + name
        if self.chance(0.2) and "/" in name:
            slash = self.one(*(it.start() for it in re.finditer("/", name)))
            name = name[:slash] + self.one("//", "/./", "/.///") + name[slash + 1 :]
        return name

    def is_in_root(self, word: str) -> bool:
        return self.is_below or word.startswith("/")

    def path_of(self, name: str) -> bytes:
        return f"{self.home}/{name}".encode()

    def make_root(self, texts: dict[str, bytes], held: set[str]) -> None:
        """The root holds the files of the command line that are read there, and others."""
        there = self.random.sample(NAMES, self.one(0, 3, 6, 9))
        more = b"x" * (self.bounds.file_bytes + 1)
        for name in [*texts] if self.stays_closed else there:
            is_same = self.stays_closed or self.chance(0.5)
            text = texts.get(name) if is_same else self.text()
            text = self.one(*[text] * 20, more, None)
            if name not in held:
                verb = self.one("folder", "pipe") if text is None else "replace"
                self.make(verb, self.path_of(name), text)
        for name in sorted(held):
            self.make("replace", self.path_of(name), texts[name])
        for name in sorted(held):  # some are second names of others
            other = self.one(*sorted(held))
            if other != name and self.chance(0.08):
                self.make(self.one("link", "hard"), self.path_of(name), self.path_of(other))
        while self.chance(0.2):
            path = self.path_of(self.one(*NAMES))
            if self.disk and path not in self.disk:
                self.make(*self.second_name(path))

    def make(self, *what) -> None:
        if what[0] == "hard" and not isinstance(self.disk.at.get(what[2]), int):
            return  # a hard link leads to a file alone
        if what[0] == "link" and self.disk.end_of(what[2]) == what[1]:
            return  # a link to itself
        self.start.append(what)
        self.disk.do(*what)

    def second_name(self, path: bytes) -> tuple:
        """A link to a path, or a hard link to a file."""
        files = [it for it, what in self.disk.at.items() if isinstance(what, int) and it != path]
        if files and self.chance(0.5):
            return "hard", path, self.one(*files)
        return "link", path, self.one(*self.disk, self.path_of(self.one(*NAMES)))

    def write(self, size: int) -> None:
        """Another program writes to the root, before the message at a place: more often to files
        that the server has."""
        root, home = self.server.root, self.home.encode() + b"/"
        held = [it for it in self.server.world.files if root.path_of(it).startswith(home)]
        if self.is_crowd and len(held) > 63 and self.chance(0.6):
            held = self.last_read(held)
        near = self.path_of(self.one(*NAMES))
        path = root.path_of(self.one(*held)) if held and self.chance(0.8) else near
        verb = self.one(*["write", "replace"] * 5, *["remove"] * 3, *["name"] * 3, "folder", "pipe")
        if verb == "name":
            what = self.second_name(path)
        elif verb in ("write", "replace"):
            what = verb, path, self.other_text(path)
        else:
            what = verb, path
        self.disk.do(*what)
        self.writes.append(Write(size, what))
        if not self.next and self.chance(0.7):
            self.next.append(self.about(root.name_in(path)))

    def last_read(self, held: list[bytes]) -> list[bytes]:
        """Those files of a crowd that are the last to be read again, and those after them."""

        def rank(name: bytes) -> tuple[bool, bytes]:
            facts = self.server.facts(self.server.world.files[name])
            return b"f" not in [it.name for it in facts.definitions], name

        return sorted(held, key=rank)[62:]

    def other_text(self, path: bytes) -> bytes:
        """A text that a file gets: its own with more before it, or without some, the one that the
        server has, or any."""
        name = self.server.root.name_in(path)
        known = self.server.world.files.get(name, b"")
        found = self.disk.read(path)
        text = found if isinstance(found, bytes) else known
        kind = self.random.random()
        if kind < 0.5:
            line = self.one(*DEFINING).format(*["f", "g", "ab"] * 4).encode()
            return self.one(b"\n", b"\n\n", line) + text
        if kind < 0.6:
            return text[self.random.randint(0, len(text)) :]
        if kind < 0.8:
            return known
        return self.text() if kind < 0.97 else b"x" * (self.bounds.file_bytes + 1)

    def one(self, *choices):
        return self.random.choice(choices)

    def chance(self, share: float) -> bool:
        return self.random.random() < share

    # ---- texts and names

    def text(self) -> bytes:
        """The bytes of a file."""
        if self.is_of_uses and self.chance(0.85):
            return self.with_odd_bytes(self.uses.text(), 0, 0, 0, 0, 0, 0, 0, 1)
        if self.is_of_includes and self.chance(0.85):
            return self.with_odd_bytes(self.includes.text(), 0, 0, 0, 0, 0, 0, 0, 1)
        if self.is_of_locals and self.chance(0.8):
            text = self.with_odd_bytes(self.renames.text(), 0, 0, 0, 0, 0, 0, 1, 2)
            return MARK + text if self.chance(0.03) else text
        ways = [self.draw.file] * 5 + [self.draw.wide_file] * 3
        text = self.one(*ways, self.names.text, self.renames.text)()
        if self.chance(0.5):
            lines = self.random.choices(DEFINING, k=self.one(1, 2, 4, 8, 16))
            words = [self.random.choices(WORDS, k=10) for _ in lines]
            more = "".join(line.format(*some) for line, some in zip(lines, words)).encode()
            text = self.one(more, more + text, text + more)
        text = self.with_odd_bytes(text, 0, 0, 0, 1, 2, 5)
        return MARK + text if self.chance(0.1) else text

    def with_odd_bytes(self, text: bytes, *numbers: int) -> bytes:
        """A text with odd bytes in one of these numbers of places."""
        for _ in range(self.one(*numbers)):
            place = self.random.randint(0, len(text))
            more = self.one(*BAD) if self.chance(0.2) else self.one(*ODD).encode()
            text = text[:place] + more + text[place:]
        return text

    def sent_text(self) -> str:
        """A text in a message. What is no UTF-8 stands as such or as the bytes that it is."""
        if self.chance(0.02):
            return "x" * self.one(self.bounds.file_bytes, self.bounds.file_bytes + 1)
        text = self.text().decode("utf-8", "replace")
        if self.chance(0.1):
            place = self.random.randint(0, len(text))
            text = text[:place] + self.one(*HALVES) + text[place:]
        return text.replace("\ufffd", RAW) if self.chance(0.5) else text

    def uri(self) -> str:
        """A URI, more often of a file that is there or open."""
        kind = self.random.random()
        if kind < 0.02:
            return self.one("untitled:a.c", "file:/w/a.c", "file://b/w/a.c", "http://w/a.c", "a.c")
        there = [it.decode() for it in (*self.server.world.files, *self.server.documents)]
        name = self.one(*NAMES)
        if there and kind < 0.8:
            name = self.one(*there)
        elif kind < 0.88:
            name = self.one(self.one(*OUTSIDE), self.one(*NOT_NAMES))
        root = self.server.root.path.decode("utf-8", "replace")
        path = name if name.startswith("/") else f"{root}/{name}"
        if self.chance(0.12):
            slash = self.one(*(it.start() for it in re.finditer("/", path)))
            path = path[:slash] + self.one(*DETOURS) + path[slash + 1 :]
            path += self.one("", "", "", "/", "/.", "/..")
        begin = self.one("file://", "file://", "file://", "file://localhost", "File://LOCALHOST")
        return begin + self.escaped(path)

    def escaped(self, path: str) -> str:
        """A path in one of the ways that clients write it."""
        kind = self.one("least", "capital", "small", "all")
        if kind == "least":
            return re.sub(r"%(?=[0-9A-Fa-f]{2})", "%25", path)
        kept = b"/" if kind == "all" else b"/._-~abcdefghijklmnopqrstuvwxyz"
        form = "%%%02x" if kind == "small" else "%%%02X"
        return "".join(chr(it) if it in kept else form % it for it in path.encode())

    # ---- messages

    def position(self, uri: str) -> dict:
        """A position in a file, more often at a name or a header."""
        if self.chance(0.05):
            return {
                "line": self.one(0, 1, 5, 2**32, 2**64 - 1),
                "character": self.one(0, 3, 9, 2**32, 2**64 - 1),
            }
        name = self.server.file_of({"textDocument": {"uri": uri}})
        text = self.server.world.files.get(name, b"")
        definitions = {it.definition.name for it in self.server.places()}
        words = [*re.finditer(rb"\w+", text)]
        defined = [it for it in words if it[0] in definitions]
        places = [
            [it.start() + self.one(0, 0, 1, len(it[0])) for it in defined],
            [it.start() + self.one(0, len(it[0])) for it in words],
            [place + self.one(0, 1, len(it)) for place, it in headers(text)],
            [self.random.randint(0, len(text))],
            [it.place + self.one(0, 0, 1, len(it.text)) for it in locals_of(text)],
        ]
        weights = [bool(some) * weight for some, weight in zip(places, (8, 2, 3, 3, 8))]
        place = self.one(*self.random.choices(places, weights)[0]) + self.one(0, 0, 0, 0, 1, -1)
        place = max(0, min(len(text), place))
        line, column = position_of(text, place, self.server.is_utf16)
        return {"line": line, "character": column + (self.one(1, 50) if self.chance(0.05) else 0)}

    def initialize(self) -> dict:
        params: dict = {}
        if self.chance(0.9):
            roots = [self.home and f"file://{self.home}"] if self.home else [*ROOTS, *ROOTS[:3] * 3]
            params["rootUri"] = self.one(*roots)
        if self.chance(0.2):
            uri = self.one(*(it for it in ROOTS if it is None or str(it).startswith("file:///")))
            folders = [{"uri": uri}]
            params["workspaceFolders"] = self.one(None, [], {}, 7, folders, [*folders, 1])
        capabilities: dict = {}
        if self.chance(0.4):
            encodings = self.one(["utf-8"], ["utf-16", "utf-8"], ["utf-16"], [], "utf-8", [8, None])
            capabilities["general"] = {"positionEncodings": encodings}
        if self.chance(0.5):
            tree = {"hierarchicalDocumentSymbolSupport": self.one(True, True, False, 1, "true")}
            capabilities["textDocument"] = {"documentSymbol": tree}
        if self.chance(0.5):
            asks = {"prepareSupport": self.one(True, True, False, 1, "true")}
            capabilities.setdefault("textDocument", {})["rename"] = asks
        # without a folder of its own, each closed file would be gone for the others
        if self.chance(0.5 if self.home else 0.8):
            told = {"dynamicRegistration": self.one(True, True, True, False, 1, "true")}
            capabilities["workspace"] = {"didChangeWatchedFiles": told}
        if self.chance(0.95):
            params["capabilities"] = capabilities
        return self.request("initialize", params)

    def request(self, method: str, params) -> dict:
        number = self.random.randint(0, 99) if self.chance(0.9) else self.one(*IDS)
        return {"jsonrpc": "2.0", "id": number, "method": method, "params": params}

    def notice(self, method: str, params) -> dict:
        return {"jsonrpc": "2.0", "method": method, "params": params}

    def open(self) -> dict:
        document = {"uri": self.uri(), "languageId": "c", "version": 1, "text": self.sent_text()}
        return self.notice("textDocument/didOpen", {"textDocument": document})

    def part(self, uri: str) -> dict:
        """A change of a part of a document, of which a range or a text may be wrong."""
        places = [self.position(uri) for _ in range(self.one(1, 2, 2))]
        if self.chance(0.9):
            places.sort(key=lambda it: (it["line"], it["character"]))
        texts = "", self.one(*WORDS), self.one(*ODD), self.one(*DEFINING), self.one(*HALVES)
        text = self.one(*texts) if self.chance(0.95) else self.sent_text()
        change: dict = {"range": {"start": places[0], "end": places[-1]}, "text": text}
        if self.chance(0.05):
            change["rangeLength"] = self.one(0, 3, *WRONG)
        if self.chance(0.04):
            change["range"] = self.one(None, {}, 7, [], {"start": places[0]}, {"end": places[0]})
        if self.chance(0.02):
            end = change["range"].get("end") if isinstance(change["range"], dict) else None
            if end is not None:
                change["range"]["end"] = {**end, "character": self.one(-1, 0.5, "0", None, 2**64)}
        return change

    def change(self) -> dict:
        uri = self.uri()
        whole = self.one(0.1, 0.5, 0.9)
        changes = [
            {"text": self.sent_text()} if self.chance(whole) else self.part(uri)
            for _ in range(self.one(1, 1, 1, 1, 0, 2, 3))
        ]
        document = {"uri": uri, "version": 2}
        return self.notice(
            "textDocument/didChange", {"textDocument": document, "contentChanges": changes}
        )

    def save(self) -> dict:
        params: dict = {"textDocument": {"uri": self.uri()}}
        if self.chance(0.3):
            params["text"] = self.sent_text()
        return self.notice("textDocument/didSave", params)

    def close(self) -> dict:
        return self.notice("textDocument/didClose", {"textDocument": {"uri": self.uri()}})

    def watched(self) -> dict:
        """File events, more often of files that are on disk."""
        changes = []
        for _ in range(self.one(1, 1, 2, 3)):
            uri = self.uri()
            if self.disk and self.chance(0.7):
                uri = "file://" + self.escaped(self.one(*self.disk).decode())
            changes.append({"uri": uri, "type": self.one(1, 2, 2, 3, 3)})
        return self.notice("workspace/didChangeWatchedFiles", {"changes": changes})

    def at_place(self) -> dict:
        uri = self.uri()
        shows = "definition", "declaration", "hover"
        asks = *shows, "documentHighlight", "prepareCallHierarchy", "completion"
        method = "textDocument/" + self.one(*asks)
        params = {"textDocument": {"uri": uri}, "position": self.position(uri)}
        return self.request(method, params)

    def about(self, file: bytes, only: bytes = b"", ways: tuple = WAYS) -> dict:
        """A question about a name that a file uses, maybe this one alone."""
        text = self.server.world.files.get(file, b"")
        uses = [it for it in self.server.facts(text).uses if only in (b"", it.name)]
        if not uses:
            return self.at_place()
        use, uri = self.one(*uses), self.uri_of(file)
        way = self.one(*ways)
        if way == "incoming":
            item = {"name": use.name.decode(), "uri": uri}
            return self.request("callHierarchy/incomingCalls", {"item": item})
        return self.at(file, use.place, way)

    def at(self, file: bytes, place: int, way: str) -> dict:
        """A question at a place of a file, with what any of them takes."""
        text = self.server.world.files[file]
        line, column = position_of(text, place, self.server.is_utf16)
        params: dict = {"textDocument": {"uri": self.uri_of(file)}}
        params["position"] = {"line": line, "character": column}
        params["context"] = {"includeDeclaration": self.one(True, False)}
        params["newName"] = self.one(*NEW_NAMES)
        return self.request(f"textDocument/{way}", params)

    def local(self):
        """A name that means something in its function or the line of its macro alone, and its file;
        or none."""
        files = self.server.world.files
        found = [(file, it) for file, text in files.items() for it in locals_of(text)]
        of_macros = [it for it in found if is_of_macro(files[it[0]], it[1])]
        if of_macros and self.chance(0.4):
            found = of_macros
        return self.one(*found) if found else None

    def about_local(self) -> dict:
        """A question at such a name."""
        found = self.local()
        if found is None:
            return self.at_place()
        file, token = found
        return self.at(file, token.place + self.one(0, 1, len(token.text)), self.one(*LOCAL_WAYS))

    def rename_local(self) -> dict:
        """A rename of a local, or the question whether there is one. Before it, a file that is not
        open is often opened."""
        files, found = self.server.world.files, self.local()
        if found is None:
            return self.at_place()
        file, token = found
        way = "prepareRename" if self.chance(0.15) else "rename"
        asked = self.at(file, token.place + self.one(0, 0, 1, len(token.text)), way)
        if way == "rename":
            asked["params"]["newName"] = self.new_name(files[file])
        if not self.server.may_edit(file) and self.chance(0.8):
            self.next.append(asked)
            return self.opened(file)
        return asked

    def new_name(self, text: bytes) -> str:
        """A new name: a fresh one, or one that is bad, taken or used, in the file or elsewhere."""
        kind = self.random.random()
        if kind < 0.6:
            return self.one("fresh", "q", "_2", "longer_name")
        if kind < 0.66:
            return self.one(*BAD_NAMES)
        if kind < 0.74:
            return self.one(*(it.text for it in locals_of(text))).decode()
        if kind < 0.85:
            definitions = [it.definition.name for it in self.server.places()]
            return self.one(*definitions, b"out").decode()
        if kind < 0.95:
            return self.one(*re.findall(rb"[A-Za-z_]\w*", text)).decode()
        return self.one(*NEW_NAMES)

    def about_crowd(self) -> dict:
        """A question about the name that all files of a crowd have."""
        files = self.server.world.files
        ways = ("references", "rename", "incoming") if self.chance(0.9) else WAYS
        return self.about(self.one(*files), b"f", ways) if files else self.at_place()

    def about_shown(self) -> dict:
        """A question about what is shown of a name that a file uses, or of what it calls."""
        if self.chance(0.15):
            return self.callees()
        files, name = self.server.world.files, self.one(*ALL_NAMES).encode()
        return self.about(self.one(*files), name, SHOWING) if files else self.at_place()

    def about_uses(self) -> dict:
        """A question about the uses of a name that means many things. Before a rename, the files
        that cannot be edited yet are often opened."""
        files, name = self.server.world.files, self.one(*self.uses.names).encode()
        words = rb"\b%s\b" % name  # those of comments and strings, too
        found = [(it, at.start()) for it in files for at in re.finditer(words, files[it])]
        if not found:
            return self.at_place()
        file, place = self.one(*found)
        asked = self.at(file, place + self.one(0, 0, len(name)), self.one(*USES_WAYS))
        if not asked["method"].endswith("/rename"):
            return asked
        others = self.one(*BAD_NAMES), self.one(*NEW_NAMES), self.one(*WORDS)
        asked["params"]["newName"] = self.one(*["fresh", "longer_name"] * 4, *others)
        if not self.stays_closed and self.chance(0.7):
            closed = [it for it in files if not self.server.may_edit(it)]
            self.next += [self.opened(it) for it in closed if self.chance(0.95)]
        return self.first_of(asked)

    def first_of(self, last: dict) -> dict:
        """The first of what is to be sent next, of which this is the last."""
        self.next.append(last)
        return self.next.pop(0)

    def references(self) -> dict:
        uri = self.uri()
        params = {"textDocument": {"uri": uri}, "position": self.position(uri)}
        wanted = self.one(True, False) if self.chance(0.9) else self.one(*WRONG)
        if self.chance(0.95):
            params["context"] = {"includeDeclaration": wanted}
        return self.request("textDocument/references", params)

    def uri_of(self, name: bytes) -> str:
        root = self.server.root.path.decode("utf-8", "replace")
        path = "" if name.startswith(b"/") else f"{root}/"
        return "file://" + self.escaped(path + name.decode())

    def used(self) -> tuple[str, dict]:
        """The URI of a file and a place there, more often that of a use of a defined name."""
        definitions = {it.definition.name for it in self.server.places()}
        places = [
            (name, text, it.place)
            for name, text in self.server.world.files.items()
            for it in self.server.facts(text).uses
            if it.name in definitions
        ]
        if not places or self.chance(0.3):
            uri = self.uri()
            return uri, self.position(uri)
        name, text, place = self.one(*places)
        line, column = position_of(text, place, self.server.is_utf16)
        return self.uri_of(name), {"line": line, "character": column}

    def opened(self, name: bytes) -> dict:
        """A file is opened with the text that it has."""
        text = self.server.world.files[name].decode("utf-8", "replace")
        document = {"uri": self.uri_of(name), "text": text}
        return self.notice("textDocument/didOpen", {"textDocument": document})

    def rename(self) -> dict:
        """A request that renames, or what leads to it: most files that cannot be edited yet are
        opened before, and a few others."""
        may_open = self.chance(0.1 if self.stays_closed else 0.6)
        if not self.is_renaming and self.server.world.files and may_open:
            self.is_renaming = True
            for name in self.server.world.files:
                if self.chance(0.2 if self.server.may_edit(name) else 0.9):
                    self.next.append(self.opened(name))
            if self.next:
                return self.next.pop(0)
        self.is_renaming = self.is_renaming and self.chance(0.7)
        uri, position = self.used()
        params = {"textDocument": {"uri": uri}, "position": position}
        if self.chance(0.3):
            return self.request("textDocument/prepareRename", params)
        if self.chance(0.97):
            params["newName"] = self.one(*NEW_NAMES) if self.chance(0.95) else self.one(*WRONG)
        return self.request("textDocument/rename", params)

    def make_edits(self, reply: dict) -> None:
        """Sends the edits of a reply as changes, from the last one of a file on, and notes which
        names are used then. A file that is not open is opened before."""
        for uri, edits in reply["result"]["changes"].items():
            name = self.server.file_of({"textDocument": {"uri": uri}})
            text = self.server.world.files[name]
            if name not in self.server.documents:
                if text.decode("utf-8", "replace").encode() != text:
                    continue  # a message cannot carry it
                self.next.append(self.opened(name))
            uses = self.server.facts(text).uses
            names, ends = {it.place: it.name for it in uses}, ("line", "character")
            for edit in edits:
                start = [edit["range"]["start"][it] for it in ends]
                names[place_of(text, *start, self.server.is_utf16)] = edit["newText"].encode()
            self.edited[name] = [names[place] for place in sorted(names)]
            changes = [{"range": it["range"], "text": it["newText"]} for it in reversed(edits)]
            document = {"uri": uri, "version": 3}
            self.next.append(
                self.notice(
                    "textDocument/didChange", {"textDocument": document, "contentChanges": changes}
                )
            )

    def follow(self, written: bytes) -> None:
        """What a client does after what the server wrote."""
        while self.edited and not self.next:
            name, names = self.edited.popitem()
            text = self.server.world.files[name]
            if self.server.documents[name].is_lost:
                continue  # it is too large then
            if names != [it.name for it in self.server.facts(text).uses]:
                raise Difference(f"{name!r} does not use {names} after its edits: {text!r}")
        if b'"result":{"changes":{' in written and self.chance(0.7):
            # what was told before the reply stands before it
            self.make_edits(json.loads(written.rpartition(b"\r\n\r\n")[2]))

    def symbols(self) -> dict:
        return self.request("textDocument/documentSymbol", {"textDocument": {"uri": self.uri()}})

    def folds(self) -> dict:
        return self.request("textDocument/foldingRange", {"textDocument": {"uri": self.uri()}})

    def all_symbols(self) -> dict:
        return self.request("workspace/symbol", {"query": self.one(*QUERIES)})

    def calls(self) -> dict:
        """Who calls a name."""
        item = {"name": self.one(*QUERIES), "kind": 12, "uri": self.uri()}
        return self.request("callHierarchy/incomingCalls", {"item": item})

    def calling(self) -> tuple[str, str, dict]:
        """A name, and a place of a file by its URI: more often those of one that calls."""
        callers = [
            (name, text, it.caller, it.caller_place)
            for name, text in self.server.world.files.items()
            for it in self.server.facts(text).calls
        ]
        if not callers or self.chance(0.1):
            uri = self.uri()
            return self.one(*QUERIES), uri, self.position(uri)
        file, text, caller, place = self.one(*callers)
        line, column = position_of(text, place, self.server.is_utf16)
        position = {"line": line, "character": column}
        odd = self.one("", "", "", "", "name", "place")
        if odd == "place":
            position[self.one("line", "character")] += 1
        name = self.one(*WORDS) if odd == "name" else caller.decode("utf-8", "replace")
        return name, self.uri_of(file), position

    def callees(self) -> dict:
        """What a function or macro calls."""
        name, uri, position = self.calling()
        item = {"name": name, "uri": uri, "selectionRange": {"start": position, "end": position}}
        return self.request("callHierarchy/outgoingCalls", {"item": item})

    def other(self) -> dict:
        if self.chance(0.5):
            return self.notice(self.one(*QUIET), self.one(*WRONG))
        return self.request(self.one(*METHODS), self.one(*WRONG))

    def wrong(self) -> dict:
        """A message of which one member, at any depth, has another value or is missing."""
        documents = self.open, self.change, self.save, self.close
        places = self.at_place, self.references, self.rename, self.symbols
        calls = self.calls, self.callees, self.folds
        made = self.one(*documents, *places, *calls, self.initialize)()
        inside, name = made, self.one("params", "params", "params", "id", "method")
        while name in inside:
            value = inside[name]
            if isinstance(value, dict) and value and self.chance(0.8):
                inside, name = value, self.one(*value)
            elif self.chance(0.3):
                del inside[name]
            elif name == "id":
                inside[name] = self.one(*NO_IDS)
                break
            else:
                inside[name] = self.one(*(it for it in WRONG if type(it) is not type(value)))
                break
        return made

    def message(self) -> bytes:
        """The body of a message."""
        phase = self.server.phase
        if self.next:
            return json.dumps(self.next.pop(0)).encode()
        if self.is_renaming:
            return self.encoded(self.rename())
        if phase == "fresh" and self.chance(0.8):
            return self.encoded(self.initialize())
        weights = {
            self.open: 0.5 if self.stays_closed else 6,
            self.change: 8 if self.server.documents else 1,
            self.save: 2,
            self.close: 2 if self.server.documents else 0.3,
            self.watched: 4 if self.disk else 1,
            self.at_place: 14,
            self.references: 6,
            self.about_local: 8,
            self.about_crowd: 40 if self.is_crowd else 0,
            self.about_shown: 200 if self.is_of_includes else 4,
            self.about_uses: 200 if self.is_of_uses else 4,
            self.rename: 20 if self.stays_closed else 4,
            self.rename_local: 60 if self.is_of_locals else 6,
            self.symbols: 5,
            self.all_symbols: 4,
            self.calls: 4,
            self.callees: 5,
            self.folds: 3,
            self.other: 1,
            self.wrong: 2,
            self.initialize: 0.2,
            self.end: 0.2 if phase != "down" else 2,
            self.no_message: 1,
            self.cut_message: 0.6 if self.server.documents else 0.1,
        }
        made = self.random.choices([*weights], [*weights.values()])[0]()
        return made if isinstance(made, bytes) else self.encoded(made)

    def end(self) -> dict:
        if self.chance(0.6):
            return self.request("shutdown", self.one(*WRONG))
        return self.notice("exit", None)

    def no_message(self) -> bytes:
        return self.one(self.one(*NO_JSON), self.one(*NO_REQUESTS), self.one(*REPLIES))

    def cut_message(self) -> bytes:
        """A message about a document that is cut, or goes on behind its end."""
        body = self.encoded(self.one(self.change, self.change, self.open, self.close)())
        return self.one(body[:-1], body[: self.random.randint(0, len(body))], body + b"}")

    def encoded(self, value: dict) -> bytes:
        """The body of a value, in one of the ways to write it."""
        members = [*value.items()]
        if self.chance(0.3):
            self.random.shuffle(members)
        if self.chance(0.1):
            members.insert(0, ("x\u00e9", {"id": [1.5e3, -0.0, None]}))
        text = json.dumps(
            dict(members),
            ensure_ascii=self.chance(0.3),
            indent=self.one(None, None, None, 1, "\t"),
            separators=self.one((",", ":"), (", ", ": "), (" ,", " :\r\n")),
        )
        if self.chance(0.1):
            text = text.replace("/", "\\/")
        if self.chance(0.5):
            text = text.replace('"-0"', "-0")
        if self.chance(0.2):
            text = re.sub(r"\\ud[89a-f]..", lambda it: "\\u" + it[0][2:].upper(), text)
        if self.chance(0.05):
            # of two members with one name the last counts
            text = '{"id":"first","method":"first","params":[],' + text[1:]
            text += " \n"
        body = text.replace(RAW, "\x00" if RAW in text else "").encode("utf-8", "surrogatepass")
        return b"".join(self.one(*BAD) if it == b"\x00" else it for it in re.split(b"(\x00)", body))

    def too_large(self) -> bytes:
        """A message that is dropped for its size."""
        self.server.drop_body(b"too large")
        return frame(b"x" * (MOST_BODY + 1))

    def framed(self, body: bytes) -> bytes:
        if self.chance(0.8):
            return frame(body)
        name = self.one(b"content-length", b"CONTENT-LENGTH", b"Content-Length")
        line = name + b":" + self.one(b"", b" ", b"\t ") + self.one(b"%d", b"%09d") % len(body)
        lines = [line + self.one(b"", b" ", b"\t")]
        if self.chance(0.5):
            kind = b"Content-Type: application/vscode-jsonrpc; charset=utf-8"
            lines.insert(self.one(0, 1), self.one(kind, b"X:", b"!~:::"))
        return b"\r\n".join([*lines, b"", body])

    def session(self) -> Session:
        data, left, is_open, root = b"", self.random.randint(3, 60), True, self.disk.copy()
        while left and is_open:
            if self.server.documents and self.chance(0.001):
                data += self.too_large()
            if self.is_written and self.chance(0.15):
                self.server.take(SYNC)
                data += frame(SYNC)
                for _ in range(self.one(1, 1, 2, 4)):
                    self.write(len(data))
            body = self.message()
            more = self.framed(body)
            before = len(self.server.out)
            try:
                self.server.take(body)
                self.follow(self.server.out[before:])
            except Ended:
                is_open = self.chance(0.1)  # what comes after the end is not read
            data, left = data + more, left - 1
        if is_open and self.chance(0.05):
            data += self.one(*BAD_HEADS)
        elif self.chance(0.1):
            data = data[: self.random.randint(len(data) - len(more), len(data))]
        words = ["lsp", *self.bounds.words()]
        words = [it if isinstance(it, str) else it.decode() for it in words]
        if self.profile:
            words += ["--wide"] + ["--prototypes"] * (self.profile == b"--prototypes")
        if self.folder is not None:
            words += self.one(["--root", self.folder], [f"--root={self.folder}"])
        words += ["--", *self.files]
        folder = self.folder and self.folder.encode()
        how = {"bounds": self.bounds, "profile": self.profile, "folder": folder, "disk": root}
        below = self.home if self.is_below else None
        return Session(words, self.files, self.start, below, data, self.writes, how)


# ---- runs


def run(cbrowse: str, session: Session, pieces: random.Random) -> Outcome:
    """The program over a session, which comes in pieces that it reads one by one."""
    with tempfile.TemporaryDirectory() as home, tempfile.TemporaryFile() as out:
        for what in session.root:
            do_on_disk(*what)
        folder = session.below or home
        for word, text in session.files.items():
            path = pathlib.Path(folder, word)
            if not path.exists():
                do_on_disk("replace", os.fsencode(path), text)
        near, far = os.pipe2(os.O_CLOEXEC | os.O_DIRECT)
        how = {"stdin": near, "stdout": out, "stderr": subprocess.PIPE, "cwd": folder}
        started = subprocess.Popen([cbrowse, *session.words], **how)
        os.close(near)
        place, most = 0, pieces.choice([10, 100, 1_000, 4_096])
        most = most if len(session.data) < 20_000 else 4_096
        places = [*dict.fromkeys(it.place for it in session.writes), len(session.data)]
        try:
            for number, end in enumerate(places, 1):
                while place < end:
                    size = min(pieces.randint(1, most), end - place)
                    place += os.write(far, session.data[place : place + size])
                if number < len(places):
                    wait_for(number, out.fileno(), started)
                for write in session.writes:
                    if write.place == end and number < len(places):
                        do_on_disk(*write.what)
        except BrokenPipeError:
            pass  # it ended before it read all
        os.close(far)
        said = started.communicate(timeout=PATIENCE)[1]
        out.seek(0)
        return Outcome(out.read(), said, started.returncode)


def wait_for(number: int, out: int, started: subprocess.Popen) -> None:
    """Waits until so many replies say that all before was read, or the run has ended."""
    until = time.monotonic() + PATIENCE
    while os.pread(out, 1 << 26, 0).count(b'"id":"sync",') < number and started.poll() is None:
        if time.monotonic() > until:
            raise subprocess.TimeoutExpired(started.args, PATIENCE)
        time.sleep(0.0005)


def compare(cbrowse: str, seed: int) -> tuple[collections.Counter, collections.Counter]:
    """Compares one session; how often each message was sent, and each reply came."""
    with tempfile.TemporaryDirectory() as home:
        return compare_in(home, cbrowse, seed)


def expected(session: Session) -> Outcome:
    """What the model writes in a session."""
    operands = [(name.encode(), text) for name, text in session.files.items()]
    how = {**session.how, "disk": session.how["disk"].copy()}
    return serve(operands, session.data, session.writes, **how)


def compare_in(home: str, cbrowse: str, seed: int):
    session = Editor(seed, home).session()
    meant, found = expected(session), run(cbrowse, session, random.Random(seed))
    if found != meant:
        same = len(os.path.commonprefix([found.out, meant.out]))
        start = max(same - 300, 0)
        shown = re.sub(rb"x{100,}", lambda it: b"(%d of x)" % len(it[0]), session.data)
        raise Difference(
            "\n".join(
                [
                    f"the session of seed {seed} differs",
                    *(f"file {name}: {text!r}" for name, text in session.files.items()),
                    *(f"root: {what}" for what in session.root),
                    *(f"written: {write}" for write in session.writes),
                    f"words: {session.words!r}",
                    f"input: {shown[:60_000]!r}",
                    f"expected, from byte {start} on: {meant.out[start:start + 1500]!r}"
                    f" {meant[1:]}",
                    f"found: {found.out[start:start + 1500]!r} {found[1:]}",
                    f"the first other byte is number {same}",
                ]
            )
        )
    methods = re.findall(rb'"method" ?:\s*"([^"]*)"', session.data)
    sent = collections.Counter(it.replace(b"\\/", b"/") or b"none" for it in methods)
    kinds = rb'"(?:message|result)":("[^"]{0,40}|null|\[\]|\[|\{"[A-Za-z]+")'
    out, error = (
        re.sub(rb"cbrowse: \S+:", b"cbrowse: NAME:", it) for it in (meant.out, meant.error)
    )
    came = re.sub(REFUSED_FOR, rb"\1: NAME", out)
    told = collections.Counter(re.findall(kinds, came))
    told.update(re.findall(rb'\}\},"(kind":[123])\}', came))
    told[b"status %d %s" % (meant.status, error.strip())] += 1
    return sent, told


def batch(cbrowse: str, first: int, number: int):
    """Some sessions by their seeds: the first difference, if there is one, and what was met."""
    sent, told = collections.Counter(), collections.Counter()
    for seed in range(first, first + number):
        try:
            more = compare(cbrowse, seed)
        except Difference as difference:
            return str(difference), sent, told
        sent, told = sent + more[0], told + more[1]
    return None, sent, told


def self_test(first: int, number: int) -> int:
    """Looks for the first session that tells each wrong rule from the right one."""
    left = [*RENAME_PLANTS, *SHOWN_PLANTS, *USES_PLANTS]
    for seed in range(first, first + number):
        with tempfile.TemporaryDirectory() as home:
            session = Editor(seed, home).session()
        right = expected(session)
        for plant in [*left]:
            is_tree = issubclass(plant, Tree)
            Server.tree_of, Server.uses_of = (plant, Uses) if is_tree else (Tree, plant)
            if expected(session) != right:
                print(f"{plant.__name__}: session {seed - first + 1}, of seed {seed}", flush=True)
                left.remove(plant)
        Server.tree_of, Server.uses_of = Tree, Uses
        if not left:
            break
    for plant in left:
        print(f"FAILED: {plant.__name__} is not found in {number} sessions")
    return 1 if left else 0


def main() -> None:
    parser = options(__doc__)
    parser.add_argument(
        "--sessions", type=int, default=3_000, help="how many random sessions, 3,000 by default"
    )
    parser.add_argument(
        "--first", type=int, default=1, help="the seed of the first one, 1 by default"
    )
    parser.add_argument(
        "-j", dest="workers", type=int, default=2, help="how many at once, 2 by default"
    )
    parser.add_argument("--self-test", action="store_true", help="wrong rules have to be found")
    if "--self-test" in sys.argv:
        given = parser.parse_args()
        raise SystemExit(self_test(given.first, given.sessions))
    given = words_given(parser)
    sent, told = collections.Counter(), collections.Counter()
    last = given.first + given.sessions
    with concurrent.futures.ProcessPoolExecutor(given.workers) as pool:
        jobs = [
            pool.submit(batch, given.cbrowse, first, min(BATCH, last - first))
            for first in range(given.first, last, BATCH)
        ]
        for job in jobs:
            difference, *more = job.result()
            if difference:
                pool.shutdown(cancel_futures=True)
                raise SystemExit(difference)
            sent, told = sent + more[0], told + more[1]
    print(f"{given.sessions} random sessions from seed {given.first} on: no difference")
    for title, counts in ("sent", sent), ("came", told):
        print(
            f"{title}: "
            + ", ".join(
                f"{word.decode('utf-8', 'replace')} {count}"
                for word, count in sorted(counts.items())
            )
        )


if __name__ == "__main__":
    main()
