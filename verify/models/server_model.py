"""What `cbrowse lsp` writes: a model of the language server, written from its rules alone.

Messages are framed and judged here, documents are opened, changed and closed, and requests are
answered. What texts hold is in `text_model.py` and `wide_model.py`, what a name means in its
function alone in `locals_model.py`. What is shown of any other name, and what a rename of a local
does, is in `reach_model.py`, and which uses such a name has in `uses_model.py`. Which texts and
names of files are accepted is in `session_model.py`, and what is found on disk in `disk_model.py`.
Memory never runs out here.
"""

from __future__ import annotations

import functools
import json
import re
import sys
from typing import Callable, NamedTuple, Optional

import text_model
import wide_model
from disk_model import GONE, LINKED, UNREADABLE, Disk
from locals_model import local_at, names_of, space_at, visible_at
from reach_model import Refusal, Tree
from session_model import Bounds, Outcome, Refused, World, drop, is_file_name, load, reload, told
from text_model import RESERVED, cut_lines, headers, is_counted_alike
from uses_model import KINDS_OF_SORT, MEMBER, Uses

sys.set_int_max_str_digits(0)
MOST_HEAD, MOST_BODY, MOST_DEPTH = 4_096, 16_000_000, 128
MOST_SYMBOLS, MOST_HOVERED, MOST_COMPLETIONS = 1_000, 8, 1_000
MOST_LINE, MOST_QUERY, MOST_READ_AGAIN = 400, 255, 64
MOST_AHEAD = 64  # events that are looked at for the same one
DROPPED = b"out of date, a message was dropped: close the file and open it again"
WELCOME = (
    b'{"capabilities":{"positionEncoding":"%s",'
    b'"textDocumentSync":{"openClose":true,"change":2,"save":true},"hoverProvider":true,'
    b'"completionProvider":{},'
    b'"definitionProvider":true,"declarationProvider":true,"referencesProvider":true,'
    b'"documentHighlightProvider":true,"documentSymbolProvider":true,'
    b'"workspaceSymbolProvider":true,"renameProvider":%s,'
    b'"callHierarchyProvider":true,"foldingRangeProvider":true},'
    b'"serverInfo":{"name":"cbrowse","version":"0.1.0"}}'
)
# which files a client is asked to tell of
WATCHERS = (
    b'{"registrations":[{"id":"files","method":"workspace/didChangeWatchedFiles",'
    b'"registerOptions":{"watchers":[{"globPattern":"**/*.[ch]"}]}}]}'
)
# by the letters of definitions: functions, macros, typedefs, structures, unions, enumerations;
# enumerators, members, variables, external declarations, prototypes
KINDS = {
    b"f": 12,
    b"d": 14,
    b"t": 5,
    b"s": 23,
    b"u": 23,
    b"g": 10,
    b"e": 22,
    b"m": 8,
    b"v": 13,
    b"x": 13,
    b"p": 12,
}
COMPLETION_KINDS = {
    b"f": 3,
    b"d": 21,
    b"t": 7,
    b"s": 22,
    b"u": 22,
    b"g": 13,
    b"e": 20,
    b"m": 5,
    b"v": 6,
    b"x": 6,
    b"p": 3,
}
# how what is done with a local is marked: it is only named, read, written, its address is taken
MARKS = {"t": 1, "r": 2, "w": 3, "a": 3}
PROFILES: dict[bytes, Callable] = {
    b"": text_model.facts,
    b"--wide": lambda text: wide_model.without_prototypes(wide_model.facts(text)),
    b"--prototypes": wide_model.facts,
}
# the well-formed sequences of UTF-8, and any byte that begins none
SEQUENCE = re.compile(
    rb"""
    [\x00-\x7f] | [\xc2-\xdf][\x80-\xbf] | \xe0[\xa0-\xbf][\x80-\xbf]
    | [\xe1-\xec\xee\xef][\x80-\xbf]{2} | \xed[\x80-\x9f][\x80-\xbf]
    | \xf0[\x90-\xbf][\x80-\xbf]{2} | [\xf1-\xf3][\x80-\xbf]{3} | \xf4[\x80-\x8f][\x80-\xbf]{2}
    | (?P<lone> . )""",
    re.VERBOSE | re.DOTALL,
)
# escapes of both halves of a surrogate pair, of one half alone, and any other character
HALVES = re.compile(
    rb"""
    \\u[Dd][89ABab][0-9A-Fa-f]{2} \\u[Dd][C-Fc-f][0-9A-Fa-f]{2}
    | (?P<lone> \\u[Dd][89A-Fa-f][0-9A-Fa-f]{2} ) | \\. | .""",
    re.VERBOSE | re.DOTALL,
)
SHORT = {0x22: b'\\"', 0x5C: b"\\\\", 8: b"\\b", 12: b"\\f", 10: b"\\n", 13: b"\\r", 9: b"\\t"}


class Error(Exception):
    """A request is answered with an error; the code and the text."""


class Ended(Exception):
    """The run ends: the status, and what is said on standard error."""


BAD_PARAMETERS = Error(-32602, b"bad parameters")


# ---- JSON


class Number(NamedTuple):
    text: str
    is_whole: bool  # written without a point and an exponent

    @property
    def value(self):
        """The integer that is written, or none."""
        return int(self.text) if self.is_whole else None


def pairs(members):
    for name, value in members:
        refuse_lone(name)
        refuse_lone(value)
    return dict(members)


def refuse_lone(value):
    """Refuses a string with a lone surrogate, and a list with one."""
    if isinstance(value, str) and re.search("[\ud800-\udfff]", value):
        raise ValueError("a lone surrogate")
    if isinstance(value, list):
        for one in value:
            refuse_lone(one)
    return value


def no_number(text):
    raise ValueError(text)


DECODER = json.JSONDecoder(
    parse_int=lambda text: Number(text, True),
    parse_float=lambda text: Number(text, False),
    parse_constant=no_number,
    object_pairs_hook=pairs,
)


def depth_of(text):
    """How deep the brackets of a text are that stand in no string."""
    depth = deepest = 0
    without = re.sub(r'"(?:\\.|[^"\\])*("|$)', "", text, flags=re.DOTALL)
    for bracket in re.findall(r"[\[\]{}]", without):
        depth += 1 if bracket in "[{" else -1
        deepest = max(deepest, depth)
    return deepest


def with_whole_pairs(body):
    """A body with U+FFFD for each half of a surrogate pair without the other half."""
    return HALVES.sub(lambda it: b"\\uFFFD" if it["lone"] else it[0], body)


def parsed(body):
    """The value of a body, which is read once more where it is not JSON; it raises ValueError where
    the body is not JSON then either."""
    try:
        return parsed_once(body)
    except ValueError:
        return parsed_once(with_whole_pairs(body))


def parsed_once(body):
    """The value of a body; it raises ValueError where the body is not JSON as it stands."""
    text = body.decode("utf-8", "replace")
    if depth_of(text) > MOST_DEPTH:
        raise ValueError("too deep")
    return refuse_lone(DECODER.decode(text.strip(" \t\r\n")))


def member(value, *names):
    """The member of members of a value, or none."""
    for name in names:
        value = value.get(name) if isinstance(value, dict) else None
    return value


def string_of(value, *names):
    """A member that is a string, as UTF-8."""
    found = member(value, *names)
    if not isinstance(found, str):
        raise BAD_PARAMETERS
    return found.encode()


def is_declared_wanted(params):
    """Whether the uses that are names of definitions are asked for."""
    found = member(params, "context", "includeDeclaration")
    if not isinstance(found, bool):
        raise BAD_PARAMETERS
    return found


def natural(value, *names):
    """A member that is an integer from 0 up, and below 2^64."""
    found = member(value, *names)
    if not isinstance(found, Number) or found.value is None or not 0 <= found.value < 2**64:
        raise BAD_PARAMETERS
    return found.value


def quoted(text):
    """A string; each byte that belongs to no well-formed sequence is U+FFFD."""
    out = b""
    for found in SEQUENCE.finditer(text):
        byte = found[0][0]
        if found["lone"] is not None:
            out += "\ufffd".encode()
        elif byte in SHORT:
            out += SHORT[byte]
        else:
            out += b"\\u%04x" % byte if byte < 0x20 else found[0]
    return b'"%s"' % out


def listed(values):
    return b"[%s]" % b",".join(values)


# ---- frames


def frame(body):
    return b"Content-Length: %d\r\n\r\n%s" % (len(body), body)


def length_in(lines):
    """The length that the lines of a head give."""
    found = []
    for line in lines:
        field = re.fullmatch(rb"([!-9;-~]+):(.*)", line, re.DOTALL)
        if field is None:
            raise Ended(1, b"bad header")
        if field[1].lower() == b"content-length":
            found.append(field[2].strip(b" \t"))
    if len(found) != 1 or not re.fullmatch(rb"[0-9]{1,9}", found[0]):
        raise Ended(1, b"bad header")
    return int(found[0])


def head_at(data, place):
    """The length that a head gives, and where it ends."""
    lines, start = [], place
    while True:
        feed = data.find(b"\n", start)
        end = feed + 1 if feed >= 0 else len(data)
        if end - place > MOST_HEAD:
            raise Ended(1, b"bad header")
        if feed < 0:
            raise Ended(1, b"input ended")
        if data[start:feed][-1:] != b"\r":
            raise Ended(1, b"bad header")
        if feed == start + 1:
            return length_in(lines), end
        lines.append(data[start : feed - 1])
        start = end


# ---- texts and positions


@functools.lru_cache(maxsize=1024)
def starts(text):
    """Where the lines begin; after the last LF one begins too."""
    return [0, *(found.end() for found in re.finditer(b"\n", text))]


def shown(text, line):
    """Where a line begins, and the line without its end."""
    start = starts(text)[line]
    ends = cut_lines(text)
    return start, ends[line][0] if line < len(ends) else b""


def units_of(sequence, is_utf16):
    if not is_utf16:
        return len(sequence)
    return 2 if len(sequence) == 4 else 1


def cut(line, most):
    """The first characters of a line that have at most so many bytes."""
    end = 0
    for found in SEQUENCE.finditer(line):
        if found.end() > most:
            break
        end = found.end()
    return line[:end]


def width(line, is_utf16):
    return sum(units_of(found[0], is_utf16) for found in SEQUENCE.finditer(line))


def place_of(text, line, column, is_utf16):
    """The byte that a position names."""
    if line >= len(starts(text)):
        return len(text)
    start, whole = shown(text, line)
    if not is_utf16:
        return start + min(column, len(whole))
    for found in SEQUENCE.finditer(whole):
        column -= units_of(found[0], True)
        if column < 0:
            return start + found.start()
    return start + len(whole)


def position_of(text, place, is_utf16):
    line = text.count(b"\n", 0, place)
    return line, width(text[starts(text)[line] : place], is_utf16)


def position_form(position):
    return b'{"line":%d,"character":%d}' % position


def range_form(text, start, end, is_utf16):
    return b'{"start":%s,"end":%s}' % tuple(
        position_form(position_of(text, place, is_utf16)) for place in (start, end)
    )


def word_at(text, place):
    """Where the word at a place begins and ends, or none."""
    start = end = place
    while start and re.match(rb"\w", text[start - 1 : start]):
        start -= 1
    while re.match(rb"\w", text[end : end + 1]):
        end += 1
    word = text[start:end]
    is_name = word and not word[:1].isdigit() and word not in RESERVED
    return (start, end) if is_name else None


def header_at(text, place):
    """The header at a place, or directly before it."""
    for start, name in headers(text):
        if start <= place <= start + len(name):
            return name
    return None


# ---- names and URIs


FILE_URI = re.compile(rb"(file://(?:localhost)?)(/.*)", re.IGNORECASE | re.DOTALL)


def one_form(path):
    """A path without empty segments and without dots, and with a slash before each segment."""
    return b"".join(b"/" + it for it in path.split(b"/") if it not in (b"", b"."))


def path_of(uri):
    """The path of a file URI in its one form, or none."""
    found = FILE_URI.fullmatch(uri)
    if found is None:
        return None
    return one_form(re.sub(rb"%([0-9A-Fa-f]{2})", lambda it: bytes([int(it[1], 16)]), found[2]))


def may_be_named(name):
    """Whether a document can have a name: it is a file name, and has no segment of two dots."""
    return is_file_name(name) and b".." not in name.split(b"/")


def escaped(path):
    return b"".join(
        bytes([byte]) if re.match(rb"[A-Za-z0-9\-._~/]", bytes([byte])) else b"%%%02X" % byte
        for byte in path
    )


class Root(NamedTuple):
    """The folder of the names: its path, and the text of its URI."""

    path: bytes = b""
    uri: bytes = b"file://"

    def name_in(self, path):
        begin = self.path + b"/"
        return path[len(begin) :] if path.startswith(begin) else path

    def path_of(self, name):
        return name if name.startswith(b"/") else self.path + b"/" + name

    def uri_of(self, name):
        if name.startswith(b"/"):
            return b"file://" + escaped(name)
        return self.uri + b"/" + escaped(name)


def name_of_operand(given, root):
    """The name of a FILE, below a root if there is one."""
    path = one_form(given)
    if not given.startswith(b"/"):
        return path[1:]
    return path if root is None else root.name_in(path)


def root_of_words(folder):
    path = folder.rstrip(b"/")
    return Root(one_form(path), b"file://" + escaped(path))


def root_of_uri(uri):
    """The root that a client gives by a file URI, whose text stays without slashes at its end."""
    begin, path = FILE_URI.fullmatch(uri).groups()
    return Root(path_of(uri), begin + path.rstrip(b"/"))


# ---- the server


class Document(NamedTuple):
    """An open document: the text that it goes back to, and whether it is lost."""

    kept: Optional[bytes]
    is_lost: bool = False


class Change(NamedTuple):
    """A change of a document: another text, or one in place of what stands in a range."""

    text: bytes
    start: Optional[tuple[int, int]] = None
    end: Optional[tuple[int, int]] = None

    def made_in(self, text, is_utf16):
        """The text after it; none where a part would be put into no text."""
        if self.start is None:
            return self.text
        if text is None:
            return None
        start = place_of(text, *self.start, is_utf16)
        end = max(start, place_of(text, *self.end, is_utf16))
        return text[:start] + self.text + text[end:]


def changes_of(params):
    """The changes of a notification."""
    listed = member(params, "contentChanges")
    if not isinstance(listed, list):
        raise BAD_PARAMETERS
    changes = []
    for one in listed:
        text, places = string_of(one, "text"), ()
        if member(one, "range") is not None:
            names = "line", "character"
            places = [
                tuple(natural(one, "range", end, name) for name in names)
                for end in ("start", "end")
            ]
        changes.append(Change(text, *places))
    return changes


# The kinds of definitions that a name in a space is looked for in: the first that it has count.
ORDINARY = b"fdtevxp"
KINDS_OF_SPACES = {
    None: [ORDINARY + b"sugm"],
    "member": [b"m", b"d"],
    "struct": [b"s", b"sug", b"d"],
    "union": [b"u", b"sug", b"d"],
    "enum": [b"g", b"sug", b"d"],
    "called": [b"fdp", ORDINARY],
    "plain": [ORDINARY],
    "macro": [b"d"],
}


def of_kinds(places, kinds):
    return [it for it in places if it.definition.kind in kinds]


class Place(NamedTuple):
    """A definition in its file."""

    file: bytes
    definition: text_model.Definition

    @property
    def kind(self):
        return self.definition.kind

    @property
    def place(self):
        return self.definition.place

    @property
    def is_local(self):
        return self.definition.local


class Server:
    """The state of a server, and what it has written."""

    tree_of = Tree  # what is shown of a name, and what a rename of a local does
    uses_of = Uses  # which uses any other name has

    def __init__(self, bounds=Bounds(), profile=b"", folder=None, disk=None):
        self.world, self.documents = World({}, bounds=bounds), {}
        self.disk = Disk() if disk is None else disk
        self.facts = PROFILES[profile]
        self.root = Root() if folder is None else root_of_words(folder)
        self.is_root_given = folder is not None
        self.phase, self.is_utf16, self.is_tree = "fresh", True, False
        self.watches = False
        self.out = b""

    # ---- what is written

    def put(self, text):
        self.out += frame(b'{"jsonrpc":"2.0",%s}' % text)

    def log(self, text):
        params = b'{"type":1,"message":"cbrowse: %s"}' % text
        self.put(b'"method":"window/logMessage","params":%s' % params)

    def show(self, name, text):
        message = quoted(b"cbrowse: %s: %s" % (name, text))
        self.put(b'"method":"window/showMessage","params":{"type":2,"message":%s}' % message)

    # ---- messages

    def run(self, data, writes=()):
        """Reads messages until the run ends: what is written, said, and the status. Before the
        message at a place is read, the disk is written to as `writes` has it for that place."""
        place, writes = 0, [*writes]
        try:
            while place < len(data):
                while writes and writes[0].place <= place:
                    self.disk.do(*writes.pop(0).what)
                size, start = head_at(data, place)
                place = start + size
                if place > len(data):
                    raise Ended(1, b"input ended")
                if size > MOST_BODY:
                    self.drop_body(b"too large")
                else:
                    self.take(data[start:place])
            raise Ended(0 if self.phase == "down" else 1, b"")
        except Ended as ended:
            status, said = ended.args
        return Outcome(self.out, b"cbrowse: %s\n" % said if said else b"", status)

    def drop_body(self, text):
        """A body is dropped, which may have been a change: every document is lost."""
        self.log(text)
        for name, document in self.documents.items():
            self.lose(name, document.kept, DROPPED)

    def take(self, body):
        """What a message says: a request, a notification, or nothing that counts."""
        try:
            value = parsed(body)
        except ValueError:
            return self.drop_body(b"not JSON")
        if not isinstance(value, dict):
            return self.log(b"not a request")
        if "method" not in value and "id" in value and ("result" in value or "error" in value):
            return None
        method, params = value.get("method"), value.get("params")
        if not isinstance(method, str):
            return self.log(b"not a request")
        if "id" not in value:
            return self.notice(method, params)
        number = value["id"]
        if isinstance(number, str):
            return self.answer(quoted(number.encode()), method, params)
        if isinstance(number, Number) and number.is_whole and -(2**63) <= number.value < 2**63:
            return self.answer(b"%d" % number.value, method, params)
        return self.log(b"not a request")

    def notice(self, method, params):
        if method == "exit":
            raise Ended(0 if self.phase == "down" else 1, b"")
        notices = {
            "initialized": self.initialized,
            "textDocument/didOpen": self.did_open,
            "textDocument/didChange": self.did_change,
            "textDocument/didSave": self.did_save,
            "textDocument/didClose": self.did_close,
            "workspace/didChangeWatchedFiles": self.did_change_watched,
        }
        if self.phase == "running" and method in notices:
            try:
                notices[method](params)
            except Error:
                pass

    def answer(self, number, method, params):
        try:
            reply = b'"result":' + self.result_of(method, params)
        except Error as error:
            reply = b'"error":{"code":%d,"message":"%s"}' % error.args
        self.put(b'"id":%s,%s' % (number, reply))

    def result_of(self, method, params):
        if self.phase == "fresh" and method != "initialize":
            raise Error(-32002, b"not initialized")
        if self.phase == "down":
            raise Error(-32600, b"shut down")
        results = {
            "initialize": self.initialize,
            "shutdown": self.shutdown,
            "textDocument/definition": self.definition,
            "textDocument/declaration": self.declaration,
            "textDocument/hover": self.hover,
            "textDocument/references": self.references,
            "textDocument/prepareRename": self.prepare_rename,
            "textDocument/rename": self.rename,
            "textDocument/documentHighlight": self.highlights,
            "textDocument/documentSymbol": self.document_symbol,
            "workspace/symbol": self.workspace_symbol,
            "textDocument/completion": self.completion,
            "textDocument/prepareCallHierarchy": self.prepare_calls,
            "callHierarchy/incomingCalls": self.incoming_calls,
            "callHierarchy/outgoingCalls": self.outgoing_calls,
            "textDocument/foldingRange": self.folding,
        }
        if method not in results:
            raise Error(-32601, b"unknown method")
        if not self.watches:
            self.read_named(method, params)
        return results[method](params)

    # ---- its life

    def initialize(self, params):
        if self.phase != "fresh":
            raise Error(-32600, b"initialized already")
        self.phase = "running"
        folders = member(params, "workspaceFolders")
        folder = member(folders[0], "uri") if isinstance(folders, list) and folders else None
        uri = folder if isinstance(folder, str) else member(params, "rootUri")
        is_file = isinstance(uri, str) and path_of(uri.encode()) is not None
        if is_file and not self.is_root_given:
            self.root = root_of_uri(uri.encode())
        encodings = member(params, "capabilities", "general", "positionEncodings")
        self.is_utf16 = not (isinstance(encodings, list) and "utf-8" in encodings)
        names = "capabilities", "textDocument", "documentSymbol"
        self.is_tree = member(params, *names, "hierarchicalDocumentSymbolSupport") is True
        names = "capabilities", "workspace", "didChangeWatchedFiles", "dynamicRegistration"
        self.watches = member(params, *names) is True
        names = "capabilities", "textDocument", "rename", "prepareSupport"
        renaming = b'{"prepareProvider":true}' if member(params, *names) is True else b"true"
        return WELCOME % (b"utf-16" if self.is_utf16 else b"utf-8", renaming)

    def initialized(self, _):
        if self.watches:
            self.put(b'"id":"watch","method":"client/registerCapability","params":' + WATCHERS)

    def shutdown(self, _):
        self.phase = "down"
        return b"null"

    # ---- documents

    def file_of(self, params):
        """The name of the file that a request is about, or none."""
        path = path_of(string_of(params, "textDocument", "uri"))
        return None if path is None else self.root.name_in(path)

    def document_of(self, params):
        """The name of the file that a notification is about, or none."""
        name = self.file_of(params)
        return name if name is not None and may_be_named(name) else None

    def store(self, name, text):
        """Gives a file a text, or says why not."""
        try:
            change = reload if name in self.world.files else load
            self.world = change(self.world, name, text)
        except Refused as refused:
            return str(refused).encode()
        return None

    def lose(self, name, kept, refusal):
        """A text of a document was not taken: the client is told once."""
        before = self.documents.get(name)
        if before is None or not before.is_lost:
            self.show(name, refusal)
        self.documents[name] = Document(kept, True)

    def did_open(self, params):
        path, name = path_of(string_of(params, "textDocument", "uri")), self.document_of(params)
        if path is None or path[-2:] not in (b".c", b".h"):
            return
        if name is None:
            self.show(escaped(path), b"bad name")
            return
        text = string_of(params, "textDocument", "text")
        refusal = self.store(name, text)
        if refusal is None:
            self.documents[name] = Document(text)
        else:
            self.lose(name, None, refusal)

    def did_change(self, params):
        name = self.document_of(params)
        if name not in self.documents:
            return
        kept, is_lost = self.documents[name]
        try:
            changes = changes_of(params)
        except Error:
            self.lose(name, kept, b"bad parameters")
            return
        text = None if is_lost else self.world.files[name]
        for change in changes:
            text = change.made_in(text, self.is_utf16)
        if not changes or text is None:
            return
        refusal = self.store(name, text)
        if refusal is None:
            self.documents[name] = Document(kept)
        else:
            self.lose(name, kept, refusal)

    def did_save(self, params):
        name = self.document_of(params)
        if name in self.documents and not self.documents[name].is_lost:
            self.documents[name] = Document(self.world.files[name])

    def did_close(self, params):
        name = self.document_of(params)
        if name in self.documents:
            kept = self.documents.pop(name).kept
            found = self.disk.read(path_of(string_of(params, "textDocument", "uri")))
            self.give(name, kept if found is GONE and kept is not None else found)

    def give(self, name, found):
        """Gives a file the text that is found, if there is one."""
        if found in (GONE, LINKED):
            return
        refusal = b"cannot be read" if found is UNREADABLE else self.store(name, found)
        if refusal is not None:
            self.show(name, refusal)

    def did_change_watched(self, params):
        changes = member(params, "changes")
        if not isinstance(changes, list):
            return
        for place, change in enumerate(changes):
            kind, uri = member(change, "type"), member(change, "uri")
            if not isinstance(uri, str) or not isinstance(kind, Number):
                continue
            behind = changes[place + 1 : place + 1 + MOST_AHEAD]
            if said_by(change) is not None and said_by(change) in map(said_by, behind):
                continue
            path = path_of(uri.encode())
            name = None if path is None else self.root.name_in(path)
            if name is None or name in self.documents:
                continue
            may_come = may_be_named(name) and name != path
            if kind.value == 3 and name in self.world.files:
                self.world = drop(self.world, name)
            elif kind.value in (1, 2) and name in self.world.files:
                self.give(name, self.disk.read(path))
            elif kind.value in (1, 2) and may_come:
                self.give(name, self.disk.read(path, alone=True))

    # ---- files that no event reports

    def read_named(self, method, params):
        """Reads the files again that the answer of a question names."""
        name, is_of_uses = self.asked_about(method, params)
        defining = {it.file for it in self.named(name)[0]}
        using = {
            file
            for file, text in self.world.files.items()
            if is_of_uses and any(use.name == name for use in self.facts(text).uses)
        }
        files = [*sorted(defining), *sorted(using), *self.named_besides(method, params)]
        for file in [*dict.fromkeys(files)][:MOST_READ_AGAIN]:
            if file in self.documents:
                continue
            found = self.disk.read(self.root.path_of(file))
            if found not in (GONE, UNREADABLE, b""):
                self.give(file, found)

    def named_besides(self, method, params):
        """The files of the symbols of a query, and those of what a function calls."""
        if method == "workspace/symbol":
            return [it.file for it in self.found_by(string_of(params, "query"))]
        if method == "callHierarchy/outgoingCalls":
            return [it.file for it, _ in self.called(*self.item_of(method, params))]
        return []

    def asked_about(self, method, params):
        """The name that a question is about, if there is one, and whether its uses count."""
        if method.startswith("callHierarchy/"):
            return self.item_of(method, params)[0], method == "callHierarchy/incomingCalls"
        is_of_uses = method in ("textDocument/references", "textDocument/rename")
        asks = "definition", "declaration", "hover", "prepareCallHierarchy", "references", "rename"
        if method not in [f"textDocument/{it}" for it in asks]:
            return None, False
        if method == "textDocument/references":
            is_declared_wanted(params)
        if method == "textDocument/rename":
            string_of(params, "newName")
        _, text, place = self.asked(params)
        # the word in the name of a header counts, too
        word = word_at(text, place)
        return text[word[0] : word[1]] if word else None, is_of_uses

    # ---- answers

    def places(self):
        """All definitions, by file and place."""
        return [
            Place(file, one)
            for file, text in sorted(self.world.files.items())
            for one in self.facts(text).definitions
        ]

    def named(self, name):
        """The definitions of a name, and the files that have a private one."""
        named = [it for it in self.places() if it.definition.name == name]
        private = {
            it.file
            for it in named
            if it.definition.local and it.definition.kind == b"f" and it.file.endswith(b".c")
        }
        return named, private

    def shown(self, file, text, place, word, declared=False):
        """The definitions that are shown of a word, in the order in which they are; those that
        declare it alone, if they are asked for and there is one."""
        if word is None:
            return []
        space = self.space_of(file, text, place, word)
        return self.shown_in(file, text[word[0] : word[1]], space, declared)

    def space_of(self, file, text, place, word):
        """The name space of a word: the name of a member that is defined there is one."""
        named = self.named(text[word[0] : word[1]])[0]
        members = [it for it in named if it.definition.kind == b"m"]
        if any(it.file == file and self.is_word_of(it, word) for it in members):
            return "member"
        return space_at(text, place)

    def shown_in(self, file, name, space, declared=False):
        """The same of a name in a space."""
        named, kinds = self.named(name)[0], KINDS_OF_SPACES[space]
        wanted = next((one for one in kinds if of_kinds(named, one)), kinds[-1])
        found = of_kinds(named, wanted)
        return found if wanted == b"m" else self.tree.ordered(file, found, declared)

    @staticmethod
    def is_word_of(one, word):
        return (one.definition.place, len(one.definition.name)) == (word[0], word[1] - word[0])

    def reached(self, file, name):
        """The files that the reach of a name has, from a file."""
        private = self.named(name)[1]
        return [file] if file in private else sorted({*self.world.files} - private)

    def span_of(self, file, place, name):
        """The range of a name that begins at a place of a file."""
        return range_form(self.world.files[file], place, place + len(name), self.is_utf16)

    def spans_of(self, file, name, places):
        """Where a name is that begins at places of a file."""
        return listed(self.location(file, self.span_of(file, it, name)) for it in places)

    def range_of(self, place):
        return self.span_of(place.file, place.definition.place, place.definition.name)

    def line_of(self, place):
        text = self.world.files[place.file]
        line = place.definition.line - 1
        end = width(shown(text, line)[1], self.is_utf16)
        return b'{"start":%s,"end":%s}' % (position_form((line, 0)), position_form((line, end)))

    def location(self, file, span):
        return b'{"uri":%s,"range":%s}' % (quoted(self.root.uri_of(file)), span)

    def symbol(self, place, is_tree):
        begin = b'{"name":%s,"kind":%d,' % (
            quoted(place.definition.name),
            KINDS[place.definition.kind],
        )
        if is_tree:
            more = b'"range":%s,"selectionRange":%s}' % (self.line_of(place), self.range_of(place))
        else:
            more = b'"location":%s}' % self.location(place.file, self.range_of(place))
        return begin + more

    def asked(self, params):
        """The file of a request that is at a place, its text, and the place."""
        string_of(params, "textDocument", "uri")
        line = natural(params, "position", "line")
        column = natural(params, "position", "character")
        file = self.file_of(params)
        text = self.world.files.get(file)
        if text is None:
            return None, b"", 0
        return file, text, place_of(text, line, column, self.is_utf16)

    def declaration(self, params):
        return self.definition(params, True)

    def definition(self, params, declared=False):
        file, text, place = self.asked(params)
        if file is None:
            return b"null"
        name = header_at(text, place)
        if name is not None:
            zero = b'{"start":%s,"end":%s}' % ((position_form((0, 0)),) * 2)
            return listed(self.location(it, zero) for it in self.files_of_header(file, name))
        local = local_at(text, place)
        if local is not None:
            defined = [] if local.definition is None else [local.definition]
            return self.spans_of(file, local.name, defined)
        word = word_at(text, place)
        found = self.shown(file, text, place, word, declared)
        return listed(self.location(it.file, self.range_of(it)) for it in found)

    def files_of_header(self, file, name):
        beside = file[: file.rfind(b"/") + 1] + name
        if beside in self.world.files:
            return [beside]
        tail = re.sub(rb"^(\.{1,2}/)+", b"", name)
        return [it for it in sorted(self.world.files) if it == tail or it.endswith(b"/" + tail)]

    def hover(self, params):
        file, text, place = self.asked(params)
        word = word_at(text, place)
        if file is None or word is None:
            return b"null"
        local = local_at(text, place)
        if local is not None:
            start = local.definition
            lines = [] if start is None else [(file, text.count(b"\n", 0, start) + 1)]
        else:
            found = self.shown(file, text, place, word)[:MOST_HOVERED]
            lines = [(it.file, it.definition.line) for it in found]
        if not lines:
            return b"null"
        rows = []
        for other, line in lines:
            row = cut_lines(self.world.files[other])[line - 1][0].lstrip(b" \t")
            rows.append(b"%s:%d\n%s" % (other, line, cut(row, MOST_LINE)))
        contents = b'{"kind":"plaintext","value":%s}' % quoted(b"\n\n".join(rows))
        span = range_form(text, *word, self.is_utf16)
        return b'{"contents":%s,"range":%s}' % (contents, span)

    def references(self, params):
        is_wanted = is_declared_wanted(params)
        file, text, place = self.asked(params)
        if file is None:
            return b"null"
        local = local_at(text, place)
        if local is not None:
            uses = [it.place for it in local.uses if is_wanted or not it.declares]
            return self.spans_of(file, local.name, uses)
        word = word_at(text, place)
        if word is None:
            return listed([])
        name, sort = self.wanted(file, text, place, word)
        named = self.named(name)[0]
        declared = set() if is_wanted else {(it.file, it.definition.place) for it in named}
        uses = self.uses_in(self.reached(file, name), name, sort)
        places = [(it, use) for it, some in uses.items() for use in some]
        return listed(
            self.location(it, self.span_of(it, use, name))
            for it, use in places
            if (it, use) not in declared
        )

    def wanted(self, file, text, place, word):
        """The name of a word, and what its place asks for."""
        name = text[word[0] : word[1]]
        space = self.space_of(file, text, place, word)
        return name, self.uses.sort(space, self.shown_in(file, name, space))

    def uses_in(self, files, name, sort):
        """The places of the uses of a name that count, by file."""
        found = {it: self.uses.places(self.world.files[it], name, sort) for it in files}
        return {it: places for it, places in found.items() if places}

    @property
    def uses(self):
        return self.uses_of(self.facts)

    @property
    def tree(self):
        """What the names of the files mean now."""
        files = self.world.files
        if getattr(self, "read_files", None) is not files:
            self.read_files, self.read_tree = files, self.make_tree(files)
        return self.read_tree

    def make_tree(self, files):
        return self.tree_of(files, names_of, self.facts)

    def renamable(self, params):
        """The file of a request, its text, and the word at its place, if that may be renamed."""
        file, text, place = self.asked(params)
        local = None if file is None else local_at(text, place)
        word = None if file is None else word_at(text, place)
        if local is not None:
            word = word if local.definition is not None else None
        elif word is not None:
            name = text[word[0] : word[1]]
            used = (word[0], name) in [(it.place, it.name) for it in self.facts(text).uses]
            word = word if used and self.named(name)[0] else None
        return file, text, word

    def prepare_rename(self, params):
        _, text, word = self.renamable(params)
        return b"null" if word is None else range_form(text, *word, self.is_utf16)

    def rename(self, params):
        new = string_of(params, "newName")
        file, text, word = self.renamable(params)
        if word is None:
            raise Error(-32803, b"no such definition")
        if local_at(text, word[0]) is not None:
            return self.rename_by_scope(file, word[0], new)
        uses = self.renamed(file, word, new)
        return self.edits(uses, text[word[0] : word[1]], new)

    def renamed(self, file, word, new):
        """The places of the uses of a word that is no local, by file, which a rename edits."""
        name, sort = self.wanted(file, self.world.files[file], word[0], word)
        self.refuse_names(name, new)
        uses = self.uses_in(self.reached(file, name), name, sort)
        if sort == MEMBER:
            self.refuse_member(file, word[0], name, uses)
        self.refuse_kept(name, sort, uses)
        for it in sorted(uses):
            self.refuse_odd(it, uses[it], name)
        for it in sorted(uses):
            if not is_counted_alike(self.world.files[it]):
                raise Error(-32803, quoted(b"not text: " + it)[1:-1])
        for it in sorted(uses):
            if not self.may_edit(it):
                raise Error(-32803, quoted(b"not open: " + it)[1:-1])
            self.refuse_second_name(it, uses)
        return uses

    def refuse_names(self, name, new):
        """A new name is one that no file uses, and the old one is not that of a macro besides."""
        is_name = re.fullmatch(rb"[A-Za-z_][A-Za-z0-9_]*", new) and new not in RESERVED
        is_odd = any(it.startswith(b"__") or it in (b"typeof", b"offsetof") for it in (name, new))
        if not is_name or is_odd:
            raise Error(-32803, b"bad name")
        texts = self.world.files.values()
        if any(use.name == new for text in texts for use in self.facts(text).uses):
            raise Error(-32803, b"name is used already")
        kinds = {it.kind for it in self.named(name)[0]}
        if b"d" in kinds and len(kinds) > 1:
            raise Error(-32803, b"a macro or type has this name")

    def refuse_member(self, file, place, name, uses):
        """Of which structure a member is, is not known: the first use is told that is not the name
        of a definition, or else the word that is asked at."""
        for it in sorted(uses):
            first = self.uses.first_untold(self.world.files[it], uses[it], name)
            if first is not None:
                file, place = it, first
                break
        line = self.world.files[file].count(b"\n", 0, place) + 1
        raise Error(-32803, quoted(b"type is not known: %s:%d" % (file, line))[1:-1])

    def refuse_kept(self, name, sort, uses):
        """Where a use is in the file of a definition that is private to it, all uses are."""
        for one in self.named(name)[0]:
            is_kept = one.kind in KINDS_OF_SORT[sort] and self.tree.is_private(one)
            outside = [it for it in sorted(uses) if it != one.file]
            if is_kept and one.file in uses and outside:
                raise Error(-32803, quoted(b"used from outside: " + outside[0])[1:-1])

    def refuse_odd(self, file, places, name):
        """No odd byte stands beside a name that is edited."""
        try:
            self.tree.refuse_odd(file, places, name)
        except Refusal as refusal:
            raise Error(-32803, quoted(refusal.args[0])[1:-1])

    def rename_by_scope(self, file, place, new):
        """A rename of what the name at a place means by its scope."""
        has_root = self.is_root_given or bool(self.root.path)
        try:
            uses = self.tree.rename(file, place, new, has_root, self.may_edit)
        except Refusal as refusal:
            raise Error(-32803, quoted(refusal.args[0])[1:-1])
        for it in sorted(uses):
            self.refuse_second_name(it, uses)
        return self.edits(uses, self.tree.text(file).token_at(place).text, new)

    def refuse_second_name(self, file, uses):
        """Where not all files of a rename are open, none that is open has a second name."""
        all_open = all(it in self.documents for it in uses)
        if file in self.documents and not all_open and self.read_alone(file) is LINKED:
            raise Error(-32803, quoted(b"open under a second name: " + file)[1:-1])

    def edits(self, uses, name, new):
        """A new name at these places, by file."""
        changes = (
            b"%s:%s"
            % (
                quoted(self.root.uri_of(file)),
                listed(
                    b'{"range":%s,"newText":%s}' % (self.span_of(file, it, name), quoted(new))
                    for it in uses[file]
                ),
            )
            for file in sorted(uses)
        )
        return b'{"changes":{%s}}' % b",".join(changes)

    def read_alone(self, file):
        """What is found of a file that may have no second name."""
        return self.disk.read(self.root.path_of(file), alone=True)

    def may_edit(self, file):
        """Whether an editor makes the edits of a file where they belong: the file is below the
        root, and it is open and not lost, or has on disk a text that all editors count alike, under
        this name alone."""
        if any(segment in (b"", b".", b"..") for segment in file.split(b"/")):
            return False
        if file in self.documents:
            return not self.documents[file].is_lost
        text = self.world.files[file]
        return self.read_alone(file) == text and is_counted_alike(text)

    def highlights(self, params):
        file, text, place = self.asked(params)
        if file is None:
            return b"null"
        local = local_at(text, place)
        if local is not None:
            return listed(
                b'{"range":%s,"kind":%d}'
                % (self.span_of(file, it.place, local.name), MARKS[it.letter])
                for it in local.uses
            )
        word = word_at(text, place)
        if word is None:
            return listed([])
        name, sort = self.wanted(file, text, place, word)
        found = self.uses.places(text, name, sort)
        return listed(b'{"range":%s}' % self.span_of(file, it, name) for it in found)

    def completion(self, params):
        file, text, place = self.asked(params)
        if file is None:
            return b"null"
        word = re.search(rb"\w*\Z", text[:place])[0]
        if not word:
            return b'{"isIncomplete":true,"items":[]}'
        own = {it for it in visible_at(text, place - len(word)) if it.startswith(word)}
        kinds: dict = {}  # by name: that of the first definition
        for it in self.places():
            if it.definition.name.startswith(word) and it.definition.name not in own:
                kinds.setdefault(it.definition.name, COMPLETION_KINDS[it.definition.kind])
        names = [(it, COMPLETION_KINDS[b"v"], b"0") for it in sorted(own)]
        names += [(it, kinds[it], b"1") for it in sorted(kinds)]
        items = (
            b'{"label":%s,"kind":%d,"sortText":%s}' % (quoted(it), kind, quoted(rank + it))
            for it, kind, rank in names[:MOST_COMPLETIONS]
        )
        more = b"true" if len(names) > MOST_COMPLETIONS else b"false"
        return b'{"isIncomplete":%s,"items":%s}' % (more, listed(items))

    def item(self, place):
        """A function or macro of a call hierarchy."""
        return b'{"name":%s,"kind":%d,"uri":%s,"range":%s,"selectionRange":%s}' % (
            quoted(place.definition.name),
            KINDS[place.definition.kind],
            quoted(self.root.uri_of(place.file)),
            self.line_of(place),
            self.range_of(place),
        )

    def prepare_calls(self, params):
        file, text, place = self.asked(params)
        word = word_at(text, place)
        if file is None or word is None or local_at(text, place):
            return b"null"
        found = of_kinds(self.shown(file, text, place, word), b"fd")
        return listed(self.item(it) for it in found) if found else b"null"

    def callable(self, file, name):
        """The functions and macros that are shown of a called name in a file."""
        return of_kinds(self.shown_in(file, name, "called"), b"fd")

    def item_of(self, method, params):
        """The name, the file and, for outgoing calls, the position of an item; no file where there
        is no such one."""
        name, path = string_of(params, "item", "name"), path_of(string_of(params, "item", "uri"))
        position = None
        if method == "callHierarchy/outgoingCalls":
            names = "item", "selectionRange", "start"
            position = [natural(params, *names, it) for it in ("line", "character")]
        file = None if path is None else self.root.name_in(path)
        return name, file if file in self.world.files else None, position

    def incoming_calls(self, params):
        name, file, _ = self.item_of("callHierarchy/incomingCalls", params)
        if file is None:
            return b"null"
        groups: dict = {}
        for other in self.reached(file, name):
            for call in self.facts(self.world.files[other]).calls:
                if call.callee == name:
                    span = self.span_of(other, call.place, name)
                    groups.setdefault((other, call.caller_place), []).append(span)
        rows = []
        for (other, place), spans in sorted(groups.items()):
            named = self.facts(self.world.files[other]).definitions
            caller = next(it for it in named if it.place == place)
            item = self.item(Place(other, caller))
            rows.append(b'{"from":%s,"fromRanges":%s}' % (item, listed(spans)))
        return listed(rows)

    def called(self, name, file, position):
        """What a function calls, and the places of its calls, by the first of these."""
        if file is None:
            return []
        text = self.world.files[file]
        place = place_of(text, *position, self.is_utf16)
        groups: dict = {}
        for call in self.facts(text).calls:
            if (call.caller_place, call.caller) == (place, name):
                span = self.span_of(file, call.place, call.callee)
                groups.setdefault(call.callee, []).append(span)
        return [
            (it, spans) for callee, spans in groups.items() for it in self.callable(file, callee)
        ]

    def outgoing_calls(self, params):
        name, file, position = self.item_of("callHierarchy/outgoingCalls", params)
        if file is None:
            return b"null"
        return listed(
            b'{"to":%s,"fromRanges":%s}' % (self.item(it), listed(spans))
            for it, spans in self.called(name, file, position)
        )

    def folding(self, params):
        file = self.file_of(params)
        if file not in self.world.files:
            return b"null"
        text = self.world.files[file]
        ranges = self.facts(text).functions
        lines = [(text.count(b"\n", 0, it), text.count(b"\n", 0, end - 1)) for it, end in ranges]
        form = b'{"startLine":%d,"endLine":%d}'
        return listed(form % (first, last) for first, last in lines if first < last)

    def document_symbol(self, params):
        file = self.file_of(params)
        if file not in self.world.files:
            return b"null"
        places = [Place(file, one) for one in self.facts(self.world.files[file]).definitions]
        return listed(self.symbol(it, self.is_tree) for it in places)

    def found_by(self, query):
        """The definitions that a query names."""
        named = sorted(self.places(), key=lambda it: (it.definition.name, it.file))
        exact = [it for it in named if it.definition.name == query]
        holding = [
            it
            for it in named
            if it.definition.name != query and query.lower() in it.definition.name.lower()
        ]
        holding = holding if len(query) <= MOST_QUERY else []
        return (exact + holding)[:MOST_SYMBOLS]

    def workspace_symbol(self, params):
        found = self.found_by(string_of(params, "query"))
        return listed(self.symbol(it, False) for it in found)


def said_by(event):
    """What an event says of which file: that it was written, or deleted."""
    kind, uri = member(event, "type"), member(event, "uri")
    if not isinstance(uri, str) or not isinstance(kind, Number) or kind.value not in (1, 2, 3):
        return None
    return uri, kind.value == 3


def serve(operands, data, writes=(), **how):
    """A run over files of the command line: what is written, said, and the status."""
    server = Server(**how)
    for given, text in operands:
        name = name_of_operand(given, server.root if server.is_root_given else None)
        try:
            server.world = load(server.world, name, text)
        except Refused as refused:
            return Outcome(b"", b"cbrowse: %s: %s\n" % (told(given), str(refused).encode()), 1)
    return server.run(data, writes)
