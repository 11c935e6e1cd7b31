"""What cbrowse writes: a model of its sessions and its program, written from docs/ alone.

`docs/COMMANDS.md` has the commands, refusals and the words of the program, `docs/FORMATS.md` rows
and tag lines. What texts hold is in `text_model.py`. Memory never runs out here.
"""

from __future__ import annotations

import re
from typing import NamedTuple, Optional

from text_model import cut_lines, facts, replaced

MOST_LINE, MOST_CHANGES, LARGEST_LIST = 4_096, 65_536, 268_435_456
PROMPT, DONE = b">> ", b"cscope: done\n"
HEADS = (
    b'!_TAG_FILE_FORMAT\t2\t/extended format; --format=1 will not append ;" to lines/\n',
    b"!_TAG_FILE_SORTED\t1\t/0=unsorted, 1=sorted, 2=foldcase/\n",
)


class Bounds(NamedTuple):
    """The most files of a session, and the most bytes of each."""

    files: int = 4_096
    file_bytes: int = 1_000_000

    def words(self):
        """The options that give them."""
        given = [b"--max-files", b"%d" % self.files, b"--max-file-bytes", b"%d" % self.file_bytes]
        return given if self != Bounds() else []

    def history(self):
        """The most changes that can be undone."""
        return MOST_CHANGES + max(0, self.files - Bounds().files)

    def longest_line(self):
        """The most bytes of a line of input, and of a block."""
        return max(1_000_000, self.file_bytes)


WIDEST = Bounds(1_048_576, 268_435_456)


class Refused(Exception):
    """A command is refused; the text says why."""


class Tag(NamedTuple):
    """A definition in a file."""

    name: bytes
    file: bytes
    line: int
    text: bytes
    kind: bytes
    local: bool
    scope: bytes


class World(NamedTuple):
    """All that a change can change. Nothing in it is ever altered: a change makes another world."""

    files: dict
    wanted: Optional[bytes] = None
    marks: tuple = ()
    frames: tuple = ()  # the top of the stack is the last
    bounds: Bounds = Bounds()  # no change has an effect on them


# ---- rows and tag lines


def line_row(file, function, line, text):
    return b"%s %s %d %s\n" % (file, function, line, text.lstrip(b" \t"))


def place_rows(world, places):
    return [
        line_row(file, b"<unknown>", line, cut_lines(world.files[file])[line - 1][0])
        for file, line in places
    ]


def places_of_text(world, pattern):
    """File and line of each shown line that holds the pattern, by file and line."""
    return [
        (file, number)
        for file in sorted(world.files)
        for number, (shown, _) in enumerate(cut_lines(world.files[file]), 1)
        if pattern in shown
    ]


def tags_of(world, facts=facts):
    """All definitions, by file and place."""
    return [
        Tag(
            one.name,
            file,
            one.line,
            cut_lines(text)[one.line - 1][0],
            one.kind,
            one.local,
            one.scope,
        )
        for file, text in sorted(world.files.items())
        for one in facts(text).definitions
    ]


def tag_name(tag):
    if tag.name != b"main":
        return tag.name
    return b"M" + tag.file.rsplit(b"/", 1)[-1].removesuffix(b".c")


def address(tag):
    return b"/^" + re.sub(rb"([\\/])", rb"\\\1", tag.text) + b"$/"


def plain_lines(world, facts=facts):
    tags = sorted(tags_of(world, facts), key=lambda tag: (tag_name(tag), tag.file))
    return [b"%s\t%s\t%s\n" % (tag_name(tag), tag.file, address(tag)) for tag in tags]


# functions, variables and prototypes: an external declaration is seen elsewhere, `static` or not
MAY_BE_LOCAL = b"f", b"v", b"p"


def extended_lines(world, facts=facts):
    lines = [*HEADS]
    for tag in sorted(tags_of(world, facts), key=lambda tag: (tag.name, tag.file)):
        is_local = tag.local and tag.kind in MAY_BE_LOCAL
        more = b"\t" + tag.scope if tag.scope else b"\tfile:" if is_local else b""
        fields = tag.name, tag.file, address(tag), tag.kind, tag.line, more
        lines.append(b'%s\t%s\t%s;"\t%s\tline:%d%s\n' % fields)
    return lines


def listing_lines(world, facts=facts):
    tags = sorted(tags_of(world, facts), key=lambda tag: (tag.name, tag.file))
    return [b"%s %d %s %s\n" % (tag.name, tag.line, tag.file, tag.text) for tag in tags]


def found_in(text, digit, pattern, facts=facts):
    """The function column and line of each row of a field in a text, by place; None is outside.

    An external declaration or a prototype, which the wide profile has, is no row of field 1.
    """
    if digit == b"0":
        return [(use.scope, use.line) for use in facts(text).uses if use.name == pattern]
    if digit == b"1":
        return [
            (one.name, one.line)
            for one in facts(text).definitions
            if one.name == pattern and one.kind not in b"xp"
        ]
    if digit == b"2":
        return [(call.callee, call.line) for call in facts(text).calls if call.caller == pattern]
    if digit == b"3":
        return [(call.caller, call.line) for call in facts(text).calls if call.callee == pattern]
    if digit == b"8":
        return [
            (one.scope, one.line)
            for one in facts(text).includes
            if one.header == pattern or one.header.endswith(b"/" + pattern)
        ]
    return [
        (b"<unknown>", number)
        for number, (shown, _) in enumerate(cut_lines(text), 1)
        if pattern in shown
    ]


def answer(world, digit, pattern, facts=facts):
    """The rows of a field; of equal ones the first."""
    refuse_if(digit in b"69", "field not in this profile")
    refuse_if(not pattern, "no pattern")
    if digit == b"7":
        return [
            line_row(file, b"<unknown>", 1, b"<unknown>")
            for file in sorted(world.files)
            if pattern in file
        ]
    places = dict.fromkeys(
        (file, function or b"<global>", line)
        for file, text in sorted(world.files.items())
        for function, line in found_in(text, digit, pattern, facts)
    )  # the text follows from file and line
    return [line_row(*place, cut_lines(world.files[place[0]])[place[2] - 1][0]) for place in places]


# ---- changes: each makes the next world, or is refused


def is_file_name(name):
    return re.fullmatch(rb"[!-~]{2,255}", name) is not None and name[-2:] in (b".c", b".h")


def refuse_if(applies, text):
    if applies:
        raise Refused(text)


def load(world, name, text):
    refuse_if(not is_file_name(name), "bad name")
    refuse_if(name in world.files, "file exists")
    refuse_if(len(text) > world.bounds.file_bytes, "too large")
    refuse_if(len(world.files) >= world.bounds.files, "too many files")
    return world._replace(files={**world.files, name: text})


def reload(world, name, text):
    refuse_if(name not in world.files, "no such file")
    refuse_if(len(text) > world.bounds.file_bytes, "too large")
    gone = drop(world, name)
    return gone._replace(files={**gone.files, name: text})


def drop(world, name):
    refuse_if(name not in world.files, "no such file")
    return world._replace(
        files={file: text for file, text in world.files.items() if file != name},
        marks=tuple(place for place in world.marks if place[0] != name),
        frames=tuple(place for place in world.frames if place[0] != name),
    )


def rename(world, old, new):
    refuse_if(not is_file_name(new), "bad name")
    refuse_if(old not in world.files, "no such file")
    refuse_if(new in world.files, "file exists")

    def renamed(name):
        return new if name == old else name

    return world._replace(
        files={renamed(file): text for file, text in world.files.items()},
        marks=tuple(sorted((renamed(file), line) for file, line in world.marks)),
        frames=tuple((renamed(file), line) for file, line in world.frames),
    )


def want(world, text):
    refuse_if(not text, "no pattern")
    return world._replace(wanted=text, marks=())


def mark(world, number):
    refuse_if(world.wanted is None, "nothing wanted")
    rows = places_of_text(world, world.wanted)
    refuse_if(not 1 <= number <= len(rows), "no such line")
    return world._replace(marks=tuple(sorted(set(world.marks) ^ {rows[number - 1]})))


def mark_all(world):
    refuse_if(world.wanted is None, "nothing wanted")
    return world._replace(marks=tuple(places_of_text(world, world.wanted)))


def change_text(world, text):
    refuse_if(world.wanted is None, "nothing wanted")
    refuse_if(not world.marks, "nothing marked")
    files = dict(world.files)
    for file in {name for name, _ in world.marks}:
        numbers = {line for name, line in world.marks if name == file}
        files[file] = replaced(files[file], world.wanted, text, numbers)
        refuse_if(len(files[file]) > world.bounds.file_bytes, "too large")
    there = tuple(place for place in world.frames if place[1] <= len(cut_lines(files[place[0]])))
    return World(files, frames=there, bounds=world.bounds)


def push(world, name, number):
    places = [(tag.file, tag.line) for tag in tags_of(world) if tag.name == name]
    refuse_if(not 1 <= number <= len(places), "no such definition")
    return world._replace(frames=world.frames + (places[number - 1],))


def pop(world):
    refuse_if(not world.frames, "tag stack is empty")
    return world._replace(frames=world.frames[:-1])


# ---- a session


def words_in(rest, *missing):
    """The words after a command; a missing one is the one given here."""
    words = [] if rest is None else rest.split(b" ")
    refuse_if(len(words) > len(missing), "unknown command")
    return words + [*missing[len(words) :]]


def number_of(word):
    refuse_if(not re.fullmatch(rb"[0-9]{1,9}", word), "bad count")
    return int(word)


def lines_reply(lines):
    return b"cscope: %d lines\n" % len(lines) + b"".join(lines)


class Session:
    """A session: its worlds, its output and, once it has ended, the line on standard error."""

    def __init__(self, bounds=Bounds()):
        self.past, self.present, self.future = [], World({}, bounds=bounds), []
        self.out, self.ended = bytearray(), None

    def change(self, step, *details):
        """Makes a change, and replies."""
        world = step(self.present, *details)
        refuse_if(len(self.past) >= self.present.bounds.history(), "history is full")
        self.past.append(self.present)
        self.present, self.future = world, []
        return DONE

    def move(self, origin, target, refusal):
        """Undo and redo: the nearest world of a list becomes present; the old one changes lists."""
        refuse_if(not origin, refusal)
        target.append(self.present)
        self.present = origin.pop()
        return DONE

    def operand(self, name, text):
        """Loads a file of the command line; the first that is refused ends the run."""
        if self.ended is not None:
            return
        try:
            self.change(load, name, text)
        except Refused as refused:
            self.ended = b"cbrowse: %s: %s\n" % (told(name), str(refused).encode())

    def feed(self, data):
        """Reads commands, the last of them whole or at the end of the input."""
        place = 0
        while place < len(data) and self.ended is None:
            feed = data.find(b"\n", place)
            line, place = (data[place:], len(data)) if feed < 0 else (data[place:feed], feed + 1)
            size = self.block_size(line)
            reply = self.reply(line, data[place : place + size])
            self.out += PROMPT + reply
            place += size

    def finish(self):
        """The input ends."""
        if self.ended is None:
            self.out += PROMPT
            self.ended = b""

    def block_size(self, line):
        """How many bytes of a block belong to a line."""
        found = re.fullmatch(rb":(?:re)?load [^ ]* ([0-9]{1,9})", line, re.DOTALL)
        if found is None or len(line) > MOST_LINE:
            return 0
        size = int(found[1])
        return size if size <= self.present.bounds.longest_line() else 0

    def reply(self, line, block):
        try:
            refuse_if(len(line) > MOST_LINE, "line too long")
            if not line:
                return b""
            if line[:1] in b"q\x04":
                self.ended = b""
                return b""
            if line[:1].isdigit():
                return self.query(line[:1], line[1:])
            word, space, rest = line.partition(b" ")
            return self.command(word, rest if space else None, block)
        except Refused as refused:
            return b"cscope: refused: %s\n" % str(refused).encode()

    def query(self, digit, pattern):
        if digit == b"5":
            self.change(want, pattern)
            digit = b"4"
        return lines_reply(answer(self.present, digit, pattern))

    def command(self, word, rest, block):
        if word == b":load":
            return self.change_with(load, rest, block)
        if word == b":reload":
            return self.change_with(reload, rest, block)
        if word == b":drop":
            return self.change(drop, *words_in(rest, b""))
        if word == b":rename":
            return self.change(rename, *words_in(rest, b"", b""))
        if word == b":mark":
            return self.change(mark, number_of(*words_in(rest, b"")))
        if word == b":to":
            return self.change(change_text, rest or b"")
        if word == b":tag":
            name, number = words_in(rest, b"", b"1")
            return self.change(push, name, number_of(number))
        if word == b":tags":
            number = number_of(*words_in(rest, b"1"))
            refuse_if(number not in (1, 2), "bad count")
            return lines_reply((plain_lines if number == 1 else extended_lines)(self.present))
        return self.lone_command(word, rest)

    def change_with(self, step, rest, block):
        """A change that brings a block."""
        name, count = words_in(rest, b"", b"")
        size = number_of(count)
        refuse_if(size > self.present.bounds.longest_line(), "bad count")
        if len(block) < size:
            self.ended = b"cbrowse: input ended\n"
            raise Refused("input ended")
        return self.change(step, name, block)

    def lone_command(self, word, rest):
        """A command that stands alone on its line."""
        commands = {
            b":markall": lambda: self.change(mark_all),
            b":pop": lambda: self.change(pop),
            b":undo": lambda: self.move(self.past, self.future, "nothing to undo"),
            b":redo": lambda: self.move(self.future, self.past, "nothing to redo"),
            b":stack": lambda: lines_reply(place_rows(self.present, reversed(self.present.frames))),
            b":marks": lambda: lines_reply(place_rows(self.present, self.present.marks)),
            b":listing": lambda: lines_reply(listing_lines(self.present)),
            b"r": lambda: DONE,
        }
        refuse_if(word not in commands or rest is not None, "unknown command")
        return commands[word]()


# ---- the program


class Outcome(NamedTuple):
    """What a program writes, and its status. An error of None is a text of clap's, any text."""

    out: bytes
    error: Optional[bytes] = b""
    status: int = 0


WRONG_WORDS, HELP = Outcome(b"", None, 2), Outcome(b"", None)
FIELDS = (b"0", b"1", b"2", b"3", b"4", b"7", b"8")


def told(name):
    """A name as a message tells it: printable ASCII but the backslash, and \\xHH for the rest."""
    return b"".join(
        bytes([byte]) if 0x20 <= byte < 0x7F and byte != 0x5C else b"\\x%02x" % byte
        for byte in name
    )


def is_text(word):
    return word.decode("utf-8", "ignore").encode() == word


def bound_in(word, most):
    """The number that a word writes, or 0 where it writes none from 1 to the most."""
    number = int(word) if re.fullmatch(rb"\+?[0-9]+", word) else 0
    return number if number <= most else 0


def without_bounds(words):
    """The words without the options of bounds, and the bounds; none where they are wrong."""
    left, given = [], {}
    options = {b"--max-files": 0, b"--max-file-bytes": 1}
    while words and words[0] != b"--":
        name, equals, value = words[0].partition(b"=")
        if name not in options:
            left.append(words[0])
            words = words[1:]
            continue
        if not equals:
            value, words = (words[1], words[1:]) if len(words) > 1 else (b"", words)
        place = options[name]
        given[place] = 0 if place in given else bound_in(value, WIDEST[place])
        words = words[1:]
    bounds = Bounds(*(given.get(place, usual) for place, usual in enumerate(Bounds())))
    return left + words, bounds if all(bounds) else None


def without_lists(words):
    """The words without the options of lists, and the names of the lists."""
    left, lists = [], []
    while words and words[0] != b"--":
        name, equals, value = words[0].partition(b"=")
        if name == b"--files-from":
            if not equals:
                value, words = (words[1], words[1:]) if len(words) > 1 else (None, words)
            lists.append(value)
        else:
            left.append(words[0])
        words = words[1:]
    return left + words, lists


def names_in(name, files):
    """The names in a list of files, or none where it cannot be read; standard input is empty."""
    text = b"" if name == b"-" else files.get(name)
    if text is None or len(text) > LARGEST_LIST or not is_text(text):
        return None
    lines = text.split(b"\n")
    whole = [line[:-1] if line.endswith(b"\r") else line for line in lines[:-1]]
    return whole + [lines[-1]] * bool(lines[-1])


def plain_words(words):
    """The words that are no options, and the outcome where one is: help, or wrong words."""
    end = words.index(b"--") if b"--" in words else len(words)
    options = [word for word in words[:end] if word[:1] == b"-" and word != b"-"]
    if not all(map(is_text, words)):
        return [], WRONG_WORDS
    if options:
        return [], HELP if options[0] == b"--help" or options[0][:2] == b"-h" else WRONG_WORDS
    return words[:end] + words[end + 1 :], None


def loaded(operands, files, bounds):
    """A session with the files of the command line, or the outcome where one is refused."""
    for name in operands:
        if name not in files:
            return None, Outcome(b"", b"cbrowse: %s: cannot be read\n" % told(name), 1)
    session = Session(bounds)
    for name in operands:
        session.operand(name, files[name])
        if session.ended is not None:
            return None, Outcome(b"", session.ended, 1)
    return session, None


def find(words, files):
    """`cbrowse find` and the words after it, in a folder with these files."""
    words, lists = without_lists(words)
    words, bounds = without_bounds(words)
    plain, failed = plain_words(words)
    if failed:
        return failed
    if bounds is None or len(lists) > 1 or None in lists:
        return WRONG_WORDS
    if len(plain) < 3 - len(lists):
        return WRONG_WORDS
    number, pattern, *operands = plain
    if number not in FIELDS:
        return Outcome(b"", b"cbrowse: field not in this profile\n", 2)
    if not pattern:
        return Outcome(b"", b"cbrowse: no pattern\n", 2)
    for name in lists:
        names = names_in(name, files)
        if names is None:
            return Outcome(b"", b"cbrowse: %s: cannot be read\n" % told(name), 1)
        operands += names
    session, failed = loaded(operands, files, bounds)
    return failed or Outcome(b"".join(answer(session.present, number, pattern)))
