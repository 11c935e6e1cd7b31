"""Lines of texts and what is found in them: written from docs/PROFILE.md alone.

It goes its own way: one regular expression cuts a text into pieces, then each rule looks at whole
lists of tokens. Any bytes are a text.
"""

from __future__ import annotations

import bisect
import functools
import re
from typing import NamedTuple, Optional

RESERVED = frozenset(
    b"""
    auto break case char const continue default do double else enum extern float for goto if inline
    int long register restrict return short signed sizeof static struct switch typedef union
    unsigned void volatile while _Alignas _Alignof _Atomic _Bool _Complex _Generic _Imaginary
    _Noreturn _Static_assert _Thread_local __attribute__ __declspec __asm__ asm __extension__
    defined
    """.split()
)
PIECE = re.compile(
    rb"""
    (?P<word> [A-Za-z_][A-Za-z0-9_]* )
    | (?P<number> \.?[0-9] (?: [eEpP][+-] | [A-Za-z0-9_.] )* )
    | (?P<literal> " (?: \\\r\n | \\. | [^"\\\n] )* (?: " | \\\Z )?
        | ' (?: \\\r\n | \\. | [^'\\\n] )* (?: ' | \\\Z )? )
    | (?P<comment> // (?: [^\n] | (?<=\\)\n | (?<=\\\r)\n )* | /\* .*? (?: \*/ | \Z ) )
    | (?P<blank> (?: [ \t\v\f\r] | \\\r?\n )+ )
    | (?P<end> \n )
    | (?P<byte> . )""",
    re.VERBOSE | re.DOTALL,
)
CLOSED = re.compile(rb'"((?:\\\r\n|\\.|[^"\\\n])*)"', re.DOTALL)
# functions, macros, typedefs, structures, unions, enumerations: their order at one place
KINDS = b"fdtsug"
SHAPES = {b"struct": b"s", b"union": b"u", b"enum": b"g"}


@functools.lru_cache(maxsize=256)
def cut_lines(text):
    """The lines of a text, each as its shown part and its end."""
    *ended, last = text.split(b"\n")
    lines = [(line[:-1], b"\r\n") if line.endswith(b"\r") else (line, b"\n") for line in ended]
    return lines + ([(last, b"")] if last else [])


def replaced(text, old, new, numbers):
    """The text with `new` in place of `old` on the lines with these numbers."""
    return b"".join(
        (shown.replace(old, new) if number in numbers else shown) + end
        for number, (shown, end) in enumerate(cut_lines(text), 1)
    )


# ---- tokens


class Token(NamedTuple):
    text: bytes
    place: int
    is_word: bool  # a name or a reserved word

    @property
    def end(self):
        return self.place + len(self.text)

    @property
    def is_name(self):
        return self.is_word and self.text not in RESERVED

    @property
    def is_string(self):
        return self.text[:1] == b'"'

    @property
    def is_number(self):
        return self.text[:1].isdigit() or (len(self.text) > 1 and self.text[:1] == b".")


class Line(NamedTuple):
    """A logical line: its tokens, and the place where it ends."""

    tokens: list
    end: int

    @property
    def is_directive(self):
        return bool(self.tokens) and self.tokens[0].text == b"#"

    @property
    def own_word(self):
        return self.tokens[1].text if len(self.tokens) > 1 and self.tokens[1].is_word else b""


def logical_lines(text):
    lines, tokens = [], []
    for piece in PIECE.finditer(text):
        if piece.lastgroup == "end":
            lines.append(Line(tokens, piece.start()))
            tokens = []
        elif piece.lastgroup not in ("comment", "blank"):
            tokens.append(Token(piece[0], piece.start(), piece.lastgroup == "word"))
    return lines + [Line(tokens, len(text))]


def called(tokens):
    """The index of each name that is directly followed by a parenthesis."""
    return [
        index
        for index in range(len(tokens) - 1)
        if tokens[index + 1].text == b"(" and tokens[index].is_name
    ]


class Code:
    """The code of a text: its tokens, the depth before each and after the last, and the stops."""

    def __init__(self, text, tokens):
        self.tokens, self.depths = tokens, [0]
        self.stops = []  # indexes; the beginning of the code is none of them
        for index, token in enumerate(tokens):
            depth = self.depths[-1]
            after = depth
            if token.text == b"{" and not self.is_uncounted(index):
                after += 1
            elif token.text == b"}":
                first = token.place == 0 or text[token.place - 1 : token.place] == b"\n"
                after = 0 if first else max(depth - 1, 0)
            self.depths.append(after)
            if (
                token.text == b";"
                and depth == 0
                or token.text == b"}"
                and after == 0
                or token.text == b"{"
                and self.is_uncounted(index)
            ):
                self.stops.append(index)

    def is_uncounted(self, index):
        before = self.tokens[max(index - 2, 0) : index]
        return len(before) == 2 and before[0].text == b"extern" and before[1].is_string

    def follows_stop(self, index):
        return index == 0 or index - 1 in self.stop_set

    @functools.cached_property
    def stop_set(self):
        return set(self.stops)

    def opened(self):
        """The index of each counted brace at depth 0."""
        return [
            index
            for index, token in enumerate(self.tokens)
            if token.text == b"{" and self.depths[index] == 0 and not self.is_uncounted(index)
        ]

    def first_after(self, index, text, depth):
        """The first token of this text after an index, at depth 0 before or after it, or None."""
        for later in range(index + 1, len(self.tokens)):
            if self.tokens[later].text == text and self.depths[later + depth] == 0:
                return later
        return None


# ---- definitions


class Range(NamedTuple):
    """A function or macro with arguments: its name, the end of its range, its body."""

    name: Token
    end: int
    body: list
    kind: bytes
    local: bool


def called_name(head):
    """The first name of a head that is directly followed by a parenthesis, if there is one."""
    names = called(head)
    return head[names[0]] if names else None


def segments_before(code, brace):
    """What stands between the stops before a brace, nearest first, down to one that is no `;`."""
    stops = code.stops[: bisect.bisect_left(code.stops, brace)]
    while stops and code.tokens[stops[-1]].text == b";":
        end = stops.pop()
        yield code.tokens[stops[-1] + 1 if stops else 0 : end]


def head_name(head, name_of=called_name):
    """The name of the function with this head, if it is one."""
    texts = {token.text for token in head}
    if (
        not head
        or head[0].text == b"typedef"
        or b"=" in texts
        or not (head[-1].text == b")" or head[-1].is_name)
    ):
        return None
    return name_of(head)


def opening_name(segment):
    """The name of the function in the old style that this segment opens, if it does."""
    if not segment or segment[0].text == b"typedef" or b"=" in {token.text for token in segment}:
        return None
    names = called(segment)
    if not names:
        return None
    shape = b"".join(
        b"n"
        if token.is_name
        else b"w"
        if token.is_word
        else token.text
        if len(token.text) == 1
        else b"?"
        for token in segment[names[0] + 1 :]
    )
    return segment[names[0]] if re.match(rb"\(n(?:,n)*\)[nw]", shape) else None


def is_declaration(segment):
    return (
        bool(segment)
        and segment[0].is_word
        and segment[0].text != b"typedef"
        and b"=" not in {token.text for token in segment}
    )


def head_before(code, brace, kept=list, name_of=called_name):
    """The tokens that make a brace begin a body, and the name of the function; else None twice.

    The wide profile keeps fewer tokens of a head, and names it otherwise.
    """
    stops = code.stops[: bisect.bisect_left(code.stops, brace)]
    head = kept(code.tokens[stops[-1] + 1 if stops else 0 : brace])
    if head:
        return head, head_name(head, name_of)
    for segment in map(kept, segments_before(code, brace)):
        name = opening_name(segment)
        if name is not None:
            return segment, name
        if not is_declaration(segment):
            break
    return None, None


def functions(code, size, **how):
    found = []
    for brace in code.opened():
        head, name = head_before(code, brace, **how)
        if name is not None:
            last = code.first_after(brace, b"}", 1)
            end = size if last is None else code.tokens[last].end
            found.append(
                Range(
                    name,
                    end,
                    code.tokens[brace + 1 : last],
                    b"f",
                    b"static" in {one.text for one in head},
                )
            )
    return found


def macros(directives):
    """The macros with arguments, and those without."""
    with_arguments, without = [], []
    for line in directives:
        tokens = line.tokens
        if line.own_word == b"define" and len(tokens) > 2 and tokens[2].is_name:
            if len(tokens) > 3 and tokens[3].text == b"(" and tokens[3].place == tokens[2].end:
                closing = [
                    index for index, token in enumerate(tokens) if index > 3 and token.text == b")"
                ]
                body = tokens[closing[0] + 1 :] if closing else []
                with_arguments.append(Range(tokens[2], line.end, body, b"d", False))
            else:
                without.append(tokens[2])
    return with_arguments, without


def part_name(part):
    """The name that a part of a typedef defines, if any; each token is or isn't in parentheses."""
    shape = b"".join(
        token.text if token.text in (b"(", b"*") else b"n" if token.is_name else b"?"
        for token, _ in part
    )
    starred = re.search(rb"\(\*+n", shape)
    if starred:
        return part[starred.end() - 1][0]
    outside = [token for token, is_outside in part if is_outside and token.is_name]
    return outside[-1] if outside else None


def typedef_names(taken):
    """The names that the tokens taken of a typedef define."""
    parts, count = [[]], 0
    for token in taken:
        if token.text == b"," and count == 0:
            parts.append([])
            continue
        if token.text in (b")", b"]"):
            count = max(count - 1, 0)
        parts[-1].append((token, count == 0))
        if token.text in (b"(", b"["):
            count += 1
    return [name for name in map(part_name, parts) if name is not None]


def typedefs(code):
    starts = [
        index
        for index, token in enumerate(code.tokens)
        if token.text == b"typedef" and code.follows_stop(index)
    ]
    found = []
    for start, following in zip(starts, starts[1:] + [len(code.tokens)]):
        end = code.first_after(start, b";", 0)
        if end is not None and end < following:
            found += typedef_names(
                [
                    token
                    for token, depth in zip(code.tokens[start:end], code.depths[start:end])
                    if depth == 0 and token.text not in (b"{", b"}")
                ]
            )
    return found


def structures(code):
    """The names of structures, unions and enumerations, each with its kind."""
    return [
        (name, SHAPES[before.text])
        for before, name, after in zip(code.tokens, code.tokens[1:], code.tokens[2:])
        if before.text in SHAPES and name.is_name and after.text == b"{"
    ]


# ---- what a text holds


class Definition(NamedTuple):
    name: bytes
    line: int
    kind: bytes
    local: bool
    place: int
    scope: bytes = b""  # the scope field: the wide profile alone has it


class Use(NamedTuple):
    name: bytes
    line: int
    scope: Optional[bytes]
    place: int


class Call(NamedTuple):
    callee: bytes
    line: int
    caller: bytes
    place: int  # of the called name
    caller_place: int


class Include(NamedTuple):
    header: bytes
    line: int
    scope: Optional[bytes]


class Facts(NamedTuple):
    """All that is found in a text, each list by place."""

    definitions: list
    uses: list
    calls: list
    includes: list
    functions: list  # the place of each name, and where the body ends


class Scopes:
    """The function or macro of each place; neither two functions nor two macros overlap."""

    def __init__(self, of_functions, of_macros):
        self.kinds = [
            sorted(ranges, key=lambda one: one.name.place) for ranges in (of_macros, of_functions)
        ]
        self.starts = [[one.name.place for one in ranges] for ranges in self.kinds]

    def at(self, place):
        for ranges, starts in zip(self.kinds, self.starts):
            number = bisect.bisect_right(starts, place)
            if number and place < ranges[number - 1].end:
                return ranges[number - 1].name.text
        return None


def header(text, tokens):
    """The place and the bytes of the header of an include, which may be empty or missing."""
    if len(tokens) < 3:
        return 0, b""
    third = tokens[2]
    closed = CLOSED.fullmatch(third.text)
    if closed:
        return third.place + 1, closed[1]
    ends = [token.place for token in tokens[3:] if token.text == b">"]
    return (third.end, text[third.end : ends[0]]) if third.text == b"<" and ends else (0, b"")


class Parts(NamedTuple):
    """A text in its directives and its code."""

    text: bytes
    directives: list
    code: Code


def parts_of(text):
    lines = logical_lines(text)
    tokens = [token for line in lines if not line.is_directive for token in line.tokens]
    return Parts(text, [line for line in lines if line.is_directive], Code(text, tokens))


@functools.lru_cache(maxsize=4096)
def headers(text):
    """Place and bytes of each header."""
    lines = [line for line in parts_of(text).directives if line.own_word == b"include"]
    return [(place, name) for place, name in (header(text, it.tokens) for it in lines) if name]


def is_counted_alike(text):
    """Whether all editors count the same columns in a text: it is UTF-8, without a byte order mark
    and without a CR that no LF follows."""
    try:
        text.decode()
    except UnicodeDecodeError:
        return False
    return not text.startswith(b"\xef\xbb\xbf") and not re.search(b"\r(?!\n)", text)


@functools.lru_cache(maxsize=4096)
def facts(text):
    """All that is found in a text."""
    parts = parts_of(text)
    named = [(name, b"t", False) for name in typedefs(parts.code)]
    named += [(name, kind, False) for name, kind in structures(parts.code)]
    return facts_of(parts, functions(parts.code, len(text)), named, KINDS)


def facts_of(parts, own_functions, named, kinds):
    """All that is found in a text with these functions and other named tokens of its code."""
    text, directives, code = parts
    feeds = [found.start() for found in re.finditer(b"\n", text)]

    def line_of(place):
        return bisect.bisect_left(feeds, place) + 1

    own_macros, others = macros(directives)
    scopes = Scopes(own_functions, own_macros)
    named = named + [(one.name, one.kind, one.local) for one in own_functions + own_macros]
    named += [(name, b"d", False) for name in others]
    named.sort(key=lambda one: (one[0].place, kinds.index(one[1])))

    used = [token for token in code.tokens if token.is_name]
    for line in directives:
        if line.own_word != b"include":
            used += [
                token
                for index, token in enumerate(line.tokens)
                if token.is_name and not (index == 1 and line.own_word)
            ]
    used.sort(key=lambda token: token.place)

    calls = [
        (one.body[index], one.name)
        for one in own_functions + own_macros
        for index in called(one.body)
    ]
    calls.sort(key=lambda call: call[0].place)
    headers = [header(text, line.tokens) for line in directives if line.own_word == b"include"]
    return Facts(
        [
            Definition(name.text, line_of(name.place), kind, local, name.place, *scope)
            for name, kind, local, *scope in named
        ],
        [
            Use(token.text, line_of(token.place), scopes.at(token.place), token.place)
            for token in used
        ],
        [
            Call(token.text, line_of(token.place), caller.text, token.place, caller.place)
            for token, caller in calls
        ],
        [Include(name, line_of(place), scopes.at(place)) for place, name in headers if name],
        sorted((one.name.place, one.end) for one in own_functions),
    )
