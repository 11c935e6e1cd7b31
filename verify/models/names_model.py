"""What each name of a text means within the text: a model that is written from the rules alone.

The rules look at tokens alone: nothing is preprocessed, all branches of `#if` are read, and any
bytes are a text. Each name has a name space. In a function, and in a list of parameters, a name is
bound to the innermost scope that declares it at or before it. A name that no scope declares is
free: it is a name of the file.

    text = Text(b"int f(int a) { return a; }")
    text.tokens                     each name, by place
    text.space(22)                  'ordinary'
    text.binding(22)                Thing(kind='local', name=b'a', space='ordinary', ..)
    text.definition(22)             10
    text.uses(text.binding(22))     [(10, 't'), (22, 'r')]

Pieces, directives and depth are those of `text_model.py`. Functions, bodies, members, enumerators
and the names of declarators are those of `wide_model.py`. Each rule is a method, so that a wrong
one can be put in its place.
"""

from __future__ import annotations

import bisect
import functools
import itertools
from typing import NamedTuple, Optional

import wide_model
from text_model import head_before, parts_of
from wide_model import SPECIFIERS, STATEMENTS, Bare, Brace, Item
from wide_model import name_of, naming_parts, parts_in, prototype_of, text_at, with_outer

PARTNER = {b")": b"(", b"]": b"[", b"}": b"{"}
OPENING = frozenset(PARTNER.values())
# with the group behind them these are left out in the bodies of functions
HARD = frozenset(b"__attribute__ __attribute __declspec _Alignas __asm__ __asm asm".split())
TYPE_WORDS = SPECIFIERS | frozenset(
    b"""
    void char short int long float double signed unsigned _Bool _Complex struct union enum
    __int128 typeof __typeof__ __typeof __const __volatile__ __inline __inline__ __thread _Atomic
    """.split()
)
TYPEOF = frozenset([b"typeof", b"__typeof__", b"__typeof"])
TAGGED = frozenset([b"struct", b"union", b"enum"])
CONTROLS = frozenset([b"for", b"if", b"while", b"switch"])
CONDITIONS = frozenset(b"if ifdef ifndef elif elifdef elifndef undef".split())


class Thing(NamedTuple):
    """What a name is bound to: a local, a label or a parameter of a macro; or that it is free."""

    kind: str  # 'local', 'label', 'parameter', 'free'
    name: bytes
    space: str
    start: int = -1  # the bytes of its scope, its function or its directive
    end: int = -1


class Function(NamedTuple):
    """A function of the code, by the indexes of its tokens."""

    name: int
    start: int  # of its head
    brace: int
    last: int  # of its body
    is_old: bool  # whether declarations stand between its list of parameters and its body


class Scope(NamedTuple):
    """A part of the code in which names are declared, by its first and its last token."""

    kind: str  # 'function', 'block', 'for', 'list'
    first: int
    last: int


class Declared(NamedTuple):
    """A name that is declared."""

    where: str  # 'innermost', 'block', 'function': which scope around it declares it
    space: str
    has_value: bool


# ---- brackets


class Stream:
    """The tokens of the code, or of one directive, with their brackets in pairs."""

    def __init__(self, text, tokens):
        self.tokens, self.size = tokens, len(tokens)
        self.pair = [-1] * len(tokens)
        self.around = [-1] * len(tokens)  # the innermost bracket that is open before each token
        # where each opening bracket is closed, by its partner or by a bracket around it
        self.until = {}
        stack = []
        for index, token in enumerate(tokens):
            if token.text in PARTNER:
                self.close(text, stack, index)
            self.around[index] = stack[-1] if stack else -1
            if token.text in OPENING:
                stack.append(index)
        for opened in stack:
            self.until[opened] = len(tokens)
        self.find_hard()

    def close(self, text, stack, index):
        """Closes a bracket: it and all above it leave the stack, if it has a partner there."""
        token, depth = self.tokens[index], -1
        if token.text != b"}":
            for number in range(len(stack) - 1, -1, -1):
                opened = self.tokens[stack[number]].text
                if opened == PARTNER[token.text]:
                    depth = number
                if opened in (PARTNER[token.text], b"{"):
                    break
        elif token.place == 0 or text[token.place - 1 : token.place] == b"\n":
            depth = 0
        else:
            depth = self.last_brace(stack)
        if 0 <= depth < len(stack):
            taken = stack[depth:]
            del stack[depth:]
            partner = self.partner(token, taken)
            for opened in taken:
                self.until[opened] = index
            if partner is not None:
                self.pair[index], self.pair[partner] = partner, index

    def last_brace(self, stack):
        """How far up the stack the nearest open brace stands, or -1."""
        for number in range(len(stack) - 1, -1, -1):
            if self.tokens[stack[number]].text == b"{":
                return number
        return -1

    def partner(self, token, taken):
        """The lowest of the brackets that leave the stack which is of the kind of a token."""
        kind = PARTNER[token.text]
        return next((one for one in taken if self.tokens[one].text == kind), None)

    def find_hard(self):
        """Finds the attributes that are left out in bodies: their first and last tokens."""
        self.hard_last, self.hard_first = {}, {}
        for index in range(self.size - 1):
            if self.tokens[index].text in HARD and self.tokens[index + 1].text == b"(":
                last = self.pair[index + 1]
                if last >= 0:
                    self.hard_last[index], self.hard_first[last] = last, index

    def text(self, index):
        return self.tokens[index].text if 0 <= index < self.size else b""

    def is_name(self, index):
        return 0 <= index < self.size and self.tokens[index].is_name

    def is_word(self, index):
        return 0 <= index < self.size and self.tokens[index].is_word

    def following(self, index):
        """The index of the token that directly follows, attributes of bodies left out."""
        index += 1
        while index in self.hard_last:
            index = self.hard_last[index] + 1
        return index

    def before(self, index):
        """The index of the token that one directly follows, attributes of bodies left out."""
        index -= 1
        while index in self.hard_first:
            index = self.hard_first[index] - 1
        return index

    def touch(self, index):
        """Whether a token and the next one touch."""
        return 0 <= index < self.size - 1 and self.tokens[index].end == self.tokens[index + 1].place

    def is_arrow(self, index):
        """Whether an arrow begins at a token."""
        return self.text(index) == b"-" and self.text(index + 1) == b">" and self.touch(index)

    def is_dot(self, index):
        """Whether a token is a dot that is not one of three."""
        return (
            self.text(index) == b"."
            and not (self.text(index + 1) == b"." and self.touch(index))
            and not (self.text(index - 1) == b"." and self.touch(index - 1))
        )

    def before_indexes(self, index):
        """The index of the last token up to this one that is in no `[..]` that ends there."""
        while self.text(index) == b"]" and self.pair[index] >= 0:
            index = self.pair[index] - 1
        return index

    def behind_indexes(self, index):
        """The index of the first token from this one on that is in no `[..]` that begins there."""
        while self.text(index) == b"[" and self.pair[index] >= 0:
            index = self.pair[index] + 1
        return index


class LineStream(Stream):
    """The tokens of one directive, of which none is left out."""

    def find_hard(self):
        self.hard_last, self.hard_first = {}, {}


# ---- a text


class Text:
    """A text with the spaces, the scopes and the bindings of its names."""

    def __init__(self, text):
        self.text = text
        parts = parts_of(text)
        self.split, self.code = parts.code, Stream(text, parts.code.tokens)
        self.directives = [
            (line, LineStream(text, line.tokens)) for line in parts.directives if line.tokens
        ]
        self.index = {token.place: index for index, token in enumerate(self.code.tokens)}
        self.scopes, self.declared = [], {}
        self.find_bodies()
        self.functions = [*self.find_functions()]
        self.in_body = self.find_in_body()
        self.kinds = {}  # of each brace in the body of a function: 'body', 'value', 'block'
        self.labels, self.statements = set(), []
        for function in self.functions:
            self.walk(function)
        self.find_spaces()
        self.lists = set()  # those of functions and all others, by their parentheses
        for function in self.functions:
            self.lists.update(self.lists_of_function(function))
        for function in self.functions:
            self.declare_parameters(function)
        for part in self.parts_of_file:
            self.declare_lists(part)
        for begin in self.statements:
            self.declare_statement(begin)
        self.declare_in_blocks()
        self.bind()

    # ---- what is asked

    @functools.cached_property
    def tokens(self):
        """Each name of the code and of directives, by place: not the words of directives, and
        nothing of an `#include`."""
        return sorted(self.spaces_of_tokens, key=lambda token: token.place)

    @functools.cached_property
    def places(self):
        return [token.place for token in self.tokens]

    @functools.cached_property
    def named(self):
        """The names by their bytes, each list by place."""
        found: dict = {}
        for token in self.tokens:
            found.setdefault(token.text, []).append(token)
        return found

    @functools.cached_property
    def left_out(self):
        """The places of the tokens of attributes that are left out."""
        tokens, found = self.code.tokens, set()
        for first, last in self.code.hard_last.items():
            found.update(token.place for token in tokens[first : last + 1])
        return found

    def token_at(self, place):
        """The name that holds a place or ends at it, or none."""
        number = bisect.bisect_right(self.places, place) - 1
        for one in self.tokens[max(number - 1, 0) : number + 1][::-1]:
            if one.place <= place < one.end or place == one.end:
                return one
        return None

    def space(self, place):
        """The name space of the name that begins at a place."""
        return self.spaces[place]

    def binding(self, place):
        """The thing that the name at a place is bound to."""
        return self.bound[place]

    def definition(self, place):
        """Where the definition of a local, label or parameter stands, or none."""
        thing = self.bound[place]
        places = self.definitions.get(thing, [])
        if thing.kind == "local":
            return places[bisect.bisect_right(places, place) - 1]
        return places[0] if places else None

    def uses(self, thing):
        """The places that name a thing, each with its letter: read, written, address, text."""
        return [(place, self.letter(place)) for place in self.used.get(thing, [])]

    # ---- functions, bodies, members

    def find_functions(self):
        code = self.split
        for brace in code.opened():
            _, name = head_before(
                code, brace, kept=wide_model.kept_of_head, name_of=wide_model.function_of
            )
            if name is None:
                continue
            index = self.index[name.place]
            number = bisect.bisect_left(code.stops, index)
            start = code.stops[number - 1] + 1 if number else 0
            is_old = number < len(code.stops) and code.stops[number] < brace
            last = code.first_after(brace, b"}", 1)
            last = len(code.tokens) - 1 if last is None else last
            yield Function(index, start, brace, last, is_old)

    def range_of(self, function):
        """Where a function begins and ends: one that is not closed ends with the text."""
        last = self.split.first_after(function.brace, b"}", 1)
        end = len(self.text) if last is None else self.code.tokens[last].end
        return self.code.tokens[function.start].place, end

    def find_bodies(self):
        """Finds the bodies of structures and the like, and what is declared in them."""
        bare = Bare(self.split)
        self.bodies, self.tags, self.before_tags = set(), set(), set()
        self.structures = set()  # the bodies that are no enumerations
        self.enumerators, self.members, self.parts_of_file = [], set(), []
        self.given = set()  # the names of parts with a value
        for number, brace in bare.braces.items():
            if brace.word:
                self.bodies.add(self.index[bare.tokens[number].place])
            if brace.word in (b"struct", b"union"):
                self.structures.add(self.index[bare.tokens[number].place])
            if brace.word and brace.tag:
                self.tags.add(brace.tag.place)
                before = number - 2
                while bare.tokens[before].is_name:
                    self.before_tags.add(bare.tokens[before].place)
                    before -= 1
        for level in bare.levels():
            if level.word == b"enum":
                self.enumerators += wide_model.enumerators(level)
            if not level.declares:
                continue
            for declaration in wide_model.declarations(level):
                for part in naming_parts(declaration):
                    self.parts_of_file.append(part)
                    name = name_of(part)
                    if name and level.brace and b"typedef" not in part.words:
                        self.members.add(name.token.place)
                    if name and part.has_value:
                        self.given.add(name.token.place)

    def find_in_body(self):
        """Of each token whether it stands in the body of a function."""
        inside = bytearray(self.code.size)
        for one in self.functions:
            inside[one.brace : one.last + 1] = b"\1" * (one.last + 1 - one.brace)
        return inside

    # ---- name spaces

    def find_spaces(self):
        """The space of each name, by its place."""
        self.spaces, self.spaces_of_tokens, self.parameters_of = {}, [], {}
        for index, token in enumerate(self.code.tokens):
            if token.is_name:
                self.put_space(token, self.space_in(self.code, index))
        for line, stream in self.directives:
            if line.own_word == b"include":
                continue
            names = self.parameters_of_macro(line, stream)
            for index, token in enumerate(stream.tokens):
                if token.is_name and not (index == 1 and line.own_word):
                    self.put_space(token, self.space_in_directive(line, stream, index, names))

    def put_space(self, token, space):
        self.spaces[token.place] = space
        self.spaces_of_tokens.append(token)

    def parameters_of_macro(self, line, stream):
        """The names between the `(` and the first `)` of a macro with arguments, or the end of the
        line, each with its first place."""
        tokens = stream.tokens
        if not (
            line.own_word == b"define"
            and len(tokens) > 3
            and tokens[2].is_name
            and tokens[3].text == b"("
            and tokens[3].place == tokens[2].end
        ):
            return {}
        texts = [token.text for token in tokens]
        last = texts.index(b")", 4) if b")" in texts[4:] else len(texts)
        names = {}
        for token in tokens[4:last]:
            if token.is_name:
                names.setdefault(token.text, token.place)
        end = tokens[last].place if last < len(tokens) else line.end
        self.parameters_of[line.tokens[0].place] = (line, names, end)
        return names

    def space_in_directive(self, line, stream, index, names):
        if index > 2 and stream.text(index) in names:
            return "macro parameter"
        if line.own_word in CONDITIONS or (line.own_word == b"define" and index == 2):
            return "macro"
        return self.space_in(stream, index)

    def space_in(self, stream, index):
        """The space of a name by its neighbours."""
        token = stream.tokens[index]
        if stream.text(index - 1) == b"." and self.is_designating(stream, index - 1):
            return "designator"
        if self.is_member(stream, index) or token.place in self.members:
            return "member"
        if self.is_tag(stream, index):
            return "tag"
        if stream.text(index - 1) == b"goto" or (stream is self.code and index in self.labels):
            return "label"
        return "ordinary"

    def is_designating(self, stream, dot):
        """Whether a `.` begins a designator or goes on one."""
        index = stream.before_indexes(dot - 1)
        if stream.text(index) in (b"{", b","):
            return True
        return stream.is_name(index) and self.spaces.get(stream.tokens[index].place) == "designator"

    def is_member(self, stream, index):
        return stream.is_arrow(index - 2) or stream.is_dot(index - 1)

    def is_tag(self, stream, index):
        place = stream.tokens[index].place
        if place in self.tags:
            return True
        before = self.before_of_tag(stream, index)
        return stream.text(before) in TAGGED and place not in self.before_tags

    def before_of_tag(self, stream, index):
        """The token that a name directly follows, attributes left out: in the body of a function
        the hard ones alone."""
        if stream is self.code and self.in_body[index]:
            return stream.before(index)
        index -= 1
        while stream.text(index) == b")" and stream.pair[index] > 0:
            word = stream.pair[index] - 1
            if not wide_model.begins_attribute(stream.tokens, word):
                break
            index = word - 1
        return index

    # ---- braces, statements and loops of a function

    def walk(self, function):
        """Finds the blocks, loops, statements and labels of a function, in one pass. A `for` counts
        in its head as well."""
        code = self.code
        self.scopes.append(Scope("function", function.start, function.last))
        begins = set()  # the tokens that begin a statement
        cases = {}  # of each block the cases whose `:` is to come, by the `?` that are open
        for index in range(function.start, function.last + 1):
            text, around = code.text(index), code.around[index]
            if text == b"{" and index >= function.brace:
                is_first = index == function.brace
                self.kinds[index] = "block" if is_first else self.kind_of_brace(index)
                if self.kinds[index] == "block":
                    last = min(code.until[index], function.last)
                    self.scopes.append(Scope("block", index, last))
                    begins.add(code.following(index))
            elif text == b"for" and code.text(code.following(index)) == b"(":
                opened = code.following(index)
                begins.add(code.following(opened))
                self.scopes.append(Scope("for", opened, self.end_of_for(function, index, opened)))
            if self.kinds.get(around) != "block" or index <= function.brace:
                continue
            if self.ends_statement(index, cases):
                begins.add(code.following(index))
            elif index in begins and self.is_label(index):
                self.labels.add(index)
                cases.setdefault(around, []).append(0)
        self.statements += sorted(one for one in begins if one < function.last)

    def ends_statement(self, index, cases):
        """Whether a token of a block is one behind which a statement begins."""
        code, around = self.code, self.code.around[index]
        text, pending = code.text(index), cases.get(around, [])
        if text == b"}":
            return self.kinds.get(code.pair[index]) == "block"
        if text == b"case" or (text == b"default" and code.text(code.following(index)) == b":"):
            cases.setdefault(around, []).append(0)
        elif text == b"?":
            cases[around] = [one + 1 for one in pending]
        elif text == b":":
            cases[around] = [one - 1 for one in pending if one]
            return 0 in pending
        return text == b";"

    def kind_of_brace(self, index):
        """What a brace in the body of a function opens."""
        code = self.code
        if index in self.bodies:
            return "body"
        before = code.before(index)
        text = code.text(before)
        if text in (b"=", b"]"):
            return "value"
        if text in (b",", b"{"):
            return "value" if self.kinds.get(code.around[index]) == "value" else "block"
        if text == b")" and code.pair[before] >= 0:
            called = code.before(code.pair[before])
            is_called = code.is_name(called) or code.text(called) in CONTROLS
            return "block" if is_called else "value"
        return "block"

    def is_label(self, index):
        """Whether the beginning of a statement is a label: a name and a `:` that no `:` touches."""
        code, colon = self.code, index + 1
        return (
            code.is_name(index)
            and code.text(colon) == b":"
            and not (code.text(colon + 1) == b":" and code.touch(colon))
        )

    def end_of_for(self, function, index, opened):
        """The last token of the scope of a `for`: that of its statement."""
        code, around = self.code, self.code.around[index]
        limit = min(code.until[around] if around >= 0 else code.size, function.last)
        place = code.pair[opened] + 1
        while 0 < place < limit:
            last = code.pair[place] if code.text(place) in OPENING else place
            if last < 0 or last >= limit:
                break
            if self.ends_for(place) and code.text(code.following(last)) != b"else":
                return last
            place = last + 1
        return limit

    def ends_for(self, index):
        """Whether the statement of a `for` can end here: with a `;` or with a block."""
        text = self.code.text(index)
        return text == b";" or (text == b"{" and self.kind_of_brace(index) == "block")

    # ---- declarations

    def is_declaration(self, begin):
        """Whether the statement that begins at a token is a declaration."""
        code = self.code
        if code.text(begin) in TYPE_WORDS:
            return True
        if not code.is_name(begin):
            return False
        after = code.following(begin)
        if code.text(after) != b"(":
            return self.is_sequence(after, lambda names, stars: True)
        return self.is_pointer_declared(after) or (
            code.pair[after] >= 0 and self.is_declared_behind(code.following(code.pair[after]))
        )

    def is_declared_behind(self, index):
        """Whether a declaration goes on here, behind a name and its group."""
        return self.code.text(index) in TYPE_WORDS or self.is_sequence(
            index, lambda names, stars: names > 1 or stars > 0
        )

    def is_sequence(self, index, is_enough):
        """Whether words and `*` stand from here on that end as those before a declarator's end."""
        code = self.code
        last, names, stars = -1, 0, 0
        while code.text(index) == b"*" or (
            code.is_word(index) and code.text(index) not in STATEMENTS
        ):
            names, stars = names + code.is_name(index), stars + (code.text(index) == b"*")
            last, index = index, code.following(index)
        text = code.text(index)
        if last < 0 or not is_enough(names, stars):
            return False
        if code.text(last) == b"*":
            return text == b"(" and code.text(code.following(index)) == b"*"
        if not code.is_name(last):
            return False
        if text == b"(" and not stars:
            behind = code.following(code.pair[index]) if code.pair[index] >= 0 else -1
            return code.text(behind) in (b";", b",", b"=") or code.is_word(behind)
        return text in (b";", b"=", b",", b"[", b"(", b")")

    def is_pointer_declared(self, opened):
        """Whether `(`, one or more `*`, words of which the last is a name, `)` and `(` follow."""
        code = self.code
        first = index = code.following(opened)
        while code.text(index) == b"*":
            index = code.following(index)
        last = -1
        while code.text(first) == b"*" and code.is_word(index):
            last, index = index, code.following(index)
        return (
            code.is_name(last)
            and code.text(index) == b")"
            and code.text(code.following(index)) == b"("
        )

    def end_of_declaration(self, begin):
        """Where a declaration ends: before the first `;` or closing bracket outside of pairs."""
        code, index = self.code, begin
        while index < code.size and code.text(index) != b";" and code.text(index) not in PARTNER:
            is_pair = code.text(index) in OPENING and code.pair[index] >= 0
            index = code.pair[index] + 1 if is_pair else index + 1
        return index

    def items(self, start, end):
        """The tokens of a declaration without attributes and the groups of `typeof`; a pair of
        braces is one, and an open brace stands for all up to the end."""
        code, tokens, index, found = self.code, self.code.tokens, start, []
        while index < end:
            token, brace, last = tokens[index], None, index
            if token.text in TYPEOF and code.text(index + 1) == b"(" and code.pair[index + 1] >= 0:
                last = code.pair[index + 1]
            elif token.is_word and wide_model.begins_attribute(tokens, index):
                index = wide_model.end_of_attribute(tokens, index)
                continue
            elif token.text == b"{":
                last = code.pair[index] if code.pair[index] >= 0 else end
                brace = Brace(index, last, b"", None)
            found.append(Item(token, brace, False, True))
            index = last + 1
        return [*with_outer(found)]

    def parts_between(self, start, end):
        """The parts of a declaration up to the first stray token."""
        items = self.items(start, end)
        return itertools.takewhile(lambda one: not one.is_stray, parts_in(items) if items else [])

    def declare_statement(self, begin):
        """Declares the names of a declaration in a block."""
        if not self.is_declaration(begin):
            return
        end = self.end_of_declaration(begin)
        is_extern = any(item.is_outer and item.text == b"extern" for item in self.items(begin, end))
        for part in self.parts_between(begin, end):
            name = name_of(part)
            if name and self.is_of_block(part, is_extern):
                self.declare(name.token, "innermost", "ordinary", part.has_value)
            self.declare_lists(part)

    def is_of_block(self, part, is_extern):
        """Whether a part in a block declares its name there; else it is one of the file."""
        return not is_extern and not prototype_of(part)

    def declare(self, token, where, space="ordinary", has_value=False):
        """A token declares its name, if it is in that space."""
        if self.spaces.get(token.place) == space:
            self.declared.setdefault(self.index[token.place], Declared(where, space, has_value))

    def declare_in_blocks(self):
        """Declares the enumerators and the tags of bodies that stand in a block: the tags in a
        block, the enumerators in the innermost scope, as other names."""
        for token in self.enumerators:
            if self.in_body[self.index[token.place]]:
                self.declare(token, "innermost")
        for place in self.tags:
            self.declare(self.code.tokens[self.index[place]], "block", "tag")

    # ---- parameters

    def attributes(self, start, end):
        """Of each attribute between two tokens, where it begins and what follows it."""
        tokens, found, index = self.code.tokens[start:end], {}, 0
        while index < len(tokens):
            first = index
            index += 1
            if tokens[first].is_word and wide_model.begins_attribute(tokens, first):
                index = wide_model.end_of_attribute(tokens, first)
                found[start + first] = start + index
        return found

    def lists_of_function(self, function):
        """The parentheses of the lists of a function; the first is its own."""
        code, left_out = self.code, self.attributes(function.start, function.brace)

        def following(index):
            index += 1
            while index in left_out:
                index = left_out[index]
            return index

        own = following(function.name)
        if code.text(own) == b")":
            own = following(own)
        is_own = code.text(own) == b"(" and 0 <= code.pair[own] < function.brace
        heads = range(function.start, function.brace)
        outer, index = [], following(function.start - 1)
        while index < function.brace:
            is_level = code.around[index] not in heads
            if code.text(index) == b"(" and is_level and 0 <= code.pair[index] < function.brace:
                outer.append(index)
            index = following(index)
        if not is_own:
            return outer
        return [own, *(one for one in outer if one > code.pair[own])]

    def parts_of_list(self, opened):
        """Where each part of a list begins and ends: it is split at its own commas."""
        code = self.code
        commas = self.commas.get(opened, [])
        starts = [opened + 1, *(comma + 1 for comma in commas)]
        return zip(starts, [*commas, code.pair[opened]])

    @functools.cached_property
    def commas(self):
        """The commas of each pair of parentheses."""
        found = {}
        for index, token in enumerate(self.code.tokens):
            if token.text == b",":
                found.setdefault(self.code.around[index], []).append(index)
        return found

    def name_of_parameter(self, part):
        return name_of(part)

    def declare_parameters(self, function):
        """Declares the parameters of a function in its scope. In the old style the lists of its
        declarations are scopes."""
        lists = self.lists_of_function(function)
        self.lists.difference_update(lists)
        if function.is_old and lists:
            self.declare_old(function, lists[0])
        for opened in lists:
            if opened not in self.lists:
                self.lists.add(opened)
                for part in self.declare_list(opened, "function"):
                    self.declare_lists(part)

    def declare_old(self, function, own):
        """Declares the parameters of the old style: names alone, and declarations."""
        self.lists.add(own)
        for part in self.declare_list(own, "function"):
            self.declare_lists(part)
        for start, end in self.parts_of_list(own):
            items = self.items(start, end)
            if len(items) == 1 and items[0].is_name:
                self.declare(items[0].token, "function")
        start = self.code.pair[own] + 1
        for index in range(start, function.brace):
            if self.code.text(index) == b";":
                for part in self.parts_between(start, self.end_of_declaration(start)):
                    name = self.name_of_parameter(part)
                    if name:
                        self.declare(name.token, "innermost", has_value=part.has_value)
                    self.declare_lists(part)
                start = index + 1

    def declare_list(self, opened, where):
        """Declares the names of a list; its parts, which can hold other lists."""
        parts = []
        for start, end in self.parts_of_list(opened):
            for part in itertools.islice(self.parts_between(start, end), 1):
                name = self.name_of_parameter(part)
                if name:
                    self.declare(name.token, where, has_value=part.has_value)
                parts.append(part)
        return parts

    def declare_lists(self, part):
        """Declares what the lists of parameters in a part of a declaration declare, and the lists
        in these."""
        waiting = [part]
        while waiting:
            for opened in self.lists_of_part(waiting.pop()):
                last = self.code.pair[opened]
                if opened not in self.lists and last >= 0:
                    self.lists.add(opened)
                    self.scopes.append(Scope("list", opened, last))
                    waiting += self.declare_list(opened, "innermost")

    def lists_of_part(self, part):
        """The parentheses that directly follow the name of a part, or the `)` of its pointer, and
        end in the part."""
        items = part.items
        number = {item.token.place: number for number, item in enumerate(items)}

        def closed(at):
            """The number of the `)` of the `(` at a number, or none."""
            if text_at(part, at) != b"(":
                return None
            last = self.code.pair[self.index[items[at].token.place]]
            return number.get(self.code.tokens[last].place) if last >= 0 else None

        begins = []
        for name in (prototype_of(part), name_of(part)):
            if name:
                at = number[name.token.place] + 1
                begins.append(at + (text_at(part, at) == b")"))
        for at, item in enumerate(items):
            if item.is_outer and item.text == b"(" and text_at(part, at + 1) == b"*":
                last = closed(at)
                begins += [last + 1] if last is not None else []
                break
        for at in begins:
            if closed(at) is not None:
                yield self.index[items[at].token.place]

    # ---- binding

    def bind(self):
        """Binds each name: of the code by its scopes, of directives by their own parameters."""
        self.bound, self.used, self.definitions = {}, {}, {}
        self.bind_code()
        self.bind_labels()
        for line, names, _ in self.parameters_of.values():
            first, end = line.tokens[0].place, line.end
            for token in line.tokens:
                if self.spaces.get(token.place) == "macro parameter":
                    thing = Thing("parameter", token.text, "macro parameter", first, end)
                    self.definitions[thing] = [names[token.text]]
                    self.put(token, thing)
        for token in self.spaces_of_tokens:
            if token.place not in self.bound:
                free = Thing("free", token.text, self.spaces[token.place])
                self.bound[token.place] = free

    def put(self, token, thing):
        self.bound[token.place] = thing
        self.used.setdefault(thing, []).append(token.place)

    def bind_code(self):
        """One pass over the code, with a stack of the scopes around."""
        tokens = self.code.tokens
        scopes = sorted(self.scopes, key=lambda one: (one.first, -one.last))
        stack, declaring, number = (
            [],
            {},
            0,
        )  # by space and name: the numbers of scopes on the stack
        for index, token in enumerate(tokens):
            while stack and stack[-1][0].last < index:
                for key in stack.pop()[1]:
                    declaring[key].pop()
            while number < len(scopes) and scopes[number].first <= index:
                scope = scopes[number]
                last = min(scope.last, stack[-1][0].last) if stack else scope.last
                stack.append((scope._replace(last=last), set()))
                number += 1
            if not token.is_name:
                continue
            key = self.spaces[token.place], token.text
            if index in self.declared:
                self.enter(stack, declaring, key, self.declared[index].where)
            around = self.innermost(declaring, key)
            if around is not None:
                scope = stack[around][0]
                start, end = tokens[scope.first].place, tokens[scope.last].end
                thing = Thing("local", token.text, key[0], start, end)
                self.put(token, thing)
                declared = self.declared.get(index)
                if declared and self.scope_of(stack, declared.where) == around:
                    self.definitions.setdefault(thing, []).append(token.place)

    def innermost(self, declaring, key):
        numbers = declaring.get(key)
        return numbers[-1] if numbers and key[0] in ("ordinary", "tag") else None

    def scope_of(self, stack, where):
        """The number of the scope around that declares a name, or none."""
        kinds = {"innermost": None, "block": "block", "function": "function"}[where]
        for number in range(len(stack) - 1, -1, -1):
            if kinds is None or stack[number][0].kind == kinds:
                return number
        return None

    def enter(self, stack, declaring, key, where):
        """Puts a name into the scope that declares it."""
        number = self.scope_of(stack, where)
        if number is not None and key not in stack[number][1]:
            stack[number][1].add(key)
            bisect.insort(declaring.setdefault(key, []), number)

    def bind_labels(self):
        """Binds the labels of each function; one that only `goto` names has no definition."""
        tokens = self.code.tokens
        for function in self.functions:
            start, end = tokens[function.start].place, tokens[function.last].end
            for token in tokens[function.start : function.last + 1]:
                if token.is_name and self.spaces[token.place] == "label":
                    thing = Thing("label", token.text, "label", start, end)
                    self.put(token, thing)
                    if self.index[token.place] in self.labels:
                        self.definitions.setdefault(thing, []).append(token.place)

    # ---- letters of uses

    def letter(self, place, is_definition=False):
        """How a name is used: `r` read, `w` written, `a` its address taken, `t` a text. Whether it
        is a definition is known of what is bound; of a name of the file it has to be said."""
        stream, index = self.stream_at(place)
        thing = self.bound[place]
        if thing.kind == "label":
            return "t"
        end = stream.behind_indexes(stream.following(index))
        if is_definition or self.declares(stream, index):
            return "w" if self.is_given(stream, index, end) else "t"
        start = self.start_of_chain(stream, index)
        befores = {stream.before(index), stream.before(start)}
        is_stepped = self.is_step(stream, end)
        is_accessor = stream.is_arrow(end) or stream.is_dot(end)
        if any(stream.text(one) == b"*" for one in befores) and not is_stepped:
            return "r"
        if self.is_assigned(stream, end) or is_stepped:
            return "w"
        if not is_accessor and any(self.is_step(stream, one - 1) for one in befores):
            return "w"
        if not is_accessor and any(self.is_address(stream, one) for one in befores):
            return "a"
        return "r"

    def stream_at(self, place):
        """The tokens among which the token at a place stands, and its index."""
        if place in self.index:
            return self.code, self.index[place]
        return self.index_of_directives[place]

    @functools.cached_property
    def index_of_directives(self):
        return {
            token.place: (stream, index)
            for _, stream in self.directives
            for index, token in enumerate(stream.tokens)
        }

    def declares(self, stream, index):
        """Whether a use is a declaration of what it is bound to."""
        token = stream.tokens[index]
        if stream is self.code:
            return token.place in self.definitions.get(self.bound[token.place], [])
        if self.bound[token.place].kind != "parameter":
            return False
        return token.place < self.parameters_of[stream.tokens[0].place][2]

    def is_given(self, stream, index, end):
        """Whether a declaration has a value."""
        token = stream.tokens[index]
        has_value = stream is self.code and (
            token.place in self.given or (index in self.declared and self.declared[index].has_value)
        )
        return has_value or (stream is self.code and self.is_assigned(stream, end))

    def start_of_chain(self, stream, index):
        """The first token of the chain of names, pairs and accessors that ends with a use."""
        while True:
            if stream.is_arrow(index - 2):
                before = index - 3
            elif stream.is_dot(index - 1):
                before = index - 2
            else:
                return index
            start = before + 1
            while stream.text(before) in (b")", b"]") and stream.pair[before] >= 0:
                start = stream.pair[before]
                before = start - 1
            if stream.is_name(before):
                index = before
            elif start <= index - 2 and stream.text(start) in OPENING:
                return start
            else:
                return index

    def is_step(self, stream, index):
        """Whether `++` or `--` begins at a token."""
        return (
            stream.text(index) in (b"+", b"-")
            and stream.text(index + 1) == stream.text(index)
            and stream.touch(index)
        )

    def is_assigned(self, stream, index):
        """Whether `=` or another assignment operator begins at a token."""
        text = stream.text(index)
        if text == b"=":
            return not (stream.text(index + 1) == b"=" and stream.touch(index))
        if text in (b"<", b">") and stream.text(index + 1) == text and stream.touch(index):
            index += 1
        elif text not in (b"+", b"-", b"*", b"/", b"%", b"&", b"^", b"|"):
            return False
        return stream.text(index + 1) == b"=" and stream.touch(index)

    def is_address(self, stream, index):
        """Whether a token is the `&` that takes an address."""
        before = index - 1
        if stream.text(index) != b"&" or (stream.text(before) == b"&" and stream.touch(before)):
            return False
        if before < 0:
            return True
        token = stream.tokens[before]
        is_literal = token.text[:1] in (b'"', b"'")
        return not (token.is_name or token.is_number or is_literal or token.text in (b")", b"]"))
