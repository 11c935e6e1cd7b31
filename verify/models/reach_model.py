"""What names of the file mean in a set of files, and what a rename does: written from the rules
alone.

`names_model.py` says what is bound within a text. Here a free name is looked for in the files: in
those that the asking file includes first, then in the nearest ones. A rename of a thing gives the
places of its uses, or the reason why it is refused.

The rules leave some things open, and are read so. Macros are followed from the names of a function,
in rounds, each once: to those that the texts found in the last round name. Of several macros that
refuse a rename the one that is found first counts, and what is reported is the name of the function
that led to it. The text of a macro is taken by itself: a name is a member there behind `->`, and
behind a `.` that directly follows a name, `)` or `]`. A rename is refused, too, where a function is
not all there, or a place of the old name is not known for what it is. Of several reasons the first
of the table counts; a file outside the root is one that is not open.
"""

from __future__ import annotations

import functools
import re
from typing import NamedTuple

import wide_model
from names_model import HARD, Stream, Text, Thing
from text_model import RESERVED, headers, is_counted_alike

PRIVATE_KINDS = frozenset([b"d", b"t", b"s", b"u", b"g", b"e", b"m"])
TAG_KINDS = {b"struct": b"s", b"union": b"u", b"enum": b"g"}
KINDS_OF_SPACE = {"ordinary": b"fdtevxp", "tag": b"sug"}
STRANGE = frozenset([b"offsetof", b"__builtin_offsetof"])
MOST_ROUNDS = 16
JOINS = b"\\\n", b"\\\r\n"


class Refusal(Exception):
    """A rename is refused: the text that says why."""


class Found(NamedTuple):
    """A definition of a file."""

    file: bytes
    place: int
    kind: bytes
    name: bytes
    is_local: bool


class NameOfFile(NamedTuple):
    """A free name of a space, with the definitions that it means."""

    name: bytes
    space: str
    meaning: tuple


class Macro(NamedTuple):
    """A definition of a macro: its parameters and its text, and whether it takes arguments."""

    parameters: frozenset
    text: Stream
    takes: bool

    @property
    def names(self):
        """The names of the text other than its parameters, by place."""
        names = [token.text for token in self.text.tokens if token.is_name]
        return [name for name in names if name not in self.parameters]

    @property
    def calls(self):
        """Whether a `(` directly follows a parameter in the text."""
        return any(
            token.text in self.parameters and self.text.text(index + 1) == b"("
            for index, token in enumerate(self.text.tokens)
            if token.is_name
        )

    def has(self, *wanted):
        """Whether the text has one of some names that is no parameter, and neither a member nor a
        tag there."""
        return any(
            token.text in wanted and token.text in self.names and not self.is_apart(index)
            for index, token in enumerate(self.text.tokens)
        )

    def is_apart(self, index):
        """Whether a name of the text is a member or a tag."""
        text = self.text
        follows = text.is_name(index - 2) or text.text(index - 2) in (b")", b"]")
        is_member = text.is_arrow(index - 2) or (text.is_dot(index - 1) and follows)
        return is_member or text.text(index - 1) in TAG_KINDS

    @property
    def is_strange(self):
        """Whether an argument can become something else than what it is."""
        return any(
            self.is_hash(index) or token.text in STRANGE or self.is_strange_at(index)
            for index, token in enumerate(self.text.tokens)
        )

    def is_hash(self, index):
        """Whether a token is `#`, or begins `%:`, which is another way to write it."""
        texts = self.text.text(index), self.text.text(index + 1)
        return texts[0] == b"#" or texts == (b"%", b":")

    def is_strange_at(self, index):
        """Whether a parameter stands where no variable does."""
        text, befores = self.text, (b".", b"struct", b"union", b"enum", b"goto")
        return text.text(index) in self.parameters and (
            text.text(index - 1) in befores
            or text.is_arrow(index - 2)
            or text.text(index + 1) == b":"
        )


def folders(file):
    return file.split(b"/")[:-1]


def distance(one, other):
    """How many folders of either of two files the other does not share from the left."""
    shared = 0
    for left, right in zip(folders(one), folders(other)):
        if left != right:
            break
        shared += 1
    return len(folders(one)) + len(folders(other)) - 2 * shared


class Tree:
    """A set of files, by name, and what their names mean."""

    macro_of = Macro
    most_rounds = MOST_ROUNDS

    def __init__(self, files, read=Text, facts=wide_model.facts):
        self.files, self.read, self.facts = dict(files), read, facts
        self.texts = {}
        self.closures = {}

    def text(self, file):
        if file not in self.texts:
            self.texts[file] = self.read(self.files[file])
        return self.texts[file]

    # ---- what files name

    def header(self, file, name):
        """The file that a header of a file names, or none. The steps at its front count: `./` stays
        in the folder of the file, and `../` leaves it."""
        steps, rest = re.fullmatch(rb"((?:\.{1,2}/)*)(.*)", name, re.DOTALL).groups()
        here, above = folders(file), steps.count(b"../")
        beside = b"/".join([*here[: len(here) - above], rest])
        if above <= len([it for it in here if it]) and beside in self.files:
            return beside
        named = [one for one in self.files if one == rest or one.endswith(b"/" + rest)]
        return min(named, key=lambda one: (distance(file, one), one), default=None)

    def closure(self, file):
        """A file and all that it includes, and that these include."""
        if file not in self.closures:
            found = {file: None}
            waiting = [file]
            for one in waiting:
                for _, name in headers(self.files[one]):
                    other = self.header(one, name)
                    if other is not None and other not in found:
                        found[other] = None
                        waiting.append(other)
            self.closures[file] = found
        return self.closures[file]

    # ---- definitions

    @functools.cached_property
    def defined(self):
        """All definitions, by name, each list by file and place."""
        found: dict = {}
        for file, text in sorted(self.files.items()):
            for one in self.facts(text).definitions:
                found.setdefault(one.name, []).append(
                    Found(file, one.place, one.kind, one.name, one.local)
                )
        return found

    def of_kinds(self, name, kinds):
        """The definitions of a name of these kinds; what a block declares is none of the file."""
        return [
            one
            for one in self.defined.get(name, [])
            if one.kind in kinds and not self.is_of_block(one)
        ]

    def is_of_block(self, one):
        return one.kind in b"esug" and self.text(one.file).bound[one.place].kind == "local"

    def is_private(self, one):
        return one.file.endswith(b".c") and (one.kind in PRIVATE_KINDS or one.is_local)

    def is_in_view(self, file, one):
        return not self.is_private(one) or one.file in self.closure(file)

    def candidates(self, file, place):
        """The definitions of a free name in the kinds of its space, or in those beside them."""
        text = self.text(file)
        stream, index = text.stream_at(place)
        name = stream.tokens[index].text
        for kinds in self.kinds(text.space(place), stream, index):
            found = self.of_kinds(name, kinds)
            if found:
                return found
        return []

    def kinds(self, space, stream, index):
        """The kinds of definitions that a name can have, first choices first."""
        if space in ("member", "designator"):
            return [b"m", b"d"]
        if space == "tag":
            return [self.kind_of_tag(stream, index), b"sug", b"d"]
        if space == "macro":
            return [b"d"]
        if space == "ordinary":
            is_called = stream.text(index + 1) == b"("
            return [b"fdp", b"vxte"] if is_called else [b"fdtevxp"]
        return []

    def kind_of_tag(self, stream, index):
        """The kind of the word before a tag: the names between it and a body count for nothing."""
        index -= 1
        while index >= 0 and stream.text(index) not in TAG_KINDS:
            index -= 1
        return TAG_KINDS.get(stream.text(index), b"")

    def meaning(self, file, place):
        """The definitions that a free name means, in their order."""
        return self.ordered(file, self.candidates(file, place))

    def ordered(self, file, found, are_declarations=False):
        """Which of some definitions count in a file, in their order: all that declare the name, or
        all that define it, if there are some."""
        closure = self.closure(file)
        found = [one for one in found if self.is_in_view(file, one)] or found
        found = [one for one in found if (one.kind in b"xp") == are_declarations] or found
        here = [one for one in found if one.file == file]
        included = [one for one in found if one.file in closure]
        if here:
            found = here
        elif included:
            found = included + self.behind(included, found)
        else:
            named = [one for one in found if one.kind in b"fv"]
            found = self.nearest(file, named or found)
        return sorted(
            found,
            key=lambda one: (
                one.file not in closure,
                distance(file, one.file),
                one.file,
                one.place,
            ),
        )

    def behind(self, included, found):
        """The functions and variables of sources that count behind what is included, if that has no
        function."""
        if any(one.kind == b"f" for one in included):
            return []
        return [
            one
            for one in found
            if one not in included and one.kind in b"fv" and one.file.endswith(b".c")
        ]

    def nearest(self, file, found):
        """Those of some definitions that are at the smallest distance."""
        smallest = min((distance(file, one.file) for one in found), default=0)
        return [one for one in found if distance(file, one.file) == smallest]

    def declaration(self, file, place):
        """Where the declarations of a name stand; else what its definition is."""
        if self.text(file).binding(place).kind != "free":
            return self.definition(file, place)
        declared = self.ordered(file, self.candidates(file, place), True)
        return [(one.file, one.place) for one in declared]

    def definition(self, file, place):
        """Where the definitions of a name stand: files and places."""
        text = self.text(file)
        if text.binding(place).kind != "free":
            found = text.definition(place)
            return [] if found is None else [(file, found)]
        return [(one.file, one.place) for one in self.meaning(file, place)]

    # ---- things of the files

    def thing(self, file, place):
        """What a name stands for: what it is bound to, a name of the file, or none."""
        bound = self.text(file).binding(place)
        if bound.kind != "free":
            return bound if self.text(file).definition(place) is not None else None
        meaning = self.meaning(file, place)
        if not meaning or meaning[0].kind == b"m":
            return None  # members are told apart by their types
        is_macro = meaning[0].kind == b"d"
        space = "macro" if is_macro else "tag" if bound.space == "tag" else "ordinary"
        return NameOfFile(bound.name, space, tuple(meaning))

    def owner(self, thing):
        """The file to which all definitions that a name means are private, or none."""
        files = {one.file for one in thing.meaning}
        is_private = all(self.is_private(one) for one in thing.meaning)
        return files.pop() if is_private and len(files) == 1 else None

    def reach(self, thing):
        """The files in which a name of the file has its uses."""
        owner = self.owner(thing)
        if owner is not None:
            return [
                one
                for one in sorted(self.files)
                if owner in self.closure(one) or one in self.closure(owner)
            ]
        private = self.private_in(thing)
        return [one for one in sorted(self.files) if one not in private]

    def private_in(self, thing):
        """The files that have a private definition of the name in its space."""
        kinds = b"d" if thing.space == "macro" else KINDS_OF_SPACE[thing.space]
        return {one.file for one in self.of_kinds(thing.name, kinds) if self.is_private(one)}

    def free_in(self, file, thing):
        """The places of a file that a name of the file has: free ones of its space, and those of
        directives in the spaces ordinary and macro; a macro has those of all spaces."""
        text = self.text(file)
        return [
            token.place
            for token in text.named.get(thing.name, [])
            if text.binding(token.place).kind == "free"
            and (thing.space == "macro" or self.is_of(text, token, thing.space))
        ]

    def is_of(self, text, token, space):
        own = text.space(token.place)
        is_code = token.place in text.index
        return own == space or (space == "ordinary" and not is_code and own == "macro")

    def uses(self, file, place):
        """The uses of what a name stands for: files and places with their letters."""
        text, thing = self.text(file), self.thing(file, place)
        if thing is None:
            return []
        if isinstance(thing, Thing):
            return [(file, *use) for use in text.uses(thing)]
        defined = {(one.file, one.place) for one in self.of_kinds(thing.name, wide_model.KINDS)}
        return [
            (one, use, self.text(one).letter(use, (one, use) in defined))
            for one in self.reach(thing)
            for use in self.free_in(one, thing)
        ]

    # ---- macros

    @functools.cached_property
    def macros(self):
        """The definitions of macros, by name."""
        found: dict = {}
        for file in sorted(self.files):
            for line, stream in self.text(file).directives:
                if line.own_word != b"define" or not stream.is_name(2):
                    continue
                parameters, first = frozenset(), 3
                takes = stream.text(3) == b"(" and stream.tokens[3].place == stream.tokens[2].end
                if takes:
                    texts = [token.text for token in stream.tokens]
                    last = texts.index(b")", 4) if b")" in texts[4:] else len(texts) - 1
                    parameters = frozenset(
                        token.text for token in stream.tokens[4:last] if token.is_name
                    )
                    first = last + 1
                text = Stream(self.files[file], stream.tokens[first:])
                found.setdefault(stream.text(2), []).append(self.macro_of(parameters, text, takes))
        return found

    def met(self, names):
        """The macros that some names lead to, in the order in which they are found, each with the
        name that led to it; and those of the last round."""
        found: dict = {name: name for name in names if name in self.macros}
        last = found
        for _ in range(self.most_rounds):
            more: dict = {}
            for one, through in last.items():
                for name in self.named_by(one):
                    if name in self.macros and name not in found:
                        more.setdefault(name, through)
            found, last = {**found, **more}, more
        return found, last

    def named_by(self, name):
        """The names that the texts of a macro name, by file and place."""
        return [it for macro in self.macros[name] for it in macro.names]

    def leading(self, names, is_sought):
        """The first name that leads to a macro with a text that is sought; else, where the last
        round still finds a macro, the name that led there."""
        found, last = self.met(names)
        for name, through in found.items():
            if any(is_sought(macro) for macro in self.macros[name]):
                return through
        return next(iter(last.values()), None)

    # ---- rename

    def rename(self, file, place, new, has_root=False, is_open=lambda file: True):
        """The places of a rename, by file; it raises a refusal."""
        thing = self.thing(file, place) if place in self.text(file).bound else None
        if thing is None:
            raise Refusal(b"no such definition")
        is_name = re.fullmatch(rb"[A-Za-z_][A-Za-z0-9_]*", new) and new not in RESERVED
        if not is_name or any(
            one.startswith(b"__") or one in (b"typeof", b"offsetof") for one in (new, thing.name)
        ):
            raise Refusal(b"bad name")
        places: dict = {}
        for one, use, _ in self.uses(file, place):
            places.setdefault(one, []).append(use)
        is_bound = isinstance(thing, Thing)
        if self.is_used(file, thing, new):
            raise Refusal(b"name is used already")
        if self.is_taken(thing, new):
            raise Refusal(b"a macro or type has this name")
        if is_bound and thing.kind != "parameter":
            self.refuse_macros(file, thing, new)
            self.refuse_unseen(file, thing)
        self.refuse_arguments(thing, places)
        self.refuse_outside(file, thing)
        for one, uses in places.items():
            self.refuse_odd(one, uses, thing.name)
        for one in places:
            if not is_counted_alike(self.files[one]):
                raise Refusal(b"not text: " + one)
        for one in places:
            if has_root and one.startswith(b"/") and not is_bound:
                raise Refusal(b"outside the root: " + one)
        for one in places:
            if not is_open(one):
                raise Refusal(b"not open: " + one)
        return places

    def names_of(self, text, thing):
        """The names in the range of a bound thing, those of directives too, by place."""
        start, end = self.range_of(text, thing)
        return [token for token in text.tokens if start <= token.place < end]

    def range_of(self, text, thing):
        """Where a new name may not stand: the function, the directive, or a list that is not in a
        function."""
        function = self.function_of(text, thing)
        return (thing.start, thing.end) if function is None else text.range_of(function)

    def function_of(self, text, thing):
        """The function that a local or a label is of, or none."""
        for function in text.functions:
            start, end = text.range_of(function)
            if thing.kind != "parameter" and start <= thing.start < end:
                return function
        return None

    def is_used(self, file, thing, new):
        """Whether a new name is used where the thing is."""
        if isinstance(thing, Thing):
            return any(one.text == new for one in self.names_of(self.text(file), thing))
        return any(new in self.text(one).named for one in self.files)

    def is_taken(self, thing, new):
        """Whether a macro or a type has the new name or the old one."""
        old = thing.name
        if new in self.macros:
            return True
        if old in self.macros and (isinstance(thing, Thing) or thing.space != "macro"):
            return True
        if isinstance(thing, NameOfFile):
            return thing.space == "macro" and any(
                one.kind != b"d" for one in self.defined.get(old, [])
            )
        return bool(self.of_kinds(old, b"t") or self.of_kinds(new, b"t"))

    def refuse_macros(self, file, thing, new):
        """A local and a label: no macro that the function names reaches the old or new name."""
        text, wanted = self.text(file), (thing.name, new)
        code = [it.text for it in self.names_of(text, thing) if it.place in text.index]
        through = self.leading(code, lambda it: it.has(*wanted))
        if through is not None:
            raise Refusal(b"used in a macro: " + through)

    def refuse_unseen(self, file, thing):
        """A local and a label: all of the function is there, all places of the old name are in its
        code, and it is known what each of them is."""
        text, function = self.text(file), self.function_of(self.text(file), thing)
        if function is not None and not self.is_whole(text, function):
            raise Refusal(b"used from outside: " + file)
        for token in self.names_of(text, thing):
            if token.text == thing.name and self.is_unsure(text, token):
                raise Refusal(b"used in a macro: " + thing.name)

    def is_whole(self, text, function):
        """Whether a function ends with a brace that closes its body and nothing in it, has no word
        of an attribute that is not left out, and no brace without a partner is between it and the
        next one."""
        tokens = text.code.tokens[function.start : function.last + 1]
        own = Stream(text.text, [it for it in tokens if it.place not in text.left_out])
        brace, last = own.tokens.index(text.code.tokens[function.brace]), own.size - 1
        closed = [it for it in range(brace, last) if own.until.get(it) == last]
        has_word = any(it.text in HARD for it in own.tokens)
        behind = [it.name for it in text.functions if it.name > function.last]
        until = range(function.last + 1, min(behind, default=text.code.size))
        goes_on = any(text.code.text(it) == b"}" and text.code.pair[it] < 0 for it in until)
        return own.text(last) == b"}" and closed == [brace] and not (has_word or goes_on)

    def is_unsure(self, text, token):
        """Whether a name is in a directive or an attribute that is left out, or is the label whose
        address is taken, the member in an old designator, or in the body of a structure. In a block
        such a designator is a label."""
        if token.place not in text.index or token.place in text.left_out:
            return True
        code, index = text.code, text.index[token.place]
        before = code.before(index)
        is_sign = code.text(before) == b"&" and code.text(before - 1) == b"&"
        is_address = is_sign and code.touch(before - 1) and not ends_operand(code, before - 2)
        is_given = code.text(before) in (b"{", b",") and is_colon(code, code.following(index))
        around = code.around[index]
        is_given = is_given and text.kinds.get(around) != "block"
        return is_address or is_given or around in text.structures

    def refuse_arguments(self, thing, places):
        """No use is an argument of a strange macro; of a name of the file no token of the name."""
        for file, uses in places.items():
            text = self.text(file)
            if isinstance(thing, NameOfFile):
                uses = [token.place for token in text.named.get(thing.name, [])]
            elif thing.kind == "label":
                # a macro can take another name of this spelling for the label
                uses = [it.place for it in self.names_of(text, thing) if it.text == thing.name]
            called = {it for use in uses for it in self.called_around(text, use, thing)}
            names = [it.text for it in sorted(called, key=lambda it: it.place)]
            through = self.strange(names)
            if through is not None:
                raise Refusal(b"in the arguments of a macro: " + through)
            if isinstance(thing, Thing) and thing.kind != "parameter":
                self.refuse_handed(text, thing, names)

    def refuse_handed(self, text, thing, names):
        """A local and a label: where one of some names leads to a macro that calls a parameter, no
        strange macro is named without its arguments, which that one may give it."""
        if self.leading(names, lambda it: it.calls) is None:
            return
        code = text.code
        alone = [
            it.text
            for it in self.names_of(text, thing)
            if it.place in text.index
            and it.place not in text.left_out
            and code.text(code.following(text.index[it.place])) != b"("
        ]
        handed = [it for it in alone if any(one.takes for one in self.macros.get(it, []))]
        through = self.leading(handed, lambda it: it.is_strange)
        if through is not None:
            raise Refusal(b"in the arguments of a macro: " + through)

    def strange(self, names):
        """The first of some names whose arguments can become something else than what they are: one
        that takes a member, or else one that leads to a strange text."""
        taking = next((name for name in names if name in STRANGE), None)
        return taking or self.leading(names, lambda it: it.is_strange)

    def called_around(self, text, use, thing):
        """The names that stand directly before a pair of parentheses around a use."""
        stream, index = text.stream_at(use)
        around = stream.around[index]
        while around >= 0:
            is_list = thing.space == "macro parameter" and around == 3
            is_called = stream.text(around) == b"(" and stream.pair[around] >= 0 and not is_list
            if is_called and stream.is_name(stream.before(around)):
                yield stream.tokens[stream.before(around)]
            around = stream.around[around]

    def refuse_outside(self, file, thing):
        """No text that is included in the function uses it; no other file has a private one."""
        text = self.text(file)
        if isinstance(thing, Thing):
            start, end = self.range_of(text, thing)
            for place, name in headers(self.files[file]):
                if start <= place < end and thing.kind != "parameter":
                    raise Refusal(b"used from outside: " + name)
            return
        owner = self.owner(thing)
        if owner is None:
            for one in sorted(self.private_in(thing)):
                raise Refusal(b"used from outside: " + one)
            return
        for one in self.reach(thing):
            if one != owner and self.free_in(one, thing):
                raise Refusal(b"used from outside: " + one)

    def refuse_odd(self, file, uses, name):
        """No odd byte stands beside a place that is edited."""
        text = self.files[file]
        for use in uses:
            before, behind = text[:use], text[use + len(name) :]
            if (
                is_odd(before[-1:])
                or is_odd(behind[:1])
                or before.endswith(JOINS)
                or behind.startswith(JOINS)
            ):
                line = text.count(b"\n", 0, use) + 1
                raise Refusal(b"odd bytes: %s:%d" % (file, line))


def ends_operand(stream, index):
    """Whether an operand can end at a token: a name, a number, a literal, or a closing bracket."""
    if index < 0:
        return False
    token = stream.tokens[index]
    is_literal = token.text[:1] in (b'"', b"'")
    return token.is_name or token.is_number or is_literal or token.text in (b")", b"]")


def is_colon(stream, index):
    """Whether a token is a `:` that no `:` touches behind it."""
    touches = stream.text(index + 1) == b":" and stream.touch(index)
    return stream.text(index) == b":" and not touches


def is_odd(byte):
    return bool(byte) and (byte in b"$@\"'" or byte[0] >= 0x80)
