"""What the wide profile finds in a text: a model that is written from its rules alone.

The scanner does not have this profile yet. It adds enumerators (e), members (m), variables (v),
external declarations (x) and prototypes (p) to the definitions of docs/PROFILE.md, and it names
functions and typedefs as it names all other declarations. Pieces, directives, depth, macros, uses
and includes are those of `text_model.py`.

Each rule looks at whole lists of tokens here. `wide_pass.py` finds the same in one pass.
"""

from __future__ import annotations

import functools
import itertools
from typing import NamedTuple, Optional

from text_model import SHAPES, Token, called_name, facts_of, functions, parts_of

# The order at one place: functions, macros, typedefs, structures, unions, enumerations; then
# enumerators, members, variables, external declarations, prototypes.
KINDS = b"fdtsugemvxp"
PROTOTYPES = b"xp"  # these two are found where they are asked for
ATTRIBUTES = frozenset([b"__attribute__", b"__declspec", b"_Alignas"])
SPECIFIERS = frozenset(
    b"""
    auto const extern inline register restrict static typedef volatile _Noreturn _Thread_local
    __extension__
    """.split()
)
STATEMENTS = frozenset(
    b"""
    break case continue default do else for goto if return sizeof switch while
    """.split()
)


# ---- attributes


def begins_attribute(tokens, index):
    """Whether an attribute begins here: `__attribute__ (` and the like, or `WORD ( "..` or `.. 1`.

    A list of parameters begins with neither a number nor a literal.
    """
    word, *after = tokens[index : index + 3]
    return (
        word.is_word
        and [token.text for token in after[:1]] == [b"("]
        and (word.text in ATTRIBUTES or any(one.is_number or one.is_string for one in after[1:]))
    )


def end_of_attribute(tokens, index):
    """The index after an attribute: after its `)`, or that of an earlier `;`, `{` or `}`."""
    count = 0
    for end in range(index + 1, len(tokens)):
        text = tokens[end].text
        if text in (b";", b"{", b"}"):
            return end
        count += (text == b"(") - (text == b")")
        if count == 0:
            return end + 1
    return len(tokens)


def without_attributes(tokens):
    """The indexes of the tokens that no attribute holds."""
    kept, index = [], 0
    while index < len(tokens):
        if begins_attribute(tokens, index):
            index = end_of_attribute(tokens, index)
        else:
            kept.append(index)
            index += 1
    return kept


# ---- levels


class Brace(NamedTuple):
    """A counted `{` with all up to its `}`. It can be a body: of a structure or the like."""

    start: int
    close: int  # the index of its `}`, or that of the end
    word: bytes  # of a body: `struct`, `union` or `enum`
    tag: Optional[Token]  # of a body, if it has one


class Item(NamedTuple):
    """What a level has as one: a token, or a brace."""

    token: Token  # of a brace its `{`
    brace: Optional[Brace]
    is_uncounted: bool  # whether it is a `{` that is not counted
    is_outer: bool  # whether it is outside parentheses and brackets

    @property
    def text(self):
        return self.token.text

    @property
    def is_name(self):
        return self.token.is_name


class Level(NamedTuple):
    """A brace or the file, without what is in the braces that it holds."""

    brace: Optional[Brace]
    around: Optional[Level]
    items: list

    @property
    def word(self):
        return self.brace.word if self.brace else b""

    @property
    def declares(self):
        """Whether it has declarations."""
        return self.brace is None or self.word in (b"struct", b"union")

    def scope(self):
        """The scope field of the enumerators or members of a body: the tag of the body.

        A structure or union without a tag, directly inside another one, has the field of that.
        """
        if self.brace.tag:
            return self.word + b":" + self.brace.tag.text
        if self.word != b"enum" and self.around.word in (b"struct", b"union"):
            return self.around.scope()
        return b""


class Bare:
    """The code of a text without attributes; depths and uncounted braces stay as they are in it."""

    def __init__(self, code):
        kept = without_attributes(code.tokens)
        self.tokens = [code.tokens[index] for index in kept]
        self.after = [code.depths[index + 1] for index in kept]
        opening = [number for number, one in enumerate(self.tokens) if one.text == b"{"]
        self.uncounted = {number for number in opening if code.is_uncounted(kept[number])}
        self.braces = {
            number: Brace(number, self.close(number), *body_before(self.tokens, number))
            for number in opening
            if number not in self.uncounted
        }

    def close(self, start):
        """Where a `{` is closed: at the next `}` after which the depth is less than after it."""
        for index in range(start, len(self.tokens)):
            if self.tokens[index].text == b"}" and self.after[index] < self.after[start]:
                return index
        return len(self.tokens)

    def levels(self):
        """The level of the file, and that of each brace, by place."""
        found = [Level(None, None, [*self.items(0, len(self.tokens))])]
        around = found[:]
        for brace in self.braces.values():
            while around[-1].brace and around[-1].brace.close <= brace.start:
                around.pop()
            level = Level(brace, around[-1], [*self.items(brace.start + 1, brace.close)])
            around.append(level)
            found.append(level)
        return found

    def items(self, start, close):
        while start < close:
            brace = self.braces.get(start)
            yield Item(self.tokens[start], brace, start in self.uncounted, True)
            start = brace.close + 1 if brace else start + 1


def body_before(tokens, end):
    """The word and the tag of the body that is opened at the end of these tokens, if one is.

    One is after `struct`, `union` or `enum`, and after one of these and names; the last is the tag.
    """
    start = end
    while start > 0 and tokens[start - 1].is_name:
        start -= 1
    word = tokens[start - 1].text if start > 0 else b""
    return (word, tokens[end - 1] if start < end else None) if word in SHAPES else (b"", None)


def with_outer(items, start=0):
    """The items from a place on, each told outer or not: `(` and `[` add 1, `)` and `]` take 1."""
    count = 0
    for index in range(start, len(items)):
        yield items[index]._replace(is_outer=count == 0)
        if items[index].text in (b"(", b"["):
            count += 1
        elif items[index].text in (b")", b"]"):
            count = max(count - 1, 0)


# ---- declarations and their parts


def declarations(level):
    """The declarations of a level, each a list of its items."""
    start = 0
    while start < len(level.items):
        declaration = []
        for item in with_outer(level.items, start):
            if level.brace is None and begins_anew(declaration, item):
                break
            declaration.append(item)
            if ends(declaration, level.brace is None):
                break
        yield declaration
        start += len(declaration)


def begins_anew(declaration, item):
    """Whether a declaration of the file ends before this item, as if it had a `;` there.

    It does before an outer `static` or `extern` that directly follows `)` or a brace.
    """
    return (
        bool(declaration)
        and item.is_outer
        and item.text in (b"static", b"extern")
        and (declaration[-1].text == b")" or declaration[-1].brace is not None)
    )


def ends(declaration, in_file):
    """Whether a declaration ends with the last of these items.

    It does at each `;`. In the file it does so at an uncounted `{` too; and, if it has no outer
    `=`, at a `}` at depth 0 and at the body of a function, which is a brace that is no body here.
    """
    last = declaration[-1]
    if last.text == b";" or not in_file:
        return last.text == b";"
    if last.is_uncounted:
        return True
    closes = last.text == b"}" or (last.brace is not None and not last.brace.word)
    return closes and not any(one.is_outer and one.text == b"=" for one in declaration)


class Part(NamedTuple):
    """What stands between two outer commas of a declaration."""

    items: list  # up to its value, which begins with the first outer `=` or `:`
    has_value: bool
    is_first: bool
    words: set  # the outer tokens of the declaration up to the end of the part

    @property
    def is_stray(self):
        """Whether a token is none of a declaration: from here on, it names nothing."""
        return any(item.is_outer and not is_of_declaration(item) for item in self.items)

    def is_typed(self, index):
        """Whether a type can stand before an item: anything but specifiers and literals does."""
        return not self.is_first or any(
            not (item.text in SPECIFIERS or item.token.is_string)
            for item in itertools.islice(self.items, index)
        )


def is_of_declaration(item):
    return (
        item.brace is not None
        or item.token.is_string
        or (item.token.is_word and item.text not in STATEMENTS)
        or item.text in (b"*", b"(", b")", b"[", b"]")
    )


def parts_in(declaration):
    """The parts of a declaration, or of the head of a function; a last `;` is in none."""
    commas = [
        index for index, item in enumerate(declaration) if item.is_outer and item.text == b","
    ]
    end = len(declaration) - (declaration[-1].text == b";")
    parts, words = [], set()
    for start, stop in zip([0] + [comma + 1 for comma in commas], commas + [end]):
        own = declaration[start:stop]
        words = words | {item.text for item in own if item.is_outer}
        values = [
            index for index, item in enumerate(own) if item.is_outer and item.text in (b"=", b":")
        ]
        before = own[: values[0]] if values else own
        parts.append(Part(before, bool(values), start == 0, words))
    return parts


def naming_parts(declaration):
    """The parts that can name something: a `,` or `;` ends each, and no stray token came yet."""
    parts = parts_in(declaration)
    counting = parts if declaration[-1].text == b";" else parts[:-1]
    return [*itertools.takewhile(lambda part: not part.is_stray, counting)]


# ---- the names of a part


def is_called_name(items, index):
    """Whether a name in parentheses follows here that is called: `(`, this name, `)`, `(`."""
    texts = [item.text for item in items[index : index + 4]]
    return texts[:1] + texts[2:] == [b"(", b")", b"("] and items[index + 1].is_name


def called_in_parentheses(part):
    """The called name of a part, as in `(WINAPI *f)(`, and whether a `*` stands before it.

    At least two words and `*` stand in the parentheses; the last of them is the name.
    """
    for index, item in enumerate(part.items):
        if item.is_outer and item.text == b"(":
            inner = [
                *itertools.takewhile(
                    lambda one: one.token.is_word or one.text == b"*", part.items[index + 1 :]
                )
            ]
            after = [one.text for one in part.items[index + 1 + len(inner) :][:2]]
            if len(inner) > 1 and inner[-1].is_name and after == [b")", b"("]:
                return inner[-1], b"*" in [one.text for one in inner]
    return None, False


def pointer(part):
    """Whether an outer `(` is directly followed by `*`, and the index of the name of the pointer.

    This name is the first one after it that is not directly followed by a word.
    """
    items = part.items
    for start, (item, following) in enumerate(zip(items, items[1:])):
        if item.is_outer and item.text == b"(" and following.text == b"*":
            for index in range(start, len(items)):
                if items[index].is_name and not any(
                    after.token.is_word for after in items[index + 1 : index + 2]
                ):
                    return True, index
            return True, None
    return False, None


def tail(part):
    """The indexes after the last brace and the last outer `*`."""
    before = [
        index
        for index, item in enumerate(part.items)
        if item.brace is not None or (item.is_outer and item.text == b"*")
    ]
    return range(before[-1] + 1 if before else 0, len(part.items))


def text_at(part, index):
    """The text of a token of a part; that of a brace and of what is outside is empty."""
    if 0 <= index < len(part.items) and part.items[index].brace is None:
        return part.items[index].text
    return b""


def candidates(part):
    """The indexes of the names of the tail that can be the part's name."""
    return [
        index
        for index in tail(part)
        if part.items[index].is_outer
        and part.items[index].is_name
        and part.is_typed(index)
        and text_at(part, index + 1) != b"("
        and text_at(part, index - 1) not in (b"struct", b"union", b"enum", b"]")
    ]


def trailing_words(part):
    """The indexes of the names of the tail that mean an attribute, as in `int a __initdata`.

    Each begins with `__` and directly follows a brace, another one, or a candidate without `__`.
    """
    plain = {one for one in candidates(part) if part.items[one].text[:2] != b"__"}
    found = set()
    for index in tail(part):
        item = part.items[index]
        follows = index > 0 and (
            part.items[index - 1].brace is not None or index - 1 in found | plain
        )
        if item.is_outer and item.is_name and item.text[:2] == b"__" and follows:
            found.add(index)
    return found


def name_of(part):
    """The name of a part as the name of a variable, member or type, if it has one."""
    called, _ = called_in_parentheses(part)
    if called:
        return called
    is_pointer, name = pointer(part)
    if is_pointer:
        return part.items[name] if name is not None else None
    trailing = trailing_words(part)
    named = [one for one in candidates(part) if one not in trailing]
    return part.items[named[-1]] if named else None


def prototype_of(part):
    """The name of a part as the name of a function, if it has one."""
    if part.has_value:
        return None
    called, starred = called_in_parentheses(part)
    if called:
        return None if starred else called
    _, name = pointer(part)
    if name is not None:
        return part.items[name] if text_at(part, name + 1) == b"(" else None
    trailing = trailing_words(part)
    found = [declared_at(part, index, trailing) for index in tail(part)]
    return next((one for one in found if one), None)


def declared_at(part, index, trailing):
    """The function that an item of the tail declares: `(f)(`, `f(`, or `f OF((`; else nothing."""
    item = part.items[index]
    if not (item.is_outer and part.is_typed(index)):
        return None
    if is_called_name(part.items, index):
        return part.items[index + 1]
    if (
        not item.is_name
        or text_at(part, index + 1) != b"("
        or index in trailing
        or is_called_name(part.items, index + 1)
    ):
        return None
    before = part.items[index - 1] if index > 0 else None
    if before is None or before.text == b"*":
        return item
    if not before.token.is_word or before.text in SPECIFIERS:
        return None
    return before if text_at(part, index + 2) == b"(" and before.is_name else item


# ---- definitions


def function_of(head):
    """The name of the function with this head: that of its first part that declares a function.

    If there is none, it is the first name that is directly followed by `(`. A head after which a
    `{` opens the body of a structure, union or enumeration names nothing.
    """
    if body_before(head, len(head))[0]:
        return None
    items = [*with_outer([Item(token, None, False, True) for token in head])]
    declared = [prototype_of(part) for part in parts_in(items)]
    return next((one.token for one in declared if one), None) or called_name(head)


def kept_of_head(tokens):
    return [tokens[index] for index in without_attributes(tokens)]


def enumerators(level):
    """The names of an enumeration that are first in it or directly follow an outer comma."""
    items = [*with_outer(level.items)]
    for index, item in enumerate(items):
        follows_comma = index == 0 or (items[index - 1].is_outer and items[index - 1].text == b",")
        is_called = [one.text for one in items[index + 1 : index + 2]] == [b"("]
        if item.is_name and follows_comma and not is_called:
            yield item.token


def declared(level):
    """What the declarations of a level name: each token with its kind, and whether it is local."""
    for declaration in declarations(level):
        for part in naming_parts(declaration):
            name, prototype = name_of(part), prototype_of(part)
            is_local = b"static" in part.words
            if b"typedef" in part.words:
                if level.brace is None and (name or prototype):
                    yield (prototype or name).token, b"t", False
            elif level.brace is not None:
                if name:
                    yield name.token, b"m", False
            elif prototype:
                yield prototype.token, b"p", is_local
            elif name:
                is_external = b"extern" in part.words and not part.has_value
                yield name.token, b"x" if is_external else b"v", is_local


def named_in(code):
    """All that the code names but functions: token, kind, whether it is local, scope field."""
    for level in Bare(code).levels():
        if level.word and level.brace.tag:
            yield level.brace.tag, SHAPES[level.word], False, b""
        if level.word == b"enum":
            yield from ((token, b"e", False, level.scope()) for token in enumerators(level))
        elif level.declares:
            for token, kind, is_local in declared(level):
                yield token, kind, is_local, level.scope() if kind == b"m" else b""


@functools.lru_cache(maxsize=4096)
def facts(text):
    """All that is found in a text, with all kinds of definitions.

    What lies in the range of a function is no variable, external declaration or prototype: in the
    old style these would be parameters.
    """
    parts = parts_of(text)
    own_functions = functions(parts.code, len(text), kept=kept_of_head, name_of=function_of)
    named = [
        (token, kind, *more)
        for token, kind, *more in named_in(parts.code)
        if not (
            kind in (b"v", b"x", b"p")
            and any(one.name.place <= token.place < one.end for one in own_functions)
        )
    ]
    return facts_of(parts, own_functions, named, KINDS)


def without_prototypes(found):
    """The same without the two kinds that are found where they are asked for."""
    return found._replace(
        definitions=[one for one in found.definitions if one.kind not in PROTOTYPES]
    )
