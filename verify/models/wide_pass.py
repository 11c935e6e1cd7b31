"""What the wide profile finds in a text, found in one pass over its tokens.

It says the same as `wide_model.py` and goes another way: no list of levels, declarations or parts
is made. A stack has an entry for each open brace, and an entry of the file, a structure or a union
has what is known of the declaration that is being read. At most four tokens are looked ahead.
"""

from __future__ import annotations

import functools

from text_model import SHAPES, Range, Token, facts_of, parts_of
from wide_model import ATTRIBUTES, KINDS, SPECIFIERS, STATEMENTS

NOTHING = Token(b"", -1, False)
AHEAD = [NOTHING] * 4
OF_DECLARATIONS = frozenset([b"*", b"(", b")", b"[", b"]"])


def without_attributes(tokens):
    """The tokens that no attribute holds, and the index of each."""
    kept, indexes, index = [], [], 0
    ahead = tokens + AHEAD
    while index < len(tokens):
        token = tokens[index]
        if token.is_word and ahead[index + 1].text == b"(":
            inner = ahead[index + 2]
            if token.text in ATTRIBUTES or inner.is_number or inner.is_string:
                index = after_attribute(tokens, index + 1)
                continue
        kept.append(token)
        indexes.append(index)
        index += 1
    return kept, indexes


def after_attribute(tokens, index):
    """The index after an attribute whose `(` is here."""
    count = 0
    while index < len(tokens):
        text = tokens[index].text
        if text in (b";", b"{", b"}"):
            break
        index += 1
        if text == b"(":
            count += 1
        elif text == b")":
            count -= 1
            if count == 0:
                break
    return index


class Declaration:
    """What is known of the declaration that is read, and of its part."""

    __slots__ = """count equals static extern typedef stray last
        first typed value pointer pointer_name pointer_called called called_starred
        inner inner_last inner_starred name prototype before follows hidden""".split()

    def __init__(self):
        self.begin()

    def begin(self):
        self.count = 0
        self.equals = self.static = self.extern = self.typedef = self.stray = False
        self.last = b""  # the text of the item before
        self.begin_part(True)

    def begin_part(self, first):
        self.first, self.typed, self.value = first, not first, False
        self.pointer, self.pointer_name, self.pointer_called = False, None, False
        self.called, self.called_starred = None, False
        self.hidden = set()  # the places of those names that lie in the range of a function
        self.inner = -1  # how many words and stars an outer `(` has, if it has nothing else
        self.inner_last, self.inner_starred = NOTHING, False
        self.begin_tail(None, False)

    def begin_tail(self, before, follows):
        """What came before is forgotten; `follows` tells whether a trailing word can come now."""
        self.name = self.prototype = None
        self.before, self.follows = before, follows

    def begins_anew(self, text):
        return (
            text in (b"static", b"extern") and self.count == 0 and self.last in (b")", b"{brace}")
        )

    def is_comma(self, text):
        return text == b"," and self.count == 0

    def brace(self):
        self.last = b"{brace}"
        if not self.value:
            self.inner = -1
            self.begin_tail(NOTHING, True)
            self.typed = True

    def comma(self):
        self.last = b","
        self.begin_part(False)

    def take(self, tokens, index):
        """A token that ends neither part nor declaration."""
        token = tokens[index]
        text, outer = token.text, self.count == 0
        self.last = text
        if outer:
            if text == b"=" or text == b":":
                self.equals |= text == b"="
                self.value = True
            elif text == b"static":
                self.static = True
            elif text == b"extern":
                self.extern = True
            elif text == b"typedef":
                self.typedef = True
        if not self.value:
            if outer and not (
                text not in STATEMENTS
                if token.is_word
                else text in OF_DECLARATIONS or token.is_string
            ):
                self.stray = True
            self.look(tokens, index, outer)
        if text in (b"(", b"["):
            self.count += 1
        elif text in (b")", b"]") and self.count:
            self.count -= 1

    def look(self, tokens, index, outer):
        """What a token before the value says of the names."""
        token, after = tokens[index], tokens[index + 1]
        text, is_name = token.text, token.is_name
        if outer and text == b"(":
            self.inner, self.inner_last, self.inner_starred = 0, NOTHING, False
            if after.text == b"*":
                self.pointer = True
        elif self.inner >= 0:
            self.look_inside(token, after)
        if self.pointer and not self.pointer_name and is_name and not after.is_word:
            self.pointer_name, self.pointer_called = token, after.text == b"("
        if outer and text == b"*":
            self.begin_tail(token, False)
        else:
            follows = False
            if outer and is_name:
                follows = self.outer_name(tokens, index)
            elif outer and text == b"(" and self.typed and not self.prototype:
                if is_row(tokens, index):
                    self.prototype = after
            self.before, self.follows = token, follows
        if not self.typed and not (text in SPECIFIERS or token.is_string):
            self.typed = True

    def look_inside(self, token, after):
        """A token after an outer `(` and words and stars alone."""
        if token.is_word or token.text == b"*":
            self.inner += 1
            self.inner_last = token
            self.inner_starred |= token.text == b"*"
            return
        is_called = token.text == b")" and after.text == b"("
        if is_called and self.inner > 1 and self.inner_last.is_name and not self.called:
            self.called, self.called_starred = self.inner_last, self.inner_starred
        self.inner = -1

    def outer_name(self, tokens, index):
        """Whether a trailing word can follow this name of the tail."""
        token, before = tokens[index], self.before
        begins_reserved = token.text[:2] == b"__"
        is_trailing = begins_reserved and self.follows
        if tokens[index + 1].text == b"(":
            if self.typed and not is_trailing and not self.prototype:
                if not is_row(tokens, index + 1):
                    self.prototype = called(token, before, tokens[index + 2])
            return is_trailing
        if not self.typed or before and (before.text in SHAPES or before.text == b"]"):
            return is_trailing
        if not is_trailing:
            self.name = token
        return is_trailing or not begins_reserved

    def prototype_of(self):
        if self.value:
            return None
        if self.called:
            return None if self.called_starred else self.called
        if self.pointer_name:
            return self.pointer_name if self.pointer_called else None
        return self.prototype

    def name_of(self):
        return self.called or (self.pointer_name if self.pointer else self.name)

    def hide(self, place):
        """A function is found whose range begins at this place: the names from there on lie in it.

        It is one in a declaration that goes on after it.
        """
        self.hidden |= {
            one.place
            for one in (self.called, self.pointer_name)
            if one is not None and one.place >= place
        }


def is_row(tokens, index):
    """Whether `(`, a name, `)` and `(` are here."""
    return (
        tokens[index].text == b"("
        and tokens[index + 1].is_name
        and tokens[index + 2].text == b")"
        and tokens[index + 3].text == b"("
    )


def called(token, before, second):
    """What a name that is directly followed by `(` declares; `second` comes after that."""
    if before is None or before.text == b"*":
        return token
    if not before.is_word or before.text in SPECIFIERS:
        return None
    return before if second.text == b"(" and before.is_name else token


class Head:
    """What is known since the last stop: of the head of a function or of a segment.

    In the old style an opening is kept as long as declarations follow it.
    """

    def __init__(self):
        self.opening = None
        self.begin()

    def begin(self):
        self.declaration = Declaration()
        self.tokens = 0
        self.typedef = self.equals = self.static = self.by_word = False
        self.last = NOTHING
        self.called = self.named = None
        self.list = 0  # what came of `(`, names and commas, `)`, word: 1, 2 3, 4, 5; -1 is wrong

    def take(self, tokens, index):
        token = tokens[index]
        if not self.tokens:
            self.typedef, self.by_word = token.text == b"typedef", token.is_word
        self.tokens += 1
        self.equals |= token.text == b"="
        self.static |= token.text == b"static"
        self.last = token
        if self.called and 0 <= self.list < 5:
            self.list = self.after(token)
        if not self.called and token.is_name and tokens[index + 1].text == b"(":
            self.called = token
        if self.declaration.is_comma(token.text):
            self.named = self.named or self.declaration.prototype_of()
            self.declaration.comma()
        else:
            self.declaration.take(tokens, index)

    def after(self, token):
        state, text = self.list, token.text
        if state == 0:
            return 1
        if state in (1, 3):
            return 2 if token.is_name else -1
        if state == 2:
            return 3 if text == b"," else 4 if text == b")" else -1
        return 5 if token.is_word else -1

    def stop(self, is_semicolon):
        """A stop: the segment before it can be an opening, or a declaration after one."""
        can_be = self.tokens > 0 and not self.typedef and not self.equals
        if not is_semicolon:
            self.opening = None
        elif can_be and self.list == 5:
            self.opening = self.called, self.static
        elif not (can_be and self.by_word):
            self.opening = None
        self.begin()

    def function(self):
        """The name of the function that a `{` begins here, if one, and whether it is local."""
        if not self.tokens:
            return self.opening or (None, False)
        if self.typedef or self.equals or not (self.last.text == b")" or self.last.is_name):
            return None, False
        return self.named or self.declaration.prototype_of() or self.called, self.static


class Entry:
    """An open brace, or the file."""

    __slots__ = "word scope declaration count comes".split()

    def __init__(self, word, scope):
        self.word, self.scope = word, scope
        self.declaration = None if word in (b"enum", b"") else Declaration()
        self.count, self.comes = 0, True  # of an enumeration: whether a name may come


class Pass:
    """The pass over the code of a text."""

    def __init__(self, text, code):
        self.text, self.code = text, code
        self.stack = [Entry(b"file", b"")]
        self.head = Head()
        self.word, self.tag = b"", None  # the last `struct`, `union` or `enum`, and its last name
        self.named, self.functions = [], []
        self.dropped = []  # variables, external declarations and prototypes: the function may come
        self.opened = None  # the function whose body is open: its name, static, its `{`

    def run(self):
        kept, indexes = without_attributes(self.code)
        tokens = kept + AHEAD
        for index, token in enumerate(kept):
            text = token.text
            if text == b"{":
                self.open(tokens, index, indexes[index])
            elif text == b"}":
                self.close(tokens, index, indexes[index])
            else:
                self.other(tokens, index)
            if token.is_word:
                if text in SHAPES:
                    self.word, self.tag = text, None
                    continue
                if token.is_name:
                    self.tag = token
                    continue
            self.word = b""
        self.end(len(self.text), len(self.code))
        return self.functions, self.named + self.dropped

    def open(self, tokens, index, number):
        code, top = self.code, self.stack[-1]
        is_file = len(self.stack) == 1
        if number > 1 and code[number - 1].is_string and code[number - 2].text == b"extern":
            self.head.stop(False)
            if is_file:
                top.declaration.begin()
            else:
                self.inside(top, tokens, index)
            return
        tag = self.tag if self.word else None
        if is_file:
            self.function(tokens[index], number)
        if top.word == b"enum":
            top.comes = False
        elif top.declaration:
            if is_file and not self.word and not top.declaration.equals:
                top.declaration.begin()
            else:
                top.declaration.brace()
        scope = self.word + b":" + tag.text if tag else b""
        if not tag and self.word in (b"struct", b"union") and top.word in (b"struct", b"union"):
            scope = top.scope
        if tag:
            self.named.append((tag, SHAPES[self.word], False, b""))
        self.stack.append(Entry(self.word, scope))

    def function(self, brace, number):
        name, static = (None, False) if self.word else self.head.function()
        if name:
            while self.dropped and self.dropped[-1][0].place >= name.place:
                self.dropped.pop()
            self.stack[0].declaration.hide(name.place)
            self.opened = name, static, number

    def close(self, tokens, index, number):
        token = tokens[index]
        first = token.place == 0 or self.text[token.place - 1 : token.place] == b"\n"
        if len(self.stack) == 1:
            self.head.stop(False)
            declaration = self.stack[0].declaration
            if declaration.equals:
                declaration.take(tokens, index)
            else:
                declaration.begin()
            return
        del self.stack[1 if first else -1 :]
        if len(self.stack) == 1:
            self.end(token.end, number)
            self.head.stop(False)

    def end(self, place, number):
        if self.opened:
            name, static, brace = self.opened
            body = self.code[brace + 1 : number]
            self.functions.append(Range(name, place, body, b"f", static))
            self.opened = None

    def other(self, tokens, index):
        top, token = self.stack[-1], tokens[index]
        text = token.text
        if len(self.stack) == 1:
            if top.declaration.begins_anew(text):
                top.declaration.begin()
            if text == b";":
                self.head.stop(True)
            else:
                self.head.take(tokens, index)
        if top.word:
            self.inside(top, tokens, index)

    def inside(self, top, tokens, index):
        """A token of the file or of a body."""
        token, declaration = tokens[index], top.declaration
        if top.word == b"enum":
            if top.comes and token.is_name and tokens[index + 1].text != b"(":
                self.named.append((token, b"e", False, top.scope))
            top.comes = token.text == b"," and top.count == 0
            if token.text in (b"(", b"["):
                top.count += 1
            elif token.text in (b")", b"]") and top.count:
                top.count -= 1
        elif declaration is None:
            pass
        elif token.text == b";":
            self.name(top)
            declaration.begin()
        elif declaration.is_comma(token.text):
            self.name(top)
            declaration.comma()
        else:
            declaration.take(tokens, index)

    def name(self, top):
        """A part ends that counts."""
        known = top.declaration
        name, prototype = known.name_of(), known.prototype_of()
        if known.stray or not (name or prototype):
            return
        if known.typedef:
            if len(self.stack) == 1:
                self.named.append((prototype or name, b"t", False))
        elif len(self.stack) > 1:
            if name:
                self.named.append((name, b"m", False, top.scope))
        elif (prototype or name).place not in known.hidden:
            kind = b"p" if prototype else b"x" if known.extern and not known.value else b"v"
            self.dropped.append((prototype or name, kind, known.static))


@functools.lru_cache(maxsize=4096)
def facts(text):
    """All that is found in a text, with all kinds of definitions."""
    parts = parts_of(text)
    own_functions, named = Pass(text, parts.code.tokens).run()
    return facts_of(parts, own_functions, named, KINDS)
