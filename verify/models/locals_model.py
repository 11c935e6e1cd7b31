"""What a name means in its function alone, as `cbrowse` finds it: labels, parameters, variables.
A parameter of a macro means something in the line of its macro alone.

The rules are those of `names_model.py`, within what `docs/NAMES.md` names as limits: attributes
that are left out name nothing, a structure in a function has no members, each part of an
enumeration begins with an enumerator, a value counts only directly behind the name that is
declared, and what stands before `a.b` or `a->b` does nothing to `b`.
"""

from __future__ import annotations

import bisect
import functools
from typing import NamedTuple, Optional

import names_model


class LocalUse(NamedTuple):
    """A place that names a local."""

    place: int
    letter: str  # what is done with it: `t` it is only named, `r` read, `w` written, `a` address
    declares: bool


class Local(NamedTuple):
    """What a name means in its function, or in the line of its macro: its name, its definition and
    its uses."""

    name: bytes
    definition: Optional[int]
    uses: list[LocalUse]


class Names(names_model.Text):
    """The names of a text, within the limits."""

    def find_in_body(self):
        """Leaves out what structures in functions declare: members, and lists of parameters."""
        inside = super().find_in_body()
        self.members = {it for it in self.members if not inside[self.index[it]]}
        firsts = ((part, part.items[0].token.place) for part in self.parts_of_file if part.items)
        self.parts_of_file = [part for part, place in firsts if not inside[self.index[place]]]
        return inside

    def is_member(self, stream, index):
        """Whether a name is directly behind an accessor, attributes left out."""
        before = stream.before(index)
        is_arrow = stream.text(before) == b">" and stream.is_arrow(before - 1)
        return is_arrow or stream.is_dot(before)

    def kind_of_brace(self, index):
        """Takes a brace for a body if one of these words is directly before it or before the names
        there, also where an attribute without an end hides it from the wide profile."""
        code, before = self.code, self.code.before(index)
        while code.is_name(before):
            before = code.before(before)
        is_body = code.text(before) in names_model.TAGGED
        return "body" if is_body else super().kind_of_brace(index)

    def declare_in_blocks(self):
        """Takes each name with which a part of an enumeration begins for an enumerator."""
        tokens = enumerate(self.code.tokens)
        self.enumerators = [it for index, it in tokens if it.is_name and self.is_enumerator(index)]
        super().declare_in_blocks()

    def is_enumerator(self, index):
        """Whether a name is directly behind the `{` or a comma of an enumeration in a function, and
        is not called."""
        code, before = self.code, self.code.around[index]
        if code.text(code.following(index)) == b"(":
            return False
        if self.kinds.get(before) != "body" or code.text(code.before(index)) not in (b"{", b","):
            return False
        before = code.before(before)
        while code.is_name(before):
            before = code.before(before)
        return code.text(before) == b"enum"

    def is_given(self, stream, index, end):
        """Whether a value follows the name, and the `[..]` that belong to it."""
        end = stream.following(index)
        while stream.text(end) == b"[" and stream.pair[end] >= 0:
            end = stream.following(stream.pair[end])
        return self.is_assigned(stream, end)

    def start_of_chain(self, stream, index):
        """A name stands for itself: of what is written only the tokens beside a name tell."""
        return index

    def is_in_function(self, thing):
        """Whether the scope of a thing is in a function: else it is a list of the file."""
        tokens = self.code.tokens
        return any(
            thing.start == tokens[one.start].place
            or tokens[one.name].place <= thing.start <= tokens[one.last].place
            for one in self.functions
        )

    def is_local(self, place):
        """Whether a name means something in its function alone, or in the line of its macro."""
        thing = self.binding(place)
        if place in self.left_out:
            return False
        is_variable = thing.kind == "local" and thing.space == "ordinary"
        is_other = thing.kind in ("label", "parameter")
        return is_other or (is_variable and self.is_in_function(thing))

    def local(self, token):
        """What a name means in its function, or in the line of its macro."""
        thing = self.binding(token.place)
        declared = [it for it in self.definitions.get(thing, []) if it not in self.left_out]
        behind = bisect.bisect_right(declared, token.place) if thing.kind == "local" else 1
        seen = declared[:behind]
        uses = [
            LocalUse(place, letter, self.declares(*self.stream_at(place)))
            for place, letter in self.uses(thing)
            if place not in self.left_out
        ]
        return Local(token.text, seen[-1] if seen else None, uses)


@functools.lru_cache(maxsize=512)
def names_of(text):
    return Names(text)


def may_have_locals(text):
    """Whether a text has what a function or a macro begins with."""
    return b"{" in text or b"define" in text


def local_at(text, place):
    """The local that the name at a place names, or none."""
    if not may_have_locals(text):
        return None
    names = names_of(text)
    token = names.token_at(place)
    return names.local(token) if token and names.is_local(token.place) else None


def visible_at(text, place):
    """The names of locals, without labels, that are declared before a place in its function, and
    whose scopes go on there."""
    if not may_have_locals(text):
        return set()
    names = names_of(text)
    lasts = {token.end: token.place for token in names.code.tokens}
    return {
        thing.name
        for thing, places in names.definitions.items()
        if thing.kind == "local"
        and thing.space == "ordinary"
        and names.is_in_function(thing)
        and place <= lasts[thing.end]
        and any(it < place and it not in names.left_out for it in places)
    }


def space_at(text, place):
    """The name space of the name at a place, or none: a label is no space here."""
    names = names_of(text)
    token = names.token_at(place)
    if token is None or token.place in names.left_out:
        return None
    index = names.index.get(token.place)
    if index is None:
        return space_in_directive(*names.stream_at(token.place))
    code = names.code
    before, after = code.before(index), code.following(index)
    touches = code.before(before) == before - 1 and code.touch(before - 1)
    if code.text(before) == b"." and not (code.text(before - 1) == b"." and touches):
        return "member"
    if code.text(before) == b">" and code.text(before - 1) == b"-" and touches:
        return "member"
    word = before
    if code.text(after) == b"{":
        while code.is_name(word):
            word = code.before(word)
    is_tag = code.text(word) in (b"struct", b"union", b"enum")
    if is_tag and code.text(after) != b"{":
        behind = after
        while code.is_name(behind):
            behind = code.following(behind)
        is_tag = code.text(behind) != b"{"
    if is_tag:
        return code.text(word).decode()
    return "called" if code.text(after) == b"(" else "plain"


def space_in_directive(line, index):
    """The name space of a name of a directive, or none: a parameter of a macro is no space here."""
    if line.text(1) in names_model.CONDITIONS or (line.text(1) == b"define" and index == 2):
        return "macro"
    if line.text(1) != b"define" or not line.is_name(2):
        return None
    if line.is_dot(index - 1) or line.is_arrow(index - 2):
        return "member"
    if line.text(index - 1) in (b"struct", b"union", b"enum"):
        return line.text(index - 1).decode()
    return "called" if line.text(index + 1) == b"(" else "plain"


def locals_of(text):
    """The names that name a local, each a token."""
    if not may_have_locals(text):
        return []
    names = names_of(text)
    return [token for token in names.tokens if names.is_local(token.place)]
