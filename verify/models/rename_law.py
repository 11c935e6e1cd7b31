"""The law of renaming: what a name means is the same before and after.

The places that are edited are all those of one thing. The new text has the same pieces but for the
names there. Each name has its space and its letter as before, and is bound to what it was bound to,
with the places moved.
"""

from __future__ import annotations

import bisect

from names_model import Text
from text_model import PIECE


def pieces(text):
    return [found[0] for found in PIECE.finditer(text)]


class Difference(Exception):
    """A rename that changed what a name means."""


def described(text, moved):
    """What each name of a text is, with places moved: name, space, binding, definition, letter."""
    told = []
    for token in text.tokens:
        thing, found = text.binding(token.place), text.definition(token.place)
        bounds = thing.start, thing.end
        told.append(
            (
                moved(token.place),
                text.space(token.place),
                thing.kind,
                tuple(moved(one) if one >= 0 else one for one in bounds),
                None if found is None else moved(found),
                text.letter(token.place),
            )
        )
    return told


def check(old, places, name, new, read=Text):
    """Compares a text with the one that a rename makes of it."""
    made = renamed(old.text, places, name, new)
    things = {old.binding(place) for place in places}
    if len(things) != 1 or sorted(places) != [it for one in things for it, _ in old.uses(one)]:
        raise Difference("the places are not those of one thing", made)
    places, more = sorted(places), len(new) - len(name)

    def moved(place):
        return place + more * bisect.bisect_left(places, place)

    before, after = pieces(old.text), pieces(made)
    at, edited, expected = 0, set(places), []
    for piece in before:
        expected.append(new if at in edited else piece)
        at += len(piece)
    if expected != after:
        raise Difference("the pieces differ", made)
    text = read(made)
    one, other = described(old, moved), described(text, lambda place: place)
    if one != other:
        number = next(
            (n for n, pair in enumerate(zip(one, other)) if pair[0] != pair[1]),
            min(len(one), len(other)),
        )
        raise Difference(f"{one[number:][:1]} is now {other[number:][:1]}", made)


def renamed(text, places, name, new):
    """A text with another name at these places."""
    out, end = [], 0
    for place in sorted(places):
        out += [text[end:place], new]
        end = place + len(name)
    return b"".join([*out, text[end:]])
