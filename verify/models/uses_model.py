"""Which uses of a spelling a question about a name of the files has: written from the rules alone.

A label, a parameter or a variable of a function, and a parameter of a macro, are no names of the
files: `locals_model.py` knows them. Of every other name the place tells what is asked for: a
member, a tag or an ordinary name. Where the place tells nothing, or a macro is meant, all uses are.
A use counts unless its place tells that it names something else.
"""

from __future__ import annotations

from locals_model import may_have_locals, names_of, space_at

ALL, MEMBER, TAG, ORDINARY = "all", "member", "tag", "ordinary"
# what stands in a space of the code, or of the text of a macro; elsewhere it is not known
SORTS = {
    "member": MEMBER,
    "struct": TAG,
    "union": TAG,
    "enum": TAG,
    "called": ORDINARY,
    "plain": ORDINARY,
}


# the kinds of definitions of a sort; of a member it is not known which structure has it
KINDS_OF_SORT = {ALL: b"d", MEMBER: b"", TAG: b"sug", ORDINARY: b"fdtevxp"}


class Uses:
    """The uses of names in texts of which these facts are known."""

    def __init__(self, facts):
        self.facts = facts

    def sort(self, space, shown):
        """What a name in a space asks for, of which these definitions are shown."""
        is_macro = bool(shown) and shown[0].kind == b"d"
        return ALL if is_macro else SORTS.get(space, ALL)

    def members(self, text, name):
        """The places of the definitions of a name that are members."""
        named = self.facts(text).definitions
        return {it.place for it in named if it.kind == b"m" and it.name == name}

    def is_bound(self, text, place):
        """Whether a name means something in its function, or in the line of its macro, alone."""
        return may_have_locals(text) and names_of(text).is_local(place)

    def space(self, text, place):
        return space_at(text, place)

    def named_by(self, text, place, members):
        """What a name at a place is, or none where that is not known."""
        return MEMBER if place in members else SORTS.get(self.space(text, place))

    def counts(self, sort, found):
        """Whether a name that is this, or of which it is not known, counts where a sort is asked
        for. That a name is a member is always known."""
        if sort == ALL:
            return True
        return found == sort or (found is None and sort != MEMBER)

    def places(self, text, name, sort):
        """The places of the uses of a name in a text that count."""
        members = self.members(text, name)
        return [
            use.place
            for use in self.facts(text).uses
            if use.name == name
            and ((sort == MEMBER and use.place in members) or not self.is_bound(text, use.place))
            and self.counts(sort, self.named_by(text, use.place, members))
        ]

    def first_untold(self, text, places, name):
        """The first of some places that is not the name of the definition of a member, or none."""
        members = self.members(text, name)
        return next((it for it in places if it not in members), None)
