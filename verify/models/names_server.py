"""What `cbrowse lsp --wide` answers by the scopes of names: a model, written from the rules alone.

It is the server of `server_model.py` with other answers to what is asked at a name: its definition
and declaration, its uses, its highlights, and a rename. Members are not told apart by their types
yet: a name that is one has no answer here.
"""

from __future__ import annotations

import functools

from names_model import Text, Thing
from reach_model import KINDS_OF_SPACE, Tree
from server_model import Error, Server, header_at, is_declared_wanted, listed
from server_model import range_form, string_of, word_at

HIGHLIGHTS = {"t": 1, "r": 2, "w": 3, "a": 3}


@functools.lru_cache(maxsize=512)
def read(text):
    return Text(text)


class NamesServer(Server):
    """A server that answers by the scopes of names."""

    def __init__(self, reading=read, **how):
        super().__init__(**how)
        self.reading = reading

    def make_tree(self, files):
        return Tree(files, self.reading)

    # ---- what is asked

    def asked_name(self, params):
        """The file of a request, and the name at its place, if one is there."""
        file, _, place = self.asked(params)
        return file, None if file is None else self.tree.text(file).token_at(place)

    def spans(self, places, name):
        return listed(self.location(file, self.span_of(file, it, name)) for file, it in places)

    def definition(self, params):
        file, text, place = self.asked(params)
        if file is None or header_at(text, place) is not None:
            return super().definition(params)
        token = self.tree.text(file).token_at(place)
        if token is not None:
            return self.spans(self.tree.definition(file, token.place), token.text)
        word = word_at(text, place)
        name = text[word[0] : word[1]] if word else b""
        found = self.tree.ordered(file, self.tree.defined.get(name, []))
        return self.spans([(it.file, it.place) for it in found], name)

    def declaration(self, params):
        file, token = self.asked_name(params)
        if token is None:
            return self.definition(params)
        return self.spans(self.tree.declaration(file, token.place), token.text)

    def references(self, params):
        is_wanted = is_declared_wanted(params)
        file, token = self.asked_name(params)
        if file is None:
            return b"null"
        if token is None:
            return super().references(params)
        left_out = set() if is_wanted else self.declared(file, token.place)
        uses = [(one, it) for one, it, _ in self.tree.uses(file, token.place)]
        return self.spans([it for it in uses if it not in left_out], token.text)

    def declared(self, file, place):
        """Where the thing of a name is declared or defined."""
        thing, text = self.tree.thing(file, place), self.tree.text(file)
        if isinstance(thing, Thing):
            return {(file, it) for it in text.used[thing] if text.declares(*text.stream_at(it))}
        if thing is None:
            return set()
        kinds = KINDS_OF_SPACE.get(thing.space, b"d")
        return {(it.file, it.place) for it in self.tree.of_kinds(thing.name, kinds)}

    def highlights(self, params):
        file, token = self.asked_name(params)
        if file is None:
            return b"null"
        if token is None:
            return super().highlights(params)
        uses = [it for it in self.tree.uses(file, token.place) if it[0] == file]
        return listed(
            b'{"range":%s,"kind":%d}' % (self.span_of(file, it, token.text), HIGHLIGHTS[letter])
            for _, it, letter in uses
        )

    def prepare_rename(self, params):
        file, token = self.asked_name(params)
        if token is None or self.tree.thing(file, token.place) is None:
            return b"null"
        return range_form(self.world.files[file], token.place, token.end, self.is_utf16)

    def rename(self, params):
        new = string_of(params, "newName")
        file, token = self.asked_name(params)
        if token is None:
            raise Error(-32803, b"no such definition")
        return self.rename_by_scope(file, token.place, new)
