"""Wrong rules that a tired programmer could write, each in place of one of `names_model.py`.

`random-names.py --self-test` has to find each, and `random-editors.py --self-test` those at the
end, which are of renames of locals, of what is shown of a name, and of which of its uses count.
"""

from __future__ import annotations

import functools
import re

import names_model
from locals_model import names_of
from names_model import PARTNER, Scope, Text, Thing
from reach_model import STRANGE, Macro, Refusal, Tree
from text_model import headers
from uses_model import ALL, ORDINARY, TAG, Uses
from wide_model import name_of


class DotOfThree(Text):
    """A `.` of `...` is taken for an accessor."""

    def is_member(self, stream, index):
        return stream.is_arrow(index - 2) or stream.text(index - 1) == b"."


class MemberAsLocal(Text):
    """A member of a structure in a block is taken for a local."""

    def declare_in_blocks(self):
        super().declare_in_blocks()
        for part in self.parts_of_file:
            name = name_of(part)
            index = self.index[name.token.place] if name else 0
            if name and name.token.place in self.members and self.in_body[index]:
                self.spaces[name.token.place] = "ordinary"
                self.declare(name.token, "innermost")


class ValueAsBlock(Text):
    """A value is taken for a block."""

    def kind_of_brace(self, index):
        return "body" if index in self.bodies else "block"


class BlockAsValue(Text):
    """A statement expression is taken for a value."""

    def kind_of_brace(self, index):
        before = self.code.text(self.code.before(index))
        return "value" if before == b"(" else super().kind_of_brace(index)


class ForWithoutEnd(Text):
    """The local of a `for` is seen up to the end of the block."""

    def end_of_for(self, function, index, opened):
        around = self.code.around[index]
        return min(self.code.until.get(around, self.code.size), function.last)


class ForWithoutElse(Text):
    """The local of a `for` is not seen behind `else`."""

    def end_of_for(self, function, index, opened):
        code, last = self.code, super().end_of_for(function, index, opened)
        place = max(code.pair[opened], opened)
        while place < last:
            place += 1
            follows = code.text(code.following(place)) == b"else"
            if code.text(place) in (b"}", b";") and follows:
                return place
        return last


class BeforeDeclaration(Text):
    """A local is seen before its declaration."""

    def bind_code(self):
        moved = {}
        for index, one in self.declared.items():
            moved.setdefault((self.code.text(index), one), index)
        self.early = {}
        super().bind_code()
        tokens = self.code.tokens
        for token in tokens:
            free = token.is_name and token.place not in self.bound
            if free and self.spaces[token.place] == "ordinary":
                later = [
                    thing
                    for thing in self.definitions
                    if thing.name == token.text
                    and thing.space == "ordinary"
                    and thing.start <= token.place < thing.end
                ]
                if later:
                    thing = max(later, key=lambda one: one.start)
                    self.bound[token.place] = thing
                    self.used[thing].append(token.place)
                    self.used[thing].sort()

    def definition(self, place):
        thing = self.bound[place]
        places = self.definitions.get(thing, [])
        if thing.kind == "local" and places and places[0] > place:
            return places[0]
        return super().definition(place)


class PrototypeHides(Text):
    """The parameters of a prototype are declared in the scope around it."""

    def declare_lists(self, part):
        before = len(self.scopes)
        super().declare_lists(part)
        del self.scopes[before:]


class AllOfFunction(Text):
    """The local of an inner block has the uses of the outer one, too."""

    def uses(self, thing):
        if thing.kind != "local":
            return super().uses(thing)
        places = {
            place
            for one, used in self.used.items()
            if one.kind == "local" and one.name == thing.name and one.space == thing.space
            for place in used
            if self.same_function(place, thing.start)
        }
        return [(place, self.letter(place)) for place in sorted(places)]

    def same_function(self, one, other):
        return any(
            self.code.tokens[it.start].place <= min(one, other)
            and max(one, other) < self.code.tokens[it.last].end
            for it in self.functions
        )


class LabelAsVariable(AllOfFunction):
    """A label has the uses of the variables of its name."""

    def uses(self, thing):
        if thing.kind != "label":
            return Text.uses(self, thing)
        places = {
            token.place
            for token in self.named[thing.name]
            if thing.start <= token.place < thing.end
            and self.spaces[token.place] in ("label", "ordinary")
        }
        return [(place, self.letter(place)) for place in sorted(places)]


class MacroTextBound(Text):
    """A name in the text of a macro is bound to the local around it."""

    def bind_code(self):
        super().bind_code()
        for line, _ in self.directives:
            for token in line.tokens:
                if self.spaces.get(token.place) != "ordinary":
                    continue
                around = [
                    thing
                    for thing, places in self.definitions.items()
                    if thing.name == token.text
                    and thing.space == "ordinary"
                    and thing.start <= token.place < thing.end
                    and places[0] <= token.place
                ]
                if around:
                    thing = max(around, key=lambda one: one.start)
                    self.bound[token.place] = thing
                    self.used[thing] = sorted([*self.used[thing], token.place])


class ExternInBlock(Text):
    """`extern int x;` in a block declares a local."""

    def is_of_block(self, part, is_extern):
        return super().is_of_block(part, False)


class PrototypeInBlock(Text):
    """A prototype in a block declares a local."""

    def is_of_block(self, part, is_extern):
        return not is_extern

    def declare_statement(self, begin):
        super().declare_statement(begin)
        if self.is_declaration(begin):
            import wide_model

            for part in self.parts_between(begin, self.end_of_declaration(begin)):
                name = wide_model.prototype_of(part)
                if name:
                    self.declare(name.token, "innermost")


class CallDeclares(Text):
    """A macro's name with a group before one name is taken for a declaration."""

    def is_declared_behind(self, index):
        return super().is_declared_behind(index) or self.is_sequence(index, lambda *_: True)


class ProductUses(Text):
    """A product is no declaration."""

    def is_declaration(self, begin):
        is_product = self.code.text(self.code.following(begin)) == b"*"
        return super().is_declaration(begin) and not (self.code.is_name(begin) and is_product)


class ConditionalLabel(Text):
    """A name and a `:` are a label wherever they stand."""

    def walk(self, function):
        super().walk(function)
        for index in range(function.brace, function.last):
            if self.kinds.get(self.code.around[index]) == "block" and self.is_label(index):
                self.labels.add(index)


class CaseEndsEarly(Text):
    """A `case` ends with its first `:`, also where a `?` is open."""

    def ends_statement(self, index, cases):
        if self.code.text(index) == b"?":
            return False
        return super().ends_statement(index, cases)


class LoopDeclares(Text):
    """What a `for` declares is declared in the block around."""

    def walk(self, function):
        super().walk(function)
        self.scopes = [one for one in self.scopes if one.kind != "for"]


class TypeofNames(Text):
    """The group of a `typeof` can hold the name of a declarator."""

    def items(self, start, end):
        import names_model

        kept, names_model.TYPEOF = names_model.TYPEOF, frozenset()
        try:
            return super().items(start, end)
        finally:
            names_model.TYPEOF = kept


class OldListAlone(Text):
    """A parameter in the old style is declared by its declaration alone."""

    def declare_parameters(self, function):
        if not function.is_old:
            super().declare_parameters(function)
            return
        before = set(self.declared)
        super().declare_parameters(function)
        lists = self.lists_of_function(function)
        if lists:
            last = self.code.pair[lists[0]]
            for index in set(self.declared) - before:
                if lists[0] < index < last:
                    del self.declared[index]


class OuterDefinition(Text):
    """The definition of a local is its first declaration, wherever it is asked."""

    def definition(self, place):
        thing = self.bound[place]
        places = self.definitions.get(thing, [])
        return places[0] if places else None


class EnumeratorsOfFile(Text):
    """The enumerators of a block are those of the file."""

    def declare_in_blocks(self):
        self.enumerators = []
        super().declare_in_blocks()


class TagsOfFile(Text):
    """The tags of a block are those of the file."""

    def declare_in_blocks(self):
        kept, self.tags = self.tags, set()
        super().declare_in_blocks()
        self.tags = kept


class ComparedIsWritten(Text):
    """`==` is taken for an assignment."""

    def is_assigned(self, stream, index):
        return stream.text(index) == b"=" or super().is_assigned(stream, index)


class AndIsAddress(Text):
    """The `&` of `a & b` takes an address."""

    def is_address(self, stream, index):
        return stream.text(index) == b"&"


class PointedIsWritten(Text):
    """A write to what a pointer points to writes the pointer."""

    def letter(self, place, is_definition=False):
        stream, index = self.stream_at(place)
        end = stream.behind_indexes(index + 1)
        letter = super().letter(place, is_definition)
        return "w" if letter == "r" and self.is_assigned(stream, end) else letter


class MemberIsWritten(Text):
    """A write to a member writes its structure."""

    def letter(self, place, is_definition=False):
        stream, index = self.stream_at(place)
        letter = super().letter(place, is_definition)
        end = stream.behind_indexes(index + 1)
        if letter == "r" and stream.is_dot(end) and self.is_assigned(stream, end + 2):
            return "w"
        return letter


class BracketsByDepth(Text):
    """A `}` in the first column closes the nearest brace alone."""

    def __init__(self, text):
        super().__init__(text.replace(b"\n}", b"\r}"))


class MacroReachesNothing(Tree):
    """A rename into a name that a macro of the function reaches is accepted."""

    def refuse_macros(self, file, thing, new):
        pass


class StrangeIsPlain(Tree):
    """An argument that a macro makes a text is renamed."""

    def refuse_arguments(self, thing, places):
        pass


class HandedIsPlain(Tree):
    """A macro that is handed to another one is not looked at."""

    def refuse_handed(self, text, thing, names):
        pass


class UsedInBlock(Tree):
    """The new name is looked for in the scope of the local alone."""

    def range_of(self, text, thing):
        return thing.start, thing.end


class IncludedIsLost(Tree):
    """A text that is included in the function is forgotten."""

    def refuse_outside(self, file, thing):
        if not isinstance(thing, Thing):
            super().refuse_outside(file, thing)


class PrivateFirst(Tree):
    """Private definitions of other files come first."""

    def is_in_view(self, file, one):
        return self.is_private(one)


PLANTS = [
    DotOfThree, MemberAsLocal, ValueAsBlock, BlockAsValue, ForWithoutEnd, ForWithoutElse,
    BeforeDeclaration, PrototypeHides, AllOfFunction, LabelAsVariable, MacroTextBound,
    ExternInBlock, PrototypeInBlock, CallDeclares, ProductUses, ConditionalLabel, CaseEndsEarly,
    LoopDeclares, TypeofNames, OldListAlone, OuterDefinition, EnumeratorsOfFile, TagsOfFile,
    ComparedIsWritten, AndIsAddress, PointedIsWritten, MemberIsWritten, BracketsByDepth,
    MacroReachesNothing, StrangeIsPlain, UsedInBlock, IncludedIsLost, PrivateFirst,
]  # fmt: skip


# ---- renames of locals


class OneRoundLess(Tree):
    """A macro is followed in 15 rounds."""

    most_rounds = 15


class OneRoundMore(Tree):
    """A macro is followed in 17 rounds."""

    most_rounds = 17


class FirstTextAlone(Tree):
    """Of several definitions of a macro the first one counts."""

    @functools.cached_property
    def macros(self):
        return {name: some[:1] for name, some in super().macros.items()}


class OwnTextAlone(Tree):
    """The arguments of a macro are judged by its own text."""

    def strange(self, names):
        macros = self.macros
        for name in names:
            if name in STRANGE or any(it.is_strange for it in macros.get(name, [])):
                return name
        return None


class LongChainsReachNothing(Tree):
    """A macro that leads to too many others is taken for one that reaches nothing."""

    def met(self, names):
        return super().met(names)[0], {}


class NameByName(Tree):
    """The macros of one name are followed to their end before those of the next."""

    def leading(self, names, is_sought):
        found = (super(NameByName, self).leading([name], is_sought) for name in names)
        return next((it for it in found if it is not None), None)


class AttributeIsForgotten(Tree):
    """A place in an attribute that is left out is no reason."""

    def is_unsure(self, text, token):
        return token.place not in text.left_out and super().is_unsure(text, token)


class EarlyEndIsForgotten(Tree):
    """A function that ends early is renamed in as far as it is found."""

    def is_whole(self, text, function):
        return True


class AllIsSure(Tree):
    """Each place of the code is known for what it is."""

    def is_unsure(self, text, token):
        return token.place not in text.index or token.place in text.left_out


class OutsideFirst(Tree):
    """A function that is not all there refuses a rename before its macros do."""

    def refuse_macros(self, file, thing, new):
        self.refuse_unseen(file, thing)
        super().refuse_macros(file, thing, new)


class LabelStandsAlone(Tree):
    """An argument that a macro takes for a label is no reason."""

    def names_of(self, text, thing):
        uses = text.used.get(thing, [])
        names = super().names_of(text, thing)
        return [
            it for it in names if thing.kind != "label" or it.place in uses or it.text != thing.name
        ]


class DirectiveIsForgotten(Tree):
    """A place in a directive is no reason."""

    def names_of(self, text, thing):
        return [it for it in super().names_of(text, thing) if it.place in text.index]


class HeadIsForgotten(Tree):
    """A function begins with its body."""

    def range_of(self, text, thing):
        start, end = super().range_of(text, thing)
        braces = [text.code.tokens[it.brace].place for it in text.functions]
        return next((it for it in braces if start < it < end), start), end


class InnermostMacro(Tree):
    """Of the macros around a use the innermost one is reported."""

    def strange(self, names):
        return super().strange(names[::-1])


class MembersAreTaken(Tree):
    """What takes a member does not come before other macros."""

    def strange(self, names):
        for name in names:
            found = super().strange([name])
            if found is not None:
                return found
        return None


class LastMacro(Tree):
    """Of the macros that reach a name the last one is reported."""

    def names_of(self, text, thing):
        return super().names_of(text, thing)[::-1]


class ArgumentsFirst(Tree):
    """What stands in the arguments of a macro comes before what it reaches."""

    def refuse_macros(self, file, thing, new):
        self.refuse_arguments(thing, {file: [it for it, _ in self.text(file).uses(thing)]})
        super().refuse_macros(file, thing, new)


class OldMayBeType(Tree):
    """A typedef may have the old name."""

    def is_taken(self, thing, new):
        return new in self.macros or thing.name in self.macros or bool(self.of_kinds(new, b"t"))


class ListIsArguments(Tree):
    """The list of a macro is taken for arguments of it."""

    def called_around(self, text, use, thing):
        return super().called_around(text, use, thing._replace(space="ordinary"))


class LineIsForgotten(Tree):
    """A name in the line of a macro may be the new one of its parameter."""

    def is_used(self, file, thing, new):
        return getattr(thing, "kind", "") != "parameter" and super().is_used(file, thing, new)


class OneSideIsOdd(Tree):
    """The byte before a name is not looked at."""

    def refuse_odd(self, file, uses, name):
        text = self.files[file]
        self.files[file] = b"".join(
            b" " if place + 1 in uses else text[place : place + 1] for place in range(len(text))
        )
        try:
            super().refuse_odd(file, uses, name)
        finally:
            self.files[file] = text


class MembersCount(Macro):
    """A member in the text of a macro is reached."""

    def is_apart(self, index):
        return self.text.text(index - 1) in (b"struct", b"union", b"enum")


class TagsCount(Macro):
    """A tag in the text of a macro is reached."""

    def is_apart(self, index):
        is_tag = self.text.text(index - 1) in (b"struct", b"union", b"enum")
        return super().is_apart(index) and not is_tag


class DesignatorIsMember(Macro):
    """Each name behind a `.` in the text of a macro is a member."""

    def is_apart(self, index):
        return super().is_apart(index) or self.text.is_dot(index - 1)


class ParametersCount(Macro):
    """A parameter of a macro is a name of its text."""

    @property
    def names(self):
        return [token.text for token in self.text.tokens if token.is_name]


class PastedIsPlain(Macro):
    """`##` makes nothing strange."""

    @property
    def is_strange(self):
        tokens = self.text.tokens
        texts = [token.text for token in tokens]
        pairs = [it for it in range(len(tokens)) if texts[it : it + 2] == [b"#", b"#"]]
        left = {it + more for it in pairs for more in (0, 1)}
        return any(
            (token.text == b"#" and index not in left)
            or token.text in STRANGE
            or self.is_strange_at(index)
            for index, token in enumerate(tokens)
        )


class ArgumentsStay(Macro):
    """A parameter that becomes a member, a tag or a label makes nothing strange."""

    def is_strange_at(self, index):
        return False


def with_macros(macro):
    """A tree with other macros."""
    return type(macro.__name__, (Tree,), {"macro_of": macro})


RENAME_PLANTS = [
    MacroReachesNothing, StrangeIsPlain, HandedIsPlain, IncludedIsLost, OneRoundLess, OneRoundMore,
    FirstTextAlone,
    OwnTextAlone, LongChainsReachNothing, NameByName, AttributeIsForgotten, DirectiveIsForgotten,
    HeadIsForgotten, InnermostMacro, MembersAreTaken, LastMacro, ArgumentsFirst, OldMayBeType,
    OneSideIsOdd, EarlyEndIsForgotten, AllIsSure, OutsideFirst, LabelStandsAlone, ListIsArguments,
    LineIsForgotten,
    *map(with_macros, [
        MembersCount, TagsCount, DesignatorIsMember, ParametersCount, PastedIsPlain, ArgumentsStay,
    ]),
]  # fmt: skip


# ---- what is shown of a name


class OneStepOfIncludes(Tree):
    """What a file includes counts, but not what that includes."""

    def closure(self, file):
        named = [self.header(file, name) for _, name in headers(self.files[file])]
        return {file, *named} - {None}


class StepsAreForgotten(Tree):
    """The steps at the front of a header do not count."""

    def header(self, file, name):
        return super().header(file, re.sub(rb"^(\.{1,2}/)+", b"", name))


class NearnessOrders(Tree):
    """The nearest comes first, but all is shown."""

    def nearest(self, file, found):
        return found


class NothingBehind(Tree):
    """Nothing is shown behind what is included."""

    def behind(self, included, found):
        return []


class FunctionsBehind(Tree):
    """Functions of other sources are shown behind a function that is included."""

    def behind(self, included, found):
        return super().behind([], [one for one in found if one not in included])


class IncludedIsPrivate(Tree):
    """What is private to a file that is included is not in view."""

    def is_in_view(self, file, one):
        return not self.is_private(one) or one.file == file


SHOWN_PLANTS = [
    OneStepOfIncludes, StepsAreForgotten, NearnessOrders, NothingBehind, FunctionsBehind,
    IncludedIsPrivate,
]  # fmt: skip


# ---- which uses count


class LocalsCount(Uses):
    """What means something in its function alone counts, too."""

    def is_bound(self, text, place):
        return False


class LabelsCount(Uses):
    """A label counts, too."""

    def is_bound(self, text, place):
        names = names_of(text)
        return super().is_bound(text, place) and names.binding(place).kind != "label"


class ParametersOfMacrosCount(Uses):
    """A parameter of a macro counts, too."""

    def is_bound(self, text, place):
        names = names_of(text)
        return super().is_bound(text, place) and names.binding(place).kind != "parameter"


class SpellingCounts(Uses):
    """All uses count, whatever is asked for."""

    def counts(self, sort, found):
        return True


class OwnSortAlone(Uses):
    """A use counts only where it is known that it is what is asked for."""

    def counts(self, sort, found):
        return sort in (ALL, found)


class UntoldAreMembers(Uses):
    """A use of which nothing is known is a member, too."""

    def counts(self, sort, found):
        return found is None or super().counts(sort, found)


class TagsAreOrdinary(Uses):
    """A tag is an ordinary name."""

    def named_by(self, text, place, members):
        found = super().named_by(text, place, members)
        return ORDINARY if found == TAG else found


class MembersAreOrdinary(Uses):
    """The name of the definition of a member is an ordinary name."""

    def members(self, text, name):
        return set()


class MacroIsOrdinary(Uses):
    """A macro is an ordinary name."""

    def sort(self, space, shown):
        return ORDINARY if space == "macro" else super().sort(space, shown)


class MacroShownIsForgotten(Uses):
    """Where a macro is shown first, the place alone tells what is asked for."""

    def sort(self, space, shown):
        return super().sort(space, [])


class AnyMacroShown(Uses):
    """All uses count where a macro is shown, behind other definitions, too."""

    def sort(self, space, shown):
        is_macro = any(it.kind == b"d" for it in shown)
        return ALL if is_macro else super().sort(space, shown)


class UndefinedIsAll(Uses):
    """All uses count of a name without a definition."""

    def sort(self, space, shown):
        return super().sort(space, shown) if shown else ALL


class MacroTextIsUntold(Uses):
    """Of a name in the text of a macro nothing is known."""

    def space(self, text, place):
        return super().space(text, place) if place in names_of(text).index else None


class DirectivesAreText(Uses):
    """Each directive is read like the text of a macro."""

    def space(self, text, place):
        names = names_of(text)
        if place in names.index or super().space(text, place) == "macro":
            return super().space(text, place)
        stream, index = names.stream_at(place)
        if stream.is_dot(index - 1) or stream.is_arrow(index - 2):
            return "member"
        return "struct" if stream.text(index - 1) in names_model.TAGGED else "plain"


class AttributesAreCode(Uses):
    """A name in an attribute that is left out is an ordinary name."""

    def space(self, text, place):
        return "plain" if place in names_of(text).left_out else super().space(text, place)


class ConditionsAreOrdinary(Uses):
    """A name in a condition, and the one that is defined as a macro, is an ordinary name."""

    def named_by(self, text, place, members):
        found = super().named_by(text, place, members)
        return ORDINARY if self.space(text, place) == "macro" else found


USES_PLANTS = [
    LocalsCount, LabelsCount, ParametersOfMacrosCount, SpellingCounts, OwnSortAlone,
    UntoldAreMembers, TagsAreOrdinary, MembersAreOrdinary, MacroIsOrdinary, MacroShownIsForgotten,
    AnyMacroShown, UndefinedIsAll, MacroTextIsUntold, DirectivesAreText, AttributesAreCode,
    ConditionsAreOrdinary,
]  # fmt: skip
