"""Reads what a text declares and which names it uses.

One reader goes through the tokens by the grammar of docs/LANGUAGE.md. It never fails: where a text is broken it goes on with the next item or
section, and gives what it could read. At the end of the tokens it tells what might have followed.
"""
from __future__ import annotations

from collections.abc import Callable

from bench61499.language.declarations import (
    ADAPTER_SECTIONS, ALGORITHM, APPLICATION, CONNECTION_SECTIONS, DATA_SECTIONS, DATA_TYPE, DESTINATION, DEVICE, ENDS, EVENT, EVENT_SECTIONS,
    FIELD, INSTANCE, INTERFACE, KINDS, LEVELS, LOCALS, PARAMETERS, PARTS, RESOURCE, SOURCE, STATE, STATEMENTS, TYPE, VARIABLE, Connection, Declaration, Key,
    Step, Unit, Use, Walk, Wanted, is_elementary,
)
from bench61499.language.full_body import read_body
from bench61499.language.full_names import find_names
from bench61499.language.imported import imported
from bench61499.language.skipped import FULL
from bench61499.language.tokens import Token, is_name, spelled, tokens

_BOUNDARIES = frozenset([*ENDS, *ENDS.values()])
_IN_BODIES = frozenset(["VAR", *DATA_SECTIONS, "END_VAR"])
"""Boundaries that an algorithm in full Structured Text may have too."""
_WITH_WORDS = frozenset([TYPE, ALGORITHM, APPLICATION, DEVICE, RESOURCE])
"""What is declared behind a word of its own."""
_STATEMENT_ENDS = tuple(f"END_{word}" for word in STATEMENTS)
_STATEMENT_WORDS = (*STATEMENTS, "EXIT", "RETURN", "ELSIF", "ELSE", "UNTIL", *_STATEMENT_ENDS)
_OPERATORS = ("AND", "OR", "XOR", "MOD", "THEN", "DO", "OF", "TO", "BY")
_LONGEST_PATH = 64
"""Names of a reference whose owners are looked for; of those behind them nothing is told."""
_BEFORE_STATEMENTS = frozenset([";", ":", "ST", "THEN", "ELSE", "DO", "REPEAT", *_STATEMENT_ENDS])


def read(text: str) -> Unit:
    return Reader(text).read()


def ports(text: str) -> list[tuple[str, str]]:
    """The ports of a unit in the order of its text, each with the word that begins its section, all in upper case."""
    return [(it.key.name, it.section) for it in read(text).declared if it.section in INTERFACE]


class Reader:
    """Goes once through the tokens of a text."""

    def __init__(self, text: str):
        self._encoded = text.encode()
        self._tokens = list(tokens(text))
        self._upper = [it.words.upper() for it in self._tokens]
        self._count = len(self._tokens)
        self._at = 0
        self._unit = Unit()
        self._section = ""
        self._open: list[Declaration] = []
        self._scope = ""
        self._used: list[tuple[Wanted, Token]] = []
        self._connected: list[tuple[str, str, int, int, int]] = []
        self._is_inside = False

    def read(self) -> Unit:
        unit = self._unit
        while not self._is_over():
            word = self._upper[self._at]
            self._at += 1
            if part := self._PARTS.get(word):
                self._section = word
                part(self)
            elif word in _BOUNDARIES:
                self._leave(word)
        if not self._is_inside:
            self._expect_parts()
        self._leave("")
        keys = {it.key: it.key for it in unit.declared}
        uses = unit.uses = [self._use(wanted, token, keys) for wanted, token in self._used]
        for space, scope, begin, middle, end in self._connected:
            unit.connections.append(Connection(space, scope, tuple(uses[begin:middle]), tuple(uses[middle:end])))
        if unit.bodies:
            self._add_bodies()
        return unit

    def _add_bodies(self) -> None:
        """Adds the names in the algorithms that the workbench skips."""
        unit, found = self._unit, find_names(self._unit, imported(self._encoded.decode()))
        unit.declared = sorted([*unit.declared, *found.declared], key=lambda it: it.start)
        for it in found.declared:
            unit.first.setdefault(it.key, it)
        unit.uses = sorted([*unit.uses, *found.uses], key=lambda it: it.start)
        unit.doubts = found.doubts

    # Tokens

    def _is_over(self) -> bool:
        return self._at >= self._count

    def _is(self, *words: str) -> bool:
        """Whether the next token is one of these. At the end of the tokens they are what might follow."""
        if self._at < self._count:
            return self._upper[self._at] in words
        self._unit.words += words
        return False

    def _skip(self, *words: str) -> bool:
        found = self._is(*words)
        self._at += found
        return found

    def _is_boundary(self) -> bool:
        return self._at < self._count and self._upper[self._at] in _BOUNDARIES

    def _name(self, wanted: Wanted | None) -> Token | None:
        """The next token where it is a name, used as `wanted` says. At the end of the tokens it is what might follow."""
        if self._at >= self._count:
            self._unit.wanted += [wanted] if wanted else []
            return None
        token = self._tokens[self._at]
        if not is_name(token):
            return None
        self._at += 1
        if wanted:
            self._used.append((wanted, token))
        return token

    def _until(self, *ends: str) -> int:
        """Moves on to the first of these outside brackets, to the end of the item or the section; gives where it began."""
        begin, depth = self._at, 0
        while not self._is_over() and not self._is_boundary():
            words = self._upper[self._at]
            if words == ";" or depth == 0 and words in ends:
                break
            depth += {"[": 1, "(": 1, "]": -1, ")": -1}.get(words, 0)
            self._at += 1
        return begin

    def _over(self, end: str) -> None:
        """Moves on to a word, over all else; where there is none, to the next section."""
        if end in self._upper[self._at :]:
            self._at = self._upper.index(end, self._at)
            return
        while not self._is_over() and not self._is_boundary():
            self._at += 1

    # Sections

    def _items(self, read_item: Callable[[], object]) -> None:
        """The items of a section up to the word that ends it, over what is no item."""
        while not self._skip(ENDS[self._section]):
            if self._is_boundary():
                return
            begin = self._at
            read_item()
            if self._is_over():
                self._is_inside = True
                return
            self._to_next_item(begin)

    def _to_next_item(self, begin: int) -> None:
        """Behind the next `;`. A name that begins a line is an item too: the `;` before it is missing."""
        if self._at == begin and not self._is_boundary() and not self._is(";"):
            self._at += 1
        while not self._is_over() and not self._is_boundary():
            if self._skip(";") or self._begins_line() and is_name(self._tokens[self._at]):
                return
            self._at += 1

    def _begins_line(self) -> bool:
        between = self._encoded[self._tokens[self._at - 1].end : self._tokens[self._at].start]
        return b"\n" in between or b"\r" in between

    def _declare(self, space: str) -> Declaration | None:
        """The next token as a declared name, where it is a name."""
        token = self._name(None)
        if not token:
            return None
        key = Key(self._unit.name, space, self._scope if space in (INSTANCE, RESOURCE) else "", token.upper)
        return self._add(key, token)

    def _add(self, key: Key, token: Token) -> Declaration:
        """A declaration that begins with its name, or with the word before it where each has a word of its own."""
        begin = self._tokens[self._at - 2] if key.space in _WITH_WORDS else token
        made = Declaration(key, self._section, token.words, token.start, token.end, begin.start, token.end)
        self._unit.declared.append(made)
        return made

    def _close(self, *those: Declaration) -> None:
        """The declarations end here, with the `;` where there is one."""
        end = self._at + (not self._is_over() and self._tokens[self._at].words == ";")
        for it in those:
            it.last = self._tokens[end - 1].end

    def _enter(self, made: Declaration | None) -> None:
        if not made:
            return
        self._leave(self._section)
        self._open.append(made)
        if LEVELS[self._section] == 1:
            number = sum(it.key == made.key for it in self._unit.declared)
            self._scope = made.key.name if number == 1 else f"{made.key.name}#{number}"

    def _leave(self, word: str) -> None:
        """Leaves what a word ends, or what can't go on where the word begins the like."""
        level = LEVELS.get(word.removeprefix("END_"), 0 if not word else len(LEVELS))
        while self._open and LEVELS[self._open[-1].section] >= level:
            self._open.pop().last = self._tokens[self._at - 1].end
        if level <= 1:
            self._scope = ""

    def _expect_parts(self) -> None:
        if self._tokens and not self._open:
            return
        enclosing = self._open[-1].section if self._open else ""
        self._unit.words += [*PARTS[enclosing], *([f"END_{enclosing}"] if enclosing else [])]

    def _head(self) -> None:
        """The name of the unit. A second unit in a text is none."""
        if self._at > 1:
            return
        self._unit.kind = self._section
        self._is_inside = self._is_over()
        if token := self._name(None):
            self._unit.name = token.upper
            self._open.append(self._add(Key(token.upper, TYPE, "", token.upper), token))

    def _structure(self) -> None:
        """What stands before the STRUCT of a structure."""
        self._head()
        self._is_inside = self._is_over()
        if self._skip(":"):
            self._is_inside = self._is_over()
            self._is("STRUCT")

    def _fields(self) -> None:
        self._items(lambda: self._data(FIELD))
        self._skip(";")

    def _events(self) -> None:
        self._items(self._event)

    def _event(self) -> None:
        made = self._declare(EVENT)
        if not made:
            return
        if self._skip(":") and (of := self._name(None)):
            made.type = of.words
        companions = []
        if self._skip("WITH"):
            while word := self._name(Wanted(VARIABLE, self._section)):
                companions.append(word.words)
                if not self._skip(","):
                    break
        made.companions = tuple(companions)
        self._close(made)

    def _variables(self) -> None:
        self._items(self._data)

    def _data(self, space: str = VARIABLE) -> None:
        those = [made] if (made := self._declare(space)) else []
        while those and self._skip(",") and (made := self._declare(space)):
            those.append(made)
        if not those or not self._skip(":"):
            return
        of, value = self._type(), self._value() if self._skip(":=") else ""
        self._close(*those)
        for it in those:
            it.type, it.value = of, value

    def _type(self) -> str:
        begin = self._at
        if self._skip("ARRAY"):
            if self._skip("["):
                self._until("]")
                self._skip("]")
            if not self._skip("OF"):
                return self._spelled(begin)
        if self._name(Wanted(DATA_TYPE, self._section)) and self._skip("["):
            self._until("]")
            self._skip("]")
        return self._spelled(begin)

    def _value(self, *ends: str) -> str:
        self._is("TRUE", "FALSE")
        return self._spelled(self._until(*ends))

    def _spelled(self, begin: int) -> str:
        return spelled(self._tokens[begin : self._at])

    def _instances(self) -> None:
        self._items(self._instance)

    def _instance(self) -> None:
        made = self._declare(INSTANCE)
        if made and self._skip(":") and (of := self._name(Wanted(TYPE, self._section))):
            made.type = of.words
            begin = self._at
            self._parameters(of.upper)
            made.value = self._spelled(begin)
            self._close(made)

    def _parameters(self, owner: str) -> None:
        if self._section == "SUBAPPS" or not self._skip("("):
            return
        while self._name(Wanted(VARIABLE, PARAMETERS, owner=owner)):
            if self._skip(":="):
                self._value(",", ")")
            if not self._skip(","):
                break
        self._skip(")")

    def _connections(self) -> None:
        self._items(self._connection)

    def _connection(self) -> None:
        space, begin = CONNECTION_SECTIONS[self._section], len(self._used)
        if self._end(space, SOURCE):
            middle = len(self._used)
            if self._skip("TO"):
                self._end(space, DESTINATION)
            self._connected.append((space, self._scope, begin, middle, len(self._used)))

    def _end(self, space: str, side: str) -> Token | None:
        """A name, or two with a point between them: an end of a connection, an event of a chart."""
        follower = self._tokens[self._at + 1] if self._at + 1 < len(self._tokens) else None
        is_path = follower is not None and follower.words == "."
        first = self._name(Wanted(INSTANCE if is_path else space, self._section, self._scope, side=side))
        if first and self._skip("."):
            port = self._name(Wanted(space, self._section, self._scope, (Step(first.upper),), side=side))
            return first if port or not self._is_over() else None
        return first

    # Charts and algorithms

    def _states(self) -> None:
        self._items(self._state)

    def _state(self) -> None:
        made = self._declare(STATE)
        if not made:
            return
        begin = self._at + 1
        if self._skip(":"):
            self._action()
            while self._skip(","):
                self._action()
            made.value = self._spelled(begin)
        self._close(made)

    def _action(self) -> None:
        self._name(Wanted(ALGORITHM, self._section))
        if self._skip("->"):
            self._end(EVENT, DESTINATION)

    def _transitions(self) -> None:
        self._items(self._transition)

    def _transition(self) -> None:
        state = Wanted(STATE, self._section)
        if self._name(state) and self._skip("TO") and self._name(state) and self._skip(":="):
            if not self._is("[") and not self._end(EVENT, SOURCE):
                return
            if self._is("[", "&", "AND"):
                self._references(";")

    def _references(self, stop: str) -> None:
        """The variables of an expression or of statements, with their members."""
        path: tuple[Step, ...] = ()
        outer: list[tuple[Step, ...]] = []
        while not self._is_over() and not self._is_boundary():
            if stop and self._is(stop):
                return
            if self._skip("["):
                outer.append((*path[:-1], path[-1]._replace(is_subscripted=True)) if path else ())
                path = ()
            elif self._skip("]"):
                path = outer.pop() if outer else ()
            elif path and self._skip("."):
                path = self._member(path)
            else:
                path = self._variable()
        if self._is_over():
            self._expect_in_expression(not stop)

    def _variable(self) -> tuple[Step, ...]:
        """The first name of a reference, or another token; gives the path that it begins."""
        is_path = self._at + 1 < len(self._tokens) and self._tokens[self._at + 1].words == "."
        if name := self._name(Wanted(VARIABLE, self._section, leads_on=is_path)):
            return (Step(name.upper),)
        self._at += 1
        return ()

    def _member(self, path: tuple[Step, ...]) -> tuple[Step, ...]:
        """A name behind a point; gives the path with it."""
        if len(path) == _LONGEST_PATH:
            return path if self._name(None) else ()
        name = self._name(Wanted(VARIABLE, self._section, path=path))
        return (*path, Step(name.upper)) if name else ()

    def _expect_in_expression(self, are_statements: bool) -> None:
        before = self._tokens[-1]
        if before.words == ".":
            return
        if before.kind in ("number", "typed", "string") or before.words in (")", "]") or is_name(before) and before.upper != "ST":
            self._unit.words += _OPERATORS
            return
        self._unit.wanted.append(Wanted(VARIABLE, self._section))
        self._unit.words += ["NOT", "TRUE", "FALSE"]
        if are_statements and before.upper in _BEFORE_STATEMENTS:
            self._unit.words += [*_STATEMENT_WORDS, "END_ALGORITHM"]

    def _algorithm(self) -> None:
        made = self._declare(ALGORITHM)
        self._is_inside = self._is_over()
        if made and self._skip("IN"):
            if self._is_over():
                self._unit.words.append("ST")
            language = self._name(None)
            made.type = language.words if language else ""
        if made and made.type.upper() not in ("", "ST"):
            self._foreign(made)
        elif made:
            self._skip(":")
            self._references("")
        self._end_of_skipped()
        if made:
            made.last = self._tokens[self._at - 1].end

    def _foreign(self, made: Declaration) -> None:
        """An algorithm that the workbench skips; one without its end may be more than that."""
        begin = self._tokens[self._at - 1].end
        if made.type.upper() == FULL and _BOUNDARIES.intersection(self._upper[self._at :]) <= _IN_BODIES:
            self._end_in_body()
            return
        self._over(ENDS["ALGORITHM"])
        if not self._is_over() and self._upper[self._at] == ENDS["ALGORITHM"]:
            is_full = made.type.upper() == FULL
            self._unit.bodies.append(read_body(made.words, self._encoded, begin, self._tokens[self._at].start, is_full))

    def _end_in_body(self) -> None:
        """Notes what may follow where a text ends within full Structured Text: after its variables the references are those of ST."""
        rest, used = self._upper[self._at :], len(self._used)
        self._at = self._count
        begin = next((at for at in reversed(range(len(rest))) if rest[at] in _IN_BODIES or rest[at] == LOCALS), -1)
        if begin < 0 or rest[begin] == "END_VAR":
            self._at -= len(rest) - begin - 1
            self._references("")
            del self._used[used:]

    def _service(self) -> None:
        self._over("END_SERVICE")
        self._end_of_skipped()

    def _end_of_skipped(self) -> None:
        """The end of a part that has no items."""
        self._is_inside = self._is_over()
        if not self._is_inside:
            self._skip(ENDS[self._section])

    # Systems

    def _application(self) -> None:
        made = self._declare(APPLICATION)
        self._is_inside = made is None and self._is_over()
        self._enter(made)

    def _device(self) -> None:
        self._enter(made := self._declare(DEVICE))
        self._typed(made)

    def _resource(self) -> None:
        self._enter(made := self._declare(RESOURCE))
        self._typed(made)

    def _typed(self, made: Declaration | None) -> None:
        """The type of a device or a resource, which is the name of no unit."""
        if made and self._skip(":") and (of := self._name(None)):
            made.type = of.words
            self._parameters("")
            self._skip(";")

    def _mappings(self) -> None:
        self._items(self._mapping)

    def _mapping(self) -> None:
        first = self._name(Wanted(APPLICATION, self._section))
        path: tuple[Step, ...] = ()
        while first and self._skip("."):
            if not (part := self._name(Wanted(INSTANCE, self._section, first.upper, path))):
                return
            path = (*path, Step(part.upper))
        if first and self._skip("ON") and (device := self._name(Wanted(DEVICE, self._section))) and self._skip("."):
            self._name(Wanted(RESOURCE, self._section, device.upper))

    # Whose name it is

    def _use(self, wanted: Wanted, token: Token, keys: dict[Key, Key]) -> Use:
        """A use. Of equal `keys` it has the first one, as a plant has many."""
        walk = self._walk(wanted)
        key = self._key(wanted, token.upper, walk)
        return Use(keys.setdefault(key, key), token.start, token.end, walk if walk and walk.steps else None)

    def _walk(self, wanted: Wanted) -> Walk | None:
        """The way to the owner of a name that stands behind others; None where nothing is known of these."""
        if wanted.is_member:
            return self._unit.way(wanted.path)
        its = self._unit.instance(wanted.scope, wanted.path[0].name) if wanted.path else None
        return Walk(its.type.upper(), wanted.space, wanted.path[1:]) if its else None

    def _key(self, wanted: Wanted, name: str, walk: Walk | None) -> Key:
        space = wanted.space
        if wanted.path:
            if walk and not walk.steps:
                return Key(walk.unit, walk.space, "", name)
            return Key("", FIELD if wanted.is_member else space, "", name)
        if space == TYPE or space == DATA_TYPE and not is_elementary(name):
            return Key(name, TYPE, "", name)
        if space == DATA_TYPE:
            return Key("", DATA_TYPE, "", name)
        if wanted.section == PARAMETERS:
            return Key(wanted.owner, space, "", name)
        if wanted.leads_on and self._unit.plug_or_socket(name):
            space = INSTANCE
        return Key(self._unit.name, space, wanted.scope if space in (INSTANCE, RESOURCE) else "", name)

    _PARTS = {
        **dict.fromkeys(KINDS, _head),
        "TYPE": _structure,
        "STRUCT": _fields,
        **dict.fromkeys(EVENT_SECTIONS, _events),
        **dict.fromkeys([*DATA_SECTIONS, "VAR"], _variables),
        **dict.fromkeys([*ADAPTER_SECTIONS, "FBS", "SUBAPPS"], _instances),
        **dict.fromkeys(CONNECTION_SECTIONS, _connections),
        "EC_STATES": _states,
        "EC_TRANSITIONS": _transitions,
        "ALGORITHM": _algorithm,
        "SERVICE": _service,
        "APPLICATION": _application,
        "DEVICE": _device,
        "RESOURCE": _resource,
        "MAPPINGS": _mappings,
    }
