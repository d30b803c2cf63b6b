"""The grammar of docs/LANGUAGE.md as data, and where a text leaves it: what was expected there, and what is not closed.

A form is a terminal (a word, a symbol or a kind of token), a tuple of forms in a row, or one of the classes below. The grammar is LL(1), so one
stack of forms and the next token tell what to do, and a text is left at the first token that can't continue a unit. The forms of the grammar are
made once and compared by identity, so that what each can begin with is found at once.
"""
from __future__ import annotations

from collections.abc import Iterator, Sequence
from dataclasses import dataclass
from functools import cache
from typing import TypeAlias

from bench61499.language.declarations import CONNECTION_SECTIONS, DATA_SECTIONS, ENDS, EVENT_SECTIONS
from bench61499.language.tokens import Token, is_name

NAME, NUMBER, TYPED, TEXT = "a name", "a number", "a typed literal", "a text"
STATEMENT, VALUE = "a statement", "a value"
DEEPEST = 64
"""Levels that expressions and statements nest in each other."""
_KINDS = {"number": NUMBER, "typed": TYPED, "string": TEXT}
_BOUNDARIES = frozenset([*ENDS, *ENDS.values()])


@dataclass(frozen=True, eq=False)
class Optional:
    form: Form


@dataclass(frozen=True, eq=False)
class Many:
    form: Form


@dataclass(frozen=True, eq=False)
class One:
    """One of these."""

    forms: tuple[Form, ...]


@dataclass(frozen=True, eq=False)
class Part:
    """What a word begins and another word ends."""

    word: str
    body: Form
    end: str


@dataclass(frozen=True, eq=False)
class Rule:
    """The form of this name in `RULES`. What stands before a `:` in the name is what users read where it is expected."""

    name: str

    @property
    def label(self) -> str:
        return self.name.partition(":")[0]


@dataclass(frozen=True, eq=False)
class Gate:
    """A construct that adds a level, and so can't stand at the deepest one."""

    form: Form


@dataclass(frozen=True, eq=False)
class Inner:
    """What stands a level deeper."""

    form: Form


@dataclass(frozen=True)
class Foreign:
    """Any tokens up to a word."""

    end: str


@dataclass(frozen=True)
class Body:
    """The statements of an algorithm behind ST; behind another language any tokens."""


@dataclass(frozen=True)
class Close:
    """The word that ends what the token at `opening` begins."""

    opening: int
    end: str


@dataclass(frozen=True)
class Outer:
    """The end of a level."""


Form: TypeAlias = str | tuple["Form", ...] | Optional | Many | One | Part | Rule | Gate | Inner | Foreign | Body | Close | Outer


def _listed(form: Form) -> Form:
    return form, Many((",", form))


def _one_of(*forms: Form) -> One:
    return One(forms)


def _part(word: str, *body: Form) -> Part:
    return Part(word, body, ENDS.get(word, f"END_{word}"))


def _sections(words: Sequence[str], *item: Form) -> tuple[Form, ...]:
    """Sections with items of one sort."""
    return tuple(_part(word, Many(item)) for word in words)


_END = NAME, Optional((".", NAME))
_PARAMETERS = Optional(("(", Optional(_listed((NAME, ":=", Rule("a value:constant")))), ")"))
_STATEMENTS = Many(Rule(STATEMENT))
_ST: Form = (Optional(":"), _STATEMENTS)
_BLOCK = Inner(_STATEMENTS)
_ELSE = Optional(("ELSE", _BLOCK))
_SIGN = Optional(_one_of("+", "-"))
_REFERENCE = Rule("a name:reference")
_VARIABLE = (_listed(NAME), ":", Rule("a type"), Optional((":=", Rule("a value:constant"))), ";")
_EVENTS = _sections(EVENT_SECTIONS, NAME, Optional((":", NAME)), Optional(("WITH", _listed(NAME))), ";")
_DATA = _sections(DATA_SECTIONS, *_VARIABLE)
_ADAPTERS = _sections(("PLUGS", "SOCKETS"), NAME, ":", NAME, _PARAMETERS, ";")
_FBS = _sections(("FBS",), NAME, ":", NAME, _PARAMETERS, ";")
_SUBAPPS = _sections(("SUBAPPS",), NAME, ":", NAME, ";")
_CONNECTIONS = _sections(tuple(CONNECTION_SECTIONS), *_END, "TO", *_END, ";")
_SERVICE = (Part("SERVICE", Foreign("END_SERVICE"), "END_SERVICE"),)
_CHART = (
    _part("EC_STATES", Many((NAME, Optional((":", _listed(Rule("an algorithm or ->")))), ";"))),
    _part("EC_TRANSITIONS", Many((NAME, "TO", NAME, ":=", Rule("a condition"), ";"))),
    _part("ALGORITHM", NAME, "IN", NAME, Body()),
)
_INSIDE = {
    "FUNCTION_BLOCK": (*_EVENTS, *_DATA, *_sections(("VAR",), *_VARIABLE), *_ADAPTERS, *_FBS, *_CONNECTIONS, *_CHART, *_SERVICE),
    "ADAPTER": (*_EVENTS, *_DATA, *_SERVICE),
    "SUBAPPLICATION": (*_EVENTS, *_DATA, *_ADAPTERS, *_FBS, *_SUBAPPS, *_CONNECTIONS, *_SERVICE),
    "SYSTEM": (Rule("an application"), Rule("a device"), *_sections(("MAPPINGS",), NAME, Many((".", NAME)), "ON", NAME, ".", NAME, ";")),
    "APPLICATION": (*_FBS, *_SUBAPPS, *_CONNECTIONS),
}
_STRUCTURE = _part("TYPE", NAME, ":", _part("STRUCT", Many(_VARIABLE)), Optional(";"))
_LABEL = Rule("a label"), Optional(("..", Rule("a label")))
RULES: dict[str, Form] = {
    **{f"a section:{word}": One(its) for word, its in _INSIDE.items()},
    "a unit": One((*(_part(word, NAME, Many(Rule(f"a section:{word}"))) for word in _INSIDE if word != "APPLICATION"), _STRUCTURE)),
    "an application": _part("APPLICATION", NAME, Many(Rule("a section:APPLICATION"))),
    "a device": _part("DEVICE", NAME, ":", NAME, _PARAMETERS, Optional(";"), Many(Rule("a resource"))),
    "a resource": _part("RESOURCE", NAME, ":", NAME, _PARAMETERS, Optional(";")),
    "a type": _one_of((NAME, Optional(("[", NUMBER, "]"))), ("ARRAY", "[", _listed((Rule("a bound"), "..", Rule("a bound"))), "]", "OF", NAME)),
    "a bound": (_SIGN, NUMBER),
    "a label": _one_of((_SIGN, NUMBER), TYPED),
    "a value:constant": _one_of(Rule("a value:simple"), ("[", _listed(Rule("a value:simple")), "]")),
    "a value:simple": _one_of((_SIGN, NUMBER), TYPED, TEXT, "TRUE", "FALSE", NAME),
    "an algorithm or ->": _one_of((NAME, Optional(("->", *_END))), ("->", *_END)),
    "a condition": _one_of("1", (*_END, Optional(_one_of(Rule("[:guard"), (_one_of("&", "AND"), Rule(VALUE))))), Rule("[:guard")),
    "[:guard": ("[", Rule(VALUE), "]"),
    STATEMENT: _one_of(
        ";",
        ("EXIT", ";"),
        ("RETURN", ";"),
        (_REFERENCE, ":=", Rule(VALUE), ";"),
        Gate(_part("IF", Rule(VALUE), "THEN", _BLOCK, Many(("ELSIF", Rule(VALUE), "THEN", _BLOCK)), _ELSE)),
        Gate(_part("CASE", Rule(VALUE), "OF", Rule("a label:case"), Many(Rule("a label:case")), _ELSE)),
        Gate(_part("FOR", NAME, ":=", Rule(VALUE), "TO", Rule(VALUE), Optional(("BY", Rule(VALUE))), "DO", _BLOCK)),
        Gate(_part("WHILE", Rule(VALUE), "DO", _BLOCK)),
        Gate(_part("REPEAT", _BLOCK, "UNTIL", Rule(VALUE))),
    ),
    "a label:case": (_listed(_LABEL), ":", _BLOCK),
    "a name:reference": (Rule("a name:step"), Many((".", Rule("a name:step")))),
    "a name:step": (NAME, Optional(Gate(("[", Inner(_listed(Rule(VALUE))), "]")))),
    VALUE: (Rule("a value:unary"), Many((Rule("an operator"), Rule("a value:unary")))),
    "a value:unary": (Optional(_one_of("+", "-", "NOT")), Rule("a value:operand")),
    "a value:operand": _one_of(NUMBER, TYPED, TEXT, "TRUE", "FALSE", _REFERENCE, Gate(("(", Inner(Rule(VALUE)), ")"))),
    "an operator": One(tuple("OR XOR & AND = <> < > <= >= + - * / MOD **".split())),
}


@cache
def _first(form: Form) -> tuple[frozenset[str], bool]:
    """The terminals that a form can begin with, and whether it can be nothing."""
    match form:
        case Rule(name):
            return _first(RULES[name])
        case Optional(inner) | Many(inner):
            return _first(inner)[0], True
        case Part(word):
            return frozenset([word]), False
        case Gate(inner) | Inner(inner):
            return _first(inner)
        case One(forms):
            its = [_first(it) for it in forms]
            return frozenset().union(*(first for first, _ in its)), any(empty for _, empty in its)
        case tuple():
            return _first_of_row(form)
        case Close(_, end):
            return frozenset([end]), False
        case str():
            return frozenset([form]), False
    return frozenset(), True


def _first_of_row(row: Sequence[Form]) -> tuple[frozenset[str], bool]:
    found: frozenset[str] = frozenset()
    for form in row:
        first, is_empty = _first(form)
        found |= first
        if not is_empty:
            return found, False
    return found, True


@cache
def _labels(form: Form) -> tuple[str, ...]:
    """What users read where a form is expected: its name, or what it can begin with."""
    match form:
        case Rule():
            return (form.label,)
        case Optional(inner) | Many(inner) | Gate(inner) | Inner(inner):
            return _labels(inner)
        case One(forms):
            return tuple(dict.fromkeys(label for it in forms for label in _labels(it)))
        case tuple():
            return _labels(form[0]) if form else ()
    return tuple(sorted(_first(form)[0]))


@dataclass(frozen=True)
class Stop:
    """Where a text leaves the grammar: the number of the token, that behind the last one where the text ends too early.

    `needed` is what had to be there, `possible` what might have been there before that. `open` are the numbers of the tokens that began what
    is open, the outermost first, and the words that end it. `closable` is whether the innermost might end here; `unclosed` whether the token
    is right once that, and perhaps more, has ended.
    """

    at: int
    needed: tuple[str, ...] = ()
    possible: tuple[str, ...] = ()
    open: tuple[Close, ...] = ()
    closable: bool = False
    unclosed: bool = False
    is_too_deep: bool = False


def first_stop(of: Sequence[Token]) -> Stop | None:
    """Where tokens, without comments, leave the grammar; None where they spell a unit."""
    return next(stops(of), None)


def stops(of: Sequence[Token]) -> Iterator[Stop]:
    """The same, and then where they leave it again, each time after what is missing was put in or what can't be read was passed over."""
    if of and of[-1].kind == "unclosed":
        yield Stop(len(of) - 1)
        return
    matcher = _Matcher(of)
    while stop := matcher.run():
        yield stop
        if not matcher.recover(stop):
            return


class _Matcher:
    """Goes through the tokens with a stack of the forms that are yet to come, the next one last."""

    def __init__(self, of: Sequence[Token]):
        self._of = of
        self._at = 0
        self._stack: list[Form] = [Rule("a unit")]
        self._level = 0
        self._possible: list[str] = []
        self._next = self._terminals()

    def run(self) -> Stop | None:
        while self._stack:
            form = self._stack.pop()
            if not self._step(form):
                return self._stop(form)
        return None if self._at == len(self._of) else Stop(self._at)

    def recover(self, stop: Stop) -> bool:
        """Continues after a stop: with what was needed there, or else with the next word that begins or ends a section; False where there is none."""
        if not stop.open or stop.at == len(self._of):
            return False
        if not stop.closable and not self._next.isdisjoint(_first_of_row(self._stack[::-1])[0]):
            return True
        while self._next and not self._continues():
            self._take()
        return bool(self._next)

    def _continues(self) -> bool:
        """Whether the token is a word that begins or ends a section that is right here; then what is before it is given up."""
        at = len(self._stack)
        while at and self._next.isdisjoint(_first(self._stack[at - 1])[0]):
            at -= 1
        if not at or self._next.isdisjoint(_BOUNDARIES):
            return False
        del self._stack[at:]
        self._level = sum(isinstance(it, Outer) for it in self._stack)
        return True

    def _terminals(self) -> frozenset[str]:
        """What the next token is."""
        if self._at == len(self._of):
            return frozenset()
        token = self._of[self._at]
        if token.kind in ("word", "symbol"):
            return frozenset([token.upper, NAME] if is_name(token) else [token.upper])
        return frozenset([_KINDS.get(token.kind, ""), *(["1"] if token.words == "1" else [])])

    def _take(self) -> bool:
        self._at += 1
        self._possible.clear()
        self._next = self._terminals()
        return True

    def _can_be(self, form: Form) -> bool:
        return not self._next.isdisjoint(_first(form)[0])

    def _step(self, form: Form) -> bool:
        """Takes the token for a form, or puts what the form is made of on the stack; False where the token is another one."""
        match form:
            case str():
                return form in self._next and self._take()
            case Close(_, end):
                return end in self._next and self._take()
            case tuple():
                self._stack.extend(reversed(form))
            case Optional(inner) | Many(inner):
                self._perhaps(form, inner)
            case One(forms):
                self._stack.extend(it for it in forms if self._can_be(it))
                return self._can_be(form)
            case Rule(name):
                self._stack.append(RULES[name])
                return self._can_be(form) or _first(form)[1]
            case Part(word, body, end):
                self._stack += [Close(self._at, end), body]
                return word in self._next and self._take()
            case _:
                return self._level_step(form)
        return True

    def _perhaps(self, form: Form, inner: Form) -> None:
        if not self._can_be(inner):
            self._possible += _labels(inner)
        else:
            self._stack += [form, inner] if isinstance(form, Many) else [inner]

    def _level_step(self, form: Form) -> bool:
        match form:
            case Gate(inner):
                self._stack.append(inner)
                return self._level < DEEPEST
            case Inner(inner):
                self._level += 1
                self._stack += [Outer(), inner]
            case Outer():
                self._level -= 1
            case Body():
                is_st = self._of[self._at - 1].upper == "ST"
                self._stack.append(_ST if is_st else Foreign("END_ALGORITHM"))
            case Foreign(end):
                while self._next and end not in self._next:
                    self._take()
        return True

    def _stop(self, form: Form) -> Stop:
        below = [*self._stack, form] if isinstance(form, Close) else self._stack
        its = tuple(it for it in below if isinstance(it, Close))
        closable = isinstance(form, Close)
        return Stop(
            self._at,
            _labels(form),
            tuple(dict.fromkeys(self._possible)),
            its,
            closable,
            closable and self._is_right_further_out(),
            isinstance(form, Gate),
        )

    def _is_right_further_out(self) -> bool:
        """Whether the token continues what is around the innermost part that is open, or around more of them."""
        at = len(self._stack)
        while at:
            if not self._next.isdisjoint(_first_of_row(self._stack[at - 1 :: -1])[0]):
                return True
            at = next((index for index in reversed(range(at)) if isinstance(self._stack[index], Close)), 0)
        return False

