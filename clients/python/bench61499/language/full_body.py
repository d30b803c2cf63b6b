"""Reads an algorithm in full Structured Text, `IN ST_FULL`: the names that it declares for itself, and the references and calls in it.

The workbench skips such algorithms, so this reader is the clients' alone. What it finds of names is no more than what its grammar is sure of: an
algorithm that leaves the grammar anywhere is not read at all.
"""
from __future__ import annotations

from collections.abc import Callable
from dataclasses import dataclass, field

from bench61499.language.full_tokens import full_tokens, is_full_name
from bench61499.language.tokens import Token

DEEPEST = 64
"""Levels that statements and expressions nest in each other."""
_VARIABLES = frozenset("VAR VAR_TEMP VAR_INPUT VAR_OUTPUT VAR_IN_OUT VAR_STAT VAR_INST".split())
_QUALIFIERS = ("CONSTANT", "RETAIN", "NON_RETAIN")
_OPERATORS = frozenset("OR XOR AND & = <> < > <= >= + - * / MOD ** AND_THEN OR_ELSE".split())
_CALLED_OPERATORS = frozenset("AND OR XOR MOD".split())
_SIGNS = frozenset(["+", "-", "NOT"])
_LITERALS = frozenset(["number", "typed", "string", "direct"])
_IN_LABELS = frozenset([".", "::", "..", ",", "+", "-", "(", ")"])
READ, WRITTEN, LABEL = "read", "written", "label"
"""What a reference is for: its value, as the target of an assignment, or as a label of CASE."""


class NotRead(Exception):
    """The algorithm leaves the grammar."""


@dataclass
class Part:
    """A name of a reference, `X[1](A := 2)^`. `arguments` are the names before `:=` and `=>` in its call."""

    name: Token
    is_subscripted: bool = False
    is_called: bool = False
    is_opaque: bool = False
    arguments: list[Token] = field(default_factory=list)

    @property
    def upper(self) -> str:
        return self.name.upper


@dataclass
class Reference:
    """Names with points between them. One that is qualified, `plant::MOST`, names what no unit declares."""

    parts: list[Part]
    role: str = READ
    is_qualified: bool = False

    @property
    def first(self) -> Part:
        return self.parts[0]


@dataclass
class Local:
    """A variable that an algorithm declares for itself."""

    name: Token
    section: str
    is_constant: bool
    type: Token | None = None
    spelled: str = ""
    value: str = ""
    last: int = 0


@dataclass
class Body:
    """What was read of an algorithm between two places in bytes. One that could not be read has its tokens alone, and
    the variables before the place where it could not."""

    algorithm: str
    begin: int
    end: int
    tokens: list[Token]
    is_read: bool = True
    locals: list[Local] = field(default_factory=list)
    references: list[Reference] = field(default_factory=list)
    fields: list[Token] = field(default_factory=list)
    """Names of fields in the values of structures: whose they are, only other texts show."""


def read_body(algorithm: str, text: bytes, begin: int, end: int, is_full: bool) -> Body:
    """The body of an algorithm between two places of a text in bytes; what is not full Structured Text is not read."""
    tokens = full_tokens(text, begin, end)
    reader = _Reader(Body(algorithm, begin, end, tokens))
    try:
        if not is_full:
            raise NotRead
        reader.read()
    except NotRead:
        return Body(algorithm, begin, end, tokens, is_read=False, locals=reader.body.locals)
    return reader.body


def is_value(words: str) -> bool:
    """Whether words spell a value in full Structured Text: an expression, a list, or the fields of a structure."""
    return _is_variable(f"INT := {words}")


def is_type(words: str) -> bool:
    """Whether words spell a type in full Structured Text, such as an array whose bounds have names."""
    return _is_variable(words)


def _is_variable(words: str) -> bool:
    """Whether words are what may stand behind the name of a variable."""
    text = f"VAR V : {words}; END_VAR".encode()
    body = read_body("V", text, 0, len(text), True)
    return body.is_read and sum(it.words == ";" for it in body.tokens) == 1


class _Reader:
    """Goes once through the tokens, and raises `NotRead` at the first that is not expected."""

    def __init__(self, body: Body):
        self.body = body
        self._tokens = body.tokens
        self._upper = [it.upper if it.kind in ("word", "symbol") else "" for it in body.tokens]
        self._at = 0
        self._level = 0

    def read(self) -> None:
        self._skip(":")
        while self._upper_here() in _VARIABLES:
            self._section()
        self._statements()
        if self._at < len(self._tokens):
            raise NotRead

    # Tokens

    def _upper_here(self, ahead: int = 0) -> str:
        return self._upper[self._at + ahead] if self._at + ahead < len(self._upper) else ""

    def _kind(self) -> str:
        return self._tokens[self._at].kind if self._at < len(self._tokens) else ""

    def _skip(self, *words: str) -> bool:
        found = self._upper_here() in words
        self._at += found
        return found

    def _expect(self, *words: str) -> None:
        if not self._skip(*words):
            raise NotRead

    def _is_name(self, ahead: int = 0) -> bool:
        at = self._at + ahead
        return at < len(self._tokens) and is_full_name(self._tokens[at])

    def _name(self) -> Token:
        if not self._is_name():
            raise NotRead
        self._at += 1
        return self._tokens[self._at - 1]

    def _listed(self, item: Callable[[], object]) -> None:
        item()
        while self._skip(","):
            item()

    def _deeper(self, what: Callable[[], object]) -> None:
        if self._level == DEEPEST:
            raise NotRead
        self._level += 1
        what()
        self._level -= 1

    # Variables

    def _section(self) -> None:
        section = self._upper[self._at]
        self._at += 1
        is_constant = False
        while self._upper_here() in _QUALIFIERS:
            is_constant |= self._skip("CONSTANT")
            self._skip(*_QUALIFIERS)
        while not self._skip("END_VAR"):
            self._variables(section, is_constant)

    def _variables(self, section: str, is_constant: bool) -> None:
        those = [Local(self._name(), section, is_constant)]
        while self._skip(","):
            those.append(Local(self._name(), section, is_constant))
        self._expect(":")
        begin = self._at
        type_ = self._type()
        spelled, value_at = self._words(begin), self._at + 1
        value = ""
        if self._skip(":="):
            self._value()
            value = self._words(value_at)
        self._expect(";")
        for it in those:
            it.type, it.spelled, it.value, it.last = type_, spelled, value, self._tokens[self._at - 1].end
        self.body.locals += those

    def _words(self, begin: int) -> str:
        """Tokens on one line, with blanks between them where a type or a value has some."""
        words = ""
        for it in self._tokens[begin : self._at]:
            words += " " * (bool(words) and (it.kind != "symbol" or it.words == "[") and words[-1] not in "[(.:-+") + it.words
        return words

    def _type(self) -> Token | None:
        """The name of a type, of an array that of its elements; None for any other type without a name."""
        if self._skip("ARRAY"):
            self._expect("[")
            self._until("]")
            self._expect("OF")
            return self._type()
        name: Token | None = self._name()
        if self._skip("::"):
            while self._name() and self._skip("::"):
                pass
            name = None
        elif name and name.upper in ("POINTER", "REF_TO", "REFERENCE"):
            self._skip("TO")
            self._type()
            return None
        if self._skip("["):
            self._until("]")
        return name

    def _until(self, end: str) -> None:
        """The bounds of an array, or the length of a text: expressions between brackets."""
        while not self._skip(end):
            if not self._skip(",", "..", "*"):
                self._expression()

    def _value(self) -> None:
        """The value of a variable: an expression, a list, or the fields of a structure."""
        if self._skip("["):
            self._listed(self._element)
            self._expect("]")
        elif self._upper_here() == "(" and self._is_name(1) and self._upper_here(2) == ":=":
            self._at += 1
            self._listed(self._field)
            self._expect(")")
        else:
            self._expression()

    def _element(self) -> None:
        """An element of a list, perhaps with how often it is there: `10(0)`."""
        if self._kind() == "number" and self._upper_here(1) == "(":
            self._at += 2
            self._listed(self._value)
            self._expect(")")
        else:
            self._value()

    def _field(self) -> None:
        self.body.fields.append(self._name())
        self._expect(":=")
        self._deeper(self._value)

    # Statements

    def _statements(self, *ends: str) -> None:
        while self._at < len(self._tokens) and self._upper_here() not in ends:
            self._statement()

    def _statement(self) -> None:
        word = self._upper_here()
        if word in self._BLOCKS:
            self._at += 1
            self._deeper(lambda: self._BLOCKS[word](self))
            self._skip(";")
        elif not self._skip(";"):
            if not self._skip("EXIT", "CONTINUE", "RETURN"):
                self._assignment_or_call()
            self._expect(";")

    def _assignment_or_call(self) -> None:
        reference = self._reference()
        if self._skip(":="):
            if reference.parts[-1].is_called:
                raise NotRead
            reference.role = WRITTEN
            self._expression()
        elif not reference.parts[-1].is_called:
            raise NotRead

    def _if(self) -> None:
        self._condition("THEN", "ELSIF", "ELSE", "END_IF")
        while self._skip("ELSIF"):
            self._condition("THEN", "ELSIF", "ELSE", "END_IF")
        if self._skip("ELSE"):
            self._statements("END_IF")
        self._expect("END_IF")

    def _condition(self, begin: str, *ends: str) -> None:
        self._expression()
        self._expect(begin)
        self._statements(*ends)

    def _case(self) -> None:
        self._expression()
        self._expect("OF")
        while self._upper_here() not in ("ELSE", "END_CASE"):
            self._labels()
            while self._upper_here() not in ("ELSE", "END_CASE") and not self._is_label():
                self._statement()
        if self._skip("ELSE"):
            self._statements("END_CASE")
        self._expect("END_CASE")

    def _is_label(self) -> bool:
        """Whether labels begin here, and not a statement: what follows up to a `:`."""
        for at in range(self._at, len(self._tokens)):
            if self._upper[at] == ":":
                return True
            if self._tokens[at].kind not in _LITERALS and self._upper[at] not in _IN_LABELS and not is_full_name(self._tokens[at]):
                return False
        raise NotRead

    def _labels(self) -> None:
        first = len(self.body.references)
        self._listed(self._label)
        self._expect(":")
        for it in self.body.references[first:]:
            it.role = LABEL

    def _label(self) -> None:
        self._expression()
        if self._skip(".."):
            self._expression()

    def _for(self) -> None:
        reference = self._reference()
        reference.role = WRITTEN
        self._expect(":=")
        self._expression()
        self._expect("TO")
        self._expression()
        if self._skip("BY"):
            self._expression()
        self._expect("DO")
        self._statements("END_FOR")
        self._expect("END_FOR")

    def _while(self) -> None:
        self._condition("DO", "END_WHILE")
        self._expect("END_WHILE")

    def _repeat(self) -> None:
        self._statements("UNTIL")
        self._expect("UNTIL")
        self._expression()
        self._skip(";")
        self._expect("END_REPEAT")

    _BLOCKS: dict[str, Callable[[_Reader], None]] = {"IF": _if, "CASE": _case, "FOR": _for, "WHILE": _while, "REPEAT": _repeat}

    # Expressions

    def _expression(self) -> None:
        self._deeper(self._operands)

    def _operands(self) -> None:
        self._operand()
        while self._upper_here() in _OPERATORS:
            self._at += 1
            self._operand()

    def _operand(self) -> None:
        while self._upper_here() in _SIGNS:
            self._at += 1
        if self._kind() in _LITERALS or self._upper_here() in ("TRUE", "FALSE", "NULL"):
            self._at += 1
        elif self._upper_here() in _CALLED_OPERATORS and self._upper_here(1) == "(":
            self._at += 1
            self._arguments()
        elif self._skip("("):
            self._expression()
            self._expect(")")
        else:
            self._reference()

    def _reference(self) -> Reference:
        """A reference and what is in its subscripts and calls, which is after it in the list."""
        reference = Reference([Part(self._name())])
        self.body.references.append(reference)
        while self._skip("::"):
            reference.is_qualified = True
            reference.parts.append(Part(self._name()))
        while self._further(reference):
            pass
        return reference

    def _further(self, reference: Reference) -> bool:
        """What continues a reference; False if it ends."""
        part = reference.parts[-1]
        if self._skip("["):
            self._listed(self._expression)
            self._expect("]")
            part.is_opaque |= part.is_subscripted  # N[1][2] is an element of an element.
            part.is_subscripted = True
        elif self._upper_here() == "(":
            part.arguments += self._arguments()
            part.is_called = True
        elif self._skip("^"):
            part.is_opaque = True
        elif self._skip("."):
            if self._kind() in ("direct", "number"):
                self._at += 1
                return False
            reference.parts.append(Part(self._name()))
        else:
            return False
        return True

    def _arguments(self) -> list[Token]:
        """The arguments of a call; gives the names before `:=` and `=>`."""
        self._expect("(")
        named: list[Token] = []
        if not self._skip(")"):
            self._listed(lambda: self._argument(named))
            self._expect(")")
        return named

    def _argument(self, named: list[Token]) -> None:
        is_negated = self._upper_here() == "NOT" and self._upper_here(2) == "=>"
        self._at += is_negated
        if self._is_name() and self._upper_here(1) in (":=", "=>"):
            named.append(self._name())
            is_output = self._skip("=>")
            self._at += not is_output
            if self._upper_here() in (",", ")"):
                return
            if is_output:
                self._reference().role = WRITTEN
                return
        self._expression()
