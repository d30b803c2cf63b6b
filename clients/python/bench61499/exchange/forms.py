"""Which words spell a constant, a type, an expression, statements or a condition, by the grammar of docs/LANGUAGE.md."""
from __future__ import annotations

from collections.abc import Callable, Sequence
from functools import lru_cache

from bench61499 import TEXT_LIMIT
from bench61499.language.tokens import Token, is_name, pieces

DEPTH = 64
"""How deep expressions and statements nest at most."""
_OPERATORS = frozenset(["OR", "XOR", "&", "AND", "=", "<>", "<", ">", "<=", ">=", "+", "-", "*", "/", "MOD", "**"])


class Broken(Exception):
    """The token at this index can't go on what is before it; the number of tokens if there are too few."""

    def __init__(self, at: int):
        super().__init__(at)
        self.at = at


class Cursor:
    """Reads tokens from the left. What is read is known to be spelled so; `Broken` is raised at the first token that is not."""

    def __init__(self, tokens: Sequence[Token]):
        self.tokens = tokens
        self.at = 0

    def fail(self) -> Broken:
        return Broken(self.at)

    def sees(self, *words: str) -> bool:
        """Whether a symbol or a reserved word of these is next."""
        if self.at >= len(self.tokens):
            return False
        token = self.tokens[self.at]
        return token.kind in ("symbol", "word") and token.upper in words

    def sees_kind(self, *kinds: str) -> bool:
        return self.at < len(self.tokens) and self.tokens[self.at].kind in kinds

    def sees_name(self) -> bool:
        return self.at < len(self.tokens) and is_name(self.tokens[self.at])

    def take(self) -> str:
        self.at += 1
        return self.tokens[self.at - 1].words

    def takes(self, *words: str) -> str:
        """Takes one of these if it is next."""
        return self.take() if self.sees(*words) else ""

    def need(self, *words: str) -> str:
        if not self.sees(*words):
            raise self.fail()
        return self.take()

    def need_kind(self, *kinds: str) -> str:
        if not self.sees_kind(*kinds):
            raise self.fail()
        return self.take()

    def name(self) -> str:
        if not self.sees_name():
            raise self.fail()
        return self.take()

    def list_of(self, item: Callable[[], object]) -> None:
        item()
        while self.takes(","):
            item()

    def end(self) -> str:
        """A name, or two with a point between them."""
        first = self.name()
        return f"{first}.{self.name()}" if self.takes(".") else first

    def type_use(self) -> None:
        if not self.takes("ARRAY"):
            self.name()
            if self.takes("["):
                self.need_kind("number")
                self.need("]")
            return
        self.need("[")
        self.list_of(self._range)
        self.need("]")
        self.need("OF")
        self.name()

    def _range(self) -> None:
        self.bound()
        self.need("..")
        self.bound()

    def bound(self) -> None:
        self.takes("+", "-")
        self.need_kind("number")

    def constant(self) -> None:
        if self.takes("["):
            self.list_of(self._simple)
            self.need("]")
        else:
            self._simple()

    def _simple(self) -> None:
        if self.sees("+", "-"):
            self.bound()
        elif self.sees_kind("number", "typed", "string") or self.sees("TRUE", "FALSE") or self.sees_name():
            self.take()
        else:
            raise self.fail()

    def condition(self) -> None:
        if self.sees_kind("number") and self.tokens[self.at].words == "1":
            self.take()
            return
        if not self.sees("["):
            self.end()
        if self.takes("["):
            self.expression()
            self.need("]")
        elif self.takes("&", "AND"):
            self.expression()

    def expression(self, depth: int = 0) -> None:
        self._unary(depth)
        while self.takes(*_OPERATORS):
            self._unary(depth)

    def _unary(self, depth: int) -> None:
        self.takes("+", "-", "NOT")
        if self.sees_kind("number", "typed", "string") or self.sees("TRUE", "FALSE"):
            self.take()
        elif self.sees_name():
            self._reference(depth)
        elif depth < DEPTH and self.takes("("):
            self.expression(depth + 1)
            self.need(")")
        else:
            raise self.fail()

    def _reference(self, depth: int) -> None:
        self._step(depth)
        while self.takes("."):
            self._step(depth)

    def _step(self, depth: int) -> None:
        self.name()
        if depth < DEPTH and self.takes("["):
            self.list_of(lambda: self.expression(depth + 1))
            self.need("]")

    def statements(self, depth: int = 0) -> None:
        while self._statement(depth):
            pass

    def _statement(self, depth: int) -> bool:
        if self.takes(";"):
            return True
        if self.sees_name():
            self._reference(depth)
            self.need(":=")
            self.expression(depth)
            self.need(";")
            return True
        if self.takes("EXIT", "RETURN"):
            self.need(";")
            return True
        word = self.takes("IF", "CASE", "FOR", "WHILE", "REPEAT") if depth < DEPTH else ""
        if word:
            _STATEMENTS[word.upper()](self, depth)
        return bool(word)

    def _if(self, depth: int) -> None:
        self.expression(depth)
        self.need("THEN")
        self.statements(depth + 1)
        while self.takes("ELSIF"):
            self.expression(depth)
            self.need("THEN")
            self.statements(depth + 1)
        self._otherwise(depth)
        self.need("END_IF")

    def _otherwise(self, depth: int) -> None:
        if self.takes("ELSE"):
            self.statements(depth + 1)

    def _case(self, depth: int) -> None:
        self.expression(depth)
        self.need("OF")
        self._labels(depth)
        while self.sees("+", "-") or self.sees_kind("number", "typed"):
            self._labels(depth)
        self._otherwise(depth)
        self.need("END_CASE")

    def _labels(self, depth: int) -> None:
        self.list_of(self._label)
        self.need(":")
        self.statements(depth + 1)

    def _label(self) -> None:
        self._integer()
        if self.takes(".."):
            self._integer()

    def _integer(self) -> None:
        if self.sees_kind("typed"):
            self.take()
        else:
            self.bound()

    def _for(self, depth: int) -> None:
        self.name()
        self.need(":=")
        self.expression(depth)
        self.need("TO")
        self.expression(depth)
        if self.takes("BY"):
            self.expression(depth)
        self.need("DO")
        self.statements(depth + 1)
        self.need("END_FOR")

    def _while(self, depth: int) -> None:
        self.expression(depth)
        self.need("DO")
        self.statements(depth + 1)
        self.need("END_WHILE")

    def _repeat(self, depth: int) -> None:
        self.statements(depth + 1)
        self.need("UNTIL")
        self.expression(depth)
        self.need("END_REPEAT")


_STATEMENTS: dict[str, Callable[[Cursor, int], None]] = {
    "IF": Cursor._if,
    "CASE": Cursor._case,
    "FOR": Cursor._for,
    "WHILE": Cursor._while,
    "REPEAT": Cursor._repeat,
}


def bare_tokens(words: str) -> list[Token] | None:
    """The tokens of words that have no comments; None if they have some, or if no text has room for them."""
    if len(words) > TEXT_LIMIT:
        return None
    found = list(pieces(words))
    return None if any(it.kind in ("comment", "unclosed") for it in found) else found


def _spell(words: str, form: Callable[[Cursor], object]) -> bool:
    """Whether words without comments spell a form."""
    found = bare_tokens(words)
    return found is not None and spell(found, form)


def spell(tokens: Sequence[Token], form: Callable[[Cursor], object]) -> bool:
    """Whether all these tokens together spell a form."""
    cursor = Cursor(tokens)
    try:
        form(cursor)
    except Broken:
        return False
    return cursor.at == len(tokens)


@lru_cache(4096)
def is_constant(words: str) -> bool:
    return _spell(words, Cursor.constant)


@lru_cache(4096)
def is_type(words: str) -> bool:
    return _spell(words, Cursor.type_use)


@lru_cache(4096)
def is_array(words: str) -> bool:
    """Whether words that spell a type are those of an array."""
    return words.split("[")[0].strip().upper() == "ARRAY" and is_type(words)


def broken_statement(body: str) -> str:
    """The first word of a body that keeps it from being a list of statements; empty if it is one."""
    tokens = [it for it in pieces(body) if it.kind != "comment"]
    cursor = Cursor(tokens)
    try:
        cursor.statements()
    except Broken as error:
        return _blamed(tokens, error.at)
    return tokens[cursor.at].words if cursor.at < len(tokens) else ""


def _blamed(tokens: Sequence[Token], at: int) -> str:
    """The word at which a list of statements is broken: the one before a second word, as in `VAR_TEMP X`, or before `;`, as in `CONTINUE;`."""
    if at >= len(tokens):
        return "its end"
    alone = at > 0 and is_name(tokens[at - 1]) and (at == 1 or tokens[at - 2].words == ";" or tokens[at - 2].upper in _BEGINS)
    return tokens[at - 1].words if alone and (tokens[at].kind == "word" or tokens[at].words == ";") else tokens[at].words


_BEGINS = frozenset(["THEN", "ELSE", "DO", "REPEAT", "OF", ":"])
