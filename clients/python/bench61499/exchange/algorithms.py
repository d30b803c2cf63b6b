"""Algorithms of files as those of a text: in Structured Text, kept unchecked, or in another language."""
from __future__ import annotations

import re
from textwrap import dedent

from bench61499 import TEXT_LIMIT
from bench61499.exchange import names
from bench61499.exchange.context import Context
from bench61499.exchange.exchanged import FULL, Algorithm, comment
from bench61499.exchange.forms import broken_statement
from bench61499.exchange.report import NOTE, UNCHECKED, cut
from bench61499.exchange.xmlfile import Element
from bench61499.language.tokens import pieces

_ASIDE = re.compile(names.ASIDES, re.VERBOSE | re.DOTALL)
_BEGIN = re.compile(r"\s*(ALGORITHM)\s+([^\W\d]\w*)", re.IGNORECASE)
_END = re.compile(r"\b(END_ALGORITHM)\s*(;?)\s*\Z", re.IGNORECASE)
_UNKNOWN = "ALGORITHM_UNKNOWN will be reported where it is used"


def algorithm(context: Context, block: Element, at: Element) -> Algorithm | None:
    """An algorithm of a block; None, which is told, if there is no form for it."""
    context.known(at, "Name Comment", "ST Other LD FBD VarDeclaration")
    name, own = context.own_name(at), cut(at.get("Name"))
    bodies = at.named("ST", "Other", "LD", "FBD")
    for more in bodies[1:]:
        context.part_left_out(more, f"a second body of the algorithm {own}", at)
    if bodies:
        found = _kept(context, at, bodies[0], name)
    else:
        context.report.tell(NOTE, at.line, f"the algorithm {own} has no body")
        found = Algorithm(name, "ST", "")
    if found.language and can_stand(found.body):
        found.comment, found.line = context.comment(at), at.line
        if bodies and bodies[0].text.strip():
            body = dedent(found.body)
            found.body_line = bodies[0].line + len(body) - len(body.lstrip("\n"))
        elif bodies:
            found.body_line = -bodies[0].line
        return found
    if found.language:
        context.left_to_comments(bodies[0], f"the algorithm {own}: its body can't stand in a text. {_UNKNOWN}")
    context.keep(block, at)
    return None


def _kept(context: Context, at: Element, body: Element, name: str) -> Algorithm:
    """An algorithm in the form that fits its body; without a language if there is none."""
    own = cut(at.get("Name"))
    if body.name == "FBD":
        context.tell_part(body, f"the algorithm {own}: it is a diagram. {_UNKNOWN}")
        return Algorithm(name, "", "")
    if body.name == "LD":
        return Algorithm(name, "LD", _rungs(context, body))
    context.known(body, "Text" if body.name == "ST" else "Text Language Prototype", text=True)
    words = _words(context, body)
    language = context.name(body, body.get("Language") or "OTHER") if body.name == "Other" else "ST"
    if body.get("Prototype"):
        context.left_to_comments(body, f"the prototype {cut(body.get('Prototype'))} of {own}")
        context.keep_attribute(body, "Prototype")
    if language.upper() == "ST":
        return _structured(context, at, body, Algorithm(name, "ST", words))
    for variable in at.named("VarDeclaration"):
        context.part_left_out(variable, f"the variable {cut(variable.get('Name'))} of the algorithm {own}", at)
    return Algorithm(name, language, words)


def _words(context: Context, body: Element) -> str:
    """The words of a body, with line feeds at the ends of lines."""
    said = body.attributes.get("Text", "")
    if said.strip() and body.text.strip():
        context.left_out(body, f"the words {cut(body.text)} in {body.name}")
    words = said if said.strip() else body.text
    return words.replace("\r\n", "\n").replace("\r", "\n")


def _rungs(context: Context, body: Element) -> str:
    context.known(body, "", "Rung")
    lines = []
    for rung in body.named("Rung"):
        context.known(rung, "Output Expression Comment")
        remark = context.comment(rung)
        lines.append(f"{rung.get('Output')} := {rung.get('Expression')};" + (f" {comment(remark)}" if remark else ""))
    return "\n".join(lines)


def _structured(context: Context, at: Element, body: Element, found: Algorithm) -> Algorithm:
    """An algorithm in Structured Text: as statements, or kept unchecked."""
    words = _unwrapped(context, at, found.body)
    variables = [f"  {_variable(context, it)}" for it in at.named("VarDeclaration")]
    statements = as_statements(words)
    broken = "VAR_TEMP" if variables else "its length" if len(statements) > TEXT_LIMIT else broken_statement(statements)
    if not broken and can_stand(statements):
        names.replace_words(words, names.STATEMENT_WORDS, lambda it: context.name(body, it))
        if names.with_points(words) != words:
            context.report.tell_once(NOTE, body.line, f"numbers of the algorithm {cut(at.get('Name'))} with an exponent and no point get one: 1.0e5 for 1e5")
        return Algorithm(found.name, "ST", statements)
    whole = "\n".join(["VAR_TEMP", *variables, "END_VAR", words.strip("\n")]) if variables else words
    if can_stand(whole):
        told = f"the algorithm {cut(at.get('Name'))} is kept IN {FULL}, which is not checked: {cut(broken)} is none of this language"
        context.report.tell(UNCHECKED, body.line, told)
    return Algorithm(found.name, FULL, whole)


def as_statements(body: str) -> str:
    """A body with names and comments as a text has them."""
    return _ASIDE.sub(_as_comment, names.with_points(names.replace_words(body, names.STATEMENT_WORDS, names.spelled)))


def _as_comment(found: re.Match[str]) -> str:
    words = found[0]
    return f"(*{words[2:-2].replace('*)', '* )')}*)" if words.startswith("/*") and words[2:].endswith("*/") else words


def _variable(context: Context, at: Element) -> str:
    """A variable of an algorithm, as the file has it."""
    context.known(at, "Name Type ArraySize InitialValue Comment")
    size, value, remark = at.get("ArraySize"), at.get("InitialValue"), context.comment(at)
    whole = f"{at.get('Name')} : {f'ARRAY [{size}] OF ' if size else ''}{at.get('Type')}{f' := {value}' if value else ''};"
    return f"{whole} {comment(remark)}" if remark else whole


def _unwrapped(context: Context, at: Element, words: str) -> str:
    """A body without the words `ALGORITHM A` and `END_ALGORITHM` around it."""
    name, body = unwrapped(words)
    if name and name.upper() != at.get("Name").upper():
        context.left_out(at, f"that the algorithm {cut(at.get('Name'))} is called {cut(name)} in its body")
    return body


def unwrapped(words: str) -> tuple[str, str]:
    """The name after ALGORITHM at the begin of a body and what is between that and END_ALGORITHM; no name and the whole if these are not there."""
    masked = _ASIDE.sub(lambda it: re.sub(r"[^\n]", " ", it[0]), words)
    begin, end = _BEGIN.match(masked), _END.search(masked)
    if not begin or not end or end.start() < begin.end():
        return "", words
    ends = [0, *begin.span(1), *begin.span(2), *end.span(1), *end.span(2), len(words)]
    return begin[2], "".join(words[first:last] for first, last in zip(ends[::2], ends[1::2]))


def can_stand(body: str) -> bool:
    """Whether a text goes on after a body that it skips. One that no text has room for is not looked at: its unit is refused."""
    return len(body) > TEXT_LIMIT or not any(it.kind == "unclosed" or it.kind == "word" and it.upper == "END_ALGORITHM" for it in pieces(body))
