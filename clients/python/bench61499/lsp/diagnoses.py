"""What an editor shows of a unit: its faults, or why they are not known."""
from __future__ import annotations

from collections import defaultdict
from collections.abc import Iterable, Mapping
from itertools import accumulate

from bench61499 import Commit, Fault, Places
from bench61499.language.explain import Explainer, Names
from bench61499.language.fitting import fits
from bench61499.language.merging import conflict_lines
from bench61499.language.positions import range_of
from bench61499.language.full_checks import Doubtful
from bench61499.language.skipped import CODE, skipped
from bench61499.language.texts import Texts
from bench61499.language.warned import whose as whose_warning
from bench61499.language.wording import listed
from bench61499.lsp.documents import Diagnostic
from bench61499.lsp.rpc import ERROR, INFO, WARNING
from bench61499.lsp.commits import Unit

WORKBENCH, CLIENT = "bench61499", "bench61499 client"
"""Whose a diagnostic is: the workbench's, or a warning of this client alone."""
MOST_NAMED = 3
"""Units that one message names."""
_SIZES = (86_400, "d"), (3_600, "h"), (60, "min")


def diagnostic(places: Places, start: int, end: int, message: str, code: str | None = None, severity: int = ERROR, source: str = WORKBENCH) -> Diagnostic:
    shown = {"range": range_of(places, start, end), "severity": severity, "source": source}
    return {**shown, **({"code": code} if code else {}), "message": message}


def remark(text: str, words: str) -> Diagnostic:
    """Words at the first line that are no fault."""
    places = Places(text)
    return diagnostic(places, 0, len(text.split("\n", 1)[0].rstrip("\r").encode()), words, severity=INFO)


def explained(text: str, faults: tuple[Fault, ...], names: Names, texts: Texts) -> list[Diagnostic]:
    """The faults of a text in the words of an engineer, and the algorithms in it that are not checked."""
    return [*_faults(text, faults, names, texts), *_skipped(text)]


def warnings(text: str, its: Iterable[Doubtful]) -> list[Diagnostic]:
    """What this client warns of."""
    places = Places(text)
    return [diagnostic(places, it.start, it.end, f"{it.explanation} {whose_warning(it.code)}", it.code, WARNING, CLIENT) for it in its]


def _skipped(text: str) -> list[Diagnostic]:
    its = skipped(text)
    places = Places(text) if its else None
    return [diagnostic(places, it.words[0].start, it.words[-1].end, it.explanation, CODE, INFO) for it in its if places]


def _faults(text: str, faults: tuple[Fault, ...], names: Names, texts: Texts) -> list[Diagnostic]:
    if not faults:
        return []
    explainer, places = Explainer(text, names, texts), Places(text)
    return [diagnostic(places, *explainer.span(it), explainer.explain(it), it.code) for it in faults]


def marked(shown: list[Diagnostic], words: str) -> list[Diagnostic]:
    """Faults that may be none any more, with words that say so."""
    return [{**it, "severity": WARNING, "message": f"{it['message']} ({words})"} for it in shown]


def of_others(text: str, faults: tuple[Fault, ...], names: Names, texts: Texts) -> list[Diagnostic]:
    """The faults of what somebody else has put, if they can be those of this text."""
    return marked(_faults(text, faults, names, texts), "in the workbench's text") if fits(text, faults) else []


def whose(unit: str, it: Unit, text: str, faults: tuple[Fault, ...]) -> str:
    """Why this text of a unit is not checked, or perhaps not: the workbench gives no text back, so what somebody else has put may be the same.

    `faults` are those that the workbench has found, as far as they are known.
    """
    put, over = f"from another session, at revision {it.revision}", "edit or save to put this text over it"
    if it.revision and fits(text, faults):
        return f"perhaps not checked: the workbench has {unit} {put}; {over}"
    if it.revision:
        return f"not checked: the workbench has another text of {unit}, {put}, with {len(faults):,} fault{'' if len(faults) == 1 else 's'}; {over}"
    if it.is_changed:
        return f"not checked: another session has removed {unit} from the workbench; edit or save to put it back"
    return f"not checked: {unit} is not in the workbench"


def taken(reasons: dict[str, str]) -> str:
    """The message that others have put or removed these units; `reasons` are the words of `whose`."""
    if len(reasons) == 1:
        return "".join(f"{unit} is {why}." for unit, why in reasons.items())
    why = "not checked, or perhaps not, as another session has put or removed them"
    return f"{len(reasons):,} open units are {why}: {named(reasons)}; edit or save one to put its text."


def named(units: Iterable[str]) -> str:
    """Some units by name, and how many more there are."""
    its = sorted(units)
    more = len(its) - MOST_NAMED
    return listed([*its[:MOST_NAMED], *([f"{more:,} more"] if more > 0 else [])], "and")


def changed(unit: str, it: Unit, now: float, caller: int) -> str:
    """Who has changed a unit, and when, as far as that is known; `caller` is the number of this editor's session, which somebody else may have had before."""
    author = it.author
    if not author:
        return _unsure(unit, it)
    what, who = "changed" if it.revision else "removed", f"session {author.session}" if author.session else "others"
    commit = f" (commit {author.commit})" if author.commit else ""
    age = f" {_age(now - author.heard)} ago" if author.heard is not None else ""
    told = f"{unit} was {what} by {'an earlier ' * (caller == author.session > 0)}{who}{commit}{age}"
    return f"{told}; you are session {caller}" if caller and author.session else told


def _unsure(unit: str, it: Unit) -> str:
    """How a unit differs, if it is not known who has changed it."""
    if not it.revision:
        return f"{unit} was changed by others before the host was started again, and is not there yet: they have the later text"
    why = "which this editor had before: somebody may have gone back to it" if it.is_former else "and it is not known which is newer"
    return f"{unit} differs from the team's text (commit {it.revision}), {why}"


def returned(its: Mapping[str, tuple[Commit, Commit]], caller: int) -> list[str]:
    """Messages that units are there again that somebody had removed, each after both commits; one for all units of the same two."""
    units = defaultdict(list)
    for unit, commits in its.items():
        units[commits].append(unit)
    return [_returned(names, *commits, caller) for commits, names in units.items()]


def _returned(units: list[str], removal: Commit, put: Commit, caller: int) -> str:
    are, them = ("is", "it") if len(units) == 1 else ("are", "them")
    who, other = ("this editor" if it.caller == caller else f"session {it.caller}" for it in (put, removal))
    return f"{named(units)} {are} in the workbench again: {who} has put {them} (commit {put.number}), after {other} had removed {them} (commit {removal.number})."


def _age(seconds: float) -> str:
    """A time in the largest unit of which there is one."""
    whole, name = next(((seconds // size, name) for size, name in _SIZES if seconds >= size), (seconds, "s"))
    return f"{int(whole)} {name}"


def conflicts(text: str) -> list[Diagnostic]:
    """What is shown of a text with marked lines of a merge."""
    words = "both you and others have changed these lines: the text is not put while it has marked ones"
    lines, places = text.split("\n"), Places(text)
    starts = [0, *accumulate(len(line.encode()) + 1 for line in lines)]
    spans = [(starts[number - 1], len(lines[number - 1].rstrip().encode())) for number in conflict_lines(text)]
    return [diagnostic(places, start, start + size, words, severity=WARNING) for start, size in spans]
