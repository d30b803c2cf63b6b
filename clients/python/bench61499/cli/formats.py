"""The forms in which check tells what it has found: lines for people, JSON, commands of GitHub's workflows, SARIF 2.1.0 and JUnit's XML."""
from __future__ import annotations

import json
import os
import re
import sys
from collections.abc import Callable, Iterator
from pathlib import Path
from urllib.parse import quote
from xml.etree import ElementTree

from bench61499 import Flat, Plan, There
from bench61499.cli.comparing import Difference, How, Judged
from bench61499.cli.findings import Answers, Finding, Found
from bench61499.cli.show import excerpt
from bench61499.cli.version import VERSION
from bench61499.language import codes, plans, warned
from bench61499.language.names import shown
from bench61499.language.skipped import CODE
from bench61499.language.spelling import CODE as SPELLING
from bench61499.language.units import Unit
from bench61499.language.wording import counted

NOT_CHECKED = "(not checked by the workbench: correct the SYNTAX fault first)"
_NOT_IN_XML = re.compile("[^\t\n\r\x20-\ud7ff\ue000-\ufffd\U00010000-\U0010ffff]")
_SCHEMA = "https://docs.oasis-open.org/sarif/sarif/v2.1.0/errata01/os/schemas/sarif-schema-2.1.0.json"
_GITHUB_LEVELS = {"error": "error", "warning": "warning", "note": "notice"}
_THERE = {How.ONLY_HERE: "is only here", How.DIFFERS: "has another text in the workbench", How.NOT_COMPARED: "may have another text in the workbench, which gives none back"}
Json = dict[str, object]


def told(it: Finding) -> str:
    """The words for a finding; a note says that it is one."""
    if it.level == "warning":
        return f"{it.explanation} {warned.whose(it.code)}"
    return it.explanation if it.level == "error" or it.code in (CODE, SPELLING) else f"{it.explanation} {NOT_CHECKED}"


def _not_checked(it: Difference) -> str:
    return f"not checked: {it.unit} {_THERE.get(it.how, it.how)}"


# Lines


class Style:
    """Colours on a terminal, nothing elsewhere."""

    def __init__(self) -> None:
        coloured = sys.stdout.isatty() and not os.environ.get("NO_COLOR") and os.environ.get("TERM") != "dumb"
        self.bold, self.red, self.green, self.end = ("\033[1m", "\033[1;31m", "\033[32m", "\033[0m") if coloured else ("",) * 4


def lines(found: Found, quiet: bool, with_skipped: bool = False) -> Iterator[str]:
    style = Style()
    for it in found.all_and_skipped() if with_skipped else found.all():
        line, column = it.begin
        yield f"{style.bold}{shown(it.unit.file)}:{line}:{column}:{style.end} {style.red}{it.code}{style.end}: {shown(told(it))}"
        if not quiet:
            source, carets = excerpt(it.places, *it.shown)
            yield f"  {source}".rstrip()
            yield f"  {style.green}{carets}{style.end}"


def summary(found: Found) -> Iterator[str]:
    units = counted(len(found.units) - len(found.unchecked), "unit")
    faulty = len({it.unit.name for it in found.faults})
    missing = f"; {counted(len(found.reasons), 'reason')} why networks or plans are missing" if found.reasons else ""
    kinds = ((len(found.skipped) - found.guards, "algorithm"), (found.guards, "guard"))
    skipped = " and ".join(counted(number, kind) for number, kind in kinds if number)
    unread = f"; {skipped} {'is' if len(found.skipped) == 1 else 'are'} not checked" if skipped else ""
    yield (f"{counted(len(found.faults), 'fault')} in {faulty:,} of {units}" if found.faults else f"{units}, no faults") + unread + missing
    if found.unchecked:
        yield f"{counted(len(found.unchecked), 'unit')} not checked"
    spellings = sum(it.code == SPELLING for it in found.notes)
    if found.notes[spellings:]:
        yield f"{counted(len(found.notes) - spellings, 'note')} on texts with a SYNTAX fault, not checked by the workbench"
    if spellings:
        yield f"{counted(spellings, 'name')} spelled in other capitals than declared"
    if found.warnings:
        yield f"{counted(len(found.warnings), 'warning')} of this client"
    if found.answers:
        yield f"networks of subapplications: {_there(found.answers, 'networks')}, plans of systems: {_there(found.answers, 'plans')}"


def _there(answers: Answers, what: str) -> str:
    return "{there:,} of {wanted:,}".format_map(_counts(answers)[what])


def _counts(answers: Answers) -> dict[str, dict[str, int]]:
    """How many networks and plans there are, and how many there should be."""
    nets, deploys = answers.nets.values(), answers.deploys.values()
    return {
        "networks": {"there": sum(isinstance(it, Flat | There) for it in nets), "wanted": len(nets)},
        "plans": {"there": sum(isinstance(it, Plan | There) for it in deploys), "wanted": len(deploys)},
    }


# JSON


def as_json(found: Found) -> str:
    """In ASCII: a name of a file that is no UTF-8 can be told in no other way."""
    value: Json = {"units": len(found.units), "faults": [_entry(it) for it in found.faults], "notes": [_entry(it) for it in found.notes]}
    value |= {"judged": found.judged, "unchecked": found.unchecked, "differences": [_difference(it) for it in found.differences]}
    value["warnings"] = [_entry(it) for it in found.warnings]
    value["algorithms"] = [_entry(it) for it in found.skipped]
    if found.answers:
        value["reasons"] = [_entry(it) for it in found.reasons]
        value.update(_counts(found.answers))
    if found.failed:
        value["failed"] = found.failed
    return json.dumps(value, indent=2)


def _difference(it: Difference) -> Json:
    return {"unit": it.unit, "file": str(it.file) if it.file else None, "difference": it.how}


def _entry(it: Finding) -> Json:
    (line, column), (end_line, end_column) = it.begin, it.behind
    return {
        "file": str(it.unit.file),
        "line": line,
        "column": column,
        "end_line": end_line,
        "end_column": end_column,
        "unit": it.unit.name,
        "code": it.code,
        "level": it.level,
        "explanation": it.explanation,
        "start": it.start,
        "end": it.end,
    }


# GitHub


def as_github(found: Found) -> str:
    """One command a line, which GitHub shows beside the line of the file."""
    remarks = [f"::warning file={_escaped(str(it.file), ':,')},title=NOT_CHECKED::{_not_checked(it)}" for it in found.differences if it.file]
    if found.lending:
        remarks.append(f"::warning title=JUDGED::{_escaped(found.lending)}")
    elif found.judged != Judged.FILES:
        remarks.append(f"::notice title=JUDGED::the texts of the {found.judged}")
    if found.failed:
        remarks.append(f"::error title=FAILED::{_escaped(found.failed)}")
    return "\n".join([*map(_command, found.all_and_skipped()), *remarks])


def _command(it: Finding) -> str:
    (line, column), (end_line, end_column) = it.begin, it.behind
    if end_line == line:
        end_column = max(column, end_column - 1)  # The last column, which belongs to the span here.
    places = {"file": str(it.unit.file), "line": line, "endLine": end_line, "col": column, "endColumn": end_column, "title": it.code}
    properties = ",".join(f"{name}={_escaped(str(value), ':,')}" for name, value in places.items())
    return f"::{_GITHUB_LEVELS[it.level]} {properties}::{_escaped(told(it))}"


def _escaped(words: str, more: str = "") -> str:
    return "".join(f"%{ord(it):02X}" if it in "%\r\n" + more else shown(it) for it in words)


# SARIF


def as_sarif(found: Found) -> str:
    own = {CODE: "an algorithm in a language that the workbench does not read"} if found.skipped else {}
    own |= {SPELLING: "a name is spelled in other capitals than its declaration"} if any(it.code == SPELLING for it in found.notes) else {}
    own |= {code: warned.CODES[code] for code in sorted({it.code for it in found.warnings})}
    rules = {**codes.CODES, **plans.CODES, **own}
    places = {code: at for at, code in enumerate(rules)}
    driver = {
        "name": "bench61499",
        "semanticVersion": VERSION,
        "rules": [{"id": code, "shortDescription": {"text": words}, "defaultConfiguration": {"level": _level(code)}} for code, words in rules.items()],
    }
    run = {
        "tool": {"driver": driver},
        "columnKind": "unicodeCodePoints",
        "results": [_result(it, places) for it in found.all_and_skipped()],
        **({} if found.judged == Judged.FILES and not found.failed else {"invocations": [_invocation(found)], "properties": {"judged": found.judged}}),
    }
    return json.dumps({"$schema": _SCHEMA, "version": "2.1.0", "runs": [run]}, indent=2)


def _level(code: str) -> str:
    return "note" if code in (CODE, SPELLING) else "warning" if code in warned.CODES else "error"


def _result(it: Finding, rules: dict[str, int]) -> Json:
    (line, column), (end_line, end_column) = it.begin, it.behind
    region = {"startLine": line, "startColumn": column, "endLine": end_line, "endColumn": end_column}
    where = {"artifactLocation": {"uri": _uri(it.unit.file)}, "region": region}
    rule = {"ruleIndex": rules[it.code]} if it.code in rules else {}
    return {"ruleId": it.code, **rule, "level": it.level, "message": {"text": told(it)}, "locations": [{"physicalLocation": where}]}


def _invocation(found: Found) -> Json:
    """Whether all was checked, and what was not."""
    notifications: list[Json] = [
        {"level": "error", "message": {"text": _not_checked(it)}, "locations": [{"physicalLocation": {"artifactLocation": {"uri": _uri(it.file)}}}]}
        for it in found.differences
        if it.file
    ]
    notifications += [{"level": "error", "message": {"text": found.failed}}] if found.failed else []
    warned_of: list[Json] = [{"level": "warning", "message": {"text": found.lending}}] if found.lending else []
    return {"executionSuccessful": not notifications, "toolExecutionNotifications": [*notifications, *warned_of]}


def _uri(file: Path) -> str:
    return file.as_uri() if file.is_absolute() else quote(os.fsencode(file.as_posix()))


# JUnit


def as_junit(found: Found) -> str:
    """One test case a unit, which fails with all that was found in it."""
    findings: dict[str, list[Finding]] = {unit.name: [] for unit in found.units}
    for it in (each for each in found.all() if each.level != "warning" and each.code != SPELLING):
        findings[it.unit.name].append(it)
    skipped = {it.unit: it for it in found.differences if it.file and not findings[it.unit]}
    errors = int(bool(found.failed))
    counts = {"tests": len(findings) + errors, "failures": sum(map(bool, findings.values())), "errors": errors, "skipped": len(skipped)}
    attributes = {name: str(count) for name, count in counts.items()}
    top = ElementTree.Element("testsuites", {"name": "bench61499", **attributes})
    suite = ElementTree.SubElement(top, "testsuite", {"name": "units", **attributes})
    if found.judged != Judged.FILES:
        properties = ElementTree.SubElement(suite, "properties")
        ElementTree.SubElement(properties, "property", name="judged", value=found.judged)
        for other in found.lent:
            ElementTree.SubElement(properties, "property", name="rests on", value=other)
    for unit in found.units:
        case = _test_case(suite, unit, findings[unit.name])
        if unit.name in skipped:
            ElementTree.SubElement(case, "skipped", message=_not_checked(skipped[unit.name]))
    if found.failed:
        ElementTree.SubElement(ElementTree.SubElement(suite, "testcase", classname="plans", name="networks and plans"), "error", message=_in_xml(found.failed))
    for it, case in ((it, case) for case in suite for it in (*found.warnings, *(note for note in found.notes if note.code == SPELLING), *found.skipped) if it.unit.name == case.get("name")):
        _remark(case, it)
    ElementTree.indent(top)
    return f'<?xml version="1.0" encoding="UTF-8"?>\n{ElementTree.tostring(top, encoding="unicode")}'


def _test_case(suite: ElementTree.Element, unit: Unit, findings: list[Finding]) -> ElementTree.Element:
    file = _in_xml(str(unit.file))
    case = ElementTree.SubElement(suite, "testcase", classname=file, name=unit.name, file=file)
    if findings:
        errors = [it for it in findings if it.level == "error"]
        message = _in_xml(f"{errors[0].code}: {errors[0].explanation}" if len(errors) == 1 else f"{len(errors):,} faults")
        failure = ElementTree.SubElement(case, "failure", message=message, type=errors[0].code)
        failure.text = _in_xml("\n".join(f"{shown(unit.file)}:{it.begin[0]}:{it.begin[1]}: {it.code}: {told(it)}" for it in findings))
    return case


def _remark(case: ElementTree.Element, it: Finding) -> None:
    """Notes something in a test case, which does not fail by it."""
    out = case.find("system-out")
    out = ElementTree.SubElement(case, "system-out") if out is None else out
    out.text = f"{out.text or ''}{_in_xml(f'{shown(it.unit.file)}:{it.begin[0]}:{it.begin[1]}: {it.code}: {told(it)}')}\n"


def _in_xml(words: str) -> str:
    """Words without what no XML can have."""
    return _NOT_IN_XML.sub("\ufffd", words)


MACHINE_FORMATS: dict[str, Callable[[Found], str]] = {"json": as_json, "github": as_github, "sarif": as_sarif, "junit": as_junit}
