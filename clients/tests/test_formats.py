"""check's formats for machines, and its words for each code."""
from __future__ import annotations

import json
import re
import unittest
from pathlib import Path
from urllib.parse import unquote
from xml.etree import ElementTree

from support import BREAKS, CLIENTS, InFolder, run, workbench

from bench61499 import Places
from bench61499.cli.findings import Finding, Found
from bench61499.cli.formats import MACHINE_FORMATS
from bench61499.language import codes, plans
from bench61499.language.explain import Explainer
from bench61499.language.units import Unit

TOP = CLIENTS.parent
CODE_ROW = re.compile(r"^\| (\d+) \| `([A-Z_]+)` \| (?!\[)", re.MULTILINE)
PLANT = {
    "a:b,c%.fb": "FUNCTION_BLOCK ONE EVENT_INPUT GO WITH X; END_EVENT END_FUNCTION_BLOCK",
    "inner/two ä.fb": "FUNCTION_BLOCK TWO\n  EC_STATES IDLE; END_STATES\n  EC_TRANSITIONS IDEL TO IDLE := 1; IDLE TO IDLE := 1 END_TRANSITIONS END_FUNCTION_BLOCK",
    "three.fb": "FUNCTION_BLOCK THREE END_FUNCTION_BLOCK",
    "four.fb": "SYSTEM FOUR APPLICATION L FBS X : THREE; END_FBS END_APPLICATION END_SYSTEM",
}


class CodesTest(unittest.TestCase):
    """Each code of docs/LANGUAGE.md is known where codes are shown."""

    def setUp(self) -> None:
        rows = CODE_ROW.findall((TOP / "docs" / "LANGUAGE.md").read_text())
        self.codes = [code for _, code in sorted(rows, key=lambda it: int(it[0]))]
        self.assertEqual([int(number) for number, _ in rows], list(range(1, len(rows) + 1)))

    def test_each_has_its_words(self) -> None:
        explained = {name.removeprefix("_explain_").upper() for name in vars(Explainer) if name.startswith("_explain_")}
        self.assertEqual(explained, set(self.codes))

    def test_each_has_its_sentence_for_rules(self) -> None:
        self.assertEqual(list(codes.CODES), self.codes)
        for words in (*codes.CODES.values(), *plans.CODES.values()):
            self.assertRegex(words, r"^[A-Z].*[^.]\.$")

    def test_the_conveyor_breaks_each(self) -> None:
        self.assertEqual({it["code"] for it in BREAKS}, set(self.codes))


class LimitsTest(InFolder):
    def test_what_no_faults_does_not_say(self) -> None:
        """The examples of docs/LANGUAGE.md for what is not looked for have no faults."""
        part = (TOP / "docs" / "LANGUAGE.md").read_text().split("## What no faults does not say", 1)[1].split("\n## ")[0]
        examples = re.findall(r"\| `(.*)` \|$", part, re.MULTILINE)
        self.assertGreater(len(examples), 5)
        for number, example in enumerate(examples):
            self.write(f"{number}.fb", f"FUNCTION_BLOCK B{number} {example} END_FUNCTION_BLOCK")
        ran = run("check", ".", "--program", workbench(), folder=self.folder)
        self.assertEqual(ran.stdout.splitlines()[-2:], [f"{len(examples)} units, no faults; 1 algorithm is not checked", "1 warning of this client"])
        self.assertEqual(len([it for it in ran.stdout.splitlines() if ": NO_SUCH_TYPE: no type NOWHERE here" in it]), 1)


class FormatsTest(InFolder):
    def setUp(self) -> None:
        super().setUp()
        for name, text in PLANT.items():
            self.write(name, text)

    def check(self, form: str, status: int = 1) -> str:
        ran = run("check", ".", "--plans", "--format", form, "--program", workbench(), folder=self.folder)
        self.assertEqual((ran.returncode, ran.stderr), (status, ""))
        return ran.stdout

    def test_human(self) -> None:
        expected = (
            "a:b,c%.fb:1:40: WITH_UNKNOWN: no data input X to go with this event\n"
            "  FUNCTION_BLOCK ONE EVENT_INPUT GO WITH X; END_EVENT END_FUNCTION_BLOCK\n"
            "                                         ^\n"
            "four.fb:1:31: UNMAPPED: no mapping gives L.X a resource\n"
            "  SYSTEM FOUR APPLICATION L FBS X : THREE; END_FBS END_APPLICATION END_SYSTEM\n"
            "                                ^\n"
            'inner/two ä.fb:3:55: SYNTAX: expected ";" after 1\n'
            "    EC_TRANSITIONS IDEL TO IDLE := 1; IDLE TO IDLE := 1 END_TRANSITIONS END_FUNCTION_BLOCK\n"
            "                                                        ^~~~~~~~~~~~~~~\n"
            "inner/two ä.fb:3:18: STATE_UNKNOWN: no state IDEL in this chart; did you mean IDLE? (not checked by the workbench: correct the SYNTAX fault first)\n"
            "    EC_TRANSITIONS IDEL TO IDLE := 1; IDLE TO IDLE := 1 END_TRANSITIONS END_FUNCTION_BLOCK\n"
            "                   ^~~~\n"
            "2 faults in 2 of 4 units; 1 reason why networks or plans are missing\n"
            "1 note on texts with a SYNTAX fault, not checked by the workbench\n"
            "networks of subapplications: 0 of 0, plans of systems: 0 of 1\n"
        )
        self.assertEqual(self.check("human"), expected)

    def test_json(self) -> None:
        found = json.loads(self.check("json"))
        self.assertEqual(run("check", ".", "--plans", "--json", "--program", workbench(), folder=self.folder).stdout, self.check("json"))
        self.assertEqual({name: [it["code"] for it in found[name]] for name in ("faults", "notes", "reasons")}, {
            "faults": ["WITH_UNKNOWN", "SYNTAX"], "notes": ["STATE_UNKNOWN"], "reasons": ["UNMAPPED"],
        })
        self.assertEqual((found["units"], found["networks"], found["plans"]), (4, {"there": 0, "wanted": 0}, {"there": 0, "wanted": 1}))
        self.assertEqual([it["level"] for name in ("faults", "notes", "reasons") for it in found[name]], ["error", "error", "note", "error"])

    def test_github(self) -> None:
        expected = [
            "::error file=a%3Ab%2Cc%25.fb,line=1,endLine=1,col=40,endColumn=40,title=WITH_UNKNOWN::no data input X to go with this event",
            "::error file=four.fb,line=1,endLine=1,col=31,endColumn=31,title=UNMAPPED::no mapping gives L.X a resource",
            '::error file=inner/two ä.fb,line=3,endLine=3,col=55,endColumn=69,title=SYNTAX::expected ";" after 1',
            "::notice file=inner/two ä.fb,line=3,endLine=3,col=18,endColumn=21,title=STATE_UNKNOWN::no state IDEL in this chart; did you mean IDLE? "
            "(not checked by the workbench: correct the SYNTAX fault first)",
        ]
        self.assertEqual(self.check("github").splitlines(), expected)

    def test_github_escapes(self) -> None:
        unit = Unit("A", Path("a\r\n.fb"), "SYSTEM A")
        finding = Finding(unit, "SYNTAX", 0, 6, "50 % of\r\nthis: a, b", Places(unit.text), (0, 6))
        expected = "::error file=a%0D%0A.fb,line=1,endLine=1,col=1,endColumn=6,title=SYNTAX::50 %25 of%0D%0Athis: a, b"
        self.assertEqual(MACHINE_FORMATS["github"](Found([unit], [finding])), expected)

    def test_nothing_found(self) -> None:
        for name in set(PLANT) - {"three.fb"}:
            (self.folder / name).unlink()
        self.assertEqual(self.check("github", 0), "")
        self.assertEqual(json.loads(self.check("sarif", 0))["runs"][0]["results"], [])
        self.assertEqual(ElementTree.fromstring(self.check("junit", 0)).attrib["failures"], "0")
        self.assertEqual(self.check("human", 0), "1 unit, no faults\nnetworks of subapplications: 0 of 0, plans of systems: 0 of 0\n")

    def test_junit(self) -> None:
        suites = ElementTree.fromstring(self.check("junit"))
        self.assertEqual((suites.tag, [it.tag for it in suites]), ("testsuites", ["testsuite"]))
        self.assertEqual({name: suites[0].attrib[name] for name in ("tests", "failures", "errors", "skipped")}, {"tests": "4", "failures": "3", "errors": "0", "skipped": "0"})
        cases = {it.attrib["name"]: it for it in suites[0]}
        self.assertEqual([it.tag for it in suites[0]], ["testcase"] * 4)
        self.assertEqual(list(cases["THREE"]), [])
        failure = cases["TWO"].find("failure")
        self.assertEqual((cases["TWO"].attrib["file"], failure.attrib), ("inner/two ä.fb", {"message": 'SYNTAX: expected ";" after 1', "type": "SYNTAX"}))
        self.assertEqual([it.split(": ")[1] for it in failure.text.splitlines()], ["SYNTAX", "STATE_UNKNOWN"])

    def test_junit_has_nothing_that_xml_can_not_have(self) -> None:
        unit = Unit("A", Path("a\x07\udcff.fb"), "SYSTEM A")
        made = MACHINE_FORMATS["junit"](Found([unit], [Finding(unit, "SYNTAX", 0, 6, "\x1b <&>", Places(unit.text), (0, 6))]))
        case = ElementTree.fromstring(made.encode())[0][0]
        self.assertEqual((case.attrib["file"], case[0].attrib["message"]), ("a\ufffd\ufffd.fb", "SYNTAX: \ufffd <&>"))

    def test_words_that_exclude_each_other(self) -> None:
        for more in (["--json", "--quiet"], ["--format", "sarif", "--quiet"], ["--format", "xml"]):
            self.assertEqual(run("check", ".", *more, folder=self.folder).returncode, 2, more)


class SarifTest(InFolder):
    """The members that the standard requires, and their types, by sections 3.13 to 3.52 of SARIF 2.1.0."""

    def test_structure(self) -> None:
        for name, text in PLANT.items():
            self.write(name, text)
        log = json.loads(run("check", ".", "--plans", "--format", "sarif", "--program", workbench(), folder=self.folder).stdout)
        self.assertEqual((log["version"], log["$schema"].endswith("/sarif-schema-2.1.0.json"), set(log)), ("2.1.0", True, {"$schema", "version", "runs"}))
        (made,) = log["runs"]
        self.assertEqual((set(made), made["columnKind"]), ({"tool", "columnKind", "results"}, "unicodeCodePoints"))
        rules = made["tool"]["driver"]["rules"]
        self.assertEqual(made["tool"]["driver"]["name"], "bench61499")
        self.assertEqual([it["id"] for it in rules], [*codes.CODES, *plans.CODES])
        for rule in rules:
            self.assertEqual((set(rule), rule["defaultConfiguration"]), ({"id", "shortDescription", "defaultConfiguration"}, {"level": "error"}))
            self.assertIsInstance(rule["shortDescription"]["text"], str)
        self.assertEqual([it["ruleId"] for it in made["results"]], ["WITH_UNKNOWN", "UNMAPPED", "SYNTAX", "STATE_UNKNOWN"])
        self.assertEqual([it["level"] for it in made["results"]], ["error", "error", "error", "note"])
        for result in made["results"]:
            self.check_result(result, rules)

    def check_result(self, result: dict, rules: list[dict]) -> None:
        self.assertEqual(set(result), {"ruleId", "ruleIndex", "level", "message", "locations"})
        self.assertEqual(rules[result["ruleIndex"]]["id"], result["ruleId"])
        self.assertTrue(result["message"]["text"])
        (location,) = result["locations"]
        where = location["physicalLocation"]
        self.assertEqual(set(where), {"artifactLocation", "region"})
        uri = where["artifactLocation"]["uri"]
        self.assertRegex(uri, r"^[A-Za-z0-9._~/%-]+$")
        self.assertIn(unquote(uri), PLANT)
        region = where["region"]
        self.assertEqual(set(region), {"startLine", "startColumn", "endLine", "endColumn"})
        self.assertTrue(all(isinstance(it, int) and it >= 1 for it in region.values()))
        self.assertLess((region["startLine"], region["startColumn"]), (region["endLine"], region["endColumn"]))

    def test_absolute_names_of_files(self) -> None:
        file = self.write("a b.fb", "SYSTEM A")
        log = json.loads(run("check", file, "--format", "sarif", "--program", workbench()).stdout)
        uri = log["runs"][0]["results"][0]["locations"][0]["physicalLocation"]["artifactLocation"]["uri"]
        self.assertEqual(uri, file.as_uri())


if __name__ == "__main__":
    unittest.main()
