"""Algorithms IN ST_FULL: the workbench skips them, and the clients' own reader finds names in them. A right program has no warning."""
from __future__ import annotations

import json
import unittest
from pathlib import Path
from typing import Any

from editing import LspTest
from exchanging import ExchangeTest, at, imported
from support import CLIENTS, InFolder, run, workbench

from bench61499.language.full_body import Body, read_body
from bench61499.language.full_checks import OF_CLIENT, doubtful
from bench61499.language.full_library import is_function
from bench61499.language.positions import edited
from bench61499.language.reader import read
from bench61499.language.texts import Texts

BLOCK = """\
FUNCTION_BLOCK B
  EVENT_INPUT REQ; END_EVENT
  EVENT_OUTPUT CNF; END_EVENT
  VAR_INPUT X : REAL; N : INT; S : Sensor; A : ARRAY [0..3] OF Sensor; W : WORD; Limit : REAL; END_VAR
  VAR_OUTPUT OUT : REAL; END_VAR
  VAR T1 : TIMER; T2 : TON; G : BOOL; FULL : REAL; END_VAR
  PLUGS D : Drive; END_PLUGS
  EC_STATES START; END_STATES
  ALGORITHM Q IN ST_FULL
%s
  END_ALGORITHM
END_FUNCTION_BLOCK
(* Constant: name="FULL" *)
"""
TEXTS = {
    "SENSOR": "TYPE Sensor : STRUCT\n  Value : REAL;\n  Valid : BOOL;\nEND_STRUCT; END_TYPE\n",
    "TIMER": "FUNCTION_BLOCK TIMER\n  EVENT_INPUT REQ WITH IN, PT; END_EVENT\n  VAR_INPUT IN : BOOL; PT : TIME; END_VAR\n  VAR_OUTPUT Q : BOOL; ET : TIME; END_VAR\nEND_FUNCTION_BLOCK\n",
    "DRIVE": "ADAPTER Drive\n  EVENT_INPUT TRIPPED WITH Tripped; END_EVENT\n  EVENT_OUTPUT RUN; END_EVENT\n  VAR_INPUT Tripped : BOOL; END_VAR\n  VAR_OUTPUT Speed : REAL; END_VAR\nEND_ADAPTER\n",
}
RIGHT = """\
OUT := LIMIT(0.0, X / 10.0, 5.0); OUT := Limit(MN := 0.0, IN := Limit, MX := 1.0);
OUT := A[1].Value + A[N].Value * -S.Value; G := S.Valid AND NOT A[N + 1].Valid;
T1(IN := G, PT := T#1s, Q => G); G := T1.Q; T1.REQ(IN := G); T2(IN := G, PT := T#2m_3.5s); G := T2.Q OR T1.ET > T#5s; t1.Reset(); G := T1.Method(3).x;
VAR_TEMP i : INT; s : Sensor; END_VAR FOR i := 0 TO 3 BY 2 DO OUT := OUT + A[i].Value; s := A[i]; END_FOR; s.Value := 1;
VAR CONSTANT K : INT := 3; END_VAR VAR k2, k3 : ARRAY [0..2, 1..3] OF INT := [1, 2(3), 4]; s : Sensor := (Value := 1.0, Valid := TRUE); END_VAR N := K; k2[1, 2] := k3[0, 1]; s.Value := 2.0;
G := W.%X3; W.%X3 := TRUE; G := W.3; G := N.%X1; W.%B1 := BYTE#16#FF; G := W.X3;
CASE N OF 1, 2: OUT := 1.0; 3..5: OUT := 2.0; -1: ; ELSE OUT := X; END_CASE
CASE N OF RED: OUT := 1.0; COLOR#BLUE, GREEN: ; my::pkg::BLACK: N := 1; END_CASE; N := COLOR#RED;
VAR_TEMP c : COLOR; END_VAR c := RED; c := COLOR#BLUE; IF c = GREEN THEN ; END_IF; (* Elsewhere: type="COLOR" *)
REPEAT N := N - 1; UNTIL N = 0 END_REPEAT; WHILE N < 10 DO N := N + 1; CONTINUE; END_WHILE; IF N > 1 THEN RETURN; ELSIF G THEN EXIT; ELSE ; END_IF
D.Speed := 1.0; G := D.Tripped; d.speed := D.SPEED;
/* it's (x) */ OUT := X; // foo(
(* bar( *) {pragma foo} OUT := 1e5 + 1.0E-3; N := 2#1010 MOD INT#-5; G := TOD#12:30:00.5 > TIME_OF_DAY#1:2:3; OUT := REAL#1.0E-5;
THIS.OUT := foo::BAR; plant::Fun(X); THIS.Foo(A := X).b := 3; G := REF(THIS) = NULL; N := my::pkg::COLOR#RED; Q();
N := TIME_TO_INT(T#5s); OUT := TO_REAL(N); OUT := TRUNC(X) + MAX_REAL(X, 1.0) + ABS(X) + SEL(G, X, X); N := WORD_BCD_TO_UINT(W); N := AND(N, 1) OR XOR(N, 2);
OUT := REF(X)^; N := REAL_TRUNC_INT(X) ** 2; G := (N = 1) AND_THEN G OR_ELSE X <> 1.0 & G;
S.Value := X; A[N].Value := A[TO_INT(X)].Value;
OUT := NOW() + LEN('a$'b"c'); OUT := "w$"x";
Sensor := 1
OUT := ;
IF G THEN NOSUCH := 1.0 END_IF
"""
"""A right algorithm in each line, or one that the reader can't read, of which it says nothing."""
WRONG = {
    "OUT := X + NOSUCH / 10.0;": "NO_SUCH_VARIABLE NOSUCH: no variable NOSUCH here",
    "OUT := Lmit;": "NO_SUCH_VARIABLE Lmit: no variable Lmit here; did you mean Limit?",
    "NOSUCH[1].X := 3;": "NO_SUCH_VARIABLE NOSUCH: no variable NOSUCH here",
    "OUT := REQ;": "NO_SUCH_VARIABLE REQ: REQ is an event input and no variable",
    "OUT := LIMT(1, 2, 3);": "NO_SUCH_FUNCTION LIMT: IEC 61131-3 has no function LIMT, and none is known here; did you mean LIMIT?",
    "N := REAL_TO_INNT(X);": "NO_SUCH_FUNCTION REAL_TO_INNT: IEC 61131-3 has no function REAL_TO_INNT, and none is known here; did you mean REAL_TO_INT?",
    "OUT := G(X);": "NO_SUCH_FUNCTION G: IEC 61131-3 has no function G, and none is known here",
    "REQ := TRUE;": "NOT_ASSIGNABLE REQ: REQ is an event input and no variable: nothing can be assigned to it",
    "T1(Q => CNF);": "NOT_ASSIGNABLE CNF: CNF is an event output and no variable: nothing can be assigned to it",
    "D := 1;": "NOT_ASSIGNABLE D: D is a plug and no variable: nothing can be assigned to it",
    "FULL := 1.0;": "NOT_ASSIGNABLE FULL: FULL is a constant: nothing can be assigned to it",
    "VAR CONSTANT K : INT := 3; END_VAR FOR K := 1 TO 2 DO ; END_FOR": "NOT_ASSIGNABLE K: K is a constant: nothing can be assigned to it",
    "OUT := S.Valu;": "NO_SUCH_MEMBER Valu: Sensor has no Valu; did you mean Value?",
    "A[N].Foo := 1;": "NO_SUCH_MEMBER Foo: Sensor has no Foo",
    "T1(PTT := T#1s);": "NO_SUCH_MEMBER PTT: TIMER has no PTT; did you mean PT?",
    "G := T1.QQ;": "NO_SUCH_MEMBER QQ: TIMER has no QQ; did you mean Q?",
    "T2(IN := G); G := T2.ETT;": "NO_SUCH_MEMBER ETT: TON has no ETT; did you mean ET?",
    "D.RUN := TRUE;": "NO_SUCH_MEMBER RUN: RUN is an event output of Drive and no variable",
    "OUT := X.Y;": "NO_SUCH_MEMBER Y: X is of the type REAL, which has no members",
    "VAR_TEMP s : Sensor; END_VAR s.Vlue := 1;": "NO_SUCH_MEMBER Vlue: Sensor has no Vlue; did you mean Value?",
    "VAR_TEMP r : REEL; END_VAR r := 1;": "NO_SUCH_TYPE REEL: no type REEL here; did you mean REAL?",
}


def body_of(words: str) -> Body:
    return read_body("A", words.encode(), 0, len(words.encode()), True)


def told(words: str, **more: str) -> list[str]:
    """What is found in an algorithm of the block; `more` are texts of other units."""
    text = BLOCK % words
    texts = Texts.of({**TEXTS, "B": text, **more})
    unit = texts.unit("B")
    assert unit
    return [f"{it.code} {text.encode()[it.start:it.end].decode()}: {it.explanation}" for it in doubtful(text, unit, texts, lambda _: False)]


class ReaderTest(unittest.TestCase):
    def test_right_programs_have_no_warning(self) -> None:
        for line in RIGHT.splitlines():
            self.assertEqual(told(line), [], line)

    def test_what_is_wrong_is_told_with_what_was_meant(self) -> None:
        for words, expected in WRONG.items():
            self.assertEqual(told(words), [expected], words)

    def test_right_programs_are_read(self) -> None:
        """All but the last three lines."""
        read_ones = [body_of(line).is_read for line in RIGHT.splitlines()]
        self.assertEqual(read_ones, [True] * (len(read_ones) - 3) + [False] * 3)

    def test_other_grammars_are_not_read(self) -> None:
        for words in ("X", "X := ", "X = 1;", "IF X THEN Y := 1;", "F(X) := 1;", "X := 1; END_IF", "1 := X;", "X := (1;", "X := Y Z;", "CASE X OF Y := 1; END_CASE",
                      "FOR 1 := 1 TO 2 DO END_FOR", "X := 'a;", "(* X := 1;", "VAR X : INT END_VAR", "VAR : INT; END_VAR", "X ?= 1;", "AND := 1;", "X := " + 70 * "(" + "1" + 70 * ")" + ";"):
            self.assertFalse(body_of(words).is_read, words)

    def test_values_of_enumerations_are_names_where_a_type_is_unknown(self) -> None:
        self.assertEqual(told("N := RED;"), ["NO_SUCH_VARIABLE RED: no variable RED here"])
        mode = TEXTS["SENSOR"].replace("Valid : BOOL", "Valid : BOOL; Mode : SENSORMODE")
        self.assertEqual(told("S.Mode := AUTO; RED := 1;", SENSOR=mode), ["NO_SUCH_VARIABLE RED: no variable RED here"])

    def test_what_a_project_has_is_known(self) -> None:
        """By the comments of import: functions, constants and values, what a unit imports, methods that are kept, and whole packages."""
        wrong = "OUT := Clamp(X) + MOST;"
        self.assertEqual(len(told(wrong)), 2)
        for record in ('(* Elsewhere: name="CLAMP" *) (* Elsewhere: name="MOST" *)', '(* Import: declaration="a::b::Clamp" *)(* Import: declaration="a::MOST" *)',
                       '(* Import: declaration="a::b::*" *)', '(* Kept BasicFB:\n<BasicFB>\n  <Method Name="Clamp"/><X Name="MOST"/>\n</BasicFB> *)'):
            self.assertEqual(told(f"{wrong} {record}"), [], record)

    def test_a_broken_type_says_nothing(self) -> None:
        text = BLOCK % "OUT := S.Valu + NOSUCH.X; T1.QQ := 1;"
        texts = Texts.of({**TEXTS, "B": text})
        unit = texts.unit("B")
        self.assertEqual([it.code for it in doubtful(text, unit, texts, {"SENSOR", "TIMER"}.__contains__)], ["NO_SUCH_VARIABLE"])
        self.assertEqual(doubtful(text, unit, texts, {"B"}.__contains__), [])

    def test_a_broken_type_on_the_way_says_nothing(self) -> None:
        text = "FUNCTION_BLOCK B SOCKETS F : T; END_SOCKETS VAR V : INT; W : S; END_VAR ALGORITHM Q IN ST_FULL V := F.X.N + W.X.N; END_ALGORITHM END_FUNCTION_BLOCK"
        types = {"T": "ADAPTER T VAR_INPUT X : R; END_VAR END_ADAPTER", "S": "TYPE S : STRUCT X : R; END_STRUCT END_TYPE", "R": "TYPE R : STRUCT M : INT; END_STRUCT END_TYPE"}
        texts = Texts.of({"B": text, **types})
        for broken, count in (("", 2), ("T", 1), ("S", 1), ("R", 0)):
            self.assertEqual(len(doubtful(text, texts.unit("B"), texts, broken.__eq__)), count, broken)

    def test_a_unit_of_which_no_text_is_known(self) -> None:
        """As in a workbench of a team."""
        text = BLOCK % "VAR_TEMP r : RECIPE; END_VAR r.X := 1; N := RED;"
        texts = Texts.of({**TEXTS, "B": text})
        self.assertEqual(doubtful(text, texts.unit("B"), texts, lambda _: False, {"RECIPE"}), [])

    def test_names_that_are_others_in_a_text(self) -> None:
        """A body is as a file has it: `Type` for the variable `Type_`, and names of other alphabets."""
        sensor = TEXTS["SENSOR"].replace("Value", "Type_")
        self.assertEqual(told("S.Type := 1; S.Typ := 1;", SENSOR=sensor), ["NO_SUCH_MEMBER Typ: Sensor has no Typ; did you mean Type_?"])
        self.assertEqual(told("VAR_TEMP Höhe : REAL; END_VAR Höhe := X; OUT := hÖHE;"), ["NO_SUCH_VARIABLE hÖHE: no variable hÖHE here; did you mean Höhe?"])

    def test_functions(self) -> None:
        for name in ("LIMIT", "INT_TO_REAL", "TO_STRING", "MAX_DINT", "REAL_TRUNC_INT", "TRUNC_INT", "WORD_BCD_TO_UINT", "TIME_IN_MS_TO_LINT", "CONCAT_DATE_TOD", "LTIME_TO_TIME"):
            self.assertTrue(is_function(name), name)
        for name in ("LIMT", "INT_TO_REEL", "COLOR_TO_INT", "TO_", "MAX_FOO", "X"):
            self.assertFalse(is_function(name), name)

    def test_places_behind_letters_of_more_bytes(self) -> None:
        text = BLOCK % "(* höher *) OUT := 'ä' ; OUT := NOSUCH;"
        unit = read(text)
        self.assertEqual([text.encode()[it.start : it.end].decode() for it in unit.uses if it.key.name in ("OUT", "NOSUCH")], ["OUT", "OUT", "NOSUCH"])


class CheckTest(InFolder):
    def setUp(self) -> None:
        super().setUp()
        for name, text in {**TEXTS, "B": BLOCK % "OUT := NOSUCH.X + LIMT(X);"}.items():
            self.write(f"{name}.fb", text)

    def check(self, *words: str, status: int = 0) -> str:
        ran = run("check", ".", *words, "--program", workbench(), folder=self.folder)
        self.assertEqual((ran.returncode, ran.stderr), (status, ""))
        return ran.stdout

    def test_they_are_warnings_of_the_client(self) -> None:
        expected = [
            f"B.fb:10:8: NO_SUCH_VARIABLE: no variable NOSUCH here {OF_CLIENT}",
            f"B.fb:10:19: NO_SUCH_FUNCTION: IEC 61131-3 has no function LIMT, and none is known here; did you mean LIMIT? {OF_CLIENT}",
        ]
        self.assertEqual(self.check("--quiet").splitlines(), expected)
        self.assertEqual(self.check().splitlines()[-2:], ["4 units, no faults; 1 algorithm is not checked", "2 warnings of this client"])

    def test_they_count_if_that_is_asked_for(self) -> None:
        self.check("--strict", status=1)
        self.check("--strict", "--json", status=1)
        self.write("B.fb", BLOCK % "OUT := X;")
        self.check("--strict")

    def test_forms_for_programs(self) -> None:
        found = json.loads(self.check("--json"))["warnings"]
        self.assertEqual([(it["code"], it["level"], it["line"]) for it in found], [("NO_SUCH_VARIABLE", "warning", 10), ("NO_SUCH_FUNCTION", "warning", 10)])
        sarif = json.loads(self.check("--format", "sarif"))["runs"][0]
        rules = {it["id"]: it["defaultConfiguration"]["level"] for it in sarif["tool"]["driver"]["rules"]}
        self.assertEqual([(it["ruleId"], it["level"], rules[it["ruleId"]]) for it in sarif["results"]][:2], [("NO_SUCH_VARIABLE", "warning", "warning"), ("NO_SUCH_FUNCTION", "warning", "warning")])
        junit = self.check("--format", "junit")
        self.assertIn('failures="0"', junit)
        self.assertIn("B.fb:10:8: NO_SUCH_VARIABLE: no variable NOSUCH here", junit)
        self.assertEqual([it.partition(" ")[0] for it in self.check("--format", "github").splitlines()], ["::warning", "::warning", "::notice"])


    def test_what_a_skipped_algorithm_names_is_in_the_way_of_no_network(self) -> None:
        """A broken structure that two blocks have, of which one has it in such an algorithm alone."""
        for name, text in {
            "BAD": "TYPE BAD : STRUCT\n  X : INT := TRUE;\nEND_STRUCT; END_TYPE\n",
            "ONE": "FUNCTION_BLOCK ONE\n  ALGORITHM A IN ST_FULL\n    VAR_TEMP b : BAD; END_VAR\n    b.X := 1;\n  END_ALGORITHM\nEND_FUNCTION_BLOCK\n",
            "TWO": "FUNCTION_BLOCK TWO\n  VAR B : BAD; END_VAR\nEND_FUNCTION_BLOCK\n",
            "BOTH": "SUBAPPLICATION BOTH\n  FBS FIRST : ONE; SECOND : TWO; END_FBS\nEND_SUBAPPLICATION\n",
        }.items():
            self.write(f"{name}.fb", text)
        reasons = json.loads(self.check("--plans", "--json", status=1))["reasons"]
        self.assertEqual([(it["code"], it["unit"], it["line"], it["column"]) for it in reasons], [("BLOCKED", "BOTH", 2, 20)])


class ProjectTest(ExchangeTest):
    def test_the_pump_station_has_none(self) -> None:
        """Each of its algorithms is read."""
        with at(CLIENTS / "tests"):
            imported(["pump_station"], self.lib)
        texts = {it.stem.upper(): it.read_text() for it in Path(self.lib).glob("*.fb")}
        those = [name for name, text in texts.items() if "ST_FULL" in text]
        self.assertEqual(len(those), 5)
        for name in those:
            self.assertTrue(all(it.is_read for it in read(texts[name]).bodies), name)
        ran = run("check", "lib", "--strict", "--quiet", "--program", workbench(), folder=self.folder)
        self.assertEqual((ran.stdout, ran.returncode), ("", 0))

    def test_functions_and_constants_of_a_project(self) -> None:
        body = "O := Clamp(MOST, RED) + Nowhere(1);"
        self.write("xml/F.fbt", f"""<FBType Name="F"><InterfaceList><OutputVars><VarDeclaration Name="O" Type="INT"/></OutputVars></InterfaceList>
          <BasicFB><Algorithm Name="A"><ST Text="{body}"/></Algorithm></BasicFB></FBType>""")
        self.write("xml/Clamp.fct", '<FunctionType Name="Clamp"/>')
        self.write("xml/C.gcf", '<GlobalConstants Name="C"><GlobalConstants><VarDeclaration Name="MOST" Type="INT"/></GlobalConstants></GlobalConstants>')
        self.write("xml/Colour.dtp", '<DataType Name="Colour"><EnumeratedType><EnumeratedValue Name="RED"/></EnumeratedType></DataType>')
        with at(self.folder):
            imported(["xml"], Path("lib"))
        text = (self.folder / "lib" / "F.fb").read_text()
        for name in ("CLAMP", "MOST", "RED"):
            self.assertIn(f'(* Elsewhere: name="{name}" *)', text)
        for words in (["lib"], ["--xml", "xml"]):
            ran = run("check", *words, "--quiet", "--program", workbench(), folder=self.folder)
            self.assertIn("NO_SUCH_FUNCTION: IEC 61131-3 has no function Nowhere", ran.stdout)
            self.assertEqual(len(ran.stdout.splitlines()), 1, ran.stdout)


class EditorTest(LspTest):
    BODY = """\
    VAR_TEMP
      step : REAL; (* of this call *)
    END_VAR
    step := S.Value + Limit;
    T1(IN := G, PT := T#1s, Q => G);
    OUT := LIMIT(X, step, D.Speed);"""

    def setUp(self) -> None:
        super().setUp()
        for name, text in {**TEXTS, "B": BLOCK % self.BODY}.items():
            self.write(f"{name}.fb", text)
        self.server = self.started()
        self.server.open(self.folder / "B.fb")
        self.server.await_codes(B=["NOT_CHECKED"])

    def at(self, words: str, behind: int = 0, file: str = "B") -> dict:
        text = (self.folder / f"{file}.fb").read_text()
        before = text[: text.index(words) + behind]
        return {"line": before.count("\n"), "character": len(before) - before.rfind("\n") - 1}

    def ask(self, method: str, words: str, behind: int = 0, file: str = "B", **more: object) -> Any:
        self.server.open(self.folder / f"{file}.fb") if file != "B" else None
        return self.server.ask(method, self.folder / f"{file}.fb", position=self.at(words, behind, file), **more)

    def words(self, places: list) -> list[str]:
        lines = (self.folder / "B.fb").read_text().split("\n")
        return [f"{it['range']['start']['line']}:{lines[it['range']['start']['line']][it['range']['start']['character'] : it['range']['end']['character']]}" for it in places]

    def renamed(self, words: str, new: str, behind: int = 0, file: str = "B") -> dict[str, list[str]]:
        """The lines that a rename changes, by file."""
        found = {}
        for uri, changes in self.ask("rename", words, behind, file, newName=new)["changes"].items():
            before = (self.folder / Path(uri).name).read_text()
            after = edited(before, changes).split("\n")
            found[Path(uri).name] = [one.strip() for one, other in zip(after, before.split("\n")) if one != other]
        return found

    def refused(self, words: str, new: str, behind: int = 0) -> str:
        answer = self.server.request("textDocument/rename", textDocument={"uri": (self.folder / "B.fb").as_uri()}, position=self.at(words, behind), newName=new)
        return answer["error"]["message"]

    def test_names_are_found(self) -> None:
        self.assertEqual(self.words(self.ask("documentHighlight", "step : REAL")), ["10:step", "12:step", "14:step"])
        self.assertEqual(self.words(self.ask("documentHighlight", "Limit : REAL")), ["3:Limit", "12:Limit"])
        self.assertEqual(self.words(self.ask("definition", "LIMIT(X, step", 10)), ["10:step"])
        self.assertEqual([Path(it["uri"]).name for it in self.ask("definition", "S.Value", 2)], ["SENSOR.fb"])
        self.assertEqual([Path(it["uri"]).name for it in self.ask("definition", "PT := ")], ["TIMER.fb"])
        self.assertEqual([Path(it["uri"]).name for it in self.ask("definition", "D.Speed", 2)], ["DRIVE.fb"])
        uses = self.ask("references", "Value : REAL", 0, "SENSOR", context={"includeDeclaration": False})
        self.assertEqual([Path(it["uri"]).name for it in uses], ["B.fb"])

    def test_hover_and_outline(self) -> None:
        self.assertEqual(self.ask("hover", "step := S")["contents"]["value"], "variable of the algorithm of Q: step : REAL\nof this call")
        self.assertIn("data input of TIMER: PT : TIME", self.ask("hover", "PT := ")["contents"]["value"])
        unit = self.server.ask("documentSymbol", self.folder / "B.fb")[0]
        algorithm = next(it for it in unit["children"] if it["name"] == "Q")
        self.assertEqual([it["name"] for it in algorithm["children"]], ["step"])

    def test_completion(self) -> None:
        """While it is typed, and so can't be read."""
        text = (BLOCK % self.BODY).replace("LIMIT(X, step, D.Speed)", "S. + ")
        self.server.change(self.folder / "B.fb", text)
        self.write("B.fb", text)
        self.assertEqual([it["label"] for it in self.ask("completion", "S. + ", 2)], ["Value", "Valid"])
        self.assertEqual([it["label"] for it in self.ask("completion", "S.Value", 2)], ["Value", "Valid"])
        labels = [it["label"] for it in self.ask("completion", "S. + ", 5)]
        self.assertTrue({"step", "X", "T1", "LIMIT", "D"} <= set(labels), labels)

    def test_renames_go_through(self) -> None:
        self.assertEqual(self.renamed("step : REAL", "part"), {"B.fb": ["part : REAL; (* of this call *)", "part := S.Value + Limit;", "OUT := LIMIT(X, part, D.Speed);"]})
        self.assertEqual(self.renamed("Limit : REAL", "Most")["B.fb"][1:], ["step := S.Value + Most;"])
        self.assertEqual(self.renamed("Value : REAL", "Amount", 0, "SENSOR")["B.fb"], ["step := S.Amount + Limit;"])
        self.assertEqual(self.renamed("PT : TIME", "LIMIT_", 0, "TIMER")["B.fb"], ["T1(IN := G, LIMIT_ := T#1s, Q => G);"])
        self.assertEqual(self.renamed("FULL : REAL", "K")["B.fb"][1:], ['(* Constant: name="K" *)'])

    def test_renames_that_are_not_sure_are_refused_with_the_place(self) -> None:
        self.assertEqual(self.refused("X : REAL", "step"), "step is taken at B.fb:11:7: step is something else in the algorithm Q")
        self.assertEqual(self.refused("N : INT", "LIMIT"), "B has the variable Limit already")
        self.assertEqual(self.refused("step : REAL", "G"), "G is taken at B.fb:14:14: G is something else in the algorithm Q")
        self.assertEqual(self.refused("step : REAL", "CONTINUE"), "CONTINUE is taken at B.fb:13:5: CONTINUE is a word of Structured Text there")
        self.write("C.fb", "FUNCTION_BLOCK C\n  ALGORITHM A IN ST_FULL\n    F(1).Value := ;\n  END_ALGORITHM\nEND_FUNCTION_BLOCK\n")
        self.server.save(self.folder / "B.fb")
        told_of = "C.fb:3:10: Value in the algorithm A, which this client can't tell apart from it"
        self.assertEqual(self.refused("S.Value", "Amount", 2), f"VALUE may be used at {told_of}")

    def test_warnings_and_their_fixes(self) -> None:
        file = self.folder / "B.fb"
        self.server.change(file, (BLOCK % self.BODY).replace("LIMIT(X", "LIMT(X"))
        self.server.await_codes(B=["NOT_CHECKED", "NO_SUCH_FUNCTION"])
        shown = self.server.shown["B.fb"][1]
        self.assertEqual((shown["severity"], shown["source"], shown["message"].endswith(OF_CLIENT)), (2, "bench61499 client", True))
        fixes = self.server.ask("codeAction", file, range=shown["range"], context={"diagnostics": [shown]})
        self.assertEqual([it["title"] for it in fixes], ["Change LIMT to LIMIT"])
        self.server.change(file, (BLOCK % self.BODY).replace("X : REAL;", "X : REEL;"), version=3)
        self.server.await_codes(B=["NOT_CHECKED", "NO_SUCH_TYPE"])
        shown = self.server.shown["B.fb"][1]
        fixes = self.server.ask("codeAction", file, range=shown["range"], context={"diagnostics": [shown]})
        self.assertEqual([it["title"] for it in fixes], ["Change REEL to REAL"])

    def test_another_unit_changes(self) -> None:
        self.server.open(self.folder / "TIMER.fb")
        self.server.change(self.folder / "TIMER.fb", TEXTS["TIMER"].replace("PT", "PRESET"))
        self.server.await_codes(B=["NOT_CHECKED", "NO_SUCH_MEMBER"])
        self.server.change(self.folder / "TIMER.fb", TEXTS["TIMER"], version=3)
        self.server.await_codes(B=["NOT_CHECKED"])


if __name__ == "__main__":
    unittest.main()
