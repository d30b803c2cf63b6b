"""Structures, in the reader and in what the language server answers. No workbench is asked, so that one which knows none does too."""
from __future__ import annotations

import random
import unittest
from collections import Counter
from collections.abc import Iterator
from itertools import chain, islice
from pathlib import Path

from editing import Editor, LspTest
from generated import at_tokens, faults_of, faulty_libraries
from structures import judges_fields, reads_structures, structured_libraries
from plants import file_of, plant_of
from support import workbench
from test_rename import some_name

from bench61499 import Fault, Places, Session
from bench61499.board.state import Row, Source
from bench61499.language.mentions import Mentions
from bench61499.language.declarations import FIELD, INSTANCE, TYPE, VARIABLE, Key, is_elementary, type_of_data, type_with_fields
from bench61499.language.explain import Explainer, Names
from bench61499.language.layout import applied, formatted
from bench61499.language.plant import Plant, Text
from bench61499.language.positions import edited, place, position
from bench61499.language.reader import ports, read
from bench61499.language.texts import Texts
from bench61499.language.tokens import tokens
from bench61499.language.units import read_units
from bench61499.lsp.completion import candidates
from bench61499.lsp.fixes import fixes
from bench61499.lsp.highlight import TOKEN_TYPES, semantic_tokens
from bench61499.lsp.hover import described
from bench61499.lsp.navigation import name_at
from bench61499.lsp.rename import CantRename, renamed

TEXTS = {
    "TANK": """\
(* A tank. *)
TYPE TANK :
STRUCT
  LEVEL : INT := 5; // in mm
  LIMITS : Bounds;
  LOG : ARRAY [0..3] OF BOUNDS;
  (* as it
     is painted *)
  NAME : STRING[8];
END_STRUCT;
END_TYPE
""",
    "BOUNDS": "type Bounds : struct LOW, HIGH : INT; end_struct end_type\n",
    "METER": "ADAPTER METER VAR_OUTPUT NOW : TANK; END_VAR END_ADAPTER\n",
    "PUMP": """\
FUNCTION_BLOCK PUMP
  VAR_INPUT T : TANK; END_VAR
  VAR ALL : ARRAY [0..9] OF TANK; SIZED : TANK[3]; B : PUMP; I : INT; END_VAR
  PLUGS M : METER; END_PLUGS
  EC_STATES A : RUN; END_STATES
  EC_TRANSITIONS A TO A := [ALL[T.LEVEL].LIMITS.LOW > 1]; END_TRANSITIONS
  ALGORITHM RUN IN ST:
    T.LEVEL := T.LIMITS.HIGH;
    ALL[0].LOG[T.LIMITS.LOW, 1].low := M.NOW.LIMITS.LOW;
    T[0].LEVEL := ALL.LEVEL + SIZED.LEVEL + B.I;
    M[0].NOW := 1;
  END_ALGORITHM
END_FUNCTION_BLOCK
""",
}


def text_of(plant: Plant, name: str) -> Text:
    text = plant.text(file_of(name))
    assert text
    return text


class ReaderTest(unittest.TestCase):
    def test_a_structure(self):
        unit = read(TEXTS["TANK"])
        self.assertEqual((unit.kind, unit.name), ("TYPE", "TANK"))
        head, *fields = unit.declared
        self.assertEqual((head.key, TEXTS["TANK"][head.begin : head.last]), (Key("TANK", TYPE, "", "TANK"), TEXTS["TANK"][14:-1]))
        expected = [("LEVEL", "INT", "5"), ("LIMITS", "Bounds", ""), ("LOG", "ARRAY [0..3] OF BOUNDS", ""), ("NAME", "STRING[8]", "")]
        self.assertEqual([(it.words, it.type, it.value) for it in fields], expected)
        self.assertEqual({(it.key.unit, it.key.space, it.section) for it in fields}, {("TANK", FIELD, "STRUCT")})
        self.assertEqual(ports(TEXTS["TANK"]), [])

    def test_reserved_words_in_any_case(self):
        unit = read(TEXTS["BOUNDS"])
        self.assertEqual([it.key.name for it in unit.declared], ["BOUNDS", "LOW", "HIGH"])
        self.assertEqual([it.key.name for it in read("FUNCTION_BLOCK V VAR A : INT; Type : INT; END_VAR").declared], ["V", "A"])

    def test_types_of_data_are_units(self):
        its = {use.key for use in read(TEXTS["TANK"]).uses}
        self.assertEqual(its, {Key("BOUNDS", TYPE, "", "BOUNDS"), *(Key("", "data type", "", name) for name in ("INT", "STRING"))})
        self.assertEqual(read("TYPE S : STRUCT F : ANY_S; END_STRUCT END_TYPE").uses[0].key.space, "data type")

    def test_types_that_have_fields(self):
        for spelled, plain, subscripted in (
            ("TANK", "TANK", ""), ("tank", "TANK", ""), ("ARRAY [0..1, 0..2] OF tank", "", "TANK"), ("array[0..1]of tank", "", "TANK"),
            ("TANK[3]", "", ""), ("INT", "", ""), ("ANY_S", "", ""), ("ARRAY [0..1] OF INT", "", ""), ("ARRAY [0..1] OF U[3]", "", ""), ("", "", ""),
        ):
            self.assertEqual((type_with_fields(spelled, False), type_with_fields(spelled, True)), (plain, subscripted), spelled)
        self.assertEqual([type_of_data(it) for it in ("Tank", "STRING[8]", "ARRAY [0..1] OF Tank")], ["TANK", "STRING", "TANK"])

    def test_references(self):
        """Each name of them, with what it means as far as the text shows."""
        unit = read("FUNCTION_BLOCK V VAR X : S; Y : ARRAY [0..1] OF S; END_VAR ALGORITHM A IN ST: X.F := Y[X.G, Z[1]].H.I; END_ALGORITHM")
        found = {(it.key.unit, it.key.space, it.key.name, bool(it.walk)) for it in unit.uses if it.key.space in (VARIABLE, FIELD)}
        expected = {
            ("V", VARIABLE, "X", False), ("S", FIELD, "F", False), ("V", VARIABLE, "Y", False), ("S", FIELD, "G", False),
            ("V", VARIABLE, "Z", False), ("S", FIELD, "H", False), ("", FIELD, "I", True),
        }
        self.assertEqual(found, expected)

    def test_a_plug_hides_a_variable_before_a_point_alone(self):
        text = """FUNCTION_BLOCK W PLUGS P:AD; END_PLUGS VAR P:S; END_VAR
            ALGORITHM G IN ST: P.V.F := 1; P[0].K := P; END_ALGORITHM END_FUNCTION_BLOCK"""
        unit = read(text)
        found = [(it.key.unit, it.key.space, it.key.name) for it in unit.uses if it.start > text.index("ST")]
        expected = [
            ("W", "instance", "P"), ("AD", VARIABLE, "V"), ("", FIELD, "F"), ("W", VARIABLE, "P"), ("", FIELD, "K"), ("W", VARIABLE, "P"),
        ]
        self.assertEqual(found, expected)

    def test_the_first_instance_counts(self):
        unit = read("FUNCTION_BLOCK W FBS P:S; END_FBS PLUGS P:AD; END_PLUGS VAR P:S; END_VAR ALGORITHM G IN ST: P.F := 1; END_ALGORITHM")
        self.assertEqual([it.key for it in unit.uses[-2:]], [Key("W", VARIABLE, "", "P"), Key("S", FIELD, "", "F")])

    def test_what_is_left_of_a_broken_structure(self):
        for text in ("TYPE S STRUCT F INT; G : INT; H", "TYPE S : INT STRUCT F; G : INT; H : END_TYPE", "TYPE S : STRUCT F\nG : ; H : INT;;; VAR X : INT;"):
            unit = read(text)
            self.assertEqual([it.key.name for it in unit.declared if it.section == "STRUCT"], ["F", "G", "H"], text)

    def test_texts_that_break_off(self):
        for text in TEXTS.values():
            for end in range(len(text)):
                unit, encoded = read(text[:end]), text[:end].encode()
                for it in unit.declared:
                    self.assertTrue(it.begin <= it.start < it.end <= it.last <= len(encoded))
                for use in unit.uses:
                    self.assertEqual(encoded[use.start : use.end].decode().upper(), use.key.name)

    def test_a_path_that_is_very_long(self):
        """It is read in time, and nothing is reported of its names far after it."""
        text = f"FUNCTION_BLOCK V VAR X : S; END_VAR ALGORITHM A IN ST: X{'.F' * 20_000} := 1; END_ALGORITHM"
        plant = plant_of({"V": text, "S": "TYPE S : STRUCT F : S; END_STRUCT END_TYPE"})
        found = [use for _, uses in plant.uses(Key("S", FIELD, "", "F")) for use in uses]
        self.assertEqual(len(found), 63)


class PlantTest(unittest.TestCase):
    def setUp(self) -> None:
        self.plant = plant_of(TEXTS)

    def at(self, words: str, behind: int = 0, name: str = "PUMP") -> int:
        return TEXTS[name].index(words) + behind

    def found(self, words: str, behind: int, name: str = "PUMP"):
        found = name_at(self.plant, text_of(self.plant, name), self.at(words, behind, name))
        assert found
        return found


class MeaningTest(PlantTest):
    def key(self, words: str, behind: int) -> str:
        """The owner and the name of what is there, if something declares it."""
        key = self.found(words, behind).key
        return f"{key.unit} {key.space} {key.name}" if self.plant.declaration(key) else "nothing"

    def test_what_names_stand_for(self):
        for words, behind, expected in (
            ("T.LEVEL", 0, "PUMP variable T"), ("T.LEVEL", 2, "TANK field LEVEL"),
            ("T.LIMITS.HIGH", 2, "TANK field LIMITS"), ("T.LIMITS.HIGH", 9, "BOUNDS field HIGH"),
            ("ALL[T", 0, "PUMP variable ALL"), ("].LIMITS", 2, "TANK field LIMITS"), ("].LIMITS.LOW", 9, "BOUNDS field LOW"),
            ("ALL[0].LOG", 7, "TANK field LOG"), ("1].low", 3, "BOUNDS field LOW"),
            ("M.NOW", 0, "PUMP instance M"), ("M.NOW", 2, "METER variable NOW"), ("NOW.LIMITS", 4, "TANK field LIMITS"), ("NOW.LIMITS.LOW", 11, "BOUNDS field LOW"),
            ("T[0].LEVEL", 0, "PUMP variable T"), ("T[0].LEVEL", 5, "nothing"), ("ALL.LEVEL", 4, "nothing"), ("SIZED.LEVEL", 6, "nothing"),
            ("B.I", 0, "PUMP variable B"), ("B.I", 2, "nothing"), ("M[0].NOW", 0, "nothing"), ("M[0].NOW", 5, "nothing"),
            ("T : TANK", 4, "TANK type TANK"), ("OF TANK", 3, "TANK type TANK"), ("TANK[3]", 0, "TANK type TANK"),
        ):
            self.assertEqual(self.key(words, behind), expected, (words, behind))

    def uses(self, *key: str) -> list[str]:
        return [text.places.words(use.start - 1, use.end + 1) for text, uses in self.plant.uses(Key(*key)) for use in uses]

    def test_uses(self):
        self.assertEqual(self.uses("BOUNDS", FIELD, "", "LOW"), [".LOW ", ".LOW,", ".low ", ".LOW;"])
        self.assertEqual(self.uses("TANK", FIELD, "", "LEVEL"), [".LEVEL]", ".LEVEL "])
        self.assertEqual(self.uses("TANK", TYPE, "", "TANK"), [" TANK;", " TANK;", " TANK;", " TANK["])
        self.assertEqual(self.uses("BOUNDS", TYPE, "", "BOUNDS"), [" Bounds;", " BOUNDS;"])

    def test_a_change_of_another_unit_leads_elsewhere(self):
        self.plant.put(file_of("TANK"), TEXTS["TANK"].replace("LIMITS : Bounds", "LIMITS : INT"))
        self.plant.refresh()
        self.assertEqual(self.key("T.LIMITS.HIGH", 9), "nothing")
        self.plant.put(file_of("TANK"), "FUNCTION_BLOCK TANK VAR_INPUT LEVEL : INT; END_VAR END_FUNCTION_BLOCK")
        self.plant.refresh()
        self.assertEqual(self.key("T.LEVEL", 2), "nothing")

    def test_hover(self):
        self.assertEqual(described(self.plant, Key("BOUNDS", TYPE, "", "BOUNDS")), "TYPE Bounds\n  STRUCT\n    LOW : INT\n    HIGH : INT")
        expected = """\
data input of PUMP: T : TANK

TYPE TANK
A tank.
  STRUCT
    LEVEL : INT := 5  (* in mm *)
    LIMITS : Bounds
    LOG : ARRAY [0..3] OF BOUNDS
    NAME : STRING[8]  (* as it is painted *)"""
        self.assertEqual(described(self.plant, self.found("T.LEVEL", 0).key), expected)
        self.assertEqual(described(self.plant, self.found("T.LEVEL", 2).key), "field of TANK: LEVEL : INT := 5\nin mm")
        log = described(self.plant, self.found("ALL[0].LOG", 7).key)
        self.assertEqual(log, "field of TANK: LOG : ARRAY [0..3] OF BOUNDS\n\nTYPE Bounds\n  STRUCT\n    LOW : INT\n    HIGH : INT")
        self.assertEqual(described(self.plant, self.found("B.I", 0).key), "internal variable of PUMP: B : PUMP")


class CompletionTest(PlantTest):
    def offered(self, words: str, name: str = "PUMP") -> list[str]:
        """What may follow words, which are put in the place of the last statements."""
        text = TEXTS[name][: self.at("    T.LEVEL")] + words if name == "PUMP" else words
        self.plant.put(file_of(name), text + TEXTS[name][self.at("  END_ALGORITHM") :] if name == "PUMP" else text)
        self.plant.refresh()
        return [it.words for it in candidates(self.plant, text_of(self.plant, name), len(text))]

    def test_members(self):
        tank, bounds = ["LEVEL", "LIMITS", "LOG", "NAME"], ["LOW", "HIGH"]
        for words, expected in (
            ("T.", tank), ("T.LE", tank), ("T.LIMITS.", bounds), ("ALL[0].", tank), ("ALL[T.LEVEL, 2].LIMITS.", bounds), ("ALL[0].LOG[1].", bounds),
            ("I := T.", tank), ("ALL[T.LIMITS.", bounds), ("M.", ["NOW"]), ("M.NOW.", tank), ("M.NOW.LIMITS.", bounds),
            ("ALL.", []), ("T[0].", []), ("ALL[0].LOG.", []), ("SIZED.", []), ("I.", []), ("B.", []), ("M[0].", []), ("NOTHING.", []), ("T.NOTHING.", []),
        ):
            self.assertEqual(self.offered(words), expected, words)
        self.assertIn("T", self.offered("I := "))

    def test_a_guard(self):
        text = TEXTS["PUMP"][: self.at("ALL[T")] + "T.LIMITS."
        self.plant.put(file_of("PUMP"), text)
        self.plant.refresh()
        self.assertEqual([it.words for it in candidates(self.plant, text_of(self.plant, "PUMP"), len(text))], ["LOW", "HIGH"])

    def test_types(self):
        offered = self.offered("FUNCTION_BLOCK X VAR A : ", "X")
        self.assertEqual(offered[:3] + offered[-2:], ["Bounds", "TANK", "BOOL", "ANY", "ARRAY"])
        self.assertEqual(self.offered("TYPE TANK : STRUCT A : ", "TANK")[:2], ["Bounds", "BOOL"])
        self.assertNotIn("TANK", self.offered("FUNCTION_BLOCK X FBS A : ", "X"))

    def test_words(self):
        for text, expected in (
            ("TYPE S ", []), ("TYPE S : ", ["STRUCT"]), ("TYPE S : STRUCT ", ["END_STRUCT"]), ("TYPE S : STRUCT F : INT; ", ["END_STRUCT"]),
            ("TYPE S : STRUCT END_STRUCT ", ["END_TYPE"]), ("TYPE S : STRUCT END_STRUCT; ", ["END_TYPE"]),
        ):
            self.assertEqual(self.offered(text, "S"), expected, text)


class RenameTest(PlantTest):
    def after(self, words: str, behind: int, new: str, name: str = "PUMP") -> dict[str, str]:
        """The texts that a rename changes, as they are after it."""
        changes = renamed(self.plant, self.found(words, behind, name), new)["changes"]
        return {Path(uri).stem: edited(TEXTS[Path(uri).stem], edits) for uri, edits in changes.items()}

    def test_a_field(self):
        after = self.after("NOW.LIMITS.LOW", 11, "LEAST")
        self.assertEqual(after["BOUNDS"], TEXTS["BOUNDS"].replace("LOW", "LEAST"))
        self.assertEqual(after["PUMP"], TEXTS["PUMP"].replace("LOW", "LEAST").replace(".low", ".LEAST"))
        self.assertEqual(len(after), 2)
        after = self.after("LEVEL : INT", 0, "HEIGHT", "TANK")
        self.assertEqual(after["PUMP"], TEXTS["PUMP"].replace("T.LEVEL", "T.HEIGHT"))

    def test_a_structure(self):
        after = self.after("T : TANK", 4, "VESSEL")
        self.assertEqual(after, {name: text.replace("TANK", "VESSEL") for name, text in TEXTS.items() if name != "BOUNDS"})

    def test_what_is_refused(self):
        for words, behind, new, reason in (
            ("T.LEVEL", 2, "LOG", "TANK has the field LOG already"),
            ("T : TANK", 4, "DINT", "DINT is an elementary type"),
            ("T : TANK", 4, "STRUCT", "STRUCT is a reserved word"),
            ("T : TANK", 4, "Bounds", "there is a unit Bounds already"),
            ("T.LEVEL", 0, "M", "M is a plug or a socket of PUMP already"),
            ("M.NOW", 0, "T", "T is a variable of PUMP already"),
        ):
            with self.assertRaises(CantRename) as caught:
                self.after(words, behind, new)
            self.assertEqual(str(caught.exception), reason)


class LayoutTest(unittest.TestCase):
    def test_structures(self):
        for text in (TEXTS["TANK"], "TYPE S : STRUCT\n  F : INT;\nEND_STRUCT\nEND_TYPE\n"):
            self.assertEqual(formatted(text), [])
        text = "TYPE S:\n   STRUCT\nF:INT;\n  G :ARRAY[0..1]OF T:= [ 1,2 ];\n  (* x *)\n  END_STRUCT ;\n  END_TYPE"
        expected = "TYPE S :\nSTRUCT\n  F : INT;\n  G : ARRAY [0..1] OF T := [1, 2];\n  (* x *)\nEND_STRUCT;\nEND_TYPE\n"
        self.assertEqual(applied(text, formatted(text)), expected)

    def test_references(self):
        text = "FUNCTION_BLOCK V ALGORITHM A IN ST: X [ 0 ] . F.G[ 1 ]:=1; END_ALGORITHM END_FUNCTION_BLOCK\n"
        expected = "FUNCTION_BLOCK V ALGORITHM A IN ST: X[0].F.G[1] := 1; END_ALGORITHM END_FUNCTION_BLOCK\n"
        self.assertEqual(applied(text, formatted(text)), expected)


class ColoursTest(unittest.TestCase):
    def colours(self, text: str) -> list[tuple[str, str]]:
        made, places = Text(Path("/x.fb"), text), Places(text)
        line, character, found = 0, 0, []
        data = semantic_tokens(made, 0, len(text))
        for at in range(0, len(data), 5):
            down, ahead, length, kind, _ = data[at : at + 5]
            line, character = line + down, ahead + (0 if down else character)
            start = place(places, {"line": line, "character": character})
            found.append((text[start : start + length], TOKEN_TYPES[kind]))
        return found

    def test_a_structure(self):
        expected = [
            ("TYPE", "keyword"), ("S", "struct"), ("STRUCT", "keyword"), ("F", "property"), ("T", "type"), ("G", "property"), ("INT", "type"),
            ("END_STRUCT", "keyword"), ("END_TYPE", "keyword"),
        ]
        self.assertEqual(self.colours("TYPE S : STRUCT F : T; G : INT; END_STRUCT END_TYPE"), expected)

    def test_a_block(self):
        found = self.colours("FUNCTION_BLOCK B VAR X : S; END_VAR PLUGS P : A; END_PLUGS ALGORITHM R IN ST: X.F[0].G := 1; END_ALGORITHM")
        names = {words: kind for words, kind in found if kind != "keyword"}
        expected = {"B": "class", "X": "variable", "S": "type", "P": "property", "A": "class", "R": "method", "F": "property", "G": "property"}
        self.assertEqual({it: names[it] for it in expected}, expected)


class ExplainTest(unittest.TestCase):
    def check(self, code: str, text: str, expected: str) -> None:
        """The place is between two `¦` in the text."""
        before, words, after = text.split("¦")
        self.assertEqual(Explainer(before + words + after).explain(Fault(code, len(before), len(before + words))), expected)

    def member(self, statement: str, expected: str) -> None:
        head = "FUNCTION_BLOCK V VAR X : S; A : ARRAY [0..1] OF S; I : INT; L : S[3]; END_VAR PLUGS P : AD; END_PLUGS ALGORITHM R IN ST: "
        self.check("MEMBER_UNKNOWN", head + statement, expected)

    def test_members(self):
        self.member("X.¦K¦ := 1;", "no field K in S, the type of X")
        self.member("A[X.F, 2] . ¦K¦ := 1;", "no field K in S, the type of A[X.F, 2]")
        self.member("A.¦F¦ := 1;", "no field F in A, which is an array: its elements have fields")
        self.member("X[0].¦F¦ := 1;", "no field F in X[0]: X is of the type S")
        self.member("I.¦F¦ := 1;", "no field F in I: I is of the type INT")
        self.member("L.¦F¦ := 1;", "no field F in L: L is of the type S[3]")
        self.member("X.G[1].¦K¦ := 1;", "no field K in X.G[1]")
        self.member("P.V.¦K¦ := 1;", "no field K in P.V")

    def test_other_codes(self):
        self.check("STRUCT_RECURSIVE", "TYPE ¦S¦ : STRUCT F : S; END_STRUCT END_TYPE", "S contains itself, by the types of its fields")
        self.check("DUPLICATE", "TYPE S : STRUCT F : INT; ¦F¦ : INT; END_STRUCT END_TYPE", "F is declared already among the fields")
        self.check("LITERAL", "TYPE S : STRUCT F : INT := ¦TRUE¦; END_STRUCT END_TYPE", "TRUE is no initial value for the type INT")
        self.check("SYNTAX", "TYPE S : STRUCT F : INT;¦¦", 'the text ends too early, behind ";": END_STRUCT is missing, for the STRUCT in line 1')
        self.check("SYNTAX", "TYPE S : ¦INT¦; END_TYPE", 'expected STRUCT after ":", not INT')
        self.check("CLASS", "ALGORITHM A IN ST: X[Y[1]].F.G[2] ¦:=¦ 1;", 'the value behind ":=" does not fit the type of X[Y[1]].F.G[2]')
        head = "FUNCTION_BLOCK V VAR LEVEL : S; END_VAR PLUGS FEED : AD; END_PLUGS ALGORITHM R IN ST: "
        for words, meant in (("LEVLE", "; did you mean LEVEL?"), ("FEDE", "; did you mean FEED?"), ("FEED", "")):
            expected = f"no variable {words}.F in this block: {words} is no plug or socket with data F{meant}"
            self.check("VARIABLE_UNKNOWN", f"{head}¦{words}.F¦ := 1;", expected)


class FixesTest(PlantTest):
    def fixed(self, old: str, new: str, code: str, words: str) -> list[str]:
        text = TEXTS["PUMP"].replace(old, new, 1)
        self.plant.put(file_of("PUMP"), text)
        self.plant.refresh()
        start = text.index(words)
        return [it.title for it in fixes(self.plant, text_of(self.plant, "PUMP"), code, start, start + len(words))]

    def test_near_names(self):
        self.assertEqual(self.fixed("T.LEVEL", "T.LEVLE", "MEMBER_UNKNOWN", "LEVLE"), ["Change LEVLE to LEVEL"])
        self.assertEqual(self.fixed("1].low", "1].lwo", "MEMBER_UNKNOWN", "lwo"), ["Change lwo to LOW"])
        self.assertEqual(self.fixed("NOW.LIMITS", "NOW.LIMTS", "MEMBER_UNKNOWN", "LIMTS"), ["Change LIMTS to LIMITS"])
        self.assertEqual(self.fixed("ALL[T.", "AL[T.", "VARIABLE_UNKNOWN", "AL[T"[:2] + "[T"), ["Change AL to ALL"])
        self.assertEqual(self.fixed("SIZED.LEVEL", "SIZDE.LEVEL", "VARIABLE_UNKNOWN", "SIZDE.LEVEL"), ["Change SIZDE to SIZED"])


class NoFieldsTest(unittest.TestCase):
    """The names after points that are no fields. Each has a `!` before it."""

    UNITS = {
        "S": "TYPE S : STRUCT F:INT; A:ARRAY[0..3] OF INT; G:U; Q:ARRAY[0..1] OF U; Y:ANY; END_STRUCT; END_TYPE",
        "U": "TYPE U : STRUCT H:BOOL; N:STRING[8]; END_STRUCT END_TYPE",
        "AD": "ADAPTER AD VAR_OUTPUT V:S; I:INT; END_VAR END_ADAPTER",
        "B": "FUNCTION_BLOCK B VAR_INPUT F:INT; END_VAR END_FUNCTION_BLOCK",
        "BROKEN": "TYPE BROKEN : STRUCT F:INT",
        "INT": "TYPE INT : STRUCT F:BOOL; END_STRUCT END_TYPE",
    }

    def check(self, declared: str, statements: str, more: str = "") -> None:
        marked = f"FUNCTION_BLOCK W {more} VAR {declared} END_VAR ALGORITHM R IN ST: {statements} END_ALGORITHM END_FUNCTION_BLOCK"
        plant = plant_of({**self.UNITS, "W": marked.replace("!", "")})
        text = text_of(plant, "W")
        expected = [text.places.words(*it) for it in unknown_members(plant, text)]
        starts = [at - number for number, at in enumerate(at for at, it in enumerate(marked) if it == "!")]
        self.assertEqual([start for start, _ in unknown_members(plant, text)], starts, expected)

    def test_fields_of_fields(self):
        self.check("X:S;", "X.F := 1; X.G.H := 2; X.!K := 1; X.G.!K.L := 1; X.F.!F.F := 1;")

    def test_arrays(self):
        self.check("X:ARRAY[0..1] OF S;", "X[0].A[1] := TRUE; X[0].Q[1].H := 2; X.!F := 1; X[0].Q.!H := 1; X[0].A[1].!F := 1;")
        self.check("X:S;", "X[0].!F := 1; X.F[0] := TRUE; X.G[0].!H := 1; X.!K[TRUE].L[Y] := 1; X.A[X.F, X.!L] := 1;")

    def test_types_without_fields(self):
        self.check("I:INT; T:STRING[4]; Z:ANY_INT[3]; M:ARRAY[0..1] OF ANY;", "I[0].!F := 1; I.!F.G := 1; T.!F := 1; Z.!F := 1; M.!F := 1; M[0].F := 1;")
        self.check("X:B; Y:AD; L:S[3];", "X.!F := 1; X[0].!F := 1; Y.!V := 1; L.!F := 1; L[0].!F := 1;")

    def test_what_is_not_judged(self):
        self.check("X:ABSENT; Y:BROKEN; Z:ANY; S:S;", "X.F := 1; X[0].F.G := 1; Y.F := 1; Y[0].F := 1; Z.F.G := 1; Z[0].F := 1; S.Y.F := 1; NOTHING.F.G := 1;")
        self.check("X:ARRAY[0..1] OF ABSENT; Z:ABSENT[3];", "X.!F := 1; X[0].F := 1; Z.!F := 1; Z[0].!F := 1;")

    def test_plugs_and_variables_of_one_name(self):
        self.check("P:S;", "P.V.F := 1; P.I.!F := 1; P.A[0] := 1; P[0].!F := 1; P.V.!K := 1; P.V[0].!F := 1;", "PLUGS P:AD; END_PLUGS")
        self.check("P:S;", "P.F := 1; P.!V := 1;", "FBS P:B; END_FBS PLUGS P:AD; END_PLUGS")


class RandomTest(unittest.TestCase):
    """Of random libraries, whatever the workbench knows."""

    def test_each_declared_name_is_offered(self):
        count = 0
        for texts in islice(structured_libraries(1), 20):
            plant = plant_of(texts)
            for text in plant.texts():
                for use in text.unit.uses:
                    if use.key.space in (VARIABLE, INSTANCE, FIELD) and (its := plant.declaration(plant.key(use))):
                        self.assertIn(its.words, [it.words for it in candidates(plant, text, use.start)], (texts, use))
                        count += 1
        self.assertGreater(count, 1000)

    def test_the_same_words_when_laid_out(self):
        for texts in islice(structured_libraries(2), 30):
            for text in texts.values():
                after = applied(text, formatted(text))
                self.assertEqual([it.words for it in tokens(after)], [it.words for it in tokens(text)])
                self.assertEqual(formatted(after), [])


class OfWorkbenchTest(unittest.TestCase):
    """What the workbench says of random libraries."""

    def setUp(self) -> None:
        if not self.is_known():
            self.skipTest("the workbench knows no structures")
        self.session = Session.script(workbench())
        self.addCleanup(self.session.close)

    def is_known(self) -> bool:
        return reads_structures()


class FieldsTest(OfWorkbenchTest):
    """Faults of fields and of structures."""

    def is_known(self) -> bool:
        return judges_fields()

    def test_unknown_members(self):
        """The reader and the workbench find the same names that are no fields."""
        count = 0
        for texts in islice(structured_libraries(3), 60):
            plant, faults = plant_of(texts), faults_of(self.session, texts)
            for name in texts:
                expected = {(it.start, it.end) for it in faults[name] if it.code == "MEMBER_UNKNOWN"}
                self.assertEqual(set(unknown_members(plant, text_of(plant, name))), expected, texts)
                count += len(expected)
        self.assertGreater(count, 300)

    def test_recursive_structures(self):
        count = 0
        for texts in islice(structured_libraries(4), 60):
            plant, faults = plant_of(texts), faults_of(self.session, texts)
            expected = {name for name in texts if any(it.code == "STRUCT_RECURSIVE" for it in faults[name])}
            self.assertEqual({name for name in texts if holds(plant, name, name)}, expected, texts)
            count += len(expected)
        self.assertGreater(count, 30)


class FaultsTest(OfWorkbenchTest):
    """Faults of all codes."""

    def test_what_is_read(self):
        """The workbench reads the same texts; whether it has more faults, is not asked here."""
        for texts in islice(structured_libraries(8), 60):
            for name, faults in faults_of(self.session, texts).items():
                self.assertEqual(any(it.code == "SYNTAX" for it in faults), is_broken(texts[name]), texts[name])

    def test_a_rename_changes_no_fault(self):
        chance, spaces = random.Random(5), Counter[str]()
        for texts in islice(structured_libraries(5), 150):
            plant, faults = plant_of(texts), faults_of(self.session, texts)
            found = some_name(chance, plant)
            if not found:
                continue
            new = {name: edited(text, renamed(plant, found, "Renamed")["changes"].get(file_of(name).as_uri(), [])) for name, text in texts.items()}
            names = {found.key.name: "RENAMED"} if found.key.space == TYPE else {}
            after = faults_of(self.session, {names.get(name, name): text for name, text in new.items()})
            for name, text in texts.items():
                self.assertEqual(at_tokens(new[name], after[names.get(name, name)]), at_tokens(text, faults[name]), (found, texts))
            spaces[found.key.space] += 1
        self.assertGreater(min(spaces[it] for it in (TYPE, VARIABLE, FIELD)), 5, spaces)

    def test_a_layout_changes_no_fault(self):
        for texts in islice(structured_libraries(6), 30):
            new = {name: applied(text, formatted(text)) for name, text in texts.items()}
            before, after = faults_of(self.session, texts), faults_of(self.session, new)
            for name, text in texts.items():
                self.assertEqual(at_tokens(new[name], after[name]), at_tokens(text, before[name]), text)

    def test_each_fault_has_an_explanation(self):
        for texts in chain(islice(structured_libraries(7), 30), islice(faulty_libraries(7), 30)):
            for name, faults in faults_of(self.session, texts).items():
                for explainer in (Explainer(texts[name], Names(texts)), Explainer(texts[name], Names(texts), Texts.of(texts))):
                    told = [explainer.explain(it) for it in faults]
                    self.assertFalse([words for words in told if "breaks the rule" in words or "\n" in words])


def unknown_members(plant: Plant, text: Text) -> Iterator[tuple[int, int]]:
    """The names after points that are no fields, of those that are checked."""
    its = list(tokens(text.text))
    at = {it.start: number for number, it in enumerate(its)}
    uses = {use.start: use for use in text.unit.uses}
    for use in text.unit.uses:
        if use.key.space == FIELD and not plant.declaration(plant.key(use)):
            before = at[use.start] - 2
            is_subscripted, depth = its[before].words == "]", 0
            while depth or its[before].words == "]":
                depth += {"]": 1, "[": -1}.get(its[before].words, 0)
                before -= 1
            variable = plant.declaration(plant.key(uses[its[before].start]))
            if variable and is_judged(plant, variable.type, is_subscripted):
                yield use.start, use.end


def is_judged(plant: Plant, spelled: str, is_subscripted: bool) -> bool:
    """Whether a name after a variable of this type has to be a field."""
    name, is_array = type_of_data(spelled), spelled.upper().startswith("ARRAY")
    if is_array and not is_subscripted or not is_array and "[" in spelled:
        return True
    its = plant.unit(name)
    is_sound = its is not None and not is_broken(text_of(plant, name).text)
    return not name.startswith("ANY") and (is_elementary(name) or is_sound)


def is_broken(text: str) -> bool:
    """Whether a text of the random libraries is: it is cut short."""
    return "END_" not in text


def holds(plant: Plant, name: str, inner: str) -> bool:
    """Whether a structure has a field of another one, or a field of a structure that has."""
    seen: set[str] = set()
    ahead = [name]
    while ahead:
        unit = plant.unit(ahead.pop())
        if unit and unit.kind == "TYPE" and not is_broken(text_of(plant, unit.name).text):
            of = {type_of_data(it.type) for it in unit.declared if it.key.space == FIELD and not is_elementary(type_of_data(it.type))}
            ahead += of - seen
            seen |= of
    return inner in seen


class ServerTest(LspTest):
    """What an editor gets. There is no workbench at all."""

    def setUp(self) -> None:
        super().setUp()
        for name, text in TEXTS.items():
            self.write(f"{name}.fb", text)
        self.server = self.started()
        self.file = self.folder / "TANK.fb"

    def editor(self, *words: object) -> Editor:
        return super().editor("--program", self.folder / "not_there")

    def started(self) -> Editor:
        editor = super().started()
        editor.open(self.folder / "TANK.fb")
        return editor

    def test_outline(self):
        (it,) = self.server.ask("documentSymbol", self.file)
        self.assertEqual((it["name"], it["kind"], it["detail"]), ("TANK", 23, "TYPE"))
        expected = [("LEVEL", 8, "STRUCT : INT"), ("LIMITS", 8, "STRUCT : Bounds"), ("LOG", 8, "STRUCT : ARRAY [0..3] OF BOUNDS"), ("NAME", 8, "STRUCT : STRING[8]")]
        self.assertEqual([(its["name"], its["kind"], its["detail"]) for its in it["children"]], expected)

    def test_folding(self):
        found = self.server.ask("foldingRange", self.file)
        self.assertEqual([(it["startLine"], it["endLine"]) for it in found], [(1, 9), (2, 8), (6, 7)])

    def test_search(self):
        found = self.server.request("workspace/symbol", query="N")["result"]
        self.assertEqual([(it["name"], it["kind"]) for it in found], [("BOUNDS", 23), ("TANK", 23)])

    def test_definition_and_uses(self):
        text = TEXTS["PUMP"]
        at = position(Places(text), text.index("NOW.LIMITS.LOW") + 11)
        self.server.open(self.folder / "PUMP.fb")
        (it,) = self.server.ask("definition", self.folder / "PUMP.fb", position=at)
        self.assertEqual((Path(it["uri"]).name, it["range"]["start"]), ("BOUNDS.fb", {"line": 0, "character": 21}))
        found = self.server.ask("references", self.folder / "PUMP.fb", position=at, context={"includeDeclaration": True})
        self.assertEqual([(Path(it["uri"]).stem, it["range"]["start"]["line"]) for it in found], [("BOUNDS", 0), *(("PUMP", line) for line in (5, 8, 8, 8))])
        self.assertEqual(len(self.server.ask("documentHighlight", self.folder / "PUMP.fb", position=at)), 4)

    def test_units_are_read(self):
        units = {it.name: it.file.stem for it in read_units([self.folder])}
        self.assertEqual(units, {name: name for name in TEXTS})


class BoardTest(unittest.TestCase):
    def row(self, name: str) -> Row:
        return Row(name, 1, source=Source(file_of(name), TEXTS[name]))

    def test_a_structure_in_the_list(self):
        self.assertEqual(self.row("TANK").told[:3], ["TANK", "TANK", "TYPE"])

    def test_what_a_change_reaches(self):
        self.assertEqual(Mentions().reached(["BOUNDS"], TEXTS), {"BOUNDS", "TANK", "METER", "PUMP"})
        self.assertEqual(Mentions().reached(["METER"], TEXTS), {"METER", "PUMP"})

    def test_what_can_reach_a_unit(self):
        for unit in TEXTS:
            near = Mentions().near([unit], TEXTS)
            self.assertEqual({it for it in TEXTS if unit in Mentions().reached([it], TEXTS)} - near, set(), unit)
        self.assertIn("BOUNDS", Mentions().near(["PUMP"], TEXTS))


if __name__ == "__main__":
    unittest.main()
