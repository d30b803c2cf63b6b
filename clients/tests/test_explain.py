"""The explanations that depend on what is round a place."""
import unittest

from support import TestCase

from bench61499 import Fault
from bench61499.language.explain import Explainer, Names
from bench61499.language.grammar import stops
from bench61499.language.tokens import declared_name, tokens


class ExplainTest(TestCase):
    def check(self, code, text, expected):
        """The place is between two `¦` in the text."""
        before, words, after = text.split("¦")
        start = len(before.encode())
        fault = Fault(code, start, start + len(words.encode()))
        self.assertEqual(Explainer(before + words + after).explain(fault), expected)

    def test_conditions(self):
        self.check("CLASS", "ALGORITHM A IN ST IF ¦X + 1¦ THEN", "a condition has to be a truth value, and X + 1 is none")
        self.check("CLASS", "EC_TRANSITIONS A TO B := E [¦X¦];", "a condition has to be a truth value, and X is none")
        self.check("CLASS", "EC_TRANSITIONS A TO B := [¦X¦];", "a condition has to be a truth value, and X is none")
        self.check("CLASS", "EC_TRANSITIONS A TO B := P.E AND ¦X¦;", "a condition has to be a truth value, and X is none")

    def test_whole_numbers(self):
        self.check("CLASS", "EC_TRANSITIONS A TO B := E [Y[¦X¦] = 1];", "a subscript has to be a whole number, and X is none")
        self.check("CLASS", "EC_TRANSITIONS A TO B := E AND Y[¦X¦];", "a subscript has to be a whole number, and X is none")
        self.check("CLASS", "ALGORITHM A IN ST Y[1, ¦X¦] := 1;", "a subscript has to be a whole number, and X is none")
        self.check("CLASS", "ALGORITHM A IN ST FOR ¦X¦ := 1", "FOR counts with a variable for whole numbers, and X is none")
        self.check("CLASS", "ALGORITHM A IN ST FOR X := 1 TO ¦T#1s¦ DO", "FOR counts from, to and by whole numbers, and T#1s is none")

    def test_operators(self):
        self.check("CLASS", "ALGORITHM A IN ST: X[Y[1]] ¦:=¦ 1;", 'the value behind ":=" does not fit the type of X[Y[1]]')
        self.check("CLASS", "ALGORITHM A IN ST: P.X ¦:=¦ 1;", 'the value behind ":=" does not fit the type of P.X')
        self.check("CLASS", "ALGORITHM A IN ST: X := 1 ¦mod¦ Y;", "mod takes whole numbers")

    def test_ends(self):
        self.check("DATA_TYPE", "DATA_CONNECTIONS A.B TO ¦C.D¦;", "A.B and C.D are of different types")
        self.check("DATA_TYPE", "DATA_CONNECTIONS X TO Y; A TO ¦C¦;", "A and C are of different types")
        self.check("PORT_SIDE", "EVENT_CONNECTIONS ¦A.B¦ TO C;", "A.B can't be the source of a connection, only the destination of one")

    def test_spelling(self):
        self.check("PORT_UNKNOWN", "EVENT_CONNECTIONS ¦A .(* x *) B¦ TO C;", "no event A.B to connect")
        self.check("PASS_THROUGH", "EVENT_CONNECTIONS ¦A(**)TO\n\tB¦;", "A TO B leads straight through the subapplication, past all its blocks")
        self.check("SYNTAX", "SYSTEM A ;¦;¦", '";" can\'t follow ";"')
        self.check("SYNTAX", "SYSTEM A¦\f¦ END_SYSTEM", "expected a section or END_SYSTEM after A, not U+000C")
        self.check("SYNTAX", "SYSTEM A¦\u00a0¦END_SYSTEM", "expected a section or END_SYSTEM after A, not U+00A0")
        self.check("CLASS", "ALGORITHM A IN ST: X := 1 ¦+¦ Y;", '"+" takes numbers, times and the like, not truth values or bit strings')

    def test_values(self):
        self.check("LITERAL", "VAR A : ARRAY [0..1] OF INT := [1, ¦TRUE¦];", "TRUE is no initial value for the type ARRAY [0..1] OF INT")
        self.check("LITERAL", "FBS A : B(X := 1, Y := ¦TRUE¦);", "TRUE does not fit the type of Y")
        self.check("DUPLICATE", "FBS A : B(X := 1, ¦X¦ := 2);", "the parameter X is given a second time")

    def test_what_was_meant(self):
        self.check("STATE_UNKNOWN", "EC_STATES Idle : A; OTHER; END_STATES EC_TRANSITIONS ¦IDEL¦ TO OTHER", "no state IDEL in this chart; did you mean Idle?")
        self.check("STATE_UNKNOWN", "EC_STATES IDLE; END_STATES EC_TRANSITIONS ¦MOVING¦ TO IDLE", "no state MOVING in this chart")
        self.check("ALGORITHM_UNKNOWN", "EC_STATES A : ¦RUN¦; END_STATES ALGORITHM RUNS IN ST", "no algorithm RUN in this block; did you mean RUNS?")
        self.check("PORT_UNKNOWN", "FBS BELT : B; END_FBS EVENT_CONNECTIONS ¦BLET.O¦ TO", "no event BLET.O to connect; did you mean BELT?")
        self.check("PORT_UNKNOWN", "FBS BELT : B; END_FBS EVENT_CONNECTIONS ¦BELT.O¦ TO", "no event BELT.O to connect")
        self.check("VARIABLE_UNKNOWN", "VAR A, LEVEL : INT; END_VAR ALGORITHM X IN ST ¦LEVLE¦ := 1;", "no variable LEVLE in this block; did you mean LEVEL?")
        explained = Explainer("SYSTEM S LIFTR", Names(["LIFTER"])).explain(Fault("UNKNOWN_TYPE", 9, 14))
        self.assertEqual(explained, "there is no type LIFTR; did you mean LIFTER?")
        explained = Explainer("SYSTEM S LIFTR", Names(["LIFTR"])).explain(Fault("UNKNOWN_TYPE", 9, 14))
        self.assertEqual(explained, "the type LIFTR can't be used: its own text has a SYNTAX fault")

    def test_syntax(self):
        self.check("SYNTAX", "SYSTEM A ¦(* ..¦", "this comment is never closed: *) is missing")
        self.check("SYNTAX", "¦STRUCT¦ A", "a unit begins with FUNCTION_BLOCK, ADAPTER, SUBAPPLICATION, SYSTEM or TYPE, and not with STRUCT")
        self.check("SYNTAX", "VAR A : STRING := ¦'¦abc\n;", "the text behind this ' is not closed on its line")
        self.check("SYNTAX", "¦\ufeff¦SYSTEM", "a byte order mark is no part of the language; save the file as UTF-8 without one")
        self.check("SYNTAX", "SYSTEM ¦\x07¦", "expected a name after SYSTEM, not U+0007")
        self.check("SYNTAX", "VAR ¦BY¦ : INT", "the reserved word BY can't follow VAR")

    def syntax(self, text, expected):
        """The place is that where the text leaves the grammar."""
        its = list(tokens(text))
        places = [stop.at for stop in stops(its)]
        explainer = Explainer(text)
        told = [explainer.explain(Fault("SYNTAX", its[at].start, its[at].end) if at < len(its) else Fault("SYNTAX", len(text), len(text))) for at in places]
        self.assertEqual(told, [expected] if isinstance(expected, str) else expected)

    def test_what_was_expected(self):
        head, end = "FUNCTION_BLOCK A ", " END_FUNCTION_BLOCK"
        self.syntax(f"{head} VAR X INT; END_VAR {end}", 'expected ":" after X, not INT')
        self.syntax(f"{head} VAR BY : INT; END_VAR {end}", "expected a name or END_VAR after VAR, and BY is a reserved word")
        self.syntax(f"{head} VAR X : INT := 1\nY : INT; END_VAR {end}", 'expected ";" after 1')
        self.syntax(f"{head} VAR X : ; END_VAR {end}", 'expected a type after ":", not ";"')
        self.syntax(f"{head} EC_TRANSITIONS X TO Y := ; END_TRANSITIONS {end}", 'expected a condition after ":=", not ";"')
        self.syntax(f"{head} ALGORITM X IN ST END_ALGORITHM {end}", "expected a section or END_FUNCTION_BLOCK after A, not ALGORITM; did you mean ALGORITHM?")
        self.syntax(f"{head}\nEND_FUNCTION_BLOK", ["expected a section or END_FUNCTION_BLOCK after A; did you mean END_FUNCTION_BLOCK?"])
        self.syntax(f"{head} ALGORITHM X IN ST A = 1; END_ALGORITHM {end}", 'expected ":=" after A, not "="')
        self.syntax(f"{head} ALGORITHM X IN ST A := ABS(1); END_ALGORITHM {end}", "ABS can't be called: this language has no functions")
        self.syntax(f"{head} ALGORITHM X IN ST A := 1 +; END_ALGORITHM {end}", 'expected a value after "+", not ";"')

    def test_what_is_not_closed(self):
        head, end = "FUNCTION_BLOCK A ", " END_FUNCTION_BLOCK"
        self.syntax(f"{head} VAR X : INT; EVENT_INPUT END_EVENT {end}", "the VAR in line 1 is not closed: END_VAR is missing")
        self.syntax(f"{head} ALGORITHM X IN ST\nWHILE 1 DO\n ; END_ALGORITHM {end}", "the WHILE in line 2 is not closed: END_WHILE is missing")
        self.syntax(f"{head} ALGORITHM X IN ST IF 1 THEN END_FOR; END_IF END_ALGORITHM {end}", "END_FOR ends nothing here: open is the IF in line 1")
        self.syntax(f"{head} SUBAPPS END_SUBAPPS {end}", "SUBAPPS is no part of the FUNCTION_BLOCK in line 1")
        self.syntax("SYSTEM A APPLICATION B", "the text ends too early, behind B: END_APPLICATION is missing, for the APPLICATION in line 1")
        self.syntax("SYSTEM A\nEND_SYSTEM X", "nothing can follow END_SYSTEM: the unit ends in line 2")
        self.syntax("SYSTEM A ADAPTER B END_ADAPTER", "a file holds one unit, and the SYSTEM in line 1 is not closed: END_SYSTEM is missing")

    def test_further_places(self):
        text = "FUNCTION_BLOCK A VAR X INT; END_VAR EVENT_INPUT 5; END_EVENT VAR_INPUT Y : INT END_VAR END_FUNCTION_BLOCK"
        told = ['expected ":" after X, not INT', "expected a name or END_EVENT after EVENT_INPUT, not 5", 'expected ";" after INT']
        self.syntax(text, told)

    def test_xml(self):
        for text in ("<?xml version='1.0'?>", "\ufeff<FBType/>", "\n <FBType/>"):
            self.assertTrue(Explainer(text).explain(Fault("SYNTAX", 0, 1)).startswith("this is XML (IEC 61499-2), which bench61499 does not read"))

    def test_a_code_of_later_days(self):
        self.check("NEW_RULE", "SYSTEM ¦A¦", "A breaks the rule NEW_RULE")


class TokensTest(TestCase):
    def words(self, text):
        return [token.words for token in tokens(text)]

    def test_literals(self):
        self.assertEqual(self.words("1..5 INT#1..5 T#250ms REAL#1.0E+5 DT#2020-01-01-12:00:00.5 INT#5-3"),
                         ["1", "..", "5", "INT#1", "..", "5", "T#250ms", "REAL#1.0E+5", "DT#2020-01-01-12:00:00.5", "INT#5", "-", "3"])

    def test_comments(self):
        self.assertEqual(self.words("a(* (* *)b // c (*\n'(*'->(*)"), ["a", "b", "'(*'", "->", "(*)"])

    def test_names(self):
        self.assertEqual(declared_name("(* x *) system plant_1"), "PLANT_1")
        for text in ("", "SYSTEM", "SYSTEM FBS", "SYSTEM 1", f"SYSTEM {'A' * 65}", "; A"):
            self.assertIsNone(declared_name(text))


if __name__ == "__main__":
    unittest.main()
