"""The layout of texts: no token changes, and so no fault."""
import unittest

from generated import at_tokens, checked, faults_of, faulty_libraries, so_many
from support import CONVEYOR, workbench

from bench61499 import Session
from bench61499.language.layout import applied, formatted
from bench61499.language.tokens import pieces, tokens


def laid_out(text: str) -> str:
    return applied(text, formatted(text))


class FaultsTest(unittest.TestCase):
    def test_the_same_faults(self):
        """Of 2,000 units, half of them with faults: the same codes at the same tokens."""
        count = 0
        with Session.script(workbench()) as session:
            for library in checked():
                new = {name: laid_out(text) for name, text in library.texts.items()}
                faults = faults_of(session, new)
                for name, text in library.texts.items():
                    self.assertEqual(at_tokens(new[name], faults[name]), at_tokens(text, library.faults[name]), text)
                    count += new[name] != text
        self.assertGreater(count, 1800)

    def test_the_same_words(self):
        for texts in so_many(faulty_libraries(5), 1000):
            for text in texts.values():
                self.assertEqual([it.words for it in tokens(laid_out(text))], [it.words for it in tokens(text)])
                comments, after = ([it.words.rstrip() for it in pieces(of) if it.kind == "comment"] for of in (text, laid_out(text)))
                self.assertEqual(after, comments)
                self.assertEqual(formatted(laid_out(text)), [], text)


class LinesTest(unittest.TestCase):
    def test_the_conveyor_is_laid_out(self):
        for file in CONVEYOR.glob("*.fb"):
            self.assertEqual(formatted(file.read_text()), [], file)

    def check(self, text, expected):
        self.assertEqual(laid_out(text), expected)

    def test_statements(self):
        text = """FUNCTION_BLOCK A
ALGORITHM X IN ST:
CASE Y OF
1: IF Z THEN
FOR I:=1 TO 2 DO V[ I ]:=- 1+NOT( B );
END_FOR
ELSE W := 1
+ 2;
END_IF
END_CASE
END_ALGORITHM
END_FUNCTION_BLOCK
"""
        expected = """FUNCTION_BLOCK A
  ALGORITHM X IN ST:
    CASE Y OF
      1: IF Z THEN
        FOR I := 1 TO 2 DO V[I] := -1 + NOT (B);
        END_FOR
      ELSE W := 1
          + 2;
      END_IF
    END_CASE
  END_ALGORITHM
END_FUNCTION_BLOCK
"""
        self.check(text, expected)

    def test_items_over_lines(self):
        text = "SUBAPPLICATION A\nEVENT_CONNECTIONS\nB.C\nTO\nD.E;\n(* x *)\nF TO G;\nEND_CONNECTIONS\nEND_SUBAPPLICATION\n"
        expected = "SUBAPPLICATION A\n  EVENT_CONNECTIONS\n    B.C\n      TO\n      D.E;\n    (* x *)\n    F TO G;\n  END_CONNECTIONS\nEND_SUBAPPLICATION\n"
        self.check(text, expected)

    def test_line_ends(self):
        self.check("SYSTEM A\r\n\r\n\r\n  // x  \r\nEND_SYSTEM", "SYSTEM A\r\n\r\n  // x\r\nEND_SYSTEM\r\n")

    def test_what_stays(self):
        """Bodies in other languages, texts that are never closed, comments and the blanks round them."""
        for inner in ("ALGORITHM X IN LD a   b\n c END_ALGORITHM", "SERVICE a   b\n c END_SERVICE"):
            self.check(f"FUNCTION_BLOCK A\n{inner}\nEND_FUNCTION_BLOCK\n", f"FUNCTION_BLOCK A\n  {inner}\nEND_FUNCTION_BLOCK\n")
        self.check("SYSTEM A 'b   c\n  d  e\n", "SYSTEM A 'b   c\n  d e\n")
        self.check("SYSTEM A   (*  b\n    c *)   END_SYSTEM\n", "SYSTEM A   (*  b\n    c *)   END_SYSTEM\n")
        self.check("SYSTEM A (* b  ", "SYSTEM A (* b  ")
        self.check("", "")


if __name__ == "__main__":
    unittest.main()
