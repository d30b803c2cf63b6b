"""The tokens of texts."""
import unittest

from support import TestCase

from bench61499.language.tokens import pieces


class TokensTest(TestCase):
    def check(self, text, wanted):
        self.assertEqual([(it.kind, it.words) for it in pieces(text)], wanted)

    def test_strings(self):
        self.check("A := 'x$'y';\"$\"\"", [("word", "A"), ("symbol", ":="), ("string", "'x$'y'"), ("symbol", ";"), ("string", "\"$\"\"")])

    def test_a_quote_that_is_not_closed_hides_no_string_of_the_other_kind(self):
        self.check("'$'\"a\"", [("other", "'"), ("other", "$"), ("other", "'"), ("string", "\"a\"")])
        self.check("' \"a\"", [("other", "'"), ("string", "\"a\"")])

    def test_a_quote_is_looked_for_again_on_the_next_line(self):
        self.check("'$'\n'b' \n", [("other", "'"), ("other", "$"), ("other", "'"), ("string", "'b'")])

    def test_quotes_that_are_never_closed(self):
        self.check("'$" * 32_768, [("other", "'"), ("other", "$")] * 32_768)


if __name__ == "__main__":
    unittest.main()
