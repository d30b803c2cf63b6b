"""Snippets: each is offered at its places, and spells what the workbench takes."""
from __future__ import annotations

import unittest
from pathlib import Path

from editing import LspTest
from support import TestCase, workbench

from bench61499 import Put, Session
from bench61499.language.layout import formatted
from bench61499.language.plant import Plant
from bench61499.language.tokens import declared_name
from bench61499.lsp.completion import candidates
from bench61499.lsp.snippets import SNIPPETS, filled, label

BLOCK = "FUNCTION_BLOCK A\n  |\nEND_FUNCTION_BLOCK\n"
NETWORK = "SUBAPPLICATION A\n  |\nEND_SUBAPPLICATION\n"
SYSTEM = "SYSTEM A\n  |\nEND_SYSTEM\n"
DEVICE = "SYSTEM A\n  DEVICE B : C\n    |\n  END_DEVICE\nEND_SYSTEM\n"
BODY = "FUNCTION_BLOCK A\n  ALGORITHM B IN ST:\n    |\n  END_ALGORITHM\nEND_FUNCTION_BLOCK\n"
UNITS = "FUNCTION_BLOCK", "ADAPTER", "SUBAPPLICATION", "SYSTEM", "TYPE"
PLACES = {
    **dict.fromkeys(UNITS, "|\n"),
    **dict.fromkeys(("IF", "CASE", "FOR", "WHILE", "REPEAT"), BODY),
    **dict.fromkeys(("APPLICATION", "DEVICE", "MAPPINGS"), SYSTEM),
    "RESOURCE": DEVICE,
    "SUBAPPS": NETWORK,
}


class SnippetsTest(TestCase):
    def test_each_is_offered_where_it_may_stand_and_has_no_syntax_fault_there(self) -> None:
        with Session.script(workbench()) as session:
            for word, snippet in SNIPPETS.items():
                front, behind = PLACES.get(word, BLOCK).split("|")
                plant = Plant()
                text = plant.put(Path("/plant/A.fb"), front + behind)
                assert text
                self.assertIn(word, [it.words for it in candidates(plant, text, len(front))])
                whole = front + filled(snippet) + behind
                name = declared_name(whole)
                assert name
                session.commit([Put(name, session.revision(name), whole)])
                self.assertNotIn("SYNTAX", [it.code for it in session.settle()[name]], whole)

    def test_whole_units_have_no_fault_of_their_own_and_are_laid_out(self) -> None:
        """A block, an adapter and a structure need no other unit."""
        with Session.script(workbench()) as session:
            for word in UNITS:
                text = f"{filled(SNIPPETS[word])}\n"
                self.assertEqual(formatted(text), [], text)
                session.commit([Put("NAME", session.revision("NAME"), text)])
                codes = {it.code for it in session.settle()["NAME"]}
                self.assertEqual(codes, {"UNKNOWN_TYPE"} if word in ("SUBAPPLICATION", "SYSTEM") else set(), text)


class EditorTest(LspTest):
    def labels(self, has_snippets: bool) -> list[str]:
        editor = self.editor()
        editor.start(self.folder, {"textDocument": {"completion": {"completionItem": {"snippetSupport": has_snippets}}}})
        file = self.write("A.fb", BODY.replace("|", ""))
        editor.open(file)
        return [it["label"] for it in editor.ask("completion", file, position={"line": 2, "character": 4})]

    def test_they_come_to_editors_that_fill_them_in(self) -> None:
        with_them, without = self.labels(True), self.labels(False)
        self.assertEqual([it for it in with_them if it not in without], [label(it) for it in without if it in SNIPPETS])
        self.assertIn("IF .. END_IF", with_them)


if __name__ == "__main__":
    unittest.main()
