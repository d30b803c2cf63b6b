"""Questions at random places of random texts, most of them with faults: each is answered, and what is answered is in a text."""
import json
import random
import unittest
from pathlib import Path
from unittest.mock import Mock

from generated import checked

from bench61499 import Places
from bench61499.language.plant import Plant
from bench61499.language.positions import place, position, range_of
from bench61499.language.written import Written
from bench61499.lsp.answers import Answers
from bench61499.lsp.rename import CantRename

AT_PLACES = ("definition", "references", "documentHighlight", "hover", "completion", "prepareRename", "rename")
OF_TEXTS = ("documentSymbol", "semanticTokens/full", "foldingRange", "formatting")


class AnswersTest(unittest.TestCase):
    def setUp(self) -> None:
        self.chance = random.Random(1)

    def each_text(self, step=4):
        """Every fourth library, or with another step: its texts with their URIs, and answers about them."""
        for library in checked()[::step]:
            plant = Plant()
            for name, text in library.texts.items():
                plant.put(Path(f"/plant/{name}.fb"), text)
            plant.refresh()
            self.places = {f"file:///plant/{name}.fb": Places(text) for name, text in library.texts.items()}
            yield library, Answers(plant, lambda end: True, lambda path: [], self.fail, Mock(actions=lambda path, shown: []), dict)

    def check(self, answer):
        """All ranges of an answer, as it is sent, are ranges of the texts that it names."""
        if isinstance(answer, Written):
            self.check(json.loads(answer))
        elif isinstance(answer, list):
            for it in answer:
                self.check(it)
        elif isinstance(answer, dict):
            for uri, edits in answer.get("changes", {}).items():
                self.check([{"uri": uri, **it} for it in edits])
            if "uri" in answer:
                places, range_ = self.places[answer["uri"]], answer["range"]
                spans = [place(places, range_[side]) for side in ("start", "end")]
                self.assertEqual(range_of(places, *spans), range_)

    def test_at_places(self):
        for library, answers in self.each_text():
            for name, text in library.texts.items():
                places = Places(text)
                for _ in range(4):
                    at = position(places, self.chance.randrange(len(places.encoded) + 1))
                    for method in AT_PLACES:
                        params = {"textDocument": {"uri": f"file:///plant/{name}.fb"}, "position": at, "newName": "NEW"}
                        try:
                            self.check(answers.answer(f"textDocument/{method}", params))
                        except CantRename:
                            self.assertIn(method, ("prepareRename", "rename"))

    def test_of_texts(self):
        for library, answers in self.each_text():
            self.check(answers.answer("workspace/symbol", {"query": "a"}))
            for name in library.texts:
                for method in OF_TEXTS:
                    self.assertIsNotNone(answers.answer(f"textDocument/{method}", {"textDocument": {"uri": f"file:///plant/{name}.fb"}}))

    def test_fixes(self):
        count = 0
        for library, answers in self.each_text(step=1):
            for name, text in library.texts.items():
                document = {"uri": f"file:///plant/{name}.fb"}
                for fault in library.faults[name]:
                    shown = {"range": range_of(Places(text), fault.start, fault.end), "code": fault.code}
                    context = {"diagnostics": [shown]}
                    found = answers.answer("textDocument/codeAction", {"textDocument": document, "range": shown["range"], "context": context})
                    self.check([it["edit"] for it in found])
                    count += len(found)
        self.assertGreater(count, 100)


if __name__ == "__main__":
    unittest.main()
