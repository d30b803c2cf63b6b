"""The samples of the exchange: each XML file with its text, all that is printed, and the faults that the workbench finds then."""
from __future__ import annotations

import unittest

from exchanging import OUT, ExchangeTest, Ran, Sample, at, exported, faults, imported, samples, spelling, spelling_with_comments, texts
from support import run, workbench

from bench61499.exchange.outgoing import TOOLS
from bench61499.language.layout import formatted


def in_no_order(text: str) -> list[str]:
    """The tokens of a text, whatever the order of its instances."""
    return sorted(it for it in spelling(text) if it not in ("FBS", "END_FBS", "SUBAPPS", "END_SUBAPPS"))


class SamplesTest(ExchangeTest):
    def imported(self, sample: Sample) -> Ran:
        lib = self.folder / sample.folder.name
        with at(sample.folder):
            ran = imported(sample.files, lib)
        return Ran(ran.status, [it.replace(str(lib), OUT) for it in ran.lines], ran.errors)

    def test_there_are_samples(self) -> None:
        self.assertEqual(len(list(samples())), 15)

    def test_lines_and_status(self) -> None:
        for sample in samples():
            with self.subTest(sample.folder.name):
                expected = [*sample.expected["lines"], sample.expected["summary"]]
                self.assertEqual(self.imported(sample), Ran(sample.expected["status"], expected, []))

    def test_texts(self) -> None:
        for sample in samples():
            with self.subTest(sample.folder.name):
                self.imported(sample)
                found, expected = texts(self.folder / sample.folder.name), sample.texts()
                self.assertEqual(found.keys(), expected.keys())
                for name, text in expected.items():
                    self.assertEqual(spelling_with_comments(found[name]), spelling_with_comments(text), name)
                    self.assertEqual(formatted(found[name]), [], name)

    def test_faults(self) -> None:
        for sample in samples():
            with self.subTest(sample.folder.name):
                self.imported(sample)
                self.assertEqual(faults(self.folder / sample.folder.name), sample.expected["faults"])

    def test_there_and_back(self) -> None:
        for tool in TOOLS:
            for sample in samples():
                with self.subTest(f"{sample.folder.name} for {tool}"):
                    xml, lib = (self.folder / f"{sample.folder.name}-{tool}-{it}" for it in ("xml", "lib"))
                    out = exported([sample.folder], xml, tool)
                    back = imported([xml], lib)
                    self.assertEqual((out.errors, back.errors), ([], []))
                    spell = in_no_order if any("as fbdk wants them" in it for it in out.lines) else spelling
                    found = {name: spell(text) for name, text in texts(lib).items()}
                    self.assertEqual(found, {name: spell(text) for name, text in sample.texts().items()})

    def test_what_export_tells(self) -> None:
        mapped = "for 4diac the mapping of App.Outer.{}, which is written: it maps nothing inside a subapplication that has a type"
        expected = {"untyped": [f"Cell.fb:24: left out: {mapped.format('M2')}", f"Cell.fb:25: left out: {mapped.format('Inner')}"]}
        for sample in samples():
            with self.subTest(sample.folder.name), at(sample.folder):
                told = exported(["."], self.folder / sample.folder.name).lines
                self.assertEqual(told[:-1], expected.get(sample.folder.name, []))

    def test_boot_files(self) -> None:
        for sample in samples():
            for system, words, files, lines, status in sample.expected.get("boot", []):
                with self.subTest(f"{sample.folder.name}, {system}"):
                    to = self.folder / system
                    ran = run("exchange", "boot", system, "--files", sample.folder, "--to", to, *words, "--program", workbench())
                    self.assertEqual((ran.stdout.replace(str(to), OUT).splitlines(), ran.stderr, ran.returncode), (lines, "", status))
                    self.assertEqual({it.name: it.read_text().splitlines() for it in to.iterdir()}, files)


if __name__ == "__main__":
    unittest.main()
