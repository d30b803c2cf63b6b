"""Nothing of a file is lost without a word, and whatever is in it, what is written is whole and in its folder."""
from __future__ import annotations

import random
import re
import shutil
import unittest
from collections.abc import Iterator
from pathlib import Path
from tempfile import TemporaryDirectory

from exchanging import ExchangeTest, Ran, Sample, at, faults, imported, samples, texts

from bench61499.exchange.context import POSITIONS
from bench61499.exchange.from_text import read_unit
from bench61499.exchange.xmlfile import ENDINGS, Element, read_xml

ELEMENT = re.compile(r"<[A-Za-z][^>]*>")
ATTRIBUTE = re.compile(r'(\s)([\w:]+)="([^"]*)"')
WORDS = re.compile(r"<!\[CDATA\[(.*?)\]\]>|(?<=>)([^<>]*\S[^<>]*)(?=</)", re.DOTALL)
TAG = re.compile(r'<([A-Za-z]\w*)((?:[^>"]|"[^"]*")*?)(/?)>')
ODD = (
    """<FBType Name="F"><CompilerInfo><Linker Name="L"/></CompilerInfo><InterfaceList/><BasicFB><Method Name="M"><InputVars><VarDeclaration Name="V" Type="INT"/>
    </InputVars><ST>M := 1;</ST></Method></BasicFB><Service LeftInterface="A" RightInterface="B"><ServiceSequence Name="1"><ServiceTransaction>
    <InputPrimitive Interface="A" Event="E"/></ServiceTransaction></ServiceSequence></Service></FBType>""",
    '<DataType Name="F"><EnumeratedType><EnumeratedValue Name="RED"/></EnumeratedType></DataType>',
    '<DataType Name="F"><StructuredType><VarDeclaration Name="V" Type="INT"/></StructuredType></DataType>',
)
PART = re.compile(r"left out: (element|attribute \S+ =|the (segment|link|block|subapplication|connection|service sequence|algorithm|data type|group) )")
MARK = "Zq{}x"
NASTY = (
    "*)", "(*", "(* x *)", "//", "/* */", "END_VAR", "END_ALGORITHM", "END_SERVICE", "ALGORITHM X", "'", '"', "$", "::", "a::b", "a::b::c", "", " ", ".", "..",
    "A.B.C", "5", "-5", "1e5", "[1, 2]", "[", "]", "(X := 1)", ";", ":=", "TYPE", "Type_", "ST", "Größe", "../x", "/etc/x", "E & B OR C", "E[", "NOT_READ", "1",
    "TRUE", "\n", "\r", "\t", "a b", "X" * 70, "ARRAY [0..1] OF INT", "STRING[9]", "POINTER TO X", "0", "-1..1", "*", "X := 1; (* ' *)", "IF", "{p}", "\ufffd",
)


def sources(sample: Sample) -> Iterator[Path]:
    yield from sorted(it for it in sample.folder.iterdir() if it.suffix in ENDINGS)


def different() -> Iterator[tuple[Path, str]]:
    """The XML files of all samples with their content, each content once."""
    found: dict[str, Path] = {}
    for file in (it for sample in samples() for it in sources(sample)):
        found.setdefault(file.read_bytes().decode("iso-8859-1" if file.parent.name == "java" else "utf-8"), file)
    return ((file, text) for text, file in found.items())


def escaped(words: str) -> str:
    for sign, its in {"&": "&amp;", "<": "&lt;", ">": "&gt;", '"': "&quot;", "\n": "&#10;", "\r": "&#13;", "\t": "&#9;"}.items():
        words = words.replace(sign, its)
    return words


def places(text: str) -> list[tuple[int, int, str]]:
    """The values of attributes and the words of a file: where they are, and the name of the attribute."""
    elements = ((it.start(), it[0]) for it in ELEMENT.finditer(text))
    its = [(begin + it.start(3), begin + it.end(3), it[2]) for begin, words in elements for it in ATTRIBUTE.finditer(words)]
    return its + [(*(it.span(1) if it[1] is not None else it.span(2)), "") for it in WORDS.finditer(text)]


def with_marks(text: str) -> tuple[str, int]:
    """A file with an attribute of its own in each element, and the number of elements."""
    pieces = re.split(r"(?=<[A-Za-z])", text)
    marked = (re.sub(r"^<\w+", rf'\g<0> {MARK.format(number)}="a"', piece) for number, piece in enumerate(pieces[1:]))
    return "".join([pieces[0], *marked]), len(pieces) - 1


class LostTest(ExchangeTest):
    def changed(self, file: Path, text: str) -> Ran:
        """What is printed of a sample where a file has another text."""
        shutil.rmtree(self.folder)
        shutil.copytree(file.parent, self.folder, ignore=shutil.ignore_patterns("*.fb", "*.fboot"))
        encoding = "iso-8859-1" if 'encoding="ISO-8859-1"' in text else "utf-8"
        (self.folder / file.name).write_text(text, encoding, errors="xmlcharrefreplace", newline="")
        with at(self.folder):
            ran = imported(["."], Path("lib"))
        self.assertEqual([it for it in ran.errors if "both declare" not in it], [])
        return ran

    def is_kept(self, mark: str, ran: Ran) -> bool:
        return any(mark in it for it in (*ran.lines, *texts(self.lib).values()))

    def is_in_a_part_that_is_left_out(self, file: Path, ran: Ran, mark: str) -> bool:
        told = {int(it.split(":")[1]) for it in ran.lines if it.startswith(f"{file.name}:") and PART.search(it)}
        return any(it.line in told for it in around(read_xml(self.folder / file.name).root, mark))

    def test_each_attribute_and_word_is_kept_or_told(self) -> None:
        tried = 0
        for file, text in different():
            for number, (begin, end, name) in enumerate(places(text)):
                if name in POSITIONS or re.match(r'[^<]*\sValue=""', text[end:]):  # A parameter without a value is nothing.
                    continue
                mark = MARK.format(number)
                ran = self.changed(file, text[:begin] + mark + text[end:])
                told = any(f"attribute {name} of" in it for it in ran.lines)
                kept = told or self.is_kept(mark, ran) or self.is_in_a_part_that_is_left_out(file, ran, mark)
                self.assertTrue(kept, (file.name, text[max(0, begin - 60) : end], ran.lines))
                tried += 1
        self.assertGreater(tried, 500)

    def test_an_attribute_that_nobody_knows_is_told(self) -> None:
        for file, text in different():
            marked, number = with_marks(text)
            ran = self.changed(file, marked)
            for each in range(number):
                mark = MARK.format(each)
                kept = self.is_kept(mark, ran) or self.is_in_a_part_that_is_left_out(file, ran, mark)
                self.assertTrue(kept, (file.name, mark, marked))

    def test_words_and_elements_in_any_element_are_told(self) -> None:
        """Also where the element around them is left out as a whole."""
        odd = TemporaryDirectory()
        self.addCleanup(odd.cleanup)
        files = [Path(odd.name, str(number), "F.fbt") for number in range(len(ODD))]
        for file, text in zip(files, ODD):
            file.parent.mkdir()
            file.write_text(text)
        for file, text in (*different(), *zip(files, ODD)):
            for number, tag in enumerate(TAG.finditer(text)):
                for words in (f"<{MARK.format(number)}/>", MARK.format(number)):
                    self.check_in_element(file, text, tag, words)

    def check_in_element(self, file: Path, text: str, tag: re.Match[str], words: str) -> None:
        end = f"</{tag[1]}>" if tag[3] else ""
        ran = self.changed(file, f"{text[: tag.start()]}<{tag[1]}{tag[2]}>{words}{end}{text[tag.end() :]}")
        is_body = tag[1] in ("ST", "Other") and any("its body can't stand in a text" in it for it in ran.lines)
        self.assertTrue(is_body or self.is_kept(words.strip("</>"), ran), (file.name, tag[0], words, ran.lines))

    def test_whatever_is_in_a_file_the_texts_are_whole(self) -> None:
        rng = random.Random(61499)
        files = list(different())
        for _ in range(200):
            file, text = rng.choice(files)
            for begin, end, name in sorted(rng.sample(places(text), min(len(places(text)), rng.choice((1, 3, 20)))), reverse=True):
                words = rng.choice(NASTY)
                text = text[:begin] + (escaped(words) if name else words.replace("]]>", "").replace("<", "").replace("&", "")) + text[end:]
            self.changed(file, text)
            for its in texts(self.lib).values():
                read_unit(its)
            written = {it.relative_to(self.folder) for it in self.folder.rglob("*")} - {Path(it.name) for it in file.parent.iterdir()}
            self.assertTrue(all(it.parts[0] == "lib" and len(it.parts) < 3 for it in written), written)

    def test_the_workbench_reads_them_too(self) -> None:
        rng = random.Random(4)
        for file, text in different():
            for begin, end, name in sorted(rng.sample(places(text), min(len(places(text)), 12)), reverse=True):
                text = text[:begin] + (escaped(rng.choice(NASTY)) if name else "'") + text[end:]
            self.changed(file, text)
            self.assertEqual([it for it in faults(self.lib) if it[1] == "SYNTAX"], [], text)


def around(element: Element, mark: str) -> list[Element]:
    """The elements around a mark, and the one that has it."""
    if mark in (*element.attributes, *element.attributes.values()) or mark in element.text:
        return [element]
    inner: list[Element] = next((its for it in element.children if (its := around(it, mark))), [])
    return [element, *inner] if inner else []


if __name__ == "__main__":
    unittest.main()
