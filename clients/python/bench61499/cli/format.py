"""Lays out the texts of units: files, folders, or standard input."""
from __future__ import annotations

import argparse
import os
import sys
from collections.abc import Callable, Iterable, Iterator
from contextlib import suppress
from pathlib import Path

from bench61499 import TEXT_LIMIT, Places
from bench61499.cli.command import program, read_path, tell
from bench61499.cli.version import add_version
from bench61499.language.grammar import first_stop
from bench61499.language.layout import applied, formatted
from bench61499.language.names import shown
from bench61499.language.spelling import Differing, differing, differing_in
from bench61499.language.syntax import explained
from bench61499.language.texts import Texts
from bench61499.language.tokens import declared_name, tokens
from bench61499.language.units import Misuse, find_files, read_text
from bench61499.language.writing import write_over

INPUT = Path("-")


@program
def main() -> int:
    options = read_options()
    status = 0

    def fail(error: Misuse) -> None:
        nonlocal status
        status = 2
        tell(str(error))

    those = list(files(options.path, fail))
    spellings = spellings_of(those)
    for file in those:
        try:
            changes = format_input(options.check) if file == INPUT else format_file(file, options.check, spellings.get(file, ("", [])))
        except Misuse as error:
            fail(error)
            continue
        if changes and options.check:
            status = status or 1
    return status


def read_options() -> argparse.Namespace:
    reader = argparse.ArgumentParser(
        prog="format",
        description="Lays out units: lines indented by nesting, one blank or none between tokens, at most one empty line. Each use of a name gets the capitals of "
        "its declaration, as far as the files have that. All other tokens, comments and line breaks stay. Prints the names of the files that it changes.",
        epilog="The status is 0 if all is laid out; 1 with --check if something is not; 2 if a text is broken, would be longer than 65,536 bytes, or can't be read "
        "or written: it stays unchanged, with a line on standard error.",
    )
    add_version(reader)
    reader.add_argument("path", nargs="+", type=read_path, metavar="FOLDER|FILE|-", help="*.fb files, or folders of them; - is standard input, laid out to standard output")
    reader.add_argument("--check", action="store_true", help="change nothing, and print the names of the files that would change")
    return reader.parse_args()


def files(paths: Iterable[Path], failed: Callable[[Misuse], object]) -> Iterator[Path]:
    """The files of the paths. What can't be looked at is no hindrance to the others: `failed` gets it, or it is reported when it is read."""
    its = list(dict.fromkeys(paths))
    there = [it for it in its if it != INPUT and (os.path.isfile(it) or os.path.isdir(it))]
    yield from find_files(there, failed)
    yield from (it for it in its if it not in there)


Spellings = tuple[str, list[Differing]]
"""A text, and the uses of names in it that are spelled otherwise than their declarations."""


def spellings_of(those: Iterable[Path]) -> dict[Path, Spellings]:
    """By file the uses that are spelled otherwise than their declarations in one of the files. What can't be read is reported later."""
    texts: dict[str, str] = {}
    names: dict[Path, str] = {}
    for file in (it for it in those if it != INPUT):
        with suppress(Misuse):
            text = read_text(file)
            name = declared_name(text)
            if name and texts.setdefault(name, text) is text:
                names[file] = name
    found = differing(texts, Texts.of(texts))
    return {file: (texts[name], found[name]) for file, name in names.items() if name in found}


def format_input(is_check: bool) -> bool:
    """Lays out standard input; a text that can't be laid out goes out as it is. Tells whether that changes something."""
    content = sys.stdin.buffer.read()
    out = content
    try:
        text = _decoded(content)
        out = laid_out("standard input", text, list(differing_in(text, Texts.of({declared_name(text) or "": text})))).encode()
    finally:
        if not is_check:
            sys.stdout.buffer.write(out)
    if is_check and out != content:
        print(INPUT)
    return out != content


def _decoded(content: bytes) -> str:
    try:
        return content.decode()
    except UnicodeDecodeError as error:
        raise Misuse(f"standard input: is not UTF-8: byte {error.start} is 0x{content[error.start]:02x}") from error


def format_file(file: Path, is_check: bool, known: Spellings) -> bool:
    """Lays out a file and prints its name where that changes it."""
    text = read_text(file)
    new = laid_out(shown(file), text, known[1] if known[0] == text else [])
    if new == text:
        return False
    if not is_check:
        write(file, new)
    print(shown(file))
    return True


def laid_out(name: str, text: str, spellings: list[Differing]) -> str:
    """The text in its one form, with these uses spelled as their declarations. Raises `Misuse` for one that is broken, or would be too long then."""
    its = list(tokens(text))
    if stop := first_stop(its):
        places = Places(text)
        place = its[stop.at].start if stop.at < len(its) else len(places.encoded)
        line, column = places.line_column(place)
        raise Misuse(f"{name}:{line}:{column}: left as it is: {explained(text, its, stop.at)}")
    new = applied(text, sorted([*formatted(text), *((it.start, it.end, it.declared) for it in spellings)]))
    if (size := len(new.encode())) > TEXT_LIMIT:
        raise Misuse(f"{name}: left as it is: laid out it would have {size:,} bytes, and the text of a unit has at most {TEXT_LIMIT:,}")
    return new


def write(file: Path, text: str) -> None:
    """Gives a file another text, wholly or not at all; of a link the file that it leads to. Raises `Misuse`."""
    try:
        target = file.resolve(strict=True)
        write_over(target, text.encode(), target.stat().st_mode & 0o777)
    except OSError as error:
        raise Misuse(f"{shown(file)}: can't be written: {error.strerror}") from error
