"""The version of the clients."""
from __future__ import annotations

import argparse
import re

from bench61499.program import TOP

VERSION = "1.0.0"


def add_version(reader: argparse.ArgumentParser) -> None:
    words = f"{reader.prog} of bench61499 {VERSION}{_kit()}"
    reader.add_argument("--version", action="version", version=words, help="print the version, and that of the kit of a release, and do nothing else")


def _kit() -> str:
    """The kit of the release that the package lies in, if it lies in one."""
    report = TOP / "PROVED.txt"
    found = re.search(r"^kit +(rattle\S+)", report.read_text(encoding="utf-8"), re.M) if report.is_file() else None
    return f", {found[1]}" if found else ""
