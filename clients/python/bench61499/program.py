"""Which program of the workbench a client starts."""
from __future__ import annotations

import os
import shutil
import sys
from functools import cache
from pathlib import Path

from bench61499.session import NoWorkbench

TOP = Path(__file__).resolve().parents[3]
"""The folder of the repository or of the release, if the package lies in one."""
BUILT = TOP / "crates" / "bench61499" / "out" / "bench61499"
"""The program that a repository proves and builds."""
QUICK = BUILT.with_name("bench61499-quick")
"""The program that it builds without proofs."""
PROGRAMS = (BUILT, TOP / "bin" / "bench61499", QUICK)
"""Where a repository or a release has its programs, the better first."""


def find_program() -> str:
    """The program that `BENCH61499_PROGRAM` names, else the one of this repository or release, else `bench61499` on the path.

    Builds nothing. If it finds the program that is built without proofs, it says so on standard error, once. Raises `NoWorkbench` if there is none.
    """
    own = next((str(it) for it in PROGRAMS if os.access(it, os.X_OK)), None)
    named = os.environ.get("BENCH61499_PROGRAM")
    found = named or own or shutil.which("bench61499")
    if not found:
        raise NoWorkbench(f"no workbench program found: {_build()}name it with --program or BENCH61499_PROGRAM, or put bench61499 on the path")
    if not named and own == str(QUICK):
        _say_not_proved()
    return found


@cache
def _say_not_proved() -> None:
    print(f"{QUICK} is not proved: `{TOP}/run script </dev/null` proves and builds the program, in half an hour to an hour", file=sys.stderr)


def _build() -> str:
    run = TOP / "run"
    return f"build it with `{run} --quick script </dev/null` (without `--quick` it is proved, in up to an hour), " if run.exists() else ""
