"""Runs all tests of this folder, three files at a time, each file in a process of its own, and names at the end those that were skipped, with what they lack.

clients/tests [--jobs N]

Tests of editors, pages and sessions wait for other programs, with bounds. So a few that fail are run once more, alone, and are named: what fails again has failed."""
from __future__ import annotations

import argparse
import json
import subprocess
import sys
import time
import unittest
from concurrent.futures import ThreadPoolExecutor
from pathlib import Path
from typing import NamedTuple

HERE = Path(__file__).resolve().parent
FIRST = "test_board", "test_sync", "test_structures", "test_rules", "test_board_page", "test_team", "test_library", "test_lsp"
"""The files that take longest, and so begin first."""
MOST = 5
"""The number of tests that may be run once more."""
LIMIT = 900.0
"""Seconds in which a file has to end."""


class Outcome(NamedTuple):
    """What came of some tests."""

    run: int
    failed: list[str]
    skipped: list[str]


def here(names: list[str]) -> Outcome:
    """Runs tests in this process."""
    result = unittest.TextTestRunner().run(unittest.defaultTestLoader.loadTestsFromNames(names))
    tests = [test for test, _ in result.failures + result.errors] + result.unexpectedSuccesses
    failed = {getattr(test, "test_case", test).id() for test in tests}
    return Outcome(result.testsRun, sorted(failed), [f"{test.id()}: {reason}" for test, reason in result.skipped])


def apart(names: list[str]) -> Outcome:
    """Runs tests in a process of their own, and passes on what they say once they have ended. All have failed if it does not end well."""
    begun, found = time.monotonic(), Outcome(0, names, [])
    try:
        ran = subprocess.run([sys.executable, HERE, "--here", *names], stdin=subprocess.DEVNULL, capture_output=True, text=True, errors="replace", timeout=LIMIT)
        said = ran.stderr
        if not ran.returncode:
            found = Outcome(*json.loads(ran.stdout.splitlines()[-1]))
    except subprocess.TimeoutExpired:
        said = f"no end in {LIMIT:.0f} seconds\n"
    print(f"{said}{' '.join(names)}: {time.monotonic() - begun:.0f} s\n", file=sys.stderr, flush=True)
    return found


def told(found: Outcome, seconds: float) -> str:
    """The sum, in unittest's words."""
    details = [f"{name}={count}" for name, count in (("failures", len(found.failed)), ("skipped", len(found.skipped))) if count]
    lines = [f"skipped: {it}" for it in found.skipped] + [f"Ran {found.run} tests in {seconds:.3f}s", ""]
    return "\n".join([*lines, ("FAILED" if found.failed else "OK") + (f" ({', '.join(details)})" if details else "")])


def all_of(jobs: int) -> int:
    """Runs the files side by side, and a few that fail once more, alone."""
    begun = time.monotonic()
    files = sorted((it.stem for it in HERE.glob("test_*.py")), key=lambda it: (FIRST.index(it) if it in FIRST else len(FIRST), it))
    with ThreadPoolExecutor(jobs) as pool:
        found = list(pool.map(lambda it: apart([it]), files))
    failed = [name for it in found for name in it.failed]
    if 0 < len(failed) <= MOST:
        print(f"once more, alone: {', '.join(failed)}", file=sys.stderr, flush=True)
        failed = apart(failed).failed
    whole = Outcome(sum(it.run for it in found), failed, [name for it in found for name in it.skipped])
    print(told(whole, time.monotonic() - begun), file=sys.stderr)
    return int(bool(failed))


def main() -> int:
    reader = argparse.ArgumentParser(description="Runs all tests of this folder.")
    reader.add_argument("--jobs", type=int, default=3, help="files at a time")
    reader.add_argument("--here", nargs="+", metavar="NAME", help="run these in this process, and print what came of them as JSON")
    options = reader.parse_args()
    if options.here:
        print("\n" + json.dumps(here(options.here)))
        return 0
    return all_of(options.jobs)


if __name__ == "__main__":
    sys.exit(main())
