"""What the tests share: the oracle's modules, and short forms of conversations."""
import json
import os
import sys
import unittest
from pathlib import Path

ORACLE = Path(__file__).resolve().parents[1]
DOCUMENTS = ORACLE.parent / "docs"
sys.path.insert(0, str(ORACLE))

import lines  # noqa: E402
from machine import Machine  # noqa: E402


def program():
    """The built program; without one the test is skipped."""
    path = Path(os.environ.get("BENCH61499_PROGRAM", ORACLE.parent / "crates/bench61499/out/bench61499"))
    if not path.exists():
        raise unittest.SkipTest("no workbench at %s; build it, or set BENCH61499_PROGRAM" % path)
    return path


class Talk:
    """A session that is spoken to in Python values."""
    def __init__(self, **limits):
        self.session = lines.Session(Machine(**limits))

    def say(self, op, **members):
        return json.loads(self.session.reply(json.dumps({"op": op, **members}).encode()))

    def commit(self, *changes):
        return self.say("commit", changes=list(changes))

    def put(self, **texts):
        """Puts units whatever their revisions are."""
        put = self.session.machine.put
        return self.commit(*({"put": name, "base": put[name][0] if name in put else 0, "text": text} for name, text in texts.items()))

    def value(self, kind, unit):
        self.say("work", turns=1000)
        return self.say("ask", kind=kind, unit=unit)[kind]


def block(name, declarations=""):
    return "FUNCTION_BLOCK %s %s END_FUNCTION_BLOCK" % (name, declarations)
