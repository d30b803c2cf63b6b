"""A plant with the mistakes that engineers make first, and the exact words for each."""
from __future__ import annotations

import unittest

from support import CLIENTS, run, workbench

MISTAKES = CLIENTS / "tests" / "mistakes"
NOTE = "(not checked by the workbench: correct the SYNTAX fault first)"
TOLD = f"""\
CAMERA.fb:14:20: MEMBER_UNKNOWN: no field CAP_OKAY in BOTTLE, the type of ACTUAL; did you mean CAP_OK?
CELL.fb:6:37: LITERAL: ML_PER_PULSE is INT, and 5.5 is no whole number
CELL.fb:8:12: WRONG_KIND: RECIPE is a structure; did you mean RECIPES?
CELL.fb:12:12: DATA_TYPE: NCM is REAL, CAPPER.NCM is INT
CELL.fb:13:5: PORT_SIDE: SHORT is an output here: did you mean FILLER.SHORT TO SHORT?
CELL.fb:13:14: PORT_SIDE: FILLER.SHORT is an output: this link is turned round
DOSER.fb:4:3: SYNTAX: expected ";" after 1.5
FILLER.fb:14:27: EVENT_UNKNOWN: AVALVE has no event OPEND; did you mean OPENED?
HALL.fb:3:23: PARAMETER_UNKNOWN: PANEL, the type of PANEL, has no data input TITEL; did you mean TITLE?
HALL.fb:10:19: NO_SUCH_RESOURCE: RIGHT_PLC has no resource SAFETY; it has LINE_TWO and SCREEN
PUMP.fbt:1:1: SYNTAX: this is XML (IEC 61499-2), which bench61499 does not read; clients/exchange import translates it
SORTER.fb:29:3: SYNTAX: the IF in line 27 is not closed: END_IF is missing
SORTER.fb:23:16: STATE_UNKNOWN: no state IDEL in this chart; did you mean IDLE? {NOTE}
TWO.fb:3:1: SYNTAX: a file holds one unit, and this one ends in line 2
"""


class MistakesTest(unittest.TestCase):
    maxDiff = None

    def test_the_words(self) -> None:
        ran = run("check", ".", "PUMP.fbt", "--quiet", "--program", workbench(), folder=MISTAKES)
        self.assertEqual((ran.stdout, ran.stderr, ran.returncode), (TOLD, "", 1))

    def test_the_count_is_that_of_the_workbench(self) -> None:
        ran = run("check", ".", "PUMP.fbt", "--program", workbench(), folder=MISTAKES)
        self.assertEqual(ran.stdout.splitlines()[-2:], ["13 faults in 8 of 14 units", "1 note on texts with a SYNTAX fault, not checked by the workbench"])


if __name__ == "__main__":
    unittest.main()
