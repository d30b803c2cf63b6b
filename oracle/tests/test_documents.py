"""Each fault and each refusal that the documents name is one that the oracle gives."""
import json
import re
import unittest

from support import DOCUMENTS, ORACLE, Talk, block

import oracle
import seen

A = {"put": "A", "base": 0, "text": ""}
TAKE = {"op": "take"}


def commit(*changes):
    return {"op": "commit", "changes": list(changes)}


# Requests of which the last is refused so; more than the usual limits allow needs other limits.
REFUSALS = {
    "BadRequest": [{"op": "stop"}],
    "BadName": [{"op": "ask", "kind": "faults", "unit": "1"}],
    "TextTooLong": [commit({**A, "text": "x" * 65537})],
    "NoChange": [commit()],
    "TooManyChanges": [commit(*[A] * 17)],
    "SameUnitTwice": [commit(A, A)],
    "StaleBase": [commit({**A, "base": 1})],
    "NoSuchUnit": [commit({"remove": "A", "base": 0})],
    "TooManyUnits": [commit(A, {**A, "put": "B"}, {**A, "put": "C"})],
    "HistoryFull": [TAKE] * 6,
    "NoSuchKey": [{"op": "ask", "kind": "faults", "unit": "A"}],
    "NotPending": [commit(A), TAKE, {"op": "deliver", "job": 1}, {"op": "deliver", "job": 1}],
    "Stale": [commit(A), TAKE, commit({**A, "base": 1}), {"op": "deliver", "job": 1}],
    "TooManyJobs": [commit(A)] + [TAKE, {"op": "give_back", "kind": "faults", "unit": "A"}] * 64 + [TAKE],
    "NoSuchJob": [{"op": "deliver", "job": 1}],
    "UnitsOver": [commit(A, {**A, "put": "B"}), {"op": "checkpoint", "units": 1, "history": 1}],
    "NumbersOver": [{"op": "checkpoint", "units": 1, "history": 10_000_000}],
}
LIMITS = {"TooManyUnits": {"units": 2}, "HistoryFull": {"history": 5}}
# Words of WORKBENCH.md that are spelled like refusals: other answers and names of types, how a run ends, and what no script meets.
OTHERS = {"Accepted", "Value", "Pending", "Finished", "Bench", "Machine", "Script", "End", "LineTooLong", "ReadFailed", "TurnsOver", "WriteFailed"}
NOT_OF_A_SCRIPT = {"NothingOut", "Memory", "NotAlone", "CallersFew", "Behind"}


class FaultsTest(unittest.TestCase):
    def test_codes_are_those_of_the_document(self):
        rows = re.findall(r"^\| (\d+) \| `([A-Z_]+)` \| [^`\[]", (DOCUMENTS / "LANGUAGE.md").read_text(), re.M)
        self.assertEqual([(str(at), code) for at, code in enumerate(oracle.CODES)][1:], rows)

    def test_each_code_is_in_an_example(self):
        given = re.findall(r"\b([A-Z_]+) \d+ \d+(?:, |$)", (ORACLE / "tests/units.examples").read_text(), re.M)
        self.assertEqual(set(oracle.CODES[1:]), set(given))


class InstancesTest(unittest.TestCase):
    def test_a_net_has_4096_instances_at_most(self):
        subapplication = "SUBAPPLICATION %s FBS %s END_FBS SUBAPPS %s END_SUBAPPS END_SUBAPPLICATION"
        texts = {"B": block("B"), "D0": subapplication % ("D0", "".join("F%d:B;" % i for i in range(61)), "")}
        for i in range(1, 7):
            texts["D%d" % i] = subapplication % ("D%d" % i, "", "F:D%d; G:D%d;" % (i - 1, i - 1))
        size = 64 * 61 + 2 * (2**6 - 1)
        for extra, form in ((4096 - size - 1, "blocks"), (4096 - size, "too_large")):
            texts["U"] = subapplication % ("U", "".join("H%d:B;" % i for i in range(extra)), "D:D6;")
            self.assertEqual(form, oracle.Library(texts).net("U")[0])


class RefusalsTest(unittest.TestCase):
    def test_refusals_are_those_of_the_document(self):
        words = set(re.findall(r"`([A-Z][a-z]+(?:[A-Z][a-z]+)*)`", (DOCUMENTS / "WORKBENCH.md").read_text()))
        self.assertEqual(set(REFUSALS), words - OTHERS - NOT_OF_A_SCRIPT)
        self.assertEqual(set(REFUSALS) - {"NumbersOver"}, {it for some in seen.REFUSALS.values() for it in some})

    def test_each_refusal_is_answered(self):
        for name, requests in REFUSALS.items():
            talk = Talk(**LIMITS.get(name, {}))
            talk.session.machine.earlier = 2**64 - 5 if name == "NumbersOver" else 0
            replies = [json.loads(talk.session.reply(json.dumps(it).encode())) for it in requests]
            self.assertEqual(name, replies[-1].get("refused"))
            self.assertFalse([it for it in replies[:-1] if "refused" in it])


if __name__ == "__main__":
    unittest.main()
