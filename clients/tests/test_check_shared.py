"""check with a workbench that others use too: it is asked, and changed only if that is asked for."""
from __future__ import annotations

import argparse
import contextlib
import io
import json
import sqlite3
import subprocess
import unittest
from contextlib import closing
from pathlib import Path
from subprocess import CompletedProcess
from unittest.mock import patch
from xml.etree import ElementTree

from support import CLIENTS, HISTORY, InFolder, hosting, run, serving, until, used

from bench61499 import Change, Commit, ConnectionEnded, Fault, NoResult, NotLetIn, Put, Remove, Session, batches
from bench61499.cli.check import Checked
from bench61499.cli.check import main as check_main
from bench61499.cli.command import AGAIN, Progress, persistently
from bench61499.cli.comparing import Difference, How, Judged, replace
from bench61499.cli.looking import ONLY_ASKED
from bench61499.language.units import Misuse, Unit
from bench61499.secret import secret_file
from bench61499.session import PATIENCE
from bench61499.snapshot import Snapshot
from bench61499.sync.store import NAME, STATE

ASKED = f"{ONLY_ASKED}\n"
SAME = "The workbench has the same texts.\n"
LENT = "units rest on others that only the workbench has: B"
OTHERS = "The faults are those of the workbench's texts.\n"
CONFLICT = "<<<<<<< mine\n// 1\n=======\n// 2\n>>>>>>> theirs\n"
GOOD, BAD = "FUNCTION_BLOCK A END_FUNCTION_BLOCK", "FUNCTION_BLOCK A EVENT_INPUT E WITH X; END_EVENT END_FUNCTION_BLOCK"


class Shared(InFolder):
    """A workbench that others use too."""

    def check(self, port: int, *words: object, **surroundings: str) -> CompletedProcess[str]:
        return run("check", ".", "--connect", f":{port}", *words, folder=self.folder, **surroundings)


class HostTest(Shared):
    """A host gives texts back: they are compared."""

    def setUp(self) -> None:
        super().setUp()
        self.port = self.enterContext(hosting())
        self.other = self.enterContext(Session.connect("127.0.0.1", self.port))

    def assert_checked(self, status: int, printed: str, told: str, *words: object) -> None:
        """Runs check; it records nothing."""
        until(lambda: not self.other.status().pending)
        calls = self.other.status().calls
        ran = self.check(self.port, *words)
        self.assertEqual((ran.returncode, ran.stdout, ran.stderr), (status, printed, told))
        self.assertEqual(self.other.status().calls, calls)

    def test_texts_are_compared(self):
        self.write("a.fb", GOOD)
        self.assert_checked(2, f"0 units, no faults\n1 unit not checked\n{OTHERS}", "check: not checked, as the workbench has no such unit: A; --replace puts them\n")
        self.other.commit([Put("A", 0, f"{GOOD}\n")])
        told = "check: not checked, as the workbench has another text: A; --replace puts those of the files over it\n"
        self.assert_checked(2, f"0 units, no faults\n1 unit not checked\n{OTHERS}", told)
        self.other.commit([Put("A", 1, GOOD), Put("Z", 0, "")])
        self.assert_checked(0, f"1 unit, no faults\n{OTHERS}", "check: the workbench has also units that no file has: Z\n")
        self.other.commit([Put("A", 2, BAD), Remove("Z", 2)])
        self.write("a.fb", BAD)
        self.assert_checked(1, "a.fb:1:37: WITH_UNKNOWN: no data input X to go with this event\n", "", "--quiet")
        self.other.commit([Put("A", 3, GOOD)])
        self.write("a.fb", GOOD)
        self.assert_checked(0, f"1 unit, no faults\n{SAME}", "")

    def test_a_file_of_which_the_workbench_has_another_text_is_never_fine(self):
        """The text there has no fault, the file has one."""
        self.write("a.fb", BAD)
        self.other.commit([Put("A", 0, GOOD)])
        for words in ["--json"], ["--quiet"], *(["--format", it] for it in ("human", "github", "sarif", "junit")):
            ran = self.check(self.port, *words)
            self.assertEqual(ran.returncode, 2)
            self.assertIn("another text", ran.stderr)

    def test_forms_tell_what_was_judged(self):
        self.write("a.fb", GOOD)
        self.write("b.fb", BAD.replace("A", "B", 1))
        self.write("c.fb", GOOD.replace("A", "C", 1))
        self.other.commit([Put("B", 0, BAD.replace("A", "B", 1)), Put("C", 0, ""), Put("D", 0, "")])
        self.assertIn("1 fault in 1 of 1 unit\n2 units not checked\n", self.check(self.port).stdout)
        made = json.loads(self.check(self.port, "--json").stdout)
        self.assertEqual((made["judged"], made["unchecked"]), ("workbench", ["A", "C"]))
        self.assertEqual([tuple(it.values()) for it in made["differences"]], [("A", "a.fb", "only here"), ("C", "c.fb", "differs"), ("D", None, "only there")])
        ran = self.check(self.port, "--format", "junit")
        (suite,) = suites = ElementTree.fromstring(ran.stdout)
        self.assertEqual((ran.returncode, suites.attrib["tests"], suites.attrib["failures"], suites.attrib["skipped"]), (2, "3", "1", "2"))
        self.assertEqual(suite.find("properties/property").attrib, {"name": "judged", "value": "workbench"})
        self.assertEqual([(it.attrib["name"], it[0].tag) for it in suite.findall("testcase")], [("A", "skipped"), ("B", "failure"), ("C", "skipped")])
        (log,) = json.loads(self.check(self.port, "--format", "sarif").stdout)["runs"]
        (invocation,) = log["invocations"]
        self.assertEqual((log["properties"], invocation["executionSuccessful"]), ({"judged": "workbench"}, False))
        self.assertEqual([it["message"]["text"] for it in invocation["toolExecutionNotifications"]], [
            "not checked: A is only here", "not checked: C has another text in the workbench",
        ])
        self.assertEqual(self.check(self.port, "--format", "github").stdout.splitlines()[1:], [
            "::warning file=a.fb,title=NOT_CHECKED::not checked: A is only here",
            "::warning file=c.fb,title=NOT_CHECKED::not checked: C has another text in the workbench",
            "::notice title=JUDGED::the texts of the workbench",
        ])

    def test_marked_lines_are_not_put(self):
        """No file is, as with any other file that is refused."""
        self.other.commit([Put("A", 0, GOOD), Put("Z", 0, "")])
        self.write("a.fb", f"{GOOD}\n\n{CONFLICT}")
        self.write("b.fb", BAD.replace("A", "B", 1))
        words = "has the marked lines of a conflict, and is not committed until they are gone"
        self.assert_checked(2, "", f"check: a.fb:3: {words}\n", "--replace", "--mirror")
        self.write("c.fb", f"{GOOD.replace('A', 'C', 1)}\n{CONFLICT}")
        self.assert_checked(2, "", f"check: a.fb:3: {words}; so has 1 other file\n", "--replace")
        self.assertEqual({unit: it.text for unit, it in self.other.texts("AZ").items()}, {"A": GOOD, "Z": ""})
        own = run("check", ".", folder=self.folder)
        self.assertIn("a.fb:3:1: SYNTAX: these are the marked lines of a merge", own.stdout)

    def test_what_both_had_last(self):
        """A folder that is kept the same by sync has the texts that were common."""
        texts = {name: GOOD.replace(" A ", f" {name} ") for name in ("HERE", "THERE", "BOTH", "GONE", "NEW", "LEFT", "SAME")}
        self.other.commit([Put(name, 0, texts[name]) for name in texts if name not in ("NEW", "GONE")])
        for name in texts.keys() - {"LEFT"}:
            self.write(f"{name}.fb", texts[name] + ("\n" if name in ("HERE", "BOTH") else ""))
        self.other.commit([Put(name, 1, f"{texts[name]}\n\n") for name in ("THERE", "BOTH")])
        common = {name: text for name, text in texts.items() if name != "NEW"}
        told = {"HERE": "changed here", "THERE": "changed there", "BOTH": "changed on both sides", "GONE": "removed there", "LEFT": "removed here", "NEW": "only here"}
        self.assertEqual(self.differences(self.other.status().workbench, common), told)
        self.assertEqual(self.differences("0" * 32, common), {
            **dict.fromkeys(("HERE", "THERE", "BOTH"), "differs"), **dict.fromkeys(("GONE", "NEW"), "only here"), "LEFT": "only there",
        })

    def test_a_folder_that_sync_keeps(self):
        if not (CLIENTS / "sync").exists():
            self.skipTest("there is no sync yet")
        self.other.commit([Put(name, 0, GOOD.replace(" A ", f" {name} ")) for name in ("HERE", "THERE", "SAME")])
        self.assertEqual(run("sync", ".", "--connect", f":{self.port}", "--pull", folder=self.folder).returncode, 0)
        self.other.commit([Put("THERE", 1, "")])
        (self.folder / "HERE.fb").write_text("")
        made = json.loads(self.check(self.port, "--json").stdout)
        self.assertEqual({it["unit"]: it["difference"] for it in made["differences"]}, {"HERE": "changed here", "THERE": "changed there"})

    def differences(self, workbench: str, common: dict[str, str]) -> dict[str, str]:
        """What check prints of a folder that had these texts in common with a workbench."""
        state = self.folder / NAME / STATE
        state.parent.mkdir(exist_ok=True)
        state.unlink(missing_ok=True)
        with closing(sqlite3.connect(state)) as tables, tables:
            tables.execute("CREATE TABLE workbench (identity TEXT NOT NULL)")
            tables.execute("CREATE TABLE common (unit TEXT PRIMARY KEY, file TEXT NOT NULL, revision INTEGER NOT NULL, text TEXT NOT NULL, workbench TEXT NOT NULL)")
            tables.execute("INSERT INTO workbench VALUES (?)", (workbench,))
            tables.executemany("INSERT INTO common VALUES (?, ?, 1, ?, ?)", [(unit, f"{unit}.fb", text, workbench) for unit, text in common.items()])
        made = json.loads(self.check(self.port, "--json").stdout)
        return {it["unit"]: it["difference"] for it in made["differences"]}

    def test_all_units_of_a_server(self):
        self.other.commit([Put("A", 0, BAD), Put("B", 0, "FUNCTION_BLOCK B FBS X : A; Y : LIFTR; END_FBS END_FUNCTION_BLOCK"), Put("LIFTER", 0, "ADAPTER LIFTER END_ADAPTER")])
        ran = run("check", "--connect", f":{self.port}", "--quiet", "--plans", folder=self.folder)
        self.assertEqual((ran.returncode, ran.stderr), (1, ""))
        self.assertEqual([it.split(":")[0] for it in ran.stdout.splitlines()], ["A.fb", "B.fb"])
        self.assertIn("did you mean LIFTER?", ran.stdout)
        self.assertIn("name files or folders", run("check", folder=self.folder).stderr)

    def test_a_unit_that_goes_while_all_are_checked(self):
        """No advice names an option that needs a path."""
        checked = Checked([Unit("A", Path("A.fb"), GOOD)], {}, judged=Judged.WORKBENCH, differences=[Difference("A", Path("A.fb"), How.ONLY_HERE)])
        for path, told in ((), ""), (("A.fb",), "; --replace puts them"):
            with patch("sys.argv", ["check", *path, "--connect", ":1"]), patch("bench61499.cli.check.read_units", lambda _: checked.units), \
                    patch("bench61499.cli.check.check", lambda *_: checked), contextlib.redirect_stdout(io.StringIO()), contextlib.redirect_stderr(io.StringIO()) as said:
                self.assertEqual(check_main(), 2)
            self.assertEqual(said.getvalue(), f"check: not checked, as the workbench has no such unit: A{told}\n")

    def test_one_file_of_many(self):
        """The words are those for all units of the workbench."""
        file = self.write("b.fb", "FUNCTION_BLOCK B FBS X : A; Y : LIFTR; END_FBS END_FUNCTION_BLOCK")
        self.other.commit([Put("B", 0, file.read_text()), Put("A", 0, GOOD), Put("LIFTER", 0, "ADAPTER LIFTER END_ADAPTER")])
        ran = run("check", "b.fb", "--connect", f":{self.port}", "--quiet", folder=self.folder)
        self.assertEqual((ran.returncode, ran.stderr), (1, ""))
        self.assertEqual(ran.stdout, "b.fb:1:33: UNKNOWN_TYPE: there is no type LIFTR; did you mean LIFTER?\n")

    def test_replace(self):
        self.write("a.fb", GOOD)
        self.assertEqual(self.check(self.port, "--replace").stdout, "1 unit, no faults\n")
        self.other.commit([Put("A", 1, BAD)])
        ran = self.check(self.port, "--replace")
        self.assertEqual(ran.stdout, "1 unit, no faults\nThe workbench had 1 of them before, and has these texts now.\n")
        (caller,) = [it.caller for it in self.other.watch(0).events if isinstance(it, Commit) and it.number == 3]
        self.assertEqual(ran.stderr, f"committed as session {caller}, commit 3: A\n")
        self.assertEqual(self.other.text("A").revision, 3)
        self.assert_checked(0, "1 unit, no faults\nThe workbench had 1 of them before, and has these texts now.\n", "", "--replace")
        ran = run("check", ".", "--replace", folder=self.folder)
        self.assertEqual((ran.returncode, ran.stderr.splitlines()[-1]), (2, "check: error: --replace goes with --connect"))

    def test_a_file_that_was_deleted(self):
        self.write("a.fb", "FUNCTION_BLOCK A FBS X : B; END_FBS END_FUNCTION_BLOCK")
        self.write("b.fb", "FUNCTION_BLOCK B END_FUNCTION_BLOCK")
        self.assertEqual(self.check(self.port, "--replace").returncode, 0)
        (self.folder / "b.fb").unlink()
        ran = self.check(self.port, "--replace")
        self.assertEqual((ran.returncode, ran.stderr), (0, f"check: the workbench has also units that no file has: B\ncheck: {LENT}\n"))
        self.assertEqual([it["difference"] for it in json.loads(self.check(self.port, "--replace", "--json").stdout)["differences"]], ["only there"])
        ran = self.check(self.port, "--replace", "--mirror", "--quiet")
        self.assertEqual((ran.returncode, ran.stdout.split(": ")[1]), (1, "UNKNOWN_TYPE"))
        self.assertRegex(ran.stderr, r"^committed as session \d+, commit 2: B\n$")
        self.assertEqual([it.unit for it in self.other.units().units], ["A"])
        for words in (["a.fb", "--replace", "--mirror"], [".", "--mirror"]):
            ran = run("check", *words, "--connect", f":{self.port}", folder=self.folder)
            self.assertEqual((ran.returncode, ran.stderr.splitlines()[-1]), (2, "check: error: --mirror goes with --replace and folders"))

    def test_units_that_only_the_workbench_has(self):
        """Without them the files would have a fault, and each form says so."""
        self.write("c.fb", "FUNCTION_BLOCK C VAR_INPUT V : S; W : GONE; END_VAR FBS X : B; END_FBS END_FUNCTION_BLOCK")
        with serving(9) as server, Session.connect("127.0.0.1", server) as second:
            for port, other, words in (self.port, self.other, ["."]), (self.port, self.other, ["c.fb"]), (server, second, ["c.fb"]):
                if not other.revision("B"):
                    other.commit([Put("B", 0, GOOD.replace(" A ", " B ")), Put("S", 0, "TYPE S : STRUCT A : INT; END_STRUCT END_TYPE"), Put("Z", 0, "")])
                printed = {it: run("check", *words, "--connect", f":{port}", "--replace", "--format", it, folder=self.folder) for it in ("human", "json", "github", "sarif", "junit")}
                for it in printed.values():
                    self.assertEqual((it.returncode, it.stderr.splitlines()[-1]), (0, f"check: {LENT}, S"))
                self.assertEqual(json.loads(printed["json"].stdout)["judged"], "files and workbench")
                self.assertEqual(printed["github"].stdout.splitlines()[-1], f"::warning title=JUDGED::{LENT}, S")
                (log,) = json.loads(printed["sarif"].stdout)["runs"]
                told = [{"level": "warning", "message": {"text": f"{LENT}, S"}}]
                self.assertEqual((log["properties"]["judged"], log["invocations"]), ("files and workbench", [{"executionSuccessful": True, "toolExecutionNotifications": told}]))
                properties = ElementTree.fromstring(printed["junit"].stdout).findall("testsuite/properties/property")
                self.assertEqual([(it.get("name"), it.get("value")) for it in properties], [("judged", "files and workbench"), ("rests on", "B"), ("rests on", "S")])
        self.assertEqual(self.check(self.port, "--replace", "--mirror", "--json").returncode, 1)

    def test_two_that_replace_at_once(self):
        """The one that comes later stops at the first unit of the other, and leaves all others of them."""
        units = [Unit(f"U{at:02}", Path(f"{at}.fb"), GOOD) for at in range(40)]

        snapshot = Snapshot(self.other)
        with Session.connect("127.0.0.1", self.port) as session, contextlib.redirect_stderr(io.StringIO()) as said:
            self.assertEqual(replace(session, Snapshot(session), [Unit(it.name, it.file, BAD) for it in units], False, Progress()), 0)
        self.assertRegex(said.getvalue(), r"^committed as session \d+, commits 1 to 3: U00, .*, U19 and 20 more\n$")
        with self.assertRaisesRegex(Misuse, "^U00 was changed by somebody else"):
            replace(self.other, snapshot, units, False, Progress())
        self.assertEqual({it.text for it in Snapshot(self.other).texts.values()}, {BAD})


class SnapshotTest(unittest.TestCase):
    """Texts and values of one moment."""

    def setUp(self) -> None:
        self.port = self.enterContext(hosting())
        self.other = self.enterContext(Session.connect("127.0.0.1", self.port))

    def test_others_commit_meanwhile(self):
        """What was read before a commit is read again after it."""
        other = self.other

        class Disturbed(Session):
            changes: list[list[Change]] = [[Put("A", 2, BAD), Remove("C", 1)], [Put("A", 1, GOOD)]]

            def peek_all(self, keys, is_brief=False):
                found = super().peek_all(keys, is_brief)
                if self.changes:
                    other.commit(self.changes.pop())
                return found

        other.commit([Put("A", 0, BAD), Put("B", 0, GOOD), Put("C", 0, GOOD)])
        with Disturbed.connect("127.0.0.1", self.port) as session:
            snapshot = Snapshot(session)
            values = snapshot.values([("faults", "A"), ("faults", "C"), ("net", "A"), ("faults", "B")])
            self.assertEqual(values, {("faults", "A"): (Fault("WITH_UNKNOWN", 36, 37),), ("faults", "B"): (Fault("NAME_DIFFERS", 15, 16),)})
            self.assertEqual({unit: (it.revision, it.text) for unit, it in snapshot.texts.items()}, {"A": (3, BAD), "B": (1, GOOD)})
            self.assertEqual(Disturbed.changes, [])

    def test_much_that_has_happened_is_read_at_once(self):
        """However many replies report it, the values are read twice at most."""
        rounds = []

        class Counted(Session):
            def peek_all(self, keys, is_brief=False):
                rounds.append(1)
                return super().peek_all(keys, is_brief)

        with Counted.connect("127.0.0.1", self.port) as session:
            snapshot = Snapshot(session)
            for number in range(300):
                self.other.commit([Put("A", number, GOOD)])
            until(lambda: not self.other.status().pending)
            self.assertEqual(snapshot.values([("faults", "A")]), {("faults", "A"): ()})
        self.assertLessEqual(len(rounds), 2)
        self.assertEqual(snapshot.texts["A"].revision, 300)

    def test_a_history_that_was_missed(self):
        """All is listed again."""
        with Session.connect("127.0.0.1", self.enterContext(hosting("--history", "50"))) as other:
            other.commit([Put("A", 0, GOOD), Put("B", 0, GOOD)])
            snapshot = Snapshot(other)
            other.commit([Put("A", 1, BAD), Remove("B", 1)])
            for _ in range(100):
                other.faults("A")
            self.assertTrue(other.watch(1).missed)
            self.assertEqual(snapshot.values([("faults", "A"), ("faults", "B")]), {("faults", "A"): (Fault("WITH_UNKNOWN", 36, 37),)})
            self.assertEqual({unit: (it.revision, it.text) for unit, it in snapshot.texts.items()}, {"A": (2, BAD)})

    def test_a_key_that_another_session_keeps(self):
        """Nobody waits for it without an end."""
        with Session.connect("127.0.0.1", self.enterContext(hosting("--workers", "1"))) as thief, patch("bench61499.snapshot.LOOK", 0.1):
            thief.patience = 1
            job = stolen(thief)
            with self.assertRaisesRegex(NoResult, f"no result for 1 seconds: faults of {job}; another session may have taken"):
                Snapshot(thief).values([("faults", it.unit) for it in thief.units().units])


def block(unit: str) -> str:
    return GOOD.replace(" A ", f" {unit} ")


def stolen(thief: Session) -> str:
    """One of 16 units whose faults the session has taken before the worker did, and keeps."""
    while True:
        revisions = thief.present(f"U{at}" for at in range(16))
        thief.commit([Put(unit, revision, block(unit)) for unit, revision in revisions.items()])
        if job := thief.take():
            return job.unit


class PatienceTest(Shared):
    """Another session takes a job and keeps it."""

    def test_check_gives_up_and_names_the_unit(self) -> None:
        for at in range(16):
            self.write(f"u{at}.fb", block(f"U{at}"))
        for server in hosting("--workers", "1"), serving(9, "--workers", "1"):
            with server as port, Session.connect("127.0.0.1", port) as thief:
                job = stolen(thief)
                for words in ((), ("--plans",)):
                    ran = self.check(port, "--patience", "1", *words)
                    self.assertEqual((ran.returncode, ran.stdout), (2, ""))
                    self.assertEqual(ran.stderr, f"check: no result for 1 seconds: faults of {job}; another session may have taken them and not delivered them, or the server has no memory for them\n")

    def test_a_session_that_works_itself_gives_up_too(self) -> None:
        with serving(2, "--workers", "1") as port, Session.connect("127.0.0.1", port) as thief, Session.connect("127.0.0.1", port) as session:
            job = stolen(thief)
            session.revisions |= thief.revisions
            session.patience = 0.5
            with self.assertRaisesRegex(NoResult, f"faults of {job};"):
                session.settle()
            with self.assertRaisesRegex(NoResult, f"faults of {job};"):
                session.wait("faults", job)

    def test_patience_outlasts_what_a_session_can_keep_of_a_host(self) -> None:
        """A host gives a key back after a minute, and its worker then needs some time."""
        self.assertGreaterEqual(PATIENCE, 90)
        for words in ["check", "--help"], ["plan", "--help"]:
            self.assertIn(f"(default {PATIENCE:g})", " ".join(run(*words).stdout.split()))

    def test_patience_is_a_number_of_seconds(self) -> None:
        for words in "0", "-1", "x", "nan", "1e9":
            self.assertIn("is no number of seconds", run("check", ".", "--patience", words).stderr)


class ServeTest(Shared):
    """A server that gives no texts back: it is only asked."""

    def test_it_is_only_asked(self):
        self.write("a.fb", GOOD)
        with serving(19) as port, Session.connect("127.0.0.1", port) as other:
            ran = self.check(port)
            self.assertEqual((ran.returncode, ran.stdout), (2, f"0 units, no faults\n1 unit not checked\n{ASKED}"))
            self.assertEqual(ran.stderr, "check: not checked, as the workbench has no such unit: A; --replace puts them\n")
            other.commit([Put("A", 0, BAD)])
            ran = self.check(port)
            self.assertEqual((ran.returncode, ran.stdout), (2, f"0 units, no faults\n1 unit not checked\n{ASKED}"))
            self.assertEqual(ran.stderr, "check: not checked, as the workbench has another text: A; --replace puts those of the files over it\n")
            self.write("a.fb", BAD)
            ran = self.check(port, "--quiet", "--trust-server")
            printed = "a.fb:1:37: WITH_UNKNOWN: no data input X to go with this event\n"
            self.assertEqual((ran.returncode, ran.stdout, ran.stderr), (1, printed, f"check: {ASKED}"))
            self.assertEqual(self.check(port, "--quiet").returncode, 2)
            self.assertEqual(json.loads(self.check(port, "--json").stdout)["judged"], "workbench, not compared")
            self.assertEqual(other.revision("A"), 1)
            other.commit([Put("A", 1, GOOD)])
            self.write("a.fb", GOOD)
            ran = self.check(port, "--trust-server")
            self.assertEqual((ran.returncode, ran.stdout, ran.stderr), (0, f"1 unit, no faults\n{ASKED}", ""))
            self.assert_no_form_is_green(port)
            ran = run("check", "--connect", f":{port}")
            self.assertEqual((ran.returncode, ran.stderr), (2, "check: the server does not tell which units it has, as it is no host or an older one\n"))

    def assert_no_form_is_green(self, port: int) -> None:
        """A text that could not be compared may be another one than that of the file."""
        told = "check: not compared, as the workbench gives no texts back: A; --trust-server takes its texts for those of the files\n"
        printed = {it: self.check(port, "--format", it) for it in ("human", "json", "github", "sarif", "junit")}
        for it in printed.values():
            self.assertEqual((it.returncode, it.stderr.removesuffix(f"check: {ASKED}")), (2, told))
        self.assertEqual(json.loads(printed["json"].stdout)["unchecked"], ["A"])
        self.assertIn("::warning file=a.fb,title=NOT_CHECKED::not checked: A may have another text", printed["github"].stdout)
        self.assertFalse(json.loads(printed["sarif"].stdout)["runs"][0]["invocations"][0]["executionSuccessful"])
        self.assertEqual(len(ElementTree.fromstring(printed["junit"].stdout).findall(".//skipped")), 1)

    def test_it_is_asked_for_pending_units_again(self):
        units = [f"U{at}" for at in range(40)]
        for unit in units:
            self.write(f"{unit}.fb", f"FUNCTION_BLOCK {unit} END_FUNCTION_BLOCK")
        with serving(2) as port, Session.connect("127.0.0.1", port) as other:
            for batch in batches(Put(unit, 0, f"FUNCTION_BLOCK {unit} END_FUNCTION_BLOCK") for unit in units):
                other.commit(batch)
            self.assertEqual(self.check(port, "--trust-server").stdout, f"40 units, no faults\n{ASKED}")

    def test_few_calls(self):
        """One for each unit; and to put what came by one commit, two for 16 units."""
        units = [f"U{at:02}" for at in range(64)]
        for unit in units:
            self.write(f"{unit}.fb", f"FUNCTION_BLOCK {unit} END_FUNCTION_BLOCK")
        for words, most in (("--trust-server",), 64 + 4), (("--replace",), 8 + 128 + 3 * 64 + 8):
            with serving(3, "--history", str(HISTORY)) as port, Session.connect("127.0.0.1", port) as other:
                for batch in batches(Put(unit, 0, f"FUNCTION_BLOCK {unit} END_FUNCTION_BLOCK") for unit in units):
                    other.commit(batch)
                asked = 1
                while other.faults(units[-1]) is None:
                    asked += 1
                self.assertEqual(self.check(port, *words).returncode, 0)
                self.assertLess(used(other), 4 + 128 + asked + 100 + most)


class EntranceTest(Shared):
    """How a client is admitted."""

    def test_a_secret(self):
        self.write("a.fb", GOOD)
        secret = self.write("secret", "open sesame, please\n")
        secret.chmod(0o600)
        with hosting("--secret", str(secret)) as port:
            self.assertEqual(self.check(port, "--replace", "--secret", "secret").returncode, 0)
            self.assertEqual(self.check(port, BENCH61499_SECRET_FILE="secret").returncode, 0)
            ran = self.check(port)
            lack = f"check: the host lets in only who has its secret, and there is none in {secret_file(port)}: name its file with --secret\n"
            self.assertEqual((ran.returncode, ran.stderr), (2, lack))
        for file, why in ("nowhere", "No such file or directory"), ("empty", "its first line is empty"):
            self.write("empty", "\nno").chmod(0o600)
            self.assertIn(why, self.check(port, "--secret", file).stderr)

    def test_all_sessions_are_in_use(self):
        self.write("a.fb", GOOD)
        with hosting("--sessions", "1") as port, Session.connect("127.0.0.1", port) as other:
            other.commit([Put("A", 0, GOOD)])
            words = [str(CLIENTS / "check"), ".", "--connect", f":{port}"]
            with subprocess.Popen(words, cwd=self.folder, stdout=subprocess.DEVNULL, stderr=subprocess.PIPE, text=True) as check:
                assert check.stderr
                self.assertEqual(check.stderr.readline(), "all sessions of the workbench are in use; trying again\n")
                other.close()
                self.assertEqual((check.stderr.read(), check.wait()), ("", 0))


class AgainTest(unittest.TestCase):
    """A connection that ends, though it was admitted."""

    def run_with(self, errors: list[Exception], connect: object) -> tuple[str, str]:
        def act() -> str:
            if errors:
                raise errors.pop(0)
            return "done"

        said = io.StringIO()
        with patch("time.sleep"), contextlib.redirect_stderr(said):
            return persistently(argparse.Namespace(connect=connect), act), said.getvalue()

    def test_it_is_done_again(self):
        at = ("127.0.0.1", 9)
        self.assertEqual(self.run_with([ConnectionEnded("it ended")], at), ("done", "it ended; connecting again\n"))
        self.assertRaises(ConnectionEnded, self.run_with, [ConnectionEnded("it ended")] * (AGAIN + 1), at)
        self.assertRaises(NotLetIn, self.run_with, [NotLetIn("it ended")], at)
        self.assertRaises(ConnectionEnded, self.run_with, [ConnectionEnded("it ended")], None)


if __name__ == "__main__":
    unittest.main()
