"""The bound for the memory of a workbench that a client starts: the messages if it does not suffice, and that no result is green then."""
from __future__ import annotations

import errno
import json
import os
import re
import resource
import subprocess
from collections.abc import Iterator
from contextlib import contextmanager
from pathlib import Path
from unittest.mock import patch
from xml.etree import ElementTree

from boards import board
from editing import Editor
from support import InFolder, hosting, run, until, workbench

from bench61499 import ConnectionEnded, NoWorkbench, OutOfMemory, Put, Session
from bench61499.memory import MEMORY_LIMIT, amount, amount_in

UNITS, LIMIT = 250, "64M"
"""The networks of these units, each in the next one under a long name, take more memory than this."""
LACK = "the workbench has no memory left within its limit of 64 MiB, and has ended; --memory-limit raises it"
PLANS = f"the networks and plans are not known: {LACK}"
BAD = "FUNCTION_BLOCK BAD EVENT_INPUT E WITH X; END_EVENT END_FUNCTION_BLOCK"
LONG = "N" * 61


class ChainTest(InFolder):
    """A folder of 40 KB that comes from anywhere, such as a pull request."""

    def setUp(self) -> None:
        super().setUp()
        self.write("plant/B.fb", "FUNCTION_BLOCK B END_FUNCTION_BLOCK")
        self.write("plant/BAD.fb", BAD)
        for at in range(UNITS):
            inner = f"SUBAPPS {LONG} : U_{at - 1}; END_SUBAPPS" if at else ""
            self.write(f"plant/U_{at}.fb", f"SUBAPPLICATION U_{at} {inner} FBS X : B; END_FBS END_SUBAPPLICATION")

    def check(self, *words: object) -> subprocess.CompletedProcess[str]:
        return run("check", "plant", "--program", workbench(), *words, folder=self.folder)

    def test_faults_need_no_networks(self) -> None:
        ran = self.check("--memory-limit", LIMIT, "--quiet")
        self.assertEqual((ran.returncode, ran.stderr), (1, ""))
        self.assertEqual(ran.stdout, "plant/BAD.fb:1:39: WITH_UNKNOWN: no data input X to go with this event\n")

    def test_what_is_known_is_shown(self) -> None:
        ran = self.check("--plans", "--memory-limit", LIMIT)
        self.assertEqual((ran.returncode, ran.stderr), (2, f"check: {PLANS}\n"))
        self.assertTrue(ran.stdout.startswith("plant/BAD.fb:1:39: WITH_UNKNOWN: "), ran.stdout)
        self.assertTrue(ran.stdout.endswith(f"\n1 fault in 1 of {UNITS + 2} units\n"), ran.stdout)

    def test_no_form_says_that_all_is_well(self) -> None:
        (self.folder / "plant" / "BAD.fb").unlink()
        printed = {form: self.check("--plans", "--memory-limit", LIMIT, "--format", form) for form in ("json", "github", "sarif", "junit")}
        self.assertEqual({(it.returncode, it.stderr) for it in printed.values()}, {(2, f"check: {PLANS}\n")})
        self.assertEqual(json.loads(printed["json"].stdout)["failed"], PLANS)
        self.assertEqual(printed["github"].stdout, f"::error title=FAILED::{PLANS}\n")
        (invocation,) = json.loads(printed["sarif"].stdout)["runs"][0]["invocations"]
        told = [it["message"]["text"] for it in invocation["toolExecutionNotifications"]]
        self.assertEqual((invocation["executionSuccessful"], told), (False, [PLANS]))
        top = ElementTree.fromstring(printed["junit"].stdout)
        self.assertEqual([it.get("message") for it in top.iter("error")], [PLANS])
        counts = {name: len(list(top.iter(its))) for name, its in (("tests", "testcase"), ("errors", "error"), ("failures", "failure"))}
        self.assertEqual({name: int(top.get(name)) for name in counts}, counts)

    def test_more_memory_suffices(self) -> None:
        for words in ("1 GiB", "none"):
            ran = self.check("--plans", "--memory-limit", words)
            self.assertEqual((ran.returncode, ran.stderr), (1, ""))
            self.assertIn(f"networks of subapplications: {UNITS} of {UNITS}", ran.stdout)

    def test_other_clients(self) -> None:
        for client in ("plan", "draw"):
            ran = run(client, "U_9", "--files", "plant", "--program", workbench(), "--memory-limit", LIMIT, folder=self.folder)
            self.assertEqual((ran.returncode, ran.stdout, ran.stderr), (2, "", f"{client}: {LACK}\n"))

    def test_a_board_computes_no_network_unasked(self) -> None:
        with board("plant", "--memory-limit", LIMIT, folder=self.folder) as at, at.viewer() as viewer:
            viewer.settled(UNITS + 2)
            self.assertEqual({unit for unit, it in viewer.units.items() if it["state"] != "fine"}, {"BAD"})
            self.assertEqual((viewer.problems, viewer.ended), ([], ""))
            # One that somebody opens is what the memory does not suffice for. The faults stay.
            at.json("/net", name="U_9", aspect="1")
            viewer.until(lambda it: it.problems)
            told = f"networks and plans are not known until a file changes: {LACK}"
            self.assertEqual((viewer.problems, at.process.stderr.readline()), ([told], f"board: {told}\n"))
            viewer.until(lambda it: it.answers["net", "U_9"][1]).settled(UNITS + 2)
            self.assertEqual([at.json("/net", name="U_9", aspect="1").get(it) for it in ("state", "why")], ["refused", told])
            (self.folder / "plant" / "BAD.fb").unlink()
            viewer.until(lambda it: it.states() == {"fine", "absent"})
            self.assertEqual((viewer.state("BAD"), viewer.ended), ("absent", ""))

    def test_texts_that_are_too_much(self) -> None:
        ran = self.check("--memory-limit", "300K")
        self.assertEqual((ran.returncode, ran.stdout, ran.stderr), (2, "", f"check: {LACK.replace('64 MiB', '300 KiB')}\n"))

    def test_a_project_of_xml(self) -> None:
        project = self.folder / "xml"
        ran = run("exchange", "export", "plant", "--to", project, "--quiet", folder=self.folder)
        self.assertLess(ran.returncode, 2, ran.stderr)
        ran = run("check", "--xml", project, "--plans", "--program", workbench(), "--memory-limit", LIMIT)
        self.assertEqual((ran.returncode, ran.stderr), (2, f"check: {PLANS}\n"))
        self.assertIn("WITH_UNKNOWN", ran.stdout)

    def test_a_host_that_lacks_memory(self) -> None:
        """Its workers try again and again, and its sessions may end meanwhile: a client gives up."""
        with limited_host() as port:
            ran = run("check", "plant", "--connect", f":{port}", "--replace", "--plans", "--patience", "4", folder=self.folder)
        self.assertEqual((ran.returncode, ran.stdout), (2, ""))
        self.assertRegex(ran.stderr, f"(?m)^check: (no result for 4 seconds: .*, or the server has no memory for them|.*127.0.0.1:{port} .*)$")


@contextmanager
def limited_host() -> Iterator[int]:
    """A host that may have 64 MiB of data beside those of its threads: of sessions and workers, three of its own, and the first."""
    words = [workbench(), "host", "--port", "0", "--sessions", "4", "--workers", "2"]
    with subprocess.Popen(words, stdout=subprocess.PIPE, stderr=subprocess.DEVNULL, text=True) as host:
        try:
            port = int(host.stdout.readline().rpartition(":")[2])
            until(lambda: len(os.listdir(f"/proc/{host.pid}/task")) > 4 + 2 + 3)
            limit = data_of(host.pid) + 2**26
            resource.prlimit(host.pid, resource.RLIMIT_DATA, (limit, limit))
            yield port
        finally:
            host.terminate()


def data_of(process: int) -> int:
    """The bytes of data that a process has."""
    return 1024 * int(re.search(r"^VmData:\s+(\d+) kB$", Path(f"/proc/{process}/status").read_text(encoding="utf-8"), re.M)[1])


VAST = "the network has more than 200,000 blocks and links, which clients do not read"


class VastTest(InFolder):
    """A network of 2,002 blocks and 200,200 links, of three texts; a million links would take 1 GB in a client."""

    def setUp(self) -> None:
        super().setUp()
        sides = " ".join(f"EVENT_{side} {' '.join(f'{side}{at};' for at in range(200))} END_EVENT" for side in ("INPUT", "OUTPUT"))
        links = " ".join(f"X.OUTPUT{at} TO Y.INPUT{at};" for at in range(200))
        self.write("B.fb", f"FUNCTION_BLOCK B {sides} END_FUNCTION_BLOCK")
        self.write("P.fb", f"SUBAPPLICATION P FBS X : B; Y : B; END_FBS EVENT_CONNECTIONS {links} END_CONNECTIONS END_SUBAPPLICATION")
        self.write("Q.fb", f"SUBAPPLICATION Q SUBAPPS {' '.join(f'P{at} : P;' for at in range(1_001))} END_SUBAPPS END_SUBAPPLICATION")

    def test_networks_that_no_client_reads(self) -> None:
        with hosting() as port:
            ran = run("check", ".", "--connect", f":{port}", "--replace", "--plans", folder=self.folder)
            self.assertEqual(ran.returncode, 0, ran.stderr)
            for client, *words in (["draw", "Q"], ["trace", "Q", "P1.X.OUTPUT1"]):
                for which in (["--files", ".", "--program", workbench()], ["--connect", f":{port}"]):
                    ran = run(client, *words, *which, folder=self.folder)
                    self.assertEqual((ran.returncode, ran.stdout, ran.stderr), (2, "", f"{client}: {VAST}\n"))
            with board("--connect", f":{port}") as at, at.viewer() as viewer:
                at.json("/net", name="Q", aspect="1")
                viewer.until(lambda it: ("net", "Q") in it.answers and it.answers["net", "Q"][1])
                self.assertEqual([at.json("/net", name="Q", aspect="1").get(it) for it in ("state", "why")], ["refused", VAST])


class LimitTest(InFolder):
    TELLS = "import os, resource; sys.stdin.readline(); print('{\"data\":%d}' % resource.getrlimit(resource.RLIMIT_DATA)[0], flush=True); sys.stdin.readline()"

    def data_of(self, program: Path, memory: int | None) -> int:
        with Session.script(program, memory=memory) as session:
            return session.request({})["data"]

    def test_the_limit_is_set_before_the_first_request(self) -> None:
        program = self.program(self.TELLS)
        self.assertEqual(self.data_of(program, 1_000_000_000), 1_000_000_000)
        self.assertEqual(self.data_of(program, None), resource.getrlimit(resource.RLIMIT_DATA)[0])
        with Session.script(program) as session:
            self.assertEqual(session.request({})["data"], MEMORY_LIMIT)

    def test_a_lower_limit_stays(self) -> None:
        words = f"from bench61499 import Session\nwith Session.script({str(self.program(self.TELLS))!r}) as it: print(it.request({{}})['data'])"
        ran = subprocess.run(
            ["sh", "-c", 'ulimit -d 900000 && exec python3 -c "$1"', "-", words], capture_output=True, text=True, env={"PATH": "/usr/bin:/bin", "PYTHONPATH": self.sources()}
        )
        self.assertEqual((ran.stdout, ran.stderr), (f"{900_000 * 1024}\n", ""))

    def sources(self) -> str:
        return str(Path(__file__).resolve().parents[1] / "python")

    def test_a_limit_that_cant_be_set(self) -> None:
        """It is not left out unseen."""
        refusal = "^the memory of the workbench can't be limited: Operation not permitted; --memory-limit none starts it without a limit$"
        with patch("resource.prlimit", side_effect=PermissionError(errno.EPERM, os.strerror(errno.EPERM))):
            self.assertRaisesRegex(NoWorkbench, refusal, Session.script, self.program(self.TELLS))
            Session.script(self.program(self.TELLS), memory=None).close()

    def test_what_a_workbench_says_is_shown_as_it_comes(self) -> None:
        """But for the line that memory is lacking, in whatever pieces it is written."""
        for pieces in (["bench61499: out of memory\n"], ["bench61499: ", "out of memory\n"], ["is old\nbench61499: out", " of memory\n"]):
            said = "".join(f"sys.stderr.write({it!r}); sys.stderr.flush(); time.sleep(0.05); " for it in ["one\n", *pieces])
            program = self.program(f"import time; sys.stdin.readline(); {said}sys.exit(1)")
            words = f"from bench61499 import Session\ntry:\n Session.script({str(program)!r}, memory=None).work(1)\nexcept Exception as error:\n print(type(error).__name__, error)"
            ran = subprocess.run(["python3", "-c", words], capture_output=True, text=True, env={"PATH": "/usr/bin:/bin", "PYTHONPATH": self.sources()})
            self.assertEqual(ran.stdout, "OutOfMemory the workbench has no memory left, and has ended\n")
            self.assertEqual(ran.stderr, "one\nis old\n" if pieces[1:] and "old" in pieces[0] else "one\n")

    def test_another_end_is_no_lack_of_memory(self) -> None:
        for said in ("out of memory", "bench61499: out of memory\\nbut it goes on"):
            program = self.program(f"sys.stdin.readline(); sys.stderr.write('{said}\\n'); sys.exit(1)")
            with Session.script(program) as session, self.assertRaises(ConnectionEnded) as ended:
                session.work(1)
            self.assertNotIsInstance(ended.exception, OutOfMemory)

    def test_an_end_without_a_word(self) -> None:
        """As of a workbench whose limit is too low for one."""
        program, file = self.program("sys.stdin.readline(); sys.exit(1)"), self.write("BAD.fb", BAD)
        why = "the workbench ended before it answered (status 1)"
        raising = f"{why}; perhaps it needs more memory than its limit of 64 MiB: --memory-limit raises it"
        for limit, told in ((LIMIT, raising), ("none", why)):
            for client, *words in (["check", str(file)], ["plan", "BAD", "--files", str(file)]):
                ran = run(client, *words, "--program", program, "--memory-limit", limit)
                self.assertEqual((ran.returncode, ran.stdout, ran.stderr), (2, "", f"{client}: {told}\n"))
        with board(file, "--memory-limit", LIMIT, program=program) as at:
            self.assertEqual(at.process.stderr.readline(), f"board: {raising}; the page shows what was there before, until Ctrl-C\n")
        editor = Editor("--program", program, "--memory-limit", LIMIT)
        self.addCleanup(editor.close)
        editor.start(self.folder)
        editor.open(file)
        self.assertEqual(editor.await_message(), f"bench61499: {raising}; save to try again")

    def test_a_call_that_needs_more(self) -> None:
        with Session.script(workbench(), memory=1_000_000) as session:
            with self.assertRaises(OutOfMemory) as ended:
                session.commit([Put(f"A{at}", 0, "x" * 65_536) for at in range(15)])
        self.assertEqual(ended.exception.limit, 1_000_000)


class AmountTest(InFolder):
    def test_amounts(self) -> None:
        for words, size in {"1": 1, "512M": 2**29, "4g": 2**32, "4GiB": 2**32, "4 GB": 2**32, "10k": 10_240, "1T": 2**40}.items():
            self.assertEqual(amount_in(words), size)
        for words in ("", "M", "-1", "1.5G", "1X", "4G4", "4  G", "9999999T", "1e9", "٤G"):
            self.assertIsNone(amount_in(words))
        self.assertEqual([amount(it) for it in (1, 1_025, 3 * 2**20, 2**31, 2**40, 2**50)], ["1 bytes", "1,025 bytes", "3 MiB", "2 GiB", "1 TiB", "1,024 TiB"])

    def test_words_that_are_none(self) -> None:
        for words in ("0", "much"):
            ran = run("check", ".", f"--memory-limit={words}")
            self.assertEqual(ran.returncode, 2)
            self.assertIn(f"{words!r} is no amount of memory, such as 512M or 4G, and not none", ran.stderr)
