"""Boot files: names, adapters, starts and links that are cut, and what is refused."""
from __future__ import annotations

import subprocess
import sys
import unittest

from exchanging import ExchangeTest
from support import hosting, run, serving, workbench
from tapping import false_host

from bench61499 import Put, Session
from bench61499.cli.looking import ONLY_ASKED
from bench61499.exchange.from_text import read_or_none
from bench61499.exchange.spellings import Spellings

MAKER = """\
FUNCTION_BLOCK Maker
  EVENT_INPUT Go; Type_ WITH N; END_EVENT
  EVENT_OUTPUT Done WITH Total, Rest; Quiet; END_EVENT
  VAR_INPUT N : INT; Colour : COLOR; END_VAR
  VAR_OUTPUT Total, Rest, Alone : INT; END_VAR
  PLUGS Next : Hand; END_PLUGS
END_FUNCTION_BLOCK
(* CompilerInfo: packageName="plant::parts" *)
"""
TAKER = """\
FUNCTION_BLOCK Taker
  EVENT_INPUT Start; END_EVENT
  VAR_INPUT A, B : INT; END_VAR
  SOCKETS Before : Hand; END_SOCKETS
END_FUNCTION_BLOCK
"""
HAND = """\
ADAPTER Hand
  EVENT_INPUT Back; END_EVENT
  EVENT_OUTPUT Over WITH Piece; END_EVENT
  VAR_OUTPUT Piece : INT; END_VAR
END_ADAPTER
"""
PAIR = """\
SUBAPPLICATION Pair
  EVENT_INPUT Run; Off; END_EVENT
  FBS M : Maker; T : Taker; END_FBS
  EVENT_CONNECTIONS Run TO M.Go; Run TO T.Start; END_CONNECTIONS
  ADAPTER_CONNECTIONS M.Next TO T.Before; END_CONNECTIONS
END_SUBAPPLICATION
"""


def system(applications: str, mappings: str) -> str:
    return f"""\
SYSTEM Cell
  {applications}
  DEVICE D1 : PC(MGR_ID := "here")
    RESOURCE R1 : EMB_RES(Prio := 5) END_RESOURCE
    RESOURCE R2 : EMB_RES END_RESOURCE
  END_DEVICE
  DEVICE D2 : PC END_DEVICE
  MAPPINGS {mappings} END_MAPPINGS
END_SYSTEM
"""


class BootTest(ExchangeTest):
    def setUp(self) -> None:
        super().setUp()
        for name, text in (("Maker", MAKER), ("Taker", TAKER), ("Hand", HAND), ("Pair", PAIR)):
            self.write(f"lib/{name}.fb", text)

    def boot(self, text: str, *words: str) -> subprocess.CompletedProcess[str]:
        self.write("lib/Cell.fb", text)
        return run("exchange", "boot", "cell", "--files", "lib", "--to", "boot", "--replace", *words, "--program", workbench(), folder=self.folder)

    def requests(self, text: str, *words: str, status: int = 0) -> list[str]:
        """The lines of the file of the first device, without numbers of requests."""
        ran = self.boot(text, *words)
        self.assertEqual((ran.stderr, ran.returncode), ("", status))
        self.assertEqual([it.name for it in (self.folder / "boot").iterdir()], ["Cell_D1.fboot"])
        lines = (self.folder / "boot" / "Cell_D1.fboot").read_text().splitlines()
        found = [line.replace(f' ID="{number}"', "") for number, line in enumerate(lines, 1)]
        self.assertFalse([it for it in found if " ID=" in it], "numbers from 1 on")
        return found

    def refused(self, text: str, *words: str) -> str:
        ran = self.boot(text, *words)
        self.assertEqual((ran.stdout, ran.returncode), ("", 2))
        self.assertFalse((self.folder / "boot").exists())
        return ran.stderr

    ONE = "APPLICATION App SUBAPPS P : Pair; END_SUBAPPS FBS X : Maker(Type_ := 3); END_FBS END_APPLICATION"

    def test_a_whole_file(self) -> None:
        given = "APPLICATION App FBS X : Maker(N := 3, Colour := RED); END_FBS SUBAPPS P : Pair; END_SUBAPPS END_APPLICATION"
        words = ["--cold", "App.X.Type", "--warm", "app.p.run"]
        expected = [
            ';<Request Action="CREATE"><FB Name="R1" Type="EMB_RES" /></Request>',
            ';<Request Action="WRITE"><Connection Source="5" Destination="R1.Prio" /></Request>',
            'R1;<Request Action="CREATE"><FB Name="P.M" Type="plant::parts::Maker" /></Request>',
            'R1;<Request Action="CREATE"><FB Name="P.T" Type="Taker" /></Request>',
            'R1;<Request Action="CREATE"><FB Name="X" Type="plant::parts::Maker" /></Request>',
            'R1;<Request Action="WRITE"><Connection Source="RED" Destination="X.Colour" /></Request>',
            'R1;<Request Action="WRITE"><Connection Source="3" Destination="X.N" /></Request>',
            'R1;<Request Action="CREATE"><Connection Source="P.M.Next" Destination="P.T.Before" /></Request>',
            'R1;<Request Action="CREATE"><Connection Source="START.COLD" Destination="X.Type" /></Request>',
            'R1;<Request Action="CREATE"><Connection Source="START.WARM" Destination="P.M.Go" /></Request>',
            'R1;<Request Action="CREATE"><Connection Source="START.WARM" Destination="P.T.Start" /></Request>',
            'R1;<Request Action="START"/>',
            ';<Request Action="CREATE"><FB Name="R2" Type="EMB_RES" /></Request>',
            'R2;<Request Action="START"/>',
        ]
        self.assertEqual(self.requests(system(given, "App ON D1.R1;"), *words), expected)
        plain = [it.replace("plant::parts::", "") for it in expected]
        self.assertEqual(self.requests(system(given, "App ON D1.R1;"), *words, "--plain-types"), plain)
        whole = self.requests(system(given, "App ON D1.R1;"), *words, "--applications")
        self.assertEqual(whole[4], 'R1;<Request Action="CREATE"><FB Name="App.X" Type="plant::parts::Maker" /></Request>')
        self.assertEqual(self.boot(system(given, "App ON D1.R1;")).stdout.splitlines()[-1], "1 boot file in boot: complete")

    def test_a_start_that_leads_to_two_resources(self) -> None:
        given = system("APPLICATION App SUBAPPS P : Pair; END_SUBAPPS END_APPLICATION", "App.P.M ON D1.R1; App.P.T ON D1.R2;")
        found = self.requests(given, "--cold", "App.P.Run", status=1)
        self.assertEqual([it for it in found if "START.COLD" in it], [
            'R1;<Request Action="CREATE"><Connection Source="START.COLD" Destination="P.M.Go" /></Request>',
            'R2;<Request Action="CREATE"><Connection Source="START.COLD" Destination="P.T.Start" /></Request>',
        ])
        self.assertFalse([it for it in found if "Next" in it], "a link that is cut is not made")

    def test_links_that_are_cut(self) -> None:
        network = """FBS M : Maker; T : Taker; U : Taker; END_FBS
          EVENT_CONNECTIONS M.Done TO T.Start; M.Quiet TO U.Start; END_CONNECTIONS
          DATA_CONNECTIONS M.Total TO T.A; M.Rest TO U.B; M.Alone TO T.B; END_CONNECTIONS
          ADAPTER_CONNECTIONS M.Next TO T.Before; END_CONNECTIONS"""
        ran = self.boot(system(f"APPLICATION App {network} END_APPLICATION", "App.M ON D1.R1; App ON D1.R2;"))
        way = "still to be joined: D1.R1 -> D1.R2:"
        self.assertEqual(ran.stdout.splitlines(), [
            "device D1: its parameter MGR_ID is not written",
            f"{way} event M.Done -> T.Start with data M.Rest -> U.B, M.Total -> T.A: PUBLISH_2 and SUBSCRIBE_2",
            f"{way} event M.Next.Over -> T.Before.Over with data M.Next.Piece -> T.Before.Piece: PUBLISH_1 and SUBSCRIBE_1",
            f"{way} event M.Quiet -> U.Start: PUBLISH_0 and SUBSCRIBE_0",
            "still to be joined: D1.R2 -> D1.R1: event T.Before.Back -> M.Next.Back: PUBLISH_0 and SUBSCRIBE_0",
            f"{way} data M.Alone -> T.B, with which no event goes",
            "1 boot file in boot: 8 links still to be joined",
        ])
        self.assertEqual((ran.stderr, ran.returncode), ("", 1))

    def test_two_blocks_of_one_name(self) -> None:
        two = "APPLICATION A FBS F : Taker; END_FBS END_APPLICATION APPLICATION B FBS F : Taker; END_FBS END_APPLICATION"
        told = self.refused(system(two, "A ON D1.R1; B ON D1.R1;"))
        self.assertEqual(told, "exchange: D1.R1 would have two blocks F: A.F and B.F; --applications keeps the names of the applications\n")
        found = self.requests(system(two, "A ON D1.R1; B ON D1.R1;"), "--applications")
        self.assertEqual([it.split('"')[3] for it in found if "<FB" in it], ["R1", "A.F", "B.F", "R2"])
        self.assertEqual(len(self.requests(system(two, "A ON D1.R1; B ON D1.R2;"))), 7)

    def test_a_block_with_the_name_of_what_holds_another(self) -> None:
        two = "APPLICATION A FBS P : Taker; END_FBS END_APPLICATION APPLICATION B SUBAPPS P : Pair; END_SUBAPPS END_APPLICATION"
        told = self.refused(system(two, "A ON D1.R1; B ON D1.R1;"))
        self.assertIn("D1.R1 would have a block P of A.P, a name that is needed for B.P.M; --applications keeps", told)

    def test_a_block_with_the_name_of_the_one_that_starts(self) -> None:
        given = system("APPLICATION A FBS START : Taker; END_FBS END_APPLICATION", "A ON D1.R1;")
        self.assertIn("a name that is needed for the block START of the resource", self.refused(given, "--cold", "A.START.Start"))
        self.assertEqual(len(self.requests(given)), 6)

    def test_starts_that_are_nothing(self) -> None:
        given = system("APPLICATION App SUBAPPS P : Pair; END_SUBAPPS END_APPLICATION", "App ON D1.R1;")
        for end in ("App.P.Nope", "P.Run", "App.Q.Run", "App", ".", "App.P.M.Done"):
            self.assertIn(f"exchange: --cold {end}: Cell has no such event input", self.refused(given, "--cold", end))
        self.assertIn("--warm App.P.Off: leads to no event input of a block", self.refused(given, "--warm", "App.P.Off"))

    def test_no_plan(self) -> None:
        ran = self.boot(system("APPLICATION App FBS X : Maker; END_FBS END_APPLICATION", ""), "--cold", "App.X.Go")
        self.assertEqual((ran.returncode, ran.stderr), (1, "exchange: Cell has no plan:\n  no mapping gives App.X a resource\n"))
        ran = self.boot("SYSTEM Cell", "--cold", "App.X.Go")
        self.assertEqual((ran.returncode, ran.stderr), (1, "exchange: Cell has no plan, as its text has a SYNTAX fault; check shows it\n"))
        ran = self.boot("SYSTEM Other END_SYSTEM")
        self.assertEqual((ran.returncode, ran.stderr), (2, "exchange: no file declares the unit CELL\n"))
        self.assertFalse((self.folder / "boot").exists())

    def test_a_file_that_is_there(self) -> None:
        given = system("APPLICATION App FBS X : Maker; END_FBS END_APPLICATION", "App ON D1.R1;")
        self.write("boot/Cell_D1.fboot", "mine")
        self.write("lib/Cell.fb", given)
        ran = run("exchange", "boot", "cell", "--files", "lib", "--to", "boot", "--program", workbench(), folder=self.folder)
        self.assertEqual(ran.returncode, 2)
        self.assertEqual(ran.stderr, "exchange: boot/Cell_D1.fboot: is there already, with another text; give --replace to write over it\n")

    def test_a_workbench_that_others_use_is_only_asked(self) -> None:
        given = system("APPLICATION App FBS X : Maker; END_FBS END_APPLICATION", "App ON D1.R1;")
        self.write("lib/Cell.fb", given)
        with serving(9) as port, Session.connect("127.0.0.1", port) as other:

            def boot() -> tuple[int, str]:
                ran = run("exchange", "boot", "cell", "--files", "lib", "--to", "boot", "--connect", f":{port}", folder=self.folder)
                return ran.returncode, ran.stderr

            self.assertEqual(boot(), (1, f"{ONLY_ASKED}\nexchange: the workbench has no system CELL\n"))
            self.assertEqual(other.revision("CELL"), 0)
            self.assertEqual(run("check", "lib", "--connect", f":{port}", "--replace", folder=self.folder).returncode, 0)
            self.assertEqual(boot(), (0, f"{ONLY_ASKED}\n"))
            for text in given.replace("X :", "Y :"), given.replace("X : Maker", "X : Maker(N := 5)"), given.replace("Maker", "Taker"), given.replace("D2 : PC", "D2 : PC RESOURCE R : E END_RESOURCE"), "SYSTEM Cell":
                self.write("lib/Cell.fb", text)
                status, told = boot()
                self.assertEqual(status, 2)
                self.assertRegex(told, f"\\A{ONLY_ASKED}\nexchange: the workbench has another text of (Cell|CELL) than these files, or of a subapplication there\n\\Z")

    def test_files_are_compared_with_the_texts_of_a_host(self) -> None:
        """Boot files with the constants of somebody else are never made."""
        given = system("APPLICATION App FBS X : Maker; END_FBS END_APPLICATION", "App ON D1.R1;")
        self.write("lib/Cell.fb", given)
        with hosting() as port, Session.connect("127.0.0.1", port) as other:

            def boot() -> tuple[int, str]:
                ran = run("exchange", "boot", "cell", "--files", "lib", "--to", "boot", "--connect", f":{port}", folder=self.folder)
                return ran.returncode, ran.stderr

            self.assertEqual(run("check", "lib", "--connect", f":{port}", "--replace", folder=self.folder).returncode, 0)
            other.commit([Put("CELL", other.text("CELL").revision, given.replace("X : Maker", "X : Maker(N := 5)"))])
            self.assertEqual(boot(), (2, "exchange: the workbench has other texts than the files: differs: CELL\n"))
            self.assertFalse((self.folder / "boot").exists())
            other.commit([Put("CELL", other.text("CELL").revision, given)])
            self.assertEqual(boot(), (0, ""))

    def test_subapplications_that_stand_deep_in_each_other(self) -> None:
        for number in range(300):
            inner = f"SUBAPPS A : S{number - 1}; END_SUBAPPS" if number else "FBS A : Maker; END_FBS"
            self.write(f"lib/S{number}.fb", f"SUBAPPLICATION S{number} {inner} END_SUBAPPLICATION\n")
        self.addCleanup(sys.setrecursionlimit, sys.getrecursionlimit())
        units = {it.name.upper(): it for file in (self.folder / "lib").iterdir() if (it := read_or_none(file.read_text()))}
        cell = read_or_none(system("APPLICATION App SUBAPPS A : S299; END_SUBAPPS END_APPLICATION", "App ON D1.R1;"))
        assert cell
        sys.setrecursionlimit(250)
        found = Spellings(cell, {**units, "CELL": cell}, False).instance("APP" + ".A" * 301)
        self.assertEqual((found and len(found.names), found and found.unit and found.unit.name), (302, "Maker"))

    def test_a_server_with_the_same_texts_and_another_plan(self) -> None:
        """It is no workbench: these files run machines."""
        self.write("lib/Cell.fb", system("APPLICATION App FBS X : Maker(N := 5); END_FBS END_APPLICATION", "App ON D1.R1;"))
        with hosting("--open") as host, false_host(host, {b"WRITE APP.X.N 5": b"WRITE APP.X.N 6"}) as port:
            for at, status in ((host, 0), (port, 2)):
                self.assertEqual(run("check", "lib", "--connect", f":{host}", "--replace", folder=self.folder).returncode, 0)
                ran = run("exchange", "boot", "cell", "--files", "lib", "--to", f"boot{status}", "--connect", f":{at}", folder=self.folder)
                self.assertEqual((ran.returncode, (self.folder / f"boot{status}").exists()), (status, not status), ran.stderr)

    def test_names_of_files(self) -> None:
        text = MAKER.replace("Maker", "Gr__e_A8ACB5EB").replace("Go;", "Go_1_312D9A67;")
        hostile = '(* Name: text="Go_1_312D9A67" file="Go;1" *)\n'
        self.write("lib/Odd.fb", text + '(* Name: text="Gr__e_A8ACB5EB" file="Größe" *)\n' + hostile)
        found = self.requests(system("APPLICATION App FBS X : Gr__e_A8ACB5EB; END_FBS END_APPLICATION", "App ON D1.R1;"), "--cold", "App.X.Go_1_312D9A67")
        self.assertEqual(found[2], 'R1;<Request Action="CREATE"><FB Name="X" Type="plant::parts::Größe" /></Request>')
        self.assertIn('Destination="X.Go_1_312D9A67"', found[3])


if __name__ == "__main__":
    unittest.main()
