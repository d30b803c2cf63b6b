"""draw: the pictures of the conveyor, and what has no picture."""
import re
import shutil
import unittest

from support import InFolder, hosting, run, serving, workbench

from bench61499 import NoSuchKey, Put, Session
from bench61499.cli.looking import ONLY_ASKED


def computes_nets() -> bool:
    with Session.script(workbench()) as session:
        session.commit([Put("S", 0, "SUBAPPLICATION S END_SUBAPPLICATION")])
        try:
            session.net("S")
        except NoSuchKey:
            return False
        return True


class DrawTest(InFolder):
    def setUp(self):
        super().setUp()
        self.copy_conveyor()

    def draw(self, unit, *words):
        return run("draw", unit, "--files", ".", "--program", workbench(), *words, folder=self.folder)

    def refused(self, status, words, unit):
        ran = self.draw(unit)
        self.assertEqual((ran.returncode, ran.stdout, ran.stderr), (status, "", f"draw: {words}\n"))


class PictureTest(DrawTest):
    def setUp(self):
        super().setUp()
        if not computes_nets():
            self.skipTest("the workbench computes no networks")

    def edges(self, unit):
        """The edges, each as its two ends, its colour, and whether it is dashed or drawn backwards."""
        edges = re.findall(r'^  (\S.*) -> (.*) \[color="(#\w+)"(.*)\];$', self.draw(unit).stdout, re.MULTILINE)
        plain = [(re.sub(r'"|(event|data|adapter) |:[ew]$', "", end) for end in edge[:2]) for edge in edges]
        return {(*ends, edge[2], "dashed" in edge[3], "dir=back" in edge[3]) for ends, edge in zip(plain, edges)}

    def test_a_subapplication(self):
        red, blue = "#c62828", "#1565c0"
        expected = {
            ("START", "BELT:START", red, False, False),
            ("SEEN", "BELT:SEEN", red, False, False),
            ("STOP", "LIFT:STOP", red, False, False),
            ("LOAD", "BELT:LOAD", blue, False, False),
            ("LIFT:LIFTED", "READY", red, False, False),
            ("LIFT:TOTAL", "TOTAL", blue, False, False),
            ("BELT:NEXT", "LIFT:BEFORE", red, False, False),
            ("BELT:NEXT", "LIFT:BEFORE", red, False, True),
            ("BELT:NEXT", "LIFT:BEFORE", blue, False, False),
        }
        self.assertEqual(self.edges("station"), expected)

    def test_an_event_and_data_of_one_name(self):
        self.write("T.fb", "FUNCTION_BLOCK T EVENT_INPUT X; END_EVENT VAR_INPUT X : INT; END_VAR END_FUNCTION_BLOCK")
        text = """SUBAPPLICATION S EVENT_INPUT X; END_EVENT VAR_INPUT X : INT; END_VAR FBS F : T; END_FBS
            EVENT_CONNECTIONS X TO F.X; END_CONNECTIONS DATA_CONNECTIONS X TO F.X; END_CONNECTIONS END_SUBAPPLICATION"""
        self.write("S.fb", text)
        self.assertEqual(len(self.edges("S")), 2)
        self.assertEqual(self.draw("S").stdout.count("<TD PORT="), 2)

    def test_a_system(self):
        dashed = {edge[:2] for edge in self.edges("PLANT") if edge[3]}
        expected = {
            ("LINE.FIRST.LIFT:LIFTED", "LINE.SECOND.BELT:START"),
            ("LINE.FIRST.LIFT:TOTAL", "LINE.SECOND.BELT:LOAD"),
            ("LINE.SECOND.LIFT:LIFTED", "LINE.PANEL:SHOW"),
            ("LINE.SECOND.LIFT:TOTAL", "LINE.PANEL:VALUE"),
        }
        self.assertEqual(dashed, expected)
        clusters = re.findall(r'subgraph "cluster (\S+)"', self.draw("PLANT").stdout)
        self.assertEqual(clusters, ["NORTH.MOTION", "SOUTH.MOTION", "SOUTH.SCREEN"])

    def test_a_system_that_is_not_mapped(self):
        plant = self.folder / "PLANT.fb"
        plant.write_text(plant.read_text().replace("LINE.PANEL ON", "LINE.LAMP ON"))
        self.assertIn("not deployed: 1 block is not mapped, 1 mapping names no block", self.draw("PLANT").stdout)

    def test_units_that_are_in_the_workbench(self):
        with serving(sessions=2) as port:
            self.assertEqual(run("check", ".", "--connect", f":{port}", "--replace", folder=self.folder).returncode, 0)
            ran = run("draw", "STATION", "--connect", f":{port}")
        self.assertIn('"BELT":"adapter NEXT":e -> "LIFT":"adapter BEFORE":w', ran.stdout)

    def test_a_workbench_that_others_use_is_only_asked(self):
        """The picture has the workbench's network, and the ports of the files."""
        with serving(6) as port, Session.connect("127.0.0.1", port) as other:

            def draw(*words):
                return run("draw", "STATION", "--files", ".", "--connect", f":{port}", *words, folder=self.folder)

            ran = draw()
            self.assertEqual((ran.returncode, ran.stdout), (1, ""))
            self.assertEqual(ran.stderr, f"{ONLY_ASKED}\ndraw: the workbench has no subapplication or system STATION\n")
            self.assertEqual(other.revision("STATION"), 0)
            before = draw("--replace").stdout
            self.assertEqual(before, self.draw("STATION").stdout)
            text = (self.folder / "STATION.fb").read_text()
            self.write("STATION.fb", text.replace("LIFT", "HOIST").replace("HOISTER", "LIFTER").replace("HOISTED", "LIFTED"))
            ran = draw()
            self.assertEqual((ran.returncode, ran.stdout, ran.stderr), (0, before, f"{ONLY_ASKED}\n"))
            self.assertIn('"HOIST"', draw("--replace").stdout)

    def test_the_texts_of_a_host(self):
        """The picture is the one of the files, without them too; other files are refused."""
        with hosting() as port, Session.connect("127.0.0.1", port) as other:
            before = run("draw", "STATION", "--files", ".", "--connect", f":{port}", "--replace", folder=self.folder).stdout
            calls = other.status().calls
            self.assertEqual(before, self.draw("STATION").stdout)
            self.assertEqual(run("draw", "STATION", "--connect", f":{port}").stdout, before)
            self.assertEqual(run("draw", "FEEDER", "--connect", f":{port}").stderr, "draw: FEEDER is a function block; only subapplications and systems have networks\n")
            self.edit("STATION.fb", "SUBAPPLICATION", "(* mine *) SUBAPPLICATION")
            ran = run("draw", "STATION", "--files", ".", "--connect", f":{port}", folder=self.folder)
            self.assertEqual((ran.returncode, ran.stdout, ran.stderr), (2, "", "draw: the workbench has other texts than the files: differs: STATION\n"))
            self.assertEqual(other.status().calls, calls)

    def test_graphviz_has_limits_for_more_than_200_blocks(self):
        self.write("T.fb", "FUNCTION_BLOCK T END_FUNCTION_BLOCK")
        for count, limited in ((200, False), (201, True)):
            blocks = " ".join(f"B{at} : T;" for at in range(count))
            self.write("S.fb", f"SUBAPPLICATION S FBS {blocks} END_FBS END_SUBAPPLICATION")
            drawn = self.draw("S").stdout
            self.assertEqual((drawn.count("<TABLE"), "nslimit=" in drawn), (count, limited))

    @unittest.skipUnless(shutil.which("dot"), "there is no Graphviz here")
    def test_svg(self):
        self.assertEqual(self.draw("PLANT", "--svg", "plant.svg").stdout, "")
        self.assertIn("LINE.FIRST.BELT", (self.folder / "plant.svg").read_text())

    def test_no_network(self):
        self.write("LAMP.fb", "FUNCTION_BLOCK LAMP")
        self.refused(1, "PLANT has no network: LAMP and PLANT have faults", "PLANT")
        self.write("PLANT.fb", "SYSTEM PLANT")
        self.refused(1, "PLANT has no network, as its text has a SYNTAX fault; check shows it", "PLANT")


class NoPictureTest(DrawTest):
    def test_what_has_no_network(self):
        self.refused(1, "FEEDER is a function block; only subapplications and systems have networks", "FEEDER")
        self.refused(1, "HANDOVER is an adapter; only subapplications and systems have networks", "HANDOVER")
        self.refused(1, "ITEM is a structure; only subapplications and systems have networks", "ITEM")
        self.write("PLANT.fb", "\ufeff" + (self.folder / "PLANT.fb").read_text())
        self.refused(1, "PLANT has no network, as its text has a SYNTAX fault; check shows it", "PLANT")
        self.refused(2, "no file declares the unit NOTHING", "NOTHING")

    def test_no_units(self):
        self.assertIn("--files FOLDER, or --connect", run("draw", "PLANT").stderr)
        self.assertIn("an empty word names no file or folder", run("draw", "PLANT", "--files", "").stderr)


if __name__ == "__main__":
    unittest.main()
