"""trace: what feeds an input and where an output leads, in the networks that the workbench gives."""
from __future__ import annotations

import json
import unittest
from collections.abc import Mapping

from hall import hall
from support import CONVEYOR, InFolder, TestCase, hosting, run, serving, workbench

from bench61499 import Flat, Link, Put, Session, batches
from bench61499.language.texts import Texts
from bench61499.tracing import NoSuchEnd, Tracing

BLOCK = """FUNCTION_BLOCK {name}
  EVENT_INPUT RUN WITH AMOUNT; AGAIN; END_EVENT
  EVENT_OUTPUT DONE WITH COUNT; END_EVENT
  VAR_INPUT AMOUNT : INT; MOST : INT := 3; END_VAR
  VAR_OUTPUT COUNT : INT; END_VAR
END_FUNCTION_BLOCK
"""
RING = """SYSTEM RING
  APPLICATION APP
    FBS A : ONE; B : ONE; C : ONE(MOST := 7); ALONE : ONE; END_FBS
    EVENT_CONNECTIONS A.DONE TO B.RUN; B.DONE TO C.RUN; C.DONE TO A.RUN; A.DONE TO A.AGAIN; END_CONNECTIONS
    DATA_CONNECTIONS A.COUNT TO C.AMOUNT; END_CONNECTIONS
  END_APPLICATION
  DEVICE D : X RESOURCE R : Y END_RESOURCE RESOURCE S : Y END_RESOURCE END_DEVICE
  MAPPINGS APP.A ON D.R; APP.B ON D.R; APP.C ON D.S; APP.ALONE ON D.S; END_MAPPINGS
END_SYSTEM
"""
CHAIN = """SUBAPPLICATION PASS
  EVENT_INPUT GO; SKIP; END_EVENT
  EVENT_OUTPUT OUT; END_EVENT
  FBS B : ONE; END_FBS
  EVENT_CONNECTIONS GO TO B.RUN; B.DONE TO OUT; END_CONNECTIONS
END_SUBAPPLICATION
"""
OUTER = """SUBAPPLICATION OUTER
  EVENT_INPUT GO; END_EVENT
  EVENT_OUTPUT OUT; END_EVENT
  SUBAPPS P : PASS; Q : PASS; END_SUBAPPS
  EVENT_CONNECTIONS GO TO P.SKIP; GO TO Q.GO; Q.OUT TO OUT; END_CONNECTIONS
END_SUBAPPLICATION
"""


def conveyor() -> dict[str, str]:
    return {it.stem: it.read_text() for it in CONVEYOR.glob("*.fb")}


def tracing_of(unit: str, texts: Mapping[str, str], known: Mapping[str, str] | None = None) -> Tracing:
    """The network of a unit as the workbench has it. By default all texts are `known`."""
    with Session.script(workbench()) as session:
        for batch in batches(Put(name, 0, text) for name, text in texts.items()):
            session.commit(batch)
        kinds = [name for name, text in texts.items() if text.lstrip().startswith(("SUBAPPLICATION", "SYSTEM")) or "\nSUBAPPLICATION" in text]
        nets = {name: session.wait("net", name) for name in {*kinds, unit}}
        deploy = session.wait("deploy", unit) if "SYSTEM" in texts[unit] else None
    net = nets[unit]
    assert isinstance(net, Flat), net
    return Tracing(unit, net, deploy, Texts.of(texts if known is None else known).unit, nets.get)


class WayTest(TestCase):
    """The ways of the library."""

    def told(self, tracing: Tracing, end: str, back: bool, most: int = 0) -> list[tuple]:
        """The steps: number, path, resource, and how many of the links are cut."""
        way = tracing.back(tracing.end(end), most) if back else tracing.forth(tracing.end(end), most)
        return [(it.number, it.path, it.resource, len(it.hops), sum(hop.is_cut for hop in it.hops), it.is_again) for it in way.steps]

    def test_through_borders_adapters_and_resources(self) -> None:
        tracing = tracing_of("PLANT", conveyor())
        north, south = "NORTH.MOTION", "SOUTH.MOTION"
        expected = [
            (1, "LINE.SECOND.LIFT", south, 1, 1, False),
            (2, "LINE.SECOND.BELT", south, 2, 0, False),
            (3, "LINE.FIRST.LIFT", north, 2, 2, False),
            (3, "LINE.SECOND.LIFT", south, 1, 0, True),
            (4, "LINE.FIRST.BELT", north, 2, 0, False),
            (5, "LINE.FIRST.LIFT", north, 1, 0, True),
        ]
        self.assertEqual(self.told(tracing, "line.panel.value", True), expected)
        self.assertEqual(self.told(tracing, "LINE.PANEL.VALUE", True, 2), expected[:2])
        self.assertEqual([tracing.back(tracing.end("LINE.PANEL.VALUE"), most).is_whole for most in (4, 5, 6, 0)], [False, True, True, True])
        (first, *_) = tracing.forth(tracing.end("LINE.FIRST.LIFT.TOTAL")).steps
        self.assertEqual([it.link for it in first.hops], [Link("data", "LINE.FIRST.LIFT.TOTAL", "LINE.SECOND.BELT.LOAD")])

    def test_an_adapter_leads_both_ways(self) -> None:
        tracing = tracing_of("PLANT", conveyor())
        plug = tracing.end("LINE.FIRST.BELT.NEXT")
        self.assertEqual(({it for _, it in plug.into}, {it for _, it in plug.out}), ({"LINE.FIRST.BELT.NEXT.TAKEN"}, {f"LINE.FIRST.BELT.NEXT.{it}" for it in ("OFFER", "PIECE")}))
        self.assertEqual(tracing.end("LINE.FIRST.LIFT.BEFORE.TAKEN").out, (("event", "LINE.FIRST.LIFT.BEFORE.TAKEN"),))
        self.assertEqual(tracing.end("LINE.FIRST.LIFT.BEFORE.OFFER").into, (("event", "LINE.FIRST.LIFT.BEFORE.OFFER"),))

    def test_cycles_end(self) -> None:
        """A block that feeds itself is on its own way, once with all its ports."""
        tracing = tracing_of("RING", {"ONE": BLOCK.format(name="ONE"), "RING": RING})
        back = self.told(tracing, "APP.A.RUN", True)
        self.assertEqual([it[:2] for it in back if not it[5]], [(1, "APP.C"), (2, "APP.B"), (2, "APP.A")])
        self.assertEqual([it[:2] for it in back if it[5]], [(3, "APP.A")])
        way = tracing.back(tracing.end("APP.A.RUN"))
        self.assertEqual(sorted(map(str, (it.link for it in way.hops))), sorted(map(str, self.net(tracing))))
        self.assertEqual(self.told(tracing, "APP.A.AGAIN", True)[0][:2], (1, "APP.A"))

    def net(self, tracing: Tracing) -> set[Link]:
        """All links, by what every block feeds."""
        return {hop.link for block in tracing.blocks_of("ONE") for hop in tracing.forth(tracing.end(block)).hops}

    def test_nothing_and_constants(self) -> None:
        tracing = tracing_of("RING", {"ONE": BLOCK.format(name="ONE"), "RING": RING})
        alone = tracing.end("APP.ALONE.AMOUNT")
        self.assertEqual((alone.into, alone.out, tracing.back(alone).steps), ((("data", "APP.ALONE.AMOUNT"),), (), ()))
        self.assertEqual((tracing.end("APP.C.MOST").constant, tracing.end("APP.A.MOST").constant), ("7", ""))
        self.assertEqual((tracing.end("APP.ALONE.DONE").into, tracing.forth(tracing.end("APP.ALONE.DONE")).steps), ((), ()))

    def test_ports_of_subapplications_by_the_borders_of_their_types(self) -> None:
        tracing = tracing_of("HALL", hall())
        inner = tracing.end("FILLING.A.INNER.RUN")
        self.assertEqual((inner.block, inner.into, inner.out), ("", (("event", "FILLING.A.INNER.S0.RUN"),), ()))
        self.assertEqual(tracing.end("FILLING.A.DONE").out, (("event", "FILLING.A.INNER.S3.DONE"),))
        self.assertEqual(self.told(tracing, "FILLING.C.RUN", True, 1), [(1, "FILLING.A.INNER.S3", "LEFT.ONE", 1, 1, False)])

    def test_own_ports_and_one_that_leads_to_no_block(self) -> None:
        texts = {"ONE": BLOCK.format(name="ONE"), "PASS": CHAIN, "OUTER": OUTER}
        tracing = tracing_of("OUTER", texts)
        self.assertEqual(self.told(tracing, "GO", False), [(1, "Q.B", "", 1, 0, False), (2, "OUT", "", 1, 0, False)])
        self.assertEqual(self.told(tracing, "Q.GO", True), [(1, "GO", "", 1, 0, False)])
        self.refused(tracing, "P.SKIP", "SKIP of PASS leads to no block inside of P, so the flat network has no such end")

    def test_ends_that_are_not_there(self) -> None:
        tracing = tracing_of("PLANT", conveyor())
        self.refused(tracing, "LINE.PANEL.VALU", "LAMP has no port VALU; did you mean LINE.PANEL.VALUE?")
        self.refused(tracing, "LINE.FIRST.BELT.NEXT.MORE", "FEEDER has no port NEXT.MORE; did you mean LINE.FIRST.BELT.NEXT?")
        self.refused(tracing, "LINE.FIRST.STRT", "STATION has no port STRT; did you mean LINE.FIRST.START?")
        self.refused(tracing, "LINE.FRST.BELT.SEEN", "PLANT has no LINE.FRST.BELT.SEEN; did you mean LINE.FIRST.BELT.SEEN?")
        self.refused(tracing, "LINE.FIRST", "LINE.FIRST holds blocks: name one of its ports")
        self.refused(tracing, "", "PLANT has no ")
        blind = tracing_of("PLANT", conveyor(), {})
        self.refused(blind, "LINE.PANEL.TEXT", "no connection has LINE.PANEL.TEXT as an end, and the text of LAMP is not known")
        self.refused(blind, "LINE.FIRST.START", "the type of LINE.FIRST is not known here, so neither is its START")
        self.assertEqual(len(blind.back(blind.end("LINE.PANEL.VALUE")).steps), 6)

    def refused(self, tracing: Tracing, end: str, words: str) -> None:
        with self.assertRaises(NoSuchEnd) as raised:
            tracing.end(end)
        self.assertEqual(str(raised.exception), words)

    def test_all_ends_of_a_plant_against_a_search_over_all_links(self) -> None:
        for unit, texts in (("HALL", hall()), ("PLANT", conveyor()), ("CELL_A", hall())):
            tracing = tracing_of(unit, texts)
            links = {hop.link for block in tracing.blocks_of(*texts) for hop in (*tracing.back(tracing.end(block), 1).hops, *tracing.forth(tracing.end(block), 1).hops)}
            for link in links:
                for end, back in ((link.source, False), (link.destination, True)):
                    way = tracing.back(tracing.end(end)) if back else tracing.forth(tracing.end(end))
                    found = {it.path for it in way.steps}
                    self.assertEqual(found, self.search(tracing, links, end, back), (unit, end))

    def search(self, tracing: Tracing, links: set[Link], end: str, back: bool) -> set[str]:
        """The blocks and own ports that are reached from an end, by looking at all links until there is nothing new."""
        pairs = [(it.destination, it.source) if back else (it.source, it.destination) for it in links]
        found = {far for near, far in pairs if near == end}
        while True:
            blocks = {block for it in found if (block := tracing.block_of(it))}
            more = found | {far for near, far in pairs if tracing.block_of(near) in blocks}
            if more == found:
                return {tracing.block_of(it) or it for it in found}
            found = more


class ProgramTest(InFolder):
    def setUp(self) -> None:
        super().setUp()
        self.copy_conveyor()

    def trace(self, *words: object):
        return run("trace", *words, "--files", ".", "--program", workbench(), folder=self.folder)

    def test_what_it_prints(self) -> None:
        ran = self.trace("plant", "line.second.belt.load", "--steps", 1)
        expected = """\
LINE.SECOND.BELT.LOAD of FEEDER on SOUTH.MOTION is fed by
  1 LINE.FIRST.LIFT : LIFTER on NORTH.MOTION
      data LINE.FIRST.LIFT.TOTAL -> LINE.SECOND.BELT.LOAD, cut
1 block on 1 resource, 1 cut link; there are more: give more --steps
"""
        self.assertEqual((ran.returncode, ran.stdout, ran.stderr), (0, expected, ""))
        self.assertEqual(self.trace("PLANT", "LINE.FIRST.START").stdout, "LINE.FIRST.START stands for LINE.FIRST.BELT.START\nLINE.FIRST.START is fed by nothing\n")
        self.assertEqual(self.trace("PLANT", "LINE.PANEL.TEXT").stdout, "LINE.PANEL.TEXT of LAMP on SOUTH.SCREEN is fed by nothing; its parameter is 'line 1'\n")
        self.assertIn("  1 START, an own port\n      event START -> BELT.START\n", self.trace("STATION", "BELT.START").stdout)

    def test_a_constant_that_a_terminal_would_obey(self) -> None:
        self.edit("PLANT.fb", "'line 1'", "'\033[2J\x9b\u202e'")
        self.assertEqual(self.trace("PLANT", "LINE.PANEL.TEXT").stdout, "LINE.PANEL.TEXT of LAMP on SOUTH.SCREEN is fed by nothing; its parameter is '\ufffd[2J\ufffd\ufffd'\n")

    def test_json(self) -> None:
        found = json.loads(self.trace("PLANT", "LINE.PANEL.SHOW", "--json", "--steps", 1).stdout)
        link = {"sort": "event", "source": "LINE.SECOND.LIFT.LIFTED", "destination": "LINE.PANEL.SHOW", "cut": True, "border": False}
        step = {"number": 1, "path": "LINE.SECOND.LIFT", "type": "LIFTER", "resource": "SOUTH.MOTION", "again": False, "links": [link]}
        front = {"unit": "PLANT", "end": "LINE.PANEL.SHOW", "block": "LINE.PANEL", "type": "LAMP", "resource": "SOUTH.SCREEN", "constant": ""}
        self.assertEqual(found, {**front, "fed_by": {"whole": False, "steps": [step]}})
        both = json.loads(self.trace("PLANT", "LINE.FIRST.BELT.NEXT", "--json").stdout)
        self.assertEqual([name for name in ("fed_by", "leads_to") if both[name]["steps"]], ["fed_by", "leads_to"])

    def test_what_it_refuses(self) -> None:
        ran = self.trace("PLANT", "LINE.PANEL.VALU")
        self.assertEqual((ran.returncode, ran.stdout, ran.stderr), (1, "", "trace: LAMP has no port VALU; did you mean LINE.PANEL.VALUE?\n"))
        self.assertEqual(self.trace("FEEDER", "LOAD").stderr, "trace: FEEDER is a function block; only subapplications and systems have networks\n")
        self.write("LIFTER.fb", "FUNCTION_BLOCK LIFTER END_FUNCTION_BLOCK")
        ran = self.trace("PLANT", "LINE.PANEL.VALUE")
        self.assertEqual((ran.returncode, ran.stderr), (1, "trace: PLANT has no network: STATION has faults\n"))
        for words in ("", "PLANT", "PLANT A.B --steps 0", "PLANT A.B --steps -1"):
            self.assertEqual(self.trace(*words.split()).returncode, 2, words)

    def test_a_system_without_a_plan(self) -> None:
        text = (self.folder / "PLANT.fb").read_text()
        self.write("PLANT.fb", text.replace("    LINE.PANEL ON SOUTH.SCREEN;\n", ""))
        ran = self.trace("PLANT", "LINE.PANEL.VALUE", "--steps", 1)
        self.assertEqual(ran.stderr, "trace: PLANT has no plan, so resources and cuts are not known\n")
        self.assertEqual(ran.stdout.splitlines()[:3], ["LINE.PANEL.VALUE of LAMP is fed by", "  1 LINE.SECOND.LIFT : LIFTER", "      data LINE.SECOND.LIFT.TOTAL -> LINE.PANEL.VALUE"])

    def test_of_servers(self) -> None:
        """A host gives its texts; of a `serve` ends are known by links alone, unless files have the ports."""
        for server, words in ((hosting(), "LAMP has no port TEX; did you mean LINE.PANEL.TEXT?"), (serving(3), "no connection has LINE.PANEL.TEX as an end, and the text of LAMP is not known")):
            with server as port:
                before = run("trace", "PLANT", "LINE.PANEL.VALUE", "--files", ".", "--connect", f":{port}", "--replace", folder=self.folder).stdout
                self.assertEqual(before, self.trace("PLANT", "LINE.PANEL.VALUE").stdout)
                self.assertEqual(run("trace", "PLANT", "LINE.PANEL.VALUE", "--connect", f":{port}").stdout, before)
                ran = run("trace", "PLANT", "LINE.PANEL.TEX", "--connect", f":{port}")
                self.assertEqual((ran.returncode, ran.stderr), (1, f"trace: {words}\n"))


if __name__ == "__main__":
    unittest.main()
