"""lsp: a connection whose data 4diac converts gets a block in between."""
from __future__ import annotations

import unittest
from pathlib import Path

from editing import LspTest
from support import run, workbench

from bench61499.language.positions import edited

SOURCE = "FUNCTION_BLOCK Source\n  EVENT_INPUT REQ; END_EVENT\n  EVENT_OUTPUT CNF WITH OUT; IDLE; END_EVENT\n  VAR_OUTPUT OUT : INT; END_VAR\nEND_FUNCTION_BLOCK\n"
SINK = "FUNCTION_BLOCK Sink\n  EVENT_INPUT REQ WITH IN; OFF; END_EVENT\n  VAR_INPUT IN : DINT; END_VAR\nEND_FUNCTION_BLOCK\n"
LINE = """\
SYSTEM Line
  APPLICATION App
    FBS
      A : Source;
      B : Sink;
      CONVERT1 : Sink;
    END_FBS
    EVENT_CONNECTIONS
      A.CNF TO B.REQ;
      A.IDLE TO B.OFF;
    END_CONNECTIONS
    DATA_CONNECTIONS
      A.OUT TO B.IN;
    END_CONNECTIONS
  END_APPLICATION
  DEVICE D : FORTE_PC
    RESOURCE R : EMB_RES END_RESOURCE
  END_DEVICE
  MAPPINGS
    App.A ON D.R; App.B ON D.R; App.CONVERT1 ON D.R;
  END_MAPPINGS
END_SYSTEM
"""
CAN_CREATE = {"workspace": {"workspaceEdit": {"documentChanges": True, "resourceOperations": ["create", "rename"]}}}
TITLE = "Put the block F_INT_TO_DINT in between"


class ConversionTest(LspTest):
    def shown(self, text: str, capabilities: dict | None = None, source: str = SOURCE, sink: str = SINK) -> list[dict]:
        """The actions for the fault of a text."""
        for name, its in (("Source", source), ("Sink", sink), ("Line", text)):
            self.write(f"{name}.fb", its)
        server = self.editor()
        server.start(self.folder, capabilities)
        server.open(self.folder / "Line.fb")
        server.await_codes(Line=["DATA_TYPE"])
        shown = server.shown["Line.fb"]
        return server.ask("codeAction", self.folder / "Line.fb", range=shown[0]["range"], context={"diagnostics": shown})

    def applied(self, action: dict) -> list[str]:
        """Makes the edit of an action, and gives the lines of the text that are new."""
        self.assertEqual(action["title"], TITLE)
        before = (self.folder / "Line.fb").read_text().split("\n")
        for it in action["edit"].get("documentChanges") or [{"textDocument": {"uri": uri}, "edits": edits} for uri, edits in action["edit"]["changes"].items()]:
            if it.get("kind") == "create":
                (self.folder / Path(it["uri"]).name).touch()
            else:
                file = self.folder / Path(it["textDocument"]["uri"]).name
                file.write_text(edited(file.read_text(), it["edits"]))
        return [line.strip() for line in (self.folder / "Line.fb").read_text().split("\n") if line not in before]

    def check(self, *words: str) -> str:
        return run("check", ".", *words, "--program", workbench(), folder=self.folder).stdout

    def test_a_block_in_between_with_its_events_and_its_mapping(self) -> None:
        found = self.applied(self.shown(LINE, CAN_CREATE)[0])
        self.assertEqual(found, [
            "CONVERT2 : F_INT_TO_DINT;",
            "A.CNF TO CONVERT2.REQ; CONVERT2.CNF TO B.REQ;",
            "A.OUT TO CONVERT2.IN; CONVERT2.OUT TO B.IN;",
            "App.CONVERT2 ON D.R;",
        ])
        self.assertEqual(self.check("--plans"), "4 units, no faults\nnetworks of subapplications: 0 of 0, plans of systems: 1 of 1\n")

    def test_no_file_is_made_where_the_type_is_there(self) -> None:
        self.write("F_INT_TO_DINT.fb", "FUNCTION_BLOCK F_INT_TO_DINT\n  EVENT_INPUT REQ; END_EVENT\n  EVENT_OUTPUT CNF; END_EVENT\n  VAR_INPUT IN : INT; END_VAR\n  VAR_OUTPUT OUT : DINT; END_VAR\nEND_FUNCTION_BLOCK\n")
        action = self.shown(LINE)[0]
        self.assertEqual(list(action["edit"]), ["changes"])
        self.assertEqual(len(self.applied(action)), 4)
        self.assertEqual(self.check(), "4 units, no faults\n")

    def test_own_ports_and_several_events(self) -> None:
        """Of a composite block: all events of both sides lead through the block, if each leads to each."""
        text = """\
FUNCTION_BLOCK Line
  EVENT_INPUT GO WITH X; STOP WITH X; END_EVENT
  VAR_INPUT X : INT; END_VAR
  FBS B : Sink; END_FBS
  EVENT_CONNECTIONS GO TO B.REQ; STOP TO B.REQ; END_CONNECTIONS
  DATA_CONNECTIONS X TO B.IN; END_CONNECTIONS
END_FUNCTION_BLOCK
"""
        self.assertEqual(self.applied(self.shown(text, CAN_CREATE)[0]), [
            "FBS B : Sink; CONVERT1 : F_INT_TO_DINT; END_FBS",
            "EVENT_CONNECTIONS GO TO CONVERT1.REQ; CONVERT1.CNF TO B.REQ; STOP TO CONVERT1.REQ; END_CONNECTIONS",
            "DATA_CONNECTIONS X TO CONVERT1.IN; CONVERT1.OUT TO B.IN; END_CONNECTIONS",
        ])
        self.assertEqual(self.check(), "4 units, no faults\n")

    def test_none_where_nothing_is_converted_or_no_file_can_be_made(self) -> None:
        self.assertEqual(self.shown(LINE), [])
        self.assertEqual(self.shown(LINE, CAN_CREATE, SOURCE.replace("INT", "DINT"), SINK.replace("DINT", "INT")), [])


if __name__ == "__main__":
    unittest.main()
