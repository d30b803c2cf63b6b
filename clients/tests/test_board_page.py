"""The board's page in a real Chromium."""
from __future__ import annotations

import os
import unittest
from itertools import product
from pathlib import Path

from boards import Address
from browser import Browser
from support import CONVEYOR, hosting, serving
from test_board import MARKUP, STATES, BoardTest

from bench61499 import Put, Session
from bench61499.board.server import NO_TOKEN

SETTLED = "board.connected && count().pending === 0 && board.units.size === "
PICTURE = os.environ.get("BENCH61499_BOARD_PICTURE")
"""Where the picture for the document is written, if anywhere; beside it the dark one."""
# Keeps all that is announced: what comes later takes its place in the page.
HEAR = """(() => {
  const said = document.getElementById("said");
  window.heard = [said.textContent];
  new MutationObserver(() => heard.push(said.textContent)).observe(said, { childList: true, characterData: true, subtree: true });
})()"""
# Each control that has no name, and each list, tab or field without its role.
UNNAMED = """(() => {
  const named = (it) => (it.getAttribute("aria-label") ?? it.labels?.[0]?.textContent ?? "").trim() || it.textContent.trim() || it.getAttribute("aria-labelledby");
  return [...document.querySelectorAll("button, input, canvas, [role]:not([role=status], [role=alert]), [tabindex]")].filter((it) => it.getClientRects().length && !named(it) && it.getAttribute("role") !== "presentation").map((it) => it.outerHTML);
})()"""


class PageTest(BoardTest):
    """A test with a window on a board."""

    def setUp(self) -> None:
        super().setUp()
        self.browser = Browser()
        self.addCleanup(self.browser.close)

    def tearDown(self) -> None:
        self.assertEqual(self.browser.log(), [])

    def see(self, at: Address, units: int, place: str = "") -> None:
        self.browser.open(at.url + place)
        self.browser.until(f"{SETTLED}{units}")
        self.browser.value(HEAR)

    def see_conveyor(self, place: str = "") -> Address:
        at = self.conveyor()
        self.see(at, len(STATES), place)
        return at

    def words(self, selector: str) -> str:
        """The words of the first such element as they are seen, without empty lines."""
        words = self.browser.value(f"document.querySelector('{selector}')?.innerText ?? ''")
        return "\n".join(line for line in words.split("\n") if line)

    def until_words(self, selector: str, words: str) -> None:
        self.browser.until(f"document.querySelector('{selector}')?.textContent.includes({words!r})")

    def until_seen(self, selector: str, words: str) -> None:
        """Waits until exactly these words are seen, whatever is between them."""
        self.browser.until(f"document.querySelector('{selector}')?.innerText.split(/\\s+/).filter(Boolean).join(' ') === {words!r}")

    def until_said(self, words: str) -> None:
        """Waits until something is announced to those who can't see the page, or was announced since it was opened."""
        self.browser.until(f"heard.some((it) => it.includes({words!r}))")


class UnitsTest(PageTest):
    def test_a_fault_comes_and_goes(self) -> None:
        self.see_conveyor("#FEEDER/text")
        self.assertEqual(self.words("#counts").split(), "7 units 0 faults 0 pending".split())
        self.edit("FEEDER.fb", "DONE TO IDLE", "DONE TO IDEL")
        self.until_words("mark", "IDEL")
        self.assertEqual(self.words(".told"), "STATE_UNKNOWN no state IDEL in this chart; did you mean IDLE?")
        self.assertEqual(self.words(".faults").split("\n"), ["19:13", "STATE_UNKNOWN", "no state IDEL in this chart; did you mean IDLE?"])
        self.until_seen("#counts", "7 units 1 fault in 1 unit 1 system without a plan 0 pending")
        self.assertEqual(self.browser.value("document.title"), "1 fault – .")
        self.until_said("FEEDER: 1 fault")
        self.edit("FEEDER.fb", "DONE TO IDEL", "DONE TO IDLE")
        self.browser.until("!document.querySelector('mark') && document.querySelector('.text')")
        self.until_said("FEEDER: no faults")
        lines = self.browser.value("[...document.querySelectorAll('#changes li')].map((it) => it.innerText.replace(/\\n+\\S+, /, ' '))")
        self.assertRegex("".join(lines), r"^FEEDER revision 1 → \d, \d changes FEEDER.fb$")  # A file may be read while it is written.

    def test_a_system_without_a_plan(self) -> None:
        self.see_conveyor("#PLANT/text")
        self.edit("PLANT.fb", "LINE.PANEL ON", "LINE.LAMP ON")
        self.until_words("#counts", "1 system without a plan")
        self.assertEqual(self.words("#unit-state"), "no plan")
        self.browser.value("document.querySelector('[data-filter=noplan]').click()")
        self.assertEqual(self.words("#units .row").split(), ["PLANT", ",", "no", "plan,", "no", "plan"])
        self.browser.press("f")
        self.until_words(".said", "no mapping gives LINE.PANEL a resource")

    def test_units_that_are_removed(self) -> None:
        """They count as none, and are listed by their own button alone, also in a page that is opened later."""
        at = self.see_conveyor()
        rows = "[...document.querySelectorAll('#units .row .name')].map((it) => it.textContent)"
        (self.folder / "LAMP.fb").unlink()
        for again in (False, True):
            if again:
                self.browser.open(at.url)
            self.browser.until("board.connected && board.units.get('LAMP')?.state === 'absent' && count().pending === 0")
            self.assertEqual(self.words("#counts").split()[:2], ["6", "units"])
            self.assertNotIn("LAMP", self.browser.value(rows))
            self.browser.value("document.querySelector('[data-filter=absent]').click()")
            self.assertEqual(self.browser.value(rows), ["LAMP"])

    def test_search_and_filter(self) -> None:
        self.see_conveyor()
        rows = "[...document.querySelectorAll('#units .row .name')].map((it) => it.textContent)"
        self.browser.press("/", *"li")
        self.assertEqual(self.browser.value(rows), ["LIFTER"])
        self.browser.press("Escape", *"zz")
        self.assertEqual(self.words("#units"), "No unit is like that.")
        self.browser.press("Escape")
        self.edit("FEEDER.fb", "DONE TO IDLE", "DONE TO IDEL")
        self.browser.until("count().faulty === 1 && count().noplan === 1")
        for name, words, listed in (("faulty", "Faults 1", ["FEEDER"]), ("noplan", "No plan 1", ["PLANT"])):
            self.browser.value(f"document.querySelector('[data-filter={name}]').click()")
            self.assertEqual((self.browser.value(rows), self.words(f"[data-filter={name}]")), (listed, words))

    def test_names_are_as_declared(self) -> None:
        """In the list, in the head, in the tables of the plant, and in the changes."""
        self.write("Pump.fb", "FUNCTION_BLOCK Pump END_FUNCTION_BLOCK")
        self.write("Plant.fb", "SYSTEM Plant END_SYSTEM")
        self.see(self.start("."), 2)
        self.assertEqual(self.browser.value("[...document.querySelectorAll('#units .row .name')].map((it) => it.textContent)"), ["Plant", "Pump"])
        self.assertEqual(self.browser.value("document.querySelector('.plant td').textContent"), "Plant")
        self.edit("Pump.fb", "Pump END", "Pump EVENT_INPUT E WITH X; END_EVENT END")
        self.until_words("#changes", "Pump revision 1 → 2")
        self.until_said("Pump: 1 fault")
        self.browser.value("go('PUMP')")
        self.until_seen("#unit", "Pump")

    def test_units_by_folder_and_by_system(self) -> None:
        """Each group has its number of units and of faults, and a click or Enter opens and closes it."""
        (self.folder / "more").mkdir()
        self.write("more/SPARE.fb", "FUNCTION_BLOCK SPARE EVENT_INPUT E WITH X; END_EVENT END_FUNCTION_BLOCK")
        self.see(self.conveyor(), len(STATES) + 1)
        rows = "[...document.querySelectorAll('#units .row')].map((it) => it.innerText.split(/\\s+/).filter((it) => it && it !== ',').join(' '))"
        choose = "(() => {{ const it = document.getElementById('by'); it.value = '{}'; it.dispatchEvent(new Event('change')); }})()"
        self.browser.value(choose.format("folder"))
        self.browser.until(f"{rows}.length === 10")
        self.assertEqual([it for it in self.browser.value(rows) if it[0] in "▾▸"], ["▾ ./ open, 7 units", "▾ more open, 1 fault, 1 1 unit"])
        self.browser.value("document.querySelector('#units .row').click()")
        self.browser.until(f"{rows}.length === 3")
        self.browser.value("document.getElementById('units').focus()")
        self.browser.press("Enter")
        self.browser.until(f"{rows}.length === 10")
        self.browser.value(choose.format("system"))
        self.browser.until(f"{rows}.length === 10 && systems")
        self.assertEqual([it for it in self.browser.value(rows) if it[0] in "▾▸"], ["▾ PLANT open, 7 units", "▾ in no system open, 1 fault, 1 1 unit"])
        self.browser.press("Home", "Down")
        self.until_words("#unit", "FEEDER")
        self.browser.press("/", *"spare", "Enter")
        self.until_words("#unit", "SPARE")

    def test_enter_opens_the_first_match(self) -> None:
        self.see_conveyor()
        self.browser.press("/", *"lift", "Enter")
        self.until_words(".text", "FUNCTION_BLOCK LIFTER")
        self.assertEqual(self.words("#unit"), "LIFTER")

    def test_it_opens_on_the_plant(self) -> None:
        """The systems with their plans and the units with faults, kept up to date; each leads to what it is of."""
        self.see_conveyor()
        table = "[...document.querySelectorAll('.plant tbody tr')].map((it) => [...it.children].map((cell) => cell.innerText).join(' | '))"
        self.browser.until(f"{table}.length")
        self.assertEqual(self.browser.value(table), ["PLANT | none | 3 resources, 4 cut links"])
        self.edit("FEEDER.fb", "DONE TO IDLE", "DONE TO IDEL")
        self.browser.until(f"{table}.length === 2 && count().pending === 0")
        self.assertEqual(self.browser.value(table), ["PLANT | none | no plan: 1 unit missing or with faults", "FEEDER | block | 1 fault"])
        self.browser.value("[...document.querySelectorAll('.plant .link')].at(-1).click()")
        self.until_words("mark", "IDEL")
        self.browser.press("o")
        self.browser.until(f"{table}.length === 2")
        self.browser.value("document.querySelector('.plant .link').click()")
        self.until_words(".said", "With faults: FEEDER")

    def test_units_that_can_have_no_plan(self) -> None:
        self.copy_conveyor()
        self.write("BROKEN.fb", "SYSTEM BROKEN (")
        at = self.start(".")
        self.see(at, len(STATES) + 1)
        for place, words in [
            ("FEEDER/plan", "A block has no plan."), ("STATION/plan", "A subapplication has no plan."), ("HANDOVER/network", "An adapter has no network."),
            ("ITEM/plan", "A structure has no plan."), ("BROKEN/network", "The text of BROKEN has a SYNTAX fault, so it has no network."),
        ]:
            self.browser.value(f"location.hash = '#{place}'")
            self.until_words(".said", words)

    def test_a_narrow_window(self) -> None:
        """Nothing is wider than it."""
        self.copy_conveyor()
        self.edit("FEEDER.fb", "DONE TO IDLE", "DONE TO IDEL")
        at = self.start(".")
        self.browser.devtools("Emulation.setDeviceMetricsOverride", width=390, height=844, deviceScaleFactor=1, mobile=False)
        self.see(at, len(STATES))
        for place, there in (("", ".plant tbody"), ("FEEDER/text", ".faults"), ("PLANT/plan", ".said"), ("STATION/text", ".text")):
            self.browser.value(f"location.hash = '#{place}'")
            self.browser.until(f"document.querySelector('{there}')")
            self.assertEqual(self.browser.value("document.documentElement.scrollWidth"), 390, place)
        self.edit("FEEDER.fb", "DONE TO IDEL", "DONE TO IDLE")
        self.browser.value("location.hash = '#PLANT/network'")
        self.browser.until("network?.canvas.isConnected && network.scale > 0")
        self.assertEqual(self.browser.value("document.documentElement.scrollWidth"), 390)

    def test_texts_are_no_markup(self) -> None:
        self.write("A.fb", MARKUP)
        self.write("<img src=x onerror=alert(3)>.fb", "FUNCTION_BLOCK <script>alert(4)</script>")
        at = self.start(".")
        self.see(at, 2, "#A/text")
        self.browser.until("document.querySelector('mark')")
        lines = self.browser.value("[...document.querySelectorAll('.text .l')].map((it) => it.textContent)")
        self.assertEqual("\n".join(lines) + "\n", MARKUP)
        self.browser.press("f")
        self.browser.until("document.querySelector('.told')?.textContent.includes('SYNTAX')")
        self.assertIn("<img src=x onerror=alert(3)>.fb", self.words("#facts"))
        self.assertIn("<script>alert(4)</script>", self.words(".text"))
        self.assertEqual(self.browser.value("document.querySelectorAll('img, main script').length"), 0)
        refused = self.browser.value("(() => { try { document.body.innerHTML = '<b>'; return ''; } catch (error) { return error.name; } })()")
        self.assertEqual(refused, "TypeError")
        self.assertIn("TrustedHTML", "".join(self.browser.log()))

    def test_the_end_of_the_workbench(self) -> None:
        self.copy_conveyor()
        with serving(sessions=1) as port:
            at = self.start("--connect", f":{port}", "--files", ".")
            self.see(at, len(STATES), "#LAMP/text")
            self.browser.until("document.querySelector('.text')")
        self.browser.until("!document.getElementById('ended').hidden")
        self.assertRegex(self.words("#ended"), "^Not checked now: .*; trying again. This is what was last known.$")
        self.assertEqual((self.words("#live"), self.words("#unit")), ("waiting", "LAMP"))
        self.assertIn("FUNCTION_BLOCK LAMP", self.words(".text"))

    def test_the_end_of_the_board(self) -> None:
        at = self.see_conveyor("#LAMP/text")
        self.browser.until("document.querySelector('.text')")
        at.process.terminate()
        self.browser.until("!document.getElementById('ended').hidden")
        self.assertIn("The board does not answer. This is what it last knew", self.words("#ended"))
        self.assertIn("FUNCTION_BLOCK LAMP", self.words(".text"))
        self.browser.log()  # The browser notes that nobody answers.

    def test_the_token_lets_in(self) -> None:
        at = self.see_conveyor("#LAMP/text")
        self.assertEqual(self.browser.value("location.href"), f"http://127.0.0.1:{at.port}/#LAMP/text")
        self.browser.value("location.reload()")
        self.browser.until(f"{SETTLED}{len(STATES)}")
        self.assertEqual(self.browser.value("document.cookie"), "")

    def test_a_page_of_a_board_that_was_started_again(self) -> None:
        at = self.see_conveyor()
        at.process.terminate()
        at.process.wait(30)
        again = self.start(".", "--port", at.port)
        self.until_words("#ended", f"The board says: {NO_TOKEN}.")
        self.browser.log()  # The browser notes what was refused.
        self.browser.open(again.url)
        self.browser.until(f"{SETTLED}{len(STATES)}")
        self.assertEqual(self.words("#ended"), "")

    def test_places_that_are_not_there(self) -> None:
        self.see_conveyor("#%ff/text")
        self.until_words(".said", "The board has no unit %ff.")
        for place in ("#NOTHING/network", "#<b>/plan", "#constructor/toString/x"):
            self.browser.value(f"location.hash = '{place}'")
            self.until_words(".said", f"The board has no unit {place[1:].split('/')[0]}.")
        self.browser.value("location.hash = '#LAMP/toString/x'")
        self.browser.until("document.querySelector('.text')")
        self.assertEqual(self.browser.value("shown.tab"), "text")

    def test_another_session(self) -> None:
        with serving(sessions=2) as port, Session.connect("127.0.0.1", port) as engineer:
            at = self.start("--connect", f":{port}")
            self.see(at, 0)
            self.browser.value("document.getElementById('look-name').focus()")
            self.browser.press(*"lamp", "Enter")
            self.browser.until("board.units.get('LAMP')?.state === 'absent'")
            engineer.commit([Put("LAMP", 0, "FUNCTION_BLOCK LAMP EVENT_INPUT E WITH X; END_EVENT END_FUNCTION_BLOCK")])
            self.browser.until("document.querySelector('.faults')")
            self.assertEqual(self.words(".faults").split("\n"), ["39–40", "WITH_UNKNOWN", "bytes of a text that is not here"])
            self.assertIn("so its text can't be shown", self.words("#note"))
            self.assertRegex(self.words("#changes-note"), r"This board has made \d+ recorded calls\.$")
            self.until_words("#changes", "LAMP WITH_UNKNOWN")
            self.assertRegex(self.words("#changes"), r"^LAMP new, revision 1\n\d\d:\d\d:\d\d, another session\ncame\n")

    def test_a_host_that_gives_its_texts(self) -> None:
        """A colleague's commit: the fault at its place in the text, and in the feed who brought it, and who corrected it."""
        texts = {file.stem: file.read_text() for file in CONVEYOR.glob("*.fb")}
        with hosting() as port, Session.connect("127.0.0.1", port) as engineer:
            engineer.commit([Put(unit, 0, text) for unit, text in texts.items()])
            at = self.start("--connect", f":{port}")
            self.see(at, len(STATES), "#FEEDER/text")
            self.browser.until("document.querySelector('.text')")
            self.assertTrue(self.browser.value("$('look').hidden && $('note').hidden && $('ended').hidden"))
            self.browser.until("board.session")
            self.assertRegex(self.words("#changes-note"), r"This board is session \d+, and commits nothing\.$")
            wrong = texts["FEEDER"].replace("DONE TO IDLE", "DONE TO IDEL")
            engineer.commit([Put("FEEDER", 1, wrong)])
            self.until_words("mark", "IDEL")
            self.until_words("#changes", "PLANT no plan")
            who = f"session {engineer.status().session}"
            self.assertRegex(self.words("#changes"), rf"^FEEDER revision 1 → 2\n[\d:]*, {who}, commit 2\ncame\n\+ FEEDER STATE_UNKNOWN IDEL\ncame\n\+ PLANT no plan$")
            engineer.commit([Put("FEEDER", 2, texts["FEEDER"]), Put("LAMP", 1, f"{texts['LAMP']} ")])
            self.browser.until("document.querySelectorAll('#changes li')[1]?.querySelectorAll('.came').length === 2 && document.querySelectorAll('#changes .went').length === 2")
            self.assertRegex(self.words("#changes li"), rf"^FEEDER revision 2 → 3\nLAMP revision 1 → 3\n[\d:]*, {who}, commit 3\nwent\n− ")
            spoken = self.browser.value("[...board.changes.values()].map(spokenWords)")
            self.assertEqual(spoken, [f"FEEDER revision 1 → 2, {who}, commit 2", f"2 units changed, {who}, commit 3"])

    def test_a_page_that_is_not_seen_rests(self) -> None:
        self.see_conveyor()
        hide = "(Object.defineProperty(document, 'hidden', { value: %s, configurable: true }), document.dispatchEvent(new Event('visibilitychange')))"
        self.browser.value(hide % "true")
        self.assertEqual(self.browser.value("[board.connected, board.events]"), [False, None])
        self.edit("LAMP.fb", "SHOW WITH VALUE", "SHOW WITH VALUES")
        self.browser.value(hide % "false")
        self.browser.until("board.units.get('LAMP').state === 'faulty'")
        self.until_words("#changes", "LAMP WITH_UNKNOWN VALUES")
        self.assertRegex(self.words("#changes"), "^LAMP revision 1 → ")


class NetworkTest(PageTest):
    def see_network(self, unit: str = "PLANT") -> None:
        self.see_conveyor(f"#{unit}/network")
        self.browser.until("network?.scale > 0")

    def block(self, path: str) -> tuple[float, float]:
        """Where the middle of a block is in the window."""
        x, y = self.browser.value(f"""(() => {{
          const it = network.shown.find((it) => it.path === {path!r}), at = network.canvas.getBoundingClientRect();
          return [at.left + network.x + (it.x + it.w / 2) * network.scale, at.top + network.y + (it.y + 10) * network.scale];
        }})()""")
        return x, y

    def test_a_click_leads_to_texts(self) -> None:
        self.see_network()
        self.browser.click(*self.block("LINE.SECOND.LIFT"))
        self.browser.until("document.querySelector('.block h3')?.textContent === 'LINE.SECOND.LIFT'")
        self.assertEqual(self.words(".block").split("\n")[1:4], ["Type LIFTER", "On SOUTH.MOTION", "Where it is declared"])
        self.assertIn("LIFTED → LINE.PANEL.SHOW (cut)", self.words(".block ul").replace("\n", ""))
        self.browser.value("document.querySelectorAll('.block .link')[1].click()")
        self.browser.until("document.querySelector('.l.at')")
        self.assertEqual((self.words("#unit"), self.words(".l.at").strip()), ("STATION", "LIFT : LIFTER;"))
        self.browser.value("history.back()")
        self.browser.until("network?.scale > 0 && document.querySelector('canvas')")
        self.browser.click(*self.block("LINE.SECOND.LIFT"))
        self.browser.until("document.querySelector('.block .link')")
        self.browser.value("document.querySelector('.block .link').click()")
        self.browser.until("document.querySelector('.text')")
        self.assertEqual(self.words("#unit"), "LIFTER")

    def test_a_chosen_block_is_seen_in_the_list(self) -> None:
        """Also where what is shown of it takes the room in which it was."""
        self.browser.devtools("Emulation.setDeviceMetricsOverride", width=1280, height=420, deviceScaleFactor=1, mobile=False)
        self.see_network()
        self.browser.value("network.choose(network.blocks.find((it) => it.path === 'LINE.PANEL'), false)")
        row, room = (self.browser.value(f"[{it}.getBoundingClientRect().top, {it}.getBoundingClientRect().bottom]")
                     for it in ("document.querySelector('#blocks .row[aria-selected=true]')", "document.getElementById('blocks')"))
        self.assertLess(room[1] - room[0], 5 * 30)
        self.assertTrue(room[0] <= row[0] and row[1] <= room[1] + 1, (row, room))

    def test_what_feeds_a_block_and_where_it_leads(self) -> None:
        """The way is drawn over the rest, each block with its step, and the list has its blocks; Esc ends it."""
        self.see_network()
        self.browser.click(*self.block("LINE.PANEL"))
        self.browser.press("[")
        self.until_words("#way", "LINE.PANEL is fed by 4 blocks, 2 resources, 4 cut links")
        steps = "[...network.way.blocks].map(([it, step]) => `${step} ${it.path}`)"
        self.assertEqual(self.browser.value(steps), ["1 LINE.SECOND.LIFT", "2 LINE.SECOND.BELT", "3 LINE.FIRST.LIFT", "4 LINE.FIRST.BELT"])
        self.assertEqual(self.browser.value("[network.way.wires.size, network.wires.length, network.way.start.path]"), [10, 10, "LINE.PANEL"])
        self.assertEqual(self.words(".row-tools .number"), "5 blocks")
        self.assertEqual(self.browser.value("network.list.items.map((it) => it.path)")[0], "LINE.SECOND.LIFT")
        self.until_said("LINE.PANEL is fed by 4 blocks")
        self.browser.press("Escape")
        self.assertEqual(self.browser.value("[network.way, network.list.items.length, document.getElementById('way').hidden, network.chosen.path]"), [None, 5, True, "LINE.PANEL"])
        self.browser.value("document.querySelector('[title=\"What feeds it\"]').click()")
        self.until_words("#way", "LINE.PANEL.SHOW is fed by")
        self.browser.click(*self.block("LINE.FIRST.BELT"))
        self.browser.press("]")
        self.until_words("#way", "LINE.FIRST.BELT leads to 5 blocks, 3 resources, 4 cut links")

    def test_a_way_in_a_subapplication_goes_to_its_own_ports_and_follows_changes(self) -> None:
        self.see_network("STATION")
        self.browser.click(*self.block("LIFT"))
        self.browser.press("[")
        self.until_words("#way", "LIFT is fed by 2 blocks")
        self.assertEqual(self.browser.value("network.way.wires.size"), 7)
        self.edit("STATION.fb", "SEEN TO BELT.SEEN;", "")
        self.browser.until("network.wires.length === 8 && network.way?.wires.size === 6")

    def test_subapplications_open_and_close_by_a_click(self) -> None:
        self.see_network()
        shown = "network.shown.map((it) => it.path)"
        self.assertEqual(self.browser.value("network.view.opened"), ["LINE.FIRST", "LINE.SECOND"])
        self.browser.value("document.querySelector('[title=\"Close all subapplications\"]').click()")
        self.browser.until(f"{shown}.length === 3")
        self.assertEqual(self.browser.value(shown), ["LINE.FIRST", "LINE.SECOND", "LINE.PANEL"])
        self.assertEqual(self.words(".row-tools .number"), "5 blocks")
        self.browser.click(*self.block("LINE.FIRST"))
        self.browser.until(f"{shown}.length === 4 && network.view.folds.length === 1")
        self.assertEqual(self.browser.value("network.shown.map((it) => it.label)"), ["BELT", "LIFT", "LINE.SECOND", "LINE.PANEL"])
        self.browser.until("(() => { const [[, , x, y]] = network.view.folds; return !network.planned && network.titleAt((x + 30) * network.scale + network.x, (y + 10) * network.scale + network.y); })()")
        left, top = self.browser.value("(() => { const [[, , x, y]] = network.view.folds, { left, top } = network.canvas.getBoundingClientRect(); return [left + (x + 30) * network.scale + network.x, top + (y + 10) * network.scale + network.y]; })()")
        self.browser.click(left, top)
        self.browser.until(f"{shown}.length === 3")

    def test_a_block_in_a_closed_subapplication_is_found_and_shown(self) -> None:
        self.see_network()
        self.browser.value("network.reopen('-')")
        self.browser.until("network.shown.length === 3")
        self.browser.press("b", *"second.lift", "Enter")
        self.browser.until("network.chosen?.path === 'LINE.SECOND.LIFT'")
        self.assertEqual(self.browser.value("network.view.opened"), ["LINE.SECOND"])
        self.browser.value("network.trace('LINE.PANEL.VALUE', true)")
        self.until_words("#way", "LINE.PANEL.VALUE is fed by 4 blocks, 2 resources, 3 cut links")
        self.assertEqual(self.browser.value("[...network.way.blocks].map(([it, step]) => `${step} ${it.path}`)"), ["1 LINE.SECOND.LIFT", "2 LINE.SECOND.BELT", "3 LINE.FIRST"])
        self.browser.value("network.canvas.focus()")
        self.browser.press("Escape", "Escape", "Right")
        self.browser.value("network.choose(network.shown.find((it) => it.inner), true)")
        self.until_words(".block", "2 blocks")
        self.browser.press("Enter")
        self.browser.until("network.view.opened.length === 2")

    def test_cut_links_of_a_small_picture_are_one_with_their_number(self) -> None:
        self.see_network()
        painted = """(() => {
          const { context } = network, found = [];
          network.scale = 0.2;
          context.fillText = (words) => found.push(words);
          network.paint();
          delete context.fillText;
          return found;
        })()"""
        self.assertEqual([it for it in self.browser.value(painted) if it.isdecimal()], ["2", "2"])

    def test_search_zoom_and_move(self) -> None:
        self.see_network()
        self.browser.press("b", *"lifter")
        self.assertEqual(self.words(".row-tools .number"), "2 of 5 blocks")
        self.browser.press("Enter", "Enter")
        self.assertEqual(self.browser.value("network.chosen.path"), "LINE.SECOND.LIFT")
        before = self.browser.value("[network.scale, network.x]")
        self.browser.press("Escape")
        self.browser.value("network.canvas.focus()")
        self.browser.press("+", "Shift+Right")
        scale, x = self.browser.value("[network.scale, network.x]")
        self.assertGreater(scale, before[0])
        self.browser.press("0")
        self.assertEqual(self.browser.value("network.scale <= 1.25 && network.boxes.every((it) => network.isSeen(it))"), True)

    def test_by_mouse(self) -> None:
        """It is moved by a drag, and what was under the mouse stays there when it is zoomed by the wheel."""
        self.see_network()
        x, y = self.block("LINE.SECOND.LIFT")
        self.browser.drag((x, y), (x - 40, y + 20), (x - 90, y + 50))
        self.assertEqual([round(it) for it in self.block("LINE.SECOND.LIFT")], [round(x) - 90, round(y) + 50])
        self.assertIsNone(self.browser.value("network.chosen"))
        x, y = self.block("LINE.SECOND.LIFT")
        scale = self.browser.value("network.scale")
        self.browser.wheel(x, y, -200)
        self.browser.until(f"network.scale > {1.3 * scale}")
        self.assertLess(max(abs(one - other) for one, other in zip(self.block("LINE.SECOND.LIFT"), (x, y))), 3)
        self.browser.value("[...document.querySelectorAll('.row-tools button')].find((it) => it.textContent === 'Whole').click()")
        self.assertAlmostEqual(self.browser.value("network.scale"), scale)

    def test_blocks_stand_in_their_resources(self) -> None:
        """Each in the frame that has its resource's name, and the links between frames are dashed."""
        self.see_network()
        apart = """network.blocks.filter(({ home, x, y, w, h }) => !network.view.frames.some(([name, left, top, width, height]) =>
          name === home && left <= x && top <= y && x + w <= left + width && y + h <= top + height)).map((it) => it.path)"""
        self.assertEqual(self.browser.value(apart), [])
        self.assertEqual(self.browser.value("network.view.frames.map(([name]) => name)"), ["NORTH.MOTION", "SOUTH.MOTION", "SOUTH.SCREEN"])
        self.assertEqual(self.browser.value("network.wires.filter((it) => it.cut !== (it.from.box.home !== it.to.box.home)).length"), 0)
        dashed = """(() => {
          const { context } = network, found = [];
          context.setLineDash = (dash) => { found.push(dash.length > 0); CanvasRenderingContext2D.prototype.setLineDash.call(context, dash); };
          network.paint();
          delete context.setLineDash;
          return found.filter(Boolean).length;
        })()"""
        self.assertEqual(self.browser.value(dashed), 2, "links of events and of data")

    def test_a_whole_network_that_is_small(self) -> None:
        """Its blocks have their names, and those of the resources at the edge are not cut off."""
        self.see_network()
        painted = """(() => {
          const { context, view, canvas } = network, found = [];
          network.scale = 0.3;
          network.touched = false;
          network.x = canvas.clientWidth - view.width * network.scale;
          context.fillText = (words, x) => found.push([words, context.textAlign === "left" ? x + context.measureText(words).width : x]);
          network.paint();
          delete context.fillText;
          return [found.map(([words]) => words), Math.max(...found.map(([, right]) => right)) <= network.window.right];
        })()"""
        words, is_inside = self.browser.value(painted)
        self.assertEqual(sorted(it for it in words if not it.isdecimal() and "⊟" not in it), ["FIRST.BELT", "FIRST.LIFT", "NORTH.MOTION", "PANEL", "SECOND.BELT", "SECOND.LIFT", "SOUTH.MOTION", "SOUTH.SCREEN"])
        self.assertTrue(is_inside)

    def test_it_follows_changes(self) -> None:
        self.see_network()
        self.browser.value("network.choose(network.blocks[0], false)")
        self.edit("STATION.fb", "LIFT : LIFTER;", "LIFT : LIFTER; SPARE : LIFTER;")
        self.browser.until("network.blocks.length === 7")
        self.assertEqual(self.browser.value("network.chosen.path"), "LINE.FIRST.BELT")
        self.edit("FEEDER.fb", "DONE TO IDLE", "DONE TO IDEL")
        self.browser.until("document.querySelector('.said')")
        self.assertIn("With faults: FEEDER", self.words(".said"))


class PlanTest(PageTest):
    def test_what_has_changed_since_it_was_looked_at(self) -> None:
        self.see_conveyor("#PLANT/plan")
        self.browser.until("document.querySelector('.plan')")
        self.assertEqual(self.words("#plan-words"), "This plan was not looked at before on this page.")
        self.assertEqual(self.browser.value("[...document.querySelectorAll('.plan h3')].map((it) => it.firstChild.data)"),
                         ["Links between resources", "NORTH.MOTION", "SOUTH.MOTION", "SOUTH.SCREEN"])
        self.browser.press("t")
        self.browser.until("document.querySelector('.text')")
        self.edit("PLANT.fb", "LINE.SECOND ON SOUTH.MOTION;", "LINE.SECOND ON SOUTH.MOTION; LINE.SECOND.LIFT ON NORTH.MOTION;")
        self.browser.until("board.units.get('PLANT').revision === 2 && count().pending === 0")
        self.browser.press("p")
        self.browser.until("document.querySelector('ins')")
        self.assertRegex(self.words("#plan-words"), "^Since it was looked at .*: 4 lines new, 4 gone.$")
        changed = self.browser.value("[...document.querySelectorAll('ins, del')].map((it) => `${it.tagName} ${it.textContent}`)")
        self.assertEqual(changed[3:5], ["INS CREATE FB LINE.SECOND.LIFT LIFTER", "DEL CREATE FB LINE.SECOND.LIFT LIFTER"])
        self.browser.value("[...document.querySelectorAll('button')].find((it) => it.textContent === 'Mark as seen').click()")
        self.browser.until("document.querySelector('#plan-words')?.textContent.startsWith('As it was')")
        self.assertEqual(self.browser.value("document.querySelectorAll('ins, del').length"), 0)


    def test_what_changes_while_it_is_looked_at_for_the_first_time(self) -> None:
        self.see_conveyor("#PLANT/plan")
        self.browser.until("document.querySelector('.plan')")
        self.edit("PLANT.fb", "LINE.SECOND ON SOUTH.MOTION;", "LINE.SECOND ON SOUTH.MOTION; LINE.SECOND.LIFT ON NORTH.MOTION;")
        self.browser.until("document.querySelector('ins')")
        self.assertRegex(self.words("#plan-words"), "^Since it was looked at .*: 4 lines new, 4 gone.$")


class EverybodyTest(PageTest):
    def test_without_a_mouse(self) -> None:
        self.see_conveyor()
        self.browser.press("/", *"plant", "Down")
        self.browser.until("document.querySelector('.text')")
        self.browser.press("n")
        self.browser.until("network?.scale > 0")
        self.browser.press("v", "Right", "Right")
        self.assertEqual(self.browser.value("network.chosen.path"), "LINE.FIRST.LIFT")
        self.until_said("LINE.FIRST.LIFT, LIFTER, on NORTH.MOTION, 5 links")
        self.browser.press("i")
        self.browser.until("document.querySelector('.l.at')")
        self.assertEqual(self.words("#unit"), "STATION")
        self.browser.press("?")
        self.browser.until("document.getElementById('help').open")
        self.browser.press("Escape")
        self.browser.until("!document.getElementById('help').open")

    def test_single_keys(self) -> None:
        self.copy_conveyor()
        self.edit("FEEDER.fb", "DONE TO IDLE", "DONE TO IDEL")
        at = self.start(".")
        self.see(at, len(STATES))
        focus = "document.activeElement.id || document.activeElement.className"
        for key, wanted in (("u", "units"), ("c", "changes"), ("v", "panel")):
            self.browser.press(key)
            self.assertEqual(self.browser.value(focus), wanted)
        self.browser.press("f")
        self.until_words("mark", "IDEL")
        self.browser.press("e")
        self.assertEqual(self.browser.value(focus), "link fault")
        self.assertEqual(self.browser.value("document.querySelector('.l.at').dataset.line"), "19")
        self.browser.value("(document.activeElement.blur(), $('single').click())")
        self.browser.press("u", "/")
        self.assertEqual(self.browser.value("document.activeElement.tagName"), "BODY")
        self.browser.value("location.reload()")
        self.browser.until(f"{SETTLED}{len(STATES)}")
        self.assertFalse(self.browser.value("$('single').checked"))

    def test_enter_in_the_picture(self) -> None:
        self.see_conveyor("#PLANT/network")
        self.browser.until("network?.scale > 0")
        self.browser.press("v", "Right", "-")
        self.assertEqual(self.browser.value("network.chosen.path"), "LINE.FIRST.BELT")
        self.assertLess(self.browser.value("network.scale"), 1.25)
        self.browser.press("Enter")
        self.browser.until("document.querySelector('.text')")
        self.assertEqual(self.words("#unit"), "FEEDER")

    def test_tab_reaches_all_and_is_seen(self) -> None:
        self.see_conveyor("#PLANT/network")
        self.browser.until("network?.scale > 0")
        reached = []
        for _ in range(40):
            self.browser.press("Tab")
            reached.append(self.browser.value("document.activeElement.id || document.activeElement.tagName + ' ' + document.activeElement.textContent"))
            outline = self.browser.value("document.activeElement === document.body || getComputedStyle(document.activeElement).outlineStyle")
            self.assertIn(outline, ("solid", True), reached[-1])
        for wanted in ("search", "units", "BUTTON Network", "block-search", "BUTTON Whole", "blocks", "changes", "help-button"):
            self.assertIn(wanted, reached)
        self.assertTrue(any(it.startswith("CANVAS") for it in reached))

    def test_names_and_roles(self) -> None:
        self.see_conveyor()
        for place in ("FEEDER/text", "PLANT/network", "PLANT/plan"):
            self.browser.value(f"location.hash = '#{place}'")
            self.browser.until("document.querySelector('.text, canvas, .plan')")
            self.assertEqual(self.browser.value(UNNAMED), [])
        tree = self.browser.devtools("Accessibility.getFullAXTree")["nodes"]
        found = {(it["role"]["value"], it["name"]["value"]) for it in tree if not it["ignored"] and "name" in it}
        for wanted in [("navigation", "Units"), ("searchbox", "Search units"), ("listbox", "Units"), ("tab", "Plan"), ("tabpanel", "PLANT"), ("complementary", "Changes")]:
            self.assertIn(wanted, found)
        self.assertIn("option", {role for role, _ in found})

    def test_colours_can_be_read(self) -> None:
        self.see_conveyor()
        grounds = {}
        for scheme in ("light", "dark"):
            self.browser.colours(scheme)
            colour = lambda name: self.browser.value(f"getComputedStyle(document.documentElement).getPropertyValue('--{name}').trim()")  # noqa: E731
            pairs = [*product(("ink", "dim", "accent"), ("ground", "panel", "raised", "tint")), *((it, f"{it}-tint") for it in ("bad", "wait", "good")),
                     *product(("event", "data", "adapter", "keyword", "constant", "bad"), ("panel",))]
            for words, ground in pairs:
                self.assertGreaterEqual(contrast(colour(words), colour(ground)), 4.5, (scheme, words, ground))
            grounds[scheme] = self.browser.value("getComputedStyle(document.body).backgroundColor")
        self.assertEqual(len(set(grounds.values())), 2)


class PictureTest(PageTest):
    def test_the_picture_of_the_document(self) -> None:
        """The network of the conveyor's plant with a block that is chosen, a unit with a fault, and two changes."""
        for file in CONVEYOR.glob("*.fb"):
            self.write(f"plant/{file.name}", file.read_bytes())
        at = self.start("plant")
        self.browser.devtools("Emulation.setDeviceMetricsOverride", width=1180, height=740, deviceScaleFactor=1.5, mobile=False)
        self.see(at, len(STATES), "#PLANT/network")
        self.write("plant/PUSHER.fb", "FUNCTION_BLOCK PUSHER\n  EVENT_INPUT PUSH WITH FORCE; END_EVENT\nEND_FUNCTION_BLOCK\n")
        self.browser.until("board.units.get('PUSHER')?.state === 'faulty'")
        self.edit("plant/FEEDER.fb", "LOAD > 0 AND", "LOAD > 1 AND")
        self.browser.until("board.changes.size === 2 && count().pending === 0 && network?.canvas.isConnected && network.scale > 0")
        self.browser.value("network.choose(network.blocks.find((it) => it.path === 'LINE.SECOND.LIFT'), false)")
        self.browser.until("document.querySelector('.block h3') && !network.planned && document.getElementById('note').hidden")
        self.assertEqual(self.words(".block h3"), "LINE.SECOND.LIFT")
        self.assertEqual(self.words("#counts").split(), "8 units 1 fault in 1 unit 0 pending".split())
        self.assertEqual(self.browser.value("[...board.changes.values()].map((it) => it.steps.join())"), ["PUSHER,0,2", "FEEDER,1,3"])
        if PICTURE:
            for scheme, file in (("light", Path(PICTURE)), ("dark", Path(PICTURE).with_stem(f"{Path(PICTURE).stem}-dark"))):
                self.browser.colours(scheme)
                self.browser.value("network.draw()")
                self.browser.until("!network.planned")
                self.browser.picture(file)


def contrast(one: str, other: str) -> float:
    """The contrast of two colours `#rrggbb`, as the Web Content Accessibility Guidelines count it."""
    low, high = sorted(map(_luminance, (one, other)))
    return (high + 0.05) / (low + 0.05)


def _luminance(colour: str) -> float:
    parts = [int(colour[at : at + 2], 16) / 255 for at in (1, 3, 5)]
    red, green, blue = (it / 12.92 if it <= 0.04045 else ((it + 0.055) / 1.055) ** 2.4 for it in parts)
    return 0.2126 * red + 0.7152 * green + 0.0722 * blue


if __name__ == "__main__":
    unittest.main()
