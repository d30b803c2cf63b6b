"""Two editors, each in a folder of its own, with one workbench that serves: each sees what the other changes."""
from __future__ import annotations

import os
import re
import shutil
import subprocess
import threading
import time
import unittest
from pathlib import Path

from support import CLIENTS, CONVEYOR, InFolder, hosting, serving, until
from test_editor_settings import has_emacs, in_terminal

from bench61499 import Put, Session

OTHERS = "perhaps not checked: the workbench has {} from another session, at revision 1; edit or save to put this text over it"
CHANGED = r"1: : FEEDER was changed by session \d+ \(commit \d+\) \d+ s ago; you are session \d+"
PATIENCE = 120
"""Seconds after which something does not come any more."""
SCRIPT = """
dofile(vim.g.settings)

local function buffer(file) return vim.fn.bufnr(file) end

function Open(file)
  vim.cmd('edit ' .. file)
  return 'opened'
end

-- The diagnostics of a file, a line each.
function Shown(file)
  local found = {}
  for _, it in ipairs(vim.diagnostic.get(buffer(file))) do
    table.insert(found, string.format('%d: %s: %s', it.lnum + 1, it.code or '', it.message))
  end
  return table.concat(found, '\\n')
end

function Replace(file, words, others)
  vim.api.nvim_buf_call(buffer(file), function() vim.cmd(string.format('silent %%s/%s/%s/', words, others)) end)
  return 'replaced'
end

function Undo(file)
  vim.api.nvim_buf_call(buffer(file), function() vim.cmd('silent undo') end)
  return 'undone'
end

-- Chooses one of the code actions at a word, or at the first line, where it is offered.
function Choose(file, title, word)
  vim.cmd('buffer ' .. buffer(file))
  vim.fn.cursor(1, 1)
  if word then vim.fn.search(word) end
  vim.ui.select = function(actions, options, choose)
    for _, it in ipairs(actions) do
      if options.format_item(it) == title then return choose(it) end
    end
  end
  vim.lsp.buf.code_action()
  return 'chosen'
end

function Text(file) return table.concat(vim.api.nvim_buf_get_lines(buffer(file), 0, -1, false), '\\n') end

function IsModified(file) return tostring(vim.bo[buffer(file)].modified) end

-- The first and the last line of the text in the window, and whether it can be changed.
function Window()
  local lines = vim.api.nvim_buf_get_lines(0, 0, -1, false)
  return string.format('%s | %s | %s', lines[1], lines[#lines], vim.bo.readonly and 'read-only' or 'open')
end

function Close() vim.cmd('close') return 'closed' end

function Ready() return 'ready' end
"""


class Neovim:
    """An editor without a screen, with the conveyor in its folder."""

    def __init__(self, folder: Path, port: int):
        self._folder = folder
        folder.mkdir()
        for file in CONVEYOR.glob("*.fb"):
            shutil.copy(file, folder)
        (folder / "script.lua").write_text(SCRIPT)
        settings = CLIENTS.parent / "editors" / "neovim.lua"
        server = f"let g:settings = '{settings}' | let g:bench61499_server = ['{CLIENTS / 'lsp'}', '--connect', ':{port}']"
        words = ["nvim", "--headless", "--clean", "-n", "--listen", "socket", "--cmd", server, "-c", "luafile script.lua"]
        self._process = subprocess.Popen(words, cwd=folder, stdin=subprocess.DEVNULL, stdout=subprocess.DEVNULL, stderr=subprocess.DEVNULL)
        while not (folder / "socket").exists() or self.ask("Ready") != "ready":
            time.sleep(0.02)

    def ask(self, function: str, *arguments: str) -> str:
        """What a function of the script gives."""
        call = f"{function}({', '.join(f'[[{it}]]' for it in arguments)})".replace("'", "''")
        words = ["nvim", "--server", "socket", "--remote-expr", f"luaeval('{call}')"]
        ran = subprocess.run(words, cwd=self._folder, capture_output=True, text=True, timeout=PATIENCE)
        return (ran.stdout + ran.stderr).strip()

    def await_shown(self, file: str, expected: str) -> str:
        """Waits until something, or nothing, is shown of a file; gives what is."""
        return self.await_one("Shown", file, re.escape(expected))

    def await_one(self, function: str, argument: str, expected: str) -> str:
        """Waits until a function gives what fits a pattern; gives what it does."""
        end = time.monotonic() + PATIENCE
        while not re.fullmatch(expected, shown := self.ask(function, *([argument] if argument else []))) and time.monotonic() < end:
            time.sleep(0.1)
        return shown

    def close(self) -> None:
        self._process.kill()
        self._process.wait()


@unittest.skipUnless(shutil.which("nvim"), "there is no Neovim here")
class TwoEditorsTest(InFolder):
    def editor(self, name: str, port: int, *files: str) -> Neovim:
        editor = Neovim(self.folder / name, port)
        self.addCleanup(editor.close)
        for file in files:
            self.assertEqual(editor.ask("Open", file), "opened")
        return editor

    def test_each_sees_what_the_other_changes(self) -> None:
        with serving(2, "--history", "100000") as port:
            one = self.editor("one", port, "STATION.fb")
            one.ask("Replace", "STATION.fb", "TO BELT.START", "TO BELT.STRAT")
            self.see(one, "STATION.fb", "12: PORT_UNKNOWN: FEEDER has no event STRAT; did you mean START?")
            one.ask("Undo", "STATION.fb")
            self.see(one, "STATION.fb", "")
            other = self.editor("other", port, "FEEDER.fb", "PLANT.fb")
            for unit in ("FEEDER", "PLANT"):
                self.see(other, f"{unit}.fb", f"1: : {OTHERS.format(unit)}")
            other.ask("Replace", "FEEDER.fb", "START WITH", "BEGIN WITH")
            self.see(one, "STATION.fb", "12: PORT_UNKNOWN: no event BELT.START to connect")
            other.ask("Undo", "FEEDER.fb")
            self.see(one, "STATION.fb", "")
            one.ask("Replace", "STATION.fb", "EVENT_OUTPUT READY", "EVENT_OUTPUT DONE")
            other.ask("Replace", "PLANT.fb", "SYSTEM PLANT", "SYSTEM  PLANT")
            self.see(other, "PLANT.fb", "7: PORT_UNKNOWN: no event FIRST.READY to connect\n8: PORT_UNKNOWN: no event SECOND.READY to connect")
            one.ask("Undo", "STATION.fb")
            self.see(other, "PLANT.fb", "")

    def see(self, editor: Neovim, file: str, expected: str) -> None:
        self.assertEqual(editor.await_shown(file, expected), expected)

    def give(self, editor: Neovim, function: str, argument: str, expected: str) -> None:
        self.assertRegex(editor.await_one(function, argument, expected), rf"\A{expected}\Z")

    def team(self, port: int, file: str) -> tuple[Neovim, Neovim]:
        """Two editors: the first one, with this file open, has put all units, and the other one has FEEDER open."""
        one = self.editor("one", port, file)
        with Session.connect("127.0.0.1", port) as session:
            until(lambda: session.status().units == len(list(CONVEYOR.glob("*.fb"))))
        return one, self.editor("other", port, "FEEDER.fb")

    def test_each_takes_merges_compares_and_puts_what_the_other_has_changed(self) -> None:
        with hosting() as port:
            one, other = self.team(port, "FEEDER.fb")
            before = one.ask("Text", "FEEDER.fb")
            other.ask("Replace", "FEEDER.fb", "FUNCTION_BLOCK FEEDER", "FUNCTION_BLOCK  FEEDER")
            self.give(one, "Shown", "FEEDER.fb", CHANGED)
            one.ask("Choose", "FEEDER.fb", "Take the team's text")
            self.give(one, "Shown", "FEEDER.fb", "")
            self.assertEqual(one.ask("Text", "FEEDER.fb"), other.ask("Text", "FEEDER.fb"))
            one.ask("Undo", "FEEDER.fb")
            self.give(one, "Shown", "FEEDER.fb", CHANGED)
            self.assertEqual(one.ask("Text", "FEEDER.fb"), before)
            one.ask("Replace", "FEEDER.fb", "END_FUNCTION_BLOCK", "(* one *) END_FUNCTION_BLOCK")
            one.ask("Choose", "FEEDER.fb", "Compare")
            self.give(one, "Window", "", r"--- FEEDER of .* \| \+\(\* one \*\) END_FUNCTION_BLOCK \| read-only")
            one.ask("Close")
            one.ask("Choose", "FEEDER.fb", "Merge")
            self.give(one, "Shown", "FEEDER.fb", "")
            merged = before.replace("FUNCTION_BLOCK FEEDER", "FUNCTION_BLOCK  FEEDER").replace("END_FUNCTION_BLOCK", "(* one *) END_FUNCTION_BLOCK")
            self.assertEqual(one.ask("Text", "FEEDER.fb"), merged)
            self.give(other, "Shown", "FEEDER.fb", CHANGED)
            other.ask("Choose", "FEEDER.fb", "Put mine")
            self.give(other, "Shown", "FEEDER.fb", "")
            self.give(one, "Shown", "FEEDER.fb", CHANGED)

    def test_a_file_that_is_not_open_gets_the_team_s_text(self) -> None:
        with hosting() as port:
            one, other = self.team(port, "STATION.fb")
            file = self.folder / "one" / "FEEDER.fb"
            before = file.read_text()
            other.ask("Replace", "FEEDER.fb", "FUNCTION_BLOCK FEEDER", "FUNCTION_BLOCK  FEEDER")
            self.give(one, "IsModified", "FEEDER.fb", "true")
            self.assertEqual(one.ask("Text", "FEEDER.fb"), other.ask("Text", "FEEDER.fb"))
            self.see(one, "FEEDER.fb", "")
            self.assertEqual(file.read_text(), before)

    def test_a_part_of_a_network_becomes_a_subapplication_and_is_undone(self) -> None:
        with hosting() as port:
            one = self.editor("one", port, "STATION.fb")
            before = one.ask("Text", "STATION.fb")
            until(lambda: one.ask("Choose", "STATION.fb", "Extract BELT into a subapplication STATION_PART", "BELT") == "chosen" and one.ask("Text", "STATION.fb") != before)
            self.assertIn("SUBAPPS PART : STATION_PART; END_SUBAPPS", one.ask("Text", "STATION.fb"))
            self.assertIn("BELT : FEEDER(LIMIT := 80);", one.ask("Text", "STATION_PART.fb"))
            for file in ("STATION.fb", "STATION_PART.fb"):
                self.see(one, file, "")
            with Session.connect("127.0.0.1", port) as session:
                until(lambda: session.text("STATION_PART").revision)
                until(lambda: session.peek("faults", "STATION") == () and session.peek("faults", "STATION_PART") == ())
            one.ask("Undo", "STATION.fb")
            self.assertEqual(one.ask("Text", "STATION.fb"), before)


EMACS_SCRIPT = """
(setq eglot-confirm-server-initiated-edits nil)
(defvar step 'take)
(defun texts-of-diagnostics () (mapconcat #'flymake-diagnostic-text (flymake-diagnostics) "\\n"))
(defun write (file words) (with-temp-file (expand-file-name file top) (insert words)))
(defun choose (title)
  (let* ((action (cl-find title (eglot-code-actions (point-min) (point-min)) :key (lambda (it) (plist-get it :title)) :test #'equal))
         (command (plist-get action :command)))
    (eglot-execute-command (eglot-current-server) (plist-get command :command) (plist-get command :arguments))))
(defvar top default-directory)
(run-at-time 0.2 0.2
  (lambda ()
    (let ((unit (get-buffer "FEEDER.fb")) (diff (cl-find-if (lambda (it) (string-suffix-p ".diff" (buffer-name it))) (buffer-list))))
      (cond
       ((and (eq step 'compare) diff)
        (write "compared" (with-current-buffer diff (format "%s %s" buffer-read-only (buffer-substring (point-min) (line-end-position)))))
        (kill-emacs))
       ((not unit))
       ((and (eq step 'take) (string-match-p "was changed by session" (with-current-buffer unit (texts-of-diagnostics))))
        (setq step 'taken)
        (with-current-buffer unit (choose "Take the team's text")))
       ((and (eq step 'taken) (with-current-buffer unit (string-match-p "taken" (buffer-string))))
        (setq step 'differ)
        (write "taken" (with-current-buffer unit (format "%s %s" (buffer-modified-p) (buffer-string)))))
       ((and (eq step 'differ) (string-match-p "was changed by session" (with-current-buffer unit (texts-of-diagnostics))))
        (setq step 'compare)
        (with-current-buffer unit (choose "Compare")))))))
"""


@has_emacs
class EmacsTest(InFolder):
    def test_it_takes_and_compares_what_a_colleague_has_changed(self) -> None:
        self.copy_conveyor()
        self.write("script", EMACS_SCRIPT)
        home = self.write("home/.emacs.d/init.el", "").parents[1]
        with hosting() as port, Session.connect("127.0.0.1", port) as session:
            command = f"'(\"{CLIENTS / 'lsp'}\" \"--connect\" \":{port}\")"
            self.write("home/.emacs.d/init.el", f"(setq bench61499-server {command})\n(load \"{CLIENTS.parent / 'editors' / 'emacs.el'}\")\n")
            self.write("home/.emacs.d/early-init.el", "(setq native-comp-deferred-compilation nil)\n")
            words = ["emacs", "-nw", "-l", "./script", "FEEDER.fb"]
            surroundings = {**os.environ, "HOME": str(home), "TERM": "xterm"}
            editor = threading.Thread(target=in_terminal, args=(words, self.folder, surroundings))
            editor.start()
            until(lambda: session.status().units == 7, PATIENCE)
            before = session.text("FEEDER")
            text = f"{before.text}(* taken *)\n"
            number = session.commit([Put("FEEDER", before.revision, text)])
            until((self.folder / "taken").exists, PATIENCE)
            self.assertEqual((self.folder / "taken").read_text(), f"t {text}")
            self.assertEqual(session.text("FEEDER").revision, number)
            session.commit([Put("FEEDER", number, f"{text}(* again *)\n")])
            editor.join(PATIENCE)
            self.assertRegex((self.folder / "compared").read_text(), r"^t --- FEEDER of session \d+ \(commit \d+\)")


if __name__ == "__main__":
    unittest.main()
