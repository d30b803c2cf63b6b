"""The lines of editors/README.md: with each of them an editor shows the fault of a unit that it opens."""
from __future__ import annotations

import json
import os
import pty
import re
import shutil
import subprocess
import threading
import unittest
from pathlib import Path
from typing import NamedTuple

from support import CLIENTS, InFolder, workbench

EDITORS = CLIENTS.parent / "editors"
PATIENCE = 120
"""Seconds after which an editor is ended."""
FAULT = "no state MOVE in this chart; did you mean MOVING?"
NEOVIM_SCRIPT = """
vim.wait(100000, function() return #vim.diagnostic.get(0) > 0 end, 20)
for _, it in ipairs(vim.diagnostic.get(0)) do vim.fn.writefile({ it.lnum + 1 .. ': ' .. it.message }, 'shown', 'a') end
vim.cmd('qall!')
"""
STAND_INS = """
local calls = {}
vim.lsp.config = setmetatable({}, { __call = function(_, name, config) calls.config = { name, config } end })
vim.lsp.enable = function(name) calls.enable = name end
vim.lsp.start_client = function() error('it is deprecated') end
"""
EMACS_SCRIPT = """
(run-at-time 0.1 0.1
  (lambda ()
    (when-let ((found (and (fboundp 'flymake-diagnostics) (flymake-diagnostics))))
      (with-temp-file "shown"
        (dolist (it found) (insert (format "%d: %s\\n" (line-number-at-pos-of it) (flymake-diagnostic-text it)))))
      (kill-emacs))))
(defun line-number-at-pos-of (it)
  (with-current-buffer (flymake-diagnostic-buffer it) (line-number-at-pos (flymake-diagnostic-beg it))))
"""
VIM_SCRIPT = """
function! Look(_)
  let found = ale#engine#GetLoclist(bufnr(''))
  if !empty(found)
    call writefile(map(copy(found), {_, it -> it.lnum . ': ' . it.text}), 'shown')
    qall!
  endif
endfunction
call timer_start(50, 'Look', {'repeat': -1})
"""


def in_terminal(words: list[str], folder: Path, surroundings: dict[str, str]) -> str:
    """Runs a program in a terminal that nobody looks at, for some time at most; gives what it wrote there."""
    ours, theirs = pty.openpty()
    with subprocess.Popen(["setsid", "--ctty", "--wait", *words], cwd=folder, env=surroundings, stdin=theirs, stdout=theirs, stderr=theirs) as process:
        os.close(theirs)
        limit = threading.Timer(PATIENCE, process.kill)
        limit.start()
        written = b"".join(iter(lambda: read_from(ours), b""))
        limit.cancel()
    os.close(ours)
    return written.decode(errors="replace")


def read_from(terminal: int) -> bytes:
    """What comes next; nothing once the program has gone."""
    try:
        return os.read(terminal, 65_536)
    except OSError:
        return b""


def is_here(*words: str) -> bool:
    """Whether a program is installed, and does with these words."""
    return bool(shutil.which(words[0])) and not subprocess.run(words, stdin=subprocess.DEVNULL, capture_output=True).returncode


class Editor(NamedTuple):
    """An editor: its row in the table, its settings, the script that writes down what it shows, how it is started with that, and how its
    settings name another command of two words."""

    row: str
    file: str
    script: str
    words: tuple[str, ...]
    other: str


NEOVIM = Editor("Neovim", ".config/nvim/init.lua", NEOVIM_SCRIPT, ("nvim", "-n", "FEEDER.fb", "-c", "luafile script"), "vim.g.bench61499_server = {{ '{}', '{}' }}")
EMACS = Editor("Emacs", ".emacs.d/init.el", EMACS_SCRIPT, ("emacs", "-nw", "-l", "./script", "FEEDER.fb"), "(setq bench61499-server '(\"{}\" \"{}\"))")
VIM = Editor("Vim", ".vimrc", VIM_SCRIPT, ("vim", "-n", "-i", "NONE", "-S", "script", "FEEDER.fb"), "let g:bench61499_server = ['{}', '{}']")

has_neovim = unittest.skipUnless(is_here("nvim", "--version"), "Neovim is not installed")
has_emacs = unittest.skipUnless(is_here("emacs", "--batch", "--eval", "(require 'eglot)"), "Emacs with eglot is not installed")
has_vim = unittest.skipUnless(
    is_here("vim", "-N", "-u", "NONE", "-es", "+packadd! ale", "+call ale#linter#Reset()", "+qall!"), "Vim with ALE is not installed"
)


class SettingsTest(InFolder):
    def setUp(self) -> None:
        super().setUp()
        self.copy_conveyor()
        feeder = self.folder / "FEEDER.fb"
        feeder.write_text(feeder.read_text().replace("IDLE TO MOVING", "IDLE TO MOVE"))
        self.surroundings = {
            **{name: value for name, value in os.environ.items() if not name.startswith("XDG_")},
            **{"HOME": str(self.folder / "home"), "TERM": "xterm", "BENCH61499_PROGRAM": workbench()},
        }

    def settings(self, editor: Editor, *lines: str) -> Path:
        """Settings of these lines and those of the table."""
        row = re.search(rf"^\| {editor.row}.*", (EDITORS / "README.md").read_text(), re.M)[0]
        lines += tuple(it for it in re.findall(r"`([^`]*)`", row.split(" | ")[1]) if " " in it or "/" in it)
        file = self.folder / "home" / editor.file
        file.parent.mkdir(parents=True, exist_ok=True)
        file.with_name("early-init.el").write_text("(setq native-comp-deferred-compilation nil)\n")  # Emacs would compile for a minute.
        file.write_text("\n".join([*lines, ""]).replace("/path/to/editors", str(EDITORS)))
        return file

    def shows_the_fault(self, editor: Editor, *lines: str) -> None:
        self.settings(editor, *lines)
        self.write("script", editor.script)
        terminal = in_terminal(list(editor.words), self.folder, self.surroundings)
        shown = self.folder / "shown"
        self.assertTrue(shown.exists(), terminal[-2_000:])
        self.assertRegex(shown.read_text(), rf"\A16: .*{re.escape(FAULT)}\n\Z")

    def runs_another_server(self, editor: Editor) -> None:
        server = self.write("another", f"#!/bin/sh\necho \"$@\" >started\nexec '{CLIENTS / 'lsp'}'\n")
        server.chmod(0o755)
        self.shows_the_fault(editor, editor.other.format(server, "a word"))
        self.assertEqual((self.folder / "started").read_text(), "a word\n")

    @has_neovim
    def test_neovim(self) -> None:
        self.shows_the_fault(NEOVIM)

    @has_neovim
    def test_another_server_in_neovim(self) -> None:
        self.runs_another_server(NEOVIM)

    @has_neovim
    def test_a_newer_neovim(self) -> None:
        init = self.settings(NEOVIM, STAND_INS)
        init.write_text(f"{init.read_text()}vim.fn.writefile({{ vim.json.encode(calls) }}, 'shown')\n")
        subprocess.run(["nvim", "--headless", "-n", "-c", "qall!"], cwd=self.folder, env=self.surroundings, check=True, capture_output=True, timeout=PATIENCE)
        config = {"cmd": [str(CLIENTS / "lsp")], "root_dir": str(self.folder), "filetypes": ["fb61499"]}
        self.assertEqual(json.loads((self.folder / "shown").read_text()), {"config": ["bench61499", config], "enable": "bench61499"})

    @has_emacs
    def test_emacs(self) -> None:
        self.shows_the_fault(EMACS)

    @has_emacs
    def test_another_server_in_emacs(self) -> None:
        self.runs_another_server(EMACS)

    @has_vim
    def test_vim(self) -> None:
        self.shows_the_fault(VIM)

    @has_vim
    def test_another_server_in_vim(self) -> None:
        self.runs_another_server(VIM)


if __name__ == "__main__":
    unittest.main()
