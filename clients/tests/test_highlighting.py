"""The static highlighting of Vim and Emacs: made from the list of words, and the same as the tokens of the clients."""
from __future__ import annotations

import random
import shutil
import subprocess
import unittest
from itertools import groupby

from support import CLIENTS, CONVEYOR, InFolder
from test_vscode import PIECES, expected, module_of

EDITORS = CLIENTS.parent / "editors"
VIM = """
let found = []
for l in range(1, line('$'))
  let row = ''
  for c in range(1, col([l, '$']) - 1)
    let row .= get({'Comment': 'c', 'Statement': 'k', 'Operator': 'k', 'Keyword': 'k', 'Constant': 'n', 'Number': 'n', 'Type': 't', 'String': 's'}, synIDattr(synID(l, c, 1), 'name')[7:], '.')
  endfor
  call add(found, row)
endfor
call writefile(found + [join([&filetype, &commentstring, &shiftwidth, &expandtab])], 'shown')
qa!
"""
EMACS = """
(provide 'eglot) (defclass eglot-lsp-server () ()) (cl-defgeneric eglot-client-capabilities (s)) (cl-defgeneric eglot-handle-request (s m &rest r))
(defvar eglot-server-programs nil) (defun eglot-ensure ())
(load "%s" nil t)
(find-file "text.fb")
(font-lock-ensure)
(dotimes (i (1- (point-max)))
  (let* ((face (get-text-property (1+ i) 'face)) (one (if (listp face) (car face) face)))
    (princ (cond ((eq (char-after (1+ i)) ?\\n) "\\n")
                 (t (or (cdr (assq one '((font-lock-comment-face . "c") (font-lock-comment-delimiter-face . "c") (font-lock-keyword-face . "k") (font-lock-builtin-face . "k")
                                         (font-lock-constant-face . "n") (font-lock-type-face . "t") (font-lock-string-face . "s")))) "."))))))
(princ (format "%%s %%S %%d %%S" major-mode comment-start standard-indent indent-tabs-mode))
"""
SIGNS = {"comment": "c", "keyword": "k", "constant": "n", "support": "t", "string": "s"}
LINES = [it for it in PIECES if it not in ("(*", "*)", "'", '"', "$", "\n", "\t", "ä", "9IF")]
"""What may be in a line whatever the line before it is. In `9IF` the editors see one word."""


def rows(text: str, has_numbers: bool = True) -> list[str]:
    """A sign for each character: what it is by the tokens of the clients. Symbols have no colour."""
    signs = ["\n" if it == "\n" else "." for it in text]
    for start, end, kind in expected(text):
        words = text[start:end]
        is_shown = kind in SIGNS and (kind != "keyword" or words[0].isalpha()) and (has_numbers or kind != "constant" or words.isalpha())
        for at in range(start, end) if is_shown else ():
            signs[at] = signs[at] if signs[at] == "\n" else SIGNS[kind]
    return "".join(signs).split("\n")


def texts() -> str:
    """The conveyor, and random lines."""
    chance = random.Random(11)
    lines = [" ".join(chance.choice(LINES) for _ in range(chance.randint(1, 9))) for _ in range(300)]
    return "\n".join([*(it.read_text().rstrip("\n") for it in sorted(CONVEYOR.glob("*.fb"))), *lines, ""])


class HighlightingTest(InFolder):
    def test_the_script_makes_them(self) -> None:
        script = module_of(EDITORS / "highlighting.py")
        self.assertEqual((script.VIM.read_text(), script.EMACS.read_text()), (script.vim(), script.emacs()))

    def same(self, shown: list[str], right: list[str], text: str) -> None:
        lines = text.split("\n")
        wrong = [(line, found, it) for line, found, it in zip(lines, shown, right) if found != it]
        self.assertEqual((wrong[:3], len(shown)), ([], len(right)))
        self.assertGreater(len({sign for row in right for sign, _ in groupby(row)}), 4)

    @unittest.skipUnless(shutil.which("vim"), "Vim is not installed")
    def test_vim(self) -> None:
        self.vim(["vim", "-N", "-u", "NONE", "-i", "NONE", "-es"])

    @unittest.skipUnless(shutil.which("nvim"), "Neovim is not installed")
    def test_neovim(self) -> None:
        self.vim(["nvim", "-u", "NONE", "-i", "NONE", "--headless"])

    def vim(self, words: list[str]) -> None:
        text = texts()
        self.write("text.fb", text)
        self.write("script.vim", VIM)
        begin = ["--cmd", f"set runtimepath^={EDITORS / 'vim'} encoding=utf-8", "-c", "filetype plugin on", "-c", "syntax enable", "-c", "edit text.fb", "-S", "script.vim"]
        subprocess.run([*words, *begin], cwd=self.folder, stdin=subprocess.DEVNULL, capture_output=True, timeout=120, check=False)
        *shown, options = (self.folder / "shown").read_text().splitlines()
        self.assertEqual(options, "fb61499 // %s 2 1")
        self.same(shown, rows(text)[:-1], text)

    @unittest.skipUnless(shutil.which("emacs"), "Emacs is not installed")
    def test_emacs(self) -> None:
        text = texts()
        self.write("text.fb", text)
        script = self.write("script.el", EMACS % (EDITORS / "emacs.el"))
        ran = subprocess.run(["emacs", "-Q", "--batch", "-l", "cl-lib", "-l", "eieio", "-l", script], cwd=self.folder, capture_output=True, text=True, timeout=120)
        *shown, options = ran.stdout.split("\n")
        self.assertEqual(options, 'fb61499-mode "// " 2 nil', ran.stderr)
        self.same(shown, rows(text, has_numbers=False)[:-1], text)


if __name__ == "__main__":
    unittest.main()
