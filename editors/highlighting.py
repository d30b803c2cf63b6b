#!/usr/bin/env python3
"""Makes the static highlighting of Vim, Neovim and Emacs, vim/syntax/fb61499.vim and fb61499-words.el, from the groups of words of vscode/grammar.py."""
import sys
from pathlib import Path

HERE = Path(__file__).resolve().parent
VIM, EMACS = HERE / "vim" / "syntax" / "fb61499.vim", HERE / "fb61499-words.el"
sys.path.insert(0, str(HERE / "vscode"))

import grammar  # noqa: E402

GROUPS = {
    "Statement": grammar.CONTROL,
    "Operator": grammar.OPERATORS,
    "Constant": grammar.CONSTANTS,
    "Keyword": grammar.RESERVED - grammar.CONTROL - grammar.OPERATORS - grammar.CONSTANTS,
    "Type": frozenset(grammar.ELEMENTARY),
}
"""The words by the group of Vim that they are shown as."""
FACES = {"Statement": "keyword", "Operator": "builtin", "Constant": "constant", "Keyword": "keyword", "Type": "type"}
"""The face of Emacs for each group."""
DATE = r"\c\<\%(D\|DATE\|TOD\|TIME_OF_DAY\|DT\|DATE_AND_TIME\)#[+-]\?\%([A-Za-z0-9_#]\|[.:-][0-9]\@=\)\+"
REAL = r"\c\<L\?REAL#[+-]\?\%([A-Za-z0-9_#]\|\.[0-9]\@=\|[Ee]\@1<=[+-][0-9]\@=\)\+"
TYPED = r"\<[A-Za-z_][A-Za-z0-9_]*#[+-]\?\%([A-Za-z0-9_#]\|\.[0-9]\@=\)\+"
OR = r"\|"
NUMBER = r"\<[0-9][0-9_]*\%(#[A-Za-z0-9_]\+\|\.[0-9]\+\%([Ee][+-]\?[0-9]\+\)\?\)\?"


def vim():
    """The syntax file. Of two items that match at one place the later one counts."""
    lines = [
        '" Highlighting of texts of IEC 61499. editors/highlighting.py makes it.',
        "if exists('b:current_syntax') | finish | endif",
        "syntax case ignore",
        r"syntax iskeyword 48-57,65-90,95,97-122",
    ]
    lines += [rf"syntax match fb61499{group} /\<\%({OR.join(sorted(words))}\)\>#\@!/" for group, words in GROUPS.items()]
    lines += [
        r"""syntax match fb61499String /'\%([^'$]\|\$.\)*'/""",
        r"""syntax match fb61499String /"\%([^"$]\|\$.\)*"/""",
        *(f"syntax match fb61499Number /{it}/" for it in (NUMBER, TYPED, REAL, DATE)),
        r"syntax match fb61499Comment /\/\/.*$/ contains=@Spell",
        r"syntax region fb61499Comment start=/(\*/ end=/\*)/ contains=@Spell",
        *(f"highlight default link fb61499{group} {group}" for group in (*GROUPS, "String", "Number", "Comment")),
        "let b:current_syntax = 'fb61499'",
    ]
    return "\n".join([*lines, ""])


def emacs():
    """The words with their faces, as a list for font-lock."""
    lines = [";;; fb61499-words.el --- words of IEC 61499 and their faces  -*- lexical-binding: t -*-", ";; editors/highlighting.py makes it.", "(defconst fb61499-words"]
    rows = [f'(font-lock-{FACES[group]}-face {" ".join(chr(34) + it + chr(34) for it in sorted(words))})' for group, words in GROUPS.items()]
    return "\n".join([*lines, "  '(" + "\n    ".join(rows) + ")", '  "The faces, each with its words.")', "(provide 'fb61499-words)", ""])


if __name__ == "__main__":
    VIM.write_text(vim())
    EMACS.write_text(emacs())
