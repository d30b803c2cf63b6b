"""A history of git in which each commit of a workbench is a commit."""
from __future__ import annotations

import os
import re
import shutil
import subprocess
from collections.abc import Iterable, Iterator, Mapping
from pathlib import Path

from bench61499 import Commit, Revision, Session, Text
from bench61499.language.names import is_unit_name
from bench61499.language.units import Misuse
from bench61499.log.events import Place, Since
from bench61499.log.lines import told_commit, told_missing

BRANCH = "refs/heads/workbench"
_MARK = "bench61499.log"
_ALONE = {"GIT_CONFIG_NOSYSTEM": "1", "GIT_CONFIG_GLOBAL": os.devnull, "GIT_TERMINAL_PROMPT": "0"}
_HARMLESS = re.compile(
    r"core\.(repositoryformatversion|filemode|bare|logallrefupdates|ignorecase|symlinks|precomposeunicode)|bench61499\.log|user\.(name|email)"
    r"|remote\..*\.(url|pushurl|fetch)|branch\..*\.(remote|merge)"
)
"""What the configuration of a history may set, which may come from elsewhere: by other settings git runs commands."""
_PLACE = re.compile(r"^Workbench: (\w*)\nCommit: (\d+)\nCall: (\d+)$", re.MULTILINE)


class Repository:
    """A folder with a history that this program alone writes. The files in it are those of the last commit."""

    def __init__(self, folder: Path):
        """Raises `Misuse` if there is no git, or the folder is another one."""
        self._folder = folder
        if not shutil.which("git"):
            raise Misuse("--git needs the program git, which is not on the path")
        try:
            folder.mkdir(parents=True, exist_ok=True)
            is_empty = not any(folder.iterdir())
        except OSError as error:
            raise Misuse(f"{folder}: can't be used: {error.strerror}") from error
        if outer := next(_leading_out(folder / ".git"), None):
            raise Misuse(f"{outer}: by it git would write elsewhere; remove it, or name another folder")
        if is_empty:
            self._git("init", "--quiet", f"--initial-branch={BRANCH.rpartition('/')[2]}")
            self._git("config", _MARK, "true")
        elif not (folder / ".git").is_dir() or self._git("config", "--local", "--default", "", "--get", _MARK).strip() != "true":
            raise Misuse(f"{folder}: is no history that `log --git` has begun; name a folder that is absent or empty")
        elif other := next((it for it in self._git("config", "--local", "--name-only", "--list").splitlines() if not _HARMLESS.fullmatch(it)), None):
            raise Misuse(f"{folder}: its .git/config sets {other}, by which git may run a command; remove that, or name another folder")

    def place(self) -> Place:
        """Where the history ends."""
        message = self._git("log", "-1", "--format=%B", BRANCH) if self._head() else ""
        found = _PLACE.search(message)
        return Place(found[1], int(found[3]), int(found[2])) if found else Place()

    def record(self, session: Session, since: Since) -> list[str]:
        """Makes the commits, and gives what is to be told of them. All come at once: a kill leaves all or none."""
        commits, told = since.commits, list[str]()
        first = since.missing.stop
        head = self._head()
        stream: list[bytes] = []
        if since.is_other or since.missing:
            listed = session.units().units
            texts = session.texts(it.unit for it in listed if it.number < first)
            if texts or since.missing or head:
                stream += self._whole(since, listed, texts, is_anew=since.is_other)
        texts = session.texts({unit for it in commits for unit in it.put})
        for it in commits:
            stream += self._one(since, it, texts)
        if stream:
            self._import(stream, head)
            told += self._show()
        return told

    def _whole(self, since: Since, listed: Iterable[Revision], texts: Mapping[str, Text], is_anew: bool) -> list[bytes]:
        """A commit with the texts that have stayed since the commits that are not known, or since before this history."""
        last = since.missing.stop - 1
        words = [f"the workbench after commit {last}, as far as it is known", "", told_missing(since)]
        words += [f"{unit}: revision {it.revision}" for unit, it in texts.items()]
        there = {it.unit for it in listed} | {unit for it in since.commits for unit in (*it.put, *it.removed)}
        changes = [b"deleteall\n"] if is_anew else [_deleted(name) for name in self._names() if name not in there]
        return [*self._head_of(since, last, "workbench", words), *changes, *(_put(unit, it.text) for unit, it in texts.items())]

    def _one(self, since: Since, commit: Commit, texts: Mapping[str, Text]) -> list[bytes]:
        words, changes = [told_commit(commit), ""], list[bytes]()
        for unit in commit.put:
            text = texts.get(unit)
            if text and text.revision == commit.number:
                words.append(f"{unit}: revision {commit.number}")
                changes.append(_put(unit, text.text))
            else:
                words.append(f"{unit}: revision {commit.number}, whose text is not known: {'a later one' if text else 'its removal'} came before it was read")
        for unit in commit.removed:
            words.append(f"{unit}: removed")
            changes.append(_deleted(unit))
        return [*self._head_of(since, commit.number, f"session {commit.caller}", words), *changes]

    def _head_of(self, since: Since, number: int, author: str, words: list[str]) -> list[bytes]:
        message = "\n".join([*words, "", f"Workbench: {since.place.workbench}", f"Commit: {number}", f"Call: {since.place.at}", ""]).encode()
        who = f"{author} <{author.replace(' ', '-')}@workbench> now"
        return [f"commit {BRANCH}\nauthor {who}\ncommitter {who}\n".encode(), _data(message)]

    # git

    def _head(self) -> str:
        return self._git("rev-parse", "--quiet", "--verify", BRANCH, may_fail=True).strip()

    def _names(self) -> list[str]:
        return [it.removesuffix(".fb") for it in self._git("ls-tree", "--name-only", BRANCH).splitlines()] if self._head() else []

    def _import(self, stream: list[bytes], head: str) -> None:
        """Has git make commits, the first of them after `head`."""
        begin = f"reset {BRANCH}\nfrom {head}\n".encode() if head else b""
        self._git("fast-import", "--quiet", "--date-format=now", "--done", sent=b"".join([begin, *stream, b"done\n"]))

    def _show(self) -> list[str]:
        """Brings the files to the last commit. Those that somebody has changed stay, and that is told."""
        tree = self._git("write-tree").strip()
        try:
            self._git("read-tree", "-m", "-u", tree, BRANCH)
        except Misuse as error:
            return [f"the files of {self._folder} stay as they are, while the history goes on: {error}"]
        return []

    def _git(self, *words: str, sent: bytes = b"", may_fail: bool = False) -> str:
        git = ["git", f"--git-dir={self._folder / '.git'}", f"--work-tree={self._folder}", "-c", f"core.hooksPath={os.devnull}", "-c", "core.autocrlf=false"]
        ran = subprocess.run([*git, *words], input=sent, capture_output=True, env={**os.environ, **_ALONE})
        if ran.returncode and not may_fail:
            raise Misuse(f"git {words[0]} failed: {ran.stderr.decode(errors='replace').strip()}")
        return ran.stdout.decode(errors="replace")


def _leading_out(git: Path) -> Iterator[Path]:
    """What has git write outside of its folder, which may come from elsewhere: links, through which it even appends lines to files, and the name of a folder in the place of this one."""
    inner = (Path(folder, name) for folder, folders, files in os.walk(git) for name in (*folders, *files))
    return (it for it in (git, *inner) if it.is_symlink() or it == git / "commondir")


def _data(content: bytes) -> bytes:
    return b"data %d\n%s\n" % (len(content), content)


def _put(unit: str, text: str) -> bytes:
    return f"M 100644 inline {_file(unit)}\n".encode() + _data(text.encode(errors="replace"))


def _deleted(unit: str) -> bytes:
    return f"D {_file(unit)}\n".encode()


def _file(unit: str) -> str:
    """The file of a unit. Raises `Misuse` for a name that no workbench has, and that could lead elsewhere."""
    if not is_unit_name(unit):
        raise Misuse("the server sent the name of a unit that is none")
    return f"{unit}.fb"
