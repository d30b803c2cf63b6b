"""What is known of a folder between two runs: which texts were last common, what is in question, and what was written over."""
from __future__ import annotations

import fcntl
import os
import sqlite3
import time
from collections.abc import Callable, Iterable, Iterator, Mapping
from contextlib import closing, contextmanager
from dataclasses import astuple, dataclass
from hashlib import sha256
from pathlib import Path

from bench61499 import UNITS_LIMIT
from bench61499.language.names import is_unit_name
from bench61499.language.units import Misuse, can_be_unit, is_hidden
from bench61499.sync.kept import Kept

NAME = ".bench61499"
"""The folder inside the folder."""
STATE = "state.sqlite"
"""The file in it that has all but the texts that were written over."""
_JOURNAL = f"{STATE}-journal"
_NAMING = bytes.fromhex("d9d505f920a163d7")
"""What a journal of SQLite ends with if it has the name of a further file, which SQLite removes. For one database there is none."""
_FORM = 1
_TABLES = """
CREATE TABLE IF NOT EXISTS workbench (identity TEXT NOT NULL);
CREATE TABLE IF NOT EXISTS common (unit TEXT PRIMARY KEY, file TEXT NOT NULL, revision INTEGER NOT NULL, text TEXT NOT NULL, workbench TEXT NOT NULL);
CREATE TABLE IF NOT EXISTS sent (unit TEXT PRIMARY KEY, text TEXT);
CREATE TABLE IF NOT EXISTS written (unit TEXT PRIMARY KEY, content TEXT NOT NULL, file TEXT NOT NULL, revision INTEGER NOT NULL, text TEXT NOT NULL);
CREATE TABLE IF NOT EXISTS conflict (unit TEXT PRIMARY KEY, file TEXT NOT NULL, revision INTEGER NOT NULL, text TEXT NOT NULL);
CREATE TABLE IF NOT EXISTS former (unit TEXT, digest BLOB, PRIMARY KEY (unit, digest)) WITHOUT ROWID;
"""
_SCHEMA = "SELECT name, sql FROM sqlite_master WHERE sql IS NOT NULL LIMIT 100"
MOST_FORMER = 256
"""Former texts of a unit that are known, and the most units of which any are known that are gone."""
MOST_GONE = UNITS_LIMIT
_GONE = "FROM former WHERE unit NOT IN (SELECT unit FROM common)"
_LONGEST = 1_000_000
"""Bytes of a value."""
_LOCK = "lock"
_RECORDED_IN = 5.0
"""Seconds in which a language server has recorded what it has to, at most."""


@dataclass(frozen=True)
class FileRevision:
    """A text of a unit, with its file, relative to the folder, and its revision in the workbench."""

    file: str
    revision: int
    text: str


class Store:
    """The folder `.bench61499`, for one process at a time. What is recorded is there after a kill, all of one `together` or nothing.

    `identity` is that of the last workbench; `common` are the texts that were last common with it, or with a former one; `sent` those that are being committed,
    None for a removal; `written` the contents that files are being given, each with the text that is common then; `conflicts` the texts of the workbench that
    stand beside the files.
    """

    def __init__(self, folder: Path):
        """Raises `Misuse` if the folder can't be used, or another process does."""
        self.folder = folder / NAME
        self._kept, self._removals = Kept(self.folder / "kept"), 0
        try:
            self._prepare()
            self._lock = _locked(self.folder / _LOCK)
            self._tables = sqlite3.connect(self.folder / STATE, isolation_level=None)
            self._open()
        except (OSError, sqlite3.Error) as error:
            raise Misuse(f"{self.folder}: can't be used: {getattr(error, 'strerror', None) or error}") from error

    def _prepare(self) -> None:
        refuse_foreign(self.folder)
        for folder in (self.folder, self.drafts, self._kept.folder):
            folder.mkdir(exist_ok=True)
        ignored = self.folder / ".gitignore"
        if not ignored.exists():
            ignored.write_text("*\n")

    def _open(self) -> None:
        _prepare_tables(self._tables, self.folder)
        self.identity = next(iter(self._rows("SELECT identity FROM workbench")), ("",))[0]
        self.common = self._file_revisions("common")
        self._workbenches: dict[str, str] = {unit: its for unit, its in self._rows("SELECT unit, workbench FROM common")}
        self.conflicts = self._file_revisions("conflict")
        self.sent: dict[str, str | None] = {unit: text for unit, text in self._rows("SELECT unit, text FROM sent")}
        contents = {unit: content for unit, content in self._rows("SELECT unit, content FROM written")}
        self.written = {unit: (contents[unit], it) for unit, it in self._file_revisions("written").items()}
        for draft in self.drafts.iterdir():  # Of a run that was killed.
            os.rename(draft, self.keep("_", draft.name))
        self._kept.open()
        self._forget_gone()

    def _file_revisions(self, table: str) -> dict[str, FileRevision]:
        """The rows of a table, but for those with names that lead out of the folder: it may come from anywhere."""
        rows = self._rows(f"SELECT unit, file, revision, text FROM {table}")
        words = [it for it in rows if all(isinstance(each, str) for each in (it[0], it[1], it[3]))]
        return {unit: FileRevision(file, *its) for unit, file, *its in words if is_unit_name(unit) and _is_inside(file)}

    def _rows(self, words: str) -> list[tuple]:
        return self._tables.execute(words).fetchall()

    @property
    def drafts(self) -> Path:
        return self.folder / "new"

    def is_there(self) -> bool:
        """Whether the folder is still the one that was opened: it may have been moved away, or its disk be gone."""
        try:
            return os.path.samestat(os.stat(self.folder / "lock"), os.fstat(self._lock))
        except OSError:
            return False

    def close(self) -> None:
        self._tables.close()
        os.close(self._lock)

    @contextmanager
    def together(self) -> Iterator[None]:
        """Records all that is told meanwhile at once."""
        self._tables.execute("BEGIN")
        try:
            yield
        except BaseException:
            self._tables.execute("ROLLBACK")
            raise
        self._tables.execute("COMMIT")

    def meet(self, identity: str) -> None:
        self.identity = identity
        self._tables.execute("DELETE FROM workbench")
        self._tables.execute("INSERT INTO workbench VALUES (?)", (identity,))

    def agree(self, unit: str, now: FileRevision | None) -> None:
        """The folder and the workbench have this text, or no such unit; nothing is in question any more."""
        self.found(unit, now)
        self.settle(unit)

    def found(self, unit: str, now: FileRevision | None) -> None:
        """This text, or none, is what both come from; another one that was common is a former one."""
        former = self.common.pop(unit, None)
        if now:
            self.common[unit], self._workbenches[unit] = now, self.identity
            put_common(self._tables, unit, now, self.identity, former.text if former else now.text)
        elif former:
            put_former(self._tables, unit, former.text)
            self._tables.execute("DELETE FROM common WHERE unit = ?", (unit,))
            self._removals += 1
            if self._removals % MOST_GONE == 0:
                self._forget_gone()

    def _forget_gone(self) -> None:
        """Forgets the former texts of units that are gone, if there are too many: others can put and remove any names."""
        if self._rows(f"SELECT COUNT(DISTINCT unit) {_GONE}")[0][0] > MOST_GONE:
            self._tables.execute(f"DELETE {_GONE}")

    def is_of_this(self, unit: str) -> bool:
        """Whether the common text of a unit was common with this workbench."""
        return unit in self.common and self._workbenches[unit] == self.identity

    def had(self, unit: str) -> bool:
        """Whether the folder and a workbench once had a unit in common that they have not now."""
        return unit not in self.common and bool(self._tables.execute("SELECT 1 FROM former WHERE unit = ?", (unit,)).fetchone())

    def was_former(self, unit: str, text: str) -> bool:
        """Whether this text was common once, and another one has come in its place."""
        common = self.common.get(unit)
        is_present = common is not None and common.text == text
        return not is_present and bool(self._tables.execute("SELECT 1 FROM former WHERE unit = ? AND digest = ?", (unit, digest(text))).fetchone())

    def send(self, texts: Mapping[str, str | None]) -> None:
        self.sent.update(texts)
        self._tables.executemany("INSERT OR REPLACE INTO sent VALUES (?, ?)", texts.items())

    def take_back(self, units: list[str]) -> None:
        """What was to be committed is not, as is known now."""
        for unit in units:
            self.sent.pop(unit, None)
        self._tables.executemany("DELETE FROM sent WHERE unit = ?", [(unit,) for unit in units])

    def write(self, contents: Mapping[str, tuple[str, FileRevision]]) -> None:
        self._tables.executemany("INSERT OR REPLACE INTO written VALUES (?, ?, ?, ?, ?)", [(unit, it, *astuple(now)) for unit, (it, now) in contents.items()])

    def wrote(self) -> None:
        """All that was to be written is recorded otherwise now, or was not written."""
        self.written = {}
        self._tables.execute("DELETE FROM written")

    def dispute(self, unit: str, theirs: FileRevision) -> None:
        self.conflicts[unit] = theirs
        self._tables.execute("INSERT OR REPLACE INTO conflict VALUES (?, ?, ?, ?)", (unit, theirs.file, theirs.revision, theirs.text))

    def settle(self, unit: str) -> None:
        if self.conflicts.pop(unit, None):
            self._tables.execute("DELETE FROM conflict WHERE unit = ?", (unit,))

    def keep(self, unit: str, words: str) -> Path:
        """A name for what is written over; nothing has it yet. Raises `OSError` if its folder is a link."""
        return self._kept.name(unit, words)

    def thin(self) -> None:
        """Removes what is too much of what was written over."""
        self._kept.thin()


def record(folder: Path, workbench: str, texts: Mapping[str, FileRevision], is_still: Callable[[str], bool]) -> bool:
    """Records in a `.bench61499` the texts by unit that files and a workbench have in common, for a `sync` that keeps the folder later; tells whether that is done.

    A `sync` that keeps it now sees them by itself, and what was recorded with a later revision stays. `is_still` is asked for each unit of which another
    text is recorded. Raises `Misuse`, `OSError` and `sqlite3.Error`.
    """
    refuse_foreign(folder)
    lock = os.open(folder / _LOCK, os.O_RDWR | os.O_CREAT | os.O_NOFOLLOW | os.O_CLOEXEC, 0o666)
    try:
        fcntl.flock(lock, fcntl.LOCK_SH | fcntl.LOCK_NB)
        with closing(sqlite3.connect(folder / STATE, isolation_level=None)) as tables:
            _prepare_tables(tables, folder)
            tables.execute("BEGIN IMMEDIATE")
            for unit, it in texts.items():
                _record_one(tables, unit, it, workbench, is_still)
            tables.execute("COMMIT")
    except BlockingIOError:
        return False
    finally:
        os.close(lock)
    return True


def _record_one(tables: sqlite3.Connection, unit: str, now: FileRevision, workbench: str, is_still: Callable[[str], bool]) -> None:
    known = tables.execute("SELECT text, revision, workbench FROM common WHERE unit = ?", (unit,)).fetchone()
    text, revision, its = known or (now.text, 0, "")
    is_new = its != workbench or revision < now.revision or revision == now.revision and text != now.text
    if is_new and is_still(unit):
        put_common(tables, unit, now, workbench, text)


def put_common(tables: sqlite3.Connection, unit: str, now: FileRevision, workbench: str, before: str) -> None:
    """Records a text that is common with a workbench; the one `before` is a former one if it is another one."""
    if before != now.text:
        put_former(tables, unit, before)
    tables.execute("INSERT OR REPLACE INTO common VALUES (?, ?, ?, ?, ?)", (unit, *astuple(now), workbench))


def put_former(tables: sqlite3.Connection, unit: str, text: str) -> None:
    """Records a text that was common, in the place of another one, by chance, if there are too many."""
    its = {"unit": unit, "digest": digest(text)}
    tables.execute("INSERT OR IGNORE INTO former VALUES (:unit, :digest)", its)
    there = f"SELECT digest FROM former WHERE unit = :unit ORDER BY digest = :digest DESC, random() LIMIT -1 OFFSET {MOST_FORMER}"
    tables.execute(f"DELETE FROM former WHERE unit = :unit AND digest IN ({there})", its)


def _prepare_tables(tables: sqlite3.Connection, folder: Path) -> None:
    """Raises `Misuse` if the tables are not those of `sync`."""
    if not is_of_sync(tables):
        raise Misuse(f"{folder / STATE}: has other tables than those of sync, and may come from elsewhere; remove it")
    tables.execute("PRAGMA synchronous = NORMAL")
    form = tables.execute("PRAGMA user_version").fetchone()[0]
    if form > _FORM:
        raise Misuse(f"{folder}: was written by a later version of sync")
    tables.executescript(f"{_TABLES} PRAGMA user_version = {_FORM};")


def last_common(paths: Iterable[Path], workbench: str) -> dict[str, str]:
    """The texts that the folders of these paths last had in common with this workbench, as `sync` and editors have recorded them; none if it never ran there, or is at work."""
    states = {state for path in paths for state in _states_above(path.absolute())}
    return {unit: text for state in sorted(states) for unit, text in _common_of(state, workbench)}


def _states_above(path: Path) -> Iterator[Path]:
    """The nearest state."""
    yield from [state for folder in (path, *path.parents) if (state := folder / NAME / STATE).is_file()][:1]


def _common_of(state: Path, workbench: str) -> list[tuple[str, str]]:
    try:
        with closing(sqlite3.connect(f"{state.as_uri()}?mode=ro", uri=True, timeout=0)) as tables:
            if not is_of_sync(tables):
                return []
            rows = tables.execute(f"SELECT unit, text FROM common WHERE workbench = ? AND revision > 0 LIMIT {UNITS_LIMIT}", (workbench,)).fetchall()
            return [(unit, text) for unit, text in rows if isinstance(unit, str) and isinstance(text, str)]
    except sqlite3.Error:
        return []


def refuse_foreign(folder: Path) -> None:
    """Raises `Misuse` if a `.bench61499` has a link or a journal that can't be of `sync`."""
    refuse_links(folder)
    refuse_naming(folder / _JOURNAL)


def refuse_links(folder: Path) -> None:
    """Raises `Misuse` if a folder is a link, or has one: a project from elsewhere could have it lead anywhere."""
    there = folder.iterdir() if folder.exists() else ()
    if link := next((it for it in (folder, *there) if it.is_symlink()), None):
        raise Misuse(f"{link}: is a link, and has to be none")


def refuse_naming(journal: Path) -> None:
    """Raises `Misuse` if a journal has SQLite remove a file that it names, or is no file: it may come from elsewhere."""
    if not os.path.lexists(journal):
        return
    is_fit = journal.is_file()
    if is_fit:
        with open(journal, "rb") as stream:
            stream.seek(max(0, os.fstat(stream.fileno()).st_size - len(_NAMING)))
            is_fit = stream.read() != _NAMING
    if not is_fit:
        raise Misuse(f"{journal}: is no journal of sync, and may come from elsewhere; remove it")


def is_of_sync(tables: sqlite3.Connection) -> bool:
    """Whether a state has the tables of sync, if any, and nothing else: in one from elsewhere a view could have rows without end. No value of it is read that is too long."""
    tables.setlimit(sqlite3.SQLITE_LIMIT_LENGTH, _LONGEST)
    with closing(sqlite3.connect(":memory:")) as own:
        own.executescript(_TABLES)
        return set(tables.execute(_SCHEMA)) <= set(own.execute(_SCHEMA))


def _is_inside(file: str) -> bool:
    """Whether a relative name is that of a file that can be a unit, and leads to no hidden folder and out of none."""
    path = Path(file)
    return can_be_unit(path.name) and not path.is_absolute() and not any(map(is_hidden, path.parts))


def digest(text: str) -> bytes:
    """By what a text is known again."""
    return sha256(text.encode()).digest()


def _locked(file: Path) -> int:
    """A lock that ends with the process, and has its number. Raises `Misuse` if another process has it."""
    number, end = os.open(file, os.O_RDWR | os.O_CREAT, 0o666), time.monotonic() + _RECORDED_IN
    while not _is_taken(number, fcntl.LOCK_EX):
        if not _is_taken(number, fcntl.LOCK_SH) or time.monotonic() > end:
            holder = os.read(number, 20).decode(errors="replace").strip()
            os.close(number)
            raise Misuse(f"{file.parent.parent}: another sync keeps it, process {holder}")
        fcntl.flock(number, fcntl.LOCK_UN)
        time.sleep(0.01)  # A language server is recording something.
    os.ftruncate(number, 0)
    os.write(number, f"{os.getpid()}\n".encode())
    return number


def _is_taken(number: int, lock: int) -> bool:
    try:
        fcntl.flock(number, lock | fcntl.LOCK_NB)
    except BlockingIOError:
        return False
    return True
