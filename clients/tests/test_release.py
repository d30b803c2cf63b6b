"""The release, unpacked without a kit, and its man page, completions, unit and Dockerfile against what the program takes."""
from __future__ import annotations

import hashlib
import json
import os
import re
import shlex
import shutil
import subprocess
import sys
import tarfile
import tomllib
import unittest
from contextlib import ExitStack
from functools import cache
from itertools import pairwise
from pathlib import Path

from support import CLIENTS, CONVEYOR, InFolder, run, until, workbench

from bench61499 import Put, Session
from bench61499.memory import amount_in

TOP = CLIENTS.parent
PACKAGING = TOP / "packaging"
SHARE, UNIT = PACKAGING / "share", PACKAGING / "lib" / "systemd" / "system" / "bench61499.service"
PLAIN = {"PATH": "/usr/bin:/bin", "LANG": "C.UTF-8"}
"""The surroundings of a machine that has no kit."""


def made(folder: Path, **surroundings: str) -> Path:
    """The release, made in a folder."""
    words = [str(TOP / "tools" / "release"), "--program", workbench(), "--out", str(folder)]
    ran = subprocess.run(words, env={**os.environ, **surroundings}, capture_output=True, text=True)
    if ran.returncode:
        raise AssertionError(ran.stderr)
    return Path(ran.stdout.strip())


@cache
def commands() -> dict[str, dict[str, str]]:
    """The options of each command of the program, with their defaults, as its help prints them."""
    names = re.findall(r"^  (\w+) ", help_of(), re.M)
    return {name: dict(re.findall(r"^ {2,}(?:-\w, )?(--\w+)(?:.*\[default: (\d+)\])?", help_of(name), re.M)) for name in names if name != "help"}


def help_of(*words: str) -> str:
    ran = subprocess.run([workbench(), *words, "--help"], capture_output=True, text=True)
    return ran.stdout + ran.stderr


class ReleasedTest(InFolder):
    def unpacked(self) -> Path:
        with tarfile.open(made(self.folder / "out")) as tar:
            tar.extractall(self.folder / "unpacked")
        (root,) = (self.folder / "unpacked").iterdir()
        return root


class ReleaseTest(ReleasedTest):
    def run_there(self, *words: object, given: str = "") -> subprocess.CompletedProcess[str]:
        return subprocess.run([*map(str, words)], cwd=self.folder, env=PLAIN, input=given, capture_output=True, text=True, timeout=60)

    def test_two_runs_give_the_same_bytes(self) -> None:
        one = made(self.folder / "one")
        other = made(self.folder / "other", TZ="Asia/Tokyo", LC_ALL="C", PYTHONHASHSEED="1")
        version = tomllib.loads((CLIENTS / "pyproject.toml").read_text())["project"]["version"]
        self.assertEqual({one.name, other.name}, {f"bench61499-{version}-x86_64-linux.tar.gz"})
        self.assertEqual(one.read_bytes(), other.read_bytes())

    def test_the_program_and_the_clients_run_without_a_kit(self) -> None:
        root = self.unpacked()
        ran = self.run_there(root / "bin" / "bench61499", "script", given='{"op":"work","turns":1}\n')
        self.assertEqual((ran.stdout, ran.returncode), ('{"accepted":0}\n', 0), ran.stderr)
        if self.run_there("python3", "-c", "import sys; sys.exit(sys.version_info < (3, 11))").returncode:
            self.skipTest("the Python of /usr/bin is older than 3.11")
        ran = self.run_there(root / "clients" / "check", CONVEYOR)
        self.assertEqual((ran.stdout, ran.returncode), ("7 units, no faults\n", 0), ran.stderr)

    def test_what_is_in_it(self) -> None:
        root = self.unpacked()
        names = {str(it.relative_to(root)) for it in root.rglob("*") if it.is_file()}
        expected = {"README.md", "INSTALL.md", "Dockerfile", "docs/WORKBENCH.md", "clients/python/bench61499/board/board.js", "bin/bench61499",
                    "share/man/man1/bench61499.1", "lib/systemd/system/bench61499.service"}
        self.assertLessEqual(expected, names)
        self.assertFalse([it for it in names if it.startswith("clients/tests") or it.endswith(".pyc")])
        copied = re.search(r"^COPY (\S+) ", (root / "Dockerfile").read_text(), re.M)
        self.assertIn(copied[1], names)

    def test_its_checksum_is_beside_it(self) -> None:
        file = made(self.folder / "out")
        ran = subprocess.run(["sha256sum", "--check", "--strict", "SHA256SUMS"], cwd=file.parent, capture_output=True, text=True)
        self.assertEqual((ran.stdout, ran.returncode), (f"{file.name}: OK\n", 0), ran.stderr)
        file.write_bytes(file.read_bytes() + b"\0")
        self.assertNotEqual(subprocess.run(["sha256sum", "--check", "SHA256SUMS"], cwd=file.parent, capture_output=True).returncode, 0)

    def test_what_it_says_of_its_sources_and_proofs(self) -> None:
        root = self.unpacked()
        checked = subprocess.run(["sha256sum", "--check", "--quiet", root / "SOURCES.sha256"], cwd=TOP, capture_output=True, text=True)
        self.assertEqual((checked.stdout, checked.returncode), ("", 0), checked.stderr)
        report = (root / "PROVED.txt").read_text()
        self.assertIn(f"program   sha256 {hashlib.sha256(Path(workbench()).read_bytes()).hexdigest()}\n", report)
        self.assertIn("proved    not known: the program was named by --program\n", report)
        self.assertTrue(report.endswith("  bench61499\n"))
        kit = re.search(r"^kit +(rattle\S+)", report, re.M)
        told = subprocess.run([root / "clients" / "check", "--version"], capture_output=True, text=True).stdout
        self.assertRegex(told, rf"^check of bench61499 \S+{f', {kit[1]}' if kit else ''}\n$")
        self.assertLess(report.index("  fb_text\n"), report.index("  fb_parse\n"))


SUM = "import sys; sys.path.insert(0, 'tools'); import kit_rt; print(kit_rt.crate('crates/bench61499', '.').stamp())"


@unittest.skipUnless(shutil.which("rt"), "the kit is not installed")
class BuiltTest(InFolder):
    """The built program of a repository, with and without what rt leaves beside a proved one: a sum of the sources and one of the program."""

    def setUp(self) -> None:
        super().setUp()
        for name in ("tools/release", "tools/client_pages.py", "tools/crate_graph.py", "tools/kit_rt.py", "clients/pyproject.toml"):
            self.copy(TOP / name, name)
        for file in PACKAGING.rglob("*"):
            if file.is_file():
                self.copy(file, str(file.relative_to(TOP)))
        self.write("crates.txt", "fb_text:\nbench61499: fb_text\n")
        self.copy(TOP / "crates" / "fb_text" / "src" / "lib.rt", "crates/fb_text/src/lib.rt")
        self.copy(TOP / "crates" / "bench61499" / "src" / "main.rt", "crates/bench61499/src/main.rt")
        self.copy(Path(workbench()), "crates/bench61499/out/bench61499")
        self.built = self.folder / "crates" / "bench61499" / "out" / "bench61499"
        git = ["git", "-c", "user.name=A", "-c", "user.email=a@b"]
        for words in (["init", "-q"], ["add", "clients", "crates.txt", "tools"], ["commit", "-qm", "All"]):
            subprocess.run([*git, *words], cwd=self.folder, check=True)

    def copy(self, file: Path, name: str) -> None:
        to = self.folder / name
        to.parent.mkdir(parents=True, exist_ok=True)
        shutil.copy(file, to)

    def release(self) -> subprocess.CompletedProcess[str]:
        return subprocess.run([self.folder / "tools" / "release"], capture_output=True, text=True)

    def stamp(self, content: bytes) -> str:
        """Leaves what rt leaves when it has proved a program; gives the sum of the sources."""
        ran = subprocess.run([sys.executable, "-c", SUM], cwd=self.folder, capture_output=True, text=True, check=True)
        Path(f"{self.built}.stamp").write_text(ran.stdout.strip() + hashlib.sha256(content).hexdigest(), encoding="utf-8")
        return ran.stdout.strip()

    def test_a_proved_program_is_released_as_one(self) -> None:
        sources = self.stamp(self.built.read_bytes())
        ran = self.release()
        self.assertEqual(ran.returncode, 0, ran.stderr)
        with tarfile.open(ran.stdout.strip()) as tar:
            report = tar.extractfile("bench61499-1.0.0-x86_64-linux/PROVED.txt").read().decode()
        self.assertIn("proved    yes: rt proved these crates, and built this program of them, with ", report)
        self.assertIn(f"\nproof     of the sources with rt's sum {sources}\n", report)

    def test_another_one_is_refused(self) -> None:
        self.refused()
        self.stamp(b"another program")
        self.refused()
        Path(f"{self.built}.stamp").write_text("0" * 64 + hashlib.sha256(self.built.read_bytes()).hexdigest(), encoding="utf-8")
        self.refused()

    def test_times_of_files_prove_nothing(self) -> None:
        """Another source that is older than the program, as `cp -p` and `tar x` make it, and one that is not there any more."""
        self.stamp(self.built.read_bytes())
        source = self.folder / "crates" / "fb_text" / "src" / "lib.rt"
        content, later = source.read_bytes(), self.built.stat().st_mtime + 10
        os.utime(source, (later, later))
        self.assertEqual(self.release().returncode, 0)
        source.write_bytes(content + b"\n")
        os.utime(source, (1, 1))
        self.refused()
        source.write_bytes(content)
        self.assertEqual(self.release().returncode, 0)
        source.unlink()
        self.refused()

    def refused(self) -> None:
        ran = self.release()
        self.assertEqual((ran.stdout, ran.returncode), ("", 1))
        self.assertIn(f"{self.built} is not proved of the present sources", ran.stderr)


class ClientsTest(ReleasedTest):
    """Man pages and completions of the clients, against what each prints by --help."""

    def commands(self) -> dict[tuple[str, ...], set[str]]:
        """The options of each client, and of each work of exchange."""
        clients = [(it.name,) for it in CLIENTS.iterdir() if it.is_file() and os.access(it, os.X_OK)]
        all_words = [*clients, *(("exchange", work) for work in ("import", "export", "boot"))]
        return {words: set(re.findall(r"^  (?:-\w, )?(--[a-z-]+)", run(*words, "--help").stdout, re.M)) for words in all_words}

    def completed(self, shell: str, place: str, script: str) -> None:
        """Holds the options that a shell completes to those of the clients; `script` prints them for the words `$2`, by the file `$1`."""
        if not shutil.which(shell):
            self.skipTest(f"{shell} is not installed")
        share = self.unpacked() / "share"
        for words, expected in self.commands().items():
            if shell == "zsh" and words == ("exchange",):
                continue  # its first word is completed as a work
            arguments = [share / place.format(words[0]), " ".join([f"bench61499-{words[0]}", *words[1:], "--"]), f"_bench61499_{words[0]}"]
            found = subprocess.run([shell, "-c", script, *(["-"] if shell != "fish" else []), *map(str, arguments)], capture_output=True, text=True)
            self.assertEqual((set(found.stdout.split()), found.stderr), (expected, ""), words)

    def test_bash(self) -> None:
        script = 'source "$1"; read -ra COMP_WORDS <<< "$2"; COMP_CWORD=$((${#COMP_WORDS[@]} - 1)); "$3"; echo "${COMPREPLY[@]}"'
        self.completed("bash", "bash-completion/completions/bench61499-{}", script)

    def test_zsh(self) -> None:
        takes = '_arguments() { print -l -- ${${@%%\\[*}:#*:file:*} }; words=(${=2}); CURRENT=$#words; '
        self.completed("zsh", "zsh/site-functions/_bench61499-{}", takes + 'source "$1"')

    def test_fish(self) -> None:
        self.completed("fish", "fish/vendor_completions.d/bench61499-{}.fish", 'source $argv[1]; complete -C $argv[2] | string replace -r "\\t.*" ""')

    def test_bash_completes_works_choices_and_files(self) -> None:
        share = self.unpacked() / "share" / "bash-completion" / "completions"
        script = 'source "$1"; read -ra COMP_WORDS <<< "$2"; COMP_WORDS+=(""); COMP_CWORD=$((${#COMP_WORDS[@]} - 1)); "$3"; echo "${COMPREPLY[@]}"'
        cases = {"exchange": "import export boot", "exchange export --for": "4diac 4diac1 fbdk", "check --format": "human json github sarif junit", "check --secret": ""}
        for words, expected in cases.items():
            client = words.split()[0]
            ran = subprocess.run(["bash", "-c", script, "-", share / f"bench61499-{client}", f"bench61499-{words}", f"_bench61499_{client}"], capture_output=True, text=True)
            self.assertEqual((ran.stdout.strip(), ran.stderr), (expected, ""), words)

    def test_the_man_pages_have_all_options_and_can_be_set(self) -> None:
        pages = self.unpacked() / "share" / "man" / "man1"
        for words, expected in self.commands().items():
            page = pages / f"bench61499-{words[0]}.1"
            described = re.findall(r"^\.B (--[a-z-]+)", page.read_text().replace("\\-", "-"), re.M)
            self.assertLessEqual(expected, set(described))
            if shutil.which("groff"):
                ran = subprocess.run(["groff", "-ww", "-man", "-Tutf8", page], capture_output=True, text=True)
                self.assertEqual((ran.stderr, ran.returncode), ("", 0))


def faults_of_unit(printed: str) -> list[str]:
    """What systemd finds, but for the program that is not installed here."""
    return [it for it in printed.splitlines() if "Command /usr/local/bin/bench61499 is not executable" not in it]


def arenas_of(process: int) -> int:
    """The arenas of malloc beside the main one: each reserves 64 MiB at a multiple of that, of which it uses the first part."""
    size = 2**26
    spans = [(int(begin, 16), int(end, 16), uses) for begin, end, uses in re.findall(r"^(\w+)-(\w+) (\S+)", Path(f"/proc/{process}/maps").read_text(encoding="utf-8"), re.M)]
    return sum(not used[0] % size and used[1] == rest[0] and not rest[1] % size and rest[2] == "---p" for used, rest in pairwise(spans))


class WordsTest(InFolder):
    """Man page, completions, unit and Dockerfile against the help of the program."""

    def test_the_man_page_has_all_options_and_their_defaults(self) -> None:
        page = (SHARE / "man/man1/bench61499.1").read_text().replace("\\-", "-")
        parts = re.findall(r"^\.SS (\w+)\n(.*?)(?=^\.S[SH] )", page, re.M | re.S)
        described = {name: re.findall(r"^\.BI? (--\w+).*\n(?:(?!\.TP).*\n)*?.*?(?:default is (\d+)|(?=\.TP|\.S|\Z))", part, re.M) for name, part in parts}
        expected = {name: {option: default for option, default in its.items() if option != "--help"} for name, its in commands().items()}
        self.assertEqual({name: dict(its) for name, its in described.items()}, expected)
        synopsis = page[page.index(".SH SYNOPSIS") : page.index(".SH DESCRIPTION")]
        shown = {part.split()[0]: set(re.findall(r"--\w+", part)) for part in synopsis.split(".B bench61499 ")[1:]}
        self.assertEqual(shown, {name: set(its) for name, its in expected.items()})

    @unittest.skipUnless(shutil.which("groff"), "groff is not installed")
    def test_the_man_page_can_be_set(self) -> None:
        ran = subprocess.run(["groff", "-ww", "-man", "-Tutf8", SHARE / "man/man1/bench61499.1"], capture_output=True, text=True)
        self.assertEqual((ran.stderr, ran.returncode), ("", 0))

    def completed(self, shell: str, script: str) -> None:
        """Holds what a shell completes to the program: `script` prints it for the words `$1`."""
        if not shutil.which(shell):
            self.skipTest(f"{shell} is not installed")
        asked = {"": {*commands(), "help"}} | {name: set(its) for name, its in commands().items()}
        for name, expected in asked.items():
            found = subprocess.run([shell, "-c", script, shell, name], cwd=SHARE, capture_output=True, text=True)
            self.assertEqual((set(found.stdout.split()) - ({"--help"} - expected), found.stderr), (expected, ""), f"{shell}: {name}")

    def test_bash(self) -> None:
        script = 'source bash-completion/completions/bench61499; COMP_WORDS=(bench61499 $1 ${1:+--}); COMP_CWORD=$((${#1} ? 2 : 1)); _bench61499; echo "${COMPREPLY[@]}"'
        self.completed("bash", script)

    def test_zsh(self) -> None:
        takes = '_arguments() { print -l -- ${@%%\\[*} }; _values() { shift; print -l -- ${@%%\\[*} }; words=(bench61499 $1 --); CURRENT=$(( $#1 ? 3 : 2 )); '
        self.completed("zsh", takes + "source zsh/site-functions/_bench61499")

    def test_fish(self) -> None:
        script = 'source fish/vendor_completions.d/bench61499.fish; set -l dashes (test -n "$argv[2]"; and echo " --"); complete -C "bench61499 $argv[2]$dashes" | string replace -r "\\t.*" ""'
        self.completed("fish", script)

    def secret(self) -> Path:
        """A file with a secret."""
        secret = self.write("secret", f"{'a word' * 4}\n")
        secret.chmod(0o600)
        return secret

    def listens(self, words: list[str]) -> None:
        """Starts the program with these words, at any free port: it has to listen."""
        words = ["0" if before == "--port" else word for before, word in zip(["", *words], words)]
        with subprocess.Popen([workbench(), *words], stdout=subprocess.PIPE, text=True) as server:
            line = server.stdout.readline()
            server.terminate()
        self.assertTrue(line.startswith("listening on 127.0.0.1:"), line)

    def test_the_unit_starts_a_server(self) -> None:
        unit = UNIT.read_text()
        started = re.search(r"^ExecStart=(.*)", unit, re.M)[1].replace("${CREDENTIALS_DIRECTORY}/secret", str(self.secret()))
        self.assertIn("\nLoadCredential=secret:", unit)
        program, *words = shlex.split(started)
        self.assertEqual((program, words.pop()), ("/usr/local/bin/bench61499", "$OPTIONS"))
        self.listens(words)
        example = re.search(r"such as: OPTIONS=(.*)", unit)[1]
        self.listens(words + example.split())

    def test_the_container_starts_a_server(self) -> None:
        lines = (PACKAGING / "Dockerfile").read_text()
        words = json.loads(re.search(r"^CMD (.*)", lines, re.M)[1])
        self.assertEqual(words[-2:], ["--secret", "/secret"])
        self.listens([*words[:-1], str(self.secret())])
        self.assertIn("\nSTOPSIGNAL SIGKILL\n", lines)

    def limits(self) -> tuple[list[int], list[int]]:
        """What the unit and the container may have of data and of memory, in bytes."""
        installing = (PACKAGING / "INSTALL.md").read_text()
        words = [*re.search(r"^LimitDATA=(.*)$", UNIT.read_text(), re.M).groups(), *re.search(r" --ulimit data=(\S+)", installing).groups()]
        most = [*re.search(r"^MemoryMax=(.*)$", UNIT.read_text(), re.M).groups(), *re.search(r" --memory (\S+)", installing).groups()]
        return [amount_in(it) for it in words], [amount_in(it) for it in most]

    def test_a_lack_of_memory_is_noticed_before_the_system_ends_the_server(self) -> None:
        """There is room for the texts of `--memory`, and for as many sessions as there can be."""
        for data, most in zip(*self.limits(), strict=True):
            self.assertTrue(2**31 < data < most, (data, most))
            self.serves_all(data)

    def serves_all(self, data: int) -> None:
        """Starts a host of 255 sessions that may have these bytes of data: a session has to work."""
        words = [workbench(), "host", "--port", "0", "--sessions", "255", "--secret", str(self.secret())]
        with subprocess.Popen(["sh", "-c", f'ulimit -d {data // 1024} && exec "$@"', "-", *words], stdout=subprocess.PIPE, text=True) as host:
            port = int(host.stdout.readline().rpartition(":")[2])
            until(lambda: host.poll() is not None or len(os.listdir(f"/proc/{host.pid}/task")) > 255 + 3)
            with Session.connect("127.0.0.1", port, secret=self.secret().read_text().strip()) as session:
                self.assertEqual(session.commit([Put("A", 0, "")]), 1)
            host.terminate()

    def test_threads_share_the_arenas_of_malloc(self) -> None:
        """Each of many threads would have its own, which keeps the memory of its peak."""
        container = (PACKAGING / "Dockerfile").read_text()
        for found in (re.findall(r"^Environment=(\w+)=(\w+)$", UNIT.read_text(), re.M), re.findall(r"^ENV (\w+)=(\w+)$", container, re.M)):
            self.assertEqual(self.arenas(dict(found)), 1)

    def arenas(self, surroundings: dict[str, str]) -> int:
        """Those of a host with nine sessions, started in these surroundings."""
        words, secret = [workbench(), "host", "--port", "0", "--sessions", "9", "--secret", str(self.secret())], self.secret().read_text().strip()
        with subprocess.Popen(words, stdout=subprocess.PIPE, text=True, env={**PLAIN, **surroundings}) as host, ExitStack() as opened:
            opened.callback(host.terminate)
            port = int(host.stdout.readline().rpartition(":")[2])
            for _ in range(9):
                opened.enter_context(Session.connect("127.0.0.1", port, secret=secret)).status()
            return arenas_of(host.pid)

    @unittest.skipUnless(shutil.which("systemd-analyze"), "systemd is not installed")
    def test_systemd_takes_the_unit(self) -> None:
        ran = subprocess.run(["systemd-analyze", "verify", UNIT], capture_output=True, text=True)
        self.assertEqual(faults_of_unit(ran.stderr), [])

    @unittest.skipUnless(shutil.which("systemd-analyze"), "systemd is not installed")
    def test_the_unit_gives_little_away(self) -> None:
        """Its exposure is at most 2.0 of 10."""
        words = ["systemd-analyze", "security", "--offline=true", "--threshold=20", str(UNIT)]
        ran = subprocess.run(words, capture_output=True, text=True)
        self.assertEqual(ran.returncode, 0, ran.stdout + ran.stderr)
        self.assertIn("\nMemoryMax=", UNIT.read_text())


if __name__ == "__main__":
    unittest.main()
