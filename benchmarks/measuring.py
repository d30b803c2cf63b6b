"""What the benchmarks share: the programs that they compare, scripts of requests, servers and their sessions."""
import argparse
import contextlib
import json
import math
import re
import socket
import subprocess
import sys
import tempfile
import time
from pathlib import Path

TOP = Path(__file__).resolve().parent.parent
# The clients, and what their tests share, for the benchmarks of clients.
sys.path += [str(TOP / "clients" / it) for it in ("tests", "python")]
PROGRAM = str(TOP / "crates/bench61499/out/bench61499")
BATCH = 16
SECRET = "a secret of this run"
PORTS = "EVENT_INPUT I WITH X; END_EVENT EVENT_OUTPUT O WITH Y; END_EVENT VAR_INPUT X:INT; END_VAR VAR_OUTPUT Y:INT; END_VAR"
BLOCK = f"FUNCTION_BLOCK B {PORTS} END_FUNCTION_BLOCK"


def options(about, name="program", **numbers):
    """A reader of arguments whose help is the text at the head of a benchmark. By this name the arguments give the measured program, else the built one;
    `numbers` are others with what they are if they are not named, of those without a name a list."""
    words = argparse.ArgumentParser(description=about, formatter_class=argparse.RawDescriptionHelpFormatter)
    place = {} if name.startswith("-") else {"nargs": "?"}
    words.add_argument(name, default=PROGRAM, help="crates/bench61499/out/bench61499 by default", **place)
    for word, usual in numbers.items():
        if isinstance(usual, list):
            words.add_argument(word, nargs="*", type=int, default=usual)
        else:
            words.add_argument(f"--{word}", type=type(usual), default=usual)
    return words


def plain_built(folder):
    """Builds benchmarks/plain into a folder, and gives its path."""
    manifest = str(TOP / "benchmarks/plain/Cargo.toml")
    subprocess.run(["cargo", "build", "--quiet", "--release", "--locked", "--offline", "--manifest-path", manifest, "--target-dir", folder], check=True)
    return f"{folder}/release/plain61499"


def commit(unit, base, text):
    """A request line that puts one unit."""
    return json.dumps({"op": "commit", "changes": [{"put": unit, "base": base, "text": text}]})


def commits(units):
    """Request lines that put new units, pairs of a name and a text, sixteen in each."""
    units = list(units)
    for first in range(0, len(units), BATCH):
        yield json.dumps({"op": "commit", "changes": [{"put": name, "base": 0, "text": text} for name, text in units[first : first + BATCH]]})


def work(turns):
    """Request lines for this number of turns, at most a thousand in each."""
    for first in range(0, turns, 1000):
        yield json.dumps({"op": "work", "turns": min(turns - first, 1000)})


def ask(unit, kind="faults"):
    return json.dumps({"op": "ask", "kind": kind, "unit": unit})


def run(program, lines):
    """The least seconds of three runs over these request lines, and the replies of the last one."""
    data, least = "\n".join(lines).encode() + b"\n", math.inf
    for _ in range(3):
        start = time.perf_counter()
        ran = subprocess.run([program, "script", "--units", "16384", "--history", "10000000"], input=data, stdout=subprocess.PIPE, check=True)
        least = min(least, time.perf_counter() - start)
    return least, ran.stdout.decode().splitlines()


@contextlib.contextmanager
def server(program, verb, *words, **streams):
    """A server (`serve` or `host`) on a free port, and the port. It is killed at the end if it has not ended by itself."""
    open_to_all = ["--open"] if verb == "host" and "--secret" not in words else []
    with subprocess.Popen([program, verb, "--port", "0", "--units", "16384", *open_to_all, *words], stdout=subprocess.PIPE, **streams) as process:
        try:
            yield process, int(process.stdout.readline().split(b":")[1])
        finally:
            process.kill()


@contextlib.contextmanager
def host(program, *words, **streams):
    """A host with a secret, and its port."""
    with tempfile.NamedTemporaryFile() as secret:
        Path(secret.name).write_text(SECRET)
        with server(program, "host", "--secret", secret.name, *words, **streams) as started:
            yield started


def peak(process):
    """The peak memory of a process in bytes."""
    return 1024 * int(re.search(r"VmHWM:\s+(\d+)", Path(f"/proc/{process.pid}/status").read_text())[1])


def small(unit):
    """A unit that costs nearly nothing: its name and its text."""
    return unit, f"FUNCTION_BLOCK {unit} END_FUNCTION_BLOCK"


class Peer:
    """A session of a server, which sends each request at once and waits for each reply; `waits` has the seconds of each."""

    def __init__(self, port):
        self.socket = socket.create_connection(("127.0.0.1", port))
        self.socket.setsockopt(socket.IPPROTO_TCP, socket.TCP_NODELAY, 1)
        self.stream, self.waits = self.socket.makefile("rb"), []

    def send(self, **request):
        self.socket.sendall(json.dumps(request).encode() + b"\n")

    def line(self, **request):
        """The bytes of the reply."""
        begun = time.perf_counter()
        self.send(**request)
        reply = self.stream.readline()
        self.waits.append(time.perf_counter() - begun)
        return reply

    def ask(self, **request):
        return json.loads(self.line(**request))

    def put(self, units, base=0):
        """The number of the commit that puts these pairs of a name and a text over that revision."""
        return self.ask(op="commit", changes=[{"put": name, "base": base, "text": text} for name, text in units])["commit"]

    def put_new(self, units):
        """Puts new units, pairs of a name and a text, sixteen in a commit; the revision of each by its name."""
        revisions = {}
        for first in range(0, len(units), BATCH):
            number = self.put(units[first : first + BATCH])
            revisions |= {name: number for name, _ in units[first : first + BATCH]}
        return revisions

    def is_pending(self, unit):
        return self.ask(op="ask", kind="faults", unit=unit) == {"answer": "pending"}

    def leave(self):
        """Sends nothing more, and reads what comes."""
        self.socket.shutdown(socket.SHUT_WR)
        self.stream.read()


class Heads(list):
    """The heads of a table, which come before its rows."""


def line(cells):
    """A line of a table."""
    return f"| {' | '.join(cells)} |"


def heads(*names):
    """Prints the first two lines of a table."""
    print(f"{line(names)}\n{'|---' * len(names)}|", flush=True)


def two(times, unit, digits=0):
    """The median and 99 of 100, in this unit; nothing if there are no times."""
    return ", ".join(f"{unit * sorted(times)[len(times) * part // 100]:.{digits}f}" for part in (50, 99)) if times else ""
