"""What the soaks share: random plants, a model of revisions, the sessions of a server, and the comparison with a fresh workbench."""
import copy
import json
import random
import socket
import subprocess
import sys
from concurrent.futures import wait
from pathlib import Path

TOP = Path(__file__).resolve().parent.parent
# (first the oracle: the benchmarks have other plants)
sys.path[:0] = [str(TOP / it) for it in ("oracle", "benchmarks", "clients/python")]

import lines  # noqa: E402
import machine  # noqa: E402
import plants  # noqa: E402

KINDS = machine.KINDS
UNITS = 16384
# How many units mention one another.
AREA = 200


def wrong(why):
    raise AssertionError(why)


class Area(plants.Plant):
    """Units that mention one another, most of which fit together."""

    def __init__(self, chance, names):
        super().__init__(chance)
        self.plan = {}
        for name, kind in zip(names, sorted((self.pick(plants.KINDS) for _ in names), key=plants.KINDS.index)):
            self.declare(name, kind)

    def led_by(self, chance):
        other = copy.copy(self)
        other.r, other.plan = chance, dict(self.plan)
        return other


class Plant:
    """Random texts of any number of units."""

    def __init__(self, seed, count):
        self.names = [f"U{at}" for at in range(count)]
        self.areas = [Area(random.Random(seed), self.names[first : first + AREA]) for first in range(0, count, AREA)]

    def led_by(self, chance):
        """The same units, whose next texts depend on this chance."""
        other = copy.copy(self)
        other.areas = [it.led_by(chance) for it in self.areas]
        return other

    def text(self, at):
        """A text of the unit at this place, now and then with other ports or parts than before."""
        area, name = self.areas[at // AREA], self.names[at]
        if area.chance(0.03):
            area.declare(name, area.plan[name]["kind"])
        return area.text(name)


class Texts(machine.Machine):
    """The texts with their revisions, and the reply that a commit must get, by the machine of the oracle; it keeps no keys."""

    def __init__(self):
        super().__init__(UNITS, 10_000_000)

    @property
    def units(self):
        """Each unit with its revision and its text."""
        return self.put

    def move_to(self, after, changed):
        self.put = after

    def reply(self, changes):
        try:
            return {"commit": self.commit(list(map(lines.change, changes)))}
        except machine.Refused as refused:
            return refused.reply

    def afresh(self):
        """Commits that put these texts at once, sixteen each."""
        puts = [{"put": unit, "base": 0, "text": text} for unit, (_, text) in sorted(self.units.items())]
        return [{"op": "commit", "changes": puts[at : at + 16]} for at in range(0, len(puts), 16)]


def texts_of(commits):
    """The texts of the end, by a model that gets all commits, pairs of a number and changes, in their order."""
    texts = Texts()
    for number, changes in sorted(commits, key=lambda it: it[0]):
        if texts.reply(changes) != {"commit": number}:
            wrong(f"commit {number} is out of order")
    return texts


def answers(program, requests, history):
    lines = "\n".join(json.dumps(it) for it in requests)
    words = [program, "script", "--units", str(UNITS), "--history", str(history)]
    ran = subprocess.run(words, input=lines, capture_output=True, text=True)
    replies = [json.loads(it) for it in ran.stdout.splitlines()]
    if ran.returncode or len(replies) != len(requests):
        raise SystemExit(f"status {ran.returncode}, {len(replies)} replies to {len(requests)} requests: {ran.stderr}")
    return replies


def check_answers(program, texts, names, given):
    """Compares the answers to all questions of these units with those of a fresh workbench that gets the texts at once; how many of these are pending."""
    asks = [{"op": "ask", "kind": kind, "unit": unit} for unit in names for kind in KINDS]
    fresh = answers(program, [*texts.afresh(), *[{"op": "work", "turns": 1000}] * (len(asks) // 1000 + 2), *asks], 1_000_000)[-len(asks) :]
    for ask, first, second in zip(asks, given, fresh):
        if first != second:
            wrong(f"{ask}: {first}, and afresh {second}")
    return sum(it == {"answer": "pending"} for it in fresh)


LONG_LINE = b"[" + b" " * 1_048_576 + b"]\n"
REPLIES = {
    "commit": {"commit", "refused"},
    "ask": {"faults", "net", "deploy", "answer", "refused"},
    "work": {"accepted", "refused"},
    "take": {"job", "refused"},
    "deliver": {"delivered", "refused"},
    "give_back": {"returned", "refused"},
    "checkpoint": {"checkpoint", "refused"},
}
# How many changes a commit has, none and too many among them, and how often.
CHANGES, OFTEN = (0, 1, 2, 5, 17), (1, 60, 20, 10, 1)


def connected(port):
    return socket.create_connection(("127.0.0.1", port), timeout=120)


class Session:
    """One connection: it sends requests in bursts, reads their replies, and keeps the commits that were accepted."""

    BURSTS, IS_ALONE = (1, 5, 20, 60), False

    def __init__(self, peer, plant, chance, revisions, requests):
        self.socket, self.stream = peer, peer.makefile("rb")
        self.plant, self.chance, self.revisions, self.left = plant.led_by(chance), chance, revisions, requests
        self.taken, self.made, self.commits = 0, 0, []

    def request(self):
        chance, roll = self.chance, self.chance.random()
        key = {"kind": chance.choice(KINDS), "unit": chance.choice(self.plant.names)}
        if roll < 0.08:
            return {"op": "commit", "changes": [self.change(at) for at in chance.choices(range(len(self.plant.names)), k=chance.choices(CHANGES, OFTEN)[0])]}
        if roll < 0.18:
            return {"op": "work", "turns": chance.choice((1, 2, 10))}
        if roll < 0.22 and self.taken < 60:
            self.taken += 1
            return {"op": "take"}
        if roll < 0.30:
            return {"op": "deliver", "job": chance.randrange(self.taken + 2)}
        if roll < 0.301:
            return {"op": "checkpoint", "units": UNITS, "history": 1_000_000}
        return {"op": "give_back" if roll < 0.33 else "ask", **key}

    def change(self, at):
        unit = self.plant.names[at]
        base = self.revisions.get(unit, 0)
        if base and self.chance.random() < 0.05:
            base -= 1
        if base and self.chance.random() < 0.08:
            return {"remove": unit, "base": base}
        return {"put": unit, "base": base, "text": self.plant.text(at)}

    def burst(self, requests, noise=()):
        """Sends these, with noise before them, and reads the replies."""
        self.socket.sendall(b"".join([*noise, *[json.dumps(it).encode() + b"\n" for it in requests]]))
        for _ in noise:
            reply = json.loads(self.stream.readline())
            if reply.get("refused") != "BadRequest":
                wrong(f"noise was answered {reply}")
        return [self.read(it) for it in requests]

    def replies(self, requests):
        """The replies to these, which are sent in bursts."""
        most = self.BURSTS[-1]
        return [it for at in range(0, len(requests), most) for it in self.burst(requests[at : at + most])]

    def read(self, request):
        line = self.stream.readline()
        if not line.endswith(b"\n"):
            wrong(f"{request} was answered {line[:100]!r}")
        reply = json.loads(line)
        if not REPLIES[request["op"]] & {*reply}:
            wrong(f"{request} was answered {reply}")
        if request["op"] == "checkpoint" and not self.IS_ALONE and reply != {"refused": "NotAlone"}:
            wrong(f"a checkpoint of a shared workbench was answered {reply}")
        self.made += 1
        if "commit" in reply:
            self.commits.append((reply["commit"], request["changes"]))
            for it in request["changes"]:
                self.revisions[it.get("put") or it["remove"]] = reply["commit"] if "put" in it else 0
        elif reply.get("refused") == "StaleBase":
            self.revisions[reply["unit"]] = reply["current"]
        elif reply.get("refused") == "NoSuchUnit":
            self.revisions[reply["unit"]] = 0
        return reply

    def talk(self):
        while self.left > 0:
            number = min(self.left, self.chance.choice(self.BURSTS))
            self.left -= number
            self.burst([self.request() for _ in range(number)])

    def run(self):
        self.talk()
        self.end()

    def end(self):
        self.socket.shutdown(socket.SHUT_WR)
        if self.stream.readline():
            wrong("a reply that nobody asked for")
        self.close()

    def close(self):
        self.stream.close()
        self.socket.close()


class Keeper(Session):
    """Waits for the others, has all work done, and asks for each key."""

    others = ()

    def end(self):
        wait(self.others)
        keys = [{"kind": kind, "unit": unit} for unit in self.plant.names for kind in KINDS]
        for _ in range(100):
            self.answers = self.replies([{"op": "ask", **key} for key in keys])
            pending = [key for key, it in zip(keys, self.answers) if it == {"answer": "pending"}]
            if not pending:
                break
            self.replies([{"op": "give_back", **key} for key in pending] + [{"op": "work", "turns": 1000}] * (len(pending) // 1000 + 1))
        super().end()
