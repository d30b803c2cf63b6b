"""Random conversations: request lines with the replies that the oracle gives.

Conversation(rng) is one: words are the arguments of the program, input is what it reads, and output, status and said are what it
answers. The oracle leads it, so that most requests name what is there: units, revisions, jobs, keys."""
import json
from collections import Counter

import lines
import seen
from generate import LONG64, LONG65, Gen, Nets, deep_library, token_library
from machine import KINDS, LARGEST_NUMBER
from plants import Plant, large

NAMES = ["A", "B", "C", "D", "LINE", "NOPE", "IN", "if", "type", "a", LONG64]
BAD_NAMES = ["", "1A", "A B", " A", "A ", "A.B", "\u00c4", "\u212a", LONG65, "A-", "#", "(*A*)", "A\n"]
ODD = [None, True, -1, 1.5, "x", [], {}, [None], {"op": "take"}, 0, LARGEST_NUMBER, LARGEST_NUMBER + 1, -0.0, "\u20ac\U0001f600"]
# Members of requests at both sides of what they may be.
EDGES = [{"op": "work", "turns": n} for n in (0, 1, 1000, 1001)]
EDGES += [{"op": "checkpoint", "units": units, "history": 50} for units in (0, 16384, 16385)]
EDGES += [{"op": "checkpoint", "units": 50, "history": history} for history in (0, 10_000_000, 10_000_001)]
EDGES += [{"op": "deliver", "job": job} for job in (0, 65, LARGEST_NUMBER, LARGEST_NUMBER + 1)]
BLANK = [b"", b" ", b"\t \r", b"\r"]
TAKE = b'{"op":"take","x":%s}'
HOSTILE = [TAKE % it for it in (
    b"NaN", b"-Infinity", b"1e999", b"-1e999", b"1e-999", b"01", b"1.", b".5", b"+1", b"1e", b"-0", b"9" * 40, b"9" * 400,
    b'"\\ud800"', b'"\\udc00\\ud800"', b'"\\ud83d\\ude00"', b'"\\ud83dx"', b'"\\x"', b'"\t"', b'"\x7f"', b'"\x00"', b'"\\u0000"',
    b'"\xff"', b'"\xed\xa0\x80"', b'"\xc0\xaf"', b'"\xef\xbf\xbf"', b"[" * 126 + b"]" * 126, b"[" * 127 + b"]" * 127, b"[" * 5000,
    b'{"a":' * 126 + b"1" + b"}" * 126, b'{"a":' * 127 + b"1" + b"}" * 127, b"tru", b"'x'", b"1,", b"/**/1", b"[1,]", b'{"a":1,}')]
HOSTILE += [b"[]", b"5", b"null", b'"take"', b"{}", b"{", b"}", b'{"op":5}', b'{"op":"Take"}', b'{"op":null}', b"\xff", b"\x00", b"\x0c", b"\xc2\xa0",
            b"\xef\xbb\xbf" + b'{"op":"take"}', b'{"op":"take"}{"op":"take"}', b'{"op":"take"} x', b'{"op":"take"}\x0b', b"{'op':'take'}",
            b'{"\\u006fp":"\\u0074ake"}', b'{"op":"ask","op":"take"}', b'{"op":"take","op":"ask"}', b'{"op":"stop"}', b'{"op":"take"}\x00']
WRONG_WORDS = [["--units", "0"], ["--units", "16385"], ["--history", "0"], ["--history", "10000001"], ["--units", "x"], ["--units"],
               ["--wrong", "1"], ["more"], ["--history", "-1"], ["--units", "1.0"], ["--help"], ["-h"], ["--unit", "5"], ["--units", "5", "--units", "5"]]


class Odd:
    """Units with odd characters or deep nesting; each change makes some of them again."""
    def __init__(self, rng, make):
        self.r, self.make = rng, make

    def library(self):
        return self.make(self.r)

    def changed(self, texts):
        new = self.library()
        return {**texts, **{name: new[name] for name in self.r.sample(sorted(new), 2)}}


def maker(rng):
    """What makes the texts of a conversation."""
    kind = rng.choices(["plant", "faulty", "nets", "tokens", "deep"], [55, 22, 13, 8, 2])[0]
    if kind == "plant":
        return Plant(rng)
    if kind in ("tokens", "deep"):
        return Odd(rng, token_library if kind == "tokens" else deep_library)
    return (Gen if kind == "faulty" else Nets)(rng)


class Conversation:
    def __init__(self, rng):
        self.r, self.lines, self.replies, self.seen = rng, [], [], Counter()
        self.status, self.said, self.open_end = 0, "", False
        self.end_of_line = rng.choices([b"", b"\r"], [95, 5])[0]
        self.maker = maker(rng)
        self.texts = self.maker.library()
        self.words = self.limits()
        if self.chance(0.02):
            self.words, self.lines, self.status, self.said = self.words + self.pick(WRONG_WORDS), [b'{"op":"take"}'], 2, None
            self.seen["end: status 2"] += 1
            return
        self.session = lines.session(self.words)
        self.machine = self.session.machine
        self.lead()

    def chance(self, p):
        return self.r.random() < p

    def pick(self, choices):
        return self.r.choice(choices)

    @property
    def input(self):
        return b"\n".join(self.lines + ([] if self.open_end else [b""]))

    @property
    def output(self):
        return b"".join(reply + b"\n" for reply in self.replies)

    # -- arguments
    def limits(self):
        units = ["--units", str(self.r.randint(1, 8))] if self.chance(0.1) else []
        history = ["--history", str(self.pick([1, 5, 20, 40, 80]))] if self.chance(0.15) else []
        return self.pick([units + history, history + units])

    # -- the course of a conversation
    def lead(self):
        course = self.r.choices([self.large, self.many_jobs, self.usual], [2, 2, 96])[0]
        course()
        if self.chance(0.7):
            self.look(30)
        if self.chance(0.03):
            self.long_line()
        self.open_end = self.chance(0.1)
        self.seen["end: status %d" % self.status] += 1

    def usual(self):
        steps = [self.commit, self.ask, self.take, self.deliver, self.give_back, self.work, self.checkpoint, self.hostile, self.look]
        often = self.pick([[20, 20, 8, 8, 5, 8, 2, 2, 0], [8, 6, 25, 25, 8, 3, 1, 2, 0], [20, 10, 2, 2, 1, 5, 1, 1, 8]])
        self.begin()
        for _ in range(self.r.randint(10, 80)):
            full = self.machine.calls == self.machine.history
            step = self.checkpoint if full and self.chance(0.4) else self.r.choices(steps, often)[0]
            step()

    def begin(self):
        """Commits until most is put."""
        for _ in range(6):
            if self.chance(0.1) or self.texts.keys() <= self.machine.put.keys():
                break
            self.say({"op": "commit", "changes": [self.change(name) for name in self.some_of(self.texts.keys() - self.machine.put.keys())]})

    def some_of(self, units):
        return self.r.sample(sorted(units), min(len(units), self.r.randint(1, 12)))

    def large(self):
        """A net at the limit of instances."""
        self.texts = large(self.r)
        self.begin()
        self.say({"op": "work", "turns": 1000})
        self.say({"op": "ask", "kind": "net", "unit": self.pick("LY")})
        self.say({"op": "ask", "kind": "deploy", "unit": "Y"})

    def many_jobs(self):
        """Takes until nothing is left, and deliveries of some."""
        while len(self.session.jobs) < lines.MOST_JOBS and len(self.lines) < 250:
            self.r.choices([self.commit, self.take, self.deliver], [10, 80, 5])[0]()
        for _ in range(5):
            self.pick([self.take, self.take, self.deliver, self.give_back])()
        self.checkpoint()

    def look(self, most=8):
        """Asks for some values, none of which is pending unless it is handed out; those of nets and plans first."""
        self.say({"op": "work", "turns": 1000})
        keys = sorted(self.machine.lib.keys())
        self.r.shuffle(keys)
        for kind, unit in sorted(keys, key=lambda key: key[0] == "faults" and self.chance(0.5))[:most]:
            self.say({"op": "ask", "kind": kind, "unit": unit})

    def long_line(self):
        """A line as long as it may be, or longer."""
        length = lines.LONGEST_LINE + self.pick([0, 1, 1, 5000])
        line = self.pick([b'{"op":"take"', b"", b'{"op":"take","x":"'])
        self.say_line(line + b" " * (length - len(line) - 1 - len(self.end_of_line)) + (b"}" if line else b" "))
        if self.chance(0.8):
            self.take()

    # -- lines
    def say(self, request):
        line = self.spelled(request).encode()
        self.say_line(self.broken(line) if self.chance(0.01) else line)

    def say_line(self, line):
        line += self.end_of_line
        self.lines.append(line)
        if len(line) > lines.LONGEST_LINE and not self.status:
            self.status, self.said = 1, "bench61499: line too long\n"
            self.seen["end: line too long"] += 1
        if self.status:
            return
        reply = self.session.reply(line)
        self.seen.update(seen.things(line, reply))
        if reply is not None:
            self.replies.append(reply)

    def spelled(self, it):
        """JSON with blanks, members in any order, now and then one more or one twice."""
        blank = self.pick(["", "", "", " ", "\t", " \r"])
        if isinstance(it, list):
            return "[" + ("," + blank).join(self.spelled(x) for x in it) + blank + "]"
        if not isinstance(it, dict):
            return json.dumps(it, ensure_ascii=self.chance(0.3))
        members = list(it.items())
        self.r.shuffle(members)
        if members and self.chance(0.03):
            members.insert(0, (self.pick(members)[0], self.pick(ODD)))
        if self.chance(0.03):
            members.append((self.pick(["more", "text", "kind", "unit", "base"]), self.pick(ODD)))
            members = members if members[-1][0] not in it else members[:-1]
        return "{" + ",".join("%s%s:%s%s" % (json.dumps(name), blank, blank, self.spelled(x)) for name, x in members) + blank + "}"

    def broken(self, line):
        """A line with a byte or two left out, put in or changed."""
        for _ in range(self.r.randint(1, 2)):
            at = self.r.randint(0, len(line))
            new = self.pick([b"", b"", b'"', b"{", b"}", b",", b"1", b"\\", b"\xff", b"\n", b" ", b"-", b"\x00"])
            line = line[:at] + new + line[at + self.r.randint(0, 1):]
        return line.replace(b"\n", b"")

    def hostile(self):
        x = self.r.random()
        if x < 0.45:
            self.say_line(self.pick(HOSTILE))
        elif x < 0.55:
            self.say_line(self.pick(BLANK))
        elif x < 0.7:
            self.say(dict(self.pick(EDGES)))
        else:
            self.say(self.wrong_request())

    def wrong_request(self):
        """A request with a member left out or of a wrong sort."""
        request = self.pick([{"op": "ask", "kind": "faults", "unit": "A"}, {"op": "work", "turns": 3}, {"op": "deliver", "job": 1},
                             {"op": "give_back", "kind": "net", "unit": "A"}, {"op": "checkpoint", "units": 8, "history": 50}, {"op": "commit", "changes": []}])
        member = self.pick(list(request))
        if self.chance(0.4):
            del request[member]
        else:
            request[member] = self.pick(ODD)
        return request

    # -- commits
    def commit(self):
        if self.chance(0.6):
            self.texts = self.maker.changed(self.texts)
        present = {name: text for name, (_, text) in self.machine.put.items()}
        units = [n for n in sorted({*present, *self.texts}) if present.get(n) != self.texts.get(n) or self.chance(0.1)]
        units = units or sorted(present)[:1]
        changes = [self.change(name) for name in self.some_of(units)]
        self.say({"op": "commit", "changes": self.spoiled(changes) if self.chance(0.2) else changes})

    def change(self, name):
        base = self.machine.put[name][0] if name in self.machine.put else 0
        said = name.lower() if self.chance(0.1) else name
        if name in self.texts:
            return {"put": said, "base": base, "text": self.texts[name]}
        return {"remove": said, "base": base}

    def spoiled(self, changes):
        how = self.pick([self.of_other_base, self.twice, self.of_no_unit, self.too_many, self.misnamed, self.oddly_named, self.too_long,
                         self.misshapen, lambda _: []])
        return how(list(changes))

    def of_other_base(self, changes):
        if changes:
            it = self.pick(changes)
            it["base"] = self.pick([0, 1, it["base"] + 1, self.r.randint(0, self.machine.commits + 1), LARGEST_NUMBER])
        return changes

    def twice(self, changes):
        return changes + [dict(self.pick(changes))] if changes else changes

    def of_no_unit(self, changes):
        changes.insert(self.r.randint(0, len(changes)), {"remove": self.pick(NAMES), "base": self.pick([0, 1, LARGEST_NUMBER])})
        return changes

    def too_many(self, changes):
        count = self.pick([16, 17, 18, 25])
        return (changes + [{"put": "N%d" % (i % 20), "base": 0, "text": ""} for i in range(count)])[:count]

    def misnamed(self, changes):
        changes.insert(self.r.randint(0, len(changes)), {"put": self.pick(BAD_NAMES), "base": 0, "text": ""})
        return changes

    def oddly_named(self, changes):
        """A reserved word and a long name are names of units as well."""
        name = self.pick(["IF", "type", "_", LONG64, "INT", "ANY_1"])
        return changes + [{"put": name, "base": 0, "text": self.pick(["", "ADAPTER %s END_ADAPTER" % name, "TYPE INT:STRUCT END_STRUCT END_TYPE"])}]

    def too_long(self, changes):
        text = self.pick(["x", "\u20ac", "(*"]) * self.pick([21845, 21846, 32769, 65536, 65537])
        return changes + [{"put": self.pick(["LONG", "LONG", "1"]), "base": 0, "text": text}]

    def misshapen(self, changes):
        it = self.pick(changes) if changes else {}
        member = self.pick(["put", "remove", "base", "text"])
        if member in it and self.chance(0.5):
            del it[member]
        elif self.chance(0.3):
            it[self.pick(["put", "remove"])] = None
        else:
            it[member] = self.pick(ODD)
        return (changes or [it]) + ([self.pick(ODD)] if self.chance(0.2) else [])

    # -- the other requests
    def a_key(self, some):
        """A key among these or another one of the machine's, nets and plans more often; now and then what is no key."""
        keys = sorted(self.machine.lib.keys())
        keys += [key for key in keys if key[0] != "faults"] * 2
        x = self.r.random()
        if some and x < 0.6:
            return self.pick(sorted(some))
        if keys and x < 0.92:
            return self.pick(keys)
        return self.pick(KINDS), self.pick(NAMES + list(self.texts) + BAD_NAMES)

    def ask(self):
        kind, unit = self.a_key(self.machine.lib.keys() - self.machine.pending)
        self.say({"op": "ask", "kind": kind, "unit": unit.lower() if self.chance(0.05) else unit})

    def take(self):
        self.say({"op": "take"})

    def deliver(self):
        if not self.session.jobs and self.chance(0.8):
            self.take()
        taken = len(self.session.jobs)
        recent = self.r.randint(max(1, taken - 3), max(1, taken))
        self.say({"op": "deliver", "job": self.pick([recent, recent, recent, self.r.randint(0, taken + 1)])})

    def give_back(self):
        kind, unit = self.a_key(self.machine.out)
        self.say({"op": "give_back", "kind": kind, "unit": unit})

    def work(self):
        self.say({"op": "work", "turns": self.pick([1, 2, 3, 5, 20, 1000])})

    def checkpoint(self):
        near = len(self.machine.put)
        self.say({"op": "checkpoint", "units": self.pick([max(1, near - 1), max(1, near), near + 1, near + 5, 1024]),
                  "history": self.pick([1, 10, 30, 100, 10_000_000])})
