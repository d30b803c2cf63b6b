"""Random small libraries, as texts by name.

Gen(rng) has units of all kinds with faults of all kinds, Nets(rng) units with hardly a fault that only hold and carry one another. library() gives such
a library, and changed(library) that with a unit or two changed. token_library has odd characters, deep_library has deep nesting."""
import json
from pathlib import Path

from oracle import class_of_name

TABLES = json.loads(Path(__file__).with_name("generate.json").read_text())
UNITS, PORTS, INSTS, STATES, ALGS = (TABLES[it] for it in ("units", "ports", "insts", "states", "algs"))
ODD, WORDS, SYMS, ELEMENTARY_NAMES = (TABLES[it] for it in ("odd", "words", "syms", "elementary_names"))
TYPES, LITERALS = [it.split() for it in TABLES["types"]], TABLES["literals"]
LONG64, LONG65 = "L" * 64, "L" * 65
HEADS = {"basic": "FUNCTION_BLOCK", "composite": "FUNCTION_BLOCK", "adapter": "ADAPTER", "subapp": "SUBAPPLICATION", "system": "SYSTEM", "structure": "TYPE"}
# The classes of constants that a place of each class gets, one as often as it is named.
NEAR = {"B": ["B", "B", "Any"], "I": ["I", "Num", "Any"], "W": ["W", "Num", "Any"], "O": ["O", "O", "I", "Num", "Any"], "Num": ["Num"], "Any": ["Any"],
        "Free": list(LITERALS)}


def type_class(ty):
    return "O" if len(ty) > 1 else class_of_name(ty[0].upper())


def type_element(ty):
    return type_class(ty[-1:]) if ty[0] == "ARRAY" else None


class Gen:
    # How often a change is of a unit that is there, takes it away, and declares it again.
    PRESENT, GONE, ANEW = 0.75, 0.15, 0.6
    # How often there are no connections of a sort, and an empty section of them.
    UNJOINED, EMPTY = 0.3, 0.2

    def __init__(self, rng):
        self.r, self.subs = rng, 0

    def chance(self, p):
        return self.r.random() < p

    def pick(self, xs):
        return self.r.choice(xs)

    def bad(self, p):
        """Chance p of something wrong, less in the libraries with little noise."""
        return self.r.random() < p * self.noise

    # -- plans: what each unit declares
    def library(self):
        r = self.r
        self.noise = r.choice([0.0, 0.1, 0.3, 0.6, 1.0, 1.0])
        names, self.odd = r.sample(UNITS, r.randint(3, 8)), None
        if self.chance(0.3):
            self.odd = self.pick(ELEMENTARY_NAMES)
            names = [n for n in names if n != self.odd] + [self.odd]
        self.plan = {n: dict(kind=self.kind()) for n in names}
        for n in names:
            self.plan[n] = self.interface(self.plan[n]["kind"], n)
        for p in self.plan.values():
            self.instances(p)
        return {n: self.text(n) for n in names}

    def kind(self):
        return self.r.choices(["basic", "composite", "adapter", "subapp", "system", "structure"], [30, 12, 16, 10, 5, 32])[0]

    def changed(self, lib):
        """A library with a unit or two put again, put for the first time or removed; the plans follow."""
        lib = dict(lib)
        for _ in range(self.several(1, 2)):
            n = self.pick(list(lib) if self.chance(self.PRESENT) else UNITS)
            if n in lib and len(lib) > 1 and self.chance(self.GONE):
                del lib[n], self.plan[n]
                continue
            if n not in self.plan or self.chance(self.ANEW):
                self.redeclare(n)
            lib[n] = self.text(n)
        return lib

    def redeclare(self, n):
        kind = self.plan[n]["kind"] if n in self.plan and self.chance(0.6) else self.kind()
        self.plan[n] = dict(kind=kind)
        self.plan[n] = self.interface(kind, n)
        self.instances(self.plan[n])

    def several(self, low, high):
        return self.r.randint(low, high)

    def distinct(self, pool, low, high):
        """Names, mostly distinct, sometimes doubled."""
        n = self.several(low, high)
        out = self.r.sample(pool, min(n, len(pool)))
        if out and self.bad(0.12):
            out.append(self.pick(out))
        return out

    def interface(self, kind, name):
        p = dict(kind=kind, events=[], vars=[], insts=[], apps=[])
        if kind != "system":
            p["events"] = [(n, self.pick(["in", "out"])) for n in self.distinct(PORTS, 0, 4)]
            sides = ["in", "in", "out", "out", "var"] if kind in ("basic", "composite") else ["in", "out"]
            if kind == "structure":
                p["events"], sides = [], ["var"]
            p["vars"] = [(n, self.pick(sides), self.type_of_value(name)) for n in self.distinct(PORTS, 0, 6)]
        return p

    def type_of_value(self, name):
        """A type of a variable or field of the unit; half of them are the names of units."""
        if self.odd and self.chance(0.2):
            return self.pick([[self.odd], [self.odd], ["ARRAY", "[", "0", "..", "1", "]", "OF", self.odd], [self.odd, "[", "3", "]"]])
        if self.chance(0.5):
            return self.pick(TYPES)
        present = list(self.plan)
        good = [n for n in present if self.plan[n]["kind"] == "structure"]
        if name in good and not self.bad(0.3):
            good = good[good.index(name) + 1:]
        n = self.pick(good if good and self.chance(0.75) else present if self.bad(0.5) else UNITS + ["NOPE"])
        array = ["ARRAY", "[", "0", "..", "1", *self.pick([[], [",", "0", "..", "2"]]), "]", "OF", n]
        return self.pick([[n], [n], [n], array, array, [n, "[", "3", "]"]])

    def of_role(self, role):
        """The units that an instance of this role may have as its type."""
        kinds = {"plug": ["adapter"], "socket": ["adapter"], "fb": ["basic", "composite"], "sub": ["subapp"]}[role]
        return [n for n, p in self.plan.items() if p["kind"] in kinds]

    def of_kind(self, role):
        good = self.of_role(role)
        if good and not self.bad(0.12):
            return self.pick(good)
        return self.pick(list(self.plan) + UNITS + ["NOPE"])

    def some_instances(self, roles, low, high):
        return [(n, role := self.pick(roles), self.of_kind(role)) for n in self.distinct(INSTS, low, high)]

    def instances(self, p):
        k = p["kind"]
        if k == "basic":
            p["insts"] = self.some_instances(["plug", "socket"], 0, 2)
            if self.bad(0.06):
                p["insts"] += self.some_instances(["fb"], 1, 1)
        elif k in ("composite", "subapp"):
            p["insts"] = self.some_instances(["plug", "socket", "fb", "fb"] + ["sub"] * (k == "subapp"), 0, 5)
        elif k == "system":
            for a in self.distinct(["APP", "X", "K"], 1, 2):
                p["apps"].append((a, self.some_instances(["fb", "fb", "sub"], 0, 4)))

    # -- texts
    def text(self, name):
        p = self.plan[name]
        k, word = p["kind"], HEADS[p["kind"]]
        said = name if not self.bad(0.05) else self.pick(UNITS + [LONG64])
        body = self.system(p) if k == "system" else self.fields(p) if k == "structure" else self.sections(p)
        toks = [word, said] + body + ["END_" + word]
        if self.bad(0.07):
            for _ in range(self.several(1, 2)):
                toks = self.mutate(toks)
        text = self.join(toks)
        if self.bad(0.02):
            i = self.r.randint(0, len(text))
            text = text[:i] + self.pick(ODD + SYMS) + text[i:]
        if self.bad(0.01):
            text = text[:self.r.randint(0, len(text))]
        return text

    def mutate(self, toks):
        """The tokens with one left out, changed, doubled or put in, or without all from one on."""
        if not toks:
            return toks
        i, odd = self.r.randrange(len(toks)), self.pick(WORDS + SYMS + ODD + [LONG65])
        first, after, other = toks[:i], toks[i + 1:], self.pick(toks)
        return self.pick([first, first + after, first + [odd] + after, first + [other] + after, first + [odd] + toks[i:], first + [toks[i]] + toks[i:],
                          toks + [odd]])

    def join(self, toks):
        r, out, last = self.r, [], ""
        wild = self.chance(0.3)
        for t in toks:
            if r.random() < 0.15 and t.isascii() and t[0].isalpha():
                t = t.lower() if r.random() < 0.7 else t.capitalize()
            wordy = (last[-1:].isalnum() or last[-1:] in "_#") and (t[0].isalnum() or t[0] in "_#")
            risky = last and (last[-1] + t[0] in ("(*", "//", "..", ":=", "<=", ">=", "<>", "**", "->")
                              or last[-1].isdigit() and t[0] == "." or last[-1] == "." and t[0].isdigit()
                              or last[-1] == "#" or t[0] == "#" or "#" in last and t[0] in ".+-:")
            if wild and r.random() < 0.08:
                out.append(self.pick(["(* c *)", "(* END_VAR ; *)", "// c\n", "\n\t", "  ", "(**)", "(* \u20ac\u00e4 *)",
                                      "(* (* *)", "// \r ;\n", "\r\n", "(* ' *)", "(***)"]))
            elif wordy or risky or r.random() < 0.35:
                out.append(" ")
            out.append(t)
            last = t
        if r.random() < 0.1:
            out.append(self.pick([" ", "\n", " // end", " (* end *)"]))
        return "".join(out)

    def fields(self, p):
        """A structure after its name."""
        items = self.vardecls([(n, t) for n, _, t in p["vars"]])
        return [":", "STRUCT"] + sum(items, []) + ["END_STRUCT"] + ([";"] if self.chance(0.5) else [])

    # -- sections of a block, adapter or subapplication
    def sections(self, p):
        parts = []
        k = p["kind"]
        for side, kw in (("in", "EVENT_INPUT"), ("out", "EVENT_OUTPUT")):
            items = [self.event(p, n, side) for n, s in p["events"] if s == side]
            parts += self.split(kw, items, "END_EVENT")
        for side, kw in (("in", "VAR_INPUT"), ("out", "VAR_OUTPUT"), ("var", "VAR")):
            items = self.vardecls([(n, t) for n, s, t in p["vars"] if s == side])
            if side != "var" or k in ("basic", "composite") or self.bad(0.01):
                parts += self.split(kw, items, "END_VAR")
        parts += self.inst_sections(p["insts"])
        if k == "composite" or k == "subapp" or (k == "basic" and self.bad(0.05)):
            parts += self.connections(p, p["insts"], "block" if k != "subapp" else "subapp")
            if k == "composite" and self.bad(0.05):
                parts.append(["EC_STATES", "END_STATES"])
        if k == "basic":
            parts += self.chart(p)
        if self.chance(0.06):
            parts.append(["SERVICE"] + [self.pick(["X", "FBS", ";", "1", "'a'", ":=", "END_VAR", "(", "#"])
                                        for _ in range(self.several(0, 4))] + ["END_SERVICE"])
        if self.chance(0.5):
            self.r.shuffle(parts)
        return [t for s in parts for t in s]

    def split(self, kw, items, end):
        """The items in no, one or two sections."""
        if not items and self.chance(0.85):
            return []
        if len(items) > 1 and self.chance(0.2):
            i = self.several(1, len(items) - 1)
            return [[kw] + sum(items[:i], []) + [end], [kw] + sum(items[i:], []) + [end]]
        return [[kw] + sum(items, []) + [end]]

    def event(self, p, n, side):
        out = [n]
        if self.chance(0.1):
            out += [":", self.pick(["EVT", "A", "X"])]
        if self.chance(0.4):
            good = [v[0] for v in p["vars"] if v[1] == side]
            ws = [self.pick(good) if good and not self.bad(0.3) else self.pick(PORTS) for _ in range(self.several(1, 3))]
            if good or self.bad(1):
                out += ["WITH"] + self.commas([[w] for w in ws])
        return out + [";"]

    def commas(self, lists):
        return [token for it in lists for token in (",", *it)][1:]

    def vardecls(self, items):
        out = []
        while items:
            n, ty = 2 if self.chance(0.15) else 1, items[0][1]
            initial = [":=", *self.constant(ty)] if self.chance(0.35) else []
            out.append([*self.commas([[name] for name, _ in items[:n]]), ":", *ty, *initial, ";"])
            items = items[n:]
        return out

    def literal(self, cls):
        return self.pick(LITERALS[self.pick(NEAR[cls])])

    def simple(self, cls):
        c = self.literal("Free" if self.bad(0.25) else cls)
        if c[0].isdigit() and self.chance(0.2):
            return [self.pick("+-"), c]
        if self.chance(0.06):
            return [self.pick(["X", "NAME", "ST", "ON"])]
        return [c]

    def constant(self, ty):
        el = type_element(ty)
        if (el is not None) == (not self.bad(0.15)):
            return ["["] + self.commas([self.simple(el or "I") for _ in range(self.several(1, 3))]) + ["]"]
        return self.simple(type_class(ty))

    def inst_sections(self, insts):
        out = []
        for role, kw, often in (("plug", "PLUGS", 0.1), ("socket", "SOCKETS", 0.1), ("fb", "FBS", 0.45), ("sub", "SUBAPPS", 0)):
            items = [[n, ":", ty, *(self.params(ty) if self.chance(often) else []), ";"] for n, ro, ty in insts if ro == role]
            if items or (role == "fb" and self.chance(0.02)):
                out += self.split(kw, items, "END_" + kw)
        return out

    def params(self, ty):
        """Values for some inputs of a type, now and then for other names."""
        variables, out = self.plan[ty]["vars"] if ty in self.plan else [], []
        inputs = [v for v in variables if v[1] == "in"]
        for _ in range(self.several(1, 3) if inputs or self.bad(1) else 0):
            others = [*variables, *[(self.pick(PORTS), "in", self.pick(TYPES))] * 2]
            n, _, t = self.pick(inputs if inputs and not self.bad(0.3) else others)
            out.append([n, ":=", *self.constant(t)])
        return ["(", *self.commas(out), ")"] if out else []

    # -- connections
    def ports(self, p, sort):
        """The ports of a unit by its plan: each with its side and what it carries. A socket is on the side of inputs."""
        if sort == "adapter":
            return [(n, "in" if ro == "socket" else "out", ty) for n, ro, ty in p["insts"] if ro in ("plug", "socket")]
        return [(x[0], x[1], x[2:]) for x in p["events" if sort == "event" else "vars"] if x[1] != "var"]

    def ends(self, p, insts, kind, sort):
        """All ends of a sort as (tokens, side, type) by the plans: side "from" or "to"."""
        flip, back = {"in": "from", "out": "to"}, {"in": "to", "out": "from"}
        out = [([n], flip[side], ty) for n, side, ty in self.ports(p, sort)] if p is not None else []
        for n, ro, ty in insts:
            if ty in self.plan and (ro in ("fb", "sub") or kind == "block" and sort != "adapter"):
                sides = flip if ro == "plug" else back
                out += [([n, ".", m], sides[side], carried) for m, side, carried in self.ports(self.plan[ty], sort)]
        return out

    def connections(self, p, insts, kind):
        out = []
        for sort in ("event", "data", "adapter"):
            if self.UNJOINED and self.chance(self.UNJOINED):
                continue
            items = self.joined(self.ends(p if kind != "app" else None, insts, kind, sort), sort, kind)
            if items or self.chance(self.EMPTY):
                out += self.split(sort.upper() + "_CONNECTIONS", items, "END_CONNECTIONS")
        return out

    def joined(self, ends, *_):
        items, made = [], []
        for _ in range(self.several(0, 5)):
            a = self.an_end(ends, "from", None, made)
            b = a and self.an_end(ends, "to", a[2], made)
            if a is None or b is None or self.noise < 0.5 and a[2] != b[2] and self.chance(0.9):
                continue
            made += [a, b]
            items.append(a[0] + ["TO"] + b[0] + [";"])
        return items

    def an_end(self, ends, side, ty, made):
        x = self.r.random()
        right = [e for e in ends if e[1] == side]
        x = 0.5 if not self.bad(1) else x
        if made and x < 0.06:
            return self.pick(made)
        if not right and not self.bad(1):
            return None
        if right and x < 0.75:
            same = [e for e in right if e[2] == ty]
            return self.pick(same) if same and self.chance(0.6) else self.pick(right)
        if ends and x < 0.88:
            return self.pick(ends)
        return ([self.pick(PORTS)] if self.chance(0.4) else [self.pick(INSTS), ".", self.pick(PORTS + INSTS)], "", None)

    # -- systems
    def declared(self, word, name, ty):
        return [word, name, ":", ty] + (self.params("A") if self.chance(0.1) else []) + ([";"] if self.chance(0.3) else [])

    def system(self, p):
        parts = [["APPLICATION", a, *sum(self.inst_sections(insts) + self.connections(None, insts, "app"), []), "END_APPLICATION"] for a, insts in p["apps"]]
        resources = []
        for device in self.distinct(["D1", "D2", "X"], 1, 2):
            names = self.distinct(["R1", "R2", "X"], 0 if resources else 1, 3)
            resources += [[device, ".", name] for name in names]
            inner = [[*self.declared("RESOURCE", name, "RT"), "END_RESOURCE"] for name in names]
            parts.append([*self.declared("DEVICE", device, "DT"), *sum(inner, []), "END_DEVICE"])
        parts += self.split("MAPPINGS", self.mappings(p, resources), "END_MAPPINGS")
        self.r.shuffle(parts)
        return sum(parts, [])

    def mappings(self, p, resources):
        """Most applications, some of what they hold, and now and then what is not there or was mapped before."""
        paths = [[a] for a, _ in p["apps"] if self.chance(0.9)]
        inner = [path for a, insts in p["apps"] for path in self.paths([a], insts, 4)]
        often = self.pick([0.1, 0.4, 0.8])
        paths += [path for path in inner[:40] if self.chance(often)]
        paths += [self.pick(inner or [["Z"]]) + ["NONE"]] if self.chance(0.06) else []
        paths += [self.pick(paths)] if paths and self.bad(0.4) else []
        self.r.shuffle(paths)
        return [[*" . ".join(path).split(), "ON", *(["D1", ".", "NONE"] if self.bad(0.2) else self.pick(resources)), ";"] for path in paths]

    def paths(self, path, insts, depth):
        for name, role, kind in insts:
            yield path + [name]
            if role == "sub" and depth and kind in self.plan:
                yield from self.paths(path + [name], self.plan[kind]["insts"], depth - 1)

    # -- charts
    def chart(self, p):
        states, algs = self.distinct(STATES, 1, 4), self.distinct(ALGS, 0, 3)
        items = [[s, *self.actions(p, algs), ";"] for s in states]
        out = [] if self.bad(0.05) else self.split("EC_STATES", items, "END_STATES")
        ends = [[self.pick(STATES if self.bad(0.1) else states) for _ in "ab"] for _ in range(self.several(0, 4))]
        items = [[a, "TO", b, ":=", *self.cond(p), ";"] for a, b in ends]
        return out + self.split("EC_TRANSITIONS", items, "END_TRANSITIONS") + [self.algorithm(p, a) for a in algs]

    def actions(self, p, algs):
        """The actions of a state, each with an algorithm, an event or both."""
        acts = []
        for _ in range(self.several(0, 2)):
            alg, event = self.pick(ALGS if not algs or self.bad(0.2) else algs), ["->", *self.chart_event(p, "to")]
            acts.append(self.pick([[alg], event, [alg, *event], [alg, *event]]))
        return [":", *self.commas(acts)] if acts else []

    def chart_event(self, p, side):
        """An event that goes out of the unit by its chart ("to"), or comes in."""
        end = self.an_end(self.ends(p, p["insts"], "block", "event"), side, (), [])
        return end[0] if end else [self.pick(PORTS)]

    def cond(self, p):
        self.scope = self.variables(p)
        event, guard = self.chart_event(p, "from"), self.expr("B", self.several(0, 2))
        both = [[*event, "[", *guard, "]"], [*event, "[", *guard, "]"], [*event, "&", *guard], [*event, "AND", *guard]]
        return self.pick([["1"], event, event, *both, ["[", *guard, "]"]])

    # -- algorithms
    def variables(self, p):
        parts = [(n, ty) for n, ro, ty in p["insts"] if ty in self.plan and (ro in ("plug", "socket") or self.bad(0.3))]
        return [([n], t) for n, _, t in p["vars"]] + [([n, ".", m], t) for n, ty in parts for m, _, t in self.plan[ty]["vars"]]

    def algorithm(self, p, a):
        self.scope = self.variables(p)
        if self.chance(0.07):
            junk = [self.pick(["X", ":=", "IF", "FBS", "'a'", "1", "#", "END_IF", "(", "END_SERVICE"]) for _ in range(self.several(0, 5))]
            return ["ALGORITHM", a, "IN", self.pick(["LD", "JAVA", "IN"])] + junk + ["END_ALGORITHM"]
        body = self.repeated(0, 5, lambda: self.stmt(self.several(0, 2))) + (self.deep() if self.chance(0.03) else [])
        return ["ALGORITHM", a, "IN", "ST", *([":"] if self.chance(0.7) else []), *body, "END_ALGORITHM"]

    def deep(self):
        """Nesting near level 64."""
        ifs, total = self.several(0, 66), self.several(62, 65)
        kinds = [self.pick(["IF", "WHILE", "FOR", "REPEAT", "CASE"]) for _ in range(ifs)]
        heads = {"IF": "IF TRUE THEN", "WHILE": "WHILE TRUE DO", "REPEAT": "REPEAT", "FOR": "FOR X := 1 TO 2 DO", "CASE": "CASE 1 OF 1 :"}
        tails = {it: "END_" + it for it in heads} | {"REPEAT": "UNTIL X END_REPEAT"}
        inner = self.pick(["X", "1", "X . F", "X . F . G", "X [ 1 ]", "X . F [ 1 ]"]).split()
        for _ in range(total - ifs):
            inner = ["(", *inner, ")"] if self.chance(0.7) else ["X", "[", *inner, "]"]
            if inner[0] == "X" and self.chance(0.5):
                inner = self.pick([[*inner, ".", "F"], ["X", ".", *inner]])
        return [*" ".join(heads[it] for it in kinds).split(), "X", ":=", *inner, ";", *" ".join(tails[it] for it in reversed(kinds)).split()]

    def repeated(self, low, high, make):
        """Some of what is made, one after the other."""
        return [t for _ in range(self.several(low, high)) for t in make()]

    def block(self, depth):
        return self.repeated(0, 2, lambda: self.stmt(depth))

    def stmt(self, depth):
        x = self.several(0, 19)
        if x < 2:
            return [*self.pick([[], ["EXIT"], ["RETURN"]]), ";"]
        if depth <= 0 or x < 8:
            ref, cls = self.reference()
            return [*ref, ":=", *self.expr(cls, self.several(0, 2)), ";"]
        word = "IF" if x < 11 else "CASE" if x < 13 else "FOR" if x < 16 else "WHILE" if x < 18 else "REPEAT"
        return [word, *getattr(self, word.lower() + "_")(depth - 1), "END_" + word, *([";"] if self.chance(0.7) else [])]

    def otherwise(self, d):
        return ["ELSE", *self.block(d)] if self.chance(0.4) else []

    def if_(self, d):
        return [*self.expr("B", d), "THEN", *self.block(d),
                *self.repeated(0, 1, lambda: ["ELSIF", *self.expr("B", d), "THEN", *self.block(d)]), *self.otherwise(d)]

    def case_(self, d):
        return [*self.expr(self.pick(["I", "I", "W", "O", "Any"]), d), "OF",
                *self.repeated(1, 2, lambda: [*self.labels(), ":", *self.block(d)]), *self.otherwise(d)]

    def for_(self, d):
        good = [v[0][0] for v in self.scope if len(v[0]) == 1 and type_class(v[1]) == "I"]
        n = self.pick(good) if good and not self.bad(0.3) else self.pick(PORTS)
        by = ["BY", *self.expr("I", d)] if self.chance(0.4) else []
        return [n, ":=", *self.expr("I", d), "TO", *self.expr("I", d), *by, "DO", *self.block(d)]

    def while_(self, d):
        return [*self.expr("B", d), "DO", *self.block(d)]

    def repeat_(self, d):
        return [*self.block(d), "UNTIL", *self.expr("B", d)]

    def labels(self):
        return self.commas([[*self.label(), *(["..", *self.label()] if self.chance(0.3) else [])] for _ in range(self.several(1, 2))])

    def label(self):
        n = self.pick(["0", "1", "16#FF", "1.5", "7"])
        return self.pick([[self.pick(["INT#5", "T#1s", "BOOL#1", "D#1-1"])], [self.pick("+-"), n], [n]])

    def subscripts(self):
        self.subs += 1
        deep = self.subs > 2
        out = ["["] + self.commas([[self.pick(LITERALS["Num"])] if deep else self.expr("I", self.several(0, 1)) for _ in range(self.several(1, 2))]) + ["]"]
        self.subs -= 1
        return out

    def reference(self, cls=None):
        """A reference that may go through fields (tokens) and its class: the first of some tries that has class cls."""
        for _ in range(6 if self.scope or cls is None or self.bad(1) else 0):
            walk, got = self.walk()
            if cls is None or got == cls:
                break
        else:
            if not self.scope or not self.bad(1):
                return [self.pick(LITERALS[cls])], cls
        out = []
        for t in walk:
            out += self.subscripts() if t == "[]" else [t]
        return out, got

    def walk(self):
        """Names and points with [] for subscripts, and the class at the end; Free after something wrong."""
        if self.scope and not self.bad(0.05):
            start, ty = self.one_with_fields(self.scope)
        else:
            start = [self.pick(PORTS)] if self.chance(0.6) else [self.pick(INSTS), ".", self.pick(PORTS)]
            ty = None
        out = list(start)
        for _ in range(5):
            array = ty is not None and ty[0] == "ARRAY"
            subscripted = self.chance(0.8) if array else self.bad(0.06)
            out += ["[]"] if subscripted else []
            unjudged = ty is None or len(ty) == 1 and (type_class(ty) == "Free" or ty[0] not in self.plan)
            fields = self.fields_of(ty) if subscripted == array else None
            if not (self.chance(0.7) if fields else self.chance(0.2) if unjudged else self.bad(0.15)):
                return out, self.class_at_end(ty, array, subscripted)
            name, ty = self.one_with_fields(fields) if fields and not self.bad(0.1) else (self.pick(PORTS), None)
            out += [".", name]
        return out, "Free"

    def one_with_fields(self, declared):
        """One of these (name, type), rather one that has fields itself."""
        good = [d for d in declared if self.fields_of(d[1])]
        return self.pick(good) if good and self.chance(0.5) else self.pick(declared)

    def class_at_end(self, ty, array, subscripted):
        if ty is None:
            return "Free"
        return type_class(ty) if not subscripted else type_element(ty) if array else "O"

    def fields_of(self, ty):
        """The fields of a type that is no array, or of the elements of an array, by the plans."""
        if ty is None or len(ty) > 1 and ty[0] != "ARRAY":
            return None
        p = self.plan.get(ty[-1].upper())
        return [(n, t) for n, _, t in p["vars"]] if p and p["kind"] == "structure" else None

    def expr(self, cls, depth):
        if self.bad(0.07):
            cls = self.pick(["B", "I", "W", "O", "Num", "Any", "Free"])
        if depth <= 0:
            if self.chance(0.5):
                return self.reference(cls)[0]
            return [self.literal("Free" if self.bad(0.1) else cls)]
        d = depth - 1
        x = self.r.random()
        if x < 0.15:
            return ["("] + self.expr(cls, d) + [")"]
        if x < 0.3:
            op = self.pick(["NOT", "+", "-"] if self.bad(0.1) else ["NOT"] if cls in ("B", "W") else ["+", "-"])
            return [op] + (self.expr(cls, 0) if self.chance(0.5) else ["("] + self.expr(cls, d) + [")"])
        logic, arith, compare = ["OR", "XOR", "AND", "&"], ["+", "-", "*", "/", "**", "MOD"], ["=", "<>", "<", ">", "<=", ">="]
        ops = (logic if self.chance(0.5) else compare) if cls == "B" else {"W": logic, "O": arith[:5]}.get(cls, arith)
        op = self.pick(logic + arith + ["=", "<"] if self.bad(0.04) else ops)
        sub = self.pick(["B", "I", "W", "O"]) if op in compare else cls
        out = self.expr(sub, d) + [op] + self.expr(sub, d)
        if self.chance(0.25):
            out += [self.pick(ops)] + self.expr(sub, d)
        return out


def token_library(rng):
    """Units with odd characters at one place each, mostly with an end that fits what is before them."""
    out, places = {}, TABLES["places"]
    for n in UNITS[:8]:
        start, *ends = rng.choice(places)
        odd = "".join(rng.choice(TABLES["atoms"]) for _ in range(rng.randint(0, rng.choice([3, 9]))))
        out[n] = start.replace("%s", n) + odd + rng.choice(ends if rng.random() < 0.85 else rng.choice(places)[1:])
    return out


def deep_library(rng):
    """Units with nesting near level 64."""
    g, types = Gen(rng), [["INT"], ["BOOL"], ["S"], ["ARRAY", "[", "0", "..", "1", "]", "OF", "S"]]
    out = {"S": "TYPE S:STRUCT F:ARRAY[0..1]OF INT;X:ARRAY[0..1]OF S;END_STRUCT END_TYPE"}
    for n in UNITS[:4]:
        out[n] = g.join(["FUNCTION_BLOCK", n, "VAR", "X", ":", *rng.choice(types), ";", "END_VAR", "ALGORITHM", "A", "IN", "ST",
                         *g.deep(), "END_ALGORITHM", "END_FUNCTION_BLOCK"])
    return out


class Nets(Gen):
    """Units of all kinds that hold one another as instances and carry one another as values, and nothing else."""
    KINDS = ["basic"] * 4 + ["subapp"] * 3 + ["system", "adapter"] + ["structure"] * 4
    PRESENT, GONE, ANEW = 0.8, 0.2, 0.3

    def library(self):
        self.plan = {n: self.pick(self.KINDS) for n in self.r.sample(UNITS, self.several(3, 8))}
        return {n: self.text(n) for n in self.plan}

    def redeclare(self, n):
        self.plan[n] = self.pick(self.KINDS)

    def held(self, section, kind, low, high):
        """A section with instances of units of the kind; now and then of any name."""
        items, good = [], [n for n, k in self.plan.items() if k == kind]
        for i in range(self.r.randint(low, high)):
            if good or self.r.random() < 0.1:
                n = self.r.choice(good) if good and self.r.random() < 0.97 else self.r.choice(UNITS)
                items.append("%s%d:%s; " % (section[0], i, n))
        return "%s %sEND_%s " % (section, "".join(items), section) if items else ""

    def values(self, low, high):
        forms = ["F%d:%s; ", "F%d:ARRAY[0..1] OF %s; ", "F%d:%s[2]; "]
        return "".join(self.r.choice(forms) % (i, self.r.choice(list(self.plan) if self.r.random() < 0.85 else UNITS))
                       for i in range(self.r.randint(low, high)))

    def text(self, name):
        kind = self.plan[name]
        head = HEADS[kind]
        if kind == "structure":
            return "TYPE %s : STRUCT %sEND_STRUCT END_TYPE" % (name, self.values(0, 2))
        data = "VAR_INPUT %sEND_VAR " % self.values(0, 2)
        body = {"basic": self.held("FBS", "basic", 0, 1) + self.held("PLUGS", "adapter", 0, 1) + data,
                "subapp": self.held("FBS", "basic", 0, 2) + self.held("SUBAPPS", "subapp", 0, 1) + data,
                "system": "APPLICATION P %sEND_APPLICATION " % (self.held("FBS", "basic", 0, 2) + self.held("SUBAPPS", "subapp", 0, 2)), "adapter": data}[kind]
        return "%s %s %sEND_%s" % (head, name, body, head)
