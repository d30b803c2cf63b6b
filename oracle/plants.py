"""Random plants with hardly a fault: their units fit together, and their systems map what they hold.

Plant(rng).library() gives texts by name, and changed(texts) these with a unit or two changed. large(rng) has nets at the limit."""
from generate import Gen

NAMES = ["A", "AD", "B", "C", "C_1", "D", "E", "F", "G", "IN", "LINE", "LINE2", "ON", "ST", "T", "W"]
KINDS = ["structure", "adapter", "adapter", "basic", "basic", "basic", "composite", "subapp", "subapp", "subapp", "system"]
INSTANCES = ["P", "Q", "R", "F1", "F2", "F", "S", "ON"]
TYPES = [["INT"], ["BOOL"], ["REAL"], ["WORD"], ["ANY"], ["STRING", "[", "8", "]"], ["MYTYPE"], ["LREAL"], ["STRING"],
         ["ARRAY", "[", "0", "..", "3", "]", "OF", "INT"]]
STRINGS = ["'\u00e4\u20ac'", "'\U0001f600\x7f\x85\u2028'", "'\t \x01\x1f'", "'\\ \"/'", "\"' $\" \\n\"", "''"]
NOISE = [0.0, 0.0, 0.0, 0.02, 0.1]


class Plant(Gen):
    UNJOINED, EMPTY = 0, 0.1

    def __init__(self, rng):
        super().__init__(rng)
        self.noise, self.odd = rng.choice(NOISE), None
        self.types = rng.sample(TYPES, 3)
        self.gone = {}

    def several(self, low, high):
        """Rather many."""
        return max(self.r.randint(low, high), self.r.randint(low, high))

    # -- libraries
    def library(self):
        self.plan = {}
        kinds = KINDS[1:4] + [self.pick(KINDS) for _ in range(self.several(2, 8))] + self.pick([[], ["system"], ["system"]])
        for name, kind in zip(self.r.sample(NAMES, len(kinds)), sorted(kinds, key=KINDS.index)):
            self.declare(name, kind)
        return {name: self.text(name) for name in self.plan}

    def declare(self, name, kind):
        self.plan.pop(name, None)
        made = self.interface(kind, name)
        self.instances(made)
        self.plan[name] = made

    def changed(self, texts):
        texts = dict(texts)
        for _ in range(self.several(1, 2)):
            name, x = self.pick(list(self.plan)), self.r.random()
            if x < 0.1 and len(self.plan) > 2:
                self.gone[name] = self.plan.pop(name)
                del texts[name]
            elif x < 0.35:
                texts.update(self.restored() if self.gone else self.redeclared(self.pick(NAMES)))
            elif x < 0.6:
                texts.update(self.redeclared(name))
            else:
                texts[name] = self.text(name)
        return texts

    def restored(self):
        """A unit that was taken away."""
        name = self.pick(list(self.gone))
        self.plan[name] = self.gone.pop(name)
        return {name: self.text(name)}

    def redeclared(self, name):
        """The unit with other ports or parts; mostly those that hold it are written again."""
        self.gone.pop(name, None)
        same = name in self.plan and self.chance(0.8)
        self.declare(name, self.plan[name]["kind"] if same else self.pick(KINDS))
        holders = [n for n, p in self.plan.items() for i in p["insts"] + [i for _, insts in p["apps"] for i in insts] if i[2] == name]
        return {n: self.text(n) for n in [name] + holders if n == name or self.chance(0.8)}

    # -- what a unit declares
    def type_of_value(self, name):
        structures = [[n] for n, p in self.plan.items() if p["kind"] == "structure" and n != name]
        return self.pick(structures) if structures and self.chance(0.2) else self.pick(self.types)

    def some_instances(self, roles, low, high):
        """Instances of units that were declared before, so that none reaches itself; with noise of any unit."""
        out = []
        for name in self.distinct(INSTANCES, low, high):
            role = self.pick(roles)
            if self.of_role(role) or self.bad(0.1):
                out.append((name, role, self.of_kind(role)))
        return out

    # -- texts
    def params(self, ty):
        """Values for some of the data inputs of a type."""
        inputs = [v for v in self.plan[ty]["vars"] if v[1] == "in"] if ty in self.plan else []
        chosen = [[v[0], ":=", *self.constant(v[2])] for v in inputs if self.chance(0.6)]
        return ["(", *self.commas(chosen), ")"] if chosen or self.bad(1) else super().params(ty) if self.bad(0.3) else []

    def simple(self, cls):
        return [self.pick(STRINGS)] if cls == "O" and self.chance(0.4) else super().simple(cls)

    def vardecls(self, items):
        return [it for item in items for it in super(Plant, self).vardecls([item])]

    def chart(self, p):
        return super().chart(p) if self.chance(0.05) else []

    def joined(self, ends, sort, kind):
        """Connections of these ends that fit: mostly one to each destination, of events perhaps two."""
        items, used = [], []
        wanted = [e for e in ends if e[1] == "to" for _ in range(self.several(0, 2) if sort == "event" else self.chance(0.75))]
        self.r.shuffle(wanted)
        for to in wanted:
            good = [e for e in ends if e[1] == "from" and e[2] == to[2] and e[0] != to[0]
                    and (kind != "subapp" or len(e[0]) + len(to[0]) > 2) and (sort != "adapter" or e[0] not in used)]
            if good:
                source = self.pick(good)
                used.append(source[0])
                items.append(source[0] + ["TO"] + to[0] + [";"])
        return items


def large(rng):
    """A plant whose subapplication and system have 4,096 instances, or some more or less."""
    texts = {"B": "FUNCTION_BLOCK B END_FUNCTION_BLOCK"}
    blocks = "".join("F%d:B;" % i for i in range(6))
    texts["D0"] = "SUBAPPLICATION D0 FBS %sEND_FBS END_SUBAPPLICATION" % blocks
    for i in range(1, 10):
        texts["D%d" % i] = "SUBAPPLICATION D%d SUBAPPS I:D%d;J:D%d;END_SUBAPPS END_SUBAPPLICATION" % (i, i - 1, i - 1)
    more = rng.choice([0, 2, 2, 3, 3, 5])
    halves = "".join("APPLICATION P%s SUBAPPS I:D8; END_SUBAPPS END_APPLICATION " % i for i in "12")
    others = "FBS %sEND_FBS " % "".join("G%d:B;" % i for i in range(more))
    texts["L"] = "SUBAPPLICATION L SUBAPPS I:D8;J:D8;END_SUBAPPS %sEND_SUBAPPLICATION" % others
    texts["Y"] = ("SYSTEM Y %sAPPLICATION P3 %sEND_APPLICATION DEVICE D:T RESOURCE R:T END_RESOURCE END_DEVICE "
                  "MAPPINGS P1 ON D.R; P2 ON D.R; P3 ON D.R; END_MAPPINGS END_SYSTEM" % (halves, others))
    return texts
