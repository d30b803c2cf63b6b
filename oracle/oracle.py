"""An independent reading of the language and its 24 faults, written from the rules alone.

Library(texts) maps upper-case names to texts: its faults of a unit are a sorted list of (code, start, end). It answers what a unit mentions, what is near and
far, and of nets their form and their blocks (networks.py has their links and borders, plans.py the plans)."""
import math
import re
import sys
from functools import lru_cache, reduce
from itertools import accumulate
from types import SimpleNamespace as Bag

CODES = ["", "SYNTAX", "NAME_DIFFERS", "DUPLICATE", "MIXED_KIND", "UNKNOWN_TYPE", "WRONG_KIND", "WITH_UNKNOWN", "STATE_UNKNOWN", "EVENT_UNKNOWN",
         "ALGORITHM_UNKNOWN", "VARIABLE_UNKNOWN", "CLASS", "PORT_UNKNOWN", "PORT_SIDE", "DATA_TYPE", "SECOND_SOURCE", "SECOND_ADAPTER", "PASS_THROUGH",
         "PARAMETER_UNKNOWN", "LITERAL", "MAPPED_TWICE", "NO_SUCH_RESOURCE", "MEMBER_UNKNOWN", "STRUCT_RECURSIVE"]
sys.setrecursionlimit(50_000)

# ---------------------------------------------------------------- tokens

RESERVED = set("""FUNCTION_BLOCK END_FUNCTION_BLOCK ADAPTER END_ADAPTER SUBAPPLICATION END_SUBAPPLICATION SYSTEM END_SYSTEM APPLICATION
END_APPLICATION DEVICE END_DEVICE RESOURCE END_RESOURCE MAPPINGS END_MAPPINGS EVENT_INPUT EVENT_OUTPUT END_EVENT VAR VAR_INPUT VAR_OUTPUT END_VAR
PLUGS END_PLUGS SOCKETS END_SOCKETS FBS END_FBS SUBAPPS END_SUBAPPS EVENT_CONNECTIONS DATA_CONNECTIONS ADAPTER_CONNECTIONS END_CONNECTIONS EC_STATES
END_STATES EC_TRANSITIONS END_TRANSITIONS ALGORITHM END_ALGORITHM SERVICE END_SERVICE WITH TO ARRAY OF IF THEN ELSIF ELSE END_IF CASE END_CASE FOR BY
DO END_FOR WHILE END_WHILE REPEAT UNTIL END_REPEAT EXIT RETURN AND OR XOR NOT MOD TRUE FALSE TYPE END_TYPE STRUCT END_STRUCT""".split())

W = r"[A-Za-z_][A-Za-z0-9_]*"
WORD = re.compile(W)
NUMBER = re.compile(r"[0-9][0-9_]*(?:#[A-Za-z0-9_]+|\.[0-9]+(?:[Ee][+-]?[0-9]+)?)?")
IN_LITERAL = r"[A-Za-z0-9_#]|\.(?=[0-9])"
TYPED = re.compile(r"(" + W + r")#[+-]?(?:" + IN_LITERAL + r")+")
TYPED_DATE = re.compile(r"(" + W + r")#[+-]?(?:" + IN_LITERAL + r"|[-:](?=[0-9]))+")
TYPED_REAL = re.compile(r"(" + W + r")#[+-]?(?:" + IN_LITERAL + r"|(?<=[Ee])[+-](?=[0-9]))+")
STRING = re.compile(r"'(?:[^'$\r\n]|\$[^\r\n])*'|\"(?:[^\"$\r\n]|\$[^\r\n])*\"")
SKIPPED = re.compile(r"(?:[ \t\r\n]+|\(\*.*?\*\)|//[^\n]*)*", re.S)
SYMBOL = re.compile(r":=|<=|>=|<>|\*\*|->|\.\.|[;:,.()\[\]=<>+\-*/&]")
DATES = {"D", "DATE", "TOD", "TIME_OF_DAY", "DT", "DATE_AND_TIME"}


class Tok:
    def __init__(self, kind, text, start, end):
        self.kind, self.text, self.start, self.end = kind, text, start, end
        self.up = text.upper() if text.isascii() else text
        self.name = kind == "WORD" and self.up not in RESERVED and len(text) <= 64


def longest(text, i):
    """The kind and the end of the longest token at this place; a character with which none begins is one by itself."""
    found = []
    if word := WORD.match(text, i):
        up = word.group().upper()
        typed = (TYPED_DATE if up in DATES else TYPED_REAL if up in ("REAL", "LREAL") else TYPED).match(text, i)
        found += [("WORD", word.end())] + ([("TYPED", typed.end())] if typed and typed.group(1) == word.group() else [])
    found += [(kind, it.end()) for kind, rx in (("NUMBER", NUMBER), ("STRING", STRING), ("SYMBOL", SYMBOL)) if (it := rx.match(text, i))]
    return max(found, key=lambda it: it[1], default=("OTHER", i + 1))


def tokens(text):
    """The tokens of a text with byte places."""
    at = range(len(text) + 1) if text.isascii() else [0, *accumulate(len(c.encode()) for c in text)]
    out, i = [], SKIPPED.match(text).end()
    while i < len(text):
        if text.startswith("(*", i):
            raise Broken(at[i], at[-1])
        kind, end = longest(text, i)
        out.append(Tok(kind, text[i:end], at[i], at[end]))
        i = SKIPPED.match(text, end).end()
    return out


# ---------------------------------------------------------------- classes

ELEMENTARY = {
    "BOOL": "B",
    **dict.fromkeys("SINT INT DINT LINT USINT UINT UDINT ULINT".split(), "I"),
    **dict.fromkeys("BYTE WORD DWORD LWORD".split(), "W"),
    **dict.fromkeys("REAL LREAL TIME DATE TOD TIME_OF_DAY DT DATE_AND_TIME STRING WSTRING".split(), "O"),
}
# The classes of constants that fit a class of types, and the joins of two classes that differ.
FITTING = {"B": ("B", "Any"), "I": ("I", "Num", "Any"), "W": ("W", "Num", "Any"), "O": ("O", "I", "Num", "Any")}
JOINS = {frozenset(("Num", it)): it for it in "IWO"} | {frozenset("IO"): "O"}
# The classes of what operators take; all but these take numbers that are not of bits.
LOGICAL, COMPARING, NUMERIC = ("B", "W", "Num", "Any"), ("B", "I", "W", "O", "Num", "Any"), ("I", "O", "Num", "Any")
TAKEN = {op: LOGICAL for op in ("OR", "XOR", "AND", "&", "NOT")} | {op: COMPARING for op in ("=", "<>", "<", ">", "<=", ">=")}
TAKEN["MOD"] = ("I", "Num", "Any")


def class_of_name(up):
    return "Free" if up == "ANY" or up.startswith("ANY_") else ELEMENTARY.get(up, "O")


def is_elementary(up):
    """Whether a name in the place of a value's type never means a unit."""
    return up in ELEMENTARY or class_of_name(up) == "Free"


def class_of_literal(tok):
    """The class of a literal; None if the token is no literal."""
    if tok.kind == "NUMBER":
        return "O" if "." in tok.text else "Any" if tok.text in ("0", "1") else "Num"
    if tok.kind == "TYPED":
        return class_of_name(tok.up.split("#")[0])
    if tok.kind == "STRING":
        return "O"
    return "B" if tok.kind == "WORD" and tok.up in ("TRUE", "FALSE") else None


def join(a, b):
    """The join of two classes or None."""
    if "Free" in (a, b):
        return "Free"
    if a == b or b == "Any":
        return a
    return b if a == "Any" else JOINS.get(frozenset((a, b)))


def fits_class(type_class, const_class):
    return "Free" in (type_class, const_class) or const_class in FITTING[type_class]


# ---------------------------------------------------------------- the parser

KINDS = {"FUNCTION_BLOCK": "block", "ADAPTER": "adapter", "SUBAPPLICATION": "subapp", "SYSTEM": "system", "TYPE": "structure"}
# Of a section of items its first word, with what reads an item, of what sort these are, and the last word.
ITEMS = {
    "EVENT_INPUT": ("event", "in", "END_EVENT"),
    "EVENT_OUTPUT": ("event", "out", "END_EVENT"),
    "VAR_INPUT": ("variables", "in", "END_VAR"),
    "VAR_OUTPUT": ("variables", "out", "END_VAR"),
    "VAR": ("variables", "var", "END_VAR"),
    "STRUCT": ("variables", "field", "END_STRUCT"),
    "PLUGS": ("instance", "plug", "END_PLUGS"),
    "SOCKETS": ("instance", "socket", "END_SOCKETS"),
    "FBS": ("instance", "fb", "END_FBS"),
    "SUBAPPS": ("instance", "sub", "END_SUBAPPS"),
    "EVENT_CONNECTIONS": ("connection", "event", "END_CONNECTIONS"),
    "DATA_CONNECTIONS": ("connection", "data", "END_CONNECTIONS"),
    "ADAPTER_CONNECTIONS": ("connection", "adapter", "END_CONNECTIONS"),
    "EC_STATES": ("state", "", "END_STATES"),
    "EC_TRANSITIONS": ("transition", "", "END_TRANSITIONS"),
    "MAPPINGS": ("mapping", "", "END_MAPPINGS"),
}
NETWORK = {"FBS", "EVENT_CONNECTIONS", "DATA_CONNECTIONS", "ADAPTER_CONNECTIONS"}
PORTS = {"EVENT_INPUT", "EVENT_OUTPUT", "VAR_INPUT", "VAR_OUTPUT", "SERVICE"}
# The sections that a unit may have by its kind, and an application.
SECTIONS = {
    "block": PORTS | NETWORK | {"PLUGS", "SOCKETS", "VAR", "EC_STATES", "EC_TRANSITIONS", "ALGORITHM"},
    "adapter": PORTS,
    "subapp": PORTS | NETWORK | {"PLUGS", "SOCKETS", "SUBAPPS"},
    "system": {"APPLICATION", "DEVICE", "MAPPINGS"},
    "structure": set(),
    "application": NETWORK | {"SUBAPPS"},
}
DEEPEST = 64


class Broken(Exception):
    def __init__(self, start, end):
        self.span = (start, end)


def statement(form, expressions=(), bodies=(), **more):
    return Bag(form=form, es=expressions, bodies=bodies, **more)


class Parser:
    def __init__(self, toks, size):
        self.t, self.i = [*toks, Tok("END", "", size, size)], 0

    # -- small steps
    @property
    def here(self):
        return self.t[self.i]

    def fail(self):
        raise Broken(self.here.start, self.here.end)

    def sees(self, *texts):
        """Whether one of these words or symbols is here."""
        return self.here.kind in ("WORD", "SYMBOL") and self.here.up in texts

    def kind(self, *ks):
        return self.here.kind in ks

    def take(self):
        self.i += 1
        return self.t[self.i - 1]

    def need(self, *texts):
        return self.take() if self.sees(*texts) else self.fail()

    def try_(self, *texts):
        return self.take() if self.sees(*texts) else None

    def number(self):
        return self.take() if self.kind("NUMBER") else self.fail()

    def name(self):
        return self.take() if self.here.name else self.fail()

    def form(self, words, *given):
        """What is read by the methods that the words in lower case name, in turn with the other words and symbols, which have to be there."""
        found = []
        for it in words.split():
            if it.islower():
                found.append(getattr(self, it)(*given))
            else:
                self.need(it)
        return found

    def separated(self, one, by=","):
        """One or more of these, with commas or this word between them."""
        found = [one()]
        while self.try_(by):
            found.append(one())
        return found

    def names(self):
        return self.separated(self.name)

    def pass_over(self, word):
        """All up to this word."""
        while not self.kind("END") and not self.sees(word):
            self.take()
        self.need(word)

    # -- units
    def unit(self):
        word = self.need(*KINDS).up
        u = Bag(kind=KINDS[word], name=self.name(), sections=set(), events=[], vars=[], inits=[], insts=[], conns=[], states=[],
                trans=[], algs=[], apps=[], devices=[], mappings=[])
        if u.kind == "structure":
            self.form(": STRUCT")
            self.items(u, *ITEMS["STRUCT"])
            self.try_(";")
        self.sections(u, u.kind)
        self.need("END_" + word)
        if not self.kind("END"):
            self.fail()
        return u

    def sections(self, u, kind):
        while self.sees(*SECTIONS[kind]):
            word = self.take().up
            u.sections.add(word)
            if word in ITEMS:
                self.items(u, *ITEMS[word])
            elif word == "SERVICE":
                self.pass_over("END_SERVICE")
            else:
                getattr(self, word.lower())(u)

    def items(self, u, read, sort, closing):
        while self.here.name:
            getattr(self, read)(u, sort)
        self.need(closing)

    # -- systems
    def application(self, u):
        a = Bag(name=self.name(), sections=set(), insts=[], conns=[])
        self.sections(a, "application")
        self.need("END_APPLICATION")
        u.apps.append(a)

    def device(self, u):
        d = Bag(name=self.typed(), resources=[])
        while self.try_("RESOURCE"):
            d.resources += self.form("typed END_RESOURCE")
        self.need("END_DEVICE")
        u.devices.append(d)

    def typed(self):
        """The name of a device or a resource, with its type and parameters, which no rule is about."""
        name, *_ = self.form("name : name params")
        self.try_(";")
        return name

    def mapping(self, u, _):
        u.mappings.append(self.form("path ON name . name ;"))

    # -- ports, values and types
    def event(self, u, side):
        e = Bag(name=self.name(), side=side, withs=[])
        if self.try_(":"):
            self.name()
        if self.try_("WITH"):
            e.withs = self.names()
        self.need(";")
        u.events.append(e)

    def variables(self, u, side):
        names, ty = self.form("names : type")
        if self.try_(":="):
            u.inits.append((ty, self.constant()))
        self.need(";")
        u.vars += [Bag(name=n, side=side, type=ty) for n in names]

    def type(self):
        """A type of a value: its class, that of its elements if it is an array, the name in it, and how it is written."""
        first, form, element = self.i, "plain", None
        if self.try_("ARRAY"):
            self.form("[ ranges ] OF")
            form = "array"
        name = self.name().up
        if form == "array":
            element = class_of_name(name)
        elif self.try_("["):
            self.form("number ]")
            form = "length"
        cls = class_of_name(name) if form == "plain" else "O"
        return Bag(cls=cls, element=element, name=name, form=form, spelling=" ".join(t.up for t in self.t[first:self.i]))

    def ranges(self):
        return self.separated(lambda: self.form("bound .. bound"))

    def bound(self):
        self.try_("+", "-")
        return self.number()

    def constant(self):
        """A constant, with how it is written without blanks."""
        first = self.i
        if begin := self.try_("["):
            items = self.separated(self.simple)
            out = Bag(items=items, start=begin.start, end=self.need("]").end)
        else:
            out = self.simple()
        out.written = "".join(t.text for t in self.t[first:self.i])
        return out

    def simple(self):
        start, sign = self.here.start, self.try_("+", "-")
        cls = "Free" if self.here.name else class_of_literal(self.here)
        if cls is None or sign and not self.kind("NUMBER"):
            self.fail()
        return Bag(items=None, cls="Num" if sign and cls == "Any" else cls, start=start, end=self.take().end)

    # -- networks
    def instance(self, u, role):
        n, ty = self.form("name : name")
        params = self.params() if role != "sub" else []
        self.need(";")
        u.insts.append(Bag(name=n, type=ty, role=role, params=params if role == "fb" else []))

    def params(self):
        if not self.try_("("):
            return []
        out = [] if self.sees(")") else self.separated(lambda: self.form("name := constant"))
        self.need(")")
        return out

    def connection(self, u, sort):
        u.conns.append((sort, *self.form("end TO end ;")))

    def end(self, most=2):
        """Names with points between them, up to this number."""
        names = [self.name()]
        while len(names) < most and self.try_("."):
            names.append(self.name())
        return Bag(names=tuple(n.up for n in names), start=names[0].start, end=names[-1].end)

    def path(self):
        return self.end(math.inf)

    # -- charts
    def state(self, u, _):
        u.states.append(Bag(name=self.name(), actions=self.separated(self.action) if self.try_(":") else []))
        self.need(";")

    def action(self):
        alg = None if self.sees("->") else self.name()
        return alg, self.end() if self.try_("->") else None

    def transition(self, u, _):
        a, b, (event, guard) = self.form("name TO name := cond ;")
        u.trans.append((a, b, event, guard))

    def cond(self):
        """The event and the guard of a transition, None for each that is not there."""
        if self.kind("NUMBER") and self.here.text == "1":
            self.take()
            return None, None
        event = None if self.sees("[") else self.end()
        if self.try_("["):
            return event, *self.form("expr ]", 0)
        return event, self.expr(0) if self.try_("&", "AND") else None

    def algorithm(self, u):
        name, language = self.form("name IN name")
        body = []
        if language.up == "ST":
            self.try_(":")
            body, = self.form("stmts END_ALGORITHM", 0)
        else:
            self.pass_over("END_ALGORITHM")
        u.algs.append(Bag(name=name, body=body))

    # -- statements, inside k others, parentheses and subscripts
    def stmts(self, k):
        return list(iter(lambda: self.stmt(k), None))

    def stmt(self, k):
        if self.sees(";") or self.try_("EXIT", "RETURN"):
            self.need(";")
            return statement("empty")
        if self.here.name:
            ref, at = self.ref(k), self.need(":=")
            return statement("assign", self.form("expr ;", k), ref=ref, at=at)
        if k == DEEPEST or not self.sees("IF", "CASE", "FOR", "WHILE", "REPEAT"):
            return None
        word = self.take().up
        s = getattr(self, word.lower() + "_")(k)
        self.need("END_" + word)
        return s

    def inner(self, k):
        return self.stmts(k + 1)

    def otherwise(self, k):
        return [self.inner(k)] if self.try_("ELSE") else []

    def if_(self, k):
        conds, bodies = zip(*self.separated(lambda: self.form("expr THEN inner", k), "ELSIF"))
        return statement("if", conds, [*bodies, *self.otherwise(k)])

    def case_(self, k):
        es, bodies = self.form("expr OF", k), [self.labelled(k)]
        while self.sees("+", "-") or self.kind("NUMBER", "TYPED"):
            bodies.append(self.labelled(k))
        return statement("case", es, bodies + self.otherwise(k))

    def labelled(self, k):
        self.separated(self.label)
        self.need(":")
        return self.inner(k)

    def label(self):
        self.end_of_label()
        if self.try_(".."):
            self.end_of_label()

    def end_of_label(self):
        return self.take() if self.kind("TYPED") else self.bound()

    def for_(self, k):
        n, es = self.name(), self.form(":= expr TO expr", k)
        if self.try_("BY"):
            es.append(self.expr(k))
        return statement("for", es, self.form("DO inner", k), name=n)

    def while_(self, k):
        e, body = self.form("expr DO inner", k)
        return statement("while", [e], [body])

    def repeat_(self, k):
        body, e = self.form("inner UNTIL expr", k)
        return statement("repeat", [e], [body])

    # -- expressions
    def ref(self, k):
        """Names with subscripts or without."""
        steps = self.separated(lambda: self.step(k), ".")
        return Bag(form="ref", steps=steps, start=steps[0].name.start, end=steps[-1].end)

    def step(self, k):
        """name ['[' expr {',' expr} ']']"""
        name = self.name()
        if k == DEEPEST or not self.try_("["):
            return Bag(name=name, subs=None, end=name.end)
        subs = self.separated(lambda: self.expr(k + 1))
        return Bag(name=name, subs=subs, end=self.need("]").end)

    LEVELS = [("OR",), ("XOR",), ("&", "AND"), ("=", "<>"), ("<", ">", "<=", ">="), ("+", "-"), ("*", "/", "MOD"), ("**",)]

    def expr(self, k, level=0):
        if level == len(self.LEVELS):
            return self.unary(k)
        left = self.expr(k, level + 1)
        while op := self.try_(*self.LEVELS[level]):
            right = self.expr(k, level + 1)
            left = Bag(form="operation", op=op, parts=[left, right], start=left.start, end=right.end)
        return left

    def unary(self, k):
        op = self.try_("+", "-", "NOT")
        e = self.prim(k)
        return Bag(form="operation", op=op, parts=[e], start=op.start, end=e.end) if op else e

    def prim(self, k):
        if self.here.name:
            return self.ref(k)
        if k < DEEPEST and (begin := self.try_("(")):
            e = self.expr(k + 1)
            return Bag(form="parentheses", e=e, start=begin.start, end=self.need(")").end)
        cls = class_of_literal(self.here)
        tok = self.take() if cls else self.fail()
        return Bag(form="literal", cls=cls, start=tok.start, end=tok.end)


@lru_cache(maxsize=4096)
def read(text):
    """The unit of a text, or else the place at which it is broken."""
    try:
        return Parser(tokens(text), len(text.encode())).unit(), None
    except Broken as b:
        return None, b.span


# ---------------------------------------------------------------- what units mention, near and far, nets

LARGEST = 4096


class Library:
    """Texts by upper-case names, and what must be reported of them."""
    def __init__(self, texts):
        self.texts, self.checked = texts, {}

    def tree(self, name):
        """The unit of a name, None if it is absent or broken."""
        return read(self.texts[name])[0] if name in self.texts else None

    def faults(self, name):
        if name not in self.checked:
            self.checked[name] = Check(self, name).run()
        return self.checked[name]

    def parts(self, name):
        """The types of a unit's plugs, sockets and instances."""
        u = self.tree(name)
        nets = [] if u is None else [u] + u.apps
        return {i.type.up for net in nets for i in net.insts}

    def values(self, name):
        """The types of a unit's variables or fields, elementary ones left out."""
        u = self.tree(name)
        names = [] if u is None else [v.type.name for v in u.vars]
        return {n for n in names if not is_elementary(n)}

    def is_structure(self, name):
        u = self.tree(name)
        return u is not None and u.kind == "structure"

    def carries(self, name):
        """The value mentions of a unit, and those of the structures among them, and so on."""
        return reached(self.values(name), lambda n: self.values(n) if self.is_structure(n) else ())

    def near(self, name):
        around = {name} | self.parts(name)
        return around.union(*(self.carries(n) for n in around))

    def far(self, name):
        return reached({name}, lambda n: self.parts(n) | self.values(n))

    def net(self, name):
        """None where the unit has no net; else ("blocked", names), ("recursive", names), ("too_large", None) or
        ("blocks", [(path, type)])."""
        u = self.tree(name)
        if u is None or u.kind not in ("subapp", "system"):
            return None
        far = self.far(name)
        missing = {m for n in far for m in self.parts(n) if m not in self.texts}
        blocked = missing | {n for n in far if n in self.texts and self.faults(n)}
        if blocked:
            return "blocked", sorted(blocked)
        recursive = [n for n in far if n in reached(self.parts(n), self.parts)]
        if recursive:
            return "recursive", sorted(recursive)
        if self.size(u, {}) > LARGEST:
            return "too_large", None
        return "blocks", self.blocks(u)

    def size(self, u, known):
        """How many instances a unit has, those in its subapplications counted."""
        if u.name.up not in known:
            inner = [i for net in [u] + u.apps for i in net.insts if i.role in ("fb", "sub")]
            subs = [self.size(self.tree(i.type.up), known) for i in inner if i.role == "sub"]
            known[u.name.up] = len(inner) + sum(subs)
        return known[u.name.up]

    def instances(self, u, path=""):
        """The blocks and subapplication instances of a unit with their paths, what is in one after it."""
        for prefix, net in [(path, u)] + [(a.name.up + ".", a) for a in u.apps]:
            for i in net.insts:
                if i.role in ("fb", "sub"):
                    yield prefix + i.name.up, i
                if i.role == "sub":
                    yield from self.instances(self.tree(i.type.up), prefix + i.name.up + ".")

    def blocks(self, u):
        """The blocks of a unit with their types, those of its subapplications in their places."""
        return [(path, i.type.up) for path, i in self.instances(u) if i.role == "fb"]

    def keys(self):
        """What is kept of all units: pairs of a kind and a name."""
        kinds = {n: self.tree(n) and self.tree(n).kind for n in self.texts}
        wanted = {"faults": kinds.values(), "net": ["subapp", "system"], "deploy": ["system"]}
        return {(key, n) for key, some in wanted.items() for n, kind in kinds.items() if kind in some}

    def reached_by(self, changed):
        """The keys that a change of these names reaches."""
        return {(kind, n) for kind, n in self.keys() if (self.near(n) if kind == "faults" else self.far(n)) & set(changed)}


def reached(start, following):
    """All names that are reached from those of start."""
    seen, open_names = set(), list(start)
    while open_names:
        n = open_names.pop()
        if n not in seen:
            seen.add(n)
            open_names += following(n)
    return seen


# ---------------------------------------------------------------- faults

def first(items):
    """name -> first declaration"""
    return {x.name.up: x for x in reversed(items)}


WANTED = {"plug": "adapter", "socket": "adapter", "fb": "block", "sub": "subapp"}
# Whether a port gives what it carries to the outside of its unit; a variable that is no port is not there.
GIVES = {"in": False, "out": True, "socket": False, "plug": True}


def port(sort, unit, name, is_inside):
    """Of a port of a unit, seen from inside or outside, whether it gives, and its type; None for both if there is none."""
    it = first({"event": unit.events, "data": unit.vars, "adapter": unit.insts}[sort]).get(name)
    gives = it and GIVES.get(it.role if sort == "adapter" else it.side)
    if gives is None:
        return None, None
    return gives != is_inside, {"event": lambda: None, "data": lambda: it.type, "adapter": lambda: it.type.up}[sort]()


class Check:
    def __init__(self, library, unit):
        self.lib, self.unit, self.out = library, unit, set()

    def add(self, code, at, end=None):
        self.out.add((at.start, (end or at).end, code))

    def run(self):
        u, broken = read(self.lib.texts[self.unit])
        if broken:
            return [(1, *broken)]
        self.u = u
        self.va, self.ins = first(u.vars), first(u.insts)
        self.declarations()
        if u.kind == "system":
            self.system()
        else:
            self.network(u, u.kind)
        if u.kind == "block":
            self.chart()
            for a in u.algs:
                self.stmts(a.body)
        return [(c, s, e) for s, e, c in sorted(self.out)]

    def declarations(self):
        u = self.u
        if u.name.up != self.unit:
            self.add(2, u.name)
        if "EC_STATES" in u.sections and u.sections & NETWORK:
            self.add(4, u.name)
        if u.kind == "structure" and self.unit in self.lib.carries(self.unit):
            self.add(24, u.name)
        for items in (u.events, u.vars, u.states, u.algs):
            self.doubled([it.name for it in items])
        for e in u.events:
            for w in e.withs:
                v = self.va.get(w.up)
                if v is None or v.side != e.side:
                    self.add(7, w)
        for ty, c in u.inits:
            self.fit(ty, c)

    def doubled(self, places, code=3):
        """A fault at each name or end that was there before."""
        seen = set()
        for it in places:
            key = it.up if isinstance(it, Tok) else it.names
            if key in seen:
                self.add(code, it)
            seen.add(key)

    def type_of(self, inst):
        """The tree of an instance's type if it is usable, else None."""
        t = self.lib.tree(inst.type.up)
        return t if t is not None and t.kind == WANTED[inst.role] else None

    def fit(self, ty, c):
        if c.items is None:
            if not (c.cls == "Free" if ty.element is not None else fits_class(ty.cls, c.cls)):
                self.add(20, c)
        elif ty.element is not None:
            for s in c.items:
                if not fits_class(ty.element, s.cls):
                    self.add(20, s)
        elif ty.cls != "Free":
            self.add(20, c)

    # -- networks
    def network(self, net, kind):
        self.doubled([i.name for i in net.insts])
        for i in net.insts:
            t = self.lib.tree(i.type.up)
            if t is None:
                self.add(5, i.type)
            elif t.kind != WANTED[i.role]:
                self.add(6, i.type)
            self.doubled([n for n, _ in i.params])
            self.params(i)
        ins = first(net.insts)
        for sort, a, b in net.conns:
            self.connection(sort, a, b, kind, ins)
        self.doubled([b for sort, _, b in net.conns if sort == "data"], 16)
        self.doubled([end for sort, *ends in net.conns if sort == "adapter" for end in ends], 17)

    def params(self, i):
        t = self.type_of(i)
        variables = first(t.vars) if t else {}
        for n, c in i.params if t else ():
            v = variables.get(n.up)
            if v is None or v.side != "in":
                self.add(19, n)
            else:
                self.fit(v.type, c)

    def connection(self, sort, a, b, kind, ins):
        (fault_a, type_a), (fault_b, type_b) = self.judge(sort, a, True, kind, ins), self.judge(sort, b, False, kind, ins)
        for end, fault in ((a, fault_a), (b, fault_b)):
            if fault in (13, 14):
                self.add(fault, end)
        if fault_a or fault_b:
            return
        if sort == "data" and type_a.spelling != type_b.spelling and "Free" not in (type_a.cls, type_b.cls):
            self.add(15, b)
        if sort == "adapter" and type_a != type_b:
            self.add(15, b)
        if kind == "subapp" and len(a.names) == len(b.names) == 1:
            self.add(18, a, b)

    def judge(self, sort, end, is_source, kind, ins):
        """The code of an end's fault and None, or nothing and its type; True if the end is not checked."""
        i = ins.get(end.names[0])
        if len(end.names) == 1:
            unit, is_inside, is_there = self.u, True, kind != "app"
        else:
            is_there = i is not None and (i.role not in ("plug", "socket") or kind == "block" and sort != "adapter")
            unit, is_inside = (self.type_of(i), i.role == "plug") if is_there else (None, False)
        if is_there and unit is None:
            return True, None
        gives, ty = port(sort, unit, end.names[-1], is_inside) if is_there else (None, None)
        return (13, None) if gives is None else (None, ty) if gives == is_source else (14, None)

    # -- systems
    def system(self):
        u = self.u
        self.doubled([a.name for a in u.apps])
        self.doubled([d.name for d in u.devices])
        for a in u.apps:
            self.network(a, "app")
        for d in u.devices:
            self.doubled(d.resources)
        self.doubled([path for path, *_ in u.mappings], 21)
        devices = first(u.devices)
        for _, dev, res in u.mappings:
            d = devices.get(dev.up)
            if d is None or res.up not in [r.up for r in d.resources]:
                self.add(22, dev, res)

    # -- charts
    def chart(self):
        u = self.u
        states, algs = first(u.states), first(u.algs)
        for alg, event in (action for s in u.states for action in s.actions):
            if alg is not None and alg.up not in algs:
                self.add(10, alg)
            if event is not None:
                self.event(event, False)
        for a, b, event, guard in u.trans:
            for s in (a, b):
                if s.up not in states:
                    self.add(8, s)
            if event is not None:
                self.event(event, True)
            if guard is not None:
                self.want(guard, "B")

    def event(self, end, is_input):
        """An event of a transition comes in, one of an action goes out: by a port of the unit, or of the type of a plug or socket."""
        i = self.ins.get(end.names[0])
        is_of_part = len(end.names) == 2 and (i is None or i.role not in ("plug", "socket"))
        if is_of_part or self.judge("event", end, is_input, "block", self.ins)[0] in (13, 14):
            self.add(9, end)

    # -- statements and expressions
    def stmts(self, body):
        for s in body:
            self.stmt(s)

    def stmt(self, s):
        if s.form == "assign":
            if join(self.ref(s.ref), self.cls(s.es[0])) is None:
                self.add(12, s.at)
        elif s.form == "case":
            if self.cls(s.es[0]) == "B":
                self.add(12, s.es[0])
        else:
            for e in s.es:
                self.want(e, "I" if s.form == "for" else "B")
        if s.form == "for":
            self.counter(s.name)
        for b in s.bodies:
            self.stmts(b)

    def counter(self, name):
        v = self.va.get(name.up)
        if v is None:
            self.add(11, name)
        elif v.type.cls not in ("I", "Free"):
            self.add(12, name)

    def want(self, e, cls):
        if not fits_class(cls, self.cls(e)):
            self.add(12, e)

    def ref(self, r):
        """The class of a reference, and the faults of it."""
        for e in (e for step in r.steps for e in step.subs or []):
            self.want(e, "I")
        base = self.base(r)
        if base is None:
            return "Free"
        ty, subs, rest = base
        for step in rest:
            fields = self.fields(ty, subs is not None)
            if fields is None:
                return "Free"
            if step.name.up not in fields:
                self.add(23, step.name)
                return "Free"
            ty, subs = fields[step.name.up].type, step.subs
        if subs is None:
            return ty.cls
        return ty.element if ty.form == "array" else "O"

    def base(self, r):
        """What a reference begins with: its type, the subscripts after it and the steps that follow. None with a fault, and
        where it is not judged."""
        one, two = r.steps[0], r.steps[1] if len(r.steps) > 1 and r.steps[0].subs is None else None
        i, var, used = self.ins.get(one.name.up), self.va.get(one.name.up), 1
        if two is not None and i is not None and i.role in ("plug", "socket"):
            t = self.type_of(i)
            if t is None:
                return None
            var, used = first(t.vars).get(two.name.up), 2
        if var is None:
            self.add(11, one.name, two and two.name)
            return None
        return var.type, r.steps[used - 1].subs, r.steps[used:]

    def fields(self, ty, subscripted):
        """The fields after a type, with subscripts or without: {} if there are no fields, None if it is not checked."""
        if ty.form == "length" or ty.form == "array" and not subscripted:
            return {}
        if class_of_name(ty.name) == "Free":
            return None
        if is_elementary(ty.name):
            return {}
        t = self.lib.tree(ty.name)
        if t is None:
            return None
        return first(t.vars) if t.kind == "structure" and subscripted == (ty.form == "array") else {}

    def cls(self, e):
        if e.form == "literal":
            return e.cls
        if e.form == "ref":
            return self.ref(e)
        if e.form == "parentheses":
            return self.cls(e.e)
        op, found = e.op.up, reduce(join, map(self.cls, e.parts))
        taken = TAKEN.get(op, NUMERIC)
        is_right = found == "Free" or found in taken
        if not is_right:
            self.add(12, e.op)
        if taken is COMPARING:
            return "B"
        if not is_right:
            return "Free"
        return "Num" if found == "Any" and taken is not LOGICAL else found
