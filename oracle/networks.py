"""Flat networks: what is left of a subapplication or a system when each subapplication instance is replaced by what it holds.

shown(library, name) is the net of a subapplication or a system as a reply has it."""
from collections import defaultdict

from oracle import first, reached

SORTS = ["event", "data", "adapter"]


def shown(lib, name):
    form, what = lib.net(name)
    if form == "blocks":
        return flat(lib, lib.tree(name))
    return form if what is None else {form: what}


def flat(lib, unit):
    """The flat network of a unit that rests on nothing with a fault."""
    held = Held(lib, unit)
    return {"blocks": [list(it) for it in lib.blocks(unit)], "borders": in_order(held.borders()), "links": in_order(held.links())}


def in_order(joined):
    """By sort and then by the bytes of both places."""
    return [list(it) for it in sorted(joined, key=lambda it: (SORTS.index(it[0]), *it[1:]))]


def block_of(place):
    """The path before the port's name."""
    return place.rpartition(".")[0]


def is_own(place):
    """A port of the whole network is a place without a point."""
    return "." not in place


class Held:
    """The blocks that a unit holds at all depths, and the steps from place to place: one for each connection."""
    def __init__(self, lib, unit):
        self.lib, self.types, self.steps = lib, dict(lib.blocks(unit)), defaultdict(list)
        for prefix, network in self.networks(unit):
            for sort, a, b in network.conns:
                self.steps[sort, prefix + ".".join(a.names)].append(prefix + ".".join(b.names))

    def networks(self, unit):
        """The unit's own network, those of its applications, and those of its subapplication instances, each with what precedes its names."""
        yield "", unit
        for application in unit.apps:
            yield application.name.up + ".", application
        for path, instance in self.lib.instances(unit):
            if instance.role == "sub":
                yield path + ".", self.lib.tree(instance.type.up)

    def is_port_of_block(self, place):
        return block_of(place) in self.types

    def is_outer(self, place):
        """A port of a block or an own port of the unit: no chain continues there."""
        return is_own(place) or self.is_port_of_block(place)

    def chains(self):
        """(sort, first place, last place) of the chains from such places to such places, each once."""
        for sort, place in list(self.steps):
            if self.is_outer(place):
                for end in self.ends(sort, place):
                    yield sort, place, end

    def ends(self, sort, place):
        """The outer places that chains from this one reach."""
        found = reached(self.steps[sort, place], lambda end: [] if self.is_outer(end) else self.steps[sort, end])
        return {end for end in found if self.is_outer(end)}

    def links(self):
        for sort, start, end in self.chains():
            if self.is_port_of_block(start) and self.is_port_of_block(end):
                yield from self.of_adapter(start, end) if sort == "adapter" else [(sort, start, end)]

    def of_adapter(self, plug, socket):
        """The links of the ports of an adapter: outputs lead from the plug to the socket, inputs from the socket to the plug."""
        block, _, name = plug.rpartition(".")
        adapter = self.lib.tree(first(self.lib.tree(self.types[block]).insts)[name].type.up)
        for sort, ports in (("event", adapter.events), ("data", adapter.vars)):
            for port in first(ports).values():
                ends = (plug, socket) if port.side == "out" else (socket, plug)
                yield sort, *("%s.%s" % (end, port.name.up) for end in ends)

    def borders(self):
        """Chains between an own port of the unit and a port of a block."""
        for sort, start, end in self.chains():
            if is_own(start):
                yield sort, start, end
            elif is_own(end):
                yield sort, end, start
