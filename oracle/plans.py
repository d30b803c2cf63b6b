"""Plans: the commands of each resource of a system. shown(library, name) is the plan of a system as a reply has it."""
import networks
from networks import block_of


def shown(lib, name):
    net = networks.shown(lib, name)
    return Plan(lib, lib.tree(name), net).shown() if isinstance(net, dict) and "blocks" in net else {"stopped": net}


class Plan:
    """The plan of a system whose net is flat."""
    def __init__(self, lib, unit, net):
        self.lib, self.unit, self.net = lib, unit, net
        self.mapped = {".".join(path.names): "%s.%s" % (device.up, resource.up) for path, device, resource in unit.mappings}

    def shown(self):
        faulty = self.unmapped() + self.without_block()
        if faulty:
            return {"faulty": faulty}
        return {"cuts": [it for it in self.net["links"] if self.is_cut(it)], "resources": [[name, self.commands(name)] for name in self.resources()]}

    def home(self, path):
        """The resource of the mapping with the longest path that is this one or a prefix of it by whole names; None without one."""
        while path and path not in self.mapped:
            path = block_of(path)
        return self.mapped.get(path)

    def home_of_end(self, place):
        """The home of the block whose port it is; a plug or socket has that of its block, since no mapping names it."""
        return self.home(block_of(place))

    def unmapped(self):
        return [["UNMAPPED", path] for path, _ in sorted(self.net["blocks"]) if self.home(path) is None]

    def without_block(self):
        known = {a.name.up for a in self.unit.apps} | {path for path, _ in self.lib.instances(self.unit)}
        return [["NO_SUCH_BLOCK", path] for path in sorted(self.mapped) if path not in known]

    def is_cut(self, link):
        return self.home_of_end(link[1]) != self.home_of_end(link[2])

    def resources(self):
        return ["%s.%s" % (device.name.up, resource.up) for device in self.unit.devices for resource in device.resources]

    def commands(self, resource):
        blocks = sorted(it for it in self.net["blocks"] if self.home(it[0]) == resource)
        links = [it for it in self.net["links"] if not self.is_cut(it) and self.home_of_end(it[1]) == resource]
        return (["CREATE FB %s %s" % (path, kind) for path, kind in blocks] + ["WRITE %s %s" % it for it in self.writes({path for path, _ in blocks})]
                + ["CREATE CONNECTION %s %s" % (start, end) for _, start, end in links] + ["START " + resource])

    def writes(self, paths):
        """The parameters of these blocks: places and constants, by the bytes of the places."""
        return sorted(("%s.%s" % (path, name.up), constant.written) for path, instance in self.lib.instances(self.unit) if path in paths
                      for name, constant in instance.params)
