"""What the reader of declarations finds, held to what the workbench says of the same texts."""
import unittest

from generated import Library, checked, faulty_libraries, so_many, sound_libraries

from bench61499.language.declarations import ALGORITHM, EVENT, INSTANCE, STATE, TYPE, VARIABLE, Unit
from bench61499.language.reader import ports, read

KINDS = {"PLUGS": "ADAPTER", "SOCKETS": "ADAPTER", "FBS": "FUNCTION_BLOCK", "SUBAPPS": "SUBAPPLICATION"}
SORTS = {EVENT: "event", VARIABLE: "data", INSTANCE: "adapter"}
ENDS = {"PORT_UNKNOWN", "PORT_SIDE", "DATA_TYPE", "SECOND_SOURCE", "SECOND_ADAPTER"}


class FaultsTest(unittest.TestCase):
    """The places of faults are places of what was read; and if the reader can find the faults by itself, both find the same ones."""

    def each_unit(self):
        """The texts that are not broken: their library, name and text, and what was read."""
        for library in checked():
            for name, text in library.texts.items():
                if not library.codes(name) & {"SYNTAX", "NAME_DIFFERS"}:
                    yield library, name, read(text)

    def spans(self, library: Library, name: str, *codes: str) -> set[tuple[int, int]]:
        return {(it.start, it.end) for it in library.faults[name] if it.code in codes}

    def check(self, found, *codes):
        """`found` gives the spans of these faults by the library and what was read."""
        count = 0
        for library, name, unit in self.each_unit():
            expected = self.spans(library, name, *codes)
            self.assertEqual(set(found(library, unit)), expected, library.texts[name])
            count += len(expected)
        self.assertGreater(count, 20, "too few to tell anything")

    def test_states(self):
        self.check(lambda library, unit: undeclared(unit, STATE), "STATE_UNKNOWN")

    def test_algorithms(self):
        self.check(lambda library, unit: undeclared(unit, ALGORITHM), "ALGORITHM_UNKNOWN")

    def test_types(self):
        self.check(types_of_no_use, "UNKNOWN_TYPE", "WRONG_KIND")

    def test_doubles(self):
        self.check(lambda library, unit: doubles(unit), "DUPLICATE")

    def test_parameters(self):
        self.check(unknown_parameters, "PARAMETER_UNKNOWN")

    def test_ends_that_take_no_part(self):
        self.check(lambda library, unit: second_destinations(unit), "SECOND_SOURCE")

    def test_each_place(self):
        """Of the other codes of names the place is a name that was read, or the names of a path or of both ends."""
        count = 0
        for library, name, unit in self.each_unit():
            starts, ends = {use.start for use in unit.uses}, {use.end for use in unit.uses}
            names = {"EVENT_UNKNOWN", "VARIABLE_UNKNOWN", "WITH_UNKNOWN", "MAPPED_TWICE", "NO_SUCH_RESOURCE", "PASS_THROUGH"} | ENDS
            for start, end in self.spans(library, name, *names):
                self.assertTrue(start in starts and end in ends, (library.texts[name], start, end))
                count += 1
        self.assertGreater(count, 1000)

    def test_ends(self):
        """What is checked of ends is checked of ends that were read, in sections of that sort."""
        for library, name, unit in self.each_unit():
            ends = {(end[0].start, end[-1].end) for it in unit.connections for end in (it.source, it.destination)}
            self.assertLessEqual(self.spans(library, name, *ENDS), ends, library.texts[name])


class NetsTest(unittest.TestCase):
    """The networks of the workbench, made again of the instances, the connections and the ports that were read."""

    def test_networks(self):
        count = 0
        for library in checked():
            units = {name: read(text) for name, text in library.texts.items()}
            for name, net in library.flat():
                made = Network(units, name)
                self.assertEqual(made.blocks, [(it.path, it.type) for it in net.blocks], library.texts)
                self.assertEqual(made.links(), {(it.sort, it.source, it.destination) for it in net.links}, library.texts)
                self.assertEqual(made.borders(), {(it.sort, it.port, it.place) for it in net.borders}, library.texts)
                count += len(net.links)
        self.assertGreater(count, 1000)


class Network:
    """A flat network: the blocks, and steps from place to place, of one sort each."""

    def __init__(self, units: dict[str, Unit], name: str):
        self._units = units
        self.blocks: list[tuple[str, str]] = []
        self._steps: dict[tuple[str, str], list[str]] = {}
        scopes = [it.key.name for it in units[name].declared if it.section == "APPLICATION"] or [""]
        for scope in scopes:
            self._enter(name, scope, f"{scope}." if scope else "")
        self._types = dict(self.blocks)

    def _enter(self, name: str, scope: str, prefix: str) -> None:
        unit = self._units[name]
        for it in unit.declared:
            if it.key.scope == scope and it.section == "FBS":
                self.blocks.append((prefix + it.key.name, it.type.upper()))
            elif it.key.scope == scope and it.section == "SUBAPPS":
                self._enter(it.type.upper(), "", f"{prefix}{it.key.name}.")
        for link in unit.connections:
            if link.scope == scope:
                source, destination = (prefix + ".".join(use.key.name for use in end) for end in (link.source, link.destination))
                self._steps.setdefault((SORTS[link.space], source), []).append(destination)

    def _is_block(self, place: str) -> bool:
        return place.rpartition(".")[0] in self._types

    def _ends(self, sort: str, place: str):
        """The last places of all chains from a place."""
        for step in self._steps.get((sort, place), ()):
            if self._is_block(step) or "." not in step:
                yield step
            else:
                yield from self._ends(sort, step)

    def _chains(self):
        """First and last places of all chains that begin at a block or an own port."""
        for sort, place in self._steps:
            if self._is_block(place) or "." not in place:
                yield from ((sort, place, end) for end in self._ends(sort, place))

    def links(self):
        found = set()
        for sort, source, destination in self._chains():
            if self._is_block(source) and self._is_block(destination):
                found |= set(self._through_adapter(source, destination)) if sort == "adapter" else {(sort, source, destination)}
        return found

    def _through_adapter(self, plug: str, socket: str):
        block, _, port = plug.rpartition(".")
        of = next(it.type.upper() for it in self._units[self._types[block]].declared if it.section == "PLUGS" and it.key.name == port)
        for it in self._units[of].declared:
            if it.key.space in (EVENT, VARIABLE):
                ends = (plug, socket) if it.section.endswith("OUTPUT") else (socket, plug)
                yield (SORTS[it.key.space], *(f"{end}.{it.key.name}" for end in ends))

    def borders(self):
        """Own ports with the places of blocks that they lead to or come from."""
        chains = list(self._chains())
        coming = {(sort, source, end) for sort, source, end in chains if not self._is_block(source) and self._is_block(end)}
        return coming | {(sort, end, source) for sort, source, end in chains if self._is_block(source) and not self._is_block(end)}


class BrokenTest(unittest.TestCase):
    def check(self, text):
        """Whatever the text is, it is read, and what is found is there."""
        encoded, unit = text.encode(), read(text)
        for it in unit.declared:
            self.assertEqual(encoded[it.start : it.end].decode(), it.words)
            self.assertTrue(it.begin <= it.start < it.end <= it.last <= len(encoded), text)
        for use in unit.uses:
            self.assertEqual(encoded[use.start : use.end].decode().upper(), use.key.name)

    def test_texts_that_break_off(self):
        for library in so_many(sound_libraries(2), 20):
            for text in library.values():
                for end in range(len(text)):
                    self.check(text[:end])

    def test_texts_without_their_beginning(self):
        for library in so_many(sound_libraries(3), 20):
            for text in library.values():
                for start in range(0, len(text), 3):
                    self.check(text[start:])

    def test_faulty_texts(self):
        for library in so_many(faulty_libraries(4), 1000):
            for text in library.values():
                self.check(text)

    def test_what_is_left_of_a_broken_text(self):
        """A missing `;`, a missing end of a section and nonsense in it: the rest is read."""
        unit = read("""FUNCTION_BLOCK A EVENT_INPUT
            ONE WITH LEVEL
            TWO; ( 5 THREE
            FOUR; VAR_INPUT LEVEL INT; HEIGHT : INT; END_VAR
            FBS ONE : ; OTHER : B( ; LAST : B; END_EVENT EVENT_CONNECTIONS ONE. TO ; OTHER.X TO LAST.X; LAST""")
        found = [(it.section, it.key.name) for it in unit.declared[1:]]
        expected = [
            *(("EVENT_INPUT", name) for name in ("ONE", "TWO", "FOUR")),
            *(("VAR_INPUT", name) for name in ("LEVEL", "HEIGHT")),
            *(("FBS", name) for name in ("ONE", "OTHER", "LAST")),
        ]
        self.assertEqual(found, expected)
        connections = [[use.key.name for use in (*it.source, *it.destination)] for it in unit.connections]
        self.assertEqual(connections, [["ONE"], ["OTHER", "X", "LAST", "X"], ["LAST"]])


class PortsTest(unittest.TestCase):
    def test_ports(self):
        text = """FUNCTION_BLOCK A EVENT_INPUT E: T WITH X, Y; F; END_EVENT VAR_OUTPUT P, Q : ARRAY [0..1] OF INT := [A, 1]; R : INT; END_VAR
            VAR V : INT; END_VAR PLUGS N : T; END_PLUGS END_FUNCTION_BLOCK"""
        expected = [("E", "EVENT_INPUT"), ("F", "EVENT_INPUT"), *((name, "VAR_OUTPUT") for name in "PQR"), ("N", "PLUGS")]
        self.assertEqual(ports(text), expected)


def undeclared(unit: Unit, space: str):
    return ((use.start, use.end) for use in unit.uses if use.key.space == space and use.key not in unit.first)


def types_of_no_use(library: Library, unit: Unit):
    """Types of instances that are not there, broken, or of a kind that the section doesn't take."""
    for use in unit.uses:
        section = next((it.section for it in unit.declared if it.begin < use.start < it.last and it.key.space == INSTANCE), None)
        if use.key.space == TYPE and section:
            text = library.texts.get(use.key.name)
            is_good = text is not None and "SYNTAX" not in library.codes(use.key.name)
            if not is_good or read(text).kind != KINDS[section]:
                yield use.start, use.end


def doubles(unit: Unit):
    """Second declarations, and second parameters of one instance."""
    yield from ((it.start, it.end) for it in unit.declared if unit.first[it.key] is not it)
    for instance in unit.declared:
        if instance.key.space == INSTANCE and instance.section == "FBS":
            given: set[str] = set()
            for use in unit.uses:
                if instance.begin < use.start < instance.last and use.key.space == VARIABLE:
                    if use.key.name in given:
                        yield use.start, use.end
                    given.add(use.key.name)


def unknown_parameters(library: Library, unit: Unit):
    """Parameters of blocks, of types that are there, that are no data inputs."""
    for instance in unit.declared:
        text = library.texts.get(instance.type.upper(), "")
        of = read(text)
        if instance.section != "FBS" or of.kind != "FUNCTION_BLOCK" or "SYNTAX" in library.codes(instance.type.upper()):
            continue
        inputs = {key.name for key, it in of.first.items() if it.section == "VAR_INPUT"}
        for use in unit.uses:
            if instance.begin < use.start < instance.last and use.key.space == VARIABLE and use.key.name not in inputs:
                yield use.start, use.end


def second_destinations(unit: Unit):
    """Destinations of data connections that an earlier one of the network has."""
    taken: set[tuple] = set()
    for it in unit.connections:
        if it.space == VARIABLE:
            end = (it.scope, *(use.key.name for use in it.destination))
            if end in taken:
                yield it.destination[0].start, it.destination[-1].end
            taken.add(end)


if __name__ == "__main__":
    unittest.main()
