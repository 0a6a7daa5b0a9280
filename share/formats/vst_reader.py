"""The grammar of structural texts, for the second reader, written from docs/formats/netlists.md."""

from typing import NamedTuple, Optional, Union

from .vhdl_reader import Reader, Symbol, bits_of, fault

TYPES = ("bit", "bit_vector", "mux_bit", "wor_bit", "mux_vector", "wor_vector")


class Component(NamedTuple):
    """Its name with the line on which it begins, and its ports as (name, mode, bounds), which are declared nowhere."""

    line: int
    name: str
    ports: list

    def bounds(self):
        return {name: bounds for name, _, bounds in self.ports}

    def bits(self):
        """Each bit with its mode, those of a name from the left."""
        return [(bit, mode) for name, mode, bounds in self.ports for bit in bits_of(name, bounds)]


class Association(NamedTuple):
    """A pin, perhaps with the number of one bit, and the net behind the arrow, perhaps with a bit or with bounds."""

    pin_line: int
    pin: str
    bit: Optional[int]
    net_line: int
    net: str
    selection: Union[int, tuple, None]


class Instance(NamedTuple):
    name: str
    component_line: int
    component: str
    associations: list
    end_line: int


class Structure(NamedTuple):
    name: str
    components: list
    instances: list


class StructureReader(Reader):
    """Ports and signals are in `symbols`, the bounds of declarations in `ranges`, the lines of forms that are left out in
    `forms`, each in file order."""

    def __init__(self, tokens, last):
        super().__init__(tokens, last)
        self.components, self.labels = set(), set()

    def new_of(self, names, line):
        """A name that these names don't have yet; the declaration begins on this line."""
        if self.kind() == "id" and self.tokens[self.at][1] in names:
            raise fault(line, "twice", self.tokens[self.at][1])
        name = self.take("id")[1]
        names.add(name)
        return name

    def component_port(self):
        if self.kind() == "signal":
            self.at += 1
        names = [self.take("id")[1]]
        while self.kind() == ",":
            self.at += 1
            names.append(self.take("id")[1])
        self.take(":")
        mode_line = self.line()
        mode = self.take("in", "out", "inout")[0]
        word, bounds, line = self.typed(names, TYPES)
        if self.kind() == "bus":
            self.at += 1
        if mode == "inout":
            self.forms.append(mode_line)
        self.note_type(word, line)
        return [(name, mode, bounds) for name in names]

    def note_type(self, word, line):
        if word[:3] in ("mux", "wor"):
            self.forms.append(line)

    def component(self):
        line = self.line()
        self.take("component")
        name = self.new_of(self.components, line)
        self.take("port")
        ports = []
        self.listed(lambda: ports.extend(self.component_port()))
        self.take("end")
        self.take("component")
        self.closed(name)
        return Component(line, name, ports)

    def inner(self):
        """Signals, which are of the types of ports."""
        start = self.line()
        self.take("signal")
        names = self.new_names(start)
        self.take(":")
        word, bounds, line = self.typed(names, TYPES)
        self.take(";")
        self.symbols += [Symbol(name, "inner", bounds, start) for name, _ in names]
        self.note_type(word, line)

    def association(self):
        _, pin, pin_line = self.take("id")
        bit = None
        if self.kind() == "(":
            self.open()
            bit = self.take("number")[1]
            self.close()
        self.take("=>")
        _, net, net_line = self.take("id")
        selection = self.selection()
        return Association(pin_line, pin, bit, net_line, net, selection if selection is None or isinstance(selection, int) else selection[0])

    def instance(self):
        name = self.new_of(self.labels, self.line())
        self.take(":")
        _, component, line = self.take("id")
        self.take("port")
        self.take("map")
        self.open()
        associations = [self.association()]
        while self.kind() == ",":
            self.at += 1
            associations.append(self.association())
        end_line = self.line()
        self.close()
        self.take(";")
        return Instance(name, line, component, associations, end_line)

    def structure(self):
        entity = self.entity()
        self.take("architecture")
        name = self.take("id")[1]
        self.take("of")
        if self.kind() == "id" and self.tokens[self.at][1] != entity:
            raise self.syntax()
        self.take("id")
        self.take("is")
        components, instances = [], []
        while self.kind() in ("component", "signal"):
            if self.kind() == "component":
                components.append(self.component())
            else:
                self.inner()
        self.take("begin")
        while self.kind() == "id":
            instances.append(self.instance())
        self.take("end")
        self.closed(name)
        if self.kind() is not None:
            raise self.syntax()
        return Structure(entity, components, instances)
