"""Random netlists as structural texts over the models of a library, patterns for them, and texts with one token changed."""

import re

from acceptance.makers.random_sources import Maker, Vector, span
from share.formats.models import IN, OUT
from share.formats.vhdl_reader import SUPPLIES, bits_of, spelled

CHANGES = (
    "( ) , ; : => <= . 0 1 2 3 4294967296 downto to in out inout bit bit_vector mux_bit wor_bit mux_vector signal component end port map begin is of "
    "entity architecture vdd vss ck u0 u1 s0 s0(0) i0 i1 o0 nosuch_x1 inv_x1 a b q r i nq bus generic '1' \"01\""
).split()
TOKEN = re.compile(r"\w+|=>|<=|:=|[^\w\s]")
# what is exchanged for another of its kind in the text: nets, nets with their bits, pins, numbers, bits and ranges, cells, names
KINDS = (
    r"(?<==> )\w+", r"(?<==> )[^,)]+\)?(?=[,)])", r"\w+(?= =>)", r"\b\d+\b", r"\((\d+|\d+ (down)?to \d+)\)", r"\bx\d\b", r"\b[a-z]\d\b",
)
# and for one of these words
WORDS = {
    r"\b(in|out)\b": ("in", "out", "inout"), r"\b(downto|to)\b": ("downto", "to"), r"\bbit\b": ("mux_bit", "wor_bit", "bit_vector (0 to 0)", "bit bus"),
    r"\bbit_vector\b": ("mux_vector", "wor_vector"), r"(end )?component": ("end", "component", "end component"), r"\bnet\b": ("net", "made"),
}
PARTS = (r"\w+(\(\d+\))? => [^,;]+,\s*", r"\w+ : (in|out) \w+( \([^)]*\))?; ", r"\n  \w+ : \w+ port map [^;]*;", r"  signal [^;]*;\n")
COUNTS = (0, 1, 1, 2, 3, 3, 5, 8, 12)


def bounds_of(vector):
    return None if vector.bounds is None else (vector.bounds[0], vector.falls(), vector.bounds[1])


class NetMaker:
    """A netlist whose instances are made in an order in which each output depends on what is made before it, or on anything."""

    def __init__(self, choose, models, is_ordered=True):
        self.choose, self.models, self.is_ordered = choose, models, is_ordered
        self.maker = Maker(choose)
        self.vectors, self.modes = [], {}
        self.clock = None

    def text(self):
        """A text that is a netlist, but perhaps for rings where it isn't ordered."""
        choose = self.choose
        chosen = [choose.choice(list(self.models.values())) for _ in range(choose.choice(COUNTS))]
        for k in range(choose.randrange(1, 4)):
            self.declare(self.maker.vector(f"i{k}"), IN)
        self.clock = self.clock_net() if any(model.clock for model in chosen) else None
        self.known = [bit for v in self.vectors if v.name != "ck" for bit in self.bits(v)] + [(supply, -1) for supply in SUPPLIES]
        places = [(k, name) for k, model in enumerate(chosen) for name in self.pin_names(model, OUT)]
        maps = [{} for _ in chosen]
        self.place_outputs(chosen, places, maps)
        everything = self.known + [bit for v in self.vectors if self.modes[v.name] != IN for bit in self.bits(v)]
        for model, pairs in zip(chosen, maps):
            self.place_inputs(model, pairs, everything)
            self.known += [bit for name in self.pin_names(model, OUT) for bit in self.driven(pairs, name)]
        return self.spelled(chosen, maps)

    def declare(self, vector, mode):
        self.vectors.append(vector)
        self.modes[vector.name] = mode

    def clock_net(self):
        """A port of its own, or one bit of a vector."""
        vector = Vector("ck", self.choose.choice([None, None, None, (1, 0), (2, 2)]))
        self.declare(vector, IN)
        return vector.name if vector.bounds is None else vector.part(0, 1)

    @staticmethod
    def bits(vector):
        return bits_of(vector.name, bounds_of(vector))

    @staticmethod
    def pin_names(model, way):
        return sorted({name for (name, _), mode in model.pins.items() if mode == way and name not in SUPPLIES})

    @staticmethod
    def pin_bits(model, name):
        """From the left, as the text declares them: from the highest down."""
        return sorted((bit for bit in model.pins if bit[0] == name), reverse=True)

    def place_outputs(self, chosen, places, maps):
        """Output pins beside each other in vectors, some of which are ports."""
        places, count = list(places), 0
        self.choose.shuffle(places)
        while places:
            taken = [places.pop() for _ in range(min(self.choose.choice([1, 1, 1, 2, 3]), len(places)))]
            width = sum(len(self.pin_bits(chosen[k], name)) for k, name in taken)
            low, is_port = self.choose.randrange(3), self.choose.random() < 0.5
            high = low + width - 1
            is_scalar = width == 1 and self.choose.random() < 0.7
            bounds = None if is_scalar else (high, low) if width == 1 or self.choose.random() < 0.7 else (low, high)
            vector = Vector(f"{'o' if is_port else 's'}{count}", bounds)
            self.declare(vector, OUT if is_port else None)
            count += 1
            self.share(chosen, taken, maps, vector)

    def share(self, chosen, taken, maps, vector):
        """Each of some output pins takes the next part of the vector, as a whole or bit by bit."""
        at = 0
        for k, name in taken:
            bits, pin = self.bits(vector), self.pin_bits(chosen[k], name)
            part = bits[at : at + len(pin)]
            if pin[0][1] >= 0 and self.choose.random() < 0.5:
                maps[k].update((spelled(bit), (spelled(net), [net])) for bit, net in zip(pin, part))
            elif vector.bounds is None or (len(part) == vector.width and self.choose.random() < 0.7):
                maps[k][name] = vector.name, part
            else:
                maps[k][name] = vector.part(at, len(pin)), part
            at += len(pin)

    @staticmethod
    def driven(pairs, name):
        return [net for pin, (_, nets) in pairs.items() if pin.split("(")[0] == name for net in nets]

    def place_inputs(self, model, pairs, everything):
        at_once = set().union(*model.depends.values())
        for name in self.pin_names(model, IN):
            pin = self.pin_bits(model, name)
            if pin[0] == model.clock:
                pairs[name] = self.clock, []
                continue
            known = self.known if self.is_ordered and at_once & set(pin) else everything
            part = self.part(len(pin), set(known))
            if part and self.choose.random() < 0.7:
                pairs[name] = part, []
            else:
                pairs.update((spelled(bit), (spelled(self.choose.choice(known)), [])) for bit in pin)
        for supply in SUPPLIES:
            pairs[supply] = supply, []

    def part(self, width, known):
        """Some bits beside each other that are known, in either direction."""
        fitting = []
        for v in self.vectors:
            if v.bounds is None:
                continue
            low, high = min(v.bounds), max(v.bounds)
            fitting += [(v.name, k, k + width - 1) for k in range(low, high - width + 2) if all((v.name, n) in known for n in range(k, k + width))]
        if not fitting:
            return None
        name, low, high = self.choose.choice(fitting)
        if width == 1 and self.choose.random() < 0.6:
            return f"{name}({low})"
        return name + (span(low, high, False) if self.choose.random() < 0.4 else span(high, low, True))

    # the text

    def spelled(self, chosen, maps):
        choose = self.choose
        ports = [f"{v.name} : {self.modes[v.name]} {v.type('bit', 'bit_vector')}" for v in self.vectors if self.modes[v.name]]
        ports += [f"{supply} : in bit" for supply in SUPPLIES]
        choose.shuffle(ports)
        unused = [model for model in self.models.values() if choose.random() < 0.1]
        declared = [self.component(model) for model in {model.name: model for model in chosen + unused}.values()]
        declared += [f"  signal {v.name} : {v.type('bit', 'bit_vector')};\n" for v in self.vectors if self.modes[v.name] is None]
        declared += ["  signal unused : bit_vector (3 to 5);\n"] if choose.random() < 0.2 else []
        choose.shuffle(declared)
        instances = [self.instance(f"{choose.choice(['u', 'q', 'i'])}{k}", model, pairs) for k, (model, pairs) in enumerate(zip(chosen, maps))]
        choose.shuffle(instances)
        generic = choose.choice(["", "", "", " generic (constant w, d : natural := 4; e : time);"])
        head = f"entity made is{generic}\n  port (\n    {'; '.join(ports)}\n  );\nend made;\n\narchitecture net of made is\n"
        return f"{head}{''.join(declared)}begin\n{''.join(instances)}end net;\n"

    def component(self, model):
        """Its ports in any order, some of those with one type in one declaration."""
        choose, of_type = self.choose, {}
        for name in sorted({name for name, _ in model.pins}):
            bits = self.pin_bits(model, name)
            kind = "bit" if bits[0][1] < 0 else f"bit_vector {span(bits[0][1], bits[-1][1], True)}"
            of_type.setdefault(f"{model.pins[bits[0]]} {kind}", []).append(name)
        ports = []
        for kind, names in of_type.items():
            cut = choose.choice([0, 0, len(names), choose.randrange(len(names) + 1)])
            groups = [names[:cut]] if cut else []
            ports += [f"{choose.choice(['', '', 'signal '])}{', '.join(group)} : {kind}" for group in groups + [[name] for name in names[cut:]]]
        choose.shuffle(ports)
        name = choose.choice(["", "", f" {model.name}"])
        return f"  component {model.name}\n    port ({'; '.join(ports)});\n  end component{name};\n"

    def instance(self, name, model, pairs):
        pairs = [f"{pin} => {net}" for pin, (net, _) in pairs.items()]
        self.choose.shuffle(pairs)
        comma = self.choose.choice([", ", ",\n    "])
        return f"  {name} : {model.name} port map ({comma.join(pairs)});\n"

    def patterns(self, count):
        """A pattern file over the ports, in which each output is `?*`."""
        self.maker.inputs = [v for v in self.vectors if self.modes[v.name] == IN and v.name != "ck"]
        clocks = [v for v in self.vectors if v.name == "ck"]
        self.maker.inputs += [v for v in clocks if v.bounds]
        self.maker.outputs = [v for v in self.vectors if self.modes[v.name] == OUT]
        self.maker.has_clock = any(v.bounds is None for v in clocks)
        return self.maker.pattern_file(count)


def exchanged(choose, text):
    """The text with one token exchanged for another of its kind, or text where there is none."""
    kind = choose.choice([*KINDS, *WORDS])
    found = list(re.finditer(kind, text))
    if not found:
        return text
    one = choose.choice(found)
    other = choose.choice(WORDS[kind] if kind in WORDS else [place[0] for place in found])
    return text[: one.start()] + other + text[one.end() :]


def without_or_twice(choose, text):
    """One association, port or instance left out or put in a second time."""
    found = choose.choice(list(re.finditer(choose.choice(PARTS), text)) or [None])
    if found is None:
        return text
    return text[: found.start()] + choose.choice(["", 2 * found[0]]) + text[found.end() :]


def one_change(choose, text):
    """The text with one token exchanged, left out or doubled, or one with a part left out or doubled."""
    way = choose.random()
    if way < 0.5:
        return exchanged(choose, text)
    if way < 0.7:
        return without_or_twice(choose, text)
    found = choose.choice(list(TOKEN.finditer(text)))
    put = choose.choice([" ", f"{found[0]} {found[0]}", choose.choice(CHANGES)])
    return text[: found.start()] + put + text[found.end() :]
