"""Cells made at random that pass all checks, and changes of a cell that each bring one cause of refusal."""

COLUMN, FOOT, HEAD, HEIGHT = 500, 1000, 4000, 5000
NAMES = "i i0 i1 i2 i3 i4 i5 a b c d e en cmd x x1 y_".split()
OUTPUTS = "q nq z o f_out".split()
SUPPLIES = {"vss": 300, "vdd": 4700}


def wire(x1, y1, x2, y2, width, name, layer=b"CALU1"):
    """Upright where both ends have one x, else level."""
    return ("S", x1, y1, x2, y2, width, name if isinstance(name, tuple) else (name, -1), b"UP" if x1 == x2 else b"RIGHT", layer)


def point(x, y, width, name, layer=b"CALU1"):
    return ("C", x, y, width, (name, -1), 0, b"NORTH", layer)


class MadeCell:
    """A cell: its ports and statements as text, its box, the items of each rail and pin, and others. `vbe` takes the place of
    its text where it isn't None."""

    def __init__(self, name, ports, declared, statements, is_mappable):
        self.name, self.ports, self.declared, self.statements = name, ports, declared, statements
        self.is_mappable, self.generics = is_mappable, ""
        self.pins, self.extra, self.columns = {}, [], 0
        self.box, self.rails, self.foot = None, {}, ["EOF"]
        self.vbe = None

    def signals(self):
        return [name for name in self.pins if self.pins[name]]

    def widen(self, columns):
        self.columns = columns
        width = COLUMN * columns
        self.box = (0, 0, width, HEIGHT)
        self.rails = {name: [wire(0, y, width, y, 600, name)] for name, y in SUPPLIES.items()}

    def end_rails(self):
        """Connectors as wide as the rails on both sides, which they reach over."""
        for name, y in SUPPLIES.items():
            self.rails[name] += [point(x, y, 600, name, b"ALU1") for x in (0, self.width())]

    def width(self):
        return COLUMN * self.columns

    def items(self):
        drawn = [*self.rails.values(), *self.pins.values(), self.extra]
        return [item for some in drawn for item in some]

    def behaviour(self):
        if self.vbe is not None:
            return self.vbe
        ports = "; ".join(self.ports)
        head = f"entity {self.name} is {self.generics}port ({ports});\nend {self.name};\n"
        return f"{head}architecture vbe of {self.name} is\n{self.declared}begin\n{self.statements}end vbe;\n".encode()


# ---- cells that pass


class CellMaker:
    def __init__(self, choose):
        self.choose = choose

    def expression(self, names, depth=2):
        choose = self.choose
        if not names:
            return choose.choice(["'0'", "'1'"])
        if depth == 0 or choose.random() < 0.3:
            return choose.choice(["", "", "not "]) + choose.choice(names)
        word = choose.choice("and or xor xnor nand nor".split())
        negated = choose.choice(["", "", "not "])
        return f"{negated}({self.expression(names, depth - 1)} {word} {self.expression(names, depth - 1)})"

    def generic_list(self, names, output):
        numbers = [(f"cin_{name}", self.choose.randrange(60)) for name in names]
        for name in names:
            for word in ("tphl", "tplh", "rdown", "rup"):
                numbers += [(f"{word}_{name}_{output}", self.choose.randrange(5000))] if self.choose.random() < 0.7 else []
        given = [f"{self.choose.choice(['', 'constant '])}{name} : natural := {number}" for name, number in numbers]
        return f"generic ({'; '.join(given)});\n" if given else ""

    def named(self, count):
        return self.choose.sample(NAMES, count)

    def ports(self, inputs, outputs):
        ports = [f"{name} : in bit" for name in inputs] + [f"{name} : out bit" for name in outputs]
        ports += [f"{name} : in bit" for name in self.choose.choice([["vdd", "vss"], ["vss", "vdd"], [], ["vdd"]])]
        self.choose.shuffle(ports)
        return ports

    def gate(self, name, inputs=None):
        names = self.named(self.choose.choice([0, 1, 1, 2, 2, 3, 4, 5, 6]) if inputs is None else inputs)
        output = self.choose.choice(OUTPUTS)
        statement = f"{output} <= {self.expression(names)};\n"
        cell = MadeCell(name, self.ports(names, [output]), "", statement, len(names) <= 6)
        cell.generics = self.generic_list(names, output)
        return self.drawn(cell, [*names, output])

    def flip_flop(self, name):
        data, output = self.choose.choice(["i", "d", "e"]), self.choose.choice(OUTPUTS)
        guard = self.choose.choice(["ck and not ck'stable", "(ck = '1' and not (ck'stable)) = '1'", "not ck'stable and ck = '1' and '1'"])
        loaded, shown = self.choose.choice([data, f"not not_{data}", f"({data} and r) or ({data} and not r)"]), self.choose.choice(["r", "not not r"])
        declared = "signal r : reg_bit register;\n" + (f"signal not_{data} : bit;\n" if "not_" in loaded else "")
        declared += "signal nr : bit;\n" if shown == "not not r" else ""
        statements = f"b : block ({guard}) begin\nr <= guarded {loaded};\nend block;\n"
        statements += f"not_{data} <= not {data};\n" if "not_" in loaded else ""
        statements += f"nr <= not r;\n{output} <= not nr;\n" if shown == "not not r" else f"{output} <= r;\n"
        cell = MadeCell(name, self.ports(["ck", data], [output]), declared, statements, True)
        cell.generics = self.generic_list(["ck", data], output)
        return self.drawn(cell, ["ck", data, output])

    def other(self, name):
        """A cell that no layout uses: without a behaviour, or neither gate nor plain flip-flop, or with more metal."""
        kind = self.choose.choice("outputs registers seven enabled inverted vector opaque mode clock constant metal via cover".split())
        if kind in ("metal", "via", "cover"):
            return self.with_metal(name, kind)
        if kind == "seven":
            return self.gate(name, 7)
        guard, block = "ck and not ck'stable", "b : block ({}) begin\n{}end block;\n"
        register = "signal r, s : reg_bit register;\n"
        one = "signal r : reg_bit register;\n"
        forms = {
            "outputs": (["a"], ["q", "z"], "", "q <= a;\nz <= not a;\n"),
            "registers": (["a", "ck"], ["q"], register, block.format(guard, "r <= guarded a;\ns <= guarded r;\n") + "q <= s;\n"),
            "enabled": (["a", "ck", "en"], ["q"], one, block.format(f"{guard} and en", "r <= guarded a;\n") + "q <= r;\n"),
            "inverted": (["a", "ck"], ["q"], one, block.format(guard, "r <= guarded not a;\n") + "q <= r;\n"),
            "constant": (["ck"], ["q"], one, block.format(guard, "r <= guarded not r;\n") + "q <= r;\n"),
            "clock": (["a", "ck"], ["q"], one, block.format("ck and not ck'stable and ck", "r <= guarded a;\n") + "q <= r;\n"),
            "opaque": (["a"], ["q"], "signal vdd_ : bit;\n", "vdd_ <= a'stable;\nq <= vdd_;\n"),
        }
        if kind in ("vector", "mode"):
            return self.with_type(name, kind)
        inputs, outputs, declared, statements = forms[kind]
        cell = MadeCell(name, self.ports(inputs, outputs), declared, statements, False)
        return self.drawn(cell, inputs + outputs)

    def with_metal(self, name, kind):
        cell = self.gate(name)
        cell.is_mappable = False
        x = COLUMN * self.choose.randrange(cell.columns + 1)
        added = {
            "metal": wire(x, 1000, x, 2000, 200, "*", self.choose.choice([b"ALU2", b"ALU6", b"CALU3"])),
            "via": ("V", x, 1000, self.choose.choice([b"CONT_VIA", b"CONT_VIA5"]), ("*", -1)),
            "cover": wire(x, 1000, x, 2000, 200, "*", self.choose.choice([b"TALU2", b"TALU9"])),
        }
        cell.extra.append(added[kind])
        return cell

    def with_type(self, name, kind):
        low, high = self.choose.choice([(0, 3), (0, 0), (2, 5)])
        if kind == "mode":
            type_ = self.choose.choice(["inout bit", "in mux_bit", "in wor_bit"])
            cell = MadeCell(name, self.ports([], ["q"]) + [f"a : {type_}"], "", "q <= a;\n", False)
            return self.drawn(cell, ["a", "q"])
        type_ = f"bit_vector ({high} downto {low})"
        cell = MadeCell(name, self.ports([], []) + [f"a : in {type_}", f"q : out {type_}"], "", "q <= not a;\n", False)
        return self.drawn(cell, [(text, k) for text in "aq" for k in range(low, high + 1)])

    # the drawing

    def drawn(self, cell, pins):
        """Each pin in columns of its own."""
        choose, column = self.choose, 1
        for pin in choose.sample(pins, len(pins)):
            column += choose.choice([0, 0, 0, 1, 2])
            cell.pins[pin], used = self.pieces(pin, column)
            column += used
        cell.widen(min(max(column + choose.choice([0, 0, 1]), 2), 32))
        if choose.random() < 0.3:
            cell.end_rails()
        for _ in range(choose.choice([0, 0, 1, 3])):
            cell.extra.append(self.harmless(cell))
        return cell

    def pieces(self, pin, column):
        """The items of a pin and how many columns they take."""
        x, kind = COLUMN * column, self.choose.random()
        name = pin if isinstance(pin, tuple) else (pin, -1)
        y = COLUMN * self.choose.randrange(2, 9)
        if kind < 0.5:
            return [wire(x, FOOT, x, HEAD, 200, name)], 1
        if kind < 0.6:
            return [("S", x, HEAD, x, FOOT, 200, name, b"DOWN", b"CALU1")], 1
        if kind < 0.7:
            return [("C", x, y, 200, name, self.choose.randrange(3), self.choose.choice([b"EAST", b"WEST"]), self.choose.choice([b"CALU1", b"ALU1"]))], 1
        if kind < 0.8:
            return [wire(x, y, x + COLUMN, y, self.choose.choice([200, 201, 300]), name)], 2
        if kind < 0.9:
            return [wire(x, FOOT, x, FOOT, 200, name), wire(x, HEAD, x, HEAD, 210, name)], 1
        return [wire(x, FOOT, x, 2000, 200, name), wire(x, 2000, x, 3000, 200, "*", b"ALU1")], 1

    def harmless(self, cell):
        choose, width = self.choose, cell.width()
        x, y = choose.randrange(0, width + 1, 100), choose.randrange(0, 5001, 100)
        return choose.choice([
            wire(0, 3900, width, 3900, 2400, "*", b"NWELL"),
            wire(x, y, x, y + 300, 100, "n1", choose.choice([b"POLY", b"NTRANS", b"PDIF", b"TALU1", b"ALU7", b"TALU1"])),
            wire(200, 300, width - 200, 300, 100, "inner", b"ALU1"),
            point(x, y, 200, "*", b"NDIF"),
            ("V", x, y, choose.choice([b"CONT_POLY", b"CONT_BODY_N", b"C_X_P", b"CONT_VIA6"]), ("*", -1)),
            ("R", x, y, choose.choice([b"ref_ref", b"ref_con"]), choose.choice([b"", b"i_20", b"any text (1) *"])),
            ("B", choose.choice([b"", b"a remark, with commas", b"  "])),
        ])

    def cell(self, name):
        kind = self.choose.random()
        return self.gate(name) if kind < 0.65 else self.flip_flop(name) if kind < 0.8 else self.other(name)


# ---- changes, each of which brings one cause


def broken_behaviour(choose, cell):
    text = cell.behaviour()
    cell.vbe = choose.choice([
        b"",
        text[: choose.randrange(len(text) - 6)],
        text.replace(b"begin", b"begin s0 <= '1';", 1),
        text.replace(b"port (", b"port (u0 : out bit; ", 1),
        text.replace(b"<=", b"< =", 1),
        text.replace(b"end vbe", b"end other", 1),
        text + b"x",
        text.replace(b"begin", b"~", 1),
    ])


def broken_layout(choose, cell):
    instance = ("I", 0, 0, ("inv_x1", -1), ("g0", -1), b"NOSYM")
    kind = choose.randrange(4)
    if kind == 0:
        cell.foot = choose.choice([[], ["EO"], ["EOF", "B "], ["EOF", "EOF"]])
    elif kind == 1:
        cell.extra.append(instance)
    elif kind == 2:
        cell.extra.append(wire(0, 0, 0, 0, 0, "*"))
    else:
        cell.extra.append(wire(0, 0, 0, 0, 1, "*", choose.choice([b"ALU0", b"ALU10", b"alu1", b"METAL1"])))


def other_names(choose, cell):
    kind = choose.randrange(4)
    if kind == 0:
        cell.ports.append("u0 : in bit")
    elif kind == 1:
        cell.extra.append(choose.choice([point(500, 2000, 200, "u1", b"POLY"), wire(500, 2000, 500, 2000, 200, "u1", b"CALU9")]))
    elif kind == 2:
        cell.pins[choose.choice(list(cell.pins))] = []
    else:
        supply = choose.choice(list(cell.rails))
        cell.rails[supply] = [wire(0, SUPPLIES[supply], cell.width(), SUPPLIES[supply], 600, supply, b"ALU1")]


def other_box(choose, cell):
    x1, y1, x2, y2 = cell.box
    cell.box = choose.choice([
        (x1, y1, x2, y2 - 1), (x1, y1, x2, y2 + 5000), (x1, y1, x2 + 1, y2), (x1, y1, x1, y2), (x1 - 500, y1, x2, y2), (x1, y1 + 1, x2, y2 + 1),
    ])


def other_rail(choose, cell):
    supply = choose.choice(list(cell.rails))
    y, width = SUPPLIES[supply], cell.width()
    cell.rails[supply] = choose.choice([
        [wire(0, y, width, y, 598, supply)],
        [wire(0, y + 1, width, y + 1, 600, supply)],
        [wire(301, y, width, y, 600, supply)],
        [wire(0, y, width - 301, y, 600, supply)],
        [wire(0, y, width, y, 300, supply), wire(0, y + 150, width, y + 150, 300, supply)],
        [wire(0, y, 250, y, 600, supply), wire(0, y, width, y, 600, "*", b"ALU1")],
    ])


def place_of(cell, pin):
    item = cell.pins[pin][0]
    return item[1], item[2]


def without_access(choose, cell):
    pin = choose.choice(cell.signals())
    x, _ = place_of(cell, pin)
    cell.pins[pin] = choose.choice([
        [wire(x + 10, FOOT, x + 10, HEAD, 200, pin)],
        [wire(x, FOOT, x, HEAD, 198, pin)],
        [point(x, 2000, 200, pin, b"POLY")],
        [wire(x, 1101, x, 1399, 200, pin)],
        [wire(x - 50, FOOT, x - 50, HEAD, 100, pin), wire(x + 50, FOOT, x + 50, HEAD, 100, pin)],
        [wire(x, FOOT, x, HEAD, 200, "*", b"ALU1"), wire(x, FOOT, x, HEAD, 150, pin)],
    ])


def joined_pins(choose, cell):
    x, y = place_of(cell, choose.choice(cell.signals()))
    others = [place_of(cell, pin) for pin in cell.signals() if place_of(cell, pin)[0] != x]
    if others and choose.random() < 0.6:
        other, height = choose.choice(others)
        cell.extra += [wire(x, y, other, y, 200, "*", b"ALU1"), wire(other, y, other, height, 200, "*", b"ALU1")]
    else:
        cell.extra.append(wire(x, y, x, choose.choice(list(SUPPLIES.values())), 200, "n", b"ALU1"))


def out_of_place(choose, cell):
    width = cell.width()
    pin = choose.choice(cell.signals())
    kind = choose.randrange(4)
    if kind == 0:
        cell.extra.append(wire(0, 2500, 0, 2500, 200, "*", b"ALU1"))
    elif kind == 1:
        cell.extra.append(choose.choice([wire(0, 300, width, 300, 700, "vss"), point(width, 4700, 602, "vdd")]))
    elif kind == 2:
        cell.pins[pin] = [wire(x, 2000, x, 3000, 200, pin) for x in [choose.choice([-1000, width + 500])]]
    else:
        cell.extra.append(point(*choose.choice([(width + 201, 4700, 200), (500, 5000, 200), (-251, 300, 100)]), "*", b"ALU1"))


def near_a_rail(choose, cell):
    pin = choose.choice(cell.signals())
    x, _ = place_of(cell, pin)
    kind = choose.randrange(3)
    if kind == 0:
        cell.extra.append(wire(x, 899, x, FOOT, 200, "*", b"ALU1"))
    elif kind == 1:
        cell.pins[pin].append(wire(x, HEAD, x, 4101, 200, pin))
    else:
        cell.extra.append(point(x, choose.choice([701, 750, 899]), 200, "*", b"ALU1"))


def one_column(choose, cell):
    """Two pins above each other, all others as they were."""
    one, other = choose.sample(cell.signals(), 2)
    x, _ = place_of(cell, one)
    cell.pins[one] = [wire(x, FOOT, x, 2000, 200, one)]
    cell.pins[other] = [wire(x, 3000, x, HEAD, 200, other)]


def too_wide(choose, cell):
    cell.widen(choose.choice([33, 33, 34, 60]))


def shifted(choose, item):
    """The wire or point a little aside, longer or wider; it keeps its direction."""
    by = choose.choice([-1, 1, -2, 2, -50, 50, -100, 100, -200, 200, -500, 500])
    item, way = list(item), choose.randrange(4)
    width = 5 if item[0] == "S" else 3
    if way == 0:
        item[width] = max(1, item[width] + by)
    elif item[0] == "C":
        item[1 + way % 2] += by
    elif way == 3:
        item[4 if item[7] in (b"UP", b"DOWN") else 3] += by
    else:
        for k in (way, way + 2):
            item[k] += by
    return tuple(item)


def shift(choose, cell):
    """One of the items that count is shifted, whatever comes of it."""
    of_one = choose.choice([some for some in (*cell.rails.values(), *cell.pins.values(), cell.extra) if some])
    k = choose.randrange(len(of_one))
    if of_one[k][0] in "SC":
        of_one[k] = shifted(choose, of_one[k])


WIDTH = 11
CHANGES = {
    1: broken_behaviour, 2: broken_layout, 3: other_names, 4: other_box, 5: other_rail, 6: without_access,
    7: joined_pins, 8: out_of_place, 9: near_a_rail, 10: one_column, WIDTH: too_wide,
}


def can_change(cell, cause):
    """Whether the change brings this cause: the first three stop every cell, the others one that a layout may use."""
    enough = 2 if cause == 10 else 1
    return len(cell.signals()) >= enough and (cause <= 3 or cell.is_mappable)
