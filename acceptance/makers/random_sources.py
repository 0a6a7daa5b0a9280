"""Random data-flow sources that are machines, pattern files for them, and texts with a few tokens changed."""

import re

WORDS = (
    "begin end block guarded when else and or xor nand nor not a b v q r state ck vdd ( ) , ; : <= = /= & ' '0' '1' \"01\" "
    'x"3" "" 0 1 2 3 stable downto to signal register bit reg_bit bit_vector in out inout assert after ns entity is'
).split()
PATTERN_WORDS = "in out begin end ; : ( ) < > + ? * ?* 0 1 2 7 f 00 ns fs us b O X downto to a q v 3".split()


class Vector:
    """A name with its width: bounds is None or (left, right)."""

    def __init__(self, name, bounds):
        self.name, self.bounds = name, bounds
        self.width = 1 if bounds is None else abs(bounds[0] - bounds[1]) + 1

    def type(self, scalar, vector):
        return scalar if self.bounds is None else f"{vector} {span(*self.bounds)}"

    def part(self, first, count):
        """So many bits from one on, counted from the left."""
        left, right = self.bounds
        step = -1 if self.falls() else 1
        if count == 1:
            return f"{self.name}({left + step * first})"
        return f"{self.name}{span(left + step * first, left + step * (first + count - 1), self.falls())}"

    def falls(self):
        return self.bounds[0] >= self.bounds[1]


def span(left, right, falls=None):
    return f"({left} {'downto' if (left >= right if falls is None else falls) else 'to'} {right})"


class Maker:
    def __init__(self, choose):
        self.choose = choose

    def vector(self, name):
        kind = self.choose.random()
        if kind < 0.5:
            return Vector(name, None)
        low, width = self.choose.randrange(4), self.choose.choice([1, 2, 2, 3, 4, 5, 8])
        high = low + width - 1
        return Vector(name, (high, low) if kind < 0.8 or width == 1 else (low, high))

    # expressions of a width over the names that may be read

    def literal(self, width):
        bits = "".join(self.choose.choice("01") for _ in range(width))
        if width == 1 and self.choose.random() < 0.7:
            return f"'{bits}'"
        if width % 4 == 0 and self.choose.random() < 0.5:
            return f'{self.choose.choice("xX")}"{int(bits, 2):0{width // 4}x}"'
        if width % 3 == 0 and self.choose.random() < 0.5:
            return f'o"{int(bits, 2):0{width // 3}o}"'
        return self.choose.choice(['"%s"', 'b"%s"']) % bits

    def leaf(self, width):
        fitting = [v for v in self.known if v.width == width or (v.bounds and v.width > width)]
        if not fitting or self.choose.random() < 0.08:
            return self.literal(width)
        v = self.choose.choice(fitting)
        if v.width == width and (v.bounds is None or self.choose.random() < 0.6):
            return v.name
        return v.part(self.choose.randrange(v.width - width + 1), width)

    def operand(self, width, depth):
        kind = self.choose.random()
        if depth == 0 or kind < 0.35:
            tree = self.leaf(width)
        else:
            tree = f"({self.expression(width, depth - 1)})"
        return f"not {tree}" if self.choose.random() < 0.25 else tree

    def expression(self, width, depth):
        kind = self.choose.random()
        if kind < 0.15:
            return self.operand(width, depth)
        if width > 1 and kind < 0.3:
            first = self.choose.randrange(1, width)
            return f"{self.operand(first, depth)} & {self.operand(width - first, depth)}"
        if width == 1 and kind < 0.4:
            across = self.choose.choice([1, 1, 2, 3, 4, 8])
            return f"{self.operand(across, depth)} {self.choose.choice(['=', '/='])} {self.operand(across, depth)}"
        if kind < 0.55:
            return f"{self.operand(width, depth)} {self.choose.choice(['nand', 'nor'])} {self.operand(width, depth)}"
        word = self.choose.choice(["and", "or", "xor", "xnor"])
        return f" {word} ".join(self.operand(width, depth) for _ in range(self.choose.choice([2, 2, 3])))

    def value(self, width):
        text = ""
        for _ in range(self.choose.choice([0, 0, 0, 1, 2, 3])):
            text += f"{self.expression(width, 1)} when {self.expression(1, 1)} else\n    "
        return text + self.expression(width, 2) + (" after 3 ns" if self.choose.random() < 0.1 else "")

    def assignments(self, v, guarded=""):
        """What drives the bits of a name: one assignment, or one for each of some parts."""
        if v.bounds is None or self.choose.random() < 0.6:
            return [f"{v.name} <= {guarded}{self.value(v.width)};\n"]
        made, at = [], 0
        while at < v.width:
            count = self.choose.randrange(1, v.width - at + 1)
            made.append(f"{v.part(at, count)} <= {guarded}{self.value(count)};\n")
            at += count
        return made

    def source(self, is_ordered=True):
        """A source; where it isn't ordered, its signals may read each other in rings."""
        choose = self.choose
        inputs = [self.vector(f"i{k}") for k in range(choose.randrange(1, 5))]
        outputs = [self.vector(f"o{k}") for k in range(choose.randrange(1, 4))]
        inner = [self.vector(f"s{k}") for k in range(choose.randrange(5))]
        registers = [self.vector(f"r{k}") for k in range(choose.choice([0, 1, 2, 3]))]
        supplies = ["vdd", "vss"] if choose.random() < 0.6 else []
        self.inputs, self.outputs, self.has_clock = inputs, outputs, bool(registers)
        ports = [f"{v.name} : in {v.type('bit', 'bit_vector')}" for v in inputs]
        ports += [f"{v.name} : out {v.type('bit', 'bit_vector')}" for v in outputs]
        ports += [f"{name} : in bit" for name in supplies]
        ports += ["ck : in bit"] if registers else []
        choose.shuffle(ports)
        declared = [f"signal {v.name} : {v.type('bit', 'bit_vector')};\n" for v in inner]
        declared += [f"signal {v.name} : {v.type('reg_bit', choose.choice(['reg_vector', 'reg_bit_vector']))} register;\n" for v in registers]
        choose.shuffle(declared)
        self.known = inputs + registers + [Vector(name, None) for name in supplies]
        self.known += [] if is_ordered else inner + outputs
        statements = []
        for v in choose.sample(inner + outputs, len(inner) + len(outputs)):
            statements += self.assignments(v)
            self.known += [v] if is_ordered else []
        for k, v in enumerate(registers):
            statements.append(self.block(f"block{k}", v))
        if choose.random() < 0.3:
            statements.append(f'assert {self.expression(1, 1)} report "!" severity warning;\n')
        choose.shuffle(statements)
        text = f"entity made is port (\n  {'; '.join(ports)});\nend made;\narchitecture vbe of made is\n{''.join(declared)}begin\n{''.join(statements)}end vbe;\n"
        return text.upper().replace('X"', 'x"') if choose.random() < 0.1 else text

    def block(self, label, register):
        parts = ["ck" if self.choose.random() < 0.7 else "(ck = '1')", "not (ck'stable)" if self.choose.random() < 0.5 else "not ck'stable"]
        parts += [f"({self.expression(1, 1)})" for _ in range(self.choose.choice([0, 0, 1, 2]))]
        self.choose.shuffle(parts)
        guard = " and ".join(parts)
        if self.choose.random() < 0.5:
            guard = f"({guard}) = '1'"
        return f"{label} : block ({guard}) begin\n{''.join(self.assignments(register, 'guarded '))}end block {label};\n"

    # patterns

    def columns(self):
        """Each a direction, a name, bounds, a format and a width."""
        made = []
        for way, vectors in (("in", self.inputs), ("out", self.outputs)):
            for v in vectors:
                if self.choose.random() < 0.08:
                    continue
                if v.bounds is None:
                    made.append((way, v.name, None, self.choose.choice("bBxO"), 1))
                    continue
                low, high = min(v.bounds), max(v.bounds)
                cut = self.choose.randrange(low, high + 1) if self.choose.random() < 0.3 else high
                for a, b in ((low, cut), (cut + 1, high)):
                    if a <= b:
                        made.append((way, v.name, (a, b) if self.choose.random() < 0.3 else (b, a), self.choose.choice("bBoXx"), b - a + 1))
        if self.has_clock:
            made.append(("in", "ck", None, "b", 1))
        self.choose.shuffle(made)
        return made

    def pattern_file(self, count):
        """A pattern file in which each output is `?*`."""
        columns, text = self.columns(), ""
        for way, name, bounds, format, _ in columns:
            text += f"{way} {name}{' ' + span(*bounds) if bounds else ''}{'' if format == 'B' else ' ' + format};\n"
        text += "begin\n"
        for k in range(count):
            time = f"{k} ns" if self.choose.random() < 0.5 else f"+ {min(k, 1)} ns"
            label = f" p{k}" if self.choose.random() < 0.5 else ""
            values = [self.digits(c) if c[0] == "in" else "?*" for c in columns]
            text += f"< {time}>{label} : {' '.join(values)};\n"
        return text + "end;\n"

    def digits(self, column):
        _, _, _, format, width = column
        value = self.choose.getrandbits(width)
        size, letter = {"b": (1, "b"), "o": (3, "o"), "x": (4, "x")}[format.lower()]
        return f"{value:0{(width + size - 1) // size}{letter}}"


SAME = [
    "and or xor xnor nand nor".split(), "= /=".split(), "downto to".split(), "in out inout".split(),
    "bit reg_bit mux_bit".split(), "bit_vector reg_vector".split(), "0 1 2 3 4 7 8".split(),
]


def changed(choose, text, words):
    """The text with one or two changes: a token for one of its kind or any other, a line left out, again or moved."""
    for _ in range(choose.choice([1, 1, 2])):
        kind = choose.random()
        if kind < 0.3:
            lines = text.split("\n")
            at, to = choose.randrange(len(lines)), choose.randrange(len(lines))
            line = lines[at]
            if kind < 0.2:
                del lines[at]
            if kind > 0.1:
                lines.insert(to, line)
            text = "\n".join(lines)
            continue
        tokens = re.findall(r"\w+|\s+|[^\w\s]+", text)
        places = [k for k, token in enumerate(tokens) if not token.isspace()]
        at = choose.choice(places)
        kin = next((group for group in SAME if tokens[at] in group), None)
        names = [token for token in tokens if token[0].isalpha() and token[-1].isdigit()]
        if kind < 0.8 and kin:
            tokens[at] = choose.choice(kin)
        elif kind < 0.8 and tokens[at][0].isalpha() and names:
            tokens[at] = choose.choice(names)
        elif kind < 0.9:
            tokens[at] = choose.choice(words)
        elif kind < 0.95:
            tokens.insert(at, choose.choice(words))
        else:
            del tokens[at]
        text = "".join(tokens)
    return text


def flipped(choose, text):
    """The text with one digit of one expected value exchanged, or None where there is none."""
    lines = text.split("\n")
    places = [(n, k + 1) for n, line in enumerate(lines) for k, c in enumerate(line) if c == "?"]
    if not places:
        return None
    n, k = choose.choice(places)
    end = k
    while lines[n][end] in "0123456789abcdef":
        end += 1
    k = choose.randrange(k, end)
    digit = int(lines[n][k], 16) ^ 1
    lines[n] = lines[n][:k] + f"{digit:x}" + lines[n][k + 1 :]
    return "\n".join(lines)
