"""A second reader of data-flow texts, written by the rules of docs/formats/data-flow.md, against which `alliance asimut` is run.

`machine(text)` gives the Machine that a text is, or raises Refused with what is wrong with it. pat_oracle.py runs
patterns on it.
"""

from .vbe_reader import SourceReader
from .vhdl_reader import SUPPLIES, Refused, bits_of, fault, lex, limit, numbers, ordered, spelled

PORTS, FILE = 4096, 1048576

# ---- formulas of bits: 0, 1, (name, k), ("not", f), ("join", operator, [f..]), ("choice", [(condition, f)..], f)


def values(formula, env):
    if isinstance(formula, int):
        return formula
    kind = formula[0]
    if kind == "not":
        return 1 - values(formula[1], env)
    if kind == "choice":
        for condition, value in formula[1]:
            if values(condition, env):
                return values(value, env)
        return values(formula[2], env)
    if kind == "join":
        got = [values(f, env) for f in formula[2]]
        joined = got[0]
        for bit in got[1:]:
            joined = {
                "and": joined & bit, "or": joined | bit, "xor": joined ^ bit,
                "xnor": 1 - (joined ^ bit), "nand": 1 - (joined & bit), "nor": 1 - (joined | bit),
            }[formula[1]]
        return joined
    return env[formula[1]]


def reads(formula):
    if isinstance(formula, int):
        return set()
    if formula[0] == "bit":
        return {formula[1]}
    if formula[0] == "not":
        return reads(formula[1])
    if formula[0] == "join":
        return set().union(*map(reads, formula[2]))
    return set().union(reads(formula[2]), *(reads(f) for pair in formula[1] for f in pair))


class Machine:
    """ports: bit to mode; equations in an order in which each reads what is before it; registers: bit to (next, enable)."""

    def __init__(self, name, ports, clock, equations, registers):
        self.name, self.ports, self.clock, self.equations, self.registers = name, ports, clock, equations, registers

    def settle(self, inputs, contents):
        env = {**inputs, **contents}
        for bit, formula in self.equations:
            env[bit] = values(formula, env)
        return env

    def clock_of(self, inputs):
        return inputs[(self.clock, -1)] if self.clock else 0

    def load(self, env):
        return {bit: values(then, env) if values(enable, env) else env[bit] for bit, (then, enable) in self.registers.items()}


class Ring(Refused):
    """Signals that read each other in a ring: which ring is named is open, so a name that is given can be asked for."""

    def __init__(self, equations, lines):
        super().__init__("a ring")
        self.reads = {bit: reads(f) for bit, f in equations.items()}
        self.lines = lines

    def allows(self, line, names):
        bits = {spelled(bit): bit for bit in self.reads}
        ring = [bits.get(name) for name in names]
        if None in ring or not ring or len(set(ring)) < len(ring) or min(ring) != ring[0]:
            return False
        return line == self.lines[ring[0]] and all(b in self.reads[a] for a, b in zip(ring, ring[1:] + ring[:1]))


def compared(sign, left, right):
    """Whether vectors are equal, or are not: bits by xnor or xor, longer ones by halves, of which the first has more bits."""
    if len(left) == 1:
        return ("join", "xnor" if sign == "=" else "xor", [left[0], right[0]])
    if sign == "/=":
        return ("not", compared("=", left, right))
    half = (len(left) + 1) // 2
    return ("join", "and", [compared("=", left[:half], right[:half]), compared("=", left[half:], right[half:])])


# ---- the checks


class Checks:
    def __init__(self, reader, statements):
        self.reader, self.statements = reader, statements
        self.symbols = {s.name: s for s in reader.symbols}

    def find(self, name):
        return self.symbols[name]

    # walks: each yields what it finds, in file order

    def assignments(self):
        for s in self.statements:
            if s[0] == "assign":
                yield s[1], False
            elif s[0] == "block":
                yield from ((a, True) for a in s[3])

    def over_choice(self, look, choice):
        alternatives, otherwise = choice
        for value, _, condition in alternatives:
            yield from look(value)
            yield from look(condition)
        yield from look(otherwise)

    def over_all(self, look):
        """Whatever `look` finds in all expressions."""
        for s in self.statements:
            if s[0] == "assert":
                yield from look(s[1])
            elif s[0] == "assign":
                yield from self.over_choice(look, s[1][1])
            else:
                yield from look(s[2])
                for a in s[3]:
                    yield from self.over_choice(look, a[1])

    def leaves(self, tree):
        if tree[0] == "join":
            yield from self.leaves(tree[2])
            for _, other in tree[3]:
                yield from self.leaves(other)
        elif tree[0] == "not":
            yield from self.leaves(tree[2])
        else:
            yield tree

    def names_in(self, tree):
        return ((leaf[2], leaf[1]) for leaf in self.leaves(tree) if leaf[0] in ("name", "index", "slice", "stable"))

    def unknown(self):
        def of_assignment(a):
            yield a[0][0], a[0][1]
            yield from self.over_choice(self.names_in, a[1])

        for s in self.statements:
            if s[0] == "assert":
                yield from self.names_in(s[1])
            elif s[0] == "assign":
                yield from of_assignment(s[1])
            else:
                yield from self.names_in(s[2])
                for a in s[3]:
                    yield from of_assignment(a)

    # widths

    def width(self, tree):
        kind = tree[0]
        if kind in ("bit", "literal"):
            return len(tree[2])
        if kind == "name":
            bounds = self.find(tree[2]).bounds
            return 1 if bounds is None else len(numbers(bounds))
        if kind in ("index", "stable"):
            return 1
        if kind == "slice":
            return len(numbers(tree[3])) if ordered(tree[3]) else None
        if kind == "not":
            return self.width(tree[2])
        width = self.width(tree[2])
        for _, other in tree[3]:
            width = self.joined(tree[1], width, self.width(other))
        return width

    def joined(self, operator, a, b):
        if operator in ("=", "/="):
            return 1
        if a is None or b is None:
            return None
        if operator == "&":
            return a + b
        return None if a != b else a

    def fits(self, name, selection):
        bounds = self.find(name).bounds
        if bounds is None:
            return False
        if isinstance(selection, int):
            return selection in numbers(bounds)
        left, falls, right = selection
        return falls == bounds[1] and ordered(selection) and left in numbers(bounds) and right in numbers(bounds)

    def width_faults(self, tree):
        kind = tree[0]
        if kind == "index" and not self.fits(tree[2], tree[3]):
            yield tree[1]
        elif kind == "slice" and not self.fits(tree[2], tree[3]):
            yield tree[4]
        elif kind == "not":
            yield from self.width_faults(tree[2])
        elif kind == "join":
            yield from self.width_faults(tree[2])
            width = self.width(tree[2])
            for line, other in tree[3]:
                beside = self.width(other)
                if tree[1] != "&" and None not in (width, beside) and width != beside:
                    yield line
                yield from self.width_faults(other)
                width = self.joined(tree[1], width, beside)

    def assignment_widths(self, a):
        (name, line, selection), (alternatives, otherwise) = a
        if selection is None:
            wanted = self.width(("name", line, name))
        elif isinstance(selection, int):
            wanted = 1
        else:
            wanted = len(numbers(selection[0])) if ordered(selection[0]) else None
        given = [self.width(value) for value, _, _ in alternatives] + [self.width(otherwise)]
        if any(None not in (wanted, width) and wanted != width for width in given):
            yield line
        if isinstance(selection, int) and not self.fits(name, selection):
            yield line
        if isinstance(selection, tuple) and not self.fits(name, selection[0]):
            yield selection[1]
        for value, at, condition in alternatives:
            yield from self.width_faults(value)
            if self.width(condition) not in (1, None):
                yield at
            yield from self.width_faults(condition)
        yield from self.width_faults(otherwise)

    def all_widths(self):
        yield from (line for bounds, line in self.reader.ranges if not ordered(bounds))
        for s in self.statements:
            if s[0] == "assert":
                yield from self.width_faults(s[1])
            elif s[0] == "assign":
                yield from self.assignment_widths(s[1])
            else:
                yield from self.width_faults(s[2])
                for a in s[3]:
                    yield from self.assignment_widths(a)

    # drivers

    def target_bits(self, target):
        name, _, selection = target
        if selection is None:
            return self.find(name).bits()
        return [(name, selection)] if isinstance(selection, int) else bits_of(name, selection[0])

    def check_drivers(self):
        driven = {}
        for (target, _), _ in self.assignments():
            if not self.find(target[0]).needs_driver():
                continue
            bits = self.target_bits(target)
            again = [bit for bit in bits if bit in driven]
            if again:
                raise fault(target[1], "two drivers", spelled(min(again)))
            driven.update((bit, target[1]) for bit in bits)
        for symbol in self.reader.symbols:
            missing = [bit for bit in symbol.bits() if bit not in driven] if symbol.needs_driver() else []
            if missing:
                raise fault(symbol.line, "undriven", spelled(min(missing)))
        return driven

    # forms that are left out

    def literal_faults(self, tree):
        return (leaf[1] for leaf in self.leaves(tree) if leaf[0] == "literal" and not 1 <= len(leaf[2]) <= 128)

    def all_forms(self):
        yield from self.reader.forms

        def of_assignment(a, in_block):
            role = self.find(a[0][0]).role
            if role == "in" or (role == "register") != in_block:
                yield a[0][1]
            yield from self.over_choice(self.literal_faults, a[1])

        for s in self.statements:
            if s[0] == "assert":
                yield from self.literal_faults(s[1])
            elif s[0] == "assign":
                yield from of_assignment(s[1], False)
            else:
                yield from self.literal_faults(s[2])
                for a in s[3]:
                    yield from of_assignment(a, True)

    # guards and the clock

    def without_one(self, tree):
        return tree[2] if tree[0] == "join" and tree[1] == "=" and tree[3][0][1][0] == "bit" and tree[3][0][1][2] == [1] else tree

    def clock_alone(self, tree):
        if tree[0] == "join" and tree[1] == "=" and tree[2][0] == "bit" and tree[2][2] == [1]:
            return tree[3][0][1]
        return self.without_one(tree)

    def conjuncts(self, tree):
        if tree[0] == "join" and tree[1] == "and":
            return [part for each in [tree[2], *(other for _, other in tree[3])] for part in self.conjuncts(each)]
        return [tree]

    def clock_lines(self, clock):
        def lines(tree):
            for leaf in self.leaves(tree):
                if leaf[0] == "stable" or (leaf[0] == "name" and leaf[2] == clock):
                    yield leaf[1]

        return lines

    def guard(self, tree):
        """The clock of a guard and its further conditions, or None."""
        parts = self.conjuncts(self.without_one(tree))
        steady = [p[2][2] for p in parts if p[0] == "not" and p[2][0] == "stable"]
        if len(steady) != 1:
            return None
        clock = steady[0]
        symbol = self.find(clock)
        if symbol.role != "in" or symbol.bounds is not None or clock in SUPPLIES:
            return None
        alone = [self.clock_alone(p) for p in parts]
        clocks = [p for p in alone if p[0] == "name" and p[2] == clock]
        conditions = [
            p for p, q in zip(parts, alone)
            if not (q[0] == "name" and q[2] == clock) and not (p[0] == "not" and p[2][0] == "stable")
        ]
        if len(clocks) != 1 or any(True for p in conditions for _ in self.clock_lines(clock)(p)):
            return None
        return clock, conditions

    def clock(self):
        for s in self.statements:
            if s[0] == "block" and self.guard(s[2]):
                return self.guard(s[2])[0]
        return None

    def all_clock_lines(self):
        clock = self.clock()
        lines = self.clock_lines(clock)
        for s in self.statements:
            if s[0] == "assert":
                yield from lines(s[1])
            elif s[0] == "assign":
                yield from self.over_choice(lines, s[1][1])
            else:
                if not self.guard(s[2]) or self.guard(s[2])[0] != clock:
                    yield s[1]
                for a in s[3]:
                    yield from self.over_choice(lines, a[1])

    # formulas

    def formulas(self, tree):
        kind = tree[0]
        if kind in ("bit", "literal"):
            return tree[2]
        if kind == "not":
            return [("not", f) for f in self.formulas(tree[2])]
        if kind == "join":
            operands = [self.formulas(tree[2]), *(self.formulas(other) for _, other in tree[3])]
            if tree[1] == "&":
                return [f for operand in operands for f in operand]
            if tree[1] in ("=", "/="):
                return [compared(tree[1], *operands)]
            return [("join", tree[1], list(column)) for column in zip(*operands)]
        bounds = self.find(tree[2]).bounds
        bits = bits_of(tree[2], bounds) if kind == "name" else [(tree[2], tree[3])] if kind == "index" else bits_of(tree[2], tree[3])
        return [{"vdd": 1, "vss": 0}.get(bit[0], ("bit", bit)) for bit in bits]

    def defined(self, a):
        """Each bit that an assignment drives, with its formula."""
        target, (alternatives, otherwise) = a
        rows = [(self.formulas(condition)[0], self.formulas(value)) for value, _, condition in alternatives]
        last = self.formulas(otherwise)
        for k, bit in enumerate(self.target_bits(target)):
            yield bit, ("choice", [(c, fs[k]) for c, fs in rows], last[k]) if rows else last[k]

    def machine(self, driven):
        equations, registers = {}, {}
        for s in self.statements:
            if s[0] == "assign":
                equations.update(self.defined(s[1]))
            elif s[0] == "block":
                parts = [self.formulas(p)[0] for p in self.guard(s[2])[1]]
                enable = ("join", "and", parts) if parts[1:] else parts[0] if parts else 1
                registers.update((bit, (f, enable)) for a in s[3] for bit, f in self.defined(a))
        ports = {bit: s.role for s in self.reader.symbols if s.role in ("in", "out") and s.name not in SUPPLIES for bit in s.bits()}
        ordered_equations = in_order(equations)
        if len(ordered_equations) < len(equations):
            raise Ring(equations, driven)
        if len(ports) > PORTS:
            raise limit("ports", len(ports))
        return Machine(self.reader.entity_name, ports, self.clock(), ordered_equations, registers)


def in_order(equations):
    """The equations so that each reads what is before it, without those that can't be computed."""
    waits = {bit: {b for b in reads(f) if b in equations} for bit, f in equations.items()}
    readers = {}
    for bit, others in waits.items():
        for other in others:
            readers.setdefault(other, []).append(bit)
    ready, done = [bit for bit, others in waits.items() if not others], []
    while ready:
        bit = ready.pop()
        done.append((bit, equations[bit]))
        for reader in readers.get(bit, ()):
            waits[reader].discard(bit)
            if not waits[reader]:
                ready.append(reader)
    return done


def machine(text):
    if len(text) > FILE:
        raise limit("file", FILE + 1)
    reader = SourceReader(*lex(text))
    return checked_machine(reader, reader.source())


def checked_machine(reader, statements):
    """The machine of statements that the reader has read."""
    checks = Checks(reader, statements)
    for name, line in checks.unknown():
        if name not in checks.symbols:
            raise fault(line, "unknown", name)
    for line in checks.all_widths():
        raise fault(line, "width")
    driven = checks.check_drivers()
    for line in checks.all_forms():
        raise fault(line, "unsupported")
    for line in checks.all_clock_lines():
        raise fault(line, "clock use")
    return checks.machine(driven)
