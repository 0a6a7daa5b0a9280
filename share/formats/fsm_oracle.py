"""A second reader of state machines: their checks, and their statements over bits, written from docs/formats/state-machines.md alone.

`state_machine(text)` gives the StateMachine of state_walk.py that a text is, or raises Refused with what is wrong with it.
"""

from .fsm_reader import pragmas, read
from .state_walk import StateMachine
from .vbe_oracle import Checks
from .vhdl_reader import SUPPLIES, fault, limit, ordered, spelled

PORTS, STATES, FILE = 4096, 256, 1048576


class FsmChecks(Checks):
    def __init__(self, reader, names):
        super().__init__(reader, [])
        self.names = names

    # what stands in the statements, in file order

    def mentions(self, body, seen=None):
        seen = [False] if seen is None else seen
        for s in body:
            if s[0] in ("assert", "assign"):
                yield s
            elif s[0] == "if":
                for line, tree, part in s[1]:
                    yield "if", line, tree
                    yield from self.mentions(part, seen)
                if s[2] is not None:
                    yield from self.mentions(s[2], seen)
            else:
                yield "case", s[1], s[2], seen[0]
                seen[0] = True
                for states, part in s[3]:
                    yield "when", states
                    yield from self.mentions(part, seen)
                if s[4] is not None:
                    yield from self.mentions(s[4], seen)

    def unknown(self):
        r = self.reader
        yield from r.step_names
        for m in self.mentions(r.step):
            if m[0] == "assert":
                yield from self.names_in(m[1])
            elif m[0] == "assign":
                yield m[1][0], m[1][1]
                if not (m[1][0] == self.next and m[4]):
                    yield from self.names_in(m[3])
            elif m[0] == "if":
                yield from self.names_in(m[2])
            elif m[0] == "case":
                yield m[2]
        names, _, tree, into, value = r.clock
        yield from names
        yield from self.names_in(tree)
        yield into
        yield value

    def condition_widths(self, line, tree):
        if self.width(tree) not in (1, None):
            yield line
        yield from self.width_faults(tree)

    def all_widths(self):
        r = self.reader
        yield from (line for bounds, line in r.ranges if not ordered(bounds))
        for m in self.mentions(r.step):
            if m[0] == "assert":
                yield from self.width_faults(m[1])
            elif m[0] == "if":
                yield from self.condition_widths(m[1], m[2])
            elif m[0] == "assign":
                target, line, tree, _ = m[1:]
                if target[0] == self.next:
                    selection = target[2]
                    if isinstance(selection, int):
                        yield target[1]
                    elif selection is not None:
                        yield selection[1]
                    yield from self.width_faults(tree)
                else:
                    yield from self.assignment_widths((target, ([], tree)))
        _, line, tree, into, value = r.clock
        yield from self.condition_widths(line, tree)
        if into[0] != self.next and self.width(("name", 0, into[0])) != self.width(("name", 0, value[0])):
            yield into[1]

    def bad_reads(self, tree, allowed, steady):
        for leaf in self.leaves(tree):
            if leaf[0] == "literal" and not 1 <= len(leaf[2]) <= 128:
                yield leaf[1]
            elif leaf[0] in ("name", "index", "slice") and not allowed(leaf[2]):
                yield leaf[1]
            elif leaf[0] == "stable" and steady and not allowed(leaf[2]):
                yield leaf[1]

    def all_forms(self):
        r = self.reader
        yield from r.forms
        yield from (line for name, line in r.signals if name in SUPPLIES)

        def inputs(tree):
            return self.bad_reads(tree, lambda name: self.find(name).role == "in", False)

        cases = 0
        for m in self.mentions(r.step):
            if m[0] == "assert":
                yield from inputs(m[1])
            elif m[0] == "if":
                yield from inputs(m[2])
            elif m[0] == "assign":
                target, line, tree, is_one = m[1:]
                if target[0] == self.next:
                    if not is_one:
                        yield line
                else:
                    if self.find(target[0]).role != "out":
                        yield target[1]
                    yield from inputs(tree)
            elif m[0] == "case":
                cases += 1
                if m[3]:
                    yield m[1]
                if m[2][0] != self.current:
                    yield m[2][1]
        if not cases:
            yield r.end_line
        _, line, tree, into, value = r.clock
        yield from self.bad_reads(tree, lambda name: name == self.the_clock, True)
        if into[0] != self.current:
            yield into[1]
        if value[0] != self.next:
            yield value[1]

    def all_clock_lines(self):
        lines = self.clock_lines(self.the_clock)
        for m in self.mentions(self.reader.step):
            if m[0] in ("assert", "if"):
                yield from lines(m[-1])
            elif m[0] == "assign" and m[1][0] != self.next:
                yield from lines(m[3])
        found = self.guard(self.reader.clock[2])
        if found is None or found[0] != self.the_clock or found[1]:
            yield self.reader.clock[1]

    def bad_states(self):
        known, listed = {name for name, _ in self.reader.states}, set()
        for m in self.mentions(self.reader.step):
            if m[0] == "assign" and m[1][0] == self.next and m[3][2] not in known:
                yield m[3][2], m[3][1]
            elif m[0] == "when":
                for name, line in m[1]:
                    if name not in known or name in listed:
                        yield name, line
                    listed.add(name)

    def sure(self, body, state):
        """What every path assigns in this state: bits of outputs, and the next state."""
        found = set()
        for s in body:
            if s[0] == "assign":
                found.update([(self.next, -1)] if s[1][0] == self.next else self.target_bits(s[1]))
            elif s[0] == "if":
                parts = [self.sure(part, state) for _, _, part in s[1]]
                if s[2] is not None:
                    found |= set.intersection(*parts, self.sure(s[2], state))
            elif s[0] == "case":
                branch = next((part for states, part in s[3] if state in [name for name, _ in states]), s[4])
                if branch is not None:
                    found |= self.sure(branch, state)
        return found

    def roles(self):
        r, names = self.reader, self.names
        current, following, clock = (names.get(key) for key in ("current_state", "next_state", "clock"))
        signals = [name for name, _ in r.signals]
        port = next((s for s in r.symbols if s.name == clock and s.role == "in" and r.types[clock] == "bit"), None)
        fits = current in signals and following in signals and current != following and port is not None and clock not in SUPPLIES
        if not fits:
            raise fault(1, "no pragma")
        self.current, self.next, self.the_clock = current, following, clock

    def check(self):
        r = self.reader
        self.roles()
        for name, line in self.unknown():
            if name not in self.symbols:
                raise fault(line, "unknown", name)
        for line in self.all_widths():
            raise fault(line, "width")
        outputs = [s for s in r.symbols if s.role == "out"]
        driven = {bit for m in self.mentions(r.step) if m[0] == "assign" for bit in self.target_bits(m[1])}
        for symbol in outputs:
            missing = [bit for bit in symbol.bits() if bit not in driven]
            if missing:
                raise fault(symbol.line, "undriven", spelled(min(missing)))
        for line in self.all_forms():
            raise fault(line, "unsupported")
        for line in self.all_clock_lines():
            raise fault(line, "clock use")
        for name, line in self.bad_states():
            raise fault(line, "bad state", name)
        sure = set.intersection(*(self.sure(r.step, name) for name, _ in r.states))
        for symbol in outputs:
            missing = [bit for bit in symbol.bits() if bit not in sure]
            if missing:
                raise fault(symbol.line, "not assigned", spelled(min(missing)))
        if (self.next, -1) not in sure:
            raise fault(r.signal_line, "not assigned", self.next)
        ports = sum(len(s.bits()) for s in r.symbols if s.role in ("in", "out") and s.name not in SUPPLIES)
        if ports > PORTS:
            raise limit("ports", ports)
        if len(r.states) > STATES:
            raise limit("states", len(r.states))
        return self

    # the statements over bits

    def over_bits(self, body):
        numbers = {name: k for k, (name, _) in enumerate(self.reader.states)}
        for s in body:
            if s[0] == "assign" and s[1][0] == self.next:
                yield "next", numbers[s[3][2]]
            elif s[0] == "assign":
                yield from (("out", bit, formula) for bit, formula in zip(self.target_bits(s[1]), self.formulas(s[3])))
            elif s[0] == "if":
                yield "if", [(self.formulas(tree)[0], list(self.over_bits(part))) for _, tree, part in s[1]], self.last(s[2])
            elif s[0] == "case":
                yield "case", [([numbers[name] for name, _ in states], list(self.over_bits(part))) for states, part in s[3]], self.last(s[4])

    def last(self, body):
        return None if body is None else list(self.over_bits(body))

    def machine(self):
        r = self.reader
        ports = {bit: s.role for s in r.symbols if s.role in ("in", "out") and s.name not in SUPPLIES for bit in s.bits()}
        return StateMachine(r.entity_name, ports, self.the_clock, [name for name, _ in r.states], list(self.over_bits(r.step)))


def checked(text):
    """The checks of a text that passes them, with its statements."""
    if len(text) > FILE:
        raise limit("file", FILE + 1)
    names = pragmas(text)
    return FsmChecks(read(text, names), names).check()


def state_machine(text):
    return checked(text).machine()
