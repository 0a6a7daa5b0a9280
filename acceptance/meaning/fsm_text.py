"""The text of a state machine, written from docs/formats/state-machines.md ("The text that is written") alone: the one spelling that it has."""

from acceptance.meaning.state_machine import first_free
from acceptance.meaning.state_text import groups, whole
from share.formats.diagrams import plain
from share.formats.vhdl_reader import spelled


def port_lines(ports):
    for name, (low, high) in groups(ports):
        kind = "bit" if low < 0 else f"bit_vector ({high} downto {low})"
        yield f"  {name} : {ports[(name, high)]} {kind}"


class Writer:
    def __init__(self, machine):
        self.machine = machine
        taken = {name for name, _ in machine.ports} | set(machine.states)
        self.type, self.current, self.next = (first_free(stem, taken) for stem in ("state", "current_state", "next_state"))

    def named(self, states, between):
        return between.join(self.machine.states[state] for state in states)

    def body(self, statements):
        for s in statements:
            if s[0] == "out":
                yield f"{spelled(s[1])} <= {whole(plain(s[2]))};"
            elif s[0] == "next":
                yield f"{self.next} <= {self.machine.states[s[1]]};"
            elif s[0] == "if":
                yield from self.conditional(s[1], s[2])
            else:
                yield from self.selected(s[1], s[2])

    def conditional(self, parts, last):
        for k, (condition, part) in enumerate(parts):
            yield f"{'elsif' if k else 'if'} {whole(plain(condition))} then"
            yield from self.body(part)
        if last is not None:
            yield "else"
            yield from self.body(last)
        yield "end if;"

    def selected(self, branches, others):
        yield f"case {self.current} is"
        for states, part in branches:
            yield f"when {self.named(states, ' | ')} =>"
            yield from self.body(part)
        if others is not None:
            yield "when others =>"
            yield from self.body(others)
        yield "end case;"

    def text(self):
        m = self.machine
        pragmas = (("current_state", self.current), ("next_state", self.next), ("clock", m.clock))
        lines = [f"-- pragma {key} {name}" for key, name in pragmas]
        lines += [f"entity {m.name} is", "port (", ";\n".join(port_lines(m.ports)) + ");", f"end {m.name};", ""]
        lines += [f"architecture fsm of {m.name} is", f"type {self.type} is ({self.named(range(len(m.states)), ', ')});"]
        lines += [f"signal {self.current}, {self.next} : {self.type};", "begin", "process begin", *self.body(m.body), "end process;"]
        lines += ["process begin", f"if {m.clock} = '1' and not {m.clock}'stable then", f"{self.current} <= {self.next};", "end if;", "end process;"]
        return "\n".join([*lines, "end fsm;", ""])


def text(machine):
    return Writer(machine).text()
