"""The statements of state machines, for the second reader."""

import re

from .vhdl_reader import CHAIN, DEPTH, IDENT, RESERVED, Reader, Refused, Symbol, bits_of, fault, lex, limit


def named(word):
    return len(word) <= IDENT and re.fullmatch(r"[A-Za-z][A-Za-z0-9_]*", word) is not None and word.lower() not in RESERVED


def pragmas(text):
    """The pragmas of a text: key to name, the first of each key. A comment begins outside of quotes."""
    found = {}
    for line in text.decode("latin-1").split("\n"):
        quoted, at = False, 0
        while at < len(line) and not (not quoted and line.startswith("--", at)):
            quoted ^= line[at] == '"'
            at += 1
        words = [word for word in re.split("[ \t]+", line[at + 2 :].removesuffix("\r")) if word]
        if len(words) == 3 and words[0].lower() == "pragma" and all(map(named, words[1:])):
            found.setdefault(words[1].lower(), words[2].lower())
    return found


class MachineReader(Reader):
    """Statements are ("assert", tree), ("assign", target, line, tree, whether it is one name), ("if", [(line, tree, body)..], body or None) and
    ("case", line, (name, line), [([(state, line)..], body)..], body or None)."""

    def __init__(self, tokens, last, next_state):
        super().__init__(tokens, last)
        self.next_state, self.times, self.types = next_state, {}, {}

    def typed(self, names, words):
        found = super().typed(names, words)
        self.types.update((name, found[0]) for name, _ in names)
        return found

    def enter(self, word):
        if self.kind() != word:
            raise self.syntax()
        if self.depth == DEPTH:
            raise limit("depth", DEPTH + 1)
        self.depth += 1
        self.at += 1

    def leave(self, word):
        self.take("end")
        self.take(word)
        self.take(";")
        self.depth -= 1

    def used(self):
        _, name, line = self.take("id")
        return name, line

    def counted(self, name, selection):
        """One more assignment of each of these bits, of those that are counted."""
        symbol = next((s for s in self.symbols if s.name == name and s.role == "out"), None)
        if name == self.next_state and symbol is None:
            bits, known = [(name, -1 if selection is None else selection if isinstance(selection, int) else -2)], [(name, -1)]
        elif symbol is None:
            return
        else:
            known = symbol.bits()
            bits = known if selection is None else [(name, selection)] if isinstance(selection, int) else bits_of(name, selection[0])
        known = set(known)
        for bit in bits:
            if bit in known:
                self.times[bit] = self.times.get(bit, 0) + 1
                if self.times[bit] > CHAIN:
                    raise limit("chain", CHAIN + 1)

    def told(self):
        """The assignment that begins here is counted before what is wrong with it behind its sign."""
        at, depth = self.at, self.depth
        try:
            self.depth = 0
            name = self.take("id")[1]
            selection = self.selection()
            self.take("<=")
        except Refused:
            return
        finally:
            self.at, self.depth = at, depth
        self.counted(name, selection)

    def assignment(self):
        if self.kind() != "id":
            raise self.syntax()
        self.told()
        _, name, line = self.take("id")
        selection = self.selection()
        self.take("<=")
        at, start = self.line(), self.at
        tree = self.expression_anew()
        is_one = self.at == start + 1 and tree[0] == "name"
        self.take(";")
        return "assign", (name, line, selection), at, tree, is_one

    def assertion(self):
        self.take("assert")
        tree = self.expression_anew()
        if self.kind() == "report":
            self.at += 1
            self.take("quoted")
        if self.kind() == "severity":
            self.at += 1
            self.take("id")
        self.take(";")
        return "assert", tree

    def part(self):
        line = self.line()
        tree = self.expression_anew()
        self.take("then")
        return line, tree, self.body()

    def conditional(self):
        self.enter("if")
        parts, last = [self.part()], None
        while self.kind() == "elsif":
            self.at += 1
            parts.append(self.part())
        if self.kind() == "else":
            self.at += 1
            last = self.body()
        self.leave("if")
        return "if", parts, last

    def selected(self):
        line = self.line()
        self.enter("case")
        name = self.used()
        self.take("is")
        branches, last = [], None
        while self.kind() == "when" and last is None:
            self.at += 1
            if self.kind() == "others":
                self.at += 1
                self.take("=>")
                last = self.body()
                continue
            states = [self.used()]
            while self.kind() == "|":
                self.at += 1
                states.append(self.used())
            self.take("=>")
            branches.append((states, self.body()))
        self.leave("case")
        return "case", line, name, branches, last

    def body(self):
        forms = {"assert": self.assertion, "if": self.conditional, "case": self.selected, "id": self.assignment}
        found = []
        while self.kind() in forms:
            found.append(forms[self.kind()]())
        return found

    def head(self):
        label = None
        if self.kind() == "id":
            label = self.take("id")[1]
            self.take(":")
        self.take("process")
        names = []
        if self.kind() == "(":
            self.open()
            names.append(self.used())
            while self.kind() == ",":
                self.at += 1
                names.append(self.used())
            self.close()
        self.take("begin")
        return label, names

    def tail(self, label):
        self.take("process")
        if label is None:
            self.take(";")
        else:
            self.closed(label)

    def spelled_as(self, wanted):
        if self.kind() == "id" and self.tokens[self.at][1] != wanted:
            raise self.syntax()
        self.take("id")

    def declared(self):
        start = self.line()
        self.take("type")
        self.type_line = start
        self.type_name = self.one_new(start)
        self.take("is")
        self.open()
        self.states = [(name, line) for name, line in self.new_names(start)]
        self.close()
        self.take(";")
        self.signal_line = self.line()
        self.take("signal")
        first = self.one_new(self.signal_line)
        self.take(",")
        second = self.one_new(self.signal_line)
        self.take(":")
        self.spelled_as(self.type_name[0])
        self.take(";")
        self.signals = [first, second]

    def one_new(self, start):
        line = self.line()
        if self.kind() == "id" and self.tokens[self.at][1] in self.names:
            raise fault(start, "twice", self.tokens[self.at][1])
        name = self.take("id")[1]
        self.names.add(name)
        return name, line

    def clock_process(self):
        label, names = self.head()
        self.enter("if")
        line = self.line()
        tree = self.expression_anew()
        self.take("then")
        if self.kind() == "id":
            self.told()
        into = self.used()
        self.take("<=")
        value = self.used()
        self.take(";")
        self.leave("if")
        self.take("end")
        self.tail(label)
        self.clock = (names, line, tree, into, value)

    def machine(self):
        entity = self.entity()
        self.generics = self.names - {s.name for s in self.symbols}
        self.take("architecture")
        name = self.take("id")[1]
        self.take("of")
        self.spelled_as(entity)
        self.take("is")
        self.declared()
        self.take("begin")
        label, self.step_names = self.head()
        self.step = self.body()
        self.end_line = self.line()
        self.take("end")
        self.tail(label)
        self.clock_process()
        self.take("end")
        self.closed(name)
        if self.kind() is not None:
            raise self.syntax()
        inner = [*((g, 0) for g in self.generics), self.type_name, *self.states, *self.signals]
        self.symbols += [Symbol(text, "inner", None, line) for text, line in inner]
        return self


def read(text, names):
    return MachineReader(*lex(text), names.get("next_state")).machine()
