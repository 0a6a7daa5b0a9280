"""The statements of data-flow texts, for the second reader, written from docs/formats/data-flow.md."""

from .vhdl_reader import CHAIN, Reader, Refused, limit


class SourceReader(Reader):
    def alternative(self):
        """The first token of an alternative is refused where there are too many; what is wrong with it comes first."""
        if self.alternatives <= CHAIN:
            return self.expression_anew()
        before = self.at
        try:
            self.expression_anew()
        except Refused:
            if self.at == before:
                raise
        raise limit("chain", CHAIN + 1)

    def choice(self):
        self.alternatives = 1
        alternatives, value = [], self.expression_anew()
        while self.kind() == "when":
            self.at += 1
            line = self.line()
            condition = self.expression_anew()
            self.take("else")
            self.alternatives += 1
            alternatives.append((value, line, condition))
            value = self.alternative()
        if self.kind() == "after":
            self.at += 1
            self.take("number")
            self.take("id")
        self.take(";")
        return alternatives, value

    def assignment(self, guarded):
        _, name, line = self.take("id")
        selection = self.selection()
        self.take("<=")
        if guarded:
            self.take("guarded")
        return (name, line, selection), self.choice()

    def assertion(self):
        self.take("assert")
        tree = self.expression_anew()
        if self.kind() == "report":
            self.at += 1
            self.take("quoted")
        if self.kind() == "severity":
            self.at += 1
            self.take("id")
        self.take(";")
        return ("assert", tree)

    def block(self, label):
        self.take("block")
        self.open()
        line = self.line()
        guard = self.expression_anew()
        self.close()
        self.take("begin")
        assignments = []
        while self.kind() == "id":
            assignments.append(self.assignment(True))
        self.take("end")
        self.take("block")
        self.closed(label)
        return ("block", line, guard, assignments)

    def statement(self):
        if self.kind() == "assert":
            return self.assertion()
        if self.kind() == "id" and self.at + 1 < len(self.tokens) and self.tokens[self.at + 1][0] == ":":
            label = self.take("id")[1]
            self.at += 1
            if self.kind() == "assert":
                return self.assertion()
            if self.kind() == "block":
                return self.block(label)
        return ("assign", self.assignment(False))

    def source(self):
        entity = self.entity()
        self.take("architecture")
        name = self.take("id")[1]
        self.take("of")
        if self.kind() == "id" and self.tokens[self.at][1] != entity:
            raise self.syntax()
        self.take("id")
        self.take("is")
        self.declarations()
        self.take("begin")
        statements = []
        while self.kind() in ("id", "assert"):
            statements.append(self.statement())
        self.take("end")
        self.closed(name)
        if self.kind() is not None:
            raise self.syntax()
        return statements
