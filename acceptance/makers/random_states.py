"""Random texts of state machines: mostly ones that are read, with resets or without, and a case anywhere."""

from acceptance.makers.random_sources import Maker, Vector

WORDS = (
    "begin end process case when others if elsif else then is type signal cs ns s0 s1 s9 ck i0 o0 vdd assert ( ) , ; : <= => = /= | ' '0' '1' \"01\" "
    "0 1 2 and or not stable state entity port in out bit"
).split()
PRAGMAS = ["-- pragma CURRENT_STATE cs\n", "-- pragma NEXT_STATE ns\n", "--Pragma  Clock\tCK\n"]
EDGES = [
    "ck = '1' and not ck'stable", "not ck'stable and ck", "(ck and not (ck'stable)) = '1'", "'1' = ck and not ck'stable", "not ck'stable and (ck = '1')",
]
COUNTS = [1, 1, 2, 2, 3, 3, 4, 4, 5, 5, 6, 7, 8, 9, 12, 17]


class StateMaker(Maker):
    def vector(self, name):
        v = super().vector(name)
        return Vector(name, None) if v.width > 3 else v

    def target(self):
        """A target with its width: an output, or bits of one."""
        v = self.choose.choice(self.outputs)
        if v.bounds is None or self.choose.random() < 0.6:
            return v.name, v.width
        count = self.choose.randrange(1, v.width + 1)
        return v.part(self.choose.randrange(v.width - count + 1), count), count

    def assignment(self):
        if self.outputs and self.choose.random() < 0.5:
            name, width = self.target()
            return f"{name} <= {self.expression(width, 1)};\n"
        return f"ns <= {self.choose.choice(self.states)};\n"

    def condition(self):
        return self.expression(1, self.choose.choice([0, 0, 1]))

    def body(self, depth, may_case):
        text = ""
        for _ in range(self.choose.randrange(3)):
            kind = self.choose.random()
            if depth and kind < 0.4:
                text += self.conditional(depth - 1, may_case)
            elif depth and may_case and not self.cased and kind < 0.7:
                text += self.case(depth - 1)
            elif kind < 0.74:
                text += f"assert {self.condition()} report \"!\" severity warning;\n"
            else:
                text += self.assignment()
        return text

    def conditional(self, depth, may_case):
        text = ""
        for k in range(self.choose.choice([1, 1, 1, 2, 3])):
            text += f"{'elsif' if k else 'if'} {self.condition()} then\n{self.body(depth, may_case)}"
        return text + (f"else\n{self.body(depth, may_case)}" if self.choose.random() < 0.7 else "") + "end if;\n"

    def case(self, depth):
        self.cased, text = True, "case cs is\n"
        left = self.choose.sample(self.states, len(self.states))
        while left and self.choose.random() < 0.85:
            count = min(len(left), self.choose.choice([1, 1, 1, 2]))
            text += f"when {' | '.join(left[:count])} =>\n{self.body(depth, False)}"
            left = left[count:]
        return text + (f"when others =>\n{self.body(depth, False)}" if left or self.choose.random() < 0.3 else "") + "end case;\n"

    def statements(self):
        """In front of all, mostly, an assignment to each output and to the next state; a reset around, behind or nowhere."""
        body = self.body(3, True)
        if not self.cased:
            body += self.case(2)
        reset, first = self.choose.choice(["around", "behind", "none"]), f"ns <= {self.choose.choice(self.states)};\n"
        if reset == "around":
            body = f"if {self.condition()} then\n{first}else\n{body}end if;\n"
        elif reset == "behind":
            body += f"if {self.condition()} then {first}end if;\n"
        defaults = [f"{v.name} <= {self.expression(v.width, 0)};\n" for v in self.outputs if self.choose.random() < 0.98]
        defaults += [f"ns <= {self.choose.choice(self.states)};\n"] if self.choose.random() < 0.98 else []
        return "".join(self.choose.sample(defaults, len(defaults))) + body

    def process(self, label, name, body):
        is_named, end = self.choose.random() < 0.5, self.choose.choice(["", f" {label}"])
        return f"{f'{label} : ' if is_named else ''}process{self.choose.choice(['', f' ({name})'])} begin\n{body}end process{end if is_named else ''};\n"

    def source(self):
        choose = self.choose
        self.cased, self.states = False, [f"s{k}" for k in range(choose.choice(COUNTS))]
        names = [choose.choice(["st", "st0", "n0", "n2"]) if choose.random() < 0.06 else f"i{k}" for k in range(choose.randrange(4))]
        inputs = [self.vector(name) for name in dict.fromkeys(names)]
        self.outputs = [self.vector(f"o{k}") for k in range(choose.choice([0, 1, 1, 2, 3]))]
        supplies = ["vdd", "vss"] if choose.random() < 0.5 else []
        self.known = inputs + [Vector(name, None) for name in supplies]
        ports = ["ck : in bit", *(f"{v.name} : in {v.type('bit', 'bit_vector')}" for v in inputs)]
        ports += [f"{v.name} : out {v.type('bit', 'bit_vector')}" for v in self.outputs] + [f"{name} : in bit" for name in supplies]
        declared = [f"type state is ({', '.join(self.states)});\n", "signal cs, ns : state;\n", "begin\n"]
        pragmas = choose.sample(PRAGMAS, 3)
        head = "".join(f"{line}{pragma}" for line, pragma in zip(declared, pragmas))
        step = self.process("step", "cs", self.statements())
        load = self.process("load", "ck", f"if {choose.choice(EDGES)} then cs <= ns; end if;\n")
        entity = f"entity made is port ({'; '.join(choose.sample(ports, len(ports)))}); end made;\n"
        text = f"{entity}architecture states of made is\n{head}{step}{load}end states;\n"
        return text.upper().replace('X"', 'x"') if choose.random() < 0.1 else text
