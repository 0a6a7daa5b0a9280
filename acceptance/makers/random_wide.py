"""Sources with nets that many pins read, made at random, and libraries with several drives of their cells."""

import re

from acceptance.tools.boog import of_cells

# what reads the wide signal s: each gives bit k of o, or what register k takes
GATES = ["not s", "s", "s nand a({j})", "s and a({k})", "a({k}) when s else r({r})", "s xor a({k})", "not (s or r({r}))"]
LOADS = ["s", "s", "s and r({next})", "r({next}) xor s", "not r({next})"]
# the same where there are so many readers that each shall be one gate or register
MANY, SMALL_GATES, SMALL_LOADS = 100, ["not s", "s nand a({k})"], ["s"]


class WideMaker:
    """A source in which so many outputs and registers read one input, signal or register."""

    def __init__(self, choose, readers):
        self.choose, self.readers, self.is_many = choose, readers, readers > MANY
        self.registers = choose.choice([1, 2, readers])
        self.outputs = 1 if self.is_many and self.registers == readers else readers

    def source(self):
        choose, last = self.choose, self.readers - 1
        kinds = [choose.choice(SMALL_GATES)] if self.is_many else choose.sample(GATES, choose.randrange(1, 4))
        loads = SMALL_LOADS if self.is_many else LOADS
        wide = choose.choice(["i", "i", "not i", "i xor a(0)", "r(0)"])
        head = f"entity wide is port (ck, i : in bit; a : in bit_vector ({max(last, 7)} downto 0); o : out bit_vector ({self.outputs - 1} downto 0); "
        body = "".join(f"o({k}) <= {self.reader(kinds, k)};\n" for k in range(self.outputs))
        taken = "".join(f"r({k}) <= guarded {self.reader(loads, k)};\n" for k in range(self.registers))
        return (
            f"{head}vdd, vss : in bit); end wide;\narchitecture vbe of wide is\nsignal s : bit;\n"
            f"signal r : reg_vector ({self.registers - 1} downto 0) register;\nbegin\ns <= {wide};\n{body}"
            f"load : block (ck and not ck'stable) begin\n{taken}end block;\nend vbe;\n"
        )

    def reader(self, kinds, k):
        return self.choose.choice(kinds).format(j=self.choose.randrange(8), k=k, r=k % self.registers, next=(k + 1) % self.registers)


# ---- drives


def made_drive(choose, files, name, new):
    """Another drive of a cell of a library's files: the same but for its name and the numbers of its generics."""
    vbe, figure = files[f"lib/{name}.vbe"].decode(), files[f"lib/{name}.ap"].decode()
    renamed = re.sub(rf"\b{name}\b", new, vbe)
    numbered = re.sub(r":= \d+", lambda _: f":= {choose.choice([0, 1, 8, 40, choose.randrange(4000), choose.randrange(10**6)])}", renamed)
    return {f"lib/{new}.vbe": numbered.encode(), f"lib/{new}.ap": re.sub(rf"\b{name}\b", new, figure).encode()}


def with_drives(choose, names):
    """The library of some of this repository's cells, of some of which there are up to three made drives more, anywhere in its list."""
    files, listed = of_cells(names), list(names)
    for name in choose.sample(names, min(len(names), 3)):
        for k in range(choose.choice([1, 2, 3])):
            files.update(made_drive(choose, files, name, f"{name}_m{k}"))
            listed.insert(choose.randrange(len(listed) + 1), f"{name}_m{k}")
    files["lib/CATAL"] = "".join(f"{name} C\n" for name in listed).encode()
    return files
