"""The data-flow text of a machine, written from docs/formats/data-flow.md alone: the one spelling that it has. The formulas are those of
diagrams.py, with two operands an operator and one condition a choice.
"""

from share.formats.diagrams import plain
from share.formats.models import OUT
from share.formats.vhdl_reader import spelled

CHAINS = ("and", "or", "xor", "xnor")


# ---- expressions


def is_short(f):
    return isinstance(f, int) or f[0] == "bit"


def primary(f):
    return whole(f) if is_short(f) else f"({whole(f)})"


def operand(f):
    return whole(f) if is_short(f) or f[0] == "not" else f"({whole(f)})"


def leading(operator, f):
    return whole(f) if not is_short(f) and f[:2] == ("pair", operator) and operator in CHAINS else operand(f)


def whole(f):
    if isinstance(f, int):
        return f"'{f}'"
    if f[0] == "bit":
        return spelled(f[1])
    if f[0] == "not":
        return f"not {primary(f[1])}"
    if f[0] == "choice":
        return whole(("pair", "or", ("pair", "and", f[1], f[2]), ("pair", "and", ("not", f[1]), f[3])))
    return f"{leading(f[1], f[2])} {f[1]} {operand(f[3])}"


def value(formula):
    f, text = plain(formula), ""
    while not isinstance(f, int) and f[0] == "choice":
        text += f"{whole(f[2])} when {whole(f[1])} else\n    "
        f = f[3]
    return text + whole(f)


# ---- the text


def groups(bits):
    """Bits in the order of names, those of one name together: the name, and the least and the greatest bit."""
    found = {}
    for name, k in sorted(bits):
        found[name] = (found.get(name, (k, k))[0], k)
    return found.items()


def port_lines(ports):
    for name, (low, high) in groups(ports):
        kind = "bit" if low < 0 else f"bit_vector ({high} downto {low})"
        yield f"  {name} : {ports[(name, high)]} {kind}"
    yield from ("  vdd : in bit", "  vss : in bit")


def text(m):
    inner = [(bit, formula) for bit, formula in m.equations if m.ports.get(bit) != OUT]
    lines = [f"entity {m.name} is", "port (", ";\n".join(port_lines(m.ports)) + ");", f"end {m.name};", ""]
    lines += [f"architecture data_flow of {m.name} is", *(f"signal {spelled(bit)} : bit;" for bit, _ in inner)]
    lines += [f"signal {name} : reg_vector ({high} downto {low}) register;" for name, (low, high) in groups(m.registers)]
    lines += ["begin", *(f"{spelled(bit)} <= {value(formula)};" for bit, formula in m.equations)]
    for k, bit in enumerate(sorted(m.registers) or [None]):
        lines += [f"b{k} : block (({m.clock} and not {m.clock}'stable) = '1')", "begin"]
        lines += [f"  {spelled(bit)} <= guarded {value(m.registers[bit][0])};"] if bit else []
        lines.append("end block;")
    return "\n".join([*lines, "end data_flow;", ""])
