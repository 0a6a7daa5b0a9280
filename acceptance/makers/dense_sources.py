"""Sources whose gates read each other from anywhere: placed in one row they need more wires side by side than few metals have."""

KINDS = ("nand", "nand", "nor", "xor")


def dense_source(choose, gates, bits=16):
    """Gates over inputs, registers and any earlier gates; the last ones drive outputs and registers."""
    names = [f"{v}({k})" for v in "ar" for k in range(bits)]
    lines = []
    for k in range(gates):
        lines.append(f"s({k}) <= {choose.choice(names)} {choose.choice(KINDS)} {choose.choice(names)};")
        names.append(f"s({k})")
    last = [f"s({gates - 1 - k})" for k in range(2 * bits)]
    ports = f"a : in bit_vector ({bits - 1} downto 0); o : out bit_vector ({bits - 1} downto 0); vdd, vss : in bit"
    head = f"entity dense is port (ck : in bit; {ports}); end dense;"
    declared = f"signal s : bit_vector ({gates - 1} downto 0);\nsignal r : reg_vector ({bits - 1} downto 0) register;"
    shown = "\n".join(f"o({k}) <= {last[k]};" for k in range(bits))
    loaded = "\n".join(f"r({k}) <= guarded {last[bits + k]};" for k in range(bits))
    body = "\n".join(lines)
    return (
        f"{head}\narchitecture vbe of dense is\n{declared}\nbegin\n{body}\n{shown}\n"
        f"load : block (ck and not ck'stable) begin\n{loaded}\nend block;\nend vbe;\n"
    )
