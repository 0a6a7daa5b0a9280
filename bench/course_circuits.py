#!/usr/bin/env python3
"""Makes the source of a circuit as courses have them, on standard output: in data flow, a machine as states.

Usage: bench/course_circuits.py KIND NUMBER

alu: sum, difference, and, or, exclusive or, the other's complement, left and right shift by one of two words of so many bits, into a
register; encoder: which is the highest of so many requests, and whether there is one; decoder: one of 2^NUMBER outputs; filter: y = x + 3 x1
+ 3 x2 + x3 over the last four words of so many bits; counter: up and down, with a load; machine: a state machine of so many states that waits
for one word after the other. Adders and multipliers: arithmetic.py.
"""
import sys

from arithmetic import full_adder, source

OPERATIONS = 3
TAPS = (1, 3, 3, 1)


def vector(bits, how="bit_vector"):
    return f"{how} ({bits - 1} downto 0)"


def clocked(lines):
    return ["load : block (ck and not ck'stable) begin", *(f"  {line}" for line in lines), "end block;"]


def added(name, bits, left, right, carry="'0'"):
    """The lines of name(k) = left(k) + right(k), whose carries are name_c; left and right give an operand's bit as text."""
    lines = []
    for k in range(bits):
        lines += full_adder(f"{name}({k})", f"{name}_c({k})", left(k), right(k), f"{name}_c({k - 1})" if k else carry)
    return lines


def alu(bits):
    ports = f"ck : in bit; op : in {vector(OPERATIONS)}; a, b : in {vector(bits)}; y : out {vector(bits)}; zero, carry : out bit"
    declared = [f"b_in, s, s_c, r : {vector(bits)}", f"held : {vector(bits, 'reg_vector')} register", "held_c : reg_bit register"]
    lines = [f"b_in({k}) <= b({k}) xor op(0);" for k in range(bits)] + added("s", bits, lambda k: f"a({k})", lambda k: f"b_in({k})", "op(0)")
    for k in range(bits):
        left, right = f"a({k - 1})" if k else "'0'", f"a({k + 1})" if k < bits - 1 else "'0'"
        lines.append(
            f"r({k}) <= s({k}) when op(2 downto 1) = \"00\" else a({k}) and b({k}) when op = \"010\" else a({k}) or b({k}) when op = \"011\" else "
            f"a({k}) xor b({k}) when op = \"100\" else not b({k}) when op = \"101\" else {left} when op = \"110\" else {right};"
        )
    lines += clocked([f"held({k}) <= guarded r({k});" for k in range(bits)] + [f"held_c <= guarded s_c({bits - 1}) and not op(2) and not op(1);"])
    shown = " or ".join(f"held({k})" for k in range(bits))
    return ports, declared, [*lines, *(f"y({k}) <= held({k});" for k in range(bits)), f"zero <= not ({shown});", "carry <= held_c;"]


def encoder(requests):
    bits = max((requests - 1).bit_length(), 1)
    lines = [f"first({requests - 1}) <= r({requests - 1});"]
    lines += [f"first({k}) <= r({k}) and not higher({k + 1});" for k in range(requests - 1)]
    lines += [f"higher({k}) <= r({k})" + (f" or higher({k + 1});" if k < requests - 1 else ";") for k in range(requests)]
    for bit in range(bits):
        having = [f"first({k})" for k in range(requests) if k >> bit & 1]
        lines.append(f"y({bit}) <= {' or '.join(having) or chr(39) + '0' + chr(39)};")
    ports = f"r : in {vector(requests)}; y : out {vector(bits)}; any : out bit"
    return ports, [f"first, higher : {vector(requests)}"], [*lines, "any <= higher(0);"]


def decoder(bits):
    lines = []
    for k in range(1 << bits):
        ties = " and ".join(f"a({bit})" if k >> bit & 1 else f"not a({bit})" for bit in range(bits))
        lines.append(f"y({k}) <= en and {ties};")
    return f"en : in bit; a : in {vector(bits)}; y : out {vector(1 << bits)}", [], lines


def filter4(bits):
    """A word times 3 is it and it moved up by one; three sums, of bits + 2, bits + 1 and bits + 3."""
    wide = bits + 3

    def bit_of(name, shift=0):
        return lambda k: f"{name}({k - shift})" if 0 <= k - shift < bits else "'0'"

    names = [f"x{k}" for k in range(1, len(TAPS))]
    declared = [f"{name} : {vector(bits, 'reg_vector')} register" for name in names] + [f"y_r : {vector(wide, 'reg_vector')} register"]
    declared += [f"{name}, {name}_c : {vector(wide)}" for name in ("t1", "t2", "u", "v", "w")]
    lines = []
    for name, x in (("t1", "x1"), ("t2", "x2")):
        lines += added(name, wide, bit_of(x), bit_of(x, 1))
    lines += added("u", wide, lambda k: f"t1({k})", lambda k: f"t2({k})")
    lines += added("v", wide, bit_of("x"), bit_of("x3"))
    lines += added("w", wide, lambda k: f"u({k})", lambda k: f"v({k})")
    loads = [f"{to}({k}) <= guarded {of}({k});" for to, of in zip(names, ["x", *names]) for k in range(bits)]
    loads += [f"y_r({k}) <= guarded w({k});" for k in range(wide)]
    return f"ck : in bit; x : in {vector(bits)}; y : out {vector(wide)}", declared, [*lines, *clocked(loads), *(f"y({k}) <= y_r({k});" for k in range(wide))]


def counter(bits):
    ports = f"ck, load, up, down : in bit; d : in {vector(bits)}; q : out {vector(bits)}"
    declared = [f"n : {vector(bits, 'reg_vector')} register", f"more, less : {vector(bits)}"]
    lines = ["more(0) <= up;", "less(0) <= down and not up;"]
    lines += [f"{it}({k}) <= {it}({k - 1}) and {sign}n({k - 1});" for k in range(1, bits) for it, sign in (("more", ""), ("less", "not "))]
    lines += clocked([f"n({k}) <= guarded d({k}) when load = '1' else n({k}) xor (more({k}) or less({k}));" for k in range(bits)])
    return ports, declared, [*lines, *(f"q({k}) <= n({k});" for k in range(bits))]


def machine(states):
    """State k waits for the word k mod 16; another word leads back to the first state or, from each third on, a third of the way."""
    names = [f"s{k}" for k in range(states)]
    lines = []
    for k, name in enumerate(names):
        back = names[k // 3 if k % 3 == 0 else 0]
        lines += [
            f"      when {name} => seen <= '{int(k == states - 1)}';",
            f'        if x = "{k % 16:04b}" then then_is <= {names[(k + 1) % states]}; elsif x = "1111" then then_is <= {name}; else then_is <= {back}; end if;',
        ]
    return "\n".join([
        "entity machine is port (ck, reset : in bit; x : in bit_vector (3 downto 0); seen : out bit; vdd : in bit; vss : in bit); end machine;",
        "architecture states of machine is", f"  type state is ({', '.join(names)});", "  signal now_is, then_is : state;",
        "  -- pragma CURRENT_STATE now_is", "  -- pragma NEXT_STATE then_is", "  -- pragma CLOCK ck", "begin",
        "  step : process (now_is, reset, x)", "  begin", "    seen <= '0';", "    if reset = '1' then then_is <= s0;", "    else case now_is is", *lines,
        "      when others => assert '1' report \"illegal state\";", "    end case; end if;", "  end process;",
        "  clock : process (ck)", "  begin", "    if ck = '1' and not ck'stable then now_is <= then_is; end if;", "  end process;", "end states;", "",
    ])


KINDS = {"alu": alu, "encoder": encoder, "decoder": decoder, "filter": filter4, "counter": counter}


def text_of(kind, number):
    return machine(number) if kind == "machine" else source(f"{kind}{number}", *KINDS[kind](number))


def main():
    if len(sys.argv) != 3 or sys.argv[1] not in (*KINDS, "machine") or not sys.argv[2].isdigit() or int(sys.argv[2]) < 2:
        sys.exit(__doc__)
    print(text_of(sys.argv[1], int(sys.argv[2])), end="")


if __name__ == "__main__":
    main()
