"""What `flow` makes of sources and libraries at each limit and one past it, of sources without inputs, registers or outputs, and of two
causes at once, of which the earlier counts. What is wanted is worked by hand from docs/FORMATS.md.
"""

import re

from acceptance.running.results import Room, compare
from acceptance.tools import flow, syf
from acceptance.tools.boog import of_cells

FILE, IDENT, NUMBER, DEPTH, CHAIN, CELLS, COORDINATE = 1048576, 64, 4294967295, 256, 16384, 1024, 10**12


def source(body="o <= not i;", ports="i : in bit; o : out bit", declared="", name="s"):
    head = f"entity {name} is port ({ports}; vdd : in bit; vss : in bit); end {name};\n"
    return f"{head}architecture vbe of {name} is\n{declared}begin\n{body}\nend vbe;\n".encode()


# ---- sources of every sort


SOURCES = {
    "an output without inputs": source("o <= '1';", "o : out bit"),
    "outputs of one constant": source("o <= \"0000\";", "o : out bit_vector (3 downto 0)"),
    "a register without inputs": source(
        "b : block (ck and not ck'stable) begin r <= guarded not r; end block;\no <= r;", "ck : in bit; o : out bit", "signal r : reg_bit register;\n"
    ),
    "inputs without outputs": source("", "i : in bit; a : in bit_vector (2 to 5)"),
    "a clock and registers that nothing shows": source(
        "b : block (ck and not ck'stable) begin r <= guarded i; end block;", "ck : in bit; i : in bit", "signal r : reg_bit register;\n"
    ),
    "no ports but the supplies": b"entity s is port (vdd : in bit; vss : in bit); end s;\narchitecture vbe of s is\nbegin\nend vbe;\n",
    "no supplies": b"entity s is port (i : in bit; o : out bit); end s;\narchitecture vbe of s is\nbegin\no <= i;\nend vbe;\n",
    "supplies that are read": source("o <= (vdd and i) or vss;"),
    "vectors of both orders": source("o <= a xor not b;", "a : in bit_vector (7 downto 0); b : in bit_vector (8 to 15); o : out bit_vector (0 to 7)"),
    "a vector of one bit beside a scalar": source("o(3) <= i(5);\np <= i(5);", "i : in bit_vector (5 to 5); o : out bit_vector (3 downto 3); p : out bit"),
    "names in their order": source("a_1 <= b2;\na(1) <= b10;\na(0) <= b;", "b, b2, b10 : in bit; a_1 : out bit; a : out bit_vector (1 downto 0)"),
    "ports called like instances": source("g0 <= not q0;\ng1 <= not n0;", "q0, n0 : in bit; g0, g1 : out bit"),
}


def check_sources(results, program):
    for title, text in SOURCES.items():
        with Room() as room:
            flow.run_laid_out(results, room, program, title, {**of_cells(flow.FIVE), "s.vbe": text})


# ---- limits


def padded(text, size, mark=b"--"):
    """The text with a comment or the like before its last line, so that it has this many bytes."""
    *lines, last = text.removesuffix(b"\n").split(b"\n")
    head = b"\n".join(lines) + b"\n" + mark
    return head + b"x" * (size - len(head) - len(last) - 2) + b"\n" + last + b"\n"


def with_cell(name, file, text):
    return {**of_cells(flow.FIVE), "s.vbe": source(), f"lib/{name}.{file}": text}


def cell_file(name):
    return of_cells(flow.FIVE)[f"lib/{name}"]


def renamed(name):
    """The library of five cells with the inverter under another name."""
    files = {path.replace("inv_x1", name): text.replace(b"inv_x1", name.encode()) for path, text in of_cells(flow.FIVE).items()}
    return {**files, "s.vbe": source()}


def many_cells(count):
    """The five cells among others, of which each is a buffer of its own name."""
    files = of_cells(flow.FIVE)
    for k in range(count - len(flow.FIVE)):
        for end in ("vbe", "ap"):
            files[f"lib/c{k}.{end}"] = of_cells(["buf_x2"])[f"lib/buf_x2.{end}"].replace(b"buf_x2", f"c{k}".encode())
    names = flow.FIVE + [f"c{k}" for k in range(count - len(flow.FIVE))]
    return {**files, "lib/CATAL": "".join(f"{name} C\n" for name in names).encode(), "s.vbe": source()}


def of_source(text):
    return {**of_cells(flow.FIVE), "s.vbe": text}


def nested(depth):
    return of_source(source(f"o <= {'(' * depth}i{')' * depth};"))


def asserted(operators):
    """An assertion has no effect, and no size."""
    return of_source(source(f"assert {'i and ' * operators}i;\no <= i;"))


def declared(bits):
    """So many bits of ports, those of the supplies among them."""
    return of_source(source("", f"i : in bit_vector ({bits - 3} downto 0)"))


def with_well(x):
    return with_cell("inv_x1", "ap", cell_file("inv_x1.ap").replace(b"EOF", b"S 0,3900,%d,3900,2400,*,RIGHT,NWELL\nEOF" % x))


def with_wire(name):
    return with_cell("inv_x1", "ap", cell_file("inv_x1.ap").replace(b"EOF", b"S 0,3900,100,3900,2400,%s,RIGHT,NWELL\nEOF" % name))


def limits():
    """For each case what it is, its files, and the line that is wanted, or None where it is laid out."""
    vbe, layout, catal = cell_file("na2_x1.vbe"), cell_file("na2_x1.ap"), cell_file("CATAL")
    past = f"file {FILE + 1}"
    for size, line in ((FILE, None), (FILE + 1, past)):
        yield f"a source of {size} bytes", of_source(padded(source(), size)), line
        yield f"a CATAL of {size} bytes", {**of_source(source()), "lib/CATAL": catal + b"\n" * (size - len(catal))}, line
        yield f"a behaviour of {size} bytes", with_cell("na2_x1", "vbe", padded(vbe, size)), line
        yield f"a layout of {size} bytes", with_cell("na2_x1", "ap", padded(layout, size, b"B ")), line
    for count, line in ((IDENT, None), (IDENT + 1, f"ident {IDENT + 1}")):
        name = "n" * count
        yield f"a name of {count} bytes in the source", of_source(source(f"{name} <= i;\no <= not i;", declared=f"signal {name} : bit;\n")), line
        yield f"a name of {count} bytes in CATAL", renamed("c" * count), line
        yield f"a name of {count} bytes in a layout", with_wire(b"n" * count), line
    for number, line in ((NUMBER, None), (NUMBER + 1, f"number {NUMBER + 1}")):
        yield f"the number {number} in the source", of_source(source(f"o <= i after {number} ns;")), line
        yield f"the number {number} in a behaviour", with_cell("na2_x1", "vbe", re.sub(rb":= \d+;", b":= %d;" % number, vbe, count=1)), line
    yield f"{DEPTH} parentheses", nested(DEPTH), None
    yield f"{DEPTH + 1} parentheses", nested(DEPTH + 1), f"depth {DEPTH + 1}"
    yield f"{CHAIN} operators", asserted(CHAIN), None
    yield f"{CHAIN + 1} operators", asserted(CHAIN + 1), f"chain {CHAIN + 1}"
    yield "1048576 bits", declared(1048576), "ports 1048574"
    yield "1048577 bits", declared(1048577), "bits 1048577"
    yield f"{CELLS} cells", many_cells(CELLS), None
    yield f"{CELLS + 1} cells", {**of_source(source()), "lib/CATAL": b"".join(b"c%d C\n" % k for k in range(CELLS + 1))}, f"cells {CELLS + 1}"
    yield f"the coordinate {COORDINATE}", with_well(COORDINATE), None
    yield f"the coordinate {COORDINATE + 1}", with_well(COORDINATE + 1), f"coordinate {COORDINATE + 1}"


def check_limits(results, program):
    for title, files, line in limits():
        with Room() as room:
            if line is None:
                wanted = flow.second(flow.WORDS, files)
                results.note(f"{title} in the second reader", wanted[0] == 0, wanted)
                flow.run_laid_out(results, room, program, title, files)
            else:
                room.write(files)
                got = room.run(program, flow.WORDS)
                compare(results, title, (*got, room.held()), 9, f"flow: limit: {line}\n".encode(), files)


def check_ring(results, program, operators, line):
    """A ring of 63 states with a bit for each has a size of 16,193, and what its output shows makes up the rest."""
    states, is_odd = [f"s{k}" for k in range(63)], operators % 2
    branches = "".join(f"when {state} => ns <= {states[(k + 1) % 63]};\n" for k, state in enumerate(states))
    body = f"o <= {'not ' if is_odd else ''}i{' and i' * (operators // 2)};\ncase cs is\n{branches}end case;"
    files = {**of_cells(flow.FIVE), "s.fsm": syf.text_of(", ".join(states), body, "i : in bit; o : out bit")}
    words = ["flow", "s.fsm", *flow.WORDS[2:], "-e", "o"]
    wanted = flow.second(words, files)
    results.note(f"a ring of 63 states and {operators} in the second reader", wanted[0] == 0 if line is None else wanted == (9, line), wanted)
    with Room() as room:
        flow.run_laid_out(results, room, program, f"a ring of 63 states and {operators}", files, words)


# ---- two causes at once


def words_twice(words, files):
    return [*words, "--tracks"], files


def without(name):
    return lambda words, files: (words, {other: text for other, text in files.items() if other != name})


def put(name, text):
    return lambda words, files: (words, {**files, name: text})


def wide_source():
    """A machine with 4,097 port bits, and of more than the largest size: ports come first."""
    return source("o <= i xor i xor i;", "i : in bit_vector (2047 downto 0); o : out bit_vector (2048 downto 1); p : in bit")


def large_source():
    """Two xors for each of 2,000 bits weigh 8, and each output bit 2."""
    return source("o <= i xor i xor i;", "i : in bit_vector (1999 downto 0); o : out bit_vector (1999 downto 0)")


def many_ports(states):
    """So many states, and 4,097 port bits."""
    return syf.text_of(", ".join(states), f"ns <= {states[0]};\ncase cs is end case;", "i : in bit_vector (4095 downto 0)")


def source_causes(is_fsm):
    """What is wrong with a source, in the order in which it is told."""
    if not is_fsm:
        return [
            (put("s.vbe", source("o <= not u;")), 2, "flow: s.vbe:4: unknown u\n"),
            (put("s.vbe", wide_source()), 9, "flow: limit: ports 4097\n"),
            (put("s.vbe", large_source()), 9, "flow: limit: size 20000\n"),
        ]
    return [
        (put("s.fsm", syf.text_of(body="ns <= s0;\ncase cs is when s1 => end case;")), 2, "flow: s.fsm:9: bad state s1\n"),
        (put("s.fsm", many_ports([f"s{k}" for k in range(257)])), 9, "flow: limit: ports 4097\n"),
        (put("s.fsm", syf.ring(257)), 9, "flow: limit: states 257\n"),
        (put("s.fsm", syf.ring(64)), 9, "flow: limit: size 16706\n"),
    ]


def causes(is_fsm):
    """The causes of a refusal in their order, each with what brings it, its status and its line."""
    one_column = {b"500,1000,500,4000,200,i0": b"500,1000,500,2000,200,i0", b"1000,1000,1000,2500,200,i1": b"500,3000,500,4000,200,i1"}
    above, wide, name = cell_file("na2_x1.ap"), cell_file("one_x0.ap"), "s.fsm" if is_fsm else "s.vbe"
    for line, other in one_column.items():
        above = above.replace(line, other)
    for line in (b"A 0,0,", b"S 0,300,", b"S 0,4700,"):
        wide = wide.replace(line + b"1000,", line + b"16500,")
    return [
        (words_twice, 1, flow.USAGE),
        (without(name), 7, f"flow: file: missing {name}\n"),
        (without("lib/CATAL"), 7, "flow: file: missing lib/CATAL\n"),
        (put("lib/CATAL", b"inv_x1 C\nna2_x1 C \nzero_x0 C\none_x0 C\nsff1_x4 C\n"), 3, "flow: library: catal 2\n"),
        (without("lib/na2_x1.ap"), 7, "flow: file: missing lib/na2_x1.ap\n"),
        (put("lib/zero_x0.vbe", b"-" * (FILE + 1)), 9, f"flow: limit: file {FILE + 1}\n"),
        (put("lib/sff1_x4.ap", None), 7, "flow: file: read fault lib/sff1_x4.ap\n"),
        *source_causes(is_fsm),
        (put("lib/inv_x1.vbe", b"entity"), 3, "flow: library: inv_x1 1\n"),
        (put("lib/na2_x1.ap", above), 3, "flow: library: na2_x1 10\n"),
        (put("lib/one_x0.ap", wide), 9, "flow: limit: width 33\n"),
        (put("lib/sff1_x4.vbe", source("q <= ck and i;", "ck, i : in bit; q : out bit", name="sff1_x4")), 4, "flow: no cover: dff\n"),
        (put("r.ap", None), 7, "flow: file: write fault r.ap\n"),
    ]


def good_source(is_fsm):
    if is_fsm:
        return {"s.fsm": syf.ring(2)}
    return {"s.vbe": source("b : block (ck and not ck'stable) begin o <= guarded i; end block;\np <= o;",
                            "ck, i : in bit; p : out bit", "signal o : reg_bit register;\n")}


def run_causes(results, program, title, is_fsm, brought, wanted):
    """The causes are brought from the last on, so that of two in one file the earlier stands."""
    files = {**of_cells(flow.FIVE), **good_source(is_fsm)}
    words = ["flow", "s.fsm", *flow.WORDS[2:], "-e", "o"] if is_fsm else flow.WORDS
    for bring in reversed(brought):
        words, files = bring(words, files)
    with Room() as room:
        room.write(files)
        got = room.run(program, words)
        compare(results, title, (*got, room.held()), wanted[0], wanted[1].encode(), files)


def check_orders(results, program, is_fsm):
    """Each cause alone, with each later one, and with all later ones."""
    found = causes(is_fsm)
    for at, (bring, *wanted) in enumerate(found):
        later = [other for other, _, _ in found[at + 1 :]]
        for more in [[], *([other] for other in later), later]:
            title = f"cause {at + 1} of {len(found)}{' of a state machine' if is_fsm else ''} with {len(more)} more"
            run_causes(results, program, title, is_fsm, [bring, *more], wanted)


def jobs(program):
    yield check_ring, (program, 191, None)
    yield check_ring, (program, 192, "flow: limit: size 16385\n")
    yield check_limits, (program,)
    yield check_orders, (program, False)
    yield check_orders, (program, True)
    yield check_sources, (program,)
