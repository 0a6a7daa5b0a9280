"""share/import and share/synth: netlists with answers by hand, each refusal, and netlists that yosys maps, where yosys, Icarus Verilog and GHDL are
installed. The circuits of examples/course are in course.py."""

import os
import re
import shutil
import subprocess
import sys
from types import SimpleNamespace

from acceptance.running.places import BENCH, CELLS, EXAMPLES, SHARE
from acceptance.running.results import Room
from share.formats import benches, blif_reader, comparison, files, lawful

SECONDS = 300
COURSE = EXAMPLES / "course"
HEAD = ".model m\n.inputs ck a b c\n.outputs q\n"
LATCH = ".latch d q re ck 2\n.names a d\n1 1\n"

# A table, and the equation that it is.
FORMS = [
    (".names a b q\n11 1\n", "q <= a and b;"),
    (".names a b q\n1- 1\n-1 1\n", "q <= a or b;"),
    (".names a b q\n11 0\n", "q <= not (a and b);"),
    (".names a b q\n00 1\n", "q <= not a and not b;"),
    (".names a b q\n10 1\n01 1\n", "q <= a xor b;"),
    (".names a b q\n11 1\n00 1\n", "q <= a xnor b;"),
    (".names a b q\n11 0\n00 0\n", "q <= a xor b;"),
    (".names a b c q\n100 1\n010 1\n001 1\n111 1\n", "q <= a xor b xor c;"),
    (".names a b c q\n100 0\n010 0\n001 0\n111 0\n", "q <= not (a xor b xor c);"),
    (".names a b c q\n11- 1\n0-1 1\n", "q <= b when a else c;"),
    (".names a b c q\n1-0 1\n-11 1\n", "q <= b when c else a;"),
    (".names a b c q\n01- 1\n1-0 1\n", "q <= not c when a else b;"),
    (".names a b c q\n11- 0\n0-1 0\n", "q <= not b when a else not c;"),
    (".names a b c q\n110 1\n0-1 1\n", "q <= (a and b and not c) or (not a and c);"),
    (".names a q\n0 1\n", "q <= not a;"),
    (".names a q\n1 0\n", "q <= not a;"),
    (".names a q\n0 0\n", "q <= a;"),
    (".names q\n", "q <= '0';"),
    (".names q\n1\n", "q <= '1';"),
    (".names a b q\n-- 1\n", "q <= '1';"),
    (".names $1 q\n0 1\n.names a $1\n0 1\n", "q <= a;"),
    (".names $1 a q\n1- 1\n-1 1\n.names $1\n", "q <= '0' or a;"),
    (".names a \\\n b q # and\n11 \\\n 1\n", "q <= a and b;"),
]

# What stands behind the head, the line at fault, and words of the cause.
REFUSED = [
    (".latch d q re ck 0\n.names a d\n1 1\n", 4, "q begins as 0"),
    (".latch d q re ck 1\n.names a d\n1 1\n", 4, "q begins as 1"),
    (".latch d q fe ck 2\n.names a d\n1 1\n", 4, "q loads when its clock falls"),
    (".latch d q ah ck 2\n.names a d\n1 1\n", 4, "q is a latch by level"),
    (".latch d q al ck 2\n.names a d\n1 1\n", 4, "q is a latch by level"),
    (".latch d q as ck 2\n.names a d\n1 1\n", 4, "q loads without a clock"),
    (".latch d q 2\n.names a d\n1 1\n", 4, "q has no clock"),
    (".latch a x re ck 2\n.latch x q re b 2\n", 5, "q has the clock b, and other registers ck"),
    (".latch a q re g 2\n.names ck b g\n11 1\n", 4, "the clock g of q is no input"),
    (LATCH + ".names ck a x\n11 1\n", 7, "the clock is read as data"),
    (".latch ck q re ck 2\n", 4, "the clock is read as data"),
    (".names a x q\n11 1\n", 4, "x is read, and nothing drives it"),
    (".latch x q re ck 2\n", 4, "x is read, and nothing drives it"),
    (".names a x\n1 1\n", 3, "nothing drives the output q"),
    (".names a q\n1 1\n.names b q\n1 1\n", 6, "q is driven a second time; line 4 drives it too"),
    (".names b a\n1 1\n.names a q\n1 1\n", 4, "the input a is driven"),
    (".names a x q\n11 1\n.names q b x\n1- 1\n", 4, "depend on each other in a ring"),
    (".names a q q\n11 1\n", 4, "q depends on itself"),
    (".names a q\n2 1\n", 5, "is no row of a table of 1 inputs"),
    (".names a q\n11 1\n", 5, "is no row of a table of 1 inputs"),
    (".names a b q\n11 1\n00 0\n", 4, "both when it is 1 and when it is 0"),
    (".names\n", 4, ".names has no net"),
    (".latch a\n", 4, "a latch is"),
    (".inputs a\n.names a q\n1 1\n", 4, "the port a stands twice"),
    (".inputs q\n.names a q\n1 1\n", 4, "the port q is input and output at once"),
    (".subckt $_DFF_PP0_ C=ck D=a Q=q R=b\n", 4, "asynchronous set or reset"),
    (".subckt $_AND_ A=a B=b Y=q\n", 4, "map it to tables first"),
    (".subckt n A=a B=b\n.end\n.model n\n.inputs A B\n.end\n", 4, "n is a model of the same file"),
    (".clock ck\n.names a q\n1 1\n", 4, "`.clock` isn't known here"),
    ("a q\n1 1\n", 4, "`a` stands outside of a table"),
]
CELL_REFUSED = [
    (".subckt inv_x7 i=a nq=q\n", 4, "inv_x7 is no cell of the library"),
    (".subckt inv_x1 j=a nq=q\n", 4, "inv_x1 has no pin j"),
    (".subckt inv_x1 nq=q\n", 4, "the input i of inv_x1 is joined to nothing"),
    (".subckt inv_x1 i=a nq=q\n.subckt inv_x1 i=b nq=q\n", 5, "q is driven a second time; line 4 drives it too"),
    (".subckt na2_x1 i0=a i1=q nq=x\n.subckt inv_x1 i=x nq=q\n", 4, "depend on each other in a ring"),
    (".subckt inv_x1 i=x nq=q\n", 4, "x is read, and nothing drives it"),
    (".latch a q re ck 2\n", 4, "the latch q is no cell"),
    (".names a b q\n11 1\n", 4, "the table of q is no cell"),
    (".subckt sff1_x4 ck=ck i=ck q=q\n", 1, "clock use"),
    (".subckt inv_x1 i=a i=b nq=q\n", 4, "a pin of inv_x1 stands twice"),
]
VERILOG_REFUSED = [
    ("module m (a, q);\ninput a;\noutput q;\nassign q = ~a;\nendmodule\n", 4, "`~` can't stand here"),
    ("module m (a, q);\ninput a;\noutput q;\nreg x;\nendmodule\n", 4, "`reg`: this is no module of instances alone"),
    ("module m (a, q);\ninput a;\ninout q;\nendmodule\n", 3, "inout"),
    ("module m (a, q);\ninput a;\nendmodule\n", 1, "the port q has no direction"),
    ("module m (a, q);\ninput a;\noutput q;\ninv_x1 g (.i(b), .nq(q));\nendmodule\n", 4, "b isn't declared"),
    ("module m (a, q);\ninput [1:0] a;\noutput q;\ninv_x1 g (.i(a[2]), .nq(q));\nendmodule\n", 4, "a has no bit 2"),
    ("module m (a, q);\ninput [1:0] a;\noutput q;\nassign q = a;\nendmodule\n", 4, "1 bits are given 2"),
    ("module m (a, q);\ninput a;\noutput q;\nassign q = a;\n", 4, "the end can't stand here"),
    ("module n ();\nendmodule\nmodule m ();\nendmodule\n", 3, "a second module"),
    ("\n", 1, "there is no module"),
]
# Names of a netlist, and what is printed of them; the last has every port in order.
RENAMED = """.model 2-bit
.inputs ck in[0] in[1] A a x[0] x[2] vdd
.outputs out q[3] q[2]
.latch in[0] u1.s[0] re ck 2
.latch in[1] u1.s[1] re ck 2
.names u1.s[0] u1.s[1] A a x[0] x[2] vdd $9 out
11111111 1
.names a $9
0 1
.names A q[3]
1 1
.names a q[2]
1 1
.end
"""
PRINTED = """entity n2_bit
registers 2
equations 3
renamed in in_1
renamed a a_1
renamed x[0] x_0
renamed x[2] x_2
renamed vdd vdd_1
renamed out out_1
renamed u1.s u1_s
renamed 2-bit n2_bit
"""
PORTS = ["ck : in bit", "in_1 : in bit_vector (1 downto 0)", "a : in bit", "a_1 : in bit", "x_0 : in bit", "out_1 : out bit"]
PORTS += ["q : out bit_vector (3 downto 2)"]
MAPPING = """read_verilog {source}
synth -flatten -noabc -top uart
dfflegalize -cell $_DFF_P_ x
dfflibmap -liberty cells.lib
abc -genlib cells.genlib
opt_clean -purge
write_blif m.blif
write_verilog -noattr -noexpr m.v
"""
# The design and its simulation differ, since the list of `always` lacks b.
UNEQUAL = "module m (input a, b, output reg q);\n  always @(a) q = a & b;\nendmodule\n"
SYNTH_REFUSED = [
    ("always @(posedge ck or posedge b) if (b) q <= 0; else q <= a;", [], "asynchronous set or reset"),
    ("initial q = 0; always @(posedge ck) q <= a;", [], "begins as 0"),
    ("always @* if (a) q = b;", [], "latch by level"),
    ("always @(negedge ck) q <= a;", [], "loads when its clock falls"),
    ("wire x; always @* q = x & a;", [], "used but has no driver"),
    ("always @(posedge ck) q <= q ^ a;", [], "nothing could be compared"),
    ("always @(posedge ck) q <= a;", ["--reset", "z"], "--reset z: it is NAME"),
]
# What stands in an architecture with a signal x, and words of the cause.
VHDL_REFUSED = [
    ("process (a, b) begin if b = '1' then q <= a; end if; end process;", "latch"),
    ("q <= x and a;", '"x" is never assigned'),
    ("process (ck, b) begin if b = '1' then q <= '0'; elsif rising_edge(ck) then q <= a; end if; end process;", "asynchronous set or reset"),
    ("process (ck) begin if falling_edge(ck) then q <= a; end if; end process;", "q loads when its clock falls"),
    ("q <= y;", 'no declaration for "y"'),
]
VHDL_HEAD = "library ieee;\nuse ieee.std_logic_1164.all;\nentity m is port (ck, a, b : in std_logic; q : out std_logic); end m;\n"


def ran(room, name, *words, path=None):
    environment = {**os.environ, "PATH": path} if path is not None else None
    command = [sys.executable, str(SHARE / name), *map(str, words)]
    done = subprocess.run(command, cwd=room.folder, capture_output=True, text=True, timeout=SECONDS, check=False, env=environment)
    return done.returncode, done.stdout, done.stderr


def is_refused(got, start, cause):
    status, out, err = got
    return status == 1 and not out and err.startswith(start) and cause in err and err.count("\n") == 1


def check_forms(results, program):
    """Each table becomes the equation that stands beside it, in a source that boom takes."""
    with Room() as room:
        for text, equation in FORMS:
            (room.folder / "m.blif").write_text(f"{HEAD}{text}.end\n")
            status, out, err = ran(room, "import", "m.blif", "-o", "m")
            made = (room.folder / "m.vbe").read_text() if status == 0 else ""
            taken = room.run(program, ["boom", "m.vbe", "-o", "n"])
            results.note(f"import makes `{equation}`", f"\n  {equation}\n" in made and taken[0] == 0, f"{out}{err}{made}{taken}")


def check_names(results, program):
    with Room() as room:
        (room.folder / "m.blif").write_text(RENAMED)
        status, out, err = ran(room, "import", "m.blif", "-o", "m.vbe")
        results.note("what import renames", (status, out, err) == (0, PRINTED, ""), out + err)
        made = (room.folder / "m.vbe").read_text()
        results.note("the ports that import makes", all(f"    {port}" in made for port in PORTS), made)
        taken = room.run(program, ["boom", "m.vbe", "-o", "n"])
        results.note("boom takes renamed ports", taken[0] == 0, str(taken))


def check_refusals(results):
    """Each is one line with the file and the line at fault, and nothing is written."""
    with Room() as room:
        for ending, words, head, cases in (
            (".blif", [], HEAD, REFUSED), (".blif", [CELLS], HEAD, CELL_REFUSED), (".v", [CELLS], "", VERILOG_REFUSED),
        ):
            for text, line, cause in cases:
                path = room.folder / f"m{ending}"
                path.write_text(f"{head}{text}" + (".end\n" if ending == ".blif" else ""))
                got = ran(room, "import", path.name, *words, "-o", "m")
                results.note(f"import refuses: {cause}", is_refused(got, f"import: m{ending}:{line}: ", cause), f"{got} of {text}")
        results.note("nothing is written of what is refused", not list(room.folder.glob("m.v??")), str(list(room.folder.iterdir())))
        (room.folder / "m.blif").write_text(HEAD + REFUSED[0][0])
        got = ran(room, "import", "m.blif", "-o", "m", "--without-initial")
        results.note("import without initial values", got[0] == 0 and "q_reg <= guarded a;" in (room.folder / "m.vbe").read_text(), str(got))
        got = ran(room, "import", "m.blif", "-o", "nowhere/m", "--without-initial")
        results.note("import where it can't write", is_refused(got, "import: nowhere/m.vbe: ", "No such file"), str(got))


def check_long(results, program):
    """A sum of 2,000 products of 12 literals: whether a number is less than 2,000."""
    inputs = [f"a[{k}]" for k in reversed(range(12))]
    rows = "".join(f"{k:012b} 1\n" for k in range(2000))
    numbers = (0, 1, 1999, 2000, 2047, 2048, 4095)
    patterns = "".join(f"< {k} ns > : b\"{number:012b}\" ?{int(number < 2000)} ;\n" for k, number in enumerate(numbers))
    with Room() as room:
        (room.folder / "m.blif").write_text(f".model m\n.inputs {' '.join(inputs)}\n.outputs q\n.names {' '.join(inputs)} q\n{rows}.end\n")
        (room.folder / "m.pat").write_text(f"in a (11 downto 0);\nout q;\nbegin\n{patterns.replace(chr(34), '').replace(': b', ': ')}end;\n")
        got = ran(room, "import", "m.blif", "-o", "m")
        taken = room.run(program, ["asimut", "m.vbe", "-p", "m.pat"])
        results.note("a sum of 2,000 products", got[0] == 0 and taken[0] == 0, f"{got} {taken[0]} {taken[1][:300]}")


def check_cells(results, program, name):
    """A netlist of boog, written as BLIF and as Verilog, comes back the same; by placing, routing and buffers it is taken as well."""
    with Room() as room:
        room.run(program, ["boog", str(EXAMPLES / name), "-l", str(CELLS), "-o", "n"])
        for form, ending in (("--blif", ".blif"), ("--verilog", ".v")):
            (room.folder / f"n{ending}").write_text(ran(room, "netlist", "n.vst", CELLS, form)[1])
            got = ran(room, "import", f"n{ending}", CELLS, "-o", "m")
            room.run(program, ["flatbeh", "n.vst", "-l", str(CELLS), "-o", "n"])
            room.run(program, ["flatbeh", "m.vst", "-l", str(CELLS), "-o", "m"])
            same = room.run(program, ["lvx", "m.vst", "-b", "n.vst", "-l", str(CELLS)])
            equal = room.run(program, ["proof", "m.vbe", "-b", "n.vbe"])
            told = f"{got} {same} {equal}"
            results.note(f"{name} as {ending} and back", got[0] == 0 and same == (0, b"same\n") and equal == (0, b"equal\n"), told)
            steps = [["loon", "m.vst", "-o", "l"], ["ocp", "m.vst", "-o", "p"], ["nero", "m.vst", "-p", "p.ap", "-o", "r"]]
            done = [room.run(program, [*step, "-l", str(CELLS)])[0] for step in steps]
            results.note(f"loon, ocp and nero take {name} from {ending}", done == [0, 0, 0], str(done))


def check_joined(results):
    """Outputs that show an input, each other and constants get cells."""
    text = ".model m\n.inputs a\n.outputs p q r s t\n.subckt inv_x1 i=a nq=q\n.names q p\n1 1\n.names a r\n1 1\n.names s\n.names t\n1\n.end\n"
    with Room() as room:
        (room.folder / "m.blif").write_text(text)
        got = ran(room, "import", "m.blif", CELLS, "-o", "m")
        n = files.netlist(room.folder / "m.vst", files.library(CELLS)) if got[0] == 0 else None
        seen = [n.settle({("a", -1): a}, {}) for a in (0, 1)] if n else []
        shown = [tuple(env[name, -1] for name in "pqrst") for env in seen]
        results.note("outputs that need cells of their own", shown == [(1, 1, 0, 0, 1), (0, 0, 1, 0, 1)], f"{shown} {got}")


def missing(*programs):
    return next((name for name in programs if not shutil.which(name)), None)


def check_synth_words(results):
    with Room() as room:
        (room.folder / "m.v").write_text(UNEQUAL)
        (room.folder / "m.vhd").write_text("")
        for words, cause in (
            (["m.v"], "yosys isn't installed"), (["m.vhd"], "ghdl isn't installed"), (["m.v", "m.vhd"], "have to end all in"),
            (["none.v"], "No such file"),
        ):
            got = ran(room, "synth", "m", *words, "-o", "n", path=str(room.folder))
            results.note(f"synth says: {cause}", is_refused(got, "synth: ", cause), str(got))


def check_synth_refusals(results):
    lacks = missing("yosys", "iverilog")
    if lacks:
        results.skip(f"{lacks} isn't installed")
        return
    with Room() as room:
        (room.folder / "m.v").write_text(UNEQUAL)
        got = ran(room, "synth", "m", "m.v", "-o", "m")
        told = re.match(r"synth: vector \d+: a=1 b=(\d): the design shows q=(\d), the source q=(\d)\n", got[2])
        results.note("a design that differs", got[0] == 1 and told and told[2] != told[1] == told[3], str(got))
        results.note("nothing is written of it", not (room.folder / "m.vbe").exists())
        got = ran(room, "synth", "m", "m.v", "-o", "m", "--no-compare")
        results.note("without a comparison", got[0] == 0 and (room.folder / "m.vbe").exists(), str(got))
        for body, words, cause in SYNTH_REFUSED:
            (room.folder / "m.v").write_text(f"module m (input ck, a, b, output reg q);\n  {body}\nendmodule\n")
            got = ran(room, "synth", "m", "m.v", "-o", "n", *words)
            results.note(f"synth refuses: {cause}", is_refused(got, "synth: ", cause), str(got))


def check_vhdl_refusals(results):
    lacks = missing("yosys", "ghdl")
    if lacks:
        results.skip(f"{lacks} isn't installed")
        return
    with Room() as room:
        for body, cause in VHDL_REFUSED:
            (room.folder / "m.vhd").write_text(f"{VHDL_HEAD}architecture r of m is\n  signal x : std_logic;\nbegin\n  {body}\nend r;\n")
            got = ran(room, "synth", "m", "m.vhd", "-o", "n")
            results.note(f"synth refuses VHDL: {cause}", is_refused(got, "synth: ", cause), str(got))


def check_mapped(results, program):
    """A netlist that yosys maps to the row library comes in, and shows what its design shows in Icarus Verilog."""
    lacks = missing("yosys", "iverilog")
    if lacks:
        results.skip(f"{lacks} isn't installed")
        return
    with Room() as room:
        (room.folder / "cells.lib").write_text(ran(room, "liberty", CELLS)[1])
        genlib = subprocess.run([sys.executable, BENCH / "areas.py", "--genlib", CELLS], capture_output=True, text=True, check=False)
        (room.folder / "cells.genlib").write_text(genlib.stdout)
        (room.folder / "map.ys").write_text(MAPPING.format(source=COURSE / "uart.v"))
        done = subprocess.run(["yosys", "-q", "-s", "map.ys"], cwd=room.folder, capture_output=True, text=True, timeout=SECONDS, check=False)
        for name in ("m.blif", "m.v"):
            got = ran(room, "import", name, CELLS, "-o", "m")
            results.note(f"import takes {name} of yosys", got[0] == 0 and "registers 16\n" in got[1], f"{got} {done.stderr[:500]}")
            steps = [["flatbeh", "m.vst", "-o", "m"], ["loon", "m.vst", "-o", "l"], ["ocp", "m.vst", "-o", "p"]]
            taken = [room.run(program, [*step, "-l", str(CELLS)])[0] for step in steps]
            results.note(f"the tools take {name} of yosys", taken == [0, 0, 0], str(taken))
            check_against_design(results, room, name)


def check_against_design(results, room, name):
    flat, _ = blif_reader.read((room.folder / "m.blif").read_text())
    ports = benches.ports_of(flat.inputs), benches.ports_of(flat.outputs)
    design = benches.Design("verilog", "uart", [COURSE / "uart.v"], *ports, "clk")
    keys = SimpleNamespace(key=lambda net: (lawful.base_of(net)[0], -1 if lawful.base_of(net)[1] is None else lawful.base_of(net)[1]))
    made = SimpleNamespace(text=(room.folder / "m.vbe").read_text(), ports=keys)
    try:
        compared, _ = comparison.compare(design, room.folder, made, SimpleNamespace(seed=1, reset=None, vectors=256, sync_reset=False))
        results.note(f"{name} of yosys shows what its design does", compared.bits > 500, f"{compared.bits} of {compared.all_bits}")
    except files.Trouble as trouble:
        results.note(f"{name} of yosys shows what its design does", False, str(trouble))


def jobs(program):
    yield check_long, (program,)
    yield check_forms, (program,)
    yield check_mapped, (program,)
    yield check_names, (program,)
    yield from ((check_cells, (program, name)) for name in ("counter/cnt4.vbe", "alu/alu8.vbe"))
    yield from ((check, ()) for check in (check_refusals, check_joined, check_synth_words, check_synth_refusals, check_vhdl_refusals))
