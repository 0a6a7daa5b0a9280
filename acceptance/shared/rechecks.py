"""recheck: on layouts that are right, on such as were changed by hand in a way whose answer is known, and on such as have one line changed at
random, beside what the tools say of these."""

import random
import re

from acceptance.makers.layout_changes import changes
from acceptance.running.places import CELLS, EXAMPLES
from acceptance.running.results import Room
from acceptance.shared.pictures import CHECKING, ran
from acceptance.shared.programs import tool
from acceptance.tools.boom import adder, multiplier
from share.formats import equal, vbe_oracle
from share.formats.equal import Function

SAME, WRONG, TROUBLE = 0, 1, 2

# Changes of examples/checking/pick.ap, in which y is a when c is 1, and else b: what is replaced, by what, and the verdict.
BY_HAND = [
    # y would be a nor of what it is the nand of, which is never 1
    ("I 9500,0,na2_x1,g3", "I 9500,0,no2_x1,g3", "wrong: y differs where "),
    # the cell stands on its head, so that its rails are exchanged
    ("I 9500,0,na2_x1,g3,NOSYM", "I 9500,0,na2_x1,g3,SYM_Y", "wrong: "),
    # the inverter's input isn't reached
    ("V 4000,1500,CONT_VIA,c\n", "", "wrong: unconnected g1 i"),
    # a and b change places
    ("C 1500,5500,200,a,", "C 1500,5500,200,d,", "wrong: port a: the source has in, the layout none"),
    # a wire of metal 3 over the one of b, which joins the two
    ("EOF", "S 2000,6000,2000,5500,200,*,UP,ALU3\nV 2000,6000,CONT_VIA2,*\nEOF", "wrong: shorted a b"),
    # a wire of no net 100 beside that of y on metal 3
    ("EOF", "S 11300,3000,11300,4000,200,*,UP,ALU3\nEOF", "wrong: the symbolic rules are broken: druc lists where"),
    # a further cell above another one
    ("EOF", "I 3500,0,zero_x0,g4,NOSYM\nEOF", "wrong: "),
    # no port for the supply
    ("C 500,4700,600,vdd,0,WEST,ALU1\n", "", "wrong: "),
]


def verdict(out):
    return out.splitlines()[-1] if out else ""


def check_by_hand(results):
    text = (CHECKING / "pick.ap").read_text()
    source = CHECKING / "pick.vbe"
    status, out, err = ran("recheck", source, CHECKING / "pick.ap", CELLS)
    results.note("recheck of a layout", status == SAME and verdict(out) == "the same as its source", out + err)
    lines = text.splitlines()
    shown = sum(line.startswith(("S ", "C ")) for line in lines) + 2 * sum(line.startswith("V ") for line in lines[1:])
    of_cells = sum(len(re.findall(r"^S .*ALU1$", (CELLS / f"{line.split(',')[2]}.ap").read_text(), re.M)) for line in lines if line.startswith("I "))
    counts = f"rectangles {shown + of_cells}\nvias 37\ncells 4\nnets 7\nports 4\nregisters 0\nbreaches 0\noverlaps 0\nfunctions 1\n"
    results.note("what recheck counts", counts in out, f"{counts} {out}")
    for old, new, wanted in BY_HAND:
        status, out, err = ran("recheck", source, "-", CELLS, given=text.replace(old, new).encode())
        results.note(f"recheck with {new.strip() or 'nothing'!r} for {old.strip()!r}", status == WRONG and verdict(out).startswith(wanted), out + err)
        if wanted.endswith(" where "):
            a, b, c = map(int, re.findall(r" = ([01])", verdict(out)))
            results.note("the values where y differs", (a if c else b) == 1, out)


def check_trouble(results):
    """Files that can't be read."""
    source, layout = CHECKING / "pick.vbe", CHECKING / "pick.ap"
    with Room() as room:
        room.write({"bad.vbe": b"entity pick is\nnot;\n", "bad.ap": b"V ALLIANCE : 6\nH a\n", "report": b"register q0 r0\n"})
        folder = room.folder
        cases = [
            ([folder / "bad.vbe", layout, CELLS], f"{folder}/bad.vbe:2: syntax"),
            ([source, folder / "bad.ap", CELLS], f"{folder}/bad.ap:2: bad line"),
            ([source, layout, folder / "none"], f"{folder}/none: No such file or directory"),
            ([folder / "report", layout, CELLS], f"{folder}/report: a source ends in .vbe or .fsm"),
            ([source, layout, CELLS, "--report", folder / "report"], f"{folder}/report: its registers aren't those of the source"),
        ]
        for words, line in cases:
            status, out, err = ran("recheck", *words)
            results.note(f"recheck: {line}", (status, err) == (TROUBLE, f"recheck: {line}\n"), f"{status} {out} {err}")


def check_flow(results, program, source, words):
    """A layout of flow, by the order of names and by its report; with two registers or codes exchanged in the report it is wrong."""
    with Room() as room:
        report = tool(room, program, "flow", EXAMPLES / source, "-l", CELLS, "-o", "l", *words)
        (room.folder / "report").write_bytes(report)
        files = [EXAMPLES / source, room.folder / "l.ap", CELLS]
        style = [word for word in words if word in ("-e", "o", "r", "j", "--seed", "7")]
        status, out, err = ran("recheck", *files, *style)
        results.note(f"recheck of {source} {' '.join(words)}", status == SAME and verdict(out) == "the same as its source", out + err)
        status, out, err = ran("recheck", *files, "--report", room.folder / "report")
        results.note(f"recheck of {source} by its report", status == SAME and verdict(out) == "the same as its source", out + err)
        text = report.decode()
        if source.endswith(".fsm"):
            first, second = re.findall(r"^code \w+ ([01]+)$", text, re.M)[:2]
            text = text.replace(f" {first}\n", " x\n").replace(f" {second}\n", f" {first}\n").replace(" x\n", f" {second}\n")
        elif "register q0" in text:
            text = text.replace("register q0 ", "register x ").replace("register q1 ", "register q0 ").replace("register x ", "register q1 ")
        else:
            return
        status, out, err = ran("recheck", *files, "--report", "-", given=text.encode())
        results.note(f"recheck of {source}, exchanged", status == WRONG and "differs" in verdict(out), out + err)


def check_ways(results, program):
    """All values, diagrams and vectors: each finds a function that differs, and says so."""
    with Room() as room:
        room.write({"m.vbe": multiplier(4), "a.vbe": adder(16, True)})
        for name in "ma":
            tool(room, program, "flow", f"{name}.vbe", "-l", CELLS, "-o", name, "--tracks")
        of_few, of_all = ["--nodes", "5"], ["--steps", "0"]
        for name, words, way in (("m", [], "all values 8"), ("a", [], "diagrams 3"), ("a", of_few, "vectors 3"), ("m", of_all, "vectors 8")):
            status, out, err = ran("recheck", room.folder / f"{name}.vbe", room.folder / f"{name}.ap", CELLS, *words)
            results.note(f"recheck by {way}", status == SAME and f"by {way}\n" in out, out + err)
            text = (room.folder / f"{name}.vbe").read_text()
            (room.folder / "x.vbe").write_text(text.replace(" and ", " or ", 1))
            status, out, err = ran("recheck", room.folder / "x.vbe", room.folder / f"{name}.ap", CELLS, *words)
            results.note(f"recheck by {way} of another source", status == WRONG and " differs where " in verdict(out), out + err)


def check_long(results, program):
    """A product of 16 bits, whose diagrams are too large: the steps of all functions are bounded. And a state with one `if` after the other, whose
    outputs have very many ways through it."""
    machine = vbe_oracle.machine(multiplier(16))
    budget, equations = equal.Budget(1000, 200000), dict(machine.equations)
    products = [Function(equations[bit], equations) for bit in sorted(machine.ports) if bit in equations]
    ways = [equal.compared(product, product, equal.TRUE, budget) for product in products]
    by_vectors = [answer for answer in ways if answer.way == equal.VECTORS]
    is_well = len(ways) == 32 and len(by_vectors) > 16 and 0 <= budget.steps < 200000 and not any(answer.values for answer in ways)
    results.note("a product of 16 bits in bounded steps", is_well, f"{budget.steps} {[answer.way for answer in ways]}")
    with Room() as room:
        room.write({"s.fsm": many_ifs(40).encode()})
        tool(room, program, "flow", "s.fsm", "-l", CELLS, "-o", "s", "--tracks")
        status, out, err = ran("recheck", room.folder / "s.fsm", room.folder / "s.ap", CELLS)
        results.note("recheck of a state with 40 times `if`", status == SAME and "functions 83\n" in out and "by vectors 0\n" in out, out + err)


def many_ifs(count):
    """A machine of two states, one of which shows its inputs one by one."""
    bits = f"bit_vector ({count - 1} downto 0)"
    first = "".join(f"y({k}) <= '0';\n" for k in range(count))
    shown = "".join(f"if a({k}) = '1' then y({k}) <= '1'; end if;\n" for k in range(count))
    return f"""entity s is port (ck, rst : in bit; a : in {bits}; y : out {bits}; vdd : in bit; vss : in bit); end s;
architecture states of s is
type st is (s0, s1); signal cs, ns : st;
-- pragma CURRENT_STATE cs
-- pragma NEXT_STATE ns
-- pragma CLOCK ck
begin
process (cs, rst, a) begin
{first}ns <= s0;
case cs is when s0 => ns <= s1; {shown}when s1 => ns <= s0; end case;
if rst = '1' then ns <= s0; end if;
end process;
process (ck) begin if ck = '1' and not ck'stable then cs <= ns; end if; end process;
end states;
"""


def judged(room, program):
    """Whether the tools find a layout well: its rules, and its netlist as a source that is equal to the source."""
    of_layout = f"druc l.ap -l {CELLS}", f"cougar l.ap -l {CELLS} -o n"
    for words in (*of_layout, f"flatbeh n.vst -l {CELLS} -o f", "proof s.vbe -b f.vbe"):
        status, printed = room.run(program, words.split())
        if status != 0:
            return False, printed
    return True, b""


def check_changed(results, program, seed):
    """Layouts with one line changed: recheck says of each what the tools say, which don't look at cells that overlap."""
    with Room() as room:
        room.write({"s.vbe": (EXAMPLES / "adder/add4.vbe").read_bytes()})
        tool(room, program, "flow", "s.vbe", "-l", CELLS, "-o", "l")
        for title, text in changes(random.Random(seed), (room.folder / "l.ap").read_bytes()).items():
            (room.folder / "l.ap").write_bytes(text)
            is_well, printed = judged(room, program)
            status, out, err = ran("recheck", room.folder / "s.vbe", room.folder / "l.ap", CELLS)
            is_right = status == (SAME if is_well else WRONG) or "overlap" in verdict(out)
            results.note(f"recheck of a layout with {title}", is_right, f"{printed} {out[-300:]} {err}")


def jobs(program):
    yield check_by_hand, ()
    yield check_trouble, ()
    for source in ("counter/cnt4.vbe", "adder/add4.vbe", "alu/alu8.vbe", "lock/lock.vbe"):
        yield check_flow, (program, source, [])
    yield check_flow, (program, "counter/cnt4.vbe", ["--tracks"])
    for words in (["-e", "o"], ["-e", "j"], ["-e", "r", "--seed", "7"]):
        yield check_flow, (program, "lock/lock.fsm", words)
    yield check_ways, (program,)
    yield check_long, (program,)
    yield from ((check_changed, (program, seed)) for seed in range(4))
