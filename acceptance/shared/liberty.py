"""Libraries as Liberty: functions and times against those of the cells, numbers by hand, and what OpenSTA, yosys and abc make of them."""

import csv
import itertools
import re
import shutil
import subprocess

from acceptance.running.places import CELLS
from acceptance.running.results import Room
from acceptance.shared.pictures import ran
from share.formats import files, timing, verilog
from share.formats.vhdl_reader import spelled

SECONDS = 300
WORD = re.compile(r'"(?:[^"\\]|\\.)*"|[\w.\[\]!]+|[{}();:,]', re.S)


class Group:
    """A group of Liberty: its kind and words, its attributes by name, its groups in their order."""

    def __init__(self, kind, words):
        self.kind, self.words, self.values, self.groups = kind, words, {}, []

    def named(self, kind, *words):
        return next(group for group in self.groups if group.kind == kind and group.words == list(words))

    def all(self, kind):
        return [group for group in self.groups if group.kind == kind]


def read(text):
    """The group that a Liberty text is."""
    words = [word.strip('"') for word in WORD.findall(re.sub(r"/\*.*?\*/", "", text, flags=re.S))]
    root, at = Group("", []), 0
    opened = [root]
    while at < len(words):
        if words[at] == "}":
            opened.pop()
            at += 1
        elif words[at + 1] == ":":
            opened[-1].values[words[at]] = words[at + 2]
            at += 4
        else:
            end = words.index(")", at)
            given = [word for word in words[at + 2 : end] if word != ","]
            if words[end + 1] == "{":
                group = Group(words[at], given)
                opened[-1].groups.append(group)
                opened.append(group)
            else:
                opened[-1].values[words[at]] = given
            at = end + 2
    return root.groups[0]


def numbers(row):
    return [float(word) for word in row.split(",")]


def table(group, kind):
    """The rows of a table of a timing group."""
    return [numbers(row) for row in next(one for one in group.groups if one.kind == kind).values["values"]]


def arcs(cell, output, pin):
    return [group for group in cell.named("pin", output).all("timing") if group.values["related_pin"] == pin]


# ---- against the cells


def valued(function, values):
    """A function of Liberty under values of its pins: `!` binds strongest, then `&`, `^`, `|`."""
    found = eval(function.replace("!", "~"), {"__builtins__": {}}, values)  # noqa: S307: letters, signs and parentheses of our own
    return found & 1


def check_cells(results):
    """Functions over all vectors, and with --linear the greatest time of each arc at two of the loads of the tables."""
    status, out, err = ran("liberty", CELLS, "--linear")
    models, library = files.library(CELLS), read(out)
    cells = {cell.words[0]: cell for cell in library.all("cell")}
    results.note("the cells that liberty writes", status == 0 and set(cells) == set(models), err)
    loads = numbers(library.named("lu_table_template", "line").values["index_2"][0])
    for name, model in models.items():
        cell, output = cells[name], model.outputs[0]
        function = cell.named("pin", spelled(output)).values["function"]
        if model.registers:
            state = cell.named("ff", "IQ", "IQN").values
            is_well = function == "IQ" and state == {"clocked_on": spelled(model.clock), "next_state": spelled(model.data())}
            results.note(f"the function of {name}", is_well, f"{function} {state}")
        else:
            names = [spelled(pin) for pin in model.inputs]
            truth = tuple(valued(function, dict(zip(names, vector))) for vector in itertools.product((0, 1), repeat=len(names)))
            results.note(f"the function of {name}", truth == model.table(), function)
        for pin in [model.clock] if model.registers else model.inputs:
            found = [row for group in arcs(cell, spelled(output), spelled(pin)) for row in delays(group)]
            for k in (0, 5):
                seen, wanted = round(1000 * max(row[k] for row in found)), timing.arc_time(model.generics, pin, output, int(loads[k]))
                results.note(f"the time from {spelled(pin)} in {name} at the load {loads[k]}", seen == wanted, f"{seen} and {wanted}")


def delays(group):
    """The first rows of the tables of delays of a timing group."""
    return [numbers(one.values["values"][0]) for one in group.groups if one.kind in ("cell_fall", "cell_rise")]


def check_lines(results):
    """The generics of the row library are the lines of least squares through its timing.csv at the two faster slopes: t and R solve the two
    equations n t + R sum(C) = sum(d) and t sum(C) + R sum(C C) = sum(C d). An input with two edges to one edge of the output has the greater R."""
    rows = list(csv.DictReader((CELLS / "timing.csv").open()))
    loads = [float(word.removeprefix("delay ")) for word in rows[0] if word.startswith("delay ")]
    slopes = sorted({float(row["slope"]) for row in rows})[:2]
    measured = {}
    for row in rows:
        if float(row["slope"]) in slopes:
            key = row["cell"], row["input"], row["goes"], row["output"], row["makes"]
            measured.setdefault(key, []).extend((load, float(row[f"delay {load:g}"])) for load in loads)
    models, drags = files.library(CELLS), {}
    for (cell, pin, goes, output, makes), found in measured.items():
        n, c, d = len(found), sum(load for load, _ in found), sum(delay for _, delay in found)
        cc, cd = sum(load * load for load, _ in found), sum(load * delay for load, delay in found)
        drag = (n * cd - c * d) / (n * cc - c * c)
        word = f"{TIMES[goes, makes]}_{pin}_{output}"
        is_near = abs(models[cell].generics[word] - max(0, (d - drag * c) / n)) < 1
        results.note(f"{word} of {cell}", is_near, f"{models[cell].generics[word]} and {(d - drag * c) / n}")
        key = cell, f"{DRAGS[makes]}_{pin}_{output}"
        drags[key] = max(drags.get(key, 0), 1000 * drag)
    for (cell, word), drag in drags.items():
        results.note(f"{word} of {cell}", abs(models[cell].generics[word] - drag) < 3, f"{models[cell].generics[word]} and {drag}")
    gates = {name for name, model in models.items() if model.is_plain and model.inputs}
    results.note("all cells are measured", {cell for cell, *_ in measured} == gates, str(gates))


TIMES = {("rise", "fall"): "tphl", ("fall", "fall"): "tpll", ("fall", "rise"): "tplh", ("rise", "rise"): "tphh"}
DRAGS = {"fall": "rdown", "rise": "rup"}


# ---- by hand

INVERTER = {"cin_i": 7, "tphl_i_nq": 100, "rdown_i_nq": 2000, "tplh_i_nq": 150, "rup_i_nq": 3000}
REGISTER = {"cin_ck": 5, "cin_i": 9, "tphl_ck_q": 200, "rdown_ck_q": 1000, "tplh_ck_q": 300, "rup_ck_q": 1500}
REGISTER |= {"tsr_i_ck": 55, "tsf_i_ck": 44, "thr_i_ck": 3, "thf_i_ck": 2}
MEASURED = """\
cell,input,goes,output,makes,sides,slope,delay 4,delay 12,transition 4,transition 12
inv_x1,i,rise,nq,fall,,90,31.5,52,41,77
inv_x1,i,rise,nq,fall,,30,21.5,42,31,67
inv_x1,i,fall,nq,rise,,30,23,45,33,71
inv_x1,i,fall,nq,rise,,90,34,56,44,82
"""
BAD = [
    ("cell,input\n", "1: no head of a table"),
    (MEASURED.replace("52,41", "x,41"), "2: no number"),
    (MEASURED.replace("52,41", "52"), "2: no row of a table"),
    (MEASURED.replace("i,rise,nq,fall,,30", "i,up,nq,fall,,30"), "3: no row of a table"),
    (MEASURED.replace("rise,,90", "rise,,80"), "1: not all tables have the same slopes"),
]


def behaviour(name, generics):
    """The cell's text with other generics."""
    text = (CELLS / f"{name}.vbe").read_text()
    constants = ";\n".join(f"    constant {word} : natural := {number}" for word, number in generics.items())
    return re.sub(r"generic \(.*?\n  \);", f"generic (\n{constants}\n  );", text, flags=re.S)


def small_library(room):
    lib = room.folder / "lib"
    lib.mkdir()
    (lib / "CATAL").write_text("inv_x1 C\nsff1_x4 C\n")
    for name, generics in (("inv_x1", INVERTER), ("sff1_x4", REGISTER)):
        (lib / f"{name}.vbe").write_text(behaviour(name, generics))
        shutil.copy(CELLS / f"{name}.ap", lib)
    return lib


def check_by_hand(results):
    """A library with numbers of a test's own: lines of its generics, tables that were measured, and tables that are none."""
    with Room() as room:
        lib = small_library(room)
        _, out, err = ran("liberty", lib)
        library = read(out)
        inverter, register = (library.named("cell", name) for name in ("inv_x1", "sff1_x4"))
        arc = arcs(inverter, "nq", "i")[0]
        # loads 0, 5, 10, 20: 100 ps and 2 ps for each fF; the slope twice what the load adds
        results.note("a falling line", table(arc, "cell_fall")[0][:4] == [100, 110, 120, 140], err + out[:500])
        results.note("its slopes", table(arc, "fall_transition")[1][:4] == [0, 20, 40, 80], out[:500])
        results.note("a rising line", table(arc, "cell_rise")[1][:4] == [150, 165, 180, 210], out[:500])
        clocked = arcs(register, "q", "ck")[0]
        results.note("a flip-flop's line", clocked.values["timing_type"] == "rising_edge" and table(clocked, "cell_rise")[0][3] == 330, out)
        setup, hold = register.named("pin", "i").all("timing")
        seen = [(group.values["timing_type"], table(group, "rise_constraint"), table(group, "fall_constraint")) for group in (setup, hold)]
        results.note("setup and hold", seen == [("setup_rising", [[55]], [[44]]), ("hold_rising", [[3]], [[2]])], str(seen))
        results.note("capacitances", [register.named("pin", pin).values["capacitance"] for pin in ("ck", "i")] == ["5", "9"], out)
        thresholds = [library.values[f"{edge}_threshold_pct_{way}"] for edge in ("slew_lower", "input", "slew_upper") for way in ("rise", "fall")]
        results.note("thresholds", thresholds == ["20", "20", "50", "50", "80", "80"], str(thresholds))
        check_measured(results, lib)


def check_measured(results, lib):
    (lib / "timing.csv").write_text(MEASURED)
    status, out, err = ran("liberty", lib)
    library = read(out)
    arc = arcs(library.named("cell", "inv_x1"), "nq", "i")[0]
    axes = library.named("lu_table_template", "measured").values
    results.note("the axes of what was measured", (axes["index_1"], axes["index_2"]) == (["30, 90"], ["4, 12"]), str(axes))
    seen = [table(arc, kind) for kind in ("cell_fall", "fall_transition", "cell_rise", "rise_transition")]
    wanted = [[[21.5, 42], [31.5, 52]], [[31, 67], [41, 77]], [[23, 45], [34, 56]], [[33, 71], [44, 82]]]
    results.note("what was measured", status == 0 and seen == wanted, f"{seen} {err}")
    results.note("a cell that wasn't measured", table(arcs(library.named("cell", "sff1_x4"), "q", "ck")[0], "cell_fall")[0][3] == 220, out)
    for text, fault in BAD:
        (lib / "timing.csv").write_text(text)
        status, _, err = ran("liberty", lib)
        results.note(f"timing.csv: {fault}", status == 1 and err == f"liberty: {lib}/timing.csv:{fault}\n", err)


# ---- other programs

# From the first register through an inverter to the second. The output of the first rises after 300 + 1.5 * 7 ps, and then the inverter's falls
# after 100 + 2 * 9; the other edges come at 207 and 384. The second wants a falling data 44 ps before the clock.
NETLIST = """\
module chain (ck, a, y);
  input ck, a;
  output y;
  wire n, m;
  sff1_x4 r1 (.ck(ck), .i(a), .q(n));
  inv_x1 g (.i(n), .nq(m));
  sff1_x4 r2 (.ck(ck), .i(m), .q(y));
endmodule
"""
TIMED = """\
read_liberty l.lib
read_verilog n.v
link_design chain
create_clock -name ck -period 1000 [get_ports ck]
report_checks -from [get_pins r1/ck] -to [get_pins r2/i] -digits 2
report_checks -path_delay min -from [get_pins r1/ck] -to [get_pins r2/i] -digits 2
exit
"""
SOURCE = """\
module top (input ck, a, b, c, d, output reg q, output y, z, w);
  always @(posedge ck) q <= q ^ (a & b);
  assign y = a ^ b ^ c, z = c ? a & d : b | d, w = ~(a & b | c & d);
endmodule
"""
MAPPED = """\
read_verilog s.v
synth -top top
dfflibmap -liberty l.lib
abc -liberty l.lib
opt_clean
write_verilog -noattr m.v
design -reset
read_verilog cells.v m.v
rename top mapped
read_verilog s.v
proc
flatten
async2sync
miter -equiv -flatten -make_outputs top mapped both
sat -verify -prove trigger 0 -tempinduct -set-init-zero -seq 1 both
"""
LOGIC = """\
.model c
.inputs a b c d
.outputs y z
.names a b n
11 1
.names n c d y
1-1 1
-11 1
.names a c z
10 1
01 1
.end
"""


def said(room, *command):
    done = subprocess.run(command, cwd=room.folder, stdin=subprocess.DEVNULL, capture_output=True, text=True, timeout=SECONDS, check=False)
    return done.returncode, done.stdout + done.stderr


def check_sta(results):
    """OpenSTA's path of a chain by numbers of hand."""
    if not shutil.which("sta"):
        results.skip("OpenSTA isn't installed")
        return
    with Room() as room:
        _, out, _ = ran("liberty", small_library(room))
        room.write({"l.lib": out.encode(), "n.v": NETLIST.encode(), "t.tcl": TIMED.encode()})
        status, told = said(room, "sta", "-no_splash", "-exit", "t.tcl")
        latest, soonest = told.split("Path Type: min")
        lines = [["310.50", "310.50", "^", "r1/q"], ["118.00", "428.50", "v", "g/nq"], ["-44.00", "956.00", "library"], ["527.50", "slack"]]
        missing = [line for line in lines if not any(found.split()[: len(line)] == line for found in latest.splitlines())]
        results.note("OpenSTA's latest path", status == 0 and not missing and "rror" not in told and "arning" not in told, f"{missing} {told}")
        lines = [["177.00", "384.00", "^", "g/nq"], ["3.00", "3.00", "library"], ["381.00", "slack"]]
        missing = [line for line in lines if not any(found.split()[: len(line)] == line for found in soonest.splitlines())]
        results.note("OpenSTA's soonest path", not missing, f"{missing} {told}")


def check_yosys(results):
    """A source mapped by yosys has cells of the library alone, and does what the source does, by the behaviours of the cells."""
    if not shutil.which("yosys"):
        results.skip("yosys isn't installed")
        return
    with Room() as room:
        _, out, _ = ran("liberty", CELLS)
        cells = "".join(verilog.module_of_machine(model.machine, False) for model in files.library(CELLS).values() if model.is_plain)
        room.write({"l.lib": out.encode(), "s.v": SOURCE.encode(), "t.ys": MAPPED.encode(), "cells.v": cells.encode()})
        status, told = said(room, "yosys", "-q", "t.ys")
        results.note("yosys maps to the cells, and they do what the source does", status == 0, told[-2000:])
        mapped = (room.folder / "m.v").read_text() if (room.folder / "m.v").exists() else ""
        kinds = set(re.findall(r"^  (\w+) \w+ \($", mapped, re.M))
        results.note("the cells that yosys takes", "sff1_x4" in kinds and len(kinds) > 2 and kinds <= set(files.library(CELLS)), str(kinds))


def check_abc(results):
    """abc maps with the tables, and times what it mapped."""
    abc = shutil.which("berkeley-abc") or shutil.which("yosys-abc")
    if not abc:
        results.skip("abc isn't installed")
        return
    with Room() as room:
        _, out, _ = ran("liberty", CELLS)
        room.write({"l.lib": out.encode(), "c.blif": LOGIC.encode()})
        status, told = said(room, abc, "-c", "read_lib l.lib; read_blif c.blif; strash; &get -n; &nf; &put; topo; print_gates; stime; cec c.blif")
        delay = re.search(r"Delay = +([0-9.]+) ps", told)
        gates = set(re.findall(r"^(\w+) +Fanin", told, re.M))
        is_well = status == 0 and "Networks are equivalent" in told and gates and gates <= set(files.library(CELLS))
        results.note("abc maps to the cells", is_well, told[-2000:])
        results.note("abc's delay", delay is not None and float(delay[1]) > 0, told[-2000:])


def jobs():
    yield from ((check, ()) for check in (check_cells, check_lines, check_by_hand, check_sta, check_yosys, check_abc))
