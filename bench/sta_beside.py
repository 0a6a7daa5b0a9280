#!/usr/bin/env python3
"""Sets areas and delays of layouts beside what OpenSTA says of them, and beside yosys' netlists of the same sources.

Usage: bench/sta_beside.py PROGRAM [LIBRARY]      (cells/, where no library is given)

Prints the two tables of docs/CHARACTERISATION.md. Each source goes through flow; the netlist is read from the layout by cougar. Times are in ps, from
an input port or a clock's edge to an output port or a data pin with its setup:

- ours: the delay that flow reports;
- lines: OpenSTA's slowest path with `share/liberty --linear`, which are the numbers of the generics as they are;
- tables: the same with `share/liberty`, the measured tables, where inputs and clock have a slope of SLOPE;
- setup: that of the path of tables, which the times of lines and tables don't contain.

Areas are in square micrometres at the lambda of SCN6M_SUBM.10: a column is 10. Beside the layout's cells, and its whole box, stand two netlists
that yosys makes of the source (`synth; dfflibmap; abc -liberty`): of the library's cells, and of OSU's for the same process.
Needed are OpenSTA, yosys and qflow-tech-osu018; what isn't there is -.
"""

import pathlib
import re
import shutil
import subprocess
import sys
import tempfile

TOP = pathlib.Path(__file__).resolve().parent.parent
sys.path.insert(0, str(TOP))

from share.formats import files  # noqa: E402

OSU = pathlib.Path("/usr/share/qflow/tech/osu018/osu018_stdcells.lib")
COLUMN, COLUMN_AREA = 500, 10.0
PERIOD, SLOPE, SECONDS = 1000000, 100, 900
SOURCES = [
    ("counter of 4 bits", TOP / "examples/counter/cnt4.vbe"),
    ("adder of 4 bits", TOP / "examples/adder/add4.vbe"),
    ("lock of a state machine", TOP / "examples/lock/lock.fsm"),
    ("ALU of 8 bits", TOP / "examples/alu/alu8.vbe"),
    ("counter of 16 bits, up and down", ["course_circuits.py", "counter", "16"]),
]
TIMED = """\
read_liberty {library}
read_verilog n.v
link_design {top}
{clock}
set ports [filter_out_clock [all_inputs]]
if {{[llength $ports]}} {{ set_input_delay 0 -clock ck $ports; set_input_transition {slope} [all_inputs] }}
set_output_delay 0 -clock ck [all_outputs]
report_checks -path_delay max -digits 2
exit
"""
FILTER = """\
proc filter_out_clock {ports} {
  set found {}
  foreach port $ports { if {[get_property $port full_name] ne {ck}} { lappend found $port } }
  return $found
}
"""
MAPPED = """\
read_verilog s.v
synth -flatten
dfflibmap -liberty {library}
abc -liberty {library}
opt_clean
stat -liberty {library}
"""


class Work:
    """A folder in which one source is laid out, mapped and timed."""

    def __init__(self, program, library, folder):
        self.program, self.library, self.folder = program, library, pathlib.Path(folder)

    def printed(self, *command):
        words, how = [str(word) for word in command], {"stdin": subprocess.DEVNULL, "capture_output": True, "text": True}
        done = subprocess.run(words, cwd=self.folder, timeout=SECONDS, check=False, **how)
        if done.returncode:
            raise SystemExit(f"{' '.join(map(str, command))}: status {done.returncode}\n{done.stdout[-500:]}{done.stderr[-500:]}")
        return done.stdout

    def shared(self, name, *words):
        return self.printed(sys.executable, TOP / "share" / name, *words)

    def source(self, source):
        """The source as a file of the folder."""
        if isinstance(source, list):
            (self.folder / "s.vbe").write_text(self.printed(sys.executable, TOP / "bench" / source[0], *source[1:]))
            return "s.vbe"
        shutil.copy(source, self.folder)
        return source.name

    def lay_out(self, source):
        """Lays out the source, and leaves the netlist of the layout as n.v and the source as s.v; gives what flow reports."""
        name = self.source(source)
        report = self.printed(self.program, "flow", name, "-l", self.library, "-o", "n")
        self.printed(self.program, "cougar", "n.ap", "-l", self.library, "-o", "n")
        (self.folder / "n.v").write_text(self.shared("netlist", "--instances", "n.vst", self.library))
        if name.endswith(".fsm"):
            self.printed(self.program, "syf", name, "-o", "s")
            name = "s.vbe"
        (self.folder / "s.v").write_text(self.shared("netlist", "--verilog", name))
        (self.folder / "line.lib").write_text(self.shared("liberty", self.library, "--linear"))
        (self.folder / "table.lib").write_text(self.shared("liberty", self.library))
        return report

    def areas(self):
        """Of the layout's cells, and of its box."""
        left, low, right, high = files.layout(self.folder / "n.ap").box
        cells, library = files.netlist(self.folder / "n.vst", files.library(self.library)), files.cells(self.library)
        columns = sum((box[2] - box[0]) // COLUMN for box in (library[i.model.name].figure.box for i in cells.instances))
        return len(cells.instances), columns * COLUMN_AREA, (right - left) * (high - low) / COLUMN**2

    def timed(self, library):
        """OpenSTA's time of the slowest path and its setup."""
        if not shutil.which("sta"):
            return "-", "-"
        top = re.search(r"^module (\w+)", (self.folder / "n.v").read_text(), re.M)[1]
        has_clock = re.search(r"^  input ck\b", (self.folder / "n.v").read_text(), re.M)
        clock = f"create_clock -name ck -period {PERIOD}"
        if has_clock:
            clock += f" [get_ports ck]\nset_clock_transition {SLOPE} [get_clocks ck]"
        (self.folder / "t.tcl").write_text(FILTER + TIMED.format(library=library, top=top, clock=clock, slope=SLOPE))
        told = self.printed("sta", "-no_splash", "-exit", "t.tcl")
        arrival = re.search(r"^ +([0-9.]+) +data arrival time", told, re.M)
        if not arrival or "rror" in told:
            raise SystemExit(f"OpenSTA: {told}")
        setup = re.search(r"^ *(-?[0-9.]+) +\S+ +library setup time", told, re.M)
        return float(arrival[1]), abs(float(setup[1])) if setup else 0.0

    def mapped(self, library, scale):
        """Cells and area of yosys' netlist."""
        if not shutil.which("yosys") or not pathlib.Path(self.folder / library).exists():
            return "-", "-"
        (self.folder / "t.ys").write_text(MAPPED.format(library=library))
        told = self.printed("yosys", "t.ys")
        return re.findall(r"Number of cells: +(\d+)", told)[-1], scale * float(re.findall(r"Chip area for module .*: ([0-9.]+)", told)[-1])


def shown(value):
    return f"{value:,.0f}" if isinstance(value, float) else str(value)


def row(*values):
    return f"| {' | '.join(map(shown, values))} |"


def rows_of(work, title, source):
    report = work.lay_out(source)
    ours = int(re.search(r"^delay (\d+)", report, re.M)[1]) / 1000
    lines, _ = work.timed("line.lib")
    tables, setup = work.timed("table.lib")
    cells, area, box = work.areas()
    times = row(title, cells, ours, lines, tables, setup)
    return times, row(title, cells, area, box, *work.mapped("table.lib", COLUMN_AREA), *work.mapped(OSU, 1))


def main(words):
    if len(words) not in (1, 2):
        print(__doc__, file=sys.stderr)
        return 2
    library = pathlib.Path(words[1] if len(words) == 2 else TOP / "cells").resolve()
    times = [row("Layout", "cells", "ours", "OpenSTA, lines", "OpenSTA, tables", "setup"), "|---|---|---|---|---|---|"]
    areas = [row("Layout", "cells", "area", "box", "yosys: cells", "area", "yosys with OSU's: cells", "area"), "|---|---|---|---|---|---|---|---|"]
    for title, source in SOURCES:
        with tempfile.TemporaryDirectory() as folder:
            time, area = rows_of(Work(pathlib.Path(words[0]).resolve(), library, folder), title, source)
            times.append(time)
            print(time, area, sep="\n", file=sys.stderr, flush=True)
            areas.append(area)
    print("\n".join([*times, "", *areas]))
    return 0


if __name__ == "__main__":
    sys.exit(main(sys.argv[1:]))
