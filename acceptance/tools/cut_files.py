"""Files that are cut off: of each tool one run, with each prefix of a file that it reads in the place of that file. Up to the last byte that
its language needs it is a fault of that file, and nothing is written. The line is that of the second readers.
"""

import re

from acceptance.running.case_file import Case
from acceptance.running.places import ROWS
from acceptance.running.results import Room, compare, shown
from acceptance.tools import syf
from acceptance.tools.table import TOOLS

FAULT, LIBRARY = 2, 3
FLOW, OCP, NERO, SCAN = "flow-layouts/one-inverter", "ocp-runs/one-inverter", "nero-runs/one-inverter", "scapin-runs/two-registers"
ENDS = {"vbe": b";", "vst": b";", "fsm": b";", "pat": b";", "ap": b"F", "path": b"1"}
TABLE = b"scale 2\ngrow 10 10 10 10 10 10\n"
PATTERNS = "in {0};\nout {1};\nbegin\n< 0 ns> p : 0 ?1;\n< 10 ns> : 1 ?0;\nend;\n"
# the words, the case that has the files, and the file that is cut
RUNS = [
    ("flow row1.vbe -l lib -o n --tracks", FLOW, "row1.vbe"),
    ("flow row1.vbe -l lib -o n --rows 1", FLOW, "row1.vbe"),
    ("flow row1.vbe -l lib -o n --tracks", FLOW, "lib/inv_x1.vbe"),
    ("flow row1.vbe -l lib -o n --tracks", FLOW, "lib/inv_x1.ap"),
    ("flow s.fsm -l lib -o n --tracks", FLOW, "s.fsm"),
    ("syf s.fsm -o n", FLOW, "s.fsm"),
    ("boom row1.vbe -o n", FLOW, "row1.vbe"),
    ("boog row1.vbe -l lib -o n", FLOW, "row1.vbe"),
    ("asimut row1.vbe -p t.pat", FLOW, "row1.vbe"),
    ("asimut row1.vbe -p t.pat", FLOW, "t.pat"),
    ("asimut r.vst -p t.pat -l lib", OCP, "r.vst"),
    ("proof row1.vbe -b o.vbe", FLOW, "o.vbe"),
    ("cougar out.ap -l lib -o n", FLOW, "out.ap"),
    ("druc out.ap -l lib", FLOW, "out.ap"),
    ("s2r out.ap -p t.real -l lib -o n", FLOW, "out.ap"),
    ("loon r.vst -l lib -o n", OCP, "r.vst"),
    ("ocp r.vst -l lib -o n", OCP, "r.vst"),
    ("flatbeh r.vst -l lib -o n", OCP, "r.vst"),
    ("lvx r.vst -b o.vst -l lib", OCP, "o.vst"),
    ("nero r.vst -p p.ap -l lib -o n", NERO, "r.vst"),
    ("nero r.vst -p p.ap -l lib -o n", NERO, "p.ap"),
    ("scapin one.vst -p one.path -l lib -o n", SCAN, "one.vst"),
    ("scapin one.vst -p one.path -l lib -o n", SCAN, "one.path"),
    ("fmi s.fsm -o n", FLOW, "s.fsm"),
    ("rip r.vst -p p.ap -l lib -o n", NERO, "r.vst"),
    ("rip r.vst -p p.ap -l lib -o n", NERO, "p.ap"),
    ("area row1.vbe -l lib", FLOW, "row1.vbe"),
]


def files_of(case):
    """The files of a case and those that it writes, and sources for the tools that it doesn't show."""
    found = Case(ROWS / f"{case}.txt")
    names = ("i", "nq") if "row1.vbe" in found.before else ("a", "y")
    files = {**found.before, **found.after, "s.fsm": syf.ring(2), "t.pat": PATTERNS.format(*names).encode(), "t.real": TABLE}
    for name, other in (("row1.vbe", "o.vbe"), ("r.vst", "o.vst")):
        if name in files:
            files[other] = files[name]
    return files


def is_told(tool, cut, status, printed):
    """Whether a line names the file, or the cell whose file it is."""
    if cut.startswith("lib/"):
        return status == LIBRARY and re.fullmatch(rb"%s: library: inv_x1 [12]\n" % tool, printed)
    return status == FAULT and re.fullmatch(rb"%s: %s:[1-9][0-9]*: [a-z].*\n" % (tool, re.escape(cut.encode())), printed)


def check(results, program, line, case, cut):
    words, files = line.split(), files_of(case)
    text, tool = files[cut], TOOLS[words[0]]
    with Room() as room:
        room.write(files)
        for end in range(text.rindex(ENDS[cut.split(".")[-1]]) + 1):
            title = f"{line} on {end} bytes of {cut}"
            (room.folder / cut).write_bytes(text[:end])
            before = {**files, cut: text[:end]}
            status, printed = room.run(program, words)
            results.note(title, is_told(words[0].encode(), cut, status, printed), shown(status, printed))
            second = tool.second(words, before)
            results.note(f"{title}: the second reader", tool.agrees((status, printed), second), f"it comes to {second}, not {shown(status, printed)}")
            compare(results, title, (status, printed, room.held()), status, printed, before)


def jobs(program):
    for run in RUNS:
        yield check, (program, *run)
