"""What lies below metal 1 of the row library: bench/cell_rules.py finds no fault in it, and finds each of these in a cell that is spoiled; and where
Magic and Netgen are installed, bench/silicon.sh says that a counter keeps a process's rules and has the transistors of its netlist."""

import os
import re
import subprocess

from acceptance.running.places import BENCH, CELLS, EXAMPLES
from acceptance.running.results import Room
from bench import cell_rules
from bench.silicon import field_tools

SECONDS = 3000
PROCESS = field_tools.PROCESSES[0]

# What is done to the layout of a cell, as (pattern, what replaces its first place), and a word of the fault that has to be found.
SPOILED = (
    ("na2_x1", r"S (-?\d+),\d+,(\d+),\d+,2700,\*,RIGHT,NWELL", r"S \1,4300,\2,4300,2700,*,RIGHT,NWELL", "well"),
    ("na2_x1", r",100,\*,UP,NTRANS", ",50,*,UP,NTRANS", "no multiple"),
    ("na2_x1", r",100,\*,UP,NTRANS", ",200,*,UP,NTRANS", "long"),
    ("na2_x1", r"S .*PWELL\n", "", "n select"),
    ("na2_x1", r"V \d+,\d+,CONT_DIF_P,\*\n", "", "outputs are wrong"),
    ("na2_x1", r"V \d+,\d+,CONT_POLY,\*\n", "", "outputs are wrong"),
    ("na2_x1", r"EOF", "S 500,2000,1500,2000,200,*,RIGHT,ALU1\nEOF", "are joined"),
    ("na2_x1", r"S .*PTIE\n", "", "strip"),
    ("na2_x1", r"EOF", "S 200,2500,1500,2500,100,*,RIGHT,POLY\nEOF", "nearer"),
    ("na2_x1", r"EOF", "V 550,2000,CONT_POLY,*\nEOF", "off the middle"),
    ("na2_x1", r"S .*[NP]TRANS\n", "", "don't agree"),
    ("inv_x1", r"S .*NTRANS\nS .*PTRANS\n", "", "no transistor"),
)


def check_library(results):
    done = subprocess.run([BENCH / "cell_rules.py", CELLS], stdout=subprocess.PIPE, text=True)
    results.note("the rules below metal 1 of the row library", done.returncode == 0, done.stdout)


def check_spoiled(results):
    for name, pattern, replacement, word in SPOILED:
        text = (CELLS / f"{name}.ap").read_text()
        spoiled, count = re.subn(pattern, replacement, text, count=1)
        with Room() as room:
            room.write({f"{name}.ap": spoiled.encode(), f"{name}.vbe": (CELLS / f"{name}.vbe").read_bytes()})
            faults, _, _ = cell_rules.looked_at(room.folder, name)
        results.note(f"{name} without what {pattern} was", count == 1 and any(word in fault for fault in faults), f"faults {faults}")


def check_counter(results, program):
    gone = field_tools.missing() + ([] if field_tools.technology(PROCESS) else [PROCESS.technology])
    if gone:
        results.skip(f"real layouts: not installed: {', '.join(gone)}")
        return
    words = [BENCH / "silicon.sh", program, EXAMPLES / "counter/cnt4.vbe"]
    kinds = {**os.environ, "PROCESSES": PROCESS.table, "KINDS": "blocks"}
    done = subprocess.run(words, env=kinds, stdout=subprocess.PIPE, stderr=subprocess.STDOUT, text=True, timeout=SECONDS)
    rows = re.findall(r"^cnt4 .* (\d+) of \1 \[0, 0\] equal", done.stdout, re.MULTILINE)
    results.note("the counter's real layouts", done.returncode == 0 and len(rows) == 3 and all(int(row) > 0 for row in rows), done.stdout)


def jobs(program):
    yield check_library, ()
    yield check_spoiled, ()
    yield check_counter, (program,)
