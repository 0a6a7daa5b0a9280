"""Magic and Netgen: rules and extraction of real layouts, and netlists compared. Neither is part of this project; where one isn't installed,
`missing` says what is."""

import re
import shutil
import subprocess
from pathlib import Path
from typing import NamedTuple

from .switch_level import Transistor

TECHNOLOGIES = Path("/usr/share/qflow/tech")
MAGIC, NETGEN = "magic", "netgen-lvs"
MINUTES = 60
REASONS = 4  # that are shown of a layout with errors


class Process(NamedTuple):
    """A table of examples/real, with Magic's file for the process and the styles in which it reads layouts."""

    table: str
    technology: str
    styles: tuple
    metals: int


PROCESSES = (
    Process("scn6m_subm", "osu018/SCN6M_SUBM.10.tech", ("lambda=0.10(p)", "lambda=0.10(s)"), 6),
    Process("scn4m_subm", "osu035/SCN4M_SUBM.20.tech", ("lambda=0.20(p)", "lambda=0.20(s)"), 4),
    Process("scn3me_subm", "osu050/SCN3ME_SUBM.30.tech", ("lambda=0.30(p)", "lambda=0.30(s)"), 3),
)


class Looked(NamedTuple):
    """What Magic found in a layout: errors with their reasons, and the transistors (None where it read nothing)."""

    errors: int
    reasons: list
    transistors: list


def missing():
    """The tools that aren't there."""
    return [tool for tool in (MAGIC, NETGEN) if not shutil.which(tool)]


def technology(process):
    """Magic's file of the process, or None where it isn't installed."""
    path = TECHNOLOGIES / process.technology
    return path if path.exists() else None


SCRIPT = """drc off
cif istyle {%(style)s}
cif read %(top)s
load %(top)s
select top cell
drc euclidean on
drc on
drc check
drc catchup
puts "ERRORS %(top)s [drc list count total]"
foreach {why boxes} [drc listall why] { puts "REASON %(top)s [llength $boxes] $why" }
drc off
"""
EXTRACTED = """extract all
ext2spice lvs
ext2spice -o %(top)s.spice
"""


def magic(process, style, folder, top, extracting):
    """What Magic finds in FOLDER/TOP.cif; with the transistors where it is asked to extract them. Each layout has a run of its own."""
    work = folder / "magic"
    shutil.rmtree(work, ignore_errors=True)
    work.mkdir()
    shutil.copy(folder / f"{top}.cif", work)
    (work / "run.tcl").write_text((SCRIPT + (EXTRACTED if extracting else "") + "quit -noprompt\n") % {"style": style, "top": top})
    words = [MAGIC, "-dnull", "-noconsole", "-rcfile", "/dev/null", "-T", technology(process), "run.tcl"]
    with open(work / "log", "w") as log:
        subprocess.run(words, cwd=work, stdin=subprocess.DEVNULL, stdout=log, stderr=subprocess.STDOUT, timeout=60 * MINUTES)
    return looked((work / "log").read_text(), top, work / f"{top}.spice" if extracting else None)


def looks(process, folder, top):
    """What Magic finds in each style of the process; the transistors in the first."""
    return [magic(process, style, folder, top, number == 0) for number, style in enumerate(process.styles)]


def looked(said, top, spice):
    counted = re.search(rf"^ERRORS {top} (\d+)", said, re.MULTILINE)
    reasons = re.findall(rf"^REASON {top} (\d+ .*)", said, re.MULTILINE)
    found = transistors(spice) if spice and spice.exists() else None
    return Looked(int(counted[1]) if counted else -1, reasons[:REASONS], found)


def transistors(path):
    """Those of a flat spice file, as ext2spice writes it."""
    rows = [line.split() for line in path.read_text().lower().replace("\n+", " ").splitlines()]
    return [Transistor(row[5][0], row[2], row[1], row[3]) for row in rows if row and row[0][0] == "m"]


# ---- netlists compared

SETUP = "permute default\nproperty default\nproperty parallel none\n"


def subcircuit(name, ports, devices):
    lines = [f".subckt {name} {' '.join(ports)}"]
    lines += [f"m{k} {d.source} {d.gate} {d.drain} {'vss' if d.kind == 'n' else 'vdd'} {d.kind}fet" for k, d in enumerate(devices)]
    return "\n".join(lines + [".ends", ""])


def are_equal(folder, name, one, other):
    """Whether Netgen finds the subcircuit NAME equal in two spice texts."""
    for file, text in (("one.spice", one), ("other.spice", other), ("setup.tcl", SETUP)):
        (folder / file).write_text(text)
    words = [NETGEN, "-batch", "lvs", f"one.spice {name}", f"other.spice {name}", "setup.tcl", "lvs.out"]
    done = subprocess.run(words, cwd=folder, stdin=subprocess.DEVNULL, capture_output=True, text=True, timeout=60 * MINUTES)
    return "Circuits match uniquely" in done.stdout and "mismatch" not in done.stdout.lower()
