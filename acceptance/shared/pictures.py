"""The programs of share/ over files alone: draw, sketch, states, stats, paths, and what all programs have in common."""

import itertools
import os
import re
import subprocess
import sys
import xml.etree.ElementTree as xml
from collections import Counter

from acceptance.running.places import CELLS, EXAMPLES, SHARE, TOP
from share.formats import files, timing
from share.formats.extraction import Flat, extracted
from share.formats.state_walk import cycle
from share.formats.vst import netlist
from share.formats.vst_writer import laid_out

SECONDS = 300
PROGRAMS = sorted(path.name for path in SHARE.iterdir() if path.is_file() and os.access(path, os.X_OK))
CHECKING, START = EXAMPLES / "checking", EXAMPLES / "real/start.real"
OWN_WORDS = {"import": ["nowhere.blif", "-o", "n"], "synth": ["top", "nowhere.v", "-o", "n"]}


def ran(name, *words, given=b""):
    """Status, standard output and standard error of a program of share/."""
    command = [sys.executable, SHARE / name, *map(str, words)]
    done = subprocess.run(command, input=given, capture_output=True, timeout=SECONDS, cwd=TOP, check=False)
    return done.returncode, done.stdout.decode(errors="replace"), done.stderr.decode(errors="replace")


def check_words(results):
    """Each has --help and a page; a file that isn't there is one line and status 1."""
    for name in PROGRAMS:
        status, out, err = ran(name, "--help")
        results.note(f"{name} --help", status == 0 and out.startswith(f"usage: {name} ") and not err, out + err)
        page = TOP / f"docs/share/{name}.md"
        is_there = page.exists() and f"# {name}\n" in page.read_text()
        results.note(f"{name} has a page", is_there, str(page))
        if name == "explain":  # its words are another program's
            continue
        ending = {"states": ".fsm", "vhdl": ".vbe", "netlist": ".vst", "recheck": ".vbe"}.get(name, ".x")
        more = {"waves": [], "states": [], "vhdl": [], "registers": ["report"], "gds": [CELLS, START], "cif": [CELLS, START], "recheck": ["l.ap", CELLS]}.get(name, [CELLS])
        words = OWN_WORDS.get(name) or (["nowhere"] if name in ("liberty", "lef", "cellcheck") else [f"nowhere{ending}", *more])
        wanted = 2 if name == "recheck" else 1
        status, out, err = ran(name, *words)
        results.note(f"{name} without its file", status == wanted and not out and err.count("\n") == 1 and err.startswith(f"{name}: "), out + err)


def shapes_in(text):
    """The titles of all rectangles on metals."""
    root = xml.fromstring(text)
    titles = [title.text for title in root.iter("{http://www.w3.org/2000/svg}title")]
    written = [item.text for item in root.iter("{http://www.w3.org/2000/svg}text")]
    return [title for title in titles if ", metal " in title], written


def check_draw(results):
    """Every shape has a title with its metal and box, every instance its name; each breach is marked."""
    for name in ("wire", "pick", "cell"):
        figure, cells = files.layout(CHECKING / f"{name}.ap"), files.cells(CELLS)
        flat = Flat(figure, cells)
        status, out, err = ran("draw", CHECKING / f"{name}.ap", CELLS)
        titles, written = shapes_in(out)
        wanted = Counter((s.metal, " ".join(map(str, s.box))) for s in flat.shapes)
        seen = Counter((int(re.search(r"metal (\d)", title)[1]), title.rsplit(", ", 1)[1]) for title in titles)
        results.note(f"the shapes that draw shows of {name}", status == 0 and seen == wanted, f"{wanted - seen} {seen - wanted} {err}")
        missing = {i.name for i in flat.instances} - set(written)
        results.note(f"the names that draw shows of {name}", not missing, str(missing))
    breaches = b"gap 3 2600 1400 2800 6600 2900 1900 3100 7600\ngap 3 2600 1400 2800 6600 2900 1900 3100 2100\nbreaches 2\n"
    _, out, _ = ran("draw", CHECKING / "wire.ap", CELLS, "--breaches", "-", given=breaches)
    _, written = shapes_in(out)
    results.note("the breaches that draw marks", {"1", "2", "breaches 2"} <= set(written) and out.count("#e00000") == 9, out[-2000:])
    status, out, _ = ran("draw", CHECKING / "wire.ap", CELLS, "--net", "c")
    faded = [title for title in re.findall(r'fill-opacity="0.12"><title>([^<]*)', out)]
    results.note("the net that draw shows alone", status == 0 and faded and not any(title.startswith("net c,") for title in faded), str(faded[:3]))


def arrows_of(text):
    """The pairs of states of a graph, and the states to which the point for all leads."""
    pairs = re.findall(r'^  "([^"]+)" -> "([^"]+)"', text, re.M)
    return {pair for pair in pairs if pair[0] != "any state"}, {to for begin, to in pairs if begin == "any state"}


def check_states(results):
    """The arrows are the pairs of states that a walk under every vector finds."""
    for path in (EXAMPLES / "lock/lock.fsm",):
        machine = files.states(path).machine()
        status, out, err = ran("states", path)
        pairs, shared = arrows_of(out)
        walked = set()
        for number, name in enumerate(machine.states):
            for vector in itertools.product((0, 1), repeat=len(machine.inputs)):
                walked.add((name, machine.states[cycle(machine, dict(zip(machine.inputs, vector)), number)[1]]))
        seen = pairs | {(name, to) for name in machine.states for to in shared}
        results.note(f"the arrows of {path.name}", status == 0 and seen == walked, f"{seen ^ walked} {err}")
        results.note(f"its reset is drawn once: {path.name}", shared == {"waits"}, str(shared))


def check_stats(results):
    """Counted again over the lines of the file."""
    for name in ("wire", "cell"):
        lines = [line.split(",") for line in (CHECKING / f"{name}.ap").read_text().splitlines()]
        metals = {f"ALU{k}": k for k in range(1, 7)} | {f"CALU{k}": k for k in range(1, 7)}
        lengths, vias = Counter(), 0
        for line in lines:
            if line[0].startswith("S ") and line[5] not in ("vdd", "vss") and line[7] in metals:
                x1, y1, x2, y2 = int(line[0][2:]), *map(int, line[1:4])
                lengths[metals[line[7]]] += abs(x2 - x1) + abs(y2 - y1)
            vias += line[0].startswith("V ") and line[0] != "V ALLIANCE : 6"
        kinds = Counter(line[2] for line in lines if line[0].startswith("I "))
        _, out, _ = ran("stats", CHECKING / f"{name}.ap", CELLS)
        seen = {metal: float(length) * 500 for metal, length in re.findall(r"^metal (\d) length ([\d.]+)", out, re.M)}
        results.note(f"the lengths of {name}", seen == {str(metal): length for metal, length in lengths.items()}, out)
        results.note(f"the cells of {name}", dict(re.findall(r"^cell (\w+) (\d+)", out, re.M)) == {k: str(v) for k, v in kinds.items()}, out)
        results.note(f"the vias of {name}", f"\nvias {vias}\n" in out, out)
        _, out, _ = ran("stats", CHECKING / f"{name}.ap", CELLS, "--json")
        results.note(f"the numbers of {name} as JSON", f'"cells": {sum(kinds.values())}' in out, out)


def all_paths(n):
    """The time of each path of a small netlist, by walking back from each end."""
    arcs, first = dict(timing.steps(n, timing.own_cells(n))), set(timing.starts(n))

    def paths(net):
        if net in first:
            yield 0
        for begin, time in arcs.get(net, ()):
            yield from [time] if begin is None else (time + before for before in paths(begin))

    return sorted((time for net in timing.ends(n) for time in paths(net)), reverse=True)


def netlist_of(name):
    """The text of the netlist of an example's layout."""
    figure = files.layout(CHECKING / f"{name}.ap")
    return laid_out(extracted(figure, Flat(figure, files.cells(CELLS)), files.library(CELLS)))


def check_paths(results):
    for name in ("pick", "cell"):
        text = netlist_of(name).encode()
        wanted = all_paths(netlist(text, files.library(CELLS)))
        status, out, err = ran("paths", "-", CELLS, "--count", 1000, given=text)
        seen = [int(time) for time in re.findall(r"^path \d+: (\d+) ", out, re.M)]
        results.note(f"the paths of {name}", status == 0 and seen == wanted and out.startswith(f"delay {wanted[0]}\n"), f"{seen} and {wanted} {err}")


def jobs():
    checks = check_words, check_draw, check_states, check_stats, check_paths
    yield from ((check, ()) for check in checks)
