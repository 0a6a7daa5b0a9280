"""The programs of share/ that write layouts for others, lef, def and gds: what they write of a small library, by hand; and what klayout and magic
read, against the shapes of the second readers and the boxes of s2r."""

import os
import pathlib
import re
import shutil
import subprocess
from typing import NamedTuple

from acceptance.running.places import CELLS, EXAMPLES, TOP
from acceptance.running.results import Room
from acceptance.shared.pictures import START, ran
from acceptance.shared.programs import tool
from share.formats import cellcheck, cif, files, gds, lefdef, real
from share.formats.extraction import Flat, instances_of

SECONDS = 900
SCRIPT = TOP / "acceptance/shared/klayout_reads.py"
# A process of six metals, the highest of which is moved, with the layers of MOSIS.
PROCESS = "\n".join(
    ["process six unit 10 scale 2 grid 50", "# metals, from the lowest up"]
    + [f"segment {kind}{k} CM{k} 200 0" for k in range(1, 6) for kind in ("ALU", "CALU")]
    + ["segment ALU6 CM6 250 50 50 50", "segment CALU6 CM6 250 50 50 50"]
    + [f"contact CONT_VIA{k if k > 1 else ''} CM{k} {400 if k == 1 else 600}" for k in range(1, 6)]
    + [f"contact CONT_VIA{k if k > 1 else ''} CV{k} {300 if k == 5 else 200}{' 50 50' if k == 5 else ''}" for k in range(1, 6)]
    + [f"contact CONT_VIA{k if k > 1 else ''} CM{k + 1} {500 if k == 5 else 600}{' 50 50' if k == 5 else ''}" for k in range(1, 6)]
    + [f"metal {k} CM{k}" for k in range(1, 7)]
    + [f"label {kind}{k} CM{k}" for k in range(1, 7) for kind in ("ALU", "CALU")]
    + [f"gds CM{k} {number} 0" for k, number in zip(range(1, 7), (49, 51, 62, 31, 33, 37))]
    + [f"gds CV{k} {number} 0" for k, number in zip(range(1, 6), (50, 61, 30, 32, 36))]
    + [""]
)

# ---- by hand

CELL = """V ALLIANCE : 6
H not1,P,01/01/2000,100
A 0,0,2000,5000
S 0,300,2000,300,600,vss,RIGHT,CALU1
S 0,4700,2000,4700,600,vdd,RIGHT,CALU1
S 500,1000,500,4000,200,i,UP,CALU1
S 1000,1000,1000,4000,200,nq,UP,CALU1
S 1500,1000,1500,1500,200,*,UP,ALU1
EOF
"""
BEHAVIOUR = """entity not1 is port (i : in bit; nq : out bit; vdd : in bit; vss : in bit); end not1;
architecture vbe of not1 is begin nq <= not i; end vbe;
"""
# Two inverters in a chain, the second upside down above the first; the wire of the port a(0) is two columns long, that of metal 3 is wide.
LAYOUT = """V ALLIANCE : 6
H two,P,01/01/2000,100
A 0,0,2500,10000
C 0,300,600,vss,0,WEST,ALU1
C 0,4700,600,vdd,0,WEST,ALU1
C 500,2000,200,a 0,0,WEST,ALU2
C 1000,9000,200,q,0,NORTH,ALU3
I 0,0,not1,one,NOSYM
I 0,5000,not1,other,SYM_Y
S 0,300,2000,300,600,vss,RIGHT,ALU1
S 500,2000,1500,2000,200,*,RIGHT,ALU2
V 500,2000,CONT_VIA,*
V 1000,3000,CONT_VIA,*
S 1000,3000,500,3000,200,*,LEFT,ALU2
V 500,3000,CONT_VIA2,*
S 500,3000,500,7000,300,*,UP,ALU3
V 500,7000,CONT_VIA2,*
V 500,7000,CONT_VIA,*
V 1000,7000,CONT_VIA,*
V 1000,7000,CONT_VIA2,*
S 1000,7000,1000,9000,200,q,UP,ALU3
EOF
"""
LEF_OF_CELL = """MACRO not1
  CLASS CORE ;
  ORIGIN 0 0 ;
  SIZE 20 BY 50 ;
  SYMMETRY X Y ;
  SITE core ;
  PIN i
    DIRECTION INPUT ;
    USE SIGNAL ;
    PORT
      LAYER M1 ;
        RECT 4 9 6 41 ;
    END
  END i
  PIN nq
    DIRECTION OUTPUT ;
    USE SIGNAL ;
    PORT
      LAYER M1 ;
        RECT 9 9 11 41 ;
    END
  END nq
  PIN vdd
    DIRECTION INOUT ;
    USE POWER ;
    SHAPE ABUTMENT ;
    PORT
      LAYER M1 ;
        RECT -1 44 21 50 ;
    END
  END vdd
  PIN vss
    DIRECTION INOUT ;
    USE GROUND ;
    SHAPE ABUTMENT ;
    PORT
      LAYER M1 ;
        RECT -1 0 21 6 ;
    END
  END vss
  OBS
    LAYER M1 ;
      RECT 14 9 16 16 ;
  END
END not1
END LIBRARY
"""
# The same cell by the table to start with, whose unit is a hundredth of a micrometre: twice as many units, and 10 more at each edge.
REAL_RECTANGLES = ["7.9 17.9 12.1 82.1", "17.9 17.9 22.1 82.1", "-2.1 87.9 42.1 100.1", "-2.1 -0.1 42.1 12.1", "27.9 17.9 32.1 32.1"]
DEF_OF_LAYOUT = """DESIGN two ;
UNITS DISTANCE MICRONS 1000 ;
DIEAREA ( 0 0 ) ( 25000 100000 ) ;
ROW row_0 core 0 0 N DO 4 BY 1 STEP 5000 0 ;
ROW row_1 core 0 50000 FS DO 4 BY 1 STEP 5000 0 ;
"""
DEF_NETS = """COMPONENTS 2 ;
  - one not1 + PLACED ( 0 0 ) N ;
  - other not1 + PLACED ( 0 50000 ) FS ;
END COMPONENTS
PINS 4 ;
  - a[0] + NET a[0] + DIRECTION INPUT + USE SIGNAL
    + LAYER M2 ( -1000 -1000 ) ( 1000 1000 )
    + FIXED ( 5000 20000 ) N
  ;
  - q + NET q + DIRECTION OUTPUT + USE SIGNAL
    + LAYER M3 ( -1000 -1000 ) ( 1000 1000 )
    + FIXED ( 10000 90000 ) N
  ;
  - vdd + NET vdd + SPECIAL + DIRECTION INPUT + USE POWER
    + LAYER M1 ( -3000 -3000 ) ( 3000 3000 )
    + FIXED ( 0 47000 ) N
  ;
  - vss + NET vss + SPECIAL + DIRECTION INPUT + USE GROUND
    + LAYER M1 ( -3000 -3000 ) ( 3000 3000 )
    + FIXED ( 0 3000 ) N
  ;
END PINS
SPECIALNETS 2 ;
  - vdd
    ( PIN vdd ) ( one vdd ) ( other vdd )
    + USE POWER
  ;
  - vss
    ( PIN vss ) ( one vss )
    + USE GROUND
    + ROUTED M1 6000 + SHAPE FOLLOWPIN ( -1000 3000 ) ( 21000 * )
  ;
END SPECIALNETS
NETS 4 ;
  - a[0]
    ( PIN a[0] ) ( one i )
    + USE SIGNAL
    + ROUTED M2 ( 5000 20000 ) ( 15000 * )
      NEW M1 ( 5000 20000 ) via1
  ;
  - q
    ( PIN q ) ( other nq )
    + USE SIGNAL
    + ROUTED M1 ( 10000 70000 ) via1
      NEW M2 ( 10000 70000 ) via2
      NEW M3 ( 10000 70000 ) ( * 90000 )
  ;
  - n0
    ( one nq ) ( other i )
    + USE SIGNAL
    + ROUTED M1 ( 10000 30000 ) via1
      NEW M2 ( 5000 30000 ) ( 10000 * )
      NEW M2 ( 5000 30000 ) via2
      NEW M3 ( 3500 29000 ) RECT ( 0 0 3000 42000 )
      NEW M2 ( 5000 70000 ) via2
      NEW M1 ( 5000 70000 ) via1
  ;
  - n1
    ( other vss )
    + USE SIGNAL
  ;
END NETS
END DESIGN
"""


def small(room):
    """The library of one cell and its layout in a folder."""
    room.write({"lib/CATAL": b"not1 C\n", "lib/not1.vbe": BEHAVIOUR.encode(), "lib/not1.ap": CELL.encode(), "two.ap": LAYOUT.encode()})
    room.write({"six.real": PROCESS.encode()})
    return room.folder / "lib", room.folder / "two.ap"


def check_by_hand(results):
    with Room() as room:
        library, layout = small(room)
        status, out, err = ran("lef", library)
        results.note("the LEF of a cell", status == 0 and out.endswith(LEF_OF_CELL) and out.startswith("VERSION 5.8 ;\n"), out + err)
        _, out, err = ran("lef", library, START)
        results.note("the LEF of a cell in micrometres", re.findall(r"RECT (.*) ;", out[out.index("MACRO") :]) == REAL_RECTANGLES, out + err)
        is_named = "  SIZE 40 BY 100 ;" in out and "  WIDTH 4.2 ;\n  SPACING 3.8 ;" in out and "  PITCH 10 10 ;" in out
        results.note("the metals of a table", is_named, out)
        status, out, err = ran("def", layout, library)
        results.note("the DEF of a layout", status == 0 and out.endswith(DEF_NETS) and DEF_OF_LAYOUT in out, out + err)
        tracks = re.findall(r"TRACKS (.) (\d+) DO (\d+) STEP (\d+) LAYER M2", out)
        results.note("its tracks", tracks == [("Y", "0", "21", "5000"), ("X", "0", "6", "5000")], str(tracks))
        # of metal 6 all is moved by 50 of 1000 units in a micrometre, and a wire is 500 wide
        _, out, err = ran("lef", library, room.folder / "six.real")
        sixth = out[out.index("LAYER CM6\n") :]
        results.note("a metal that is moved", "  OFFSET 0.05 0.05 ;\n  WIDTH 0.5 ;" in sixth and "    RECT -0.1 -0.1 0.2 0.2 ;" in sixth, sixth[:900] + err)


def check_refusals(results):
    """Errors with the file, the line and the cause."""
    with Room() as room:
        library, layout = small(room)
        tables = {
            "empty": ("", "1: no end"), "half": ("scale 2\n", "1: no end"), "words": ("scale 2\ngrow 1 2 3\n", "2: bad line"),
            "more": ("scale 2\ngrow 1 1 1 1 1 1\n\n", "3: bad line"), "zero": ("process p unit 0 scale 1 grid 1\n", "1: bad line"),
            "layer": ("process p unit 1 scale 1 grid 1\nsegment ALU0 M1 0 0\n", "2: bad line"),
            "blank": ("process p unit 1 scale 1 grid 1\nsegment  ALU1 M1 0 0\n", "2: bad line"),
        }
        for name, (text, line) in tables.items():
            room.write({f"{name}.real": text.encode()})
            path = room.folder / f"{name}.real"
            for program, words in (("lef", [library, path]), ("def", [layout, library, path]), ("gds", [layout, library, path])):
                status, out, err = ran(program, *words)
                results.note(f"{program} of the table {name}", (status, out, err) == (1, "", f"{program}: {path}:{line}\n"), out + err)
        four = room.folder / "four.real"
        left_out = re.compile(r"ALU3|CM3|CM4|CV3|VIA[345]|gds CM2")
        four.write_text("".join(line for line in PROCESS.splitlines(True) if not left_out.search(line)))
        for program, wanted in (("def", f"{layout}: {four} has no via for CONT_VIA2"), ("gds", f"{four}: no line gds CM2")):
            status, out, err = ran(program, layout, library, four)
            results.note(f"{program} without a metal", status == 1 and not out and err == f"{program}: {wanted}\n", err)
        odd = room.folder / "odd.real"
        odd.write_text(PROCESS.replace("grid 50", "grid 1000"))
        status, out, err = ran("gds", layout, library, odd)
        results.note("gds off the grid", status == 1 and err == f"gds: {odd}: off grid CM1 -200 0 4200 1200\n", err)
        layout.write_text(LAYOUT.replace("not1,other", "not2,other"))
        for program, words in (("def", []), ("gds", [START])):
            status, out, err = ran(program, layout, library, *words)
            results.note(f"{program} of an unknown cell", status == 1 and err == f"{program}: {layout}:1: unknown cell not2\n", err)


# ---- through other programs


def shown_boxes(instance, cell, table):
    """The boxes of what an instance shows of its cell."""
    for item in cell.items:
        if real.word_of(item):
            upright, core = real.core_of(item)
            yield from real.boxes_about(real.word_of(item), upright, instance.shown(core, cell.box), table)


def boxes_in(figure, cells, table):
    """All boxes of a layout in real units, flat, by layers."""
    own = [found for item in figure.items for found in real.boxes_of(item, table)]
    return own + [found for instance in instances_of(figure) for found in shown_boxes(instance, cells[instance.model].figure, table)]


def write_boxes(path, boxes, times, names=None):
    lines = (f"{names[layer] if names else layer} {' '.join(str(times * edge) for edge in box)}\n" for layer, box in boxes)
    path.write_text("".join(lines))


def read_by_klayout(room, jobs):
    """What klayout says of each job: shapes and differing area by layer, and the words behind."""
    (room.folder / "jobs").write_text("".join(f"{' '.join(map(str, job))}\n" for job in jobs))
    command = ["klayout", "-b", "-r", SCRIPT, "-rd", f"jobs={room.folder / 'jobs'}", "-rd", f"out={room.folder / 'told'}"]
    how = {"env": {**os.environ, "QT_QPA_PLATFORM": "offscreen"}, "capture_output": True, "timeout": SECONDS, "check": False}
    done = subprocess.run(command, stdin=subprocess.DEVNULL, **how)
    if done.returncode:
        raise AssertionError(done.stdout.decode(errors="replace")[-2000:] + done.stderr.decode(errors="replace")[-2000:])
    for part in re.split(r"^job \d+\n", (room.folder / "told").read_text(), flags=re.M)[1:]:
        lines = [line.split() for line in part.splitlines()]
        yield {words[0]: tuple(map(int, words[1:])) for words in lines if words[0] not in ("calls", "texts", "nets")}, {
            words[0]: words[1:] for words in lines if words[0] in ("calls", "texts", "nets")
        }


# Layouts with the tables by which each is written, "lambda" being none.
TRIED = {
    "pick": (None, [], ["lambda"]),
    "rows": ("counter/cnt4.vbe", [], ["lambda", "plain", "six"]),
    "tracks": ("counter/cnt4.vbe", ["--tracks"], ["plain"]),
    "alu": ("alu/alu8.vbe", [], ["six"]),
}


def laid_out(room, program, name):
    source, words, _ = TRIED[name]
    if source is None:
        return EXAMPLES / f"checking/{name}.ap"
    tool(room, program, "flow", EXAMPLES / source, "-l", CELLS, "-o", name, *words)
    return room.folder / f"{name}.ap"


class Case(NamedTuple):
    """A layout under a table, or in lambda, and what klayout is given of it: a file, the LEF beside it, what it is compared with, the unit."""

    kind: str
    title: str
    figure: object
    process: object
    job: tuple


def cases_of(room, program, cells, name, title):
    tables = {"lambda": [], "plain": [START], "six": [room.folder / "six.real"]}
    words, path = tables[title], laid_out(room, program, name)
    figure, process = files.layout(path), lefdef.process(*tables[title] or [None])
    boxes, made = boxes_in(figure, cells, process.table), room.folder / f"{name}-{title}.def"
    lef, wanted = room.folder / f"{title}.lef", room.folder / f"{name}-{title}.def.boxes"
    lef.write_text(ran("lef", CELLS, *words)[1])
    made.write_text(ran("def", path, CELLS, *words)[1])
    write_boxes(wanted, boxes, process.units // process.per_micron)
    yield Case("def", f"{name}, {title}", figure, process, (made, lef, wanted, 1 / process.units))
    if words and name != "alu":
        for job in gds_jobs(room, program, path, title, words[0], process, boxes):
            yield Case("gds", f"{name}, {title}", figure, process, job)


def check_klayout(results, program, name, title):
    """LEF with DEF, and GDSII, have the layout's shapes, nets and cells in klayout; GDSII has the boxes that s2r writes."""
    if not shutil.which("klayout"):
        results.skip("klayout isn't installed")
        return
    with Room() as room:
        room.write({"six.real": PROCESS.encode()})
        cells = files.cells(CELLS)
        cases = list(cases_of(room, program, cells, name, title))
        for case, (layers, words) in zip(cases, read_by_klayout(room, [case.job for case in cases])):
            judge = judge_def if case.kind == "def" else judge_gds
            judge(results, f"{case.kind} of {case.title}, in klayout", case.figure, cells, case.process, layers, words)


def gds_jobs(room, program, path, title, table, process, boxes):
    """A GDSII file beside its boxes, and beside the CIF of s2r where the program takes the table."""
    made = room.folder / f"{path.stem}-{title}.gds"
    with open(made, "wb") as opened:
        subprocess.run([TOP / "share/gds", path, CELLS, table], stdout=opened, check=True, timeout=SECONDS)
    names = {layer: f"{number}/{kind}" for layer, (number, kind) in process.table.gds.items()}
    times = process.units // process.per_micron
    write_boxes(made.with_suffix(".gds.boxes"), boxes, times, names)
    yield made, "-", made.with_suffix(".gds.boxes"), 1 / process.units
    shutil.copy(path, room.folder / "l.ap")
    shutil.copy(table, room.folder / "t.real")
    done = subprocess.run([program, "s2r", "l.ap", "-p", "t.real", "-l", CELLS, "-o", "l"], cwd=room.folder, capture_output=True, check=False)
    if done.returncode == 0:
        of_cif = made.with_suffix(".cif.boxes")
        found = cif.read((room.folder / "l.cif").read_bytes())
        in_units = [(layer, tuple(int(edge * process.table.unit) for edge in box)) for layer, all_boxes in found.items() for box in all_boxes]
        write_boxes(of_cif, in_units, times, names)
        yield made, "-", of_cif, 1 / process.units


def judge_def(results, title, figure, cells, process, layers, words):
    differing = {layer: area for layer, (_, area) in layers.items() if area}
    results.note(f"the shapes of {title}", layers and not differing, str(layers))
    flat = Flat(figure, cells)
    counted = {number: layers.get(metal.real, (0,))[0] for number, metal in process.metals.items()}
    wanted = {number: sum(shape.metal == number for shape in flat.shapes) for number in process.metals}
    results.note(f"how many shapes of {title}", counted == wanted, f"{counted} {wanted}")
    netlist = files.netlist_of(figure, flat, files.library(CELLS), "-")
    of_net = {net for i in netlist.instances for net in i.nets.values()} | set(netlist.all_ports)
    results.note(f"the nets of {title}", len(words["nets"]) == len(of_net), f"{len(of_net)} {words['nets']}")
    results.note(f"the ports of {title}", {lefdef.named(bit) for bit in netlist.all_ports} <= set(words["nets"]), str(words["nets"]))
    judge_calls(results, title, figure, words)


def judge_gds(results, title, figure, cells, process, layers, words):
    differing = {layer: area for layer, (_, area) in layers.items() if area}
    results.note(f"the boxes of {title}", layers and not differing, str(layers))
    ports = sorted(lefdef.named(item[4]) for item in figure.items if item[0] == "C")
    results.note(f"the texts of {title}", sorted(words["texts"]) == ports, f"{words['texts']} {ports}")
    judge_calls(results, title, figure, words)


def judge_calls(results, title, figure, words):
    called = sorted(call.split(":")[0] for call in words["calls"])
    results.note(f"the cells of {title}", called == sorted(i.model for i in instances_of(figure)), str(called))


def check_structures(results):
    """The structures of a GDSII file by hand: their boxes, and how they are called."""
    if not shutil.which("klayout"):
        results.skip("klayout isn't installed")
        return
    with Room() as room:
        library, layout = small(room)
        done = subprocess.run([TOP / "share/gds", layout, library, room.folder / "six.real"], capture_output=True, timeout=SECONDS, check=False)
        results.note("gds of two cells", done.returncode == 0, done.stderr.decode())
        unit, structures = gds.read(done.stdout)
        results.note("a unit is a nanometre", abs(unit - 1e-9) < 1e-15, str(unit))
        results.note("a structure for each cell", set(structures) == {"not1", "two"}, str(set(structures)))
        results.note("the calls", structures["two"].calls == [("not1", False, 0, 0, 0), ("not1", True, 0, 0, 20000)], str(structures["two"].calls))
        # the pin i: x 400 to 600, y 1000 to 4000, twice as many nanometres and 200 more at the ends
        results.note("the box of a pin", (49, 0, (800, 1800, 1200, 8200)) in structures["not1"].boxes, str(structures["not1"].boxes))
        results.note("its text", (49, 0, 1000, 5000, "i") in structures["not1"].texts, str(structures["not1"].texts))
        results.note("the text of a bit", (51, 0, 1000, 4000, "a[0]") in structures["two"].texts, str(structures["two"].texts))


def check_magic(results, program):
    """magic reads the GDSII file by the layers of MOSIS, and writes the same metal again."""
    tech = pathlib.Path("/usr/share/qflow/tech/osu018/SCN6M_SUBM.10.tech")
    if not (shutil.which("magic") and shutil.which("klayout") and tech.exists()):
        results.skip("magic, klayout or osu018 of qflow isn't installed")
        return
    with Room() as room:
        room.write({"six.real": PROCESS.encode()})
        tool(room, program, "flow", EXAMPLES / "counter/cnt4.vbe", "-l", CELLS, "-o", "rows")
        with open(room.folder / "a.gds", "wb") as opened:
            subprocess.run([TOP / "share/gds", room.folder / "rows.ap", CELLS, room.folder / "six.real"], stdout=opened, check=True, timeout=SECONDS)
        commands = "gds read a.gds\nload cnt4\nselect top cell\nputs [list cells: [cellname list children cnt4]]\ngds write b.gds\nquit -noprompt\n"
        command = ["magic", "-dnull", "-noconsole", "-rcfile", "/dev/null", "-T", tech]
        done = subprocess.run(command, input=commands.encode(), cwd=room.folder, capture_output=True, timeout=SECONDS, check=False)
        said = done.stdout.decode(errors="replace")
        models = {i.model for i in instances_of(files.layout(room.folder / "rows.ap"))}
        children = re.search(r"cells: \{?([^}\n]*)", said)
        results.note("the cells that magic reads", children and set(children[1].split()) == models, said[-1500:])
        [(layers, _)] = read_by_klayout(room, [(room.folder / "b.gds", "-", room.folder / "a.gds", 0.001)])
        metals = {layer: area for layer, (_, area) in layers.items() if layer in ("51/0", "62/0", "31/0", "33/0")}
        results.note("the metal that magic writes again", len(metals) >= 3 and not any(metals.values()), str(layers))


def jobs(program):
    yield check_by_hand, ()
    yield check_refusals, ()
    yield check_structures, ()
    yield from ((check_klayout, (program, name, title)) for name, (_, _, titles) in TRIED.items() for title in titles)
    yield check_magic, (program,)
