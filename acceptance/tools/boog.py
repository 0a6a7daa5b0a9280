"""What the second readers say of `boog`, and what no case of it has: random machines over random libraries, circuits of gates,
and the netlists that it writes, read again and run beside their sources. How many cells a netlist has is open, and so the netlist that was
written is asked.
"""

import itertools
import random
import re
import subprocess
import sys

from acceptance import cells
from acceptance.makers.cell_maker import CellMaker
from acceptance.makers.plain_netlists import has_an_and, plain_netlist, with_a_pin_moved
from acceptance.makers.random_sources import Maker, changed, flipped
from acceptance.makers.random_sources import WORDS as SOURCE_WORDS
from acceptance.meaning.mapping import MOST_SIZE, Graph, machine_size, mapping_faults
from acceptance.readers.words import TOOLS_LINE, command, held, trouble
from acceptance.running.places import BENCH, CELLS, EXAMPLES
from acceptance.running.results import Room, compare, run_in, shown
from acceptance.tools import netlists
from acceptance.tools.answers import agrees as same_answer
from acceptance.tools.answers import refusal
from acceptance.tools.sources import answer
from share.formats.models import IN, OUT, Refusal, first_missing, library
from share.formats.pat_oracle import machine_of
from share.formats.vbe_oracle import FILE, Ring
from share.formats.vhdl_reader import SUPPLIES, Refused
from share.formats.vst import netlist
from share.formats.vst_writer import laid_out

USAGE = "usage: alliance boog SOURCE.vbe -l DIR -o NAME\n"
FIVE = ["inv_x1", "na2_x1", "zero_x0", "one_x0", "sff1_x4"]
ALL = [line.split()[0] for line in (CELLS / "CATAL").read_text().splitlines()]
MORE = [name for name in ALL if name not in FIVE]
WORDS = ["boog", "s.vbe", "-l", "lib", "-o", "r"]
MACHINES, PLAIN, CHUNK, VECTORS = 200, 100, 25, 8


# ---- the second answer


def parsed(words):
    """SOURCE, DIR and NAME, or None."""
    found = command(words, ".vbe", {"-l": "", "-o": ""})
    return (found[0], found[1]["-l"], found[1]["-o"]) if found and len(found[1]) == 2 else None


def of_machine(m, models):
    """The status and the line on a machine over a library; of a netlist it is (0, the fewest cells that it may have, the most)."""
    size = machine_size(m)
    if size > MOST_SIZE:
        return 9, f"boog: limit: size {size}\n"
    kind = first_missing(models, bool(m.registers))
    return (4, f"boog: no cover: {kind}\n") if kind else (0, len(m.registers), Graph(m).most_cells())


def second(words, files):
    """What the second readers say of a command over files: (status, text), or (2, Ring) where any of some rings may be named; of a netlist
    what of_machine says."""
    found = parsed(words)
    if found is None:
        return 1, USAGE
    source, folder, _ = found
    refused = trouble(files, source, FILE)
    if refused:
        return refused[0], f"boog: {refused[1]}\n"
    try:
        models = library(files, folder)
        m = machine_of(held(files, source))
    except Refusal as refused:
        return refused.status, f"boog: {refused.line}\n"
    except Ring as ring:
        return 2, ring
    except Refused as refused:
        return refusal("boog", source, str(refused))
    return of_machine(m, models)


def cells_told(printed):
    """The number of cells that is printed, or None."""
    found = re.fullmatch("cells (0|[1-9][0-9]*)\n", bytes(printed).decode(errors="replace"))
    return int(found[1]) if found else None


def agrees(got, wanted):
    if wanted[0] != 0:
        return same_answer(got, wanted)
    told = cells_told(got[1])
    return got[0] == 0 and told is not None and wanted[1] <= told <= wanted[2]


# ---- the netlist that is written


def netlist_faults(m, models, n):
    """What isn't as it has to be in a netlist of a machine."""
    if n.name != m.name:
        yield f"the name {n.name}"
    if n.all_ports != {**m.ports, **{(supply, -1): IN for supply in SUPPLIES}}:
        yield "the ports"
    if n.clock != ((m.clock, -1) if m.registers else None):
        yield f"the clock {n.clock}"
    yield from mapping_faults(m, models, n)


def layout_faults(n, text):
    """Whether the text is the one spelling of its netlist."""
    lines, wanted = text.split(b"\n"), laid_out(n).encode().split(b"\n")
    at = next((k for k, pair in enumerate(itertools.zip_longest(lines, wanted)) if pair[0] != pair[1]), None)
    return [] if at is None else [f"line {at + 1} is {lines[at : at + 1]}, and not {wanted[at : at + 1]}"]


def written_faults(words, files, text):
    """What is wrong with the text that a command wrote, or nothing."""
    source, folder, _ = parsed(words)
    m, models = machine_of(held(files, source)), library(files, folder)
    try:
        n = netlist(text, models)
    except Refused as refused:
        return [f"it is refused: {refused}"]
    return [*netlist_faults(m, models, n), *layout_faults(n, text)]


def tells(_words, _files, text, printed):
    """Whether what is printed is the number of instances."""
    count = text.count(b"\nport map (\n")
    return [] if cells_told(printed) == count else [f"{bytes(printed)!r} is told of {count} instances"]


def writes(words, files):
    """The file that a command writes, with the check of its text."""
    return f"{parsed(words)[2]}.vst", lambda text: written_faults(words, files, text)


# ---- libraries


def of_cells(names, folder="lib"):
    """A library of some of the cells of this repository."""
    files = {f"{folder}/CATAL": "".join(f"{name} C\n" for name in names).encode()}
    files.update((f"{folder}/{name}.{end}", (CELLS / f"{name}.{end}").read_bytes()) for name in names for end in ("vbe", "ap"))
    return files


def random_files(choose):
    """A library that mostly has a cell of each kind: some of this repository's cells in any order, some made."""
    names = [name for name in FIVE if choose.random() < 0.97]
    names += choose.sample(MORE, choose.choice([0, 1, 2, 5, 10, len(MORE)]))
    choose.shuffle(names)
    files = of_cells(names)
    made = [CellMaker(choose).cell(name) for name in ["m1", "m2", "m3"][: choose.choice([0, 0, 1, 3])]]
    for cell in made:
        files.update((f"lib/{name}", text) for name, text in cells.files_of(choose, cell).items())
    lines = [f"{name} C\n" for name in names] + [f"{cell.name} C\n" for cell in made]
    choose.shuffle(lines)
    files["lib/CATAL"] = "".join(lines).encode()
    if choose.random() < 0.05:
        cells.spoil(choose, files)
    return files


# ---- how it behaves


def differs_from(m, n, choose):
    """Whether the netlist shows or loads something else than the machine, from some random contents under random inputs."""
    registers = sorted(m.registers)
    for _ in range(VECTORS):
        given = {bit: choose.getrandbits(1) for bit, way in m.ports.items() if way == IN}
        contents = [choose.getrandbits(1) for _ in registers]
        of_machine, of_netlist = m.settle(given, dict(zip(registers, contents))), n.settle(given, dict(zip(n.registers, contents)))
        loads = m.load(of_machine)
        if any(of_machine[bit] != of_netlist[bit] for bit, way in m.ports.items() if way == OUT):
            return True
        if [loads[bit] for bit in registers] != list(n.load(of_netlist).values()):
            return True
    return False


# ---- what is run


def run_mapped(results, room, program, title, files, patterns):
    """Runs boog, and where it succeeds its netlist beside the source. The patterns are in t.pat."""
    wanted = second(WORDS, files)
    room.write({**files, "t.pat": patterns})
    got = room.run(program, WORDS)
    results.note(title, agrees(got, wanted), f"came to {shown(*got)}, wanted {wanted} for {files['s.vbe'][:2000]!r}")
    if got[0] or wanted[0]:
        results.note(f"{title}: files behind a refusal", room.held() == {**files, "t.pat": patterns}, "a file changed")
        return
    text = room.held().get("r.vst") or b""
    faults = [*written_faults(WORDS, files, text), *tells(WORDS, files, text, got[1])]
    results.note(f"{title}: the netlist", not faults, f"{faults} in {text[:3000]!r} for {files['s.vbe'][:2000]!r}")
    if not faults:
        run_beside(results, room, program, title, files, netlist(text, library(files, "lib")), patterns)


def run_beside(results, room, program, title, files, n, patterns):
    """Netlist and source in asimut and in the second readers: with outputs that are open, with one that is wrong, and from any contents."""
    source = files["s.vbe"]
    for patterns in (patterns, wrong(patterns, answer("s.vbe", source, "t.pat", patterns))):
        (room.folder / "t.pat").write_bytes(patterns)
        wanted = netlists.on_netlist(n, "t.pat", patterns)
        is_same = wanted == answer("s.vbe", source, "t.pat", patterns)
        results.note(f"{title}: netlist and source in the second readers", is_same, f"{wanted} is not that of {source[:2000]!r}")
        for words in (["asimut", "s.vbe", "-p", "t.pat"], netlists.WORDS):
            got = room.run(program, words)
            results.note(f"{title}: {words[1]} under patterns", same_answer(got, wanted), f"{shown(*got)} is not {wanted} for {source[:2000]!r}")
    is_other = differs_from(machine_of(source), n, random.Random(len(source)))
    results.note(f"{title}: netlist and source from any contents", not is_other, f"they differ for {source[:2000]!r}")


def wrong(patterns, wanted):
    """The patterns with what came, one bit of it wrong."""
    choose = random.Random(len(patterns))
    changed = flipped(choose, wanted[1]) if wanted[0] == 0 else None
    return changed.encode() if changed else patterns


def check_machines(results, program, seed, numbers):
    for number in numbers:
        choose = random.Random(f"{seed} boog {number}")
        maker = Maker(choose)
        source = maker.source()
        source = changed(choose, source, SOURCE_WORDS) if choose.random() < 0.2 else source
        files = {**random_files(choose), "s.vbe": source.encode()}
        with Room() as room:
            run_mapped(results, room, program, "a random source and library", files, maker.pattern_file(choose.randrange(1, 20)).encode())


def check_circuit(results, program, seed, gates, names):
    with Room() as room:
        subprocess.run([sys.executable, BENCH / "asimut_inputs.py", str(gates), "20", room.folder, str(seed)], check=True)
        source, patterns = (room.folder / "c.vbe").read_bytes(), (room.folder / "p.pat").read_bytes()
        run_mapped(results, room, program, f"{gates} gates", {**of_cells(names), "s.vbe": source}, patterns)


def check_examples(results, program):
    """The sources of the examples, over the row library as it is and over five cells."""
    for path in sorted(EXAMPLES.glob("*/*.vbe")):
        patterns = path.with_suffix(".pat")
        if not patterns.exists():
            continue
        for names in (FIVE, ALL):
            with Room() as room:
                files = {**of_cells(names), "s.vbe": path.read_bytes(), "r.vst": b"what was there before\n"}
                run_mapped(results, room, program, f"the example {path.name}", files, patterns.read_bytes())


def check_plain(results, seed, numbers):
    """What is said of netlists that have a cell for each node: over five cells nothing; where they behave otherwise, or over all cells have a
    nand and an inverter for an and, something."""
    five, every = library(of_cells(FIVE), "lib"), library(of_cells(ALL), "lib")
    for number in numbers:
        choose = random.Random(f"{seed} plain {number}")
        source = Maker(choose).source().encode()
        m = machine_of(source)
        plain = plain_netlist(m, five)
        faults = list(netlist_faults(m, five, plain))
        results.note("a cell for each node", not faults, f"{faults} for {source[:2000]!r}")
        other = with_a_pin_moved(choose, m, plain)
        is_well = bool(list(mapping_faults(m, five, other))) or not differs_from(m, other, choose)
        results.note("a netlist with a pin moved", is_well, f"no fault for {source[:2000]!r}")
        over_every = plain_netlist(m, every)
        is_well = bool(list(mapping_faults(m, every, over_every))) or not has_an_and(m, over_every)
        results.note("an and of two cells", is_well, f"no fault for {source[:2000]!r}")


def check_words(results, program):
    files = {**of_cells(FIVE), "s.vbe": (EXAMPLES / "inverter/row1.vbe").read_bytes()}
    got = run_in(files, program, [b"boog", b"\xff.vbe", *WORDS[2:]])
    compare(results, "a word of boog that is no text", got, 1, TOOLS_LINE.encode(), files)
    got = run_in(files, program, [*WORDS[:5], "nowhere/r"])
    compare(results, "an output in a folder that isn't there", got, 7, b"boog: file: write fault nowhere/r.vst\n", files)


def jobs(program, seed, times):
    yield check_circuit, (program, seed, 1000, FIVE)
    yield check_circuit, (program, seed, 1000, ALL)
    yield check_circuit, (program, seed, 60, ALL)
    numbers = range(MACHINES * times)
    for at in range(0, len(numbers), CHUNK):
        yield check_machines, (program, seed, numbers[at : at + CHUNK])
    yield check_plain, (seed, range(PLAIN * times))
    yield check_examples, (program,)
    yield check_words, (program,)
