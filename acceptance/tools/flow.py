"""What the second readers say of `flow`, and what no case of it has: random machines and state machines over random libraries, large and
small sources, nets that many pins read, and the layouts that it writes, read again: extracted, compared with a second drawing, and run
beside their sources. Of a state machine a layout is run beside the walk too: from the codes of states, and behind a reset from any
contents. Of each netlist mapping.py says how its gates have to be, and driven.py which buffers and drives it has to have. What is run
here has tracks; maze.py runs the same over rows, where a layout is read by a second router and its placement tried for exchanges, and one
in which a net is stuck by its marks.
"""

import random
import re
from typing import NamedTuple

from acceptance import cells
from acceptance.makers.rail_connectors import with_rail_connectors
from acceptance.makers.random_sources import Maker, changed
from acceptance.makers.random_sources import WORDS as SOURCE_WORDS
from acceptance.makers.random_states import StateMaker
from acceptance.makers.random_wide import WideMaker, with_drives
from acceptance.meaning import layout, maze, placing
from acceptance.meaning.mapping import CHOICE, MOST_SIZE, build_faults, machine_size
from acceptance.meaning.rows import Rows, rows_of
from acceptance.meaning.state_machine import machine_of as equations_of
from acceptance.readers.words import TOOLS_LINE, command, held, trouble
from acceptance.running.case_file import Case
from acceptance.running.places import CELLS, EXAMPLES, ROWS
from acceptance.running.results import Room, compare, run_in, shown
from acceptance.tools import driven
from acceptance.tools.answers import agrees as same_answer
from acceptance.tools.answers import refusal
from acceptance.tools.boog import differs_from, of_cells
from acceptance.tools.boom import MOST_NODES, NODES, inner_size
from acceptance.tools.syf import STYLES, behaviour_faults, codes_of, style_of
from share.formats import ap, catal, cellcheck, diagrams, extraction, models
from share.formats.fsm_oracle import state_machine
from share.formats.models import IN, Refusal, first_missing, of_folder
from share.formats.pat_oracle import machine_of
from share.formats.state_codes import code_lines
from share.formats.state_walk import StateMachine
from share.formats.vbe_oracle import FILE, Machine, Ring
from share.formats.vhdl_reader import SUPPLIES, Refused, spelled
from share.formats.vst import Netlist

ROW = ROWS / "flow-layouts/one-inverter.txt"
USAGE = "usage: alliance flow SOURCE.vbe|.fsm -l DIR -o NAME [-e o|r|j] [--tracks] [--rows 1..256] [--metals 4..6] [--seed 0..4294967295] [--moves 0..1000000] [--nodes 1..4000000] [--fanout 4..1000000]\n"
FIVE = ["inv_x1", "na2_x1", "zero_x0", "one_x0", "sff1_x4"]
MORE = ["inv_x8", "na3_x1", "sff1_x8", "xr2_x1", "mx2_x2", "buf_x2", "a2_x2", "o3_x2", "no2_x1", "nao22_x1", "noa2a22_x1"]
WORDS = ["flow", "s.vbe", "-l", "lib", "-o", "r", "--tracks"]
BOUNDS = {"--rows": (1, 256), "--metals": (4, 6), "--moves": (0, 1000000), "--fanout": (4, 1000000), "--nodes": (1, MOST_NODES)}
OPTIONS = {"-l": "", "-o": "", "-e": "", "--seed": ""} | dict.fromkeys(BOUNDS, "")
# without `--rows` the block is about square
DEFAULTS = {"--nodes": NODES, "--fanout": 32, "--metals": 6, "--rows": 0, "--seed": 0, "--moves": 10000}
NO_PATH = re.compile(rb"(?:flow|gen): no path: (0|[1-9][0-9]*) (\S+)\n")
# the lines of the report that go by the optimised source: which one comes out is open
OPEN = ("cells", "nets", "delay", "length")
MACHINES, STATE_MACHINES, WIDE, CHUNK = 200, 30, 36, 20


# ---- the second answer


class Flow(NamedTuple):
    source: str
    folder: str
    out: str
    nodes: int
    fanout: int
    style: tuple
    has_tracks: bool
    metals: int
    rows: int | None
    seed: int
    moves: int


def parsed(words):
    """The command, or None. A value doesn't begin with a hyphen, so `--tracks` is none."""
    at = [k for k, word in enumerate(words) if word == "--tracks"]
    if len(at) > 1 or (at and words[at[0] - 1] in OPTIONS):
        return None
    found = command([word for word in words if word != "--tracks"], (".vbe", ".fsm"), OPTIONS)
    if not found or "-l" not in found[1] or "-o" not in found[1] or style_of(found[1]) is None:
        return None
    for option, (least, most) in BOUNDS.items():
        number = found[1].get(option, str(least))
        if not re.fullmatch("[0-9]{1,10}", number) or not least <= int(number) <= most:
            return None
    numbers = [int(found[1].get(word, number)) for word, number in DEFAULTS.items()]
    nodes, fanout, metals, rows, seed, moves = numbers
    return Flow(found[0], found[1]["-l"], found[1]["-o"], nodes, fanout, style_of(found[1]), bool(at), metals, rows or None, seed, moves)


class Source(NamedTuple):
    """The machine, the lines of the report on what its registers hold, and of a state machine that and its codes."""

    machine: Machine
    held: list
    states: StateMachine | None = None
    codes: list | None = None


def source_of(found, files):
    text = held(files, found.source)
    if found.source.endswith(".vbe"):
        m = machine_of(text)
        return Source(m, [f"register q{k} {spelled(bit)}" for k, bit in enumerate(sorted(m.registers))])
    states = state_machine(text)
    made = codes_of(states, found.style)
    return Source(equations_of(states, made, found.style[0] == "o"), code_lines(states.states, made).splitlines(), states, made)


def names_read(files, folder):
    """The cells that CATAL uses, once all their files are there; or Refusal."""
    of_dir = of_folder(files, folder)
    try:
        names = catal.cells(cellcheck.had(of_dir, "CATAL"))
        for name in names:
            cellcheck.had(of_dir, f"{name}.vbe")
            cellcheck.had(of_dir, f"{name}.ap")
    except ap.Refused as refused:
        raise models.refusal(folder, str(refused)) from None


def checked(files, folder, has_tracks):
    try:
        return cellcheck.cells(of_folder(files, folder), has_tracks)
    except ap.Refused as refused:
        raise models.refusal(folder, str(refused)) from None


def of_files(found, files):
    """The status and the text without its word; (0, the lines of the report, the most cells, and whether a net may be stuck) where it is
    laid out."""
    names_read(files, found.folder)
    source = source_of(found, files)
    m = source.machine
    size = machine_size(m)
    if size > MOST_SIZE:
        return 9, f"flow: limit: size {size}\n"
    checked(files, found.folder, found.has_tracks)
    kind = first_missing(models.library(files, found.folder), bool(m.registers))
    if kind:
        return 4, f"flow: no cover: {kind}\n"
    name = diagrams.first_over(m, found.nodes)
    if name is not None:
        return 5, f"flow: budget: {spelled(name)} {found.nodes + 1}\n"
    return 0, (lines_of(source), most_instances(m), not found.has_tracks)


def most_gates(m):
    """The most gates of a layout but for buffers: the size of the source and 2, where its inner signals count no more than four times the
    nodes of its roots."""
    inner = inner_size(m)
    return machine_size(m) - inner + min(inner, CHOICE * sum(s.dag for s in diagrams.sizes(m))) + 2


def most_instances(m):
    """With registers and buffers: there are no more buffers than inputs of gates and registers."""
    return 3 * most_gates(m) + 2 * len(m.registers)


def lines_of(source):
    """The lines of the report, of those that are open the first word alone."""
    m = source.machine
    return [f"source {m.name}", *source.held, f"size {machine_size(m)}", f"nodes {diagrams.greatest(m)}", *OPEN, "breaches 0", "accepted"]


def second(words, files):
    """What the second readers say of a command over files: (status, text), or (2, Ring) where any of some rings may be named. Of a layout it
    is (0, the lines of its report, the most cells, and whether a net may be stuck instead)."""
    found = parsed(words)
    if found is None:
        return 1, USAGE
    refused = trouble(files, found.source, FILE)
    if refused:
        return refused[0], f"flow: {refused[1]}\n"
    try:
        return of_files(found, files)
    except Refusal as refused:
        return refused.status, f"flow: {refused.line}\n"
    except Ring as ring:
        return 2, ring
    except Refused as refused:
        return refusal("flow", found.source, str(refused))


def agrees(got, wanted):
    if wanted[0] != 0:
        return same_answer(got, wanted)
    lines, (lines_wanted, most, may_be_stuck) = bytes(got[1]).decode(errors="replace").split("\n"), wanted[1]
    if got[0] == 6:
        return may_be_stuck and stuck_in(got[1]) is not None
    told = [re.fullmatch(f"({'|'.join(OPEN)}) (0|[1-9][0-9]*)", line) for line in lines]
    cells_told = [int(found[2]) for found in told if found and found[1] == "cells"]
    known = [found[1] if found else line for found, line in zip(told, lines)]
    return got[0] == 0 and known == [*lines_wanted, ""] and cells_told[0] <= most


def stuck_in(printed):
    """The number of the net and the terminal that a line names, or None."""
    found = NO_PATH.fullmatch(bytes(printed))
    return (int(found[1]), found[2].decode()) if found else None


# ---- the layout that is written


def read_again(words, files, text, is_part=False):
    """The netlist that a layout gives, in a partial one by its marks, and its rectangles."""
    found = parsed(words)
    figure, cells_found, of_name = ap.read(text), checked(files, found.folder, found.has_tracks), models.library(files, found.folder)
    flat = extraction.flat_of(figure, cells_found)
    if is_part:
        return maze.marked(figure, cells_found, of_name), flat
    n = extraction.extracted(figure, flat, of_name)
    return Netlist(n.name, n.all_ports, n.instances), flat


def netlist_faults(m, of_name, n, fanout):
    """What isn't as it has to be in the netlist of a layout of a machine, but how it behaves."""
    if n.name != m.name:
        yield f"the name {n.name}"
    if n.all_ports != {**m.ports, **{(supply, -1): IN for supply in SUPPLIES}}:
        yield "the ports"
    if n.clock != ((m.clock, -1) if m.registers else None):
        yield f"the clock {n.clock}"
    plain = [i for i in n.instances if not driven.is_buffer(i)]
    if len(plain) > len(m.registers) + most_gates(m):
        yield f"{len(plain)} registers and gates, and not {most_gates(m)} gates at most"
    if not all(i.model.is_usable for i in n.instances):
        yield "a cell that isn't mappable"
        return
    found = list(driven.faults(n, of_name, fanout))
    # the graph that it covers is that of a smaller machine, and which one is open
    yield from found or build_faults(m, of_name, driven.unbuffered(n, of_name))


def walk_faults(source, n, choose):
    """Where the netlist of a layout doesn't do what the state machine does; instance qk holds bit k of the code."""

    def settled(inputs, contents):
        env = n.settle({**inputs, (source.states.clock, -1): 0}, dict(zip(n.registers, contents)))
        return {bit: env[bit] for bit in source.states.outputs}, list(n.load(env).values())

    return behaviour_faults(source.states, source.codes, n.registers, settled, choose)


def drawing_faults(found, files, n, text, stuck):
    """What of a layout's lines isn't as its netlist has to be drawn."""
    cells_found = checked(files, found.folder, found.has_tracks)
    if found.has_tracks:
        return layout.text_faults(text, layout.drawn(n, cells_found))
    figure = ap.read(text)
    placing_faults = list(placing.faults(n, cells_found, rows_of(figure), found.rows, found.seed, found.moves))
    if stuck:
        return placing_faults + maze.part_faults(text, figure, n, cells_found, found.metals, stuck)
    return placing_faults + maze.whole_faults(text, figure, n, cells_found, found.metals)


def written_faults(words, files, text, stuck=None):
    """What is wrong with the layout that a command wrote, or nothing; with a partial one where a net is stuck before a terminal."""
    found = parsed(words)
    source, of_name = source_of(found, files), models.library(files, found.folder)
    m = source.machine
    try:
        n, flat = read_again(words, files, text, stuck is not None)
    except (ap.Refused, extraction.Refused, Refused, maze.Wrong) as refused:
        return [f"it is refused: {refused}"]
    faults = list(netlist_faults(m, of_name, n, found.fanout))
    breaches = flat.breaches()
    if breaches:
        faults.append(f"{breaches} rules are broken")
    faults += drawing_faults(found, files, n, text, stuck)
    if not faults and differs_from(m, n, random.Random(len(text))):
        faults.append("it behaves otherwise")
    if not faults and source.states:
        faults += walk_faults(source, n, random.Random(len(text)))
    return faults


def writes(words, files):
    """The file that a command writes, with the check of its text."""
    return f"{parsed(words).out}.ap", lambda text: written_faults(words, files, text)


def tells(words, files, text, printed):
    """Whether what is printed is the report on the layout that a command wrote."""
    found, source = parsed(words), source_of(parsed(words), files)
    n, _ = read_again(words, files, text)
    cells_found = checked(files, found.folder, found.has_tracks)
    placed = layout.Placed(n, cells_found) if found.has_tracks else Rows(n, cells_found, rows_of(ap.read(text)))
    report = layout.report(source.machine, source.held, n, placed)
    return [] if bytes(printed) == report.encode() else [f"{bytes(printed)!r} is not {report!r}"]


def leaves(words, files, printed):
    """The file that a command leaves where a net is stuck, as its line says, with the check of its text."""
    stuck = stuck_in(printed)
    return f"{parsed(words).out}_part.ap", lambda text: written_faults(words, files, text, stuck) if stuck else ["no net is named"]


# ---- what is run


def run_laid_out(results, room, program, title, files, words=WORDS):
    """Runs flow; where it succeeds its layout is read again, and the report that it printed is the one on that layout."""
    wanted, source = second(words, files), files[words[1]]
    room.write(files)
    got, held_after = room.run(program, words), room.held()
    results.note(title, agrees(got, wanted), f"{words} came to {shown(*got)}, wanted {wanted} for {source[:2000]!r}")
    if got[0] == 6 and stuck_in(got[1]):
        check_part(results, title, words, files, held_after.pop("r_part.ap", None) or b"", got[1])
    if got[0] or wanted[0]:
        results.note(f"{title}: files behind a refusal", held_after == files, "a file changed")
        return
    check_laid_out(results, title, words, files, held_after.get("r.ap") or b"", got[1])


def check_part(results, title, words, files, text, printed):
    """The layout that is left where a net is stuck: its netlist is that of the source, and no way is free for the net."""
    faults = written_faults(words, files, text, stuck_in(printed))
    results.note(f"{title}: the partial layout", not faults, f"{faults} of {words}, {printed!r} in {text[:3000]!r} for {files[words[1]][:2000]!r}")


def check_laid_out(results, title, words, files, text, printed):
    """The layout that a command wrote, and that the report is the one on it."""
    source = files[words[1]]
    faults = written_faults(words, files, text)
    results.note(f"{title}: the layout", not faults, f"{faults} of {words} in {text[:3000]!r} for {source[:2000]!r}")
    if not faults:
        faults = tells(words, files, text, printed)
        results.note(f"{title}: the report", not faults, faults)


def random_files(choose):
    """A library that mostly has a cell of each kind, in any order, now and then with made drives of some and connectors of rails, and
    sometimes a file that is spoilt."""
    names = [name for name in FIVE if choose.random() < 0.97]
    names += choose.sample(MORE, choose.randrange(5))
    choose.shuffle(names)
    files = with_drives(choose, names) if choose.random() < 0.3 else of_cells(names)
    files = with_rail_connectors(choose, files) if choose.random() < 0.3 else files
    if choose.random() < 0.05:
        cells.spoil(choose, files)
    return files


def words_within(fanout):
    return [*WORDS, "--fanout", str(fanout)] if fanout else WORDS


def check_machines(results, program, seed, numbers):
    for number in numbers:
        choose = random.Random(f"{seed} flow {number}")
        source = Maker(choose).source()
        source = changed(choose, source, SOURCE_WORDS) if choose.random() < 0.2 else source
        with Room() as room:
            files = {**random_files(choose), "s.vbe": source.encode()}
            run_laid_out(results, room, program, "a random source and library", files, words_within(choose.choice([None, 4, 4, 5])))


def words_by(choose):
    style = ["-e", choose.choice(STYLES), "--seed", str(choose.choice([0, choose.randrange(2**32)]))]
    return ["flow", "s.fsm", *words_within(choose.choice([None, 4]))[2:], *style]


def check_states(results, program, seed, numbers):
    for number in numbers:
        choose = random.Random(f"{seed} flow states {number}")
        files = {**random_files(choose), "s.fsm": StateMaker(choose).source().encode()}
        with Room() as room:
            run_laid_out(results, room, program, "a random state machine and library", files, words_by(choose))


def check_wide(results, program, seed, numbers):
    """Nets that 5, 40 and 300 pins read, each with the fan-outs 4, 8 and 33, over libraries with and without a buffer and more drives."""
    for number in numbers:
        choose = random.Random(f"{seed} flow wide {number}")
        readers, fanout = (5, 40, 300)[number % 3], (4, 8, 33)[number // 3 % 3]
        names = [*FIVE, *choose.sample(["buf_x2", "buf_x4", "inv_x2", "inv_x4", "inv_x8", "sff1_x8"], choose.randrange(5))]
        choose.shuffle(names)
        library = with_drives(choose, names) if choose.random() < 0.5 else of_cells(names)
        files = {**library, "s.vbe": WideMaker(choose, readers).source().encode()}
        with Room() as room:
            run_laid_out(results, room, program, f"{readers} readers with {fanout}", files, words_within(fanout))


def chain(signals):
    """Each signal is the inverse of the one before it, and an output."""
    names = ["i", *(f"s{k}" for k in range(signals))]
    declared = "".join(f"signal {name} : bit;\n" for name in names[1:])
    body = "".join(f"{name} <= not {before};\n" for before, name in zip(names, names[1:]))
    head = "entity chain is port (i : in bit; o : out bit; vdd : in bit; vss : in bit); end chain;\narchitecture vbe of chain is\n"
    return f"{head}{declared}begin\n{body}o <= {names[-1]};\nend vbe;\n".encode()


def check_chain(results, program, signals):
    """At the limit of size, and one past it."""
    with Room() as room:
        run_laid_out(results, room, program, f"a chain of {signals}", {**of_cells(FIVE), "s.vbe": chain(signals)})


def of_ports(bits):
    """An inverter, and inputs that nothing reads, with so many port bits in all."""
    head = f"entity wide is port (i : in bit_vector ({bits - 2} downto 0); o : out bit; vdd : in bit; vss : in bit); end wide;\n"
    return f"{head}architecture vbe of wide is begin\no <= not i(0);\nend vbe;\n".encode()


def check_ports(results, program, bits):
    """At the limit of port bits, and one past it."""
    with Room() as room:
        run_laid_out(results, room, program, f"{bits} port bits", {**of_cells(FIVE), "s.vbe": of_ports(bits)})


def check_examples(results, program):
    for path in sorted(EXAMPLES.glob("*/*.vbe")):
        for names in (FIVE, [line.split()[0] for line in (CELLS / "CATAL").read_text().splitlines()]):
            with Room() as room:
                files = {**of_cells(names), "s.vbe": path.read_bytes()}
                for fanout in (None, 4):
                    run_laid_out(results, room, program, f"the example {path.name}", files, words_within(fanout))
    for path in sorted(EXAMPLES.glob("*/*.fsm")):
        for style in STYLES:
            with Room() as room:
                files = {**of_cells(FIVE), "s.fsm": path.read_bytes()}
                run_laid_out(results, room, program, f"the example {path.name}", files, ["flow", "s.fsm", *WORDS[2:], "-e", style])


def check_words(results, program):
    case = Case(ROW)
    words = case.words[0]
    with Room() as room:
        room.write(case.before)
        status, printed = room.run(program, ["flow", "row1.vbe", "-l", f"{room.folder}/lib", "-o", f"{room.folder}/out", "--tracks"])
        compare(results, "flow with paths from the root", (status, printed, room.held()), 0, case.printed, {**case.before, **case.after})
    rows = [
        ("a word of flow that is no text", case.before, ["flow", b"\xff.vbe", *words[2:]], 1, TOOLS_LINE.encode()),
        ("a source of 3000000 bytes", {**case.before, "row1.vbe": bytes(3000000)}, words, 9, b"flow: limit: file 1048577\n"),
        ("an output in a folder that isn't there", case.before, ["flow", "row1.vbe", "-l", "lib", "-o", "nowhere/out", "--tracks"], 7,
         b"flow: file: write fault nowhere/out.ap\n"),
    ]
    for title, files, given, status, line in rows:
        compare(results, title, run_in(files, program, given), status, line, files)


def jobs(program, seed, times):
    yield check_chain, (program, 16382)
    yield check_chain, (program, 16383)
    yield check_ports, (program, 4096)
    yield check_ports, (program, 4097)
    numbers = range(MACHINES * times)
    for at in range(0, len(numbers), CHUNK):
        yield check_machines, (program, seed, numbers[at : at + CHUNK])
    numbers = range(STATE_MACHINES * times)
    for at in range(0, len(numbers), CHUNK):
        yield check_states, (program, seed, numbers[at : at + CHUNK])
    for number in range(WIDE * times):
        yield check_wide, (program, seed, [number])
    yield check_examples, (program,)
    yield check_words, (program,)
