"""What the second readers say of `nero`, and what no case of it has. Random netlists over random libraries are placed by `ocp` and routed: the
layout has the lines of its placement, and the ways of its nets are found again by the second router's rules; where a net is stuck, no way is
free for it. A placement with one line deleted, changed or doubled is none, but where its figure stays. The netlists of sources are placed and
routed as `flow` does it: with the same rows, seed, moves and metals both come to the same layout, or to the same net that is stuck.
"""

import random
import re
from typing import NamedTuple

from acceptance.makers.dense_sources import dense_source
from acceptance.makers.net_maker import NetMaker
from acceptance.makers.random_sources import Maker
from acceptance.meaning import maze
from acceptance.meaning.rows import Rows, rows_of
from share.formats import ap, extraction
from share.formats.models import Refusal, library
from share.formats.vbe_oracle import Ring
from share.formats.vhdl_reader import Refused
from share.formats.vst import FILE
from acceptance.readers.words import command, held, trouble
from acceptance.running.places import CELLS, EXAMPLES
from acceptance.running.results import Room, shown
from acceptance.tools import flow
from acceptance.tools.answers import agrees as same_answer
from acceptance.tools.answers import refusal
from acceptance.tools.boog import of_cells
from acceptance.tools.loon import library_with_drives, usable
from acceptance.tools.ocp import cells_of, placed_text, placing_words, run_placed, source_of, within

USAGE = "usage: alliance nero SOURCE.vst -p PLACED.ap -l DIR -o NAME [--metals 4..6]\n"
BOUNDS = {"--metals": (4, 6)}
MOST_NODES = 2**32 - 2
NETLISTS, SOURCES, CHUNK, CHANGES = 60, 24, 6, 8


# ---- the second answer


class Nero(NamedTuple):
    source: str
    placed: str
    folder: str
    out: str
    metals: int


def parsed(words):
    """The command, or None."""
    found = command(words, ".vst", {"-p": ".ap", "-l": "", "-o": "", "--metals": ""})
    if not found or not {"-p", "-l", "-o"} <= set(found[1]) or not within(found[1], BOUNDS):
        return None
    source, given = found
    return Nero(source, given["-p"], given["-l"], given["-o"], int(given.get("--metals", "6")))


def placement_of(figure, n, cells):
    """The rows of the placement of a netlist whose drawing the figure is, or None."""
    if figure.box[3] > 256 * 5000 + 1000:
        return None
    try:
        rows = rows_of(figure)
    except extraction.Refused:
        return None
    if not 1 <= len(rows) <= 256 or sorted(name for row in rows for name in row) != sorted(n.owners):
        return None
    return rows if figure.text() == placed_text(n, cells, rows) else None


def of_files(found, files):
    """The status and the line; of a layout how many nets it has."""
    n = source_of(found.source, found.folder, files)
    cells = cells_of(files, found.folder)
    try:
        figure = ap.read(held(files, found.placed))
    except ap.Refused as refused:
        said = str(refused)
        return refusal("nero", found.placed, said if said.startswith("limit ") else f"input {said}")
    rows = placement_of(figure, n, cells)
    if rows is None:
        return 2, f"nero: {found.placed}:1: not placed\n"
    block = Rows(n, cells, rows)
    nodes = (block.columns + 1) * (block.top + 1) * (found.metals - 1)
    if nodes > MOST_NODES:
        return 9, f"nero: limit: size {nodes}\n"
    return 0, f"nets {len(block.nets)}\n"


def second(words, files):
    """What the second readers say of a command over files: (status, text), or (2, Ring) where any of some rings may be named. Instead of a
    layout a net may be stuck."""
    found = parsed(words)
    if found is None:
        return 1, USAGE
    for name in (found.source, found.placed):
        refused = trouble(files, name, FILE)
        if refused:
            return refused[0], f"nero: {refused[1]}\n"
    try:
        return of_files(found, files)
    except Refusal as refused:
        return refused.status, f"nero: {refused.line}\n"
    except Ring as ring:
        return 2, ring
    except Refused as refused:
        return refusal("nero", found.source, str(refused))


def stuck_in(printed):
    """The number of the net and the terminal that a line names, or None."""
    found = re.fullmatch(rb"nero: no path: (0|[1-9][0-9]*) (\S+)\n", bytes(printed))
    return (int(found[1]), found[2].decode()) if found else None


def agrees(got, wanted):
    return stuck_in(got[1]) is not None if (got[0], wanted[0]) == (6, 0) else same_answer(got, wanted)


# ---- the layout that is written


def written_faults(words, files, text, stuck=None):
    """What is wrong with the layout that a command wrote, or nothing; with a partial one where a net is stuck before a terminal."""
    found = parsed(words)
    n, cells = source_of(found.source, found.folder, files), cells_of(files, found.folder)
    try:
        figure = ap.read(text)
        breaches = extraction.flat_of(figure, cells).breaches()
    except (ap.Refused, extraction.Refused) as refused:
        return [f"it is refused: {refused}"]
    faults = [f"{breaches} rules are broken"] if breaches else []
    if rows_of(figure) != rows_of(ap.read(held(files, found.placed))):
        return [*faults, "it has another placement"]
    if stuck:
        return faults + maze.part_faults(text, figure, n, cells, found.metals, stuck)
    return faults + maze.whole_faults(text, figure, n, cells, found.metals)


def writes(words, files):
    """The file that a command writes, with the check of its text."""
    return f"{parsed(words).out}.ap", lambda text: written_faults(words, files, text)


def leaves(words, files, printed):
    """The file that a command leaves where a net is stuck, as its line says, with the check of its text."""
    stuck = stuck_in(printed)
    return f"{parsed(words).out}_part.ap", lambda text: written_faults(words, files, text, stuck) if stuck else ["no net is named"]


# ---- what is run


def run_routed(results, room, program, title, files, words):
    """Runs nero on r.vst and p.ap, and reads what it wrote. The files are those of the room."""
    wanted = second(words, files)
    for name in ("r.ap", "r_part.ap"):
        (room.folder / name).unlink(missing_ok=True)
    for name in ("r.vst", "p.ap"):
        (room.folder / name).write_bytes(files[name])
    got, after = room.run(program, words), room.held()
    results.note(title, agrees(got, wanted), f"{words} came to {shown(*got)}, wanted {wanted} for {files['r.vst'][:3000]!r}, {files['p.ap'][:3000]!r}")
    made = {name: text for name, text in after.items() if name in ("r.ap", "r_part.ap")}
    known = {0: "r.ap", 6: "r_part.ap"}.get(got[0])
    if wanted[0] or known is None:
        results.note(f"{title}: the files behind a refusal", not made, f"{sorted(made)} are there")
        return
    results.note(f"{title}: the file", list(made) == [known], f"{sorted(made)} are there, and not {known}")
    faults = written_faults(words, files, made.get(known, b""), stuck_in(got[1]) if got[0] else None)
    results.note(f"{title}: the layout", not faults, f"{faults} of {words} in {made.get(known, b'')[:3000]!r} for {files['r.vst'][:3000]!r}")


def nero_words(choose):
    words = ["nero", "r.vst", "-p", "p.ap", "-l", "lib", "-o", "r"]
    return words if choose.random() < 0.3 else [*words, "--metals", str(choose.choice([4, 5, 6]))]


def changed_lines(choose, text):
    """The text with one line deleted, doubled, exchanged with the next or with one number changed."""
    lines = text.splitlines(keepends=True)
    at = choose.randrange(3, len(lines) - 1)
    way = choose.choice(["delete", "delete", "double", "exchange", "number"])
    if way == "delete":
        del lines[at]
    elif way == "double":
        lines.insert(at, lines[at])
    elif way == "exchange":
        lines[at - 1], lines[at] = lines[at], lines[at - 1]
    else:
        numbers = list(re.finditer(rb"(?<=[ ,])\d+(?=,)", lines[at]))
        if numbers:
            found = choose.choice(numbers)
            more = str(int(found[0]) + choose.choice([1, 100, 500, 5000])).encode()
            lines[at] = lines[at][: found.start()] + more + lines[at][found.end() :]
    return b"".join(lines)


def check_netlists(results, program, seed, numbers):
    """Placed and routed, and with lines of the placement changed."""
    for number in numbers:
        choose = random.Random(f"{seed} nero {number}")
        files = library_with_drives(choose)
        files["r.vst"] = NetMaker(choose, usable(library(files, "lib"))).text().encode()
        with Room() as room:
            room.write(files)
            text = run_placed(results, room, program, "a netlist to route", files, placing_words(choose))
            if text is None:
                continue
            run_routed(results, room, program, "a placement that is routed", {**files, "p.ap": text}, nero_words(choose))
            for _ in range(CHANGES):
                other = changed_lines(choose, text)
                run_routed(results, room, program, "a placement with a line changed", {**files, "p.ap": other}, nero_words(choose))


def netlist_of(results, room, program):
    """The netlist r.vst of the source s.vbe, made smaller, mapped and driven, as `flow` makes it; whether it is there."""
    for words in (["boom", "s.vbe", "-o", "m"], ["boog", "m.vbe", "-l", "lib", "-o", "g"], ["loon", "g.vst", "-l", "lib", "-o", "r"]):
        got = room.run(program, words)
        results.note(f"{words[0]} for a layout", got[0] == 0, shown(*got))
        if got[0]:
            return False
    return True


def compare_with_flow(results, program, title, files, asked, metals):
    """The same layout, length and number of nets, or the same net that is stuck, as `flow` comes to."""
    with Room() as room:
        room.write(files)
        drawn = room.run(program, ["flow", "s.vbe", "-l", "lib", "-o", "f", *asked, *metals])
        if not netlist_of(results, room, program):
            return
        placed = room.run(program, ["ocp", "r.vst", "-l", "lib", "-o", "p", *asked])
        routed = room.run(program, ["nero", "r.vst", "-p", "p.ap", "-l", "lib", "-o", "n", *metals])
        after = room.held()
        alike = [after.get(f"f{end}") == after.get(f"n{end}") for end in (".ap", "_part.ap")]
        is_well = placed[0] == 0 and (drawn[0], alike) == (routed[0], [True, True])
        if drawn[0] == 0:
            is_well &= {placed[1].strip(), routed[1].strip()} <= set(drawn[1].split(b"\n"))
        else:
            is_well &= routed[1] == drawn[1].replace(b"flow: ", b"nero: ", 1)
        results.note(title, is_well, f"{drawn} of flow, {placed} of ocp and {routed} of nero, files alike {alike}, for {files['s.vbe'][:3000]!r}")


def check_flow(results, program, seed, numbers):
    """Random sources, and dense ones, of which some get stuck on four metals."""
    for number in numbers:
        choose = random.Random(f"{seed} nero flow {number}")
        source = dense_source(choose, 120) if number % 4 == 3 else Maker(choose).source()
        files = {**of_cells([*flow.FIVE, "xr2_x1", "buf_x2", "inv_x2", "inv_x4", "sff1_x8"]), "s.vbe": source.encode()}
        asked = choose.choice([[], ["--rows", "1"], ["--rows", "2", "--seed", "7"], ["--rows", "3", "--moves", "0"], ["--moves", "500"]])
        metals = ["--metals", "4"] if number % 4 == 3 else choose.choice([[], ["--metals", "4"], ["--metals", "5"]])
        compare_with_flow(results, program, "placed and routed as flow does", files, asked, metals)


def check_chain(results, program):
    """The counter: mapped, driven, placed, routed, and made a source again, which is equal to itself; and its placement without one S line."""
    names = [line.split()[0] for line in (CELLS / "CATAL").read_text().splitlines()]
    files = {**of_cells(names), "cnt4.vbe": next(EXAMPLES.glob("*/cnt4.vbe")).read_bytes()}
    chain = (
        ["boog", "cnt4.vbe", "-l", "lib", "-o", "cnt4"], ["loon", "cnt4.vst", "-l", "lib", "-o", "l"], ["ocp", "l.vst", "-l", "lib", "-o", "cnt4"],
        ["nero", "l.vst", "-p", "cnt4.ap", "-l", "lib", "-o", "n"], ["flatbeh", "l.vst", "-l", "lib", "-o", "b"],
    )
    with Room() as room:
        room.write(files)
        for words in chain:
            got = room.run(program, words)
            results.note(f"the counter by {words[0]}", got[0] == 0, shown(*got))
        got = room.run(program, ["proof", "b.vbe", "-b", "b.vbe"])
        results.note("the counter beside itself", got == (0, b"equal\n"), shown(*got))
        lines = room.held().get("cnt4.ap", b"").splitlines(keepends=True)
        for at, line in enumerate(lines):
            if line.startswith(b"S "):
                (room.folder / "cnt4.ap").write_bytes(b"".join(lines[:at] + lines[at + 1 :]))
                got = room.run(program, ["nero", "l.vst", "-p", "cnt4.ap", "-l", "lib", "-o", "n"])
                results.note("the counter without an S line", got == (2, b"nero: cnt4.ap:1: not placed\n"), shown(*got))


WIDE_CELL = {
    "lib/CATAL": b"inv_x1 C\n",
    "lib/inv_x1.vbe": b"entity inv_x1 is port (i : in bit; nq : out bit; vdd : in bit; vss : in bit); end inv_x1;\n"
    b"architecture x of inv_x1 is begin\nnq <= not i;\nend x;\n",
    "lib/inv_x1.ap": b"V ALLIANCE : 6\nH inv_x1,P,01/01/2000,100\nA 0,0,16000,5000\n"
    b"S 0,300,16000,300,600,vss,RIGHT,CALU1\nS 0,4700,16000,4700,600,vdd,RIGHT,CALU1\n"
    b"S 500,1000,500,4000,200,i,UP,CALU1\nS 1000,1000,1000,4000,200,nq,UP,CALU1\nEOF\n",
}


def check_large_grid(results, program, many=10480):
    """Cells as wide as they may be, all in the lowest of 256 rows: the grid over them has too many nodes; and the same without a rail."""
    head = "entity wide is port (a : in bit; vdd, vss : in bit); end wide;\narchitecture x of wide is\n"
    head += "component inv_x1 port (i : in bit; nq : out bit; vdd, vss : in bit); end component;\n"
    head += f"signal s : bit_vector ({many - 1} downto 0);\nbegin\n"
    lines = [f"g{k} : inv_x1 port map (i => a, nq => s({k}), vdd => vdd, vss => vss);\n" for k in range(many)]
    files = {**WIDE_CELL, "r.vst": f"{head}{''.join(lines)}end x;\n".encode()}
    n, cells = source_of("r.vst", "lib", files), cells_of(files, "lib")
    text = placed_text(n, cells, [list(n.owners)] + [[] for _ in range(255)])
    rail = next(line for line in text.splitlines(keepends=True) if line.startswith(b"S "))
    with Room() as room:
        room.write(files)
        words = ["nero", "r.vst", "-p", "p.ap", "-l", "lib", "-o", "r"]
        nodes = (32 * many + 1) * 2562 * 5
        room.folder.joinpath("p.ap").write_bytes(text)
        got = room.run(program, words)
        results.note("a grid of too many nodes", got == (9, f"nero: limit: size {nodes}\n".encode()), shown(*got))
        room.folder.joinpath("p.ap").write_bytes(text.replace(rail, b"", 1))
        got = room.run(program, words)
        results.note("no placement before a grid of too many nodes", got == (2, b"nero: p.ap:1: not placed\n"), shown(*got))


def jobs(program, seed, times):
    yield check_chain, (program,)
    yield check_large_grid, (program,)
    for many, check in ((NETLISTS, check_netlists), (SOURCES, check_flow)):
        numbers = range(many * times)
        for at in range(0, len(numbers), CHUNK):
            yield check, (program, seed, numbers[at : at + CHUNK])
