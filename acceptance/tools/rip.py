"""What the second readers say of `rip`, and what no case of it has. Random netlists over random libraries, and dense ones that mostly get
stuck, are placed by `ocp` and routed with none, few and many rips. The layout has the lines of its placement, the second extraction finds
the netlist in it, and each net is a tree that leads to its points; where no net was torn out, each way is a least one beside those before,
as of `nero`. Where a net is stuck, no way is free for it, the others are whole or without a wire, and no more are without one than there
may be rips. What meaning/torn.py says of layouts and of moves is tried on those of a small router that is right, or wrong in a known way.
"""

import random
import re
from typing import NamedTuple

from acceptance.makers.dense_sources import dense_source
from acceptance.makers.maze_maker import made_block
from acceptance.makers.net_maker import NetMaker
from acceptance.makers.rip_maker import RipHabits, RipRouter
from acceptance.meaning import maze, torn
from acceptance.meaning.rows import rows_of
from acceptance.readers.words import TOOLS_LINE, command, held
from acceptance.running.places import CELLS, EXAMPLES
from acceptance.running.results import Room, compare, run_in, shown
from acceptance.tools import flow, lvx, nero, second_router
from acceptance.tools.answers import agrees as same_answer
from acceptance.tools.boog import of_cells
from acceptance.tools.loon import library_with_drives, usable
from acceptance.tools.ocp import cells_of, placing_words, run_placed, source_of, within
from share.formats import ap, extraction
from share.formats.models import library
from share.formats.vhdl_reader import SUPPLIES

USAGE = "usage: alliance rip SOURCE.vst -p PLACED.ap -l DIR -o NAME [--metals 4..6] [--rips 0..10000]\n"
BOUNDS = {"--metals": (4, 6), "--rips": (0, 10000)}
NETLISTS, DENSE, CHUNK, CHANGES, MOVES = 30, 12, 6, 3, 12
TOLD = re.compile(rb"(nets (?:0|[1-9][0-9]*)\n)rips (0|[1-9][0-9]*)\n")


# ---- the second answer


class Rip(NamedTuple):
    source: str
    placed: str
    folder: str
    out: str
    metals: int
    rips: int


def parsed(words):
    """The command, or None."""
    found = command(words, ".vst", {"-p": ".ap", "-l": "", "-o": "", "--metals": "", "--rips": ""})
    if not found or not {"-p", "-l", "-o"} <= set(found[1]) or not within(found[1], BOUNDS):
        return None
    source, given = found
    return Rip(source, given["-p"], given["-l"], given["-o"], int(given.get("--metals", "6")), int(given.get("--rips", "100")))


def without_rips(words):
    """The words of `nero` for the same."""
    found = parsed(words)
    return ["nero", "-p", found.placed, "-l", found.folder, "-o", found.out, "--metals", str(found.metals), "--", found.source]


def second(words, files):
    """What the second readers say of a command over files: (status, text), or (2, Ring) where any of some rings may be named. Instead of a
    layout a net may be stuck, and how many rips are printed is open up to how many there may be."""
    if parsed(words) is None:
        return 1, USAGE
    status, said = nero.second(without_rips(words), files)
    if status == 0:
        return 0, f"{said}rips {parsed(words).rips}\n"
    return status, said.replace("nero: ", "rip: ", 1) if isinstance(said, str) else said


def stuck_in(printed):
    """The number of the net and the terminal that a line names, or None."""
    return nero.stuck_in(bytes(printed).replace(b"rip: ", b"nero: ", 1))


def rips_in(printed):
    """How many rips are printed, or None."""
    found = TOLD.fullmatch(bytes(printed))
    return int(found[2]) if found else None


def agrees(got, wanted):
    if wanted[0] != 0 or got[0] not in (0, 6):
        return same_answer(got, wanted)
    if got[0] == 6:
        return stuck_in(got[1]) is not None
    one, most = TOLD.fullmatch(bytes(got[1])), TOLD.fullmatch(wanted[1].encode())
    return one is not None and one[1] == most[1] and int(one[2]) <= int(most[2])


# ---- the layout that is written


def joined_faults(n, got, is_part):
    """Terminals that a layout joins and the netlist doesn't, or where it is whole the other way round. A signal pin that is tied to a supply
    is left open."""
    tied = {(i.name, pin) for i in n.instances for pin, net in i.nets.items() if net[0] in SUPPLIES and pin[0] not in SUPPLIES}
    of_n, of_got = lvx.classes(n), lvx.classes(got)
    if set(of_n) != set(of_got):
        yield f"other terminals: {sorted(map(str, set(of_n) ^ set(of_got)))[:5]}"
        return
    for terminal, members in of_n.items():
        wanted = {terminal} if terminal in tied else members - tied
        if not (of_got[terminal] <= wanted if is_part else of_got[terminal] == wanted):
            yield f"{terminal} is joined with {sorted(map(str, of_got[terminal]))[:5]}"
            return


def written_faults(words, files, text, rips=None, stuck=None):
    """What is wrong with the layout that a command wrote, or nothing: with a whole one after so many rips, any number where none is given;
    with a partial one where a net is stuck before a terminal."""
    found = parsed(words)
    n, cells = source_of(found.source, found.folder, files), cells_of(files, found.folder)
    try:
        figure = ap.read(text)
        flat = extraction.flat_of(figure, cells)
        breaches, got = flat.breaches(), extraction.netlist_of(figure, flat, library(files, found.folder))
    except (ap.Refused, extraction.Refused) as refused:
        return [f"it is refused: {refused}"]
    if rows_of(figure) != rows_of(ap.read(held(files, found.placed))):
        return ["it has another placement"]
    faults = [f"{breaches} rules are broken"] if breaches else []
    faults += joined_faults(n, got, stuck is not None)
    if stuck:
        return faults + torn.part_faults(text, figure, n, cells, found.metals, stuck, found.rips)
    return faults + torn.whole_faults(text, figure, n, cells, found.metals, found.rips if rips is None else rips)


def writes(words, files):
    """The file that a command writes, with the check of its text."""
    return f"{parsed(words).out}.ap", lambda text: written_faults(words, files, text)


def tells(words, files, text, printed):
    """What is wrong with the text after as many rips as are printed."""
    rips = rips_in(printed)
    return [f"no rips in {bytes(printed)!r}"] if rips is None else written_faults(words, files, text, rips)


def leaves(words, files, printed):
    """The file that a command leaves where a net is stuck, as its line says, with the check of its text."""
    stuck = stuck_in(printed)
    return f"{parsed(words).out}_part.ap", lambda text: written_faults(words, files, text, stuck=stuck) if stuck else ["no net is named"]


# ---- what is run


def run_routed(results, room, program, title, files, words):
    """Runs rip on r.vst and p.ap, and reads what it wrote; the status and how many rips are printed. The files are those of the room."""
    wanted = second(words, files)
    for name in ("r.ap", "r_part.ap"):
        (room.folder / name).unlink(missing_ok=True)
    for name in ("r.vst", "p.ap"):
        (room.folder / name).write_bytes(files[name])
    got, after = room.run(program, words), room.held()
    results.note(title, agrees(got, wanted), f"{words} came to {shown(*got)}, wanted {wanted} for {files['r.vst'][:3000]!r}, {files['p.ap'][:3000]!r}")
    made = {name: text for name, text in after.items() if name in ("r.ap", "r_part.ap")}
    known = {0: "r.ap", 6: "r_part.ap"}.get(got[0])
    if wanted[0] or known is None:
        results.note(f"{title}: the files behind a refusal", not made, f"{sorted(made)} are there")
        return got[0], None
    results.note(f"{title}: the file", list(made) == [known], f"{sorted(made)} are there, and not {known}")
    rips = rips_in(got[1])
    faults = written_faults(words, files, made.get(known, b""), rips, stuck_in(got[1]) if got[0] else None)
    results.note(f"{title}: the layout", not faults, f"{faults} of {words} in {made.get(known, b'')[:3000]!r} for {files['r.vst'][:3000]!r}")
    return got[0], rips


def rip_words(choose, metals=None, rips=None):
    words = ["rip", "r.vst", "-p", "p.ap", "-l", "lib", "-o", "r"]
    metals = metals or choose.choice([None, 4, 5, 6])
    rips = choose.choice([None, 0, 1, 20, 10000]) if rips is None else rips
    return [*words, *(["--metals", str(metals)] if metals else []), *(["--rips", str(rips)] if rips is not None else [])]


def check_netlists(results, program, seed, numbers):
    """Placed and routed, and with lines of the placement changed."""
    for number in numbers:
        choose = random.Random(f"{seed} rip {number}")
        files = library_with_drives(choose)
        files["r.vst"] = NetMaker(choose, usable(library(files, "lib"))).text().encode()
        with Room() as room:
            room.write(files)
            text = run_placed(results, room, program, "a netlist to route with rips", files, placing_words(choose))
            if text is None:
                continue
            run_routed(results, room, program, "a placement that is routed with rips", {**files, "p.ap": text}, rip_words(choose))
            for _ in range(CHANGES):
                other = nero.changed_lines(choose, text)
                run_routed(results, room, program, "a placement with a line changed, for rip", {**files, "p.ap": other}, rip_words(choose))


def placed_dense(results, room, program, choose, gates):
    """The files of a dense netlist that is placed without moves, or None."""
    files = {**of_cells([*flow.FIVE, "xr2_x1"]), "s.vbe": dense_source(choose, gates, 8).encode()}
    room.write(files)
    for words in (["boog", "s.vbe", "-l", "lib", "-o", "r"], ["ocp", "r.vst", "-l", "lib", "-o", "p", "--moves", "0"]):
        got = room.run(program, words)
        results.note(f"{words[0]} for rips", got[0] == 0, shown(*got))
        if got[0]:
            return None
    return {name: text for name, text in room.held().items() if name in ("r.vst", "p.ap") or name.startswith("lib/")}


def check_dense(results, program, seed, number):
    """A dense netlist with no rip, few and many, on as many metals; with no rip it is stuck only as `nero` may be, and prints `rips 0`."""
    choose = random.Random(f"{seed} rip dense {number}")
    with Room() as room:
        files = placed_dense(results, room, program, choose, choose.choice([30, 45, 60]))
        if files is None:
            return
        for rips in (0, choose.choice([1, 3, 10]), 200):
            words = rip_words(choose, (4, 5, 6)[number % 3], rips)
            run_routed(results, room, program, f"a dense netlist with {rips} rips", files, words)
        is_stuck = (room.folder / "r_part.ap").exists()
        words = rip_words(choose, (4, 5, 6)[number % 3], 200)
    if is_stuck:
        blocked = {**files, "r_part.ap": None}
        compare(results, "a folder as r_part.ap of rip", run_in(blocked, program, words), 7, b"rip: file: write fault r_part.ap\n", blocked)


def check_stuck(results, program):
    """Forty inverters that too few wires can pass: stuck with however many rips, which are then all spent."""
    files = {**of_cells(flow.FIVE), "wide40.vbe": (EXAMPLES / "stuck/wide40.vbe").read_bytes()}
    with Room() as room:
        room.write(files)
        for words in (["boog", "wide40.vbe", "-l", "lib", "-o", "r"], ["ocp", "r.vst", "-l", "lib", "-o", "p", "--rows", "1"]):
            got = room.run(program, words)
            results.note(f"{words[0]} for forty inverters", got[0] == 0, shown(*got))
        files = {name: text for name, text in room.held().items() if name != "wide40.vbe"}
        for rips in (0, 5, 300):
            got = run_routed(results, room, program, f"forty inverters with {rips} rips", files, rip_words(random.Random(1), 4, rips))
            results.note(f"forty inverters get stuck with {rips} rips", got[0] == 6, got)


def check_chain(results, program):
    """The counter over all cells: mapped, driven, placed, and routed without a rip."""
    names = [line.split()[0] for line in (CELLS / "CATAL").read_text().splitlines()]
    files = {**of_cells(names), "cnt4.vbe": next(EXAMPLES.glob("*/cnt4.vbe")).read_bytes()}
    chain = (
        ["boog", "cnt4.vbe", "-l", "lib", "-o", "cnt4"], ["loon", "cnt4.vst", "-l", "lib", "-o", "r"], ["ocp", "r.vst", "-l", "lib", "-o", "p"],
    )
    with Room() as room:
        room.write(files)
        for words in chain:
            got = room.run(program, words)
            results.note(f"the counter by {words[0]}, for rip", got[0] == 0, shown(*got))
        files = room.held()
        for rips in (0, None):
            got = run_routed(results, room, program, "the counter by rip", files, rip_words(random.Random(1), 6, rips))
            results.note("the counter needs no rip", got == (0, 0), got)


def check_words(results, program):
    files = {**of_cells(["inv_x1"]), "r.vst": b"", "p.ap": b""}
    got = run_in(files, program, [b"rip", b"\xff.vst", "-p", "p.ap", "-l", "lib", "-o", "r"])
    compare(results, "a word of rip that is no text", got, 1, TOOLS_LINE.encode(), files)


# ---- the second view itself


WRONG = {
    "any net torn out": RipHabits(tears_any=True), "the turn given to another net": RipHabits(turns_away=True),
    "rips that are left": RipHabits(rips_less=1), "a net torn out that isn't stuck": RipHabits(rips_early=0.1),
    "longer ways beside rips": RipHabits(longer=0.1),
}


def text_of(block, router):
    return maze.drawn(block, router.trees, router.begun if router.stuck else None).encode()


def layout_faults(block, metals, router, rips, text):
    cells = second_router.library()[0]
    figure = ap.read(text)
    if router.stuck:
        return torn.part_faults(text, figure, block.n, cells, metals, router.stuck, rips)
    return torn.whole_faults(text, figure, block.n, cells, metals, router.ripped)


def rips_of(block, moves):
    """The rips among moves, with the numbers of points, and how they end."""
    of_name = [{maze.named(terminal): at for at, (terminal, _) in enumerate(net.points)} for net in block.nets]
    rips = [(net, of_name[net][terminal], torn) for deed, net, terminal, torn in (move for move in moves if move[0] == "rip")]
    end = moves[-1]
    return rips, end if end == ("done",) else ("stuck", end[1], of_name[end[1]][end[2]])


def check_rips_alone(results, block, moves, most):
    """The rips alone, right ones, and with one left out or with its nets exchanged, which are mostly wrong."""
    order = [net.number for net in block.in_order() if len(net.points) > 1]
    points = [len(net.points) for net in block.nets]
    rips, end = rips_of(block, moves)
    faults = torn.list_faults(order, points, most, rips, end)
    results.note("right rips", not faults, f"{faults} of {moves}")
    for at, (net, point, other) in enumerate(rips):
        changed = [*rips[:at], (other, 1, net), *rips[at + 1 :]]
        results.note("rips with nets exchanged", torn.list_faults(order, points, most, changed, end), (changed, end))


def check_second_view(results, seed, number):
    """Right moves and layouts, and moves with one habit that is wrong."""
    choose = random.Random(f"{seed} second view of rips {number}")
    cells, models = second_router.library()
    block, metals = made_block(choose, models, cells, choose.choice([8, 12, 16]), choose.choice([1, 1, 2]), 99), choose.choice([3, 3, 4])
    rips = choose.choice([0, 1, 3, 10])
    router = RipRouter(choose, block, metals, rips)
    faults = torn.move_faults(block, metals, rips, router.moves)
    results.note("right moves", not faults, f"{faults} of {router.moves}")
    check_rips_alone(results, block, router.moves, rips)
    faults = layout_faults(block, metals, router, rips, text_of(block, router))
    results.note("a right layout after rips", not faults, f"{faults} of {router.moves}")
    for title, habits in WRONG.items():
        other = RipRouter(choose, block, metals, max(rips, 1), habits)
        if other.wrongs:
            results.note(f"moves with {title}", torn.move_faults(block, metals, max(rips, 1), other.moves), other.moves)
    if router.stuck and any(move[0] == "rip" for move in router.moves):
        done = [*router.moves[:-1], ("done",)]
        results.note("a torn net handed out as whole", torn.move_faults(block, metals, rips, done), done)


def jobs(program, seed, times):
    yield check_chain, (program,)
    yield check_stuck, (program,)
    yield check_words, (program,)
    for number in range(DENSE * times):
        yield check_dense, (program, seed, number)
    for number in range(MOVES * times):
        yield check_second_view, (seed, number)
    numbers = range(NETLISTS * times)
    for at in range(0, len(numbers), CHUNK):
        yield check_netlists, (program, seed, numbers[at : at + CHUNK])
