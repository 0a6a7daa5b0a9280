"""Layouts that `flow` and `gen` route over rows, as a second router sees them: random sources and libraries, examples, sources that get
stuck; with a line changed, by the four tools that check what came from elsewhere. The cases with tracks are run over a row too.
"""

import random
import re

from acceptance.makers.dense_sources import dense_source
from acceptance.makers.random_sources import Maker
from acceptance.makers.random_states import StateMaker
from acceptance.makers.random_wide import WideMaker
from acceptance.makers.tight_cells import tight_cells
from acceptance.running.case_file import Case, by_path
from acceptance.running.places import EXAMPLES, ROWS
from acceptance.running.results import Room, compare, run_in, shown
from acceptance.tools import checked_layouts, flow, flow_limits, gen
from acceptance.tools.boog import of_cells

ROUTING = ["--rows", "1"]
MACHINES, STATE_MACHINES, WIDE, DENSE, CIRCUITS, CHECKED, TIGHT = 60, 10, 8, 12, 10, 3, 40
# of circuits of this size in nands and inverters, on four metals and placed without moves, some get stuck
STUCK_SIZE, FEW_METALS = 300, [*ROUTING, "--metals", "4", "--moves", "0"]

LIBRARY = 3  # the status of a refused cell


def routed(words, metals=None, placed=ROUTING):
    """Words of flow over rows, if nothing else is said over one."""
    return [*(word for word in words if word != "--tracks"), *placed, *(["--metals", str(metals)] if metals else [])]


def any_rows(choose):
    """Words for so many rows, or for those of a square block, and for so many moves."""
    rows = choose.choice([[], ROUTING, ["--rows", str(choose.randrange(2, 9))]])
    return [*rows, *choose.choice([[], ["--moves", "0"], ["--moves", str(choose.randrange(3000))]])]


def small_enough(choose):
    """A random source, mostly one whose layout has not too many wires for the second router."""
    return checked_layouts.small_source(choose) if choose.random() < 0.7 else Maker(choose).source().encode()


def check_machines(results, program, seed, number):
    choose = random.Random(f"{seed} maze {number}")
    files = {**flow.random_files(choose), "s.vbe": small_enough(choose)}
    with Room() as room:
        words = routed(flow.words_within(choose.choice([None, 4, 4, 5])), choose.choice([4, 5, 6, None]), any_rows(choose))
        flow.run_laid_out(results, room, program, "a random source over rows", files, words)


def check_states(results, program, seed, number):
    choose = random.Random(f"{seed} maze states {number}")
    files = {**flow.random_files(choose), "s.fsm": StateMaker(choose).source().encode()}
    with Room() as room:
        words = routed(flow.words_by(choose), choose.choice([4, 6]), any_rows(choose))
        flow.run_laid_out(results, room, program, "a random state machine over rows", files, words)


def check_tight(results, program, seed, number):
    """Cells whose pins stand close together, also above each other, so that wires have to go around them and some nets get stuck."""
    choose = random.Random(f"{seed} maze tight {number}")
    more = choose.sample(["xr2_x1", "buf_x2", "na3_x1", "inv_x2"], choose.randrange(3))
    files = {**tight_cells(choose, [*flow.FIVE, *more]), "s.vbe": small_enough(choose)}
    with Room() as room:
        words = routed(flow.words_within(choose.choice([None, 4])), choose.choice([4, 4, 5, None]), any_rows(choose))
        flow.run_laid_out(results, room, program, "a random source over tight cells", files, words)


def check_wide(results, program, seed, number):
    """Nets that 5 and 40 pins read."""
    choose = random.Random(f"{seed} maze wide {number}")
    readers, fanout = (5, 40)[number % 2], (4, 8, 33)[number // 2 % 3]
    files = {**of_cells([*flow.FIVE, "buf_x2"]), "s.vbe": WideMaker(choose, readers).source().encode()}
    words = routed(flow.words_within(fanout), placed=any_rows(choose))
    with Room() as room:
        flow.run_laid_out(results, room, program, f"{readers} readers with {fanout} over rows", files, words)


def check_dense(results, program, seed, number):
    """Sources that mostly get stuck; of those that do, the file that is left can't be written where a folder stands in its place."""
    choose = random.Random(f"{seed} maze dense {number}")
    files = {**of_cells([*flow.FIVE, "xr2_x1"]), "s.vbe": dense_source(choose, choose.choice([40, 60, 90])).encode()}
    words = routed(flow.words_within(None), 4 if number % 3 else 5)
    with Room() as room:
        flow.run_laid_out(results, room, program, "a dense source over a row", files, words)
        is_stuck = (room.folder / "r_part.ap").exists()
    if is_stuck:
        blocked = {**files, "r_part.ap": None}
        compare(results, "a folder as r_part.ap", run_in(blocked, program, words), 7, b"flow: file: write fault r_part.ap\n", blocked)
        full = {**files, "r_part.ap": b"of before", "r.ap": b"of before"}
        after = run_in(full, program, words)[2]
        changed = after.pop("r_part.ap") != b"of before" and after == {name: text for name, text in full.items() if name != "r_part.ap"}
        results.note("r_part.ap over one that is there, beside r.ap", changed, sorted(after))


def circuit_words(number):
    return ["gen", "--seed", str(number), "--size", str(STUCK_SIZE), "-l", "lib", "-o", "r", *FEW_METALS]


def check_circuit(results, program, seed, number):
    """A circuit on four metals."""
    gen.check_layout(results, program, "a circuit on four metals", of_cells(flow.FIVE), circuit_words(seed + number))


def check_any_stuck(results, program, seed):
    """Of the dense sources, and of circuits, some get stuck, so that what is said of these isn't empty."""
    files = of_cells([*flow.FIVE, "xr2_x1"])
    sources = (dense_source(random.Random(f"{seed} stuck {k}"), 120).encode() for k in range(3))
    got = [run_in({**files, "s.vbe": source}, program, routed(flow.WORDS, 4))[0] for source in sources]
    results.note("dense sources get stuck", 6 in got, got)
    got = [run_in(of_cells(flow.FIVE), program, circuit_words(seed + k))[0] for k in range(12)]
    results.note("circuits get stuck", 6 in got, got)


def check_annealed(results, program):
    """Cells that go from row to row make the nets of a block of some size much shorter than exchanges of neighbours alone."""
    files = {**of_cells(flow.FIVE), "s.vbe": (EXAMPLES / "lock/lock.vbe").read_bytes()}
    got = [run_in(files, program, routed(flow.WORDS, placed=placed)) for placed in ([], ["--moves", "0"])]
    lengths = [int(found[1]) for _, printed, _ in got for found in [re.search(rb"^length ([0-9]+)$", bytes(printed), re.M)] if found]
    results.note("a placement annealed across rows", len(lengths) == 2 and 5 * lengths[0] < 4 * lengths[1], (lengths, [one[0] for one in got]))


def check_words(results, program):
    """Which words choose a row, and files that can't be written."""
    case = Case(flow.ROW)
    row, base = ["flow", "row1.vbe", "-l", "lib", "-o", "out"], case.before
    for more in (["--rows", "0"], ["--rows", "257"], ["--moves", "1000001"], ["--metals", "3"], [*ROUTING, "--metals", "7"]):
        compare(results, f"flow with {more}", run_in(base, program, [*row, *more]), 1, flow.USAGE.encode(), base)
    texts = set()
    ways = ([], ["--rows", "1"], ["--rows=1"], ["--rows", "0000000001", "--moves", "7"], ["--metals", "4", "--rows", "1", "--seed", "9"])
    for more in ways:
        status, _, files = run_in(base, program, [*row, *more])
        texts.add((status, files.get("out.ap")))
    results.note("one inverter over a row", len(texts) == 1 and next(iter(texts))[0] == 0, texts)
    got, line = run_in(base, program, [*row[:-1], "nowhere/out", *ROUTING]), b"flow: file: write fault nowhere/out.ap\n"
    compare(results, "a folder that isn't there, over a row", got, 7, line, base)


# with tracks its library is refused
FOR_TRACKS = ROWS / "flow-libraries/pins-above-each-other.txt"


def check_case(results, program, path):
    """A case with tracks, over a row: a refusal is the same, and so is the report on a layout, but for its length. The tenth cause of a cell
    is asked for with tracks alone."""
    case = Case(path)
    for words in case.words:
        if words[0] != "flow" or "--tracks" not in words or any(word.startswith("--rows") for word in words):
            continue
        if case.status == LIBRARY and case.printed.endswith(b" 10\n"):
            continue
        at = words.index("--tracks")
        words = [*words[:at], *ROUTING, *words[at + 1 :]]
        title, got = f"{case.title} over a row ({' '.join(words)[:80]})", run_in(case.before, program, words)
        if case.status:
            compare(results, title, got, case.status, case.printed, by_path(case.before))
        else:
            check_layout(results, title, case, words, got)


def without_length(printed):
    return [line for line in printed.split(b"\n") if not line.startswith(b"length ")]


def is_told(printed, case):
    """Whether a report is that of the case, but for its length; where this leaves the rest open, so far as it goes."""
    if case.printed.endswith(b"\n"):
        return without_length(printed) == without_length(case.printed)
    return case.is_begun_by(printed)


def check_layout(results, title, case, words, got):
    status, printed, files = got
    stuck = flow.stuck_in(printed) if status == 6 else None
    results.note(title, stuck or (status == 0 and is_told(printed, case)), shown(status, printed))
    name, faults_of = flow.leaves(words, case.before, printed) if stuck else flow.writes(words, case.before)
    text = files.pop(name, b"")
    before = {other: was for other, was in by_path(case.before).items() if other != name}
    results.note(f"{title}: the files", files == before, sorted(files))
    faults = faults_of(text)
    results.note(f"{title}: the layout", not faults, f"{faults} in {text[:3000]!r}")


def check_one_column(results, program):
    """A cell whose pins are reached in one column fails the tenth cause with tracks, and is well over a row."""
    files = of_cells(flow.FIVE)
    figure = files["lib/na2_x1.ap"].decode()
    narrow = re.sub(r"S 500,1000,500,\d+,", "S 500,1000,500,1500,", figure)
    narrow = re.sub(r"S 1000,1000,1000,(\d+),", "S 500,2500,500,4000,", narrow)
    files = {**files, "lib/na2_x1.ap": narrow.encode(), "s.vbe": (EXAMPLES / "adder/add4.vbe").read_bytes()}
    with Room() as room:
        flow.run_laid_out(results, room, program, "pins in one column, with tracks", files)
    with Room() as room:
        flow.run_laid_out(results, room, program, "pins in one column, over a row", files, routed(flow.WORDS))


def check_ports(results, program, bits):
    """At the limit of port bits, all of which but two lead nowhere."""
    with Room() as room:
        files = {**of_cells(flow.FIVE), "s.vbe": flow.of_ports(bits)}
        flow.run_laid_out(results, room, program, f"{bits} port bits over a row", files, routed(flow.WORDS))


def check_sources(results, program):
    """Sources of every sort, among them one without ports and one without cells, over one row, as many as make a square, and the most."""
    for title, text in flow_limits.SOURCES.items():
        for placed in (ROUTING, [], ["--rows", "256"]):
            with Room() as room:
                files = {**of_cells(flow.FIVE), "s.vbe": text}
                flow.run_laid_out(results, room, program, f"{title}, {placed}", files, routed(flow.WORDS, placed=placed))


def check_example(results, program, path):
    with Room() as room:
        files = {**of_cells(flow.FIVE), f"s{path.suffix}": path.read_bytes()}
        for metals, placed in ((6, ROUTING), (4, ROUTING), (6, []), (5, ["--rows", "7", "--seed", "7", "--moves", "50000"])):
            words = routed(["flow", f"s{path.suffix}", *flow.WORDS[2:]], metals, placed)
            flow.run_laid_out(results, room, program, f"the example {path.name} over rows", files, words)
            room.folder.joinpath("r.ap").unlink(missing_ok=True)
            room.folder.joinpath("r_part.ap").unlink(missing_ok=True)


def check_checked(results, program, seed, number):
    """Layouts over rows, checked by the four tools as they are and with a line changed."""
    choose = random.Random(f"{seed} checked maze {number}")
    words = routed(flow.WORDS, placed=any_rows(choose))
    checked_layouts.run_layout(results, program, "a layout over rows", checked_layouts.small_source(choose), choose, words)


def jobs(program, seed, times):
    for path in sorted([*EXAMPLES.glob("*/*.vbe"), *EXAMPLES.glob("*/*.fsm")]):
        yield check_example, (program, path)
    counts = {
        check_checked: CHECKED, check_dense: DENSE, check_wide: WIDE, check_machines: MACHINES, check_states: STATE_MACHINES,
        check_circuit: CIRCUITS, check_tight: TIGHT,
    }
    for check, count in counts.items():
        for number in range(count * times):
            yield check, (program, seed, number)
    for number in range(CIRCUITS * times):
        yield gen.check_layouts, (program, seed, [1000 + number], (ROUTING, [])[number % 2])
    yield check_any_stuck, (program, seed)
    yield check_annealed, (program,)
    for path in sorted(ROWS.glob("flow-*/*.txt")):
        if path != FOR_TRACKS:
            yield check_case, (program, path)
    yield check_one_column, (program,)
    yield check_sources, (program,)
    yield check_ports, (program, 4096)
    yield check_words, (program,)
