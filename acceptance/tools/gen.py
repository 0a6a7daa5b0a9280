"""What the second readers say of `gen`, and what no case of it has: a second maker of the circuits, written from docs/formats/commands.md
and from what its authors say of PCG32, and the texts that are written for many seeds and sizes, read again by the second reader: each
is exactly that circuit, in its one spelling. For these no library is there, so that nothing is laid out; some more are laid out, with
few sinks of a net, and read again as the layouts of `flow` are.
"""

import random
import re
from typing import NamedTuple

from acceptance.makers.random_wide import with_drives
from acceptance.meaning import state_text
from acceptance.readers.words import is_option, option_of
from acceptance.running.results import Room, compare, run_in, shown
from acceptance.tools import flow
from acceptance.tools.boog import of_cells
from acceptance.tools.flow import agrees
from share.formats import vbe_oracle
from share.formats.models import IN, OUT
from share.formats.vbe_oracle import Machine
from share.formats.vhdl_reader import Refused

OPTIONS = "[--rows 1..256] [--metals 4..6] [--seed 0..4294967295] [--moves 0..1000000] [--nodes 1..4000000] [--fanout 4..1000000]"
USAGE = f"usage: alliance gen --size 8..4000 -l DIR -o NAME [--tracks] {OPTIONS}\n"
BOUNDS = {
    "--size": (8, 4000), "--rows": (1, 256), "--metals": (4, 6), "--seed": (0, 2**32 - 1), "--moves": (0, 10**6), "--nodes": (1, 4 * 10**6),
    "--fanout": (4, 10**6),
}
SIZES = [8, 9, 15, 16, 17, 100, 999, 1000, 1001]
CIRCUITS, CHUNK, LARGE, LAYOUTS = 200, 25, [(0, 4000), (2**32 - 1, 4000)], 12


# ---- the words of PCG32


M32, M64 = 2**32 - 1, 2**64 - 1
MULTIPLIER, SPREAD = 6364136223846793005, 11634580027462260723


def permuted(state):
    """The word of a state: high bits are folded down, and the highest five say by how much it is turned."""
    word, turn = ((state >> 18 ^ state) >> 27) & M32, state >> 59
    return (word >> turn | word << (-turn & 31)) & M32


def spread(seed):
    """Two numbers of 64 bits from one, as PCG32 makes four words of it."""
    words = []
    for _ in range(4):
        seed = (seed * MULTIPLIER + SPREAD) & M64
        words.append(permuted(seed))
    return words[0] | words[1] << 32, words[2] | words[3] << 32


def words_of(seed, many):
    start, stream = spread(seed)
    step = stream | 1
    state = ((start + step) * MULTIPLIER + step) & M64
    for _ in range(many):
        yield permuted(state)
        state = (state * MULTIPLIER + step) & M64


# ---- the circuit


def bit(name, k=-1):
    return "bit", (name, k)


def operand(j, number):
    if number < 8:
        return bit("xr"[number // 4], number % 4)
    return bit(f"g{j - 1 - (number - 8)}")


def circuit(seed, size):
    """The circuit, whose gate j is called gj, in the text that is written too."""
    equations = []
    for j, word in enumerate(words_of(seed, size)):
        most = 8 + min(j, 8)
        operands = [operand(j, (word >> 8) % most), operand(j, (word >> 20) % most)]
        equations.append(((f"g{j}", -1), ("join", ("nand", "nor", "xor", "and")[word % 4], operands)))
    equations += [(("y", t), bit(f"g{size - 1 - t}")) for t in range(4)]
    registers = {("r", t): (bit(f"g{size - 5 - t}"), 1) for t in range(4)}
    ports = {("ck", -1): IN, **{("x", t): IN for t in range(4)}, **{("y", t): OUT for t in range(4)}}
    return Machine("gen", ports, "ck", equations, registers)


# ---- the second answer


class Gen(NamedTuple):
    seed: int
    size: int
    folder: str
    out: str
    has_tracks: bool
    numbers: list


def parsed(words):
    """The command, or None. Every option stands at most once, with its value."""
    given, rest = {}, list(words[1:])
    while rest:
        option, value = option_of(rest.pop(0))
        if option in given or (option != "--tracks" and option not in ("-l", "-o", *BOUNDS)):
            return None
        if option == "--tracks":
            value = "" if value is None else None
        elif value is None and rest and not is_option(rest[0]):
            value = rest.pop(0)
        if value is None:
            return None
        given[option] = value
    if any(word not in given for word in ("--size", "-l", "-o")):
        return None
    for word, (least, most) in BOUNDS.items():
        text = given.get(word, str(least))
        if not re.fullmatch("[0-9]{1,10}", text) or not least <= int(text) <= most:
            return None
    numbers = [f"{word}={given[word]}" for word in flow.DEFAULTS if word in given]
    return Gen(int(given.get("--seed", 0)), int(given["--size"]), given["-l"], given["-o"], "--tracks" in given, numbers)


def made(found):
    """NAME.vbe with its text."""
    return {f"{found.out}.vbe": state_text.text(circuit(found.seed, found.size)).encode()}


def as_flow(found):
    tracks = ["--tracks"] if found.has_tracks else []
    return ["flow", f"{found.out}.vbe", "-l", found.folder, "-o", found.out, *tracks, *found.numbers]


def second(words, files):
    """What the second readers say of a command over files: as `flow` on the source that was written."""
    found = parsed(words)
    if found is None:
        return 1, USAGE
    status, told = flow.second(as_flow(found), {**files, **made(found)})
    return (status, told) if status == 0 else (status, told.replace("flow: ", "gen: ", 1))


def writes(words, files):
    """The layout that a command writes, with the check of its text."""
    found = parsed(words)
    return f"{found.out}.ap", lambda text: flow.written_faults(as_flow(found), {**files, **made(found)}, text)


def tells(words, files, text, printed):
    """Whether what is printed is the report on the layout that a command wrote."""
    found = parsed(words)
    return flow.tells(as_flow(found), {**files, **made(found)}, text, printed)


def leaves(words, files, printed):
    """The file that a command leaves where a net is stuck, with the check of its text."""
    found = parsed(words)
    return flow.leaves(as_flow(found), {**files, **made(found)}, printed)


# ---- the text that is written


def source_faults(seed, size, text):
    """What is wrong with the text of a circuit."""
    wanted = circuit(seed, size)
    try:
        m = vbe_oracle.machine(text)
    except Refused as refused:
        return [f"it is refused: {refused}"]
    faults = [] if (m.name, m.ports, m.clock, m.registers) == (wanted.name, wanted.ports, wanted.clock, wanted.registers) else ["its frame"]
    found = dict(m.equations)
    faults += [f"the equation of {name}" for name, formula in wanted.equations if found.pop(name, None) != formula][:3]
    faults += [f"{len(found)} more equations"] if found else []
    return faults if faults or state_text.text(wanted).encode() == text else ["its spelling"]


def check_source(results, program, seed, size):
    words = ["gen", "--seed", str(seed), "--size", str(size), "-l", "nowhere", "-o", "g", "--tracks"]
    with Room() as room:
        got = room.run(program, words)
        held = room.held()
    title = f"a circuit of {size} gates from {seed}"
    results.note(title, got == (7, b"gen: file: missing nowhere/CATAL\n"), shown(*got))
    faults = source_faults(seed, size, held.pop("g.vbe", b""))
    results.note(f"{title}: the text", not faults and not held, f"{faults}, and other files {sorted(held)}")


def check_circuits(results, program, seed, numbers):
    for number in numbers:
        choose = random.Random(f"{seed} gen {number}")
        size = choose.choice(SIZES) if choose.random() < 0.2 else choose.randrange(8, 200)
        check_source(results, program, choose.choice([0, 1, number, choose.randrange(2**32)]), size)


def check_layouts(results, program, seed, numbers, routing=("--tracks",)):
    """Circuits that are laid out; the layout and the report are those of the source that was written."""
    for number in numbers:
        choose = random.Random(f"{seed} gen layout {number}")
        size, fanout = choose.choice([8, 20, 60, 150]), choose.choice([4, 4, 5, 8, 33])
        more = choose.sample(["buf_x2", "inv_x2", "inv_x4", "inv_x8", "sff1_x8"], choose.randrange(5))
        files = with_drives(choose, [*flow.FIVE, *more]) if number % 2 else of_cells([*flow.FIVE, *more])
        words = ["gen", "--seed", str(choose.randrange(2**32)), "--size", str(size), "-l", "lib", "-o", "r", *routing, "--fanout", str(fanout)]
        check_layout(results, program, f"a layout of {size} gates", files, words)


def check_layout(results, program, title, files, words):
    """A circuit that is laid out as r.ap; where a net is stuck its source stays beside the partial layout, or alone where a folder stands in
    the place of that."""
    with Room() as room:
        room.write(files)
        got, wanted = room.run(program, words), second(words, files)
        held = room.held()
    found = parsed(words)
    sources = {**files, **made(found)}
    results.note(title, agrees(got, wanted), f"{words} came to {shown(*got)}, wanted {wanted}")
    if got[0] == 0 and wanted[0] == 0:
        flow.check_laid_out(results, title, as_flow(found), sources, held.get("r.ap", b""), got[1])
    if got[0] == 6 and flow.stuck_in(got[1]):
        flow.check_part(results, title, as_flow(found), sources, held.pop("r_part.ap", b""), got[1])
        results.note(f"{title}: the files", held == sources, f"{sorted(held)}")
        blocked, line = {**files, "r_part.ap": None}, b"gen: file: write fault r_part.ap\n"
        compare(results, f"{title} with a folder as r_part.ap", run_in(blocked, program, words), 7, line, {**sources, "r_part.ap": None})


def check_words(results, program):
    words = ["gen", "--size", "8", "-l", "lib", "-o", "nowhere/g", "--tracks"]
    compare(results, "a source in a folder that isn't there", run_in({}, program, words), 7, b"gen: file: write fault nowhere/g.vbe\n", {})
    for size in ("7", "4001", "", "08000", "8.0", "eight"):
        got = run_in({}, program, ["gen", "--size", size, "-l", "lib", "-o", "g", "--tracks"])
        compare(results, f"a size of {size!r}", got, 1, USAGE.encode(), {})


def jobs(program, seed, times):
    for given in LARGE:
        yield check_source, (program, *given)
    for number in range(LAYOUTS * times):
        yield check_layouts, (program, seed, [number])
    numbers = range(CIRCUITS * times)
    for at in range(0, len(numbers), CHUNK):
        yield check_circuits, (program, seed, numbers[at : at + CHUNK])
    yield check_words, (program,)
