"""What the second readers say of `area`, and what no case of it has: random machines over random libraries, circuits of gates and the
examples. The numbers are those of a second program, which takes least areas from the leaves up, over all cuts, also of deep trees with very
many; of small trees it also tries every cover, with each set of nodes for a cut, and no cover has less.
"""

import random
import subprocess
import sys

from acceptance.makers.random_sources import WORDS as SOURCE_WORDS
from acceptance.makers.random_sources import Maker, changed
from acceptance.meaning.mapping import MOST_SIZE, Graph, machine_size
from acceptance.meaning.trees import Covers, EveryCover, widths_of
from acceptance.readers.words import TOOLS_LINE, command, held, trouble
from acceptance.running.places import BENCH, EXAMPLES
from acceptance.running.results import Room, compare, run_in, shown
from acceptance.tools.answers import agrees, refusal
from acceptance.tools.boog import ALL, FIVE, MORE, of_cells, random_files
from acceptance.tools.ocp import cells_of
from share.formats.models import Refusal, library
from share.formats.pat_oracle import machine_of
from share.formats.vbe_oracle import FILE, Ring
from share.formats.vhdl_reader import Refused

USAGE = "usage: alliance area SOURCE.vbe -l DIR\n"
WORDS = ["area", "s.vbe", "-l", "lib"]
KINDS = ("inv", "nand2")
MACHINES, TREES, DEEP, CHUNK, MOST_NODES, MOST_DEEP = 200, 200, 100, 25, 11, 36


# ---- the second answer


def parsed(words):
    """SOURCE and DIR, or None."""
    found = command(words, ".vbe", {"-l": ""})
    return (found[0], found[1]["-l"]) if found and len(found[1]) == 1 else None


def of_machine(m, models, cells):
    """The status and what is printed of a machine over a library."""
    size, had = machine_size(m), {model.kind for model in models.values()}
    if size > MOST_SIZE:
        return 9, f"area: limit: size {size}\n"
    kind = next((kind for kind in KINDS if kind not in had), None)
    if kind:
        return 4, f"area: no cover: {kind}\n"
    covers = Covers(Graph(m), widths_of(models, cells))
    return 0, f"trees {len(covers.trees.roots)}\narea {covers.area()}\n"


def second(words, files):
    """What the second readers say of a command over files: (status, text), or (2, Ring) where any of some rings may be named."""
    found = parsed(words)
    if found is None:
        return 1, USAGE
    source, folder = found
    refused = trouble(files, source, FILE)
    if refused:
        return refused[0], f"area: {refused[1]}\n"
    try:
        models = library(files, folder)
        m = machine_of(held(files, source))
    except Refusal as refused:
        return refused.status, f"area: {refused.line}\n"
    except Ring as ring:
        return 2, ring
    except Refused as refused:
        return refusal("area", source, str(refused))
    return of_machine(m, models, cells_of(files, folder))


# ---- what is run


def run_measured(results, room, program, title, files):
    """Runs area on s.vbe; whether it succeeds."""
    wanted = second(WORDS, files)
    room.write(files)
    got = room.run(program, WORDS)
    results.note(title, agrees(got, wanted), f"came to {shown(*got)}, wanted {wanted} for {files['s.vbe'][:2000]!r}")
    results.note(f"{title}: the files", room.held() == files, "a file changed")
    return got[0] == 0


def check_machines(results, program, seed, numbers):
    for number in numbers:
        choose = random.Random(f"{seed} area {number}")
        source = Maker(choose).source()
        source = changed(choose, source, SOURCE_WORDS) if choose.random() < 0.2 else source
        with Room() as room:
            run_measured(results, room, program, "a random source over a random library", {**random_files(choose), "s.vbe": source.encode()})


# ---- small trees, of which every cover is tried


def operand(choose, names, depth):
    """A formula over names, which are read once each as long as there are some, so that trees are larger than one gate."""
    if depth == 0 or choose.random() < 0.2:
        name = choose.choice(names)
        if choose.random() < 0.7 and len(names) > 1:
            names.remove(name)
        return f"not {name}" if choose.random() < 0.25 else name
    sides = [operand(choose, names, depth - 1) for _ in range(2)]
    word = choose.choice(["and", "or", "nand", "nor", "nand", "nand", "xor"])
    return f"({'not ' if choose.random() < 0.15 else ''}({sides[0]} {word} {sides[1]}))"


def small_source(choose):
    """Some outputs and a signal, with few operators each."""
    names, lines = [f"a({k})" for k in range(8)], []
    outputs = choose.randrange(1, 4)
    if choose.random() < 0.5:
        lines.append(f"s <= {operand(choose, list(names), choose.randrange(1, 3))};")
        names.append("s")
    lines += [f"y({k}) <= {operand(choose, list(names), choose.randrange(1, 4))};" for k in range(outputs)]
    ports = f"a : in bit_vector (7 downto 0); y : out bit_vector ({outputs - 1} downto 0); vdd, vss : in bit"
    declared = "signal s : bit;\n" if lines[0].startswith("s ") else ""
    return f"entity small is port ({ports}); end small;\narchitecture vbe of small is\n{declared}begin\n" + "\n".join(lines) + "\nend vbe;\n"


def check_small_trees(results, program, seed, numbers):
    """The least area of each tree among all its covers, by both second programs and by the program."""
    for number in numbers:
        choose = random.Random(f"{seed} tree {number}")
        names = [*FIVE[:2], *choose.sample(MORE, choose.choice([0, 2, 5, len(MORE)]))]
        files = {**of_cells(names), "s.vbe": small_source(choose).encode()}
        models = library(files, "lib")
        graph, widths = Graph(machine_of(files["s.vbe"])), widths_of(models, cells_of(files, "lib"))
        every = EveryCover(graph, widths)
        if not every.is_small(MOST_NODES):
            continue
        of_each = [(Covers(graph, widths).least[root], min(every.areas(root))) for root in every.trees.roots]
        is_one = all(one == other for one, other in of_each)
        results.note("the two second programs on small trees", is_one, f"{of_each} for {files['s.vbe']!r}")
        if program:
            with Room() as room:
                run_measured(results, room, program, "small trees", files)


# ---- deep trees, in which few names are read again and again, so that cuts are many and alike


def deep_formula(choose, names, most):
    """A chain of operators over few names, one of whose sides is a short formula."""
    formula = choose.choice(names)
    for _ in range(choose.randrange(2, most)):
        side = operand(choose, list(names), choose.choice([0, 0, 0, 1, 2]))
        word = choose.choice(["and", "or", "nand", "nor", "and"])
        formula = f"({'not ' if choose.random() < 0.15 else ''}({formula} {word} {side}))"
    return formula


def deep_source(choose):
    """One output, of one to four chains together."""
    names = [f"a({k})" for k in range(choose.randrange(2, 7))]
    chains = choose.randrange(1, 5)
    formula = deep_formula(choose, names, MOST_DEEP // chains)
    for _ in range(chains - 1):
        formula = f"({formula} {choose.choice(['and', 'nand', 'or'])} {deep_formula(choose, names, MOST_DEEP // chains)})"
    ports = "a : in bit_vector (7 downto 0); y : out bit; vdd, vss : in bit"
    return f"entity deep is port ({ports}); end deep;\narchitecture vbe of deep is\nbegin\ny <= {formula};\nend vbe;\n"


def check_deep_trees(results, program, seed, numbers):
    """The least area over many cuts, by the second program that keeps them all."""
    for number in numbers:
        choose = random.Random(f"{seed} deep {number}")
        names = [*FIVE[:2], *choose.sample(MORE, choose.choice([2, 5, len(MORE)]))]
        with Room() as room:
            run_measured(results, room, program, "deep trees", {**of_cells(names), "s.vbe": deep_source(choose).encode()})


# ---- circuits, examples and words


def check_circuit(results, program, seed, gates, names, kind):
    with Room() as room:
        subprocess.run([sys.executable, BENCH / "asimut_inputs.py", str(gates), "1", room.folder, str(seed), *kind], check=True)
        source = (room.folder / "c.vbe").read_bytes()
    with Room() as room:
        is_well = run_measured(results, room, program, f"{gates} gates", {**of_cells(names), "s.vbe": source})
        results.note(f"{gates} gates have an area", is_well, "it is refused")


def check_examples(results, program):
    """The sources of the examples, over the row library as it is, over five cells and over two."""
    for path in sorted(EXAMPLES.glob("*/*.vbe")):
        for names in (FIVE, FIVE[:2], ALL):
            with Room() as room:
                run_measured(results, room, program, f"the example {path.name}", {**of_cells(names), "s.vbe": path.read_bytes()})


def check_words(results, program):
    files = {**of_cells(FIVE), "s.vbe": (EXAMPLES / "inverter/row1.vbe").read_bytes()}
    got = run_in(files, program, [b"area", b"\xff.vbe", *WORDS[2:]])
    compare(results, "a word of area that is no text", got, 1, TOOLS_LINE.encode(), files)


def jobs(program, seed, times):
    yield check_circuit, (program, seed, 400, ALL, ["--nands"])
    yield check_circuit, (program, seed, 400, FIVE, [])
    yield check_circuit, (program, seed, 60, ALL, ["--blocks"])
    for many, check in ((MACHINES, check_machines), (TREES, check_small_trees), (DEEP, check_deep_trees)):
        numbers = range(many * times)
        for at in range(0, len(numbers), CHUNK):
            yield check, (program, seed, numbers[at : at + CHUNK])
    yield check_examples, (program,)
    yield check_words, (program,)
