"""What the second readers say of `boom`, and what no case of it has: random machines with budgets at the count and one below, functions
whose order of bits matters, and the sources that it writes, read again and compared with theirs by diagrams.
"""

import random
import re

from acceptance.makers.random_sources import Maker, changed
from acceptance.makers.random_sources import WORDS as SOURCE_WORDS
from acceptance.meaning.mapping import CHOICE, MOST_SIZE, formula_size, machine_size
from acceptance.readers.words import TOOLS_LINE, command, held, trouble
from acceptance.running.places import EXAMPLES
from acceptance.running.results import Room, compare, run_in, shown
from acceptance.tools.answers import agrees as same_answer
from acceptance.tools.answers import refusal
from share.formats import diagrams
from share.formats.models import OUT
from share.formats.pat_oracle import machine_of
from share.formats.vbe_oracle import FILE, Ring
from share.formats.vhdl_reader import Refused, spelled

USAGE = "usage: alliance boom SOURCE.vbe -o NAME [--nodes 1..4000000]\n"
WORDS = ["boom", "s.vbe", "-o", "r"]
MOST_NODES, NODES = 4_000_000, 200_000
MACHINES, CHUNK = 300, 25


# ---- the second answer


def parsed(words):
    """SOURCE, NAME and the budget, or None."""
    found = command(words, ".vbe", {"-o": "", "--nodes": ""})
    if not found or "-o" not in found[1]:
        return None
    nodes = found[1].get("--nodes", str(NODES))
    if not re.fullmatch("[0-9]{1,10}", nodes) or not 1 <= int(nodes) <= MOST_NODES:
        return None
    return found[0], found[1]["-o"], int(nodes)


def of_machine(m, budget):
    """The status and the line; of an accepted machine (0, its size), which the printed one isn't over."""
    size = machine_size(m)
    if size > MOST_SIZE:
        return 9, f"boom: limit: size {size}\n"
    name = diagrams.first_over(m, budget)
    return (0, size) if name is None else (5, f"boom: budget: {spelled(name)} {budget + 1}\n")


def second(words, files):
    """What the second readers say of a command over files: (status, text), or (2, Ring) where any of some rings may be named."""
    found = parsed(words)
    if found is None:
        return 1, USAGE
    source, _, budget = found
    refused = trouble(files, source, FILE)
    if refused:
        return refused[0], f"boom: {refused[1]}\n"
    try:
        m = machine_of(held(files, source))
    except Ring as ring:
        return 2, ring
    except Refused as refused:
        return refusal("boom", source, str(refused))
    return of_machine(m, budget)


def agrees(got, wanted):
    """Which machine comes out is open, and so is its size, which isn't over the given one."""
    if wanted[0] != 0:
        return same_answer(got, wanted)
    line = re.fullmatch(rb"size ([0-9]+)\n", bytes(got[1]))
    return got[0] == 0 and line is not None and int(line[1]) <= wanted[1]


# ---- the source that is written


def inner_size(m):
    """What the equations of signals weigh that are no outputs."""
    return sum(formula_size(f) for bit, f in m.equations if m.ports.get(bit) != OUT)


def is_not_larger(given, made):
    """Inner signals have names of their own in the text, so that expressions of one weight aren't compared by their names."""
    return formula_size(made) <= formula_size(given)


def said_faults(m, o):
    """What is larger than it was given, of outputs and registers."""
    of_bit = dict(m.equations)
    for bit, made in o.equations:
        if m.ports.get(bit) == OUT and not is_not_larger(of_bit[bit], made):
            yield f"the equation of {spelled(bit)}"
    for bit in sorted(m.registers):
        for word, given, made in zip(("next", "enable"), m.registers[bit], o.registers[bit]):
            if not is_not_larger(given, made):
                yield f"{word} of {spelled(bit)}"


def function_faults(m, o):
    """The outputs and registers that do something else, by diagrams of both machines."""
    for given, made in zip(diagrams.roots(m), diagrams.roots(o)):
        if not diagrams.same_function(m, given.formula, o, made.formula):
            yield f"what {spelled(given.name)} shows or loads"


def machine_faults(m, o):
    """What isn't as it has to be in an optimised machine."""
    if (o.name, o.ports, o.clock, sorted(o.registers)) != (m.name, m.ports, m.clock, sorted(m.registers)):
        yield "the name, the ports, the clock or the registers"
        return
    if machine_size(o) > machine_size(m):
        yield f"the size {machine_size(o)}, which was {machine_size(m)}"
    most = CHOICE * sum(s.dag for s in diagrams.sizes(m))
    if inner_size(o) > most:
        yield f"the inner signals weigh {inner_size(o)}, and not {most} at most"
    yield from said_faults(m, o)
    yield from function_faults(m, o)


def written_faults(words, files, text):
    """What is wrong with the text that a command wrote, or nothing."""
    try:
        o = machine_of(text)
    except (Refused, Ring) as refused:
        return [f"it is refused: {refused}"]
    return list(machine_faults(machine_of(held(files, parsed(words)[0])), o))


def writes(words, files):
    """The file that a command writes, with the check of its text."""
    return f"{parsed(words)[1]}.vbe", lambda text: written_faults(words, files, text)


# ---- what is run


def run_once(results, room, program, title, files, words):
    """Runs boom, and where it succeeds looks at what it wrote: its printed size is that of the text."""
    wanted = second(words, files)
    got = room.run(program, words)
    results.note(title, agrees(got, wanted), f"{words} came to {shown(*got)}, wanted {wanted} for {files['s.vbe'][:2000]!r}")
    if got[0] or wanted[0]:
        return
    text = room.held().get("r.vbe") or b""
    faults = written_faults(words, files, text)
    if not faults and f"size {machine_size(machine_of(text))}\n".encode() != got[1]:
        faults = [f"the size, which is {machine_size(machine_of(text))}, is printed as {got[1]!r}"]
    results.note(f"{title}: the source", not faults, f"{faults} in {text[:3000]!r} for {files['s.vbe'][:2000]!r}")


def budgets(source):
    """The greatest count, and one below each count."""
    try:
        counts = sorted({s.dcount for s in diagrams.sizes(machine_of(source))})
    except (Refused, Ring):
        return []
    return [n for n in {*counts[-1:], *(n - 1 for n in counts)} if 1 <= n <= MOST_NODES]


def run_all(results, program, title, source):
    """The source with its own budget, with exactly what it needs, and with one node too few for each of its roots."""
    for words in (WORDS, *([*WORDS, "--nodes", str(n)] for n in budgets(source))):
        with Room() as room:
            files = {"s.vbe": source}
            room.write(files)
            run_once(results, room, program, title, files, words)


def check_machines(results, program, seed, numbers):
    for number in numbers:
        choose = random.Random(f"{seed} boom {number}")
        source = Maker(choose).source()
        source = changed(choose, source, SOURCE_WORDS) if choose.random() < 0.2 else source
        run_all(results, program, "a random source", source.encode())


# ---- functions whose diagrams are known


def entity(name, ports, body, signals=""):
    return f"entity {name} is port ({ports}); end {name};\narchitecture vbe of {name} is\n{signals}begin\n{body}end vbe;\n".encode()


def parity(count):
    names = " xor ".join(f"x({k})" for k in range(count))
    return entity("parity", f"x : in bit_vector ({count - 1} downto 0); y : out bit", f"y <= {names};\n")


def adder(bits, is_woven):
    """A sum with a carry. Its operands are met bit by bit where they are woven, and else one behind the other."""
    carries = "".join(
        f"c({k + 1}) <= (a({k}) and b({k})) or (a({k}) and c({k})) or (b({k}) and c({k}));\ns({k}) <= a({k}) xor b({k}) xor c({k});\n"
        for k in range(bits)
    )
    all_a = " xor ".join(f"a({k})" for k in range(bits))
    last = f"y <= c({bits});\n" if is_woven else f"y <= ({all_a}) and c({bits});\n"
    ports = f"a, b : in bit_vector ({bits - 1} downto 0); s : out bit_vector ({bits - 1} downto 0); y : out bit"
    return entity("adder", ports, f"c(0) <= '0';\n{carries}{last}", f"signal c : bit_vector ({bits} downto 0);\n")


def multiplier(bits):
    """A product of two numbers, row by row: the carries of a row go into the next column."""
    ports = f"a, b : in bit_vector ({bits - 1} downto 0); p : out bit_vector ({2 * bits - 1} downto 0)"
    rows, body = [], [f"s0({k}) <= {f'a({k}) and b(0)' if k < bits else chr(39) + '0' + chr(39)};\n" for k in range(2 * bits)]
    for j in range(1, bits):
        body.append(f"k{j}(0) <= '0';\n")
        for k in range(2 * bits):
            term = f"(a({k - j}) and b({j}))" if j <= k < j + bits else "'0'"
            s, c = f"s{j - 1}({k})", f"k{j}({k})"
            body.append(f"s{j}({k}) <= {s} xor {term} xor {c};\nk{j}({k + 1}) <= ({s} and {term}) or ({s} and {c}) or ({term} and {c});\n")
        rows.append(f"signal k{j} : bit_vector ({2 * bits} downto 0);\n")
    rows += [f"signal s{j} : bit_vector ({2 * bits - 1} downto 0);\n" for j in range(bits)]
    body += [f"p({k}) <= s{bits - 1}({k});\n" for k in range(2 * bits)]
    return entity("multiplier", ports, "".join(body), "".join(rows))


def check_known(results, program):
    for title, source in [
        ("a parity of 64 bits", parity(64)),
        ("an adder of 8 bits", adder(8, True)),
        ("an adder of 8 bits, one operand before the other", adder(8, False)),
        ("a multiplier of 4 bits", multiplier(4)),
    ]:
        run_all(results, program, title, source)


def check_examples(results, program):
    for path in sorted(EXAMPLES.glob("*/*.vbe")):
        run_all(results, program, f"the example {path.name}", path.read_bytes())


def check_words(results, program):
    files = {"s.vbe": (EXAMPLES / "inverter/row1.vbe").read_bytes()}
    got = run_in(files, program, [b"boom", b"\xff.vbe", *WORDS[2:]])
    compare(results, "a word of boom that is no text", got, 1, TOOLS_LINE.encode(), files)
    got = run_in(files, program, [*WORDS[:3], "nowhere/r"])
    compare(results, "an output in a folder that isn't there", got, 7, b"boom: file: write fault nowhere/r.vbe\n", files)


def jobs(program, seed, times):
    numbers = range(MACHINES * times)
    for at in range(0, len(numbers), CHUNK):
        yield check_machines, (program, seed, numbers[at : at + CHUNK])
    yield check_known, (program,)
    yield check_examples, (program,)
    yield check_words, (program,)
