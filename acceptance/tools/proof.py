"""What the second readers say of `proof`, and what no case of it has: random sources beside themselves, beside what `boom` makes of them,
and beside themselves with one thing changed, each with budgets at the count and one below; arithmetic in two forms. Functions of few bits
are compared as truth lists, others as diagrams (diagrams.py). A name that the program gives has to be one at which the two differ.
"""

import functools
import random
import re
from typing import NamedTuple

from acceptance.makers.random_sources import Maker
from acceptance.makers.source_changes import CHANGES
from acceptance.meaning.mapping import machine_size
from acceptance.readers.words import command, held, trouble
from acceptance.running.places import EXAMPLES
from acceptance.running.results import Room, shown
from acceptance.tools.answers import agrees as same_answer
from acceptance.tools.answers import refusal
from acceptance.tools.boom import MOST_NODES, NODES, adder, entity, multiplier, parity
from share.formats import diagrams
from share.formats.models import IN, OUT
from share.formats.pat_oracle import machine_of
from share.formats.vbe_oracle import FILE, Ring
from share.formats.vhdl_reader import Refused, spelled

USAGE = "usage: alliance proof SOURCE.vbe -b OTHER.vbe [--nodes 1..4000000]\n"
WORDS = ["proof", "a.vbe", "-b", "b.vbe"]
MACHINES, CHUNK, MOST_SIZE, MOST_NAMES = 48, 8, 300, 16


# ---- the second answer


class Proof(NamedTuple):
    source: str
    other: str
    nodes: int


def parsed(words):
    """The command, or None."""
    found = command(words, ".vbe", {"-b": ".vbe", "--nodes": ""})
    if not found or "-b" not in found[1]:
        return None
    nodes = found[1].get("--nodes", str(NODES))
    if not re.fullmatch("[0-9]{1,10}", nodes) or not 1 <= int(nodes) <= MOST_NODES:
        return None
    return Proof(found[0], found[1]["-b"], int(nodes))


def roles(m):
    """The names that are inputs, the clock among them, outputs, and registers."""
    ways = [{bit for bit, way in m.ports.items() if way == wanted} for wanted in (IN, OUT)]
    return [*ways, set(m.registers)]


def names_of_one(a, b):
    """The names that have a role in one of two machines alone; clocks are compared where both have registers."""
    clocks = {(a.clock, -1)} ^ {(b.clock, -1)} if a.registers and b.registers else set()
    return {bit for one, other in zip(roles(a), roles(b)) for bit in one ^ other} | clocks


class Both:
    """A root of two machines in one diagram: its names in the order of the first expansion, and then those of the second alone."""

    def __init__(self, a, one, b, other):
        self.name = one.name
        order = self.met(a, one)
        order += [bit for bit in self.met(b, other) if bit not in set(order)]
        functions = (diagrams.Lists if len(order) <= diagrams.MOST_LISTED else diagrams.Nodes)(len(order))
        first, second = (diagrams.Diagram(m, root.formula, order, lambda _: functions) for m, root in ((a, one), (b, other)))
        self.count, self.is_one = functions.size(first.asked | second.asked), first.own == second.own

    @staticmethod
    def met(m, root):
        return diagrams.Walk({bit: diagrams.plain(f) for bit, f in m.equations}, root.formula).order


def all_roots(a, b):
    """The roots of two machines whose names agree, in their order."""
    return [Both(a, one, b, other) for one, other in zip(diagrams.roots(a), diagrams.roots(b))]


class OneOf(NamedTuple):
    """A line that ends in any of some names."""

    line: str
    names: set


@functools.lru_cache(maxsize=4)
def roots_of(source, other):
    """The same of two texts, which are asked for again with other budgets."""
    return all_roots(machine_of(source), machine_of(other))


def answer(source, other, budget):
    """The status and the text of two sources; a OneOf where any of some names may be told. Of names that one machine alone has, the least is."""
    names = names_of_one(machine_of(source), machine_of(other))
    if names:
        return 11, f"proof: names {spelled(min(names))}\n"
    roots = roots_of(source, other)
    over = next((root.name for root in roots if root.count > budget), None)
    if over is not None:
        return 5, f"proof: budget: {spelled(over)} {budget + 1}\n"
    differing = {spelled(root.name) for root in roots if not root.is_one}
    return (11, OneOf("differs ", differing)) if differing else (0, "equal\n")


def second(words, files):
    """What the second readers say of a command over files: (status, text), or with a Ring or a OneOf for the text."""
    found = parsed(words)
    if found is None:
        return 1, USAGE
    for name in found[:2]:
        refused = trouble(files, name, FILE)
        if refused:
            return refused[0], f"proof: {refused[1]}\n"
    texts = [held(files, name) for name in found[:2]]
    for name, text in zip(found, texts):
        try:
            machine_of(text)
        except Ring as ring:
            ring.file = name
            return 2, ring
        except Refused as refused:
            return refusal("proof", name, str(refused))
    return answer(*texts, found.nodes)


def agrees(got, wanted):
    printed = bytes(got[1]).decode(errors="replace")
    if isinstance(wanted[1], OneOf):
        return got[0] == wanted[0] and printed in {f"{wanted[1].line}{name}\n" for name in wanted[1].names}
    if isinstance(wanted[1], Ring) and not printed.startswith(f"proof: {wanted[1].file}:"):
        return False
    return same_answer(got, wanted)


# ---- what is run


def budgets(files):
    """The greatest count of two sources, and one below each of some counts."""
    texts = files["a.vbe"], files["b.vbe"]
    try:
        machines = [machine_of(text) for text in texts]
    except (Refused, Ring):
        return []
    counts = sorted({root.count for root in roots_of(*texts)}) if not names_of_one(*machines) else []
    return sorted({n for n in {*counts[-1:], *(n - 1 for n in [*counts[:2], *counts[-2:]])} if 1 <= n <= MOST_NODES})


def run_pair(results, room, program, title, a, b):
    """Runs proof on two texts, with its own budget, with exactly what they need, and with one node too few; the first answer."""
    files = {"a.vbe": a, "b.vbe": b}
    room.write(files)
    for nodes in (None, *budgets(files)):
        words = WORDS if nodes is None else [*WORDS, "--nodes", str(nodes)]
        wanted = second(words, files)
        got = room.run(program, words)
        results.note(title, agrees(got, wanted), f"{words[4:]} came to {shown(*got)}, wanted {wanted} for {a[:2000]!r} and {b[:2000]!r}")
        if nodes is None:
            first = wanted
    return first


def made_smaller(room, program, source):
    """What boom makes of a source, or None."""
    room.write({"s.vbe": source})
    (room.folder / "r.vbe").unlink(missing_ok=True)
    status, _ = room.run(program, ["boom", "s.vbe", "-o", "r"])
    return (room.folder / "r.vbe").read_bytes() if status == 0 else None


def small_source(choose):
    """A random source whose diagrams are small."""
    while True:
        text = Maker(choose).source()
        m = machine_of(text.encode())
        names = sum(way == IN for way in m.ports.values()) + len(m.registers)
        if machine_size(m) <= MOST_SIZE and names <= MOST_NAMES:
            return text


def check_machines(results, program, seed, numbers):
    """Each beside itself, beside what boom makes of it, and beside itself with each of the changes, on either side."""
    for number in numbers:
        choose = random.Random(f"{seed} proof {number}")
        text = small_source(choose)
        source = text.encode()
        with Room() as room:
            wanted = run_pair(results, room, program, "a source beside itself", source, source)
            results.note("a source is equal to itself", wanted == (0, "equal\n"), wanted)
            smaller = made_smaller(room, program, source)
            if smaller is not None:
                wanted = run_pair(results, room, program, "a source beside a smaller one", source, smaller)
                results.note("a smaller source is equal", wanted == (0, "equal\n"), wanted)
            for title, change in CHANGES.items():
                changed = change(choose, text)
                if changed is not None:
                    pair = [source, changed.encode()]
                    choose.shuffle(pair)
                    run_pair(results, room, program, title, *pair)


# ---- functions in two forms


def sum_by_choices(bits):
    """The sum of `adder`, its carries as choices."""
    carries = "".join(f"c({k + 1}) <= b({k}) when a({k}) = b({k}) else c({k});\ns({k}) <= (a({k}) = b({k})) = c({k});\n" for k in range(bits))
    ports = f"a, b : in bit_vector ({bits - 1} downto 0); s : out bit_vector ({bits - 1} downto 0); y : out bit"
    return entity("adder", ports, f"c(0) <= '0';\n{carries}y <= c({bits});\n", f"signal c : bit_vector ({bits} downto 0);\n")


def other_parity(count):
    """From the last bit on, by unequal pairs."""
    formula = "x(0)"
    for k in range(1, count):
        formula = f"(x({k}) /= {formula})"
    return entity("parity", f"x : in bit_vector ({count - 1} downto 0); y : out bit", f"y <= {formula};\n")


def with_operands_exchanged(source):
    return re.sub(rb"\b([ab])\(", lambda found: b"a(" if found[1] == b"b" else b"b(", source)


def check_known(results, program):
    pairs = [
        ("an adder in two forms", adder(6, True), sum_by_choices(6), True),
        ("an adder with its operands exchanged", adder(8, True), with_operands_exchanged(adder(8, True)), True),
        ("a multiplier with its operands exchanged", multiplier(3), with_operands_exchanged(multiplier(3)), True),
        ("an adder and one with an or too many", adder(6, True), adder(6, True).replace(b"a(5) xor b(5)", b"(a(5) or b(5))"), False),
        ("a parity in two forms", parity(40), other_parity(40), True),
        ("a parity and the other one", parity(40), other_parity(40).replace(b"(x(39) /=", b"(x(39) ="), False),
    ]
    with Room() as room:
        for title, a, b, is_equal in pairs:
            wanted = run_pair(results, room, program, title, a, b)
            results.note(f"{title} in the second reader", (wanted == (0, "equal\n")) == is_equal, wanted)


def check_examples(results, program):
    for path in sorted(EXAMPLES.glob("*/*.vbe")):
        source = path.read_bytes()
        with Room() as room:
            smaller = made_smaller(room, program, source)
            for other in (source, smaller) if smaller is not None else (source,):
                wanted = run_pair(results, room, program, f"the example {path.name}", source, other)
                results.note(f"the example {path.name} in the second reader", wanted == (0, "equal\n"), wanted)


def jobs(program, seed, times):
    yield check_known, (program,)
    yield check_examples, (program,)
    numbers = range(MACHINES * times)
    for at in range(0, len(numbers), CHUNK):
        yield check_machines, (program, seed, numbers[at : at + CHUNK])
