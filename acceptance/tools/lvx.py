"""What the second readers say of `lvx`, and what no case of it has: random netlists over random libraries, each beside itself spelled
otherwise and beside itself with one thing changed: an instance renamed, left out or of another cell, two classes merged, one split, a
terminal moved, two exchanged. The least name at fault is found from the definition, by sets of terminals.
"""

import random

from acceptance.makers.net_changes import CHANGES, respelled
from acceptance.makers.net_maker import NetMaker, one_change
from acceptance.readers.words import command, held, trouble
from acceptance.running.results import Room, shown
from acceptance.tools.answers import agrees as same_answer
from acceptance.tools.answers import refusal
from acceptance.tools.boog import of_cells
from acceptance.tools.net_jobs import random_library
from share.formats.models import Refusal, library
from share.formats.vbe_oracle import Ring
from share.formats.vhdl_reader import Refused, spelled
from share.formats.vst import FILE, netlist
from share.formats.vst_writer import laid_out

USAGE = "usage: alliance lvx SOURCE.vst -b OTHER.vst -l DIR\n"
WORDS = ["lvx", "a.vst", "-b", "b.vst", "-l", "lib"]
NETLISTS, CHUNK = 60, 10


# ---- the second answer


def parsed(words):
    """SOURCE, OTHER and DIR, or None."""
    found = command(words, ".vst", {"-b": ".vst", "-l": ""})
    return (found[0], found[1]["-b"], found[1]["-l"]) if found and len(found[1]) == 2 else None


def terminals(instance):
    return [(instance.name, pin) for pin in instance.nets]


def classes(n):
    """For each terminal the terminals of its class. A terminal is a port, (None, bit), or a pin, (instance, bit)."""
    members = {}
    for bit in n.all_ports:
        members.setdefault(bit, set()).add((None, bit))
    for instance in n.instances:
        for pin, net in instance.nets.items():
            members.setdefault(net, set()).add((instance.name, pin))
    return {terminal: found for found in members.values() for terminal in found}


class Pair:
    """Two netlists with the classes of both."""

    def __init__(self, a, b):
        self.a, self.b, self.of_a, self.of_b, self.known = a, b, classes(a), classes(b), {}

    def is_one(self, terminal):
        """Whether both have the terminal, and in both its class has the same members."""
        one, other = self.of_a.get(terminal), self.of_b.get(terminal)
        if one is None or other is None:
            return False
        key = id(one), id(other)
        if key not in self.known:
            self.known[key] = one == other
        return self.known[key]

    def is_same_instance(self, name):
        one, other = self.a.owners.get(name), self.b.owners.get(name)
        if one is None or other is None or one.model.name != other.model.name:
            return False
        return all(map(self.is_one, {*terminals(one), *terminals(other)}))

    def fault(self):
        """The least name at fault, that of a port before that of an instance; None where the netlists are the same."""
        for bit in sorted({*self.a.all_ports, *self.b.all_ports}):
            if not self.is_one((None, bit)):
                return spelled(bit)
        return next((name for name in sorted({*self.a.owners, *self.b.owners}) if not self.is_same_instance(name)), None)


def answer(a, b):
    name = Pair(a, b).fault()
    return (0, "same\n") if name is None else (11, f"lvx: different {name}\n")


def of_models(words, files, models):
    """The answer where the library's models are known."""
    read = []
    for name in parsed(words)[:2]:
        try:
            read.append(netlist(held(files, name), models))
        except Ring as ring:
            ring.file = name
            return 2, ring
        except Refused as refused:
            return refusal("lvx", name, str(refused))
    return answer(*read)


def second(words, files):
    """What the second readers say of a command over files: (status, text), or (2, Ring) where any of some rings may be named."""
    found = parsed(words)
    if found is None:
        return 1, USAGE
    for name in found[:2]:
        refused = trouble(files, name, FILE)
        if refused:
            return refused[0], f"lvx: {refused[1]}\n"
    try:
        return of_models(words, files, library(files, found[2]))
    except Refusal as refused:
        return refused.status, f"lvx: {refused.line}\n"


def agrees(got, wanted):
    if isinstance(wanted[1], Ring) and not bytes(got[1]).startswith(f"lvx: {wanted[1].file}:".encode()):
        return False
    return same_answer(got, wanted)


# ---- what is run


def run_compared(results, room, program, title, a, b, models):
    """Runs lvx on two texts; the files of the library stand in the room."""
    files = {"a.vst": a, "b.vst": b}
    wanted = of_models(WORDS, files, models)
    room.write(files)
    got = room.run(program, WORDS)
    results.note(title, agrees(got, wanted), f"came to {shown(*got)}, wanted {wanted} for {a[:3000]!r} and {b[:3000]!r}")
    return wanted[0]


def check_netlists(results, program, seed, numbers):
    """Each beside itself, beside another spelling of it, and beside itself with each of the changes, on either side."""
    for number in numbers:
        choose = random.Random(f"{seed} lvx {number}")
        files = random_library(choose) if choose.random() < 0.5 else of_cells(["inv_x1", "inv_x2", "na2_x1", "no2_x1", "sff1_x4", "sff1_x8"])
        models = library(files, "lib")
        text = NetMaker(choose, models).text().encode()
        n = netlist(text, models)
        with Room() as room:
            room.write(files)
            status = run_compared(results, room, program, "a netlist beside itself", text, text, models)
            results.note("a netlist is the same as itself", status == 0, text)
            status = run_compared(results, room, program, "a netlist spelled otherwise", text, respelled(choose, n), models)
            results.note("a netlist spelled otherwise is the same", status == 0, text)
            for title, change in CHANGES.items():
                changed = change(choose, n, models)
                if changed is not None:
                    pair = [text, laid_out(changed).encode()]
                    choose.shuffle(pair)
                    run_compared(results, room, program, title, *pair, models)
            run_compared(results, room, program, "a text at fault", text, one_change(choose, text.decode()).encode(), models)


def check_long_chain(results, program, count):
    """Inverters in a chain, of which the last two are exchanged: all others before them are the same."""
    files = of_cells(["inv_x1"])
    models = library(files, "lib")
    head = "entity c is port (i : in bit; o : out bit; vdd, vss : in bit); end c;\narchitecture x of c is\n"
    head += "component inv_x1 port (i : in bit; nq : out bit; vdd, vss : in bit); end component;\n"
    head += f"signal s : bit_vector ({count} downto 1);\nbegin\n"
    nets = ["i", *(f"s({k})" for k in range(1, count + 1)), "o"]
    lines = [f"inv_x1 port map (i => {a}, nq => {b}, vdd => vdd, vss => vss);\n" for a, b in zip(nets, nets[1:])]
    names = [f"g{k:06}" for k in range(len(lines))]
    other = [*names[:-2], names[-1], names[-2]]
    one, two = (f"{head}{''.join(f'{name} : {line}' for name, line in zip(of, lines))}end x;\n".encode() for of in (names, other))
    with Room() as room:
        room.write(files)
        run_compared(results, room, program, f"{count} inverters", one, one, models)
        run_compared(results, room, program, f"{count} inverters, the last two exchanged", one, two, models)


def jobs(program, seed, times):
    yield check_long_chain, (program, 2000)
    numbers = range(NETLISTS * times)
    for at in range(0, len(numbers), CHUNK):
        yield check_netlists, (program, seed, numbers[at : at + CHUNK])
