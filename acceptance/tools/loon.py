"""What the second readers say of `loon`, and what no case of it has: random netlists over random libraries with several drives of a cell,
nets of 2 to 1,000 sinks, and netlists that `boog` makes. What is written is read again: it has the buffers that the rules give, each
other cell stands for the one that was there, the delay that is printed is that of its longest path, and no exchange of one instance's
cell makes that path shorter.
"""

import copy
import random
import re

from acceptance.cells import files_of
from acceptance.makers.cell_maker import CellMaker
from acceptance.makers.net_maker import NetMaker, one_change
from acceptance.makers.random_sources import Maker
from acceptance.meaning.fanout import counts, limited
from acceptance.readers.words import command, held, trouble
from acceptance.running.results import Room, shown
from acceptance.tools.answers import agrees as same_answer
from acceptance.tools.answers import refusal
from acceptance.tools.boog import FIVE, of_cells
from share.formats.models import Refusal, library
from share.formats.timing import better_exchange, own_cells, worst, worst_of_all_paths
from share.formats.vbe_oracle import Ring
from share.formats.vhdl_reader import SUPPLIES, Refused
from share.formats.vst import FILE, netlist

USAGE = "usage: alliance loon SOURCE.vst -l DIR -o NAME [--fanout 4..1000000]\n"
WORDS = ["loon", "r.vst", "-l", "lib", "-o", "w", "--fanout"]
NETLISTS, STARS, SOURCES, CHUNK, SMALL = 150, 40, 20, 15, 14


# ---- the second answer


def parsed(words):
    """SOURCE, DIR, NAME and the most sinks, or None."""
    found = command(words, ".vst", {"-l": "", "-o": "", "--fanout": ""})
    if not found or not {"-l", "-o"} <= set(found[1]):
        return None
    most = found[1].get("--fanout", "32")
    if not re.fullmatch("[0-9]{1,10}", most) or not 4 <= int(most) <= 1000000:
        return None
    return found[0], found[1]["-l"], found[1]["-o"], int(most)


def usable(models):
    """Other cells are unknown to it."""
    return {name: model for name, model in models.items() if model.is_usable}


def of_models(text, source, models, fanout):
    """The status and the line on a text over the models of a library; of a netlist that is written the first line of what is printed."""
    try:
        n = netlist(text, usable(models))
    except Ring as ring:
        return 2, ring
    except Refused as refused:
        return refusal("loon", source, str(refused))
    items = limited(n, models, fanout)
    return (4, "loon: no cover: inv\n") if items is None else (0, f"cells {len(items)}\n")


def second(words, files):
    """What the second readers say of a command over files: (status, text), or (2, Ring) where any of some rings may be named."""
    found = parsed(words)
    if found is None:
        return 1, USAGE
    source, folder, _, fanout = found
    refused = trouble(files, source, FILE)
    if refused:
        return refused[0], f"loon: {refused[1]}\n"
    try:
        return of_models(held(files, source), source, library(files, folder), fanout)
    except Refusal as refused:
        return refused.status, f"loon: {refused.line}\n"


def agrees(got, wanted):
    """The delay that is printed is that of the text, which `written_faults` reads."""
    if wanted[0] != 0:
        return same_answer(got, wanted)
    return got[0] == 0 and re.fullmatch(re.escape(wanted[1]).encode() + rb"delay [0-9]+\n", bytes(got[1])) is not None


# ---- the netlist that is written


def are_joined_alike(one, other):
    """Whether two lists of instances of the same names and pins have their pins joined, with each other and with ports, in the same way."""
    there, back = {}, {}
    for a, b in zip(one, other):
        for pin, net in a.nets.items():
            if there.setdefault(net, b.nets[pin]) != b.nets[pin] or back.setdefault(b.nets[pin], net) != net:
                return False
    return True


def structure_faults(n, w, items, fanout):
    if (w.name, w.all_ports) != (n.name, n.all_ports):
        yield "the name or the ports"
    if [i.name for i in w.instances] != [item.name for item in items]:
        yield f"the instances {[i.name for i in w.instances][:40]}"
        return
    for i, item in zip(w.instances, items):
        if not i.model.can_stand_for(item.model):
            yield f"{i.model.name} in the place of {item.model.name} at {i.name}"
            return
    ports = {net: net for net in n.all_ports}
    if not are_joined_alike([Ports(ports), *items], [Ports(ports), *w.instances]):
        yield "what is joined"
    many = max(counts(w.instances).values(), default=0)
    if many > fanout:
        yield f"a net of {many} sinks"


class Ports:
    """Each port is in the net of its name."""

    def __init__(self, nets):
        self.nets = nets


def delay_faults(w, items, models, printed):
    delay = worst(w, own_cells(w))
    if printed is not None and printed.split()[-1] != str(delay).encode():
        yield f"the delay {delay} is printed as {printed!r}"
    if delay > worst(w, {item.name: item.model for item in items}):
        yield f"the delay {delay} is greater than before"
    yield from drive_faults(w, models)


def drive_faults(w, models):
    """Whether the exchange of one instance's cell for another drive of it makes the longest path shorter."""
    cells = own_cells(w)
    delay = worst(w, cells)
    if len(w.instances) <= SMALL and worst_of_all_paths(w, cells) != delay:
        yield f"the second programs differ on the delay {delay}"
    better = better_exchange(w, cells, models)
    if better:
        yield f"{better} is better than {delay}"


def written_faults(words, files, text, printed=None):
    """What is wrong with the netlist that a command wrote and with the delay that it printed, or nothing."""
    source, folder, _, fanout = parsed(words)
    models = library(files, folder)
    n = netlist(held(files, source), usable(models))
    try:
        w = netlist(text, usable(models))
    except (Refused, Ring) as refused:
        return [f"it is refused: {refused}"]
    items = limited(n, models, fanout)
    return list(structure_faults(n, w, items, fanout)) or list(delay_faults(w, items, usable(models), printed))


def writes(words, files):
    """The file that a command writes, with the check of its text."""
    return f"{parsed(words)[2]}.vst", lambda text: written_faults(words, files, text)


# ---- what is run


def run_limited(results, room, program, title, files, fanout):
    """Runs loon on r.vst, and where it succeeds reads what it wrote. The files are those of the room."""
    words = [*WORDS, str(fanout)]
    wanted = of_models(files["r.vst"], "r.vst", library(files, "lib"), fanout)
    (room.folder / "r.vst").write_bytes(files["r.vst"])
    (room.folder / "w.vst").unlink(missing_ok=True)
    got = room.run(program, words)
    results.note(title, agrees(got, wanted), f"came to {shown(*got)}, wanted {wanted} with {fanout} for {files['r.vst'][:4000]!r}")
    is_there = (room.folder / "w.vst").exists()
    if got[0] or wanted[0]:
        results.note(f"{title}: the file behind a refusal", not is_there, "it is there")
        return
    text = (room.folder / "w.vst").read_bytes() if is_there else b""
    faults = written_faults(words, files, text, got[1])
    results.note(f"{title}: the netlist", not faults, f"{faults} with {fanout} in {text[:3000]!r} for {files['r.vst'][:3000]!r}")


def drives(choose, name):
    """One to four gates or flip-flops that differ in their names and generics alone."""
    maker = CellMaker(choose)
    made = maker.gate(name) if choose.random() < 0.8 else maker.flip_flop(name)
    ways = dict(port.split(" : ") for port in made.ports)
    inputs = [pin for pin, way in ways.items() if way == "in bit" and pin not in SUPPLIES]
    output = next(pin for pin, way in ways.items() if way == "out bit")
    for k in range(choose.choice([1, 2, 3, 4])):
        cell = copy.deepcopy(made)
        cell.name, cell.generics = f"{name}_x{k + 1}", maker.generic_list(inputs, output)
        yield cell


def library_with_drives(choose):
    """Made cells in several drives, some of this repository's, with or without buffer and inverter, and now and then a cell that isn't
    usable."""
    own = choose.choice([["inv_x1"], ["buf_x2"], ["inv_x1", "buf_x2"], [], ["inv_x1", "inv_x2", "inv_x4", "inv_x8", "sff1_x4"], ["na2_x1", "inv_x1", "inv_x2", "buf_x4"]])
    files = of_cells(own)
    cells = [cell for k in range(choose.randrange(1, 4)) for cell in drives(choose, f"m{k}")]
    if choose.random() < 0.1:
        cells.append(CellMaker(choose).other("other"))
    for cell in cells:
        files.update((f"lib/{file}", text) for file, text in files_of(choose, cell).items())
    files["lib/CATAL"] = "".join(f"{name} C\n" for name in [*own, *(cell.name for cell in cells)]).encode()
    return files


def check_netlists(results, program, seed, numbers):
    """Each as it is and with one token changed."""
    for number in numbers:
        choose = random.Random(f"{seed} loon {number}")
        files = library_with_drives(choose)
        models = library(files, "lib")
        text = NetMaker(choose, usable(models) if choose.random() < 0.9 else models).text()
        with Room() as room:
            room.write(files)
            run_limited(results, room, program, "a random netlist", {**files, "r.vst": text.encode()}, choose.choice([4, 4, 5, 32]))
            changed = one_change(choose, text).encode()
            run_limited(results, room, program, "a changed netlist", {**files, "r.vst": changed}, 4)


COMPONENTS = {
    "inv_x1": "i : in bit; nq : out bit", "na2_x1": "i0 : in bit; i1 : in bit; nq : out bit",
    "sff1_x4": "ck : in bit; i : in bit; q : out bit",
}


def star(choose, sinks):
    """A net that so many pins read, an output port and flip-flops' pins now and then among them."""
    lines = []
    for k in range(sinks):
        kind = choose.choice(["inv", "inv", "nand", "flip_flop", "both", "tied"])
        net = choose.choice(["s", "s", "s", "i"])
        pins = {
            "inv": f"inv_x1 port map (i => {net}, nq => o({k})", "nand": f"na2_x1 port map (i0 => {net}, i1 => a, nq => o({k})",
            "flip_flop": f"sff1_x4 port map (ck => ck, i => {net}, q => o({k})", "both": f"na2_x1 port map (i0 => {net}, i1 => {net}, nq => o({k})",
            "tied": f"na2_x1 port map (i0 => {net}, i1 => {choose.choice(['vdd', 'vdd', 'vss'])}, nq => o({k})",
        }[kind]
        lines.append(f"{choose.choice(['g', 'b', 'u'])}{k} : {pins}, vdd => vdd, vss => vss);\n")
    shown = choose.random() < 0.5
    head = "entity star is port (ck, i, a : in bit; "
    head += f"{'s : out bit; ' if shown else ''}o : out bit_vector ({sinks - 1} downto 0); vdd, vss : in bit); end star;\narchitecture x of star is\n"
    head += "".join(f"component {name} port ({pins}; vdd, vss : in bit); end component;\n" for name, pins in COMPONENTS.items())
    head += "" if shown else "signal s : bit;\n"
    return f"{head}begin\nx0 : inv_x1 port map (i => i, nq => s, vdd => vdd, vss => vss);\n{''.join(lines)}end x;\n"


def check_stars(results, program, seed, numbers):
    """Nets of 2 to 1,000 sinks, and inputs that are tied, with fan-outs 4 to 33, over libraries with and without a buffer and more drives."""
    for number in numbers:
        choose = random.Random(f"{seed} loon star {number}")
        names = ["inv_x1", "na2_x1", "sff1_x4", *choose.sample(["buf_x2", "buf_x4", "inv_x2", "inv_x4", "buf_x8", "sff1_x8"], choose.randrange(4))]
        files = of_cells(names)
        sinks = choose.choice([2, 4, 5, 8, 9, 16, 17, 33, 64, 65, 100, choose.randrange(2, 200)]) if number else 1000
        text = star(choose, sinks)
        with Room() as room:
            room.write(files)
            run_limited(results, room, program, "a net of many sinks", {**files, "r.vst": text.encode()}, choose.choice([4, 4, 5, 8, 16, 32, 33]))


def check_sources(results, program, seed, numbers):
    """The netlist of a source, and what is made of it, which computes the same."""
    for number in numbers:
        choose = random.Random(f"{seed} loon source {number}")
        files = {**of_cells([*FIVE, "buf_x2", "inv_x2", "inv_x4", "sff1_x8"]), "s.vbe": Maker(choose).source().encode()}
        with Room() as room:
            room.write(files)
            status, printed = room.run(program, ["boog", "s.vbe", "-l", "lib", "-o", "r"])
            results.note("a netlist to buffer", status == 0, shown(status, printed))
            if status != 0:
                continue
            run_limited(results, room, program, "a netlist of a source", {**files, "r.vst": (room.folder / "r.vst").read_bytes()}, 4)
            for name in ("r", "w"):
                got = room.run(program, ["flatbeh", f"{name}.vst", "-l", "lib", "-o", name])
                results.note(f"the source of {name}", got[0] == 0, shown(*got))
            got = room.run(program, ["proof", "r.vbe", "-b", "w.vbe"])
            results.note("what is made computes the same", got == (0, b"equal\n"), f"{shown(*got)} for {files['s.vbe'][:2000]!r}")


def jobs(program, seed, times):
    for many, check in ((NETLISTS, check_netlists), (STARS, check_stars), (SOURCES, check_sources)):
        numbers = range(many * times)
        for at in range(0, len(numbers), CHUNK):
            yield check, (program, seed, numbers[at : at + CHUNK])
