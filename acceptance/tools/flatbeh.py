"""What the second readers say of `flatbeh`, and what no case of it has: random netlists over random libraries, and netlists that `boog`
makes. What is written is read again by the second reader of data-flow texts, and beside the netlist it shows and loads the same, from
random contents under random inputs; its registers are called like the instances.
"""

import random
import re
import subprocess
import sys

from acceptance.cells import files_of
from acceptance.makers.cell_maker import CellMaker
from acceptance.makers.net_maker import NetMaker, one_change
from acceptance.makers.random_sources import Maker
from acceptance.meaning.mapping import formula_size, machine_size
from acceptance.readers.words import command, held, trouble
from acceptance.running.places import BENCH
from acceptance.running.results import Room, shown
from acceptance.tools.answers import agrees as same_answer
from acceptance.tools.answers import refusal
from acceptance.tools.boog import FIVE, VECTORS, of_cells
from acceptance.tools.net_jobs import random_library
from share.formats.models import IN, OUT, Refusal, library
from share.formats.pat_oracle import machine_of
from share.formats.vbe_oracle import Ring
from share.formats.vhdl_reader import Refused, spelled
from share.formats.vst import FILE, netlist

USAGE = "usage: alliance flatbeh SOURCE.vst -l DIR -o NAME\n"
WORDS = ["flatbeh", "r.vst", "-l", "lib", "-o", "r"]
NETLISTS, SOURCES, CHUNK = 75, 20, 15


# ---- the second answer


def parsed(words):
    """SOURCE, DIR and NAME, or None."""
    found = command(words, ".vst", {"-l": "", "-o": ""})
    return (found[0], found[1]["-l"], found[1]["-o"]) if found and len(found[1]) == 2 else None


def has_vector_clock(n):
    """A data-flow text has no such clock."""
    return n.clock is not None and n.clock[1] >= 0


def of_netlist(n, source):
    """The status and the line on a netlist; of one that is written (0, None)."""
    other = next((i.model.name for i in n.instances if not i.model.is_plain), None)
    if other is not None:
        return 11, f"flatbeh: no behaviour {other}\n"
    texts = {text for text, _ in n.all_ports}
    twice = next((i.name for i in n.instances if i.model.registers and i.name in texts), None)
    if twice is not None:
        return 2, f"flatbeh: {source}:1: twice {twice}\n"
    if has_vector_clock(n):
        return 2, f"flatbeh: {source}:1: clock use {n.clock[0]}({n.clock[1]})\n"
    return 0, None


def of_models(text, source, models):
    """The same of a text over the models of a library."""
    try:
        return of_netlist(netlist(text, models), source)
    except Ring as ring:
        return 2, ring
    except Refused as refused:
        return refusal("flatbeh", source, str(refused))


def second(words, files):
    """What the second readers say of a command over files: (status, text), or (2, Ring) where any of some rings may be named."""
    found = parsed(words)
    if found is None:
        return 1, USAGE
    source, folder, _ = found
    refused = trouble(files, source, FILE)
    if refused:
        return refused[0], f"flatbeh: {refused[1]}\n"
    try:
        return of_models(held(files, source), source, library(files, folder))
    except Refusal as refused:
        return refused.status, f"flatbeh: {refused.line}\n"


def agrees(got, wanted):
    """The size that is printed is that of the text, which `written_faults` reads."""
    if wanted[0] != 0:
        return same_answer(got, wanted)
    return got[0] == 0 and re.fullmatch(rb"size [0-9]+\n", bytes(got[1])) is not None


# ---- the source that is written


def differing(n, m, choose):
    """What the machine shows or loads otherwise than the netlist, from some random contents under random inputs."""
    for _ in range(VECTORS):
        given = {bit: choose.getrandbits(1) for bit, way in n.ports.items() if way == IN}
        contents = {(i.name, bit): choose.getrandbits(1) for i in n.instances for bit in i.model.registers}
        of_n = n.settle(given, contents)
        of_m = m.settle(given, {(owner, -1): bit for (owner, _), bit in contents.items()})
        for bit, way in n.ports.items():
            if way == OUT and of_n[bit] != of_m[bit]:
                return f"what {spelled(bit)} shows"
        loads = m.load(of_m)
        for (owner, _), bit in n.load(of_n).items():
            if loads[owner, -1] != bit:
                return f"what {owner} loads"
    return None


def machine_faults(n, m):
    """What isn't as it has to be in the machine of a netlist."""
    if m.name != n.name:
        yield f"the name {m.name}"
    if m.ports != n.ports:
        yield "the ports"
        return
    if m.clock != (n.clock[0] if n.clock else None):
        yield f"the clock {m.clock}"
    if sorted(m.registers) != sorted((i.name, -1) for i in n.instances if i.model.registers):
        yield f"the registers {sorted(m.registers)}"
        return
    otherwise = differing(n, m, random.Random(len(n.instances)))
    if otherwise:
        yield otherwise


def size_of(n):
    """What the cells' functions weigh, with 2 for each output bit and 5 for each register; None where a cell has inner signals, since a choice
    within an expression is written by gates."""
    total = 2 * sum(way == OUT for way in n.ports.values())
    for i in n.instances:
        if any(bit not in i.model.pins for bit, _ in i.model.machine.equations):
            return None
        total += 5 if i.model.registers else sum(formula_size(f) for _, f in i.model.machine.equations)
    return total


def written_faults(words, files, text, printed=None):
    """What is wrong with the text that a command wrote and with the size that it printed, or nothing."""
    source, folder, _ = parsed(words)
    n = netlist(held(files, source), library(files, folder))
    try:
        m = machine_of(text)
    except (Refused, Ring) as refused:
        return [f"it is refused: {refused}"]
    faults = list(machine_faults(n, m))
    size = size_of(n)
    if None not in (printed, size) and {size, machine_size(m)} != {int(printed.split()[1])}:
        faults.append(f"the size, which is {size}, and of the text {machine_size(m)}, is printed as {printed!r}")
    return faults


def writes(words, files):
    """The file that a command writes, with the check of its text."""
    return f"{parsed(words)[2]}.vbe", lambda text: written_faults(words, files, text)


# ---- what is run


def run_flattened(results, room, program, title, files):
    """Runs flatbeh on r.vst, and where it succeeds reads what it wrote; the text, or None. The files are those of the room."""
    wanted = of_models(files["r.vst"], "r.vst", library(files, "lib"))
    (room.folder / "r.vst").write_bytes(files["r.vst"])
    (room.folder / "r.vbe").unlink(missing_ok=True)
    got = room.run(program, WORDS)
    results.note(title, agrees(got, wanted), f"came to {shown(*got)}, wanted {wanted} for {files['r.vst'][:4000]!r}")
    if got[0] or wanted[0]:
        results.note(f"{title}: the file behind a refusal", not (room.folder / "r.vbe").exists(), "it is there")
        return None
    text = (room.folder / "r.vbe").read_bytes() if (room.folder / "r.vbe").exists() else b""
    faults = written_faults(WORDS, files, text, got[1])
    results.note(f"{title}: the source", not faults, f"{faults} in {text[:3000]!r} for {files['r.vst'][:3000]!r}")
    return text


def plain_library(choose):
    """Gates and flip-flops: some of this repository's cells and some made, and now and then one that is neither."""
    names = choose.sample(["inv_x1", "na2_x1", "sff1_x4", "sff1_x8", "xr2_x1", "mx2_x2", "nao22_x1", "zero_x0", "one_x0"], choose.randrange(2, 6))
    files = of_cells(names)
    makers = {f"m{k}": CellMaker(choose).cell for k in range(choose.randrange(3))}
    if choose.random() < 0.15:
        makers["other"] = CellMaker(choose).other
    for name, make in makers.items():
        files.update((f"lib/{file}", text) for file, text in files_of(choose, make(name)).items())
    files["lib/CATAL"] = "".join(f"{name} C\n" for name in [*names, *makers]).encode()
    return files


def check_netlists(results, program, seed, numbers):
    """Each as it is and with one token changed."""
    for number in numbers:
        choose = random.Random(f"{seed} flatbeh {number}")
        files = random_library(choose) if choose.random() < 0.25 else plain_library(choose)
        models = library(files, "lib")
        text = NetMaker(choose, models).text()
        with Room() as room:
            room.write(files)
            run_flattened(results, room, program, "a random netlist", {**files, "r.vst": text.encode()})
            for _ in range(3):
                changed = one_change(choose, text).encode()
                run_flattened(results, room, program, "a changed netlist", {**files, "r.vst": changed})


def check_sources(results, program, seed, numbers):
    """A source, its netlist, and the source of that: without registers it is proved to be the first one, and else itself."""
    for number in numbers:
        choose = random.Random(f"{seed} flatbeh source {number}")
        files = {**of_cells(FIVE), "s.vbe": Maker(choose).source().encode()}
        with Room() as room:
            room.write(files)
            status, printed = room.run(program, ["boog", "s.vbe", "-l", "lib", "-o", "r"])
            results.note("a netlist to flatten", status == 0, shown(status, printed))
            if status != 0:
                continue
            text = run_flattened(results, room, program, "a netlist of a source", {**files, "r.vst": (room.folder / "r.vst").read_bytes()})
            if text is None:
                continue
            other = "r.vbe" if machine_of(text).registers else "s.vbe"
            got = room.run(program, ["proof", "r.vbe", "-b", other])
            results.note(f"flatbeh's source beside {other}", got == (0, b"equal\n"), f"{shown(*got)} for {files['s.vbe'][:2000]!r}")


def check_large(results, program, seed, count):
    """A netlist of nands, inverters and flip-flops of the row library."""
    files = of_cells(["inv_x1", "na2_x1", "sff1_x4"])
    with Room() as room:
        room.write(files)
        subprocess.run([sys.executable, BENCH / "netlist_inputs.py", str(count), "1", room.folder, str(seed)], check=True)
        run_flattened(results, room, program, f"{count} instances", {**files, "r.vst": (room.folder / "n.vst").read_bytes()})


def jobs(program, seed, times):
    yield check_large, (program, seed, 3000)
    for many, check in ((NETLISTS, check_netlists), (SOURCES, check_sources)):
        numbers = range(many * times)
        for at in range(0, len(numbers), CHUNK):
            yield check, (program, seed, numbers[at : at + CHUNK])
