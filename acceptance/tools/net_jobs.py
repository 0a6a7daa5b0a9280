"""What no case of `asimut` on a netlist has: random netlists over random cells, rings, texts that are changed or cut, large netlists,
and files that are too long. The second readers say what is wanted, and of some netlists Icarus Verilog too, where it is installed.
"""

import os
import random
import subprocess
import sys

from acceptance import cells
from acceptance.makers.cell_maker import CellMaker
from acceptance.makers.net_maker import NetMaker, one_change
from acceptance.makers.random_sources import flipped
from acceptance.meaning import verilog
from acceptance.running.places import BENCH
from acceptance.running.results import Room, shown
from acceptance.tools.answers import agrees
from acceptance.tools.boog import of_cells
from acceptance.tools.netlists import WORDS, of_models
from share.formats.models import library
from share.formats.vst import FILE, netlist

NETLISTS, CHANGES, RINGS, CHUNK = 150, 12, 150, 25
ROW_CELLS = ["inv_x1", "na2_x1", "sff1_x4"]


def random_library(choose):
    """Cells of all sorts, many of which no mapping uses: with vectors, several outputs or registers, without a behaviour."""
    names = ["x1", "x2", "a_b", "z", "c4"][: choose.randrange(1, 6)]
    files = {"lib/CATAL": "".join(f"{name} C\n" for name in names).encode()}
    for name in names:
        maker = CellMaker(choose)
        cell = maker.other(name) if choose.random() < 0.5 else maker.cell(name)
        files.update((f"lib/{file}", text) for file, text in cells.files_of(choose, cell).items())
    return files


def expect(results, room, program, title, text, patterns, models):
    """Runs the patterns on the netlist; the second readers' answer."""
    wanted = of_models("r.vst", text, "t.pat", patterns, models)
    room.write({"r.vst": text, "t.pat": patterns})
    got = room.run(program, WORDS)
    results.note(title, agrees(got, wanted), f"came to {shown(*got)}, wanted {wanted} for {text[:4000]!r} and {patterns[:1000]!r}")
    return wanted


def check_netlists(results, program, seed, numbers):
    """Each as it is, with the outputs that come and one of them wrong, and with one thing changed, again and again."""
    for number in numbers:
        choose = random.Random(f"{seed} netlist {number}")
        files = random_library(choose)
        models = library(files, "lib")
        maker = NetMaker(choose, models)
        text, patterns = maker.text(), maker.patterns(choose.randrange(1, 12)).encode()
        with Room() as room:
            room.write(files)
            status, printed = expect(results, room, program, "a random netlist", text.encode(), patterns, models)
            results.note("a random netlist is one", status in (0, 11), printed)
            if status == 0:
                in_verilog(results, room, "a random netlist", printed, netlist(text.encode(), models))
            for _ in range(CHANGES):
                expect(results, room, program, "a changed netlist", one_change(choose, text).encode(), patterns, models)
            if status == 0:
                expect(results, room, program, "the patterns with what came", text.encode(), printed.encode(), models)
            changed = flipped(choose, printed) if status == 0 else None
            if changed:
                expect(results, room, program, "one wrong bit", text.encode(), changed.encode(), models)


def in_verilog(results, room, title, printed, n):
    if verilog.is_installed():
        verilog.note(results, room, title, printed.encode(), n)
    else:
        results.skip("there is no iverilog")


def check_rings(results, program, seed, numbers):
    """Netlists whose instances read anything, also each other."""
    for number in numbers:
        choose = random.Random(f"{seed} net ring {number}")
        files = random_library(choose)
        models = library(files, "lib")
        maker = NetMaker(choose, models, is_ordered=False)
        text, patterns = maker.text(), maker.patterns(3).encode()
        with Room() as room:
            room.write(files)
            expect(results, room, program, "instances in rings", text.encode(), patterns, models)


def check_large(results, program, seed, count, patterns):
    """A netlist of nands, inverters and flip-flops of the row library."""
    files = of_cells(ROW_CELLS)
    models = library(files, "lib")
    with Room() as room:
        room.write(files)
        subprocess.run([sys.executable, BENCH / "netlist_inputs.py", str(count), str(patterns), room.folder, str(seed)], check=True)
        text, given = ((room.folder / name).read_bytes() for name in ("n.vst", "n.pat"))
        status, printed = expect(results, room, program, f"{count} instances", text, given, models)
        results.note(f"{count} instances are a netlist", status == 0, printed)
        if status == 0:
            in_verilog(results, room, f"{count} instances", printed, netlist(text, models))


SMALL = b"""-- one inverter
entity r is port (i : in bit; nq : out bit; vdd, vss : in bit); end r;
architecture x of r is
component inv_x1 port (i : in bit; nq : out bit; vdd, vss : in bit); end component;
begin
g0 : inv_x1 port map (i => i, nq => nq, vdd => vdd, vss => vss);
end x;
"""


def check_cut(results, program):
    """A netlist cut at every byte, and each byte of it changed."""
    files = of_cells(["inv_x1"])
    models = library(files, "lib")
    with Room() as room:
        room.write(files)
        texts = [SMALL[:at] for at in range(len(SMALL) + 1)]
        texts += [SMALL[:at] + byte + SMALL[at + 1 :] for at in range(len(SMALL)) for byte in (b"(", b"i", b"\xff", b"")]
        for text in dict.fromkeys(texts):
            expect(results, room, program, "a netlist that is cut or changed", text, b"in i; out nq; begin < 0 ns> : 0 ?1; end;", models)


def check_chain(results, program, count):
    """Inverters in a chain, and the same in a ring."""
    files = of_cells(["inv_x1"])
    models = library(files, "lib")
    head, middle = SMALL.decode().split("begin\n")[0], "".join(f"signal s{k} : bit;\n" for k in range(count))
    text = f"{head}{middle}begin\ng : inv_x1 port map (i => s0, nq => nq, vdd => vdd, vss => vss);\n"
    for k in range(count):
        text += f"g{k} : inv_x1 port map (i => s{k + 1}, nq => s{k}, vdd => vdd, vss => vss);\n"
    with Room() as room:
        room.write(files)
        for last in ("i", "s0"):
            whole = text.replace(f"=> s{count},", f"=> {last},") + "end x;\n"
            expect(results, room, program, f"{count} inverters", whole.encode(), b"in i; out nq; begin < 0 ns> : 0 ?*; < 1 ns> : 1 ?*; end;", models)


def check_long(results, program):
    """A file of as many bytes as a netlist may have, and one of one byte more; all are 0, which begins no token."""
    files = {**of_cells(["inv_x1"]), "t.pat": b"begin end;", "r.vst": b""}
    with Room() as room:
        room.write(files)
        for length, status, line in ((FILE, 2, b"asimut: r.vst:1: bad byte\n"), (FILE + 1, 9, b"asimut: limit: file %d\n" % (FILE + 1))):
            os.truncate(room.folder / "r.vst", length)
            got = room.run(program, WORDS)
            results.note(f"a netlist of {length} bytes", got == (status, line), f"came to {shown(*got)}, wanted {line}")


LONG = b"""entity long is port (a : in bit; y, z : out bit; vdd, vss : in bit); end long;
architecture vbe of long is
signal s : bit_vector(99999 downto 0);
begin
s(99999 downto 1) <= s(99998 downto 0);
s(0) <= a;
y <= s(99999);
z <= not a;
end vbe;
"""

LONG_LAYOUT = b"""V ALLIANCE : 6
H long,P,01/01/2000,100
A 0,0,2000,5000
S 0,300,2000,300,600,vss,RIGHT,CALU1
S 0,4700,2000,4700,600,vdd,RIGHT,CALU1
S 500,1000,500,4000,200,a,UP,CALU1
S 1000,1000,1000,4000,200,y,UP,CALU1
S 1500,1000,1500,4000,200,z,UP,CALU1
EOF
"""


def check_many_bits(results, program):
    """Instances of a cell with 100,002 equations: their bits, those of the classes (two outputs each, the input and the supplies) and of the
    four ports are more than 32 bits can number. So they are a limit, and memory isn't asked for."""
    count = 42949
    reached = count * 100002 + 2 * count + 3 + 4
    text = "entity r is port (i : in bit; q : out bit; vdd, vss : in bit); end r;\narchitecture x of r is\n"
    text += "component long port (a : in bit; y, z : out bit; vdd, vss : in bit); end component;\n"
    text += "".join(f"signal y{k}, z{k} : bit;\n" for k in range(count)) + "begin\n"
    for k in range(count):
        text += f"u{k} : long port map (a => i, y => {f'y{k}' if k else 'q'}, z => z{k}, vdd => vdd, vss => vss);\n"
    files = {"lib/CATAL": b"long C\n", "lib/long.vbe": LONG, "lib/long.ap": LONG_LAYOUT}
    with Room() as room:
        room.write({**files, "r.vst": f"{text}end x;\n".encode(), "t.pat": b"in i; out q; begin < 0 ns> : 0 ?0; end;"})
        got = room.run(program, WORDS)
        wanted = 9, b"asimut: limit: bits %d\n" % reached
        results.note(f"{reached} bits of a netlist's machine", got == wanted, f"came to {shown(*got)}, wanted {wanted}")


def jobs(program, seed, times):
    yield check_large, (program, seed, 16000, 12)
    yield check_long, (program,)
    yield check_many_bits, (program,)
    yield check_chain, (program, 4000)
    yield check_cut, (program,)
    for check, count in ((check_netlists, NETLISTS), (check_rings, RINGS)):
        numbers = range(count * times)
        for at in range(0, len(numbers), CHUNK):
            yield check, (program, seed, numbers[at : at + CHUNK])
