"""Machines and netlists as Verilog, with patterns as a bench for Icarus Verilog: a third simulation, over what the second readers
read.
"""

import shutil
import subprocess

from share.formats.models import IN, OUT
from share.formats.pat_oracle import PatternReader, bits_of, is_supply
from share.formats.verilog import net, of_machine, of_netlist
from share.formats.vst import Netlist

SECONDS = 100


def is_installed():
    return bool(shutil.which("iverilog") and shutil.which("vvp"))


def given(columns, item):
    """The bits of the input columns of one pattern."""
    found = {}
    for column, (_, digits) in zip(columns, item.values):
        if column.way == IN and not is_supply(column):
            found.update(zip(column.bits(), bits_of(column, digits)[0]))
    return found


def clock_of(source):
    """A machine has its clock's name, a netlist the bit."""
    return (source.clock, -1) if isinstance(source.clock, str) else source.clock


def bench(source, columns, items):
    """The inputs settle before the clock rises, and the outputs are shown when all has settled again."""
    ports, clock = source.ports, clock_of(source)
    lines = [f"{'reg' if way == IN else 'wire'} {net(bit)}{'= 0' if way == IN else ''};\n" for bit, way in ports.items()]
    lines.append(f"\\top: \\dut: ({', '.join(f'.{net(bit)}({net(bit)})' for bit in ports)});\ninitial begin\n")
    shown_bits = [bit for column in columns if column.way == OUT for bit in column.bits()]
    show = f'$display("%b", {{{", ".join(map(net, shown_bits))}}});' if shown_bits else '$display("");'
    for item in items:
        bits = given(columns, item)
        lines += [f"{net(bit)}= {value}; " for bit, value in bits.items() if bit != clock]
        rise = f"{net(clock)}= {bits[clock]}; " if clock in bits else ""
        lines.append(f"#1 {rise}#1 {show}\n")
    return f"module bench;\n{''.join(lines)}$finish;\nend\nendmodule\n"


def shown(room, text, source, columns, items):
    """The bits of the output columns of each pattern, as Icarus Verilog shows them."""
    (room.folder / "t.v").write_text(text + bench(source, columns, items))
    made = subprocess.run(["iverilog", "-o", "t.vvp", "-s", "bench", "t.v"], cwd=room.folder, capture_output=True, timeout=SECONDS, check=False)
    if made.returncode:
        return [made.stderr.decode(errors="replace")[:2000]]
    run = subprocess.run(["vvp", "-n", "t.vvp"], cwd=room.folder, stdout=subprocess.PIPE, timeout=SECONDS, check=True)
    return run.stdout.decode().splitlines()


def printed_bits(printed):
    """The bits of the output columns of each pattern, as `asimut` printed them, with the columns and the patterns."""
    columns, items = PatternReader(printed).file()
    rows = [[bits_of(c, digits)[0] for c, (_, digits) in zip(columns, item.values) if c.way == OUT] for item in items]
    return columns, items, ["".join(str(bit) for bits in row for bit in bits) for row in rows]


def note(results, room, title, printed, source):
    """Whether Icarus Verilog shows what `asimut` printed of a machine or a netlist."""
    columns, items, wanted = printed_bits(printed)
    text = of_netlist(source) if isinstance(source, Netlist) else of_machine(source)
    seen = shown(room, text, source, columns, items)
    results.note(f"{title} in Icarus Verilog", seen == wanted, f"{seen[:9]} and {wanted[:9]} of {text[:3000]!r}")
