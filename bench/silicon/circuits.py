"""The circuits that are laid out: all examples, those of courses, and an ALU of 16 bits; or given ones, in Verilog and VHDL too."""

import subprocess
import sys

from .program import TOP

sys.path.insert(0, str(TOP / "bench"))
import course_circuits  # noqa: E402

EXAMPLES = ("inverter/row1.vbe", "adder/add4.vbe", "counter/cnt4.vbe", "lock/lock.fsm", "checking/pick.vbe", "alu/alu8.vbe")
COURSES = (("counter", 4), ("counter", 8), ("decoder", 3), ("decoder", 4), ("encoder", 8), ("encoder", 16), ("machine", 8), ("machine", 16),
           ("filter", 4), ("alu", 4), ("alu", 8), ("alu", 16))


def sources(folder):
    """Paths of the sources, those of courses made in the folder."""
    yield from (TOP / "examples" / name for name in EXAMPLES)
    for kind, number in COURSES:
        path = folder / f"{kind}{number}.{'fsm' if kind == 'machine' else 'vbe'}"
        path.write_text(course_circuits.text_of(kind, number))
        yield path


def brought(source, folder):
    """The path of a source for flow. One in Verilog or VHDL is synthesised into the folder, and is called uart_vhd if it was uart.vhd."""
    if source.suffix not in (".v", ".sv", ".vhd", ".vhdl"):
        return source
    made = folder / f"{source.stem}_{source.suffix[1:]}.vbe"
    words = [sys.executable, TOP / "share/synth", source.stem, source, "-o", made, "--sync-reset"]
    done = subprocess.run(words, capture_output=True, text=True)
    if done.returncode:
        sys.exit(done.stderr.strip())
    return made
