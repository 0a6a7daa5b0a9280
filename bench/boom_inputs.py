#!/usr/bin/env python3
"""Writes the sources that bench/boom.sh measures; acceptance/tools/boom.py makes them.

Usage: bench/boom_inputs.py KIND BITS FOLDER      writes c.vbe into the folder

KIND is woven (an adder whose operands are met bit by bit), apart (one operand is met before the other), times (a multiplier) or
parity.
"""
import pathlib
import sys

sys.path.append(str(pathlib.Path(__file__).resolve().parent.parent))
from acceptance.tools import boom  # noqa: E402

KINDS = {
    "woven": lambda bits: boom.adder(bits, True), "apart": lambda bits: boom.adder(bits, False),
    "times": boom.multiplier, "parity": boom.parity,
}

if __name__ == "__main__":
    if len(sys.argv) != 4 or sys.argv[1] not in KINDS:
        sys.exit(__doc__)
    (pathlib.Path(sys.argv[3]) / "c.vbe").write_bytes(KINDS[sys.argv[1]](int(sys.argv[2])))
