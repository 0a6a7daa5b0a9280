#!/usr/bin/env python3
"""Writes the state machines that bench/syf.sh measures; acceptance/tools/syf.py makes them.

Usage: bench/syf_inputs.py KIND STATES FOLDER      writes c.fsm into the folder

KIND is ring (each state leads to the next one) or fork (each leads to one of two by an input, and a reset to the first).
"""
import pathlib
import sys

sys.path.append(str(pathlib.Path(__file__).resolve().parent.parent))
from acceptance.tools import syf  # noqa: E402

KINDS = {"ring": syf.ring, "fork": syf.fork}

if __name__ == "__main__":
    if len(sys.argv) != 4 or sys.argv[1] not in KINDS:
        sys.exit(__doc__)
    (pathlib.Path(sys.argv[3]) / "c.fsm").write_bytes(KINDS[sys.argv[1]](int(sys.argv[2])))
