#!/usr/bin/env python3
"""The circuits of examples/course from end to end; bench/course.sh says how."""
import pathlib
import shutil
import sys

sys.path.insert(0, str(pathlib.Path(__file__).resolve().parent.parent))
from acceptance.running.results import Results  # noqa: E402
from acceptance.shared import course  # noqa: E402

PROGRAMS = "yosys", "ghdl", "iverilog", "klayout"


def line_of(circuit, outcome):
    if outcome is None:
        return f"{circuit!s:20} stops"
    ways = " ".join(f"{count:4}" for count in outcome.functions.values())
    return f"{circuit!s:20} {outcome.cells:5} {outcome.columns:7} {outcome.length:8} {ways} {outcome.seconds:7.1f}  {outcome.verdict}"


def main(program, *names):
    gone = [name for name in PROGRAMS if not shutil.which(name)]
    if gone:
        print(f"not installed: {', '.join(gone)}")
        return 2
    chosen = [circuit for circuit in course.circuits() if not names or circuit.name in names or str(circuit) in names]
    print(f"{'circuit':20} cells columns   length  all diag vect seconds  recheck")
    right, seconds = 0, 0.0
    for circuit in chosen:
        results = Results()
        outcome = course.gone_through(results, str(pathlib.Path(program).resolve()), circuit)
        print(line_of(circuit, outcome), flush=True)
        for failure in results.failures:
            print(f"  FAILED: {failure}", flush=True)
        right += not results.failures
        seconds += outcome.seconds if outcome else 0
    print(f"{right} of {len(chosen)} from source to layout, looked at again, opened as DEF and as GDSII; {seconds:.0f} seconds")
    return 0 if chosen and right == len(chosen) else 1


if __name__ == "__main__":
    sys.exit(main(*sys.argv[1:]))
