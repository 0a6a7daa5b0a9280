#!/usr/bin/env python3
"""Runs the built programs on real files and on many texts.

Usage: acceptance/run.py PROGRAM [FRONT_PROBE [CELL_PROBE [MAZE_PROBE]]] [--many] [--seed N]

PROGRAM is `alliance`, or what `./build.sh --quick` leaves; FRONT_PROBE the program that reads fronts of VHDL texts, CELL_PROBE the one that
reads ap files and libraries, of which cells.py says what it prints, MAZE_PROBE the one that routes nets over empty grids (moves.py). What asks
for a probe that isn't there is skipped with a line. Run are the cases of crates/cases/data and of acceptance/large, each as its file says; each
again with a folder in the place of every file that it reads or writes, with that file missing, and with a full output; each tool where
something of the machine fails (tools/real_faults.py); the second readers on the same cases; and then the texts that each tool's module makes.
Each language has one second reader, written from docs/FORMATS.md in this language; nothing that a program printed is wanted of it. What the
documents name is looked up too, by bench/claims.py, and bench/headline.py has to write the headline's pages as they stand. The commands of README,
TOUR and other pages are run and compared with what the pages show, and the programs of share/ are tried. The row library is looked at
below metal 1, and where Magic and Netgen are installed, so is the real layout of a counter. No layout of the circuits of bench/baseline.py may
have become worse.

--many makes ten times as many random texts. What can't be run on this machine is skipped with a line. The last line is
`N passed, N failed, N skipped`.
"""
import argparse
import os
import pathlib
import sys
import traceback
from multiprocessing import Pool

sys.path[0] = str(pathlib.Path(__file__).resolve().parent.parent)
from acceptance import cells, moves  # noqa: E402
from acceptance.running import baseline, below_metal, documents, front  # noqa: E402
from acceptance.running.case_file import case_files  # noqa: E402
from acceptance.running.cases import check_case  # noqa: E402
from acceptance.running.results import Results  # noqa: E402
from acceptance.shared import brought, course, explained, installed, layouts, liberty, pages, pictures, programs, real_layers, rechecks  # noqa: E402
from acceptance.tools import cut_files, real_faults  # noqa: E402
from acceptance.tools.table import TOOLS  # noqa: E402

MOST_SHOWN = 40


def jobs_of(program, probe, cell_probe, maze_probe, seed, times):
    """Functions with what they are given behind the results, the longest first."""
    yield documents.check, ()
    yield from baseline.jobs(program)
    yield from pages.jobs(program)
    yield from programs.jobs(program)
    yield from pictures.jobs()
    yield from brought.jobs(program)
    yield from course.jobs(program)
    yield from explained.jobs(program)
    yield from liberty.jobs()
    yield from installed.jobs(program)
    yield from below_metal.jobs(program)
    yield from layouts.jobs(program)
    yield from real_layers.jobs(program)
    yield from rechecks.jobs(program)
    yield from real_faults.jobs(program)
    yield from cut_files.jobs(program)
    yield from front.jobs(probe, seed, times)
    yield from cells.jobs(cell_probe, seed, cells.COUNT * times)
    yield from moves.jobs(maze_probe, seed, times)
    for tool in TOOLS.values():
        yield from tool.jobs(program, seed, times)
    for path in case_files():
        yield check_case, (program, path)


def work(job):
    function, given = job
    results = Results()
    try:
        function(results, *given)
    except Exception:  # A check that can't go on is a failure among the others, with the place in which it stood.
        results.note(f"{function.__module__}.{function.__name__}", False, traceback.format_exc())
    return results


def main():
    reader = argparse.ArgumentParser(usage="%(prog)s PROGRAM [FRONT_PROBE [CELL_PROBE [MAZE_PROBE]]] [--many] [--seed N]")
    reader.add_argument("program", type=pathlib.Path)
    reader.add_argument("front_probe", type=pathlib.Path, nargs="?")
    reader.add_argument("cell_probe", type=pathlib.Path, nargs="?")
    reader.add_argument("maze_probe", type=pathlib.Path, nargs="?")
    reader.add_argument("--many", action="store_true")
    reader.add_argument("--seed", type=int, default=1)
    given = reader.parse_args()
    for program in filter(None, (given.program, given.front_probe)):
        if not os.access(program, os.X_OK):
            reader.error(f"{program} can't be run")
    probes = map(cells.runnable, (given.front_probe, given.cell_probe, given.maze_probe))
    jobs = list(jobs_of(str(given.program.resolve()), *probes, given.seed, 10 if given.many else 1))
    total = Results()
    with Pool(os.cpu_count()) as pool:
        for results in pool.imap_unordered(work, jobs):
            total.add(results)
    for line in total.failures[:MOST_SHOWN]:
        print(f"FAILED: {line}")
    for line in sorted(set(total.skips)):
        print(f"skipped: {line}")
    print(f"{total.passed} passed, {len(total.failures)} failed, {len(total.skips)} skipped")
    return 1 if total.failures else 0


if __name__ == "__main__":
    sys.exit(main())
