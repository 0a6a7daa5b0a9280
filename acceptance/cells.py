#!/usr/bin/env python3
"""Compares a program that reads ap files and libraries with the second readers, on worked cases and on files made at random.

Usage: acceptance/cells.py [PROGRAM] [--count N] [--seed N]

PROGRAM prints one line for each file or folder that it is given:

    PROGRAM ap FILE..           ok NAME ITEMS TEXT | LINE FAULT | limit KIND REACHED
    PROGRAM library FOLDER..    ok | catal LINE | CELL CAUSE | limit KIND REACHED | missing FILE
    PROGRAM tracks FOLDER..     the same, with the check that only a layout by private tracks asks for

NAME is the figure's name in the writer's spelling, ITEMS how many it has, TEXT the writer's text of it on one line: a
backslash, and each byte that isn't printed in ASCII, as a backslash and two digits in base sixteen. FILE is FOLDER/NAME.

Without a PROGRAM, or where it isn't there, the second readers alone are run: on the worked cases of acceptance/cells, whose
answers are written by hand, and on cells that were changed in a way whose cause is known. N is how many random libraries
there are (1000); of ap files there are five times as many. The last line is `N passed, N failed, N skipped`.
"""

import argparse
import os
import pathlib
import random
import sys

if __name__ == "__main__":
    sys.path[0] = str(pathlib.Path(__file__).resolve().parent.parent)
from acceptance.makers import ap_maker  # noqa: E402
from acceptance.makers.cell_maker import CHANGES, WIDTH, CellMaker, can_change, shift  # noqa: E402
from acceptance.running import row_library  # noqa: E402
from acceptance.running.case_file import expanded  # noqa: E402
from acceptance.running.places import CELLS, LIBRARIES  # noqa: E402
from acceptance.running.results import Results, Room  # noqa: E402
from share.formats import ap, cellcheck  # noqa: E402

CHUNK, MOST_SHOWN, COUNT = 250, 40, 1000
AP, PLAIN, TRACKS = "ap", "library", "tracks"


# ---- cases: (title, kind, files, wanted), files being those of the folder, or the bytes of one ap file; wanted is None where
# the second readers say it


def answer(kind, files):
    return ap.answer(files) if kind == AP else cellcheck.library(files, kind == TRACKS)


# ---- worked cases


def sections(path):
    """What stands before the first section, and then each section's title with its bytes."""
    head, parts = [], []
    for line in path.read_bytes().removesuffix(b"\n").split(b"\n"):
        if line.startswith(b"-- ") and line.endswith(b" --"):
            parts.append((expanded(line[3:-3]).decode(), []))
        elif parts:
            whole = expanded(line.removesuffix(b"<<open>>")).replace(b"<<cr>>", b"\r").replace(b"<<tab>>", b"\t")
            parts[-1][1].append(whole if line.endswith(b"<<open>>") else whole + b"\n")
        else:
            head.append(line.decode())
    return head, [(title, b"".join(rows)) for title, rows in parts]


def worked_case(path):
    """The cases of one file, of which the name says what it holds; acceptance/cells/README.md has the form."""
    title = f"cells/{path.name}"
    head, parts = sections(path)
    head = [line for line in head if line and not line.startswith("#")]
    if path.name.startswith("library-"):
        yield from ((title, kind, dict(parts), line) for kind, line in (line.split(": ", 1) for line in head))
    elif path.name.startswith("catal-"):
        yield from ((f"{title} ({k})", PLAIN, {"CATAL": data}, line) for k, (line, data) in enumerate(parts, 1))
    else:
        yield from ap_cases(title, "".join(f"{line}\n" for line in head).encode(), parts)


def ap_cases(title, head, parts):
    """Each file begins with the head. `written` is the writer's text of the file before it."""
    for k, (line, data) in enumerate(parts):
        if line == "written":
            continue
        if parts[k + 1 : k + 2] and parts[k + 1][0] == "written":
            line += " " + ap.quoted(head + parts[k + 1][1])
        yield f"{title} ({k + 1})", AP, head + data, line


def worked():
    """The worked cases, and the row library, which passes its checks."""
    for path in sorted(LIBRARIES.glob("*.txt")):
        yield from worked_case(path)
    for kind in (PLAIN, TRACKS):
        yield "the row library", kind, cellcheck.folder(CELLS), "ok"


def begins(got, wanted):
    """The answer, where `ok NAME ITEMS` stands for any text behind it."""
    return got == wanted or (wanted.startswith("ok ") and len(wanted.split()) == 3 and got.split(" ")[:3] == wanted.split())


# ---- random files


def random_ap(choose, count):
    library = [path.read_bytes() for path in sorted(CELLS.glob("*.ap"))]
    for data in (choose.choice(library), whole_file(choose)):
        yield from ap_maker.cuts(data)
        yield from ap_maker.cuts(data.replace(b"\n", b"\r\n"))
        yield from ap_maker.single_bytes(data)
    for _ in range(count):
        figure = ap_maker.FigureMaker(choose).figure()
        spelled = ap_maker.Speller(choose).file(*figure)
        yield ap_maker.Speller(choose, True).file(*figure)
        yield spelled
        for _ in range(3):
            yield ap_maker.broken(choose, spelled)


def whole_file(choose):
    """A file in which each letter begins a line."""
    while True:
        name, box, items = ap_maker.FigureMaker(choose).figure()
        if {item[0] for item in items} == set("CSVIRB"):
            return ap_maker.Speller(choose, True).file(name, box, items)


def files_of(choose, cell):
    foot = [line.encode() for line in cell.foot]
    layout = ap_maker.Speller(choose).file((cell.name, -1), cell.box, cell.items(), foot)
    return {f"{cell.name}.vbe": cell.behaviour(), f"{cell.name}.ap": layout}


def changed_cell(choose, name):
    """A cell with no, one or two causes brought in, or with some items shifted."""
    cell = CellMaker(choose).cell(name)
    if choose.random() < 0.4:
        for _ in range(choose.choice([1, 1, 1, 2, 4])):
            shift(choose, cell)
        return cell
    for cause in choose.sample(list(CHANGES), choose.choice([0, 0, 1, 1, 2])):
        if can_change(cell, cause):
            CHANGES[cause](choose, cell)
    return cell


def catal(choose, names):
    lines = [f"{name}{choose.choice([' ', '  ', chr(9)])}C" for name in names]
    if choose.random() < 0.3:
        others = ["", "feed G", "x F", f"{names[0]} F", f"{names[0]} C", "x c", "x", " x C", "in C", "x C ", f"{'n' * 65} G", "1x C", "a_ CC"]
        lines.insert(choose.randrange(len(lines) + 1), choose.choice(others))
    end = choose.choice(["\n"] * 9 + [""])
    return ("\n".join(lines) + end).encode()


def random_library(choose):
    names = choose.sample(["x1", "x2", "vdd", "a_b", "z"], choose.choice([1, 1, 2, 3]))
    files = {}
    for name in names:
        files.update(files_of(choose, changed_cell(choose, name)))
    if choose.random() < 0.05:
        del files[choose.choice(list(files))]
    if choose.random() < 0.1:
        spoil(choose, files)
    return {"CATAL": catal(choose, names), **files}


def cut_libraries(choose):
    """A library of one cell with each of its files cut at every byte."""
    cell = CellMaker(choose).flip_flop("x1")
    files = {"CATAL": b"feed G\n\nx1 C\n", **files_of(choose, cell)}
    for name, data in files.items():
        for k in range(len(data)):
            if not data[:k].endswith(b"\r"):
                yield {**files, name: data[:k]}


def spoil(choose, files):
    """One file with a limit passed."""
    name = choose.choice(list(files))
    changes = [(b"entity ", b"entity " + b"n" * 65), (b":= 1", b":= 4294967296"), (b"A 0,0,", b"A 0,-1000000000001,"), (b",P,", b"_" * 65 + b",P,")]
    old, new = choose.choice(changes)
    files[name] = files[name].replace(old, new, 1)


def labelled(choose):
    """A cell with one cause brought in, and the line that it comes to."""
    while True:
        cause, cell = choose.choice(list(CHANGES)), CellMaker(choose).cell("x1")
        if can_change(cell, cause):
            break
    CHANGES[cause](choose, cell)
    wanted = f"limit width {cell.columns}" if cause == WIDTH else f"x1 {cause}"
    return {"CATAL": b"x1 C\n", **files_of(choose, cell)}, wanted


def unmappable(choose):
    """A cell that no layout uses, with a change that doesn't count there."""
    cell = CellMaker(choose).other("x1")
    cause = choose.choice([cause for cause in CHANGES if cause > 3 and (cause != 10 or len(cell.pins) > 1)])
    if not any(isinstance(pin, tuple) for pin in cell.pins):
        CHANGES[cause](choose, cell)
    return {"CATAL": b"x1 C\n", **files_of(choose, cell)}, "ok"


# ---- the comparison


def check_second(results, cases):
    for title, kind, files, wanted in cases:
        got = answer(kind, files)
        results.note(f"the second reader, {title} ({kind})", begins(got, wanted), f"came to {got!r}, wanted {wanted!r} for {shown(files)}")


def check_known(results, seed, count):
    choose = random.Random(seed)
    for _ in range(count):
        for files, wanted in (labelled(choose), unmappable(choose)):
            check_second(results, [("a changed cell", TRACKS, files, wanted)])
            if wanted == "x1 10":
                check_second(results, [("a changed cell", PLAIN, files, "ok")])


def shown(files):
    return repr(files[:1500]) if isinstance(files, bytes) else "\n".join(f"{name}: {data[:1500]!r}" for name, data in files.items())


def check_program(results, program, kind, cases):
    """One run of the program on all these: names 0, 1 and so on stand for files or folders."""
    names = [str(k) for k in range(len(cases))]
    with Room() as room:
        for name, (_, _, files, _) in zip(names, cases):
            room.write({name: files} if kind == AP else {f"{name}/{file}": data for file, data in files.items()} or {name: None})
        status, printed = room.run(program, [kind, *names])
    lines = printed.decode(errors="replace").split("\n")
    results.note("the program's end", status == 0 and len(lines) == len(cases) + 1, f"status {status}, {len(lines) - 1} lines for {len(cases)} texts")
    for name, (title, _, files, wanted), got in zip(names, cases, lines + [""] * len(cases)):
        wanted = answer(kind, files) if wanted is None else wanted
        wanted = wanted.replace("missing ", f"missing {name}/") if kind != AP else wanted
        results.note(f"{title} ({kind})", begins(got, wanted), f"printed {got!r}, wanted {wanted!r} for {shown(files)}")


def all_cases(seed, count):
    """The worked cases with their own answers, and random files."""
    yield from worked()
    choose = random.Random(seed)
    for data in random_ap(choose, count):
        yield "an ap file", AP, data, None
    for files in cut_libraries(choose):
        yield "a library with a file that is cut", PLAIN, files, None
    for _ in range(count):
        files = random_library(choose)
        for kind in (PLAIN, TRACKS):
            yield "a library", kind, files, None


def jobs(program, seed, count):
    """Functions with what they are given behind the results. Where there is no program the second readers run alone."""
    yield check_second, (list(worked()),)
    yield check_known, (seed, count)
    yield row_library.check, ()
    if program is None:
        yield Results.skip, ("there is no program that reads cells: the second readers are run alone",)
        return
    waiting = {AP: [], PLAIN: [], TRACKS: []}
    for case in all_cases(seed, count):
        of_kind = waiting[case[1]]
        of_kind.append(case)
        if len(of_kind) == CHUNK:
            yield check_program, (program, case[1], list(of_kind))
            of_kind.clear()
    for kind, cases in waiting.items():
        if cases:
            yield check_program, (program, kind, cases)


def runnable(program):
    """The program's whole name, or None."""
    return str(program.resolve()) if program and os.access(program, os.X_OK) else None


def main():
    reader = argparse.ArgumentParser(usage="%(prog)s [PROGRAM] [--count N] [--seed N]")
    reader.add_argument("program", type=pathlib.Path, nargs="?")
    reader.add_argument("--count", type=int, default=COUNT)
    reader.add_argument("--seed", type=int, default=1)
    given = reader.parse_args()
    results = Results()
    for function, words in jobs(runnable(given.program), given.seed, given.count):
        function(results, *words)
    for line in results.failures[:MOST_SHOWN]:
        print(f"FAILED: {line}")
    for line in results.skips:
        print(f"skipped: {line}")
    print(f"{results.passed} passed, {len(results.failures)} failed, {len(results.skips)} skipped")
    return 1 if results.failures else 0


if __name__ == "__main__":
    sys.exit(main())
