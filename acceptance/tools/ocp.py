"""What the second readers say of `ocp`, and what no case of it has: random netlists over random libraries, in as many rows as are asked for
and in a square block. The file has the lines of a placement by the rules of blocks, without routes; the placement is even, no exchange of
neighbours makes it shorter, and it is no longer than after the moves.
"""

import random
import re
from typing import NamedTuple

from acceptance.makers.net_maker import NetMaker, one_change
from acceptance.meaning import placing
from acceptance.meaning.rows import Rows, head_lines, rows_of
from share.formats import ap, cellcheck
from share.formats.models import Refusal, library, of_folder
from share.formats.vbe_oracle import Ring
from share.formats.vhdl_reader import SUPPLIES, Refused
from share.formats.vst import FILE, netlist
from acceptance.readers.words import command, held, trouble
from acceptance.running.results import Room, shown
from acceptance.tools.answers import agrees as same_answer
from acceptance.tools.answers import refusal
from acceptance.tools.loon import library_with_drives, usable

USAGE = "usage: alliance ocp SOURCE.vst -l DIR -o NAME [--rows 1..256] [--seed 0..4294967295] [--moves 0..1000000]\n"
BOUNDS = {"--rows": (1, 256), "--seed": (0, 4294967295), "--moves": (0, 1000000)}
MOVES = 10000
NETLISTS, CHUNK = 120, 15
LENGTH = re.compile(rb"length (0|[1-9][0-9]*)\n")


# ---- the second answer


class Ocp(NamedTuple):
    """What is asked. Without rows they make a block about square."""

    source: str
    folder: str
    out: str
    rows: int | None
    seed: int
    moves: int


def within(found, bounds):
    """Whether the numbers that are given are within their bounds."""
    for option, (least, most) in bounds.items():
        number = found.get(option, str(least))
        if not re.fullmatch("[0-9]{1,10}", number) or not least <= int(number) <= most:
            return False
    return True


def parsed(words):
    """The command, or None."""
    found = command(words, ".vst", {"-l": "", "-o": ""} | dict.fromkeys(BOUNDS, ""))
    if not found or not {"-l", "-o"} <= set(found[1]) or not within(found[1], BOUNDS):
        return None
    source, given = found
    rows = int(given["--rows"]) if "--rows" in given else None
    return Ocp(source, given["-l"], given["-o"], rows, int(given.get("--seed", "0")), int(given.get("--moves", str(MOVES))))


def source_of(source, folder, files):
    """The netlist of usable cells that SOURCE is, with the ports of both supplies; the library is refused before it."""
    models = library(files, folder)
    n = netlist(held(files, source), usable(models))
    for supply in SUPPLIES:
        if (supply, -1) not in n.all_ports:
            raise Refused(f"input 1 unknown {supply}")
    return n


def second(words, files):
    """What the second readers say of a command over files: (status, text), or (2, Ring) where any of some rings may be named. How long the
    nets of a placement are is read off its file."""
    found = parsed(words)
    if found is None:
        return 1, USAGE
    refused = trouble(files, found.source, FILE)
    if refused:
        return refused[0], f"ocp: {refused[1]}\n"
    try:
        source_of(found.source, found.folder, files)
    except Refusal as refused:
        return refused.status, f"ocp: {refused.line}\n"
    except Ring as ring:
        return 2, ring
    except Refused as refused:
        return refusal("ocp", found.source, str(refused))
    return 0, "length "


def agrees(got, wanted):
    return LENGTH.fullmatch(bytes(got[1])) is not None if (got[0], wanted[0]) == (0, 0) else same_answer(got, wanted)


# ---- the layout that is written


def placed_text(n, cells, rows):
    """The text of a placement without routes."""
    return "".join(f"{line}\n" for line in [*head_lines(Rows(n, cells, rows)), "EOF"]).encode()


def cells_of(files, folder):
    return cellcheck.cells(of_folder(files, folder), False)


def written_faults(words, files, text, printed=None):
    """What is wrong with the layout that a command wrote and with the length that it printed, or nothing."""
    found = parsed(words)
    n, cells = source_of(found.source, found.folder, files), cells_of(files, found.folder)
    try:
        rows = rows_of(ap.read(text))
    except ap.Refused as refused:
        return [f"it is refused: {refused}"]
    if sorted(name for row in rows for name in row) != sorted(n.owners):
        return ["an instance doesn't stand in the rows once"]
    faults = list(placing.faults(n, cells, rows, found.rows, found.seed, found.moves))
    if text != placed_text(n, cells, rows):
        faults.append("it isn't the text of its placement")
    length = Rows(n, cells, rows).length()
    if printed is not None and bytes(printed) != f"length {length}\n".encode():
        faults.append(f"the length {length} is printed as {bytes(printed)!r}")
    return faults


def writes(words, files):
    """The file that a command writes, with the check of its text."""
    return f"{parsed(words).out}.ap", lambda text: written_faults(words, files, text)


# ---- what is run


def run_placed(results, room, program, title, files, words):
    """Runs ocp on r.vst, and where it succeeds reads what it wrote: the text of the placement, or None. The files are those of the room."""
    wanted = second(words, files)
    (room.folder / "r.vst").write_bytes(files["r.vst"])
    (room.folder / "p.ap").unlink(missing_ok=True)
    got = room.run(program, words)
    results.note(title, agrees(got, wanted), f"{words} came to {shown(*got)}, wanted {wanted} for {files['r.vst'][:4000]!r}")
    is_there = (room.folder / "p.ap").exists()
    if got[0] or wanted[0]:
        results.note(f"{title}: the file behind a refusal", not is_there, "it is there")
        return None
    text = (room.folder / "p.ap").read_bytes() if is_there else b""
    faults = written_faults(words, files, text, got[1])
    results.note(f"{title}: the placement", not faults, f"{faults} of {words} in {text[:3000]!r} for {files['r.vst'][:3000]!r}")
    return None if faults else text


def placing_words(choose):
    """The words of ocp, with any numbers or none."""
    words = ["ocp", "r.vst", "-l", "lib", "-o", "p"]
    for option, numbers in (("--rows", (1, 2, 3, 5, 256)), ("--seed", (0, 1, 4294967295)), ("--moves", (0, 1, 100, 20000))):
        if choose.random() < 0.6:
            words += [option, str(choose.choice(numbers))]
    return words


def check_netlists(results, program, seed, numbers):
    """Each as it is and with one token changed."""
    for number in numbers:
        choose = random.Random(f"{seed} ocp {number}")
        files = library_with_drives(choose)
        models = library(files, "lib")
        text = NetMaker(choose, usable(models) if choose.random() < 0.9 else models).text()
        with Room() as room:
            room.write(files)
            run_placed(results, room, program, "a random netlist to place", {**files, "r.vst": text.encode()}, placing_words(choose))
            changed = one_change(choose, text).encode()
            run_placed(results, room, program, "a changed netlist to place", {**files, "r.vst": changed}, placing_words(choose))


def jobs(program, seed, times):
    numbers = range(NETLISTS * times)
    for at in range(0, len(numbers), CHUNK):
        yield check_netlists, (program, seed, numbers[at : at + CHUNK])
