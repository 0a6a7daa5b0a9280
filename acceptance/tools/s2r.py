"""What the second readers say of `s2r`, and what no case of it has: layouts made at random over random libraries by tables made at random,
rectangles at about the distance at which they grow together, and what `flow` draws on both routes. Beside the bytes of the CIF file, as
docs/formats/real.md has them, the file is read by a reader of CIF, and its boxes, which of them meet and how far the others are apart are
looked at pair by pair.
"""

import random
import re
from fractions import Fraction

from acceptance.makers.layout_maker import LayoutMaker
from acceptance.makers.random_sources import Maker
from acceptance.readers.words import command, held, trouble
from acceptance.running.results import Room, shown
from acceptance.tools import flow, process
from acceptance.tools.answers import agrees, refusal
from acceptance.tools.boog import of_cells
from acceptance.tools.druc import cells_in, told
from acceptance.tools.net_jobs import random_library
from share.formats import ap, cellcheck, cif, extraction
from share.formats.models import Refusal
from share.formats.vbe_oracle import FILE as SMALL_FILE
from share.formats.vst import FILE

USAGE = "usage: alliance s2r SOURCE.ap -p TABLE.real -l DIR -o NAME\n"
WORDS = ["s2r", "r.ap", "-p", "t.real", "-l", "lib", "-o", "r"]
SCALE = re.compile(rb"scale ([0-9]{1,20})")
GROW = re.compile(rb"grow" + rb" ([0-9]{1,20})" * 6)
MOST_SCALE, MOST_GROW, CUT, METALS = 1000, 1000000, 100, 6
CONTACTS = {b"CONT_VIA": 1, b"CONT_VIA2": 2, b"CONT_VIA3": 3, b"CONT_VIA4": 4, b"CONT_VIA5": 5}
LAYOUTS, LADDERS, DRAWN, TABLES, PROCESSES, CHUNK = 200, 60, 24, 120, 60, 12


# ---- the second answer


def parsed(words):
    """SOURCE, TABLE, DIR and NAME, or None."""
    found = command(words, ".ap", {"-p": ".real", "-l": "", "-o": ""})
    return (found[0], found[1]["-p"], found[1]["-l"], found[1]["-o"]) if found and len(found[1]) == 3 else None


class Table:
    """What the text of a table says, or ap.Refused."""

    def __init__(self, text):
        *lines, rest = text.split(b"\n")
        lines += [rest] if rest else []
        scale = self.line(lines, 0, SCALE)
        grow = self.line(lines, 1, GROW)
        if len(lines) > 2:
            raise ap.fault(3, "bad line")
        self.scale, self.grow = int(scale[1]), [int(grow[k]) for k in range(1, METALS + 1)]

    @staticmethod
    def line(lines, at, form):
        if at >= len(lines):
            raise ap.fault(max(at, 1), "no end")
        found = form.fullmatch(lines[at])
        low, high = (1, MOST_SCALE) if at == 0 else (0, MOST_GROW)
        if not found or not all(low <= int(digits) <= high for digits in found.groups()):
            raise ap.fault(at + 1, "bad line")
        return found


class Near(Exception):
    """Two shapes that grow too near each other."""


def close_pairs(shapes, table):
    """Pairs of one metal that don't touch, though their boxes would: by a sweep from the left."""
    reach = Fraction(2 * max(table.grow), table.scale)
    for metal in range(1, METALS + 1):
        order = sorted((k for k in range(len(shapes)) if shapes[k].metal == metal), key=lambda k: shapes[k].box[0])
        for at, k in enumerate(order):
            for other in order[at + 1 :]:
                if shapes[other].box[0] - shapes[k].box[2] > reach:
                    break
                gap = cellcheck.gap(shapes[k].box, shapes[other].box)
                if 0 < gap and gap * table.scale <= 2 * table.grow[metal - 1]:
                    yield min(k, other), max(k, other)


def grown(box, scale, grow):
    """The real box, in units."""
    return (scale * box[0] - grow, scale * box[1] - grow, scale * box[2] + grow, scale * box[3] + grow)


class Real:
    """The boxes and cuts of a layout in real units, by level, or Refused or Near."""

    def __init__(self, figure, cells, table):
        flat = extraction.flat_of(figure, cells)
        for placed in flat.instances:
            if not cells[placed.model].is_mappable():
                raise extraction.Refused(2, f"1: unsupported {placed.model}")
        first = min(close_pairs(flat.shapes, table), default=None)
        if first:
            a, b = (flat.shapes[k] for k in first)
            raise Near(f"near {a.metal} {told(a.box)} {told(b.box)}")
        self.shapes, self.boxes, self.cuts = flat.shapes, {}, {}
        for shape in flat.shapes:
            self.boxes.setdefault(shape.metal, []).append(grown(shape.box, table.scale, table.grow[shape.metal - 1]))
        for item in figure.items:
            if item[0] == "V" and item[3] in CONTACTS:
                x, y, half = item[1], item[2], CUT // 2
                self.cuts.setdefault(CONTACTS[item[3]], []).append(grown((x - half, y - half, x + half, y + half), table.scale, 0))

    def count(self):
        return len(self.shapes)

    def text(self):
        """The file, byte for byte."""
        lines = ["DS 1 1 2;"]
        for letter, levels in (("M", self.boxes), ("V", self.cuts)):
            for level in sorted(levels):
                lines.append(f"L {letter}{level};")
                lines += [f"B {2 * (b[2] - b[0])} {2 * (b[3] - b[1])} {b[0] + b[2]} {b[1] + b[3]};" for b in levels[level]]
        return "\n".join([*lines, "DF;", "C 1;", "E", ""]).encode()


def real_of(found, files):
    """The real layout that a command asks for, or one of four refusals."""
    source, table, folder, _ = found
    cells = cells_in(files, folder)
    figure = ap.read(held(files, source))
    text = held(files, table)
    of_process = text.startswith(b"process ")
    try:
        by = process.Table(text) if of_process else Table(text)
    except ap.Refused as refused:
        raise Refusal(2, f"{table}:{str(refused).replace(' ', ': ', 1)}") from None
    return process.Layout(figure, cells, by) if of_process else Real(figure, cells, by)


def second(words, files):
    """What the second readers say of a command over files: (status, text)."""
    found = parsed(words)
    if found is None:
        return 1, USAGE
    source, table, _, _ = found
    refused = trouble(files, source, FILE) or trouble(files, table, SMALL_FILE)
    if refused:
        return refused[0], f"s2r: {refused[1]}\n"
    try:
        real = real_of(found, files)
    except Refusal as refused:
        return refused.status, f"s2r: {refused.line}\n"
    except ap.Refused as refused:
        said = str(refused)
        return refusal("s2r", source, said if said.startswith("limit ") else f"input {said}")
    except extraction.Refused as refused:
        return refused.status, f"s2r: {source}:{refused.line}\n"
    except (Near, process.Wrong) as wrong:
        return 11, f"s2r: {wrong}\n"
    return 0, f"boxes {real.count()}\n"


# ---- what is written


def levels_in(boxes, letter):
    """The boxes of a reader by level, in whole units."""
    return {int(name[1:]): [tuple(map(int, box)) for box in members] for name, members in boxes.items() if name[0] == letter}


def meet(a, b):
    return a[0] <= b[2] and b[0] <= a[2] and a[1] <= b[3] and b[1] <= a[3]


def joint_faults(real, boxes):
    """Boxes of one metal that meet though their shapes don't touch, or the other way round: every pair is looked at."""
    for level, members in boxes.items():
        shapes = [shape.box for shape in real.shapes if shape.metal == level]
        for at, one in enumerate(members):
            for other in range(at + 1, len(members)):
                if meet(one, members[other]) != meet(shapes[at], shapes[other]):
                    yield f"on M{level} {one} and {members[other]}"


def written_faults(real, text):
    """What is wrong with the file of a real layout, which is read again where it is one of a plain table."""
    if isinstance(real, process.Layout):
        return [] if text == real.text() else ["other bytes"]
    try:
        boxes = cif.read(text)
    except (ValueError, UnicodeDecodeError) as wrong:
        return [f"no CIF: {wrong}"]
    metals = levels_in(boxes, "M")
    faults = [] if text == real.text() else ["other bytes"]
    faults += [] if metals == real.boxes else ["other boxes"]
    faults += [] if levels_in(boxes, "V") == real.cuts else ["other cuts"]
    return faults or list(joint_faults(real, metals))[:3]


def writes(words, files):
    """The file that a command writes, with the check of its bytes."""
    found = parsed(words)
    return f"{found[3]}.cif", lambda text: written_faults(real_of(found, files), text)


# ---- what is run


def table_text(scale, grow):
    return b"scale %d\ngrow %s\n" % (scale, b" ".join(b"%d" % g for g in grow))


def run_made(results, room, program, title, files):
    """Runs s2r on r.ap by t.real; whether it succeeds. The library stands in the room."""
    wanted = second(WORDS, files)
    room.write({name: files[name] for name in ("r.ap", "t.real")})
    (room.folder / "r.cif").unlink(missing_ok=True)
    got = room.run(program, WORDS)
    told_files = f"{files['t.real']!r} and {files['r.ap'][:3000]!r}"
    results.note(title, agrees(got, wanted), f"came to {shown(*got)}, wanted {wanted} for {told_files}")
    text = room.held().get("r.cif")
    if got[0] or wanted[0]:
        results.note(f"{title}: the file behind a refusal", text is None, "it is there")
        return False
    faults = writes(WORDS, files)[1](text or b"")
    results.note(f"{title}: the file", not faults, f"{faults} for {told_files}")
    return not faults


def random_table(choose):
    scale = choose.choice([1, 1, 2, 3, 7, 10, 999, 1000])
    most = choose.choice([0, 0, 1, 10, 50, 99, 100, 101, 500]) * scale
    return table_text(scale, [min(MOST_GROW, choose.choice([most, most // 2, 0, choose.randrange(most + 1)])) for _ in range(METALS)])


def check_layouts(results, program, seed, numbers):
    """Shapes, vias, connectors and instances at random, over cells of all sorts."""
    for number in numbers:
        choose = random.Random(f"{seed} s2r {number}")
        files = random_library(choose)
        with Room() as room:
            room.write(files)
            for _ in range(4):
                text = LayoutMaker(choose, cells_in(files, "lib")).text()
                for _ in range(3):
                    run_made(results, room, program, "a random layout", {**files, "r.ap": text, "t.real": random_table(choose)})


def wire(choose, x, y, metal):
    """A level wire from a left end, 200 or 201 wide."""
    length = choose.choice([0, 500, 1000])
    return f"S {x},{y},{x + length},{y},{choose.choice([200, 200, 201])},*,RIGHT,{choose.choice(['ALU', 'CALU'])}{metal}"


def ladder(choose):
    """Wires above and beside each other, whose gaps are about the one at which they grow together; and the table."""
    scale, gap = choose.choice([1, 2, 3, 10]), choose.choice([1, 99, 100, 199, 200])
    grow = [(gap * scale + choose.choice([-2, -1, 0, 0, 1, 2])) // 2 for _ in range(METALS)]
    lines, y = [], 0
    for _ in range(choose.randrange(2, 9)):
        lines.append(wire(choose, choose.choice([0, 0, 1200 + gap, 1300 + gap]), y, choose.choice([1, 2, 2, 2, 6])))
        y += choose.choice([0, 100, 200, 200 + gap - 1, 200 + gap, 200 + gap + 1, 600 + gap])
    for _ in range(choose.randrange(3)):
        lines.append(f"V {choose.choice([0, 500])},{choose.randrange(y + 1)},{choose.choice(['CONT_VIA', 'CONT_VIA2', 'CONT_VIA5', 'CONT_POLY'])}")
    choose.shuffle(lines)
    head = ["V ALLIANCE : 6", "H ladder,P,01/01/2000,100", "A 0,0,10000,10000"]
    return "\n".join([*head, *lines, "EOF", ""]).encode(), table_text(scale, [max(0, g) for g in grow])


def check_ladders(results, program, seed, numbers):
    files = of_cells(["inv_x1"])
    with Room() as room:
        room.write(files)
        for number in numbers:
            choose = random.Random(f"{seed} s2r ladder {number}")
            for _ in range(8):
                text, table = ladder(choose)
                run_made(results, room, program, "rectangles about the gap", {**files, "r.ap": text, "t.real": table})


def check_drawn(results, program, seed, numbers):
    """What `flow` draws on both routes: with a table by which it has a real layout, and with one by which wires grow together."""
    for number in numbers:
        choose = random.Random(f"{seed} s2r drawn {number}")
        files = {**of_cells(flow.FIVE), "s.vbe": Maker(choose).source().encode()}
        route = ["--tracks"] if number % 2 else ["--rows", str(choose.randrange(1, 4))]
        with Room() as room:
            room.write(files)
            status, printed = room.run(program, ["flow", "s.vbe", "-l", "lib", "-o", "r", *route])
            results.note("a layout to be made real", status in (0, 6), shown(status, printed))
            if status != 0:
                continue
            text = room.held()["r.ap"]
            for table in (table_text(2, [10] * METALS), table_text(1, [0] * METALS), random_table(choose)):
                run_made(results, room, program, "a layout that was drawn", {**files, "r.ap": text, "t.real": table})


def damaged(choose, text):
    """The text of a table with a byte left out, doubled, changed or put in, or a line left out, doubled or exchanged."""
    kind, lines, at = choose.randrange(6), text.split(b"\n"), choose.randrange(len(text))
    if kind == 0:
        return text[:at] + text[at + 1 :]
    if kind == 1:
        return text[:at] + text[at : at + 1] + text[at:]
    if kind == 2:
        return text[:at] + choose.choice([b" ", b"\t", b"\n", b"\r", b"-", b"0", b"9", b"x", b"\xff"]) + text[at + 1 :]
    if kind == 3:
        return text[:at] + choose.choice([b" ", b"\n", b"0", b"7", b"s"]) + text[at:]
    if kind == 4:
        return b"\n".join(lines[: choose.randrange(len(lines))])
    return b"\n".join(choose.choice([lines[::-1], [lines[0], *lines], [*lines, choose.choice([b"", b" ", lines[1]])]]))


def check_tables(results, program, seed, numbers):
    """Tables that are damaged, each byte of one cut off, and numbers about their bounds."""
    files = of_cells(["inv_x1"])
    text = b"V ALLIANCE : 6\nH one,P,01/01/2000,100\nA 0,0,1000,1000\nS 0,0,1000,0,200,a,RIGHT,ALU2\nEOF\n"
    whole = table_text(1000, [1000000, 0, 7, 20, 300, 4000])
    choose = random.Random(f"{seed} s2r table {numbers[0]}")
    tables = [damaged(choose, choose.choice([whole, random_table(choose)])) for _ in numbers]
    if numbers[0] == 0:
        tables += [whole[:at] for at in range(len(whole) + 1)]
        tables += [table_text(scale, [grow] * METALS) for scale in (0, 1, 1000, 1001) for grow in (0, 1000000, 1000001)]
        tables += [b"scale " + b"0" * zeros + b"2\ngrow 0 0 0 0 0 0\n" for zeros in (1, 18, 19, 20)]
    with Room() as room:
        room.write(files)
        for table in tables:
            run_made(results, room, program, "a table", {**files, "r.ap": text, "t.real": table})


def random_process(choose):
    """A table of a process, of which some numbers fit no grid, and some metals are missing."""
    scale, grid = choose.choice([1, 2, 10, 999]), choose.choice([1, 1, 1, 2, 50])
    lines = [f"process p unit {choose.choice([1, 10, 1000])} scale {scale} grid {grid}", "# made at random", ""]
    metals = METALS if choose.random() < 0.9 else choose.randrange(METALS)

    def lengths(*least, step=grid):
        numbers = [low + step * choose.choice([0, 0, 1, 2, -1, 10]) for low in least]
        return " ".join(map(str, numbers + ([grid * choose.randrange(-3, 4), grid * choose.randrange(-3, 4)] if choose.random() < 0.3 else [])))

    def size(width):
        return lengths(2 * width * scale, step=2 * grid)

    for metal in range(1, metals + 1):
        lines += [f"segment {layer}{metal} CM{metal} {lengths(100 * scale, 0)}" for layer in ("ALU", "CALU")] + [f"metal {metal} CM{metal}"]
        lines += [f"space CM{metal} {choose.choice([0, 1, 100, 200, 300]) * scale}"] if choose.random() < 0.5 else []
    for word, low in CONTACTS.items():
        lines += [f"contact {word.decode()} {real} {size(choose.choice([50, 100]))}" for real in (f"CM{low}", f"CV{low}", f"CM{low + 1}")]
    for layer in choose.sample(["NWELL", "NDIF", "PDIF", "NTRANS", "PTRANS", "POLY", "NTIE", "PTIE", "ALU7", "TALU1"], 6):
        lines += [f"segment {layer} {choose.choice(['CAA', 'CPG', 'CWN'])} {lengths(0, 0)}" for _ in range(choose.randrange(1, 3))]
    lines += [f"contact CONT_POLY CPG {size(50)}", "label CALU1 CM1", "label CALU2 CM2", "label ALU2 CM2", "gds CM1 49 0"]
    tail = lines[1:]
    choose.shuffle(tail)
    return "\n".join([lines[0], *tail, ""]).encode()


def check_processes(results, program, seed, numbers):
    """Tables of processes at random, and damaged ones, over layouts at random."""
    for number in numbers:
        choose = random.Random(f"{seed} s2r process {number}")
        files = random_library(choose)
        with Room() as room:
            room.write(files)
            for _ in range(4):
                text, table = LayoutMaker(choose, cells_in(files, "lib")).text(), random_process(choose)
                for one in (table, random_process(choose), damaged(choose, table)):
                    run_made(results, room, program, "a process", {**files, "r.ap": text, "t.real": one})


def jobs(program, seed, times):
    sets = ((DRAWN, check_drawn, 3), (LAYOUTS // 4, check_layouts, CHUNK), (LADDERS, check_ladders, 15), (TABLES, check_tables, 40), (PROCESSES, check_processes, CHUNK))
    for many, check, chunk in sets:
        numbers = range(many * times)
        for at in range(0, len(numbers), chunk):
            yield check, (program, seed, numbers[at : at + chunk])
