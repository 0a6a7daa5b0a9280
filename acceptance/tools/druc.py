"""What the second readers say of `druc`, and what no case of it has: layouts made at random over random libraries, and pairs of rectangles
at every distance, with and without what excuses them. The list of breaches is taken from the definition in docs/FORMATS.md: every pair of
shapes is looked at, and every third one.
"""

import functools
import itertools
import random
from typing import NamedTuple

from acceptance.makers.layout_maker import LayoutMaker
from acceptance.readers.words import command, held, trouble
from acceptance.running.results import Room, shown
from acceptance.tools.answers import agrees, refusal
from acceptance.tools.boog import of_cells
from acceptance.tools.net_jobs import random_library
from share.formats import ap, cellcheck, extraction
from share.formats.models import Refusal, library, of_folder
from share.formats.vst import FILE

USAGE = "usage: alliance druc SOURCE.ap -l DIR\n"
WORDS = ["druc", "r.ap", "-l", "lib"]
WIDTH, GAP = 200, 200
LAYOUTS, LADDERS, CHUNK = 300, 60, 50


# ---- the second answer


def parsed(words):
    """SOURCE and DIR, or None."""
    found = command(words, ".ap", {"-l": ""})
    return (found[0], found[1]["-l"]) if found and len(found[1]) == 1 else None


class Layout:
    """The shapes of a layout in their order, those of the figure first, and what links them."""

    def __init__(self, flat):
        self.shapes, self.pads = flat.shapes, set(flat.vias)
        self.links = {k: set() for k in range(len(self.shapes))}
        self.near = []
        for a, b in self.close_pairs():
            if cellcheck.gap(self.shapes[a].box, self.shapes[b].box) == 0:
                self.link(a, b)
            else:
                self.near.append((a, b))
        for k in self.pads:
            self.link(k, k + 1)
        named = {}
        for k, shape in enumerate(self.shapes):
            if shape.terminal is not None:
                self.link(named.setdefault(shape.terminal, k), k)

    def link(self, a, b):
        self.links[a].add(b)
        self.links[b].add(a)

    def close_pairs(self):
        """Pairs of one metal, the first before the second, that touch or are nearer than the gap."""
        order = sorted(range(len(self.shapes)), key=lambda k: self.shapes[k].box[0])
        for at, k in enumerate(order):
            one = self.shapes[k]
            for other in itertools.islice(order, at + 1, None):
                if self.shapes[other].box[0] >= one.box[2] + GAP:
                    break
                if self.shapes[other].metal == one.metal and cellcheck.gap(one.box, self.shapes[other].box) < GAP:
                    yield min(k, other), max(k, other)

    def are_joined(self, a, b):
        """Whether a chain of links leads from one to the other."""
        met, waiting = {a}, [a]
        while waiting:
            for other in self.links[waiting.pop()] - met:
                met.add(other)
                waiting.append(other)
        return b in met

    def is_over_pin(self, a, b):
        """The first is drawn, and lies within a connector, of its metal, of the second's instance."""
        one, other = self.shapes[a], self.shapes[b]
        if one.owner is not None or other.owner is None:
            return False
        pins = (s for s in self.shapes if s.owner == other.owner and s.terminal is not None and s.metal == one.metal)
        return any(cellcheck.holds(pin.box, one.box) for pin in pins)

    def is_bridged(self, a, b):
        """The first lies within a third of its metal that touches the second."""
        one, other = self.shapes[a], self.shapes[b]
        return any(s.metal == one.metal and cellcheck.holds(s.box, one.box) and cellcheck.gap(s.box, other.box) == 0 for s in self.shapes)

    def excuses(self, a, b):
        """What excuses a pair that is too near, by name."""
        one, other = self.shapes[a], self.shapes[b]
        if one.owner is not None and one.owner == other.owner:
            yield "one instance"
        if self.is_over_pin(a, b) or self.is_over_pin(b, a):
            yield "over a pin"
        if (one.owner is not None or other.owner is not None) and self.are_joined(a, b):
            yield "joined"
        if self.is_bridged(a, b) or self.is_bridged(b, a):
            yield "a third"

    def narrow(self):
        return [s for s in self.shapes if s.owner is None and min(s.box[2] - s.box[0], s.box[3] - s.box[1]) < WIDTH]

    def breaches(self):
        """The lines that are printed, but for the last."""
        lines = [f"width {s.metal} {told(s.box)}\n" for s in self.narrow()]
        for a, b in sorted(self.near):
            if not any(self.excuses(a, b)):
                lines.append(f"gap {self.shapes[a].metal} {told(self.shapes[a].box)} {told(self.shapes[b].box)}\n")
        return lines


def told(box):
    return " ".join(map(str, box))


def answer(text, cells, source):
    """The status and the text on a layout over the cells of a library."""
    try:
        lines = Layout(extraction.flat_of(ap.read(text), cells)).breaches()
    except ap.Refused as refused:
        said = str(refused)
        return refusal("druc", source, said if said.startswith("limit ") else f"input {said}")
    except extraction.Refused as refused:
        return refused.status, f"druc: {source}:{refused.line}\n"
    return 11 if lines else 0, "".join([*lines, f"breaches {len(lines)}\n"])


@functools.lru_cache(maxsize=8)
def cells_of(files):
    return cellcheck.cells(dict(files), False)


def cells_in(files, folder):
    """The cells of a library, or Refusal."""
    library(files, folder)
    return cells_of(tuple(sorted(of_folder(files, folder).items())))


def second(words, files):
    """What the second readers say of a command over files: (status, text)."""
    found = parsed(words)
    if found is None:
        return 1, USAGE
    source, folder = found
    refused = trouble(files, source, FILE)
    if refused:
        return refused[0], f"druc: {refused[1]}\n"
    try:
        cells = cells_in(files, folder)
    except Refusal as refused:
        return refused.status, f"druc: {refused.line}\n"
    return answer(held(files, source), cells, source)


# ---- what is run


def run_checked(results, room, program, title, text, cells):
    """Runs druc on the text as r.ap; the files of the library stand in the room."""
    wanted = answer(text, cells, "r.ap")
    (room.folder / "r.ap").write_bytes(text)
    got = room.run(program, WORDS)
    results.note(title, agrees(got, wanted), f"came to {shown(*got)}, wanted {wanted[0]}, {wanted[1][:1000]!r} for {text[:4000]!r}")
    return wanted


def check_layouts(results, program, seed, numbers):
    """Shapes, vias, connectors and instances at random, over cells of all sorts."""
    for number in numbers:
        choose = random.Random(f"{seed} druc {number}")
        files = random_library(choose)
        cells = cells_in(files, "lib")
        with Room() as room:
            room.write(files)
            for _ in range(4):
                run_checked(results, room, program, "a random layout", LayoutMaker(choose, cells).text(), cells)


# A cell whose pins are 150 apart, with a narrow wire beside them.
NEAR_NAME, NEAR_WIDTH = "near_x1", 2500
NEAR_BEHAVIOUR = b"""entity near_x1 is port (i : in bit; nq : out bit; vdd, vss : in bit); end;
architecture x of near_x1 is
begin
nq <= not i;
end;
"""
NEAR_LAYOUT = b"""V ALLIANCE : 6
H near_x1,P,01/01/2000,100
A 0,0,2500,5000
S 0,300,2500,300,600,vss,RIGHT,CALU1
S 0,4700,2500,4700,600,vdd,RIGHT,CALU1
S 500,1000,500,4000,500,i,UP,CALU1
S 1000,1000,1000,4000,200,nq,UP,CALU1
S 1800,2000,1800,3000,100,*,UP,ALU1
EOF
"""


def near_cells():
    files = of_cells(["inv_x1", "na2_x1", "sff1_x4"])
    cell = {f"lib/{NEAR_NAME}.vbe": NEAR_BEHAVIOUR, f"lib/{NEAR_NAME}.ap": NEAR_LAYOUT}
    return {**files, **cell, "lib/CATAL": files["lib/CATAL"] + f"{NEAR_NAME} C\n".encode()}


class Box(NamedTuple):
    """A wire by the rectangle that it shows: level, and its ends 100 within."""

    x1: int
    y1: int
    x2: int
    y2: int

    def line(self, layer, name="*"):
        width = self.y2 - self.y1
        return f"S {self.x1 + 100},{self.y1 + width // 2},{self.x2 - 100},{self.y1 + width // 2},{width},{name},RIGHT,{layer}"


def beside(choose, base):
    """A rectangle at about the gap from another one, along an axis or across a corner."""
    step, side = choose.choice([0, 1, 100, 199, 200, 201, 300]), choose.randrange(3)
    x = base.x2 + step if side != 1 else base.x1 + choose.choice([0, 100, -300])
    y = base.y2 + choose.choice([step, 0, 199]) if side != 0 else base.y1 + choose.choice([0, 50, -100])
    return Box(x, y, x + choose.choice([200, 500, 1200]), y + choose.choice([199, 200, 200, 300]))


def around(choose, base):
    """A rectangle that holds another one."""
    left, below, right, above = (choose.choice(steps) for steps in ([0, 100, 200], [0, 100], [0, 100, 250], [0, 200]))
    return Box(base.x1 - left, base.y1 - below, base.x2 + right, base.y2 + above)


def anywhere(choose):
    x, y = 500 + 100 * choose.randrange(30), 900 + 100 * choose.randrange(30)
    return Box(x, y, x + choose.choice([200, 700]), y + choose.choice([200, 200, 199, 400]))


def next_box(choose, boxes):
    kind = choose.random() if boxes else 1
    if kind > 0.75:
        return anywhere(choose)
    base = choose.choice(boxes)
    return beside(choose, base) if kind < 0.45 else around(choose, base) if kind < 0.6 else base


def instance_lines(choose, k):
    """An instance; with one of the near cell, vias on or beside its pins."""
    model = choose.choice([NEAR_NAME, NEAR_NAME, "inv_x1", "na2_x1", "sff1_x4"])
    turn = choose.choice(["NOSYM", "SYM_X", "SYM_Y", "SYMXY"])
    x, y = 500 * choose.randrange(8), choose.choice([0, 0, 5000])
    yield f"I {x},{y},{model},u{k},{turn}"
    for at in choose.sample([350, 500, 649, 650, 651, 700, 1000, 1100, 1800], choose.randrange(4) if model == NEAR_NAME else 0):
        over = at if turn in ("NOSYM", "SYM_Y") else NEAR_WIDTH - at
        yield f"V {x + over},{y + choose.choice([1000, 2000, 2500, 4000])},CONT_VIA"


def ladder(choose):
    """Rectangles near each other and near the pins of cells, at distances about the gap, and others that hold or touch them."""
    boxes = []
    for _ in range(choose.randrange(2, 9)):
        boxes.append(next_box(choose, boxes))
    lines = [box.line(choose.choice(["ALU1", "ALU1", "CALU1", "ALU2"]), choose.choice(["*", "a", "b"])) for box in boxes]
    for _ in range(choose.randrange(3)):
        base = choose.choice(boxes)
        lines.append(f"V {base.x1 + 100},{base.y1 + 100},{choose.choice(['CONT_VIA', 'CONT_VIA', 'CONT_VIA2'])}")
    for k in range(choose.randrange(4)):
        lines += instance_lines(choose, k)
    choose.shuffle(lines)
    return "\n".join(["V ALLIANCE : 6", "H ladder,P,01/01/2000,100", "A 0,0,10000,10000", *lines, "EOF", ""]).encode()


def check_ladders(results, program, seed, numbers):
    files = near_cells()
    cells = cells_in(files, "lib")
    with Room() as room:
        room.write(files)
        for number in numbers:
            choose = random.Random(f"{seed} ladder {number}")
            for _ in range(8):
                run_checked(results, room, program, "rectangles near each other", ladder(choose), cells)


def check_rows(results, program, count):
    """A row of wires 200 wide at distances of 200 and, every tenth, of 199: long lists and their order."""
    lines, y = [], 0
    for k in range(count):
        lines.append(f"S 0,{y},3000,{y},200,*,RIGHT,ALU2")
        y += 399 if k % 10 == 9 else 400
    text = "\n".join(["V ALLIANCE : 6", "H rows,P,01/01/2000,100", f"A 0,0,3000,{y}", *reversed(lines), "EOF", ""]).encode()
    files = of_cells(["inv_x1"])
    with Room() as room:
        room.write(files)
        run_checked(results, room, program, f"{count} wires above each other", text, cells_in(files, "lib"))


def jobs(program, seed, times):
    yield check_rows, (program, 400)
    for many, check, chunk in ((LAYOUTS // 4, check_layouts, CHUNK // 4), (LADDERS, check_ladders, 15)):
        numbers = range(many * times)
        for at in range(0, len(numbers), chunk):
            yield check, (program, seed, numbers[at : at + chunk])
