"""The second router of layouts over rows, tried on those of a small router that is right, or wrong in a known way."""

import functools
import random
import re

from acceptance.makers.maze_maker import Habits, Router, made_block
from acceptance.meaning import maze
from acceptance.meaning.maze import Tree
from acceptance.tools.boog import of_cells
from share.formats import ap, cellcheck, extraction, models
from share.formats.models import of_folder
from share.formats.vhdl_reader import Refused
from share.formats.vst import Netlist

BLOCKS, ORDERS = 12, 6
CELLS = ["inv_x1", "na2_x1", "sff1_x4"]


@functools.cache
def library():
    files = of_cells(CELLS)
    return cellcheck.cells(of_folder(files, "lib"), False), models.library(files, "lib")


def is_same(n, other):
    """Whether instances with the same cells tie the same pins and ports."""
    pairs = set()
    for one, two in zip(n.instances, other.instances):
        pairs |= {(net, two.nets.get(pin)) for pin, net in one.nets.items()}
    names = [[(i.name, i.model.name) for i in net.instances] for net in (n, other)]
    is_one_to_one = len(pairs) == len({a for a, _ in pairs}) == len({b for _, b in pairs})
    keeps_ports = n.all_ports == other.all_ports and all(a == b for a, b in pairs if a in n.all_ports or b in n.all_ports)
    return names[0] == names[1] and is_one_to_one and keeps_ports


def judged(text, n, metals, stuck):
    """What the second router says of a text that is to be the layout of a netlist."""
    cells_found, of_name = library()
    try:
        figure = ap.read(text)
        flat = extraction.flat_of(figure, cells_found)
        if stuck:
            got = maze.marked(figure, cells_found, of_name)
            faults = maze.part_faults(text, figure, got, cells_found, metals, stuck)
        else:
            read = extraction.extracted(figure, flat, of_name)
            got = Netlist(read.name, read.all_ports, read.instances)
            faults = maze.whole_faults(text, figure, got, cells_found, metals)
    except (ap.Refused, extraction.Refused, Refused, maze.Wrong) as refused:
        return [f"it is refused: {refused}"]
    return faults + ([] if is_same(n, got) else ["it is another netlist"]) + (["rules are broken"] if flat.breaches() else [])


class Trial:
    """A block with a layout of the small router."""

    def __init__(self, results, choose, block, metals):
        self.results, self.choose, self.block, self.metals = results, choose, block, metals
        self.router = Router(choose, block, metals)
        self.text = self.text_of(self.router)

    def text_of(self, router, trees=None):
        return maze.drawn(self.block, trees or router.trees, router.begun if router.stuck else None).encode()

    def judge(self, title, text, stuck, is_right):
        faults = judged(text, self.block.n, self.metals, stuck)
        told = f"{faults} with {self.metals} metals, {stuck} of {text.decode()}"
        self.results.note(f"the second router on {title}", bool(faults) != is_right, told)

    def try_habit(self, title, habits):
        """A router with one bad habit, where something came of it."""
        router = Router(self.choose, self.block, self.metals, habits)
        if router.misdeeds:
            self.judge(title, self.text_of(router), router.stuck, False)

    def try_lines(self, title, kind, changed):
        """The layout with a line of a kind, behind those of the supplies, changed or left out."""
        lines = self.text.split(b"\n")
        last = max(k for k, line in enumerate(lines) if line.endswith((b",vss", b",vdd")))
        at = [k for k, line in enumerate(lines) if k > last and re.match(kind, line)]
        if at:
            k = self.choose.choice(at)
            lines[k : k + 1] = changed(lines[k])
            self.judge(title, b"\n".join(lines), self.router.stuck, False)

    def try_stuck(self):
        """Another terminal than the stuck one, and a later net that is drawn."""
        router = self.router
        others = [(net.number, maze.named(terminal)) for net in self.block.nets for terminal, _ in net.points[1:]]
        others = [other for other in others if other != router.stuck]
        if others:
            self.judge("another terminal", self.text, self.choose.choice(others), False)
        later = [net for net in self.block.nets if net.number not in router.begun and net.points[0][1][0] == 2]
        if later:
            net = self.choose.choice(later)
            metal, column, row = net.points[0][1]
            trees = list(router.trees)
            trees[net.number] = Tree([(2, column, row)], [((2, column, row), (3, column, row))])
            self.judge("a later net that is drawn", self.text_of(router, trees), router.stuck, False)


def more(line, pattern, form, by):
    """A line in which a number is so much greater."""
    return re.sub(pattern, lambda found: form % (int(found[1]) + by), line)


def check_second_router(results, seed, number):
    choose = random.Random(f"{seed} second router {number}")
    cells_found, of_name = library()
    gates, rows, near = choose.choice([4, 8, 12, 20]), choose.choice([1, 1, 2, 3]), choose.choice([4, 12, 99])
    block = made_block(choose, of_name, cells_found, gates, rows, near)
    trial = Trial(results, choose, block, choose.choice([3, 3, 4, 5, 6]))
    trial.judge("a right layout", trial.text, trial.router.stuck, True)
    trial.try_habit("longer ways", Habits(longer=0.1))
    trial.try_habit("a way not taken", Habits(gives_up=0.05))
    trial.try_habit("nodes of two nets", Habits(shares=True))
    trial.try_habit("nodes that are reserved", Habits(heeds_reserved=False))
    for what, kind in {"a via": rb"V .*VIA[2-6]", "a via on a pin": rb"V .*VIA,", "a wire": rb"S ", "a mark": rb"R "}.items():
        trial.try_lines(f"{what} left out", kind, lambda line: [])
    trial.try_lines("another number in a mark", rb"R ", lambda line: [more(line, rb"n(\d+)$", b"n%d", choose.choice([1, 2]))])
    trial.try_lines("a mark twice", rb"R ", lambda line: [line, line])
    trial.try_lines("a wire one column longer", rb"S .*RIGHT", lambda line: [more(line, rb"^S (\d+)", b"S %d", -500)])
    if trial.router.stuck:
        trial.try_stuck()


def check_orders(results, seed):
    """Nets by number alone, and vias that cost 1: of some layouts the second router has to say so."""
    cells_found, of_name = library()
    found = {"nets by number": 0, "vias that cost 1": 0}
    for number in range(ORDERS):
        choose = random.Random(f"{seed} orders {number}")
        block = made_block(choose, of_name, cells_found, 16, 1, 99)
        for title, habits in (("nets by number", Habits(by_number=True)), ("vias that cost 1", Habits(via=1))):
            router = Router(choose, block, 4, habits)
            if router.stuck is None:
                found[title] += bool(judged(maze.drawn(block, router.trees).encode(), block.n, 4, None))
    for title, count in found.items():
        results.note(f"the second router on {title}", count > 0, "it finds nothing wrong")


def jobs(seed, times):
    for number in range(BLOCKS * times):
        yield check_second_router, (seed, number)
    yield check_orders, (seed,)
