"""Random netlists, and layouts of them that a small router draws, right ones and wrong ones: what meaning/maze.py is tried on.

The router searches from a net's tree towards the point, the most promising node first; maze.py searches the other way round by levels.
"""

import heapq
from typing import NamedTuple

from acceptance.meaning.maze import Tree, cost, named
from acceptance.meaning.rows import LOWEST, Rows
from share.formats.models import IN, OUT
from share.formats.vhdl_reader import SUPPLIES
from share.formats.vst import Instance, Netlist

GATES = ("inv_x1", "na2_x1", "na2_x1", "na2_x1")


def a_net(choose, wanted, nets, near):
    """One that no pin reads yet, or one of the last, or any."""
    if wanted and choose.random() < 0.5:
        return wanted.pop()
    return choose.choice(nets[-near:] if choose.random() < 0.7 else nets)


def random_netlist(choose, models, gates, registers, near):
    """Registers, and gates each of which reads nets before it, mostly so near ones; the last gates drive the outputs."""
    ports = {("a", k): IN for k in range(choose.randrange(2, 7))} | {("o", k): OUT for k in range(choose.randrange(1, 5))}
    if registers:
        ports["ck", -1] = IN
    outs = [bit for bit, way in ports.items() if way == OUT]
    supplies = {(supply, -1): (supply, -1) for supply in SUPPLIES}
    nets = [bit for bit, way in ports.items() if way == IN and bit[0] != "ck"] + [("", k) for k in range(registers)]
    wanted, instances = list(nets), []
    for k in range(gates):
        model = models[choose.choice(GATES)]
        output = outs[gates - 1 - k] if k >= gates - len(outs) else ("", registers + k)
        read = [a_net(choose, wanted, nets, near) for _ in model.inputs]
        instances.append(Instance(f"g{k}", model, dict(zip(model.inputs, read)) | {model.outputs[0]: output} | supplies))
        nets.append(output)
    model = models["sff1_x4"]
    loads = [dict(zip(model.inputs, [("ck", -1), choose.choice(nets)])) | {model.outputs[0]: ("", k)} | supplies for k in range(registers)]
    held = [Instance(f"q{k}", model, nets_of) for k, nets_of in enumerate(loads)]
    return Netlist("made", ports | dict.fromkeys(supplies, IN), held + instances)


def rows_at_random(choose, n, count):
    names = [i.name for i in n.instances]
    if count > 1:
        choose.shuffle(names)
    return [names[len(names) * r // count : len(names) * (r + 1) // count] for r in range(count)]


class Habits(NamedTuple):
    """How the router works; otherwise than so it is wrong."""

    via: int = 3
    by_number: bool = False
    shares: bool = False
    heeds_reserved: bool = True
    longer: float = 0.0
    gives_up: float = 0.0


def far(node, target):
    """No way between them has fewer steps."""
    return abs(node[1] - target[1]) + abs(node[2] - target[2])


class Router:
    """Routes the nets of a block in their order. `trees` are those so far, `begun` the numbers of the nets taken, `stuck` is None or the
    net and the terminal that no way led to, `misdeeds` how often a habit led to something wrong for certain."""

    def __init__(self, choose, block, metals, habits=Habits()):
        self.choose, self.block, self.metals, self.habits = choose, block, metals, habits
        self.taken, self.begun, self.stuck, self.misdeeds = {}, [], None, 0
        self.trees = [Tree() for _ in block.nets]
        nets = block.nets if habits.by_number else block.in_order()
        for net in nets:
            if self.stuck is None:
                self.route(net)

    def route(self, net):
        self.begun.append(net.number)
        nodes, edges = {node for _, node in net.points[:1]}, set()
        for terminal, node in net.points[1:]:
            way = self.connected(net.number, nodes, node)
            if way is None:
                self.stuck = net.number, named(terminal)
                break
            nodes |= set(way)
            edges |= {(min(pair), max(pair)) for pair in zip(way, way[1:])}
        self.misdeeds += sum(owner.get(node, net.number) != net.number for owner in (self.taken, self.block.reserved) for node in nodes)
        self.trees[net.number] = Tree(nodes, edges)
        self.taken.update((node, net.number) for node in nodes)

    def connected(self, net, nodes, target):
        """A way to the target; None where there is none, or where the router gives up."""
        way, choose = self.way(net, nodes, target), self.choose
        if way is not None and choose.random() < self.habits.gives_up:
            self.misdeeds += 1
            return None
        if way is not None and len(way) > 2 and choose.random() < self.habits.longer:
            other = self.way(net, nodes, target, choose.choice(way[1:-1])) or way
            self.misdeeds += cost(other) > cost(way)
            return other
        return way

    def is_free(self, net, node):
        metal, column, row = node
        if not (LOWEST <= metal <= self.metals and 0 <= column <= self.block.columns and 0 <= row <= self.block.top):
            return False
        if self.habits.heeds_reserved and self.block.reserved.get(node, net) != net:
            return False
        return self.habits.shares or self.taken.get(node, net) == net

    def beside(self, node):
        metal, column, row = node
        right, high = (0, 1) if metal % 2 else (1, 0)
        for sign in (1, -1):
            yield 1, (metal, column + sign * right, row + sign * high)
            yield self.habits.via, (metal + sign, column, row)

    def way(self, net, tree, target, without=None):
        """A cheapest way from the tree to the target over free nodes but for one; equal ones by chance."""
        waiting, before = [(far(node, target), self.choose.random(), 0, node, None) for node in sorted(tree)], {}
        heapq.heapify(waiting)
        while waiting:
            _, _, cost, at, came = heapq.heappop(waiting)
            if at in before:
                continue
            before[at] = came
            if at == target:
                found = [at]
                while before[found[-1]] is not None:
                    found.append(before[found[-1]])
                return found
            for price, other in self.beside(at):
                if other not in before and other != without and self.is_free(net, other):
                    heapq.heappush(waiting, (cost + price + far(other, target), self.choose.random(), cost + price, other, at))
        return None


def made_block(choose, models, cells, gates, rows, near=12):
    """A random netlist in so many rows."""
    n = random_netlist(choose, models, gates, choose.choice([0, 0, 2]), near)
    return Rows(n, cells, rows_at_random(choose, n, rows))
