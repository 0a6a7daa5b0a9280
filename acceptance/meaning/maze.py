"""A second router's view of layouts that are routed over rows, written from the rules of such blocks.

`whole_faults` says what is wrong with a layout in which all nets are routed, `part_faults` with one in which a net is stuck, `marked`
gives the netlist that the marks of such a layout tell. The tree of each net is taken out of the wires and vias; then the nets are routed
anew in their order, each connection by the one way that its net's tree has for it: no free way may be cheaper, and where a net is stuck
there may be none. `drawn` is the text of a layout with given trees.
"""

import re
from array import array

from acceptance.meaning.layout import text_faults
from acceptance.meaning.rows import LOWEST, Rows, access, head_lines, mark_lines, on_grid, place, rows_of
from share.formats import cellcheck
from share.formats.extraction import instances_of
from share.formats.models import IN, OUT
from share.formats.vhdl_reader import SUPPLIES, spelled
from share.formats.vst import Instance, Netlist

VIA, NOBODY, NOWHERE = 3, -1, -2
MARK = re.compile(rb"n(0|[1-9][0-9]*)")


class Wrong(Exception):
    """What the layout can't be routed anew with."""


# ---- trees


class Tree:
    """The nodes of a net's wires and vias, and the edges between them as pairs, the lesser node first."""

    def __init__(self, nodes=(), edges=()):
        self.nodes, self.edges = set(nodes), set(edges)
        self.beside = {}
        for a, b in self.edges:
            self.beside.setdefault(a, []).append(b)
            self.beside.setdefault(b, []).append(a)

    def way(self, begun, node):
        """The nodes from this one to the first of `begun` that is met over the edges; None where none is."""
        before, waiting = {node: None}, [node]
        for at in waiting:
            if at in begun:
                found = [at]
                while before[found[-1]] is not None:
                    found.append(before[found[-1]])
                return found[::-1]
            for other in self.beside.get(at, ()):
                if other not in before:
                    before[other] = at
                    waiting.append(other)
        return None


def cost(way):
    return sum(VIA if a[0] != b[0] else 1 for a, b in zip(way, way[1:]))


def wire_edges(item, metals):
    """The steps of a wire."""
    _, x1, y1, x2, y2, width, name, way, layer = item
    metal = cellcheck.DRAWN.get(layer, 0)
    a, b = on_grid(metal, x1, y1), on_grid(metal, x2, y2)
    is_level = metal % 2 == 0
    if a is None or b is None or not LOWEST <= metal <= metals or a[2 if is_level else 1] != b[2 if is_level else 1]:
        raise Wrong(f"a wire off the grid: {item}")
    nodes = [(metal, c, r) for c in range(a[1], b[1] + 1) for r in range(a[2], b[2] + 1)]
    return list(zip(nodes, nodes[1:]))


def via_edges(item, metals):
    """The edge of a via; none for one on a pin."""
    lower = cellcheck.VIAS.get(item[3])
    node = on_grid(lower, item[1], item[2]) if lower else None
    if node is None or lower >= metals:
        raise Wrong(f"a via off the grid: {item}")
    return [] if lower < LOWEST else [(node, (lower + 1, *node[1:]))]


def edges_of(items, metals):
    found = []
    for item in items:
        if item[0] == "S":
            found += wire_edges(item, metals)
        elif item[0] == "V":
            found += via_edges(item, metals)
        elif item[0] != "R":
            raise Wrong(f"an item that no net has: {item}")
    if len(set(found)) < len(found):
        raise Wrong("wires or vias that lie on each other")
    return found


def trees_of(block, items, metals):
    """For each net by number the tree of its wires, that of its first point alone where there are none at it."""
    everything, trees, owner = Tree(edges=edges_of(items, metals)), [], {}
    of_point = {node: net.number for net in block.nets for _, node in net.points}
    for net in block.nets:
        nodes, waiting = set(), [node for _, node in net.points[:1]]
        while waiting:
            node = waiting.pop()
            if node not in nodes:
                nodes.add(node)
                waiting += everything.beside.get(node, ())
        for node in nodes:
            if owner.setdefault(node, net.number) != net.number or of_point.get(node, net.number) != net.number:
                raise Wrong(f"net {net.number} uses the node {node} of net {owner[node] if owner[node] != net.number else of_point[node]}")
        trees.append(Tree(nodes, [(min(a, b), max(a, b)) for a in nodes for b in everything.beside.get(a, ())]))
    lost = [node for node in everything.beside if node not in owner]
    if lost:
        raise Wrong(f"a wire at {min(lost)} that hangs on no net's first point")
    return trees


# ---- the text


def runs(tree):
    """The greatest runs of steps as their two ends, by metal, x and y."""
    steps, found = {a: b for a, b in tree.edges if a[0] == b[0]}, []
    ends = set(steps.values())
    for a in sorted(a for a in steps if a not in ends):
        b = steps[a]
        while b in steps:
            b = steps[b]
        found.append((a, b))
    return found


def net_lines(net, tree, is_begun):
    name = net.name()
    for a, b in runs(tree):
        (x1, y1), (x2, y2) = place(a), place(b)
        yield f"S {x1},{y1},{x2},{y2},200,{name},{'UP' if a[0] % 2 else 'RIGHT'},ALU{a[0]}"
    vias = [(*place(a), a[0]) for a, b in tree.edges if a[0] != b[0]]
    if is_begun and len(net.points) > 1:
        vias += [(*place(node), 1) for (instance, _), node in net.points if instance is not None and node in tree.nodes]
    for x, y, lower in sorted(vias):
        yield f"V {x},{y},CONT_VIA{lower if lower > 1 else ''},{name}"


def drawn(block, trees, begun=None):
    """The text of a layout; of a partial one where the numbers of the nets that are begun are given."""
    lines = head_lines(block)
    for net, tree in zip(block.nets, trees):
        lines += net_lines(net, tree, begun is None or net.number in begun)
    return "\n".join([*lines, *([] if begun is None else mark_lines(block)), "EOF", ""])


# ---- the grid


class Grid:
    """The net that has each node or for which it is reserved. Nodes are numbers here, with a border about them that nobody may enter."""

    def __init__(self, block, metals):
        self.wide, self.high = block.columns + 3, block.top + 3
        self.plane = self.wide * self.high
        self.owner = array("i", [NOWHERE]) * (self.plane * (metals + 2))
        for metal in range(LOWEST, metals + 1):
            for row in range(block.top + 1):
                first = self.number((metal, 0, row))
                self.owner[first : first + block.columns + 1] = array("i", [NOBODY]) * (block.columns + 1)
        for node, net in block.reserved.items():
            self.owner[self.number(node)] = net

    def number(self, node):
        metal, column, row = node
        return metal * self.plane + (row + 1) * self.wide + column + 1

    def is_free(self, node, net):
        return self.owner[self.number(node)] in (NOBODY, net)

    def take(self, nodes, net):
        for node in nodes:
            self.owner[self.number(node)] = net

    def least(self, net, start, tree, below=None):
        """The least cost of a free way from a node to one of the tree; None where there is none, or none that costs less than `below`.

        By levels from the node on; what is so far from the tree's box that it can't get there in time is left out."""
        owner, wide, plane = self.owner, self.wide, self.plane
        goals = {self.number(node) for node in tree}
        columns, rows = [c + 1 for _, c, _ in tree], [r + 1 for _, _, r in tree]
        left, right, low, high = min(columns), max(columns), min(rows), max(rows)
        levels, done, level = [[self.number(start)], [], [], []], set(), 0
        while any(levels) and (below is None or level < below):
            for at in levels[0]:
                if at in done or owner[at] not in (NOBODY, net):
                    continue
                done.add(at)
                if at in goals:
                    return level
                metal, rest = divmod(at, plane)
                row, column = divmod(rest, wide)
                far = max(left - column, column - right, 0) + max(low - row, row - high, 0)
                if below is not None and level + far >= below:
                    continue
                step = wide if metal % 2 else 1
                levels[1] += (at - step, at + step)
                levels[VIA] += (at - plane, at + plane)
            levels = [*levels[1:], []]
            level += 1
        return None


# ---- the nets anew


def named(terminal):
    instance, pin = terminal
    return spelled(pin) if instance is None else f"{instance}.{spelled(pin)}"


def way_faults(grid, net, begun, terminal, node, way):
    title = f"net {net.number}, {named(terminal)}"
    taken = [at for at in way if not grid.is_free(at, net.number)]
    if taken:
        yield f"{title}: the node {taken[0]} isn't free"
        return
    less = grid.least(net.number, node, begun, cost(way))
    if less is not None:
        yield f"{title}: a way of {cost(way)}, and one of {less} is free"


def net_faults(grid, net, tree, points):
    """A net's connections to so many of its points, one after the other; it has then taken its nodes."""
    if len(tree.nodes) != len(tree.edges) + 1:
        yield f"net {net.number}: wires in a ring"
    begun = {node for _, node in net.points[:1]}
    for terminal, node in net.points[1:points]:
        way = tree.way(begun, node)
        if way is None:
            yield f"net {net.number}: no wires lead to {named(terminal)}"
            return
        yield from way_faults(grid, net, begun, terminal, node, way)
        begun |= set(way)
    if begun != tree.nodes:
        yield f"net {net.number}: wires beside its ways, at {min(tree.nodes - begun)}"
    grid.take(begun, net.number)


def whole_faults(text, figure, n, cells, metals):
    """What is wrong with a layout of a netlist in which all nets are routed."""
    block = Rows(n, cells, rows_of(figure))
    try:
        trees = trees_of(block, figure.items[len(head_lines(block)) - 3 :], metals)
    except Wrong as wrong:
        return [str(wrong)]
    grid, faults = Grid(block, metals), list(text_faults(text, drawn(block, trees)))
    for net in block.in_order():
        faults += net_faults(grid, net, trees[net.number], len(net.points))
    return faults


def stuck_point(net, terminal):
    """The place of a terminal among the points of its net, or None; the first point is begun with, and is never stuck."""
    return next((k for k, (of, _) in enumerate(net.points) if k and named(of) == terminal), None)


def part_faults(text, figure, n, cells, metals, stuck):
    """What is wrong with a layout in which a net is stuck: (its number, the terminal as it is printed)."""
    block, (number, terminal) = Rows(n, cells, rows_of(figure)), stuck
    if number >= len(block.nets) or stuck_point(block.nets[number], terminal) is None:
        return [f"net {number} has no point {terminal} to be connected"]
    order = [net.number for net in block.in_order()]
    begun = order[: order.index(number) + 1]
    try:
        trees = trees_of(block, figure.items[len(head_lines(block)) - 3 :], metals)
    except Wrong as wrong:
        return [str(wrong)]
    grid, faults = Grid(block, metals), list(text_faults(text, drawn(block, trees, begun)))
    for k in begun[:-1]:
        faults += net_faults(grid, block.nets[k], trees[k], len(block.nets[k].points))
    faults += [f"net {k} is drawn, and comes behind the stuck one" for k in order[len(begun) :] if trees[k].edges]
    net, at = block.nets[number], stuck_point(block.nets[number], terminal)
    faults += net_faults(grid, net, trees[number], at)
    less = grid.least(number, net.points[at][1], trees[number].nodes)
    return faults + ([] if less is None else [f"a way of {less} leads to {terminal}"])


# ---- the netlist that marks tell


def marks_of(figure):
    """The number that each place is marked with."""
    found = {}
    for item in figure.items:
        if item[0] == "R":
            told = MARK.fullmatch(item[4])
            if item[3] != b"ref_con" or told is None or found.setdefault(item[1:3], int(told[1])) != int(told[1]):
                raise Wrong(f"the mark {item}")
    return found


def marked(figure, cells, models):
    """The netlist whose terminals are on one net where their points are marked with one number."""
    marks, supplies = marks_of(figure), [(supply, -1) for supply in SUPPLIES]
    ports = {item[4]: marks.get(item[1:3]) for item in figure.items if item[0] == "C" and item[4] not in supplies}
    nets, instances, driven = {number: bit for bit, number in sorted(ports.items(), reverse=True)}, [], set()
    for i in instances_of(figure):
        cell, model, of_pin = cells[i.model], models[i.model], dict(zip(supplies, supplies))
        for pin in cell.signals():
            number = marks.get(access(cell, i, pin))
            if number is None:
                raise Wrong(f"no mark at {i.name}.{spelled(pin)}")
            of_pin[pin] = nets.get(number, ("", number))
            driven |= {number} if pin in model.outputs else set()
        instances.append(Instance(i.name, model, of_pin))
    if None in ports.values() or len(nets) < len(ports):
        raise Wrong("ports without a mark, or with that of another")
    texts = {bit[0] for bit, number in ports.items() if number in driven}
    ways = {bit: OUT if bit[0] in texts else IN for bit in ports}
    return Netlist(figure.name[0], ways | dict.fromkeys(supplies, IN), instances)
