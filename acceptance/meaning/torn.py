"""A second view of nets that are routed over rows and torn out where one is stuck, written from docs/formats/blocks.md ("Nets that are torn
out"). Blocks are those of rows.py, trees and texts those of maze.py.

`whole_faults` says what is wrong with a layout in which all nets are routed, after so many rips, and `part_faults` with one in which a
net is stuck: each tree is taken out of wires and vias, and what the order of moves leaves of it is looked at. `move_faults` says what is
wrong with a list of moves, one after the other: each way has to be a least one then, and each net that is torn one that blocks a least way.
`list_faults` says what can be said of the rips alone, without the ways between them: whose turn it is at each, and what may be torn out.
"""

import functools
from collections import Counter

from acceptance.meaning import maze
from acceptance.meaning.layout import text_faults
from acceptance.meaning.maze import VIA, Grid, Tree, Wrong, cost, drawn, named, stuck_point, trees_of
from acceptance.meaning.rows import LOWEST, Rows, head_lines, place, rows_of

# ---- layouts


def tree_faults(block, net, tree, points):
    """What is wrong with a net's tree that leads to so many of its points, whatever else was there when it was made."""
    title = f"net {net.number}"
    if len(tree.nodes) != len(tree.edges) + 1:
        yield f"{title}: wires in a ring"
    taken = [node for node in tree.nodes if block.reserved.get(node, net.number) != net.number]
    if taken:
        yield f"{title}: the node {min(taken)} is reserved for another"
    begun = {node for _, node in net.points[:1]}
    for terminal, node in net.points[1:points]:
        way = tree.way(begun, node)
        if way is None:
            yield f"{title}: no wires lead to {named(terminal)}"
            return
        begun |= set(way)
    if begun != tree.nodes:
        yield f"{title}: wires beside its ways, at {min(tree.nodes - begun)}"


def is_whole(net, tree):
    return all(node in tree.nodes for _, node in net.points)


def last_way(net, tree):
    """The way to the last point of a whole net, and the tree before it."""
    begun = {node for _, node in net.points[:1]}
    for _, node in net.points[1:-1]:
        begun |= set(tree.way(begun, node))
    return tree.way(begun, net.points[-1][1]), begun


def is_last(block, trees, metals, net):
    """Whether the last way of a net may have been the last of all: it is least beside all other trees."""
    grid = Grid(block, metals)
    for other in block.nets:
        if other.number != net.number:
            grid.take(trees[other.number].nodes, other.number)
    way, begun = last_way(net, trees[net.number])
    return grid.least(net.number, net.points[-1][1], begun, cost(way)) is None


def whole_faults(text, figure, n, cells, metals, rips):
    """What is wrong with a layout of a netlist in which all nets are routed after so many rips."""
    if rips == 0:
        return maze.whole_faults(text, figure, n, cells, metals)
    block = Rows(n, cells, rows_of(figure))
    try:
        trees = trees_of(block, figure.items[len(head_lines(block)) - 3 :], metals)
    except Wrong as wrong:
        return [str(wrong)]
    faults = list(text_faults(text, drawn(block, trees)))
    for net in block.nets:
        faults += tree_faults(block, net, trees[net.number], len(net.points))
    wired = [net for net in block.nets if len(net.points) > 1]
    if not faults and not any(is_last(block, trees, metals, net) for net in wired):
        faults.append("no way can have been the last one")
    return faults


def begun_of(block, figure, trees, stuck):
    """The numbers of the nets whose trees are begun: a first part of the order, up to the last net that shows it."""
    on_pins = {item[1:3] for item in figure.items if item[0] == "V" and item[3] == b"CONT_VIA"}
    order, shown = block.in_order(), 0
    for at, net in enumerate(order):
        has_via = net.port is None and len(net.points) > 1 and place(net.points[0][1]) in on_pins
        shown = at + 1 if has_via or trees[net.number].edges or net.number == stuck else shown
    return [net.number for net in order[:shown]]


def part_faults(text, figure, n, cells, metals, stuck, rips):
    """What is wrong with a layout in which a net is stuck, (its number, the terminal as it is printed), after at most so many rips."""
    if rips == 0:
        return maze.part_faults(text, figure, n, cells, metals, stuck)
    block, (number, terminal) = Rows(n, cells, rows_of(figure)), stuck
    if number >= len(block.nets) or stuck_point(block.nets[number], terminal) is None:
        return [f"net {number} has no point {terminal} to be connected"]
    try:
        trees = trees_of(block, figure.items[len(head_lines(block)) - 3 :], metals)
    except Wrong as wrong:
        return [str(wrong)]
    begun = begun_of(block, figure, trees, number)
    faults = list(text_faults(text, drawn(block, trees, begun)))
    torn = 0
    for net in map(block.nets.__getitem__, begun):
        tree = trees[net.number]
        if net.number == number:
            faults += tree_faults(block, net, tree, stuck_point(net, terminal))
        elif is_whole(net, tree):
            faults += tree_faults(block, net, tree, len(net.points))
        else:
            torn += 1
            faults += [f"net {net.number} is neither whole nor torn out"] if tree.edges else []
    if torn > rips:
        faults.append(f"{torn} nets are torn out by {rips} rips")
    grid, net = Grid(block, metals), block.nets[number]
    for other in block.nets:
        grid.take(trees[other.number].nodes, other.number)
    less = grid.least(number, net.points[stuck_point(net, terminal)][1], trees[number].nodes)
    return faults + ([] if less is None else [f"a way of {less} leads to {terminal}"])


# ---- moves


class Board:
    """Which nets' trees have each node, and how far nodes are from each other."""

    def __init__(self, block, metals):
        self.block, self.metals, self.owner = block, metals, {}
        self.trees = {}

    def is_open(self, net, node):
        """Whether a way for a net may have the node if the trees of others weren't there."""
        metal, column, row = node
        if not (LOWEST <= metal <= self.metals and 0 <= column <= self.block.columns and 0 <= row <= self.block.top):
            return False
        return self.block.reserved.get(node, net) == net

    def is_free(self, net, node):
        return self.is_open(net, node) and self.owner.get(node, net) == net

    def beside(self, node):
        metal, column, row = node
        right, high = (0, 1) if metal % 2 else (1, 0)
        for sign in (1, -1):
            yield 1, (metal, column + sign * right, row + sign * high)
            yield VIA, (metal + sign, column, row)

    def distances(self, starts, may_have, goals=(), most=None):
        """How far each node is from the nearest of some, over nodes that may be had: up to the first of the goals that is met, and so far."""
        found, levels, level = {}, [list(starts), [], [], []], 0
        while any(levels) and (most is None or level <= most):
            for at in levels[0]:
                if at in goals:
                    return {**found, at: level}
                if at not in found:
                    found[at] = level
                    for price, other in self.beside(at):
                        if other not in found and may_have(other):
                            levels[price].append(other)
            levels, level = [*levels[1:], []], level + 1
        return found

    def blockers(self, net, target):
        """The nets that a rip may tear out: those whose trees have the first node that isn't free on some least way over what would be
        free without the trees of others. None where no such way is there."""
        tree = self.trees[net]
        is_open = functools.partial(self.is_open, net)
        met = self.distances([target], is_open, tree)
        least = min((met[node] for node in tree if node in met), default=None)
        if least is None:
            return None
        to_target, found = self.distances([target], is_open, most=least), set()
        for at, far in self.distances(tree, functools.partial(self.is_free, net), most=least).items():
            for price, other in self.beside(at):
                if is_open(other) and not self.is_free(net, other) and far + price + to_target.get(other, least) == least:
                    found.add(self.owner[other])
        return found


class Moves:
    """The moves one after the other. A move is ("way", net, nodes), ("rip", net, terminal, torn), and last ("done",) or ("stuck", net,
    terminal); terminals are as they are printed."""

    def __init__(self, block, metals, rips):
        self.block, self.rips, self.board = block, rips, Board(block, metals)
        self.order = [net.number for net in block.in_order()]
        self.at, self.turn, self.ripped = Counter(), None, 0

    def points(self, net):
        return self.block.nets[net].points

    def is_complete(self, net):
        return self.at[net] >= len(self.points(net)) - 1

    def next_turn(self):
        """The net whose turn it is, or None. Its tree is begun then."""
        if self.turn is None or self.is_complete(self.turn):
            self.turn = next((net for net in self.order if not self.is_complete(net)), None)
        if self.turn is not None and self.turn not in self.board.trees:
            self.give(self.turn, [self.points(self.turn)[0][1]])
        return self.turn

    def give(self, net, nodes):
        self.board.trees.setdefault(net, set()).update(nodes)
        self.board.owner.update(dict.fromkeys(nodes, net))

    def next_point(self, net):
        return self.points(net)[self.at[net] + 1]

    def is_stuck(self, net):
        return self.least_to_next(net) is None

    def least_to_next(self, net):
        """What the least free way to the next point of a net costs, or None. It is looked for from that point on."""
        board, tree = self.board, self.board.trees[net]
        met = board.distances([self.next_point(net)[1]], functools.partial(board.is_free, net), tree)
        return next((met[node] for node in tree if node in met), None)

    def way_faults(self, net, nodes):
        board, target = self.board, self.next_point(net)[1]
        if nodes[0] not in board.trees[net] or nodes[-1] != target:
            yield "it doesn't lead from the tree to the next point"
        taken = [node for node in nodes if not board.is_free(net, node)]
        if taken:
            yield f"the node {taken[0]} isn't free"
        if any(other not in (node for _, node in board.beside(at)) for at, other in zip(nodes, nodes[1:])):
            yield "it isn't made of steps and vias"
        least = self.least_to_next(net)
        if cost(nodes) != least:
            yield f"it costs {cost(nodes)}, and the least way {least}"
        self.give(net, nodes)
        self.at[net] += 1

    def rip_faults(self, net, terminal, torn):
        if not self.is_stuck(net):
            yield "the net isn't stuck"
        elif named(self.next_point(net)[0]) != terminal:
            yield f"its next point isn't {terminal}"
        elif torn not in (self.board.blockers(net, self.next_point(net)[1]) or ()):
            yield f"net {torn} blocks no least way"
        self.ripped += 1
        if torn in self.board.trees and torn != net:
            for node in self.board.trees[torn]:
                del self.board.owner[node]
            self.board.trees[torn], self.at[torn] = set(), 0
            self.give(torn, [self.points(torn)[0][1]])
            self.turn = net

    def end_faults(self, end):
        left = self.next_turn()
        if end == ("done",):
            return [f"net {left} isn't complete"] if left is not None else []
        net, terminal = end[1:]
        if left != net or named(self.next_point(net)[0]) != terminal or not self.is_stuck(net):
            return [f"net {net} isn't stuck at {terminal}"]
        if self.ripped < self.rips and self.board.blockers(net, self.next_point(net)[1]) is not None:
            return [f"{self.rips - self.ripped} rips are left"]
        return []

    def faults(self, moves):
        for number, move in enumerate(moves[:-1]):
            if self.next_turn() != move[1]:
                return [f"move {number}: it isn't the turn of net {move[1]}"]
            found = self.way_faults(*move[1:]) if move[0] == "way" else self.rip_faults(*move[1:])
            for fault in found:
                return [f"move {number}, {move[:2]}: {fault}"]
        if self.ripped > self.rips:
            return [f"{self.ripped} rips, and {self.rips} are allowed"]
        return self.end_faults(moves[-1])


def move_faults(block, metals, rips, moves):
    """What is wrong with a list of moves on a block with at most so many rips."""
    return Moves(block, metals, rips).faults(moves)


def tree_of(ways, first):
    """The tree of a net's ways."""
    nodes, edges = {first}, set()
    for way in ways:
        nodes |= set(way)
        edges |= {(min(pair), max(pair)) for pair in zip(way, way[1:])}
    return Tree(nodes, edges)


# ---- the rips alone


class Turns:
    """How many points each net has, from rip to rip: between two of them the net whose turn it is gets points until it is stuck."""

    def __init__(self, order, points):
        self.order, self.points, self.had, self.turn = order, points, Counter(), None

    def lacks(self, net):
        return self.had[net] < self.points[net]

    def on_to(self, net, point):
        """What is wrong if net is stuck next, at this point. The nets whose turns come before it get all their points."""
        while True:
            if self.turn is None or not self.lacks(self.turn):
                self.turn = next((other for other in self.order if self.lacks(other)), None)
            if self.turn is None:
                return "no net lacks a point"
            if self.turn == net and max(self.had[net], 1) <= point < self.points[net]:
                self.had[net] = point
                return None
            if self.turn == net:
                return f"net {net} has {self.had[net]} of {self.points[net]} points, and is stuck at point {point}"
            if not self.lacks(net) and self.order.index(net) > self.order.index(self.turn):
                return f"net {net} has all its points, and it is the turn of net {self.turn}"
            self.had[self.turn] = self.points[self.turn]

    def tear(self, torn):
        if self.had[torn] < 2 or torn == self.turn:
            return f"net {torn} has no way that could be torn out"
        self.had[torn] = 1
        return None


def list_faults(order, points, most, rips, end):
    """What is wrong with rips as (net, number of its point, torn net): nets in their order, how many points each has, how many rips there
    may be, and at last ("done",) or ("stuck", net, number of its point)."""
    turns = Turns(order, points)
    for number, (net, point, torn) in enumerate(rips):
        fault = turns.on_to(net, point) or turns.tear(torn)
        if fault:
            return [f"rip {number}: {fault}"]
    if len(rips) > most:
        return [f"{len(rips)} rips, and {most} are allowed"]
    if end == ("done",):
        return []
    fault = turns.on_to(*end[1:])
    return [fault] if fault else []
