"""A small router that tears nets out, right or wrong in a known way: what meaning/torn.py is tried on. It works as that of maze_maker.py."""

from typing import NamedTuple

from acceptance.makers.maze_maker import Habits, Router
from acceptance.meaning.maze import cost, named
from acceptance.meaning.torn import tree_of


class RipHabits(NamedTuple):
    """How nets are torn out; otherwise than so it is wrong."""

    tears_any: bool = False
    turns_away: bool = False
    rips_less: int = 0
    rips_early: float = 0.0
    keeps_torn: bool = False
    longer: float = 0.0


class RipRouter(Router):
    """`moves` are those of torn.py, `stuck` as in maze_maker.py, `ripped` how many nets were torn out."""

    def __init__(self, choose, block, metals, rips, habits=RipHabits()):
        self.rips, self.how = max(0, rips - habits.rips_less), habits
        self.ways, self.moves, self.ripped = {net.number: [] for net in block.nets}, [], 0
        self.wrongs, self.relaxed = 0, False
        super().__init__(choose, block, metals, Habits())

    def route(self, _):
        """All nets at the first call; the loop over nets that calls it is that of a router without rips."""
        if self.moves:
            return
        turn = None
        order = [net for net in self.block.in_order() if len(net.points) > 1]
        while self.stuck is None:
            if turn is None or self.is_complete(turn):
                turn = next((net for net in order if not self.is_complete(net)), None)
            if turn is None:
                break
            turn = self.turned(turn, order)
        self.begun = [net.number for net in self.block.in_order()] if self.stuck is None else self.begun
        self.moves.append(("stuck", *self.stuck) if self.stuck else ("done",))
        for net in self.block.nets:
            first = [node for _, node in net.points[:1]]
            self.trees[net.number] = tree_of(self.ways[net.number], *first) if first else self.trees[net.number]

    def way(self, net, tree, target, without=None):
        """From the tree on."""
        found = super().way(net, tree, target, without)
        return found and found[::-1]

    def is_complete(self, net):
        return len(self.ways[net.number]) >= len(net.points) - 1

    def nodes_of(self, net):
        return {net.points[0][1]} | {node for way in self.ways[net.number] for node in way}

    def turned(self, net, order):
        """Connects the net's next point, or tears out what is in the way; the net whose turn it is then."""
        if net.number not in self.begun:
            self.begun.append(net.number)
            self.take(net, [net.points[0][1]])
        terminal, target = net.points[len(self.ways[net.number]) + 1]
        way = self.way(net.number, self.nodes_of(net), target)
        if way is not None and self.choose.random() >= self.how.rips_early:
            self.connect(net, self.maybe_longer(net, target, way))
            return net
        self.wrongs += way is not None
        torn = self.blocker(net, target) if self.ripped < self.rips else None
        if torn is None:
            self.wrongs += self.how.rips_less > 0 and way is None
            self.stuck = net.number, named(terminal)
            return net
        self.ripped += 1
        self.moves.append(("rip", net.number, named(terminal), torn))
        self.tear(self.block.nets[torn])
        if self.how.turns_away and self.choose.random() < 0.5:
            self.wrongs += self.block.nets[torn].number != net.number
            return self.block.nets[torn]
        return net

    def maybe_longer(self, net, target, way):
        if len(way) > 2 and self.choose.random() < self.how.longer:
            other = self.way(net.number, self.nodes_of(net), target, self.choose.choice(way[1:-1])) or way
            self.wrongs += cost(other) > cost(way)
            return other
        return way

    def connect(self, net, way):
        self.ways[net.number].append(way)
        self.take(net, way)
        self.moves.append(("way", net.number, way))

    def take(self, net, nodes):
        self.taken.update((node, net.number) for node in nodes)

    def tear(self, net):
        for node in self.nodes_of(net):
            del self.taken[node]
        self.ways[net.number] = []
        self.take(net, [net.points[0][1]])

    def is_free(self, net, node):
        taken = self.taken
        if self.relaxed:
            self.taken = {}
        free = super().is_free(net, node)
        self.taken = taken
        return free

    def blocker(self, net, target):
        """The net that has the first node that isn't free on one of the least ways; a net that has wires anywhere, if it has that habit."""
        self.relaxed = True
        way = self.way(net.number, self.nodes_of(net), target)
        self.relaxed = False
        right = next((self.taken[node] for node in way or () if self.taken.get(node, net.number) != net.number), None)
        others = [number for number, ways in self.ways.items() if ways and number not in (net.number, right)]
        if right is None or not self.how.tears_any or not others:
            return right
        self.wrongs += 1
        return self.choose.choice(others)
