"""Leads the nets of a cell in poly and metal 1 by negotiated congestion (McMurchie and Ebeling, PathFinder, 1995).

Each net is led over whatever it needs; where nets come too near to each other the points get dearer for the next round, until none do.
Points are numbered y * (width + 1) + x. For each net there are three sets of points that its shapes close for others: to poly, to contacts, to metal.
"""

import random
from itertools import accumulate

from .geometry import contacts, runs, square
from .measures import (
    COLUMN, CONTACT_SPACE, DIFFUSION, DIFFUSION_TO_POLY, DIFFUSION_TO_POLY_CONTACT, HEIGHT, LAST_NODE, METAL, METAL_HALF, METAL_SPACE, PAD_HALF,
    POLY_CONTACT_SPACE, POLY_HALF, POLY_SPACE,
)
from .placement import SIGNAL_HIGH, SIGNAL_LOW, NoRoom
from .search import CLOSED, Costs, least_path

ROUNDS = 40
FIRST_PRICE, DEARER, REMEMBERED = 4, 6, 3  # of a point that is taken: in the first round, more in each next one, for each conflict that it had
OFF_NODE = 12  # of a contact near an access node and not on it
SHARED_COLUMN = 40
NEAR_NODE = 4  # a via on a node meets a contact whose middle is nearer than this
POLY_EDGE, METAL_EDGE = 3, 4  # of the middles of wires from the cell's edge
POLY_LOW, POLY_HIGH = 13, 87
CUT = 2
CLOSED_BY_POLY = ((0, POLY_SPACE + POLY_HALF), (1, POLY_SPACE + PAD_HALF))
CLOSED_BY_PAD = ((0, POLY_CONTACT_SPACE + POLY_HALF), (1, POLY_CONTACT_SPACE + PAD_HALF))
CLOSED_BY_METAL = ((2, METAL_SPACE + METAL_HALF),)
CONTACT_TO_POLY = POLY_CONTACT_SPACE + PAD_HALF


class Net:
    """The paths of one net, the place at which each of its terminals is met, the bar of its pin, and the points it closes for others."""

    def __init__(self, name, terminals):
        self.name, self.terminals = name, terminals
        self.paths, self.ends, self.bar = [], {}, None
        self.closes = (set(), set(), set())

    def contacts(self):
        made = {at for path in self.paths for at in contacts(path)}
        return made | {place[1:] for at, place in self.ends.items() if self.terminals[at].kind in "np"}

    def pin(self):
        return next((at for at, terminal in enumerate(self.terminals) if terminal.kind == "pin"), None)


class Router:
    """Routes of a placement. `nodes` is how many access nodes each pin has to have at least."""

    def __init__(self, placement, nodes, seed):
        self.placement, self.nodes = placement, nodes
        self.across, self.size = placement.width + 1, (placement.width + 1) * (HEIGHT + 1)
        self.random = random.Random(seed)
        self.nets = {name: Net(name, terminals) for name, terminals in placement.terminals.items() if len(terminals) > 1}
        self.fixed = {name: self.fixed_costs(name) for name in self.nets}
        self.taken = [[0] * self.size for _ in range(3)]
        self.history = [[self.random.randint(0, 5) if seed else 0 for _ in range(self.size)] for _ in range(3)]
        self.forbidden = {name: set() for name in self.nets}  # access nodes that a contact spoils
        self.columns = [0] * (placement.columns + 1)

    # ---- what is closed from the beginning

    def fixed_costs(self, name):
        poly, contact, metal = ([0] * self.size for _ in range(3))
        low, high = (SIGNAL_LOW - METAL_HALF if name == "vss" else SIGNAL_LOW), (SIGNAL_HIGH + METAL_HALF if name == "vdd" else SIGNAL_HIGH)
        self.close_outside(poly, POLY_EDGE, POLY_LOW, POLY_HIGH)
        self.close_outside(metal, METAL_EDGE, low, high)
        for diffusion in self.placement.diffusions:
            self.close(poly, diffusion.box(), DIFFUSION_TO_POLY + POLY_HALF)
            self.close(contact, diffusion.box(), DIFFUSION_TO_POLY_CONTACT + PAD_HALF)
        for other, boxes in self.placement.gate_poly.items():
            for box in boxes if other != name else []:
                self.close(poly, box, POLY_SPACE + POLY_HALF)
                self.close(contact, box, CONTACT_TO_POLY)
        for other, boxes in self.placement.strap_boxes().items():
            for box in boxes if other != name else []:
                self.close(metal, box, METAL_SPACE + METAL_HALF)
        self.open_gates(name, poly)
        contact = [max(c, m, p) for c, m, p in zip(contact, metal, poly)]
        return poly, self.off_nodes(name, contact), metal

    def close_outside(self, cost, edge, low, high):
        for y in range(HEIGHT + 1):
            for x in range(self.across):
                if not (edge <= x <= self.placement.width - edge and low <= y <= high):
                    cost[y * self.across + x] = CLOSED

    def points(self, box, reach):
        """Runs of points nearer than the reach to the box, along both axes."""
        left, right = max(0, box[0] - reach + 1), min(self.across - 1, box[2] + reach - 1)
        for y in range(max(0, box[1] - reach + 1), min(HEIGHT, box[3] + reach - 1) + 1):
            yield range(y * self.across + left, y * self.across + right + 1)

    def close(self, cost, box, reach):
        for line in self.points(box, reach):
            for at in line:
                cost[at] = CLOSED

    def open_gates(self, name, poly):
        """A gate's own poly between the two rows is its net's, though it is near its own diffusion."""
        low, high = DIFFUSION["n"][1] + 1, DIFFUSION["p"][0] - 1
        for left, foot, right, head in self.placement.gate_poly.get(name, []):
            for y in range(max(low, foot + 1), min(high, head - 1) + 1):
                poly[y * self.across + (left + right) // 2] = 0

    def off_nodes(self, name, contact):
        """Contacts of a net with a pin cost more near an access node, where one couldn't be used."""
        if self.nets[name].pin() is None:
            return contact
        return [c + OFF_NODE if spoils(at % self.across, at // self.across) else c for at, c in enumerate(contact)]

    # ---- rounds

    def route(self):
        """Leads all nets so that none come too near, or NoRoom."""
        order = sorted(self.nets.values(), key=lambda net: (len(net.terminals), net.name))
        for turn in range(ROUNDS):
            for net in order:
                self.lead(net, FIRST_PRICE + DEARER * turn)
            if self.conflicts() == 0 and not self.share_columns() and not self.spoiled():
                return self
            self.random.shuffle(order)
        raise NoRoom("nets are too near to each other")

    def lead(self, net, price):
        self.count(net, -1)
        costs = Costs(*(self.priced(net, layer, price) for layer in range(3)))
        self.connect(net, costs, price)
        self.close_for_others(net)
        self.count(net, 1)

    def priced(self, net, layer, price):
        triples = zip(self.fixed[net.name][layer], self.taken[layer], self.history[layer])
        return [cost if cost >= CLOSED else cost + (price + past) * taken + (past >> 1) for cost, taken, past in triples]

    def count(self, net, change):
        for taken, closed in zip(self.taken, net.closes):
            for at in closed:
                taken[at] += change
        if net.bar:
            self.columns[net.bar[0] // COLUMN] += change

    def connect(self, net, costs, price):
        """A tree over the net's terminals: from its first gate, or else its first terminal, each time to the nearest one that is left."""
        first = next((at for at, terminal in enumerate(net.terminals) if terminal.kind == "gate"), 0)
        tree, rest = set(net.terminals[first].places), [at for at in range(len(net.terminals)) if at != first]
        begins_open = net.terminals[first].kind != "gate"
        net.paths, net.ends, net.bar = [], {}, None
        while rest:
            targets, bars = self.targets(net, rest, costs, price)
            path = least_path(self.across, costs, tree, targets)
            if path is None:
                raise NoRoom(f"{net.name} has no way")
            if begins_open:
                net.ends[first], tree, begins_open = path[0], set(), False
            self.add(net, path, bars, costs)
            tree |= {place for made in net.paths for place in made}
            for at in [at for at in rest if path[-1] in targets and self.meets(net, at, path[-1])]:
                rest.remove(at)
                net.ends[at] = path[-1]
                tree |= net.terminals[at].places if net.terminals[at].kind == "gate" else set()

    def meets(self, net, at, place):
        return place in net.terminals[at].places or (net.terminals[at].kind == "pin" and net.bar is not None and place in self.bar_places(net.bar))

    def targets(self, net, rest, costs, price):
        """Places at which a terminal may be met, with the cost; for places of pins also the bar that comes with them."""
        targets, bars = {}, {}
        for at in rest:
            if net.terminals[at].kind == "pin":
                for bar in self.bars(net, net.terminals[at]):
                    cost = sum(costs.metal[y * self.across + bar[0]] for y in range(bar[1], bar[2] + 1))
                    cost += self.columns[bar[0] // COLUMN] * (SHARED_COLUMN + price)
                    for place in self.bar_places(bar):
                        if cost < targets.get(place, CLOSED):
                            targets[place], bars[place] = cost, bar
        for at in rest:
            if net.terminals[at].kind != "pin":
                for place in net.terminals[at].places:
                    targets[place] = self.contact_cost(costs, place, net.terminals[at].kind)
                    bars.pop(place, None)
        return targets, bars

    def contact_cost(self, costs, place, kind):
        """A contact to diffusion near an access node isn't welcome."""
        return OFF_NODE if kind in "np" and spoils(place[1], place[2]) else 0

    def bars(self, net, terminal):
        """The pieces of columns that may be the pin: (x, lowest y, highest y)."""
        length = COLUMN * (self.nodes - 1)
        for _, x, y in sorted(terminal.places):
            nodes = {(x, k) for k in range(y, y + length + 1, COLUMN)}
            if y + length <= LAST_NODE and not nodes & self.forbidden[net.name]:
                yield x, y, y + length

    @staticmethod
    def bar_places(bar):
        return [(METAL, bar[0], y) for y in range(bar[1], bar[2] + 1)]

    def add(self, net, path, bars, costs):
        """The path is the net's; a pin's bar comes with it, and contacts keep their space from its contacts."""
        net.paths.append(path)
        bar = bars.get(path[-1])
        if bar:
            net.bar = bar
            net.paths.append(self.bar_places(bar))
        reach = CUT + CONTACT_SPACE
        for x, y in contacts(path):
            for line in self.points(square(x, y, 0), reach + 2):
                for at in line:
                    if at != y * self.across + x:
                        costs.contact[at] = CLOSED

    def close_for_others(self, net):
        net.closes = (set(), set(), set())
        for path in net.paths:
            for layer, box in runs(path):
                self.close_by(net, CLOSED_BY_METAL if layer == METAL else CLOSED_BY_POLY, box)
            for x, y in contacts(path):
                self.close_by(net, CLOSED_BY_PAD, square(x, y, PAD_HALF))

    def close_by(self, net, layers, box):
        for layer, reach in layers:
            for line in self.points(box, reach):
                net.closes[layer].update(line)

    # ---- what is wrong yet

    def conflicts(self):
        """How many points are too near to another net; they become dearer."""
        found = 0
        for net in self.nets.values():
            for path in net.paths:
                turns = contacts(path)
                for layer, x, y in path:
                    kinds = [2 if layer == METAL else 0] + ([1] if (x, y) in turns else [])
                    found += sum(self.conflict(net, kind, y * self.across + x) for kind in kinds)
        return found

    def conflict(self, net, kind, at):
        is_bad = self.taken[kind][at] > (at in net.closes[kind])
        if is_bad:
            self.history[kind][at] += REMEMBERED
        return is_bad

    def share_columns(self):
        """Whether two pins have one column. One of them, drawn by lot, may not have it again."""
        owners = {}
        for net in self.nets.values():
            if net.bar:
                owners.setdefault(net.bar[0], []).append(net)
        shared = sorted((x, nets) for x, nets in owners.items() if len(nets) > 1)
        for x, nets in shared:
            loser = self.random.choice(nets)
            self.forbidden[loser.name] |= {(x, y) for y in range(0, HEIGHT, COLUMN)}
        return bool(shared)

    def spoiled(self):
        """Whether a contact lies so that a via at a pin's node would meet it off its middle. Such nodes are forbidden to the pin."""
        middles = {at for net in self.nets.values() for at in net.contacts()}
        found = False
        for net in self.nets.values():
            nodes = bar_nodes(net.bar) if net.bar else []
            bad = {node for node in nodes if any(is_off(node, middle) for middle in middles)}
            self.forbidden[net.name] |= bad
            found = found or bool(bad)
        return found


def bar_nodes(bar):
    return [(bar[0], y) for y in range(bar[1], bar[2] + 1, COLUMN)]


def is_off(node, middle):
    """Whether a via at the node meets the contact, and not at its middle."""
    return node != middle and abs(node[0] - middle[0]) < NEAR_NODE and abs(node[1] - middle[1]) < NEAR_NODE


def spoils(x, y):
    """Whether a contact there is near an access node and not on it."""
    dx, dy = (x + COLUMN // 2) % COLUMN - COLUMN // 2, (y + COLUMN // 2) % COLUMN - COLUMN // 2
    return (dx, dy) != (0, 0) and abs(dx) < NEAR_NODE and abs(dy) < NEAR_NODE


def shares(seed):
    """How room is dealt to gaps: evenly for even seeds, by lot for odd ones."""
    lot = random.Random(seed)

    def share(room, gaps):
        if seed % 2 == 0:
            ends = [room * k // gaps for k in range(gaps + 1)]
        else:
            weights = list(accumulate(lot.random() for _ in range(gaps)))
            ends = [0] + [int(room * weight / weights[-1]) for weight in weights[:-1]] + [room]
        return [b - a for a, b in zip(ends, ends[1:])]

    return share
