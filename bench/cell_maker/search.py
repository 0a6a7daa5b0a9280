"""A least path over the two wiring layers of a cell, by A* (Hart, Nilsson and Raphael 1968)."""

from heapq import heappop, heappush
from typing import NamedTuple

CLOSED = 1_000_000
POLY_STEP, METAL_STEP, CONTACT, BEND = 5, 2, 40, 6
STATES = 4  # of a point: its two layers, and for each whether the path ends there
FINAL = 2
FAR = 1 << 60


class Costs(NamedTuple):
    """What one net pays beyond its steps, for each point of the grid: to lead poly there, to put a contact, to lead metal."""

    poly: list
    contact: list
    metal: list


class Box(NamedTuple):
    left: int
    low: int
    right: int
    high: int


def least_path(width, costs, sources, targets):
    """Places from a source to a target, or None. Targets are places with what it costs to end there; a place is (layer, x, y).

    The grid has `width` points in a row. Its rim is closed, so no step leaves it.
    """
    return Search(width, costs, targets).path_from(sources)


class Search:
    """States with their distances so far. A state is a point, its layer, and whether the path ends there."""

    def __init__(self, width, costs, targets):
        self.width, self.costs = width, costs
        self.steps = ((1, 1), (-1, 1), (width, 2), (-width, 2))  # with their axes
        self.ends = {state(width, place): cost for place, cost in targets.items() if cost < CLOSED}
        self.box = Box(*(f(place[k] for place in targets) for f, k in ((min, 1), (min, 2), (max, 1), (max, 2))))
        size = STATES * len(costs.poly)
        self.distance, self.before, self.turns, self.done = [FAR] * size, [-1] * size, bytearray(size), bytearray(size)
        self.heap = []

    def path_from(self, sources):
        if not self.ends:
            return None
        for place in sorted(sources):
            self.offer(state(self.width, place), 0, -1, 0)
        while self.heap:
            _, now = heappop(self.heap)
            if self.done[now]:
                continue
            self.done[now] = 1
            if now & FINAL:
                return self.walked(now)
            if now in self.ends:
                self.offer(now | FINAL, self.distance[now] + self.ends[now], now, 0)
            self.step_on(now)
            self.change_layer(now)
        return None

    def offer(self, following, cost, before, turn):
        """A way to a state, if it is shorter than those before."""
        if cost < self.distance[following]:
            self.distance[following], self.before[following], self.turns[following] = cost, before, turn
            rest = 0 if following & FINAL else self.rest(following // STATES)
            heappush(self.heap, (cost + rest, following))

    def rest(self, at):
        """No path from the point to the box of the targets is cheaper than this."""
        box, (y, x) = self.box, divmod(at, self.width)
        dx = box.left - x if x < box.left else x - box.right if x > box.right else 0
        dy = box.low - y if y < box.low else y - box.high if y > box.high else 0
        return METAL_STEP * (dx + dy)

    def step_on(self, now):
        at, layer, turn = now // STATES, now & 1, self.turns[now]
        cost_here, step_cost = (self.costs.metal, METAL_STEP) if layer else (self.costs.poly, POLY_STEP)
        for move, axis in self.steps:
            more = cost_here[at + move]
            if more < CLOSED:
                cost = self.distance[now] + step_cost + more + (BEND if turn not in (0, axis) else 0)
                self.offer((at + move) * STATES | layer, cost, now, axis)

    def change_layer(self, now):
        at, other = now // STATES, self.costs.poly if now & 1 else self.costs.metal
        if self.costs.contact[at] < CLOSED and other[at] < CLOSED:
            self.offer(now ^ 1, self.distance[now] + CONTACT + self.costs.contact[at] + other[at], now, 0)

    def walked(self, last):
        path, now = [], self.before[last]
        while now >= 0:
            at = now // STATES
            path.append((now & 1, at % self.width, at // self.width))
            now = self.before[now]
        return path[::-1]


def state(width, place):
    layer, x, y = place
    return (y * width + x) * STATES | layer
