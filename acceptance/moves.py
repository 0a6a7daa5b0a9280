"""The moves of a router that tears nets out, one by one: small grids on which nets get stuck, over the program maze_probe.

The probe routes the nets with no rip, one, two and so on, and prints each time its last rip and what stands then. Between two of these runs
no net is torn out, so the ways that a run has and the one before hasn't, net by net, are the moves behind its last rip. meaning/torn.py says
of each whether it was right: a least way beside all other trees, a net that blocks a least way, the net whose turn it was.
"""

import random
import subprocess
from typing import NamedTuple

from acceptance.meaning import torn
from acceptance.meaning.maze import named
from acceptance.meaning.rows import LOWEST, OF_PORTS, Net
from acceptance.running.results import Results

COUNT, MOST_RIPS = 60, 12
NO_RIP_HELPS = "no rip helps"


class OverGrid:
    """Nets over an empty grid, with what Rows has of them."""

    def __init__(self, columns, rows, nets):
        self.columns, self.top, self.nets = columns - 1, rows - 1, nets
        points = [(net.number, node) for net in nets for _, node in net.points]
        self.reserved = {(metal, *node[1:]): net for net, node in points for metal in range(LOWEST, OF_PORTS + 1)}

    def in_order(self):
        return sorted(self.nets, key=lambda net: (net.half_perimeter(), net.number))

    def terminal(self, net, at):
        return named(self.nets[net].points[at][0])


class Run(NamedTuple):
    """Its last rip as (net, number of its point, torn net) or None, the ways of each net from its tree on, where it is stuck or None."""

    rip: tuple | None
    ways: dict
    stuck: tuple | None


def nodes_of(numbers):
    return list(zip(*[iter(numbers)] * 3))


def read(printed, columns, rows):
    """The nets and the runs that a probe prints, and whether a rip more would be of no use."""
    nets, runs, rip, ways, is_closed = [], [], None, {}, False
    for line in printed.splitlines():
        words = line.split(" ")
        numbers = [int(word) for word in words if word.isdigit()]
        if words[0] == "net":
            points = [((f"n{numbers[0]}p{k}", ("q", -1)), node) for k, node in enumerate(nodes_of(numbers[1:]))]
            nets.append(Net(numbers[0], None, points))
        elif words[0] == "rip":
            rip = tuple(numbers)
        elif words[0] == "path":
            ways.setdefault(numbers[0], []).append(nodes_of(numbers[1:])[::-1])
        elif words[0] in ("routed", "stuck"):
            runs.append(Run(rip, ways, tuple(numbers) or None))
            rip, ways = None, {}
        else:
            is_closed = line == NO_RIP_HELPS
    return OverGrid(columns, rows, nets), runs, is_closed


def new_ways(block, run, had):
    """The ways of a run that the one before hadn't, by turns; None where one that it had is gone or another."""
    order = [net.number for net in block.in_order()]
    if run.rip:
        order = [run.rip[0], *(net for net in order if net != run.rip[0])]
    found = []
    for net in order:
        ways, old = run.ways.get(net, []), had.get(net, [])
        if ways[: len(old)] != old:
            return None
        found += [("way", net, way) for way in ways[len(old) :]]
    return found


def moves_of(block, runs):
    """The moves as torn.py has them; None where a run doesn't go on from the one before."""
    moves, had = [], {}
    for run in runs:
        if run.rip:
            net, at, gone = run.rip
            moves.append(("rip", net, block.terminal(net, at), gone))
            had.pop(gone, None)
        new = new_ways(block, run, had)
        if new is None:
            return None
        moves, had = moves + new, dict(run.ways)
    end = runs[-1].stuck
    return [*moves, ("stuck", end[0], block.terminal(*end)) if end else ("done",)]


def trial(choose):
    """Words of the probe for so few nodes that nets mostly get stuck."""
    metals, columns, rows = choose.choice([3, 4, 4, 5]), choose.randrange(4, 9), choose.randrange(4, 9)
    kind, pins = choose.choice([("pairs", 2), ("triples", 3)])
    nets = choose.randrange(3, max(4, columns * rows // (2 * pins)))
    return [kind, *map(str, (metals, columns, rows, nets, choose.randrange(10000), MOST_RIPS))]


def check(results, probe, seed, number):
    """One trial; how often it tore a net out."""
    words = trial(random.Random(f"{seed} moves {number}"))
    done = subprocess.run([probe, *words], stdout=subprocess.PIPE, stderr=subprocess.PIPE, text=True)
    if done.returncode or done.stderr:
        results.note("the probe's end", False, f"status {done.returncode} of {words}, {done.stderr[:200]!r}")
        return 0
    _, metals, columns, rows, *_ = words
    block, runs, is_closed = read(done.stdout, int(columns), int(rows))
    moves, rips = moves_of(block, runs), len(runs) - 1 + is_closed
    faults = ["a run doesn't go on from the one before"] if moves is None else torn.move_faults(block, int(metals), rips, moves)
    results.note("moves of a router that tears nets out", not faults, f"{faults} of {words}")
    return len(runs) - 1


def check_all(results, probe, seed, count):
    """Trials, of which many have rips."""
    torn_out = sum(check(results, probe, seed, number) > 0 for number in range(count))
    results.note("trials in which nets are torn out", 5 * torn_out > count, f"{torn_out} of {count}")


def jobs(probe, seed, times):
    if probe is None:
        yield Results.skip, ("there is no program that routes over empty grids: moves aren't looked at one by one",)
        return
    for first in range(times):
        yield check_all, (probe, f"{seed} {first}", COUNT)
