"""How long the paths through a netlist of usable cells take, for the second readers, written from docs/formats/libraries.md.

Times are femtoseconds. `cells` gives for each instance's name the cell that it is timed with, so that exchanges can be tried.
"""

import random

from .models import IN, OUT
from .vhdl_reader import SUPPLIES

FALLS, RISES = ("tphl", "tpll", "taf"), ("tplh", "tphh", "tar")


def own_cells(n):
    return {i.name: i.model for i in n.instances}


def arc_time(generics, pin, output, load):
    """The greatest time of an edge with this load; where none is given, what the greater resistance makes of the load."""
    ends = f"{pin[0]}_{output[0]}"
    drags = {words: generics.get(f"{name}_{ends}", 0) * load for words, name in ((FALLS, "rdown"), (RISES, "rup"))}
    times = [1000 * generics[f"{word}_{ends}"] + drag for words, drag in drags.items() for word in words if f"{word}_{ends}" in generics]
    return max(times or drags.values())


def loads(n, cells):
    found = {}
    for i in n.instances:
        for pin, net in i.nets.items():
            if cells[i.name].pins[pin] == IN and pin[0] not in SUPPLIES:
                found[net] = found.get(net, 0) + cells[i.name].generics.get(f"cin_{pin[0]}", 0)
    return found


def steps(n, cells):
    """Each net that an output drives, with the arcs to it, behind the nets from which arcs lead there: the net from which an arc comes, or
    None where paths begin with it, and how long it takes."""
    load = loads(n, cells)
    for name, output in n.order:
        i, cell = n.owners[name], cells[name]
        net = i.nets[output]
        pins = [cell.clock] if cell.registers else cell.inputs
        yield net, [(None if cell.registers else i.nets[pin], arc_time(cell.generics, pin, output, load.get(net, 0))) for pin in pins]


def starts(n):
    return [bit for bit, way in n.ports.items() if way == IN]


def ends(n):
    found = [bit for bit, way in n.ports.items() if way == OUT]
    return found + [i.nets[i.model.data()] for i in n.instances if i.model.registers]


def worst(n, cells):
    """By the greatest arrival of each net; a net to which no path comes has none."""
    arrivals = dict.fromkeys(starts(n), 0)
    for net, arcs in steps(n, cells):
        times = [time if begin is None else arrivals[begin] + time for begin, time in arcs if begin is None or begin in arrivals]
        if times:
            arrivals[net] = max(times)
    return max([arrivals[net] for net in ends(n) if net in arrivals], default=0)


def worst_of_all_paths(n, cells):
    """The same by each path there is, for small netlists."""
    arcs, first = dict(steps(n, cells)), set(starts(n))

    def paths(net):
        if net in first:
            yield 0
        for begin, time in arcs.get(net, ()):
            if begin is None:
                yield time
            else:
                yield from (time + before for before in paths(begin))

    return max((time for net in ends(n) for time in paths(net)), default=0)


def exchanges(n, cells, models):
    """Each instance with each other drive of its cell."""
    drives = {}
    for i in n.instances:
        cell = cells[i.name]
        if cell.name not in drives:
            drives[cell.name] = [model for model in models.values() if model is not cell and model.can_stand_for(cell)]
        yield from ((i.name, model) for model in drives[cell.name])


def better_exchange(n, cells, models, most=400):
    """An instance and another drive of its cell with which the longest path is shorter, or None. Where the netlist is large, so many of them
    are tried, taken at random."""
    tried, now = list(exchanges(n, cells, models)), worst(n, cells)
    if len(tried) * len(n.instances) > most * most:
        tried = random.Random(len(tried)).sample(tried, min(len(tried), 1 + most * most // (4 * len(n.instances))))
    better = ((name, model.name) for name, model in tried if worst(n, {**cells, name: model}) < now)
    return next(better, None)
