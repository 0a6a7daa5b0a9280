"""Checks of a netlist of other programs before it becomes a text of ours: who drives each net, and whether any depend on each other in a ring."""

from typing import NamedTuple

from .blif_reader import Unfit

RING_SHOWN = 8


class Part(NamedTuple):
    """Something that drives nets from nets, at once where `at_once`."""

    line: int
    reads: list
    drives: list
    at_once: bool = True


def drivers_of(inputs, parts):
    """The part that drives each net, by its number. `inputs` are the input ports with their lines."""
    found = {}
    for number, part in enumerate(parts):
        for net in part.drives:
            if net in inputs:
                raise Unfit(part.line, f"the input {net} is driven")
            if net in found:
                raise Unfit(part.line, f"{net} is driven a second time; line {parts[found[net]].line} drives it too")
            found[net] = number
    return found


def check_driven(inputs, outputs, parts, drivers):
    for part in parts:
        for net in part.reads:
            if net not in inputs and net not in drivers:
                raise Unfit(part.line, f"{net} is read, and nothing drives it")
    for net, line in outputs.items():
        if net not in drivers:
            raise Unfit(line, f"nothing drives the output {net}")


def in_order(parts, drivers):
    """The numbers of the parts, each behind those that it reads at once (Kahn's algorithm)."""
    readers, waits = {}, [0] * len(parts)
    for number, part in enumerate(parts):
        for net in set(part.reads) if part.at_once else ():
            before = drivers.get(net)
            if before is not None and parts[before].at_once:
                readers.setdefault(before, []).append(number)
                waits[number] += 1
    ready = [number for number, count in enumerate(waits) if not count]
    for number in ready:
        for reader in readers.get(number, ()):
            waits[reader] -= 1
            if not waits[reader]:
                ready.append(reader)
    if len(ready) < len(parts):
        raise ring(parts, drivers, waits)
    return ready


def ring(parts, drivers, waits):
    """The refusal of a ring: backwards from a part that waits, through parts that wait, until one comes again."""
    at, met, path = next(number for number, count in enumerate(waits) if count), {}, []
    while at not in met:
        met[at] = len(path)
        net = next(net for net in parts[at].reads if net in drivers and waits[drivers[net]])
        path.append((at, net))
        at = drivers[net]
    around = path[met[at] :]
    nets = [net for _, net in reversed(around)]
    shown = ", ".join(nets[:RING_SHOWN]) + (f" and {len(nets) - RING_SHOWN} more" if len(nets) > RING_SHOWN else "")
    told = f"{shown} depends on itself" if len(nets) == 1 else f"{shown} depend on each other in a ring"
    return Unfit(min(parts[number].line for number, _ in around), f"{told}, with no register between")
