"""Setup and hold of a flip-flop by ngspice.

The clock rises twice. Before the first rise the data is the old value, which the output then shows; the second rise meets the new value.
Setup: the data becomes new some time before the second rise, and stays. Hold: it is new long before, and becomes old some time after the rise.
A time is enough if the output changes at most a tenth later than it does with a time that is long, and shows the new value to the end. A
time is searched in steps of 100, 20, 4 and 1 ps, for slow data with a fast clock and for fast data with a slow one; the longer one counts.
"""

from bench import spice
from bench.spice import Copy, Event

# The slopes of clock and data.
PAIRS, LOAD, SHARE = ((40, 160), (160, 40)), 8, 1.1
FIRST, FALL, SECOND, END, LONG = 2500, 4500, 7000, 9500, 2000
COARSE, FINER = range(-500, 501, 100), (20, 4, 1)
SETUP, HOLD = "setup", "hold"
# The generics for them: setup and hold of a rising and of a falling data input.
WORDS = {(SETUP, 1): "tsr", (SETUP, 0): "tsf", (HOLD, 1): "thr", (HOLD, 0): "thf"}


def schedule(kind, clock, data, new):
    """The events with a time of 0: the last of them is moved by it."""
    events = [Event(FIRST, clock, 1), Event(FALL, clock, 0), Event(SECOND, clock, 1)]
    if kind == SETUP:
        return events + [Event(1000, data, 1 - new), Event(SECOND, data, new)]
    return events + [Event(1000, data, 1 - new), Event(FALL, data, new), Event(SECOND, data, 1 - new)]


class Bench:
    """One search: a flip-flop, what is asked of it, and the slopes of clock and data."""

    def __init__(self, cell, kind, new):
        self.cell, self.kind, self.new = cell, kind, new
        self.data, self.clock = cell.inputs

    def copy(self, slopes, time):
        moved = -time if self.kind == SETUP else time
        return Copy({self.clock: slopes[0], self.data: slopes[1]}, LOAD, {self.data: moved})

    def enough(self, asked):
        """Of each pair (slopes, time), whether the time is enough."""
        asked = list(asked)
        tried = [*asked, *((slopes, LONG) for slopes in dict(asked))]
        events = schedule(self.kind, self.clock, self.data, self.new)
        waves = spice.simulated(self.cell, [self.copy(*one) for one in tried], events, END, spice.QUICK)
        shown = {one: self.shows(waves, f"v(out{number})") for number, one in enumerate(tried)}
        latest = {slopes: SHARE * shown[slopes, LONG] for slopes in dict(asked)}
        return {one: shown[one] is not None and shown[one] <= latest[one[0]] for one in asked}

    def shows(self, waves, name):
        """How long after the clock the output becomes new, or None where it doesn't or isn't at the end."""
        changed = waves.last_crossing(name, spice.MIDDLE, self.new, SECOND - 1000, END)
        is_kept = abs(waves.at(name, END) - self.new * spice.SUPPLY) < spice.LOW * spice.SUPPLY
        return changed - SECOND if changed is not None and is_kept else None


def least(enough, step):
    """For each pair of slopes the time behind the greatest that isn't enough."""
    found = {}
    for (slopes, time), is_enough in sorted(enough.items(), reverse=True):
        if slopes not in found and not is_enough:
            found[slopes] = time + step
    return found


def search(bench):
    found, step = least(bench.enough((pair, time) for pair in PAIRS for time in COARSE), COARSE.step), COARSE.step
    if set(found) != set(PAIRS) or max(COARSE) + COARSE.step in found.values():
        raise spice.Trouble(f"{bench.cell.name}: {bench.kind} isn't between {min(COARSE)} and {max(COARSE)} ps")
    for finer in FINER:
        asked = [(pair, found[pair] - offset) for pair in PAIRS for offset in range(finer, step, finer)]
        lower = {pair: time - step + finer for pair, time in found.items()}
        found, step = lower | least(bench.enough(asked), finer), finer
    return max(found.values())


def constraints(cell):
    """Setup and hold by the data's pin and the word of its generic, in ps, of a cell whose inputs are its data and its clock; a time below 0
    lies on the other side of the clock's edge."""
    return {(cell.inputs[0], word): search(Bench(cell, kind, new)) for (kind, new), word in WORDS.items()}
