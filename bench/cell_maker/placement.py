"""Gates at their x, and what follows from it: diffusions, transistors, contacts of the rails, and the places at which each net has to be met."""

from typing import NamedTuple

from .measures import (
    BREAK_PITCH, COLUMN, CONTACT_PITCH, CONTACT_REACH, DIFFUSION, EDGE_SPACE, FIRST_NODE, GATE_OVERHANG, GATE_TO_CONTACT, HEIGHT, LAST_NODE, METAL,
    METAL_HALF, PAD_HALF, POLY, POLY_HALF, RAIL, RAIL_CONTACT, RAIL_MIDDLE, RAIL_NET, RAIL_STRIP_SPACE, SERIES_PITCH,
)
from .sticks import row

NOTHING, SERIES = "-", "."
SIGNAL_LOW = RAIL + RAIL_STRIP_SPACE + METAL_HALF  # of the middles of signals on metal 1
SIGNAL_HIGH = HEIGHT - SIGNAL_LOW
EDGE = EDGE_SPACE + CONTACT_REACH + GATE_TO_CONTACT  # from the cell's edge to the middle of the first gate


class NoRoom(Exception):
    """The gates don't fit the columns, or the nets don't fit between the gates."""


class TooNarrow(NoRoom):
    """The gates alone don't fit."""


class Transistor(NamedTuple):
    kind: str
    x: int
    gate: str
    source: str
    drain: str


class Diffusion(NamedTuple):
    kind: str
    left: int
    right: int

    def box(self):
        low, high = DIFFUSION[self.kind]
        return self.left, low, self.right, high


class Terminal(NamedTuple):
    """Where a net has to be met: at one of the places. `kind` is gate, n or p (a contact to diffusion), pin or rail."""

    kind: str
    places: frozenset


class Placement:
    """The gates of a cell of so many columns. `share` deals the room that is left to the gaps: how many of it, of so many gaps."""

    def __init__(self, lines, columns, pins, share):
        self.rows = dict(zip("np", map(row, lines)))
        self.columns, self.width, self.pins = columns, COLUMN * columns, pins
        self.diffusions, self.transistors, self.rail_contacts = [], [], []
        self.gate_poly, self.terminals = {}, {}
        self.x = self.places_of_gates(share)
        for kind in "np":
            self.lay_row(kind)
        for at, gates in enumerate(zip(self.rows["n"].gates, self.rows["p"].gates)):
            self.lay_gates(self.x[at], *gates)
        for pin in pins:
            self.add_terminal(pin, "pin", ((METAL, COLUMN * c, y) for c in range(1, columns) for y in range(FIRST_NODE, LAST_NODE + 1, COLUMN)))
        for net, y in (("vss", SIGNAL_LOW - METAL_HALF), ("vdd", SIGNAL_HIGH + METAL_HALF)):
            if net in self.terminals:
                self.add_terminal(net, "rail", ((METAL, x, y) for x in range(2 * METAL_HALF, self.width - 2 * METAL_HALF + 1)))

    def places_of_gates(self, share):
        inner = range(1, len(self.rows["n"].gates))
        least = [max(pitch(self.rows[kind].slots[at]) for kind in "np") for at in inner]
        left = self.width - 2 * EDGE - sum(least)
        if left < 0:
            raise TooNarrow(f"{self.columns} columns are {-left} lambda too few")
        more = share(left, len(least) + 2)
        x = [EDGE + more[0]]
        for at in range(len(least)):
            x.append(x[-1] + least[at] + more[at + 1])
        return x

    def add_terminal(self, net, kind, places):
        self.terminals.setdefault(net, []).append(Terminal(kind, frozenset(places)))

    def lay_row(self, kind):
        """Diffusions and their contacts, and the transistors of one row."""
        slots, gates = self.rows[kind]
        nets, start = [], None
        for at, slot in enumerate(slots):
            has_left = at > 0 and gates[at - 1] != NOTHING
            has_right = at < len(gates) and gates[at] != NOTHING
            left_net, right_net = self.nets_of_slot(kind, at, slot)
            nets.append((left_net, right_net))
            if has_left and has_right and "|" not in slot:
                if slot != SERIES:
                    self.contact_diffusion(kind, slot, (self.x[at - 1] + self.x[at]) // 2)
                continue
            if has_left:
                self.contact_diffusion(kind, left_net, self.x[at - 1] + GATE_TO_CONTACT)
                self.diffusions.append(Diffusion(kind, start, self.x[at - 1] + GATE_TO_CONTACT + CONTACT_REACH))
            if has_right:
                self.contact_diffusion(kind, right_net, self.x[at] - GATE_TO_CONTACT)
                start = self.x[at] - GATE_TO_CONTACT - CONTACT_REACH
        for at, gate in enumerate(gates):
            if gate != NOTHING:
                self.transistors.append(Transistor(kind, self.x[at], gate, nets[at][1], nets[at + 1][0]))

    @staticmethod
    def nets_of_slot(kind, at, slot):
        """What a slot is to the gate on its left and to that on its right."""
        if "|" in slot:
            return slot.split("|")
        net = f"{kind}_{at}" if slot == SERIES else slot
        return net, net

    def contact_diffusion(self, kind, net, x):
        if net == RAIL_NET[kind]:
            self.rail_contacts.append((kind, x))
            return
        low, high = DIFFUSION[kind]
        places = range(max(low + PAD_HALF, SIGNAL_LOW), min(high - PAD_HALF, SIGNAL_HIGH) + 1)
        self.add_terminal(net, kind, ((METAL, x, y) for y in places))

    def lay_gates(self, x, n_gate, p_gate):
        """The poly of the gates at one x: one strip where both rows have the same net."""
        (n_low, n_high), (p_low, p_high) = DIFFUSION["n"], DIFFUSION["p"]
        if n_gate == p_gate:
            self.add_gate(n_gate, x, n_low - GATE_OVERHANG, p_high + GATE_OVERHANG, range(n_high + 1, p_low))
            return
        if n_gate != NOTHING:
            self.add_gate(n_gate, x, n_low - GATE_OVERHANG, n_high + GATE_OVERHANG, [n_high + 1])
        if p_gate != NOTHING:
            self.add_gate(p_gate, x, p_low - GATE_OVERHANG, p_high + GATE_OVERHANG, [p_low - 1])

    def add_gate(self, net, x, low, high, places):
        self.gate_poly.setdefault(net, []).append((x - POLY_HALF, low, x + POLY_HALF, high))
        self.add_terminal(net, "gate", ((POLY, x, y) for y in places))

    def rail_straps(self):
        """The metal from the rails to their contacts, as (net, x, the contact's y)."""
        return [(RAIL_NET[kind], x, RAIL_CONTACT[kind]) for kind, x in self.rail_contacts]

    def strap_boxes(self):
        """The same as boxes by their nets."""
        made = {}
        for net, x, y in self.rail_straps():
            low, high = sorted((RAIL_MIDDLE[net], y))
            made.setdefault(net, []).append((x - METAL_HALF, low - METAL_HALF, x + METAL_HALF, high + METAL_HALF))
        return made


def pitch(slot):
    """The least distance between the gates on both sides of a slot."""
    if "|" in slot:
        return BREAK_PITCH if all(slot.split("|")) else CONTACT_PITCH
    return SERIES_PITCH if slot in (SERIES, NOTHING) else CONTACT_PITCH
