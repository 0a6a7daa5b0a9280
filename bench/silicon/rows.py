"""Rows of abutted cells, each cell once in each row, in random order and orientation, as layouts."""

import random

COLUMN, HEIGHT, RAIL, START = 500, 5000, 600, 1500
RAILS = {"vss": 300, "vdd": 4700}
UPRIGHT, MIRRORED = ("NOSYM", "SYM_X"), ("SYM_Y", "SYMXY")
MOST_SHIFT = 3  # columns by which a row may begin later

# Name, rows, whether cells are turned about the upright axis too, and the seed.
TRIES = (("row1", 1, False, 1), ("row2", 2, False, 2), ("row3", 3, False, 3), ("rowx", 2, True, 4), ("rowy", 3, True, 5))


def layout(name, widths, rows, turned, seed):
    """Widths are those of the cells by their names."""
    lot, instances, most = random.Random(seed), [], 0
    for row in range(rows):
        x = START + COLUMN * lot.randint(0, MOST_SHIFT) * (row > 0)
        for cell in lot.sample(sorted(widths), len(widths)):
            transform = (MIRRORED if row % 2 else UPRIGHT)[lot.randint(0, 1) if turned else 0]
            instances.append(f"I {x},{HEIGHT * row},{cell},u{len(instances)},{transform}")
            x += widths[cell]
        most = max(most, x)
    head = ["V ALLIANCE : 6", f"H {name},P,01/01/2000,100", f"A 0,0,{most + COLUMN},{HEIGHT * rows}"]
    head += [f"C {COLUMN},{y},{RAIL},{net},0,WEST,ALU1" for net, y in RAILS.items()]
    return "\n".join(head + instances + list(rails(rows, most)) + ["EOF", ""])


def rails(rows, end):
    for row in range(rows):
        for net, y in RAILS.items():
            at = HEIGHT * row + (HEIGHT - y if row % 2 else y)
            yield f"S {COLUMN},{at},{end},{at},{RAIL},{net},RIGHT,ALU1"
