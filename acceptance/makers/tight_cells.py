"""Libraries whose pins stand close together: on any points between the rails, also above each other, some of them longer than a point."""

import re

from acceptance.makers.rail_connectors import with_rail_connectors
from acceptance.tools.boog import of_cells

COLUMN, LOWEST, HIGHEST = 500, 2, 8
HEAD = "V ALLIANCE : 6\nH {name},P,01/01/2000,100\nA 0,0,{width},5000\n"
RAILS = "S 0,300,{width},300,600,vss,RIGHT,CALU1\nS 0,4700,{width},4700,600,vdd,RIGHT,CALU1\n"


def tight_layout(choose, name, pins):
    """A cell's layout with its pins on so few columns and rows as mostly just hold them."""
    columns, rows = choose.choice([1, 1, 2, 3]), choose.choice([2, 3, 5])
    while columns * rows < len(pins):
        columns += 1
    foot = choose.randrange(LOWEST, HIGHEST - rows + 2)
    free = [(column, row) for column in range(1, columns + 1) for row in range(foot, foot + rows)]
    choose.shuffle(free)
    lines, spans = "", {pin: free.pop() for pin in pins}
    for pin, (column, row) in spans.items():
        top = row
        while (column, top + 1) in free and choose.random() < 0.3:
            top += 1
            free.remove((column, top))
        x = COLUMN * column
        lines += f"S {x},{COLUMN * row},{x},{COLUMN * top},200,{pin},UP,CALU1\n"
    width = COLUMN * (columns + 1)
    return (HEAD + RAILS).format(name=name, width=width) + lines + "EOF\n"


def tight_cells(choose, names):
    """The library of some of this repository's cells, each with another layout."""
    files = of_cells(names)
    for name in names:
        found = re.findall(r",(\w+),\w+,CALU1", files[f"lib/{name}.ap"].decode())
        pins = [pin for pin in dict.fromkeys(found) if pin not in ("vdd", "vss")]
        files[f"lib/{name}.ap"] = tight_layout(choose, name, pins).encode()
    return with_rail_connectors(choose, files)
