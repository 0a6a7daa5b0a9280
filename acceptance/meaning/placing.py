"""Placements in rows, written from the rules: the first one, random moves, and whether any exchange of neighbours makes the nets shorter.

A placement is a list of rows of instances' names. `faults` says what is wrong with the one of a layout.
"""

from acceptance.meaning.rows import Rows
from share.formats.state_codes import words

MOST_ROWS, ROW_COLUMNS = 256, 10


def columns_of(n, cells, name):
    return cells[n.owners[name].model.name].width // 500


def square(columns):
    """The least number of rows whose block isn't wider than it is high."""
    return next((r for r in range(1, MOST_ROWS) if ROW_COLUMNS * r * r >= columns), MOST_ROWS)


def first(n, cells, count):
    """The rows filled from the lowest on: the next begins exactly where the present one is at least as wide as its share."""
    wide = {i.name: columns_of(n, cells, i.name) for i in n.instances}
    share = -(-sum(wide.values()) // count)
    rows, width = [[]], 0
    for i in n.instances:
        if width >= share:
            rows.append([])
            width = 0
        rows[-1].append(i.name)
        width += wide[i.name]
    return rows + [[] for _ in range(count - len(rows))]


class Lengths:
    """How long the nets of rows are, kept up to date by exchanges. An exchange of neighbours changes no port's column."""

    def __init__(self, n, cells, rows):
        self.n, self.cells, self.rows = n, cells, [list(row) for row in rows]
        block = Rows(n, cells, rows)
        self.x = {name: placed.x for name, placed in block.placed.items()}
        self.nets = [[(t[0] if t[0] else None, column * 500 + 1500, row) for t, (_, column, row) in net.points] for net in block.nets]
        self.nets = [[(name, at - self.x[name] if name else at) for name, at, _ in net] for net in self.nets]
        self.upright = sum(max(rows_of) - min(rows_of) for rows_of in ([row for _, (_, _, row) in net.points] for net in block.nets) if rows_of) * 500
        self.of = {}
        for k, net in enumerate(self.nets):
            for name, _ in net:
                if name:
                    self.of.setdefault(name, set()).add(k)
        self.spans = [self.span(k) for k in range(len(self.nets))]

    def span(self, k):
        places = [self.x[name] + at if name else at for name, at in self.nets[k]]
        return max(places) - min(places) if places else 0

    def total(self):
        return sum(self.spans) + self.upright

    def change(self, row, at):
        """By how much the exchange of two neighbours changes the length; it is made."""
        names = self.rows[row]
        a, b = names[at], names[at + 1]
        touched = self.of.get(a, set()) | self.of.get(b, set())
        before = sum(self.spans[k] for k in touched)
        left = self.x[a]
        names[at], names[at + 1] = b, a
        self.x[b], self.x[a] = left, left + self.cells[self.n.owners[b].model.name].width
        for k in touched:
            self.spans[k] = self.span(k)
        return sum(self.spans[k] for k in touched) - before


def tried(n, cells, rows, seed, moves):
    """The length after so many moves, of which each that would raise it is left out."""
    lengths, source = Lengths(n, cells, rows), words(seed)
    for _ in range(moves):
        u, v = next(source), next(source)
        row = u % len(rows)
        if len(rows[row]) >= 2:
            at = v % (len(rows[row]) - 1)
            if lengths.change(row, at) > 0:
                lengths.change(row, at)
    return lengths.total()


def faults(n, cells, rows, asked, seed, moves):
    """What is wrong with the rows of a layout, of which so many were asked for, or None."""
    wide = [sum(columns_of(n, cells, name) for name in row) for row in rows]
    total = sum(wide)
    count = asked or square(total)
    rows = rows + [[] for _ in range(count - len(rows))]
    if len(rows) != count:
        yield f"there are {len(rows)} rows, wanted {count}"
        return
    if sorted(name for row in rows for name in row) != sorted(i.name for i in n.instances):
        yield "an instance doesn't stand in the rows once"
        return
    if max(wide, default=0) > -(-total // count) + max((columns_of(n, cells, i.name) for i in n.instances), default=0):
        yield "a row is too wide"
    lengths = Lengths(n, cells, rows)
    own = lengths.total()
    for r, row in enumerate(rows):
        for at in range(len(row) - 1):
            if lengths.change(r, at) < 0:
                yield f"an exchange in row {r} at {at} makes it shorter"
            lengths.change(r, at)
    most = tried(n, cells, first(n, cells, count), seed, moves)
    if own > most:
        yield f"it is {own} long, after the moves {most}"
