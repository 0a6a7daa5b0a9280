"""Layouts with one line changed in each way in which a hand changes one: a wire shifted, shortened, made wider, taken out or doubled, a via or
a port moved, an instance mirrored. A change is a function from the fields of a line to other fields, or to None where it has none.
"""

STEPS = (-1000, -500, -300, -200, -100, 100, 200, 300, 500, 1000)
TURNS = (b"NOSYM", b"SYM_X", b"SYM_Y", b"SYMXY")
SAME_PINS = ({b"inv_x1", b"inv_x2", b"inv_x4"}, {b"na2_x1", b"no2_x1", b"xr2_x1"}, {b"sff1_x4", b"sff1_x8"})


def shifted(*places):
    """All coordinates at these places by one step."""

    def change(choose, fields):
        step = choose.choice(STEPS)
        return [b"%d" % (int(field) + step) if k in places else field for k, field in enumerate(fields)]

    return change


def is_upright(fields):
    return fields[6] in (b"UP", b"DOWN")


def across(choose, fields):
    return shifted(0, 2)(choose, fields) if is_upright(fields) else shifted(1, 3)(choose, fields)


def along(choose, fields):
    return shifted(1, 3)(choose, fields) if is_upright(fields) else shifted(0, 2)(choose, fields)


def ends(fields):
    """The places of the lower and of the upper end."""
    places = (1, 3) if is_upright(fields) else (0, 2)
    return sorted(places, key=lambda k: int(fields[k]))


def resized(is_longer):
    """One end moved, outwards or inwards."""

    def change(choose, fields):
        low, high = ends(fields)
        length = int(fields[high]) - int(fields[low])
        by = choose.choice([100, 300, 500, 1000] if is_longer else [n for n in (100, 200, 300, 500, 1000) if n <= length] or [0])
        outwards = by if is_longer else -by
        end = choose.choice([low, high])
        value = int(fields[end]) + (outwards if end == high else -outwards)
        return None if by == 0 else [b"%d" % value if k == end else field for k, field in enumerate(fields)]

    return change


def with_field(place, words):
    """Another word at this place."""

    def change(choose, fields):
        others = [word for word in words if word != fields[place]]
        return [*fields[:place], choose.choice(others), *fields[place + 1 :]]

    return change


def other_cell(choose, fields):
    """A cell with the same pins at the same places."""
    kin = next((group for group in SAME_PINS if fields[2] in group), None)
    return kin and with_field(2, sorted(kin))(choose, fields)


def as_connector(choose, fields):
    """A wire on CALU, under some name or none."""
    return [*with_field(5, (b"a", b"p", b"*"))(choose, fields)[:7], b"C" + fields[7]]


LINES = {
    "a wire shifted across": (b"S", across),
    "a wire shifted along": (b"S", along),
    "a wire shortened": (b"S", resized(False)),
    "a wire lengthened": (b"S", resized(True)),
    "a wire widened": (b"S", with_field(4, (b"300", b"400", b"600", b"1000", b"1600"))),
    "a wire narrowed": (b"S", with_field(4, (b"199", b"100", b"1"))),
    "a wire on another metal": (b"S", with_field(7, (b"ALU1", b"ALU2", b"ALU3", b"ALU4"))),
    "a wire as a connector": (b"S", as_connector),
    "a via moved in x": (b"V", shifted(0)),
    "a via moved in y": (b"V", shifted(1)),
    "a via of other metals": (b"V", with_field(2, (b"CONT_VIA", b"CONT_VIA2", b"CONT_VIA3"))),
    "an instance mirrored": (b"I", with_field(4, TURNS)),
    "an instance moved": (b"I", shifted(0)),
    "an instance of another cell": (b"I", other_cell),
    "an instance renamed": (b"I", with_field(3, (b"g99", b"a0"))),
    "a port moved": (b"C", shifted(1)),
    "a port renamed": (b"C", with_field(3, (b"a0", b"zz"))),
}


def split(line):
    return line[:1], line[2:].split(b",")


def joined(letter, fields):
    return letter + b" " + b",".join(fields)


def some_line(choose, lines, letter):
    places = [k for k, line in enumerate(lines) if k > 2 and line[:2] == letter + b" "]
    return choose.choice(places) if places else None


def changed_line(choose, lines, letter, change):
    at = some_line(choose, lines, letter)
    fields = None if at is None else change(choose, split(lines[at])[1])
    return None if fields is None else [*lines[:at], joined(letter, fields), *lines[at + 1 :]]


def without_line(choose, lines, letter):
    at = some_line(choose, lines, letter)
    return None if at is None else [*lines[:at], *lines[at + 1 :]]


def doubled_line(choose, lines, letter):
    """A line a second time, as it is or, if it isn't an instance, moved a little."""
    at = some_line(choose, lines, letter)
    if at is None:
        return None
    fields = split(lines[at])[1]
    if choose.random() < 0.5:
        fields = across(choose, fields) if letter == b"S" else shifted(choose.randrange(2))(choose, fields)
    return [*lines[: at + 1], joined(letter, fields), *lines[at + 1 :]]


def exchanged_ports(choose, lines):
    """Two ports with each other's names."""
    places = [k for k, line in enumerate(lines) if line[:2] == b"C " and split(line)[1][3] not in (b"vdd", b"vss")]
    if len(places) < 2:
        return None
    one, other = choose.sample(places, 2)
    (_, a), (_, b) = split(lines[one]), split(lines[other])
    a[3], b[3] = b[3], a[3]
    changed = list(lines)
    changed[one], changed[other] = joined(b"C", a), joined(b"C", b)
    return changed


def changes(choose, text):
    """The texts with one line changed, one for each way, by their titles."""
    lines, found = text.split(b"\n"), {}
    for title, (letter, change) in LINES.items():
        found[title] = changed_line(choose, lines, letter, change)
    for word, letter in (("wire", b"S"), ("via", b"V"), ("port", b"C")):
        found[f"a {word} taken out"] = without_line(choose, lines, letter)
        found[f"a {word} doubled"] = doubled_line(choose, lines, letter)
    found["an instance taken out"] = without_line(choose, lines, b"I")
    found["two ports exchanged"] = exchanged_ports(choose, lines)
    return {title: b"\n".join(changed) for title, changed in found.items() if changed is not None}
