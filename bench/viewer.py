#!/usr/bin/env python3
"""Turns a layout with its cells into CIF, and compares what a viewer's own extraction says of that with the netlist that `cougar` wrote.

Usage: bench/viewer.py cif LAYOUT.ap LIBRARY >LAYOUT.cif
       bench/viewer.py labels LAYOUT.ap LIBRARY TABLE.real
       bench/viewer.py compare LAYOUT.ap LIBRARY NETLIST.vst NETS [--names]

The CIF has a symbol for each cell, and instances as calls of these, so that it is the viewer that turns and moves them. Metal k is the layer
Mk, the cut of a via between k and k + 1 is Vk, and each rectangle of a terminal has a label on Tk: `t` and a number. NETS has a line for each net of
the viewer, its labels with commas between them. A terminal has one label on all its rectangles, which joins them. Terminals that show no rectangle are
left out. What `labels` prints are the same labels for the CIF file of `s2r`, each on a line with its layer and its point in units of the table. With
`--names` each net of the viewer is listed with its port's name, or the number of its pins.
"""
import pathlib
import re
import sys

sys.path.append(str(pathlib.Path(__file__).resolve().parent.parent))
from share.formats import ap, cellcheck  # noqa: E402
from share.formats.extraction import Flat, instances_of  # noqa: E402
from share.formats.vhdl_reader import spelled  # noqa: E402

CUT = 50
# A mirror in CIF is about the axis, and is moved behind it by the cell's width or height.
MIRRORS = {b"NOSYM": "", b"SYM_X": "MX", b"SYM_Y": "MY", b"SYMXY": "MX MY"}


# ---- CIF


def polygon(layer, box):
    x1, y1, x2, y2 = box
    return f"L {layer}; P {x1} {y1} {x2} {y1} {x2} {y2} {x1} {y2};"


def drawn(figure):
    """The rectangles that a figure draws itself."""
    for shape in cellcheck.shapes(figure):
        yield polygon(f"M{shape.metal}", shape.box)
    for item in figure.items:
        if item[0] == "V" and item[3] in cellcheck.VIAS:
            _, x, y, contact, _ = item
            yield polygon(f"V{cellcheck.VIAS[contact]}", (x - CUT, y - CUT, x + CUT, y + CUT))


def call(number, instance, cell):
    left, foot, right, top = cell.figure.box
    x = instance.x + (right if b"X" in instance.transform.replace(b"SYM", b"") else -left)
    y = instance.y + (top if instance.transform in (b"SYM_Y", b"SYMXY") else -foot)
    return f"C {number} {MIRRORS[instance.transform]} T {x} {y};"


def terminals(flat):
    """The terminals that show something, in a fixed order."""
    return {terminal: k for k, terminal in enumerate(flat.terminals)}


def cif(figure, cells):
    instances, numbers, flat = instances_of(figure), {}, Flat(figure, cells)
    for instance in instances:
        if instance.model not in numbers:
            numbers[instance.model] = len(numbers) + 1
            yield f"DS {numbers[instance.model]} 1 1; 9 {instance.model};"
            yield from drawn(cells[instance.model].figure)
            yield "DF;"
    yield f"DS {len(numbers) + 1} 1 1; 9 the_layout;"
    yield from drawn(figure)
    yield from (call(numbers[i.model], i, cells[i.model]) for i in instances)
    labels = terminals(flat)
    for shape in flat.shapes:
        if shape.terminal is not None:
            x1, y1, x2, y2 = shape.box
            yield f"L T{shape.metal}; 94 t{labels[shape.terminal]} {(x1 + x2) // 2} {(y1 + y2) // 2};"
    yield f"DF; C {len(numbers) + 1}; E"


def label_lines(flat, table):
    """The labels of all rectangles of terminals: layer, point and text."""
    labels = terminals(flat)
    scale = int(re.match(r"scale (\d+)", table.read_text())[1])
    for shape in flat.shapes:
        if shape.terminal is not None:
            x1, y1, x2, y2 = shape.box
            yield f"T{shape.metal} {scale * (x1 + x2) / 2} {scale * (y1 + y2) / 2} t{labels[shape.terminal]}"


# ---- the comparison


def of_viewer(nets, labels):
    """The nets of the viewer that have terminals, those of one label put together."""
    by_label = {k: terminal for terminal, k in labels.items()}
    groups, of = [], {}
    for line in nets.read_text().splitlines():
        found = {int(word[1:]) for word in line.split(",") if re.fullmatch(r"t\d+", word)}
        for other in {id(of[k]): of[k] for k in found if k in of}.values():
            found |= other
            groups.remove(other)
        if found:
            groups.append(found)
            of.update((k, found) for k in found)
    return {frozenset(name_of(by_label[k]) for k in group) for group in groups}


def name_of(terminal):
    owner, bit = terminal
    return spelled(bit) if owner is None else f"{owner} {spelled(bit)}"


def of_netlist(text):
    """The nets of a netlist as `cougar` writes it, as sets of terminals."""
    nets = {}
    head, body = text.split("\nbegin\n")
    ports = re.search(r"port \(\n(.*?)\);\nend", head, re.DOTALL)[1]
    for name, high, low in re.findall(r"(\w+) : (?:in|out) bit(?:_vector \((\d+) downto (\d+)\))?", ports):
        for bit in [name] if not high else [f"{name}({k})" for k in range(int(low), int(high) + 1)]:
            nets.setdefault(bit, set()).add(bit)
    for instance, pairs in re.findall(r"(\w+) : \w+\nport map \(\n(.*?)\);\n", body, re.DOTALL):
        for pin, net in re.findall(r"(\S+) => ([\w()]+)", pairs):
            nets.setdefault(net, set()).add(f"{instance} {pin}")
    return {frozenset(net) for net in nets.values()}


def main():
    words = sys.argv[1:]
    has_names = words[-1:] == ["--names"]
    words = words[:-1] if has_names else words
    if not words or (words[0], len(words)) not in (("cif", 3), ("labels", 4), ("compare", 5)):
        sys.exit(__doc__)
    figure, cells = ap.read(pathlib.Path(words[1]).read_bytes()), cellcheck.cells(cellcheck.folder(words[2]), False)
    if words[0] == "cif":
        print("\n".join(cif(figure, cells)))
        return
    if words[0] == "labels":
        print("\n".join(label_lines(Flat(figure, cells), pathlib.Path(words[3]))))
        return
    labels = terminals(Flat(figure, cells))
    seen = of_viewer(pathlib.Path(words[4]), labels)
    shown = {name_of(terminal) for terminal in labels}
    written = {net & shown for net in of_netlist(pathlib.Path(words[3]).read_text())} - {frozenset()}
    print(f"the viewer: {len(seen)} nets of {sum(map(len, seen))} terminals; cougar: {len(written)} nets of {sum(map(len, written))}")
    for which, nets in (("the viewer", seen - written), ("cougar", written - seen)):
        for net in sorted(map(sorted, nets))[:5]:
            print(f"only {which} has the net {', '.join(net)}")
    for net in sorted(map(sorted, seen)) if has_names else []:
        ports = [name for name in net if " " not in name]
        print(f"  {' '.join(ports) or '*'}: {len(net) - len(ports)} pins")
    sys.exit(seen != written)


if __name__ == "__main__":
    main()
