#!/usr/bin/env python3
"""Measures a layout that is routed over rows, for route.sh.

Usage: bench/route.py LAYOUT.ap LIBRARY [TRACKS.ap [METALS]]
       bench/route.py --netlist SOURCE.vst LAYOUT.ap LIBRARY METALS
       bench/route.py --probe LINE SECONDS KILOBYTES BARE

Prints on one line: nodes of the grid; nets that are routed, and all nets; the length of wires in steps of 500; vias but for those on pins;
the area beside that of TRACKS.ap, as how many times that is as large, or -. In a layout without marks all nets are routed. Straps
and rails don't count.

With --netlist the same without the area, by the netlist that is routed; it isn't read from the layout.

With --probe LINE is one of maze_probe, and BARE the seconds that it takes over the same grid without nets, or -. Prints what the line
says; seconds, megabytes, and bytes for a node; nodes a second where there is no net; paths a second beyond BARE where all are routed.
"""
import pathlib
import sys

sys.path.append(str(pathlib.Path(__file__).resolve().parent.parent))
from acceptance.meaning import maze  # noqa: E402
from acceptance.meaning.rows import Rows, head_lines, rows_of  # noqa: E402
from share.formats import ap, cellcheck, extraction, models, vst  # noqa: E402


def block_of(figure, folder):
    files = {f"lib/{name}": text for name, text in cellcheck.folder(folder).items()}
    cells, of_name = cellcheck.cells(cellcheck.folder(folder), False), models.library(files, "lib")
    if any(item[0] == "R" for item in figure.items):
        return Rows(maze.marked(figure, cells, of_name), cells, rows_of(figure))
    read = extraction.extracted(figure, extraction.flat_of(figure, cells), of_name)
    return Rows(vst.Netlist(read.name, read.all_ports, read.instances), cells, rows_of(figure))


def block_in(figure, folder, source):
    """The block of a layout whose netlist is in a file, or is read from the layout where there is none."""
    if not source or not source.exists():
        return block_of(figure, folder)
    files = cellcheck.folder(folder)
    of_name = models.library({f"lib/{name}": text for name, text in files.items()}, "lib")
    return Rows(vst.netlist(source.read_bytes(), of_name), cellcheck.cells(files, False), rows_of(figure))


def area(figure):
    left, foot, right, top = figure.box
    return (right - left) * (top - foot)


def numbers(path, folder, tracks, metals, source=None):
    figure = ap.read(path.read_bytes())
    block = block_in(figure, folder, source)
    trees = maze.trees_of(block, figure.items[len(head_lines(block)) - 3 :], metals)
    edges = [edge for tree in trees for edge in tree.edges]
    steps = sum(a[0] == b[0] for a, b in edges)
    routed = sum(all(node in tree.nodes for _, node in net.points) for net, tree in zip(block.nets, trees))
    nodes = (block.columns + 1) * (block.top + 1) * (metals - 1)
    saved = f"{area(ap.read(tracks.read_bytes())) / area(figure):.1f}" if tracks and tracks.exists() else "-"
    return nodes, routed, len(block.nets), steps, len(edges) - steps, saved


def over(number, seconds):
    return f"{number / seconds:.0f}" if seconds > 0 else "-"


def probe_numbers(line, seconds, kilobytes, bare):
    words = line.split()
    if seconds == "-" or not words:
        return ["-"] * 11
    nodes, nets, points = map(int, words[1:6:2])
    routed = "all" if words[6] == "routed" else ":".join(words[8:10])
    figures = words[-3], words[-1], seconds, int(kilobytes) // 1024, f"{int(kilobytes) * 1024 / max(nodes, 1):.1f}"
    nodes_a_second = "-" if nets else over(nodes, float(seconds))
    paths_a_second = over(points - nets, float(seconds) - float(bare)) if nets and routed == "all" and bare != "-" else "-"
    return nodes, nets, points, routed, *figures, nodes_a_second, paths_a_second


def main():
    if len(sys.argv) == 6 and sys.argv[1] == "--probe":
        print(*probe_numbers(*sys.argv[2:]))
        return
    if len(sys.argv) == 6 and sys.argv[1] == "--netlist":
        source, path, folder, metals = sys.argv[2:]
        print(*numbers(pathlib.Path(path), folder, None, int(metals), pathlib.Path(source))[:-1])
        return
    if len(sys.argv) not in (3, 4, 5):
        sys.exit(__doc__)
    path, *more = map(pathlib.Path, sys.argv[1:4:2])
    print(*numbers(path, sys.argv[2], more[0] if more else None, int(sys.argv[4]) if len(sys.argv) > 4 else 6))


if __name__ == "__main__":
    main()
