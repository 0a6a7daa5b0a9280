#!/usr/bin/env python3
"""Measures how long it takes to find which shapes are joined: random figures of 10,000 to 1,000,000 wires.

Usage: bench/joints.py PROGRAM [SHAPES..]      (the program cell_probe)

Prints the seconds of reading the figure and finding what is joined, those of reading alone, the difference, by how much it
grows for twice the shapes, the megabytes, and how many groups there are.
"""
import math
import os
import random
import subprocess
import sys
import tempfile
import time

SHAPES = [10_000, 31_623, 100_000, 316_228, 1_000_000]
COLUMN = 500


def figure(shapes, seed=1):
    """Wires of up to 40 columns on the metals 2 and 3, so many on a square that each meets about one other."""
    choose = random.Random(seed)
    side = max(40, int(math.sqrt(shapes) * 4))
    lines = ["V ALLIANCE : 6", "H figure,P,01/01/2000,100", f"A 0,0,{side * COLUMN},{side * COLUMN}"]
    for k in range(shapes):
        x, y, far = choose.randrange(side) * COLUMN, choose.randrange(side) * COLUMN, choose.randrange(1, 41) * COLUMN
        if k % 2:
            lines.append(f"S {x},{y},{x + far},{y},200,*,RIGHT,ALU2")
        else:
            lines.append(f"S {x},{y},{x},{y + far},200,*,UP,ALU3")
    return "\n".join(lines + ["EOF", ""])


def measure(program, word, path):
    """Seconds, megabytes and the line of one run."""
    begin = time.monotonic()
    process = subprocess.Popen([program, word, path], stdout=subprocess.PIPE)
    line = process.stdout.read().decode()
    _, status, usage = os.wait4(process.pid, 0)
    if status or not line.startswith("ok "):
        sys.exit(f"{path}: {line or status}")
    return time.monotonic() - begin, usage.ru_maxrss / 1024, line.split()


def main():
    if len(sys.argv) < 2:
        sys.exit(__doc__)
    program = os.path.realpath(sys.argv[1])
    counts = [int(word) for word in sys.argv[2:]] or SHAPES
    print(f"{'shapes':>9}{'seconds':>9}{'reading':>9}{'joining':>9}{'growth':>8}{'MB':>7}{'groups':>9}")
    before = None
    with tempfile.TemporaryDirectory() as folder:
        path = os.path.join(folder, "figure.ap")
        for count in counts:
            with open(path, "w") as out:
                out.write(figure(count))
            reading, _, _ = measure(program, "figure", path)
            seconds, memory, line = measure(program, "joints", path)
            joining = max(seconds - reading, 0.001)
            growth = f"{(joining / before[1]) ** (1 / math.log2(count / before[0])):.2f}" if before else "-"
            print(f"{count:9}{seconds:9.2f}{reading:9.2f}{joining:9.2f}{growth:>8}{memory:7.0f}{line[2]:>9}")
            before = count, joining


if __name__ == "__main__":
    main()
