#!/usr/bin/env python3
"""Measures how long reading ap files takes, and how much memory: layouts of 1 to 64 MiB of wires, vias and instances.

Usage: bench/ap.py PROGRAM [MIB..]      (the program cell_probe)

Prints seconds and megabytes for each size, the megabytes for a megabyte of the file, and by how much the seconds grow
where the file doubles (the root of their ratio where it is four times as large).
"""
import math
import os
import random
import subprocess
import sys
import tempfile
import time

SIZES = [1, 4, 16, 64]
MIB = 1 << 20


def layout(size, seed=1):
    """A figure of at least so many bytes: lines as a routed block has them."""
    choose = random.Random(seed)
    lines = ["V ALLIANCE : 6", "H block,P,01/01/2000,100", "A 0,0,100000000,100000000"]
    made, k = 0, 0
    while made < size:
        x, y, far = (choose.randrange(0, 200000) * 500 for _ in range(3))
        line = [
            f"S {x},{y},{far},{y},200,n{k},RIGHT,ALU2",
            f"S {x},{y},{x},{far},200,n{k}({k % 64}),UP,ALU3",
            f"V {x},{y},CONT_VIA2,n{k}",
            f"I {x},{y},na2_x1,g{k},NOSYM",
        ][k % 4]
        lines.append(line)
        made += len(line) + 1
        k += 1
    return "\n".join(lines + ["EOF", ""])


def measure(program, path):
    """Seconds and megabytes of one run."""
    begin = time.monotonic()
    process = subprocess.Popen([program, "figure", path], stdout=subprocess.PIPE)
    line = process.stdout.read().decode()
    _, status, usage = os.wait4(process.pid, 0)
    if status or not line.startswith("ok "):
        sys.exit(f"{path}: {line or status}")
    return time.monotonic() - begin, usage.ru_maxrss / 1024


def main():
    if len(sys.argv) < 2:
        sys.exit(__doc__)
    program = os.path.realpath(sys.argv[1])
    sizes = [int(word) for word in sys.argv[2:]] or SIZES
    print(f"{'MiB':>6}{'seconds':>10}{'MB':>8}{'MB/MiB':>9}{'growth':>9}")
    before = None
    with tempfile.TemporaryDirectory() as folder:
        path = os.path.join(folder, "block.ap")
        for size in sizes:
            with open(path, "w") as out:
                out.write(layout(size * MIB))
            seconds, memory = measure(program, path)
            growth = f"{(seconds / before[1]) ** (1 / math.log2(size / before[0])):.2f}" if before else "-"
            print(f"{size:6}{seconds:10.2f}{memory:8.0f}{memory / size:9.1f}{growth:>9}")
            before = size, seconds


if __name__ == "__main__":
    main()
