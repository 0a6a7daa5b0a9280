#!/usr/bin/env python3
"""Prints how many nodes the largest diagram of a source's roots has, where that is at least MOST; share/formats/diagrams.py counts them.

Usage: bench/boom_nodes.py SOURCE.vbe MOST
"""
import pathlib
import sys

sys.path.append(str(pathlib.Path(__file__).resolve().parent.parent))
from share.formats import diagrams  # noqa: E402
from share.formats.vbe_oracle import machine  # noqa: E402

sys.setrecursionlimit(100000)
count = diagrams.greatest(machine(pathlib.Path(sys.argv[1]).read_bytes()))
if count >= int(sys.argv[2]):
    print(count)
