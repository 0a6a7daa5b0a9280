"""Draws row cells from stick lines.

`sticks` has the lines of all cells: two rows of gates with what lies between them. `placement` gives each gate its x and makes diffusions,
transistors and the contacts of the rails. `routing` leads the nets in poly and metal 1 over the grid of one lambda, by `search`. `drawing` makes the
ap file of what was found, and `netlist` the transistors as they are meant. `geometry` has the few shapes that these use, `measures` the lengths.

All lengths here are in lambda; two lambda are 100 of an ap file.
"""
