# Run by klayout (`klayout -b -r klayout_gds.py -rd said=FILE -rd out=FILE`): writes what share/gds says of a layout as GDSII. A line of `said`:
# `units N` in a micrometre, `cell NAME` that the next lines are of, `box LAYER DATATYPE X1 Y1 X2 Y2`, `text LAYER DATATYPE X Y TEXT`, and
# `call NAME TURN X Y` of a cell that stood before, which is turned about its origin first.
import pya

TURNS = {"NOSYM": pya.Trans.R0, "SYM_X": pya.Trans.M90, "SYM_Y": pya.Trans.M0, "SYMXY": pya.Trans.R180}

layout = pya.Layout()
cell = None
for line in open(said, encoding="latin-1"):  # noqa: F821
    word, *fields = line.split()
    if word == "units":
        layout.dbu = 1 / int(fields[0])
    elif word == "cell":
        cell = layout.create_cell(fields[0])
    elif word == "call":
        turned = pya.Trans(TURNS[fields[1]], int(fields[2]), int(fields[3]))
        cell.insert(pya.CellInstArray(layout.cell(fields[0]).cell_index(), turned))
    else:
        shapes = cell.shapes(layout.layer(int(fields[0]), int(fields[1])))
        if word == "box":
            shapes.insert(pya.Box(*map(int, fields[2:])))
        else:
            shapes.insert(pya.Text(fields[4], int(fields[2]), int(fields[3])))
options = pya.SaveLayoutOptions()
options.format = "GDS2"
options.gds2_write_timestamps = False
layout.write(out, options)  # noqa: F821
