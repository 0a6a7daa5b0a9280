# Run by klayout (`klayout -b -r druc_rules.py -rd cif=FILE`): its own check of a layout in CIF, on metals M1 to M6. Printed are how many edges
# of the merged shapes are nearer than 200 to an edge within, and how many are nearer than 200 to another shape, along both axes.
import pya

LEAST = 200

layout = pya.Layout()
layout.read(cif)  # noqa: F821
top = layout.top_cell()
widths = gaps = 0
for name in (f"M{k}" for k in range(1, 7)):
    index = next((k for k in layout.layer_indexes() if layout.get_info(k).name == name), None)
    if index is None:
        continue
    region = pya.Region(top.begin_shapes_rec(index))
    unit = round(LEAST * 0.01 / layout.dbu)
    widths += region.width_check(unit).count()
    gaps += region.isolated_check(unit, False, pya.Region.Square, None, None, None).count()
print(f"width {widths} gap {gaps}")
