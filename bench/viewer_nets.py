# Run by klayout (`klayout -b -r viewer_nets.py -rd cif=FILE -rd out=FILE`): its own extraction of a layout in CIF, over metals M1 to M6 and
# the cuts V1 to V5 between them. Of each net a line goes to the file: its labels, which stand on T1 to T6. With `-rd labels=FILE` the labels are those
# of the file, a line with layer, point and text for each; with `-rd boxes=FILE` the number of boxes of each layer goes to that file.
import pya

METALS = range(1, 7)


def layer(layout, extraction, name):
    """The shapes of a layer, or none where the layout doesn't have it."""
    index = next((k for k in layout.layer_indexes() if layout.get_info(k).name == name), None)
    if index is None:
        index = layout.insert_layer(pya.LayerInfo(name))
    return extraction.make_layer(index, name)


def texts(layout, extraction, name):
    index = next((k for k in layout.layer_indexes() if layout.get_info(k).name == name), None)
    if index is None:
        index = layout.insert_layer(pya.LayerInfo(name))
    return extraction.make_text_layer(index, name)


layout = pya.Layout()
layout.read(cif)  # noqa: F821
top = layout.top_cell()
if "boxes" in globals():
    counts = {info.name: sum(1 for _ in top.begin_shapes_rec(layout.layer(info))) for info in layout.layer_infos()}
    with open(boxes, "w") as opened:  # noqa: F821
        opened.writelines(f"{name} {count}\n" for name, count in sorted(counts.items()) if count)
if "labels" in globals():
    for line in open(labels):  # noqa: F821
        name, x, y, text = line.split()
        on = next((k for k in layout.layer_indexes() if layout.get_info(k).name == name), None)
        # CIF counts hundredths of a micrometre
        point = [round(float(c) / 100 / layout.dbu) for c in (x, y)]
        top.shapes(layout.insert_layer(pya.LayerInfo(name)) if on is None else on).insert(pya.Text(text, *point))
extraction = pya.LayoutToNetlist(pya.RecursiveShapeIterator(layout, top, []))
metals = {k: layer(layout, extraction, f"M{k}") for k in METALS}
for k in METALS:
    extraction.connect(metals[k])
    extraction.connect(metals[k], texts(layout, extraction, f"T{k}"))
for k in list(METALS)[:-1]:
    cut = layer(layout, extraction, f"V{k}")
    extraction.connect(cut)
    extraction.connect(metals[k], cut)
    extraction.connect(cut, metals[k + 1])
extraction.extract_netlist()
netlist = extraction.netlist()
netlist.flatten()
with open(out, "w") as opened:  # noqa: F821
    for net in netlist.circuit_by_name(top.name).each_net():
        opened.write(f"{net.name}\n")
