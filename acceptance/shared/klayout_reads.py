# Run by klayout (`klayout -b -r klayout_reads.py -rd jobs=FILE -rd out=FILE`): reads layouts, and compares their shapes, layer by layer, with
# others. A line of `jobs` has words with blanks between them: the layout, the LEF beside a DEF or `-`, what it is compared with (a layout, or a
# file of lines `LAYER X1 Y1 X2 Y2` in database units), and the database unit in micrometres. For each job a line `job N`, and for each layer
# `LAYER BOXES AREA`: how many shapes it has, and the area in which the two differ, in square database units. `calls`, `texts` and `nets` come behind.
import pya

METAL_SUFFIXES = ("routing", "special_routing", "via_geometry", "pins", "lef_pins", "obstructions")


def options_of(lef, dbu):
    options = pya.LoadLayoutOptions()
    config = options.lefdef_config
    config.dbu, config.read_lef_with_def, config.lef_files = dbu, False, [lef] if lef != "-" else []
    config.macro_resolution_mode = 1
    config.produce_obstructions = config.produce_lef_pins = config.produce_pins = True
    config.produce_labels = config.produce_lef_labels = config.produce_cell_outlines = False
    config.net_property_name = "net"
    for kind in METAL_SUFFIXES:
        setattr(config, f"{kind}_suffix", "")
        setattr(config, f"{kind}_datatype", 0)
    return options


def regions(layout):
    """For each layer its name, how many shapes it has, and these as one region."""
    found = {}
    for index in layout.layer_indexes():
        info = layout.get_info(index)
        region = pya.Region(layout.top_cell().begin_shapes_rec(index))
        name = info.name or f"{info.layer}/{info.datatype}"
        found[name] = region.count(), region.merged()
    return found


def lines_of(path):
    boxes = {}
    for line in open(path):
        layer, *edges = line.split()
        boxes.setdefault(layer, pya.Region()).insert(pya.Box(*map(int, edges)))
    return {layer: region.merged() for layer, region in boxes.items()}


def other_of(path, dbu):
    if path.endswith(".boxes"):
        return lines_of(path)
    layout = pya.Layout()
    layout.read(path)
    scaled = layout.dbu / dbu
    return {name: region.transformed(pya.ICplxTrans(scaled)) for name, (_, region) in regions(layout).items()}


def net_names(layout):
    """The names of nets on shapes, and where each stands."""
    found = set()
    for cell in layout.each_cell():
        for index in layout.layer_indexes():
            for shape in cell.shapes(index).each():
                if shape.prop_id:
                    found.update(str(value) for key, value in layout.properties(shape.prop_id) if key == "net")
    return found


with open(out, "w") as told:  # noqa: F821
    for number, line in enumerate(open(jobs)):  # noqa: F821
        path, lef, other, dbu = line.split()
        layout = pya.Layout()
        layout.read(path, options_of(lef, float(dbu))) if lef != "-" else layout.read(path)
        told.write(f"job {number}\n")
        mine, wanted = regions(layout), other_of(other, float(dbu))
        for name in sorted({*mine, *wanted}):
            count, region = mine.get(name, (0, pya.Region()))
            told.write(f"{name} {count} {(region ^ wanted.get(name, pya.Region())).area()}\n")
        calls = sorted(f"{layout.cell(i.cell_index).name}:{i.trans}" for i in layout.top_cell().each_inst())
        told.write(f"calls {' '.join(call.replace(' ', ':') for call in calls if not call.startswith('VIA_'))}\n")
        texts = (shape.text.string for k in layout.layer_indexes() for shape in layout.top_cell().shapes(k).each(pya.Shapes.STexts))
        told.write(f"texts {' '.join(sorted(texts))}\n")
        told.write(f"nets {' '.join(sorted(net_names(layout)))}\n")
