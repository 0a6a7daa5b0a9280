"""The lengths by which cells are drawn, in lambda of the MOSIS rules for submicron processes. Two lambda are 100 of an ap file."""

UNIT = 50  # what one lambda is in an ap file
COLUMN, HEIGHT, RAIL = 10, 100, 12

# Widths and spaces of the two wiring layers.
POLY, METAL = 0, 1
POLY_HALF, METAL_HALF, PAD_HALF = 1, 2, 2
POLY_SPACE, METAL_SPACE = 3, 3
POLY_CONTACT_SPACE = 4  # from the poly of a contact to other poly: what the processes of 0.5 um ask for
DIFFUSION_TO_POLY, DIFFUSION_TO_POLY_CONTACT = 1, 2
CONTACT_SPACE = 3  # between the cuts of two contacts of one net, which are 2 wide

# Along a row of gates: from the middle of one gate to that of the next, by what lies between.
SERIES_PITCH, CONTACT_PITCH, BREAK_PITCH = 5, 8, 16
GATE_TO_CONTACT, CONTACT_REACH, EDGE_SPACE = 4, 2, 2

# Up the cell: the diffusions by their kinds, the wells and ties, and where signals may run.
DIFFUSION = {"n": (10, 24), "p": (62, 90)}
RAIL_CONTACT = {"n": 12, "p": 88}
RAIL_NET = {"n": "vss", "p": "vdd"}
RAIL_MIDDLE = {"vss": 6, "vdd": 94}
RAIL_STRIP_SPACE = 4  # from a rail to metal that isn't joined to it
WELL = {"NWELL": (49, 103), "PWELL": (-3, 37)}  # both lie evenly about their diffusions, so that a table can make the implants of them
WELL_BEYOND = 4
TIE_DEPTH, TIE_CONTACT = 6, 4  # of a tie's strip from the cell's edge, and of the middles of its contacts
GATE_OVERHANG = 2

FIRST_NODE, LAST_NODE = 20, 80  # the lowest and the highest access node of a pin
