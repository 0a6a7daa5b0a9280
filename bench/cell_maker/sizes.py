"""Of each cell the columns, how many access nodes each pin has at least, and the seed of the router, as `bench/cells.py --search` found them."""

from typing import NamedTuple


class Size(NamedTuple):
    columns: int
    nodes: int
    seed: int


SIZES = {
    "inv_x1": Size(3, 2, 0),
    "na2_x1": Size(4, 2, 0),
    "zero_x0": Size(2, 2, 0),
    "one_x0": Size(2, 2, 0),
    "sff1_x4": Size(11, 2, 0),
    "buf_x2": Size(4, 2, 0),
    "a2_x2": Size(4, 2, 0),
    "na3_x1": Size(5, 2, 0),
    "na4_x1": Size(6, 2, 0),
    "no2_x1": Size(4, 2, 7),
    "no3_x1": Size(5, 2, 0),
    "nao22_x1": Size(5, 2, 0),
    "noa22_x1": Size(5, 2, 0),
    "nao2o22_x1": Size(6, 2, 1),
    "noa2a22_x1": Size(6, 2, 0),
    "xr2_x1": Size(6, 2, 1),
    "nxr2_x1": Size(6, 2, 0),
    "mx2_x2": Size(7, 2, 0),
    "a3_x2": Size(5, 2, 0),
    "a4_x2": Size(6, 2, 1),
    "o2_x2": Size(4, 2, 0),
    "o3_x2": Size(5, 2, 0),
    "o4_x2": Size(6, 2, 0),
    "inv_x2": Size(3, 2, 0),
    "inv_x4": Size(4, 2, 0),
    "inv_x8": Size(8, 2, 0),
    "buf_x4": Size(5, 2, 0),
    "buf_x8": Size(9, 2, 0),
    "sff1_x8": Size(13, 2, 0),
}
