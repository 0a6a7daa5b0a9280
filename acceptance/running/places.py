"""Where the repository's folders stand."""

import pathlib

TOP = pathlib.Path(__file__).resolve().parents[2]
BENCH, CELLS, EXAMPLES, SHARE = TOP / "bench", TOP / "cells", TOP / "examples", TOP / "share"
ROWS = TOP / "crates/cases/data"
LARGE, LIBRARIES = TOP / "acceptance/large", TOP / "acceptance/cells"
