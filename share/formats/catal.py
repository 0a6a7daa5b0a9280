"""A second reader of a library's CATAL, written from docs/formats/libraries.md alone."""

import re

from .ap import Refused, limit
from .vhdl_reader import IDENT, RESERVED

LINE = re.compile(rb"([A-Za-z][A-Za-z0-9_]*)[ \t]+([A-Z]+)")
CELLS, USED = 1024, "C"


def fault(line):
    return Refused(f"catal {line}")


def entry(line):
    """A cell's name in lower case and its word; None where the line is neither that nor empty."""
    found = LINE.fullmatch(line)
    if not found:
        return None
    name, word = found[1].decode().lower(), found[2].decode()
    return None if name in RESERVED else (name, word)


def entries(data):
    """Each line's cell with its word, in file order; or Refused at the first line at fault."""
    listed, used = [], set()
    for k, line in enumerate(data.removesuffix(b"\n").split(b"\n"), 1):
        if not line:
            continue
        found = entry(line)
        if found is None or (found[1] == USED and found[0] in used):
            raise fault(k)
        if len(found[0]) > IDENT:
            raise limit("ident", len(found[0]))
        listed.append(found)
        used |= {found[0]} if found[1] == USED else set()
    return listed


def cells(data):
    """The names of the cells that are used, in file order."""
    named = [name for name, word in entries(data) if word == USED]
    if len(named) > CELLS:
        raise limit("cells", len(named))
    return named
