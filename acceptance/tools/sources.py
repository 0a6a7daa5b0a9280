"""What the second readers say of `asimut` on a data-flow source."""

from acceptance.tools.answers import refusal
from share.formats.pat_oracle import Differs, PatternReader, check, machine_of, simulate
from share.formats.vbe_oracle import FILE, Ring
from share.formats.vhdl_reader import Refused


def answer(source_name, source, patterns_name, patterns):
    """(status, printed text), or (2, Ring) where any of some rings may be named."""
    if len(source) > FILE or len(patterns) > FILE:
        return refusal("asimut", None, f"limit file {FILE + 1}")
    try:
        m = machine_of(source)
    except Ring as ring:
        return 2, ring
    except Refused as refused:
        return refusal("asimut", source_name, str(refused))
    try:
        columns, items = PatternReader(patterns).file()
        check(columns, items, m.ports)
        return 0, simulate(m, columns, items)
    except Refused as refused:
        return refusal("asimut", patterns_name, str(refused))
    except Differs as differs:
        return 11, f"asimut: differs {differs}\n"
