"""What the second readers say of `asimut` on a netlist."""

from acceptance.readers.words import held, trouble
from acceptance.tools.answers import refusal
from share.formats.models import Refusal, library
from share.formats.pat_oracle import Differs, PatternReader, check, simulate
from share.formats.vbe_oracle import FILE as PATTERNS_FILE
from share.formats.vbe_oracle import Ring
from share.formats.vhdl_reader import Refused
from share.formats.vst import FILE, netlist

TOOL = "asimut"
WORDS = ["asimut", "r.vst", "-p", "t.pat", "-l", "lib"]


def answer(source, patterns, folder, files):
    """(status, printed text) of the patterns on the netlist over the library in the folder; (2, Ring) where any of some rings
    may be named. Source and patterns are the names of files."""
    for name, most in ((source, FILE), (patterns, PATTERNS_FILE)):
        refused = trouble(files, name, most)
        if refused:
            return refused[0], f"{TOOL}: {refused[1]}\n"
    try:
        models = library(files, folder)
    except Refusal as refused:
        return refused.status, f"{TOOL}: {refused.line}\n"
    return of_models(source, held(files, source), patterns, held(files, patterns), models)


def of_models(source_name, source, patterns_name, patterns, models):
    """The same where the library's models are known."""
    try:
        n = netlist(source, models)
    except Ring as ring:
        return 2, ring
    except Refused as refused:
        return refusal(TOOL, source_name, str(refused))
    return on_netlist(n, patterns_name, patterns)


def on_netlist(n, patterns_name, patterns):
    """The same of a netlist that was read."""
    try:
        columns, items = PatternReader(patterns).file()
        check(columns, items, n.ports)
    except Refused as refused:
        return refusal(TOOL, patterns_name, str(refused))
    if n.opaque():
        return 11, f"{TOOL}: no behaviour {n.opaque()}\n"
    try:
        return 0, simulate(n, columns, items)
    except Differs as differs:
        return 11, f"{TOOL}: differs {differs}\n"
