"""What a tool printed when it refused: the forms of its line, read from docs/formats/commands.md."""

import re
from typing import NamedTuple

FAULTS = (
    "bad byte|syntax|twice|unsupported|unknown cell|unknown|two drivers|undriven|cycle|width|clock use|not assigned|bad state|no pragma|"
    "bad map|unconnected|no driver|time back|bad line|bad layer|bad transform|no end|after end|not placed"
)


class Refusal(NamedTuple):
    """The tool; what kind of refusal it is; the words behind it by their names, such as `file`, `line`, `name`."""

    tool: str
    kind: str
    words: dict


FORMS = [
    (kind, re.compile(form))
    for kind, form in (
        ("usage", r"usage: alliance (?P<tool>[a-z0-9|]+)(?P<rest> .*)"),
        ("library line", r"(?P<tool>\w+): library: catal (?P<line>\d+)"),
        ("library cell", r"(?P<tool>\w+): library: (?P<cell>\S+) (?P<cause>\d+)"),
        ("no cover", r"(?P<tool>\w+): no cover: (?P<cell_kind>\w+)"),
        ("budget", r"(?P<tool>\w+): budget: (?P<name>\S+) (?P<reached>\d+)"),
        ("no path", r"(?P<tool>\w+): no path: (?P<net>\d+) (?P<pin>\S+)"),
        ("missing", r"(?P<tool>\w+): file: missing (?P<file>.+)"),
        ("read fault", r"(?P<tool>\w+): file: read fault (?P<file>.+)"),
        ("write fault", r"(?P<tool>\w+): file: write fault (?P<file>.+)"),
        ("memory", r"(?P<tool>\w+): memory"),
        ("limit", r"(?P<tool>\w+): limit: (?P<limit>\w+) (?P<reached>\d+)"),
        ("pattern differs", r"(?P<tool>asimut): differs (?P<label>\S+) (?P<name>\S+)"),
        ("no behaviour", r"(?P<tool>\w+): no behaviour (?P<cell>\S+)"),
        ("different", r"(?P<tool>lvx): different (?P<name>\S+)"),
        ("near", r"(?P<tool>s2r): near (?P<layer>\d+)(?P<numbers>( -?\d+){8})"),
        ("apart", r"(?P<tool>s2r): apart (?P<layer>\d+)(?P<numbers>( -?\d+){8})"),
        ("near boxes", r"(?P<tool>s2r): near (?P<layer>[A-Za-z]\w*)(?P<numbers>( -?\d+){8})"),
        ("off grid", r"(?P<tool>s2r): off grid (?P<layer>\w+)(?P<numbers>( -?\d+){4})"),
        ("shorted", r"(?P<tool>cougar): shorted (?P<a>\S+) (?P<b>\S+)"),
        ("names", r"(?P<tool>proof): names (?P<name>\S+)"),
        ("function differs", r"differs (?P<name>\S+)"),
        ("gap", r"gap (?P<metal>\d+)(?P<numbers>( -?\d+){8})"),
        ("narrow", r"width (?P<metal>\d+)(?P<numbers>( -?\d+){4})"),
        ("fault", rf"(?P<tool>\w+): (?P<file>.+):(?P<line>\d+): (?P<fault>{FAULTS})(?P<names>( \S+)*)"),
    )
]
TOOLS_WITHOUT_NAME = {"function differs": "proof", "gap": "druc", "narrow": "druc"}


def read(line):
    """The refusal that a printed line is, or None."""
    for kind, form in FORMS:
        found = form.fullmatch(line)
        if found:
            words = found.groupdict()
            tool = words.pop("tool", None) or TOOLS_WITHOUT_NAME[kind]
            return Refusal(tool, kind, words)
    return None


def first(text):
    """The first line of a text that is a refusal, as (line, refusal), or None."""
    return next(((line, found) for line in text.splitlines() if (found := read(line))), None)
