"""Where on its line a fault stands, by the second readers of share/formats."""

import re
from typing import NamedTuple

from . import fsm_reader, pat_oracle, vbe_reader, vhdl_reader, vst_reader
from .vhdl_reader import Refused

SPELLED = {"id": "a name", "number": "a number", "quoted": "a text in quotes", "bitstring": "a bit string", "bitlit": "a bit", "digits": "digits"}
MOST_WANTED = 6


class Mark(NamedTuple):
    """The columns from `start` to `end` of a line, and a sentence on what stands there."""

    start: int
    end: int
    says: str = ""


def reader_of(name, data):
    """The second reader of a file by its ending, and what runs it; None where there is none."""
    if name.endswith(".pat"):
        reader = pat_oracle.PatternReader(data)
        return reader, reader.file
    tokens, last = vhdl_reader.lex(data)
    if name.endswith(".vbe"):
        reader = vbe_reader.SourceReader(tokens, last)
        return reader, reader.source
    if name.endswith(".vst"):
        reader = vst_reader.StructureReader(tokens, last)
        return reader, reader.structure
    if name.endswith(".fsm"):
        reader = fsm_reader.MachineReader(tokens, last, fsm_reader.pragmas(data).get("next_state"))
        return reader, reader.machine
    return None


def begin_of_line(data, line):
    at = 0
    for _ in range(line - 1):
        at = data.find(b"\n", at) + 1
    return at


def wanted(kinds):
    """What may stand there, as a clause."""
    words = [SPELLED.get(kind, f"`{kind}`") for kind in kinds[:MOST_WANTED]]
    return f", where {' or '.join(words)} should stand" if words else ""


def of_token(data, line, token, kinds):
    """The mark of the token at which a reader stopped; at the end of the file there is none."""
    if token is None:
        return Mark(0, 0, f"The file ends here{wanted(kinds)}.")
    if token[2] != line:
        return None
    begin = begin_of_line(data, line)
    return Mark(token.start - begin, token.end - begin, f"The token `{data[token.start : token.end].decode(errors='replace')}` stands here{wanted(kinds)}.")


def of_syntax(name, data, line):
    found = reader_of(name, data)
    if found is None:
        return None
    reader, run = found
    try:
        run()
    except Refused:
        return of_token(data, line, reader.tokens[reader.at] if reader.at < len(reader.tokens) else None, reader.wanted)
    return None


def of_byte(name, data, line):
    try:
        reader_of(name, data)
    except Refused as refused:
        if refused.at is None or data.count(b"\n", 0, refused.at) + 1 != line:
            return None
        start = refused.at - begin_of_line(data, line)
        byte = data[refused.at]
        shown = f"`{chr(byte)}`" if 32 < byte < 127 else f"with the code {byte:#04x}"
        if data[refused.at : refused.at + 3] == b"\xef\xbb\xbf":
            shown = "the first of a byte order mark, which an editor wrote in front of the text"
        return Mark(start, start + 1, f"It is the byte {shown}.")
    return None


def of_name(text, name):
    """The first place of a name on its line, in whatever case it is written; a bit's number may stand behind it."""
    base = name.partition("(")[0]
    found = re.search(rf"(?<![A-Za-z0-9_]){re.escape(base)}(?![A-Za-z0-9_])", text, re.IGNORECASE)
    return Mark(*found.span()) if found else None


def mark(name, data, line, fault, names):
    """The mark of a fault, or None where only its line is known."""
    if fault == "bad byte":
        return of_byte(name, data, line)
    if fault == "syntax":
        return of_syntax(name, data, line)
    text = data.split(b"\n")[line - 1].decode(errors="replace")
    return next((found for word in names if (found := of_name(text, word))), None)
