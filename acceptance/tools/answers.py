"""Whether what a program came to is what the second readers say, and how a reader's refusal is printed."""

from share.formats.vbe_oracle import Ring


def agrees(got, wanted):
    """Whether status and printed bytes are what the second readers say. Of several rings any may be named."""
    status, printed = got[0], bytes(got[1]).decode(errors="replace")
    if not isinstance(wanted[1], Ring):
        return (status, printed) == wanted
    words = printed.split(":")
    if status != 2 or len(words) != 4 or not words[3].startswith(" cycle "):
        return False
    return wanted[1].allows(int(words[2]), words[3].split()[1:])


def refusal(tool, file, said):
    """The status and the line of a refusal, `limit KIND REACHED` or `input LINE KIND NAMES`, of this file."""
    kind, rest = said.split(" ", 1)
    if kind == "limit":
        return 9, f"{tool}: limit: {rest}\n"
    line, what = rest.split(" ", 1)
    return 2, f"{tool}: {file}:{line}: {what}\n"
