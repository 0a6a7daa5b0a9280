"""Data-flow texts of random_sources.py with one thing changed, as a hand changes them. Each change gives a text that is a machine again, or
None where none of a few tries does.
"""

import re

from share.formats.pat_oracle import machine_of
from share.formats.vbe_oracle import Ring
from share.formats.vhdl_reader import Refused

TRIES = 12
GATES = ("and", "or", "xor", "xnor", "nand", "nor")


def is_machine(text):
    try:
        machine_of(text.encode())
    except (Refused, Ring):
        return False
    return True


def behind_begin(text):
    """Where the statements begin: nothing before it is changed."""
    return re.search(r"\bbegin\b", text, re.IGNORECASE).end()


def one_place(pattern, other):
    """A change of one place in the statements that the pattern finds; `other` gives from the choice and what was found what is put there."""

    def change(choose, text):
        start = behind_begin(text)
        found = [place for place in re.finditer(pattern, text, re.IGNORECASE) if place.start() >= start]
        for _ in range(TRIES if found else 0):
            place = choose.choice(found)
            put = other(choose, place)
            changed = text[: place.start()] + put + text[place.end() :]
            if put != place[0] and is_machine(changed):
                return changed
        return None

    return change


def cased(word, like):
    return word.upper() if like.isupper() else word


def other_gate(choose, place):
    return cased(choose.choice([word for word in GATES if word != place[0].lower()]), place[0])


def other_name(choose, place):
    """A name of the same kind with another number, or a name of another kind."""
    return f"{choose.choice('iosr' if choose.random() < 0.4 else place[1])}{choose.randrange(4)}"


def renamed(choose, text):
    """A port or register under another name, everywhere."""
    names = sorted(set(re.findall(r"\b[ior]\d\b", text)))
    if not names:
        return None
    name = choose.choice(names)
    changed = re.sub(rf"\b{name}\b", f"{name[0]}9", text)
    return changed if is_machine(changed) else None


def statements_moved(choose, text):
    """The statements in another order: the same machine."""
    start = behind_begin(text)
    head, body = text[:start], text[start:]
    parts = re.findall(r"\s*block\d+ : block.*?end block \w+;\n|[^;]*;\n", body, re.IGNORECASE | re.DOTALL)
    if "".join(parts) != body or len(parts) < 3:
        return None
    *statements, last = parts
    choose.shuffle(statements)
    changed = f"{head}\n{''.join(statements)}{last}"
    return changed if is_machine(changed) else None


CHANGES = {
    "an operator changed": one_place(r"\b(and|or|xor|xnor|nand|nor)\b", other_gate),
    "a relation changed": one_place(r"/=|(?<![<:/])=(?!>)", lambda choose, place: "=" if place[0] == "/=" else "/="),
    "a not taken away": one_place(r"\bnot (?=[\w('\"])", lambda choose, place: ""),
    "a not put in": one_place(r"\b[iosr]\d(\(\d+( (down)?to \d+)?\))?(?! *<=)", lambda choose, place: f"(not {place[0]})"),
    "two nots put in": one_place(r"\b[iosr]\d(\(\d+( (down)?to \d+)?\))?(?! *<=)", lambda choose, place: f"(not (not {place[0]}))"),
    "a bit changed": one_place(r"'[01]'", lambda choose, place: "'1'" if place[0] == "'0'" else "'0'"),
    "a name changed": one_place(r"\b([iosr])\d\b", other_name),
    "an operand taken away": one_place(r" and \((?:[^()]|\([^()]*\))*\)(?= and|\)|;)", lambda choose, place: ""),
    "a name renamed everywhere": renamed,
    "statements in another order": statements_moved,
}
