"""What is wrong with the words of a command, by the usage line that the tool printed of itself."""

import difflib
import re
from typing import NamedTuple

TOOLS = "flow gen syf boom boog loon ocp nero asimut cougar lvx druc proof flatbeh s2r scapin fmi rip area".split()


class Option(NamedTuple):
    """An option's word; what follows it, if anything; whether it may be left out."""

    word: str
    value: str
    is_free: bool


def options_of(rest):
    """The options of a usage line, and the endings that SOURCE may have."""
    found = [Option(word, value, True) for word, value in re.findall(r"\[(-\S+?)(?: ([^]]+))?\]", rest)]
    plain = re.sub(r"\[[^]]*\]", "", rest).split()
    source = plain.pop(0) if plain and not plain[0].startswith("-") else ""
    found += [Option(word, value, False) for word, value in zip(plain[::2], plain[1::2])]
    return found, re.findall(r"\.\w+", source)


def value_fault(option, value):
    """What is wrong with an option's value, or None."""
    bounds = re.fullmatch(r"(\d+)\.\.(\d+)", option.value)
    if bounds:
        is_number = re.fullmatch(r"\d{1,10}", value) is not None
        if is_number and int(bounds[1]) <= int(value) <= int(bounds[2]):
            return None
        return f"{option.word} takes a number from {bounds[1]} to {bounds[2]}, and not `{value}`."
    if re.fullmatch(r"\w(\|\w)+", option.value):
        return None if value in option.value.split("|") else f"{option.word} takes one of {option.value.replace('|', ', ')}, and not `{value}`."
    ending = re.search(r"\.\w+$", option.value)
    return f"The file of {option.word} ends in {ending[0]}, and `{value}` doesn't." if ending and not value.endswith(ending[0]) else None


def split(words, options):
    """The values of the options, words without an option, and unknown options, of the words behind the tool's."""
    known, values, sources, strange = {option.word: option for option in options}, {}, [], []
    rest = list(words)
    while rest:
        word = rest.pop(0)
        name, sign, value = word.partition("=")
        if not word.startswith("-") or word == "-":
            sources.append(word)
        elif name not in known:
            strange.append(name)
        elif not known[name].value:
            values.setdefault(name, []).append("")
        else:
            values.setdefault(name, []).append(value if sign else rest.pop(0) if rest else "")
    return values, sources, strange


def faults(rest, words):
    """What is wrong with the words behind the tool's, a sentence each."""
    options, endings = options_of(rest)
    values, sources, strange = split(words, options)
    for name in strange:
        near = difflib.get_close_matches(name, [option.word for option in options], 1, 0.5)
        yield f"There is no option {name}" + (f"; {near[0]} is meant, perhaps." if near else ".")
    for option in options:
        given = values.get(option.word, [])
        if not given and not option.is_free:
            yield f"{option.word} {option.value} is missing."
        if len(given) > 1:
            yield f"{option.word} stands twice."
        yield from (found for value in given if (found := value_fault(option, value)))
    if endings and not sources:
        yield f"SOURCE, a file that ends in {' or '.join(endings)}, is missing."
    yield from (f"`{word}` is a word too many." for word in sources[1 if endings else 0 :])
    if endings and sources and not sources[0].endswith(tuple(endings)):
        yield f"SOURCE ends in {' or '.join(endings)}, and `{sources[0]}` doesn't."


def library_faults(words):
    """asimut alone: a library stands exactly beside a netlist."""
    has_library = any(word.startswith("-l") for word in words)
    is_netlist = any(word.endswith(".vst") for word in words)
    if has_library and not is_netlist:
        yield "-l DIR is for netlists (.vst) alone."
    if is_netlist and not has_library:
        yield "-l DIR is missing: a netlist needs the library of its cells."


def all_faults(tool, rest, words):
    """What is wrong with the words of a command, the tool's among them."""
    if "|" in tool:
        near = difflib.get_close_matches(words[0], TOOLS, 1, 0.5) if words else []
        yield "The first word is a tool's." + (f" `{near[0]}` is meant, perhaps." if near else "")
        return
    yield from faults(rest, words[1:])
    if tool == "asimut":
        yield from library_faults(words[1:])
