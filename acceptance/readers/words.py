"""Which words spell a command, and what stands in its files, for the second readers, by docs/formats/commands.md."""

import os

TOOLS_LINE = "usage: alliance flow|gen|syf|boom|boog|loon|ocp|nero|asimut|cougar|lvx|druc|proof|flatbeh|s2r|scapin|fmi|rip|area ARGUMENTS\n"


def option_of(word):
    """The option that a word spells, and the value that stands with it, or None."""
    if word.startswith("--"):
        name, sign, value = word.partition("=")
        return name, value if sign else None
    value = word[2:]
    return word[:2], value[1:] if value.startswith("=") else value or None


def is_option(word):
    return word.startswith("-") and word != "-"


def command(words, endings, options):
    """SOURCE and the values of the options, each with the ending of its value; None where the words aren't so."""
    source, given, rest, ended = None, {}, list(words[1:]), False
    while rest:
        word = rest.pop(0)
        if ended or not is_option(word):
            if source is not None or not word.endswith(endings):
                return None
            source = word
        elif word == "--":
            ended = True
        else:
            option, value = option_of(word)
            if value is None and rest and not is_option(rest[0]):
                value = rest.pop(0)
            if option not in options or option in given or value is None or not value.endswith(options[option]):
                return None
            given[option] = value
    return None if source is None else (source, given)


def held(files, name):
    """The bytes of a file, whatever path leads to it, or None."""
    path = os.path.normpath(name)
    return next((text for other, text in files.items() if os.path.normpath(other) == path), None)


def trouble(files, name, most):
    """The status and the line behind the tool's word where a file isn't there or is too long, else None."""
    text = held(files, name)
    if text is None:
        return 7, f"file: missing {name}"
    return (9, f"limit: file {most + 1}") if len(text) > most else None
