#!/usr/bin/env python3
"""Makes completions for bash and zsh of the usage lines that the program prints.

Usage: install/completion.py PROGRAM bash|zsh      prints the completion of `alliance`

Run without words the program names its tools, and each tool without words says which it takes. An option's value is completed by what its
usage line says: DIR is a folder, `a|b` are choices, numbers are yours, and all else is a file, of an ending where there is one.
"""

import re
import subprocess
import sys
from typing import NamedTuple, Optional

SECONDS = 100
BASH = """# Completion of alliance for bash, made of its usage lines.
_alliance() {{
  local word=${{COMP_WORDS[COMP_CWORD]}} before=${{COMP_WORDS[COMP_CWORD - 1]}} tool=${{COMP_WORDS[1]}}
  COMPREPLY=()
  if [ "$COMP_CWORD" -eq 1 ]; then
    COMPREPLY=($(compgen -W "{tools}" -- "$word"))
    return
  fi
  case "$tool $before" in
{values}  esac
  case "$tool $word" in
{options}  esac
  case "$tool" in
{sources}  esac
}}
complete -o filenames -F _alliance alliance
"""
ZSH = """#compdef alliance
# Completion of alliance for zsh, made of its usage lines.
_alliance() {{
  if (( CURRENT == 2 )); then
    compadd {tools}
    return
  fi
  local tool=$words[2]
  shift words
  (( CURRENT-- ))
  case $tool in
{cases}  esac
}}
_alliance "$@"
"""


class Option(NamedTuple):
    """The word of an option, and what its value is: None where it has none, else the text of the usage line."""

    word: str
    value: Optional[str]


class Tool(NamedTuple):
    name: str
    endings: list
    options: list


def usage(program, *words):
    done = subprocess.run([program, *words], stdin=subprocess.DEVNULL, capture_output=True, timeout=SECONDS, check=False)
    line = done.stdout.decode().strip()
    if not line.startswith("usage: alliance "):
        sys.exit(f"completion.py: {program} {' '.join(words)} printed {line[:200]!r}")
    return line.removeprefix("usage: alliance ")


def endings_of(text):
    return re.findall(r"\.\w+", text)


def tool_of(name, line):
    """The tool that a usage line tells: `flow SOURCE.vbe|.fsm -l DIR -o NAME [-e o|r|j] [--tracks]`."""
    words, endings, options = line.replace("[", "").replace("]", "").split()[1:], [], []
    for k, word in enumerate(words):
        if word.startswith("-"):
            value = words[k + 1] if k + 1 < len(words) and not words[k + 1].startswith("-") else None
            options.append(Option(word, value))
        elif word.startswith("SOURCE"):
            endings = endings_of(word)
    return Tool(name, endings, options)


def tools_of(program):
    names = usage(program).split(" ")[0].split("|")
    return [tool_of(name, usage(program, name)) for name in names]


# ---- bash


def bash_files(endings):
    """Files of these endings, and folders to go on into."""
    if not endings:
        return 'COMPREPLY=($(compgen -f -- "$word"))'
    kinds = "|".join(f"*{ending}" for ending in endings)
    return f"""COMPREPLY=($(shopt -s extglob; compgen -f -X '!@({kinds})' -- "$word"; compgen -d -- "$word"))"""


def bash_value(value):
    if value == "DIR":
        return 'COMPREPLY=($(compgen -d -- "$word"))'
    if re.fullmatch(r"\d+\.\.\d+", value):
        return "COMPREPLY=()"
    if "|" in value and "." not in value:
        return f'COMPREPLY=($(compgen -W "{value.replace("|", " ")}" -- "$word"))'
    return bash_files(endings_of(value))


def bash(tools):
    values = "".join(f'    "{t.name} {o.word}") {bash_value(o.value)}; return ;;\n' for t in tools for o in t.options if o.value)
    words = {t.name: " ".join(o.word for o in t.options) for t in tools}
    options = "".join(f'    "{name} -"*) COMPREPLY=($(compgen -W "{of}" -- "$word")); return ;;\n' for name, of in words.items())
    sources = "".join(f'    {t.name}) {bash_files(t.endings) if t.endings else "COMPREPLY=()"} ;;\n' for t in tools)
    return BASH.format(tools=" ".join(t.name for t in tools), values=values, options=options, sources=sources)


# ---- zsh


def zsh_files(endings):
    return f'_files -g "*({"|".join(endings)})"' if endings else "_files"


def zsh_value(value):
    if value == "DIR":
        return ":folder:_files -/"
    if re.fullmatch(r"\d+\.\.\d+", value):
        return f":{value}: "
    if "|" in value and "." not in value:
        return f":choice:({value.replace('|', ' ')})"
    return f":{value.split('.')[0].lower()}:{zsh_files(endings_of(value))}"


def zsh(tools):
    cases = ""
    for t in tools:
        words = [f"'{o.word}[{o.value or 'without a value'}]{zsh_value(o.value) if o.value else ''}'" for o in t.options]
        if t.endings:
            words.append(f"'1:source:{zsh_files(t.endings)}'")
        cases += f"    {t.name}) _arguments {' '.join(words)} ;;\n"
    return ZSH.format(tools=" ".join(t.name for t in tools), cases=cases)


def main():
    if len(sys.argv) != 3 or sys.argv[2] not in ("bash", "zsh"):
        sys.exit(__doc__)
    print({"bash": bash, "zsh": zsh}[sys.argv[2]](tools_of(sys.argv[1])), end="")


if __name__ == "__main__":
    main()
