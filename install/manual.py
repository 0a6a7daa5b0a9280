#!/usr/bin/env python3
"""Makes manual pages in roff of the pages of docs/man and docs/share.

Usage: install/manual.py FOLDER      writes FOLDER/alliance.1, FOLDER/alliance-TOOL.1 ..

A page of a tool is alliance-TOOL, a page of a program of share/ alliance-PROGRAM. Tables are lists: the first cell of a row, and behind it the
others, each with the head of its column where there are more than two.
"""

import pathlib
import re
import sys

TOP = pathlib.Path(__file__).resolve().parent.parent
LINK = re.compile(r"!?\[([^\]]*)\]\(([^)]*)\)")


def page_name(path):
    return "alliance" if path.stem == "alliance" else f"alliance-{path.stem}"


def pages():
    return [*sorted((TOP / "docs/man").glob("*.md")), *(path for path in sorted((TOP / "docs/share").glob("*.md")) if path.stem != "README")]


NAMES = {path.stem: page_name(path) for path in pages()}


def escaped(text):
    """What roff would read as its own."""
    return text.replace("\\", "\\e").replace("-", "\\-").replace("'", "\\(aq").replace("`", "\\(ga").replace("^", "\\(ha").replace("~", "\\(ti")


def linked(found):
    """A link to a page of the manual is its name, another one its text."""
    text, path = found[1], pathlib.PurePath(found[2].split("#")[0])
    of_page = path.suffix == ".md" and path.stem in NAMES and (len(path.parts) == 1 or path.parts[-2] in ("man", "share"))
    return f"**{NAMES[path.stem]}**(1)" if of_page else text


def inline(text):
    """Code and what is bold in bold; links by their names."""
    text = LINK.sub(linked, text.replace("\\|", "|"))
    parts = re.split(r"(`[^`]+`|\*\*[^*]+\*\*)", text)
    return "".join(f"\\fB{escaped(part.strip('`') if part[0] == '`' else part[2:-2])}\\fR" if part[:1] == "`" or part[:2] == "**" else escaped(part) for part in parts)


def line_of(text):
    """A line that doesn't begin as a request does."""
    made = inline(text)
    return f"\\&{made}" if made[:1] in (".", "'") else made


def cells_of(row):
    return [cell.strip() for cell in re.split(r"(?<!\\)\|", row.strip().strip("|"))]


def table(rows):
    head, *body = [cells_of(row) for row in rows if not re.fullmatch(r"[|\s:-]+", row)]
    for cells in body:
        yield ".TP"
        yield f"\\fB{inline(cells[0])}\\fR" if cells[0] else "\\&"
        others = list(zip(head[1:], cells[1:]))
        for k, (title, cell) in enumerate(others):
            yield (f"\\fI{inline(title)}:\\fR " if len(others) > 1 else "") + inline(cell)
            if k + 1 < len(others):
                yield ".br"


def block(lines):
    yield from (".PP", ".RS 4", ".nf")
    for line in lines:
        made = escaped(line)
        yield f"\\&{made}" if made[:1] in (".", "'", "\\") else made
    yield from (".fi", ".RE")


def taken(lines, start, belongs):
    end = start
    while end < len(lines) and belongs(lines[end]):
        end += 1
    return lines[start:end], end


def body(lines):
    """The roff of the lines behind the first paragraph."""
    at = 0
    while at < len(lines):
        line = lines[at]
        if line.startswith("```"):
            inner, at = taken(lines, at + 1, lambda it: not it.startswith("```"))
            at += 1
            yield from block(inner)
        elif line.startswith("#"):
            level, title = line.split(" ", 1)
            yield f".{'SH' if len(level) == 2 else 'SS'} {escaped(title.upper() if len(level) == 2 else title)}"
            at += 1
        elif line.startswith("|"):
            rows, at = taken(lines, at, lambda it: it.startswith("|"))
            yield from table(rows)
        elif re.match(r"(- |\d+\. )", line):
            mark, text = line.split(" ", 1)
            yield ".IP " + ("\\(bu" if mark == "-" else mark) + " 3"
            yield line_of(text)
            at += 1
        else:
            if line.strip() and not line.startswith("!["):
                yield from (".PP", line_of(line))
            at += 1


def manual(path):
    lines = path.read_text().splitlines()
    first = next(k for k, line in enumerate(lines) if k and line.strip())
    sentence = re.split(r"(?<=\.)\s|: ", lines[first])[0].rstrip(".")
    short = sentence[0].lower() + sentence[1:]
    yield f'.TH "{NAMES[path.stem].upper()}" 1 "" "alliance" "Alliance tools"'
    yield ".SH NAME"
    yield f"{escaped(NAMES[path.stem])} \\- {inline(short)}"
    synopsis = next((k for k, line in enumerate(lines) if line == "## Synopsis"), None)
    if synopsis is not None:
        end = next((k for k in range(synopsis + 1, len(lines)) if lines[k].startswith("#")), len(lines))
        after = lines[first:synopsis] + lines[end:]
        yield ".SH SYNOPSIS"
        for command in lines[synopsis + 1 : end]:
            if command.strip() and not command.startswith("```"):
                yield from (".HP 4", line_of(f"`{command}`"))
        yield ".SH DESCRIPTION"
        yield from body(after)
    else:
        yield ".SH DESCRIPTION"
        yield from body(lines[first:])


def main():
    if len(sys.argv) != 2 or sys.argv[1].startswith("-"):
        sys.exit(__doc__)
    folder = pathlib.Path(sys.argv[1])
    folder.mkdir(parents=True, exist_ok=True)
    for path in pages():
        (folder / f"{NAMES[path.stem]}.1").write_text("\n".join([*manual(path), ""]))


if __name__ == "__main__":
    main()
