#!/usr/bin/env python3
"""Runs the commands of pages and writes what they print where a page shows something else: for numbers that a better program changes.

Usage: bench/pages.py PROGRAM [PAGE..]    PAGE: README.md, docs/TOUR.md .. (all pages with commands where none is named)

Of what a page shows, `..` stands for any lines: the lines in front of the first and behind the last are written anew, and so is each line
between two with the same first word. Commands that build the program aren't run. Read the change (`git diff`) before it is committed: a refusal
where a page shows a report is written like any other text. The pictures of the counter are drawn anew too. acceptance/run.sh compares the pages.
"""

import pathlib
import re
import sys

TOP = pathlib.Path(__file__).resolve().parent.parent
sys.path[0] = str(TOP)
from acceptance.running.results import Room  # noqa: E402
from acceptance.shared import pages  # noqa: E402

# printed where a command stands on a file that another page makes: what the page shows is kept then
LACKING = ": file: missing "
MANUAL = sorted(str(page.relative_to(TOP)) for page in TOP.glob("docs/man/*.md"))
EXAMPLES = sorted(str(page.relative_to(TOP)) for page in TOP.glob("examples/*/README.md"))


def renewed(shown, printed):
    """What a page has to show, with its `..` where they were."""
    if ".." not in shown:
        return printed
    first, last = shown.index(".."), len(shown) - 1 - shown[::-1].index("..")
    behind = len(shown) - 1 - last
    middle = []
    for line in shown[first + 1 : last]:
        word = line.split(" ")[0]
        middle.append(line if line == ".." else next((found for found in printed if found.split(" ")[0] == word), line))
    return printed[:first] + [".."] + middle + [".."] * (last > first) + printed[len(printed) - behind :]


def block_anew(room, block):
    """The lines of a block, with what its commands print now."""
    lines, at = block.splitlines(), 0
    written = []
    while at < len(lines):
        line = lines[at]
        at += 1
        written.append(line)
        if not line.startswith("$ "):
            continue
        end = next((k for k in range(at, len(lines)) if lines[k].startswith("$ ")), len(lines))
        shown = lines[at:end]
        if not pages.BUILDS.match(line[2:]):
            _, printed = pages.run(room, line[2:])
            is_kept = not shown or pages.matches(shown, printed) or any(LACKING in found for found in printed)
            shown = shown if is_kept else renewed(shown, printed)
        written += shown
        at = end
    return "".join(f"{line}\n" for line in written)


def renew(program, page):
    """Whether the page was changed."""
    path = TOP / page
    text = path.read_text()
    with Room() as room:
        pages.prepare(room, program)
        anew = re.sub(r"(^```\w*\n)(.*?)(^```)", lambda found: found[1] + (block_anew(room, found[2]) if "$ " in found[2] else found[2]) + found[3], text, flags=re.M | re.S)
    path.write_text(anew)
    return anew != text


def renew_pictures(program):
    with Room() as room:
        pages.prepare(room, program)
        for picture, words in pages.PICTURES.items():
            pages.run(room, f"build/alliance {words}")
            _, drawn = pages.run(room, "share/draw build/picture.ap cells")
            (TOP / picture).write_text("".join(f"{line}\n" for line in drawn))


def main():
    if len(sys.argv) < 2:
        sys.exit(__doc__)
    program = str(pathlib.Path(sys.argv[1]).resolve())
    chosen = sys.argv[2:] or [*pages.PAGES, *MANUAL, *EXAMPLES]
    for page in chosen:
        print(page, "written anew" if renew(program, page) else "as it was", flush=True)
    if not sys.argv[2:]:
        renew_pictures(program)


main()
