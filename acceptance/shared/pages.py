"""The pages as they stand: each command of README, TOUR and other pages is run, and what it prints is compared with what the page says; each
text of docs/FROM_VHDL.md is refused or taken as the page says.

A command is a line `$ COMMAND` of a block; the lines behind it are what it prints, where `..` stands for any lines. Commands run in the order of
the page, in a folder that has copies of cells, examples and share, and a folder `build` of its own with the program in it. Where a page
shows nothing behind a command, its output isn't compared, but the command has to be there. Commands that build the program are skipped.
"""

import os
import re
import shutil
import subprocess

from acceptance.running.places import TOP
from acceptance.running.results import Room

SECONDS = 900
PAGES = ["README.md", "docs/TOUR.md", "docs/REFUSALS.md", "docs/LIBRARIES.md", *sorted(str(page.relative_to(TOP)) for page in TOP.glob("docs/share/*.md"))]
BLOCK = re.compile(r"^```\w*\n(.*?)^```", re.M | re.S)
BUILDS = re.compile(r"^(\./build\.sh|bash \.ci|acceptance/)")
NOT_RUN, NOT_FOUND = 126, 127
PICTURES = {
    "docs/rows.svg": "flow examples/counter/cnt4.vbe -l cells -o build/picture",
    "docs/counter.svg": "flow examples/counter/cnt4.vbe -l cells -o build/picture --tracks",
}


def commands(text):
    """Each command with the lines that it prints, or None where the page shows none."""
    for block in BLOCK.findall(text):
        command, shown = None, []
        for line in block.splitlines():
            if line.startswith("$ "):
                if command is not None:
                    yield command, shown or None
                command, shown = line[2:], []
            elif command is not None:
                shown.append(line)
        if command is not None:
            yield command, shown or None


def plain_lines(text):
    """The lines of blocks without commands that look like some: they aren't run."""
    for block in BLOCK.findall(text):
        if "$ " not in block:
            yield from (line.split("  ")[0] for line in block.splitlines() if re.match(r"(\./build\.sh|bash |build/alliance |share/\w+ \w+[/.])", line))


def matches(shown, printed):
    """Whether lines are as shown; `..` stands for any number of them."""
    if not shown:
        return not printed
    if shown[0] == "..":
        return any(matches(shown[1:], printed[k:]) for k in range(len(printed) + 1))
    return bool(printed) and shown[0].rstrip() == printed[0].rstrip() and matches(shown[1:], printed[1:])


def prepare(room, program):
    """The folder as a reader has it, without the sources of the program; copies, since commands change files."""
    for name in ("cells", "examples", "share"):
        shutil.copytree(TOP / name, room.folder / name)
    (room.folder / "build").mkdir()
    (room.folder / "build/alliance").symlink_to(program)


def run(room, command):
    how = {"cwd": room.folder, "stdin": subprocess.DEVNULL, "stdout": subprocess.PIPE, "stderr": subprocess.STDOUT, "timeout": SECONDS, "check": False}
    done = subprocess.run(["bash", "-c", command], env={**os.environ, "LC_ALL": "C.UTF-8"}, **how)
    return done.returncode, done.stdout.decode(errors="replace").splitlines()


def check_page(results, program, page):
    text = (TOP / page).read_text()
    with Room() as room:
        prepare(room, program)
        for command, shown in commands(text):
            if BUILDS.match(command):
                results.skip(f"{page}: {command}")
                continue
            status, printed = run(room, command)
            is_run = status not in (NOT_RUN, NOT_FOUND)
            is_well = is_run and (shown is None or matches(shown, printed))
            results.note(f"{page}: {command}", is_well, f"status {status}, printed {printed[:30]}, the page shows {shown}")
    for line in plain_lines(text):
        results.skip(f"{page}: {line}")


def check_pictures(results, program):
    """The pictures of the counter are those that draw makes of its layouts."""
    with Room() as room:
        prepare(room, program)
        for picture, words in PICTURES.items():
            run(room, f"build/alliance {words}")
            _, drawn = run(room, "share/draw build/picture.ap cells")
            results.note(f"{picture} is up to date", drawn == (TOP / picture).read_text().splitlines(), str(drawn[:3]))


# ---- texts of a VHDL writer

TEXT = re.compile(r"^```(vhdl|fsm)\n(.*?)^```\n+(?:prints `([^`]*)`)?", re.M | re.S)
TOOLS = {"vhdl": ("boom", "s.vbe"), "fsm": ("syf", "s.fsm")}


def check_texts(results, program):
    """Each text is refused with the line that the page has, or taken."""
    found = TEXT.findall((TOP / "docs/FROM_VHDL.md").read_text())
    results.note("texts in docs/FROM_VHDL.md", len(found) > 30, str(len(found)))
    with Room() as room:
        for kind, text, line in found:
            tool, name = TOOLS[kind]
            (room.folder / name).write_text(text)
            status, printed = room.run(program, [tool, name, "-o", "small"])
            is_well = printed.decode() == f"{line}\n" and status == 2 if line else status == 0
            results.note(f"a text of a VHDL writer, {line or 'as it is written here'}", is_well, f"status {status}, {printed[:200]} of {text}")


def check_texts_in_ghdl(results):
    """GHDL reads each text of the page: those that are refused as they are, those that are taken as share/vhdl writes them."""
    if not shutil.which("ghdl"):
        results.skip("GHDL isn't installed")
        return
    with Room() as room:
        prepare(room, "/bin/true")
        run(room, "cd build && ghdl -a --std=08 ../share/registers.vhd")
        for kind, text, line in TEXT.findall((TOP / "docs/FROM_VHDL.md").read_text()):
            name = TOOLS[kind][1]
            use = "use work.registers.all;\n" if line and "reg_bit" in text else ""
            (room.folder / "build" / name).write_text(use + text)
            command = f"cp {name} s.vhd" if line else f"../share/vhdl {name} >s.vhd"
            status, printed = run(room, f"cd build && {command} && ghdl -a --std=08 s.vhd")
            results.note(f"GHDL reads a text, {line or 'as it is written here'}", status == 0, f"{printed} of {text}")


def jobs(program):
    yield from ((check_page, (program, page)) for page in PAGES)
    yield check_pictures, (program,)
    yield check_texts, (program,)
    yield check_texts_in_ghdl, ()
