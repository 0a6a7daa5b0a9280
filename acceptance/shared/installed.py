"""What ./build.sh --install leaves: the program, the programs of share/, manual pages and completions, from a copy of the repository."""

import os
import shutil
import subprocess

from acceptance.running.places import TOP
from acceptance.running.results import Room

SECONDS = 300
COPIED = ("cells", "examples", "share", "install", "docs/man", "docs/share")
# Words of a command line, the last of which is being written, and what completes it.
COMPLETED = [
    (["boo"], {"boom", "boog"}),
    (["boom", ""], {"a.vbe", "lib"}),
    (["asimut", "a.vbe", "-p", ""], {"a.pat", "lib"}),
    (["boog", "a.vbe", "-l", ""], {"lib"}),
    (["syf", "a.fsm", "-e", ""], {"o", "r", "j"}),
    (["boom", "--"], {"--nodes"}),
    (["flow", "--rows", ""], set()),
]


def ran(room, *words):
    how = {"cwd": room.folder, "stdin": subprocess.DEVNULL, "capture_output": True, "text": True, "timeout": SECONDS, "check": False}
    return subprocess.run([str(word) for word in words], **how)


def prepare(room, program):
    for name in COPIED:
        shutil.copytree(TOP / name, room.folder / name)
    shutil.copy(TOP / "build.sh", room.folder / "build.sh")
    (room.folder / "build").mkdir()
    (room.folder / "build/alliance").symlink_to(program)


def check_manual(results, room):
    pages = [path for folder in ("man", "share") for path in sorted((TOP / "docs" / folder).glob("*.md")) if path.stem != "README"]
    made = {path.name for path in (room.folder / "prefix/share/man/man1").glob("*.1")}
    wanted = {"alliance.1" if path.stem == "alliance" else f"alliance-{path.stem}.1" for path in pages}
    results.note("the pages of the manual", made == wanted, str(made ^ wanted))
    if not shutil.which("groff"):
        results.skip("groff isn't installed")
        return
    for name in sorted(made):
        # A usage line in a list is too long for a line; that groff can't break it is no fault.
        done = ran(room, "groff", "-man", "-Tascii", "-ww", "-Wbreak", room.folder / "prefix/share/man/man1" / name)
        is_well = done.returncode == 0 and not done.stderr and "SYNOPSIS" in done.stdout.replace("\x08", "").replace("SSYYNNOOPPSSIISS", "SYNOPSIS")
        results.note(f"groff reads {name}", is_well, done.stderr[:500])


def completed(room, words):
    """What the completion for bash offers."""
    line = " ".join(f"'{word}'" for word in ["alliance", *words])
    script = f"source ../prefix/share/bash-completion/completions/alliance; COMP_WORDS=({line}); COMP_CWORD={len(words)}; _alliance; printf '%s\\n' \"${{COMPREPLY[@]}}\""
    done = subprocess.run(["bash", "-c", script], cwd=room.folder / "here", capture_output=True, text=True, timeout=SECONDS, check=False)
    return set(done.stdout.split()), done.stderr


def check_completion(results, room):
    (room.folder / "here/lib").mkdir(parents=True)
    for name in ("a.vbe", "a.pat", "a.vst"):
        (room.folder / "here" / name).write_text("")
    for words, wanted in COMPLETED:
        offered, told = completed(room, words)
        results.note(f"bash completes alliance {' '.join(words)}", offered == wanted and not told, f"{offered} and {wanted} {told}")
    if not shutil.which("zsh"):
        results.skip("zsh isn't installed")
        return
    done = ran(room, "zsh", "-n", room.folder / "prefix/share/zsh/site-functions/_alliance")
    results.note("zsh reads its completion", done.returncode == 0 and not done.stderr, done.stderr)


def check(results, program):
    with Room() as room:
        prepare(room, program)
        done = ran(room, "bash", "build.sh", "--install", room.folder / "prefix")
        results.note("./build.sh --install", done.returncode == 0, done.stdout[-500:] + done.stderr[-500:])
        prefix, shared = room.folder / "prefix", room.folder / "prefix/share/alliance"
        done = ran(room, prefix / "bin/alliance", "boog", shared / "examples/inverter/row1.vbe", "-l", shared / "cells", "-o", "n")
        results.note("the installed program", done.stdout == "cells 1\n", done.stdout + done.stderr)
        done = ran(room, prefix / "bin/alliance-stats", shared / "examples/checking/pick.ap", shared / "cells")
        results.note("an installed program of share/", done.stdout.startswith("width 12000\n"), done.stdout + done.stderr)
        check_manual(results, room)
        check_completion(results, room)
        os.remove(room.folder / "build/alliance")
        done = ran(room, "bash", "build.sh", "--install", room.folder / "other")
        results.note("there is nothing to install", done.returncode == 1 and "no build/alliance" in done.stderr, done.stderr)


def jobs(program):
    yield check, (program,)
