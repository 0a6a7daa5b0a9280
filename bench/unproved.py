#!/usr/bin/env python3
"""Compiles the program from the sources as they stand, as fast as the proved one, with nothing proved.

Usage: bench/unproved.py PROGRAM [CRATE]      (at the top of the repository; build.sh --quick runs it)

PROGRAM is then the program of the crate, which is `alliance` where none is named. Nothing that it shows is proved.

`rt try` makes one module of a program, compiles it without optimization and with a sanitizer, and runs that. Here it does so in a kit of links to
the real one, in which the compiler's place has a script: this keeps the module and the compiler's words, and ends the run. Then the module is
compiled by the same words, but with -O2 and without the sanitizer, and linked by the kit's own linker.
"""

import os
import pathlib
import shutil
import signal
import subprocess
import sys
import tempfile

CRATE, LEVEL, MODULE, LAST_BYTES = "alliance", "-O2", "module.bc", 3000
LIBRARIES, TARGET = ("libos_c.a", "liblibc_c.a"), "x86_64-unknown-linux-gnu"
SANITIZED = "-fsanitize=address"
# What stands in the compiler's place: of the sanitized call it keeps the words and the module; other calls go on to the compiler.
KEEPING = """#!/bin/sh
case " $* " in
*" {sanitized} "*)
  printf '%s\\n' "$@" >"{room}/words"
  cp {module} "{room}/{module}"
  exit 1
  ;;
esac
exec "{compiler}" "$@"
"""


def kit_folder():
    """Where the kit stands: above the folder of the command rt."""
    command = shutil.which(os.environ.get("RT", "rt"))
    if command is None:
        sys.exit("unproved.py: there is no rt")
    return pathlib.Path(command).resolve().parent.parent


def link_all(here, there, *left_out):
    """Links in the folder `here` to all that stands in the folder `there`, but for these."""
    here.mkdir()
    for path in there.iterdir():
        if path.name not in left_out:
            (here / path.name).symlink_to(path)


def keeping_kit(kit, room):
    """A kit of links to the real one, in which the compiler keeps the module. Its scripts are copies: they look for their kit beside them."""
    here = room / "kit"
    link_all(here, kit, "bin", "toolchain")
    link_all(here / "bin", kit / "bin", "rt", "rtlib.py")
    for name in ("rt", "rtlib.py"):
        shutil.copy(kit / "bin" / name, here / "bin" / name)
    link_all(here / "toolchain", kit / "toolchain", "bin")
    link_all(here / "toolchain/bin", kit / "toolchain/bin", "clang")
    compiler = here / "toolchain/bin/clang"
    compiler.write_text(KEEPING.format(sanitized=SANITIZED, room=room, module=MODULE, compiler=kit / "toolchain/bin/clang"))
    compiler.chmod(0o755)
    return here


def keep_module(kit, room, crate):
    """Runs `rt try` up to the call of the compiler. Where it doesn't come so far, what it says is the reason."""
    with open(room / "said", "w+b") as said:
        command = [keeping_kit(kit, room) / "bin/rt", "try", "--", "x"]
        how = {"cwd": f"crates/{crate}", "stdout": said, "stderr": said, "stdin": subprocess.DEVNULL}
        with subprocess.Popen(command, env={**os.environ, "TMPDIR": str(room)}, **how) as tried:
            try:
                tried.wait()
            finally:
                tried.terminate()
        if not (room / MODULE).exists():
            said.seek(0)
            sys.stderr.write(said.read().decode(errors="replace")[-LAST_BYTES:])
            sys.exit("unproved.py: the program doesn't compile")


def fast(words):
    """The compiler's words without those of the sanitizer, and with another level."""
    plain = (word for word in words if not word.startswith("-fsanitize"))
    return [LEVEL if word.startswith("-O") else word for word in plain]


def compiled(kit, room):
    """The module's object file."""
    words = (room / "words").read_text().splitlines()
    subprocess.run([kit / "toolchain/bin/clang", *fast(words)], cwd=room, check=True)
    return room / words[words.index("-o") + 1]


def linked(kit, made, program):
    program.parent.mkdir(parents=True, exist_ok=True)
    program.unlink(missing_ok=True)
    command = [kit / "bin/rattle-link", "--target", TARGET, "--toolchain", kit / "toolchain", "-o", program, made]
    subprocess.run([*command, *(kit / "c" / name for name in LIBRARIES)], stderr=subprocess.DEVNULL, check=True)


def main():
    if not 2 <= len(sys.argv) <= 3 or sys.argv[1].startswith("-"):
        sys.exit(__doc__)
    signal.signal(signal.SIGTERM, lambda *_: sys.exit(1))
    crate = sys.argv[2] if len(sys.argv) == 3 else CRATE
    if not pathlib.Path(f"crates/{crate}/src/main.rt").exists():
        sys.exit(f"unproved.py: crates/{crate} has no program")
    kit, program = kit_folder(), pathlib.Path(sys.argv[1]).resolve()
    with tempfile.TemporaryDirectory(prefix="unproved-") as folder:
        room = pathlib.Path(folder)
        keep_module(kit, room, crate)
        linked(kit, compiled(kit, room), program)


if __name__ == "__main__":
    main()
