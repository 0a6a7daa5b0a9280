"""The tools of the program, as this look at real layouts calls them."""

import subprocess
from pathlib import Path

TOP = Path(__file__).resolve().parents[2]
TABLES = TOP / "examples/real"


class Refused(Exception):
    """What a tool says that doesn't end with status 0."""


class Program:
    def __init__(self, path, library):
        self.path, self.library = Path(path).resolve(), Path(library).resolve()

    def run(self, tool, *words):
        done = subprocess.run([self.path, tool, *map(str, words)], capture_output=True, text=True)
        if done.returncode:
            raise Refused((done.stdout + done.stderr).strip() or f"{tool}: status {done.returncode}")
        return done.stdout

    def flow(self, source, output, *options):
        return self.run("flow", source, "-l", self.library, "-o", output, *options)

    def netlist(self, layout, output):
        return self.run("cougar", layout, "-l", self.library, "-o", output)

    def real(self, layout, process, output):
        """All layers of a layout by the table of the process."""
        self.run("s2r", layout, "-p", TABLES / f"{process.table}.real", "-l", self.library, "-o", output)
        return Path(f"{output}.cif").read_text()
