#!/usr/bin/env python3
"""Runs a command, and prints the minutes of processor that its checks took, by crate. bench/gate.sh calls it.

It looks twice a second at the processes below the command. A check names its crate (`--crate-name`); one that runs outside of the
repository is that of a must-fail edit, one with `--test` that of tests. What such a process started counts for it, and what
belongs to no crate is called rest. Of each process the last look counts, so that a half second may be missing.
"""
import collections
import os
import subprocess
import sys
import time

SECONDS = 0.5
KINDS = ["proofs", "tests", "edits"]
TICKS = os.sysconf("SC_CLK_TCK")


def processes():
    """Each process as its number: that of its parent, when it started, and its seconds of processor."""
    found = {}
    for name in os.listdir("/proc"):
        if name.isdigit():
            try:
                with open(f"/proc/{name}/stat", "rb") as stat:
                    fields = stat.read().rpartition(b")")[2].split()
            except OSError:
                continue
            found[int(name)] = int(fields[1]), fields[19], (int(fields[11]) + int(fields[12])) / TICKS
    return found


def work_of(process, root):
    """The crate and the kind of work of a process, or None where it is no check."""
    try:
        with open(f"/proc/{process}/cmdline", "rb") as line:
            words = line.read().decode(errors="replace").split("\0")
        folder = os.readlink(f"/proc/{process}/cwd")
    except OSError:
        return None
    if "--crate-name" not in words[:-1]:
        return None
    crate = words[words.index("--crate-name") + 1]
    kind = "tests" if "--test" in words else "proofs" if folder.startswith(root + "/") else "edits"
    return crate, kind


class Looks:
    def __init__(self, top, root):
        self.top, self.root = top, root
        self.known, self.seconds = {}, {}

    def work(self, process, found):
        """What the process is a part of; None where it isn't below the command."""
        if process == self.top:
            return "rest", "proofs"
        if process not in found:
            return None
        parent, started, _ = found[process]
        if (process, started) not in self.known:
            above = self.work(parent, found)
            self.known[process, started] = above and (work_of(process, self.root) or above)
        return self.known[process, started]

    def look(self):
        found = processes()
        for process, (_, started, seconds) in found.items():
            work = self.work(process, found)
            if work:
                self.seconds[process, started] = work, seconds


def table(seconds):
    sums = collections.Counter()
    for work, count in seconds.values():
        sums[work] += count / 60
    crates = sorted({crate for crate, _ in sums}, key=lambda crate: -sum(sums[crate, kind] for kind in KINDS))
    yield ["minutes of processor", *KINDS, "sum"]
    for crate in crates:
        row = [sums[crate, kind] for kind in KINDS]
        yield [crate, *row, sum(row)]
    row = [sum(sums[crate, kind] for crate in crates) for kind in KINDS]
    yield ["all", *row, sum(row)]


def main():
    root = os.getcwd()
    command = subprocess.Popen(sys.argv[1:], stdin=subprocess.DEVNULL, stdout=sys.stderr)
    looks = Looks(command.pid, root)
    while command.poll() is None:
        looks.look()
        time.sleep(SECONDS)
    for name, *row in table(looks.seconds):
        print(f"{name:24}", *(f"{it:>8}" if isinstance(it, str) else f"{it:8.1f}" for it in row))
    return command.returncode


if __name__ == "__main__":
    sys.exit(main())
