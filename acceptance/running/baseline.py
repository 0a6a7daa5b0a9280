"""The stored baseline of bench/: no layout of its circuits has become worse."""

import subprocess
import sys

from acceptance.running.places import BENCH

SECONDS = 3000


def check(results, program):
    words = [sys.executable, BENCH / "baseline.py", program]
    done = subprocess.run(words, stdout=subprocess.PIPE, stderr=subprocess.STDOUT, text=True, timeout=SECONDS)
    results.note("no layout is worse than in bench/baseline.csv", done.returncode == 0, done.stdout)


def jobs(program):
    yield check, (program,)
