"""The documents: what they name is there, and the pages of the headline are up to date."""

import subprocess
import sys

from acceptance.running.places import BENCH

CHECKS = [
    ("what the documents name is there", ["claims.py"]),
    ("the pages of the headline are up to date", ["headline.py", "--check"]),
]


def check(results):
    for title, (script, *words) in CHECKS:
        done = subprocess.run([sys.executable, BENCH / script, *words], stdout=subprocess.PIPE, stderr=subprocess.STDOUT, text=True)
        results.note(title, done.returncode == 0 and not done.stdout, done.stdout)
