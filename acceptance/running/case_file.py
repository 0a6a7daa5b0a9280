"""The worked cases, as the files below crates/cases/data and acceptance/large have them.

docs/CONTRIBUTING.md says how a case is written. The program `cases` reads the same files.
"""

import os
import re

from acceptance.running.places import LARGE, ROWS


def case_files():
    """The files of large texts first, since they take the longest."""
    return sorted(LARGE.glob("*.txt")) + sorted(ROWS.glob("*/*.txt"))


def expanded(line):
    """The line with each `<<N TEXT>>` written out."""
    return re.sub(rb"<<(\d+) (.*?)>>", lambda found: int(found[1]) * found[2], line)


class Case:
    def __init__(self, path):
        self.title = f"{path.parent.name}/{path.name}"
        self.words, self.status, self.calls = [], 0, None
        self.before, self.after, self.printed = {}, {}, b""
        place = None
        for line in path.read_bytes().removesuffix(b"\n").split(b"\n"):
            begun = re.fullmatch(rb"-- (.*) --", line)
            if begun:
                place = begun[1].decode()
                self.put(place, b"")
            elif place is None:
                self.head(line.decode())
            elif line.endswith(b"<<open>>"):
                self.put(place, expanded(line.removesuffix(b"<<open>>")))
            else:
                self.put(place, expanded(line) + b"\n")

    def put(self, place, text):
        if place == "stdout":
            self.printed += text
        elif place.startswith("after: "):
            name = place.removeprefix("after: ")
            self.after[name] = self.after.get(name, b"") + text
        else:
            self.before[place] = self.before.get(place, b"") + text

    def head(self, line):
        if not line or line.startswith("#"):
            return
        key, value = line.split(":", 1)
        value = value.removeprefix(" ")
        if key == "words":
            self.words.append(expanded(value.encode()).decode().split())
        elif key == "status":
            self.status = int(value)
        elif key == "calls":
            self.calls = [] if value == "none" else [tuple(call.split(" ", 1)) for call in value.split(", ")]
        else:
            raise ValueError(f"{self.title}: {key} is no word of the head")

    def is_begun_by(self, printed):
        """Whether what is printed is open behind the text of the case, which then doesn't end with LF, and begins with it."""
        return bool(self.printed) and not self.printed.endswith(b"\n") and bytes(printed).startswith(self.printed)

    def files_after(self, calls):
        """The files after the first of the calls, or after all."""
        if self.calls is None:
            return {**self.before, **self.after}
        written = [file for deed, file in self.calls[:calls] if deed == "write"]
        return {**self.before, **{name: text for name, text in self.after.items() if name in written}}


def by_path(files):
    return {os.path.normpath(name): text for name, text in files.items()}
