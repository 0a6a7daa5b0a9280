"""What came of checks, and a folder in which a program runs."""

import pathlib
import subprocess
import tempfile

SECONDS = 100


class Results:
    def __init__(self):
        self.passed, self.failures, self.skips = 0, [], []

    def note(self, title, is_well, told=""):
        if is_well:
            self.passed += 1
        else:
            self.failures.append(f"{title}\n  {told}")

    def skip(self, why):
        self.skips.append(why)

    def add(self, other):
        self.passed += other.passed
        self.failures += other.failures
        self.skips += other.skips


class Room:
    """A folder of its own. Files are a map from names to bytes, and to None for a folder."""

    def __enter__(self):
        self.room = tempfile.TemporaryDirectory(prefix="acceptance-")
        self.folder = pathlib.Path(self.room.name)
        return self

    def __exit__(self, *_):
        self.room.cleanup()

    def write(self, files):
        for name, text in files.items():
            path = self.folder / name
            path.parent.mkdir(parents=True, exist_ok=True)
            if text is None:
                path.mkdir()
            else:
                path.write_bytes(text)

    def held(self):
        """The files, and the folders in which nothing is."""
        found = {}
        for path in self.folder.rglob("*"):
            name = str(path.relative_to(self.folder))
            if path.is_dir():
                if not any(path.iterdir()):
                    found[name] = None
            else:
                found[name] = path.read_bytes()
        return found

    def run(self, program, words, out=subprocess.PIPE, **more):
        """The status and the printed bytes; None and why where it doesn't end or something stands on standard error. What is more goes to
        `subprocess`."""
        how = {"cwd": self.folder, "stdin": subprocess.DEVNULL, "stdout": out, "stderr": subprocess.PIPE, "timeout": SECONDS, **more}
        try:
            done = subprocess.run([program, *words], **how)
        except subprocess.TimeoutExpired:
            return None, f"no end within {SECONDS} seconds".encode()
        if done.stderr:
            return None, b"on standard error: " + done.stderr
        return done.returncode, done.stdout or b""


def shown(status, printed):
    return f"status {status}, {bytes(printed[:400])!r}"


def run_in(files, program, words, out=subprocess.PIPE):
    """Status, printed bytes and the files after a run in a folder of its own."""
    with Room() as room:
        room.write(files)
        status, printed = room.run(program, words, out)
        return status, printed, room.held()


def compare(results, title, got, status, printed, files):
    """What a run came to, beside what is wanted."""
    is_well = got[0] == status and got[1] == printed
    results.note(title, is_well, f"came to {shown(*got[:2])}, wanted {shown(status, printed)}")
    differing = sorted(name for name in {*got[2], *files} if got[2].get(name, 0) != files.get(name, 0))
    results.note(f"{title}: the files", not differing, f"these differ: {', '.join(differing)}")
