"""How a program is run where something of the machine fails: a limit on the size of files or on memory, a disk with few pages left, a closed
or full output, files without permission. Each gives the status and the printed bytes, as `Room.run` does.
"""

import contextlib
import fcntl
import functools
import os
import resource
import shutil
import signal
import subprocess
import tempfile
import threading
import time

PAGE, OFFSET, NOBODY = 4096, 1 << 20, 65534
# in a mount space of its own: a disk in memory with the files, all but some of its pages filled; what stands there afterwards is copied
ON_DISK = """
mount -t tmpfs -o size=4m none disk && cp -R files/. disk && cd disk || exit 99
dd if=/dev/zero of=filler bs=4096 2>/dev/null
truncate -s -$(($1 * 4096)) filler
shift
"$@"
status=$?
rm filler && cp -R . ../after || exit 98
exit $status
"""


# ---- limits of the kernel


def no_larger(size):
    """What a child does first: no file that it writes gets larger than this. What would be a signal is a fault of the write."""

    def limit():
        signal.signal(signal.SIGXFSZ, signal.SIG_IGN)
        resource.setrlimit(resource.RLIMIT_FSIZE, (size, size))

    return limit


def no_more_memory(size):
    def limit():
        resource.setrlimit(resource.RLIMIT_CORE, (0, 0))
        resource.setrlimit(resource.RLIMIT_AS, (size, size))

    return limit


def least(is_enough, low, high, step):
    """The least number, to within a step, that is enough, where `high` is."""
    while high - low > step:
        middle = (low + high) // 2
        low, high = (low, middle) if is_enough(middle) else (middle, high)
    return high


# ---- a disk with few pages


@functools.cache
def mounting():
    """The words that give a mount space of its own, or None where the machine gives none."""
    for words in (["unshare", "-m"], ["unshare", "-rm"]):
        with tempfile.TemporaryDirectory() as folder, contextlib.suppress(OSError):
            if not subprocess.run([*words, "mount", "-t", "tmpfs", "none", folder], stderr=subprocess.DEVNULL).returncode:
                return words
    return None


def on_disk(room, program, words, pages):
    """Runs it on a disk with so many free pages. The files of the room are then those that stand on that disk."""
    files, disk, after = (room.folder / name for name in ("files", "disk", "after"))
    mine = list(room.folder.iterdir())
    for folder in (files, disk, after):
        folder.mkdir()
    for path in mine:
        path.rename(files / path.name)
    words = [*mounting(), "sh", "-c", ON_DISK, "sh", str(pages), program, *words]
    got = room.run(words[0], words[1:])
    shutil.rmtree(files)
    disk.rmdir()
    for path in list(after.iterdir()):
        path.rename(room.folder / path.name)
    after.rmdir()
    return got


# ---- outputs


@contextlib.contextmanager
def gone_pipe():
    """A pipe that nobody reads."""
    reader, writer = os.pipe()
    os.close(reader)
    try:
        yield writer
    finally:
        os.close(writer)


@contextlib.contextmanager
def full_pipe():
    """A pipe that is full, and doesn't wait."""
    reader, writer = os.pipe()
    fcntl.fcntl(writer, fcntl.F_SETFL, os.O_NONBLOCK)
    with contextlib.suppress(BlockingIOError):
        while True:
            os.write(writer, bytes(PAGE))
    try:
        yield writer
    finally:
        os.close(reader)
        os.close(writer)


def with_part(room, program, words, count):
    """Standard output is a file that takes so many bytes more: the status, and what it took."""
    with tempfile.TemporaryFile() as out:
        out.seek(OFFSET - count)
        status, printed = room.run(program, words, out, preexec_fn=no_larger(OFFSET))
        out.seek(OFFSET - count)
        return status, printed or out.read()


def closed():
    os.close(1)


# ---- permission


def as_nobody():
    """Of root, what a child does first, so that permissions bind."""
    if os.geteuid() == 0:
        os.setgroups([])
        os.setgid(NOBODY)
        os.setuid(NOBODY)


# ---- files that change


@contextlib.contextmanager
def in_parts(path, text):
    """A pipe in the place of a file, that gives its text in two parts."""
    os.mkfifo(path)

    def give():
        with contextlib.suppress(OSError), open(path, "wb", buffering=0) as pipe:
            pipe.write(text[: len(text) // 2])
            time.sleep(0.02)
            pipe.write(text[len(text) // 2 :])

    giver = threading.Thread(target=give, daemon=True)
    giver.start()
    try:
        yield
    finally:
        # where the program didn't open it, the giver still waits for a reader
        os.close(os.open(path, os.O_RDONLY | os.O_NONBLOCK))
        giver.join(1)
        os.unlink(path)


@contextlib.contextmanager
def rewritten(path, text):
    """The file is emptied and written again all the time, and at last has its text."""
    is_over = threading.Event()

    def write():
        while not is_over.is_set():
            path.write_bytes(text)

    writer = threading.Thread(target=write)
    writer.start()
    try:
        yield
    finally:
        is_over.set()
        writer.join()
