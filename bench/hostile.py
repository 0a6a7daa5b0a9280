"""What hostile.sh does: hostile.py PROGRAM [SECONDS] [WORD..]."""

import math
import os
import pathlib
import resource
import signal
import sys
import tempfile

sys.path[0] = str(pathlib.Path(__file__).resolve().parent.parent)
sys.path.append(str(pathlib.Path(__file__).resolve().parent))
from acceptance.tools.boog import of_cells  # noqa: E402
from hostile_inputs import FAMILIES, FIVE  # noqa: E402

MEMORY = 8 << 30
MOST_SECONDS, MOST_MEGABYTES, MOST_GROWTH, TELLING_SECONDS, TELLING_MEGABYTES = 10, 2048, 2.3, 0.5, 64


def run(program, words, folder, seconds):
    """Status, or None where it is cut off, and seconds and megabytes of one run: processor time, so that other work on the machine doesn't
    count."""
    child = os.fork()
    if child == 0:
        os.chdir(folder)
        resource.setrlimit(resource.RLIMIT_AS, (MEMORY, MEMORY))
        resource.setrlimit(resource.RLIMIT_CPU, (seconds, seconds))
        os.dup2(os.open(os.devnull, os.O_WRONLY), 1)
        os.execv(program, [program, *words])
    _, status, used = os.wait4(child, 0)
    code = os.waitstatus_to_exitcode(status)
    is_cut_off = code in (-signal.SIGKILL, -signal.SIGXCPU)
    return None if is_cut_off else code, used.ru_utime + used.ru_stime, used.ru_maxrss // 1024


def growth(before, now, size_before, size):
    if not before or not now or size < 1.5 * size_before:
        return None
    return math.exp(math.log(now / before) * math.log(2) / math.log(size / size_before))


def told(value, most, is_telling=True):
    if value is None:
        return f"{'-':>8} "
    return f"{value:8.2f}{'!' if is_telling and value > most else ' '}"


def measure(program, name, seconds, steps):
    line, numbers, make = FAMILIES[name]
    print(f"{name}: {line}")
    before, missed = None, 0
    for number in numbers[:steps]:
        library, made = of_cells(FIVE), make(number)
        files = {**library, **made}
        with tempfile.TemporaryDirectory(prefix="hostile-") as folder:
            for file, text in files.items():
                path = pathlib.Path(folder) / file
                path.parent.mkdir(exist_ok=True)
                path.write_bytes(text)
            *earlier, last = line.split(" && ")
            for words in earlier:
                run(program, words.split(), folder, 10 * seconds)
            given = [it for it in pathlib.Path(folder).rglob("*") if it.is_file()]
            size = sum(it.stat().st_size for it in given if (file := str(it.relative_to(folder))) in made or file not in library)
            status, took, megabytes = run(program, last.split(), folder, seconds)
        slower, larger = (growth(before[k], (took, megabytes)[k], before[2], size) if before else None for k in (0, 1))
        shown = "cut off" if status is None else status
        cells = told(took, MOST_SECONDS), told(megabytes, MOST_MEGABYTES), told(slower, MOST_GROWTH, took > TELLING_SECONDS)
        text = f"  {number:8} {size:10} {shown:>8} {''.join(cells)}{told(larger, MOST_GROWTH, megabytes > TELLING_MEGABYTES)}"
        missed += "!" in text or status is None or status < 0
        print(text, flush=True)
        if status is None or status < 0:
            break
        before = took, megabytes, size
    return missed


def main(words):
    program, *more = words
    seconds = int(more.pop(0)) if more and more[0].isdigit() else 60
    steps = int(os.environ.get("STEPS", "99"))
    print(f"  {'number':>8} {'bytes':>10} {'status':>8} {'seconds':>8} {'MB':>8} {'growth':>8} {'of MB':>8}")
    missed = sum(measure(program, name, seconds, steps) for name in FAMILIES if not more or any(word in name for word in more))
    print(f"{missed} runs miss a goal")


if __name__ == "__main__":
    main(sys.argv[1:])
