"""The worked cases on the real program, and again with each of their files at fault."""

import os

from acceptance.running.case_file import Case, by_path
from acceptance.running.results import compare, run_in
from acceptance.tools.table import TOOLS

FULL = "/dev/full"
STUCK, FILE = 6, 7


def check_case(results, program, path):
    case = Case(path)
    for words in case.words:
        title = f"{case.title} ({' '.join(words)[:80]})"
        got = run_in(case.before, program, words)
        told = got[1] if case.is_begun_by(got[1]) else case.printed
        check_run(results, case, words, title, got, (case.status, told), told)
        tool = TOOLS.get(words[0]) if words else None
        if tool:
            second = tool.second(words, case.before)
            if second is not None:
                results.note(f"{title}: the second reader", tool.agrees((case.status, told), second), f"it comes to {second}")
        full_disk(results, program, case, words, title, told)
        for number, (deed, file) in enumerate(case.calls or []):
            if deed == "read" and ("write", file) in case.calls[:number]:
                continue  # what a run has written itself can't be in its way
            if deed == "write" and ("read", file) in case.calls[:number]:
                continue  # nor is a folder written to in whose place a file was to be read: that read fails first
            troubles(results, program, case, words, (number, deed, file))


def check_run(results, case, words, title, got, wanted, told):
    """A run whose calls all succeed. A file whose spelling is open, and whose text the case doesn't have, is read again, beside what is
    told where all can be printed."""
    status, printed, files = got
    kept = by_path(case.files_after(None))
    open_file = open_file_of(case, words, told)
    if open_file:
        name, faults_of = open_file
        text = files.pop(name, None)
        kept.pop(name, None)
        faults = ["it isn't there"] if text is None else faults_of(text)
        results.note(f"{title}: the file {name}", not faults, f"{faults} in {text and text[:2000]!r}")
    compare(results, title, (status, printed, files), *wanted, kept)


def open_file_of(case, words, told):
    tool = TOOLS.get(words[0]) if words else None
    if tool and case.status == 0 and tool.writes:
        name, faults_of = tool.writes(words, case.before)
        if tool.tells:
            faults_of = beside(case, words, faults_of, told)
    elif tool and case.status == STUCK and tool.leaves:
        name, faults_of = tool.leaves(words, case.before, told)
    else:
        return None
    return None if name in case.after else (os.path.normpath(name), faults_of)


def beside(case, words, faults_of, told):
    """The faults of a file, and where it has none those of what is told of it."""
    return lambda text: faults_of(text) or TOOLS[words[0]].tells(words, case.before, text, told)


def full_disk(results, program, case, words, title, told):
    """Standard output takes nothing: a product that is lost is a failure of the output, a refusal keeps its status."""
    if not os.path.exists(FULL):
        results.skip(f"there is no {FULL}")
        return
    is_lost = case.status == 0 and case.printed
    with open(FULL, "wb") as full:
        got = run_in(case.before, program, words, full)
    check_run(results, case, words, f"{title} on a full disk", got, (FILE if is_lost else case.status, b""), told)


def troubles(results, program, case, words, call):
    """A folder stands in the place of the call's file, and then nothing does."""
    number, deed, file = call
    title = f"{case.title} ({' '.join(words)[:80]})"
    without = {name: text for name, text in case.before.items() if name != file}
    after = {name: text for name, text in case.files_after(number).items() if name != file}
    fault = f"{words[0]}: file: {deed} fault {file}\n".encode()
    got = run_in({**without, file: None}, program, words)
    compare(results, f"{title} with a folder as {file}", got, FILE, fault, by_path({**after, file: None}))
    if deed == "read" and file in case.before:
        missing = f"{words[0]}: file: missing {file}\n".encode()
        compare(results, f"{title} without {file}", run_in(without, program, words), FILE, missing, by_path(after))
