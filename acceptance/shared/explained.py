"""share/explain and share/cellcheck: each form of a refusal has its sentences, marks stand where the mistake is, the words of a command are
looked at, and of each library that a case has refused the same check of the same cell is named."""

import os
import re
import subprocess
import sys

from acceptance.running.case_file import ROWS, Case
from acceptance.running.places import CELLS, SHARE, TOP
from acceptance.running.results import Room
from share.formats import refusal_texts, refusals

SECONDS = 120
PAGE = 'More: docs/REFUSALS.md, "'
COUNTER = (TOP / "examples/counter/cnt4.vbe").read_text()
PATTERNS = (TOP / "examples/counter/cnt4.pat").read_text()
LOCK = (TOP / "examples/lock/lock.fsm").read_text()

# What a wrong text is called, its text, what is printed of it, and lines that the explanation has, each of which was written by hand.
MARKED = [
    ("u.vbe", "library ieee;\nuse ieee.std_logic_1164.all;\n", "boom: u.vbe:2: bad byte", ["    use ieee.std_logic_1164.all;", "            ^", "It is the byte `.`."]),
    ("b.vbe", "\ufeffentity a is\n", "boom: b.vbe:1: bad byte", ["byte order mark"]),
    ("s.vbe", COUNTER.replace("q(2) <= r2;", "q(2) <= r2"), "boom: s.vbe:26: syntax", ["The token `q` stands here", "`;`"]),
    ("n.vbe", COUNTER.replace("r2 and r1 and r0", "r9 and r1 and r0"), "boom: n.vbe:20: unknown r9", ["r9 isn't declared.", "    " + " " * 26 + "^^"]),
    ("p.fsm", LOCK.replace("-- pragma CLOCK", "-- CLOCK"), "syf: p.fsm:1: no pragma", ["`-- pragma CLOCK NAME`"]),
    ("e.vbe", "entity a is\nport (ck : in bit; q : out bit);\nend a;\narchitecture b of a is\nbegin\n  if ck'event then q <= '1'; end if;\nend b;\n",
     "boom: e.vbe:6: syntax", ["The token `if` stands here", "A register is written in a block"]),
    ("l.ap", "V ALLIANCE : 6\n", "s2r: l.ap:1: unsupported CONT_VIA", ["CONT_VIA shows metal that the table of the process doesn't write."]),
    ("m.ap", "V ALLIANCE : 6\n", "s2r: m.ap:1: unsupported ram_x1", ["Instances of ram_x1 have no real layout"]),
]
# Words of a command that spell none, and what is said of them.
SPELLED = [
    ("boom build/cnt4 -o build/small", "SOURCE ends in .vbe, and `build/cnt4` doesn't."),
    ("boog a.vbe -o x", "-l DIR is missing."),
    ("asimut a.vbe -p a.pat -l cells", "-l DIR is for netlists (.vst) alone."),
    ("asimut a.vst -p a.pat", "-l DIR is missing"),
    ("flow a.vbe -l cells -o x --metals 7", "--metals takes a number from 4 to 6, and not `7`."),
    ("flow a.vbe -l cells -o x --metal 5", "There is no option --metal; --metals is meant, perhaps."),
    ("flwo a.vbe", "`flow` is meant, perhaps."),
    ("boom a.vbe b.vbe -o x", "`b.vbe` is a word too many."),
]
# Sources that are accepted, and remarks on them.
REMARKED = [
    ("l.fsm", LOCK.replace("type state is (", "type state is (lost, ", 1), ["l.fsm: no other state leads to lost", "l.fsm: no branch lists the state lost"]),
    ("c.vbe", COUNTER.replace("en  : in bit;", "en, spare : in bit;", 1), ["c.vbe: nothing reads the input spare"]),
]
INVERTERS = [
    ("a.vbe", "q <= a and b;"),
    ("b.vbe", "q <= a and not (b);"),
]


def explain(folder, *words, given="", program=None):
    how = {**os.environ, "ALLIANCE": str(program)} if program else dict(os.environ)
    done = subprocess.run([sys.executable, SHARE / "explain", *map(str, words)], input=given, text=True, capture_output=True, timeout=SECONDS, cwd=folder, env=how, check=False)
    return done.returncode, done.stdout, done.stderr


def form_of(refusal):
    return refusal.kind, refusal.words.get("fault"), refusal.words.get("limit")


def cases_by_form():
    """A case for each form of a refusal that some case has."""
    found = {}
    for path in sorted(ROWS.glob("*/*.txt")):
        case = Case(path)
        first = refusals.first(case.printed.decode(errors="replace")) if case.status else None
        if first:
            found.setdefault(form_of(first[1]), case)
    return found


def check_forms(results):
    """Each form that a case has is explained over the case's own files, and no line of a refusal is passed over."""
    for form, case in cases_by_form().items():
        with Room() as room:
            room.write(case.before)
            status, out, err = explain(room.folder, given=case.printed.decode(errors="replace"))
        is_well = status == 0 and not err and out.startswith(case.printed.decode(errors="replace")) and PAGE in out
        results.note(f"explain {form}", is_well, out[-500:] + err)
    for path in sorted(ROWS.glob("*/*.txt")):
        case = Case(path)
        if case.status and case.printed.endswith(b"\n") and case.status != 7:
            results.note(f"the form of {case.title}", refusals.first(case.printed.decode(errors="replace")) is not None, case.printed[:200].decode(errors="replace"))


def check_lists(results):
    """Each fault and limit that the page of limits lists has its text, and each heading that is named is one of REFUSALS."""
    page = (TOP / "docs/formats/limits.md").read_text()
    faults = re.search(r"Each fault is printed by these words.*?: (.*?)\.", page)[1].split(", ")
    results.note("a text for each fault", set(faults) == set(refusal_texts.FAULTS), str(set(faults) ^ set(refusal_texts.FAULTS)))
    limits = re.search(r"Limits are printed as (.*?), and what was reached", page)[1].split(", ")
    results.note("a text for each limit", set(limits) == set(refusal_texts.LIMITS), str(set(limits) ^ set(refusal_texts.LIMITS)))
    headings = set(re.findall(r"^## (.*)$", (TOP / "docs/REFUSALS.md").read_text(), re.M))
    named = {text.page for text in [*refusal_texts.FAULTS.values(), *refusal_texts.KINDS.values()]}
    results.note("headings of REFUSALS", named <= headings, str(named - headings))


def check_marks(results):
    for name, text, printed, wanted in MARKED:
        with Room() as room:
            room.write({name: text.encode()})
            status, out, err = explain(room.folder, given=printed + "\n")
        missing = [line for line in wanted if line not in out]
        results.note(f"explain {printed}", status == 0 and not err and not missing, f"{missing} {out} {err}")


def check_words(results, program):
    for words, wanted in SPELLED:
        with Room() as room:
            status, out, err = explain(room.folder, *words.split(), program=program)
        results.note(f"explain {words}", status == 1 and not err and wanted in " ".join(out.split()), out + err)


def check_comparisons(results, program):
    """The vector, the pattern and the pin on which a comparison says no."""
    source = "entity {0} is\nport (a, b : in bit; q : out bit);\nend {0};\narchitecture x of {0} is\nbegin\n  {1}\nend x;\n"
    with Room() as room:
        room.write({name: source.format(name[0], body).encode() for name, body in INVERTERS})
        status, out, err = explain(room.folder, "proof", "a.vbe", "-b", "b.vbe", program=program)
        results.note("explain two functions", status == 11 and not err and "With a 1, b 0, q is 0 by a.vbe and 1 by b.vbe." in out, out + err)
        room.write({"c.pat": PATTERNS.replace("?0;", "?f;", 1).encode(), "c.vbe": COUNTER.encode()})
        status, out, err = explain(room.folder, "asimut", "c.vbe", "-p", "c.pat", program=program)
        results.note("explain a pattern", status == 11 and not err and "c.pat, line 8, expects 1 of q(3), and it is 0." in out, out + err)
        explain(room.folder, "boog", "c.vbe", "-l", CELLS, "-o", "n", program=program)
        text = (room.folder / "n.vst").read_text()
        swapped = re.sub(r"q\(0\) => q\(1\)|q <= q0", "", text).replace("q(0)", "q(9)").replace("q(1)", "q(0)").replace("q(9)", "q(1)")
        room.write({"m.vst": swapped.encode()})
        status, out, err = explain(room.folder, "lvx", "n.vst", "-b", "m.vst", "-l", CELLS, program=program)
        results.note("explain two netlists", status == 11 and not err and "The net of q(0) also has" in out, out[-600:] + err)


def check_cells(results):
    """The first cell that fails a check of those that all tools ask is the one that a case has refused, by the same check."""
    for path in sorted(ROWS.glob("*/*.txt")):
        case = Case(path)
        first = refusals.first(case.printed.decode(errors="replace")) if case.status == 3 else None
        if not first or first[1].kind != "library cell":
            continue
        with Room() as room:
            room.write(case.before)
            folder = next(word for word, before in zip(case.words[0][1:], case.words[0]) if before == "-l")
            done = subprocess.run([sys.executable, SHARE / "cellcheck", folder], text=True, capture_output=True, timeout=SECONDS, cwd=room.folder, check=False)
        words = first[1].words
        said = [line for line in done.stdout.splitlines() if words["cause"] == "10" or ": check 10:" not in line and ": check" in line]
        is_well = bool(said) and said[0].startswith(f"{words['cell']}: check {words['cause']}: ") and not done.stderr
        results.note(f"cellcheck of {case.title}", is_well, done.stdout[:500] + done.stderr)


def check_remarks(results):
    for name, text, wanted in REMARKED:
        with Room() as room:
            room.write({name: text.encode()})
            status, out, err = explain(room.folder, "--lint", name)
        results.note(f"explain --lint {name}", status == 0 and not err and all(line in out for line in wanted), out + err)
    for path in sorted(TOP.glob("examples/*/*.fsm")):
        _, out, err = explain(TOP, "--lint", path)
        results.note(f"explain --lint {path.name}", not out and not err, out + err)


def jobs(program):
    yield check_forms, ()
    yield check_remarks, ()
    yield check_cells, ()
    yield check_lists, ()
    yield check_marks, ()
    yield check_words, (program,)
    yield check_comparisons, (program,)
