"""What memory.sh does behind the compiling: memory.py FOLDER PROGRAM [MOST] [WORD..], where FOLDER has refusing.so."""

import os
import pathlib
import struct
import sys

sys.path[0] = str(pathlib.Path(__file__).resolve().parent.parent)
from acceptance.running.case_file import Case  # noqa: E402
from acceptance.running.places import EXAMPLES, ROWS  # noqa: E402
from acceptance.running.results import Room, run_in  # noqa: E402
from acceptance.tools import syf  # noqa: E402
from acceptance.tools.boog import of_cells  # noqa: E402
from acceptance.tools.flow import FIVE  # noqa: E402

MEMORY, EVERY = 8, 1 << 62
PATTERNS = b"in i;\nout nq;\nbegin\n< 0 ns> p : 0 ?1;\n< 10 ns> : 1 ?0;\nend;\n"
NEAR = b"V ALLIANCE : 6\nH d,P,01/01/2000,100\nA 0,0,9000,9000\nS 0,0,9000,0,200,*,RIGHT,ALU2\nS 0,300,9000,300,200,*,RIGHT,ALU2\nEOF\n"
RUNS = [
    ("flow row1.vbe -l lib -o n --tracks", {"n.ap"}, 0),
    ("flow row1.vbe -l lib -o n", {"n.ap"}, 0),
    ("flow lock.fsm -l lib -o n -e o --tracks", {"n.ap"}, 0),
    ("flow row1.vbe -l few -o n --tracks", set(), 4),
    ("flow wide40.vbe -l lib -o n --rows 1 --metals 4", {"n_part.ap"}, 6),
    ("gen --size 8 -l lib -o n --tracks", {"n.vbe", "n.ap"}, 0),
    ("syf s.fsm -o n", {"n.vbe"}, 0),
    ("boom row1.vbe -o n", {"n.vbe"}, 0),
    ("boog row1.vbe -l lib -o n", {"n.vst"}, 0),
    ("loon r.vst -l lib -o n", {"n.vst"}, 0),
    ("ocp r.vst -l lib -o n", {"n.ap"}, 0),
    ("nero r.vst -p p.ap -l lib -o n", {"n.ap"}, 0),
    ("nero r.vst -p t.ap -l lib -o n", set(), 2),
    ("cougar out.ap -l lib -o n", {"n.vst"}, 0),
    ("flatbeh r.vst -l lib -o n", {"n.vbe"}, 0),
    ("s2r out.ap -p t.real -l lib -o n", {"n.cif"}, 0),
    ("fmi lock.fsm -o n", {"n.fsm"}, 0),
    ("rip r.vst -p p.ap -l lib -o n", {"n.ap"}, 0),
    ("rip w.vst -p w.ap -l lib -o n --metals 4 --rips 2", {"n_part.ap"}, 6),
    ("scapin two.vst -p two.path -l lib -o n", {"n.vst"}, 0),
    ("scapin two.vst -p back.path -l lib -o n", set(), 2),
    ("asimut row1.vbe -p t.pat", set(), 0),
    ("asimut r.vst -p t.pat -l lib", set(), 2),
    ("asimut r.vst -p u.pat -l lib", set(), 0),
    ("lvx r.vst -b r.vst -l lib", set(), 0),
    ("lvx r.vst -b o.vst -l lib", set(), 11),
    ("druc out.ap -l lib", set(), 0),
    ("druc d.ap -l lib", set(), 11),
    ("proof row1.vbe -b row1.vbe", set(), 0),
    ("proof row1.vbe -b o.vbe", set(), 11),
    ("area row1.vbe -l lib", set(), 0),
]


def all_files():
    """The files of all runs: those of four worked cases, a library of five cells, and one without a nand."""
    flow, nero = (Case(ROWS / f"{case}.txt") for case in ("flow-layouts/one-inverter", "nero-runs/one-inverter"))
    wide = Case(ROWS / "rip-faults/forty-inverters-on-four-metals.txt")
    few = of_cells([name for name in FIVE if name != "na2_x1"], "few")
    named = {"row1.vbe": flow.before["row1.vbe"], "out.ap": flow.after["out.ap"], "r.vst": nero.before["r.vst"], "p.ap": nero.before["p.ap"]}
    other = {"o.vst": named["r.vst"].replace(b"g0", b"g1"), "o.vbe": named["row1.vbe"].replace(b"not", b"")}
    near = {"d.ap": NEAR, "t.ap": named["p.ap"].replace(b"EOF", b"S 0,0,1000,0,200,*,RIGHT,ALU2\nEOF")}
    two = Case(ROWS / "scapin-runs/two-registers.txt")
    named |= {"two.vst": two.before["one.vst"], "two.path": two.before["one.path"], "back.path": b"q1\nq0\nq1\n"}
    named |= {"w.vst": wide.before["r.vst"], "w.ap": wide.before["p.ap"]}
    made = {"s.fsm": syf.ring(3), "t.pat": PATTERNS, "t.real": b"scale 2\ngrow 10 10 10 10 10 10\n", "u.pat": PATTERNS.replace(b"in i", b"in a").replace(b"out nq", b"out y")}
    sources = {path.name: path.read_bytes() for path in (EXAMPLES / "lock/lock.fsm", EXAMPLES / "stuck/wide40.vbe")}
    return {**of_cells(FIVE), **few, **named, **other, **near, **made, **sources}


class Refusing:
    """Runs a program with calls for memory that are refused."""

    def __init__(self, folder, program):
        self.shared, self.counted, self.program = f"{folder}/refusing.so", f"{folder}/counted", program
        pathlib.Path(self.counted).write_bytes(bytes(8))

    def run(self, words, files, first, last):
        """Status, printed bytes and files, and how many calls there were."""
        env = {"LD_PRELOAD": self.shared, "REFUSED": f"{first} {last}", "COUNTED": self.counted}
        with Room() as room:
            room.write(files)
            got = (*room.run(self.program, words, env={**os.environ, **env}), room.held())
        return got, struct.unpack("q", pathlib.Path(self.counted).read_bytes())[0]


def chosen(calls, most):
    """All numbers, or where they are more than `most` those that memory.sh names."""
    if most == 0 or calls <= most:
        return list(range(1, calls + 1))
    early, late, between = most // 2, most // 4, most // 4
    step = max(1, (calls - early - late) // between)
    return [*range(1, early + 1), *range(early + 1, calls - late, step), *range(calls - late, calls + 1)]


def fault(words, files, products, plain, got):
    """What is wrong with a run in which memory was refused, or None."""
    status, printed, after = got
    if status == MEMORY:
        if printed not in (b"", f"{words[0]}: memory\n".encode()):
            return f"it printed {printed[:80]!r}"
        for name in products:
            if after.get(name) == plain[2].get(name):
                after.pop(name, None)
        return None if after == files else f"files differ: {sorted(set(after) ^ set(files))}"
    if status != plain[0]:
        return f"status {status}, {printed[:80]!r}"
    # a refusal's line may be lost, and a product's text is whole
    is_line_lost = status != 0 and printed == b""
    if printed != plain[1] and not is_line_lost:
        return f"it printed {printed[:80]!r}"
    return None if after == plain[2] else "files differ"


def try_run(refusing, line, products, wanted, files, most):
    """Prints a line for each of both ways to refuse, and the first three faults. How many runs were tried, and how many were wrong."""
    words, tried, wrong = line.split(), 0, 0
    plain = run_in(files, refusing.program, words)
    if plain[0] != wanted or set(plain[2]) - set(files) != products:
        print(f"without a fault {line} comes to status {plain[0]}, {plain[1][:80]!r}")
        return 0, 1
    _, calls = refusing.run(words, files, 0, 0)
    if calls == 0:
        sys.exit("this program doesn't take its memory from the C library: nothing can be refused")
    numbers = chosen(calls, most)
    for how, last_of in (("once", lambda n: n), ("on", lambda n: EVERY)):
        found = []
        refused = 0
        for n in numbers:
            got, _ = refusing.run(words, files, n, last_of(n))
            refused += got[0] == MEMORY
            why = fault(words, files, products, plain, got)
            if why:
                found.append(f"  call {n}: {why}")
        part = "all" if len(numbers) == calls else "some"
        print(f"{calls:8} {part:4} {len(numbers):6} {how:4} {refused:6} {len(numbers) - refused:6} {len(found):5}  {line}", *found[:3], sep="\n", flush=True)
        tried, wrong = tried + len(numbers), wrong + len(found)
    return tried, wrong


def main(words):
    folder, program, *more = words
    most = int(more.pop(0)) if more and more[0].isdigit() else 2000
    refusing, files = Refusing(folder, program), all_files()
    print(f"{'calls':>8} {'':4} {'tried':>6} {'':4} {'8':>6} {'else':>6} {'wrong':>5}  words")
    tried = wrong = 0
    for line, products, wanted in RUNS:
        if not more or line.split()[0] in more:
            one, bad = try_run(refusing, line, products, wanted, files, most)
            tried, wrong = tried + one, wrong + bad
    print(f"{tried} calls were refused, {wrong} runs were wrong")
    return 1 if wrong else 0


if __name__ == "__main__":
    sys.exit(main(sys.argv[1:]))
