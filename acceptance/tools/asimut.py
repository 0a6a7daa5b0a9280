"""What no case of `asimut` has: texts that are cut and changed at every byte, long chains of signals, random machines with
right and wrong patterns, random rings, and machines that Icarus Verilog runs too. The second readers say what is wanted.
"""

import itertools
import random
import subprocess
import sys

from acceptance.makers.random_sources import PATTERN_WORDS, WORDS, Maker, changed, flipped
from acceptance.meaning import verilog
from acceptance.readers.words import TOOLS_LINE, command, held, trouble
from acceptance.running.case_file import Case
from acceptance.running.places import BENCH, CELLS, EXAMPLES, ROWS
from acceptance.running.results import Room, compare, run_in, shown
from acceptance.tools import netlists
from acceptance.tools.answers import agrees
from acceptance.tools.sources import answer
from share.formats.pat_oracle import machine_of
from share.formats.vbe_oracle import FILE, Ring, machine

ROW = ROWS / "asimut-runs/the-inverter.txt"
TEXT_WORDS = ["asimut", "row1.vbe", "-p", "t.pat"]
USAGE = "usage: alliance asimut SOURCE.vbe|.vst -p PATTERNS.pat [-l DIR]\n"
MACHINES, RINGS, CHANGES, IN_VERILOG = 200, 60, 600, 40
CHUNK = 100


def second(words, files):
    """What the second readers say of a command over files: (status, text), or (2, Ring) where any of some rings may be named."""
    source, given = command(words, (".vbe", ".vst"), {"-p": ".pat", "-l": ""}) or ("", {})
    if "-p" not in given or ("-l" in given) != source.endswith(".vst"):
        return 1, USAGE
    patterns = given["-p"]
    if "-l" in given:
        return netlists.answer(source, patterns, given["-l"], files)
    for name in (source, patterns):
        refused = trouble(files, name, FILE)
        if refused:
            return refused[0], f"asimut: {refused[1]}\n"
    return answer(source, held(files, source), patterns, held(files, patterns))


def expect(results, room, program, title, source, patterns):
    """Runs the patterns on the source; the second readers' answer."""
    wanted = answer("row1.vbe", source, "t.pat", patterns)
    files = {"row1.vbe": source, "t.pat": patterns}
    for name, text in files.items():
        (room.folder / name).write_bytes(text)
    got = room.run(program, TEXT_WORDS)
    is_well = agrees(got, wanted) and room.held() == files
    results.note(title, is_well, f"came to {shown(*got)}, wanted {wanted} for {source[:2000]!r} and {patterns[:2000]!r}")
    return wanted


# ---- texts that are cut or changed


def cut_texts():
    """Both files of the inverter cut at every byte, and each byte of them changed."""
    case = Case(ROW)
    source, patterns = case.before["row1.vbe"], case.before["t.pat"]
    texts = [(source[:at], patterns) for at in range(len(source) + 1)]
    texts += [(source, patterns[:at]) for at in range(len(patterns) + 1)]
    for at in range(len(source)):
        texts += [(source[:at] + byte + source[at + 1 :], patterns) for byte in (b"(", b"i", b"\xff", b"")]
    for at in range(len(patterns)):
        texts += [(source, patterns[:at] + byte + patterns[at + 1 :]) for byte in (b"?", b"1", b";", b"\x00", b"")]
    return list(dict.fromkeys(texts))


def check_cut(results, program, texts):
    with Room() as room:
        for source, patterns in texts:
            status, printed = expect(results, room, program, "a text that is cut or changed", source, patterns)
            if status == 2 and not isinstance(printed, Ring):
                _, file, line, _ = printed.split(":", 3)
                text = source if file == " row1.vbe" else patterns
                results.note("the line of a refusal", 1 <= int(line) <= max(len(text.splitlines()), 1), printed)
            results.note("the status of a cut text", status in (0, 2, 11), printed)


# ---- random texts


def made(seed, number):
    """A random machine and patterns for it, in which each output is open."""
    choose = random.Random(f"{seed} {number}")
    maker = Maker(choose)
    source = maker.source().encode()
    return choose, source, maker.pattern_file(choose.randrange(1, 25)).encode()


def check_machines(results, program, seed, numbers):
    """Each with its outputs open, then with the outputs that come, then with one bit of them wrong."""
    with Room() as room:
        for number in numbers:
            choose, source, patterns = made(seed, number)
            status, printed = expect(results, room, program, "a random machine", source, patterns)
            results.note("a random machine is one", status == 0, printed)
            expect(results, room, program, "the patterns with what came", source, printed.encode())
            wrong = flipped(choose, printed)
            if wrong:
                expect(results, room, program, "one wrong bit", source, wrong.encode())


def check_rings(results, program, seed, numbers):
    with Room() as room:
        for number in numbers:
            maker = Maker(random.Random(f"{seed} ring {number}"))
            expect(results, room, program, "signals in rings", maker.source(is_ordered=False).encode(), b"begin < 0 ns> : ; end;")


def check_changes(results, program, seed, numbers):
    """A source, and in every second run patterns, in which some tokens are exchanged."""
    examples = [(path.read_bytes(), path.with_suffix(".pat").read_bytes()) for path in example_sources()]
    with Room() as room:
        for number in numbers:
            choose = random.Random(f"{seed} change {number}")
            source, patterns = choose.choice(examples) if choose.random() < 0.4 else made(seed, choose.randrange(MACHINES))[1:]
            text = changed(choose, source.decode(), WORDS).encode()
            expect(results, room, program, "a changed source", text, b"begin end;")
            if number % 2 == 0:
                text = changed(choose, patterns.decode(), PATTERN_WORDS).encode()
                expect(results, room, program, "changed patterns", source, text)


# ---- what stands by itself


def example_sources():
    return [path for path in sorted(EXAMPLES.glob("*/*.vbe")) if path.with_suffix(".pat").exists()]


def check_examples(results, program):
    """Each example prints its own patterns, with every output filled in."""
    for path in example_sources():
        files = {path.name: path.read_bytes(), path.with_suffix(".pat").name: path.with_suffix(".pat").read_bytes()}
        words = ["asimut", path.name, "-p", path.with_suffix(".pat").name]
        status, printed = answer(words[1], files[words[1]], words[3], files[words[3]])
        results.note(f"the example {path.name} in the second reader", status == 0, printed)
        compare(results, f"the example {path.name}", run_in(files, program, words), 0, printed.encode(), files)


def all_inputs(source):
    """Patterns in which the inputs of a cell take all their values, the clock last and so the fastest."""
    m = machine(source)
    inputs = sorted((name for (name, _), way in m.ports.items() if way == "in"), key=lambda name: (name == m.clock, name))
    outputs = [name for (name, _), way in m.ports.items() if way == "out"]
    columns = [f"in {name};\n" for name in inputs] + [f"out {name};\n" for name in outputs]
    rows = [f"< {k} ns> : {' '.join([*bits, *('?*' for _ in outputs)])};\n" for k, bits in enumerate(itertools.product("01", repeat=len(inputs)))]
    return "".join([*columns, "begin\n", *rows, "end;\n"]).encode()


def check_cells(results, program):
    """The behaviour of each cell of the row library."""
    with Room() as room:
        for path in sorted(CELLS.glob("*.vbe")):
            source = path.read_bytes()
            status, printed = expect(results, room, program, f"the cell {path.name}", source, all_inputs(source))
            results.note(f"the cell {path.name} in the second reader", status == 0, printed)


def check_words(results, program):
    case = Case(ROW)
    words = [b"asimut", b"\xff.vbe", b"-p", b"t.pat"]
    compare(results, "a word of asimut that is no text", run_in(case.before, program, words), 1, TOOLS_LINE.encode(), case.before)
    with Room() as room:
        room.write(case.before)
        got = room.run(program, ["asimut", f"{room.folder}/row1.vbe", "-p", f"{room.folder}/t.pat"])
        compare(results, "asimut with paths from the root", (*got, room.held()), 0, case.printed, case.before)


def check_chain(results, program, count):
    """A chain of signals, each of which reads the next, and the same as a ring."""
    names = [f"s{k}" for k in range(count)]
    head = f"entity e is port (i : in bit; q : out bit); end e;\narchitecture x of e is\nsignal {', '.join(names)} : bit;\nbegin\n"
    links = "".join(f"{a} <= not {b};\n" for a, b in zip(names, names[1:]))
    with Room() as room:
        for last in ("i", names[0]):
            source = f"{head}q <= s0;\n{links}{names[-1]} <= {last};\nend x;\n".encode()
            expect(results, room, program, f"{count} signals in a chain", source, b"in i; out q; begin < 0 ns> : 1 ?*; < 1 ns> : 0 ?*; end;")


def check_verilog(results, program, seed):
    """A circuit of 400 gates: the second readers say the same, and so does Icarus Verilog where it is installed."""
    with Room() as room:
        subprocess.run([sys.executable, BENCH / "asimut_inputs.py", "400", "60", room.folder, str(seed)], check=True)
        source, patterns = (room.folder / "c.vbe").read_bytes(), (room.folder / "p.pat").read_bytes()
        status, printed = room.run(program, ["asimut", "c.vbe", "-p", "p.pat"])
        results.note("a circuit of gates", agrees((status, printed), answer("c.vbe", source, "p.pat", patterns)), shown(status, printed))
        if not verilog.is_installed():
            results.skip("there is no iverilog")
            return
        subprocess.run(["iverilog", "-o", "c.vvp", "-s", "bench", "c.v"], cwd=room.folder, check=True)
        seen = subprocess.run(["vvp", "-n", "c.vvp"], cwd=room.folder, check=True, stdout=subprocess.PIPE).stdout.decode().split()
        outputs = [line[line.index("?") + 1 : -1] for line in printed.decode().split("\n") if "?" in line]
        results.note("the circuit in Icarus Verilog", seen == outputs, f"{seen[:9]} and {outputs[:9]}")


def check_machines_in_verilog(results, program, seed, numbers):
    """Random machines: Icarus Verilog, where it is installed, shows what the program prints."""
    if not verilog.is_installed():
        results.skip("there is no iverilog")
        return
    with Room() as room:
        for number in numbers:
            _, source, patterns = made(seed, number)
            room.write({"row1.vbe": source, "t.pat": patterns})
            status, printed = room.run(program, TEXT_WORDS)
            results.note("a random machine", status == 0, shown(status, printed))
            if status == 0:
                verilog.note(results, room, "a random machine", printed, machine_of(source))


def chunks(items):
    return [items[at : at + CHUNK] for at in range(0, len(items), CHUNK)]


def jobs(program, seed, times):
    yield check_chain, (program, 8000)
    for numbers in chunks(range(MACHINES * times)):
        yield check_machines, (program, seed, numbers)
    for numbers in chunks(range(RINGS * times)):
        yield check_rings, (program, seed, numbers)
    for numbers in chunks(range(CHANGES * times)):
        yield check_changes, (program, seed, numbers)
    for texts in chunks(cut_texts()):
        yield check_cut, (program, texts)
    for check in (check_examples, check_cells, check_words):
        yield check, (program,)
    yield check_verilog, (program, seed)
    yield check_machines_in_verilog, (program, seed, range(IN_VERILOG * times))
