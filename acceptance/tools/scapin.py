"""What the second readers say of `scapin`, and what no case of it has: random netlists over random libraries with paths that are right, or
wrong in one way, texts of paths with any bytes, and what `boog` and `loon` write, which is then placed and routed. The netlist that is
written has the text that docs/formats/scan.md gives it, and is read again and run beside the given one: with test at 0 it does the same,
with test at 1 its registers shift.
"""

import random
import re

from acceptance.makers.net_maker import NetMaker, one_change
from acceptance.makers.random_sources import Maker
from acceptance.meaning.scanned import (
    SMALL_FILE,
    TEST,
    NoCover,
    Taken,
    differing,
    fault_of,
    gate_numbers,
    path_of,
    registers,
    scanned,
    shown_by,
    texts_of,
)
from acceptance.readers.words import TOOLS_LINE, command, held, trouble
from acceptance.running.places import CELLS, EXAMPLES
from acceptance.running.results import Room, compare, run_in, shown
from acceptance.tools import nero
from acceptance.tools.answers import agrees, refusal
from acceptance.tools.boog import FIVE, of_cells
from acceptance.tools.loon import library_with_drives, usable
from acceptance.tools.ocp import placing_words, run_placed
from share.formats.models import Refusal, library
from share.formats.vbe_oracle import PORTS, Ring
from share.formats.vhdl_reader import Refused
from share.formats.vst import FILE, netlist
from share.formats.vst_writer import laid_out

USAGE = "usage: alliance scapin SOURCE.vst -p PATH.path -l DIR -o NAME\n"
WORDS = ["scapin", "r.vst", "-p", "t.path", "-l", "lib", "-o", "w"]
NEEDED = ["inv_x1", "na2_x1", "sff1_x4"]
NETLISTS, TEXTS, SOURCES, CHUNK, PATHS = 150, 400, 24, 15, 4


# ---- the second answer


def parsed(words):
    """SOURCE, PATH, DIR and NAME, or None."""
    found = command(words, ".vst", {"-p": ".path", "-l": "", "-o": ""})
    return (found[0], found[1]["-p"], found[1]["-l"], found[1]["-o"]) if found and len(found[1]) == 3 else None


def of_path(n, models, files, source, path):
    """The status and what is printed of a netlist of usable cells, along the path in a file."""
    try:
        found = path_of(held(files, path))
    except Refused as refused:
        return refusal("scapin", path, str(refused))
    why = fault_of(n, models, found)
    if isinstance(why, Taken):
        return 2, f"scapin: {source}:1: twice {why.name}\n"
    if isinstance(why, NoCover):
        return 4, f"scapin: no cover: {why.kind}\n"
    if why is not None:
        return refusal("scapin", path, str(why))
    return 0, f"cells {len(n.instances) + len(gate_numbers(len(found.names)))}\n"


def second(words, files):
    """What the second readers say of a command over files: (status, text), or (2, Ring) where any of some rings may be named."""
    found = parsed(words)
    if found is None:
        return 1, USAGE
    source, path, folder, _ = found
    refused = trouble(files, source, FILE) or trouble(files, path, SMALL_FILE)
    if refused:
        return refused[0], f"scapin: {refused[1]}\n"
    try:
        models = library(files, folder)
        n = netlist(held(files, source), usable(models))
    except Refusal as refused:
        return refused.status, f"scapin: {refused.line}\n"
    except Ring as ring:
        return 2, ring
    except Refused as refused:
        return refusal("scapin", source, str(refused))
    return of_path(n, models, files, source, path)


# ---- the netlist that is written


def other_line(text, wanted):
    """The first line in which two texts differ."""
    pairs = zip([*text.split(b"\n"), None], [*wanted.split(b"\n"), None])
    return next(f"line {k} is {one}, and not {other}" for k, (one, other) in enumerate(pairs, 1) if one != other)


def written_faults(words, files, text):
    """What is wrong with the netlist that a command wrote, or nothing."""
    source, path, folder, _ = parsed(words)
    models = library(files, folder)
    n, names = netlist(held(files, source), usable(models)), path_of(held(files, path)).names
    texts = list(texts_of(n, models, names))
    if text not in texts:
        return [other_line(text, texts[0])]
    if len(n.ports) + 3 > PORTS:
        return []  # no tool reads it again
    wrong = differing(n, netlist(text, usable(models)), names, random.Random(len(text)))
    return [wrong] if wrong else []


def writes(words, files):
    """The file that a command writes, with the check of its text."""
    return f"{parsed(words)[3]}.vst", lambda text: written_faults(words, files, text)


# ---- what is run


def run_scanned(results, room, program, title, files):
    """Runs scapin on r.vst and t.path, and where it succeeds reads what it wrote: the text, or None. The library stands in the room."""
    wanted = second(WORDS, files)
    room.write({name: files[name] for name in ("r.vst", "t.path")})
    (room.folder / "w.vst").unlink(missing_ok=True)
    got = room.run(program, WORDS)
    told_files = f"{files['t.path'][:500]!r} and {files['r.vst'][:4000]!r}"
    results.note(title, agrees(got, wanted), f"came to {shown(*got)}, wanted {wanted} for {told_files}")
    is_there = (room.folder / "w.vst").exists()
    if got[0] or wanted[0]:
        results.note(f"{title}: the file behind a refusal", not is_there, "it is there")
        return None
    text = (room.folder / "w.vst").read_bytes() if is_there else b""
    faults = written_faults(WORDS, files, text)
    results.note(f"{title}: the netlist", not faults, f"{faults} in {text[:3000]!r} for {told_files}")
    return None if faults else text


def library_to_scan(choose):
    """Cells in several drives, mostly with a flip-flop, an inverter and a nand among them, in any order."""
    files = library_with_drives(choose)
    lines = files["lib/CATAL"].decode().splitlines()
    needed = choose.choice([NEEDED, NEEDED, NEEDED, NEEDED, NEEDED[:1] + NEEDED[2:], NEEDED[1:], NEEDED[:2]])
    more = [name for name in [*needed, *choose.choice([[], ["sff1_x8"], ["inv_x2"]])] if f"{name} C" not in lines]
    lines += [f"{name} C" for name in more]
    choose.shuffle(lines)
    return {**of_cells(more), **files, "lib/CATAL": "".join(f"{line}\n" for line in lines).encode()}


def spelled_path(choose, names):
    """These names on lines of their own, in any case, with blank lines and carriage returns."""
    text = ""
    for name in names:
        text += choose.choice(["", "", "", "\n", " \t\n", "\r\n"])
        text += name if choose.random() < 0.7 else "".join(choose.choice([c, c.upper()]) for c in name)
        text += choose.choice(["\n", "\n", "\r\n"])
    return (text.rstrip("\r\n") if choose.random() < 0.2 else text + choose.choice(["", "", "\n", "  "])).encode()


def random_path(choose, names):
    """The registers in any order; now and then one of them left out, twice or exchanged for a name that is none, or a line that is none."""
    names = choose.sample(names, len(names))
    way = choose.choice(["right"] * 5 + ["left", "twice", "none", "line", "long"])
    if way == "left" and names:
        names.pop()
    elif way == "twice" and names:
        names.insert(choose.randrange(len(names) + 1), choose.choice(names))
    elif way in ("none", "line", "long"):
        others = {"none": ["nosuch", "u0", "i1", "vdd", "test"], "line": ["1", "_a", "q0 q1", " q0", "q0,", "q(0)", "é"], "long": ["q" * 64, "q" * 65]}
        names.insert(choose.randrange(len(names) + 1), choose.choice(others[way]))
    return spelled_path(choose, names)


def with_a_name_taken(choose, text):
    """One of its names exchanged for one that is to be added, wherever it stands."""
    name = choose.choice(re.findall(r"\b(?:[uqios]\d+|ck)\b", text) or ["made"])
    return re.sub(rf"\b{name}\b", choose.choice(["scin", "test", "scout", "s0", "s1", "s2", "s3", "s9"]), text)


def check_netlists(results, program, seed, numbers):
    """With some paths each, with a name that is taken and with one token changed."""
    for number in numbers:
        choose = random.Random(f"{seed} scapin {number}")
        files = library_to_scan(choose)
        models = library(files, "lib")
        cells = usable(models) if choose.random() < 0.9 else models
        text = NetMaker(choose, cells).text() if cells else ""
        try:
            names = [i.name for i in registers(netlist(text.encode(), usable(models)))]
        except Refused:
            names = ["q0"]
        with Room() as room:
            room.write(files)
            changed = one_change(choose, text) if text else ""
            for title, other, times in (("random", text, PATHS), ("taken", with_a_name_taken(choose, text), 1), ("changed", changed, 1)):
                for _ in range(times):
                    of_job = {**files, "r.vst": other.encode(), "t.path": random_path(choose, names)}
                    run_scanned(results, room, program, f"a netlist to scan, {title}", of_job)


# ---- texts of paths


def shift_netlist(names):
    """Flip-flops that each load the next one's inverse, and the last an input."""
    head = "entity s is port (ck, d : in bit; y : out bit; vdd, vss : in bit); end s;\narchitecture x of s is\n"
    head += "component inv_x1 port (i : in bit; nq : out bit; vdd, vss : in bit); end component;\n"
    head += "component sff1_x4 port (ck, i : in bit; q : out bit; vdd, vss : in bit); end component;\n"
    head += "".join(f"signal a{k}, b{k} : bit;\n" for k in range(len(names))) + "begin\n"
    lines = []
    for k, name in enumerate(names):
        loads = f"b{k + 1}" if k + 1 < len(names) else "d"
        lines.append(f"{name} : sff1_x4 port map (ck => ck, i => {loads}, q => a{k}, vdd => vdd, vss => vss);\n")
        lines.append(f"g{k} : inv_x1 port map (i => a{k}, nq => b{k}, vdd => vdd, vss => vss);\n")
    last = "b0" if names else "d"
    lines.append(f"last : inv_x1 port map (i => {last}, nq => y, vdd => vdd, vss => vss);\n")
    return f"{head}{''.join(lines)}end x;\n".encode()


LINES = [b"", b" ", b"\t", b"\r", b"q0", b"q0\r", b"q1\r\r", b"q", b"1", b"q0 ", b" q1", b"-- q0", b"end", b"q_2", b"q0\xff", b"s0", b"\x00"]


def path_texts(choose, number):
    """Three names with one byte put in, and lines of all sorts."""
    byte, at = bytes([number % 256]), choose.randrange(10)
    right = b"q0\nq1\nq2\n"
    yield right[:at] + byte + right[at:]
    lines = choose.sample([b"q0", b"q1", b"Q2"], choose.choice([3, 3, 3, 2]))
    for _ in range(choose.choice([0, 1, 1, 2, 3])):
        lines.insert(choose.randrange(len(lines) + 1), choose.choice(LINES[: choose.choice([4, len(LINES)])]))
    yield b"\n".join(lines) + choose.choice([b"", b"\n", b"\r\n"])


def check_texts(results, program, seed, numbers):
    files = {**of_cells(NEEDED), "r.vst": shift_netlist(["q0", "q1", "q2"])}
    with Room() as room:
        room.write(files)
        for number in numbers:
            choose = random.Random(f"{seed} scapin text {number}")
            for text in path_texts(choose, number):
                run_scanned(results, room, program, "a text of a path", {**files, "t.path": text})


def check_long(results, program):
    """Names of as many bytes as they may have, and files of as many bytes; and one more."""
    files = {**of_cells(NEEDED), "r.vst": shift_netlist(["q" * 64])}
    with Room() as room:
        room.write(files)
        for many in (64, 65, 1000):
            for end in (b"", b"\n", b"\r\n"):
                run_scanned(results, room, program, f"a name of {many} bytes", {**files, "t.path": b"q" * many + end})
        for more in (0, 1):
            text = b"\n" * (SMALL_FILE - 65 + more) + b"q" * 64 + b"\n"
            run_scanned(results, room, program, f"a path of {len(text)} bytes", {**files, "t.path": text})


def check_many(results, program, seed, many):
    """So many registers, in the order of the netlist, the other way round and in any order."""
    names = [f"q{k}" for k in range(many)]
    files = {**of_cells(NEEDED), "r.vst": shift_netlist(names)}
    with Room() as room:
        room.write(files)
        for order in (names, names[::-1], random.Random(seed).sample(names, many)):
            text = "".join(f"{name}\n" for name in order).encode()
            is_well = run_scanned(results, room, program, f"{many} registers", {**files, "t.path": text}) is not None
            results.note(f"{many} registers get a path", is_well, "they get none")


# ---- what other tools write and read


def mapped(results, room, program, source):
    """The netlist r.vst that boog and loon make of s.vbe, and the names of its registers; None where one of them fails."""
    room.write({"s.vbe": source})
    for words in (["boog", "s.vbe", "-l", "lib", "-o", "g"], ["loon", "g.vst", "-l", "lib", "-o", "r", "--fanout", "8"]):
        got = room.run(program, words)
        results.note(f"{words[0]} for a scan path", got[0] == 0, shown(*got))
        if got[0]:
            return None
    return room.held()["r.vst"]


def placed_and_routed(results, room, program, choose, files, text):
    """The netlist with the path, placed by ocp and routed by nero."""
    files = {**{name: held for name, held in files.items() if name.startswith("lib/")}, "r.vst": text}
    placed = run_placed(results, room, program, "a netlist with a scan path to place", files, placing_words(choose))
    if placed is not None:
        nero.run_routed(results, room, program, "a netlist with a scan path to route", {**files, "p.ap": placed}, nero.nero_words(choose))


def check_sources(results, program, seed, numbers):
    """Random sources, mapped and driven, with the registers in any order."""
    for number in numbers:
        choose = random.Random(f"{seed} scapin source {number}")
        files = of_cells([*FIVE, "buf_x2", "inv_x2", "inv_x4", "sff1_x8", "xr2_x1", "a2_x2"])
        with Room() as room:
            room.write(files)
            source = Maker(choose).source().encode()
            files["r.vst"] = mapped(results, room, program, source)
            if files["r.vst"] is None:
                continue
            names = [i.name for i in registers(netlist(files["r.vst"], library(files, "lib")))]
            files["t.path"] = spelled_path(choose, choose.sample(names, len(names)))
            text = run_scanned(results, room, program, "a netlist of a source to scan", files)
            results.note("a netlist of a source gets a scan path", text is not None, f"it gets none for {source[:2000]!r}")
            if text is not None:
                placed_and_routed(results, room, program, choose, files, text)


PATTERNS = "in ck; in en; in test; in scin; out scout; out q (3 downto 0);\nbegin\n{}end;\n"


def shifting(bits):
    """Patterns that shift bits into four registers and out again, with test at 1; each edge of the clock follows a pattern with the clock at 0."""
    lines, held_bits, time = [], [0, 0, 0, 0], 0
    for bit in bits:
        lines.append(f"< {time} ns> : 0 0 1 {bit} ?{held_bits[-1]} ?*;\n")
        held_bits = [bit, *held_bits[:-1]]
        lines.append(f"< {time + 1} ns> : 1 0 1 {bit} ?{held_bits[-1]} ?*;\n")
        time += 2
    return PATTERNS.format("".join(lines)).encode()


def check_counter(results, program, seed):
    """The counter over all cells: shifted through by asimut in each order of its registers, and with test at 0 equal to itself."""
    names = [line.split()[0] for line in (CELLS / "CATAL").read_text().splitlines()]
    files = of_cells(names)
    choose = random.Random(f"{seed} scapin counter")
    with Room() as room:
        room.write(files)
        files["r.vst"] = mapped(results, room, program, next(EXAMPLES.glob("*/cnt4.vbe")).read_bytes())
        if files["r.vst"] is None:
            return
        for _ in range(PATHS):
            files["t.path"] = spelled_path(choose, choose.sample(["q0", "q1", "q2", "q3"], 4))
            text = run_scanned(results, room, program, "the counter to scan", files)
            if text is None:
                continue
            room.write({"t.pat": shifting([choose.getrandbits(1) for _ in range(12)])})
            got = room.run(program, ["asimut", "w.vst", "-p", "t.pat", "-l", "lib"])
            results.note("the counter shifts", got[0] == 0, shown(*got))
            placed_and_routed(results, room, program, choose, files, text)


# ---- the second view itself


def exchanged(made):
    """The inverse of test in the place of test, and the other way round."""
    other = {TEST: shown_by(0), shown_by(0): TEST}
    gates = [i._replace(nets={pin: other.get(net, net) for pin, net in i.nets.items()}) if i.model.kind == "nand2" else i for i in made.instances]
    return made._replace(instances=gates)


def check_second(results, seed):
    """Scan paths that are right, along another path, past a register, or with test and its inverse exchanged; what they do is told apart."""
    models = library(of_cells(NEEDED), "lib")
    cells = models["inv_x1"], models["na2_x1"]
    for many in (2, 3, 5):
        names = [f"q{k}" for k in range(many)]
        n = netlist(shift_netlist(names), models)
        right = scanned(n, names, *cells)
        wrong = {"another path": scanned(n, names[::-1], *cells), "past a register": scanned(n, names[1:], *cells), "test at 0": exchanged(right)}
        for title, made in {"as it is": right, **wrong}.items():
            w = netlist(laid_out(made).encode(), models)
            found = [differing(n, w, names, random.Random(f"{seed} {title} {k}")) for k in range(8)]
            results.note(f"{many} registers, {title}", any(found) == (title in wrong), found)


def check_words(results, program):
    files = {**of_cells(["inv_x1"]), "r.vst": b"", "t.path": b""}
    got = run_in(files, program, [b"scapin", b"\xff.vst", *WORDS[2:]])
    compare(results, "a word of scapin that is no text", got, 1, TOOLS_LINE.encode(), files)


def jobs(program, seed, times):
    yield check_many, (program, seed, 1000)
    for many, check in ((NETLISTS, check_netlists), (SOURCES, check_sources), (TEXTS, check_texts)):
        numbers = range(many * times)
        for at in range(0, len(numbers), CHUNK):
            yield check, (program, seed, numbers[at : at + CHUNK])
    yield check_counter, (program, seed)
    yield check_long, (program,)
    yield check_words, (program,)
    yield check_second, (seed,)
