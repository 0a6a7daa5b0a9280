"""The programs of share/ over what the built program writes: waves, netlist, paths, registers, vhdl, draw and stats of a layout."""

import ast
import re
import shutil
import subprocess

from acceptance.meaning import verilog
from acceptance.running.places import CELLS, EXAMPLES, SHARE, TOP
from acceptance.running.results import Room
from acceptance.shared.pictures import ran
from share.formats.pat_oracle import UNITS, PatternReader, bits_of

SECONDS = 600
SOURCES = ["counter/cnt4", "adder/add4", "alu/alu8", "lock/lock"]
OLDEST = (3, 9)  # the Python that docs/share/README.md asks for
WITH_REGISTERS = ["counter/cnt4.vbe", "lock/lock.vbe", "lock/lock.fsm"]


def tool(room, program, *words):
    """The printed text of a run that has to end well."""
    done = subprocess.run([program, *map(str, words)], cwd=room.folder, stdin=subprocess.DEVNULL, capture_output=True, timeout=SECONDS, check=False)
    if done.returncode:
        raise AssertionError(f"{words}: status {done.returncode}, {done.stdout[:500]!r}")
    return done.stdout


# ---- waves


def waves_of(text):
    """The value of each variable at each time of a VCD, by its name."""
    names, held, at, found = {}, {}, None, {}
    for line in text.splitlines():
        declared = re.match(r"\$var wire \d+ (\S+) (\w+)", line)
        if declared:
            names.setdefault(declared[1], (declared[2], len(names)))
        elif line.startswith("#"):
            at = int(line[1:])
            found[at] = dict(held)
        elif at is not None and line and line[0] in "01x":
            held[names[line[1:]]] = line[0]
            found[at] = dict(held)
        elif at is not None and line.startswith("b"):
            value, word = line[1:].split(" ")
            held[names[word]] = value
            found[at] = dict(held)
    return found


def check_waves(results, program, name):
    with Room() as room:
        printed = tool(room, program, "asimut", EXAMPLES / f"{name}.vbe", "-p", EXAMPLES / f"{name}.pat")
    columns, items = PatternReader(printed).file()
    status, out, err = ran("waves", "-", given=printed)
    seen, now, wanted = waves_of(out), 0, {}
    step = UNITS[re.search(r"\$timescale 1 (\w+)", out)[1]]
    for item in items:
        now = item.number * UNITS[item.unit] + (now if item.added else 0)
        values = {(c.name, k): "".join(map(str, bits_of(c, digits)[0])) for k, (c, (_, digits)) in enumerate(zip(columns, item.values))}
        wanted[now // step] = values
    wrong = [at for at, values in wanted.items() if seen.get(at) != values]
    results.note(f"the waves of {name}", status == 0 and not wrong, f"{wrong[:3]} {err}")


# ---- simulators


def columns_and_bits(printed):
    columns, items, wanted = verilog.printed_bits(printed)
    return columns, items, wanted


def spelled_value(bits):
    return f"{len(bits)}'b{''.join(map(str, bits))}"


def verilog_bench(name, columns, items, clock):
    """A bench over ports as vectors: the inputs settle before the clock rises, and what is seen is shown then."""
    kinds = {"in": "reg", "out": "wire"}
    spans = {c.name: f"[{c.bounds[0]}:{c.bounds[2]}] " if c.bounds else "" for c in columns}
    lines = [f"{kinds[c.way]} {spans[c.name]}{c.name}{' = 0' if c.way == 'in' else ''};\n" for c in columns]
    lines.append(f"{name} dut ({', '.join(f'.{c.name}({c.name})' for c in columns)});\ninitial begin\n")
    show = f'$display("%b", {{{", ".join(c.name for c in columns if c.way == "out")}}});'
    for item in items:
        values = {c.name: spelled_value(bits_of(c, digits)[0]) for c, (_, digits) in zip(columns, item.values) if c.way == "in"}
        lines += [f"{it} = {value}; " for it, value in values.items() if it != clock]
        rise = f"{clock} = {values[clock]}; " if clock in values else ""
        lines.append(f"#1 {rise}#1 {show}\n")
    return f"module bench;\n{''.join(lines)}$finish;\nend\nendmodule\n"


def check_verilog(results, program, name):
    """Source and netlist as Verilog show in Icarus Verilog what asimut prints."""
    if not verilog.is_installed():
        results.skip("Icarus Verilog isn't installed")
        return
    entity = name.split("/")[1]
    with Room() as room:
        printed = tool(room, program, "asimut", EXAMPLES / f"{name}.vbe", "-p", EXAMPLES / f"{name}.pat")
        tool(room, program, "boog", EXAMPLES / f"{name}.vbe", "-l", CELLS, "-o", "n")
        columns, items, wanted = columns_and_bits(printed)
        clock = next((c.name for c in columns if c.name == "ck"), None)
        for words in ([EXAMPLES / f"{name}.vbe"], [room.folder / "n.vst", CELLS]):
            status, text, err = ran("netlist", *words, "--verilog", "--zero")
            (room.folder / "t.v").write_text(text + verilog_bench(entity, columns, items, clock))
            made = subprocess.run(["iverilog", "-o", "t.vvp", "-s", "bench", "t.v"], cwd=room.folder, capture_output=True, check=False)
            run = subprocess.run(["vvp", "-n", "t.vvp"], cwd=room.folder, capture_output=True, check=False, timeout=SECONDS)
            seen = run.stdout.decode().splitlines()
            told = f"{err} {made.stderr[:500]!r} {seen[:3]} {wanted[:3]}"
            results.note(f"{name} as Verilog, {words[0].suffix}", status == 0 and seen == wanted, told)


def vhdl_bench(name, columns, items, clock):
    """The same bench in VHDL."""
    kinds = {c.name: f"bit_vector ({c.bounds[0]} {'downto' if c.bounds[1] else 'to'} {c.bounds[2]})" if c.bounds else "bit" for c in columns}
    lines = ["entity bench is end;\narchitecture t of bench is\n"]
    lines += [f"signal {it} : {kind};\n" for it, kind in kinds.items()]
    supplies = "".join(f", {supply} => '{value}'" for supply, value in (("vdd", 1), ("vss", 0)))
    lines.append(f"begin\ndut : entity work.{name} port map ({', '.join(f'{it} => {it}' for it in kinds)}{supplies});\nprocess begin\n")
    outputs = [c for c in columns if c.way == "out"]
    show = " & ".join(f"to_string({c.name})" for c in outputs)
    for item in items:
        for c, (_, digits) in zip(columns, item.values):
            if c.way == "in" and c.name != clock:
                lines.append(f"{c.name} <= {told_bits(c, digits)}; ")
        lines.append("wait for 1 ns;\n")
        lines += [f"{c.name} <= {told_bits(c, digits)}; " for c, (_, digits) in zip(columns, item.values) if c.name == clock]
        lines.append(f"wait for 1 ns; report {show};\n")
    return "".join(lines) + "wait;\nend process;\nend;\n"


def told_bits(column, digits):
    text = "".join(map(str, bits_of(column, digits)[0]))
    return f'"{text}"' if column.bounds else f"'{text}'"


def check_ghdl(results, program, name):
    """GHDL shows of a source what asimut prints."""
    if not shutil.which("ghdl"):
        results.skip("GHDL isn't installed")
        return
    with Room() as room:
        printed = tool(room, program, "asimut", EXAMPLES / f"{name}.vbe", "-p", EXAMPLES / f"{name}.pat")
        columns, items, wanted = columns_and_bits(printed)
        status, text, err = ran("vhdl", EXAMPLES / f"{name}.vbe")
        (room.folder / "s.vhd").write_text(text)
        (room.folder / "t.vhd").write_text(vhdl_bench(name.split("/")[1], columns, items, "ck"))
        command = f"ghdl -a --std=08 {SHARE}/registers.vhd s.vhd t.vhd && ghdl -e --std=08 bench && ghdl -r --std=08 bench"
        run = subprocess.run(["bash", "-c", command], cwd=room.folder, capture_output=True, check=False, timeout=SECONDS)
        seen = re.findall(r"\(report note\): ([01]+)", run.stdout.decode() + run.stderr.decode())
        results.note(f"{name} in GHDL", status == 0 and seen == wanted, f"{err} {run.stderr[:800]!r} {seen[:3]} {wanted[:3]}")


# ---- netlists and layouts


def check_graph(results, program):
    """A box for each instance, an arrow for each pin that reads and for each output."""
    with Room() as room:
        tool(room, program, "boog", EXAMPLES / "counter/cnt4.vbe", "-l", CELLS, "-o", "n")
        _, out, err = ran("netlist", room.folder / "n.vst", CELLS)
        text = (room.folder / "n.vst").read_text()
        body = text.split("\nbegin\n")[1]
        instances = set(re.findall(r"^(\w+) : \w+\nport map", body, re.M))
        pins = len(re.findall(r"^  (?!nq |q |vdd |vss )\w+ => ", body, re.M))
        boxes = {name for name in re.findall(r'^  "(\w+)" \[label', out, re.M)}
        results.note("the boxes of a graph", boxes == instances, f"{boxes ^ instances} {err}")
        results.note("the arrows of a graph", out.count(" -> ") == pins + 4, f"{out.count(' -> ')} and {pins} + 4")
        _, out, err = ran("netlist", room.folder / "n.vst", CELLS, "--blif")
        results.note("the instances in BLIF", out.count("\n.subckt ") == len(instances) and out.count(".model ") == 1 + len(kinds_of(body)), err)


def kinds_of(body):
    return set(re.findall(r"^\w+ : (\w+)\nport map", body, re.M))


def check_delays(results, program):
    """The first path takes as long as loon's delay, and what stats counts of a layout is what flow reports."""
    with Room() as room:
        tool(room, program, "boog", EXAMPLES / "alu/alu8.vbe", "-l", CELLS, "-o", "n")
        said = tool(room, program, "loon", "n.vst", "-l", CELLS, "-o", "f", "--fanout", "8").decode()
        delay = re.search(r"delay (\d+)", said)[1]
        _, out, err = ran("paths", room.folder / "f.vst", CELLS, "--count", 3)
        times = [int(time) for time in re.findall(r"^path \d: (\d+)", out, re.M)]
        is_well = out.startswith(f"delay {delay}\n") and times[0] == int(delay) and times == sorted(times, reverse=True) and len(times) == 3
        results.note("the slowest paths of the alu", is_well, out[:500] + err)
        sums = [sum(map(int, re.findall(r"^ +\d+ +(\d+) ", part, re.M))) for part in out.split("path ")[1:]]
        results.note("the sums of their cells", sums == times, f"{sums} {times}")
        report = tool(room, program, "flow", EXAMPLES / "counter/cnt4.vbe", "-l", CELLS, "-o", "c").decode()
        _, out, err = ran("stats", room.folder / "c.ap", CELLS)
        results.note("the cells that stats counts", re.search(r"^cells \d+", report, re.M)[0] in out.splitlines(), out + err)


def check_registers(results, program, name):
    """A layout proved equal to its source; with two registers exchanged in the report it isn't."""
    with Room() as room:
        report = tool(room, program, "flow", EXAMPLES / name, "-l", CELLS, "-o", "l").decode()
        tool(room, program, "cougar", "l.ap", "-l", CELLS, "-o", "n")
        tool(room, program, "flatbeh", "n.vst", "-l", CELLS, "-o", "f")
        source = EXAMPLES / name
        if name.endswith(".fsm"):
            tool(room, program, "syf", EXAMPLES / name, "-o", "s")
            source = room.folder / "s.vbe"
        _, anew, _ = ran("registers", "--always", source)
        (room.folder / "a.vbe").write_text(anew)
        status, out, err = ran("registers", room.folder / "f.vbe", "-", given=report.encode())
        (room.folder / "r.vbe").write_text(out)
        got = room.run(program, ["proof", "a.vbe", "-b", "r.vbe"])
        results.note(f"the layout of {name} and its source", status == 0 and got == (0, b"equal\n"), f"{got} {err}")
        _, other, _ = ran("registers", room.folder / "f.vbe", "--source", source)
        results.note(f"the registers of {name} by its source", other == out, other[:300])
        if "register q0" in report:
            swapped = report.replace("register q0 ", "register q9 ").replace("register q1 ", "register q0 ").replace("register q9 ", "register q1 ")
            _, out, err = ran("registers", room.folder / "f.vbe", "-", given=swapped.encode())
            (room.folder / "r.vbe").write_text(out)
            status, printed = room.run(program, ["proof", "a.vbe", "-b", "r.vbe"])
            results.note(f"the layout of {name} with two registers exchanged", status == 11 and printed.startswith(b"differs "), f"{status} {printed} {err}")


# ---- the language


def check_language(results):
    """What users run is in the Python that the page asks for: no newer syntax, and no `X | None` as a type, which older ones can't compute."""
    paths = [path for folder in (SHARE, TOP / "install") for path in sorted(folder.rglob("*")) if path.suffix in ("", ".py") and path.is_file()]
    for path in paths:
        text = path.read_text()
        if path.suffix or text.startswith("#!/usr/bin/env python3"):
            tree = ast.parse(text, str(path), feature_version=OLDEST)
            types = [node.annotation for node in ast.walk(tree) if isinstance(node, (ast.AnnAssign, ast.arg)) and node.annotation]
            newer = [kind.lineno for kind in types if any(isinstance(part, ast.BinOp) for part in ast.walk(kind))]
            results.note(f"{path.relative_to(TOP)} in Python {OLDEST[0]}.{OLDEST[1]}", not newer, f"lines {newer}")


def jobs(program):
    yield check_language, ()
    yield from ((check_registers, (program, name)) for name in WITH_REGISTERS)
    yield check_delays, (program,)
    yield check_graph, (program,)
    for name in SOURCES:
        yield from ((check, (program, name)) for check in (check_waves, check_verilog, check_ghdl))
