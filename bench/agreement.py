#!/usr/bin/env python3
"""Gives the pairs of netlists and of sources that the acceptance makes to `alliance lvx` and `alliance proof`, and to other programs where they
are installed, and prints a table: for each kind of change how often both say yes, both no, and one of them alone yes.

Usage: bench/agreement.py PROGRAM [PAIRS [SEED]]      (PAIRS of each kind, 10 at first)

netgen (`netgen-lvs`) compares netlists up to names of instances: where instances were renamed, or a netlist is one up to names, it alone says
yes. It is given SPICE, with the cells as black boxes. abc (`berkeley-abc`, cec) and yosys (equiv_make, equiv_simple) compare sources root by
root: registers are given to them as inputs, and what registers load and when as outputs. Each pair on which a program that looks at functions
says something else than proof is printed, and then the status is 1; one that takes more than a minute on a pair isn't asked about it.
"""
import pathlib
import random
import re
import shutil
import subprocess
import sys
from collections import Counter

HERE = pathlib.Path(__file__).resolve().parent
sys.path.append(str(HERE.parent))
from acceptance.makers import net_changes, source_changes  # noqa: E402
from acceptance.makers.net_maker import NetMaker  # noqa: E402
from acceptance.meaning import verilog  # noqa: E402
from acceptance.running.results import Room  # noqa: E402
from acceptance.tools import proof  # noqa: E402
from acceptance.tools.boog import of_cells  # noqa: E402
from share.formats.blif import Writer  # noqa: E402
from share.formats.models import IN, OUT, library  # noqa: E402
from share.formats.pat_oracle import machine_of  # noqa: E402
from share.formats.vbe_oracle import Machine, Ring  # noqa: E402
from share.formats.vhdl_reader import Refused, spelled  # noqa: E402
from share.formats.vst import netlist  # noqa: E402
from share.formats.vst_writer import laid_out  # noqa: E402

SECONDS = 60
CELLS = ["inv_x1", "inv_x2", "na2_x1", "no2_x1", "xr2_x1", "sff1_x4", "sff1_x8"]


def run(room, words):
    return subprocess.run(words, cwd=room.folder, capture_output=True, timeout=SECONDS, check=False, text=True)


# ---- netlists


def spice_name(bit):
    return re.sub(r"\W+", "_", spelled(bit)).strip("_") if bit[0] else f"n_{abs(hash(bit))}"


def spice(n):
    """A netlist with its cells as black boxes."""
    models = {i.model.name: i.model for i in n.instances}
    lines = [f".subckt {name} {' '.join(spice_name(pin) for pin in sorted(model.pins))}\n.ends\n" for name, model in models.items()]
    lines.append(f".subckt top {' '.join(spice_name(bit) for bit in sorted(n.all_ports))}\n")
    for i in n.instances:
        lines.append(f"X{i.name} {' '.join(spice_name(i.nets[pin]) for pin in sorted(i.nets))} {i.model.name}\n")
    return "* top\n" + "".join(lines) + ".ends\n.end\n"


def by_netgen(room, a, b):
    room.write({"a.sp": spice(a).encode(), "b.sp": spice(b).encode(), "none.tcl": b""})
    run(room, ["netgen-lvs", "-batch", "lvs", "a.sp top", "b.sp top", "none.tcl", "report", "-blackbox"])
    report = (room.folder / "report").read_text() if (room.folder / "report").exists() else ""
    (room.folder / "report").unlink(missing_ok=True)
    is_matched = report.rstrip().split("\n")[-1].startswith("Circuits match")
    return is_matched and "**Mismatch**" not in report and "altered to match" not in report


def netlist_pairs(choose, title, models):
    """A netlist and the same with one change, both of which pass their checks; or None."""
    n = netlist(NetMaker(choose, models).text().encode(), models)
    changed = net_changes.CHANGES[title](choose, n, models) if title else n
    if changed is None or not n.instances:
        return None
    try:
        return n, netlist(laid_out(changed).encode(), models)
    except (Refused, Ring):
        return None


def compare_netlists(program, choose, title, count):
    files, told = of_cells(CELLS), Counter()
    models = library(files, "lib")
    with Room() as room:
        room.write(files)
        for _ in range(30 * count):
            pair = netlist_pairs(choose, title, models)
            if pair is None:
                continue
            room.write({"a.vst": laid_out(pair[0]).encode(), "b.vst": laid_out(pair[1]).encode()})
            said = run(room, [program, "lvx", "a.vst", "-b", "b.vst", "-l", "lib"])
            told[said.returncode == 0, by_netgen(room, *pair)] += 1
            if sum(told.values()) == count:
                break
    return told


# ---- sources


def of_roots(m):
    """The machine with its registers as inputs, and what they load and when as outputs."""
    ports = {bit: way for bit, way in m.ports.items() if bit != (m.clock, -1)}
    ports.update((bit, IN) for bit in m.registers)
    equations = list(m.equations)
    for bit in sorted(m.registers):
        for word, formula in zip(("next", "when"), m.registers[bit]):
            root = f"{word}_of_{bit[0]}", bit[1]
            ports[root] = OUT
            equations.append((root, formula))
    return Machine("m", ports, None, equations, {})


def by_abc(room, a, b):
    for name, m in (("a", a), ("b", b)):
        (room.folder / f"{name}.blif").write_text(Writer().machine(m))
    return "are equivalent" in run(room, ["berkeley-abc", "-c", "cec a.blif b.blif"]).stdout


def by_yosys(room, a, b):
    for name, m in (("a", a), ("b", b)):
        (room.folder / f"{name}.v").write_text(verilog.of_machine(apart(m, name), name))
    script = "read_verilog a.v b.v; proc; opt_clean; equiv_make a b e; hierarchy -top e; equiv_simple; equiv_status -assert"
    return run(room, ["yosys", "-q", "-p", script]).returncode == 0


def apart(m, name):
    """With its inner signals under names of its own, which yosys would else take for the same in both."""
    from proof_inputs import apart as renamed

    return renamed(m, name)


def is_plain(m):
    """Whether abc reads its BLIF: it has an input and an output."""
    return IN in m.ports.values() and OUT in m.ports.values()


def compare_sources(program, choose, title, count, peers):
    told, odd = {name: Counter() for name in peers}, []
    with Room() as room:
        for _ in range(30 * count):
            text = proof.small_source(choose)
            changed = source_changes.CHANGES[title](choose, text) if title else text
            if changed is None:
                continue
            a, b = (machine_of(one.encode()) for one in (text, changed))
            if proof.names_of_one(a, b) or not is_plain(of_roots(a)):
                continue
            room.write({"a.vbe": text.encode(), "b.vbe": changed.encode()})
            said = run(room, [program, "proof", "a.vbe", "-b", "b.vbe"])
            for name, peer in peers.items():
                try:
                    answer = peer(room, of_roots(a), of_roots(b))
                except subprocess.TimeoutExpired:
                    continue
                told[name][said.returncode == 0, answer] += 1
                if answer != (said.returncode == 0):
                    odd.append(f"{name} on {title or 'itself'}: {said.stdout.strip()}, {answer}\n{text}\n{changed}")
            if sum(told[name].values()) == count:
                break
    return told, odd


def row(tool, title, peer, told):
    counts = [told[yes, other] for yes, other in ((True, True), (False, False), (True, False), (False, True))]
    print(f"{tool:6} {title or 'the same':34} {peer:8} {counts[0]:9} {counts[1]:8} {counts[2]:10} {counts[3]:10}", flush=True)


def main():
    program = str(pathlib.Path(sys.argv[1]).resolve())
    count, seed = (int(sys.argv[k]) if len(sys.argv) > k else given for k, given in ((2, 10), (3, 1)))
    print(f"{'tool':6} {'change':34} {'peer':8} {'both yes':>9} {'both no':>8} {'tool alone':>10} {'peer alone':>10}")
    failed = []
    if shutil.which("netgen-lvs"):
        for title in (None, *net_changes.CHANGES):
            row("lvx", title, "netgen", compare_netlists(program, random.Random(f"{seed} {title}"), title, count))
    else:
        print("netgen-lvs isn't installed: lvx has no peer")
    peers = {name: peer for name, word, peer in (("abc", "berkeley-abc", by_abc), ("yosys", "yosys", by_yosys)) if shutil.which(word)}
    for title in (None, *source_changes.CHANGES) if peers else ():
        told, odd = compare_sources(program, random.Random(f"{seed} {title}"), title, count, peers)
        failed += odd
        for name in peers:
            row("proof", title, name, told[name])
    if not peers:
        print("neither berkeley-abc nor yosys is installed: proof has no peer")
    for one in failed[:5]:
        print(one)
    return 1 if failed else 0


if __name__ == "__main__":
    if len(sys.argv) < 2:
        sys.exit(__doc__)
    sys.exit(main())
