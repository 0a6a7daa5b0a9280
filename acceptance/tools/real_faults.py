"""What `flow` over tracks and over rows, `gen` and each tool answer where something of the machine fails: a full disk, files that may not grow,
folders and names that are none, files without permission, a closed, lost or full output, too little memory, and files that change while
they are read. The status, the line and the files have to be those of docs/formats/commands.md: what is written is whole, or its file is
named. Never does a signal end the program. What a run without faults writes and prints is taken from the program: other modules check it.
"""

import functools
import os
import re
import resource
from typing import NamedTuple

from acceptance.running import faulty
from acceptance.running.places import EXAMPLES
from acceptance.running.results import Room, compare, shown
from acceptance.tools import syf
from acceptance.tools.boog import of_cells
from acceptance.tools.flow import FIVE

SMALL, LARGE = 20, 300
FILE, MEMORY, LIMIT = 7, 8, 9
SHORT = 1048576
PATTERNS = b"in ck;\nin x (3 downto 0) X;\nout y (3 downto 0) X;\nbegin\n< 0 ns> p : 0 0 ?*;\n< 5 ns> : 1 a ?*;\nend;\n"
PATH = b"q0\nq1\nq2\nq3\n"
TABLE = b"scale 2\ngrow 10 10 10 10 10 10\n"
MOST_MEMORY, MEMORY_SIZES, MEMORY_STEP = 4 << 30, 20, 1 << 16
REWRITTEN = 5
ENDINGS = {"flow": ["ap"], "gen": ["vbe", "ap"], "syf": ["vbe"], "boom": ["vbe"], "boog": ["vst"], "loon": ["vst"], "ocp": ["ap"], "nero": ["ap"]}
ENDINGS |= {"cougar": ["vst"], "flatbeh": ["vbe"], "s2r": ["cif"], "scapin": ["vst"], "fmi": ["fsm"], "rip": ["ap"]}
LINES = [
    "flow g.vbe -l lib -o r --tracks",
    "flow g.vbe -l lib -o r --moves 100",
    "flow s.fsm -l lib -o r --tracks -e j",
    "gen --size SIZE -l lib -o r --tracks",
    "gen --size SIZE -l lib -o r --moves 100",
    "syf s.fsm -o r",
    "boom g.vbe -o r",
    "boog g.vbe -l lib -o r",
    "loon n.vst -l lib -o r --fanout 4",
    "ocp n.vst -l lib -o r --moves 100",
    "nero n.vst -p p.ap -l lib -o r",
    "cougar g.ap -l lib -o r",
    "flatbeh n.vst -l lib -o r",
    "s2r g.ap -p t.real -l lib -o r",
    "scapin n.vst -p n.path -l lib -o r",
    "fmi s.fsm -o r",
    "rip n.vst -p p.ap -l lib -o r",
    "asimut g.vbe -p t.pat",
    "asimut n.vst -p t.pat -l lib",
    "lvx n.vst -b n.vst -l lib",
    "druc g.ap -l lib",
    "proof g.vbe -b g.vbe",
    "area g.vbe -l lib",
]
STUCK = "flow wide40.vbe -l lib -o r --rows 1 --metals 4"


class Plain(NamedTuple):
    """A run without a fault: the names of what it writes, in their order, and what it comes to."""

    words: list
    files: dict
    products: list
    status: int
    printed: bytes
    after: dict

    @property
    def tool(self):
        return self.words[0]

    def line(self, text):
        return f"{self.tool}: {text}\n".encode()

    def source(self):
        """The first file that it reads, or None."""
        return self.words[1] if self.words[1] in self.files else None

    def without_output(self):
        """The status where nothing can be printed."""
        return FILE if self.status == 0 else self.status


# ---- the runs


@functools.cache
def made_files(program, size):
    """A circuit, its netlist, its placement and its layout, made by the program, and a state machine; None where that fails."""
    with Room() as room:
        room.write({**of_cells(FIVE), "s.fsm": syf.fork(16), "t.pat": PATTERNS, "t.real": TABLE, "n.path": PATH, "wide40.vbe": (EXAMPLES / "stuck/wide40.vbe").read_bytes()})
        for line in (f"gen --size {size} -l lib -o g --tracks", "boog g.vbe -l lib -o n", "ocp n.vst -l lib -o p --moves 100"):
            if room.run(program, line.split())[0] != 0:
                return None
        return room.held()


def plain_of(program, files, line, size):
    words = line.replace("SIZE", str(size)).split()
    with Room() as room:
        room.write(files)
        status, printed = room.run(program, words)
        after = room.held()
    products = [f"r.{end}" for end in ENDINGS.get(words[0], [])] if status != 6 else ["r_part.ap"]
    return Plain(words, files, products, status, printed, after)


def with_plain(check, size):
    """A check over a run, which is first made without a fault."""

    def checked(results, program, line):
        files = made_files(program, size)
        results.note("the circuit of the real faults", files is not None, f"gen, boog or ocp failed at size {size}")
        if files is None:
            return
        plain = plain_of(program, files, line, size)
        wanted = 6 if line == STUCK else 0
        is_well = plain.status == wanted and set(plain.after) - set(files) == set(plain.products)
        results.note(f"{line} without a fault", is_well, shown(plain.status, plain.printed))
        if is_well:
            check(results, program, plain)

    return checked


def run_with(program, plain, files=None, words=None, **more):
    """Status, printed bytes and files of a run with other files or words."""
    with Room() as room:
        room.write(plain.files if files is None else files)
        status, printed = room.run(program, words or plain.words, **more)
        return status, printed, room.held()


def title_of(plain, what):
    return f"{' '.join(plain.words)} {what}"


def lost_product(results, plain, title, got, failed):
    """A write fault of the product `failed`: those before it are whole, nothing is said of it, and all else is as before."""
    status, printed, files = got
    files.pop(failed, None)
    kept = {name: plain.after[name] for name in plain.products[: plain.products.index(failed)]}
    compare(results, title, (status, printed, files), FILE, plain.line(f"file: write fault {failed}"), {**plain.files, **kept})


# ---- writes


def check_sizes(results, program, plain):
    """No file may get larger than some size: nothing, a part of the product, one byte less, and all."""
    sizes = {size for name in plain.products for text in [plain.after[name]] for size in (0, 1, len(text) // 2, len(text) - 1, len(text))}
    for size in sorted(sizes):
        title = title_of(plain, f"where files have at most {size} bytes")
        got = run_with(program, plain, preexec_fn=faulty.no_larger(size))
        failed = next((name for name in plain.products if len(plain.after[name]) > size), None)
        if failed:
            lost_product(results, plain, title, got, failed)
        else:
            compare(results, title, got, plain.status, plain.printed, plain.after)


def check_disk(results, program, plain):
    """A disk with no free page, with one less than are needed, and with as many."""
    if not faulty.mounting():
        results.skip("no full disk is tried: this machine lets nobody mount one")
        return
    ends, needed = {}, 0
    for name in plain.products:
        needed += -(-len(plain.after[name]) // faulty.PAGE)
        ends[name] = needed
    for pages in sorted({0, *ends.values(), *(end - 1 for end in ends.values())}):
        title = title_of(plain, f"on a disk with {pages} free pages")
        with Room() as room:
            room.write(plain.files)
            status, printed = faulty.on_disk(room, program, plain.words, pages)
            got = status, printed, room.held()
        failed = next((name for name in plain.products if ends[name] > pages), None)
        if failed:
            lost_product(results, plain, title, got, failed)
        else:
            compare(results, title, got, plain.status, plain.printed, plain.after)


def check_places(results, program, plain):
    """NAME stands in a folder that isn't there, below a file, and is longer than a name can be; the library is a file."""
    if plain.products:
        at = plain.words.index("-o") + 1
        for name in ("none/r", "lib/CATAL/r", "n" * 260):
            words = [*plain.words[:at], name, *plain.words[at + 1 :]]
            line = plain.line(f"file: write fault {name}{plain.products[0].removeprefix('r')}")
            compare(results, title_of(plain, f"written to {name[:12]}"), run_with(program, plain, words=words), FILE, line, plain.files)
    if "-l" in plain.words:
        files = {name: text for name, text in plain.files.items() if not name.startswith("lib/")} | {"lib": b""}
        status, printed, after = run_with(program, plain, files)
        if plain.tool == "gen":
            after.pop("r.vbe", None)
        allowed = [plain.line(f"file: {fault} lib/CATAL") for fault in ("missing", "read fault")]
        wanted = printed if printed in allowed else allowed[1]
        compare(results, title_of(plain, "with a file as library"), (status, printed, after), FILE, wanted, files)


# ---- permission


def check_permission(results, program, plain):
    """Files that can't be read, one that can't be written, and folders; run by another user where this one is root."""
    if run_allowed(program, plain, {})[:2] != (plain.status, plain.printed):
        results.skip("no permission is tried: the program can't be run by another user than root")
        return
    files = [name for name in (plain.source(), *plain.words, "lib/CATAL", "lib/na2_x1.vbe", "lib/sff1_x4.ap") if name in plain.files]
    read = [name for name in dict.fromkeys(files) if not name.startswith("lib/") or "-l" in plain.words]
    first = plain.products[:1] if plain.tool == "gen" else []
    whole = {name: plain.after[name] for name in first}
    for name in read:
        got = run_allowed(program, plain, {name: 0})
        compare(results, title_of(plain, f"where {name} may not be read"), got, FILE, plain.line(f"file: read fault {name}"), {**plain.files, **whole})
    if "-l" in plain.words:
        got = run_allowed(program, plain, {"lib": 0})
        compare(results, title_of(plain, "where lib may not be read"), got, FILE, plain.line("file: read fault lib/CATAL"), {**plain.files, **whole})
    for name in plain.products:
        before = {**plain.files, name: b"as before\n"}
        got = run_allowed(program, plain, {name: 0o444}, before)
        kept = {**before, **{other: plain.after[other] for other in plain.products[: plain.products.index(name)]}}
        compare(results, title_of(plain, f"where {name} may not be written"), got, FILE, plain.line(f"file: write fault {name}"), kept)
    if plain.products:
        got = run_allowed(program, plain, {".": 0o555})
        line = plain.line(f"file: write fault {plain.products[0]}")
        compare(results, title_of(plain, "where the folder may not be written"), got, FILE, line, plain.files)


def run_allowed(program, plain, modes, files=None):
    """A run of another user than root, with the permissions of some files."""
    with Room() as room:
        room.write(plain.files if files is None else files)
        room.folder.chmod(0o777)
        for name, mode in modes.items():
            (room.folder / name).chmod(mode)
        status, printed = room.run(program, plain.words, preexec_fn=faulty.as_nobody)
        room.folder.chmod(0o777)
        for name in modes:
            path = room.folder / name
            path.chmod(0o777 if path.is_dir() else 0o666)
        return status, printed, room.held()


# ---- outputs


def check_outputs(results, program, plain):
    """Nothing can be printed, or a first part alone: the product stands whole, and a refusal keeps its status."""
    got = run_with(program, plain, preexec_fn=faulty.closed)
    compare(results, title_of(plain, "with its output closed"), got, plain.without_output(), b"", plain.after)
    for what, pipe in (("a pipe that nobody reads", faulty.gone_pipe), ("a full pipe", faulty.full_pipe)):
        with pipe() as out:
            got = run_with(program, plain, out=out)
        compare(results, title_of(plain, f"into {what}"), got, plain.without_output(), b"", plain.after)
    most = max((len(plain.after[name]) for name in plain.products), default=0)
    for count in sorted({0, 1, len(plain.printed) // 2, len(plain.printed) - 1}):
        if most >= faulty.OFFSET:
            break
        with Room() as room:
            room.write(plain.files)
            got = (*faulty.with_part(room, program, plain.words, count), room.held())
        title = title_of(plain, f"into a file that takes {count} bytes")
        compare(results, title, got, plain.without_output(), plain.printed[:count], plain.after)


# ---- memory


def check_memory(results, program, plain):
    """Twenty limits on memory, from what the program takes to answer its usage line to what this run takes."""

    def status_at(size, words=None):
        return run_with(program, plain, words=words, preexec_fn=faulty.no_more_memory(size))

    def answers_usage(size):
        with Room() as room:
            return room.run(program, [], preexec_fn=faulty.no_more_memory(size))[0] == 1

    if not answers_usage(MOST_MEMORY):
        results.skip("no limit on memory is tried: the program doesn't start with 4 GB of addresses")
        return
    floor = faulty.least(answers_usage, 0, MOST_MEMORY, MEMORY_STEP)
    top = faulty.least(lambda size: status_at(size)[0] == plain.status, floor, MOST_MEMORY, MEMORY_STEP)
    refused = 0
    for number in range(MEMORY_SIZES + 1):
        size = floor + (top - floor) * number // MEMORY_SIZES
        size -= size % resource.getpagesize()
        status, printed, files = status_at(size)
        title = title_of(plain, f"with {size} bytes of addresses of {floor} to {top}")
        if status != MEMORY:
            compare(results, title, (status, printed, files), plain.status, plain.printed, plain.after)
            continue
        refused += 1
        results.note(title, printed in (b"", plain.line("memory")), f"printed {printed[:200]!r}")
        for name in plain.products:
            if files.get(name) == plain.after[name]:
                files.pop(name)
        wrong = sorted(name for name in {*files, *plain.files} if files.get(name) != plain.files.get(name))
        results.note(f"{title}: the files", not wrong, f"these differ: {wrong}")
    if refused == 0 and top - floor <= 2 * MEMORY_STEP:
        results.skip(title_of(plain, "takes hardly more memory than its usage line, so that no limit makes it run out"))
        return
    results.note(title_of(plain, "with too little memory"), refused > 0, "no limit made memory run out")


# ---- files that change


def check_changes(results, program, plain):
    """The source comes in two parts through a pipe, has no end, and is written anew all the time."""
    source = plain.source()
    if source is None:
        return
    text = plain.files[source]
    if plain.words.count(source) == 1:
        with Room() as room:
            room.write({name: other for name, other in plain.files.items() if name != source})
            with faulty.in_parts(room.folder / source, text):
                got = room.run(program, plain.words)
            held = {**room.held(), source: text}
        compare(results, title_of(plain, "with its source in two parts"), (*got, held), plain.status, plain.printed, plain.after)
    for name in endless(plain):
        with Room() as room:
            room.write({other: bytes_of for other, bytes_of in plain.files.items() if other != name})
            os.symlink("/dev/zero", room.folder / name)
            got = room.run(program, plain.words)
            (room.folder / name).unlink()
            held = {**room.held(), name: plain.files[name]}
        compare(results, title_of(plain, f"where {name} has no end"), (*got, held), LIMIT, plain.line(f"limit: file {SHORT + 1}"), plain.files)
    for _ in range(REWRITTEN):
        check_rewritten(results, program, plain, source)


def endless(plain):
    """The files that may have no more than 1,048,576 bytes, but for what a cell has."""
    short = [name for name in plain.words if name in plain.files and name.endswith((".vbe", ".fsm", ".pat", ".path"))]
    return list(dict.fromkeys(short + ["lib/CATAL"] * (("-l" in plain.words) and plain.tool != "gen")))


def check_rewritten(results, program, plain, source):
    """It reads the source whole, or a first part, in which it finds a fault."""
    with Room() as room:
        room.write(plain.files)
        with faulty.rewritten(room.folder / source, plain.files[source]):
            status, printed = room.run(program, plain.words)
        files = room.held()
    title = title_of(plain, "with its source written anew")
    if status == 2:
        is_told = re.fullmatch(rb"%s: %s:[0-9]+: [a-z ]+.*\n" % (plain.tool.encode(), re.escape(source.encode())), printed)
        compare(results, title, (status, b"" if is_told else printed, files), 2, b"", plain.files)
    else:
        compare(results, title, (status, printed, files), plain.status, plain.printed, plain.after)


# ---- what is run


CHECKS = {
    "sizes": with_plain(check_sizes, SMALL),
    "disk": with_plain(check_disk, SMALL),
    "places": with_plain(check_places, SMALL),
    "permission": with_plain(check_permission, SMALL),
    "outputs": with_plain(check_outputs, SMALL),
    "changes": with_plain(check_changes, SMALL),
    "memory": with_plain(check_memory, LARGE),
}


def check(results, program, kind, line):
    CHECKS[kind](results, program, line)


def jobs(program):
    for line in LINES:
        yield check, (program, "memory", line)
    for kind in ("sizes", "disk", "outputs"):
        yield check, (program, kind, STUCK)
    for kind in CHECKS:
        if kind != "memory":
            for line in LINES:
                yield check, (program, kind, line)
