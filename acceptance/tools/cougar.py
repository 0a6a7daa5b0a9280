"""What the second readers say of `cougar`, and what no case of it has: layouts made at random over random libraries, layouts that
`flow` drew, as they are and damaged, texts that are cut or changed, and large ones. What is wanted is the netlist that a second
extraction gives, in its one spelling.
"""

import random

from acceptance.makers.layout_maker import LayoutMaker, damaged
from acceptance.makers.random_sources import Maker
from acceptance.readers.words import TOOLS_LINE, command, held, trouble
from acceptance.running.case_file import Case
from acceptance.running.places import CELLS, EXAMPLES, ROWS
from acceptance.running.results import Room, compare, run_in, shown
from acceptance.tools import flow, netlists
from acceptance.tools.answers import agrees, refusal
from acceptance.tools.boog import layout_faults, of_cells
from acceptance.tools.net_jobs import random_library
from share.formats import ap, cellcheck, extraction
from share.formats.models import Refusal, library, of_folder
from share.formats.vst import FILE

ROW = ROWS / "cougar-runs/the-inverter.txt"
USAGE = "usage: alliance cougar SOURCE.ap -l DIR -o NAME\n"
WORDS = ["cougar", "r.ap", "-l", "lib", "-o", "r"]
LAYOUTS, DRAWN, DAMAGES, CHUNK = 600, 40, 12, 50


# ---- the second answer


def parsed(words):
    """SOURCE, DIR and NAME, or None."""
    found = command(words, ".ap", {"-l": "", "-o": ""})
    return (found[0], found[1]["-l"], found[1]["-o"]) if found and len(found[1]) == 2 else None


def netlist_of(source, folder, files):
    """The netlist that a layout gives over a library, or a refusal of one of three kinds."""
    models = library(files, folder)
    figure = ap.read(held(files, source))
    flat = extraction.flat_of(figure, cellcheck.cells(of_folder(files, folder), False))
    return extraction.extracted(figure, flat, models)


def second(words, files):
    found = parsed(words)
    if found is None:
        return 1, USAGE
    source, folder, _ = found
    refused = trouble(files, source, FILE)
    if refused:
        return refused[0], f"cougar: {refused[1]}\n"
    try:
        n = netlist_of(source, folder, files)
    except Refusal as refused:
        return refused.status, f"cougar: {refused.line}\n"
    except ap.Refused as refused:
        said = str(refused)
        return refusal("cougar", source, said if said.startswith("limit ") else f"input {said}")
    except extraction.Refused as refused:
        return refused.status, f"cougar: {source}:{refused.line}\n" if refused.status == 2 else f"cougar: {refused.line}\n"
    return 0, f"cells {len(n.instances)}\nnets {n.nets()}\n"


def writes(words, files):
    """The file that a command writes, with the check of its text."""
    source, folder, out = parsed(words)
    return f"{out}.vst", lambda text: layout_faults(netlist_of(source, folder, files), text)


# ---- what is run


def run_extracted(results, room, program, title, files):
    """Runs cougar on r.ap; whether it succeeds. The files are those of the room, but maybe for r.vst."""
    wanted = second(WORDS, files)
    (room.folder / "r.ap").write_bytes(files["r.ap"])
    (room.folder / "r.vst").unlink(missing_ok=True)
    got = room.run(program, WORDS)
    results.note(title, agrees(got, wanted), f"came to {shown(*got)}, wanted {wanted} for {files['r.ap'][:3000]!r}")
    if got[0] or wanted[0]:
        results.note(f"{title}: the file behind a refusal", not (room.folder / "r.vst").exists(), "it is there")
        return False
    text = room.held().get("r.vst") or b""
    faults = writes(WORDS, files)[1](text)
    results.note(f"{title}: the netlist", not faults, f"{faults} for {files['r.ap'][:3000]!r}")
    return not faults


def check_layouts(results, program, seed, numbers):
    """Shapes, vias, connectors and instances at random, over cells of all sorts."""
    for number in numbers:
        choose = random.Random(f"{seed} layout {number}")
        files = random_library(choose)
        with Room() as room:
            room.write(files)
            for _ in range(4):
                text = LayoutMaker(choose, cellcheck.cells(of_folder(files, "lib"), False)).text()
                run_extracted(results, room, program, "a random layout", {**files, "r.ap": text})


def check_drawn(results, program, seed, numbers):
    """What `flow` draws of random sources, and the same with one line changed, again and again."""
    for number in numbers:
        choose = random.Random(f"{seed} drawn {number}")
        files = {**of_cells(flow.FIVE), "s.vbe": Maker(choose).source().encode()}
        with Room() as room:
            room.write(files)
            status, printed = room.run(program, flow.WORDS)
            results.note("a layout to extract", status == 0, shown(status, printed))
            if status != 0:
                continue
            text = (room.folder / "r.ap").read_bytes()
            run_extracted(results, room, program, "a layout that was drawn", {**files, "r.ap": text})
            for _ in range(DAMAGES):
                run_extracted(results, room, program, "a damaged layout", {**files, "r.ap": damaged(choose, text)})


def check_cut(results, program):
    """A layout cut at every byte, and each byte of it changed."""
    files = {name: text for name, text in Case(ROW).before.items() if name != "out.ap"}
    text = Case(ROW).before["out.ap"]
    texts = [text[:at] for at in range(len(text) + 1)]
    texts += [text[:at] + byte + text[at + 1 :] for at in range(len(text)) for byte in (b"9", b",")]
    with Room() as room:
        room.write(files)
        for cut in dict.fromkeys(texts):
            run_extracted(results, room, program, "a layout that is cut or changed", {**files, "r.ap": cut})


def check_example(results, program, path):
    """The layout of an example, its netlist, and the netlist under the example's patterns."""
    patterns = path.with_suffix(".pat")
    names = [line.split()[0] for line in (CELLS / "CATAL").read_text().splitlines()]
    files = {**of_cells(names), "s.vbe": path.read_bytes()}
    with Room() as room:
        room.write(files)
        room.run(program, flow.WORDS)
        text = room.held().get("r.ap") or b""
        is_well = run_extracted(results, room, program, f"the layout of {path.name}", {**files, "r.ap": text})
        if is_well and patterns.exists():
            room.write({"t.pat": patterns.read_bytes()})
            got, of_source = (room.run(program, words) for words in (netlists.WORDS, ["asimut", "s.vbe", "-p", "t.pat"]))
            results.note(f"the netlist of {path.name} under its patterns", got == of_source and got[0] == 0, shown(*got))


def nands(gates):
    """So many gates side by side: their diagrams are small, so that no budget stands in the way."""
    top = gates - 1
    head = f"entity wide is port (a, b : in bit_vector ({top} downto 0); o : out bit_vector ({top} downto 0); vdd : in bit; vss : in bit); end wide;\n"
    return f"{head}architecture vbe of wide is\nbegin\no <= a nand b;\nend vbe;\n".encode()


def check_large(results, program, gates):
    with Room() as room:
        files = {**of_cells(flow.FIVE), "s.vbe": nands(gates)}
        room.write(files)
        status, printed = room.run(program, flow.WORDS)
        results.note(f"{gates} gates are laid out", status == 0, shown(status, printed))
        if status == 0:
            run_extracted(results, room, program, f"{gates} gates", {**files, "r.ap": (room.folder / "r.ap").read_bytes()})


def check_words(results, program):
    case = Case(ROW)
    rows = [
        ("a word of cougar that is no text", [b"cougar", b"\xff.ap", "-l", "lib", "-o", "n"], 1, TOOLS_LINE.encode()),
        ("an output in a folder that isn't there", [*case.words[0][:5], "nowhere/n"], 7, b"cougar: file: write fault nowhere/n.vst\n"),
    ]
    for title, given, status, line in rows:
        compare(results, title, run_in(case.before, program, given), status, line, case.before)


def jobs(program, seed, times):
    yield check_large, (program, 400)
    yield check_cut, (program,)
    for many, check, chunk in ((DRAWN, check_drawn, 5), (LAYOUTS // 4, check_layouts, CHUNK // 4)):
        numbers = range(many * times)
        for at in range(0, len(numbers), chunk):
            yield check, (program, seed, numbers[at : at + chunk])
    for path in sorted(EXAMPLES.glob("*/*.vbe")):
        yield check_example, (program, path)
    yield check_words, (program,)
