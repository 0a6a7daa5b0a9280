"""Two causes of a refusal at once in `lvx`, `druc`, `proof` and `flatbeh`: the earlier counts. What is wanted is worked by hand from the order of
docs/formats/checking.md.
"""

from acceptance.running.results import Room, compare
from acceptance.tools import druc, flatbeh, lvx, proof
from acceptance.tools.boog import of_cells
from acceptance.tools.flow import FIVE
from acceptance.tools.flow_limits import FILE, cell_file, put, without, words_twice

INVERTER = b"""entity r is port (i : in bit; nq : out bit; vdd, vss : in bit); end r;
architecture x of r is
component inv_x1 port (i : in bit; nq : out bit; vdd, vss : in bit); end component;
begin
g0 : inv_x1 port map (i => i, nq => nq, vdd => vdd, vss => vss);
end x;
"""
REGISTER = b"""entity r is port (ck, i : in bit; q : out bit; vdd, vss : in bit); end r;
architecture x of r is
component sff1_x4 port (ck, i : in bit; q : out bit; vdd, vss : in bit); end component;
component two_x1 port (i : in bit; nq, q : out bit; vdd, vss : in bit); end component;
signal s, t : bit;
begin
q0 : sff1_x4 port map (ck => ck, i => i, q => q, vdd => vdd, vss => vss);
g0 : two_x1 port map (i => q, nq => s, q => t, vdd => vdd, vss => vss);
end x;
"""
TWO_OUTPUTS = b"""entity two_x1 is port (i : in bit; nq, q : out bit; vdd, vss : in bit); end two_x1;
architecture vbe of two_x1 is
begin
nq <= not i;
q <= i;
end vbe;
"""
SOURCE = b"entity e is port (a, b : in bit; y : out bit); end e;\narchitecture vbe of e is\nbegin\ny <= a and b;\nend vbe;\n"
LAYOUT = b"V ALLIANCE : 6\nH r,P,01/01/2000,100\nA 0,0,5000,5000\nI 0,0,inv_x1,u,NOSYM\nS 5000,0,6000,0,200,a,RIGHT,ALU2\nEOF\n"


def with_words(*more):
    return lambda words, files: ([*words, *more], files)


def wide_cell(name):
    text = cell_file(name)
    for line in (b"A 0,0,", b"S 0,300,", b"S 0,4700,"):
        text = text.replace(line + b"1000,", line + b"16500,")
    return text


def library_causes(tool):
    """What is wrong with a library, in the order in which it is told, in two parts: while it is read, and when it is judged."""
    reading = [
        (without("lib/CATAL"), 7, f"{tool}: file: missing lib/CATAL\n"),
        (put("lib/CATAL", b"inv_x1 C\nna2_x1 C \n"), 3, f"{tool}: library: catal 2\n"),
        (without("lib/na2_x1.ap"), 7, f"{tool}: file: missing lib/na2_x1.ap\n"),
        (put("lib/zero_x0.vbe", b"-" * (FILE + 1)), 9, f"{tool}: limit: file {FILE + 1}\n"),
        (put("lib/sff1_x4.ap", None), 7, f"{tool}: file: read fault lib/sff1_x4.ap\n"),
    ]
    judging = [
        (put("lib/inv_x1.vbe", b"entity"), 3, f"{tool}: library: inv_x1 1\n"),
        (put("lib/one_x0.ap", wide_cell("one_x0.ap")), 9, f"{tool}: limit: width 33\n"),
    ]
    return reading, judging


def lvx_causes():
    reading, judging = library_causes("lvx")
    other = INVERTER.replace(b"g0", b"h0")
    return lvx.WORDS, {"a.vst": INVERTER, "b.vst": INVERTER}, (0, "same\n"), [
        (words_twice, 1, lvx.USAGE),
        (without("a.vst"), 7, "lvx: file: missing a.vst\n"),
        (put("b.vst", None), 7, "lvx: file: read fault b.vst\n"),
        *reading, *judging,
        (put("a.vst", INVERTER.replace(b"i => i", b"i => u")), 2, "lvx: a.vst:5: bad map\n"),
        (put("b.vst", INVERTER[:-3]), 2, "lvx: b.vst:6: syntax\n"),
        (put("b.vst", other), 11, "lvx: different i\n"),
    ]


def druc_causes():
    reading, judging = library_causes("druc")
    return druc.WORDS, {"r.ap": LAYOUT}, (0, "breaches 0\n"), [
        (words_twice, 1, druc.USAGE),
        (without("r.ap"), 7, "druc: file: missing r.ap\n"),
        *reading, *judging,
        (put("r.ap", LAYOUT.replace(b"inv_x1", b"a_x1").replace(b"EOF", b"V 0,0")), 2, "druc: r.ap:6: bad line\n"),
        (put("r.ap", LAYOUT.replace(b"inv_x1", b"a_x1").replace(b"200,a", b"100,a")), 2, "druc: r.ap:1: unknown cell a_x1\n"),
        (put("r.ap", LAYOUT.replace(b"200,a", b"100,a")), 11, "width 2 4900 -50 6100 50\nbreaches 1\n"),
    ]


def proof_causes():
    return proof.WORDS, {"a.vbe": SOURCE, "b.vbe": SOURCE}, (0, "equal\n"), [
        (words_twice, 1, proof.USAGE),
        (put("a.vbe", b"-" * (FILE + 1)), 9, f"proof: limit: file {FILE + 1}\n"),
        (without("b.vbe"), 7, "proof: file: missing b.vbe\n"),
        (put("a.vbe", SOURCE.replace(b"a and b", b"a and u")), 2, "proof: a.vbe:4: unknown u\n"),
        (put("b.vbe", SOURCE.replace(b"a and b", b"a and b or b")), 2, "proof: b.vbe:4: syntax\n"),
        (put("b.vbe", SOURCE.replace(b"a, b :", b"a, b, c :").replace(b"and", b"or")), 11, "proof: names c\n"),
        (with_words("--nodes", "1"), 5, "proof: budget: y 2\n"),
        (put("b.vbe", SOURCE.replace(b"and", b"or")), 11, "differs y\n"),
    ]


def flatbeh_causes():
    reading, judging = library_causes("flatbeh")
    files = {"r.vst": REGISTER.replace(b"two_x1", b"inv_x1").replace(b"nq, q : out", b"nq : out").replace(b", q => t", b"")}
    named = files["r.vst"].replace(b"q0 :", b"q :")
    return flatbeh.WORDS, files, None, [
        (words_twice, 1, flatbeh.USAGE),
        (without("r.vst"), 7, "flatbeh: file: missing r.vst\n"),
        *reading, *judging,
        (put("r.vst", REGISTER.replace(b"q0 :", b"q :").replace(b"i => q,", b"i => u,")), 2, "flatbeh: r.vst:8: bad map\n"),
        (put("r.vst", REGISTER.replace(b"q0 :", b"q :")), 11, "flatbeh: no behaviour two_x1\n"),
        (put("r.vst", named), 2, "flatbeh: r.vst:1: twice q\n"),
        (put("r.vbe", None), 7, "flatbeh: file: write fault r.vbe\n"),
    ]


def library_files():
    """The five cells, and one that is neither a gate nor a flip-flop."""
    files = of_cells(FIVE)
    layout = cell_file("na2_x1.ap").replace(b"na2_x1", b"two_x1").replace(b",i0,", b",i,").replace(b",i1,", b",q,")
    return {**files, "lib/two_x1.vbe": TWO_OUTPUTS, "lib/two_x1.ap": layout, "lib/CATAL": files["lib/CATAL"] + b"two_x1 C\n"}


def run_causes(results, program, title, words, files, brought, wanted):
    """The causes are brought from the last on, so that of two in one file the earlier stands."""
    files = {**library_files(), **files}
    for bring in reversed(brought):
        words, files = bring(words, files)
    with Room() as room:
        room.write(files)
        got = room.run(program, words)
        compare(results, title, (*got, room.held()), wanted[0], wanted[1].encode(), files)


def check_orders(results, program, causes):
    """Each cause alone, with each later one, and with all later ones; and none."""
    words, files, accepted, found = causes()
    if accepted is not None:
        run_causes(results, program, f"{words[0]} without a cause", words, files, [], accepted)
    for at, (bring, *wanted) in enumerate(found):
        later = [other for other, _, _ in found[at + 1 :]]
        for more in [[], *([other] for other in later), later]:
            title = f"cause {at + 1} of {len(found)} of {words[0]} with {len(more)} more"
            run_causes(results, program, title, words, files, [bring, *more], wanted)


def jobs(program):
    for causes in (lvx_causes, druc_causes, proof_causes, flatbeh_causes):
        yield check_orders, (program, causes)
