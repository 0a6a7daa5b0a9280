"""Verilog or VHDL to a flat BLIF of tables and registers, by yosys, and for VHDL by GHDL before it.

What yosys is asked for keeps the names of registers: states aren't coded anew. Carries go from bit to bit, which takes the least cells.
Registers become such as load always; their enables and synchronous resets are logic.
"""

import itertools
import re
import shutil
import subprocess

from . import verilog
from .files import Trouble

VERILOG, VHDL = (".v", ".sv"), (".vhd", ".vhdl")
NEEDED_FOR = {
    "yosys": "which makes gates of Verilog (Debian's package yosys)",
    "ghdl": "which synthesises and simulates VHDL (Debian's package ghdl)",
    "iverilog": "which simulates Verilog (Debian's package iverilog); --no-compare leaves the comparison out",
}
SECONDS = 600
RIPPLE = r"""(* techmap_celltype = "$lcu" *)
module ripple (P, G, CI, CO);
  parameter WIDTH = 2;
  input [WIDTH-1:0] P, G;
  input CI;
  output [WIDTH-1:0] CO;
  genvar k;
  generate for (k = 0; k < WIDTH; k = k + 1) begin : each
    if (k == 0) assign CO[k] = G[k] | (P[k] & CI); else assign CO[k] = G[k] | (P[k] & CO[k-1]);
  end endgenerate
endmodule
"""
# What may be left of registers: import says what is wrong with those that aren't plain.
KEPT = " ".join(f"-cell $_{kind}_ 01" for kind in ("DFF_?", "DFF_???", "DFFSR_???", "ALDFF_??", "DLATCH_?", "DLATCH_???", "SR_??"))
SCRIPT = """{reads}
hierarchy -check -top {top}
rename -hide w:{mark}*
proc
flatten
{initial}
opt_expr
opt_clean
check -assert
opt -nodffe -nosdff
wreduce
peepopt
opt_clean
alumacc
share
opt
memory -nomap
opt_clean
opt -fast -full
memory_map
opt -fine
techmap -map ripple.v
techmap
opt -fast
{resets}
dfflegalize {kept}
opt_expr -mux_undef
opt_merge
opt_clean
setundef -zero
abc -g AND,OR,XOR,MUX
opt_clean -purge
write_blif netlist.blif
"""
# Registers with an asynchronous reset by gates of yosys, which have the pins of those with a synchronous one.
SYNCHRONOUS = [
    f"chtype -set $_S{kind}_{''.join(signs)}_ t:$_{kind}_{''.join(signs)}_"
    for kind, values in (("DFF", ("NP", "NP", "01")), ("DFFE", ("NP", "NP", "01", "NP"))) for signs in itertools.product(*values)
]
DEFAULT = re.compile(r"select (\w+) <=\n.*?(\S+|\([^()]*\)) when others;", re.S)
CASE = re.compile(r"(\bcase \(\w+\)\n)(.*?)(\bendcase\b)", re.S)
MADE_BY_GHDL, MARK = re.compile(r"\bn\d+_[a-z]+\b"), "made_by_ghdl_"
# Words that are names in VHDL, and reserved in Verilog.
KEYWORDS = verilog.RESERVED - set(
    """and begin buffer case default else end event for force function generate if inout integer library nand nor not or parameter real release
    signed time unsigned use wait while xnor xor""".split()
)
ENDING = "_of_vhdl"
VHDL_WORD = re.compile(r"--[^\n]*|\"[^\"\n]*\"|'.'|[A-Za-z]\w*|\\[^\\]*\\")


def need(program):
    if not shutil.which(program):
        raise Trouble(f"{program} isn't installed, {NEEDED_FOR[program]}")


def language_of(paths):
    """Whether the files are Verilog or VHDL, by their endings."""
    for ending_of, language in ((VERILOG, "verilog"), (VHDL, "vhdl")):
        if all(path.suffix.lower() in ending_of for path in paths):
            return language
    raise Trouble(f"{' '.join(map(str, paths))}: files have to end all in .v or .sv, or all in .vhd or .vhdl")


def ran(folder, *words):
    return subprocess.run([str(word) for word in words], cwd=folder, capture_output=True, text=True, errors="replace", timeout=SECONDS, check=False)


def first_line(text):
    """The first line that says an error, with a place in a file or without, else the last one."""
    lines = [line for line in text.splitlines() if line.strip()]
    told = next((line for line in lines if re.search(r"\berror\b|:\d+:\d+: (?!warning|note)", line, re.I)), None)
    return told or (lines[-1] if lines else "it ended without a word")


def modules_of(text, opened):
    """The parts of a text behind each line that opens one, by the name in it."""
    parts = re.split(opened, text, flags=re.M | re.I)
    return dict(zip(parts[1::2], parts[2::2]))


def verilog_value(text):
    """A name or a constant of GHDL's VHDL in Verilog; what has an X may be anything."""
    bits = re.fullmatch(r"['\"]([01]+)['\"]", text)
    if bits:
        return f"{len(bits[1])}'b{bits[1]}"
    return text.removeprefix("wrap_") if re.fullmatch(r"\w+", text) else "'bx"


def with_defaults(text, as_vhdl):
    """GHDL's Verilog with a default for each case, which GHDL 2.0 leaves out: it is taken from the same netlist as VHDL. So yosys sees no latch.
    Its shifts to the right of signed numbers lack a sign, too."""
    values = {name: dict(DEFAULT.findall(body)) for name, body in modules_of(as_vhdl, r"^architecture \w+ of (\w+) is").items()}

    def completed(name, body):
        def filled(found):
            if "default:" in found[2]:
                return found[0]
            target = re.search(r": (\w+) <= ", found[2])[1]
            return f"{found[1]}{found[2]}  default: {target} <= {verilog_value(values[name].get(target, 'X'))};\n    {found[3]}"

        return CASE.sub(filled, body)

    text = text.replace("// (signal)", "")
    made = "".join(f"module {name}{completed(name, body)}" for name, body in modules_of(text, r"^module (\w+)").items())
    return re.sub(r"(\$signed\(\w+\)) >> ", r"\1 >>> ", made)


def without_keywords(text):
    """VHDL in which no name is a reserved word of Verilog: such get an ending, since GHDL writes them as they are."""
    return VHDL_WORD.sub(lambda found: f"{found[0]}{ENDING}" if found[0].lower() in KEYWORDS else found[0], text)


def verilog_of(top, paths, folder):
    """The Verilog that GHDL makes of VHDL. The names that it made up are marked, so that yosys hides them."""
    need("ghdl")
    copies, made = {folder / f"{number}_{path.name}": path for number, path in enumerate(paths)}, {}
    for copy, path in copies.items():
        copy.write_text(without_keywords(path.read_text(errors="replace")))
    for form in ("verilog", "vhdl"):
        done = ran(folder, "ghdl", "synth", "--std=08", f"--out={form}", *copies, "-e", top)
        unassigned = re.search(r"^.*is never assigned and has no default value$", done.stderr, re.M)
        if done.returncode or not done.stdout.strip() or unassigned:
            line = unassigned[0] if unassigned else first_line(done.stderr)
            copy = next((copy for copy in copies if line.startswith(f"{copy}:")), None)
            raise Trouble(f"ghdl: {line.replace(str(copy), str(copies[copy])) if copy else line}")
        made[form] = done.stdout
    path = folder / "of_vhdl.v"
    path.write_text(MADE_BY_GHDL.sub(lambda found: f"{MARK}{found[0]}", with_defaults(made["verilog"], made["vhdl"])))
    return path


def cause_of(told):
    """Why yosys ended; where its check found something, what it found first."""
    line = first_line(told)
    found = re.search(r"Warning: ((?:Wire|multiple|found) .*?):?$", told, re.M) if "check -assert" in line else None
    return found[1].replace("\\", "") if found else line


def blif_of(top, paths, folder, asked):
    """The text of the BLIF that yosys makes. Asked is what becomes of asynchronous resets and initial values."""
    need("yosys")
    reads = "\n".join(f'read_verilog {"-sv " if path.suffix == ".sv" else ""}"{path.resolve()}"' for path in paths)
    (folder / "ripple.v").write_text(RIPPLE)
    initial = "setattr -unset init w:*" if asked.without_initial else ""
    resets = "\n".join(SYNCHRONOUS) if asked.sync_reset else ""
    (folder / "script.ys").write_text(SCRIPT.format(reads=reads, kept=KEPT, top=top, mark=MARK, initial=initial, resets=resets))
    done = ran(folder, "yosys", "-q", "-s", "script.ys")
    made = folder / "netlist.blif"
    if done.returncode or not made.exists():
        raise Trouble(f"yosys: {cause_of(done.stderr + done.stdout)}")
    return made.read_text().replace(ENDING, "")


def netlist_of(top, paths, folder, asked):
    """The BLIF of a design, and its language."""
    language = language_of(paths)
    for path in paths:
        if not path.is_file():
            raise Trouble(f"{path}: No such file or directory")
    if language == "vhdl":
        top, paths = top.lower(), [verilog_of(top.lower(), paths, folder)]
    return blif_of(top, paths, folder, asked), language
