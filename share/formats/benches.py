"""Benches for simulators: they give a design vectors, and show its outputs before each rise of the clock.

A row is the bits of all inputs but the clock, one after another, each from the left, and a last one that nothing reads.
"""

import re
from typing import NamedTuple

from .files import Trouble
from .lawful import base_of

SIMPLE = re.compile(r"[A-Za-z_][A-Za-z0-9_]*")
VHDL_TYPES = {
    "std_logic": ("{0}", "{0}"), "std_ulogic": ("{0}", "{0}"), "bit": ("to_bit({0})", "{0}"), "boolean": ("({0} = '1')", None),
    "std_logic_vector": ("{0}", "{0}"), "std_ulogic_vector": ("{0}", "{0}"), "bit_vector": ("to_bitvector({0})", "{0}"),
    "unsigned": ("unsigned({0})", "std_logic_vector({0})"), "signed": ("signed({0})", "std_logic_vector({0})"),
}


class Port:
    """A port of a design with its nets from the left; `bounds` where it is a vector."""

    def __init__(self, name, nets):
        self.name, self.nets = name, nets
        first, last = base_of(nets[0])[1], base_of(nets[-1])[1]
        self.bounds = None if first is None else (first, last)


class Design(NamedTuple):
    """What is simulated: a module or entity of files, with its ports and its clock or None."""

    language: str
    top: str
    paths: list
    inputs: list
    outputs: list
    clock: str

    def ports(self):
        return [*self.inputs, *self.outputs]

    def given(self):
        """The inputs that vectors give."""
        return [p for p in self.inputs if p.name != self.clock]


def ports_of(nets):
    """Ports of the nets of a netlist, which has the bits of a port from the right."""
    found = {}
    for net in nets:
        found.setdefault(base_of(net)[0], []).append(net)
    return [Port(name, bits[::-1]) for name, bits in found.items()]


# ---- Verilog


def word(name):
    return name if SIMPLE.fullmatch(name) else f"\\{name} "


def verilog_bench(design, rows):
    spans = {p.name: f"[{p.bounds[0]}:{p.bounds[1]}] " if p.bounds else "" for p in design.ports()}
    given = [*(word(p.name) for p in design.given()), "synth_unread"]
    pins = ", ".join(f".{word(p.name)}({word(p.name)})" for p in design.ports())
    clock = word(design.clock) if design.clock else "synth_unread"
    return "\n".join([
        "`timescale 1ns/1ns", "module synth_bench;",
        *(f"  reg {spans[p.name]}{word(p.name)};" for p in design.inputs), *(f"  wire {spans[p.name]}{word(p.name)};" for p in design.outputs),
        "  reg synth_unread;", f"  reg [{len(rows[0]) - 1}:0] synth_given [0:{len(rows) - 1}];", "  integer synth_k;",
        f"  {word(design.top)} synth_dut ({pins});", "  initial begin", '    $readmemb("given.txt", synth_given);', f"    {clock} = 0;",
        f"    for (synth_k = 0; synth_k < {len(rows)}; synth_k = synth_k + 1) begin", f"      {{{', '.join(given)}}} = synth_given[synth_k];",
        f'      #5 $display("seen %b", {{{", ".join(word(p.name) for p in design.outputs)}}});', f"      {clock} = 1; #5 {clock} = 0;",
        "    end", "    $finish;", "  end", "endmodule", "",
    ])


# ---- VHDL


def entity_types(top, texts):
    """The types of an entity's ports by their names, in lower case."""
    for text in texts:
        text = re.sub(r"--[^\n]*", "", text).lower()
        found = re.search(rf"\bentity\s+{re.escape(top)}\s+is\b(.*?)\bend\b", text, re.S)
        if found:
            return types_in(found[1])
    raise Trouble(f"the entity {top} isn't in the files as one would write it; --no-compare leaves the comparison out")


def types_in(text):
    begun = re.search(r"\bport\s*\(", text)
    types, items = {}, re.split(r";", text[begun.end() :]) if begun else []
    for item in items:
        found = re.match(r"\s*(?:signal\s+)?([\w\s,]+?)\s*:\s*(?:in\b|out\b|inout\b|buffer\b)?\s*([\w.]+)", item)
        if found:
            types.update((name.strip(), found[2].rpartition(".")[2]) for name in found[1].split(","))
    return types


def vhdl_type(port, types):
    """The words for a port: its type in the bench, how it is made of bits, and how it is shown as a text."""
    kind = types.get(port.name.lower())
    if kind not in VHDL_TYPES:
        raise Trouble(f"the port {port.name} has the type {kind}, for which there is no bench; --no-compare leaves the comparison out")
    made, shown = VHDL_TYPES[kind]
    width = len(port.nets)
    if kind == "boolean":
        return kind, made, "synth_bit({0})"
    return (f"{kind} ({width - 1} downto 0)" if port.bounds else kind), made, shown


def vhdl_takes(design, words):
    """Assignments of a row's bits to the inputs."""
    at = 0
    for p in design.given():
        kind, made, _ = words[p.name]
        bits = f"({at} to {at + len(p.nets) - 1})" if "(" in kind else f"({at})"
        yield f"      {p.name} <= {made.format(f'synth_given(synth_k){bits}')};"
        at += len(p.nets)


def vhdl_declared(design, words):
    for p in design.ports():
        kind = words[p.name][0]
        yield f"  signal {p.name} : {kind}{f' := {zero(kind)}' if p.name == design.clock else ''};"


def vhdl_rise(design, words):
    """The clock rises, and falls after a while."""
    if not design.clock:
        return []
    kind = words[design.clock][0]
    return [f"      {design.clock} <= {one(kind)};", "      wait for 5 ns;", f"      {design.clock} <= {zero(kind)};"]


def vhdl_bench(design, rows, types):
    words = {p.name: vhdl_type(p, types) for p in design.ports()}
    shown = " & ".join(f"to_string({words[p.name][2].format(p.name)})" for p in design.outputs)
    table = ",\n    ".join(f'"{row}"' for row in rows)
    return "\n".join([
        "library ieee;", "use ieee.std_logic_1164.all;", "use ieee.numeric_std.all;", "use std.textio.all;",
        "entity synth_bench is", "end synth_bench;",
        "architecture bench of synth_bench is",
        f"  type synth_rows is array (0 to {len(rows) - 1}) of std_logic_vector(0 to {len(rows[0]) - 1});",
        f"  constant synth_given : synth_rows := (\n    {table});", *vhdl_declared(design, words),
        "  function synth_bit(b : boolean) return bit is begin if b then return '1'; else return '0'; end if; end;", "begin",
        f"  synth_dut : entity work.{design.top} port map ({', '.join(f'{p.name} => {p.name}' for p in design.ports())});",
        "  process", "    variable synth_line : line;", "  begin", "    for synth_k in synth_rows'range loop", *vhdl_takes(design, words),
        "      wait for 5 ns;", f'      write(synth_line, string\'("seen ") & {shown});', "      writeline(std.textio.output, synth_line);",
        *vhdl_rise(design, words), "    end loop;", "    wait;", "  end process;", "end bench;", "",
    ])


def zero(kind):
    return "false" if kind == "boolean" else "'0'"


def one(kind):
    return "true" if kind == "boolean" else "'1'"
