"""What each refusal means, what usually causes it and how the thing is written here: the texts of share/explain.

In a text {name} stands for a word of the refusal; {names} are its names, {first} is the first of them.
"""

from typing import NamedTuple


class Text(NamedTuple):
    """A sentence on what is wrong, one on the usual causes, and the heading of docs/REFUSALS.md where more stands."""

    says: str
    causes: str = ""
    page: str = "Faults in a text: status 2"


FAULTS = {
    "bad byte": Text(
        "This byte begins no token, or the text in quotes isn't closed on its line.",
        "Libraries of packages (`use ieee..`), an exclamation mark, a dash alone, letters with accents outside of comments, or quotes that were "
        "copied from a document. Bad bytes count before all else, so this may stand far behind the first mistake.",
    ),
    "syntax": Text(
        "The text can't go on with this token; the mistake is here or just before, perhaps on the line above.",
        "A missing `;` or parenthesis, a form of VHDL that isn't taken, `and` and `or` mixed without parentheses, a reserved word as a name.",
    ),
    "twice": Text("{first} is declared a second time here.", "A signal that is called like a port, or two components or labels of one name."),
    "unknown": Text("{first} isn't declared.", "A slip of the pen, or a signal that still needs a declaration between `is` and `begin`."),
    "width": Text(
        "Two things on this line aren't equally wide, or an index lies outside of the declaration.",
        "A literal with too few digits, a vector beside a bit, `to` where the declaration has `downto`, a vector as a condition.",
    ),
    "two drivers": Text("Two assignments or outputs drive {first}.", "A signal that is assigned on two lines, or a whole vector and one of its bits."),
    "undriven": Text("Nothing drives {first}, which is declared here.", "An assignment that is missing, or that goes to another name or leaves out a bit."),
    "unsupported": Text(
        "This form is read, but has no meaning here.",
        "`inout`, a register that is assigned outside of a guarded block, another signal inside one, an input as a target, or an output that is read.",
    ),
    "clock use": Text(
        "The clock is used otherwise than in a guard `ck and not ck'stable`.",
        "Two clocks, a gated clock, the falling edge, or the clock in an expression; in a netlist a clock pin that another cell drives.",
    ),
    "cycle": Text("{names} read each other in a ring that no register cuts.", "A latch that is written by its gates, or a carry that goes round."),
    "not assigned": Text(
        "On some way through the ifs and cases {first} is given no value.",
        "An `if` without `else`. Give it a value in front of the `case`, which the branches then change.",
    ),
    "bad state": Text("{first} is no state, or two branches list it.", "`ns <= cs` has to name a state instead: `ns <= idle`."),
    "no pragma": Text(
        "The file has no comment that says {missing}.",
        "Each state machine has the three comments `-- pragma CURRENT_STATE cs`, `-- pragma NEXT_STATE ns` and `-- pragma CLOCK ck`, "
        "with the names of its own signals; the clock is an input of type bit.",
    ),
    "time back": Text("This pattern is earlier than the one before it.", "A `+` that is missing in front of the time."),
    "unknown cell": Text(
        "{first} is no cell of the library, or none that this tool can place.",
        "Another library, or a cell whose line in CATAL doesn't have the word C.",
    ),
    "bad map": Text(
        "The component or the instance doesn't fit its cell.",
        "A pin that is left out or mapped twice, a net that isn't declared, vdd and vss exchanged, other ports than the cell has.",
    ),
    "unconnected": Text("The input {names} is alone on its net.", "A net with a slip of the pen in its name."),
    "no driver": Text("The net of {names} is read, and nothing drives it.", "An output pin or an input port that is missing."),
    "bad line": Text(
        "This line has none of the forms that the file may have.",
        "A field too few or too many, a width of 0, a wire called UP that runs across; in a table a second blank, a blank at the end, a number with a point.",
    ),
    "bad layer": Text("This line names a layer that isn't in the list.", "`METAL1` where it is called `ALU1`."),
    "bad transform": Text("This line turns an instance in a way that isn't in the list.", "The words are NOSYM, SYM_X, SYM_Y and SYMXY."),
    "no end": Text("The file ends without its last line.", "A layout ends with a line `EOF`; a table has both `scale` and `grow`."),
    "after end": Text("Something stands behind the line `EOF`.", "Two files were put together."),
    "not placed": Text(
        "This layout isn't the drawing of a placement of this netlist.",
        "The placement of another netlist, or of this one before `loon` or `scapin` changed it; another library; a layout that has wires already.",
    ),
}

# What `unsupported` means of a layout that `s2r` reads: of an instance's cell, and of a layer or contact.
NO_GATE = Text(
    "Instances of {first} have no real layout: the cell is no gate or plain flip-flop whose pins are single bits and whose metal is metal 1 alone.",
    "A cell that only simulation takes, or one with a wire above metal 1.",
)
LOST_METAL = Text(
    "{first} shows metal that the table of the process doesn't write.",
    "No line `segment` or `contact` of the table for it, or no line `metal` for the layer of its box. A via needs a box on each of its two metals.",
)

CHECKS = {
    1: "its vbe isn't read as a data-flow text; `boom` of that file says where",
    2: "its ap isn't read as a layout without instances; `druc` of that file, with a library that is sound, says where",
    3: "its ports and connectors don't have the same names, bit by bit; vdd and vss are among the connectors",
    4: "its box doesn't begin at 0,0, or isn't 5000 high and a multiple of 500 wide",
    5: "vss needs a rail on metal 1 over the whole width at the bottom (up to 600), vdd one at the top (from 4400)",
    6: "a pin covers no grid point (multiples of 500) with 100 around it on metal 1",
    7: "two connectors of different names touch or are joined",
    8: "something of metal 1 lies outside of the box less 100 at the left and right, and is no rail",
    9: "something that is no rail is nearer than 200 to one",
    10: "two pins are reached in one column, which --tracks can't take; without --tracks it can be laid out",
}

LIMITS = {
    "file": "A file may have 1,048,576 bytes, and a netlist or layout 268,435,456.",
    "ident": "A name may have 64 bytes.",
    "number": "A number may be 4,294,967,295 at most.",
    "depth": "Parentheses, ifs and cases may be 256 deep: give an inner part a signal of its own.",
    "chain": "An expression may have 16,384 operators: give a part a signal of its own.",
    "bits": "The ports and signals have too many bits.",
    "ports": "A block may have 4,096 bits of ports: make several blocks.",
    "states": "A state machine may have 256 states.",
    "inputs": "The statements of a state machine may read 12 input bits here: compute one bit of several outside of it.",
    "size": "The source or the layout is too large for this tool: make several blocks, or take `-e j` for a state machine.",
    "coordinate": "A coordinate may be 10^12 at most.",
    "cells": "CATAL may have 1,024 cells with the word C: give another word to those that aren't used.",
    "width": "A cell may be 32 columns of 500 wide.",
}

KINDS = {
    "usage": Text("The words spell no command.", "", "The words: status 1"),
    "library line": Text(
        "Line {line} of CATAL is no entry.", "A line is a cell's name, blanks and a word of capital letters, with nothing behind it; a cell has the word C once.", "The library: status 3"
    ),
    "library cell": Text("The cell {cell} fails check {cause}: {check}.", "", "The library: status 3"),
    "no cover": Text(
        "The library has no usable cell of the kind {cell_kind}.", "The cell's line in CATAL has another word than C, or the cell has metal above metal 1.", "No cell: status 4"
    ),
    "budget": Text(
        "The decision diagram of {name} needs {reached} nodes or more, which is over --nodes.",
        "Products, and choices by wide comparisons. Try `--nodes 4000000`, or lay it out without diagrams: `boog`, `loon`, `ocp`, `nero`.",
        "A large diagram: status 5",
    ),
    "no path": Text(
        "Net {net} is stuck: no free way leads to the pin {pin}. The part that was routed is in NAME_part.ap.",
        "Too few metals or rows that are too full. Try another `--seed`, more `--metals` or `--moves`, other `--rows`, or `--tracks`; for nero, `rip` in its place.",
        "Statuses",
    ),
    "missing": Text("{file} isn't there.", "Names are looked up from the folder in which you are: {here}.", "Files: status 7"),
    "read fault": Text("{file} can't be read.", "It is a folder, or you have no right to read it.", "Files: status 7"),
    "write fault": Text("{file} can't be written.", "Its folder isn't there, the disk is full, or you have no right to write there.", "Files: status 7"),
    "memory": Text("Memory ran out.", "Give it more, or a smaller source.", "Statuses"),
    "limit": Text("The limit `{limit}` is passed: it reached {reached}. {most}", "", "Limits: status 9"),
    "pattern differs": Text("In the pattern {label}, the output {name} isn't what is expected there.", "", "What was compared: status 11"),
    "no behaviour": Text(
        "The cell {cell} can't be simulated.", "Its vbe has a form that can't be run; for flatbeh it is neither a gate nor a plain flip-flop.", "What was compared: status 11"
    ),
    "different": Text("The port or instance {name} isn't the same in both netlists.", "", "What was compared: status 11"),
    "near": Text(
        "Two shapes of metal {layer} don't touch, but their boxes would.", "Take a smaller grow of this metal in the table, or a larger scale.", "What was compared: status 11"
    ),
    "apart": Text(
        "Two shapes of metal {layer} touch, and their boxes wouldn't meet.",
        "The table's lines of this metal keep less than the 100 by which a wire sticks out at its ends, or shrink or move one of the two alone.",
        "What was compared: status 11",
    ),
    "near boxes": Text(
        "Two boxes on {layer} don't meet, and are nearer than the table's line `space {layer}` says. Their edges, in real units:{numbers}.",
        "Two shapes of the layout that lie too near each other, as boxes of one net beside each other do; or a line `segment` or `contact` that grows them by too much.",
        "What was compared: status 11",
    ),
    "off grid": Text(
        "A box on {layer} has an edge that is no multiple of the table's grid, or no area. Its edges, in real units:{numbers}.",
        "A shape of an odd width, or off the grid of the cells; or a length in the table that is no multiple of its grid, or shrinks a shape to nothing.",
        "What was compared: status 11",
    ),
    "shorted": Text("A wire joins the ports {a} and {b}.", "`share/draw` shows it.", "What was compared: status 11"),
    "names": Text(
        "{name} is an input, an output or a register of one of the two sources alone.",
        "Registers that `flow` or `boog` named: `share/registers` gives them back their names.",
        "What was compared: status 11",
    ),
    "function differs": Text("{name} isn't the same function in both sources.", "", "What was compared: status 11"),
    "gap": Text("Two shapes of metal {metal} are too near each other.", "`share/draw --breaches` marks them.", "What was compared: status 11"),
    "narrow": Text("A shape of metal {metal} is too narrow.", "`share/draw --breaches` marks it.", "What was compared: status 11"),
}

# Forms of VHDL that students write, and what stands for them here: where one matches the line at fault, its sentence is added.
HABITS = (
    (r"\b(library|use)\b", "Packages aren't read: delete the `library` and `use` lines, and write `bit` and `bit_vector` for std_logic and std_logic_vector."),
    (r"std_u?logic|\bunsigned\b|\bsigned\b|\binteger\b", "Types are `bit` and `bit_vector(3 downto 0)`."),
    (r"'event|rising_edge|falling_edge", "A register is written in a block `name : block (ck and not ck'stable) begin r <= guarded ..; end block;`."),
    (r"\bprocess\b|\bwait\b", "Data-flow texts have no processes: registers stand in guarded blocks, and a choice is `a when c else b`."),
    (r"\bothers\s*=>", "`(others => '0')` isn't read: write the bits, as `\"0000\"`."),
    (r"\bif\b|\bcase\b", "In a data-flow text a choice is written `q <= a when c = '1' else b;`."),
    (r"\bgenerate\b|\bport\s+map\b", "There is no hierarchy in a data-flow text: `share/synth` flattens a whole design."),
    (r"[^<>:/]=\s*'[01]'|[<>]\s*\d", "Comparisons are `=` and `/=` of equally wide operands."),
    (r"[-+*]", "There is no arithmetic: an adder is written by its carries, or made by `share/synth`."),
    (r"'[-XxZzUu]'", "A bit is '0' or '1'."),
)
