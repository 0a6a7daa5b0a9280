#!/usr/bin/env bash
# Looks at real layouts with tools that others made: the rules of MOSIS processes by Magic, in two reading styles, and by Netgen whether the
# transistors that Magic extracts are those of the netlist. The layouts are what `s2r` writes by the tables of examples/real.
#
# Usage: bench/silicon.sh PROGRAM [SOURCE..]
#
# The sources are the examples, circuits as courses have them and an ALU of 16 bits where none is said. One in Verilog or VHDL, as those of
# examples/course, goes through `share/synth` before; its file is called like its module or entity.
#
# PROCESSES in the environment is another list than scn6m_subm,scn4m_subm,scn3me_subm; KINDS another than cells,rows,blocks; LIBRARY another
# folder of cells than cells/, with cells of the same names.
#
# cells: each cell alone: how many transistors there are, errors in each style, whether they are those that are meant, and whether they do at
# switch level what the cell's vbe file says. rows: all cells in rows, in random order and orientation. blocks: what `flow` lays out, over rows
# on 4 metals and on all, and with --tracks; the netlist is cougar's; and where the source's registers show at outputs, random inputs
# at switch level against the source. What isn't installed (magic, netgen-lvs, qflow-tech-osu018, -osu035, -osu050) is skipped with a line.
# It ends with 1 where something is wrong. A layout without transistors is wrong, whatever its errors.
set -eu
if [ $# -lt 1 ] || [ ! -x "$1" ]; then
  echo "usage: $0 PROGRAM [SOURCE..]" >&2
  exit 2
fi
top=$(dirname "$(dirname "$(realpath "$0")")")
program=$1
shift
exec python3 "$top/bench/silicon/run.py" "$program" "${LIBRARY:-$top/cells}" "${PROCESSES:-scn6m_subm,scn4m_subm,scn3me_subm}" \
  "${KINDS:-cells,rows,blocks}" "$@"
