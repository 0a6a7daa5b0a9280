#!/usr/bin/env bash
# Takes the circuits of examples/course, each in Verilog and in VHDL, by the commands of their page to a source, a layout, a second look at it, DEF and
# GDSII, and opens these two in klayout.
#
# Usage: bench/course.sh PROGRAM [NAME..]
#
# NAME is a circuit, as uart, or its file, as uart.vhd; without one all are taken. A line each: registers and cells, the columns of these, the length of
# the wires as flow prints it, how many functions recheck compared under all values, by diagrams and by vectors, its verdict, seconds. What is wrong
# stands below it. The last line counts; the status is 1 where a circuit isn't taken to its end, and 2 where yosys, ghdl, iverilog or klayout is missing.
set -eu
if [ $# -lt 1 ] || [ ! -x "$1" ]; then
  echo "usage: $0 PROGRAM [NAME..]" >&2
  exit 2
fi
exec python3 "$(dirname "$(realpath "$0")")/course.py" "$@"
