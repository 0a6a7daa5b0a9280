#!/usr/bin/env bash
# Measures `alliance boom` on adders, multipliers and parities, and beside it, where they are installed, reductions of abc (`collapse;
# strash` by diagrams of all inputs, and `strash; dc2`) and yosys (`synth; abc`).
#
# Usage: bench/boom.sh PROGRAM [SECONDS]      (a run that takes longer than SECONDS, 300 at first, is cut off)
#
# CASES in the environment is another list of KIND:BITS, with the kinds of bench/boom_inputs.py.
#
# Columns: the source and its size; seconds and megabytes of boom, bytes for each node of its largest diagram where that has more than
# 100,000, the size after; seconds and nodes of abc's two reductions and cells of yosys. A node of abc is a gate of two inputs with free
# inverters, so compare it with its own first column and not with a size. A source over the budget shows its status in place of a size.
set -eu

if [ $# -lt 1 ] || [ ! -x "$1" ] || [ ! -x /usr/bin/time ]; then
  echo "usage: $0 PROGRAM [SECONDS]      (it needs /usr/bin/time)" >&2
  exit 2
fi
program=$(realpath "$1")
most=${2:-300}
here=$(dirname "$(realpath "$0")")
. "$here/measure.sh"
work=$(mktemp -d)
trap 'rm -rf "$work"' EXIT
yosys=$(command -v yosys || true)
abc=$(command -v berkeley-abc || command -v yosys-abc || true)
[ -n "$yosys" ] || echo "yosys isn't installed: its columns are left out"
[ -n "$abc" ] || echo "berkeley-abc isn't installed: its columns are left out"
cd "$work"

# The count behind `and =` or `nd =` of the last line of abc's print_stats.
abc_nodes() {
  awk '{ gsub("=", " = ") } / (and|nd) /{ for (k = 1; k < NF; k++) if ($k == "and" || $k == "nd") n = $(k + 2) } END { print n == "" ? "-" : n }' "$1"
}

yosys_cells() {
  awk '/Number of cells:/ { n = $4 } $2 == "cells" { n = $1 } END { print n ? n : "-" }' "$1"
}

row='%-10s %6s  %8s %5s %6s %7s   %7s  %8s %7s  %8s %7s  %8s %7s\n'
printf "$row" source size boom MB B/node after abc0 collapse nodes dc2 nodes yosys cells
for case in ${CASES:-woven:8 woven:16 woven:32 woven:64 apart:8 apart:10 apart:12 times:2 times:3 times:4 times:5 times:6 parity:64}; do
  python3 "$here/boom_inputs.py" "${case%:*}" "${case#*:}" .
  size=$(python3 -c 'import sys; sys.path.insert(0, sys.argv[1]); from acceptance.meaning.mapping import machine_size; from acceptance.readers.vbe_oracle import machine; print(machine_size(machine(open("c.vbe", "rb").read())))' "$here/..")
  rm -f r.vbe
  read -r took memory < <(measured printed "$program" boom c.vbe -o r --nodes 4000000)
  after=$(sed -n 's/^size //p' printed)
  [ -n "$after" ] || after=$(sed -n 's/^boom: \([a-z]*\):.*/\1/p' printed)
  nodes=$(python3 "$here/boom_nodes.py" c.vbe 100000 || true)
  each=-
  [ "$memory" = - ] || [ -z "$nodes" ] || each=$((memory * 1024 / nodes))
  abc_first=- collapse_took=- collapse_n=- dc2_took=- dc2_n=- yosys_took=- yosys_n=-
  python3 "$here/../share/netlist" --blif c.vbe >c.blif
  if [ -n "$abc" ]; then
    read -r _ _ < <(measured said "$abc" -c "read_blif c.blif; strash; print_stats")
    abc_first=$(abc_nodes said)
    read -r collapse_took _ < <(measured said "$abc" -c "read_blif c.blif; strash; collapse; strash; print_stats")
    collapse_n=$(abc_nodes said)
    read -r dc2_took _ < <(measured said "$abc" -c "read_blif c.blif; strash; dc2; print_stats")
    dc2_n=$(abc_nodes said)
  fi
  if [ -n "$yosys" ]; then
    read -r yosys_took _ < <(measured said "$yosys" -p "read_blif c.blif; synth; abc; opt_clean; stat")
    yosys_n=$(yosys_cells said)
  fi
  printf "$row" "$case" "$size" "$took" "$(megabytes "$memory")" "$each" "${after:--}" "$abc_first" "$collapse_took" "$collapse_n" \
    "$dc2_took" "$dc2_n" "$yosys_took" "$yosys_n"
done
