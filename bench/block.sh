#!/usr/bin/env bash
# Measures ocp and nero on netlists of synthetic logic whose wires are as local as Rent's rule says (rent_netlist.py), of 1,000, 3,000 and
# 10,000 cells of the row library cells/, and beside ocp graywolf on the same netlist with as many rows, where it is installed.
#
# Usage: bench/block.sh PROGRAM [SECONDS]      (a run that takes longer than SECONDS, 600 at first, is cut off)
#
# CELLS and EXPONENTS in the environment are other lists of numbers, METALS another number than 6, ROWS so many rows in place of as many as
# make the block about square, SEED another netlist than that of seed 1. An empty GRAYWOLF leaves graywolf out.
#
# Columns: cells that are asked for (some ports get a buffer besides); exponent; seconds (all are of the processor) and megabytes of ocp;
# hp, the length of its placement in steps of the grid (half perimeters, docs/formats/blocks.md), and with `--moves 0`, where only neighbours
# are exchanged; seconds and megabytes of nero; nodes of the grid; nets that are routed, of how many; length of the wires in steps; vias but
# for those on pins; hp of graywolf's rows, drawn by our rules with the ports in our columns, and over the points where graywolf has them; its
# seconds. Where a net is stuck nero's numbers are those of NAME_part.ap, and the line below says which.
set -eu

program=${1:-}
most=${2:-600}
if [ ! -x "$program" ] || [ ! -x /usr/bin/time ]; then
  echo "usage: $0 PROGRAM [SECONDS]      (it needs /usr/bin/time)" >&2
  exit 2
fi
program=$(realpath "$program")
here=$(dirname "$(realpath "$0")")
. "$here/measure.sh"
work=$(mktemp -d)
trap 'rm -rf "$work"' EXIT
cp -r "$here/../cells" "$work/lib"
cd "$work"

metals=${METALS:-6}
rows=(${ROWS:+--rows "$ROWS"})
graywolf=$(command -v "${GRAYWOLF-graywolf}" || true)
[ -n "$graywolf" ] || echo "skipped: there is no graywolf, so its columns are empty"
row='%6s %5s  %7s %5s %8s %8s  %7s %5s  %9s %6s %6s %8s %7s  %8s %8s %7s\n'

# block CELLS EXPONENT: places and routes a netlist, and prints the row.
block() {
  local took memory hp descent=- n_took=- n_memory=- nodes=- done=- nets=- steps=- vias=- g_hp=- g_own=- g_took=- laid=r.ap
  rm -f p.ap r.ap r_part.ap
  python3 "$here/rent_netlist.py" "$1" "$2" "${SEED:-1}" >n.vst
  read -r took memory < <(spent printed "$program" ocp n.vst -l lib -o d "${rows[@]}" --moves 0)
  descent=$(steps_of printed)
  read -r took memory < <(spent printed "$program" ocp n.vst -l lib -o p "${rows[@]}")
  hp=$(steps_of printed)
  if [ -f p.ap ]; then
    read -r n_took n_memory < <(spent routing "$program" nero n.vst -p p.ap -l lib -o r --metals "$metals")
    [ -f r.ap ] || laid=r_part.ap
    if [ -f "$laid" ]; then
      read -r nodes done nets steps vias < <(python3 "$here/route.py" --netlist n.vst "$laid" lib "$metals")
    fi
    if [ -n "$graywolf" ]; then
      read -r _ g_hp g_own g_took < <(python3 "$here/place_beside.py" p.ap lib "timeout $most $graywolf" n.vst || echo - - - -)
    fi
  fi
  printf "$row" "$1" "$2" "$took" "$(megabytes "$memory")" "$hp" "$descent" "$n_took" "$(megabytes "$n_memory")" "$nodes" "$done" "$nets" \
    "$steps" "$vias" "$g_hp" "$g_own" "$g_took"
  [ ! -f p.ap ] || [ -f r.ap ] || cat routing errors
}

printf "$row" '' '' ocp '' '' moves nero '' '' nets '' '' '' graywolf '' ''
printf "$row" cells rent seconds MB hp 0 seconds MB nodes routed of steps vias hp own seconds
for cells in ${CELLS-1000 3000 10000}; do
  for exponent in ${EXPONENTS-0.6 0.7}; do
    block "$cells" "$exponent"
  done
done
