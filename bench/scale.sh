#!/usr/bin/env bash
# Measures how ocp and nero grow with a netlist of synthetic logic whose wires are as local as Rent's rule says (rent_netlist.py), of 1,000 to
# 60,000 cells of the row library cells/; the readers take 65,536 instances. The routes aren't read, as block.sh does it up to 10,000 cells.
#
# Usage: bench/scale.sh PROGRAM [SECONDS]      (a run that takes longer than SECONDS, 2,400 at first, is cut off)
#
# CELLS and EXPONENTS in the environment are other lists of numbers, METALS another number than 6, SEED another netlist than that of seed 1.
#
# Columns: cells that are asked for; exponent; seconds (of the processor) and megabytes of ocp, and by how much its seconds grow where the
# cells double, from the row before; hp, the length of its placement in steps of the grid; then the same of nero, and its line: how many nets
# it routed, or which one is stuck.
set -eu

program=${1:-}
most=${2:-2400}
if [ ! -x "$program" ] || [ ! -x /usr/bin/time ]; then
  echo "usage: $0 PROGRAM [SECONDS]      (it needs /usr/bin/time)" >&2
  exit 2
fi
program=$(realpath "$program")
here=$(dirname "$(realpath "$0")")
. "$here/measure.sh"
work=$(mktemp -d)
trap 'rm -rf "$work"' EXIT
cp -r "$here/../cells" "$work/lib"
cd "$work"

row='%6s %5s  %8s %6s %6s %9s  %8s %6s %6s  %s\n'
printf "$row" '' '' ocp '' '' '' nero '' '' ''
printf "$row" cells rent seconds MB growth hp seconds MB growth nets
for exponent in ${EXPONENTS-0.6}; do
  before='' placed_before=- routed_before=-
  for cells in ${CELLS-1000 3000 10000 30000 60000}; do
    rm -f p.ap r.ap r_part.ap
    python3 "$here/rent_netlist.py" "$cells" "$exponent" "${SEED:-1}" >n.vst
    read -r placed memory < <(spent printed "$program" ocp n.vst -l lib -o p)
    hp=$(steps_of printed)
    read -r routed routed_memory < <(spent printed "$program" nero n.vst -p p.ap -l lib -o r --metals "${METALS:-6}")
    placed_growth=- routed_growth=-
    if [ -n "$before" ]; then
      placed_growth=$(growth "$placed_before" "$before" "$placed" "$cells")
      routed_growth=$(growth "$routed_before" "$before" "$routed" "$cells")
    fi
    printf "$row" "$cells" "$exponent" "$placed" "$(megabytes "$memory")" "$placed_growth" "$hp" "$routed" "$(megabytes "$routed_memory")" \
      "$routed_growth" "$(tail -1 printed)"
    before=$cells placed_before=$placed routed_before=$routed
  done
done
