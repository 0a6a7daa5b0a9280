#!/usr/bin/env bash
# Measures `alliance s2r` on layouts of 12,500 to 200,000 boxes: rows of cells of the row library cells/, with a via and wires on each pin, which
# grow by 10 at scale 2 and stay apart; and by a table by which wires of neighbouring pins grow together, so that the first two are named.
#
# Usage: bench/s2r.sh PROGRAM [SECONDS]      (a run that takes longer than SECONDS, 300 at first, is cut off)
#
# INSTANCES in the environment is another list of numbers, which rise.
#
# Columns: instances, bytes of the layout, boxes; seconds and megabytes, and by how much the seconds grow when the boxes double; bytes of the CIF
# file; seconds and megabytes until the first two near shapes are named.
set -eu

if [ $# -lt 1 ] || [ ! -x "$1" ] || [ ! -x /usr/bin/time ]; then
  echo "usage: $0 PROGRAM [SECONDS]      (it needs /usr/bin/time)" >&2
  exit 2
fi
program=$(realpath "$1")
most=${2:-300}
here=$(dirname "$(realpath "$0")")
. "$here/measure.sh"
work=$(mktemp -d)
trap 'rm -rf "$work"' EXIT
cp -r "$here/../cells" "$work/lib"
cd "$work"
cp "$here/../examples/real/start.real" far.real
printf 'scale 2\ngrow 300 300 300 300 300 300\n' >near.real

# named: the same as measured, of a run that ends with status 11.
named() {
  local code=0
  timeout "$most" /usr/bin/time -q -f '%e %M' -o times "$program" s2r a.ap -p near.real -l lib -o b >said || code=$?
  [ "$code" = 11 ] && cat times || echo "- -"
}

row='%-10s %10s %8s  %8s %5s %5s %10s  %8s %5s\n'
printf "$row" '' '' '' apart '' '' '' near ''
printf "$row" instances bytes boxes seconds MB n*2 bytes seconds MB
before=- boxes_before=0
for count in ${INSTANCES-650 1300 2600 5200 10400}; do
  python3 "$here/druc_inputs.py" "$count" .
  read -r took memory < <(measured said "$program" s2r a.ap -p far.real -l lib -o a)
  boxes=$(sed -n 's/^boxes //p' said)
  read -r near_took near_memory < <(named)
  printf "$row" "$count" "$(wc -c <a.ap)" "${boxes:--}" "$took" "$(megabytes "$memory")" "$(growth "$before" "$boxes_before" "$took" "${boxes:-0}")" \
    "$([ -f a.cif ] && wc -c <a.cif || echo -)" "$near_took" "$(megabytes "$near_memory")"
  before=$took boxes_before=${boxes:-0}
done
