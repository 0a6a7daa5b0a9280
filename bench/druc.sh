#!/usr/bin/env bash
# Measures `alliance druc` on layouts of 1,000 to 100,000 instances of the row library cells/ in rows, with a via and wires on each pin: as they
# are, where they break no rule, and with one wire of each hundred moved. Then layouts that `flow` draws of 1,000 to 8,000 nands. Beside it,
# where it is installed, klayout checks width and distance on the same layouts, given as CIF.
#
# Usage: bench/druc.sh PROGRAM [SECONDS]      (a run that takes longer than SECONDS, 300 at first, is cut off)
#
# INSTANCES and GATES in the environment are other lists of numbers, which rise, or are empty.
#
# Columns: instances or gates, lines and bytes of the layout; seconds and megabytes of druc, by how much its seconds grow when the number
# doubles, breaches; seconds and breaches with wires moved; the same of klayout, with its edges. klayout puts touching shapes together and knows
# no instances, so its numbers are another count: both say 0, or neither does.
set -eu

if [ $# -lt 1 ] || [ ! -x "$1" ] || [ ! -x /usr/bin/time ]; then
  echo "usage: $0 PROGRAM [SECONDS]      (it needs /usr/bin/time)" >&2
  exit 2
fi
program=$(realpath "$1")
most=${2:-300}
here=$(dirname "$(realpath "$0")")
. "$here/measure.sh"
work=$(mktemp -d)
trap 'rm -rf "$work"' EXIT
cp -r "$here/../cells" "$work/lib"
klayout=$(command -v klayout || true)
[ -n "$klayout" ] || echo "klayout isn't installed: its columns are left out"
cd "$work"

# checked LAYOUT: runs druc, and prints `seconds kilobytes breaches`. A status of 11 is an answer too.
checked() {
  local code=0
  timeout "$most" /usr/bin/time -q -f '%e %M' -o times "$program" druc "$1" -l lib >said || code=$?
  case $code in
    0 | 11) echo "$(cat times) $(sed -n 's/^breaches //p' said)" ;;
    *) echo "- - status_$code" ;;
  esac
}

# by_klayout LAYOUT: `seconds edges`.
by_klayout() {
  local took
  [ -n "$klayout" ] || { echo "- -"; return; }
  python3 "$here/druc_inputs.py" --cif "$1" >l.cif
  took=$(QT_QPA_PLATFORM=offscreen measured log "$klayout" -b -r "$here/druc_rules.py" -rd cif=l.cif)
  echo "${took% *} $(awk '/^width / { n = $2 + $4 } END { print n == "" ? "-" : n }' log)"
}

row='%-14s %8s %9s  %8s %5s %5s %8s  %8s %8s   %8s %7s  %8s %7s\n'
printf "$row" '' '' '' druc '' '' '' moved '' klayout '' moved ''
printf "$row" layout lines bytes seconds MB n*2 breaches seconds breaches seconds edges seconds edges

# both TITLE NUMBER: a.ap, and b.ap if it is there.
both() {
  local took memory found moved_took=- moved_found=- k_took k_found k_moved=- k_moved_found=-
  read -r took memory found < <(checked a.ap)
  read -r k_took k_found < <(by_klayout a.ap)
  if [ -f b.ap ]; then
    read -r moved_took _ moved_found < <(checked b.ap)
    read -r k_moved k_moved_found < <(by_klayout b.ap)
  fi
  printf "$row" "$1" "$(wc -l <a.ap)" "$(wc -c <a.ap)" "$took" "$(megabytes "$memory")" "$(growth "$before" "$number_before" "$took" "$2")" "$found" \
    "$moved_took" "$moved_found" "$k_took" "$k_found" "$k_moved" "$k_moved_found"
  before=$took number_before=$2
}

before=- number_before=0
for count in ${INSTANCES-1000 3000 10000 30000 100000}; do
  python3 "$here/druc_inputs.py" "$count" .
  both "$count instances" "$count"
done
before=- number_before=0
rm -f b.ap
for gates in ${GATES-1000 2000 4000 8000}; do
  python3 "$here/asimut_inputs.py" "$gates" 1 "$work" --blocks
  rm -f a.ap
  "$program" flow c.vbe -l lib -o a --tracks >said || { cat said; continue; }
  both "$gates gates" "$gates"
done
