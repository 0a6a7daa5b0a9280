#!/usr/bin/env bash
# Measures `alliance syf`, and `alliance flow --tracks` over the row library cells/, on state machines: rings of up to 256 states, each of
# which leads to the next one, and forks, where each leads to one of two states by an input, with the three encodings.
#
# Usage: bench/syf.sh PROGRAM [SECONDS]      (a run that takes longer than SECONDS, 300 at first, is cut off)
#
# CASES in the environment is another list of KIND:STYLE:STATES,STATES.., with the kinds of bench/syf_inputs.py and the styles of `-e`.
#
# Columns: the source, its encoding and bytes; seconds and megabytes of syf, by how much the seconds grow when the number of states
# doubles, and the bytes of what it writes; the size after encoding and the nodes of the largest diagram; seconds and megabytes of flow,
# by how much these seconds grow, and the cells. Where flow refuses, its line stands in place of cells: a ring of 64 states with a bit for
# each is one past the limit size.
set -eu

if [ $# -lt 1 ] || [ ! -x "$1" ] || [ ! -x /usr/bin/time ]; then
  echo "usage: $0 PROGRAM [SECONDS]      (it needs /usr/bin/time)" >&2
  exit 2
fi
program=$(realpath "$1")
most=${2:-300}
here=$(dirname "$(realpath "$0")")
. "$here/measure.sh"
work=$(mktemp -d)
trap 'rm -rf "$work"' EXIT
cp -r "$here/../cells" "$work/lib"
cd "$work"

row='%-10s %2s %7s  %8s %5s %6s %8s  %6s %6s  %8s %5s %6s  %s\n'
printf "$row" source -e bytes syf MB 'n*2' written size nodes flow MB 'n*2' cells
for case in ${CASES:-ring:j:32,50,64,128,256 ring:r:32,50,64,128,256 ring:o:16,32,50,63,64 fork:j:25,50,100 fork:r:25,50,100 fork:o:10,20,40}; do
  IFS=: read -r kind style counts <<<"$case"
  before=0 syf_before=- flow_before=-
  for count in ${counts//,/ }; do
    python3 "$here/syf_inputs.py" "$kind" "$count" .
    rm -f r.vbe r.ap
    read -r coded coded_memory < <(measured codes "$program" syf c.fsm -o r -e "$style" --seed 1)
    read -r took memory < <(measured printed "$program" flow c.fsm -l lib -o r --tracks -e "$style" --seed 1)
    written=-
    [ ! -f r.vbe ] || written=$(wc -c <r.vbe)
    size=$(sed -n 's/^size //p' printed) nodes=$(sed -n 's/^nodes //p' printed) cells=$(sed -n 's/^cells //p; s/^flow: //p' printed)
    printf "$row" "$kind:$count" "$style" "$(wc -c <c.fsm)" "$coded" "$(megabytes "$coded_memory")" \
      "$(growth "$syf_before" "$before" "$coded" "$count")" "$written" "${size:--}" "${nodes:--}" "$took" "$(megabytes "$memory")" \
      "$(growth "$flow_before" "$before" "$took" "$count")" "${cells:--}"
    before=$count syf_before=$coded flow_before=$took
  done
done
