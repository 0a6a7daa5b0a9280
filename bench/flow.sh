#!/usr/bin/env bash
# Measures `alliance flow --tracks` over the row library cells/: on circuits of 1,000 to 16,000 nands in blocks of 256, on adders of 8 to 64 bits and on
# multipliers of 2 x 2 to 16 x 16 bits. Beside it stand the stages that are tools of their own: `boog` (reading, graph, mapping, the
# netlist's text), `loon` (reading that netlist, buffers, drives) and `cougar` (reading the layout, its rectangles, what they join). What
# flow takes beyond the first two is for checks, row, tracks, drawing and the layout's text.
#
# Usage: bench/flow.sh PROGRAM [SECONDS]      (a run that takes longer than SECONDS, 300 at first, is cut off)
#
# GATES, ADDERS and MULTIPLIERS in the environment are other lists of numbers, which rise; an empty one leaves its sources out. FANOUT is
# another limit of sinks than 8.
#
# Columns: the source, its size and bytes; seconds and megabytes of boog, loon, flow and cougar; by how much the seconds of flow grow
# when its size doubles; cells (those that are buffers in parentheses), nets, picoseconds, lines and bytes of the layout. The last lines say whether the goals are met: growth at most 2.3 from the
# second source on that takes half a second or more, and 16,000 gates in 60 seconds and 1,024 megabytes.
set -eu

if [ $# -lt 1 ] || [ ! -x "$1" ] || [ ! -x /usr/bin/time ]; then
  echo "usage: $0 PROGRAM [SECONDS]      (it needs /usr/bin/time)" >&2
  exit 2
fi
program=$(realpath "$1")
most=${2:-300}
here=$(dirname "$(realpath "$0")")
. "$here/measure.sh"
work=$(mktemp -d)
trap 'rm -rf "$work"' EXIT
cp -r "$here/../cells" "$work/lib"
cd "$work"

row='%-15s %6s %8s  %7s %5s  %7s %5s  %7s %5s  %7s %5s  %6s  %13s %6s %7s %7s %9s\n'
worst=0 sixteen= fanout=${FANOUT:-8}

# stages NAME: runs the four tools on c.vbe, and prints their row.
stages() {
  local mapped mapped_memory driven driven_memory took memory back back_memory size cells nets delay lines=- bytes=- buffers=- grown
  rm -f r.ap r.vst w.vst back.vst
  read -r mapped mapped_memory < <(measured mapped_out "$program" boog c.vbe -l lib -o r)
  read -r driven driven_memory < <(measured driven_out "$program" loon r.vst -l lib -o w --fanout "$fanout")
  read -r took memory < <(measured printed "$program" flow c.vbe -l lib -o r --tracks --fanout "$fanout")
  read -r back back_memory < <(measured back_out "$program" cougar r.ap -l lib -o back)
  size=$(sed -n 's/^size //p' printed) cells=$(sed -n 's/^cells //p' printed) nets=$(sed -n 's/^nets //p' printed) delay=$(sed -n 's/^delay //p' printed)
  [ ! -f r.ap ] || { lines=$(wc -l <r.ap) bytes=$(wc -c <r.ap) buffers=$(grep -c '^I .*,b[0-9]*,NOSYM$' r.ap || true); }
  grown=$(growth "$took_before" "$size_before" "$took" "${size:-0}")
  printf "$row" "$1" "${size:--}" "$(wc -c <c.vbe)" "$mapped" "$(megabytes "$mapped_memory")" "$driven" "$(megabytes "$driven_memory")" \
    "$took" "$(megabytes "$memory")" "$back" "$(megabytes "$back_memory")" "$grown" "${cells:--} ($buffers)" "${nets:--}" "$((${delay:-0} / 1000))" \
    "$lines" "$bytes"
  worst=$(awk -v w="$worst" -v g="$grown" -v s="$took_before" 'BEGIN { print (s + 0 >= 0.5 && g + 0 > w + 0) ? g : w }')
  [ "$1" != "16000 gates" ] || sixteen="$took $memory"
  took_before=$took size_before=${size:-0}
}

printf "$row" '' '' '' boog '' loon '' flow '' cougar '' '' '' '' '' '' ''
printf "$row" source size bytes seconds MB seconds MB seconds MB seconds MB size*2 cells nets delay lines layout
took_before=- size_before=0
for gates in ${GATES-1000 2000 4000 8000 16000}; do
  python3 "$here/asimut_inputs.py" "$gates" 1 "$work" --blocks
  stages "$gates gates"
done
took_before=- size_before=0
for bits in ${ADDERS-8 16 32 64}; do
  python3 "$here/arithmetic.py" adder "$bits" >c.vbe
  stages "adder $bits"
done
took_before=- size_before=0
for bits in ${MULTIPLIERS-2 4 6 8 16}; do
  python3 "$here/arithmetic.py" multiplier "$bits" >c.vbe
  stages "multiplier $bits"
done

awk -v w="$worst" 'BEGIN { print "growth at double the size: at most " w (w <= 2.3 ? "" : ", more than the goal of 2.3") }'
if [ -n "$sixteen" ]; then
  awk -v all="$sixteen" 'BEGIN { split(all, of, " "); print "16000 gates: " of[1] " s, " int(of[2] / 1024) " MB" \
    ((of[1] + 0 > 0 && of[1] <= 60 && of[2] <= 1048576) ? "" : ", not the goal of 60 s and 1024 MB") }'
fi
