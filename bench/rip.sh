#!/usr/bin/env bash
# Measures how many circuits `alliance nero` routes, and `alliance rip` with 100 and with 10,000 rips, on 4, 5 and 6 metals: the examples,
# multipliers of 2 to 12 bits, ALUs of 8 and 16 bits, and generated circuits of 50 to 2,000 gates, over the row library cells/. Each is mapped by
# boog, driven by loon and placed by ocp. Beside them qrouter routes the same placement and pins, where it is installed.
#
# Usage: bench/rip.sh PROGRAM [SECONDS]      (a run that takes longer than SECONDS, 300 at first, is cut off)
#
# METALS in the environment is another list of numbers, RIPS another list of two; GATES another list of sizes, COURSES another list of SCRIPT
# KIND NUMBER, a circuit a line; an empty one leaves its sources out. MOVES is another number for `--moves` of ocp, ROWS so many rows in
# place of as many as make the block about square. An empty QROUTER leaves qrouter out.
#
# Columns: the source; the highest metal; nets; length of the placement in steps of the grid (half perimeters). Then of nero, and of rip with
# each number of rips: nets that are routed, rips (`-` where a net stays stuck), the processor's seconds, length of the wires in steps, vias
# but for those on pins. Where a net is stuck they are those of NAME_part.ap; of a run that was cut off each is `-`. Then seconds, steps, vias
# and unrouted nets of qrouter. The last lines say for each number of metals how many circuits each routes whole, and over those that nero and
# rip both route how much longer the wires of rip are, and over those that qrouter and rip both route how much longer than those of qrouter.
set -eu

program=${1:-}
most=${2:-300}
if [ ! -x "$program" ] || [ ! -x /usr/bin/time ]; then
  echo "usage: $0 PROGRAM [SECONDS]      (it needs /usr/bin/time)" >&2
  exit 2
fi
program=$(realpath "$program")
here=$(dirname "$(realpath "$0")")
. "$here/measure.sh"
work=$(mktemp -d)
trap 'rm -rf "$work"' EXIT
cp -r "$here/../cells" "$work/lib"
cp "$here"/../examples/*/*.vbe "$here"/../examples/*/*.fsm "$work"
cd "$work"

read -r -a metals <<<"${METALS-4 5 6}"
read -r few many <<<"${RIPS-100 10000}"
placing=(${ROWS:+--rows "$ROWS"} ${MOVES:+--moves "$MOVES"})
qrouter=$(command -v "${QROUTER-qrouter}" || true)
[ -n "$qrouter" ] || echo "skipped: there is no qrouter, so its columns are empty"
row='%-16s %6s %6s %8s  %6s %7s %8s %6s  %6s %5s %7s %8s %6s  %6s %5s %7s %8s %6s  %7s %8s %6s %5s\n'
: >found

# laid METALS: nets that are routed, steps and vias of the layout r.ap, or of r_part.ap; the layout stays as l.ap for qrouter.
laid() {
  local path=r.ap done=- steps=- vias=-
  [ -f "$path" ] || path=r_part.ap
  if [ -f "$path" ]; then
    read -r _ done _ steps vias _ < <(timeout "$most" python3 "$here/route.py" --netlist n.vst "$path" lib "$1" 2>errors || echo - - - - -)
    mv "$path" l.ap
  fi
  echo "$done $steps $vias"
}

# routed METALS WORDS..: routes n.vst over p.ap by these words; prints nets that are routed, rips, seconds, steps and vias.
routed() {
  local on=$1 took rips
  shift
  rm -f r.ap r_part.ap
  read -r took _ < <(spent said "$program" "$@" -p p.ap -l lib -o r --metals "$on")
  rips=$(awk '$1 == "rips" { print $2; found = 1 } END { if (!found) print "-" }' said)
  read -r done steps vias < <(laid "$on")
  echo "$done $rips $took $steps $vias"
}

# circuit NAME: maps, places and routes c.vbe, and prints a row for each number of metals.
circuit() {
  local nets length of_nero of_few of_many beside on
  rm -f r.vst n.vst p.ap
  timeout "$most" "$program" boog c.vbe -l lib -o r >said 2>&1 && timeout "$most" "$program" loon r.vst -l lib -o n >said 2>&1 &&
    timeout "$most" "$program" ocp n.vst -l lib -o p "${placing[@]}" >said 2>&1 || true
  if [ ! -f p.ap ]; then
    echo "$1: not placed: $(cat said)"
    return 0
  fi
  length=$(steps_of said)
  for on in "${metals[@]}"; do
    rm -f l.ap
    read -r -a of_nero < <(routed "$on" nero n.vst)
    read -r -a of_few < <(routed "$on" rip n.vst --rips "$few")
    read -r -a of_many < <(routed "$on" rip n.vst --rips "$many")
    nets=-
    [ ! -f l.ap ] || read -r _ _ nets _ < <(timeout "$most" python3 "$here/route.py" --netlist n.vst l.ap lib "$on" 2>errors || echo - - -)
    beside=(- - - -)
    if [ -n "$qrouter" ] && [ -f l.ap ]; then
      read -r -a beside < <(timeout "$most" python3 "$here/route_beside.py" l.ap lib "$on" "$qrouter" || echo - - - -)
    fi
    printf "$row" "$1" "$on" "$nets" "$length" "${of_nero[0]}" "${of_nero[@]:2}" "${of_few[@]}" "${of_many[@]}" "${beside[@]}"
    echo "$on $nets ${of_nero[*]} ${of_few[*]} ${of_many[*]} ${beside[*]}" >>found
  done
}

printf "$row" '' '' '' '' nero '' '' '' "rip" "$few" '' '' '' "rip" "$many" '' '' '' qrouter '' '' ''
printf "$row" source metals nets hp routed seconds steps vias routed rips seconds steps vias routed rips seconds steps vias seconds steps vias left
for path in *.vbe *.fsm; do
  if [ "${path##*.}" = fsm ]; then
    "$program" syf "$path" -o c >said
  else
    cp "$path" c.vbe
  fi
  circuit "${path%.*}"
done
while read -r script kind number; do
  [ -n "$kind" ] || continue
  python3 "$here/$script" "$kind" "$number" >c.vbe
  circuit "$kind $number"
done <<<"${COURSES-arithmetic.py multiplier 2
arithmetic.py multiplier 4
arithmetic.py multiplier 6
arithmetic.py multiplier 8
arithmetic.py multiplier 10
arithmetic.py multiplier 12
course_circuits.py alu 8
course_circuits.py alu 16}"
for gates in ${GATES-50 100 250 500 1000 2000}; do
  python3 "$here/asimut_inputs.py" "$gates" 1 "$work" --blocks
  circuit "$gates gates"
done
awk -v few="$few" -v many="$many" '{
  on = $1; nets = $2 == "-" ? "cut off" : $2; all[on]++
  if ($3 == nets) nero[on]++
  if ($8 == nets) first[on]++
  if ($13 == nets) last[on]++
  if ($18 != "-") { beside[on]++; if ($21 == 0) quiet[on]++ }
  if ($3 == nets && $13 == nets && $6 > 0) { logs[on] += log($16 / $6); both[on]++ }
  if ($21 == 0 && $18 != "-" && $13 == nets && $19 > 0) { q_logs[on] += log($16 / $19); q_both[on]++ }
} END {
  for (on = 4; on <= 6; on++) if (all[on]) {
    printf "%d metals, %d circuits: nero routes %d, rip %d with %d rips and %d with %d", on, all[on], nero[on], first[on], few, last[on], many
    if (beside[on]) printf "; qrouter %d of %d", quiet[on], beside[on]
    if (both[on]) printf "; wires of rip are %.3f times as long as those of nero", exp(logs[on] / both[on])
    if (q_both[on]) printf ", %.3f times as long as those of qrouter", exp(q_logs[on] / q_both[on])
    print ""
  }
}' found
