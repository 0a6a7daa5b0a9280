#!/usr/bin/env bash
# Measures the routing over rows of `alliance flow` on the examples, on circuits as courses have them (multipliers to 8 bits, ALUs of 8 and
# 16, encoders, decoders, filters, counters, state machines) and on generated circuits of 50 to 16,000 gates, over the row library cells/,
# and then `ocp` and `nero` on netlists of 1,000, 3,000 and 10,000 cells whose wires are as local as Rent's rule says (rent_netlist.py);
# and beside it, up to 3,000 cells, on the same placement and pins, qrouter, and on the same netlist and number of rows graywolf, which
# places, where they are installed. Before that, where PROBE is given, the program maze_probe, it measures the routing alone over empty grids of 5 and of 50 million
# nodes: no net, one net of 10,000 pins, nets of two pins.
#
# Usage: bench/route.sh PROGRAM [SECONDS [PROBE]]      (a run that takes longer than SECONDS, 300 at first, is cut off)
#        bench/route.sh - SECONDS PROBE                the routing alone
#
# GATES in the environment is another list of numbers, METALS another number than 6, ROWS so many rows in place of as many as make the
# block about square, FANOUT another number than 32; an empty COURSES leaves the circuits of courses out. CELLS and EXPONENTS are other
# lists for rent_netlist.py, whose seed is SEED, 1 at first. BESIDE is another number of cells, up to which qrouter and graywolf run. PROBES
# is another list of words for PROBE, a run a line.
#
# All seconds are those of the processor, but for the limit. Columns of PROBE: its words; nodes of the grid, nets, and their points; whether all are routed, or the net and the point at which one is
# stuck; steps and vias of all paths; seconds, megabytes, and bytes at the most for a node. Where there is no net, so that each node gets
# its marks and nothing is searched, nodes a second; where there are some, paths a second beyond that time, if a run before shows it.
#
# Columns of PROGRAM: the source; seconds and megabytes of flow with tracks, which has all stages but this routing; seconds and megabytes
# over rows; nodes of the grid; bytes of the difference in memory for a node; nets that are routed, of how many; length of the wires in
# steps; vias but for those on pins; how many times larger the layout with tracks is; seconds, steps, vias and unrouted nets of qrouter.
# Where a net is stuck the numbers are those of NAME_part.ap. Wires and nodes are counted by route.py, the second router's reading. Then of
# placing alone: hp, the length of the placement in steps (half perimeters, docs/formats/blocks.md); how long it is with `--moves 0`, where
# only neighbours are exchanged; the processor's seconds of ocp, on the netlist of the layout; hp of graywolf's rows, drawn by our rules with the ports
# in our columns; hp over the points where graywolf has them; its seconds. For netlists of cells there is no run with tracks, and the
# seconds and megabytes over rows are those of nero alone.
set -eu

program=${1:-}
most=${2:-300}
probe=${3:-}
if [ ! -x /usr/bin/time ] || { [ "$program" != - ] && [ ! -x "$program" ]; } || { [ -n "$probe" ] && [ ! -x "$probe" ]; } \
  || [ "$program$probe" = - ]; then
  echo "usage: $0 PROGRAM [SECONDS [PROBE]]      (PROGRAM may be -, with PROBE; it needs /usr/bin/time)" >&2
  exit 2
fi
[ "$program" = - ] || program=$(realpath "$program")
[ -z "$probe" ] || probe=$(realpath "$probe")
here=$(dirname "$(realpath "$0")")
. "$here/measure.sh"
work=$(mktemp -d)
trap 'rm -rf "$work"' EXIT
cp -r "$here/../cells" "$work/lib"
cp "$here"/../examples/*/*.vbe "$here"/../examples/*/*.fsm "$work"
cd "$work"

probe_row='%-34s %9s %6s %7s %-10s %9s %7s  %7s %5s %7s %10s %8s\n'
bare_grid=- bare_took=-

# probed KIND METALS COLUMNS ROWS NUMBER SEED: runs PROBE with these words and prints the row.
probed() {
  local took memory cells bare=- grid="$2 $3 $4"
  read -r took memory < <(spent printed "$probe" "$@")
  if [ "$5" = 0 ]; then
    bare_grid=$grid bare_took=$took
  elif [ "$grid" = "$bare_grid" ]; then
    bare=$bare_took
  fi
  read -r -a cells < <(python3 "$here/route.py" --probe "$(cat printed)" "$took" "$memory" "$bare")
  printf "$probe_row" "$*" "${cells[@]}"
}

if [ -n "$probe" ]; then
  printf "$probe_row" '' '' '' '' '' '' '' '' '' bytes nodes paths
  printf "$probe_row" words nodes nets points routed steps vias seconds MB a.node a.second a.second
  while read -r kind wide; do
    # shellcheck disable=SC2086
    [ -z "$kind" ] || probed "$kind" $wide
  done <<<"${PROBES-pairs 6 1000 1000 0 1
pins 6 1000 1000 10000 1
pairs 6 1000 1000 200 1
pairs 6 3200 3125 0 1
pins 6 3200 3125 10000 1
pairs 6 3200 3125 20 1}"
  [ "$program" != - ] || exit 0
  echo
fi

metals=${METALS:-6} fanout=${FANOUT:-32}
rows=(${ROWS:+--rows "$ROWS"})

"$program" flow row1.vbe -l lib -o r "${rows[@]}" --metals "$metals" >printed 2>&1 && status=0 || status=$?
if [ "$status" = 1 ]; then
  echo "skipped: the program doesn't route over rows on $metals metals"
  exit 0
fi
qrouter=$(command -v qrouter || true)
[ -n "$qrouter" ] || echo "skipped: there is no qrouter, so its columns are empty"
graywolf=$(command -v graywolf || true)
[ -n "$graywolf" ] || echo "skipped: there is no graywolf, so its columns are empty"

row='%-16s %7s %5s  %7s %5s  %9s %6s  %6s %6s %8s %7s %6s  %7s %8s %7s %5s  %8s %8s %7s  %8s %8s %7s\n'

# routed NAME FILE: runs flow on FILE both ways and prints the row.
routed() {
  local tracks tracks_memory took memory laid=r.ap nodes=- done=- nets=- steps=- vias=- saved=- bytes=- q_took=- q_steps=- q_vias=- q_left=-
  local hp=- descent=- ocp_took=- g_hp=- g_own=- g_took=-
  rm -f t.ap r.ap r_part.ap n.vst
  read -r tracks tracks_memory < <(spent printed "$program" flow "$2" -l lib -o t --tracks --fanout "$fanout")
  read -r took memory < <(spent printed "$program" flow "$2" -l lib -o r "${rows[@]}" --metals "$metals" --fanout "$fanout")
  [ -f r.ap ] || laid=r_part.ap
  if [ -f "$laid" ]; then
    read -r nodes done nets steps vias saved < <(python3 "$here/route.py" "$laid" lib t.ap "$metals")
    bytes=$(awk -v a="$tracks_memory" -v b="$memory" -v n="$nodes" 'BEGIN { if (a + 0 > 0 && b + 0 > 0 && n + 0 > 0) printf "%.1f", (b - a) * 1024 / n; else print "-" }')
    beside "$laid"
    ocp_alone
  fi
  printf "$row" "$1" "$tracks" "$(megabytes "$tracks_memory")" "$took" "$(megabytes "$memory")" "$nodes" "$bytes" "$done" "$nets" "$steps" "$vias" \
    "$saved" "$q_took" "$q_steps" "$q_vias" "$q_left" "$hp" "$descent" "$ocp_took" "$g_hp" "$g_own" "$g_took"
}

# ocp_alone: places the netlist of the layout with ocp, which has to give the length of the layout, and with exchanges of neighbours alone.
ocp_alone() {
  local length memory
  [ -f n.vst ] || return 0
  read -r ocp_took memory < <(spent printed "$program" ocp n.vst -l lib -o o "${rows[@]}")
  [ "$ocp_took" != - ] || return 0
  length=$(steps_of printed)
  [ "$length" = "$hp" ] || echo "the length of ocp's placement is $length, that of the layout $hp"
  read -r _ memory < <(spent printed "$program" ocp n.vst -l lib -o o "${rows[@]}" --moves 0)
  descent=$(steps_of printed)
}

# beside FILE: qrouter and graywolf on a layout that isn't too large for them.
beside() {
  local router=$qrouter tool=$graywolf
  [ "$(grep -c '^I ' "$1")" -le "${BESIDE:-3000}" ] || router='' tool=''
  if [ -n "$router" ]; then
    read -r q_took q_steps q_vias q_left < <(timeout "$most" python3 "$here/route_beside.py" "$1" lib "$metals" "$router" || echo - - - -)
  fi
  read -r hp g_hp g_own g_took < <(python3 "$here/place_beside.py" "$1" lib "${tool:+timeout $most }${tool:--}" n.vst || echo - - - -)
}

# rent CELLS EXPONENT: places and routes a netlist of cells, and prints the row.
rent() {
  local took memory laid=r.ap nodes=- done=- nets=- steps=- vias=- q_took=- q_steps=- q_vias=- q_left=-
  local hp=- descent=- ocp_took=- g_hp=- g_own=- g_took=-
  rm -f o.ap r.ap r_part.ap
  python3 "$here/rent_netlist.py" "$1" "$2" "${SEED:-1}" >n.vst
  read -r _ memory < <(spent printed "$program" ocp n.vst -l lib -o o "${rows[@]}" --moves 0)
  descent=$(steps_of printed)
  read -r ocp_took memory < <(spent printed "$program" ocp n.vst -l lib -o o "${rows[@]}")
  read -r took memory < <(spent printed "$program" nero n.vst -p o.ap -l lib -o r --metals "$metals")
  [ -f r.ap ] || laid=r_part.ap
  if [ -f "$laid" ]; then
    read -r nodes done nets steps vias < <(python3 "$here/route.py" --netlist n.vst "$laid" lib "$metals")
    beside "$laid"
  fi
  printf "$row" "$1 cells $2" - - "$took" "$(megabytes "$memory")" "$nodes" - "$done" "$nets" "$steps" "$vias" - \
    "$q_took" "$q_steps" "$q_vias" "$q_left" "$hp" "$descent" "$ocp_took" "$g_hp" "$g_own" "$g_took"
}

printf "$row" '' tracks '' rows '' '' bytes nets '' '' '' '' qrouter '' '' '' placing moves ocp graywolf '' ''
printf "$row" source seconds MB seconds MB nodes a.node routed of steps vias area seconds steps vias left hp 0 seconds hp own seconds
for path in *.vbe *.fsm; do
  routed "${path%.*}" "$path"
done
while read -r script kind number; do
  [ -n "$kind" ] || continue
  ending=vbe
  [ "$kind" != machine ] || ending=fsm
  python3 "$here/$script" "$kind" "$number" >"c.$ending"
  routed "$kind $number" "c.$ending"
done <<<"${COURSES-arithmetic.py multiplier 2
arithmetic.py multiplier 4
arithmetic.py multiplier 6
arithmetic.py multiplier 8
course_circuits.py alu 8
course_circuits.py alu 16
course_circuits.py encoder 16
course_circuits.py decoder 5
course_circuits.py filter 8
course_circuits.py counter 16
course_circuits.py machine 12
course_circuits.py machine 40}"
for gates in ${GATES-50 100 250 500 1000 2000 4000 8000 16000}; do
  python3 "$here/asimut_inputs.py" "$gates" 1 "$work" --blocks
  routed "$gates gates" c.vbe
done
for cells in ${CELLS-1000 3000 10000}; do
  for exponent in ${EXPONENTS-0.6 0.7}; do
    rent "$cells" "$exponent"
  done
done
