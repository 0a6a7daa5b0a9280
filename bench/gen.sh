#!/usr/bin/env bash
# Measures the stages of flow on circuits that `alliance gen` makes, of 8 to 4,000 gates, over the row library cells/. `gen` writes the
# source and does all of flow; beside it stand, each from files, flow itself on that source, and the stages that are tools of their own:
# `boom` (reading, diagrams, the smaller source), `boog` (reading boom's source, graph, mapping, the netlist's text), `loon` (reading
# boog's netlist, buffers, drives), `cougar` (reading flow's layout, what its rectangles join) and `druc` (the rules). A circuit has no
# states to give codes to: for `syf` there is syf.sh.
#
# Usage: bench/gen.sh PROGRAM [SECONDS]      (a run that takes longer than SECONDS, 300 at first, is cut off)
#
# SIZES in the environment is another list of numbers from 8 to 4,000, which rise; SEED another number than 1; FANOUT another limit of
# sinks than 4.
#
# Columns: the circuit's gates; seconds and megabytes of gen; by how much the seconds grow when the gates double; seconds and megabytes
# of boom, boog, loon, flow, cougar and druc; then what the report says: size, nodes, cells, nets, delay in picoseconds.
set -eu

if [ $# -lt 1 ] || [ ! -x "$1" ] || [ ! -x /usr/bin/time ]; then
  echo "usage: $0 PROGRAM [SECONDS]      (it needs /usr/bin/time)" >&2
  exit 2
fi
program=$(realpath "$1")
most=${2:-300}
here=$(dirname "$(realpath "$0")")
. "$here/measure.sh"
work=$(mktemp -d)
trap 'rm -rf "$work"' EXIT
cp -r "$here/../cells" "$work/lib"
cd "$work"
fanout=${FANOUT-4}

# tool WORDS..: runs a tool, and prints its seconds and megabytes.
tool() {
  local took memory
  read -r took memory < <(measured /dev/null "$program" "$@")
  echo "$took" "$(megabytes "$memory")"
}

row='%6s  %7s %4s %6s  %7s %4s  %7s %4s  %7s %4s  %7s %4s  %7s %4s  %7s %4s  %6s %6s %6s %6s %8s\n'
printf "$row" '' gen '' '' boom '' boog '' loon '' flow '' cougar '' druc '' '' '' '' '' ''
printf "$row" gates seconds MB gates*2 seconds MB seconds MB seconds MB seconds MB seconds MB seconds MB size nodes cells nets delay
gates_before=0 took_before=-
for gates in ${SIZES-8 64 250 500 1000 2000 4000}; do
  rm -f g.vbe g.ap small.vbe mapped.vst
  read -r took memory < <(measured printed "$program" gen --seed "${SEED-1}" --size "$gates" -l lib -o g --tracks --fanout "$fanout")
  smaller=$(tool boom g.vbe -o small)
  mapped=$(tool boog small.vbe -l lib -o mapped)
  driven=$(tool loon mapped.vst -l lib -o driven --fanout "$fanout")
  laid=$(tool flow g.vbe -l lib -o g --tracks --fanout "$fanout")
  back=$(tool cougar g.ap -l lib -o back)
  checked=$(tool druc g.ap -l lib)
  said() { sed -n "s/^$1 //p" printed; }
  delay=$(said delay)
  printf "$row" "$gates" "$took" "$(megabytes "$memory")" "$(growth "$took_before" "$gates_before" "$took" "$gates")" \
    $smaller $mapped $driven $laid $back $checked "$(said size)" "$(said nodes)" "$(said cells)" "$(said nets)" "$((${delay:-0} / 1000))"
  gates_before=$gates took_before=$took
done
