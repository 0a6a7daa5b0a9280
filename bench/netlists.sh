#!/usr/bin/env bash
# Measures `alliance asimut` on netlists: those that boog makes of circuits of 1,000 to 16,000 nands, beside their sources, and
# checks that both print the same; then random ones of 10,000 to 160,000 instances of the row library cells/.
#
# Usage: bench/netlists.sh PROGRAM [SECONDS]      (a run that takes longer than SECONDS, 300 at first, is cut off)
#
# GATES and INSTANCES in the environment are other lists of numbers, which rise, at most 16,000 and 1,000,000, or are empty;
# PATTERNS another number of patterns (at first 5,000 on circuits and 500 on random netlists).
#
# Columns of the first table: gates of the source, cells of the netlist; on the source seconds, megabytes, and microseconds for
# 1,000 gates and one pattern beyond reading; the same on the netlist for 1,000 cells; and how many gates a cell costs.
# Of the second: instances, bytes of the netlist; seconds and megabytes without a pattern, which is reading and checking, and by
# how much the seconds grow when the instances double; the same with the patterns, and microseconds for 1,000 instances and one
# pattern beyond reading.
set -eu

if [ $# -lt 1 ] || [ ! -x "$1" ] || [ ! -x /usr/bin/time ]; then
  echo "usage: $0 PROGRAM [SECONDS]      (it needs /usr/bin/time)" >&2
  exit 2
fi
program=$(realpath "$1")
most=${2:-300}
here=$(dirname "$(realpath "$0")")
. "$here/measure.sh"
work=$(mktemp -d)
trap 'rm -rf "$work"' EXIT
cp -r "$here/../cells" "$work/lib"
cd "$work"
printf 'begin\nend;\n' >none.pat

# each READING SECONDS NUMBER PATTERNS: microseconds beyond reading for 1,000 of them and one pattern, or -.
each() {
  awk -v r="$1" -v t="$2" -v n="$3" -v p="$4" 'BEGIN { if (t + 0 > 0 && r != "-" && n + 0 > 0) printf "%.1f", (t - r) * 1e9 / n / p; else printf "-" }'
}

patterns=${PATTERNS:-5000}
echo "$patterns patterns on sources and on their netlists"
row='%6s %6s   %8s %5s %7s   %8s %5s %7s  %5s\n'
printf "$row" gates cells source MB us/k netlist MB us/k cell
for gates in ${GATES-1000 2000 4000 8000 16000}; do
  python3 "$here/asimut_inputs.py" "$gates" "$patterns" "$work" --nands
  rm -f r.vst
  "$program" boog c.vbe -l lib -o r >printed || true
  cells=$(sed -n 's/^cells //p' printed)
  read -r source_read _ < <(measured printed "$program" asimut c.vbe -p none.pat)
  read -r netlist_read _ < <(measured printed "$program" asimut r.vst -p none.pat -l lib)
  read -r source memory < <(measured of_source "$program" asimut c.vbe -p p.pat)
  read -r netlist more < <(measured of_netlist "$program" asimut r.vst -p p.pat -l lib)
  if [ "$source" != - ] && [ "$netlist" != - ] && ! cmp -s of_source of_netlist; then
    echo "the outputs of $gates gates and of their netlist differ" >&2
    exit 1
  fi
  by_gate=$(each "$source_read" "$source" "$gates" "$patterns")
  by_cell=$(each "$netlist_read" "$netlist" "${cells:-0}" "$patterns")
  ratio=$(awk -v g="$by_gate" -v c="$by_cell" 'BEGIN { if (g + 0 > 0 && c + 0 > 0) printf "%.2f", c / g; else printf "-" }')
  printf "$row" "$gates" "${cells:--}" "$source" "$(megabytes "$memory")" "$by_gate" "$netlist" "$(megabytes "$more")" "$by_cell" "$ratio"
done

patterns=${PATTERNS:-500}
printf '\n%s patterns on random netlists\n' "$patterns"
row='%9s %9s  %8s %5s %7s  %8s %5s %7s %9s\n'
printf "$row" instances bytes reading MB n*2 seconds MB n*2 us/k
read_before=- ran_before=- before=0
for count in ${INSTANCES-10000 20000 40000 80000 160000}; do
  python3 "$here/netlist_inputs.py" "$count" "$patterns" "$work"
  read -r reading memory < <(measured printed "$program" asimut n.vst -p none.pat -l lib)
  read -r ran more < <(measured printed "$program" asimut n.vst -p n.pat -l lib)
  printf "$row" "$count" "$(wc -c <n.vst)" "$reading" "$(megabytes "$memory")" "$(growth "$read_before" "$before" "$reading" "$count")" \
    "$ran" "$(megabytes "$more")" "$(growth "$ran_before" "$before" "$ran" "$count")" "$(each "$reading" "$ran" "$count" "$patterns")"
  read_before=$reading ran_before=$ran before=$count
done
