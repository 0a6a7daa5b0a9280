#!/usr/bin/env bash
# Measures `alliance asimut` on circuits of 1,000 to 16,000 gates with 100 to 10,000 patterns, and beside it Icarus Verilog
# and Verilator on the same circuit with the same vectors, where they are installed. It checks that all show the same outputs.
#
# Usage: bench/asimut.sh PROGRAM [SECONDS] [--chain | --wide]      (a run that takes longer than SECONDS, 300 at first, is cut off)
#
# With --chain all operators stand in one equation. With --wide each gate gives a bit of a wide vector; there are at most 2,047.
# GATES and PATTERNS in the environment are other lists of numbers, each rising. Netlists: netlists.sh.
#
# Columns: gates, patterns, bytes of the source; of asimut the seconds without a pattern, which is reading the source, then those
# with the patterns on a source that has the ports and no gate, which is reading and printing them, then those on the circuit,
# and megabytes; by how much its seconds grow when the gates double, and when the patterns double; nanoseconds for a gate and
# pattern beyond reading and printing; then the seconds of iverilog (it translates) and of vvp (it runs) with vvp's nanoseconds
# for a gate and pattern, and the seconds in which verilator builds a program and runs it with that program's nanoseconds. Less
# than 0.02 seconds count as too few to divide. Each gate is computed once where the clock doesn't rise and twice where it does,
# so that gates times patterns is the cost, beside that of reading.
set -eu

if [ $# -lt 1 ] || [ ! -x "$1" ] || [ ! -x /usr/bin/time ]; then
  echo "usage: $0 PROGRAM [SECONDS]      (it needs /usr/bin/time)" >&2
  exit 2
fi
program=$(realpath "$1")
most=300
kind=
for word in "${@:2}"; do
  case $word in
    --*) kind=$word ;;
    *) most=$word ;;
  esac
done
case $kind in
  --wide) sizes="250 500 1000 2000" numbers="10 100 1000" ;;
  --chain | "") sizes="1000 2000 4000 8000 16000" numbers="100 1000 10000" ;;
  *)
    echo "unknown: $kind" >&2
    exit 2
    ;;
esac
here=$(dirname "$(realpath "$0")")
. "$here/measure.sh"
work=$(mktemp -d)
trap 'rm -rf "$work"' EXIT
icarus=yes
command -v iverilog >/dev/null && command -v vvp >/dev/null || icarus=no
[ $icarus = yes ] || echo "iverilog isn't installed: its columns are left out"
verilator=yes
command -v verilator >/dev/null || verilator=no
[ $verilator = yes ] || echo "verilator isn't installed: its columns are left out"
cd "$work"
printf 'begin\nend;\n' >none.pat

# agrees SECONDS FILE: stops where a simulator that ran shows other outputs than asimut.
agrees() {
  if [ "$took" != - ] && [ "$1" != - ] && ! cmp -s outputs "$2"; then
    echo "the outputs of $gates gates and $patterns patterns differ" >&2
    exit 1
  fi
}

# each SECONDS BEYOND..: nanoseconds for a gate and pattern of what a run takes beyond others, or - where one failed or it is little.
each() {
  echo "$@" | awk -v n="$gates" -v m="$patterns" \
    '{ left = 2 * $1; for (k = 1; k <= NF; k++) { left -= $k; if ($k == "-") failed = 1 } if (!failed && left >= 0.02) printf "%.1f", left * 1e9 / n / m; else printf "-" }'
}

row='%6s %8s %8s  %7s %7s %8s %5s  %7s %10s %6s  %8s %8s %6s  %8s %8s %6s\n'
printf "$row" gates patterns bytes source texts seconds MB gates*2 patterns*2 ns iverilog vvp ns build run ns
declare -A seconds
gates_before=0
for gates in ${GATES:-$sizes}; do
  patterns_before=0
  for patterns in ${PATTERNS:-$numbers}; do
    python3 "$here/asimut_inputs.py" "$gates" "$patterns" "$work" $kind
    read -r source _ < <(measured printed "$program" asimut c.vbe -p none.pat)
    read -r texts _ < <(measured printed "$program" asimut b.vbe -p p.pat)
    read -r took memory < <(measured printed "$program" asimut c.vbe -p p.pat)
    seconds[$gates,$patterns]=$took
    sed -n 's/^<.*?\([0-9a-f]*\);$/\1/p' printed >outputs
    translates=- runs=- builds=- goes=-
    if [ $icarus = yes ]; then
      read -r translates _ < <(measured said iverilog -o c.vvp -s bench c.v)
      read -r runs _ < <(measured shown vvp -n c.vvp)
      agrees "$runs" shown
    fi
    if [ $verilator = yes ]; then
      rm -rf built
      read -r builds _ < <(measured said verilator --binary --timing -O3 -Wno-fatal --top-module bench -Mdir built c.v)
      read -r goes _ < <(measured told built/Vbench)
      grep -x '[0-9a-f]*' told >shown || true
      agrees "$goes" shown
    fi
    by_gates=$(growth "${seconds[$gates_before,$patterns]:--}" "$gates_before" "$took" "$gates")
    by_patterns=$(growth "${seconds[$gates,$patterns_before]:--}" "$patterns_before" "$took" "$patterns")
    printf "$row" "$gates" "$patterns" "$(wc -c <c.vbe)" "$source" "$texts" "$took" "$(megabytes "$memory")" "$by_gates" "$by_patterns" \
      "$(each "$took" "$source" "$texts")" "$translates" "$runs" "$(each "$runs")" "$builds" "$goes" "$(each "$goes")"
    patterns_before=$patterns
  done
  gates_before=$gates
done
