#!/usr/bin/env bash
# Measures the netlists of `alliance boog` over the row library cells/: on the examples, on circuits as courses have them (adders,
# multipliers of 4 to 27 bits, ALUs of 8 and 16, decoders, encoders, filters, counters, state machines), and on circuits of 1,000 to 16,000
# nands. Beside them stand abc over the same cells with columns as areas (`ifraig; scorr; dc2; &nf`, what yosys gives it), and before
# abc yosys' own `synth`, where they are installed.
#
# Usage: bench/boog.sh PROGRAM [SECONDS]      (a run that takes longer than SECONDS, 300 at first, is cut off)
#
# GATES in the environment is another list of numbers, which rises; COURSES another list of SCRIPT KIND NUMBER, a circuit a line; DEEP one of
# KIND NUMBER for deep_trees.py, whose sources read few inputs again and again; an empty one leaves its sources out. NODES is another
# budget of diagrams than 4,000,000.
#
# Columns: the source; seconds, megabytes, cells and columns of 500 of boog of the source; the same of `boom` and boog of what that writes,
# which is the netlist that flow places, but for buffers and drives, where cells and columns are `-` if a diagram is over the budget (flow refuses such a
# source); seconds, cells and columns of abc; seconds and megabytes of `area`, how many trees there are, and their least area; the columns of
# boog, and of the netlist of flow, for each column of abc; and the columns of boog's gates, without registers and constants, for each of the
# trees' least area, which boog may fall short of, since a cell of its may stand for gates of several trees. For the nands besides by how much the
# seconds of boog and of `area` grow when the gates double. Behind them stands `area` alone of sources that read few inputs. The last lines
# have the geometric mean and the greatest of the ratios.
set -eu

if [ $# -lt 1 ] || [ ! -x "$1" ] || [ ! -x /usr/bin/time ]; then
  echo "usage: $0 PROGRAM [SECONDS]      (it needs /usr/bin/time)" >&2
  exit 2
fi
program=$(realpath "$1")
most=${2:-300}
here=$(dirname "$(realpath "$0")")
. "$here/measure.sh"
work=$(mktemp -d)
trap 'rm -rf "$work"' EXIT
cp -r "$here/../cells" "$work/lib"
cp "$here"/../examples/*/*.vbe "$here"/../examples/*/*.fsm "$work"
yosys=$(command -v yosys || true)
abc=$(command -v berkeley-abc || command -v yosys-abc || true)
[ -n "$yosys" ] || echo "skipped: yosys isn't installed, so abc has the sources as they are"
[ -n "$abc" ] || echo "skipped: berkeley-abc isn't installed, so its columns are empty"
cd "$work"
python3 "$here/areas.py" --genlib lib >cells.genlib

row='%-16s  %7s %5s %6s %7s  %7s %5s %6s %7s  %7s %6s %7s  %7s %5s %6s %7s  %6s %6s %6s  %6s %6s\n'
ratios=ratios.txt
: >"$ratios"

# areas [--gates] FILE: cells and columns of a netlist, or - -.
areas() {
  if [ -f "${*: -1}" ]; then python3 "$here/areas.py" "$@" lib; else echo "- -"; fi
}

# told WORD: the number behind the word in what `area` printed, or -.
told() {
  awk -v word="$1" '$1 == word { print $2; found = 1 } END { if (!found) print "-" }' told
}

# ratio COLUMNS COLUMNS_OF_ABC
ratio() {
  awk -v a="$1" -v b="$2" 'BEGIN { if (a + 0 > 0 && b + 0 > 0) printf "%.3f", a / b; else printf "-" }'
}

added() {
  awk -v a="$1" -v b="$2" 'BEGIN { if (a == "-" || b == "-") printf "-"; else printf "%.2f", a + b }'
}

# best_of_abc: maps c.blif, and what yosys makes of it, and prints seconds, cells and columns of the narrower netlist.
best_of_abc() {
  local script="strash; ifraig; scorr; dc2; strash; &get -n; &nf; &put" source took other cells columns best=- best_cells=- best_took=-
  for source in c y; do
    rm -f mapped.blif
    other=0
    if [ "$source" = y ]; then
      [ -n "$yosys" ] || break
      read -r other _ < <(measured said "$yosys" -q -p "read_blif c.blif; setattr -unset init; synth; dfflegalize -cell \$_DFF_P_ x; abc -g AND; opt_clean; write_blif y.blif")
      [ "$other" != - ] || continue
    fi
    read -r took _ < <(measured said "$abc" -c "read_library cells.genlib; read_blif $source.blif; zero; $script; write_blif mapped.blif")
    read -r cells columns < <(areas mapped.blif)
    if [ "$columns" != - ] && { [ "$best" = - ] || [ "$columns" -lt "$best" ]; }; then
      best=$columns best_cells=$cells best_took=$(added "$took" "$other")
    fi
  done
  echo "$best_took $best_cells $best"
}

took_before=- tree_took_before=- gates_before=0
# netlists NAME [GATES]: maps c.vbe in each way and prints its row.
netlists() {
  local took memory cells columns smaller smaller_memory again again_memory flow_took flow_cells=- flow_columns=-
  local abc_took=- abc_cells=- abc_columns=- one two three grown=- tree_grown=-
  local tree_took tree_memory trees area gate_columns
  rm -f r.vst m.vbe f.vst c.blif y.blif mapped.blif told
  read -r took memory < <(measured printed "$program" boog c.vbe -l lib -o r)
  read -r cells columns < <(areas r.vst)
  read -r smaller smaller_memory < <(measured printed "$program" boom c.vbe -o m --nodes "${NODES:-4000000}")
  again=- again_memory=-
  [ ! -f m.vbe ] || read -r again again_memory < <(measured printed "$program" boog m.vbe -l lib -o f)
  [ ! -f f.vst ] || read -r flow_cells flow_columns < <(areas f.vst)
  flow_took=$(added "$smaller" "$again")
  if [ -n "$abc" ] && python3 "$here/../share/netlist" --blif c.vbe >c.blif; then
    read -r abc_took abc_cells abc_columns < <(best_of_abc)
  fi
  read -r tree_took tree_memory < <(measured told "$program" area c.vbe -l lib)
  trees=$(told trees) area=$(told area)
  read -r _ gate_columns < <(areas --gates r.vst)
  one=$(ratio "$columns" "$abc_columns") two=$(ratio "$flow_columns" "$abc_columns") three=$(ratio "$gate_columns" "$area")
  echo "$one $two $three" >>"$ratios"
  if [ -n "${2:-}" ]; then
    grown=$(growth "$took_before" "$gates_before" "$took" "$2")
    tree_grown=$(growth "$tree_took_before" "$gates_before" "$tree_took" "$2")
    took_before=$took tree_took_before=$tree_took gates_before=$2
  fi
  printf "$row" "$1" "$took" "$(megabytes "$memory")" "$cells" "$columns" "$flow_took" "$(megabytes "$smaller_memory")" "$flow_cells" "$flow_columns" \
    "$abc_took" "$abc_cells" "$abc_columns" "$tree_took" "$(megabytes "$tree_memory")" "$trees" "$area" "$one" "$two" "$three" "$grown" "$tree_grown"
}

printf "$row" '' boog '' '' '' flow '' '' '' abc '' '' area '' '' '' boog flow gates boog area
printf "$row" source seconds MB cells columns seconds MB cells columns seconds cells columns seconds MB trees columns /abc /abc /area 'gates*2' 'gates*2'
for path in *.vbe *.fsm; do
  name=${path%.*}
  if [ "${path##*.}" = fsm ]; then
    "$program" syf "$path" -o c >printed
  else
    cp "$path" c.vbe
  fi
  netlists "$name"
done
while read -r script kind number; do
  [ -n "$kind" ] || continue
  if [ "$kind" = machine ]; then
    python3 "$here/$script" "$kind" "$number" >s.fsm
    "$program" syf s.fsm -o c >printed
  else
    python3 "$here/$script" "$kind" "$number" >c.vbe
  fi
  netlists "$kind $number"
done <<<"${COURSES-arithmetic.py adder 8
arithmetic.py adder 16
arithmetic.py adder 32
arithmetic.py multiplier 4
arithmetic.py multiplier 6
arithmetic.py multiplier 8
arithmetic.py multiplier 10
arithmetic.py multiplier 12
arithmetic.py multiplier 16
arithmetic.py multiplier 24
arithmetic.py multiplier 27
course_circuits.py alu 8
course_circuits.py alu 16
course_circuits.py decoder 3
course_circuits.py decoder 4
course_circuits.py decoder 5
course_circuits.py encoder 8
course_circuits.py encoder 16
course_circuits.py filter 4
course_circuits.py filter 8
course_circuits.py counter 8
course_circuits.py counter 16
course_circuits.py machine 8
course_circuits.py machine 16}"
for gates in ${GATES-1000 2000 4000 8000 16000}; do
  python3 "$here/asimut_inputs.py" "$gates" 1 "$work" --nands
  netlists "$gates nands" "$gates"
done
# deep KIND GATES: `area` of a source whose tree reads few inputs again and again, and so has very many cuts.
kind_before=- deep_took_before=- deep_before=0
deep() {
  local took memory grown=-
  [ "$kind_before" = "$1" ] || deep_took_before=-
  python3 "$here/deep_trees.py" "$1" "$2" >c.vbe
  read -r took memory < <(measured told "$program" area c.vbe -l lib)
  grown=$(growth "$deep_took_before" "$deep_before" "$took" "$2")
  kind_before=$1 deep_took_before=$took deep_before=$2
  printf "$deep_row" "$1 $2" "$took" "$(megabytes "$memory")" "$(told trees)" "$(told area)" "$grown"
}

deep_row='%-16s  %7s %6s %7s %7s  %7s\n'
printf "$deep_row" 'few inputs' area '' '' '' area
printf "$deep_row" source seconds MB trees columns 'gates*2'
while read -r kind gates; do
  [ -z "$kind" ] || deep "$kind" "$gates"
done <<<"${DEEP-ands 100
ands 200
ands 400
ands 800
ands 1600
ands 3000
chains 200
chains 400
chains 800
chains 1600
chains 3200
formula 400
formula 800
formula 1600
formula 3200}"
awk '{
  for (k = 1; k <= 3; k++) if ($k != "-") { n[k]++; logs[k] += log($k); if ($k > top[k]) top[k] = $k }
} END {
  split("boog flow gates", names); split("abc abc area", others)
  for (k = 1; k <= 3; k++) if (n[k]) printf "%s: %.3f in the mean and %.3f at the most over %d circuits, for each column of %s\n", \
    names[k], exp(logs[k] / n[k]), top[k], n[k], others[k]
}' "$ratios"
