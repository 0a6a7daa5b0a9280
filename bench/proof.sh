#!/usr/bin/env bash
# Measures `alliance proof` on sources in two forms: sums, products, parities and counters. Each pair is compared as it is, where both do the
# same, and with one operator of the second changed. Beside it, where they are installed, abc (`cec`) and yosys (`equiv_make`, `equiv_simple`,
# `equiv_induct`) compare the same pairs, given as BLIF and as Verilog by the acceptance's reader of sources.
#
# Usage: bench/proof.sh PROGRAM [SECONDS]      (a run that takes longer than SECONDS, 300 at first, is cut off)
#
# CASES in the environment is another list of KIND:BITS, with the kinds of bench/proof_inputs.py.
#
# Columns: the pair; seconds and megabytes of proof on the equal pair and what it says; seconds on the changed pair and what it says; the same
# of abc and yosys without megabytes. proof builds whole diagrams, and counts them; abc and yosys look for one vector, so on products they go
# further. Of a changed pair yosys says what it couldn't prove, which is told as `not`.
set -eu

if [ $# -lt 1 ] || [ ! -x "$1" ] || [ ! -x /usr/bin/time ]; then
  echo "usage: $0 PROGRAM [SECONDS]      (it needs /usr/bin/time)" >&2
  exit 2
fi
program=$(realpath "$1")
most=${2:-300}
here=$(dirname "$(realpath "$0")")
. "$here/measure.sh"
work=$(mktemp -d)
trap 'rm -rf "$work"' EXIT
yosys=$(command -v yosys || true)
abc=$(command -v berkeley-abc || command -v yosys-abc || true)
[ -n "$yosys" ] || echo "yosys isn't installed: its columns are left out"
[ -n "$abc" ] || echo "berkeley-abc isn't installed: its columns are left out"
cd "$work"

# proved OTHER: runs proof on a and OTHER, and prints `seconds kilobytes answer`. A status of 5 or 11 is an answer too.
proved() {
  local code=0
  timeout "$most" /usr/bin/time -q -f '%e %M' -o times "$program" proof a.vbe -b "$1.vbe" --nodes 4000000 >said || code=$?
  case $code in
    0 | 5 | 11) echo "$(cat times) $(sed 's/^proof: //; s/[: ].*//' said)" ;;
    *) echo "- - status_$code" ;;
  esac
}

# by_abc OTHER: `seconds answer`.
by_abc() {
  local took
  [ -n "$abc" ] || { echo "- -"; return; }
  sed 's/^.model .*/.model m/' a.blif >one.blif
  sed 's/^.model .*/.model m/' "$1.blif" >other.blif
  took=$(measured said "$abc" -c "cec one.blif other.blif")
  echo "${took% *} $(grep -q 'are equivalent' said && echo equal || echo not)"
}

# by_yosys OTHER: `seconds answer`.
by_yosys() {
  local code=0
  [ -n "$yosys" ] || { echo "- -"; return; }
  timeout "$most" /usr/bin/time -q -f %e -o times "$yosys" -q -p \
    "read_verilog a.v $1.v; proc; opt_clean; equiv_make a $1 e; hierarchy -top e; equiv_simple; equiv_induct; equiv_status -assert" \
    >said 2>&1 || code=$?
  case $code in
    0) echo "$(cat times) equal" ;;
    1) echo "$(cat times) not" ;;
    *) echo "- -" ;;
  esac
}

row='%-10s  %8s %5s %-7s  %8s %-7s   %8s %-5s  %8s %-5s   %8s %-5s  %8s %-5s\n'
printf "$row" '' proof '' '' changed '' abc '' changed '' yosys '' changed ''
printf "$row" pair seconds MB says seconds says seconds says seconds says seconds says seconds says
for case in ${CASES:-sum:8 sum:16 sum:32 sum:64 times:2 times:3 times:4 times:5 times:6 parity:16 parity:64 count:8 count:16 count:32}; do
  python3 "$here/proof_inputs.py" "${case%:*}" "${case#*:}" .
  read -r equal memory says < <(proved b)
  read -r changed _ says_changed < <(proved c)
  read -r abc_equal abc_says < <(by_abc b)
  read -r abc_changed abc_says_changed < <(by_abc c)
  read -r yosys_equal yosys_says < <(by_yosys b)
  read -r yosys_changed yosys_says_changed < <(by_yosys c)
  printf "$row" "$case" "$equal" "$(megabytes "$memory")" "$says" "$changed" "$says_changed" "$abc_equal" "$abc_says" "$abc_changed" \
    "$abc_says_changed" "$yosys_equal" "$yosys_says" "$yosys_changed" "$yosys_says_changed"
done
