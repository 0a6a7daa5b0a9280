#!/usr/bin/env bash
# Measures `alliance lvx` on netlists of 10,000 to 160,000 instances of the row library cells/: each beside the same netlist in another order
# and with other names of signals, and beside one in which one input is on another net. Where it is installed, netgen (Debian's package
# netgen-lvs) compares the same pairs, given as SPICE with the cells as black boxes.
#
# Usage: bench/lvx.sh PROGRAM [SECONDS]      (a run that takes longer than SECONDS, 300 at first, is cut off)
#
# INSTANCES in the environment is another list of numbers, which rises, at most 1,000,000.
#
# Columns: instances, bytes of a netlist; seconds and megabytes of lvx where both are one netlist, by how much its seconds grow when the
# instances double, and what it says; seconds where one input differs, and what it says; the same of netgen. netgen compares up to names of
# instances, lvx by name: of netlists that are one but for names netgen says that they match, and lvx names the first difference.
set -eu

if [ $# -lt 1 ] || [ ! -x "$1" ] || [ ! -x /usr/bin/time ]; then
  echo "usage: $0 PROGRAM [SECONDS]      (it needs /usr/bin/time)" >&2
  exit 2
fi
program=$(realpath "$1")
most=${2:-300}
here=$(dirname "$(realpath "$0")")
. "$here/measure.sh"
work=$(mktemp -d)
trap 'rm -rf "$work"' EXIT
cp -r "$here/../cells" "$work/lib"
netgen=$(command -v netgen-lvs || true)
[ -n "$netgen" ] || echo "netgen-lvs isn't installed: its columns are left out"
cd "$work"

# compared OTHER: runs lvx on a and OTHER, and prints `seconds kilobytes answer`. A status of 11 is an answer too.
compared() {
  local code=0
  timeout "$most" /usr/bin/time -q -f '%e %M' -o times "$program" lvx a.vst -b "$1.vst" -l lib >said || code=$?
  case $code in
    0 | 11) echo "$(cat times) $(sed 's/^lvx: different /not_/' said)" ;;
    *) echo "- - status_$code" ;;
  esac
}

# matched OTHER: the same of netgen.
matched() {
  local took
  if [ -z "$netgen" ]; then
    echo "- -"
    return
  fi
  rm -f report
  took=$(measured log "$netgen" -batch lvs "a.sp n" "$1.sp n" none.tcl report -blackbox)
  echo "${took% *} $(grep -q '^Circuits match' report 2>/dev/null && echo same || echo not)"
}

row='%9s %9s   %8s %5s %5s %-6s  %8s %-8s   %8s %-5s  %8s %-5s\n'
printf "$row" '' '' lvx '' '' '' changed '' netgen '' changed ''
printf "$row" instances bytes seconds MB n*2 says seconds says seconds says seconds says
: >none.tcl
before=- count_before=0
for count in ${INSTANCES:-10000 20000 40000 80000 160000}; do
  python3 "$here/lvx_inputs.py" "$count" .
  read -r same memory says < <(compared b)
  read -r changed _ says_changed < <(compared c)
  read -r netgen_same netgen_says < <(matched b)
  read -r netgen_changed netgen_says_changed < <(matched c)
  printf "$row" "$count" "$(wc -c <a.vst)" "$same" "$(megabytes "$memory")" "$(growth "$before" "$count_before" "$same" "$count")" "$says" \
    "$changed" "$says_changed" "$netgen_same" "$netgen_says" "$netgen_changed" "$netgen_says_changed"
  before=$same count_before=$count
done
