#!/usr/bin/env bash
# Measures `alliance fmi` on state machines of up to 256 states and 12 inputs: chains, of which each round tells one more state apart, random
# ones, ones with each state twice, and ones whose states all do the same.
#
# Usage: bench/fmi.sh PROGRAM [SECONDS]      (a run that takes longer than SECONDS, 300 at first, is cut off)
#
# CASES in the environment is another list of KIND:INPUTS:STATES,STATES.., with the kinds of bench/fmi_inputs.py.
#
# Columns: the source, how many inputs it reads, its bytes; seconds and megabytes of fmi, by how much the seconds grow when the number of states
# doubles; the states of what it writes, and its bytes.
set -eu

if [ $# -lt 1 ] || [ ! -x "$1" ] || [ ! -x /usr/bin/time ]; then
  echo "usage: $0 PROGRAM [SECONDS]      (it needs /usr/bin/time)" >&2
  exit 2
fi
program=$(realpath "$1")
most=${2:-300}
here=$(dirname "$(realpath "$0")")
. "$here/measure.sh"
work=$(mktemp -d)
trap 'rm -rf "$work"' EXIT
cd "$work"

row='%-12s %6s %7s  %8s %5s %6s  %6s %7s\n'
printf "$row" source inputs bytes fmi MB 'n*2' states written
for case in ${CASES:-chain:12:32,64,128,256 random:12:32,64,128,256 doubled:12:32,64,128,256 alike:12:32,64,128,256 random:6:256 random:9:256}; do
  IFS=: read -r kind inputs counts <<<"$case"
  before=0 took_before=-
  for count in ${counts//,/ }; do
    python3 "$here/fmi_inputs.py" "$kind" "$count" "$inputs" .
    rm -f r.fsm
    read -r took memory < <(measured told "$program" fmi c.fsm -o r)
    states=- written=-
    [ ! -f r.fsm ] || states=$(sed -n 's/^states //p' told) written=$(wc -c <r.fsm)
    printf "$row" "$kind:$count" "$inputs" "$(wc -c <c.fsm)" "$took" "$(megabytes "$memory")" "$(growth "$took_before" "$before" "$took" "$count")" \
      "$states" "$written"
    before=$count took_before=$took
  done
done
