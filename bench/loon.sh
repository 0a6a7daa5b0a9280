#!/usr/bin/env bash
# Measures `alliance loon` on netlists that `boog` makes of circuits of 1,000 to 16,000 nands, and on nets of 10 to 10,000 sinks, over
# the row library cells/. Beside it, where it is installed, abc cuts the same netlists' fan-out (`buffer -N`); it chooses no drives of
# these cells, so its seconds are of a smaller job.
#
# Usage: bench/loon.sh PROGRAM [SECONDS]      (a run that takes longer than SECONDS, 300 at first, is cut off)
#
# GATES, SINKS and FANOUT in the environment are other lists of numbers, which rise, and another limit than 8.
#
# Columns: gates or sinks, instances before, seconds and megabytes of loon, by how much its seconds grow when the number doubles,
# instances and femtoseconds after; seconds of abc.
set -eu

if [ $# -lt 1 ] || [ ! -x "$1" ] || [ ! -x /usr/bin/time ]; then
  echo "usage: $0 PROGRAM [SECONDS]      (it needs /usr/bin/time)" >&2
  exit 2
fi
program=$(realpath "$1")
most=${2:-300}
here=$(dirname "$(realpath "$0")")
. "$here/measure.sh"
work=$(mktemp -d)
trap 'rm -rf "$work"' EXIT
cp -r "$here/../cells" "$work/lib"
abc=$(command -v berkeley-abc || command -v yosys-abc || true)
[ -n "$abc" ] || echo "berkeley-abc isn't installed: its column is left out"
cd "$work"
cp "$here/gates.genlib" .
fanout=${FANOUT:-8}

# A netlist of an inverter whose output so many inverters read; one of them drives the port.
star() {
  local last=$(($1 - 1)) k
  echo "entity star is port (i : in bit; y : out bit; vdd, vss : in bit); end star;"
  echo "architecture x of star is"
  echo "component inv_x1 port (i : in bit; nq : out bit; vdd, vss : in bit); end component;"
  echo "signal s : bit;"
  echo "signal o : bit_vector ($last downto 0);"
  echo "begin"
  echo "y0 : inv_x1 port map (i => o(0), nq => y, vdd => vdd, vss => vss);"
  echo "x0 : inv_x1 port map (i => i, nq => s, vdd => vdd, vss => vss);"
  for ((k = 0; k < $1; k++)); do echo "g$k : inv_x1 port map (i => s, nq => o($k), vdd => vdd, vss => vss);"; done
  echo "end x;"
}

row='%6s %9s  %8s %5s  %6s %9s %9s   %8s\n'

# number NUMBER: one line of the table, of r.vst; BEFORE and TOOK of the last one.
number() {
  local before=$2 took memory cells delay abc_took=-
  read -r took memory < <(measured printed "$program" loon r.vst -l lib -o w --fanout "$fanout")
  cells=$(sed -n 's/^cells //p' printed) delay=$(sed -n 's/^delay //p' printed)
  if [ -n "$abc" ] && [ -f c.blif ]; then
    read -r abc_took _ < <(measured said "$abc" -c "read_library gates.genlib; read_blif c.blif; strash; map -a; buffer -N $fanout; print_stats")
  fi
  printf "$row" "$1" "$before" "$took" "$(megabytes "$memory")" "$(growth "$last_took" "$last_number" "$took" "$1")" "${cells:--}" "${delay:--}" "$abc_took"
  last_took=$took last_number=$1
}

printf "$row" gates instances seconds MB gates*2 cells delay abc
last_took=- last_number=0
for gates in ${GATES:-1000 2000 4000 8000 16000}; do
  python3 "$here/asimut_inputs.py" "$gates" 1 "$work" --nands
  python3 "$here/../share/netlist" --blif c.vbe >c.blif
  rm -f r.vst
  measured printed "$program" boog c.vbe -l lib -o r >/dev/null
  number "$gates" "$(sed -n 's/^cells //p' printed)"
done
rm -f c.blif
echo
printf "$row" sinks instances seconds MB sinks*2 cells delay abc
last_took=- last_number=0
for sinks in ${SINKS:-10 100 1000 10000}; do
  star "$sinks" >r.vst
  number "$sinks" $((sinks + 2))
done
