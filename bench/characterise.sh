#!/usr/bin/env bash
# Measures the row library cells/ by ngspice: delays, slopes, capacitances, setup and hold. The transistors and their capacitances are those that
# Magic extracts from each cell's real layout, which `share/cif` makes by the table of examples/real for SCN6M_SUBM. docs/CHARACTERISATION.md
# says what is measured, and by which models.
#
# Usage: bench/characterise.sh PROGRAM             writes bench/cell_numbers.csv and cells/timing.csv
#        bench/characterise.sh PROGRAM --check     measures anew, and ends with 1 where a number is off by more than 2 (ps, fF, ohm) and by more than 2 %
#        bench/characterise.sh PROGRAM --print     prints a line for each cell and writes nothing
#
# In the environment, CELLS is a list of names to which a run is restricted, and EXTRACTED a folder with the cells' transistors, NAME.spice, where
# they are there already. What isn't installed (ngspice, magic, qflow-tech-osu018) ends the run with a line that says so.
set -eu

if [ $# -lt 1 ] || [ ! -x "$1" ]; then
  echo "usage: $0 PROGRAM [--check | --print]" >&2
  exit 2
fi
program=$(realpath "$1")
extracted=${EXTRACTED:+$(realpath "$EXTRACTED")}
cd "$(dirname "$(realpath "$0")")/.."
rules=/usr/share/qflow/tech/osu018/SCN6M_SUBM.10.tech
style='lambda=0.10(p)'

# needs WORD..: ends the run where one of these programs and files isn't there.
needs() {
  for word; do
    if ! command -v "$word" >/dev/null && [ ! -f "$word" ]; then
      echo "skipped: there is no $word"
      exit 0
    fi
  done
}

# extraction NAME..: the lines that make Magic write NAME.spice, with each capacitance of at least 0.01 fF.
extraction() {
  printf 'drc off\ncif istyle {%s}\n' "$style"
  for name; do
    printf 'cif read %s\nload %s\nselect top cell\nextract all\next2spice lvs\next2spice cthresh 0.01\next2spice -o %s.spice\n' "$name" "$name" "$name"
  done
  echo "quit -noprompt"
}

needs ngspice
if [ -z "$extracted" ]; then
  needs magic "$rules"
  extracted=$(mktemp -d)
  trap 'rm -rf "$extracted"' EXIT
  names=$(awk '$2 == "C" { print $1 }' cells/CATAL)
  for name in $names; do
    share/cif "cells/$name.ap" cells examples/real/scn6m_subm.real >"$extracted/$name.cif"
  done
  extraction $names >"$extracted/run.tcl"
  if ! (cd "$extracted" && magic -dnull -noconsole -rcfile /dev/null -T "$rules" run.tcl >log 2>&1 </dev/null); then
    tail -5 "$extracted/log" >&2
    exit 1
  fi
fi
nice -n 8 python3 bench/characterise.py cells "$extracted" "${@:2}"
