#!/usr/bin/env bash
# Makes files at and near the limits for every reader and most tools, each at sizes that double, and measures what a run takes: shapes that lie
# on each other, in each other and in a chain, one net of all pins, deep nests, the longest chains, wide vectors, many states, many cells.
#
# Usage: bench/hostile.sh PROGRAM [SECONDS] [WORD..]    a run is cut off after SECONDS of a processor, 60 at first; where words are given,
#                                                       only families whose name has one of them are measured
#        STEPS=2 bench/hostile.sh PROGRAM               each family's first two sizes alone, for a program that is slow
#
# Memory runs out at 8 GB: then the status is 8.
#
# Columns: the family and what is counted; bytes of all files; status; seconds; megabytes; by how much seconds and megabytes grow when the bytes
# double. `!` stands behind what misses the goal: 10 seconds and 2 GB, and growth of at most 2.3 where a run takes half a second or 64 MB.
set -eu
if [ $# -lt 1 ] || [ ! -x "$1" ]; then
  echo "usage: $0 PROGRAM [SECONDS] [WORD..]" >&2
  exit 2
fi
exec python3 "$(dirname "$(realpath "$0")")/hostile.py" "$(realpath "$1")" "${@:2}"
