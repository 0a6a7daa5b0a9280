#!/usr/bin/env bash
# Refuses memory: makes the Nth call for memory fail, for every N, and each from the Nth on, in `flow` on an inverter, on a state machine, on a
# library that lacks a kind and on a net that gets stuck, and in one run of each tool. The status has to be 8 or that of the run without a
# fault, and the files those of docs/formats/commands.md.
#
# Usage: bench/memory.sh PROGRAM [MOST] [WORD..]    runs with more than MOST calls, 2,000 at first, are tried at their first half of MOST, at
#                                                   the last quarter, and at numbers between; MOST 0 tries all. Each WORD takes the runs of a tool
#
# It needs a C compiler, which makes of refusing.c what is loaded before the program. PROGRAM is the built one; one that `rt try` compiles has an
# allocator of its own and is refused: for it there is `rt try --fail-alloc N`.
#
# Columns: calls for memory in a run without a fault; how many numbers were tried, and of these runs those with status 8 and those that went on
# as without a fault; what was wrong; the words. `once`: one call fails, `on`: each from there on.
set -eu
if [ $# -lt 1 ] || [ ! -x "$1" ]; then
  echo "usage: $0 PROGRAM [MOST] [WORD..]" >&2
  exit 2
fi
here=$(dirname "$(realpath "$0")")
work=$(mktemp -d)
trap 'rm -rf "$work"' EXIT
"${CC:-cc}" -O1 -shared -fPIC -o "$work/refusing.so" "$here/refusing.c"
python3 "$here/memory.py" "$work" "$(realpath "$1")" "${@:2}"
