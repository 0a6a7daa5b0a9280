#!/usr/bin/env bash
# Gives layouts to another program's extraction: each ap file is turned into CIF with its cells, klayout says which rectangles are joined,
# and its nets with their terminals are compared with those of the netlist that `alliance cougar` writes. Then the same of the CIF file that
# `alliance s2r` writes: klayout opens it as it is, its boxes are counted by layer, and what klayout joins in it is compared with the netlist. The
# file has no text, so the names of ports and of pins are put beside it as labels, and each net is listed with its names.
#
# Usage: bench/viewer.sh PROGRAM [LAYOUT.ap LIBRARY]..
#
# Without layouts it lays out the examples over the row library cells/, and takes these. It needs klayout on the path (Debian's package
# klayout), and says so where there is none.
set -eu

if [ $# -lt 1 ] || [ ! -x "$1" ]; then
  echo "usage: $0 PROGRAM [LAYOUT.ap LIBRARY].." >&2
  exit 2
fi
if ! command -v klayout >/dev/null; then
  echo "skipped: there is no klayout"
  exit 0
fi
program=$(realpath "$1")
shift
here=$(dirname "$(realpath "$0")")
work=$(mktemp -d)
trap 'rm -rf "$work"' EXIT
differing=0
table=$here/../examples/real/start.real

# compared LAYOUT.ap LIBRARY
compared() {
  printf '%s: ' "$1"
  if ! (cp "$1" "$work/l.ap" && cd "$work" && rm -f l.vst nets && "$program" cougar l.ap -l "$library" -o l >said); then
    echo "cougar: $(cat "$work/said")"
    differing=1
    return
  fi
  python3 "$here/viewer.py" cif "$1" "$2" >"$work/l.cif"
  QT_QPA_PLATFORM=offscreen klayout -b -r "$here/viewer_nets.py" -rd cif="$work/l.cif" -rd out="$work/nets" >"$work/log" 2>&1 || cat "$work/log"
  python3 "$here/viewer.py" compare "$1" "$2" "$work/l.vst" "$work/nets" || differing=1
  in_units "$1" "$2"
}

# in_units LAYOUT.ap LIBRARY: the real layout, by the table to start with
in_units() {
  printf '%s in real units: ' "$1"
  cp "$table" "$work/t.real"
  if ! (cd "$work" && rm -f r.cif nets boxes && "$program" s2r l.ap -p t.real -l "$library" -o r >said); then
    echo "s2r: $(cat "$work/said")"
    differing=1
    return
  fi
  python3 "$here/viewer.py" labels "$1" "$2" "$table" >"$work/labels"
  QT_QPA_PLATFORM=offscreen klayout -b -r "$here/viewer_nets.py" -rd cif="$work/r.cif" -rd out="$work/nets" -rd labels="$work/labels" -rd boxes="$work/boxes" \
    >"$work/log" 2>&1 || cat "$work/log"
  awk '/^L / { layer = substr($2, 1, length($2) - 1) } /^B / { n[layer]++ } END { for (l in n) print l, n[l] }' "$work/r.cif" | sort >"$work/written"
  if ! cmp -s "$work/written" "$work/boxes"; then
    echo "klayout counts other boxes:" $(cat "$work/boxes") "in place of" $(cat "$work/written")
    differing=1
  fi
  echo "$(cat "$work/said"), by layer:" $(cat "$work/written")
  python3 "$here/viewer.py" compare "$1" "$2" "$work/l.vst" "$work/nets" --names || differing=1
}

if [ $# -eq 0 ]; then
  for source in "$here"/../examples/*/*.vbe; do
    name=$(basename "$source" .vbe)
    "$program" flow "$source" -l "$here/../cells" -o "$work/$name" --tracks >/dev/null
    set -- "$@" "$work/$name.ap" "$here/../cells"
  done
fi
while [ $# -ge 2 ]; do
  library=$(realpath "$2")
  compared "$1" "$2"
  shift 2
done
exit "$differing"
