#!/usr/bin/env bash
# Makes the row library `cells/` from the stick lines of bench/cell_maker, or checks what is kept there.
#
# Usage: bench/cells.sh                  makes CATAL and the files of all cells anew
#        bench/cells.sh --check          the files are as they are made, each cell passes the checks of a library, with those
#                                        that only private tracks ask for, and below metal 1 bench/cell_rules.py finds no
#                                        fault; it ends with 1 where something fails
#        bench/cells.sh --table          prints the table of cells/README.md
#        bench/cells.sh --spice          prints the transistors of all cells as they are meant
#        bench/cells.sh --search CELL..  searches for the least columns of these cells
set -eu
cd "$(dirname "$0")/.."
python3 bench/cells.py "$@"
if [ "${1:-}" = --check ]; then
  said=$(python3 -m share.formats.cellcheck --tracks cells)
  echo "checks of the library: $said"
  [ "$said" = ok ]
  python3 bench/cell_rules.py
fi
