#!/usr/bin/env bash
# Runs the built programs on real files: run.py, where there is a python3.
# Usage: acceptance/run.sh PROGRAM [FRONT_PROBE [CELL_PROBE [MAZE_PROBE]]] [--many] [--seed N]
set -u
if ! command -v python3 >/dev/null; then
  echo "skipped: there is no python3"
  echo "0 passed, 0 failed, 1 skipped"
  exit 0
fi
exec python3 "$(dirname "$0")/run.py" "$@"
