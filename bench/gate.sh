#!/usr/bin/env bash
# Prints how many minutes of processor a run of the gate takes, by crate: its proofs, its tests, its must-fail edits.
#
# Usage: bench/gate.sh [COMMAND..]      (rt ci, if no command is given; it needs python3 and Linux's /proc)
#
# The command runs in the repository, and what it prints goes to standard error. It is no part of the gate.
set -eu
cd "$(dirname "$0")/.."
[ $# -gt 0 ] || set -- rt ci
exec python3 bench/gate.py "$@"
