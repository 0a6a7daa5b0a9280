#!/usr/bin/env bash
# What can be looked at in half a minute, with nothing proved: whether documents name what isn't there, whether the pages of the headline are
# those of the tree, whether crates.txt and crates/README.md are what the crates' files say, whether the crates that differ from a commit are
# laid out as rt fmt does it, and which passages they repeat.
#
# Usage: bench/check.sh [COMMIT]    COMMIT: HEAD where it is left out. ./build.sh --check calls it
set -u
cd "$(dirname "$0")/.."
base=${1:-HEAD}
wrong=0

said() {
  local name=$1
  shift
  if "$@"; then echo "$name: well"; else echo "$name: see above"; wrong=1; fi
}

# Whether rt fmt would change a file of the crates that differ from the commit; it is tried on copies.
layout() {
  local crate work status=0
  work=$(mktemp -d)
  for crate in $(git diff --name-only "$base" -- 'crates/*/src' 'crates/*/specs' 'crates/*/proofs' | cut -d/ -f2 | sort -u); do
    [ -d "crates/$crate/src" ] || continue
    mkdir -p "$work/crates"
    cp crates.txt HANDLES "$work/"
    mkdir "$work/crates/$crate"
    cp -R "crates/$crate/src" "crates/$crate/specs" "crates/$crate/proofs" "$work/crates/$crate/" 2>/dev/null
    (cd "$work/crates/$crate" && rt fmt >/dev/null 2>&1)
    for folder in "$work/crates/$crate"/*; do
      diff -rq "crates/$crate/$(basename "$folder")" "$folder" || status=1
    done
    rm -rf "$work/crates"
  done
  rm -rf "$work"
  return $status
}

said "what documents name" python3 bench/claims.py
said "pages of the headline" python3 bench/headline.py --check
said "crates.txt and crates/README.md" python3 bench/rooms.py --check
said "layout of files" layout
exit $wrong
