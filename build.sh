#!/usr/bin/env bash
# Proves the crates of the program side by side, builds it, leaves it at build/alliance, and lays out examples/counter.
# It needs the kit alone: rt is taken from the path, or from $KIT/bin, or from /opt/rattle/bin.
#
# Usage: ./build.sh                     prove, build, and lay out the counter; what was proved is kept, so that it goes on where it was stopped
#        ./build.sh --quick [-- WORDS]  leave build/alliance-unproved, and run it on the counter, or on WORDS of your own; nothing is proved
#        ./build.sh --check [COMMIT]  what can be looked at in half a minute: documents, pages, crates.txt, layout of files; nothing is proved
#        ./build.sh --install PREFIX    copy the proved program that stands in build/, cells/, share/, manual pages and completions below PREFIX
set -eu
cd "$(dirname "$0")"

COUNTER=(flow examples/counter/cnt4.vbe -l cells -o build/cnt4)

rt=$(command -v rt || true)
for folder in "${KIT:-}" /opt/rattle; do
  if [ -z "$rt" ] && [ -n "$folder" ] && [ -x "$folder/bin/rt" ]; then
    rt=$folder/bin/rt
  fi
done
if [ -z "$rt" ] && [ "${1:-}" != --install ]; then
  echo "build.sh: there is no rt; set KIT to the kit's folder" >&2
  exit 2
fi

# The libraries that a crate of crates.txt stands on, and itself, a line each.
stands_on() {
  awk -v top="$1" '
    /^[a-z]/ { split($0, half, ":"); uses[half[1]] = half[2] }
    function visit(name,   n, names, k) {
      if (seen[name]++ || !(name in uses)) return
      print name
      n = split(uses[name], names, " ")
      for (k = 1; k <= n; k++) visit(names[k])
    }
    END { visit(top) }' crates.txt
}

UNPROVED=build/alliance-unproved

# Whether a source is newer than the program that was compiled without proving.
is_old() {
  [ ! -x "$UNPROVED" ] || [ -n "$(find crates crates.txt -newer "$UNPROVED" -not -path '*/out*' -type f -print -quit)" ]
}

# The program compiled from its sources as they stand, with nothing proved, and run with these words.
run_unproved() {
  local status=0
  mkdir -p build
  if is_old; then
    echo "compiling without proving, some minutes; nothing is proved"
    rm -rf "$UNPROVED"
    RT=$rt python3 bench/unproved.py "$UNPROVED"
    echo "$UNPROVED: nothing of it is proved; it is as fast as the proved program"
  fi
  echo "$UNPROVED $*"
  "$UNPROVED" "$@" || status=$?
  echo "build.sh: nothing of this run was proved; ./build.sh proves the program"
  return "$status"
}

# What a user has below the prefix: the program, the row library, the programs of share/, manual pages, completions.
install_below() {
  local prefix=$1 name
  local shared=$prefix/share/alliance
  if [ ! -x build/alliance ]; then
    echo "build.sh: there is no build/alliance to install; ./build.sh builds it, proved" >&2
    return 1
  fi
  mkdir -p "$prefix/bin" "$shared" "$prefix/share/man/man1" "$prefix/share/bash-completion/completions" "$prefix/share/zsh/site-functions"
  install -m 755 build/alliance "$prefix/bin/alliance"
  rm -rf "$shared/cells" "$shared/share" "$shared/examples"
  cp -R cells examples share "$shared/"
  find "$shared" -name __pycache__ -prune -exec rm -rf {} +
  for name in share/*; do
    if [ -f "$name" ] && [ -x "$name" ]; then
      ln -sfn "../share/alliance/$name" "$prefix/bin/alliance-${name#share/}"
    fi
  done
  python3 install/manual.py "$prefix/share/man/man1"
  python3 install/completion.py build/alliance bash >"$prefix/share/bash-completion/completions/alliance"
  python3 install/completion.py build/alliance zsh >"$prefix/share/zsh/site-functions/_alliance"
  echo "$prefix/bin/alliance is installed; its row library is $shared/cells, and man -M $prefix/share/man alliance its manual"
}

# A folder that has the program's crates alone, without their must-fail edits, for one run of the gate over them.
copy_crates() {
  local name
  cp HANDLES "$1"
  mkdir "$1/crates"
  : >"$1/crates.txt"
  for name in "${crates[@]}"; do
    grep "^$name:" crates.txt >>"$1/crates.txt"
    mkdir "$1/crates/$name"
    find "crates/$name" -mindepth 1 -maxdepth 1 ! -name out ! -name must-fail -exec cp -R {} "$1/crates/$name" \;
  done
}

# What the proofs say, and beside it a line for each crate that is proved.
told() {
  local line proved=0
  while IFS= read -r line; do
    printf '%s\n' "$line" >>build/proof.log
    case $line in
      "rt: "*" NOT PROVED"*) printf '%s\n' "$line" ;;
      "rt: "*" proved" | "rt: "*" is kept: "*)
        proved=$((proved + 1))
        line=${line#rt: }
        printf '%s of %s: %s\n' "$proved" "${#crates[@]}" "${line%% *}"
        ;;
    esac
  done
}

if [ "${1:-}" = --quick ]; then
  shift
  [ "${1:-}" != -- ] || shift
  if [ $# -gt 0 ]; then run_unproved "$@"; else run_unproved "${COUNTER[@]}"; fi
  exit
fi
if [ "${1:-}" = --check ] && [ $# -le 2 ]; then
  bench/check.sh "${@:2}"
  exit
fi
if [ "${1:-}" = --install ] && [ $# -eq 2 ]; then
  install_below "$2"
  exit
fi
if [ $# -gt 0 ]; then
  echo "usage: ./build.sh [--quick [-- WORDS] | --check [COMMIT] | --install PREFIX]" >&2
  exit 2
fi

# Only a proved program is left, so that of an earlier run is taken away first; other files stay.
mkdir -p build
rm -f build/alliance build/proof.log
mapfile -t crates < <(stands_on alliance)
work=$(mktemp -d)
trap 'rm -rf "$work"' EXIT
copy_crates "$work"
echo "proving ${#crates[@]} crates on $(nproc) processors; all that is said: build/proof.log"
begun=$SECONDS
(cd "$work" && "$rt" ci 2>&1) | told || true
took=$(((SECONDS - begun + 59) / 60))
if [ ! -x "$work/crates/alliance/out/alliance" ]; then
  tail -20 build/proof.log >&2
  echo "build.sh: not proved, so nothing was built; $took minutes" >&2
  exit 1
fi
cp "$work/crates/alliance/out/alliance" build/alliance
echo "proved and built in $took minutes"

echo "build/alliance ${COUNTER[*]}"
build/alliance "${COUNTER[@]}"
echo "build/cnt4.ap: $(wc -l <build/cnt4.ap) lines"
