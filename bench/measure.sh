# What the measurements share: they read this file, with `most` as the seconds after which a run is cut off.

# measured OUT WORDS..: runs the words with their output in OUT, and prints `seconds kilobytes`, or `- -` where they failed.
measured() {
  local out=$1
  shift
  if timeout "$most" /usr/bin/time -f '%e %M' -o times "$@" >"$out" 2>errors; then
    cat times
  else
    echo "- -"
  fi
}

# spent OUT WORDS..: as measured, but the seconds are those of the processor, and a run that ends with status 6, a net being stuck, counts too.
spent() {
  local out=$1 status=0
  shift
  timeout "$most" /usr/bin/time -q -f '%U %S %M' -o times "$@" >"$out" 2>errors || status=$?
  [ "$status" = 0 ] || [ "$status" = 6 ] && tail -1 times | awk '{ printf "%.2f %s\n", $1 + $2, $3 }' || echo "- -"
}

# growth SECONDS_BEFORE BEFORE SECONDS NOW: by how much the seconds grow when the number doubles, or -.
growth() {
  awk -v s="$1" -v a="$2" -v t="$3" -v b="$4" 'BEGIN { if (s + 0 > 0 && t + 0 > 0) printf "%.2f", exp(log(t / s) * log(2) / log(b / a)); else printf "-" }'
}

megabytes() {
  [ "$1" = - ] && echo - || echo $(($1 / 1024))
}

# steps_of FILE: the length that a report has, in steps of 500, or -.
steps_of() {
  awk '$1 == "length" { print $2 / 500; found = 1 } END { if (!found) print "-" }' "$1"
}
