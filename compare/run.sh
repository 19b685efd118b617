#!/usr/bin/env bash
# compare/run.sh [CORE] [SHEETS] [CALLS]
#
# Makes SHEETS random sheets (default 60; the seeds are 1 to SHEETS) of CALLS calls each (default 2000), gives each to
# the reference and to the program CORE, and compares their results byte for byte. CORE reads calls from standard input
# and writes results to standard output, in the formats of README.md. Without CORE (or with -) the reference is compared
# with itself, which tries the sheets only.
#
# Prints a summary of what the reference saw and then `same`, with status 0, or the first difference, with status 1.
set -euo pipefail

here=$(cd "$(dirname "$0")" && pwd)
core=${1:--}
sheets=${2:-60}
calls=${3:-2000}

cargo build --release --quiet --manifest-path "$here/Cargo.toml" --target-dir "$here/target"
programs=$here/target/release
if [ "$core" = - ]; then
  core=$programs/reference
elif [ ! -x "$core" ] || [ -d "$core" ]; then
  echo "run.sh: $core is no program" >&2
  exit 2
fi
core=$(cd "$(dirname "$core")" && pwd)/$(basename "$core")

work=$(mktemp -d)
trap 'rm -rf "$work"' EXIT

# Counts what stands in a sheet and its results, and adds it to the sums so far: lines of "name,number count".
count() {
  awk '
    FILENAME == ARGV[1] { sum[$1] = $2; next }
    FILENAME == ARGV[2] { if ($1 != "open") { sum["calls,"]++; sum["call," $1]++ } next }
    $1 == "refused"     { sum["refused," $2]++ }
    $1 == "noticket"    { sum["noticket,"]++ }
    $1 == "fill"        { sum["fills,"]++; sum["step," $6]++ }
    $1 == "cancel"      { sum["cause," $5]++ }
    $1 == "filled" || $1 == "rest" || $1 == "route" { sum["end," $1]++ }
    END { for (name in sum) print name, sum[name] }
  ' "$work/sums" "$work/sheet" "$work/expected" > "$work/new-sums"
  mv "$work/new-sums" "$work/sums"
}

# One line of the summary: the counts of all names that begin with the word.
show() {
  printf '%-9s' "$1"
  sort -t, -k2,2 -V "$work/sums" | awk -F '[, ]' -v word="$1" '$1 == word { printf $2 == "" ? "  %s%s" : "  %s: %s", $2, $3 } END { print "" }'
}

summary() {
  echo "sheets     $1"
  for word in calls call fills step end cause refused noticket; do
    show "$word"
  done
}

# Where the results part, and the call that they are about: every call's results begin with one of three words.
difference() {
  local line call
  line=$(cmp "$work/expected" "$work/got" 2>/dev/null | sed 's/.*line //' || true)
  if [ -z "$line" ]; then # one is the beginning of the other, or the core ended badly
    line=$(($(for results in expected got; do wc -l < "$work/$results"; done | sort -n | head -n 1) + 1))
  fi
  call=$(head -n "$line" "$work/expected" | grep -c -E '^(ok|refused|noticket)' || true)
  echo "different: seed $1, result line $line; the core ended with status $2"
  echo "  sheet line $call: $(sed -n "${call}p" "$work/sheet")"
  echo "  reference: $(sed -n "${line}p" "$work/expected")"
  echo "  core:      $(sed -n "${line}p" "$work/got")"
  echo "  to repeat: $programs/generate $1 $calls | $core"
}

: > "$work/sums"
for ((seed = 1; seed <= sheets; seed++)); do
  "$programs/generate" "$seed" "$calls" > "$work/sheet"
  "$programs/reference" < "$work/sheet" > "$work/expected"
  status=0
  "$core" < "$work/sheet" > "$work/got" || status=$?
  count
  if [ "$status" != 0 ] || ! cmp -s "$work/expected" "$work/got"; then
    summary "$seed"
    difference "$seed" "$status"
    exit 1
  fi
done
summary "$sheets"
echo same
