#!/bin/bash
# Time is linear in the input: `pld plain` on 16 MB of one operator's text, of one comment and of short
# bad lines, beside a plain Rust program (split.rs) that reads the same bytes in the same pieces and
# splits them into lines and words. For the bad lines it also writes a line for each of them, as pld must.
#
# Usage: bench/splitting.sh [RUNS]    (7 runs of each by default; wants rt and rustc on the path)
# A line is an input, the least processor time (user and system, in seconds) of pld and of the plain
# program among these runs, which take turns, and how many times as long pld took.
set -eu
runs=${1:-7}
here=$(cd "$(dirname "$0")" && pwd)
dir=$(mktemp -d)
trap 'rm -rf "$dir"' EXIT
most=16777216

(cd "$here/../crates/pld" && rt run -- plain <"$here/../examples/add_one.pld" >"$dir/log" 2>&1) || { cat "$dir/log"; exit 2; }
pld=$here/../crates/pld/out/pld
rustc -O -o "$dir/split" "$here/split.rs"

# as many whole lines like this as there is room for
lines() { yes "$1" | head -n $((($2) / (${#1} + 1))) || true; }
{ printf 'op inc soft\nvoid inc(in a, out b) {\n'; lines '  x = x + 1;' $((most - 100)); printf '}\nend\n'; } >"$dir/operator"
{ printf '#'; head -c $((most - 1)) /dev/zero | tr '\0' a; } >"$dir/comment"
lines zz $most >"$dir/bad"

# processor time of a command with this input, in milliseconds; its status doesn't matter
cpu() {
  local input=$1
  shift
  { TIMEFORMAT='%U %S'; time "$@" <"$input" >/dev/null 2>&1 || true; } 2>&1 | awk '{ printf "%d\n", ($1 + $2) * 1000 }'
}

printf '%-10s %8s %8s %8s %6s\n' input bytes pld plain ratio
for row in 'operator split' 'comment split' 'bad answer'; do
  set -- $row
  pld_least=999999 plain_least=999999
  for _ in $(seq "$runs"); do
    t=$(cpu "$dir/$1" "$pld" plain); [ "$t" -lt "$pld_least" ] && pld_least=$t
    t=$(cpu "$dir/$1" "$dir/split" "$2"); [ "$t" -lt "$plain_least" ] && plain_least=$t
  done
  awk -v n="$1" -v b="$(stat -c %s "$dir/$1")" -v p="$pld_least" -v q="$plain_least" \
    'BEGIN { printf "%-10s %8d %8.3f %8.3f %6.2f\n", n, b, p / 1000, q / 1000, p / q }'
done
