#!/bin/bash
# How long the placement of 63 operators with 256 channels in the deepest tree takes: the program `place_wide` places such a design
# 100 times, beside a plain Rust program (place.rs) that places the same one as often by the same rule. Both must write the same leaves;
# a third run of the plain one, in which each exchange is judged by the sum over all channels, must write them too.
#
# Usage: bench/place.sh [RUNS]    (7 runs of each by default; wants rt and rustc on the path)
# The line has the least processor time (user and system, in milliseconds) of one placement, of pld_place and of the plain program
# among these runs, which take turns, and how many times as long pld_place took.
set -eu
runs=${1:-7}
here=$(cd "$(dirname "$0")" && pwd)
dir=$(mktemp -d)
trap 'rm -rf "$dir"' EXIT
times=100

(cd "$here/../crates/place_wide" && rt run >"$dir/log" 2>&1) || { cat "$dir/log"; exit 2; }
wide=$here/../crates/place_wide/out/place_wide
rustc -O -o "$dir/plain" "$here/place.rs"

"$wide" >"$dir/leaves"
"$dir/plain" "$times" | cmp - "$dir/leaves"
"$dir/plain" 1 whole | cmp - "$dir/leaves"

# processor time of a command, in microseconds for each placement
cpu() {
  { TIMEFORMAT='%U %S'; time "$@" >/dev/null; } 2>&1 | awk -v n="$times" '{ printf "%d\n", ($1 + $2) * 1000000 / n }'
}

wide_least=999999999 plain_least=999999999
for _ in $(seq "$runs"); do
  t=$(cpu "$wide"); [ "$t" -lt "$wide_least" ] && wide_least=$t
  t=$(cpu "$dir/plain" "$times"); [ "$t" -lt "$plain_least" ] && plain_least=$t
done
awk -v p="$wide_least" -v q="$plain_least" 'BEGIN { printf "pld_place %.2f ms, plain %.2f ms, ratio %.2f\n", p / 1000, q / 1000, p / q }'
