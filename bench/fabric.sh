#!/bin/bash
# How long runs over the tree of switches take: the program `fabric_chain` beside a plain Rust program of the same rules (fabric.rs). Both
# must write the same counts. The first chain has 16 pages, the second 60.
#
# Usage: bench/fabric.sh [RUNS]    (5 runs of each by default; wants rt and rustc on the path)
# A line has the least processor time (user and system, in milliseconds) of both programs among these runs, which take turns, how many
# times as long `fabric_chain` took, and the nanoseconds that each took for an entry of the journal.
set -eu
runs=${1:-5}
here=$(cd "$(dirname "$0")" && pwd)
dir=$(mktemp -d)
trap 'rm -rf "$dir"' EXIT

(cd "$here/../crates/fabric_chain" && rt run <stdin >"$dir/log" 2>&1) || { cat "$dir/log"; exit 2; }
chain=$here/../crates/fabric_chain/out/fabric_chain
rustc -O -o "$dir/plain" "$here/fabric.rs"

# processor time of a program, in milliseconds
cpu() {
  { TIMEFORMAT='%U %S'; time "$1" <"$dir/in" >/dev/null; } 2>&1 | awk '{ printf "%d\n", ($1 + $2) * 1000 }'
}

for asked in "16 20000 200000" "60 65536 83000"; do
  echo "$asked" >"$dir/in"
  "$chain" <"$dir/in" >"$dir/counts"
  "$dir/plain" <"$dir/in" | cmp - "$dir/counts"
  chain_least=999999999 plain_least=999999999
  for _ in $(seq "$runs"); do
    t=$(cpu "$chain"); [ "$t" -lt "$chain_least" ] && chain_least=$t
    t=$(cpu "$dir/plain"); [ "$t" -lt "$plain_least" ] && plain_least=$t
  done
  entries=$(awk '/^entries/ { print $2 }' "$dir/counts")
  awk -v a="$asked" -v p="$chain_least" -v q="$plain_least" -v n="$entries" \
    'BEGIN { printf "%s: fabric_chain %d ms, plain %d ms, ratio %.2f (%.0f and %.0f ns an entry)\n", a, p, q, p / q, p * 1e6 / n, q * 1e6 / n }'
done
