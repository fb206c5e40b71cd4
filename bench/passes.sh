#!/bin/bash
# How fast the passes over an operator are beside the same in plain Rust (passes.rs): 20,000 times over one of about 1,000 nodes,
#   wide  166 assignments x = x * 8 + 0
#   deep  30 choices in one another, round a sum of 235 parts that leans to the left
# and, for the cost of a node, over the first half of either, which takes half the time where the passes are linear.
#
# Usage: bench/passes.sh [RUNS]    (5 runs of each by default; wants rt and rustc on the path)
# A line is the operator, its nodes before and after, the least processor time (user and system, in seconds) of the program
# passes_often and of the plain one among these runs, which take turns, and how many times as long passes_often took; a line
# that ends in `half` has no plain program, and its ratio is to the whole operator.
set -eu
runs=${1:-5}
here=$(cd "$(dirname "$0")" && pwd)
dir=$(mktemp -d)
trap 'rm -rf "$dir"' EXIT

(cd "$here/../crates/passes_often" && rt run <stdin >"$dir/log" 2>&1) || { cat "$dir/log"; exit 2; }
often=$here/../crates/passes_often/out/passes_often
rustc -O -o "$dir/plain" "$here/passes.rs"

repeated() { for _ in $(seq "$2"); do printf '%s' "$1"; done; }
wide() { printf 'void f(out b) { int32_t x; '; repeated 'x = x * 8 + 0; ' "$1"; printf '}\n'; }
deep() {
  printf 'void f(out b) { int32_t x; '
  repeated 'if (x) { ' "$1"
  printf 'write(b, x'; repeated ' + x * 8' "$2"; printf '); '
  repeated '} ' "$1"
  printf '}\n'
}
wide 166 >"$dir/wide"
wide 83 >"$dir/wide_half"
deep 30 234 >"$dir/deep"
deep 15 117 >"$dir/deep_half"

# processor time of a command with this input, in milliseconds
cpu() {
  local input=$1
  shift
  { TIMEFORMAT='%U %S'; time "$@" <"$input" >"$dir/out" 2>&1 || true; } 2>&1 | awk '{ printf "%d\n", ($1 + $2) * 1000 }'
}

least() {
  local input=$1 least=999999 t
  shift
  for _ in $(seq "$runs"); do t=$(cpu "$input" "$@"); [ "$t" -lt "$least" ] && least=$t; done
  echo "$least"
}

printf '%-10s %12s %8s %8s %6s\n' operator nodes passes plain ratio
for row in wide deep; do
  own=$(least "$dir/$row" "$often"); said=$(cat "$dir/out")
  plain=$(least /dev/null "$dir/plain" "$row"); [ "$said" = "$(cat "$dir/out")" ] || { echo "$row: $said, but plain $(cat "$dir/out")"; exit 1; }
  awk -v n="$row" -v s="$said" -v p="$own" -v q="$plain" 'BEGIN { printf "%-10s %12s %8.3f %8.3f %6.2f\n", n, s, p / 1000, q / 1000, p / q }'
  half=$(least "$dir/${row}_half" "$often")
  awk -v n="$row half" -v s="$(cat "$dir/out")" -v p="$half" -v q="$own" 'BEGIN { printf "%-10s %12s %8.3f %8s %6.2f\n", n, s, p / 1000, "", p / q }'
done
