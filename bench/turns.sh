#!/bin/bash
# How fast the turns of a page are beside those of a plain Rust interpreter (turns.rs), in one run of this script. Both run
# the same image of
#   void f(out b) { uint32_t i; uint32_t x; for (i = 0; i < 3000000; i++) { x = x * 5 + 7; } write(b, x); }
# to its end in turns of at most 256 steps:
#   soft   69,000,015 instructions of a softcore, as the templates of FORMATS.md have them
#   hard   18,000,004 states of a hardware page, with 1 to 3 micro-operations each
#
# Usage: bench/turns.sh [RUNS]    (9 runs of each by default; wants rt and rustc on the path)
# A line is what ran, the least user time (in seconds) of the page and of the plain program among these runs, which take
# turns, and how many times as long the page took.
set -eu
runs=${1:-9}
here=$(cd "$(dirname "$0")" && pwd)
dir=$(mktemp -d)
trap 'rm -rf "$dir"' EXIT

soft=504c4449530001002200000037040200b70400803781020013010110370500001305050013060500130506009305050037c52d001305056c33b5a500631405006f008004138506009305050037050000130555003385a5029305050037050000130575003385a50093060500130506009305050037050000130515003385a500130605006ff05ffa1385060023a0a41073001000
hard=504c44494800010000000000500000000a000000010000400000000000000000000000000100000000000000010100000040000000000000000000000200000000000000010000410000000000c0c62d000000000300000000000000010b00420000004100000000000142000400000008000000030000430000000000050000000000450000000000070000000000470000000000010000000000000500000000000000021500440001004300000000000200480000004700000000000000000600000000000000020200460044004500000000000100000048000000000000000000000700000000000000010100010046000000000000000000000200000000000000011d00000001000000000000000000000900000000000000000200000000000000000000

(cd "$here/../crates/page_turns" && rt run <stdin >"$dir/log" 2>&1) || { cat "$dir/log"; exit 2; }
page=$here/../crates/page_turns/out/page_turns
rustc -O -o "$dir/plain" "$here/turns.rs"

# user time of a command with this input, in milliseconds
user() {
  local input=$1
  shift
  { TIMEFORMAT='%U'; time "$@" <"$input" >"$dir/out" 2>/dev/null; } 2>&1 | awk '{ printf "%d\n", $1 * 1000 }'
}

printf '%-5s %8s %8s %6s\n' what page plain ratio
for what in soft hard; do
  printf "$(echo "${!what}" | sed 's/../\\x&/g')" >"$dir/image"
  "$page" <"$dir/image" >"$dir/one"
  "$dir/plain" <"$dir/image" >"$dir/other" 2>/dev/null
  cmp "$dir/one" "$dir/other"
  page_least=999999 plain_least=999999
  for _ in $(seq "$runs"); do
    t=$(user "$dir/image" "$page"); [ "$t" -lt "$page_least" ] && page_least=$t
    t=$(user "$dir/image" "$dir/plain"); [ "$t" -lt "$plain_least" ] && plain_least=$t
  done
  awk -v n="$what" -v p="$page_least" -v q="$plain_least" 'BEGIN { printf "%-5s %8.3f %8.3f %6.2f\n", n, p / 1000, q / 1000, p / q }'
done
