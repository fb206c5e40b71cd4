#!/bin/bash
# How fast `pld plain` is beside the same in plain Rust (plain.rs), in one run of this script:
#   loops  8 operators with 1,000,000 loop turns each, on softcores; the plain program runs the images that `dump image`
#          prints on a softcore of its own, in one go and without a journal
#   feeds  a session text of 16 MB of `feed` lines; the plain program splits the lines, reads the words, keeps them and
#          writes a line `ok` for each
#
# Usage: bench/speed.sh [RUNS]    (5 runs of each by default; wants rt and rustc on the path)
# Behind these come the turns of a page beside those of a plain interpreter (turns.sh).
# A line is what ran, the least processor time (user and system, in seconds) of pld and of the plain program among these
# runs, which take turns, and how many times as long pld took.
set -eu
runs=${1:-5}
here=$(cd "$(dirname "$0")" && pwd)
dir=$(mktemp -d)
trap 'rm -rf "$dir"' EXIT

(cd "$here/../crates/pld" && rt run -- plain <"$here/../examples/add_one.pld" >"$dir/log" 2>&1) || { cat "$dir/log"; exit 2; }
pld=$here/../crates/pld/out/pld
rustc -O -o "$dir/plain" "$here/plain.rs"

operators() {
  for k in 1 2 3 4 5 6 7 8; do
    printf 'op f%d soft\nvoid f(out b) { uint32_t i; uint32_t x; for (i = 0; i < 1000000; i++) { x = x * 5 + %d; } write(b, x); }\nend\noutput f%d.o0 y%d\n' $k $k $k $k
  done
  echo build
}
{ operators; for k in 1 2 3 4 5 6 7 8; do echo "dump image f$k"; done; } | "$pld" plain >"$dir/images"
{ operators; echo run; } >"$dir/loops"
{
  printf 'op f soft\nvoid f(in a) { }\nend\ninput s f.i0\n'
  awk 'BEGIN { for (n = 0; n < 16700000; ) { line = "feed s"; for (k = 0; k < 100; k++) line = line " " (n * 7919 + k * 104729) % 4294967296; print line; n += length(line) + 1; if (++m % 600 == 0) { print "clear s"; n += 8 } } }'
} >"$dir/feeds"

# processor time of a command with this input, in milliseconds
cpu() {
  local input=$1
  shift
  { TIMEFORMAT='%U %S'; time "$@" <"$input" >"$dir/out" 2>&1 || true; } 2>&1 | awk '{ printf "%d\n", ($1 + $2) * 1000 }'
}

printf '%-8s %8s %8s %6s\n' what pld plain ratio
for row in 'loops loops images run' 'feeds feeds feeds feed'; do
  set -- $row
  pld_least=999999 plain_least=999999
  for _ in $(seq "$runs"); do
    t=$(cpu "$dir/$2" "$pld" plain); [ "$t" -lt "$pld_least" ] && pld_least=$t
    t=$(cpu "$dir/$3" "$dir/plain" "$4"); [ "$t" -lt "$plain_least" ] && plain_least=$t
  done
  awk -v n="$1" -v p="$pld_least" -v q="$plain_least" 'BEGIN { printf "%-8s %8.3f %8.3f %6.2f\n", n, p / 1000, q / 1000, p / q }'
done

echo
"$here/turns.sh" "$runs"
