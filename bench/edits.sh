#!/bin/bash
# What an edit of a design costs, and how that grows with the design, beside the same in plain Rust (edits.rs: std's maps).
# Three designs: 8 operators with 32 channels, 32 with 128, and 63 with 256, which is all that a session takes. On each stand
# 100,000 edits (200,000 statements where an edit is made and taken back):
#   taken    `connect` to a port that is taken
#   again    `disconnect` and `connect` of the same ports
#   pin      `pin`, each to a free leaf (of 32 operators at most)
#   pages    `pages` of the same depth
#   clear    `clear` of an input
#   input    `disconnect` and `input` of the same name
#
# Usage: bench/edits.sh [RUNS]    (3 runs of each by default; wants rt and rustc on the path)
# A line is the kind of edit, and for each design the least processor time (user and system, in nanoseconds, less that of the
# session without the edits) that an edit took in pld and in the plain program among these runs, which take turns, and how many
# times as long pld took. The plain program has the same answers: the script compares them.
set -eu
runs=${1:-3}
here=$(cd "$(dirname "$0")" && pwd)
dir=$(mktemp -d)
trap 'rm -rf "$dir"' EXIT

(cd "$here/../crates/pld" && rt run -- plain <"$here/../examples/add_one.pld" >"$dir/log" 2>&1) || { cat "$dir/log"; exit 2; }
pld=$here/../crates/pld/out/pld
rustc -O -o "$dir/plain" "$here/edits.rs"

# a ring of $1 operators, each with four channels to the next one; two inputs and two outputs at the first
design() {
  awk -v n="$1" 'BEGIN {
    for (k = 0; k < n; k++) {
      printf "op f%02d soft\nvoid f(", k
      for (p = 0; p < 8; p++) printf "in a%d, ", p
      for (p = 0; p < 8; p++) printf "out b%d%s", p, p < 7 ? ", " : ""
      print ") { }\nend"
    }
    print "input src0 f00.i4\ninput src1 f00.i5\noutput f00.o4 dst0\noutput f00.o5 dst1"
    for (k = 0; k < n; k++) for (p = 0; p < 4; p++) printf "connect f%02d.o%d f%02d.i%d\n", k, p, (k + 1) % n, p
    print "pages 6"
  }'
}

# 100,000 edits of kind $1 on a design of $2 operators
edits() {
  awk -v kind="$1" -v n="$2" 'BEGIN {
    for (e = 0; e < 100000; e++) {
      k = e * 37 % n; p = int(e / n) % 4; q = (k + 1) % n
      if (kind == "taken") printf "connect f%02d.o%d f%02d.i%d\n", k, p, q, p
      else if (kind == "again") printf "disconnect f%02d.o%d\nconnect f%02d.o%d f%02d.i%d\n", k, p, k, p, q, p
      else if (kind == "pin") printf "pin f%02d %d\n", e * 37 % (n < 32 ? n : 32), 1 + e * 11 % 63
      else if (kind == "pages") print "pages 6"
      else if (kind == "clear") printf "clear src%d\n", e % 2
      else if (kind == "input") printf "disconnect src%d\ninput src%d f00.i%d\n", e % 2, e % 2, 4 + e % 2
    }
  }'
}

# processor time of a command with this input, in milliseconds
cpu() {
  local input=$1 output=$2
  shift 2
  { TIMEFORMAT='%U %S'; time "$@" <"$input" >"$output" 2>/dev/null || true; } 2>&1 | awk '{ printf "%d\n", ($1 + $2) * 1000 }'
}

# the least of the runs: of pld and of plain
least() {
  local input=$1 pld_least=999999 plain_least=999999 t
  for _ in $(seq "$runs"); do
    t=$(cpu "$input" "$dir/pld.out" "$pld" plain); [ "$t" -lt "$pld_least" ] && pld_least=$t
    t=$(cpu "$input" "$dir/plain.out" "$dir/plain"); [ "$t" -lt "$plain_least" ] && plain_least=$t
  done
  cmp -s "$dir/pld.out" "$dir/plain.out" || { echo "the answers differ: $input" >&2; diff "$dir/pld.out" "$dir/plain.out" | head -4 >&2; exit 1; }
  echo "$pld_least $plain_least"
}

printf '%-8s' edits
for n in 8 32 63; do printf ' | %2d operators: %6s %6s %6s' "$n" pld plain ratio; done
echo
for n in 8 32 63; do
  design "$n" >"$dir/design$n"
  least "$dir/design$n" >"$dir/bare$n"
done
for kind in taken again pin pages clear input; do
  printf '%-8s' "$kind"
  for n in 8 32 63; do
    { cat "$dir/design$n"; edits "$kind" "$n"; } >"$dir/text"
    least "$dir/text" >"$dir/took"
    statements=$(($(wc -l <"$dir/text") - $(wc -l <"$dir/design$n")))
    paste "$dir/took" "$dir/bare$n" | awk -v s="$statements" '{ p = ($1 - $3) * 1e6 / s; q = ($2 - $4) * 1e6 / s; printf " |               %6d %6d %6.2f", p, q, (q > 0 ? p / q : 0) }'
  done
  echo
done
