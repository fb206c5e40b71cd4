#!/bin/bash
# How long runs take by workers: `pld work` with 1, 2 and 4 workers beside `pld plain`, and the same of a plain Rust program of the same rules
# (workers.rs: threads with a mutex round the run), over four sessions: eight busy softcores; eight busy hardware pages with long
# expressions; a chain of 16 pages with 20,000 words; and 60 pages of which most stand at a read. All must answer alike, and without
# workers both programs must count alike.
#
# Usage: bench/workers.sh [RUNS]    (5 runs of each by default; wants rustc on the path, and rt where PLD doesn't name a built program)
# A line has the least elapsed time of each among these runs, which take turns, in milliseconds, and how many times as long as the same program's
# run without workers it took.
set -eu
runs=${1:-5}
rounds=1000000
here=$(cd "$(dirname "$0")" && pwd)
dir=$(mktemp -d)
trap 'rm -rf "$dir"' EXIT

pld=${PLD:-$here/../crates/pld/out/pld}
[ -x "$pld" ] || (cd "$here/../crates/pld" && rt run -- plain </dev/null >"$dir/log" 2>&1) || { cat "$dir/log"; exit 2; }
rustc -O -o "$dir/workers" "$here/workers.rs"

# eight pages of one kind, each of which counts for long and writes one word
busy() {
  for k in 1 2 3 4 5 6 7 8; do
    echo "op f$k $1"
    echo "void f$k(out b) { uint32_t i; uint32_t s; for (i = 0; i < $2; i++) { $3 } write(b, s); }"
    echo "end"
    echo "output f$k.o0 y$k"
  done
  echo build
}
long='s = ((s * 3 + i) ^ (s >> 3)) + ((i * 7 - s) & (s | i)) * ((s + 1) ^ (i + 2)) + ((s << 2) - (i >> 1));'
busy soft 200000 's = s * 3 + i;' >"$dir/busy_soft"
busy hard 100000 "$long $long" >"$dir/busy_hard"

# a chain of pages, each of which adds one to every word
chain() {
  echo "pages 6"
  for k in $(seq "$1"); do
    echo "op f$k soft"; echo "void f$k(in a, out b) { uint32_t x; while (1) { x = read(a); write(b, x + 1); } }"; echo "end"
  done
  echo "input s f1.i0"
  for k in $(seq 2 "$1"); do echo "connect f$((k - 1)).o0 f$k.i0"; done
  echo "output f$1.o0 y"
  echo "feed s $(seq -s ' ' "$2")"
  echo build
}
chain 16 20000 >"$dir/chain16"
chain 60 1000 >"$dir/chain60"

# the reply to a run, and with it the one to `stats` behind
counted() {
  sed -n '/^\(done\|stalled\|spent\)/,$p'
}
answer() {
  counted | grep -v '^stats'
}

declare -A least

# One run of a command with this input: its elapsed time, in milliseconds, is kept under a name if it is the least one, and its answer looked at.
measure() {
  local name=$1 input=$2 t
  shift 2
  { TIMEFORMAT='%3R'; t=$({ time "$@" <"$input" >"$dir/out"; } 2>&1 | awk '{ printf "%d", $1 * 1000 }'); }
  if [ "$t" -lt "${least[$name]:-999999999}" ]; then least[$name]=$t; fi
  answer <"$dir/out" | cmp -s - "$dir/answer" || { echo "$asked: $* answers otherwise than plain"; exit 1; }
}

printf '%-10s %-5s %8s %15s %15s %15s\n' session by plain '1 worker' '2 workers' '4 workers'
for asked in busy_soft busy_hard chain16 chain60; do
  { cat "$dir/$asked"; echo run; } >"$dir/session"
  { cat "$dir/$asked"; sed -n 's/^op \(f[0-9]*\) .*/dump image \1/p' "$dir/$asked"; echo dump tables; } | "$pld" plain >"$dir/dumps"
  { cat "$dir/$asked"; grep -E '^(image|page|row) ' "$dir/dumps"; } >"$dir/design"
  { cat "$dir/session"; echo stats; } | "$pld" plain --rounds "$rounds" | counted >"$dir/counts"
  "$dir/workers" "$rounds" 0 <"$dir/design" | cmp - "$dir/counts"
  answer <"$dir/counts" >"$dir/answer"
  least=()
  for _ in $(seq "$runs"); do
    measure pld0 "$dir/session" "$pld" plain --rounds "$rounds"
    measure Rust0 "$dir/design" "$dir/workers" "$rounds" 0
    for k in 1 2 4; do
      measure "pld$k" "$dir/session" "$pld" work --workers "$k" --rounds "$rounds"
      measure "Rust$k" "$dir/design" "$dir/workers" "$rounds" "$k"
    done
  done
  for by in pld Rust; do
    awk -v asked="$asked" -v by="$by" -v p="${least[${by}0]}" -v a="${least[${by}1]}" -v b="${least[${by}2]}" -v c="${least[${by}4]}" \
      'BEGIN { printf "%-10s %-5s %8d %8d (%.2f) %8d (%.2f) %8d (%.2f)\n", asked, by, p, a, a / p, b, b / p, c, c / p }'
  done
done
echo "all answers were the same"
