#!/usr/bin/env bash
# Runs the programs whose pages are turned on threads many times, and looks for a hang or for an answer that isn't the one in their
# file stdout; and `pld` with words that are no command, which must end with status 2 and write nothing. The last line says how often
# each was run, and how often it came out otherwise; the exit status is 1 where one did.
#   tools/often.sh [TIMES]    (100 by default; wants their programs built, as `rt ci` leaves them)
set -u
top=$(cd "$(dirname "$0")/.." && pwd)
times=${1:-100}
others=0
for name in pld_workers workers_meet two_seats; do
    crate=$top/crates/$name
    mapfile -t words < <(cat "$crate/args" 2>/dev/null)
    input=/dev/null
    [ -f "$crate/stdin" ] && input=$crate/stdin
    for _ in $(seq "$times"); do
        timeout 60 "$crate/out/$name" "${words[@]}" <"$input" 2>&1 | cmp -s - "$crate/stdout" || others=$((others + 1))
    done
done
for words in "work" "plain --rounds 0" "plain 5" "" "plain --"; do
    for _ in $(seq "$times"); do
        # shellcheck disable=SC2086
        said=$(timeout 60 "$top/crates/pld/out/pld" $words </dev/null 2>/dev/null)
        [ $? -eq 2 ] && [ -z "$said" ] || others=$((others + 1))
    done
done
echo "each $times times, $others otherwise"
[ "$others" -eq 0 ]
