#!/usr/bin/env bash
# Checks one crate of this checkout over the libraries that `rt ci` has built in another one, without proving the crates below again.
# It is no gate: it says what is open in a crate, in a minute or two.
#   tools/check_over.sh CHECKOUT CRATE [OPTIONS of `rattle check`]
set -eu
top=$(cd "$(dirname "$0")/.." && pwd)
built=$1/crates
crate=$2
shift 2
kit=/opt/rattle
args=(--extern "std=$kit/rlibs/std.rlib" -L "dependency=$kit/rlibs")
for library in $(sed -n "s/^$crate://p" "$top/crates.txt"); do
    if [ -d "$top/crates/$library" ]; then
        args+=(--extern "$library=$built/$library/out/rlib/$library.rlib" -L "dependency=$built/$library/out/rlib")
    else
        args+=(--extern "$library=$kit/rlibs/$library.rlib")
    fi
done
cd "$top/crates/$crate"
exec "$kit/bin/rattle" check --crate-name "$crate" src/lib.rt "${args[@]}" \
    --antt-project "$kit/rattle/logic/antt-project.json" --logic-built "$kit/logic_built" --jobs "$(nproc)" "$@"
