#!/bin/sh
# Builds the oracle, the library, and one of the programs of compare/ that have both.
set -eu

usage() {
    printf 'usage: oracle/linked.sh PROGRAM PROFILE [--source DIR]\n'
    printf 'Leaves the program in target/oracle/bin.\n'
}

if [ "${1:-}" = --help ]; then
    usage
    exit 0
fi
[ $# -ge 2 ] || { usage >&2; exit 2; }
program=$1
profile=$2
shift 2

here=$(cd "$(dirname "$0")" && pwd)
root=$(dirname "$here")
out=$root/target/oracle

sh "$here/build.sh" "$@"
(cd "$root/crates/capi" && rt lib)
(cd "$out/src" && CTSIM_LIBRARY=$root/crates/capi/out cargo --config "$here/debian.toml" build --offline \
    --profile "$profile" --target-dir "$out/build" -p compare --bin "$program")
cp "$out/build/$profile/$program" "$out/bin/"
