#!/bin/sh
# Checks the generator against Debian's, and the oracle against the rules' edges.
set -eu

usage() {
    cat <<'HELP'
usage: oracle/check.sh [--source DIR]

Builds as oracle/build.sh does, with the same option, and then
- compares oracle/'s rand and rand_chacha with the published ChaCha vectors and
  with Debian's real crates, over thousands of seeds;
- runs the rules' edges, single rounds, sweeps, validities, archive files and pairs of
  them, a flood by itself, packets on the wire and the tests of the line reader by the
  Rust itself.
HELP
}

here=$(cd "$(dirname "$0")" && pwd)
out=$(dirname "$here")/target/oracle
tree=$out/check

if [ "${1:-}" = --help ] || [ "${1:-}" = -h ]; then
    usage
    exit 0
fi

sh "$here/build.sh" "$@"
sh "$here/packages.sh" librust-rand-dev librust-rand-chacha-dev
rm -rf "$tree"
mkdir -p "$tree"
cp -Rp "$here/check" "$here/rand" "$here/rand_chacha" "$tree"
(cd "$tree/check" && cargo --config "$here/debian.toml" run --offline --release --target-dir "$out/check-build")
(cd "$out/src" && cargo --config "$here/debian.toml" test --offline --release --target-dir "$out/build" -p oracle)
printf 'checked: the generator and the edges\n'
