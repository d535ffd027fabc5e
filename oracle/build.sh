#!/bin/sh
# Assembles ctsim under target/oracle and builds the oracle's programs.
set -eu

usage() {
    cat <<'HELP'
usage: oracle/build.sh [--source DIR]

Copies ctsim's files unchanged from DIR (a checkout of ctsim, or any folder with
its src/; without the option ../shared/docs/src beside this repository), adds the
oracle's own, and builds all in release with overflow checks. Debian's packages
of the crates that ctsim needs are installed where they are missing; that takes
root. The programs are then target/oracle/bin/answer and target/oracle/bin/inputs.
HELP
}

fail() {
    printf 'build.sh: %s\n' "$1" >&2
    exit 1
}

here=$(cd "$(dirname "$0")" && pwd)
root=$(dirname "$here")
source=$root/../shared/docs/src
out=$root/target/oracle
tree=$out/src

while [ $# -gt 0 ]; do
    case $1 in
        --help | -h) usage; exit 0 ;;
        --source)
            [ $# -ge 2 ] || fail "--source needs a folder"
            source=$2
            shift 2
            ;;
        *) usage >&2; fail "unknown argument: $1" ;;
    esac
done

# The files of ctsim that the pipeline and the capture rounds lean on.
files="config.rs event.rs metrics.rs network.rs node.rs
    phy/ce.rs phy/ci.rs phy/mod.rs
    protocol/mod.rs protocol/paxos.rs protocol/paxos_ce.rs
    sim/paxos_pipeline.rs sim/pipeline.rs"

# Declared by protocol/mod.rs and used by none of the files above.
unused="tom tom_ce two_pc_ce two_pc_pipeline"

# append_mod FILE NAME: the only line that is added to a file of ctsim.
append_mod() {
    [ -z "$(tail -c 1 "$source/src/$1")" ] || fail "src/$1 has no newline at its end"
    printf 'pub mod %s;\n' "$2" >>"$tree/ctsim/src/$1"
}

assemble() {
    for file in $files; do
        [ -f "$source/src/$file" ] || fail "no src/$file in $source; name a checkout of ctsim with --source"
    done
    rm -rf "$tree"
    mkdir -p "$tree"
    # Nothing below is ever committed.
    printf '*\n' >"$out/.gitignore"
    cp -Rp "$here/Cargo.toml" "$here/compare" "$here/ctsim" "$here/harness" "$here/rand" "$here/rand_chacha" "$tree"
    for file in $files; do
        mkdir -p "$(dirname "$tree/ctsim/src/$file")"
        cp "$source/src/$file" "$tree/ctsim/src/$file"
        chmod u+w "$tree/ctsim/src/$file"
    done
    for name in $unused; do
        : >"$tree/ctsim/src/protocol/$name.rs"
    done
    append_mod network.rs rows
    append_mod sim/paxos_pipeline.rs harness
}

build() {
    mkdir -p "$out/bin"
    (cd "$tree" && cargo --config "$here/debian.toml" build --offline --release --target-dir "$out/build")
    cp "$out/build/release/answer" "$out/build/release/inputs" "$out/bin/"
}

sh "$here/packages.sh" librust-serde-dev librust-serde-derive-dev librust-serde-json-dev librust-toml-dev
assemble
build
printf 'built: target/oracle/bin/answer, target/oracle/bin/inputs\n'
