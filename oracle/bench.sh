#!/bin/sh
# The benchmark: ctsim and the library on the same lines, in turn and in one process.
set -eu

usage() {
    cat <<'HELP'
usage: oracle/bench.sh [--source DIR] [SEED [COUNT]]

Builds as oracle/build.sh does, with the same option, builds the library, and
runs target/oracle/bin/bench: six fixed runs, previews of their rounds, sweeps of
10000 seeds, packets written and read, validities, pairs of files, and COUNT random
runs (100) of SEED (1). Here ctsim is built in release without overflow checks.
HELP
}

here=$(cd "$(dirname "$0")" && pwd)
case ${1:-} in
    --help | -h) usage; exit 0 ;;
    --source)
        [ $# -ge 2 ] || { usage >&2; exit 2; }
        sh "$here/linked.sh" bench plain --source "$2"
        shift 2
        ;;
    *) sh "$here/linked.sh" bench plain ;;
esac
printf 'ctsim and the library are release builds, without overflow checks.\n'
exec "$(dirname "$here")/target/oracle/bin/bench" "$@"
