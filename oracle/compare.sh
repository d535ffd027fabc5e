#!/bin/sh
# The differential run: ctsim and the library on the same lines, in one process.
set -eu

usage() {
    cat <<'HELP'
usage: oracle/compare.sh [--source DIR] [SEED [COUNT]]

Builds as oracle/build.sh does, with the same option, builds the library, and
runs target/oracle/bin/compare: the small lines, COUNT random ones (100000) from
SEED (1) on, and a tenth as many broken ones, each as a run, by previews of a few
of its rounds and by its validity; COUNT packets, as many with a fault and as many
damaged texts; a tenth as many sweeps of up to 60 seeds; and a fifth as many archive
files, with as many damaged ones to check and as many pairs of which one supersedes.
Status 0: no difference; 1: there is one, or the build failed.
HELP
}

here=$(cd "$(dirname "$0")" && pwd)
case ${1:-} in
    --help | -h) usage; exit 0 ;;
    --source)
        [ $# -ge 2 ] || { usage >&2; exit 2; }
        sh "$here/linked.sh" compare release --source "$2"
        shift 2
        ;;
    *) sh "$here/linked.sh" compare release ;;
esac
exec "$(dirname "$here")/target/oracle/bin/compare" "$@"
