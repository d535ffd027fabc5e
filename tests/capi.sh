#!/bin/sh
# Builds the library and the C test over it, and runs the test. It needs a C compiler, which the gate
# does not, so `rt ci` leaves it out.
set -eu
cd "$(dirname "$0")/.."
(cd crates/capi && rt lib) >/dev/null
mkdir -p target
"${CC:-cc}" -std=c99 -Wall -Wextra -pedantic -O2 -pthread -Iinclude tests/capi.c tests/check.c tests/damage.c \
    tests/files.c tests/packets.c tests/pairs.c tests/previews.c tests/sweeps.c tests/texts.c tests/validity.c \
    tests/wire.c crates/capi/out/libcapi.a -o target/capi-test
target/capi-test
