#!/bin/sh
# Builds the library and examples/charge.c as the README says, and tries the example. The gate leaves it
# out, as it needs a C compiler. Ends in 'N passed, M failed'.
set -u
cd "$(dirname "$0")/.." || exit 2
(cd crates/capi && rt lib) >/dev/null || exit 2
mkdir -p target || exit 2
"${CC:-cc}" -std=c99 -Wall -Wextra -pedantic -Iinclude examples/charge.c examples/words.c \
    crates/capi/out/libcapi.a -o target/charge || exit 2
passed=0
failed=0

# gives STATUS TEXT WORD..: the example's status and what it prints
gives() {
    status=$1
    text=$2
    shift 2
    printed=$(target/charge "$@" 2>/dev/null)
    if [ $? -eq "$status" ] && [ "$printed" = "$text" ]; then
        passed=$((passed + 1))
    else
        failed=$((failed + 1))
        printf 'FAILED charge %s: %s\n' "$*" "$printed"
    fi
}

gives 0 'listen 5 slots 940 uC
flood 6 slots 1044 uC
sleep 4 slots 0.8 uC
all 1984.8 uC, a node 661.6 uC' 18.8 17.4 0.02 10 2 3 0 1 - 0000000000000000 7 1 2 1000
gives 1 'refused 2' 18.8 17.4 0.02 10 2 33 0 1 - 0000000000000000 7 1 2 1000
gives 2 '' 18.8 17.4 0.02 10 2 3 0 1 - 0.5 7 1 2 1000
gives 2 '' -1 17.4 0.02 10 2 3 0 1 - 0000000000000000 7 1 2 1000
gives 2 ''

printf '%s passed, %s failed\n' "$passed" "$failed"
[ "$failed" -eq 0 ]
