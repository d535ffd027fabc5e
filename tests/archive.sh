#!/bin/sh
# Builds the library, files some runs with tests/archive_files.c, and lets two readers of docs/ARCHIVE.md, one in
# C and one in Python, print them and damaged copies: they agree byte for byte, and refuse what the library
# refuses. The gate leaves it out, as it needs a C compiler and Python. Ends in 'N passed, M failed'.
set -u
cd "$(dirname "$0")/.." || exit 2
(cd crates/capi && rt lib) >/dev/null || exit 2
made=target/archive-test
rm -rf "$made" && mkdir -p "$made" || exit 2
"${CC:-cc}" -std=c99 -Wall -Wextra -pedantic -O2 tests/archive_reader.c -o target/archive-reader || exit 2
"${CC:-cc}" -std=c99 -Wall -Wextra -pedantic -O2 -Iinclude tests/archive_files.c crates/capi/out/libcapi.a \
    -o target/archive-files || exit 2
passed=0
failed=0

# expect NAME WANTED GOT
expect() {
    if [ "$2" = "$3" ]; then
        passed=$((passed + 1))
    else
        failed=$((failed + 1))
        printf 'FAILED %s: %s, and not %s\n' "$1" "$3" "$2"
    fi
}

# agree NAME FILE..: both readers print the same of all these files.
agree() {
    what=$1
    shift
    target/archive-reader "$@" >"$made/c.txt"
    expect "$what, C" 0 $?
    python3 tests/archive_reader.py "$@" >"$made/python.txt"
    expect "$what, Python" 0 $?
    cmp -s "$made/c.txt" "$made/python.txt"
    expect "$what, both" 0 $?
}

target/archive-files "$made" >"$made/answers"
expect 'files' 0 $?
expect 'how many runs' 49 "$(grep -c '\.cts ' "$made/answers")"
expect 'damaged files' 588 "$(grep -c '\.bad ' "$made/answers")"

for run in "$made"/run-??.cts; do
    name=$(basename "$run" .cts)
    expect "$name, check" "$name.cts 0" "$(grep "^$name\.cts " "$made/answers")"
    agree "$name" "$run"
    agree "$name, damaged" "$made/$name"-??.bad
done

# The C reader, and so the other one, refuses the files that the library refuses, and no others.
while read -r name answer; do
    case $answer in
    17) wanted=refused ;;
    *) wanted=inputs ;;
    esac
    target/archive-reader "$made/$name" >"$made/c.txt"
    read -r word _ <"$made/c.txt"
    expect "$name, answer $answer" "$wanted" "$word"
done <"$made/answers"

# Files of few bytes.
for n in 0 1 2 8 9 39 40 41 42 121 241; do
    head -c "$n" "$made/run-00.cts" >"$made/few-$n.bad"
done
agree 'few bytes' "$made"/few-*.bad
expect 'few bytes, refusals' 11 "$(grep -c '^refused 17$' "$made/c.txt")"

# The printed run, by name and from standard input.
printed='inputs 2 3 0 1 - 0000000000000000 7 1 2 1000
totals 3 2 5 1 5 6 4 4 4 2 6 6 6 0 0
record 0 0 3
snapshot 0 0 2 1 0
snapshot 2 0 0 1 2
snapshot 4 0 0 2 1
log 0 0
log 1 0
log 2 0'
expect 'printed run' "$printed" "$(target/archive-reader "$made/run-00.cts")"
expect 'printed run from input' "$printed" "$(target/archive-reader <"$made/run-00.cts")"
expect 'printed run from input, Python' "$printed" "$(python3 tests/archive_reader.py <"$made/run-00.cts")"
expect 'no byte' 'refused 17' "$(target/archive-reader </dev/null)"
expect 'no byte, Python' 'refused 17' "$(python3 tests/archive_reader.py </dev/null)"
target/archive-reader "$made/missing" >/dev/null 2>&1
expect 'no such file' 2 $?
python3 tests/archive_reader.py "$made/missing" >/dev/null 2>&1
expect 'no such file, Python' 2 $?

printf '%s passed, %s failed\n' "$passed" "$failed"
[ "$failed" -eq 0 ]
