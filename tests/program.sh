#!/bin/sh
# Tries ./ctsim as a shell does: answers, refusals, and files that fail. The gate leaves it out, as a
# program that it runs has no failing file. Ends in 'N passed, M failed'.
set -u
cd "$(dirname "$0")/.." || exit 2
line='2 3 0 1 - 0000000000000000 7 1 2 1000'
passed=0
failed=0
made=$(mktemp -d) || exit 2
trap 'rm -rf "$made"' EXIT

# expect NAME WANTED GOT
expect() {
    if [ "$2" = "$3" ]; then
        passed=$((passed + 1))
    else
        failed=$((failed + 1))
        printf 'FAILED %s: %s, and not %s\n' "$1" "$3" "$2"
    fi
}

./ctsim >"$made/first" 2>/dev/null </dev/null
expect 'empty input' 0 $?
expect 'empty input, answer' 'refused 12' "$(cat "$made/first")"

./ctsim $line >"$made/words" 2>"$made/said"
expect 'words' 0 $?
expect 'words, nothing said' '' "$(cat "$made/said")"
expect 'words, answer' 'nodes 3 rounds 2 slots 5 ended 1' "$(head -n 1 "$made/words")"

printf '%s\nnext line\n' "$line" | ./ctsim >"$made/input"
expect 'input' 0 $?
expect 'input, same answer' "$(cat "$made/words")" "$(cat "$made/input")"

# The input may come in parts.
{ printf '2 3 0 1 - 00000000'; sleep 1; printf '00000000 7 1 2 1000\n'; } | ./ctsim >"$made/parts"
expect 'input in parts' "$(cat "$made/words")" "$(cat "$made/parts")"

./ctsim 2 33 0 1 - 0000000000000000 7 1 2 1000 >"$made/refused"
expect 'refusal' 0 $?
expect 'refusal, answer' 'refused 2' "$(cat "$made/refused")"

./ctsim $line >/dev/full 2>"$made/said"
expect 'full disk' 1 $?
expect 'full disk, said' 'ctsim: standard output did not take every byte' "$(cat "$made/said")"

./ctsim <. >"$made/none" 2>"$made/said"
expect 'input that is a folder' 1 $?
expect 'input that is a folder, said' 'ctsim: standard input could not be read' "$(cat "$made/said")"
expect 'input that is a folder, nothing written' '' "$(cat "$made/none")"

printf '%s passed, %s failed\n' "$passed" "$failed"
[ "$failed" -eq 0 ]
