#!/bin/sh
# Tries ./ctsim-file and ./ctsim-check as a shell does: files, refusals, damaged files, and files that fail. The gate leaves
# it out, as a program that it runs has no failing file. Ends in 'N passed, M failed'.
set -u
cd "$(dirname "$0")/.." || exit 2
line='2 3 0 1 - 0000000000000000 7 1 2 1000'
passed=0
failed=0
made=$(mktemp -d) || exit 2
trap 'rm -rf "$made"' EXIT
run=$made/run.cts

# expect NAME WANTED GOT
expect() {
    if [ "$2" = "$3" ]; then
        passed=$((passed + 1))
    else
        failed=$((failed + 1))
        printf 'FAILED %s: %s, and not %s\n' "$1" "$3" "$2"
    fi
}

# same NAME WANTED GOT: two files.
same() {
    cmp -s "$2" "$3"
    expect "$1" 0 $?
}

# checks NAME STATUS ANSWER FILE: what the check says of a file.
checks() {
    ./ctsim-check "$4" >"$made/answer" 2>"$made/said"
    expect "$1" "$2" $?
    expect "$1, answer" "$3" "$(cat "$made/answer")"
    expect "$1, nothing said" '' "$(cat "$made/said")"
}

# fails NAME STATUS SAID GOT: that nothing was written, what was said, and the status of the command that did so.
fails() {
    expect "$1" "$2" "$4"
    expect "$1, said" "$3" "$(cat "$made/said")"
    expect "$1, nothing written" '' "$(cat "$made/none")"
}

# byte FILE AT OCTAL: a copy of the file, in which one byte is another.
byte() {
    cp "$1" "$made/changed" && printf "\\$3" | dd of="$made/changed" bs=1 seek="$2" conv=notrunc 2>/dev/null
}

# padded SIZE: the run's file with zeros behind it, of so many bytes.
padded() {
    { cat "$run"; dd if=/dev/zero bs=4096 count=1025 2>/dev/null; } | head -c "$1" >"$made/padded"
}

# The first call of each may build it, and say so.
./ctsim-file >"$made/none" 2>/dev/null </dev/null
./ctsim-file >"$made/none" 2>"$made/said" </dev/null
fails 'empty input' 1 'refused 12' $?

./ctsim-file $line >"$run" 2>"$made/said"
expect 'words' 0 $?
expect 'words, nothing said' '' "$(cat "$made/said")"
same 'words, file' crates/ctsim_file/stdout "$run"

printf '%s\nnext line\n' "$line" | ./ctsim-file >"$made/input"
expect 'input' 0 $?
same 'input, same file' "$run" "$made/input"

# The input may come in parts.
{ printf '2 3 0 1 - 00000000'; sleep 1; printf '00000000 7 1 2 1000\n'; } | ./ctsim-file >"$made/parts"
same 'input in parts' "$run" "$made/parts"

./ctsim-file 2 33 0 1 - 0000000000000000 7 1 2 1000 >"$made/none" 2>"$made/said"
fails 'refusal' 1 'refused 2' $?

./ctsim-file $line >/dev/full 2>"$made/said"
expect 'full disk' 1 $?
expect 'full disk, said' 'ctsim-file: standard output did not take every byte' "$(cat "$made/said")"

./ctsim-file <. >"$made/none" 2>"$made/said"
fails 'line that is a folder' 1 'ctsim-file: standard input could not be read' $?

./ctsim-check >"$made/answer" 2>/dev/null <"$run"
expect 'check' 0 $?
expect 'check, answer' yes "$(cat "$made/answer")"
checks 'check of a name' 0 yes "$run"
expect 'check in parts' yes "$({ head -c 1000 "$run"; sleep 1; tail -c +1001 "$run"; } | ./ctsim-check)"

# A long run: 1,000 snapshots of more are stored.
./ctsim-file 2 32 0 8 - 3fe0000000000000 5 64 1 1000000 >"$made/long"
expect 'long run' 0 $?
expect 'long run, size' 43857 "$(wc -c <"$made/long" | tr -d ' ')"
checks 'long run, check' 0 yes "$made/long"

head -c 2464 "$run" >"$made/cut"
checks 'cut file' 1 'refused 17' "$made/cut"
checks 'no byte' 1 'refused 17' /dev/null
byte "$run" 121 004
checks 'changed total' 1 no "$made/changed"
byte "$run" 41 000
checks 'changed topology' 1 no "$made/changed"
byte "$run" 0 004
checks 'changed first byte' 1 'refused 17' "$made/changed"
padded 2466
checks 'a byte more' 1 'refused 17' "$made/padded"
padded 4194304
checks 'as long as can be' 1 'refused 17' "$made/padded"

padded 4194305
./ctsim-check "$made/padded" >"$made/none" 2>"$made/said"
fails 'too long' 2 'ctsim-check: more than 4194304 bytes were read' $?

./ctsim-check <. >"$made/none" 2>"$made/said"
fails 'file that is a folder' 2 'ctsim-check: standard input could not be read' $?

./ctsim-check "$made/missing" >"$made/none" 2>/dev/null
expect 'no such file' 2 $?
expect 'no such file, nothing written' '' "$(cat "$made/none")"

./ctsim-check "$run" "$run" >"$made/none" 2>"$made/said"
fails 'two files' 2 'ctsim-check: one file at a time' $?

./ctsim-check "$run" >/dev/full 2>"$made/said"
expect 'full disk of the check' 2 $?
expect 'full disk of the check, said' 'ctsim-check: standard output did not take every byte' "$(cat "$made/said")"

printf '%s passed, %s failed\n' "$passed" "$failed"
[ "$failed" -eq 0 ]
