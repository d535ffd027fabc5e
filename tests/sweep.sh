#!/bin/sh
# Builds the library and examples/sweep.c as the README says, and tries the example. The gate leaves it
# out, as it needs a C compiler. Ends in 'N passed, M failed'.
set -u
cd "$(dirname "$0")/.." || exit 2
(cd crates/capi && rt lib) >/dev/null || exit 2
mkdir -p target || exit 2
"${CC:-cc}" -std=c99 -pthread -Wall -Wextra -pedantic -Iinclude examples/sweep.c examples/words.c \
    crates/capi/out/libcapi.a -o target/sweep || exit 2
line='2 3 0 1 - 0000000000000000 1 2 1000'
grid='4 4 4 2 5 3fe0000000000000 20 2 100000'
passed=0
failed=0
made=$(mktemp -d) || exit 2
trap 'rm -rf "$made"' EXIT

# expect NAME WANTED GOT
expect() {
    if [ "$2" = "$3" ]; then
        passed=$((passed + 1))
    else
        failed=$((failed + 1))
        printf 'FAILED %s: %s, and not %s\n' "$1" "$3" "$2"
    fi
}

# same NAME FILE FILE
same() {
    expect "$1" yes "$(cmp "$2" "$3" >"$made/differ" 2>&1 && echo yes || cat "$made/differ")"
}

# gives STATUS TEXT WORD..: the example's status, and what it prints
gives() {
    status=$1
    text=$2
    shift 2
    printed=$(target/sweep "$@" 2>"$made/said")
    expect "$*, status" "$status" $?
    expect "$*" "$text" "$printed"
}

# refuses NUMBER WORD..: the refusal is all that is printed and said, for no seeds too
refuses() {
    number=$1
    shift
    gives 1 "refused $number" 5 3000 "$@"
    expect "refused $number, nothing said" '' "$(cat "$made/said")"
    gives 1 "refused $number" 5 0 "$@"
}

# misses WORD..: words that are not understood
misses() {
    gives 2 '' "$@"
    expect "$*, usage" 'usage: sweep [-j THREADS]' "$(grep -o '^usage: sweep \[-j THREADS\]' "$made/said")"
}

gives 0 '2 5 5 6 4 1 1' 7 1 $line
gives 0 '2 5 5 6 4 1 1
2 5 5 6 4 1 1
2 5 5 6 4 1 1' -j 5 7 3 $line
expect 'no more threads than chunks' 'sweep: 3 seeds, 6 rounds, 3 threads' "$(tail -n 1 "$made/said")"
gives 0 '' 7 0 $line
expect 'no seeds' 'sweep: 0 seeds, 0 rounds, 0 threads' "$(cat "$made/said")"

# The lines do not depend on the number of threads, nor on where the list begins.
target/sweep -j 2 0 5000 $grid >"$made/all" 2>"$made/told"
expect 'grid' 0 $?
expect 'grid, lines' 5000 "$(grep -cxE '[0-9]+( [0-9]+){6}' "$made/all")"
expect 'grid, nothing else' 5000 "$(wc -l <"$made/all")"
expect 'grid, seed 99' '52 251 2759 849 408 20 2' "$(sed -n 100p "$made/all")"
for threads in 1 5 64; do
    target/sweep -j $threads 0 5000 $grid >"$made/some" 2>"$made/said"
    expect "$threads threads" 0 $?
    same "$threads threads, same lines" "$made/all" "$made/some"
    expect "$threads threads, told" "$threads threads" "$(tail -n 1 "$made/said" | grep -o '[0-9]* threads$')"
done
target/sweep 0 5000 $grid >"$made/some" 2>/dev/null
expect 'all processors' 0 $?
same 'all processors, same lines' "$made/all" "$made/some"
sed -n 1001,1050p "$made/all" >"$made/part"
target/sweep -j 2 1000 50 $grid >"$made/some" 2>/dev/null
same 'from 1000' "$made/part" "$made/some"

# Standard error has about each tenth, and the sum of the rounds.
expect 'told, steps' 10 "$(grep -cxE 'sweep: [0-9]+ of 5000 seeds' "$made/told")"
expect 'told, all seeds' 'sweep: 5000 of 5000 seeds' "$(tail -n 2 "$made/told" | head -n 1)"
expect 'told, rounds' "sweep: 5000 seeds, $(awk '{ n += $1 } END { print n }' "$made/all") rounds, 2 threads" \
    "$(tail -n 1 "$made/told")"
expect 'told, nothing else' 11 "$(wc -l <"$made/told")"

# More seeds than one call takes, and seeds behind the greatest.
target/sweep -j 3 0 150000 2 3 0 1 - 0000000000000000 1 2 0 >"$made/many" 2>/dev/null
expect 'many seeds' 0 $?
expect 'many seeds, lines' 150000 "$(grep -cx '0 0 0 0 0 0 4' "$made/many")"
expect 'many seeds, nothing else' 150000 "$(wc -l <"$made/many")"
{
    target/sweep 18446744073709551614 2 $grid
    target/sweep 0 2 $grid
} >"$made/ends" 2>/dev/null
target/sweep 18446744073709551614 4 $grid >"$made/some" 2>/dev/null
expect 'behind the greatest seed' 0 $?
same 'behind the greatest seed, lines' "$made/ends" "$made/some"
expect 'behind the greatest seed, four lines' 4 "$(sort -u "$made/some" | wc -l)"

refuses 1 7 3 0 1 - 0000000000000000 1 2 1000
refuses 2 2 33 0 1 - 0000000000000000 1 2 1000
refuses 3 2 3 1 1 - 0000000000000000 1 2 1000
refuses 5 2 3 0 65 - 0000000000000000 1 2 1000
refuses 6 2 3 0 1 4097 0000000000000000 1 2 1000
refuses 7 2 3 0 1 - 3ff0000000000000 1 2 1000
refuses 8 2 3 0 1 - 0000000000000000 65 2 1000
refuses 9 2 3 0 1 - 0000000000000000 1 0 1000
refuses 16 2 3 0 2 1 0000000000000000 1 2 1000

misses
misses 7 1
misses 7 1 $line 1
misses -j 2 7 1 $line 1
misses -j 2 7 $line
misses -j 0 7 1 $line
misses -j 1025 7 1 $line
misses -j two 7 1 $line
misses 2 -j 7 1 $line
misses 18446744073709551616 1 $line
misses 7 -1 $line
misses 7 1 2 3 0 1 x 0000000000000000 1 2 1000
misses 7 1 2 3 0 1 - 0.5 1 2 1000

for count in 1 5000; do
    target/sweep -j 2 0 $count $grid >/dev/full 2>"$made/said"
    expect "full disk, $count" 1 $?
    expect "full disk, $count, said" 'sweep: standard output did not take every byte' "$(cat "$made/said")"
done

printf '%s passed, %s failed\n' "$passed" "$failed"
[ "$failed" -eq 0 ]
