# What ./ctsim, ./ctsim-file and ./ctsim-check share, for them to source.
here=$(cd "$(dirname "$0")" && pwd) || exit 2

# How many crates the program is made of, itself included.
crates() {
    awk -F: -v program="$crate" '/^[a-z]/ { deps[$1] = $2 }
        END { todo = program
            while (todo != "") {
                split(todo, names, " "); todo = ""
                for (i in names) if (names[i] in deps && !(names[i] in seen)) { seen[names[i]] = 1; n++; todo = todo " " deps[names[i]] } }
            print n }' "$here/crates.txt"
}

# Proves and builds the program: a line a crate on standard error, and all that the prover said in a file. `rt run` also
# runs what it has built, here on an empty input.
build() {
    mkdir -p "$here/target" || exit 2
    printf '%s: proving %s crates, once, about %s minutes\n' "$name" "$(crates)" "$1" >&2
    (cd "$here/crates/$crate" && rt run </dev/null 2>&1) | while IFS= read -r line; do
        printf '%s\n' "$line" >&3
        case $line in
            'crate '*': modules '*) proved=${line#crate }; proved=${proved%%:*} ;;
            'logic=proved '*) printf '  %s proved\n' "$proved" >&2 ;;
        esac
    done 3>"$log"
    [ -x "$program" ] && return
    printf '%s: not built; what the prover said is in %s\n' "$name" "$log" >&2
    exit 2
}

# ready NAME MINUTES: the program of the command NAME, which takes so long to build.
ready() {
    name=$1
    crate=$(printf '%s\n' "$name" | tr - _)
    program=$here/crates/$crate/out/$crate
    log=$here/target/$name.log
    [ -x "$program" ] || build "$2"
}

# Runs the program. It has no status of its own, so what it says on standard error is one.
run() {
    said=$("$program" 2>&1 >&3)
    status=$?
    [ -z "$said" ] || { printf '%s\n' "$said" >&2; status=1; }
    return "$status"
}

# answer WORD..: runs the program on the line that the words make, or without words on standard input.
answer() {
    exec 3>&1 || exit 1
    if [ $# -eq 0 ]; then
        run
    else
        printf '%s\n' "$*" | run
    fi
}
