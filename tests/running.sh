# Read by the tests of a program, which set `name` first: running the program
# on a text, and holding what it writes and its status to what they should be.
program=crates/$name/out/$name
work=$(mktemp -d)
trap 'rm -rf "$work"' EXIT
runs=0

fail() {
    echo "tests/$name.sh: $*" >&2
    exit 1
}

# run STATUS WORDS..: runs the program on $work/in
run() {
    local wanted=$1 status=0
    shift
    "$program" "$@" <"$work/in" >"$work/out" 2>"$work/err" || status=$?
    [ "$status" -eq "$wanted" ] || fail "status $status, not $wanted: $name $* on $(head -c 80 "$work/in")"
    runs=$((runs + 1))
}

same() { diff "$1" "$2" >&2 || fail "$3"; }
