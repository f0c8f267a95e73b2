#!/usr/bin/env bash
# How the work grows with the text: instructions per word, counted by valgrind, of the desk reading a text,
# closing the book and listing every repeat. Nothing is asserted; the numbers are printed.
# Needs valgrind and crates/desk/out/desk (bin/desk builds it).
set -euo pipefail
cd "$(dirname "${BASH_SOURCE[0]}")/.."
program=crates/desk/out/desk
[ -x "$program" ] || {
    echo "bench/linear.sh: build the program first: bin/desk --help" >&2
    exit 1
}
work=$(mktemp -d)
trap 'rm -rf "$work"' EXIT

# text WORDS BARS: bars of three notes until there are so many words; each bar is one of BARS different ones
text() {
    awk -v words="$1" -v bars="$2" 'BEGIN {
        split("C D E F G A H", step, " ")
        printf "read german"
        for (w = 0; w + 4 <= words; w += 4) {
            bar = (w / 4) % bars
            for (n = 0; n < 3; n++) {
                k = bar * 3 + n
                printf " %s%d/%d", step[k % 7 + 1], int(k / 7) % 10, int(k / 70) % 64 + 1
            }
            printf " bar:3"
        }
        printf "\nclose\nrepeats\n"
    }'
}

# lists FILE PLACES: a listing for each repeat that the session finds, into a table of so many places
lists() {
    "$program" --plain <"$1" | awk -v places="$2" '/repeats?$/ { for (k = 0; k < $1; k++) print "list", k, places }'
}

instructions() { valgrind --tool=callgrind --callgrind-out-file=/dev/null "$program" --plain <"$1" 2>&1 >/dev/null | awk '/Collected/ { print $4 }'; }

: >"$work/empty"
base=$(instructions "$work/empty")
echo "instructions of an empty session: $base (making the register and the book)"
printf '%-28s %6s %8s %14s %9s\n' text words repeats instructions "per word"
for kind in "every bar twice" "sixteen bars"; do
    for words in 512 1024 2048 4096; do
        bars=16
        [ "$kind" = "sixteen bars" ] || bars=$((words / 8))
        text "$words" "$bars" >"$work/session"
        lists "$work/session" "$((words / 4 / bars))" >"$work/lists"
        cat "$work/lists" >>"$work/session"
        if "$program" --plain <"$work/session" | grep refused; then
            echo "bench/linear.sh: a call was refused" >&2
            exit 1
        fi
        total=$(instructions "$work/session")
        printf '%-28s %6d %8d %14d %9d\n' "$kind" "$words" "$(wc -l <"$work/lists")" "$((total - base))" "$(((total - base) / words))"
    done
done
