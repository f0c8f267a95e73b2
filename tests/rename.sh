#!/usr/bin/env bash
# Runs crates/rename/out/rename as people do, and holds what it writes and its status
# to what they should be. Stops at the first difference.
set -euo pipefail
cd "$(dirname "${BASH_SOURCE[0]}")/.."
name=rename
. tests/running.sh

# becomes TEXT NEW WORDS..: the text becomes the new one, which is written alone
becomes() {
    printf '%s' "$1" >"$work/in"
    printf '%s\n' "$2" >"$work/wanted"
    run 0 --plain "${@:3}"
    same "$work/wanted" "$work/out" "renamed otherwise: $1"
    [ ! -s "$work/err" ] || fail "spoke on standard error: $1"
}

# says_only LINE WHAT: one line on standard error, and nothing else
says_only() {
    printf '%s\n' "$1" >"$work/wanted"
    same "$work/wanted" "$work/err" "said otherwise: $2"
    [ ! -s "$work/out" ] || fail "wrote to standard output: $2"
}

reason() {
    case $1 in
    10) echo "the text is longer than 65536 bytes" ;;
    11) echo "the token is longer than 64 bytes" ;;
    12) echo 'this is no frame such as bar:2 and no syllable such as "la"' ;;
    13) echo "a note stands before the first word german or english" ;;
    22) echo "the note's name is not in the list of its naming" ;;
    23) echo "the octave is not one digit or the length is not /1 to /64" ;;
    esac
}

# refuses_input NUMBER BYTE WORDS..: refuses $work/in
refuses_input() {
    run 1 "${@:3}"
    says_only "refused $1 byte $2: $(reason "$1")" "$(head -c 80 "$work/in")"
}

# refuses TEXT NUMBER BYTE: with --plain and without it
refuses() {
    printf '%s' "$1" >"$work/in"
    refuses_input "$2" "$3"
    refuses_input "$2" "$3" --plain
}

# many COUNT WORD: the word so many times
many() { printf "%$1s" '' | sed "s/ /$2/g"; }

# The examples: to each naming and back, from a file and from standard input.
for example in examples/*.txt; do
    cp "$example" "$work/in"
    for naming in german english; do
        run 0 --plain --to "$naming"
        mv "$work/out" "$work/$naming"
        run 0 --to "$naming" --plain "$example"
        same "$work/$naming" "$work/out" "$example: the file is read otherwise than standard input"
        run 0 --to "$naming" "$example"
        grep -q "^Read $(wc -c <"$example") bytes of $example: " "$work/out" || fail "$example: does not say what it read"
        tail -n 1 "$work/out" | cmp -s - "$work/$naming" || fail "$example: does not end with the text"
    done
    run 0 --plain "$example"
    same "$work/english" "$work/out" "$example: is not written in English where nothing is said"
    run 0 --plain --to english "$work/german"
    same "$work/english" "$work/out" "$example: German to English"
    run 0 --plain --to german "$work/english"
    same "$work/german" "$work/out" "$example: English and back to German"
done
for naming in german english; do
    run 0 --to "$naming" examples/nun-danket.txt
    same "tests/nun-danket.$naming" "$work/out" "nun-danket in $naming"
done

# The command of the README, and what it says that this prints.
program=bin/rename run 0 --to german examples/nun-danket.txt
same tests/nun-danket.german "$work/out" "bin/rename"
sed 's/^/    /' tests/nun-danket.german >"$work/wanted"
grep -A 4 '^    Read ' README.md >"$work/out"
same "$work/wanted" "$work/out" "README.md shows another run"

# What passes.
becomes '' 'english'
becomes 'german' 'english'
becomes 'english B4/4 Bb4/4 german H4/4 B4/4' 'german H4/4 B4/4 H4/4 B4/4' --to german
becomes 'english B4/4 Bb4/4 german H4/4 B4/4' 'english B4/4 Bb4/4 B4/4 Bb4/4' --to english
becomes $'  r/1\n\nr/64\n' 'english r/1 r/64'
becomes 'bar:0 organ:255' 'english bar:0 organ:255'
becomes '"la" "Hän-"' 'english "la" "Hän-"'
becomes "\"$(many 30 x)\"" "english \"$(many 30 x)\""

# What is refused, and the byte where the token begins.
refuses 'H4/4' 13 0
refuses 'Hes4/4' 13 0
refuses 'X' 13 0
refuses 'german Hes4/4' 22 7
refuses 'german Bis4/4' 22 7
refuses 'english H4/4' 22 8
refuses 'english H4' 22 8
refuses 'english german r/4 Cb4/4' 22 19
refuses 'english C4' 23 8
refuses 'english C' 23 8
refuses 'english C/4' 22 8
refuses 'english C44/4' 23 8
refuses 'english C4/0' 23 8
refuses 'english C4/65' 23 8
refuses 'r/65' 23 0
refuses 'r/0' 23 0
refuses 'r/04' 23 0
refuses 'r/' 23 0
refuses 'r' 12 0
refuses 'bar' 12 0
refuses 'bar:' 12 0
refuses 'bar:256' 12 0
refuses 'bar:01' 12 0
refuses 'Bar:1' 13 0
refuses 'bars:1' 12 0
refuses '""' 12 0
refuses '"' 12 0
refuses '"la' 12 0
refuses '"la"x' 12 0
refuses '"l"a"' 12 0
refuses '"la la"' 12 0
refuses "\"$(many 31 x)\"" 12 0
refuses $'english\r\nC4/4\r\n' 12 0
refuses $'english\tC4/4' 12 0
refuses $'r/4\nr/4\n x' 12 9
refuses "$(many 64 x)" 12 0
refuses "$(many 65 x)" 11 0
refuses "r/4 $(many 65 H)" 11 4

# The longest text, one that is longer, and one that would get longer than that.
many 65536 ' ' >"$work/in"
run 0 --plain
[ "$(cat "$work/out")" = english ] || fail "65,536 spaces"
many 65537 ' ' >"$work/in"
refuses_input 10 0
{ many 65536 ' ' && printf x; } >"$work/in"
refuses_input 10 0
many 300000 ' ' >"$work/in"
refuses_input 10 0
{ printf english && many 10000 ' Cb4\/4'; } >"$work/in"
run 0 --plain --to english
refuses_input 10 0 --to german

# The command line.
: >"$work/in"
run 0 --help
grep -q '^Usage: rename ' "$work/out" || fail "--help does not say how to use it"
[ ! -s "$work/err" ] || fail "--help speaks on standard error"
run 1 --nope
says_only 'there is no such option; --help says which there are' --nope
run 1 --to
says_only '--to wants german or english behind it' --to
run 1 --to french
says_only '--to wants german or english behind it' '--to french'
run 1 one two
says_only 'one file at a time' 'two files'
run 1 "$work/no such file"
[ ! -s "$work/out" ] || fail "a missing file: wrote to standard output"
[ "$(wc -l <"$work/err")" -eq 1 ] || fail "a missing file: no line on standard error"

echo "rename: $runs runs, each as it should be"
