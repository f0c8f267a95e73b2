#!/usr/bin/env bash
# Runs crates/desk/out/desk as people do, and holds what it writes and its status to
# what they should be. Stops at the first difference.
set -euo pipefail
cd "$(dirname "${BASH_SOURCE[0]}")/.."
name=desk
. tests/running.sh

lines() { printf '%s\n' "$@"; }

# says FILE WHAT LINES..: the file has just these lines
says() {
    local file=$1 what=$2
    shift 2
    lines "$@" >"$work/wanted"
    same "$work/wanted" "$file" "$what"
}

# silent FILE WHAT: the file is empty
silent() { [ ! -s "$1" ] || fail "$2"; }

# last ANSWER CALLS..: the last call is answered so, with the options in $options
options=()
last() {
    local answer=$1
    shift
    lines "$@" >"$work/in"
    run 0 --plain "${options[@]}"
    tail -n 1 "$work/out" >"$work/last"
    says "$work/last" "answered otherwise: $*" "$answer"
    silent "$work/err" "spoke on standard error: $*"
}

# stray LINE WHAT: a line that is no call is named, and the calls around it are performed
stray() {
    lines 'take bare 0' "$1" 'words' >"$work/in"
    run 1 --plain
    says "$work/out" "other calls are lost: $1" 'group 3, starts at 0' '1 word'
    says "$work/err" "named otherwise: $1" "line 2: not a call: $2" 'lines that are no calls were passed over'
}

# many COUNT WORD: the word so many times
many() { printf "%$1s" '' | sed "s/ /$2/g"; }

# The stored session: by the program, by the command that people type, and its answers alone.
cp crates/desk/stdin "$work/in"
run 0
same crates/desk/stdout "$work/out" "the stored session"
program=bin/desk run 0
same crates/desk/stdout "$work/out" "bin/desk"
run 0 --plain
sed -n 's/^      //p' crates/desk/stdout >"$work/wanted"
same "$work/wanted" "$work/out" "the stored session with --plain"

# A call stands above its answer, after the number of its line.
lines '' '  words ' '# a remark' 'tops' >"$work/in"
run 0
says "$work/out" "the layout" '   2  words' '      0 words' '   4  tops' '      0 top passages'

# Nothing to do.
: >"$work/in"
run 0
silent "$work/out" "an empty input is answered"
lines '' '# nothing' '   ' >"$work/in"
run 0
silent "$work/out" "an input without calls is answered"
printf 'words' >"$work/in"
run 0 --plain
says "$work/out" "a last line without an end" '0 words'

# Answers.
last 'took 0 words' 'read'
last 'took 1 word' 'read german H3/4'
last 'took 3 words' 'written german G3/4 H3/4 bar:2'
last 'group 3, starts at 0' 'take bare 0'
last 'group 4, starts at 0' 'take rest 4'
last 'group 5, starts at 0' 'take syllable "la"'
last 'group 10, starts at 1' 'take bare 0' 'take rest 1' 'take bare 1'
last 'group 3' 'take bare 0' 'take bare 0' 'group 1'
last 'starts at 0' 'take bare 0' 'take bare 1' 'start 1'
last '1 word' 'take bare 0' 'words'
last '1 top passage' 'take bare 0' 'take bare 1' 'tops'
last 'closed' 'close'
last 'open again' 'close' 'reopen'
last '1 repeat' 'bare r/1 r/1' 'close' 'repeats'
last 'group 3, size 1, 2 ends: 0 1' 'bare r/1 r/1' 'close' 'list 0'
last 'group 3, size 1, 2 ends: 0 1' 'bare r/1 r/1' 'close' 'list 0 2'
last 'took 1 word' 'close' 'reopen' 'read r/4'

# The same note, in whichever names it is typed; and two notes that only look alike.
last 'group 7' 'read german H3/4 english B3/4' 'group 0'
last 'group 7' 'read german H3/4 english B3/4' 'group 1'
last 'group 10' 'read german H3/4 english Bb3/4' 'group 1'
last '1 repeat' 'read german B3/4 english Bb3/4' 'close' 'repeats'
last '0 repeats' 'read german His4/4 C5/4' 'close' 'repeats'
last '1 repeat' 'sounding german His4/4 C5/4' 'close' 'repeats'

# Refusals, with the byte for a reading; a reading keeps the words before.
last 'refused 11 byte 4: the token is longer than 64 bytes' "read r/4 $(many 65 x)"
last 'refused 12 byte 4: this is no frame such as bar:2 and no syllable such as "la"' 'read r/4 bars:1'
last 'refused 13 byte 0: a note stands before the first word german or english' 'read H4/4'
last 'refused 13 byte 0: a note stands before the first word german or english' 'read german' 'read H4/4'
last 'refused 22 byte 7: the note'"'"'s name is not in the list of its naming' 'read german Hes4/4'
last 'refused 23 byte 8: the octave is not one digit or the length is not /1 to /64' 'read english C4/65'
last 'refused 31 byte 4: the word asks for more passages than are open' 'read r/4 bar:2'
last '1 word' 'read r/4 bar:2' 'words'
last 'refused 31: the word asks for more passages than are open' 'take bare 0' 'take bare 2'
last 'refused 41: no word stands at that position' 'take bare 0' 'group 1'
last 'refused 41: no word stands at that position' 'take bare 0' 'close' 'start 4294967295'
last 'refused 42: there is no repeat of that number' 'bare r/1 r/1' 'close' 'list 1'
last 'refused 43: the table is too short for the ends of the repeat' 'bare r/1 r/1' 'close' 'list 0 1'

# A full register, though the note is held already; and a full book.
options=(--capacity 7)
last 'group 7, starts at 0' 'take syllable "hold"'
last 'took 1 word' 'read german H3/4'
last 'refused 33 byte 7: the register has too few free places for the word' 'read german H3/4' 'read german H3/4'
options=(--capacity 6)
last 'refused 33 byte 7: the register has too few free places for the word' 'read german H3/4'
last 'group 3, starts at 0' 'read german H3/4' 'take bare 0'
options=(--capacity 0)
last 'refused 33: the register has too few free places for the word' 'take bare 0'
options=()
last 'took 4096 words' "bare$(many 4096 ' r\/1')"
last 'refused 32: the book holds 4096 words already' "bare$(many 4096 ' r\/1')" 'take bare 1'
last 'refused 32 byte 16384: the book holds 4096 words already' "bare$(many 4097 ' r\/1')"
last 'refused 10 byte 0: the text is longer than 65536 bytes' "read r/4$(many 65534 x)"
last 'refused 11 byte 4: the token is longer than 64 bytes' "read r/4 $(many 65532 x)"

# What the book does not allow as it stands.
for call in 'read r/4' 'written r/4' 'sounding r/4' 'bare r/4' 'take bare 0'; do
    last 'not allowed: the book is closed; reopen it first' 'close' "$call"
done
last 'not allowed: the book is closed already' 'close' 'close'
last 'not allowed: the book is open already' 'reopen'
last 'not allowed: the book is open; close it first' 'repeats'
last 'not allowed: the book is open; close it first' 'list 0'

# Lines that are no calls.
stray 'grop 3' 'grop 3'
stray 'Words' 'Words'
stray ' group  ' 'group; the form is: group POSITION'
stray 'group x' 'group x; the form is: group POSITION'
stray 'group 1 2' 'group 1 2; the form is: group POSITION'
stray 'start 4294967296' 'start 4294967296; the form is: start POSITION'
stray 'words 3' 'words 3; the form is: words, and nothing behind it'
stray 'list' 'list; the form is: list REPEAT or list REPEAT PLACES'
stray 'list 0 4097' 'list 0 4097; the form is: list REPEAT or list REPEAT PLACES'
taken='the form is: take bare RANK, take rest LENGTH or take syllable "la"'
for call in 'take' 'take bare' 'take bare 256' 'take rest 0' 'take rest 65' 'take syllable la' 'take syllable ""' 'take organ 1'; do
    stray "$call" "$call; $taken"
done
lines 'no' 'words' 'neither' >"$work/in"
run 1
says "$work/out" "two lines that are no calls" '   2  words' '      0 words'
says "$work/err" "two lines that are no calls" 'line 1: not a call: no' 'line 3: not a call: neither' 'lines that are no calls were passed over'

# A line that is no UTF-8 ends the session before a call of it is performed.
for line in 'read "\374"' 'no\377' '# \377'; do
    printf "words\n$line\nwords\n" >"$work/in"
    run 1
    silent "$work/out" "performed a session that is no UTF-8: $line"
    says "$work/err" "a line that is no UTF-8: $line" 'stream did not contain valid UTF-8'
done

# The command line.
: >"$work/in"
run 0 --help
grep -q '^Usage: desk ' "$work/out" || fail "--help does not say how to use it"
silent "$work/err" "--help speaks on standard error"
for words in '--nope' 'file.txt'; do
    run 1 "$words"
    says "$work/err" "$words" 'there is no such option; --help says which there are'
    silent "$work/out" "$words: wrote to standard output"
done
for words in '--capacity' '--capacity x' '--capacity 32769'; do
    # shellcheck disable=SC2086
    run 1 $words
    says "$work/err" "$words" '--capacity wants a number up to 32768 behind it'
done

echo "desk: $runs runs, each as it should be"
