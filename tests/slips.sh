#!/usr/bin/env bash
# Two slips must not compile: listing from a book that takes words, and taking a word into a closed one.
# Each is compiled twice, on the book that does not allow the call and on the one that does, so that the
# refusal is shown to come from the book's type and from nothing else. The calls stand in crates of a
# repository of their own, beside copies of the libraries here, with what was built of these.
set -euo pipefail
cd "$(dirname "${BASH_SOURCE[0]}")/.."
work=$(mktemp -d)
trap 'rm -rf "$work"' EXIT

libraries=(names registers labels book)
for library in "${libraries[@]}"; do
    mkdir -p "$work/crates/$library"
    for part in src specs proofs out/rlib; do
        [ ! -d "crates/$library/$part" ] || cp -a --parents "crates/$library/$part" "$work"
    done
    grep "^$library *:" crates.txt >>"$work/crates.txt"
done

# attempt NAME TYPE STATEMENT: a crate with one function that makes the call
attempt() {
    mkdir -p "$work/crates/$1/src"
    echo "$1: book labels registers" >>"$work/crates.txt"
    cat >"$work/crates/$1/src/lib.rt" <<SLIP
// One call.
#![tactic(auto)]

use book::$2;
use labels::Bare;
use registers::Register;

pub fn attempt<R: Register>(book: &mut $2<R>, table: &mut [u32]) {
    let _ = table.len();
    let _ = Bare;
    $3
}
SLIP
    (cd "$work/crates/$1" && rt check) >"$work/$1.log" 2>&1
}

fail() {
    echo "tests/slips.sh: $1" >&2
    cat "$work/$2.log" >&2
    exit 1
}

# only NAME RIGHT WRONG METHOD STATEMENT: the call is allowed on one type, and an unknown method of the other
only() {
    attempt "$1_allowed" "$2" "$5" || fail "$4 is refused on a $2" "$1_allowed"
    if attempt "$1_slip" "$3" "$5"; then
        fail "$4 is allowed on a $3" "$1_slip"
    fi
    grep -q "error\[unknown-method\].*$4" "$work/$1_slip.log" || fail "$4 on a $3 is refused for another reason" "$1_slip"
}

only listing ClosedBook TakingBook list 'let _ = book.list(0, table);'
only taking TakingBook ClosedBook take 'let _ = book.take(&Bare, 0);'
echo "slips: 2 refused by the compiler, and the same calls allowed where they should be"
