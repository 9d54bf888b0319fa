#!/bin/sh
# Measures the opening of a full journal in memory, that one more record is refused, and appends to an empty one.
# It proves and builds a program of its own in a folder that it removes, which takes some minutes.
# Usage: bench/journal.sh. It needs rt and awk.

here=$(CDPATH='' cd -- "$(dirname -- "$0")" && pwd) || exit 1
folder=$(mktemp -d) || exit 1
trap 'rm -rf "$folder"' EXIT

mkdir -p "$folder/crates/full/src" "$folder/crates/full/specs" "$folder/crates/full/proofs" || exit 1
for crate in basics change_id record_codec edge_traits journal; do
    mkdir "$folder/crates/$crate" || exit 1
    (cd "$here/../crates/$crate" && cp -r src specs proofs "$folder/crates/$crate/") || exit 1
done
cp "$here/../HANDLES" "$folder/" || exit 1
{
    grep -E '^(basics|change_id|record_codec|edge_traits|journal):' "$here/../crates.txt"
    echo 'full: edge_traits journal record_codec'
} >"$folder/crates.txt"
: >"$folder/crates/full/specs/Lib.antt"
: >"$folder/crates/full/proofs/Lib.antt"
cp "$here/journal_in_rattle.txt" "$folder/crates/full/src/main.rt" || exit 1
(cd "$folder/crates/full" && rt run) >"$folder/out" 2>&1 || {
    cat "$folder/out" >&2
    exit 1
}
awk '/^opened [0-9]+ [0-9]+$/ {
    printf "a journal of %d records is opened in %.2f seconds\n", $2, $3 / 1e9
}
/^refused / { print "one more: " substr($0, 9) }
/^appended [0-9]+ [0-9]+$/ {
    printf "appends: %.2f million a second\n", $2 / ($3 / 1e9) / 1e6
}' "$folder/out"
