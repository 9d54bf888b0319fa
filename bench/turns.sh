#!/bin/sh
# Measures takes and gives a second of one turn, by one thread and by four, beside locks and unlocks of a Mutex in Rust.
# It proves and builds a program of its own in a folder that it removes, which takes some minutes.
# Usage: bench/turns.sh. It needs rt, rustc and awk.

here=$(CDPATH='' cd -- "$(dirname -- "$0")" && pwd) || exit 1
folder=$(mktemp -d) || exit 1
trap 'rm -rf "$folder"' EXIT

mkdir -p "$folder/crates/turns/src" "$folder/crates/turns/specs" "$folder/crates/turns/proofs/count_up" || exit 1
cp -r "$here/../crates/basics" "$here/../crates/turn_lock" "$folder/crates/" || exit 1
cp "$here/../HANDLES" "$folder/" || exit 1
printf 'basics:\nturn_lock: basics atomic_table\nturns: turn_lock\n' >"$folder/crates.txt"
: >"$folder/crates/turns/specs/Lib.antt"
: >"$folder/crates/turns/proofs/Lib.antt"
cat >"$folder/crates/turns/proofs/count_up/Invariants.antt" <<'END'
use Rattle.turn_lock.specs.Pass.{IsFreeAt}
use Rattle.turns.proofs.count_up.Given as goal

abbrev pub invariant-loop : goal.invariant-loop
invariant-loop g l = IsFreeAt l.pass l.turn
END
cp "$here/turns_in_rattle.txt" "$folder/crates/turns/src/main.rt" || exit 1
(cd "$folder/crates/turns" && rt "${1:-run}") >"$folder/rattle" 2>&1 || {
    cat "$folder/rattle" >&2
    exit 1
}
rustc -O -o "$folder/mutex" "$here/turns.rs" && "$folder/mutex" >"$folder/rust" || exit 1

for name in rattle rust; do
    awk -v name="$name" 'NF == 3 && /^[0-9]+ [0-9]+ [0-9]+$/ {
        printf "%s, threads %d: %.1f million a second\n", name, $1, $2 / ($3 / 1e9) / 1e6
    }' "$folder/$name"
done
