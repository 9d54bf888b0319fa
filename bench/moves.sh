#!/bin/sh
# Measures the built program: small moves per second, and bytes of disk per second of moves that are wholly written.
# Volumes stay in memory, so each run holds all of its moves: 20,000 small ones take 2.6 GB, and 32 full ones 1 GB.
# Usage: bench/moves.sh [SMALL [FULL]], the two numbers of moves. It needs GNU date, awk and grep.

here=$(CDPATH='' cd -- "$(dirname -- "$0")" && pwd) || exit 1
program=$here/../crates/migrate_main/out/migrate_main
small=${1:-20000}
full=${2:-32}
if [ ! -x "$program" ]; then
    echo "bench: build the program first, as by ./warm_migrate </dev/null" >&2
    exit 1
fi
folder=$(mktemp -d) || exit 1
trap 'rm -rf "$folder"' EXIT

# Runs the program on the lines of a file, and prints how many nanoseconds that took.
measure() {
    begin=$(date +%s%N)
    "$program" <"$folder/$1" >"$folder/replies" || exit 1
    end=$(date +%s%N)
    done_moves=$(grep -c '"state":"complete"' "$folder/replies")
    if [ "$done_moves" -ne "$2" ]; then
        echo "bench: $done_moves of $2 moves were complete" >&2
        exit 1
    fi
    echo $((end - begin))
}

awk -f "$here/moves.awk" -v count="$small" -v sectors=256 -v writes=1 -v size=1 >"$folder/small"
awk -f "$here/moves.awk" -v count="$full" -v sectors=65536 -v writes=512 -v size=128 >"$folder/full"

nanos=$(measure small "$small") || exit 1
awk -v n="$small" -v t="$nanos" 'BEGIN { printf "small moves: %.0f a second (%d in %.2f s)\n", n / (t / 1e9), n, t / 1e9 }'
nanos=$(measure full "$full") || exit 1
awk -v n="$full" -v t="$nanos" 'BEGIN { printf "full moves: %.0f MB of disk a second (%d of 33.6 MB in %.2f s)\n", n * 65536 * 512 / 1e6 / (t / 1e9), n, t / 1e9 }'
