#!/bin/sh
# Measures cutovers that are asked for one after another, each kept in the journal before its reply, beside a C program
# that writes the same file by two writes and two syncs a record. Each runs three times in turn; the least time counts.
# Usage: bench/cutover.sh PROGRAM [CUTOVERS]. It needs cc, GNU date and awk. It works in a folder that it makes in the
# current one and removes, since it is that folder's disk which is measured.

here=$(CDPATH='' cd -- "$(dirname -- "$0")" && pwd) || exit 1
program=$(realpath -- "${1:?PROGRAM is missing}") || exit 1
cutovers=${2:-1000}
folder=$(mktemp -d "$PWD/cutover.XXXXXX") || exit 1
trap 'rm -rf "$folder"' EXIT
cd "$folder" || exit 1
cc -O2 -Wall -o least "$here/cutover.c" || exit 1
{
    echo '{"cmd":"host","name":"h"}'
    echo '{"cmd":"vm","name":"v","host":"h","disks":[128]}'
    echo '{"cmd":"enable","vm":"v"}'
    echo '{"cmd":"snapshot","vm":"v"}'
    echo '{"cmd":"plan","name":"p","vms":["v"],"interval":60}'
    echo '{"cmd":"start","plan":"p"}'
    awk -v count="$cutovers" 'BEGIN { while (count-- > 0) print "{\"cmd\":\"cutover\",\"plan\":\"p\"}" }'
} >lines

# Adds to the file of this name how many nanoseconds a command takes.
timed() {
    name=$1
    shift
    begin=$(date +%s%N)
    "$@" || return
    end=$(date +%s%N)
    echo $((end - begin)) >>"$name.times"
}

served() {
    rm -f warm.journal
    timed program "$program" <lines >replies
}

# The program has to do the whole work, or its time says nothing.
is_whole() {
    refused=$(grep -v -m 1 '"ok":true' replies) && {
        echo "bench: the program answers $refused" >&2
        return 1
    }
    [ "$(wc -l <replies)" -eq "$(wc -l <lines)" ] || {
        echo "bench: there are fewer replies than lines" >&2
        return 1
    }
    cmp warm.journal least.journal || {
        echo "bench: the program and the C program leave different files" >&2
        return 1
    }
}

for _ in 1 2 3; do
    rm -f least.journal
    timed least ./least least.journal "$cutovers" || exit 1
    served || {
        echo "bench: the program ends by status $?" >&2
        exit 1
    }
    is_whole || exit 1
done
sort -n least.times | head -n 1 >least.time
sort -n program.times | head -n 1 | paste least.time - | awk -v cutovers="$cutovers" '{
    printf "%d cutovers, two syncs each: %.3f s in C, %.3f s by the program, %.2f times as long\n", \
        cutovers, $1 / 1e9, $2 / 1e9, $2 / $1
}'
