#!/bin/sh
# Runs the kit's bench programs and the model's on the same inputs and compares what they print. `make bench` runs it.
# Words: the build folder, the stored input, how many random inputs, the bench program, the one on the X24128.
set -eu

build=$1
stored=$2
count=$3
x24f128=$4
x24128=$5
apart=0

# Both programs on bench.in, and whether the parts show.
both() {
    for part in x24f128 x24128; do
        eval "program=\$$part"
        "$program" < "$build/bench.in" > "$build/bench.$part"
        "$build/bench" "$part" < "$build/bench.in" > "$build/model.$part"
        if ! cmp -s "$build/bench.$part" "$build/model.$part"; then
            echo "DIFFERENCE on $1 ($(wc -c < "$build/bench.in") bytes): < $program, > the model's $part"
            diff "$build/bench.$part" "$build/model.$part" || true
            exit 1
        fi
    done
    cmp -s "$build/bench.x24f128" "$build/bench.x24128" || apart=$((apart + 1))
}

head -c 78 "$stored" > "$build/bench.in"
both "worked case 13"
printf 'event note\n77 3\n78 events\n' | cmp - "$build/bench.x24f128"
printf 'event note\n77 3\n78 events\n' | cmp - "$build/bench.x24128"
tail -c +79 "$stored" > "$build/bench.in"
both "27 bytes from 0006h"
test "$apart" -eq 1 || { echo "bench: the two programs print the same for a load that is not a whole sector"; exit 1; }

i=0
while [ "$i" -lt "$count" ]; do
    "$build/noise" "$i" > "$build/bench.in"
    both "noise $i"
    i=$((i + 1))
done
echo "bench: case 13, 27 bytes from 0006h and $count random inputs, the same output; $apart tell the parts apart"
