#!/bin/sh
# Instructions per event of each engine on each workload, counted by callgrind. `make count` runs it.
set -eu

build=$1
command -v valgrind > /dev/null || { echo "count: valgrind not found: nothing was counted"; exit 1; }
for engine in 0 1 2 3 4 5 6 7; do
    for work in 0 1 2 3; do
        valgrind --tool=callgrind --callgrind-out-file=/dev/null --toggle-collect=pass "$build/speed" $engine $work \
            > "$build/count.out" 2> "$build/count.err"
        awk -v title="$(cat "$build/count.out")" '
            /Collected/ { split(title, t, ": "); split(t[2], n, " "); printf "%-26s %7.1f\n", t[1], $NF / n[1] }
        ' "$build/count.err"
    done
done
