#!/bin/sh
# Puts each fault of mutants.txt into a copy of the model, links it in the library's place, and sees that the
# comparison finds it; then counts the faults that the gate's script of vectors shows too. `make mutants` runs it.
# Words: the build folder, then the objects of the comparison.
set -eu

build=$1
shift
compile="${CC:-cc} -std=c99 -O1 -w -I../include -I."
events=${EVENTS:-10000000}
found=0
missed=0
shown=0
unseen=

$compile -c vectors/script.c -o "$build/player.o"
grep -v '^#' mutants.txt | grep . > "$build/mutants.list"
while IFS= read -r entry; do
    name=${entry%%: *}
    if ! awk -v entry="$(printf '%s' "$entry" | sed 's/\\/\\\\/g')" -f mutants.awk model.c > "$build/mutant.c"; then
        echo "mutants: $name: its OLD does not stand exactly once in model.c"
        exit 2
    fi
    $compile -c "$build/mutant.c" -o "$build/mutant.o"
    $compile "$build/mutant.o" "$@" -o "$build/mutant"
    "$build/mutant" -n "$events" > "$build/mutant.out" || true
    # a crash or a count that was never reached is no find: the report of a difference is
    if head -n 1 "$build/mutant.out" | grep -q '^DIFFERENCE'; then
        echo "found      $name: $(head -n 1 "$build/mutant.out")"
        found=$((found + 1))
    else
        echo "NOT FOUND  $name"
        missed=$((missed + 1))
    fi
    $compile "$build/mutant.o" "$build/player.o" "$build/wire.o" -o "$build/player"
    if "$build/player" ../crates/vectors/stdin | cmp -s - ../crates/vectors/stdout; then
        unseen="$unseen $name"
    else
        shown=$((shown + 1))
    fi
done < "$build/mutants.list"
echo "mutants: $found found, $missed not found; the vectors of the gate show $shown of them, not:$unseen"
test "$missed" -eq 0
