#!/bin/sh
# What a change cost, as the tables of a note in docs/changes/: two commits, each in a clone of its own and from nothing, one after the other.
# `make cost` runs it. Words: the project's root, the folder for the clones, the commit before, the commit after, "yes" for the whole gates too.
set -eu

root=$1
room=$2
gate=$5
machine=$(uname -m)
before=$(git -C "$root" rev-parse --verify --quiet "$3^{commit}") || { echo "cost: BEFORE is no commit: '$3'"; exit 1; }
after=$(git -C "$root" rev-parse --verify --quiet "$4^{commit}") || { echo "cost: AFTER is no commit: '$4'"; exit 1; }
command -v valgrind > /dev/null || { echo "cost: valgrind not found: nothing was measured"; exit 1; }

rm -rf "$room"
mkdir -p "$room"
for name in before after; do
    eval "commit=\$$name"
    git clone -q --no-checkout "$root" "$room/$name"
    git -C "$room/$name" checkout -q "$commit"
done

# The lines NAME:NUMBER of both commits, as rows of a table.
beside() {
    awk -F : -v OFS=' | ' '!($1 in seen) { order[++n] = $1; seen[$1] = 1 } FNR == NR { was[$1] = $2; next } { is[$1] = $2 }
        END { for (i = 1; i <= n; i++) { at = order[i]; print "| " at, (at in was ? was[at] : "-"), (at in is ? is[at] : "-") " |" } }' \
        "$room/before.$1" "$room/after.$1"
}

echo "## Lines, by crate and room"
echo
echo "| Crate | Room | Added | Removed |"
echo "|---|---|---|---|"
git -C "$root" diff --numstat --no-renames "$before" "$after" -- crates | awk -F '[\t/]' -v OFS=' | ' '
    { at = $4 OFS $5; if (!(at in seen)) { order[++n] = at; seen[at] = 1 } added[at] += $1; removed[at] += $2 }
    END { for (i = 1; i <= n; i++) print "| " order[i], added[order[i]], removed[order[i]] " |" }'
echo
echo "## Public operations and contracts that differ"
echo
for name in before after; do
    (cd "$room/$name/crates" && awk '/^ *pub (extern "C" )?fn /, /\{$/ { print FILENAME ": " $0 }' */src/*.rt) > "$room/$name.contracts"
done
if diff "$room/before.contracts" "$room/after.contracts"; then
    echo "none of the $(grep -c 'fn ' "$room/after.contracts")"
fi

# The functions of a library, each a line with its bytes of machine code and their checksum.
code() {
    (cd "$room" && rm -f ./*.o && ar x "$1")
    readelf -SW "$room"/*.o | sed -n 's/^ *\[ *[0-9]*\] \.text\.\([^ ]*\) *PROGBITS *[0-9a-f]* \([0-9a-f]*\) \([0-9a-f]*\) .*/\1 \2 \3/p' |
        while read -r name at size; do
            echo "$name $((0x$size)) $(tail -c +$((0x$at + 1)) "$room"/*.o | head -c $((0x$size)) | cksum | cut -d ' ' -f 1)"
        done | sort
}

# Twice in turn, and of each crate the lesser time: a machine is not as fast in every minute.
for turn in 1 2; do
    for name in before after; do
        : > "$room/$name.seconds$turn"
        for crate in $(sed -n 's/^\([a-z0-9_]*\)\( staticlib\)\{0,1\}:.*/\1/p' "$room/$name/crates.txt"); do
            begun=$(date +%s)
            (cd "$room/$name/crates/$crate" && rt verdict) > "$room/$name.log" 2>&1 ||
                { echo "cost: $crate of $name is not proved: $room/$name.log"; exit 1; }
            echo "$crate:$(($(date +%s) - begun))" >> "$room/$name.seconds$turn"
        done
    done
done
for name in before after; do
    awk -F : '!($1 in least) { least[$1] = $2; order[++n] = $1 } $2 < least[$1] { least[$1] = $2 }
        END { for (i = 1; i <= n; i++) { print order[i] ":" least[order[i]]; all += least[order[i]] } print "all:" all }' \
        "$room/$name.seconds1" "$room/$name.seconds2" > "$room/$name.seconds"
    make -s -C "$room/$name" library > "$room/$name.build"
    code "$room/$name/target/staticlib/libcrepulanter.a" > "$room/$name.code"
    if [ "$machine" = x86_64 ]; then
        make -s -C "$room/$name/outside" count > "$room/$name.count"
    else
        echo > "$room/$name.count"
    fi
    sed -n 's/^\(crep_.*[^ ]\)  *\([0-9.]*\)$/\1:\2/p' "$room/$name.count" > "$room/$name.instructions"
    size -t "$room/$name/target/staticlib/libcrepulanter.a" | awk '/TOTALS/ { print "text and constants:" $1; print "data:" $2 + $3 }' > "$room/$name.bytes"
done
echo
echo "## Seconds to prove each crate, from nothing"
echo
echo "| Crate | Before | After |"
echo "|---|---|---|"
beside seconds
echo
echo "## Instructions per event"
echo
if [ "$machine" = x86_64 ]; then
    echo "| Call, work | Before | After |"
    echo "|---|---|---|"
    beside instructions
else
    echo "not counted: the library runs on x86_64, and this machine is $machine"
fi
echo
echo "## Functions of the library whose machine code differs: name, bytes, checksum"
echo
if diff "$room/before.code" "$room/after.code"; then
    echo "none of the $(wc -l < "$room/after.code")"
fi
echo
echo "## Bytes of the library"
echo
echo "| | Before | After |"
echo "|---|---|---|"
beside bytes

[ "$gate" = yes ] || exit 0
echo
echo "## The gate"
echo
for name in before after; do
    began=$(date +%s)
    "$room/$name/.ci/run" > "$room/$name.gate" 2>&1 || { echo "cost: the gate of $name fails: $room/$name.gate"; exit 1; }
    took=$(($(date +%s) - began))
    echo "$name: $((took / 60)) min $((took % 60)) s, $(tail -n 1 "$room/$name.gate")"
done
