#!/bin/sh
# The table of docs/FIGURES.md: flash and RAM by size, stack by the frames that the compiler gave out, for the whole kit
# and for the panel's half of it. The deepest frame is that of one function, the deepest call the sum of frames from a call
# of C down; what memcpy and its like need comes on top. Words, two for each target: its name, the prefix of its tools.
set -eu

cd "$(dirname "$0")/.."

# Flash and RAM of a file.
bytes() {
    "$1-size" "$2" | awk 'NR > 1 { print $1 " | " $2 + $3 }'
}

# Deepest frame and deepest call of a file.
stack() {
    "$1-objdump" -dr --no-show-raw-insn "$2" | awk -v frames="$3" '
        function deepest(f,    d, k, n, list) {
            if (f in depth) return depth[f]
            n = split(calls[f], list, " ")
            for (k = 1; k <= n; k++) if (deepest(list[k]) > d) d = deepest(list[k])
            return depth[f] = d + frame[f]
        }
        BEGIN { while ((getline line < frames) > 0) { split(line, field, "\t"); sub(/^[^:]*:/, "", field[1]); frame[field[1]] = field[2] } }
        /^[0-9a-f]+ <.*>:$/ { f = substr($2, 2, length($2) - 3); here[f] }
        $2 ~ /_CALL/ { sub(/^\.text\./, "", $3); calls[f] = calls[f] " " $3 }
        END {
            for (f in here) {
                if (frame[f] > most) most = frame[f]
                if (deepest(f) > sum) sum = deepest(f)
            }
            print most " | " sum
        }'
}

echo "| | flash | RAM | deepest frame | deepest call | half: flash | RAM | deepest frame | deepest call |"
echo "|---|---|---|---|---|---|---|---|---|"
while test $# -gt 0; do
    work=target/targets/$1
    echo "| $1 | $(bytes "$2" "$work/crepulanter.o") | $(stack "$2" "$work/crepulanter.o" "$work/crepulanter.su") |" \
        "$(bytes "$2" "$work/half.o") | $(stack "$2" "$work/half.o" "$work/crepulanter.su") |" \
        | sed -e 's/\([0-9]\)\([0-9]\{3\}\) /\1,\2 /g'
    shift 2
done
