#!/bin/sh
# Tests one target: what its archive calls, what firmware with the panel's half of it carries, and what programs write
# there, against the stored outputs of the gate and against the independent model. The word is its name; a second one,
# speed, shows what calls cost instead. `make test` gives CC and RUN, how a program of C is made for it and run; TOOLS, the
# prefix of nm and size; CALLS, what the archive may call; HALF, the calls of that half, and HALF_FLASH, HALF_STACK, STACK
# and RATIO, what these and all calls may take; HOST_CC; EVENTS.
set -eu

cd "$(dirname "$0")/.."
name=$1
work=target/targets/$name
archive=target/panel/$name/libcrepulanter.a
flags="-std=c99 -O2 -Iinclude -Ioutside"

fail() {
    echo "targets: $name: $*" >&2
    exit 1
}

# ---- The archive ----

check_calls() {
    calls=$("$TOOLS-nm" -u "$archive" | awk '$1 == "U" { print $2 }' | sort -u | xargs)
    test "$calls" = "$CALLS" || fail "the archive calls $calls; the Makefile lists $CALLS"
    echo "$name: the archive calls ${calls:-nothing}, as listed"
}

# Firmware that uses the calls of the panel's half has these, what stands behind them, and nothing of the chip.
check_half() {
    "$TOOLS-nm" "$work/half" | cut -d ' ' -f 3- > "$work/half.names"
    for call in $HALF; do
        grep -q -x "$call" "$work/half.names" || fail "the panel's half was linked and has no $call"
    done
    others=$(grep -e '^crep_' -e '::' "$work/half.names" \
        | grep -v -x -E "gate::.*|sender::.*|map::sectors::.*|$(echo $HALF | tr ' ' '|')" | xargs)
    test -z "$others" || fail "the panel's half brings along $others"
    set -- $("$TOOLS-size" "$work/half.o" | tail -n 1)
    test $(($2 + $3)) -eq 0 || fail "the panel's half has $2 bytes of data and $3 of bss"
    test -z "$board" || test "$1" -le "$HALF_FLASH" || fail "the panel's half is $1 bytes, more than $HALF_FLASH"
    echo "$name: the panel's half has no chip code: $1 bytes of flash, 0 of RAM"
}

# ---- Programs ----

# Makes a program of these sources; the web's gets its calls where it runs.
make_program() {
    program=$1
    shift
    $CC $flags "$@" outside/wire.c $LINKED -Wl,--gc-sections -o "$work/$program" 2> "$work/$program.log" \
        || fail "$program does not link: $(grep -m 1 -i error "$work/$program.log")"
}

# Runs it; on a board each word is one more setting of its console.
run_program() {
    program=$1
    shift
    words=
    if test -n "$board"; then
        for word; do words=$words,arg=$word; done
        set -- -kernel "$work/$program" $CLOCK
    else
        set -- "$work/$program" "$@"
    fi
    timeout 900 $RUN$words "$@" < /dev/null > "$work/$program.out" 2> "$work/$program.err" || {
        tail -n 100 "$work/$program.out" "$work/$program.err" >&2
        fail "$program FAILED, above are its last lines"
    }
}

# Holds what a program wrote to a file: the first line that differs, in full.
check_output() {
    cmp -s "$2" "$work/$1.out" && return
    awk -v got="$work/$1.out" '
        { line = "(nothing)" }
        (getline line < got) <= 0 || line != $0 {
            for (at = 1; at <= length($0) && substr($0, at, 1) == substr(line, at, 1); at++) continue
            print "line " NR ", character " at "\n  must be: " $0 "\n  is:      " line
            found = 1
            exit
        }
        END { if (!found) print "more than the " NR " lines that it must write" }' "$2" >&2
    fail "$1 FAILED, as said above; all that it wrote is in $work/$1.out"
}

# Makes a program of these sources and runs it; it has to write what the same sources write on this machine with the model
# in the place of the archive.
check_program() {
    make_program "$@"
    run_program "$1"
    shift
    sed 's/model_/crep_/g' outside/model.c > "$work/model.c"
    $HOST_CC $flags "$@" outside/wire.c "$work/model.c" -o "$work/expected"
    "$work/expected" > "$work/expected.out"
    check_output "$program" "$work/expected.out"
}

# The stack below each call, as it was used.
check_stack() {
    make_program stack targets/stack.c outside/stir.c
    run_program stack
    set -- $(awk -v half=" $HALF " '
        index(half, " " $1 " ") && $2 > most { most = $2 }
        $2 > all { all = $2 }
        END { print most, all }' "$work/stack.out")
    test "$1" -le "$HALF_STACK" || fail "the panel's half takes $1 bytes of stack, more than $HALF_STACK"
    test "$2" -le "$STACK" || fail "a call takes $2 bytes of stack, more than $STACK"
    echo "$name: bytes of stack that calls used: $1 in the panel's half, $2 in all"
}

# What calls cost, by a clock that goes on with each instruction.
measure_speed() {
    make_program speed targets/speed.c outside/kit.c outside/model.c
    CLOCK='-icount shift=0'
    run_program speed
    CLOCK=
}

check_speed() {
    measure_speed
    set -- $(awk -F '[| ]+' '$2 == "crep_run," { print $5, $6 }' "$work/speed.out")
    test "$1" -le $(($2 * RATIO)) || fail "an event of the sender's trace costs $1 instructions, in plain C $2: more than $RATIO times that"
    echo "$name: an event of the sender's trace costs $1 instructions, in plain C $2"
}

board=
CLOCK=
case $RUN in *-semihosting-config*) board=yes ;; esac
LINKED=
test "$name" = web || LINKED=$archive

if test "${2:-}" = speed; then
    measure_speed
    echo "$name, instructions:"
    cat "$work/speed.out"
    exit
fi

if test "$name" != web; then
    check_calls
    check_program half targets/half.c
    check_half
    check_stack
    test -z "$board" || check_speed
fi

make_program vectors outside/vectors/script.c
run_program vectors crates/vectors/stdin
check_output vectors crates/vectors/stdout
echo "$name: the gate's vectors, $(wc -l < crates/vectors/stdout) lines of records, sendings, maps, chips and traces, come out as stored"

check_program trace outside/vectors/trace.c outside/stir.c
echo "$name: traces of 65,536 events on each part: every answer, the chip and the array are the model's"

make_program compare $(make -s --no-print-directory -C outside sources)
run_program compare -s 1 -n "$EVENTS"
echo "$name: library and model agree on $EVENTS random events and on lengths past 32 bits"
