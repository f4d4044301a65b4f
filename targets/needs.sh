#!/bin/sh
# Says in one line what is not installed, with Debian's packages for it. Words, three for each target: how a program of C
# is compiled for it, the tools as TOOL:PACKAGE, the packages of its C library.
set -eu

trial=$(mktemp)
trap 'rm -f "$trial"' EXIT
missing=
packages=
while test $# -gt 0; do
    compile=$1
    for tool in $2; do
        if ! command -v "${tool%:*}" > /dev/null; then
            missing="$missing ${tool%:*}"
            packages="$packages ${tool#*:}"
        fi
    done
    # A compiler is not enough: an empty program has to find its library.
    if ! echo 'int main(void) { return 0; }' | $compile -x c - -o "$trial" 2> /dev/null; then
        ! command -v "${compile%% *}" > /dev/null || missing="$missing C-library-for-${compile%% *}"
        packages="$packages $3"
    fi
    shift 3
done
test -n "$missing" || exit 0
echo "targets: not found:$(printf ' %s\n' $missing | sort -u | tr -d '\n'). On Debian: apt-get update && apt-get install" \
    $(printf '%s\n' $packages | sort -u) >&2
exit 1
