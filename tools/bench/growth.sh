#!/bin/sh
# Instructions of the proved program, as callgrind counts them, on an input and on one of half its length: the larger one has to take
# about twice as many, not four times. The inputs: a tape that is read word time by word time; a source of short lines, each with a label
# of its own and an operand; a source of comments. Needs valgrind. Nothing of this is part of the check.
set -eu
top=$(cd "$(dirname "$0")/../.." && pwd)
work=$(mktemp -d)
trap 'rm -rf "$work"' EXIT

# The instructions of the program on these words; its standard input is a file.
instructions() {
    input=$1
    shift
    valgrind --tool=callgrind --callgrind-out-file=/dev/null "$top/crates/lgp30/out/lgp30" "$@" <"$input" 2>&1 >"$work/output" |
        sed -n 's/.*Collected : *\([0-9]*\).*/\1/p'
}

# A tape of so many digits, read from the console, and the word times that it takes.
tape_script() {
    echo "mount $(head -c "$1" /dev/zero | tr '\0' '1')"
    echo "press manual"
    echo "press read"
    i=0
    while [ "$i" -lt "$1" ]; do
        echo "turn 384"
        i=$((i + 1))
    done
    echo "panel"
}

# So many lines, each with a label of its own and an operand that names the first one.
labels() {
    awk -v n="$1" 'BEGIN { print "a0 b a0"; for (i = 1; i < n; i++) { if (i % 4000 == 0) print " org 0000"; printf "a%d b a0\n", i }; print " end" }'
}

# So many comments of one byte each.
comments() {
    awk -v n="$1" 'BEGIN { for (i = 0; i < n; i++) print ";"; print " end" }'
}

"$top/prove"
: >"$work/nothing"
for codes in 2000 4000; do
    tape_script "$codes" >"$work/script"
    echo "tape of $codes codes: $(instructions "$work/script") instructions"
done
for lines in 32768 65536; do
    labels "$lines" >"$work/source"
    echo "source of $lines lines: $(instructions "$work/nothing" asm "$work/source") instructions"
done
for lines in 131072 262144; do
    comments "$lines" >"$work/source"
    echo "source of $lines comments: $(instructions "$work/nothing" asm "$work/source") instructions"
done
