#!/bin/sh
# Instructions an order, as callgrind counts them, of the program on two loops, by the script commands `orders` and `run`, and of the
# monitor by `run`, by `profile` and by `optimum`: 120,001 orders less 20,001, so that starting and ending do not count.
# Then of the monitor by `trace`, whose lines say where each order came from, behind 5,000 orders, so that the kept steps are 4,096: 2,000
# orders less 1,000. Where SIMH's LGP-30 is installed (Debian package simh, program lgp), it runs the same loops in the same way. Needs
# valgrind. Nothing of this is part of the check.
set -eu
top=$(cd "$(dirname "$0")/../.." && pwd)
work=$(mktemp -d)
trap 'rm -rf "$work"' EXIT
short=20001
long=120001

# The words of the loops, `small` and `large`.
. "$top/tools/bench/loops.sh"

# Instructions of a command whose standard input is a file.
instructions() {
    input=$1
    shift
    valgrind --tool=callgrind --callgrind-out-file=/dev/null "$@" <"$input" 2>&1 >"$work/output" |
        sed -n 's/.*Collected : *\([0-9]*\).*/\1/p'
}

# The difference of the two runs, divided by the number of orders between them.
per_order() {
    echo "$1 $2" | awk -v n=$((long - short)) '{ printf "%.1f", ($2 - $1) / n }'
}

# The script of a loop's words, a command and so many orders.
script() {
    echo "$1" | sed 's/^/put /'
    echo "press start"
    echo "$2 $3"
}

# The same for SIMH, whose digits are the usual ones.
simh_script() {
    echo "$1" | while read -r address word; do
        echo "d $address $(echo "$word" | tr 'fgjkqw' 'ABCDEF')"
    done
    echo "step $2"
    echo "exit"
}

# The host instructions per order of a program, by a command, on the loop whose scripts lie in the folder.
counted() {
    a=$(instructions "$work/$2-$short" "$top/crates/$1/out/$1")
    b=$(instructions "$work/$2-$long" "$top/crates/$1/out/$1")
    tail -n 1 "$work/output" | grep -q " $long " || { echo "the loop ended" >&2; exit 1; }
    per_order "$a" "$b"
}

# The same of the monitor by `trace`, for a loop's words.
traced() {
    for orders in 1000 2000; do
        { script "$1" run 5000; echo "trace $orders"; } >"$work/trace-$orders"
    done
    a=$(instructions "$work/trace-1000" "$top/crates/lgp30m/out/lgp30m")
    b=$(instructions "$work/trace-2000" "$top/crates/lgp30m/out/lgp30m")
    echo "$a $b" | awk '{ printf "%.0f", ($2 - $1) / 1000 }'
}

"$top/prove"
"$top/prove" lgp30m
for loop in small large; do
    eval "words=\$$loop"
    for orders in $short $long; do
        for command in orders run profile optimum; do
            script "$words" "$command" "$orders" >"$work/$command-$orders"
        done
        simh_script "$words" "$orders" >"$work/simh-$orders"
    done
    for command in orders run; do
        count=$(counted lgp30 $command)
        echo "$loop: $count host instructions per order, by $command"
    done
    count=$(counted lgp30m run)
    echo "$loop: $count by run in the monitor"
    count=$(counted lgp30m profile)
    echo "$loop: $count by profile in the monitor"
    count=$(counted lgp30m optimum)
    echo "$loop: $count by optimum in the monitor"
    count=$(traced "$words")
    echo "$loop: $count by trace in the monitor, with where each order came from"
    if command -v lgp >/dev/null 2>&1; then
        a=$(instructions /dev/null lgp "$work/simh-$short")
        b=$(instructions /dev/null lgp "$work/simh-$long")
        echo "$loop: $(per_order "$a" "$b") in SIMH"
    else
        echo "SIMH's lgp is not installed"
    fi
done
