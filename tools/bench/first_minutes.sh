#!/usr/bin/env bash
# Times a stranger's first minutes: what four command lines answer in a fresh clone, with node alone, with the toolchain alone and with
# neither. Each line has the seconds by the clock and of the processor, the status, and the last line that was written; at a terminal three
# of the seconds are the typist's. The figures are in docs/DEVELOPMENT.md.
#
#     tools/bench/first_minutes.sh            all three
#     tools/bench/first_minutes.sh node       one of them: node, toolchain or neither
set -u
top=$(cd "$(dirname "$(readlink -f "$0")")/../.." && pwd) || exit 1
place=$(mktemp -d) || exit 1
trap 'rm -rf "$place"' EXIT

# Every command of this machine but node and the toolchain.
mkdir "$place/plain"
IFS=: read -ra folders <<<"$PATH"
for folder in "${folders[@]}"; do
    for command in "$folder"/*; do
        case ${command##*/} in node | nodejs | npm | npx | rt | rattle) continue ;; esac
        [ ! -x "$command" ] || [ -d "$command" ] || [ -e "$place/plain/${command##*/}" ] || ln -s "$command" "$place/plain/${command##*/}"
    done
done
for tool in node rt; do
    mkdir "$place/$tool"
    ! command -v "$tool" >/dev/null 2>&1 || ln -s "$(command -v "$tool")" "$place/$tool/$tool"
done

# A command line at a terminal, where one line is typed.
at_terminal() {
    (sleep 2; printf 'quit\n'; sleep 1) | TERM=xterm script -qec "stty cols 80 rows 24; $1" /dev/null
}

# Runs a command line in a fresh clone with a path, and writes how that went.
try_line() {
    local name=$1 path=$2 line=$3 status=0 last
    cd "$place" && rm -rf clone
    git clone -q "$top" "$place/clone" || exit 1
    cd "$place/clone" || exit 1
    TIMEFORMAT='%R %U %S'
    { time PATH=$path XDG_STATE_HOME=$place/state bash -c "$line" >"$place/output" 2>&1; } 2>"$place/time" || status=$?
    last=$(tr -d '\r' <"$place/output" | sed 's/\x1b\[[0-9;?]*[A-Za-z]//g' | grep -v '^ *$' | tail -n 1)
    awk -v name="$name" -v line="$line" -v status="$status" -v last="$last" \
        '{ printf "%s: %s: %.1f s, %.1f s of the processor, status %s: %s\n", name, line, $1, $2 + $3, status, last }' "$place/time"
}

try_all() {
    local name=$1 path=$2
    export -f at_terminal
    try_line "$name" "$path" 'at_terminal ./lgp_monitor'
    try_line "$name" "$path" './lgp_lab < examples/first-run.txt'
    try_line "$name" "$path" './test'
    try_line "$name" "$path" './prove --help'
}

case ${1-} in
    '' | node) try_all node "$place/node:$place/plain" ;;&
    '' | toolchain) try_all toolchain "$place/rt:$place/plain" ;;&
    '' | neither) try_all neither "$place/plain" ;;
esac
