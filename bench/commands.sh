#!/bin/sh
# Times the proved program from outside, on 4,000 and on 48,000 commands, less a run without commands, and prints the times per command and their ratio.
# Where a run with commands is not longer than one without, it says that it can't tell, and ends with status 2: run it again, with more runs or less beside it.
# Run it at the top of the repository, after `rt ci` or `rt run` in crates/shardctl has built the program.
# Arguments: the number of runs of each (default 5); the best of them counts.
set -eu
runs=${1:-5}
program=$(find crates/shardctl/out -type f -perm -u+x -name shardctl 2> /dev/null | head -n 1)
[ -n "$program" ] || { echo "bench: crates/shardctl is not built: run 'rt run' there" >&2; exit 1; }
work=$(mktemp -d)
trap 'rm -rf "$work"' EXIT

# a script of so many commands: 70 names, one after the other, so that the first 64 are made, and later commands are refused with `full` or `map-exists`
script() {
    awk -v n="$1" 'BEGIN { for (i = 0; i < n; i++) printf "map m%d range int\n", i % 70 }' > "$work/$1"
}

# the least time of the runs, in nanoseconds
least() {
    best=
    i=0
    while [ "$i" -lt "$runs" ]; do
        begun=$(date +%s%N)
        "$program" < "$work/$1" > "$work/out" || true
        ended=$(date +%s%N)
        took=$((ended - begun))
        if [ -z "$best" ] || [ "$took" -lt "$best" ]; then best=$took; fi
        i=$((i + 1))
    done
    lines=$(wc -l < "$work/out")
    [ "$lines" -eq "$1" ] || { echo "bench: $lines replies to $1 commands" >&2; exit 1; }
    [ "$1" -eq 0 ] || grep -qx full "$work/out" || { echo "bench: no command was refused with full" >&2; exit 1; }
    echo "$best"
}

script 0
script 4000
script 48000
none=$(least 0)
few=$(least 4000)
many=$(least 48000)
few=$((few - none))
many=$((many - none))
if [ "$few" -le 0 ] || [ "$many" -le 0 ]; then
    echo "bench: can't tell: a run with commands was not longer than one without" >&2
    exit 2
fi
awk -v few="$few" -v many="$many" 'BEGIN {
    a = few / 4000; b = many / 48000
    printf "4000 commands: %.0f ns a command\n48000 commands: %.0f ns a command\nratio: %.2f\n", a, b, b / a
}'
