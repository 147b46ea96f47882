#!/bin/sh
# Times the proved program from outside with 64 maps standing: `unmap` and `map` of one name by turns, 1,000 and 20,000 commands, and `find` in one map, 1,000 and 16,000,
# each less a run that makes the 64 maps alone, and prints the times per command and their ratios (each is to be 1.5 at most).
# Where a run with commands is not longer than one without, it says that it can't tell, and ends with status 2: run it again, with more runs or less beside it.
# Run it at the top of the repository, after `rt ci` or `rt run` in crates/shardctl has built the program.
# Arguments: the number of runs of each (default 5); the best of them counts.
set -eu
runs=${1:-5}
program=$(find crates/shardctl/out -type f -perm -u+x -name shardctl 2> /dev/null | head -n 1)
[ -n "$program" ] || { echo "bench: crates/shardctl is not built: run 'rt run' there" >&2; exit 1; }
work=$(mktemp -d)
trap 'rm -rf "$work"' EXIT

# 64 maps, and then so many commands of a kind: KIND COUNT
script() {
    awk -v kind="$1" -v n="$2" 'BEGIN {
        for (i = 0; i < 64; i++) printf "map m%d range int\n", i
        for (i = 0; i < n; i++) {
            if (kind == "find") print "find m31 7"
            else if (i % 2 == 0) print "unmap m31"
            else print "map m31 range int"
        }
    }' > "$work/$1$2"
}

# the least time of the runs, in nanoseconds: KIND COUNT
least() {
    best=
    i=0
    while [ "$i" -lt "$runs" ]; do
        begun=$(date +%s%N)
        "$program" < "$work/$1$2" > "$work/out" || true
        ended=$(date +%s%N)
        took=$((ended - begun))
        if [ -z "$best" ] || [ "$took" -lt "$best" ]; then best=$took; fi
        i=$((i + 1))
    done
    lines=$(wc -l < "$work/out")
    [ "$lines" -eq $((64 + $2)) ] || { echo "bench: $lines replies to $((64 + $2)) commands" >&2; exit 1; }
    echo "$best"
}

# the times per command of few and of many: KIND FEW MANY
compare() {
    script "$1" 0
    script "$1" "$2"
    script "$1" "$3"
    none=$(least "$1" 0)
    few=$(($(least "$1" "$2") - none))
    many=$(($(least "$1" "$3") - none))
    if [ "$few" -le 0 ] || [ "$many" -le 0 ]; then
        echo "bench: can't tell: a run with commands was not longer than one without" >&2
        exit 2
    fi
    awk -v kind="$1" -v few="$few" -v many="$many" -v a="$2" -v b="$3" 'BEGIN {
        short = few / a; long = many / b
        printf "%s, %d: %.0f ns a command\n%s, %d: %.0f ns a command\nratio: %.2f\n", kind, a, short, kind, b, long, long / short
    }'
}

compare turns 1000 20000
compare find 1000 16000
