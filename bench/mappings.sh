#!/bin/sh
# Times the proved program from outside with one range map over 64 shards, at 1,000 and at 20,000 mappings: `add`, `find`, and `list`,
# each by a run with more of them less a run without them, and prints the times per command, or per line of a list, and their ratios.
# Where a run with commands is not longer than one without, it says that it can't tell, and ends with status 2: run it again, with more runs or less beside it.
# Run it at the top of the repository, after `rt ci` or `rt run` in crates/shardctl has built the program.
# Arguments: the number of runs of each (default 5); the best of them counts.
set -eu
runs=${1:-5}
program=$(find crates/shardctl/out -type f -perm -u+x -name shardctl 2> /dev/null | head -n 1)
[ -n "$program" ] || { echo "bench: crates/shardctl is not built: run 'rt run' there" >&2; exit 1; }
work=$(mktemp -d)
trap 'rm -rf "$work"' EXIT
words=$(awk 'BEGIN { for (i = 0; i < 64; i++) printf "s/d%d ", i }')

# a map over 64 shards with so many mappings, and then so many commands of a kind: KIND MAPPINGS COUNT
script() {
    awk -v kind="$1" -v m="$2" -v n="$3" 'BEGIN {
        print "map m range int"
        for (i = 0; i < 64; i++) printf "shard m s/d%d\n", i
        for (i = 0; i < m; i++) printf "add m %d %d s/d%d\n", 100 * i, 100 * i + 100, i % 64
        for (i = 0; i < n; i++) {
            if (kind == "find") printf "find m %d\n", (i * 7919) % (100 * m)
            else if (kind == "list") print "list m"
            else printf "add m %d %d s/d%d\n", 100 * (m + i), 100 * (m + i) + 100, i % 64
        }
    }' > "$work/script"
}

# one run of the script, in nanoseconds: KIND MAPPINGS COUNT
once() {
    script "$1" "$2" "$3"
    begun=$(date +%s%N)
    # shellcheck disable=SC2086
    "$program" $words < "$work/script" > "$work/out" || { echo "bench: the program ended with status $?" >&2; exit 1; }
    ended=$(date +%s%N)
    lines=$(wc -l < "$work/out")
    wanted=$((65 + $2 + $3))
    if [ "$1" = list ]; then wanted=$((wanted + $2 * $3)); fi
    [ "$lines" -eq "$wanted" ] || { echo "bench: $lines lines in place of $wanted" >&2; exit 1; }
    echo $((ended - begun))
}

# the time of one command, or line, at so many mappings, from runs without and with them by turns: KIND MAPPINGS COUNT UNITS
each() {
    without=
    with=
    i=0
    while [ "$i" -lt "$runs" ]; do
        took=$(once "$1" "$2" 0)
        if [ -z "$without" ] || [ "$took" -lt "$without" ]; then without=$took; fi
        took=$(once "$1" "$2" "$3")
        if [ -z "$with" ] || [ "$took" -lt "$with" ]; then with=$took; fi
        i=$((i + 1))
    done
    more=$((with - without))
    if [ "$more" -le 0 ]; then
        echo "bench: can't tell: a run with commands was not longer than one without" >&2
        exit 2
    fi
    echo $((more / $4))
}

# KIND COUNT-AT-FEW UNITS COUNT-AT-MANY UNITS NAME
compare() {
    few=$(each "$1" 1000 "$2" "$3")
    many=$(each "$1" 20000 "$4" "$5")
    awk -v kind="$1" -v few="$few" -v many="$many" -v unit="$6" 'BEGIN {
        printf "%s, 1,000 mappings: %d ns a %s\n%s, 20,000 mappings: %d ns a %s\nratio: %.2f\n", kind, few, unit, kind, many, unit, many / (few > 0 ? few : 1)
    }'
}

compare add 1000 1000 4000 4000 command
compare find 25000 25000 25000 25000 command
compare list 1000 1000000 50 1000000 line
