#!/bin/sh
# Times `shardctl` over files from outside: `add` over 64 shards, `shard` and `unshard` by turns, and `find` in a map with 1,000 mappings; microseconds a command of 1,000 and of 20,000, and their ratio, which is to be at most 1.5.
# Then `shard` and `unshard`, whose one store call is a commit of one cell, against the same number of such commits made bare by `bench_sqlite`: the ratio is to be at most 1.1.
# The times of both are of runs by turns, over a new folder each, less runs without those commands. Where a run with commands is not longer than one without, it says that it can't tell, and ends with status 2.
# Run it at the top of the repository, after `rt ci` or `rt run` in crates/shardctl and crates/bench_sqlite has built the programs.
# Arguments: the number of runs of each (default 3); the best of them counts.
set -eu
runs=${1:-3}
program=$(find "$PWD/crates/shardctl/out" -type f -perm -u+x -name shardctl 2> /dev/null | head -n 1)
[ -n "$program" ] || { echo "bench: crates/shardctl is not built: run 'rt run' there" >&2; exit 1; }
bare=$(find "$PWD/crates/bench_sqlite/out" -type f -perm -u+x -name bench_sqlite 2> /dev/null | head -n 1)
[ -n "$bare" ] || { echo "bench: crates/bench_sqlite is not built: run 'rt run' there" >&2; exit 1; }
work=$(mktemp -d)
trap 'rm -rf "$work"' EXIT
words=$(awk 'BEGIN { for (i = 0; i < 64; i++) printf "s/d%d ", i }')

# a map over 64 shards, and what a kind needs; then so many commands of it: KIND COUNT
script() {
    awk -v kind="$1" -v n="$2" 'BEGIN {
        print "map m range int"
        for (i = 0; i < 64; i++) printf "shard m s/d%d\n", i
        if (kind == "find") for (i = 0; i < 1000; i++) printf "add m %d %d s/d%d\n", 100 * i, 100 * i + 100, i % 64
        if (kind == "shard") print "map o range int"
        for (i = 0; i < n; i++) {
            if (kind == "find") printf "find m %d\n", (i * 7919) % 100000
            else if (kind == "add") printf "add m %d %d s/d%d\n", 100 * i, 100 * i + 100, i % 64
            else printf "%s o s/d0\n", i % 2 ? "unshard" : "shard"
        }
    }' > "$work/script"
}

# one run of the script over a new folder, in nanoseconds: KIND COUNT
once() {
    script "$1" "$2"
    rm -rf "$work/now"
    mkdir "$work/now"
    sync
    begun=$(date +%s%N)
    # shellcheck disable=SC2086
    "$program" --store "$work/now" $words < "$work/script" > "$work/out" || { echo "bench: the program ended with status $?" >&2; exit 1; }
    ended=$(date +%s%N)
    lines=$(wc -l < "$work/out")
    wanted=$(wc -l < "$work/script")
    [ "$lines" -eq "$wanted" ] || { echo "bench: $lines lines in place of $wanted" >&2; exit 1; }
    echo $((ended - begun))
}

# one run of so many bare commits over a new folder, in nanoseconds: COUNT
commits() {
    rm -rf "$work/now"
    mkdir "$work/now"
    sync
    begun=$(date +%s%N)
    counted=$("$bare" "$work/now" commit 0 "$1")
    ended=$(date +%s%N)
    [ "$counted" -eq "$1" ] || { echo "bench: $counted commits in place of $1" >&2; exit 1; }
    echo $((ended - begun))
}

# one run of a kind, the bare one among them: KIND COUNT
run() {
    if [ "$1" = commit ]; then commits "$2"; else once "$1" "$2"; fi
}

# nanoseconds a command of so many: KIND COUNT
each() {
    without=
    with=
    i=0
    while [ "$i" -lt "$runs" ]; do
        took=$(run "$1" 0)
        if [ -z "$without" ] || [ "$took" -lt "$without" ]; then without=$took; fi
        took=$(run "$1" "$2")
        if [ -z "$with" ] || [ "$took" -lt "$with" ]; then with=$took; fi
        i=$((i + 1))
    done
    more=$((with - without))
    if [ "$more" -le 0 ]; then
        echo "bench: can't tell: a run with commands was not longer than one without" >&2
        exit 2
    fi
    echo $((more / $2))
}

# NAME KIND: the times of 1,000 and of 20,000, which stay in few and many
compare() {
    few=$(each "$2" 1000)
    many=$(each "$2" 20000)
    awk -v name="$1" -v few="$few" -v many="$many" 'BEGIN {
        printf "%s, 1,000: %.1f microseconds each; 20,000: %.1f; ratio %.2f\n", name, few / 1000, many / 1000, many / (few > 0 ? few : 1)
    }'
}

compare find find
compare add add
compare "shard and unshard" shard
shards=$many
compare "bare commits" commit
awk -v a="$shards" -v b="$many" 'BEGIN { printf "shard and unshard against bare commits, 20,000: ratio %.2f\n", a / (b > 0 ? b : 1) }'
