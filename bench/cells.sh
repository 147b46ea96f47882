#!/bin/sh
# Times the reading and writing of cells from outside: nanoseconds a cell for each kind, and the time per byte of rows of 1,024 and of 64 bytes,
# with their ratio (it is to be 1.3 at most).
# Run it at the top of the repository, after `rt ci` or `rt run` in crates/bench_cells has built the program.
# Arguments: the number of cells (default 1000000) and of runs of each (default 5); the best run counts, less the best run with no cell.
set -eu
count=${1:-1000000}
runs=${2:-5}
program=$(find crates/bench_cells/out -type f -perm -u+x -name 'bench_cells' | head -n 1)
[ -n "$program" ] || { echo "bench: crates/bench_cells is not built: run 'rt run' there" >&2; exit 1; }

# the least time of the runs, in nanoseconds: KIND COUNT
least() {
    best=
    i=0
    while [ "$i" -lt "$runs" ]; do
        begun=$(date +%s%N)
        "$program" "$1" "$2" > /dev/null
        ended=$(date +%s%N)
        took=$((ended - begun))
        if [ -z "$best" ] || [ "$took" -lt "$best" ]; then best=$took; fi
        i=$((i + 1))
    done
    echo "$best"
}

for kind in map shard table piece log job counter state local row64 row1024; do
    none=$(least "$kind" 0)
    all=$(least "$kind" "$count")
    awk -v kind="$kind" -v t=$((all - none)) -v n="$count" 'BEGIN { printf "%s: %.1f ns a cell\n", kind, t / n }'
    case $kind in
        row64) short=$((all - none)) ;;
        row1024) long=$((all - none)) ;;
    esac
done
awk -v short="$short" -v long="$long" -v n="$count" 'BEGIN {
    a = short / n / 64; b = long / n / 1024
    printf "row64: %.2f ns a byte\nrow1024: %.2f ns a byte\nratio: %.2f\n", a, b, b / a
}'
