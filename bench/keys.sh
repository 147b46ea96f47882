#!/bin/sh
# Times the reading and printing of keys from outside: nanoseconds a key for each type, and the time per byte of bytes keys of 258 and of 30 bytes
# as written, with their ratio (it is to be 1.5 at most).
# Run it at the top of the repository, after `rt ci` or `rt run` in crates/bench_keys has built the program.
# Arguments: the number of keys (default 1000000) and of runs of each (default 5); the best run counts, less the best run with no key.
set -eu
count=${1:-1000000}
runs=${2:-5}
program=$(find crates/bench_keys/out -type f -perm -u+x -name 'bench_keys' 2> /dev/null | head -n 1)
[ -n "$program" ] || { echo "bench: crates/bench_keys is not built: run 'rt run' there" >&2; exit 1; }

# the least time of the runs, in nanoseconds: TYPE COUNT
least() {
    best=
    i=0
    while [ "$i" -lt "$runs" ]; do
        begun=$(date +%s%N)
        "$program" "$1" "$2" > /dev/null
        ended=$(date +%s%N)
        took=$((ended - begun))
        if [ -z "$best" ] || [ "$took" -lt "$best" ]; then best=$took; fi
        i=$((i + 1))
    done
    echo "$best"
}

for type in int long guid datetime timespan bytes30 bytes258; do
    none=$(least "$type" 0)
    all=$(least "$type" "$count")
    awk -v type="$type" -v t=$((all - none)) -v n="$count" 'BEGIN { printf "%s: %.1f ns a key\n", type, t / n }'
    case $type in
        bytes30) short=$((all - none)) ;;
        bytes258) long=$((all - none)) ;;
    esac
done
awk -v short="$short" -v long="$long" -v n="$count" 'BEGIN {
    a = short / n / 30; b = long / n / 258
    printf "bytes30: %.2f ns a byte\nbytes258: %.2f ns a byte\nratio: %.2f\n", a, b, b / a
}'
