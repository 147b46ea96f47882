#!/bin/sh
# Times the reading of scripts and the writing of replies from outside: nanoseconds a byte for scripts of 64 KiB and of 1 MiB with their ratio,
# and nanoseconds a line for replies to `list` of 1,000 and of 100,000 mappings with their ratio (both are to be 1.3 at most).
# First scripts are read as `shardctl` reads them, one in each run of a program; then many in one run.
# The latter is done twice: as the program runs by itself, and with the C library told to keep all memory that is let go. By itself the library keeps
# the memory of a small script for the next reading, and gives that of a large one back, so that the kernel clears each page anew.
# Run it at the top of the repository, after `rt ci` or `rt run` in crates/bench_script has built the program.
# Arguments: how often a run reads the larger script (default 10; it writes the larger reply four times as often, and takes the smaller ones as much
# oftener as they are smaller), and the number of runs of each (default 5). The best run counts, less the best run that makes the script or the reply
# and then neither reads nor writes it.
set -eu
times=${1:-10}
runs=${2:-5}
program=$(find crates/bench_script/out -type f -perm -u+x -name 'bench_script' 2> /dev/null | head -n 1)
[ -n "$program" ] || { echo "bench: crates/bench_script is not built: run 'rt run' there" >&2; exit 1; }

# the least time of the runs, in nanoseconds: TASK SIZE TIMES
least() {
    best=
    i=0
    while [ "$i" -lt "$runs" ]; do
        begun=$(date +%s%N)
        "$program" "$1" "$2" "$3" > /dev/null
        ended=$(date +%s%N)
        took=$((ended - begun))
        if [ -z "$best" ] || [ "$took" -lt "$best" ]; then best=$took; fi
        i=$((i + 1))
    done
    echo "$best"
}

# the least time of the runs less the least time of those without work: TASK SIZE TIMES
work() {
    none=$(least "$1" "$2" 0)
    all=$(least "$1" "$2" "$3")
    echo $((all - none))
}

# the time of so many runs of the program, one after another: TASK SIZE TIMES PROCESSES
all_of() {
    begun=$(date +%s%N)
    j=0
    while [ "$j" -lt "$4" ]; do
        "$program" "$1" "$2" "$3" > /dev/null
        j=$((j + 1))
    done
    ended=$(date +%s%N)
    echo $((ended - begun))
}

# the least time of so many runs that read one script each, less the least time of as many that only make it: SIZE PROCESSES
fresh() {
    best_all=
    best_none=
    i=0
    while [ "$i" -lt "$runs" ]; do
        all=$(all_of read "$1" 1 "$2")
        none=$(all_of read "$1" 0 "$2")
        if [ -z "$best_all" ] || [ "$all" -lt "$best_all" ]; then best_all=$all; fi
        if [ -z "$best_none" ] || [ "$none" -lt "$best_none" ]; then best_none=$none; fi
        i=$((i + 1))
    done
    echo $((best_all - best_none))
}

compare_fresh() {
    small=$(fresh 65536 $((16 * times)))
    large=$(fresh 1048576 "$times")
    awk -v a="$small" -v b="$large" -v t="$times" 'BEGIN {
        a = a / 65536 / 16 / t; b = b / 1048576 / t
        printf "read 65536: %.1f ns a byte\nread 1048576: %.1f ns a byte\nratio: %.2f\n", a, b, b / a
    }'
}

# prints the two times of a unit and their ratio: TASK UNIT SMALL_SIZE SMALL_TIMES LARGE_SIZE LARGE_TIMES
compare() {
    small=$(work "$1" "$3" "$4")
    large=$(work "$1" "$5" "$6")
    awk -v task="$1" -v unit="$2" -v m="$3" -v n="$5" -v a="$small" -v b="$large" -v p="$4" -v q="$6" 'BEGIN {
        a = a / m / p; b = b / n / q
        printf "%s %d: %.1f ns a %s\n%s %d: %.1f ns a %s\nratio: %.2f\n", task, m, a, unit, task, n, b, unit, b / a
    }'
}

compare_all() {
    compare read byte 65536 $((16 * times)) 1048576 "$times"
    compare write line 1000 $((400 * times)) 100000 $((4 * times))
}

echo "one script a run:"
compare_fresh
echo "by itself:"
compare_all
echo "with memory kept:"
export MALLOC_MMAP_MAX_=0 MALLOC_TRIM_THRESHOLD_=4000000000
compare_all
