#!/bin/sh
# Times a turn from outside: nanoseconds a turn with 1, 4 and 16 threads, for a turn without work; then for a turn that works about 20 microseconds with 1 and with 16 threads, and
# their ratio (it is to be 1.5 at most).
# Run it at the top of the repository, after `rt ci` or `rt run` in crates/bench_turns has built the program.
# Arguments: the number of turns of all threads together without work (default 1600000), the number of turns with work (default 16000), and the runs of each (default 5); the best
# run counts, less the best run with no turn.
set -eu
plain=${1:-1600000}
working=${2:-16000}
runs=${3:-5}
program=$(find crates/bench_turns/out -type f -perm -u+x -name 'bench_turns' 2> /dev/null | head -n 1)
[ -n "$program" ] || { echo "bench: crates/bench_turns is not built: run 'rt run' there" >&2; exit 1; }

# the least time of the runs, in nanoseconds: THREADS TURNS-OF-ALL ROUNDS. Each run must count every turn.
least() {
    each=$(($2 / $1))
    best=
    i=0
    while [ "$i" -lt "$runs" ]; do
        begun=$(date +%s%N)
        counted=$("$program" "$1" "$each" "$3")
        ended=$(date +%s%N)
        [ "${counted%% *}" -eq $((each * $1)) ] || { echo "bench: ${counted%% *} turns of $((each * $1)) were counted" >&2; exit 1; }
        took=$((ended - begun))
        if [ -z "$best" ] || [ "$took" -lt "$best" ]; then best=$took; fi
        i=$((i + 1))
    done
    echo "$best"
}

# nanoseconds a turn: THREADS TURNS-OF-ALL ROUNDS
turn() {
    none=$(least "$1" 0 "$3")
    all=$(least "$1" "$2" "$3")
    echo $(((all - none) / $2))
}

for threads in 1 4 16; do
    echo "$threads threads: $(turn "$threads" "$plain" 0) ns a turn"
done

# rounds of work that take 20 microseconds: from the time of a hundred million, in one turn
rounds=100000000
took=$(($(least 1 1 "$rounds") - $(least 1 1 0)))
rounds=$((rounds / 1000 * 20000 / (took / 1000)))
one=$(turn 1 "$working" "$rounds")
many=$(turn 16 "$working" "$rounds")
awk -v one="$one" -v many="$many" 'BEGIN {
    printf "1 thread, with work: %d ns a turn\n16 threads, with work: %d ns a turn\nratio: %.2f\n", one, many, many / one
}'
