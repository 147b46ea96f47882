#!/bin/sh
# Times the cells of a file from outside, against python's sqlite3 with the write-ahead log and full syncing on a file with the same rows: microseconds a commit of one cell, a read and a
# floor, with 1,000 and with 100,000 cells, each with its ratio to python's (it is to be 1.3 at most for a commit, and 1.5 for a read and a floor), and the ratio of 100,000 to 1,000 cells.
# Run it at the top of the repository, after `rt ci` or `rt run` in crates/bench_sqlite has built the program. It wants python3 with sqlite3.
# Arguments: the number of commits (default 1000), of reads and floors (default 200000), and the runs of each (default 5); the best run counts, less the best run with no call.
set -eu
commits=${1:-1000}
finds=${2:-200000}
runs=${3:-5}
program=$(find "$PWD/crates/bench_sqlite/out" -type f -perm -u+x -name bench_sqlite 2> /dev/null | head -n 1)
[ -n "$program" ] || { echo "bench: crates/bench_sqlite is not built: run 'rt run' there" >&2; exit 1; }
work=$(mktemp -d)
trap 'rm -rf "$work"' EXIT

# the same calls by python: FOLDER WHAT THOUSANDS CALLS
cat > "$work/calls.py" <<'PYTHON'
import sqlite3, struct, sys
folder, what, thousands, calls = sys.argv[1], sys.argv[2], int(sys.argv[3]), int(sys.argv[4])
conn = sqlite3.connect(folder + "/global.db", isolation_level=None)
conn.execute("PRAGMA journal_mode = WAL").fetchall()
conn.execute("PRAGMA synchronous = FULL")
count = thousands * 1000
put = "INSERT OR REPLACE INTO cells (t, k, v) VALUES (?1, ?2, ?3)"
last = "SELECT k, v FROM cells WHERE t = ?1 AND k <= ?2 ORDER BY k DESC LIMIT 1"

def key_of(number):
    return struct.pack(">I", number * 0x9e3779b1 % 2**32)

def order_bytes(number, row):
    return b"m\0" + key_of(number).replace(b"\0", b"\0\xff") + b"\0\0t\0" + struct.pack(">Q", row)

def value(number):
    return b"\x01\x0a\x01m\x04" + key_of(number) + b"\x01t" + struct.pack(">QH", 1, 60) + b"\x07" * 60

done = 0
for call in range(calls):
    if what == "commit":
        conn.execute("BEGIN")
        conn.execute(put, (10, order_bytes(count + call, 1), value(count + call)))
        conn.execute("COMMIT")
        done += 1
    else:
        row = conn.execute(last, (10, order_bytes(call * 7919 % 2**32 % count, 1 if what == "read" else 2))).fetchone()
        done += row is not None
print(done)
PYTHON

# the least time of the runs over a copy of a folder, in nanoseconds: WHO WHAT THOUSANDS CALLS. Each run must count every call.
least() {
    best=
    i=0
    while [ "$i" -lt "$runs" ]; do
        rm -rf "$work/now"
        cp -r "$work/$3" "$work/now"
        sync
        begun=$(date +%s%N)
        if [ "$1" = kit ]; then
            counted=$("$program" "$work/now" "$2" "$3" "$4")
        else
            counted=$(python3 "$work/calls.py" "$work/now" "$2" "$3" "$4")
        fi
        ended=$(date +%s%N)
        [ "$counted" -eq "$4" ] || { echo "bench: $1 counted $counted of $4 calls" >&2; exit 1; }
        took=$((ended - begun))
        if [ -z "$best" ] || [ "$took" -lt "$best" ]; then best=$took; fi
        i=$((i + 1))
    done
    echo "$best"
}

# nanoseconds a call: WHO WHAT THOUSANDS CALLS
each() {
    none=$(least "$1" "$2" "$3" 0)
    all=$(least "$1" "$2" "$3" "$4")
    echo $(((all - none) / $4))
}

ratio() {
    awk -v a="$1" -v b="$2" 'BEGIN { printf "%.2f", a / b }'
}

for thousands in 1 100; do
    mkdir "$work/$thousands"
    "$program" "$work/$thousands" fill "$thousands" 0 > "$work/filled"
done
for what in commit read floor; do
    few=
    for thousands in 1 100; do
        calls=$finds
        [ "$what" != commit ] || calls=$commits
        ours=$(each kit "$what" "$thousands" "$calls")
        theirs=$(each python "$what" "$thousands" "$calls")
        echo "$what, ${thousands},000 cells: $ours ns a call, python $theirs, ratio $(ratio "$ours" "$theirs")"
        if [ -z "$few" ]; then few=$ours; else echo "$what, 100,000 against 1,000 cells: ratio $(ratio "$ours" "$few")"; fi
    done
done
