#!/bin/sh
# Tries the queries of docs/FILES.md, and examples/start.sh: each block of sql is asked of the global store that examples/tenants.script leaves, by the stock sqlite3, and must answer the block of text behind it.
# Then two of them are asked where something stands in the log and a site is away, by cells that are put there by hand.
# Run it at the top of the repository, after `rt ci` or `rt run` in crates/shardctl has built the program. Without sqlite3 it says so, and ends with status 0.
# Arguments: the document (default docs/FILES.md).
set -eu
document=${1:-docs/FILES.md}
command -v sqlite3 > /dev/null || { echo "queries: there is no sqlite3 here: nothing was tried"; exit 0; }
program=$(find crates/shardctl/out -type f -perm -u+x -name shardctl 2> /dev/null | head -n 1)
[ -n "$program" ] || { echo "queries: crates/shardctl is not built: run 'rt run' there" >&2; exit 1; }
work=$(mktemp -d)
trap 'rm -rf "$work"' EXIT
mkdir "$work/stores"
"$program" --store "$work/stores" s/a s/b s/c < examples/tenants.script > "$work/replies"
cmp "$work/replies" examples/tenants.replies

# the blocks, each into a file of its own: 1.sql, 1.text, 2.sql and so on
awk -v work="$work" '
    /^```sql$/ { n++; out = work "/" n ".sql"; printf "" > out; next }
    /^```text$/ { out = work "/" n ".text"; printf "" > out; next }
    /^```$/ { out = ""; next }
    out != "" { print > out }
' "$document"
n=1
while [ -f "$work/$n.sql" ]; do
    [ -f "$work/$n.text" ] || { echo "queries: query $n has no text behind it" >&2; exit 1; }
    sqlite3 "$work/stores/global.db" < "$work/$n.sql" > "$work/$n.found"
    cmp "$work/$n.found" "$work/$n.text" || { echo "queries: query $n answers otherwise" >&2; exit 1; }
    n=$((n + 1))
done
[ "$n" -ge 6 ] || { echo "queries: $document has $((n - 1)) queries, and not the five or more that it should have" >&2; exit 1; }

# the program goes on from the files that sqlite3 had open
echo "list tenants" | "$program" --store "$work/stores" s/a s/b s/c > "$work/list"
tail -n 21 examples/tenants.replies | cmp - "$work/list"

# the example shows the same list
examples/start.sh "$work/started" > "$work/list"
tail -n 21 examples/tenants.replies | cmp - "$work/list"

# what stands by hand: the operation 7 of the map tenants, over [0, max) and without mappings; the site s/b, detached
sqlite3 "$work/stores/global.db" "
    INSERT INTO cells VALUES (5, x'0000000000000007', x'010500000000000000070774656E616E747300048000000001000000');
    INSERT INTO cells VALUES (8, x'732F6200', x'010803732F6201');"
query_with() {
    grep -l "$1" "$work"/*.sql
}
found=$(sqlite3 "$work/stores/global.db" < "$(query_with 'WHERE t = 5')")
[ "$found" = "0000000000000007|tenants" ] || { echo "queries: the log is shown as $found" >&2; exit 1; }
found=$(sqlite3 "$work/stores/global.db" < "$(query_with 'WHERE t = 8')")
[ "$found" = "s/b|detached" ] || { echo "queries: the sites away are shown as $found" >&2; exit 1; }

echo "queries: $((n - 1)) queries of $document answer as written"
