#!/bin/sh
# Shows that the scripts and replies of this folder are those of the stored runs, and that the runs told in docs/ are these. In a block marked `run` a line behind `> ` is one of the script, and the others are its replies.
cd "$(dirname "$0")/.." || exit 1
room=$(mktemp -d) || exit 1
trap 'rm -r "$room"' EXIT
bad=0

# Compares the runs of a document with a script, without its comments and empty lines, and with the script's replies.
compare() {
    awk '/^```/ { on = ($0 == "```run"); next } on' "$1" > "$room/run"
    grep '^> ' "$room/run" | cut -c 3- > "$room/told"
    grep -v -e '^#' -e '^$' "$2.script" > "$room/script"
    grep -v '^> ' "$room/run" > "$room/replies"
    if cmp "$room/told" "$room/script" && cmp "$room/replies" "$2.replies"; then
        echo "$1 tells $2 ($(wc -l < "$room/script") commands)"
    else
        echo "$1 tells another run than $2"
        bad=1
    fi
}

# Compares a script of this folder and its replies with the stored run of a crate.
stored() {
    if cmp "examples/$1.script" "crates/$2/stdin" && cmp "examples/$1.replies" "crates/$2/stdout"; then
        echo "examples/$1 is the stored run of $2"
    else
        echo "examples/$1 isn't the stored run of $2"
        bad=1
    fi
}

stored shards shardctl
stored tenants shardctl_done
stored commands shardctl_commands
stored runbooks shardctl_runbooks
compare docs/COMMANDS.md examples/commands
compare docs/OPERATING.md examples/runbooks
exit $bad
