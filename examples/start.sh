#!/bin/sh
# The tenants over files: makes the folder, runs examples/tenants.script over it, and shows the map by a second run.
# Run it at the top of the repository, after `rt run` in crates/shardctl has built the program: examples/start.sh FOLDER
set -eu
folder=${1:?examples/start.sh FOLDER}
program=crates/shardctl/out/shardctl
[ -x "$program" ] || { echo "start: crates/shardctl is not built: run 'rt run' there" >&2; exit 1; }
mkdir "$folder"
"$program" --store "$folder" s/a s/b s/c < examples/tenants.script > /dev/null
echo "list tenants" | "$program" --store "$folder" s/a s/b s/c
