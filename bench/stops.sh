#!/bin/sh
# Stops `shardctl` over files by SIGKILL at random moments, and looks at what it left. The script makes a map over three shards, and adds mappings. After each stop a new run's `list` must be what a front of the script leaves:
# as many commands as were answered, or one more. A third run then asks every command once more and lists: it must end with the whole map, and leave nothing in the log.
# It is no part of the gate. Run it at the top of the repository, after `rt ci` or `rt run` in crates/shardctl has built the program. It wants python3 with sqlite3.
# Arguments: the number of stops (default 1000), of mappings (default 40), and the seed of the moments (default 1).
set -eu
stops=${1:-1000}
mappings=${2:-40}
seed=${3:-1}
program=$(find "$PWD/crates/shardctl/out" -type f -perm -u+x -name shardctl 2> /dev/null | head -n 1)
[ -n "$program" ] || { echo "stops: crates/shardctl is not built: run 'rt run' there" >&2; exit 1; }
work=$(mktemp -d)
trap 'rm -rf "$work"' EXIT
cat > "$work/stops.py" <<'PYTHON'
import os, random, shutil, sqlite3, subprocess, sys, time
program, work, stops, count, seed = sys.argv[1], sys.argv[2], int(sys.argv[3]), int(sys.argv[4]), int(sys.argv[5])
folder = work + "/stores"
shards = ["s/a", "s/b", "s/c"]
words = [program, "--store", folder] + shards
start = ["map m range int"] + ["shard m " + shard for shard in shards]
adds = ["add m %d %d %s" % (10 * i, 10 * i + 10, shards[i % 3]) for i in range(count)]
script = "".join(line + "\n" for line in start + adds)
random.seed(seed)

# what `list m` answers after so many commands
def listed(done):
    if done == 0:
        return "no-map\n"
    adds_done = max(0, done - len(start))
    lines = ["mappings %d" % adds_done] + ["%d %d %s online" % (10 * i, 10 * i + 10, shards[i % 3]) for i in range(adds_done)]
    return "".join(line + "\n" for line in lines)

def run(text):
    ended = subprocess.run(words, input=text.encode(), stdout=subprocess.PIPE, stderr=subprocess.PIPE, timeout=600)
    return ended.returncode, ended.stdout.decode()

def fail(number, what):
    print("stops: stop %d: %s; the stores are kept in %s.kept" % (number, what, work), file=sys.stderr)
    shutil.copytree(folder, work + ".kept")
    sys.exit(1)

def fresh():
    shutil.rmtree(folder, ignore_errors=True)
    os.mkdir(folder)

# how long a whole run takes
fresh()
begun = time.monotonic()
status, replies = run(script)
whole = time.monotonic() - begun
if status != 0 or replies != "ok\n" * (len(start) + count):
    fail(0, "a whole run ended with status %d" % status)

with open(work + "/script", "w") as text:
    text.write(script)
early = late = unanswered = one_more = 0
for number in range(1, stops + 1):
    fresh()
    with open(work + "/script") as given, open(work + "/replies", "w") as taken:
        child = subprocess.Popen(words, stdin=given, stdout=taken, stderr=subprocess.DEVNULL)
        time.sleep(random.uniform(0, whole))
        child.kill()
        if child.wait() != -9:
            late += 1
    with open(work + "/replies") as taken:
        replies = taken.read()
    answered = replies.count("\n")
    if replies != "ok\n" * answered:
        fail(number, "it answered " + repr(replies))
    if not os.path.exists(folder + "/global.db"):
        early += 1
    status, now = run("list m\n")
    fronts = [done for done in (answered, answered + 1) if now == listed(done)]
    if not fronts:
        fail(number, "%d commands were answered, and then the list was %s" % (answered, repr(now)))
    one_more += fronts[0] > answered
    unanswered += answered == 0
    status, again = run(script + "list m\n")
    if not again.endswith(listed(len(start) + count)):
        fail(number, "run again it ended with %s" % repr(again[-200:]))
    status, found = run("list m\n")
    if status != 0 or found != listed(len(start) + count):
        fail(number, "the last list was %s" % repr(found))
    store = sqlite3.connect(folder + "/global.db")
    left = store.execute("SELECT count(*) FROM cells WHERE t = 5").fetchone()[0]
    store.close()
    if left:
        fail(number, "%d operations stand in the log" % left)
print("%d stops: %d before the global store was there, %d before the first reply, %d after the end; %d times one command more was done than was answered" % (stops, early, unanswered, late, one_more))
PYTHON
python3 "$work/stops.py" "$program" "$work" "$stops" "$mappings" "$seed"
