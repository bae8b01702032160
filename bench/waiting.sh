#!/usr/bin/env bash
# Feeds the built server instances that wait at a join, 100 of them and then many more, and behind them publish lines or
# create lines, on a file system in memory; prints how many of these are done a second, and what part of the one the
# other is. The same with instances that are stuck: an incident stands on each. And how long a cancel takes where 100
# others are stuck and where many more are, by the processor time of the server: each instance is cancelled right after
# it was made, and a run that makes them alone is taken off; few and many in turn, the middle one of five. It is no test.
# ZBD in the environment names another server.
# usage: bench/waiting.sh [LINES] [WAITING] [DIRECTORY IN MEMORY] [CANCELS]
set -eu
top=$(cd "$(dirname "$0")/.." && pwd)
lines=${1:-20000}
waiting=${2:-10000}
memory=$(mktemp -d "${3:-/dev/shm}/bench.XXXXXX")
cancels=${4:-400000}
trap 'rm -rf "$memory"' EXIT
[ -n "${ZBD:-}" ] || "$top/zbd" >/dev/null 2>&1 </dev/null || true
server=${ZBD:-$top/crates/zbd/out/zbd}
times() { for ((line = 1; line <= $1; line++)); do printf '%s\n' "$2"; done; }

# seconds FILE: how long its lines take, from an empty log on
seconds() {
    local start end
    rm -rf "$memory/zb"
    start=$(date +%s.%N)
    (cd "$memory" && "$server" serve --clock manual <"$1" >"$memory/replies")
    end=$(date +%s.%N)
    [ "$(wc -l <"$memory/replies")" -eq "$(wc -l <"$1")" ] || { echo 'bench: not every line has a reply' >&2; exit 1; }
    awk -v a="$start" -v b="$end" 'BEGIN { print b - a }'
}

# a process that gets stuck: the condition of the flow behind its gateway has a name that is unknown
stuck='{"op":"deploy","model":{"process":"stuck","nodes":[{"id":"s","kind":"startEvent"},{"id":"x","kind":"exclusiveGateway"},{"id":"e","kind":"endEvent"}],"flows":[{"id":"f","sourceRef":"s","targetRef":"x"},{"id":"g","sourceRef":"x","targetRef":"e","conditionExpression":"=paid"}]}}'

# rate PROCESS INSTANCES LINE: how many such lines are done a second, where so many instances of a process are open
rate() {
    { head -n 1 "$top/examples/process.jsonl"; sed -n 3p "$top/examples/scopes.jsonl"; printf '%s\n' "$stuck"; times "$2" "{\"op\":\"create\",\"process\":\"$1\"}"; } >"$memory/first"
    { cat "$memory/first"; times "$lines" "$3"; } >"$memory/all"
    awk -v n="$lines" -v a="$(seconds "$memory/first")" -v b="$(seconds "$memory/all")" 'BEGIN { printf "%.0f", n / (b - a) }'
}

# compare NAME PROCESS WHAT LINE
compare() {
    local few many
    few=$(rate "$2" 100 "$4")
    many=$(rate "$2" "$waiting" "$4")
    awk -v name="$1" -v what="$3" -v f="$few" -v m="$many" -v w="$waiting" 'BEGIN {
        printf "%s: %8d a second where 100 %s, %8d where %d are, %.2f of it\n", name, f, what, m, w, m / f
    }'
}
publish='{"op":"publish","name":"paid","correlationKey":"o-1","timeToLive":60000}'
create='{"op":"create","process":"p"}'
compare publishes wait 'are at a join' "$publish"
compare 'creates  ' wait 'are at a join' "$create"
compare publishes stuck 'are stuck    ' "$publish"
compare 'creates  ' stuck 'are stuck    ' "$create"

# a process whose instances wait for a worker; one that is cancelled has a cell and a job more to end
task='{"op":"deploy","model":{"process":"t","nodes":[{"id":"s","kind":"startEvent"},{"id":"w","kind":"serviceTask","type":"pay"},{"id":"e","kind":"endEvent"}],"flows":[{"id":"f","sourceRef":"s","targetRef":"w"},{"id":"g","sourceRef":"w","targetRef":"e"}]}}'
# the key that the first thing of partition 1 has, less one
base=2251799813685248

# made STUCK CANCELLED: so many stuck instances, and then those that wait for a worker; where CANCELLED is yes each of
# these is cancelled. A deploy draws two keys. A stuck instance draws four: its own, those of its two nodes, and the
# incident's. One that waits draws four: its own, those of its two nodes, and the job's.
made() {
    printf '%s\n%s\n' "$stuck" "$task"
    times "$1" '{"op":"create","process":"stuck"}'
    awk -v n="$cancels" -v first=$((base + 4 + 4 * $1 + 1)) -v cancelled="$2" 'BEGIN {
        for (i = 0; i < n; i++) {
            print "{\"op\":\"create\",\"process\":\"t\"}"
            if (cancelled == "yes") printf "{\"op\":\"cancel\",\"key\":%.0f}\n", first + 4 * i
        }
    }'
}

# processor STUCK CANCELLED: the processor time of these lines, in seconds; each of them is done
processor() {
    local TIMEFORMAT='%U %S'
    made "$1" "$2" >"$memory/lines"
    rm -rf "$memory/zb"
    { time (cd "$memory" && "$server" serve --clock manual <"$memory/lines" >"$memory/replies" 2>/dev/null); } 2>&1 | awk '{ print $1 + $2 }'
    [ "$(grep -c '^{"ok"' "$memory/replies")" -eq "$(wc -l <"$memory/lines")" ] || { echo 'bench: not every line was done' >&2; exit 1; }
}

# ended STUCK: the processor time of the cancels, where so many instances are stuck
ended() {
    local alone all
    alone=$(processor "$1" no)
    all=$(processor "$1" yes)
    awk -v a="$alone" -v b="$all" 'BEGIN { print b - a }'
}

for turn in 1 2 3 4 5; do
    printf '%s %s\n' "$(ended 100)" "$(ended "$waiting")"
done | awk -v n="$cancels" -v w="$waiting" '
    function middle(times, sorted, i, j, t) {
        for (i = 1; i <= 5; i++) sorted[i] = times[i]
        for (i = 1; i <= 5; i++) for (j = i + 1; j <= 5; j++) if (sorted[j] < sorted[i]) { t = sorted[i]; sorted[i] = sorted[j]; sorted[j] = t }
        return sorted[3]
    }
    { few[NR] = $1; many[NR] = $2 }
    END {
        f = middle(few); m = middle(many)
        if (f < 1 || m < 1) print "bench: less than a second was measured: more cancels are wanted"
        printf "cancels:   %5.2f microseconds of processor time where 100 are stuck, %5.2f where %d are, %.2f times as long\n", 1000000 * f / n, 1000000 * m / n, w, m / f
    }'
