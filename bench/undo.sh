#!/usr/bin/env bash
# Feeds the built server instances of a process in which an activity finishes many times and is then undone by a
# compensation end event, on a file system in memory: the handlers run one after the other, and a worker is given the job
# of each, and completes it. Prints how long one of them takes where 100 are to run in an instance, and where 1,000 are,
# and how many times as long the one takes as the other, with what is wanted. The activity is a subprocess with a start
# event alone, which goes back until it has finished so often, so that no worker is in the way. All are processor times, the
# best of five runs, less what a run takes up to the first handler of each instance; in memory nothing else is waited for.
# It is no test. ZBD in the environment names another server.
# usage: bench/undo.sh [HANDLERS] [DIRECTORY IN MEMORY]
set -euo pipefail
shopt -s inherit_errexit
top=$(cd "$(dirname "$0")/.." && pwd)
handlers=${1:-20000}
memory=$(mktemp -d "${2:-/dev/shm}/bench.XXXXXX")
trap 'rm -rf "$memory"' EXIT
[ -n "${ZBD:-}" ] || "$top/zbd" >/dev/null 2>&1 </dev/null || true
server=${ZBD:-$top/crates/zbd/out/zbd}
cd "$memory"

# session SIZE TIMES UNDONE: a deploy, and so many instances in each of which the activity finishes as often as that size; with
# 1 its handlers are run, and with 0 all wait for their first one.
# A deploy draws two keys. An instance draws two up to the activity, three each time that this runs, and one for the
# compensation event; each handler has two, for itself and its job, and the activate behind them one. So the keys of all
# jobs are known beforehand.
session() {
    awk -v size="$1" -v times="$2" -v undone="$3" 'BEGIN {
        printf "{\"op\":\"deploy\",\"model\":{\"process\":\"p\",\"nodes\":[{\"id\":\"s\",\"kind\":\"startEvent\"},"
        printf "{\"id\":\"u\",\"kind\":\"subProcess\",\"outputs\":[{\"source\":\"=n + 1\",\"target\":\"n\"}]},{\"id\":\"v\",\"kind\":\"startEvent\",\"parent\":\"u\"},"
        printf "{\"id\":\"c\",\"kind\":\"boundaryEvent\",\"attachedToRef\":\"u\",\"compensateEventDefinition\":{\"handler\":\"h\"}},{\"id\":\"h\",\"kind\":\"serviceTask\",\"type\":\"undo\",\"isForCompensation\":true},"
        printf "{\"id\":\"x\",\"kind\":\"exclusiveGateway\",\"default\":\"j\"},{\"id\":\"y\",\"kind\":\"endEvent\",\"compensateEventDefinition\":{}}],"
        printf "\"flows\":[{\"id\":\"f\",\"sourceRef\":\"s\",\"targetRef\":\"u\"},{\"id\":\"g\",\"sourceRef\":\"u\",\"targetRef\":\"x\"},"
        printf "{\"id\":\"i\",\"sourceRef\":\"x\",\"targetRef\":\"u\",\"conditionExpression\":\"=n < size\"},{\"id\":\"j\",\"sourceRef\":\"x\",\"targetRef\":\"y\"}]}}\n"
        key = 2251799813685248 + 2
        for (turn = 0; turn < times; turn++) {
            printf "{\"op\":\"create\",\"process\":\"p\",\"variables\":{\"n\":0,\"size\":%d}}\n", size
            for (i = 0; undone && i < size; i++) {
                print "{\"op\":\"activate\",\"type\":\"undo\",\"worker\":\"w\",\"timeout\":60000,\"max\":1}"
                printf "{\"op\":\"complete\",\"key\":%.0f}\n", key + 3 * size + 5 + 3 * i
            }
            key += 6 * size + 3
        }
    }'
}

# best SIZE TIMES UNDONE: the least processor time of five runs over these lines, in seconds, each of which completes its jobs
best() {
    session "$@" >lines
    local run TIMEFORMAT='%U %S'
    for run in 1 2 3 4 5; do
        rm -rf zb
        { time "$server" serve --clock manual <lines >replies 2>/dev/null; } 2>&1
        [ "$(grep -c '^{"ok":{"job":' replies || true)" -eq $(($1 * $2 * $3)) ] || { echo 'bench: not every job was completed' >&2; exit 1; }
    done | awk 'NR == 1 || $1 + $2 < least { least = $1 + $2 } END { print least }'
}

# cost SIZE: how long one of the handlers takes, in microseconds
cost() {
    local all front
    all=$(best "$1" $((handlers / $1)) 1)
    front=$(best "$1" $((handlers / $1)) 0)
    awk -v a="$all" -v f="$front" -v n=$((handlers / $1 * $1)) 'BEGIN { print 1000000 * (a - f) / n }'
}

hundred=$(cost 100)
thousand=$(cost 1000)
awk -v n="$handlers" -v h="$hundred" -v t="$thousand" 'BEGIN {
    printf "%d handlers, whose jobs are given out and completed, microseconds of processor time for each\n", n
    printf "100 in an instance:     %7.1f\n", h
    printf "1,000 in an instance:   %7.1f, %.2f times as long (wanted: at most 1.3)\n", t, t / h
}'
