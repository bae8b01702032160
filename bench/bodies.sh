#!/usr/bin/env bash
# Feeds the built server instances of a process with one service task that runs for each item of a list at once, on a
# file system in memory: the jobs are made, a worker is given them, and completes them. Prints how long an item takes
# where a list has 100 and where it has 1,000, how long an instance of the same process with a task that runs once, and
# how many times as long the one takes as the other, with what is wanted. All are processor times, the best of five runs,
# less what a run of the deploy alone takes; in memory nothing else is waited for. It is no test. ZBD in the environment
# names another server.
# usage: bench/bodies.sh [ITEMS] [DIRECTORY IN MEMORY]
set -euo pipefail
shopt -s inherit_errexit
top=$(cd "$(dirname "$0")/.." && pwd)
items=${1:-20000}
memory=$(mktemp -d "${2:-/dev/shm}/bench.XXXXXX")
trap 'rm -rf "$memory"' EXIT
[ -n "${ZBD:-}" ] || "$top/zbd" >/dev/null 2>&1 </dev/null || true
server=${ZBD:-$top/crates/zbd/out/zbd}
cd "$memory"

# session SIZE SEVERAL TIMES: a deploy, and so often: jobs are made, as many as that size, given out and completed. They
# are those of one instance, or of as many instances. The list stands in the model, so a job doesn't have it among its
# variables.
# A deploy draws two keys. An instance draws three up to its task, and for each job one, behind one for its run where the
# task has several; each activate draws one, and the end event of each instance one. So the keys of all jobs are known
# beforehand.
session() {
    awk -v size="$1" -v several="$2" -v times="$3" 'BEGIN {
        list = "1"
        for (i = 2; i <= size; i++) list = list "," i % 10
        more = several ? ",\"multiInstanceLoopCharacteristics\":{\"inputCollection\":\"=[" list "]\",\"inputElement\":\"x\"}" : ""
        printf "{\"op\":\"deploy\",\"model\":{\"process\":\"p\",\"nodes\":[{\"id\":\"s\",\"kind\":\"startEvent\"},{\"id\":\"t\",\"kind\":\"serviceTask\",\"type\":\"pay\"%s},{\"id\":\"e\",\"kind\":\"endEvent\"}],", more
        printf "\"flows\":[{\"id\":\"f\",\"sourceRef\":\"s\",\"targetRef\":\"t\"},{\"id\":\"g\",\"sourceRef\":\"t\",\"targetRef\":\"e\"}]}}\n"
        key = 2
        for (turn = 0; turn < times; turn++) {
            for (i = 0; i < (several ? 1 : size); i++) print "{\"op\":\"create\",\"process\":\"p\"}"
            printf "{\"op\":\"activate\",\"type\":\"pay\",\"worker\":\"w\",\"timeout\":60000,\"max\":%d}\n", size
            for (i = 1; i <= size; i++) printf "{\"op\":\"complete\",\"key\":%.0f}\n", 2251799813685248 + key + (several ? 3 + 2 * i : 4 * i)
            key += several ? 5 + 2 * size : 5 * size + 1
        }
    }'
}

# best SIZE SEVERAL TIMES: the least processor time of five runs over these lines, in seconds, each of which completes its jobs
best() {
    session "$@" >lines
    local run TIMEFORMAT='%U %S'
    for run in 1 2 3 4 5; do
        rm -rf zb
        { time "$server" serve --clock manual <lines >replies 2>/dev/null; } 2>&1
        [ "$(grep -c '^{"ok":{"job":' replies || true)" -eq $(($1 * $3)) ] || { echo 'bench: not every job was completed' >&2; exit 1; }
    done | awk 'NR == 1 || $1 + $2 < least { least = $1 + $2 } END { print least }'
}

# cost SIZE SEVERAL: how long one of the jobs takes, in microseconds
cost() {
    local all deploy
    all=$(best "$1" "$2" $((items / $1)))
    deploy=$(best "$1" "$2" 0)
    awk -v a="$all" -v d="$deploy" -v n=$((items / $1 * $1)) 'BEGIN { print 1000000 * (a - d) / n }'
}

hundred=$(cost 100 1)
thousand=$(cost 1000 1)
one=$(cost 100 0)
awk -v n="$items" -v h="$hundred" -v t="$thousand" -v o="$one" 'BEGIN {
    printf "%d jobs that are made, given out and completed, microseconds of processor time for each\n", n
    printf "of a list of 100:       %7.1f\n", h
    printf "of a list of 1,000:     %7.1f, %.2f times as long (wanted: at most 1.3)\n", t, t / h
    printf "of an instance each:    %7.1f, an item of 1,000 takes %.2f times as long (wanted: at most 3)\n", o, t / o
}'
