#!/usr/bin/env bash
# Feeds the built server deploy lines, on a file system in memory. Their model has as many nodes and flows as one may
# have, and ids so long that it fills its line. Prints how long one takes; how long the same line takes with an op that
# there isn't, of which nothing but the JSON is read; how many times as long the first takes, and how many times as long
# as one of half the nodes and flows. All are processor times, the best of five runs, less what a run without lines
# takes; in memory nothing else is waited for. It is no test. ZBD in the environment names another server.
# usage: bench/deploy.sh [LINES] [DIRECTORY IN MEMORY]
set -euo pipefail
top=$(cd "$(dirname "$0")/.." && pwd)
lines=${1:-40}
memory=$(mktemp -d "${2:-/dev/shm}/bench.XXXXXX")
trap 'rm -rf "$memory"' EXIT
[ -n "${ZBD:-}" ] || "$top/zbd" >/dev/null 2>&1 </dev/null || true
server=${ZBD:-$top/crates/zbd/out/zbd}
cd "$memory"

# session NODES FLOWS OP: lines of this op whose model has a start event, end events, and flows from it to each of them
session() {
    awk -v nodes="$1" -v flows="$2" -v op="$3" -v lines="$lines" 'BEGIN {
        line = "{\"model\":{\"process\":\"p\",\"nodes\":[{\"id\":\"s00000000000000000000\",\"kind\":\"startEvent\"}"
        for (n = 1; n < nodes; n++) line = line sprintf(",{\"id\":\"e%020d\",\"kind\":\"endEvent\"}", n)
        line = line "],\"flows\":["
        for (f = 0; f < flows; f++)
            line = line (f ? "," : "") sprintf("{\"id\":\"f%020d\",\"sourceRef\":\"s00000000000000000000\",\"targetRef\":\"e%020d\"}", \
                f, f % (nodes - 1) + 1)
        line = line "]},\"op\":\"" op "\"}"
        for (l = 0; l < lines; l++) print line
    }'
}

# best FILE REPLY: the least processor time of five runs over these lines, in seconds, each of which has such a reply
best() {
    local run TIMEFORMAT='%U %S'
    for run in 1 2 3 4 5; do
        rm -rf zb
        { time "$server" serve --clock manual <"$1" >replies 2>/dev/null; } 2>&1
        [ "$(grep -c "$2" replies)" -eq "$(wc -l <"$1")" ] || { echo "bench: not every line has such a reply: $2" >&2; exit 1; }
    done | awk 'NR == 1 || $1 + $2 < least { least = $1 + $2 } END { print least }'
}

session 1000 2000 deploy >whole
session 500 1000 deploy >half
session 1000 2000 deplay >json
: >none
idle=$(best none .)
whole=$(best whole version)
half=$(best half version)
json=$(best json UNKNOWN_OP)
awk -v n="$lines" -v b="$(head -n 1 whole | wc -c)" -v i="$idle" -v w="$whole" -v h="$half" -v j="$json" 'BEGIN {
    printf "%d deploy requests of 1,000 nodes and 2,000 flows, %d bytes a line\n", n, b - 1
    printf "deployed:  %7.2f ms a request\n", 1000 * (w - i) / n
    printf "its JSON:  %7.2f ms a line\n", 1000 * (j - i) / n
    printf "deploying takes %.1f times as long as reading the JSON\n", (w - i) / (j - i)
    printf "deploying takes %.2f times as long as with half the nodes and flows\n", (w - i) / (h - i)
}'
