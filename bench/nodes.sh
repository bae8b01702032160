#!/usr/bin/env bash
# Feeds the built server instances of a process of 20 nodes in a row, on a file system in memory, and prints how many a
# second run to their end, and how many times as long one takes as one of a start and an end event. It is no test. ZBD in
# the environment names another server.
# usage: bench/nodes.sh [LINES] [DIRECTORY IN MEMORY]
set -eu
top=$(cd "$(dirname "$0")/.." && pwd)
lines=${1:-20000}
memory=$(mktemp -d "${2:-/dev/shm}/bench.XXXXXX")
trap 'rm -rf "$memory"' EXIT
[ -n "${ZBD:-}" ] || "$top/zbd" >/dev/null 2>&1 </dev/null || true
server=${ZBD:-$top/crates/zbd/out/zbd}

# row COUNT: a deploy of so many nodes in a row, a start event, events that only pass tokens on, and an end event
row() {
    local nodes='{"id":"n1","kind":"startEvent"}' flows='' node
    for ((node = 2; node <= $1; node++)); do
        nodes=$nodes',{"id":"n'$node'","kind":"'$([ "$node" -eq "$1" ] && echo endEvent || echo intermediateThrowEvent)'"}'
        flows=$flows'{"id":"f'$node'","sourceRef":"n'$((node - 1))'","targetRef":"n'$node'"},'
    done
    printf '{"op":"deploy","model":{"process":"p","nodes":[%s],"flows":[%s]}}\n' "$nodes" "${flows%,}"
}

# seconds COUNT: how long the instances of so many nodes take
seconds() {
    local start end
    { row "$1"; for ((line = 1; line <= lines; line++)); do printf '{"op":"create","process":"p"}\n'; done; } >"$memory/lines"
    rm -rf "$memory/zb"
    start=$(date +%s.%N)
    (cd "$memory" && "$server" serve --clock manual <"$memory/lines" >"$memory/replies")
    end=$(date +%s.%N)
    [ "$(grep -c instance "$memory/replies")" -eq "$lines" ] || { echo 'bench: not every line has an instance' >&2; exit 1; }
    awk -v a="$start" -v b="$end" 'BEGIN { print b - a }'
}

two=$(seconds 2)
twenty=$(seconds 20)
awk -v n="$lines" -v a="$two" -v b="$twenty" 'BEGIN {
    printf " 2 nodes: %8.0f instances a second\n20 nodes: %8.0f instances a second, each %.1f times as long\n", n / a, n / b, b / a
}'
