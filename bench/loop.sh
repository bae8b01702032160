#!/usr/bin/env bash
# Feeds the built server a model that loops for ever, on a file system in memory, and prints how many events a second it
# makes beside those of instances that run to their end. It is no test. ZBD in the environment names another server.
# usage: bench/loop.sh [UNITS] [DIRECTORY IN MEMORY]
set -eu
top=$(cd "$(dirname "$0")/.." && pwd)
units=${1:-1000}
memory=$(mktemp -d "${2:-/dev/shm}/bench.XXXXXX")
trap 'rm -rf "$memory"' EXIT
[ -n "${ZBD:-}" ] || "$top/zbd" >/dev/null 2>&1 </dev/null || true
server=${ZBD:-$top/crates/zbd/out/zbd}

# seconds FILE UNITS: how long its lines take, with so many units of work behind each
seconds() {
    local start end
    rm -rf "$memory/zb"
    start=$(date +%s.%N)
    (cd "$memory" && "$server" serve --clock manual --units "$2" <"$1" >"$memory/replies")
    end=$(date +%s.%N)
    awk -v a="$start" -v b="$end" 'BEGIN { print b - a }'
}

nodes='[{"id":"s","kind":"startEvent"},{"id":"a","kind":"intermediateThrowEvent"}]'
flows='[{"id":"f","sourceRef":"s","targetRef":"a"},{"id":"g","sourceRef":"a","targetRef":"a"}]'
printf '{"op":"deploy","model":{"process":"l","nodes":%s,"flows":%s}}\n{"op":"create","process":"l"}\n' "$nodes" "$flows" >"$memory/loop"
loop=$(seconds "$memory/loop" "$units")
instances=$((units * 1024 / 14))
{ head -n 1 "$top/examples/process.jsonl"; for ((line = 1; line <= instances; line++)); do printf '{"op":"create","process":"p"}\n'; done; } >"$memory/create"
create=$(seconds "$memory/create" 0)
# the units behind the line, as many behind the last one, and the batch of the create itself
awk -v u="$units" -v l="$loop" -v i="$instances" -v c="$create" 'BEGIN {
    e = (2 * u + 1) * 1024
    printf "looping: %9.0f events a second\n", e / l
    printf "creates: %9.0f events a second, 14 an instance; the loop makes %.2f of it\n", 14 * i / c, (e / l) / (14 * i / c)
}'
