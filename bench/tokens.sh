#!/usr/bin/env bash
# Measures what it costs to leave tokens at a join whose other flow has none: a process that leaves many in one instance,
# beside instances that leave 1,000 each, as many in all, on a file system in memory; prints the microseconds for each
# token, and what part of the one the other is. It is no test. ZBD in the environment names another server.
# usage: bench/tokens.sh [MANY, IN THOUSANDS] [DIRECTORY IN MEMORY]
set -eu
top=$(cd "$(dirname "$0")/.." && pwd)
many=${1:-100}
memory=$(mktemp -d "${2:-/dev/shm}/bench.XXXXXX")
trap 'rm -rf "$memory"' EXIT
[ -n "${ZBD:-}" ] || "$top/zbd" >/dev/null 2>&1 </dev/null || true
server=${ZBD:-$top/crates/zbd/out/zbd}

# seconds FILE: how long its lines take, each with the work behind it
seconds() {
    local start end
    rm -rf "$memory/zb"
    start=$(date +%s.%N)
    (cd "$memory" && "$server" serve --clock manual --units $((many * 100)) <"$1" >"$memory/replies")
    end=$(date +%s.%N)
    awk -v a="$start" -v b="$end" 'BEGIN { print b - a }'
}

nodes='[{"id":"s","kind":"startEvent"},{"id":"g","kind":"parallelGateway"},{"id":"w","kind":"serviceTask","type":"pay"},
{"id":"x","kind":"exclusiveGateway","default":"x-e"},{"id":"f","kind":"parallelGateway"},
{"id":"u","kind":"subProcess","outputs":[{"source":"=i + 1","target":"i"}]},
{"id":"us","kind":"startEvent","parent":"u"},{"id":"ue","kind":"endEvent","parent":"u"},
{"id":"j","kind":"parallelGateway"},{"id":"e","kind":"endEvent"},{"id":"z","kind":"endEvent"}]'
flows='[{"id":"s-g","sourceRef":"s","targetRef":"g"},{"id":"g-w","sourceRef":"g","targetRef":"w"},
{"id":"g-x","sourceRef":"g","targetRef":"x"},{"id":"w-j","sourceRef":"w","targetRef":"j"},
{"id":"x-f","sourceRef":"x","targetRef":"f","conditionExpression":"=i < n"},{"id":"x-e","sourceRef":"x","targetRef":"e"},
{"id":"f-j","sourceRef":"f","targetRef":"j"},{"id":"f-u","sourceRef":"f","targetRef":"u"},
{"id":"u-x","sourceRef":"u","targetRef":"x"},{"id":"us-ue","sourceRef":"us","targetRef":"ue"},
{"id":"j-z","sourceRef":"j","targetRef":"z"}]'
model=$(printf '{"op":"deploy","model":{"process":"p","nodes":%s,"flows":%s}}' "$nodes" "$flows" | tr -d '\n')

# create NUMBER: an instance that leaves so many
create() { printf '{"op":"create","process":"p","variables":{"i":0,"n":%s}}\n' "$1"; }

{ printf '%s\n' "$model"; create $((many * 1000)); } >"$memory/one"
{ printf '%s\n' "$model"; for ((line = 1; line <= many; line++)); do create 1000; done; } >"$memory/each"
each=$(seconds "$memory/each")
one=$(seconds "$memory/one")
awk -v n="$many" -v e="$each" -v o="$one" 'BEGIN {
    printf "1,000 each:   %6.2f microseconds a token\n", e * 1000 / n
    printf "%d,000 in one: %6.2f microseconds a token, %.2f times as long\n", n, o * 1000 / n, o / e
}'
