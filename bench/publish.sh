#!/usr/bin/env bash
# Feeds publish lines to the built server, on a real disk and on a file system in memory, and prints requests
# per second of both and what part of the time is the device's. Each line has a correlation key of its own, so with
# several partitions they go to all of them. It is no test. ZBD in the environment names another server.
# usage: bench/publish.sh [--partitions N] [LINES] [DIRECTORY ON A DISK] [DIRECTORY IN MEMORY]
set -eu
top=$(cd "$(dirname "$0")/.." && pwd)
partitions=1
if [ "${1:-}" = --partitions ]; then
    partitions=${2:?"bench: how many partitions?"}
    shift 2
fi
lines=${1:-20000}
disk=$(mktemp -d "${2:-$top}/bench.XXXXXX")
memory=$(mktemp -d "${3:-/dev/shm}/bench.XXXXXX")
trap 'rm -rf "$disk" "$memory"' EXIT
[ -n "${ZBD:-}" ] || "$top/zbd" >/dev/null 2>&1 </dev/null || true
server=${ZBD:-$top/crates/zbd/out/zbd}
for ((line = 1; line <= lines; line++)); do
    printf '{"op":"publish","name":"paid","correlationKey":"o-%d","timeToLive":60000}\n' "$line"
done >"$memory/lines"

# seconds DIRECTORY: how long the lines take there
seconds() {
    local start end
    start=$(date +%s.%N)
    (cd "$1" && "$server" serve --clock manual --partitions "$partitions" <"$memory/lines" >"$memory/replies")
    end=$(date +%s.%N)
    [ "$(grep -c '"message"' "$memory/replies")" -eq "$lines" ] || { echo 'bench: not every line has a message' >&2; exit 1; }
    awk -v a="$start" -v b="$end" 'BEGIN { print b - a }'
}

on_disk=$(seconds "$disk")
in_memory=$(seconds "$memory")
awk -v n="$lines" -v p="$partitions" -v d="$on_disk" -v m="$in_memory" -v c="$(nproc)" 'BEGIN {
    printf "%d publish requests, partitions: %d, processors: %d\n", n, p, c
    printf "on the disk:  %8.0f requests a second\n", n / d
    printf "in memory:    %8.0f requests a second\n", n / m
    printf "the device has %.0f%% of the time on the disk\n", 100 * (1 - m / d)
}'
