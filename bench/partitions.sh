#!/usr/bin/env bash
# Feeds the built server a stream of create lines with a deploy in front of every so many of them, over 1, 3 and 16
# partitions. An instance is one batch, and a deploy one and two more for each partition but the first, since the
# definition goes there and its answer comes back. Prints how many batches and requests are done a second, on a real disk
# and on a file system in memory, what part of the time is the device's, and how fast the logs are opened in memory, the
# start of the process included. It is no test. ZBD in the environment names another server.
# usage: bench/partitions.sh [CREATES] [CREATES BEHIND EACH DEPLOY] [DIRECTORY ON A DISK] [DIRECTORY IN MEMORY]
set -eu
top=$(cd "$(dirname "$0")/.." && pwd)
creates=${1:-20000}
each=${2:-200}
disk=$(mktemp -d "${3:-$top}/bench.XXXXXX")
memory=$(mktemp -d "${4:-/dev/shm}/bench.XXXXXX")
trap 'rm -rf "$disk" "$memory"' EXIT
[ -n "${ZBD:-}" ] || "$top/zbd" >/dev/null 2>&1 </dev/null || true
server=${ZBD:-$top/crates/zbd/out/zbd}
deploy=$(head -n 1 "$top/examples/process.jsonl")
for ((line = 0; line < creates; line++)); do
    [ $((line % each)) -ne 0 ] || printf '%s\n' "$deploy"
    printf '{"op":"create","process":"p"}\n'
done >"$memory/lines"

# seconds DIRECTORY PARTITIONS FILE: how long its lines take there
seconds() {
    local start end
    start=$(date +%s.%N)
    (cd "$1" && "$server" serve --clock manual --partitions "$2" <"$3" >"$memory/replies")
    end=$(date +%s.%N)
    [ "$(grep -c '^{"ok"' "$memory/replies")" -eq "$(wc -l <"$3")" ] || { echo 'bench: not every line was accepted' >&2; exit 1; }
    awk -v a="$start" -v b="$end" 'BEGIN { print b - a }'
}

printf '%d creates, a deploy in front of each %d, processors: %d\n' "$creates" "$each" "$(nproc)"
for partitions in 1 3 16; do
    rm -rf "$disk/zb" "$memory/zb"
    on_disk=$(seconds "$disk" "$partitions" "$memory/lines")
    in_memory=$(seconds "$memory" "$partitions" "$memory/lines")
    # each request here is a batch, and so is each unit of work
    batches=$(awk -F'"units":' '{ sum += 1 + $2 } END { print sum }' "$memory/replies")
    opened=$(seconds "$memory" "$partitions" /dev/null)
    awk -v p="$partitions" -v n="$(wc -l <"$memory/lines")" -v b="$batches" -v d="$on_disk" -v m="$in_memory" -v o="$opened" 'BEGIN {
        printf "partitions: %d, batches: %d\n", p, b
        printf "on the disk:  %8.0f batches a second, %8.0f requests\n", b / d, n / d
        printf "in memory:    %8.0f batches a second, %8.0f requests\n", b / m, n / m
        printf "the device has %.0f%% of the time on the disk\n", 100 * (1 - m / d)
        printf "opened:       %8.0f frames a second\n", b / o
    }'
done
