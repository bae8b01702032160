#!/usr/bin/env bash
# Makes a log of publish batches on a file system in memory. Prints how many frames a second the built server
# reads as it opens that log, how many a plain read of the file in pieces of 64 KiB (the server's) passes, and how
# many times as long as that read the opening takes. Each is the best of three runs, the start of the process
# included. It is no test. ZBD in the environment names another server.
# usage: bench/open.sh [BATCHES] [DIRECTORY IN MEMORY]
set -euo pipefail
top=$(cd "$(dirname "$0")/.." && pwd)
batches=${1:-200000}
memory=$(mktemp -d "${2:-/dev/shm}/bench.XXXXXX")
trap 'rm -rf "$memory"' EXIT
[ -n "${ZBD:-}" ] || "$top/zbd" >/dev/null 2>&1 </dev/null || true
server=${ZBD:-$top/crates/zbd/out/zbd}
cd "$memory"
for ((line = 1; line <= batches; line++)); do
    printf '{"op":"publish","name":"paid","correlationKey":"o-%d","timeToLive":60000}\n' "$line"
done | "$server" serve --clock manual >replies
[ "$(wc -l <replies)" -eq "$batches" ] || { echo 'bench: not every line has a reply' >&2; exit 1; }

# best COMMAND..: the shortest of three runs, in seconds
best() {
    local run start end
    for run in 1 2 3; do
        start=$(date +%s.%N)
        "$@" </dev/null >/dev/null 2>&1
        end=$(date +%s.%N)
        echo "$run $start $end"
    done | awk 'NR == 1 || $3 - $2 < least { least = $3 - $2 } END { print least }'
}

opened=$(best "$server" serve --clock manual)
read=$(best dd if=zb/1.log of=/dev/null bs=64K)
awk -v n="$batches" -v size="$(stat -c %s zb/1.log)" -v o="$opened" -v r="$read" 'BEGIN {
    printf "%d frames, %d bytes\n", n, size
    printf "opened:       %9.0f frames a second, %.3f s\n", n / o, o
    printf "a plain read: %9.0f frames a second, %.3f s\n", n / r, r
    printf "opening takes %.1f times as long as a plain read\n", o / r
}'
