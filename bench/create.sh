#!/usr/bin/env bash
# Feeds the built server one process and then create lines, on a file system in memory, and prints instances per
# second, and how fast their log is opened. It is no test. ZBD in the environment names another server.
# usage: bench/create.sh [LINES] [DIRECTORY IN MEMORY]
set -eu
top=$(cd "$(dirname "$0")/.." && pwd)
lines=${1:-20000}
memory=$(mktemp -d "${2:-/dev/shm}/bench.XXXXXX")
trap 'rm -rf "$memory"' EXIT
[ -n "${ZBD:-}" ] || "$top/zbd" >/dev/null 2>&1 </dev/null || true
server=${ZBD:-$top/crates/zbd/out/zbd}
head -n 1 "$top/examples/process.jsonl" >"$memory/lines"
for ((line = 1; line <= lines; line++)); do
    printf '{"op":"create","process":"p"}\n'
done >>"$memory/lines"

# seconds FILE: how long its lines take
seconds() {
    local start end
    start=$(date +%s.%N)
    (cd "$memory" && "$server" serve --clock manual <"$1" >"$memory/replies")
    end=$(date +%s.%N)
    awk -v a="$start" -v b="$end" 'BEGIN { print b - a }'
}

served=$(seconds "$memory/lines")
[ "$(grep -c instance "$memory/replies")" -eq "$lines" ] || { echo 'bench: not every line has an instance' >&2; exit 1; }
opened=$(seconds /dev/null)
awk -v n="$lines" -v s="$served" -v o="$opened" -v c="$(nproc)" 'BEGIN {
    printf "%d instances of one start event, one flow and one end event, %d processors\n", n, c
    printf "made and run:  %8.0f a second\n", n / s
    printf "opened:        %8.0f frames a second\n", n / o
}'
