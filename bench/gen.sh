#!/usr/bin/env bash
# Serves two workloads in memory over three partitions, one with ten times the requests of the other, and prints how many
# batches are done a second in each, what a batch costs, and how much more it costs in the longer one. A short run is
# done several times over, so that the start of the process counts for little. It is no test. ZBD in the environment
# names another server.
# usage: bench/gen.sh [REQUESTS OF THE SHORTER ONE]
set -eu
top=$(cd "$(dirname "$0")/.." && pwd)
requests=${1:-2000}
[ -n "${ZBD:-}" ] || "$top/zbd" >/dev/null 2>&1 </dev/null || true
server=${ZBD:-$top/crates/zbd/out/zbd}

# cost REQUESTS TIMES: the batches of a workload, and the nanoseconds of each of them
cost() {
    local start end batches
    start=$(date +%s%N)
    for ((run = 0; run < $2; run++)); do
        batches=$("$server" gen --number 7 --requests "$1" --partitions 3 | awk '$1 == "batches" { print $2 }')
    done
    end=$(date +%s%N)
    printf '%d %d\n' "$batches" $(((end - start) / $2 / batches))
}

read -r few short <<<"$(cost "$requests" 20)"
read -r many long <<<"$(cost $((10 * requests)) 2)"
printf 'workload 7, partitions: 3, processors: %d\n' "$(nproc)"
for line in "$requests $few $short" "$((10 * requests)) $many $long"; do
    awk '{ printf "%6d requests, %6d batches: %8.0f batches a second, %.1f microseconds each\n", $1, $2, 1e9 / $3, $3 / 1000 }' <<<"$line"
done
awk -v s="$short" -v l="$long" 'BEGIN { printf "a batch costs %.2f times as much in the longer one\n", l / s }'
