#!/usr/bin/env bash
# Feeds the built server deploy lines of one process, each of which makes a version of it, and then create lines, on a
# file system in memory. Prints how long a deploy and a create take where there are few definitions, how long where there
# are many, and how many times as long that is. All are processor times, the best of five runs, and differences of two
# sessions; in memory nothing else is waited for. It is no test. ZBD in the environment names another server.
# usage: bench/definitions.sh [FEW] [MANY] [DIRECTORY IN MEMORY]
set -euo pipefail
top=$(cd "$(dirname "$0")/.." && pwd)
few=${1:-500}
many=${2:-20000}
lines=20000
memory=$(mktemp -d "${3:-/dev/shm}/bench.XXXXXX")
trap 'rm -rf "$memory"' EXIT
[ -n "${ZBD:-}" ] || "$top/zbd" >/dev/null 2>&1 </dev/null || true
server=${ZBD:-$top/crates/zbd/out/zbd}
cd "$memory"
deploy=$(head -n 1 "$top/examples/process.jsonl")

# session DEPLOYS CREATES
session() {
    yes "$deploy" | head -n "$1" || true
    yes '{"op":"create","process":"p"}' | head -n "$2" || true
}

# best DEPLOYS CREATES: the least processor time of five runs over these lines, in seconds, each of which is done
best() {
    session "$1" "$2" >lines
    local run TIMEFORMAT='%U %S'
    for run in 1 2 3 4 5; do
        rm -rf zb
        { time "$server" serve --clock manual <lines >replies 2>/dev/null; } 2>&1
        [ "$(grep -c '"ok"' replies)" -eq "$(wc -l <lines)" ] || { echo 'bench: not every line was done' >&2; exit 1; }
    done | awk 'NR == 1 || $1 + $2 < least { least = $1 + $2 } END { print least }'
}

set +o pipefail
for there in "$few" "$many"; do
    printf '%s %s %s\n' "$(best "$there" 0)" "$(best $((there + lines)) 0)" "$(best "$there" "$lines")"
done | awk -v n="$lines" -v few="$few" -v many="$many" '
    { deploy[NR] = 1000000 * ($2 - $1) / n; create[NR] = 1000000 * ($3 - $1) / n }
    END {
        printf "where %d or %d definitions are there already, microseconds of processor time\n", few, many
        printf "a deploy:  %6.1f and %6.1f, %.2f times as long\n", deploy[1], deploy[2], deploy[2] / deploy[1]
        printf "a create:  %6.1f and %6.1f, %.2f times as long\n", create[1], create[2], create[2] / create[1]
    }'
