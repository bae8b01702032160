#!/usr/bin/env bash
# Measures what opening a log of timers takes, whose moments are the same and whose moments come in any order: the best
# of three runs on a file system in memory, the start of the process included. It is no test. ZBD in the environment
# names another server.
# usage: bench/dues.sh [TIMERS] [DIRECTORY IN MEMORY]
set -euo pipefail
top=$(cd "$(dirname "$0")/.." && pwd)
timers=${1:-200000}
memory=$(mktemp -d "${2:-/dev/shm}/bench.XXXXXX")
trap 'rm -rf "$memory"' EXIT
[ -n "${ZBD:-}" ] || "$top/zbd" >/dev/null 2>&1 </dev/null || true
server=${ZBD:-$top/crates/zbd/out/zbd}

# log KIND: a log of so many timers, whose moments are the same or at random
log() {
    mkdir "$memory/$1"
    awk -v kind="$1" -v timers="$timers" 'BEGIN {
        srand(7)
        print "{\"op\":\"deploy\",\"model\":{\"process\":\"p\",\"nodes\":[{\"id\":\"s\",\"kind\":\"startEvent\"},{\"id\":\"c\",\"kind\":\"intermediateCatchEvent\",\"timerEventDefinition\":{\"timeDuration\":\"=d\"}},{\"id\":\"e\",\"kind\":\"endEvent\"}],\"flows\":[{\"id\":\"in\",\"sourceRef\":\"s\",\"targetRef\":\"c\"},{\"id\":\"out\",\"sourceRef\":\"c\",\"targetRef\":\"e\"}]}}"
        for (line = 1; line <= timers; line++)
            printf "{\"op\":\"create\",\"process\":\"p\",\"variables\":{\"d\":\"PT%dS\"}}\n", kind == "random" ? 1000000 + int(1000000 * rand()) : 1500000
    }' >"$memory/lines"
    (cd "$memory/$1" && "$server" serve --clock manual <"$memory/lines" >"$memory/replies")
    [ "$(wc -l <"$memory/replies")" -eq "$((timers + 1))" ] || { echo 'bench: not every line has a reply' >&2; exit 1; }
}

# best KIND: the shortest of three openings, in seconds
best() {
    local run start end
    for run in 1 2 3; do
        start=$(date +%s.%N)
        (cd "$memory/$1" && "$server" serve --clock manual </dev/null >/dev/null 2>&1)
        end=$(date +%s.%N)
        echo "$start $end"
    done | awk 'NR == 1 || $2 - $1 < least { least = $2 - $1 } END { print least }'
}

log same
log random
awk -v n="$timers" -v s="$(best same)" -v r="$(best random)" 'BEGIN {
    printf "%d timers: opened in %.3f s where they are due at one moment, in %.3f s where in any order, %.2f times as long\n", n, s, r, r / s
}'
