#!/usr/bin/env bash
# Measures what a tick costs that expires 1,000 messages, where few other messages are buffered and where many are: the
# processor time, user and system, of the built server on a file system in memory. In each round 1,000 messages with
# different deadlines are published, the clock moves on past these and a tick comes, so how many are buffered stays
# about the same. What the same lines take without the ticks is taken off. Few and many come in turn, five times; it
# prints the median of a tick with each, and what part of the one the other is. It is no test. ZBD in the environment
# names another server.
# usage: bench/tick.sh [ROUNDS] [FEW] [MANY] [DIRECTORY IN MEMORY]
set -euo pipefail
top=$(cd "$(dirname "$0")/.." && pwd)
rounds=${1:-500}
few=${2:-2000}
many=${3:-100000}
memory=$(mktemp -d "${4:-/dev/shm}/bench.XXXXXX")
trap 'rm -rf "$memory"' EXIT
[ -n "${ZBD:-}" ] || "$top/zbd" >/dev/null 2>&1 </dev/null || true
server=${ZBD:-$top/crates/zbd/out/zbd}
TIMEFORMAT='%3U %3S'

# lines BUFFERED TICK: so many messages that stay, and then the rounds, each with this line as its last one
lines() {
    awk -v buffered="$1" -v tick="$2" -v rounds="$rounds" 'BEGIN {
        publish = "{\"op\":\"publish\",\"name\":\"paid\",\"correlationKey\":\"o-%d\",\"timeToLive\":%d}\n"
        for (line = 1; line <= buffered; line++) printf publish, line, 1000000000 + line
        for (round = 1; round <= rounds; round++) {
            for (line = 1; line <= 1000; line++) printf publish, line, 1 + 7 * line % 1000
            print "{\"op\":\"advance\",\"ms\":1000}"
            print tick
        }
    }'
}

# spent FILE TICKS: the processor time that its lines take from an empty log on, where so many ticks expire 1,000 each
spent() {
    rm -rf "$memory/zb"
    { time "$server" serve --clock manual --dir "$memory/zb" <"$1" >"$memory/replies" 2>"$memory/told"; } 2>"$memory/time"
    [ "$(wc -l <"$memory/replies")" -eq "$(wc -l <"$1")" ] || { echo 'bench: not every line has a reply' >&2; exit 1; }
    [ "$(grep -c '"due":1000}' "$memory/replies")" -eq "$2" ] || { echo 'bench: not every tick expires 1,000 messages' >&2; exit 1; }
    awk '{ print $1 + $2 }' "$memory/time"
}

# ticks BUFFERED: the processor time of the ticks, where so many messages stay
ticks() {
    local with without
    with=$(spent "$memory/with.$1" "$rounds")
    without=$(spent "$memory/without.$1" 0)
    awk -v a="$with" -v b="$without" 'BEGIN { print a - b }'
}

median() { sort -n "$1" | sed -n 3p; }

for buffered in "$few" "$many"; do
    lines "$buffered" '{"op":"tick"}' >"$memory/with.$buffered"
    lines "$buffered" '{"op":"advance","ms":0}' >"$memory/without.$buffered"
done
for turn in 1 2 3 4 5; do
    for buffered in "$few" "$many"; do
        ticks "$buffered" >>"$memory/ticks.$buffered"
    done
done
awk -v n="$rounds" -v few="$few" -v many="$many" -v f="$(median "$memory/ticks.$few")" -v m="$(median "$memory/ticks.$many")" 'BEGIN {
    if (f < 1) printf "bench: %d ticks take %.2f s, less than a second: more rounds are wanted\n", n, f
    printf "a tick expires 1,000 messages in %.3f ms where %d others are buffered, and in %.3f ms where %d are, %.2f of it\n",
        1000 * f / n, few, 1000 * m / n, many, (f > 0 ? m / f : 0)
}'
