#!/usr/bin/env bash
# Measures what a publish costs where few messages are buffered and where many are: the processor time, user and system,
# of the built server on a file system in memory, in microseconds a publish. With an id, with one time to live for all,
# and with times to live at random. What the messages take that were there before is taken off. Few and many come in
# turn, five times; it prints the medians and what part of the one the other is. It is no test. ZBD in the environment
# names another server.
# usage: bench/buffered.sh [PUBLISHES] [FEW] [MANY] [DIRECTORY IN MEMORY]
set -euo pipefail
top=$(cd "$(dirname "$0")/.." && pwd)
publishes=${1:-20000}
few=${2:-1000}
many=${3:-100000}
memory=$(mktemp -d "${4:-/dev/shm}/bench.XXXXXX")
trap 'rm -rf "$memory"' EXIT
[ -n "${ZBD:-}" ] || "$top/zbd" >/dev/null 2>&1 </dev/null || true
server=${ZBD:-$top/crates/zbd/out/zbd}
TIMEFORMAT='%3U %3S'

# lines KIND BUFFERED PUBLISHES: so many messages that stay, and so many behind them of a kind
lines() {
    awk -v kind="$1" -v buffered="$2" -v publishes="$3" 'BEGIN {
        srand(7)
        for (line = 1; line <= buffered + publishes; line++) {
            live = kind == "random" ? 1 + int(1000000000 * rand()) : 1000000000
            id = kind == "id" && line > buffered ? ",\"messageId\":\"i\"" : ""
            printf "{\"op\":\"publish\",\"name\":\"paid\",\"correlationKey\":\"o-%d\",\"timeToLive\":%d%s}\n", line, live, id
        }
    }'
}

# spent FILE: the processor time that its lines take from an empty log on
spent() {
    rm -rf "$memory/zb"
    { time "$server" serve --clock manual --dir "$memory/zb" <"$1" >"$memory/replies" 2>"$memory/told"; } 2>"$memory/time"
    [ "$(grep -c '"message"' "$memory/replies")" -eq "$(wc -l <"$1")" ] || { echo 'bench: not every line has a message' >&2; exit 1; }
    awk '{ print $1 + $2 }' "$memory/time"
}

# median NUMBER..: the one in the middle
median() { printf '%s\n' "$@" | sort -g | awk '{ n[NR] = $1 } END { print n[int((NR + 1) / 2)] }'; }

# cost KIND BUFFERED: microseconds a publish of a kind where so many are buffered
cost() {
    lines "$1" "$2" 0 >"$memory/before"
    lines "$1" "$2" "$publishes" >"$memory/after"
    awk -v b="$(spent "$memory/before")" -v a="$(spent "$memory/after")" -v n="$publishes" 'BEGIN { print (a - b) * 1000000 / n }'
}

for kind in id same random; do
    at_few=() at_many=()
    for _ in 1 2 3 4 5; do
        at_few+=("$(cost "$kind" "$few")")
        at_many+=("$(cost "$kind" "$many")")
    done
    awk -v k="$kind" -v f="$(median "${at_few[@]}")" -v m="$(median "${at_many[@]}")" -v a="$few" -v b="$many" 'BEGIN {
        told["id"] = "with an id"; told["same"] = "of one time to live"; told["random"] = "of times to live at random"
        printf "a publish %s: %.2f microseconds behind %d, %.2f behind %d, %.2f times as much\n", told[k], f, a, m, b, m / f
    }'
done
