#!/usr/bin/env bash
# Measures what a publish costs that starts an instance, of a start event, a flow and an end event. First against one
# publish that starts none and one create of a like process. Then where few messages of other names are buffered, and
# where many are. Last where few subscriptions wait for messages of that name and other correlation keys, and where many
# do, in a log that is made by hand. It is the processor time, user and system, of the built server on a file system in
# memory, in microseconds; what the log and the lines before take is taken off. Both sides come in turn, five times; it
# prints the medians and what part of the one the other is. It is no test. ZBD in the environment names another server.
# usage: bench/starts.sh [PUBLISHES] [FEW] [MANY] [DIRECTORY IN MEMORY]
set -euo pipefail
top=$(cd "$(dirname "$0")/.." && pwd)
publishes=${1:-20000}
few=${2:-100}
many=${3:-100000}
memory=$(mktemp -d "${4:-/dev/shm}/bench.XXXXXX")
trap 'rm -rf "$memory"' EXIT
[ -n "${ZBD:-}" ] || "$top/zbd" >/dev/null 2>&1 </dev/null || true
server=${ZBD:-$top/crates/zbd/out/zbd}
TIMEFORMAT='%3U %3S'

# lines BUFFERED STARTS PLAIN: both processes, so many messages of other names, and so many lines of each kind: publishes
# that start an instance; and pairs of a publish that starts none and a create
lines() {
    awk -v buffered="$1" -v starts="$2" -v plain="$3" '
    function deploy(process, start) {
        printf "{\"op\":\"deploy\",\"model\":{\"process\":\"%s\",\"nodes\":[{\"id\":\"s\",\"kind\":\"startEvent\"%s},{\"id\":\"e\",\"kind\":\"endEvent\"}],\"flows\":[{\"id\":\"f\",\"sourceRef\":\"s\",\"targetRef\":\"e\"}]}}\n", process, start
    }
    function publish(name, key) {
        printf "{\"op\":\"publish\",\"name\":\"%s\",\"correlationKey\":\"o-%d\",\"timeToLive\":1000000000}\n", name, key
    }
    BEGIN {
        deploy("m", ",\"messageEventDefinition\":{\"name\":\"paid\"}")
        deploy("p", "")
        for (line = 1; line <= buffered; line++) publish("n-" line, line)
        for (line = 1; line <= starts; line++) publish("paid", line)
        for (line = 1; line <= plain; line++) {
            publish("lost", line)
            printf "{\"op\":\"create\",\"process\":\"p\"}\n"
        }
    }'
}

# subscribed OPEN: a log in which so many subscriptions of the process m are open, each for a correlation key of its own
subscribed() {
    python3 - "$1" <<'END'
import struct
import sys

def text(it):
    return struct.pack(">I", len(it)) + it.encode()

def batch(number):
    opened = struct.pack(">Q", 2**51 + number) + text("paid") + text(f"w-{number}") + text("m") + b"\1"
    return b"\1" + struct.pack(">QQ", 0, number - 1) + b"\x13" + opened + b"\1" + struct.pack(">I", 1) + b"\x20" + opened

for number in range(1, int(sys.argv[1]) + 1):
    body = batch(number)
    sys.stdout.buffer.write(b"\1" + struct.pack(">Q", len(body)) + body)
sys.stdout.buffer.write(b"\0")
END
}

# spent OPEN BUFFERED STARTS PLAIN: the processor time that these lines take from a log with so many subscriptions on
spent() {
    rm -rf "$memory/zb"
    mkdir "$memory/zb"
    subscribed "$1" >"$memory/zb/1.log"
    lines "${@:2}" >"$memory/lines"
    { time "$server" serve --clock manual --dir "$memory/zb" <"$memory/lines" >"$memory/replies" 2>"$memory/told"; } 2>"$memory/time"
    [ "$(grep -c '"ok"' "$memory/replies")" -eq "$(wc -l <"$memory/lines")" ] || { echo 'bench: not every line was done' >&2; exit 1; }
    awk '{ print $1 + $2 }' "$memory/time"
}

# median NUMBER..: the one in the middle
median() { printf '%s\n' "$@" | sort -g | awk '{ n[NR] = $1 } END { print n[int((NR + 1) / 2)] }'; }

# cost OPEN BUFFERED STARTS PLAIN: microseconds of one of these publishes, or of one pair, behind so many messages
cost() {
    local before behind
    before=$(spent "$1" "$2" 0 0)
    behind=$(spent "$@")
    awk -v b="$before" -v a="$behind" -v n="$publishes" 'BEGIN { print (a - b) * 1000000 / n }'
}

# told WHAT WITHIN FIRST OTHER SECOND: one measurement against another, and what is wanted of it
told() {
    awk -v what="$1" -v wanted="$2" -v a="$3" -v other="$4" -v b="$5" 'BEGIN {
        printf "%s: %.2f microseconds, %s: %.2f, so %.2f times as much (wanted: at most %s)\n", what, a, other, b, a / b, wanted
    }'
}

# each of the publishes is to start an instance
spent "$few" 0 "$publishes" 0 >/dev/null
[ "$("$server" log --dir "$memory/zb" --partition 1 | grep -c 'EVENT MESSAGE_START_EVENT_SUBSCRIPTION CORRELATED ')" -eq "$publishes" ] ||
    { echo 'bench: not every publish starts an instance' >&2; exit 1; }

starting=() plain=() at_few=() at_many=() open_few=() open_many=()
for _ in 1 2 3 4 5; do
    starting+=("$(cost 0 0 "$publishes" 0)")
    plain+=("$(cost 0 0 0 "$publishes")")
    at_few+=("$(cost 0 "$few" "$publishes" 0)")
    at_many+=("$(cost 0 "$many" "$publishes" 0)")
    open_few+=("$(cost "$few" 0 "$publishes" 0)")
    open_many+=("$(cost "$many" 0 "$publishes" 0)")
done
told 'a publish that starts an instance' 1.1 "$(median "${starting[@]}")" 'a publish and a create' "$(median "${plain[@]}")"
told "it where $many messages of other names are buffered" 1.3 "$(median "${at_many[@]}")" "where $few are" "$(median "${at_few[@]}")"
told "it where $many subscriptions are open" 1.3 "$(median "${open_many[@]}")" "where $few are" "$(median "${open_few[@]}")"
