#!/usr/bin/env bash
# Measures instances that wait for messages, over three partitions. In a cycle an instance of a start event, a receive
# task and an end event is made at one partition, and its message is published at the home of its correlation key, which
# may be another one. The message is given to the instance, which ends: eight batches, six of them units of work. Prints
# how many batches are done a second in memory, and what part that is of those of a generated workload. For a tenth of
# the cycles it prints how many are done on a disk, and what part of the time is the device's. Last it prints what a
# cycle costs where few subscriptions of another process are open, and where many are: the processor time, user and
# system, in microseconds, without what the log and the lines before take. Both sides come in turn, five times but on
# the disk once, and medians are told. It is no test. ZBD in the environment names another server.
# usage: bench/messages.sh [CYCLES] [FEW] [MANY] [DIRECTORY ON A DISK] [DIRECTORY IN MEMORY]
set -euo pipefail
top=$(cd "$(dirname "$0")/.." && pwd)
cycles=${1:-20000}
few=${2:-100}
many=${3:-100000}
disk=$(mktemp -d "${4:-$top}/bench.XXXXXX")
memory=$(mktemp -d "${5:-/dev/shm}/bench.XXXXXX")
trap 'rm -rf "$disk" "$memory"' EXIT
[ -n "${ZBD:-}" ] || "$top/zbd" >/dev/null 2>&1 </dev/null || true
server=${ZBD:-$top/crates/zbd/out/zbd}
TIMEFORMAT='%R %3U %3S'

# lines OPEN CYCLES: both processes, so many instances of one that wait, and so many cycles of the other
lines() {
    awk -v open="$1" -v cycles="$2" '
    function deploy(process, message) {
        printf "{\"op\":\"deploy\",\"model\":{\"process\":\"%s\",\"nodes\":[{\"id\":\"s\",\"kind\":\"startEvent\"},{\"id\":\"w\",\"kind\":\"receiveTask\",\"messageEventDefinition\":{\"name\":\"%s\",\"correlationKey\":\"=k\"}},{\"id\":\"e\",\"kind\":\"endEvent\"}],\"flows\":[{\"id\":\"f\",\"sourceRef\":\"s\",\"targetRef\":\"w\"},{\"id\":\"g\",\"sourceRef\":\"w\",\"targetRef\":\"e\"}]}}\n", process, message
    }
    function create(process, key, line) {
        printf "{\"op\":\"create\",\"process\":\"%s\",\"partition\":%d,\"variables\":{\"k\":\"%s\"}}\n", process, line % 3 + 1, key
    }
    BEGIN {
        deploy("p", "paid")
        deploy("q", "shipped")
        for (line = 1; line <= open; line++) create("q", "w-" line, line)
        for (line = 1; line <= cycles; line++) {
            create("p", "o-" line, line)
            printf "{\"op\":\"publish\",\"name\":\"paid\",\"correlationKey\":\"o-%d\",\"timeToLive\":1000000000}\n", line
        }
    }'
}

# served DIRECTORY FILE: the time that these lines take on the logs there: real, user and system, in seconds
served() {
    { time "$server" serve --clock manual --partitions 3 --dir "$1/zb" <"$2" >"$memory/replies" 2>"$memory/told"; } 2>"$memory/time"
    [ "$(grep -c '^{"ok"' "$memory/replies")" -eq "$(wc -l <"$2")" ] || { echo 'bench: not every line was done' >&2; exit 1; }
    cat "$memory/time"
}
# all_given CYCLES: each message of the last run was given to its instance, which four units of work tell
all_given() {
    [ "$(grep -c '^{"ok":{"message":[0-9]*},"units":4}$' "$memory/replies")" -eq "$1" ] || { echo 'bench: not every message was given' >&2; exit 1; }
}
# batches: those of the last run; each request here is one, and so is each unit of work
batches() { awk -F'"units":' '{ sum += 1 + $2 } END { print sum }' "$memory/replies"; }
# median NUMBER..: the one in the middle
median() { printf '%s\n' "$@" | sort -g | awk '{ n[NR] = $1 } END { print n[int((NR + 1) / 2)] }'; }

# rate DIRECTORY CYCLES: the batches a second of so many cycles from empty logs on
rate() {
    local seconds
    rm -rf "$1/zb"
    lines 0 "$2" >"$memory/cycles"
    seconds=$(served "$1" "$memory/cycles" | awk '{ print $1 }')
    all_given "$2"
    awk -v n="$(batches)" -v s="$seconds" 'BEGIN { print n / s }'
}
# generated: the batches a second of a generated workload with as many requests
generated() {
    local requests=$((2 * cycles > 100000 ? 100000 : 2 * cycles))
    { time "$server" gen --number 7 --requests "$requests" --partitions 3 >"$memory/summary"; } 2>"$memory/time"
    awk 'NR == FNR { seconds = $1; next } $1 == "batches" { print $2 / seconds }' "$memory/time" "$memory/summary"
}
# spent OPEN FILE: the processor time of these lines on logs in which so many instances wait
spent() {
    rm -rf "$memory/zb"
    cp -r "$memory/open-$1/zb" "$memory/zb"
    served "$memory" "$2" | awk '{ print $2 + $3 }'
}
# cost OPEN: microseconds of a cycle where so many instances wait
cost() {
    local before behind
    before=$(spent "$1" /dev/null)
    behind=$(spent "$1" "$memory/turns")
    all_given "$cycles"
    awk -v b="$before" -v a="$behind" -v n="$cycles" 'BEGIN { print (a - b) * 1000000 / n }'
}

lines 0 "$cycles" | tail -n +3 >"$memory/turns"
for open in "$few" "$many"; do
    mkdir "$memory/open-$open"
    lines "$open" 0 >"$memory/opening"
    served "$memory/open-$open" "$memory/opening" >/dev/null
done

in_memory=() workload=() at_few=() at_many=()
for _ in 1 2 3 4 5; do
    in_memory+=("$(rate "$memory" "$cycles")")
    workload+=("$(generated)")
    at_few+=("$(cost "$few")")
    at_many+=("$(cost "$many")")
done
on_disk=$(rate "$disk" $(((cycles + 9) / 10)))
awk -v n="$cycles" -v c="$(nproc)" -v m="$(median "${in_memory[@]}")" -v g="$(median "${workload[@]}")" -v d="$on_disk" \
    -v few="$few" -v many="$many" -v a="$(median "${at_few[@]}")" -v b="$(median "${at_many[@]}")" 'BEGIN {
    printf "%d cycles of an instance and its message, partitions: 3, processors: %d\n", n, c
    printf "in memory:    %8.0f batches a second, those of a workload: %.0f, so %.2f of it (wanted: at least 0.5)\n", m, g, m / g
    printf "on the disk:  %8.0f batches a second\n", d
    printf "the device has %.0f%% of the time on the disk\n", 100 * (1 - d / m)
    printf "a cycle where %d subscriptions are open elsewhere: %.2f microseconds, where %d are: %.2f, so %.2f times as much (wanted: at most 1.3)\n", many, b, few, a, b / a
}'
