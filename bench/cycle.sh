#!/usr/bin/env bash
# Feeds the built server cycles of a process with one service task: an instance is made, a worker is given its job, and
# completes it. It prints how many requests a second are done, three for each cycle, on a real disk and on a file system
# in memory, and what part of the time is the device's; and then, in memory, how many are done where many jobs are open,
# and what part that is of the number where few are: jobs of another type, and jobs of the same one, of which a worker is
# then given the oldest. It is no test. ZBD in the environment names another server.
# usage: bench/cycle.sh [CYCLES] [OPEN] [DIRECTORY ON A DISK] [DIRECTORY IN MEMORY]
set -eu
top=$(cd "$(dirname "$0")/.." && pwd)
cycles=${1:-20000}
many=${2:-50000}
disk=$(mktemp -d "${3:-$top}/bench.XXXXXX")
memory=$(mktemp -d "${4:-/dev/shm}/bench.XXXXXX")
trap 'rm -rf "$disk" "$memory"' EXIT
[ -n "${ZBD:-}" ] || "$top/zbd" >/dev/null 2>&1 </dev/null || true
server=${ZBD:-$top/crates/zbd/out/zbd}
few=50
# the key that the first thing of partition 1 has, less one
base=2251799813685248

# task PROCESS TYPE: a deploy of a start event, a service task and an end event
task() {
    printf '{"op":"deploy","model":{"process":"%s","nodes":[{"id":"s","kind":"startEvent"},{"id":"t","kind":"serviceTask","type":"%s"},{"id":"e","kind":"endEvent"}],"flows":[{"id":"f","sourceRef":"s","targetRef":"t"},{"id":"g","sourceRef":"t","targetRef":"e"}]}}\n' "$1" "$2"
}
# A deploy draws two keys. An instance draws four up to its job, which has the last of them; the batch of an activate
# draws one, and a complete one, for the end event. So the keys of all jobs are known beforehand.
# opening PROCESS NUMBER: both processes, and so many instances of one, each with an open job
opening() {
    task p pay
    task q ship
    for ((line = 1; line <= $2; line++)); do printf '{"op":"create","process":"%s"}\n' "$1"; done
}
# turns PROCESS NUMBER: the cycles behind that opening
turns() {
    local turn job
    for ((turn = 1; turn <= cycles; turn++)); do
        job=$((4 + 4 * $2 + 6 * turn - 2))
        if [ "$1" = p ]; then
            # the oldest open job: one of the opening, and then those of the cycles
            job=$((turn <= $2 ? 4 + 4 * turn : job - 6 * $2))
        fi
        printf '{"op":"create","process":"p"}\n{"op":"activate","type":"pay","worker":"w","timeout":60000,"max":1}\n{"op":"complete","key":%d}\n' $((base + job))
    done
}

# seconds DIRECTORY FILE: how long its lines take there, from an empty log on
seconds() {
    local start end
    rm -rf "$1/zb"
    start=$(date +%s.%N)
    (cd "$1" && "$server" serve --clock manual <"$2" >"$memory/replies")
    end=$(date +%s.%N)
    [ "$(wc -l <"$memory/replies")" -eq "$(wc -l <"$2")" ] || { echo 'bench: not every line has a reply' >&2; exit 1; }
    awk -v a="$start" -v b="$end" 'BEGIN { print b - a }'
}
# all_completed: each cycle of the last run has completed a job
all_completed() {
    [ "$(grep -c '^{"ok":{"job":' "$memory/replies")" -eq "$cycles" ] || { echo 'bench: not every job was completed' >&2; exit 1; }
}
# rate PROCESS NUMBER: how many requests of cycles are done a second in memory, where so many jobs are open
rate() {
    local before all
    opening "$1" "$2" >"$memory/first"
    { cat "$memory/first"; turns "$1" "$2"; } >"$memory/all"
    before=$(seconds "$memory" "$memory/first")
    all=$(seconds "$memory" "$memory/all")
    all_completed
    awk -v n="$cycles" -v a="$before" -v b="$all" 'BEGIN { printf "%.0f", 3 * n / (b - a) }'
}
# compare NAME PROCESS
compare() {
    local low high
    low=$(rate "$2" "$few")
    high=$(rate "$2" "$many")
    awk -v name="$1" -v f="$low" -v m="$high" -v k="$few" -v w="$many" 'BEGIN {
        printf "jobs of %s type: %8d requests a second where %d are open, %8d where %d are, %.2f of it\n", name, f, k, m, w, m / f
    }'
}

{ opening p 0; turns p 0; } >"$memory/lines"
on_disk=$(seconds "$disk" "$memory/lines")
all_completed
in_memory=$(seconds "$memory" "$memory/lines")
all_completed
awk -v n="$cycles" -v d="$on_disk" -v m="$in_memory" -v c="$(nproc)" 'BEGIN {
    printf "%d cycles of create, activate and complete, %d processors\n", n, c
    printf "on the disk:  %8.0f requests a second\n", 3 * n / d
    printf "in memory:    %8.0f requests a second\n", 3 * n / m
    printf "the device has %.0f%% of the time on the disk\n", 100 * (1 - m / d)
}'
compare another q
compare 'the same' p
