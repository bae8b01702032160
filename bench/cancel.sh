#!/usr/bin/env bash
# Measures what it costs to call off the oldest of instances that wait: a cancel, a terminate end event in it, and an
# error whose boundary event interrupts it, with few instances open and with many; prints the median of blocks of 100
# such lines, in microseconds a line, and what part of the one the other is. It is no test. ZBD in the environment names
# another server, TMPDIR where the logs stand.
# usage: bench/cancel.sh [MANY] [ROUNDS]
set -eu
top=$(cd "$(dirname "$0")/.." && pwd)
[ -n "${ZBD:-}" ] || "$top/zbd" >/dev/null 2>&1 </dev/null || true
exec python3 - "${ZBD:-$top/crates/zbd/out/zbd}" "$@" <<'EOF'
import json, os, statistics, subprocess, sys, tempfile, time

FEW, BLOCK = 500, 100
MANY, ROUNDS = int((sys.argv[2:] or [50_000])[0]), int((sys.argv[3:] or [20])[0])


def model(*nodes_and_flows):
    nodes, flows = nodes_and_flows
    return {
        "process": "p",
        "nodes": [{"id": id, "kind": kind, **more} for id, kind, more in nodes],
        "flows": [{"id": f"{a}-{b}", "sourceRef": a, "targetRef": b} for a, b in flows],
    }


PAY = {"type": "pay"}
PLAIN = model([("s", "startEvent", {}), ("w", "serviceTask", PAY), ("e", "endEvent", {})], [("s", "w"), ("w", "e")])
ENDED = model(
    [("s", "startEvent", {}), ("g", "parallelGateway", {}), ("w", "serviceTask", PAY), ("v", "serviceTask", {"type": "mail"}),
     ("x", "endEvent", {"terminateEventDefinition": {}}), ("e", "endEvent", {})],
    [("s", "g"), ("g", "w"), ("g", "v"), ("w", "x"), ("v", "e")])
CAUGHT = model(
    [("s", "startEvent", {}), ("w", "serviceTask", PAY), ("b", "boundaryEvent", {"attachedToRef": "w", "errorEventDefinition": {"errorCode": "no"}}),
     ("e", "endEvent", {}), ("f", "endEvent", {})],
    [("s", "w"), ("w", "e"), ("b", "f")])


def seconds_of(server, requests):
    """How long it takes until the replies to these requests are there, and the replies."""
    began = time.perf_counter()
    server.stdin.write("".join(json.dumps(it) + "\n" for it in requests).encode())
    server.stdin.flush()
    lines = [server.stdout.readline() for _ in requests]
    took = time.perf_counter() - began
    replies = [json.loads(it) for it in lines]
    if not all("ok" in it for it in replies):
        sys.exit(f"bench: not every line was done: {[it for it in replies if 'ok' not in it][:1]}")
    return took, [it["ok"] for it in replies]


def measure(the_model, line_for, waiting):
    with tempfile.TemporaryDirectory() as place:
        server = subprocess.Popen([sys.argv[1], "serve", "--clock", "manual"], cwd=place, stdin=subprocess.PIPE, stdout=subprocess.PIPE)
        seconds_of(server, [{"op": "deploy", "model": the_model}])
        instances, times = [], []
        for first in range(0, waiting, FEW):
            instances += seconds_of(server, [{"op": "create", "process": "p"}] * min(FEW, waiting - first))[1]
        for _ in range(ROUNDS):
            instances += seconds_of(server, [{"op": "create", "process": "p"}] * BLOCK)[1]
            lines = line_for(server, instances[:BLOCK])
            del instances[:BLOCK]
            times.append(seconds_of(server, lines)[0] * 1e6 / BLOCK)
        server.stdin.close()
        server.wait()
    return statistics.median(times)


def cancels(server, oldest):
    return [{"op": "cancel", "key": it["instance"]} for it in oldest]


def jobs(server, oldest):
    taken = seconds_of(server, [{"op": "activate", "type": "pay", "worker": "w", "timeout": 604800000, "max": BLOCK}])[1]
    return [it["job"] for it in taken[0]["jobs"]]


def completes(server, oldest):
    return [{"op": "complete", "key": it} for it in jobs(server, oldest)]


def throws(server, oldest):
    return [{"op": "throw", "key": it, "code": "no"} for it in jobs(server, oldest)]


for name, the_model, line_for in (("cancel", PLAIN, cancels), ("terminate end event", ENDED, completes), ("error at the boundary", CAUGHT, throws)):
    few, many = measure(the_model, line_for, FEW), measure(the_model, line_for, MANY)
    print(f"{name:22} {few:8.1f} microseconds with {FEW} open, {many:8.1f} with {MANY}, {many / few:5.2f} times as long")
EOF
