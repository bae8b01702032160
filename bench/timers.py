#!/usr/bin/env python3
"""Measures what a tick costs that fires ten timers, and what opening ten does, with few timers open and with many.

It prints a median of each in milliseconds, of rounds in which ten instances start, a second passes and a tick comes.
It is no test. ZBD in the environment names another server, TMPDIR where the logs stand.
"""
import json
import os
import pathlib
import statistics
import subprocess
import tempfile
import time

FEW, MANY, ROUNDS, FIRED = 500, 50_000, 60, 10

MODEL = {
    "process": "p",
    "nodes": [
        {"id": "s", "kind": "startEvent"},
        {"id": "c", "kind": "intermediateCatchEvent", "timerEventDefinition": {"timeDuration": "=d"}},
        {"id": "e", "kind": "endEvent"},
    ],
    "flows": [
        {"id": "in", "sourceRef": "s", "targetRef": "c"},
        {"id": "out", "sourceRef": "c", "targetRef": "e"},
    ],
}


def creating(duration, count):
    return [{"op": "create", "process": "p", "variables": {"d": duration}}] * count


def seconds_of(server, requests):
    """How long it takes until the replies to these requests are there."""
    began = time.perf_counter()
    server.stdin.write("".join(json.dumps(request) + "\n" for request in requests).encode())
    server.stdin.flush()
    for _ in requests:
        server.stdout.readline()
    return time.perf_counter() - began


def measure(program, waiting):
    with tempfile.TemporaryDirectory() as place:
        server = subprocess.Popen(
            [program, "serve", "--clock", "manual"], cwd=place, stdin=subprocess.PIPE, stdout=subprocess.PIPE
        )
        seconds_of(server, [{"op": "deploy", "model": MODEL}])
        for first in range(0, waiting, FEW):
            seconds_of(server, creating("P1000D", min(FEW, waiting - first)))
        opened, fired = [], []
        for _ in range(ROUNDS):
            opened.append(seconds_of(server, creating("PT1S", FIRED)))
            seconds_of(server, [{"op": "advance", "ms": 1000}])
            fired.append(seconds_of(server, [{"op": "tick"}]))
        server.stdin.close()
        server.wait()
    return statistics.median(opened) * 1000, statistics.median(fired) * 1000


top = pathlib.Path(__file__).resolve().parent.parent
program = os.environ.get("ZBD") or str(top / "crates/zbd/out/zbd")
for waiting in (FEW, MANY):
    opened, fired = measure(program, waiting)
    print(f"{waiting} timers open: {FIRED} more are opened in {opened:.2f} ms, and fired by a tick in {fired:.2f} ms")
