#!/usr/bin/env python3
"""Times what operators ask: bench/reads.py [--small] [--write] [FOLDER]

A file with 16 rings of power 14, 5 replicas and 256 devices, two versions of one of them published, and nearly 100,000 numbers. Over the
service: each read, one at a time over one connection, the median of some, beside the rebalance that a preview tells. By the program:
the whole log, and the most memory that it took. FOLDER is where the file lies. --small takes small sizes, --write puts the tables into
docs/speed.md.
"""
import json
import os
import statistics
import subprocess
import sys
import tempfile
import time

from program import rows, tell, timed_run
from common import program
from service import body_of, connect, get, post, read_answer, service

SMALL = "--small" in sys.argv
RINGS, POWER, DEVICES, NUMBERS, TIMES = (2, 6, 24, 1000, 5) if SMALL else (16, 14, 256, 99990, 21)
# What each read is to take at most, in milliseconds, where that was set.
GOALS = {"a ring": "3", "the metrics of all rings": "30"}


def message(number, do, hour=480000, ring="r0", **more):
    return f"{hour} " + json.dumps({"caller": "bench", "number": number, "do": do, "ring": ring, **more}, separators=(",", ":")) + "\n"


def made(room):
    """The file. Its last ring has a device that came later, so a rebalance has something to move."""
    lines, number = [], 0
    for ring in (f"r{at}" for at in range(RINGS)):
        steps = [("create", {"power": POWER, "replicas": 5, "min_hours": 0}), ("import", {"rows": rows(range(DEVICES - 1))}), ("rebalance", {"seed": 1})]
        more = [("publish", {}), ("import", {"rows": rows(range(DEVICES - 1, DEVICES))}), ("rebalance", {"seed": 2}), ("publish", {})]
        less = [("import", {"rows": rows(range(DEVICES - 1, DEVICES))})]
        for do, fields in steps + (more if ring == "r0" else less):
            number += 1
            lines.append(message(number, do, ring=ring, **fields))
    lines += [message(each, "set_hours", ring="none", min_hours=1) for each in range(number + 1, NUMBERS + 1)]
    file = f"{room}/rings.db"
    timed_run("run", "--file", file, given="".join(lines).encode())
    return file


def seconds_of(one, asked):
    """For how long one answer is waited for, and how many bytes it has."""
    begun = time.perf_counter()
    one.sendall(asked)
    status, body, _ = read_answer(one, b"")
    assert status == 200, (asked, status)
    return time.perf_counter() - begun, len(body)


def over_http(file):
    """Each read over one connection after another, so that none has to end meanwhile."""
    last, told = f"r{RINGS - 1}", []
    reads = [("which rings there are", "/v1/rings"), ("the status", "/v1/status"), ("a ring", "/v1/rings/r0"), ("the metrics of all rings", "/v1/metrics"),
             ("a preview", f"/v1/rings/{last}/preview?seed=7"), ("what moved", "/v1/rings/r0/moves?from=2&to=4"),
             ("Swift's file", "/v1/rings/r0/swift/4"), ("100 entries of the log", "/v1/log?from=5000"), ("1000 entries of the log", "/v1/log?from=5000&most=1000"),
             ("the page", "/v1/page")]
    with service(file) as (_, port):
        for what, target in reads:
            taken = []
            for _ in range(TIMES):
                with connect(port) as one:
                    seconds, size = seconds_of(one, get(target))
                    taken.append(seconds)
            told.append([what, f"{statistics.median(taken) * 1000:.2f}", f"{max(taken) * 1000:.2f}", GOALS.get(what, ""), size])
    return told


def a_rebalance(file):
    """The rebalance that the preview told."""
    with service(file) as (_, port), connect(port) as one:
        seconds, size = seconds_of(one, post(body_of(message(1, "rebalance", ring=f"r{RINGS - 1}", seed=7).replace('"bench"', '"later"'))))
        return ["the rebalance that it told", f"{seconds * 1000:.2f}", f"{seconds * 1000:.2f}", "", size]


def the_log(file):
    """The whole log by the program: how long the file takes to open, entries a second from then on, and the most memory."""
    told = []
    for what, words in (("an entry a line", []), ("as lines of run", ["--lines"])):
        begun, opened, size = time.perf_counter(), None, 0
        running = subprocess.Popen([*program(), "log", file, *words], stdout=subprocess.PIPE)
        while more := os.read(running.stdout.fileno(), 1 << 20):
            opened, size = opened or time.perf_counter(), size + len(more)
        _, running.returncode, used = os.wait4(running.pid, 0)
        seconds = time.perf_counter() - opened
        told.append([what, NUMBERS, f"{opened - begun:.2f} s", f"{seconds:.2f} s", f"{NUMBERS / seconds:,.0f}", f"{used.ru_maxrss / 1024:.0f} MB", size])
    return told


def main():
    folder = next((word for word in sys.argv[1:] if not word.startswith("--")), ".")
    with tempfile.TemporaryDirectory(prefix="ringd-bench-", dir=folder) as room:
        file = made(room)
        sizes = f"{RINGS} rings of power {POWER} with 5 replicas and {DEVICES} devices"
        logs = the_log(file)
        told = over_http(file)
        tell(f"What operators ask, {sizes}", "bench/reads.py", ["what is asked over HTTP", "ms, median", "ms, most", "goal", "bytes"], told + [a_rebalance(file)])
        tell("The log by the program", "bench/reads.py", ["`ringd log`", "entries", "until the first is told", "from then on", "entries a second", "most memory", "bytes"], logs)


if __name__ == "__main__":
    main()
