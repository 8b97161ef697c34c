#!/usr/bin/env python3
"""Times how cost grows with the work: bench/growth.py [--small] [--write] [FOLDER]

By the power of a ring, by its devices, by the rings beside it, and by the numbers that are kept. Each figure is the median
over runs of their own. FOLDER is where the store of a file lies (the current one where none is given). --small takes small
sizes, --write puts the tables into docs/speed.md.
"""
import json
import math
import statistics
import subprocess
import sys
import tempfile
import time
from pathlib import Path

from program import ask, message, most_memory, program, rows, start, tell

SMALL = "--small" in sys.argv
FOLDER = next((word for word in sys.argv[1:] if not word.startswith("--")), ".")
ROUNDS = 2 if SMALL else 5
POWERS = (4, 6) if SMALL else (8, 10, 12, 14)
DEVICES = (8, 16) if SMALL else (16, 64, 256)
RINGS = (1, 2) if SMALL else (1, 16)
NUMBERS = (100, 1000) if SMALL else (10_000, 100_000)
STEPS = ("a first rebalance", "one more device", "nothing to do", "a weight")


def steps_of(power, devices):
    """What each step took on a ring, in milliseconds."""
    with start() as running:
        ask(running, message(1, "create", power=power, replicas=5, min_hours=0))
        ask(running, message(2, "import", rows=rows(range(devices - 1))))
        first = ask(running, message(3, "rebalance", seed=1))[1]
        ask(running, message(4, "import", rows=rows(range(devices - 1, devices))))
        more = ask(running, message(5, "rebalance", seed=2))[1]
        nothing = ask(running, message(6, "rebalance", seed=3))[1]
        weights = [ask(running, message(7 + n, "set_weight", id=1, weight=f"{100 + n}.00"))[1] for n in range(20)]
        running.stdin.close()
    return [1000 * seconds for seconds in (first, more, nothing, statistics.median(weights))]


def medians(runs):
    return [statistics.median(run[step] for run in runs) for step in range(len(runs[0]))]


def slope(sizes, times):
    """How often the time doubles where the size does, by the least squares of their logarithms."""
    xs, ys = [math.log(size) for size in sizes], [math.log(max(taken, 1e-9)) for taken in times]
    x, y = statistics.mean(xs), statistics.mean(ys)
    return sum((a - x) * (b - y) for a, b in zip(xs, ys)) / sum((a - x) ** 2 for a in xs)


def by_size(title, word, sizes, measured, counted):
    """A table of the steps by size, and how steep each is in what is counted."""
    table = [[size, *(f"{taken:.2f} ms" for taken in times)] for size, times in zip(sizes, measured)]
    steep = [f"{slope(counted, [times[step] for times in measured]):.2f}" for step in range(len(STEPS))]
    tell(title, "bench/growth.py", [word, *STEPS], [*table, ["slope", *steep]])


def by_power():
    measured = [medians([steps_of(power, DEVICES[-1]) for _ in range(ROUNDS)]) for power in POWERS]
    by_size(f"By the power, {DEVICES[-1]} devices and 5 replicas", "power", POWERS, measured, [2 ** power for power in POWERS])


def by_devices():
    measured = [medians([steps_of(POWERS[-1], devices) for _ in range(ROUNDS)]) for devices in DEVICES]
    by_size(f"By the devices, power {POWERS[-1]} and 5 replicas", "devices", DEVICES, measured, DEVICES)


def many_rings(count, file=None):
    """A run with so many rings, each assigned."""
    running, number = start(file), 0
    for ring in range(count):
        for do, more in (("create", {"power": POWERS[-1], "replicas": 5, "min_hours": 0}),
                         ("import", {"rows": rows(range(DEVICES[-1]))}), ("rebalance", {"seed": 1})):
            number += 1
            body = {"caller": "bench", "number": number, "do": do, "ring": f"ring{ring}", **more}
            answer, _ = ask(running, f"0 {json.dumps(body, separators=(',', ':'))}\n")
            assert answer.startswith("200 "), answer
    return running, number


def by_rings():
    """A weight, and a rebalance that moves nothing, of one ring beside others, in memory and over a file."""
    table = []
    for over in ("memory", "a file"):
        for count in RINGS:
            with tempfile.TemporaryDirectory(dir=FOLDER) as room:
                running, number = many_rings(count, Path(room, "rings.db") if over == "a file" else None)
                weights, rests = [], []
                for n in range(20):
                    for do, more, into in (("set_weight", {"id": 1, "weight": f"{100 + n}.00"}, weights),
                                           ("rebalance", {"seed": 3}, rests)):
                        number += 1
                        body = {"caller": "bench", "number": number, "do": do, "ring": "ring0", **more}
                        taken = ask(running, f"0 {json.dumps(body, separators=(',', ':'))}\n")[1]
                        into.append(1000 * taken)
                running.stdin.close()
                running.wait()
            table.append([over, count, f"{statistics.median(weights):.2f} ms", f"{statistics.median(rests):.2f} ms"])
    tell(f"By the rings beside it, each of power {POWERS[-1]} with 5 replicas", "bench/growth.py",
         ["over", "rings", "a weight", "a rebalance"], table)


def distinct(count):
    """The seconds in which so many numbers are decided in memory, from one file of lines."""
    with tempfile.TemporaryFile() as lines:
        lines.write(message(0, "create", power=4, replicas=1, min_hours=0).encode())
        for number in range(1, count):
            lines.write(message(number, "set_hours", min_hours=number % 100).encode())
        lines.seek(0)
        begun = time.perf_counter()
        subprocess.run([*program(), "run"], stdin=lines, stdout=subprocess.DEVNULL, check=True)
        return time.perf_counter() - begun


def by_numbers():
    """Few and many numbers in turns, as many of them in each turn, since the machine's pace changes."""
    fewer, most = NUMBERS
    rounds = [([distinct(fewer) for _ in range(most // fewer)], distinct(most)) for _ in range(ROUNDS)]
    times = [statistics.median(taken for few, _ in rounds for taken in few), statistics.median(many for _, many in rounds)]
    times_as_long = statistics.median(many / statistics.mean(few) for few, many in rounds)
    table = [[count, f"{taken:.3f} s", f"{1e6 * taken / count:.1f} µs", told]
             for count, taken, told in zip(NUMBERS, times, ("", f"{times_as_long:.1f} times"))]
    tell("Distinct numbers in memory", "bench/growth.py", ["numbers", "all of them", "each", f"of {fewer} in the same minute"], table)


def memory():
    """What a full service holds: the most rings, each of the greatest size, and the most numbers."""
    running, number = many_rings(RINGS[-1])
    while number < NUMBERS[-1]:
        lines = "".join(message(n, "publish") for n in range(number + 1, min(number + 500, NUMBERS[-1]) + 1))
        running.stdin.write(lines.encode())
        running.stdin.flush()
        for _ in range(lines.count("\n")):
            running.stdout.readline()
        number += lines.count("\n")
    held = most_memory(running)
    running.stdin.close()
    tell("Memory", "bench/growth.py", ["what", "most memory"],
         [[f"{RINGS[-1]} rings of power {POWERS[-1]} with 5 replicas and {DEVICES[-1]} devices, {number} numbers", f"{held:.0f} MB"]])


if __name__ == "__main__":
    by_power()
    by_devices()
    by_rings()
    by_numbers()
    memory()
