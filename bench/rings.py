#!/usr/bin/env python3
"""Times rebalances and tables of a ring in memory: bench/rings.py [--small] [--write] [FOLDER]

Each figure is the median over runs of their own, from the line's last byte written to the answer's last byte read. Where
Debian's python3-swift is installed, Swift's own builder does the same in turns with it. FOLDER is not used. --small takes
small sizes, --write puts the tables into docs/speed.md.
"""
import json
import statistics
import subprocess
import sys
import time
from pathlib import Path

from program import ask, ask_balance, message, rows, start, tell

SMALL = "--small" in sys.argv
ROUNDS = 2 if SMALL else 7
POWER, REPLICAS, DEVICES = (8, 3, 32) if SMALL else (14, 5, 256)
SWIFT = "/usr/bin/python3"
COMPARED = ("a first rebalance", "one more device", "nothing to do")


def ask_table(running, rows_told):
    """The seconds until the device table, a row for each device and its titles, was read."""
    running.stdin.write(b"? devices object\n")
    begun = time.perf_counter()
    running.stdin.flush()
    for _ in range(rows_told + 1):
        running.stdout.readline()
    return time.perf_counter() - begun


def one_run():
    """What each step took, in seconds."""
    took = {}
    with start() as running:
        ask(running, message(1, "create", power=POWER, replicas=REPLICAS, min_hours=0))
        ask(running, message(2, "import", rows=rows(range(DEVICES - 1))))
        took["a first rebalance"] = ask(running, message(3, "rebalance", seed=1))[1]
        ask(running, message(4, "import", rows=rows(range(DEVICES - 1, DEVICES))))
        took["one more device"] = ask(running, message(5, "rebalance", seed=2))[1]
        took["nothing to do"] = ask(running, message(6, "rebalance", seed=3))[1]
        ask_table(running, DEVICES)
        took[f"device table of {DEVICES}"] = ask_table(running, DEVICES)
        ask_balance(running)
        took["balance table"] = ask_balance(running)[1]
        for count, id in enumerate((DEVICES // 2, DEVICES // 3, DEVICES // 5)):
            ask(running, message(10 + 2 * count, "remove", id=id))
            took[f"device {count + 1} gone"] = ask(running, message(11 + 2 * count, "rebalance", seed=4))[1]
        took["a repeat"] = ask(running, message(3, "rebalance", seed=1))[1]
        running.stdin.close()
    return took


def has_swift():
    """Whether Swift's code is there."""
    return subprocess.run([SWIFT, "-c", "import swift.common.ring"], capture_output=True).returncode == 0


def swift_run():
    """What the first three steps took Swift's builder, in seconds."""
    script = Path(__file__).parent / "swift_builder.py"
    given = json.dumps(rows(range(DEVICES)))
    done = subprocess.run([SWIFT, script, str(POWER), str(REPLICAS)], input=given, text=True, capture_output=True, check=True)
    return dict(zip(COMPARED, json.loads(done.stdout)))


def compare(pairs):
    """Swift's builder beside ours, run by run."""
    told = []
    for step in COMPARED:
        ours, theirs = ([1000 * run[step] for run in side] for side in zip(*pairs))
        times = statistics.median(slow / fast for fast, slow in zip(ours, theirs))
        told.append([step, f"{statistics.median(ours):.2f} ms", f"{statistics.median(theirs):.0f} ms", f"{times:.0f} times"])
    tell("The same ring by Swift's own builder", "bench/rings.py", ["step", "ringd, with both figures", "Swift 2.30, with its balance", "as long"], told)


def main():
    runs, pairs = [], []
    with_swift = has_swift()
    for _ in range(ROUNDS):
        runs.append(one_run())
        if with_swift:
            pairs.append((runs[-1], swift_run()))
    told = []
    for step in runs[0]:
        found = sorted(1000 * run[step] for run in runs)
        told.append([step, f"{statistics.median(found):.2f} ms", f"{found[0]:.2f} to {found[-1]:.2f} ms"])
    tell(f"A ring of power {POWER} with {REPLICAS} replicas and {DEVICES} devices, in memory", "bench/rings.py",
         ["step", "until the answer", "varied"], told)
    if pairs:
        compare(pairs)


if __name__ == "__main__":
    main()
