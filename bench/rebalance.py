#!/usr/bin/env python3
"""Times rebalances through the built program: bench/rebalance.py [POWER [REPLICAS [DEVICES]]]

For each way in which devices may stand a ring is assigned, takes one more device and is rebalanced, is rebalanced again
with nothing to do, has a third of its devices drained, and gets other weights; last it is published, and shown with its
figures. Each line tells what was asked, how long the answer took, and the answer.
"""
import sys

from program import ask, ask_balance, message, start

SHAPES = {
    "three regions": lambda place: (place % 3, place // 24, place // 4),
    "a region for each device": lambda place: (place, 1, place),
    "one region of three zones": lambda place: (1, place % 3, place // 4),
    "one zone of 64 servers": lambda place: (1, 1, place // 4),
    "one server": lambda place: (1, 1, 0),
}


def row(shape, place, weight="100.00"):
    region, zone, server = shape(place)
    return [region, zone, f"10.0.{server // 250}.{1 + server % 250}", 6200, f"disk{place}", weight]


def rows(shape, places, weight=lambda place: "100.00"):
    return [row(shape, place, weight(place)) for place in places]


def steps(shape, power, replicas, devices):
    others = rows(shape, range(devices), lambda place: f"{50 + 2 * place}.00")
    return [
        ("create", message(1, "create", power=power, replicas=replicas, min_hours=1)),
        ("import", message(2, "import", rows=rows(shape, range(devices - 1)))),
        ("assign", message(3, "rebalance", seed=1)),
        ("one more device", message(4, "import", hour=1, rows=[row(shape, devices - 1)])),
        ("rebalance", message(5, "rebalance", hour=1, seed=2)),
        ("nothing to do", message(6, "rebalance", hour=2, seed=3)),
        ("drain a third", message(7, "import", hour=3, rows=rows(shape, range(devices // 3), lambda place: "0.00"))),
        ("rebalance", message(8, "rebalance", hour=3, seed=4)),
        ("other weights", message(9, "import", hour=5, rows=others)),
        ("rebalance", message(10, "rebalance", hour=5, seed=5)),
        ("publish", message(11, "publish", hour=5)),
        ("repeat", message(10, "rebalance", hour=6, seed=5)),
    ]


def main():
    words = [int(word) for word in sys.argv[1:]]
    power, replicas, devices = words + [14, 5, 256][len(words):]
    for name, shape in SHAPES.items():
        print(f"power {power}, {replicas} replicas, {devices} devices: {name}")
        with start() as program:
            for what, line in steps(shape, power, replicas, devices):
                answer, seconds = ask(program, line)
                print(f"{what:>16} {1000 * seconds:>9.2f} ms  {answer}")
            figures, seconds = ask_balance(program)
            print(f"{'? balance':>16} {1000 * seconds:>9.2f} ms  {figures}")
            program.stdin.close()


if __name__ == "__main__":
    main()
