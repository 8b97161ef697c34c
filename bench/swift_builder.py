#!/usr/bin/python3
"""Times Swift's own builder on the ring of bench/rings.py: bench/swift_builder.py POWER REPLICAS

It reads the rows of the devices as JSON on standard input and prints three numbers, in seconds: a first rebalance of a ring of all
but the last device, one more device, and a rebalance with nothing to do. It runs under Debian's Python, /usr/bin/python3, where
python3-swift is installed, and uses no code of ringd.
"""
import json
import sys
import time

from swift.common.ring import RingBuilder


def device(row):
    """A row of ringd as a device of Swift's."""
    region, zone, address, port, name, weight = row
    return {"region": region, "zone": zone, "ip": address, "port": port, "device": name, "weight": float(weight),
            "replication_ip": address, "replication_port": port, "meta": ""}


def timed(builder, seed):
    """The seconds of a rebalance, with the figures that Swift's command tells of it."""
    begun = time.perf_counter()
    builder.rebalance(seed=seed)
    builder.get_balance()
    return time.perf_counter() - begun


def main():
    power, replicas = map(int, sys.argv[1:])
    rows = json.load(sys.stdin)
    builder = RingBuilder(power, replicas, 0)
    for row in rows[:-1]:
        builder.add_dev(device(row))
    first = timed(builder, 1)
    builder.add_dev(device(rows[-1]))
    more = timed(builder, 2)
    print(json.dumps([first, more, timed(builder, 3)]))


if __name__ == "__main__":
    main()
