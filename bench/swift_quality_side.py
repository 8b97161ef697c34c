#!/usr/bin/python3
"""Rebalances rings by Swift's own builder for bench/quality.py: bench/swift_quality_side.py

It reads one object of JSON on standard input: `power`, `replicas`, `seeds`, the devices of the `first` step, the
`events`, each a list of steps, and `is_saved`. A step is the list of all devices as they are to be then
(bench/clusters.py), and `seeds` are those of its rebalances. A step is rebalanced until nothing changes or the seeds
are used up; with `is_saved` until Swift's command would refuse to save it. It prints a line of JSON for each step, the
first one first: for each rebalance that changed something the seats that it left, as rows by partition. Each event
begins with the ring of the first step.

It runs under Debian's Python, /usr/bin/python3, where python3-swift is installed, and uses no code of ringd. Partitions
may be moved again at once (0 hours), and devices take no more than their weight says (overload 0).
"""
import copy
import json
import logging
import sys

from swift.common.ring import RingBuilder
from swift.common.ring.builder import MAX_BALANCE

NUMBER, REGION, ZONE, SERVER, WEIGHT, IS_REMOVED = range(6)


def device_of(given):
    """A device as Swift takes it. Its name is the number that is used here: Swift gives free numbers again."""
    return {"region": given[REGION], "zone": given[ZONE], "ip": given[SERVER], "port": 6200, "replication_port": 6200,
            "device": str(given[NUMBER]), "replication_ip": given[SERVER], "meta": "", "weight": given[WEIGHT] / 100}


def change(builder, devices):
    """Brings the builder to these devices."""
    there = {int(device["device"]): device for device in builder.devs if device}
    for given in devices:
        held = there.get(given[NUMBER])
        if held is None:
            builder.add_dev(device_of(given))
        elif given[IS_REMOVED]:
            builder.remove_dev(held["id"])
        elif held["weight"] != given[WEIGHT] / 100:
            builder.set_dev_weight(held["id"], given[WEIGHT] / 100)


def seats_of(builder):
    """The seats as rows by partition, with the numbers that are used here."""
    numbers = {device["id"]: int(device["device"]) for device in builder.devs if device}
    return [[numbers[id] for id in row] for row in zip(*builder._replica2part2dev)]


def figures(builder):
    """What Swift's command compares: whether devices changed, the balance and the dispersion."""
    return builder.devs_changed, builder.get_balance() if builder._replica2part2dev else 0, builder.dispersion


def is_worth(count, before, after):
    """Whether swift-ring-builder would save a rebalance: by its own rule for the command `rebalance`."""
    (devices_changed, balance, dispersion), (_, new_balance, new_dispersion) = before, after
    is_stuck = balance == new_balance == MAX_BALANCE
    differs = abs(balance - new_balance) >= 1 or is_stuck or abs(dispersion - new_dispersion) >= 1
    return count > 0 and (devices_changed or differs)


def settle(builder, devices, seeds, is_saved):
    """The builder after a step, and the seats after each rebalance that changed something."""
    change(builder, devices)
    rounds = []
    for seed in seeds:
        before, kept = figures(builder), copy.deepcopy(builder.to_dict()) if is_saved else None
        count, _, gone = builder.rebalance(seed=seed)
        if is_saved and not gone and not is_worth(count, before, figures(builder)):
            return RingBuilder.from_dict(kept), rounds
        if not count:
            break
        rounds.append(seats_of(builder))
    return builder, rounds


def tell(rounds):
    print(json.dumps(rounds, separators=(",", ":")), flush=True)


def main():
    logging.disable(logging.CRITICAL)
    asked = json.load(sys.stdin)
    by = asked["seeds"], asked["is_saved"]
    first, rounds = settle(RingBuilder(asked["power"], asked["replicas"], 0), asked["first"], *by)
    tell(rounds)
    for steps in asked["events"]:
        builder = RingBuilder.from_dict(copy.deepcopy(first.to_dict()))
        for devices in steps:
            builder, rounds = settle(builder, devices, *by)
            tell(rounds)


if __name__ == "__main__":
    main()
