#!/usr/bin/python3
"""What checks/swift.py asks Swift's own code: checks/swift_side.py WHAT, in a folder of its own

WHAT is `ring`, `seats`, `builder` or `list`. What is asked comes as JSON on standard input, and so does the answer on standard output.
It runs under Debian's Python, /usr/bin/python3, where python3-swift is installed, and uses no code of ringd.
"""
import contextlib
import io
import json
import sys
import zlib

from swift.cli import ringbuilder
from swift.common import utils
from swift.common.ring import Ring, RingBuilder
from swift.common.ring.ring import RingData


def told(device):
    """What is compared of a device."""
    keys = ("id", "region", "zone", "ip", "port", "device", "weight", "meta", "replication_ip", "replication_port")
    return [device[key] for key in keys]


def ring(asked):
    """What Swift finds in a compressed ring file: its figures, its devices, and the nodes of paths."""
    utils.HASH_PATH_PREFIX, utils.HASH_PATH_SUFFIX = asked["prefix"].encode(), asked["suffix"].encode()
    loaded = Ring(asked["file"])
    with open(asked["file"], "rb") as file:
        plain = zlib.decompress(file.read(), 32 + zlib.MAX_WBITS)
    anew = io.BytesIO()
    with open(asked["file"] + ".anew", "w+b") as anew:
        RingData.load(asked["file"]).serialize_v1(anew)
        anew.seek(0)
        is_same = anew.read() == plain
    nodes = []
    for path in asked["paths"]:
        partition, found = loaded.get_nodes(*path)
        nodes.append([partition, [node["id"] for node in found]])
    return {
        "partitions": loaded.partition_count,
        "replicas": loaded.replica_count,
        "version": loaded.version,
        "devices": [device and told(device) for device in loaded.devs],
        "is_same": is_same,
        "nodes": nodes,
    }


def seats(asked):
    """For each partition the devices of its replicas in a compressed ring file, each with all that is compared of it."""
    utils.HASH_PATH_SUFFIX = b"no path is asked for"
    loaded = Ring(asked["file"])
    words = [device and told(device) for device in loaded.devs]
    return [[words[node["id"]] for node in loaded.get_part_nodes(partition)] for partition in range(loaded.partition_count)]


def builder(asked):
    """Makes a builder file by Swift's own builder, and beside it a ring file where one is asked for."""
    made = RingBuilder(asked["power"], asked["replicas"], asked["hours"])
    for device in asked["devices"]:
        made.add_dev(dict(device))
    if asked["is_rebalanced"]:
        made.rebalance(seed=1)
    for id in asked["removed"]:
        made.remove_dev(id)
    if asked["removed"]:
        made.pretend_min_part_hours_passed()
        made.rebalance(seed=2)
    for id in asked.get("drained", []):
        made.set_dev_weight(id, 0.0)
        made.pretend_min_part_hours_passed()
        made.rebalance(seed=3)
    for id in asked["marked"]:
        made.remove_dev(id)
    if asked.get("is_doubled"):
        made._replica2part2dev[0][0] = made._replica2part2dev[1][0]
    if asked.get("is_pretended"):
        made.pretend_min_part_hours_passed()
    made.set_overload(asked["overload"])
    made.save(asked["file"])
    if "ring" in asked:
        made.get_ring().save(asked["ring"])
    return None


def listed(asked):
    """What `swift-ring-builder FILE` prints."""
    printed = io.StringIO()
    with contextlib.redirect_stdout(printed), contextlib.suppress(SystemExit):
        ringbuilder.main(["swift-ring-builder", asked["file"]])
    return printed.getvalue()


if __name__ == "__main__":
    what = {"ring": ring, "seats": seats, "builder": builder, "list": listed}[sys.argv[1]]
    answer = what(json.load(sys.stdin))
    json.dump(answer, sys.stdout)
