#!/usr/bin/env python3
"""Swift's own code over what ringd writes: checks/swift.py

Rings of ringd, with numbers that are gone and a device that is marked, are exported as ring files of Swift. Swift's `Ring`
loads them, and the nodes of 10,000 random paths in each are compared with those of ringd. A builder file of Swift is turned
into requests by tools/from_swift.py, and the devices of both sides are compared. Twelve builders of Swift's, which have seats,
come in by `ringd found`: nothing may move by it, and the next rebalance moves one replica of a partition at most. It takes
about a minute.

It needs Debian's python3-swift beside the program; where that is missing all of it is skipped, with status 0.
"""
import gzip
import hashlib
import json
import random
import re
import subprocess
import sys
import time
from pathlib import Path

import common
from common import TOP, Checks, lines, message, run, scratch

# Isolated, since this file has the name of the module that it needs.
PYTHON = ["/usr/bin/python3", "-I"]
SIDE = TOP / "checks" / "swift_side.py"
FROM_SWIFT = TOP / "tools" / "from_swift.py"
PATHS = 10000
LETTERS = "abcdefghijklmnopqrstuvwxyzABCDEFGHIJKLMNOPQRSTUVWXYZ0123456789-_.~ äßŁжあ%+"


def has_swift():
    """Whether Swift's code is there."""
    try:
        return not subprocess.run([*PYTHON, "-c", "import swift.common.ring"], capture_output=True).returncode
    except OSError:
        return False


def side(what, room, **asked):
    """What Swift's own code answers."""
    words = [*PYTHON, str(SIDE), what]
    done = subprocess.run(words, input=json.dumps(asked).encode(), capture_output=True, timeout=60, cwd=room)
    if done.returncode:
        raise ValueError(done.stderr.decode(errors="replace")[-1500:])
    return json.loads(done.stdout)


WEIGHTS = ["100.00", "50.00", "12.25", "100.00", "33.10", "100.00", "0.75", "80.00", "99.99", "120.50"]


def rows(count):
    """The rows of devices in two regions and five zones."""
    return [[1 + place % 2, place % 5, f"10.0.{place}.1", 6200 + place, f"sd{place}", WEIGHTS[place]] for place in range(count)]


def make_ring(file, power, replicas):
    """A ring with numbers that are gone, the last one too, and a marked device; answers the version that is published."""
    deliveries = [
        message(1, "create", power=power, replicas=replicas, min_hours=0),
        message(2, "import", rows=rows(10)),
        message(3, "rebalance", seed=power),
        message(4, "remove", id=0),
        message(5, "remove", id=4),
        message(6, "remove", id=9),
        message(7, "rebalance", seed=replicas),
        message(8, "remove", id=5),
        message(9, "publish"),
    ]
    status, told, errors = run("run", "--file", file, given=lines(*((place, text) for place, text in enumerate(deliveries))))
    replies = told.decode().splitlines()
    if status or len(replies) != len(deliveries) or any(not reply.startswith("200 ") for reply in replies):
        raise ValueError((status, told, errors))
    return json.loads(replies[-1][4:])["version"]


def random_text(draw, most):
    return "".join(draw.choice(LETTERS) for _ in range(draw.randint(1, most)))


def random_path(draw):
    """An account, perhaps with a container, perhaps with an object in that."""
    path = [random_text(draw, 20), random_text(draw, 20), random_text(draw, 40) + draw.choice(["", "/", "/x"])]
    return path[:draw.choice([1, 2, 3, 3, 3, 3])]


class Published:
    """A published text of ringd, read here anew."""

    def __init__(self, text):
        held = text.decode().splitlines()
        told = dict(line.split(" ", 1) for line in held[1:6])
        self.power, self.replicas, self.version = int(told["power"]), int(told["replicas"]), int(told["version"])
        count = int(told["devices"])
        self.devices = [line.split(" ") for line in held[6:6 + count]]
        self.seats = [[int(id) for id in line.split(" ")] for line in held[7 + count:-1]]

    def nodes(self, path, prefix, suffix):
        """The partition of a path, and its devices by replica."""
        hashed = hashlib.md5((prefix + "/" + "/".join(path) + suffix).encode()).digest()
        partition = int.from_bytes(hashed[:4], "big") >> (32 - self.power)
        return [partition, self.seats[partition]]

    def as_swift(self):
        """The devices by their numbers, as Swift has them."""
        found = {}
        for id, region, zone, address, port, weight, _, name in self.devices:
            found[int(id)] = [int(id), int(region), int(zone), address, int(port), name, float(weight), "", address, int(port)]
        return [found.get(id) for id in range(max(found) + 1)]


def one_ring(checks, room, power, replicas, asked_of_ringd):
    """One ring, and its nodes on both sides."""
    file, name = f"{room}/p{power}r{replicas}.db", f"power {power}, {replicas} replicas"
    version = make_ring(file, power, replicas)
    published = Published(run("export", file, "object", version, "--format", "text")[1])
    checks.show(f"{name}: the ring has a marked device and numbers that are gone",
                any(device[6] == "removed" for device in published.devices) and None in published.as_swift())
    status, raw, errors = run("export", file, "object", version, "--format", "swift")
    if not checks.show(f"{name}: the ring file is written", status == 0 and not errors, (status, errors)):
        return
    packed = f"{room}/p{power}r{replicas}.ring.gz"
    Path(packed).write_bytes(gzip.compress(raw, mtime=0))
    draw = random.Random(power * 10 + replicas)
    prefix, suffix = random_text(draw, 8), random_text(draw, 8)
    paths = [random_path(draw) for _ in range(PATHS)]
    seen = side("ring", room, file=packed, prefix=prefix, suffix=suffix, paths=paths)
    figures = [seen["partitions"], seen["replicas"], seen["version"]]
    checks.same(f"{name}: partitions, replicas and version", figures, [2**power, replicas, version])
    checks.same(f"{name}: devices by their numbers", seen["devices"], published.as_swift())
    checks.show(f"{name}: Swift itself writes the same bytes of this ring", seen["is_same"])
    wrong = [path for path, nodes in zip(paths, seen["nodes"]) if nodes != published.nodes(path, prefix, suffix)]
    checks.show(f"{name}: {PATHS} paths have the same nodes", not wrong and len(seen["nodes"]) == PATHS, (len(wrong), wrong[:3]))
    wrong = []
    for path, nodes in list(zip(paths, seen["nodes"]))[:asked_of_ringd]:
        names = [f"--{part}={name}" for part, name in zip(("container", "object"), path[1:])]
        # behind `--` a name may begin with a dash
        done = run("nodes", f"--prefix={prefix}", f"--suffix={suffix}", *names, "--", file, "object", path[0])
        told = json.loads(done[1]) if done[0] == 0 else None
        if told is None or [told["partition"], [node["id"] for node in told["nodes"]]] != nodes:
            wrong.append((path, done))
    checks.show(f"{name}: {asked_of_ringd} of them by `ringd nodes`", not wrong, (len(wrong), wrong[:2]))


def rings(checks):
    """Swift finds the nodes of ringd in its files."""
    with scratch() as room:
        for power, asked_of_ringd in ((1, 40), (8, 40), (14, 5)):
            for replicas in (1, 3, 5):
                one_ring(checks, room, power, replicas, asked_of_ringd)


def refusals(checks):
    """What is not exported."""
    with scratch() as room:
        file = f"{room}/rings.db"
        version = make_ring(file, 1, 1)
        for words, want in (
            (["object", version + 1, "--format", "swift"], common.fault("NoVersion", 32)),
            (["other", version, "--format", "swift"], common.fault("NoRing", 1)),
            (["object", "01", "--format", "swift"], common.fault("Unreadable", 20)),
        ):
            checks.same(f"export {' '.join(map(str, words))}", run("export", file, *words), want)
        checks.same("export in a format that is none", run("export", file, "object", version, "--format", "pickle")[:2], (2, b""))
        text = run("export", file, "object", version)
        checks.same("a text is exported where no format is named", text, run("export", file, "object", version, "--format", "text"))


def swift_devices(count):
    """Devices as Swift's builder takes them."""
    return [
        {"region": region, "zone": zone, "ip": address, "port": port, "device": name, "weight": float(weight), "meta": "",
         "replication_ip": address, "replication_port": port}
        for region, zone, address, port, name, weight in rows(count)
    ]


def convert(builder, *words):
    """What tools/from_swift.py makes of a builder file."""
    done = subprocess.run([*PYTHON, str(FROM_SWIFT), builder, *words], capture_output=True, timeout=60)
    return done.returncode, done.stdout, done.stderr.decode()


def listed_by_swift(text):
    """The devices that swift-ring-builder lists, without those that are marked."""
    found = []
    for line in text.splitlines():
        device = re.match(r" *(\d+) +(\d+) +(\d+) +([\d.]+):(\d+) +\S+ +(\S+) +([\d.]+) +\d+ +(-?[\d.]+) *(DEL)?", line)
        if device and not device[9]:
            found.append((*(int(device[place]) for place in (2, 3)), device[4], int(device[5]), device[6], float(device[7])))
    return sorted(found)


def listed_by_ringd(text):
    """The devices that `ringd table` lists."""
    found = []
    for line in text.decode().splitlines()[1:]:
        words = line.split()
        if len(words) != 8:
            break
        found.append((int(words[1]), int(words[2]), words[3], int(words[4]), words[7], float(words[5])))
    return sorted(found)


def conversion(checks):
    """A builder file becomes requests, and both sides list the same devices."""
    with scratch() as room:
        builder, file = f"{room}/object.builder", f"{room}/rings.db"
        side("builder", room, file=builder, power=8, replicas=3.0, hours=24, devices=swift_devices(10), is_rebalanced=True,
             removed=[0, 4], marked=[7], overload=0.1)
        status, made, told = convert(builder, "object", "moved", "--hour", "7")
        checks.show("a builder file is turned into two lines", status == 0 and made.count(b"\n") == 2, (status, made, told))
        for what in ("overload", "device 7, which is marked", "the number of device 1", "the first rebalance places everything anew"):
            checks.show(f"it tells that this is left out: {what}", what in told, told)
        checks.same("ringd takes both", run("run", "--file", file, given=made)[1].count(b"200 "), 2)
        ours = listed_by_ringd(run("table", file, "object")[1])
        theirs = listed_by_swift(side("list", room, file=builder))
        checks.show("7 devices are listed", len(ours) == 7, ours)
        checks.same("swift-ring-builder and ringd list the same devices", ours, theirs)


def unfit():
    """Builders that ringd cannot keep: what is changed of a good one, what is told of it, and whether that counts with --text alone."""
    first, second = swift_devices(2)
    yield "replicas that are not whole", {"replicas": 2.5, "devices": cluster(8, 1, 1)}, "set_replicas", False
    yield "six replicas", {"replicas": 6, "devices": cluster(8, 1, 1)}, "set_replicas", False
    yield "a power of 15", {"power": 15, "is_rebalanced": False}, "only a new ring helps", False
    yield "a weight of three decimals", {"devices": [{**first, "weight": 1.125}, second]}, "set_weight", False
    yield "a weight over 1000000", {"devices": [{**first, "weight": 1000000.01}, second]}, "0.00 to 1000000.00", False
    yield "an address of IPv6", {"devices": [{**first, "ip": "fe80::1"}, second]}, "set_info", False
    yield "a name as an address", {"devices": [{**first, "ip": "node1.example.org"}, second]}, "set_info", False
    same = {key: first[key] for key in ("ip", "port", "device", "replication_ip", "replication_port")}
    yield "two devices at one place", {"devices": [first, {**second, **same}]}, "set_info", False
    yield "a zone of over 16 bits", {"devices": [{**first, "zone": 65536}, second]}, "0 to 65535", False
    yield "257 devices", {"devices": cluster(257, 1, 1)}, "a ring of its own", False
    yield "seats that were never given", {"is_rebalanced": False}, "rebalance", True
    yield "two replicas of a partition on one device", {"is_doubled": True}, "rebalance", True
    yield "a replication address of its own", {"devices": [{**first, "replication_ip": "10.1.0.1"}, second]}, "set_info d0 R10.0.0.1:6200", True


def no_conversion(checks):
    """Builders that ringd cannot keep are refused whole, in one line that says what may be done."""
    good = {"power": 3, "replicas": 2, "hours": 1, "devices": swift_devices(2), "is_rebalanced": True, "removed": [], "marked": [],
            "overload": 0}
    with scratch() as room:
        side("builder", room, file=f"{room}/good.builder", **good)
        for words, count in (("moved",), 2), (("--text",), 18):
            status, made, told = convert(f"{room}/good.builder", "object", *words)
            checks.show(f"nothing bad: taken, by {words[0]}", status == 0 and made.count(b"\n") == count, (status, made, told))
        for what, change, way, is_of_text in unfit():
            side("builder", room, file=f"{room}/bad.builder", **{**good, **change})
            for words in [["--text"]] if is_of_text else [["--text"], ["moved"]]:
                status, made, told = convert(f"{room}/bad.builder", "object", *words)
                checks.show(f"{what}: refused, by {told.strip()}", status == 1 and not made and told.count("\n") == 1 and way in told,
                            (status, made, told))
        checks.same("a file that is none", convert(f"{room}/none", "object", "moved")[:2], (1, b""))
        checks.same("a name that is none", convert(f"{room}/good.builder", "Object", "--text")[:2], (1, b""))
        checks.same("an hour with --text", convert(f"{room}/good.builder", "object", "--text", "--hour", "7")[:2], (2, b""))


def unknown_hours(checks):
    """A builder that does not tell when its seats moved: none counts as free before its hours have passed from now on."""
    asked = {"power": 3, "replicas": 2, "hours": 24, "devices": swift_devices(2), "is_rebalanced": True, "removed": [], "marked": [],
             "overload": 0}
    with scratch() as room:
        side("builder", room, file=f"{room}/a.builder", is_pretended=True, **asked)
        begun = int(time.time()) // 3600
        status, made, told = convert(f"{room}/a.builder", "object", "--text")
        hour = re.search(r"--min-hours 24 --hour (\d+)$", told.strip())
        checks.show("hours that were pretended to have passed: the hour of now is told, and why",
                    status == 0 and made and hour and begun <= int(hour[1]) <= begun + 1 and "does not tell" in told, (status, told))


def cluster(count, regions, zones):
    """Devices of a cluster, two on each server."""
    made = []
    for place in range(count):
        server = place // 2
        address = f"10.{server % regions}.{server}.1"
        made.append({"region": 1 + server % regions, "zone": server % zones, "ip": address, "port": 6200, "device": f"sd{place}",
                     "weight": float(WEIGHTS[place % len(WEIGHTS)]) * 10, "meta": "", "replication_ip": address, "replication_port": 6200})
    return made


def builders():
    """Twelve builders: one to three regions, gaps in the numbers, devices that are drained and marked, powers 4 to 12."""
    for place in range(12):
        replicas = 1 + place % 5
        yield {
            "power": (4, 5, 6, 7, 8, 9, 10, 11, 12, 4, 8, 12)[place], "replicas": replicas, "hours": (1, 24, 0)[place % 3],
            "devices": cluster(replicas + 6 + 2 * place, 1 + place % 3, 1 + place % 4), "is_rebalanced": True,
            "removed": [1, replicas + 3] if place % 2 else [], "drained": [2] if place % 3 == 1 else [],
            "marked": [0] if place % 4 == 2 else [], "overload": 0.1 if place % 4 == 3 else 0,
        }


def published(room, file, name, version):
    """A version as Swift loads it: the devices of each partition by replica."""
    status, raw, errors = run("export", file, name, version, "--format", "swift")
    if status:
        raise ValueError(errors)
    packed = f"{room}/{name}-{version}.ring.gz"
    Path(packed).write_bytes(gzip.compress(raw, mtime=0))
    return side("seats", room, file=packed)


def told(file, hour, *messages):
    """The replies to messages at an hour."""
    status, answers, errors = run("run", "--file", file, given=lines(*((hour, text) for text in messages)))
    if status:
        raise ValueError(errors)
    return [json.loads(answer[4:]) for answer in answers.decode().splitlines()]


def one_founding(checks, room, place, asked):
    """One builder comes over as it stands, and goes on."""
    name, ring, file, text = f"builder {place}", f"ring{place}", f"{room}/{place}.db", f"{room}/{place}.text"
    side("builder", room, file=f"{room}/{place}.builder", ring=f"{room}/{place}.ring.gz", **asked)
    before = side("seats", room, file=f"{room}/{place}.ring.gz")
    status, made, errors = convert(f"{room}/{place}.builder", ring, "--text")
    options = re.search(r"ringd found \S+ \S+ (.*)", errors)
    if not checks.show(f"{name}: its text, and how to found it", status == 0 and options, (status, errors)):
        return
    Path(text).write_bytes(made)
    words = options[1].split()
    checks.same(f"{name}: it is founded", run("found", file, text, *words), (0, b"", b""))
    hour = int(words[words.index("--hour") + 1])
    [reply] = told(file, hour, message(1, "publish", ring=ring))
    checks.show(f"{name}: no seat moved, in Swift's own eyes", published(room, file, ring, reply["version"]) == before)
    checks.show(f"{name}: what was published is the text that came in", run("export", file, ring, reply["version"])[1] == made)
    row = [1, 0, "10.9.9.9", 6200, "new", "100.00"]
    later, leaving = hour + asked["hours"], asked["marked"]
    early, kept = told(file, later - 1, message(2, "rebalance", ring=ring, seed=1), message(3, "publish", ring=ring))
    rested = published(room, file, ring, kept["version"])
    strayed = [old for old, new in zip(before, rested) if any(one != other and one[0] not in leaving for one, other in zip(old, new))]
    checks.show(f"{name}: within its hours nothing moves but from marked devices", asked["hours"] == 0 or not strayed, (early, strayed[:2]))
    added, moved, kept = told(file, later, message(4, "import", ring=ring, rows=[row]), message(5, "rebalance", ring=ring, seed=2),
                              message(6, "publish", ring=ring))
    after = published(room, file, ring, kept["version"])
    gone = [sum(one != other and one[0] not in leaving for one, other in zip(old, new)) for old, new in zip(rested, after)]
    checks.show(f"{name}: then one replica of a partition moves at most, and some do",
                added["done"] == "import" and moved["changed"] > 0 and max(gone) <= 1, (moved, max(gone)))


def foundings(checks):
    """Rings of Swift's come in with their seats."""
    with scratch() as room:
        for place, asked in enumerate(builders()):
            one_founding(checks, room, place, asked)


def main():
    if not has_swift():
        print("skipped swift.py: Swift's own code is not there. apt-get install python3-swift; it is used by /usr/bin/python3")
        return 0
    return Checks("swift.py", 900).run(rings, refusals, conversion, no_conversion, unknown_hours, foundings)


if __name__ == "__main__":
    sys.exit(main())
