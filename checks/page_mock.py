#!/usr/bin/env python3
"""A stand-in for `ringd service` that has made-up rings: for checks/page.py

It answers the reads that the page needs, on 127.0.0.1, with Python's standard library alone. As the service does, it
hears one connection after another, ends one that is idle for a second, and refuses other hosts and foreign pages. Scenes:

good     photos (24 devices), archive (256), fresh (never rebalanced), empty (no devices), settled (nothing to do)
bare     a file without rings and requests
near     the file of `good`, which keeps 97412 of 100000 numbers
full     the same with 100000 of 100000
ahead    the same at an hour that is 1000 hours ahead of the clock
failed   the store failed: 503 StoreFault for the first read, 503 Closed for the others
memory   503 NoMemory
older    a service that has none of these routes: 404 NoRoute
proxy    a proxy's page with 502
late     a ring is answered after 40 seconds
hostile  texts with tags and quotes, very long ones, wrong types and missing members
words    answers that are no JSON
"""
import argparse
import functools
import hashlib
import http.server
import json
import random
import re
import sys
import threading
import time
import urllib.parse
from pathlib import Path

LIMIT = 100000
TAG = '<b id="evil">bold</b>'
HOSTILE = ['</script><script>document.title="evil"</script>', TAG, '"\'><img src=x onerror=alert(1)>', "&lt;b&gt;", "long" * 5000, "\u202e\n\0"]


def compact(value):
    return json.dumps(value, separators=(",", ":"), sort_keys=True)


def largest_remainders(total, weights):
    """How many of `total` each weight wants."""
    whole = sum(weights)
    wants = [total * weight // whole if whole else 0 for weight in weights]
    by_rest = sorted(range(len(weights)), key=lambda at: (-(total * weights[at] % whole) if whole else 0, at))
    for at in by_rest[: total - sum(wants) if whole else 0]:
        wants[at] += 1
    return wants


class Ring:
    """A ring that is good enough to look at: its figures are those of its devices and seats, by their definitions."""

    def __init__(self, name, power, replicas, min_hours, hour):
        self.name, self.power, self.replicas, self.min_hours, self.hour = name, power, replicas, min_hours, hour
        self.devices, self.next_id, self.version = [], 0, 0
        self.seats = None  # for each partition a list of ids
        self.moved = [None] * (1 << power)
        self.published = {}

    def add(self, region, zone, address, name, weight):
        where = {"region": region, "zone": zone, "address": address, "port": 6200, "name": name}
        self.devices.append({"id": self.next_id, **where, "weight": weight, "removed": False})
        self.next_id, self.version = self.next_id + 1, self.version + 1

    def change(self, ident, **fields):
        next(device for device in self.devices if device["id"] == ident).update(fields)
        self.version += 1

    @staticmethod
    def state(device):
        return "removed" if device["removed"] else "open" if device["weight"] else "drained"

    def places(self):
        return {device["id"]: (device["region"], device["zone"], device["address"]) for device in self.devices}

    def open_weights(self):
        return [0 if device["removed"] else device["weight"] for device in self.devices]

    def total(self):
        return self.replicas << self.power

    def wanted(self):
        return dict(zip((device["id"] for device in self.devices), largest_remainders(self.total(), self.open_weights())))

    def counts(self, seats):
        had = {device["id"]: 0 for device in self.devices}
        for of in seats or []:
            for ident in of:
                had[ident] = had.get(ident, 0) + 1
        return had

    def balance(self, seats, left=None):
        had, total, worst = self.counts(seats), self.total(), 0
        devices = [device for device in self.devices if left is None or device["id"] in left]
        whole = sum(0 if device["removed"] else device["weight"] for device in devices)
        for device in devices:
            has, share = had[device["id"]], total * (0 if device["removed"] else device["weight"])
            worst = max(worst, min(99999, 10000 * abs(has * whole - share) // share) if share else 99999 if has else 0)
        return worst

    def dispersion(self, seats):
        """As its definition says, but for one thing: it counts partitions with fewer regions, zones or servers than could be."""
        if not seats:
            return 0
        place = self.places()
        opens = [place[device["id"]] for device in self.devices if self.state(device) == "open"]
        most = [min(self.replicas, len({at[:tier] for at in opens})) for tier in (1, 2, 3)]
        bad = sum(any(len({place[ident][:tier] for ident in of}) < most[tier - 1] for tier in (1, 2, 3)) for of in seats)
        return 10000 * bad // len(seats)

    def rebalanced(self, seed):
        """New seats, and the partitions that changed. None where too few devices are open."""
        draw = random.Random(seed)
        place = self.places()
        opens = [device["id"] for device in self.devices if self.state(device) == "open"]
        if len(opens) < self.replicas:
            return None
        wants = self.wanted()
        had = self.counts(self.seats)
        marked = {device["id"] for device in self.devices if device["removed"]}
        seats = [list(of) for of in self.seats] if self.seats else [[None] * self.replicas for _ in range(1 << self.power)]
        changed, order = set(), list(range(1 << self.power))
        draw.shuffle(order)
        for partition in order:
            of = seats[partition]
            away = [at for at, ident in enumerate(of) if ident is None or ident in marked]
            if not away and not self.is_locked(partition):
                over = [at for at, ident in enumerate(of) if had[ident] > wants[ident]]
                away = over[:1]
            for at in away:
                others = [place[ident] for where, ident in enumerate(of) if where != at and ident is not None]
                some = draw.sample(opens, min(len(opens), 30))
                free = [ident for ident in some if ident not in of and had[ident] < wants[ident]]
                free = free or [ident for ident in opens if ident not in of and had[ident] < wants[ident]]
                if not free and of[at] is not None and of[at] not in marked:
                    continue
                free = free or [ident for ident in opens if ident not in of]
                far = min(free, key=functools.partial(self.crowd, place, others, had, wants))
                if of[at] is not None:
                    had[of[at]] -= 1
                had[far] += 1
                of[at] = far
                changed.add(partition)
        return seats, changed

    @staticmethod
    def crowd(place, others, had, wants, ident):
        """How close a device is to the others' places, then how full it is."""
        near = [sum(place[ident][:tier] == other[:tier] for other in others) for tier in (1, 2, 3)]
        return *near, (had[ident] + 1) / (wants[ident] or 0.01), ident

    def is_locked(self, partition):
        moved = self.moved[partition]
        return moved is not None and self.hour - moved < self.min_hours

    def rebalance(self, seed):
        self.seats, changed = self.rebalanced(seed)
        for partition in changed:
            self.moved[partition] = self.hour
        self.devices = [device for device in self.devices if not device["removed"]]
        self.version += 1

    def publish(self):
        self.published[self.version] = [tuple(of) for of in self.seats]

    @functools.lru_cache(maxsize=None)
    def json(self):
        wants, had = self.wanted(), self.counts(self.seats)
        rests = [self.min_hours - (self.hour - self.moved[partition]) for partition in range(1 << self.power) if self.is_locked(partition)]
        devices = [
            {**{key: device[key] for key in ("address", "id", "name", "port", "region", "zone")}, "has": had[device["id"]], "state": self.state(device),
             "wanted": wants[device["id"]], "weight": f"{device['weight'] // 100}.{device['weight'] % 100:02}"}
            for device in self.devices
        ]
        return {
            "balance": self.balance(self.seats), "devices": devices, "dispersion": self.dispersion(self.seats), "hour": self.hour, "locked": len(rests),
            "min_hours": self.min_hours, "next_id": self.next_id, "power": self.power, "published": sorted(self.published), "replicas": self.replicas,
            "rests": max(rests, default=0), "ring": self.name, "seats": self.total() if self.seats else 0, "version": self.version,
        }

    def locks(self):
        rests = [self.min_hours - (self.hour - self.moved[partition]) for partition in range(1 << self.power) if self.is_locked(partition)]
        ends = [{"hours": hours, "partitions": rests.count(hours)} for hours in sorted(set(rests))]
        return {"hour": self.hour, "locked": len(rests), "min_hours": self.min_hours, "partitions": 1 << self.power, "rests": ends, "ring": self.name}

    @functools.lru_cache(maxsize=None)
    def preview(self, seed):
        done = self.rebalanced(seed)
        if done is None:
            return None
        seats, _ = done
        wants, had, then = self.wanted(), self.counts(self.seats), self.counts(seats)
        devices = {ident: {"gives": 0, "has": had[ident], "id": ident, "takes": 0, "then": then[ident], "wanted": wants[ident]} for ident in had}
        changed, partitions = give_and_take(self.seats or [[None] * self.replicas] * len(seats), seats, devices)
        left = {device["id"] for device in self.devices if not device["removed"]}
        return {
            "balance": self.balance(seats, left), "changed": changed, "devices": [devices[ident] for ident in sorted(devices)],
            "dispersion": self.dispersion(seats), "hour": self.hour, "locked": sum(map(self.is_locked, range(1 << self.power))), "partitions": partitions,
            "ring": self.name, "seed": seed, "version": self.version + 1,
        }

    def moves(self, old, new):
        devices = {}
        for ident in {ident for version in (old, new) for of in self.published[version] for ident in of}:
            devices[ident] = {"gives": 0, "id": ident, "takes": 0}
        changed, partitions = give_and_take(self.published[old], self.published[new], devices)
        told = [devices[ident] for ident in sorted(devices)]
        return {"changed": changed, "devices": told, "from": old, "partitions": partitions, "ring": self.name, "to": new}


def give_and_take(old, new, devices):
    """Counts what devices give and take, and answers how many seats and partitions changed."""
    changed = partitions = 0
    for was, becomes in zip(old, new):
        here = 0
        for one, other in zip(was, becomes):
            if one != other:
                here += 1
                if one is not None:
                    devices[one]["gives"] += 1
                devices[other]["takes"] += 1
        changed, partitions = changed + here, partitions + (here > 0)
    return changed, partitions


def fill(ring, regions, zones, servers, disks, weight):
    for region in range(1, regions + 1):
        for zone in range(1, zones + 1):
            for server in range(1, servers + 1):
                for disk in range(disks):
                    ring.add(region, zone, f"10.{region}.{zone}.{server}", f"sd{'abcdefgh'[disk]}", weight(region, zone, server, disk))


@functools.lru_cache(maxsize=None)
def rings_of(hour):
    """The rings at an hour, by name. Nobody changes them."""
    photos = Ring("photos", 10, 3, 24, hour - 400)
    fill(photos, 2, 2, 3, 2, lambda *_: 400000)
    photos.rebalance(1)
    photos.publish()
    photos.hour = hour - 100
    photos.change(5, weight=300000)
    photos.add(2, 2, "10.2.2.3", "sdc", 800000)
    photos.rebalance(2)
    photos.publish()
    photos.hour = hour - 30
    photos.change(19, weight=0)
    photos.rebalance(3)
    photos.publish()
    photos.change(7, removed=True)
    photos.rebalance(4)
    photos.publish()
    # a disk has just been marked, one is drained, one is new
    photos.hour = hour - 19
    photos.change(2, weight=200000)
    photos.rebalance(5)
    photos.change(11, removed=True)
    photos.change(14, weight=0)
    photos.hour = hour

    archive = Ring("archive", 12, 3, 12, hour - 300)
    fill(archive, 2, 4, 8, 4, lambda region, zone, server, _: 100000 * (1 + (zone + server) % 3))
    archive.rebalance(1)
    archive.publish()
    archive.hour = hour - 200
    for ident in (17, 18, 19, 90, 130):
        archive.change(ident, removed=True)
    archive.rebalance(2)
    archive.publish()
    archive.hour = hour - 5
    for server in (3, 6):
        archive.add(1, 2, f"10.1.2.{server}", "sdx", 200000)
    for ident in range(200, 212):
        archive.change(ident, weight=50000)
    archive.rebalance(3)
    archive.publish()
    archive.hour = hour
    archive.add(2, 3, "10.2.3.9", "nvme0n1", 400000)
    archive.add(2, 3, "10.2.3.9", "nvme1n1", 400000)
    archive.add(2, 3, "10.2.3.9", "a-name-of-thirty-two-characters0", 100000000)
    archive.change(260, weight=400000)
    archive.change(40, removed=True)
    archive.change(41, weight=0)

    fresh = Ring("fresh", 8, 3, 24, hour)
    fill(fresh, 1, 3, 2, 2, lambda *_: 10000)
    empty = Ring("empty", 14, 5, 24, hour)
    settled = Ring("settled", 6, 2, 0, hour)
    fill(settled, 1, 2, 2, 1, lambda *_: 10000)
    settled.rebalance(1)
    settled.publish()
    return {ring.name: ring for ring in sorted((photos, archive, fresh, empty, settled), key=lambda ring: ring.name)}


def log_entry(place, hour):
    """The decided request at a place: made up of the place alone."""
    draw = random.Random(place)
    ring = draw.choice(["photos", "archive", "photos", "fresh"])
    callers = [("ops", place), ("chg-4711", place % 7), ("nightly", place), ("an-automation-with-a-long-name", 4294967000 + place % 295)]
    caller, number = draw.choice(callers)
    device = {"address": "10.1.2.3", "name": "sdq", "port": 6200, "region": 1, "weight": "4000.00", "zone": 2}
    row = [1, 1, "10.0.0.1", 6200, "sda", "50.00"]
    placed = {"balance": draw.randrange(3000), "changed": draw.randrange(500), "dispersion": 2}
    kinds = [
        ({"do": "set_weight", "id": draw.randrange(200), "weight": "4000.00"}, {}),
        ({"do": "rebalance", "seed": draw.randrange(1 << 32)}, placed),
        ({"do": "publish"}, {}),
        ({"do": "add", **device}, {"id": place % 256}),
        ({"do": "import", "rows": [row] * 12}, {"added": 11, "reweighted": 1}),
        ({"do": "remove", "id": 777}, {"refused": "NoDevice", "rule": 4}),
        ({"do": "rebalance", "seed": 1}, {"refused": "TooFewDevices", "rule": 9}),
        ({"do": "import", "rows": [row]}, {"cause": 6, "refused": "RowRefused", "row": 1, "rule": 13}),
        ({"do": "set_hours", "min_hours": 24}, {}),
        ({"do": "pretend_passed"}, {}),
        ({"do": "keep", "id": 7}, {"refused": "NotMarked", "rule": 15}),
    ]
    request, reply = kinds[place % len(kinds)]
    if "refused" not in reply:
        reply = {**reply, "done": request["do"], "version": 1 + place // 3}
    return {"hour": hour - (200 - place) // 10 if place < 200 else hour, "place": place, "reply": reply,
            "request": {"caller": caller, "number": number, "ring": ring, **request}, "status": 422 if "refused" in reply else 200}


def spoil(value, draw, depth=0):
    """An answer in which texts are hostile, some members are of another kind and some are missing."""
    if isinstance(value, dict):
        told = {}
        for key, each in value.items():
            chance = draw.random()
            if depth and chance < 0.06:
                continue
            told[key] = draw.choice([None, True, {"a": TAG}, [TAG], -5, 1.5, 10**40, TAG]) if depth and chance < 0.25 else spoil(each, draw, depth + 1)
        told[TAG] = TAG
        told["__proto__"] = {"has": TAG}
        return told
    if isinstance(value, list):
        return [spoil(each, draw, depth + 1) for each in value] + ([TAG, None, 7] if depth < 2 else [])
    if isinstance(value, str):
        return draw.choice(HOSTILE)
    return value


class Refused(Exception):
    def __init__(self, status, body):
        super().__init__(status)
        self.status, self.body = status, body


def ruled(status, kind, name, rule):
    return Refused(status, {kind: name, "rule": rule})


NO_ROUTE = Refused(404, {"fault": "NoRoute", "status": 404})


def number_of(text):
    if not re.fullmatch("0|[1-9][0-9]{0,9}", text or "") or int(text) >= 1 << 32:
        raise ruled(400, "fault", "Unreadable", 20)
    return int(text)


class Mock(http.server.HTTPServer):
    """Serves one scene. `sent` has the method and target of each request, in order."""

    request_queue_size = 128

    def __init__(self, port, scene, page, policy=None):
        self.scene, self.page, self.policy, self.sent, self.reads = scene, page, policy, [], 0
        self.stopping = threading.Event()
        self.hour = int(time.time()) // 3600 + (1000 if scene == "ahead" else 0)
        self.kept = {"near": 97412, "full": LIMIT, "bare": 0}.get(scene, 137)
        self.rings = {} if scene == "bare" else rings_of(self.hour)
        super().__init__(("127.0.0.1", port), Answers)

    def handle_error(self, request, client_address):
        """A browser that goes away is no news."""
        if not isinstance(sys.exc_info()[1], OSError):
            super().handle_error(request, client_address)

    def answer(self, path, query):
        """The value that a read tells, as JSON, or text as it is."""
        if path == "/v1/status":
            return {"hour": self.hour, "kept": self.kept, "limit": LIMIT, "rings": len(self.rings)}
        if path == "/v1/rings":
            return {"rings": [{"ring": ring.name, "version": ring.version} for ring in self.rings.values()]}
        if path == "/v1/log":
            begin, most = number_of(query.get("from", "0")), number_of(query.get("most", "100"))
            if most > 1000:
                raise ruled(400, "fault", "Unreadable", 20)
            return [log_entry(place, self.hour) for place in range(begin, min(self.kept, begin + most))]
        found = re.fullmatch("/v1/rings/([^/]+)(/locks|/preview|/moves)?", path)
        if not found:
            raise NO_ROUTE
        name, read = found.groups()
        if not re.fullmatch("[a-z][a-z0-9-]{0,31}", name):
            raise ruled(400, "fault", "Unreadable", 20)
        given = [number_of(query.get(key)) for key in {"/preview": ("seed",), "/moves": ("from", "to")}.get(read, ())]
        ring = self.rings.get(name)
        if ring is None:
            raise ruled(422, "refused", "NoRing", 1)
        if read == "/locks":
            return ring.locks()
        if read == "/preview":
            told = ring.preview(*given)
            if told is None:
                raise ruled(422, "refused", "TooFewDevices", 9)
            return told
        if read == "/moves":
            if not all(version in ring.published for version in given):
                raise ruled(422, "refused", "NoVersion", 32)
            return ring.moves(*given)
        return ring.json()

    def body(self, path, query):
        """Status, type and body of a read in this scene."""
        self.reads += 1
        try:
            if self.scene == "failed":
                raise ruled(503, "fault", "StoreFault", 24) if self.reads == 1 else ruled(503, "fault", "Closed", 25)
            if self.scene == "memory":
                raise ruled(503, "fault", "NoMemory", 23)
            if self.scene == "older":
                raise NO_ROUTE
            if self.scene == "proxy":
                return 502, "text/html", f"<html><body><h1>502 Bad Gateway</h1>{TAG}</body></html>"
            if self.scene == "words":
                return 200, "application/json", f"Welcome {TAG}"
            if self.scene == "late" and path.startswith("/v1/rings/"):
                self.stopping.wait(40)
            told = self.answer(path, query)
            if self.scene == "hostile":
                draw = random.Random(hashlib.sha256(path.encode()).digest())
                if path == "/v1/rings":
                    told["rings"] += [{"ring": text, "version": TAG} for text in HOSTILE]
                elif isinstance(told, list):
                    told = [spoil(each, draw, 1) for each in told] + [TAG, None, 7, {}, []]
                else:
                    told = spoil(told, draw, 1 if path == "/v1/status" else 0)
            if isinstance(told, list):
                return 200, "application/x-ndjson", "".join(compact(each) + "\n" for each in told)
            return 200, "application/json", compact(told)
        except Refused as refused:
            return refused.status, "application/json", compact(refused.body)


class Answers(http.server.BaseHTTPRequestHandler):
    protocol_version = "HTTP/1.1"
    timeout = 1

    def log_message(self, *_):
        pass

    def tell(self, status, kind, body, *fields):
        body = body if isinstance(body, bytes) else body.encode()
        self.send_response_only(status)
        for name, value in (("Content-Type", kind), ("Content-Length", str(len(body))), *fields):
            self.send_header(name, value)
        self.end_headers()
        self.wfile.write(body)

    def do_GET(self):
        self.server.sent.append((self.command, self.path))
        path, _, query = self.path.partition("?")
        host = self.headers.get("Host", "").rpartition(":")[0] or self.headers.get("Host", "")
        if host not in ("127.0.0.1", "localhost") or self.headers.get("Sec-Fetch-Site", "none") not in ("none", "same-origin"):
            self.close_connection = True
            return self.tell(403, "application/json", compact({"fault": "NotAllowed", "status": 403}), ("Connection", "close"))
        if path == "/v1/page":
            policy = [("Content-Security-Policy", self.server.policy)] if self.server.policy else []
            return self.tell(200, "text/html; charset=utf-8", self.server.page.encode(), *policy, ("X-Content-Type-Options", "nosniff"))
        self.tell(*self.server.body(path, dict(urllib.parse.parse_qsl(query))))

    def refuse(self):
        self.server.sent.append((self.command, self.path))
        self.close_connection = True
        self.tell(405 if self.command == "POST" else 501, "application/json", compact({"fault": "WrongMethod", "status": 405}), ("Connection", "close"))

    do_POST = do_PUT = do_DELETE = do_HEAD = do_OPTIONS = refuse
