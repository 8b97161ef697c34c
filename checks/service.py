#!/usr/bin/env python3
"""The service over real connections: checks/service.py [--long]

Starts the built program as `serve` on free ports and talks to it by curl, by Python's http.client and by plain sockets:
each route, requests that are refused, repeats after a kill, clients that are silent, stop midway, read nothing or
break off. What is slow goes side by side, so it takes about a minute; --long sends more random requests.
"""
import hashlib
import http.client
import json
import os
import random
import re
import shutil
import signal
import socket
import struct
import subprocess
import sys
import threading
import time
from concurrent.futures import ThreadPoolExecutor
from pathlib import Path

import common
from common import FIRST, FIRST_BALANCE, FIRST_DEVICES, FIRST_REPLIES, FIRST_RING, MANY, TINY, TINY_RING, TINY_TEXT
from common import has  # noqa: E402
from common import Checks, add, compact, fault, free_port, is_listening, lines, message, rows_of, run, scratch, wait_until

HEAD = "Host: a\r\n"
CREATE = '{"caller":"ops","do":"create","min_hours":24,"number":1,"power":2,"replicas":1,"ring":"object"}'


class Server:
    """`serve` over a file, on a port of its own."""

    def __init__(self, file, count=65535, hour=0, port=None):
        self.port = port or free_port()
        words = [*common.program(), "serve", file, str(self.port), str(count), "--hour", str(hour)]
        self.process = subprocess.Popen(words, stdout=subprocess.PIPE, stderr=subprocess.PIPE)
        self.is_up = wait_until(lambda: is_listening(self.port) or self.process.poll() is not None, 30)

    def stop(self, number=signal.SIGKILL):
        """Stops it by a signal, and answers its status."""
        self.process.send_signal(number)
        self.process.communicate(timeout=20)
        return self.process.returncode

    def __enter__(self):
        return self

    def __exit__(self, *_):
        if self.process.poll() is None:
            self.process.kill()
        self.process.communicate()

    def connect(self, seconds=30):
        return socket.create_connection(("127.0.0.1", self.port), timeout=seconds)

    def ask(self, method, target, body=None, seconds=30):
        """The status and the body of one request on a connection of its own."""
        connection = http.client.HTTPConnection("127.0.0.1", self.port, timeout=seconds)
        try:
            connection.request(method, target, body=body)
            answer = connection.getresponse()
            return answer.status, answer.read()
        finally:
            connection.close()

    def post(self, text, seconds=30):
        return self.ask("POST", "/v1/requests", text.encode(), seconds)

    def raw(self, given, seconds=30):
        """Sends bytes, ends the sending side, and answers all that comes back."""
        with self.connect(seconds) as one:
            one.sendall(given)
            one.shutdown(socket.SHUT_WR)
            return read_all(one)

    def memory(self):
        """How much memory it has, in kB."""
        for line in Path(f"/proc/{self.process.pid}/status").read_text().splitlines():
            if line.startswith("VmRSS:"):
                return int(line.split()[1])
        return 0


def read_all(one):
    told = b""
    while True:
        try:
            more = one.recv(65536)
        except ConnectionResetError:
            return told
        if not more:
            return told
        told += more


def answer(status, phrase, body, kind="application/json", more=""):
    """The bytes of an answer."""
    body = body if isinstance(body, bytes) else body.encode()
    head = f"HTTP/1.1 {status} {phrase}\r\nContent-Type: {kind}\r\nContent-Length: {len(body)}\r\n{more}\r\n"
    return head.encode() + body


JSON_LINES = "application/x-ndjson"


def each_line(entries):
    """JSON texts, one a line."""
    return "".join(f"{compact(entry)}\n" for entry in entries)


def request(method, target, body=None, fields=HEAD, version="HTTP/1.1"):
    """The bytes of a request."""
    length = "" if body is None else f"Content-Length: {len(body)}\r\n"
    return f"{method} {target} {version}\r\n{fields}{length}\r\n{body or ''}".encode()


LAST = "Connection: close\r\n"


def refused(status, phrase, name):
    """The answer to a head that is refused, which is the last."""
    return answer(status, phrase, f'{{"fault":"{name}","status":{status}}}', more=LAST)


def ruled(status, phrase, kind, name, rule):
    """The answer that tells a fault or a refusal by its number."""
    return answer(status, phrase, f'{{"{kind}":"{name}","rule":{rule}}}')


def routes(checks):
    """Each route and its answer, byte for byte."""
    with scratch() as room:
        file = f"{room}/rings.db"
        run("run", "--file", file, given=lines(*FIRST, *((hour, text.replace('"ops"', '"two"')) for hour, text in TINY)))
        with Server(file) as server:
            if not checks.show("serve listens", server.is_up and server.process.poll() is None, server.process.poll()):
                return
            checks.same("and on 127.0.0.1 alone", common.addresses_of(server.port), {common.HERE})
            partition = hashlib.md5(b"/a").digest()[0] >> 7
            for what, given, want in [
                ("the device table", request("GET", "/v1/rings/object/devices"), answer(200, "OK", FIRST_DEVICES, "text/plain")),
                ("the balance table", request("GET", "/v1/rings/object/balance"), answer(200, "OK", FIRST_BALANCE, "text/plain")),
                ("which rings there are", request("GET", "/v1/rings"), answer(200, "OK", common.listed(object=3, tiny=2))),
                ("how much is kept", request("GET", "/v1/status?x"), answer(200, "OK", common.status(0, 8, 2))),
                ("a whole ring", request("GET", "/v1/rings/object"), answer(200, "OK", FIRST_RING)),
                ("one whose partitions are free", request("GET", "/v1/rings/tiny?x"), answer(200, "OK", TINY_RING)),
                ("the nodes of a path", request("GET", "/v1/rings/tiny/nodes?account=a"), answer(200, "OK", common.tiny_nodes(partition))),
                ("a published text", request("GET", "/v1/rings/tiny/text/2"), answer(200, "OK", TINY_TEXT, "text/plain")),
                ("a repeat", request("POST", "/v1/requests", CREATE), answer(200, "OK", FIRST_REPLIES[0])),
                ("the number with another command", request("POST", "/v1/requests", CREATE.replace("24", "25")),
                 ruled(409, "Conflict", "fault", "NumberReused", 21)),
                ("a refusal", request("POST", "/v1/requests", message(40, "create", power=1, replicas=1, min_hours=0)),
                 ruled(422, "Unprocessable Entity", "refused", "RingExists", 2)),
                ("a refusal is kept, and a repeat and a number that is used are not", request("GET", "/v1/status"),
                 answer(200, "OK", common.status(0, 9, 2))),
                ("and stands at the end of the log", request("GET", "/v1/log?from=8"),
                 answer(200, "OK", each_line([{"hour": 0, "place": 8, "reply": {"refused": "RingExists", "rule": 2}, "status": 422,
                                               "request": json.loads(message(40, "create", power=1, replicas=1, min_hours=0))}]), JSON_LINES)),
                ("nothing stands behind it", request("GET", "/v1/log?most=1000&from=9"), answer(200, "OK", "", JSON_LINES)),
                ("more of the log than may be asked for", request("GET", "/v1/log?most=1001"),
                 ruled(400, "Bad Request", "fault", "Unreadable", 20)),
                ("no message", request("POST", "/v1/requests", "{}"), ruled(400, "Bad Request", "fault", "Unreadable", 20)),
                ("no ring of this name", request("GET", "/v1/rings/none/devices"), ruled(422, "Unprocessable Entity", "refused", "NoRing", 1)),
                ("no whole ring of this name", request("GET", "/v1/rings/none"), ruled(422, "Unprocessable Entity", "refused", "NoRing", 1)),
                ("a whole ring under what is no name", request("GET", "/v1/rings/Tiny"), ruled(400, "Bad Request", "fault", "Unreadable", 20)),
                ("no such version", request("GET", "/v1/rings/tiny/text/1"), ruled(422, "Unprocessable Entity", "refused", "NoVersion", 32)),
                ("a version of another spelling", request("GET", "/v1/rings/tiny/text/02"), ruled(400, "Bad Request", "fault", "Unreadable", 20)),
                ("a path that is none", request("GET", "/v1/rings/none/nodes?account=a&object=o"), ruled(400, "Bad Request", "refused", "BadPath", 30)),
                ("an account with a slash", request("GET", "/v1/rings/tiny/nodes?account=a%2Fb"), ruled(400, "Bad Request", "refused", "BadPath", 30)),
                ("two accounts", request("GET", "/v1/rings/tiny/nodes?account=a&account=a"), ruled(400, "Bad Request", "refused", "BadPath", 30)),
                ("no route", request("GET", "/v2"), answer(404, "Not Found", '{"fault":"NoRoute","status":404}')),
                ("a version of no number as Swift's file", request("GET", "/v1/rings/tiny/swift/"), NO_ROUTE),
                ("a slash behind the rings", request("GET", "/v1/rings/"), NO_ROUTE),
                ("a slash behind the status", request("GET", "/v1/status/"), NO_ROUTE),
                ("a slash behind the metrics", request("GET", "/v1/metrics/"), NO_ROUTE),
                ("the rings by POST", request("POST", "/v1/rings", ""),
                 answer(405, "Method Not Allowed", '{"fault":"WrongMethod","status":405}', more="Allow: GET\r\n")),
                ("a slash behind a ring's name", request("GET", "/v1/rings/tiny/"), NO_ROUTE),
                ("the word of a whole ring", request("GET", "/v1/rings/tiny/ring"), NO_ROUTE),
                ("a whole ring by POST", request("POST", "/v1/rings/tiny", ""),
                 answer(405, "Method Not Allowed", '{"fault":"WrongMethod","status":405}', more="Allow: GET\r\n")),
                ("a percent sign in a route", request("GET", "/v1/rings/%74iny/devices"), ruled(400, "Bad Request", "fault", "Unreadable", 20)),
                ("a route by the other method", request("GET", "/v1/requests"),
                 answer(405, "Method Not Allowed", '{"fault":"WrongMethod","status":405}', more="Allow: POST\r\n")),
                ("a table by POST", request("POST", "/v1/rings/tiny/devices", ""),
                 answer(405, "Method Not Allowed", '{"fault":"WrongMethod","status":405}', more="Allow: GET\r\n")),
            ]:
                checks.same(what, server.raw(given), want)
            table = "region,zone,address,port,name,weight\n1,1,10.0.0.9,6200,d9,10.00\n1,1,10.0.0.9,6200,d9,20.00\n"
            done = answer(200, "OK", '{"added":1,"done":"import","reweighted":1,"version":4}')
            checks.same("an import", server.raw(request("POST", "/v1/import/object?caller=ops&number=5", table)), done)
            rows = [[1, 1, "10.0.0.9", 6200, "d9", "10.00"], [1, 1, "10.0.0.9", 6200, "d9", "20.00"]]
            checks.same("the same as a message gets the same reply", server.raw(request("POST", "/v1/requests", message(5, "import", rows=rows))), done)
            bad = server.raw(request("POST", "/v1/import/object?caller=ops&number=6", table.replace("10.0.0.9", "10.0.0.256")))
            checks.same("an import with a bad field", bad, answer(400, "Bad Request", '{"column":3,"fault":"BadField","row":1,"rule":42}'))
            two = request("GET", "/v1/rings/tiny/text/2") + request("POST", "/v1/requests", CREATE)
            want = answer(200, "OK", TINY_TEXT, "text/plain") + answer(200, "OK", FIRST_REPLIES[0])
            checks.same("two requests in one write", server.raw(two), want)
            closing = request("GET", "/v1/rings/tiny/text/2", fields=HEAD + LAST)
            checks.same("nothing is answered behind the last one", server.raw(closing + two), answer(200, "OK", TINY_TEXT, "text/plain", LAST))


# What is asked of the ring of MANY: a device leaves it in hour 13, one is marked and one drained in hour 14.
LATER = [
    (13, message(17, "remove", id=2)),
    (13, message(18, "rebalance", seed=6)),
    (14, message(19, "remove", id=3)),
    (14, message(20, "set_weight", id=4, weight="0.00")),
]


def percent(hundredths):
    """Hundredths of a percent, as tables tell them."""
    return f"{hundredths // 100}.{hundredths % 100:02d}"


def left_of(rows, clock):
    """The hour at an hour of the clock, and for how many hours each partition of the only ring is locked that is."""
    hour, min_hours = max(rows["meta"][0][2], clock), rows["ring"][0][3]
    return hour, [moved + min_hours - hour for _, _, _, moved in rows["part"] if 0 <= moved and hour < moved + min_hours]


def locks_of(rows, clock):
    """What they say of its locks, as JSON."""
    (name, _, _, min_hours, _, _), (hour, left) = rows["ring"][0], left_of(rows, clock)
    ends = [{"hours": hours, "partitions": left.count(hours)} for hours in sorted(set(left))]
    figures = {"hour": hour, "locked": len(left), "min_hours": min_hours, "partitions": len(rows["part"])}
    return compact({**figures, "rests": ends, "ring": name}).encode()


def figures_of(rows, clock):
    """What the rows of a closed file say of its only ring at an hour of the clock, under the keys of a whole ring."""
    (name, power, replicas, min_hours, next_id, version), (hour, left) = rows["ring"][0], left_of(rows, clock)
    seats = sum(len(devices) for _, _, devices, _ in rows["part"]) // 2
    return {"hour": hour, "locked": len(left), "min_hours": min_hours, "next_id": next_id, "power": power,
            "published": [row[1] for row in rows["published"]], "replicas": replicas, "rests": max(left, default=0),
            "ring": name, "seats": seats, "version": version}


def as_the_tables(checks, ring, devices, balance):
    """Whether a ring that was read back is what the rows of both of its tables tell."""
    keys = ("id", "region", "zone", "address", "port", "weight", "state", "name")
    checks.same("its devices are those of the device table", [[str(device[key]) for key in keys] for device in ring["devices"]], devices)
    keys = ("id", "weight", "wanted", "has")
    told = [[str(device[key]) for key in keys] for device in ring["devices"]]
    checks.same("they want and have what the balance table says", told, [row[:4] for row in balance[:-1]])
    last = f"balance {percent(ring['balance'])} dispersion {percent(ring['dispersion'])} version {ring['version']}"
    checks.same("and its figures are those of the last line", last.split(), balance[-1])
    states = {device["state"] for device in ring["devices"]}
    checks.same("one is marked, one drained, and others are open", states, {"removed", "drained", "open"})


def whole_ring(checks):
    """A whole ring as JSON, read back, against its tables and the rows of the file."""
    with scratch() as room:
        file = f"{room}/rings.db"
        run("run", "--file", file, given=lines(*MANY, *LATER))
        with Server(file, hour=9) as server:
            status, told = server.ask("GET", "/v1/rings/object")
            ring = json.loads(told)
            checks.same("it is compact, and its keys stand in order", (status, told), (200, compact(ring).encode()))
            tables = [server.ask("GET", f"/v1/rings/object/{table}")[1].decode().splitlines()[1:] for table in ("devices", "balance")]
            as_the_tables(checks, ring, *([row.split() for row in table] for table in tables))
            texts = [server.ask("GET", f"/v1/rings/object/text/{version}")[0] for version in ring["published"]]
            checks.same("both versions that it names can be read", texts, [200, 200])
            locks = server.ask("GET", "/v1/rings/object/locks")
        rows = rows_of(file)
        checks.same("its locks are those of the rows, hour by hour", locks, (200, locks_of(rows, 9)))
        ends = json.loads(locks[1])["rests"]
        checks.same("together those of the ring, and the last hour is its rest",
                    (sum(end["partitions"] for end in ends), ends[-1]["hours"]), (ring["locked"], ring["rests"]))
        checks.same("a line tells them too", run("run", "--file", file, given=lines("? locks object")), (0, locks[1] + b"\n", b""))
        want = figures_of(rows, 9)
        checks.same("the other numbers are those of the rows", {key: ring[key] for key in want}, want)
        checks.show("the clock is behind, so the hour is the last request's, and some partitions are locked for an hour more",
                    ring["hour"] == 14 and 0 < ring["locked"] and ring["rests"] == 1, told)
        checks.same("a line tells these bytes and a line feed", run("run", "--file", file, given=lines("? ring object")), (0, told + b"\n", b""))
        with Server(file, hour=99) as server:
            later = server.ask("GET", "/v1/rings/object")[1]
            free = server.ask("GET", "/v1/rings/object/locks")[1]
        checks.same("once the clock is ahead it is the clock's, and no partition is locked", later, compact({**ring, **figures_of(rows, 99)}).encode())
        checks.same("nor told among the locks", free, locks_of(rows, 99))
        shown = run("show", file, "object", "locks")
        here = [(0, locks_of(rows, hour) + b"\n", b"") for hour in common.machine_hours()]
        checks.show("show tells the locks at the hour of the machine", shown in here, shown)
        shown = run("show", file, "object")
        here = [(0, compact({**ring, **figures_of(rows, hour)}).encode() + b"\n", b"") for hour in common.machine_hours()]
        checks.show("show tells the hour of the machine", shown in here, shown)


def seats_of(ring):
    """Of a ring that was read, how many seats each of its devices has."""
    return {device["id"]: device["has"] for device in ring["devices"]}


def preview(checks):
    """What a rebalance would do, read back, against what the rebalance then replies and leaves."""
    with scratch() as room:
        file = f"{room}/rings.db"
        run("run", "--file", file, given=lines(*MANY, *LATER))
        target = "/v1/rings/object/preview?seed=7&hour=15"
        with Server(file, hour=15) as server:
            status, told = server.ask("GET", target)
            seen = json.loads(told)
            checks.same("it is compact, and its keys stand in order", (status, told), (200, compact(seen).encode()))
            before = seats_of(json.loads(server.ask("GET", "/v1/rings/object")[1]))
            checks.same("each device has what the ring tells", {device["id"]: device["has"] for device in seen["devices"]}, before)
            sums = [device["has"] - device["gives"] + device["takes"] - device["then"] for device in seen["devices"]]
            checks.same("what it gives and takes makes what it has then", sums, [0] * len(sums))
            moved = [sum(device[key] for device in seen["devices"]) for key in ("gives", "takes")]
            checks.same("as many seats are given and taken as change", moved, [seen["changed"]] * 2)
            checks.show("in no more partitions than seats", 0 < seen["partitions"] <= seen["changed"], told)
            checks.same("asked again it tells the same", server.ask("GET", target), (status, told))
            checks.same("without an hour it is the clock's", server.ask("GET", "/v1/rings/object/preview?seed=7"), (status, told))
            reply = json.loads(server.ask("POST", "/v1/requests", message(30, "rebalance", seed=7))[1])
            keys = ("balance", "changed", "dispersion", "version")
            checks.same("the rebalance replies what it told", [reply[key] for key in keys], [seen[key] for key in keys])
            after = seats_of(json.loads(server.ask("GET", "/v1/rings/object")[1]))
            checks.same("and each device has what it told", {device["id"]: device["then"] for device in seen["devices"] if device["then"]},
                        {number: has for number, has in after.items() if has})
            none = [server.ask("GET", f"/v1/rings/object/preview{query}")[0] for query in ("", "?seed=x", "?seed=1&hour=-1", "?seed=1&seed=1")]
            checks.same("other queries are unreadable", none, [400] * 4)
        ahead = common.machine_hours()[0] + 9
        line = run("run", "--file", file, given=lines(f"? preview object 8 {ahead}"))
        checks.show("a line is answered by one", line[0] == 0 and line[1].startswith(b'{"balance":') and line[1].count(b"\n") == 1, line)
        checks.same("and the program prints it", run("preview", file, "object", "--seed", 8, "--hour", ahead), line)


def text_seats(text):
    """Of the text of a ring, the power and the seats by partition."""
    words = [line.split() for line in text.decode().splitlines()]
    at, end = words.index(["seats"]), words.index(["end"])
    return int(next(line[1] for line in words if line[0] == "power")), [list(map(int, row)) for row in words[at + 1:end]]


def moves(checks):
    """What moved between published versions, against their texts: the power was raised between these."""
    with scratch() as room:
        file = f"{room}/rings.db"
        run("run", "--file", file, given=lines(*MANY, *LATER))
        with Server(file, hour=99) as server:
            first, last = json.loads(server.ask("GET", "/v1/rings/object")[1])["published"]
            (low, old), (high, new) = (text_seats(server.ask("GET", f"/v1/rings/object/text/{version}")[1]) for version in (first, last))
            checks.show("the power was raised between", high == low + 1, (low, high))
            seats = [(place, replica, old[place >> high - low][replica], device) for place, row in enumerate(new) for replica, device in enumerate(row)]
            moved = [seat for seat in seats if seat[2] != seat[3]]
            devices = [{"gives": sum(seat[2] == number for seat in moved), "id": number, "takes": sum(seat[3] == number for seat in moved)}
                       for number in sorted({number for seat in moved for number in seat[2:]})]
            want = compact({"changed": len(moved), "devices": devices, "from": first, "partitions": len({seat[0] for seat in moved}),
                            "ring": "object", "to": last}).encode()
            checks.same("what moved is what the texts say", server.ask("GET", f"/v1/rings/object/moves?from={first}&to={last}"), (200, want))
        checks.same("the program prints these bytes", run("moves", file, "object", first, last), (0, want + b"\n", b""))
        checks.same("and so does a line", run("run", "--file", file, given=lines(f"? moves object {first} {last}")), (0, want + b"\n", b""))
        each = "".join(f"{place} {replica} {was} {now}\n" for place, replica, was, now in moved).encode()
        checks.same("each seat is a line", run("moves", file, "object", first, last, "--each"), (0, each, b""))
        checks.same("of one version nothing moved", run("moves", file, "object", last, last, "--each"), (0, b"", b""))


def swift_files(checks):
    """A published ring as the file that Swift loads: the bytes that `export` writes, and refused where its text is."""
    with scratch() as room:
        file = f"{room}/rings.db"
        run("run", "--file", file, given=lines(*MANY, *LATER))
        with Server(file) as server:
            published = json.loads(server.ask("GET", "/v1/rings/object")[1])["published"]
            told = [server.ask("GET", f"/v1/rings/object/swift/{version}") for version in published]
            raw = server.raw(request("GET", f"/v1/rings/object/swift/{published[0]}"))
            checks.same("the answer says that it is no text", raw, answer(200, "OK", told[0][1], "application/octet-stream"))
            for what, method, behind in [
                ("no such ring", "GET", "none/{}/2"), ("no such version", "GET", "object/{}/4294967295"), ("another spelling of a version", "GET", "object/{}/02"),
                ("no ring's name comes first", "GET", "Object/{}/02"), ("no version", "GET", "object/{}/"), ("something behind", "GET", "object/{}/2/3"),
                ("the other method comes first", "POST", "Object/{}/02"),
            ]:
                body = "" if method == "POST" else None
                as_swift, as_text = (server.raw(request(method, f"/v1/rings/{behind.format(word)}", body)) for word in ("swift", "text"))
                checks.same(f"refused as the text: {what}", as_swift, as_text)
                checks.show("and nothing is shown", as_swift.startswith(b"HTTP/1.1 4"), as_swift)
        exported = [run("export", file, "object", version, "--format", "swift") for version in published]
        checks.show("both versions were told", len(published) == 2 and told[0] != told[1], published)
        checks.same("they are the bytes that export writes", [(0, body, b"") for status, body in told if status == 200], exported)


def rings_and_status(checks):
    """Which rings there are and how much is kept, against each ring's tables and the rows of the file."""
    with scratch() as room:
        file = f"{room}/rings.db"
        two = [(hour, text.replace('"ops"', '"two"')) for hour, text in TINY]
        run("run", "--file", file, given=lines(*MANY, *LATER, *two))
        with Server(file, hour=99) as server:
            listed, status = server.ask("GET", "/v1/rings"), server.ask("GET", "/v1/status")
            rings, figures = json.loads(listed[1]), json.loads(status[1])
            told = [(200, compact(rings).encode()), (200, compact(figures).encode())]
            checks.same("they are compact, and their keys stand in order", [listed, status], told)
            names = [ring["ring"] for ring in rings["rings"]]
            found = [server.ask("GET", f"/v1/rings/{name}/devices")[0] for name in names]
            checks.same("each ring has a table of devices", (names, found), (["object", "tiny"], [200, 200]))
            last = [server.ask("GET", f"/v1/rings/{name}/balance")[1].decode().split()[-1] for name in names]
            checks.same("and its version is that of its table", [str(ring["version"]) for ring in rings["rings"]], last)
        rows = rows_of(file)
        checks.same("the rings are those of the rows", [tuple(ring.values()) for ring in rings["rings"]], [(row[0], row[5]) for row in rows["ring"]])
        want = {"hour": rows["meta"][0][2], "kept": len(rows["request"]), "limit": 100000, "rings": len(rows["ring"])}
        checks.same("and so are the figures, whatever the clock", figures, want)
        checks.same("show prints these bytes and a line feed", run("show", file), (0, listed[1] + b"\n", b""))
        checks.same("with --status too", run("show", file, "--status"), (0, status[1] + b"\n", b""))
        both = listed[1] + b"\n" + status[1] + b"\n"
        checks.same("and so do lines", run("run", "--file", file, given=lines("? rings", "? status")), (0, both, b""))


# Queries of reads that are none, with the target in front of each.
NO_QUERIES = [f"/v1/log?{query}" for query in (
    "most=0", "most=1001", "most=", "most=01", "most=x", "most=1&most=1", "from=", "from=01", "from=-1", "from=4294967296", "from=0&from=0",
    "place=0", "from=0&more=1", "from", "%66rom=0&from=0")]
NO_QUERIES += [f"/v1/rings/object/moves{query}" for query in (
    "", "?", "?from=4", "?to=4", "?from=4&to=04", "?from=4&to=4294967296", "?from=4&to=-1", "?from=4&to=x", "?from=4&to=", "?from=4&from=4&to=4",
    "?from=4&to=4&to=4", "?from=4&to=4&each", "?from=4&to=4&each=1")]
NO_QUERIES += [f"/v1/rings/object/preview{query}" for query in (
    "?", "?seed", "?seed=", "?seed=01", "?seed=-1", "?seed=4294967296", "?seed=1&hour=", "?seed=1&hour=4294967296", "?seed=1&hour=1&hour=1",
    "?seed=1&more=1")]
LOST_TARGETS = ["/v1/log/", "/v1/logs", "/v1/Log", "/v1/log/0", "/v1/page/", "/v1/Page", "/v1/page%3F", "/v1/pages", "/v1/rings/object/moves/",
                "/v1/rings/object/moves/4", "/v1/rings/object/Moves", "/v1/rings/object/preview/", "/v1/rings/object/preview/7"]


def log(checks):
    """The log, read back, against the rows of the file and what each request is answered; and queries that are none."""
    with scratch() as room:
        file = f"{room}/rings.db"
        run("run", "--file", file, given=lines(*MANY, *LATER))
        with Server(file, hour=9) as server:
            status, told = server.ask("GET", "/v1/log?most=1000")
            entries = [json.loads(line) for line in told.splitlines()]
            checks.same("an entry a line, compact, and its keys stand in order", (status, told.decode()), (200, each_line(entries)))
            checks.same("without words it begins at the first and tells 100", server.ask("GET", "/v1/log"), (200, each_line(entries[:100]).encode()))
            parts = [server.ask("GET", f"/v1/log?from={place}&most=7")[1] for place in range(0, len(entries) + 7, 7)]
            checks.same("its parts of 7 are the whole, and the last is empty", (b"".join(parts), parts[-1]), (told, b""))
            checks.same("as many are told as are kept", len(entries), json.loads(server.ask("GET", "/v1/status")[1])["kept"])
            again = [server.post(compact(entry["request"])) for entry in entries]
            checks.same("each request, sent again, is answered as it is told", again, [(entry["status"], compact(entry["reply"]).encode()) for entry in entries])
            checks.same("which changes nothing of it", server.ask("GET", "/v1/log?most=1000"), (200, told))
            none = [target for target in NO_QUERIES if server.ask("GET", target) != (400, b'{"fault":"Unreadable","rule":20}')]
            checks.same("queries that are none are unreadable", none, [])
            lost = [target for target in LOST_TARGETS if server.ask("GET", target) != (404, b'{"fault":"NoRoute","status":404}')]
            checks.same("targets beside the routes have none", lost, [])
            posted = [server.ask("POST", target, b"")[0] for target in ("/v1/log", "/v1/page", "/v1/rings/object/moves", "/v1/rings/object/preview")]
            checks.same("none of them is asked for by POST", posted, [405] * 4)
        rows = sorted(rows_of(file)["request"], key=lambda row: row[2])
        keys = ("caller", "number")
        want = [(*(entry["request"][key] for key in keys), entry["place"], entry["hour"],
                 compact({key: value for key, value in entry["request"].items() if key not in keys}), compact(entry["reply"])) for entry in entries]
        checks.same("its entries are the rows of the file", want, rows)
        checks.same("a line tells these bytes", run("run", "--file", file, given=lines("? log 0 1000")), (0, told, b""))
        checks.same("and an empty line where nothing is told", run("run", "--file", file, given=lines("? log 1000 1")), (0, b"\n", b""))
        checks.same("and so does the program", run("log", file), (0, told, b""))


NAME = r"[a-zA-Z_:][a-zA-Z0-9_:]*"
LABEL = re.compile(r'([a-zA-Z_][a-zA-Z0-9_]*)="((?:[^"\\\n]|\\[\\"n])*)"')
SAMPLE = re.compile(rf"({NAME})(?:\{{([^{{}}]*)\}})? (-?[0-9]+(?:\.[0-9]+)?)")


def labels_of(text):
    """The labels of a sample, each once and in their order."""
    found, at = {}, 0
    while at < len(text):
        label = LABEL.match(text, at)
        if not label or label[1] in found or label[1].startswith("__"):
            raise ValueError(text)
        found[label[1]] = re.sub(r"\\(.)", lambda escaped: {"n": "\n"}.get(escaped[1], escaped[1]), label[2])
        at = label.end()
        if text[at:at + 1] == "," and at + 1 < len(text):
            at += 1
        elif at < len(text):
            raise ValueError(text)
    return found


def metrics_read(told):
    """The samples of a text in the format of Prometheus by name and labels, each metric a gauge with HELP and TYPE in front of its
    samples, all in one piece. ValueError for any other text."""
    samples, known, name = {}, set(), None
    text = told.decode()
    if not text.endswith("\n"):
        raise ValueError("the last line has no end")
    rows = text[:-1].split("\n")
    while rows:
        row = rows.pop(0)
        if row.startswith("#"):
            if not (head := re.fullmatch(rf"# HELP ({NAME}) [^\\]+", row)) or head[1] in known:
                raise ValueError(row)
            name = head[1]
            known.add(name)
            if not rows or rows.pop(0) != f"# TYPE {name} gauge":
                raise ValueError(f"no type of {name}")
            continue
        sample = SAMPLE.fullmatch(row)
        if not sample or sample[1] != name:
            raise ValueError(row)
        place = (name, tuple(labels_of(sample[2] or "").items()))
        if place in samples or (sample[2] is not None and not place[1]):
            raise ValueError(row)
        samples[place] = sample[3]
    return samples


# Texts that are none of the format, so that the reader of it is known to be strict.
NO_METRICS = [
    b"# HELP a b\n# TYPE a gauge\na 1", b"a 1\n", b"# TYPE a gauge\na 1\n", b"# HELP a b\na 1\n", b"# HELP a b\n# TYPE b gauge\nb 1\n",
    b"# HELP a b\n# TYPE a gauge\na 1\na 1\n", b"# HELP a b\n# TYPE a gauge\na x\n", b"# HELP a b\n# TYPE a gauge\na  1\n",
    b'# HELP a b\n# TYPE a gauge\na{c="d} 1\n', b'# HELP a b\n# TYPE a gauge\na{c="d",c="e"} 1\n', b'# HELP a b\n# TYPE a gauge\na{c="d"e="f"} 1\n',
    b'# HELP a b\n# TYPE a gauge\na{c="\\d"} 1\n', b'# HELP a b\n# TYPE a gauge\na{c="d",} 1\n', b"# HELP a b\n# TYPE a gauge\na{} 1\n", b"# HELP a-b c\n# TYPE a-b gauge\na-b 1\n",
    b"# HELP a b\n# TYPE a gauge\na 1\n# HELP c d\n# TYPE c gauge\na 2\n", b"# HELP a b\n# TYPE a gauge\n\na 1\n",
]


def is_refused(text):
    """Whether a text is none of the format."""
    try:
        metrics_read(text)
    except ValueError:
        return True
    return False


def metrics(checks):
    """The metrics, read by a strict reader of their format, against the status and each whole ring."""
    checks.same("the reader refuses what is none of the format", [text for text in NO_METRICS if not is_refused(text)], [])
    with scratch() as room:
        file = f"{room}/rings.db"
        two = [(hour, text.replace('"ops"', '"two"')) for hour, text in TINY]
        with Server(f"{room}/none.db") as server:
            empty = server.ask("GET", "/v1/metrics")
            status = json.loads(server.ask("GET", "/v1/status")[1])
            checks.same("of no ring there is no sample", empty, (200, common.metrics(status, [])))
            checks.same("and the figures of the store stand alone", len(metrics_read(empty[1])), 3)
        run("run", "--file", file, given=lines(*MANY, *LATER, *two))
        with Server(file, hour=9) as server:
            told = server.ask("GET", "/v1/metrics")
            status = json.loads(server.ask("GET", "/v1/status")[1])
            names = [ring["ring"] for ring in json.loads(server.ask("GET", "/v1/rings")[1])["rings"]]
            rings = [json.loads(server.ask("GET", f"/v1/rings/{name}")[1]) for name in names]
            raw = server.raw(request("GET", "/v1/metrics", fields=HEAD + "Accept: text/plain;version=0.0.4;q=0.5,*/*;q=0.1\r\n"))
            want = answer(200, "OK", told[1], "text/plain; version=0.0.4; charset=utf-8")
            checks.same("the answer names the format and its version", raw, want)
            checks.same("the metrics by POST", server.ask("POST", "/v1/metrics", b"")[0], 405)
        checks.same("they are what the status and the whole rings tell", told, (200, common.metrics(status, rings)))
        samples = metrics_read(told[1])
        for ring in rings:
            of_ring = (("ring", ring["ring"]),)
            figures = {name: float(samples[(f"ringd_ring_{name}", of_ring)]) for name, _, _ in common.RING_METRICS}
            tellings = {name: float(value(ring)) for name, _, value in common.RING_METRICS}
            checks.same(f"each figure of {ring['ring']} is that of the whole ring", figures, tellings)
            states = {state: int(samples[("ringd_ring_devices", (*of_ring, ("state", state)))]) for state in common.STATES}
            found = [device["state"] for device in ring["devices"]]
            checks.same("and its devices by state", states, {state: found.count(state) for state in common.STATES})
        store = [samples[(f"ringd_{name}", ())] for name in ("numbers_kept", "numbers_limit", "greatest_hour")]
        checks.same("the figures of the store are those of the status", store, [str(status[key]) for key in ("kept", "limit", "hour")])
        checks.same("there are no other samples", len(samples), 3 + len(rings) * (len(common.RING_METRICS) + len(common.STATES)))
        some = [int(samples[(f"ringd_ring_{name}", (("ring", "object"),))]) for name in ("misplaced_seats", "locked_partitions", "locked_hours")]
        checks.show("some seats are not where they are wanted, and some partitions are locked", min(some) > 0, samples)
        later = common.metrics(status, [common.unlocked(ring) for ring in rings])
        with Server(file, hour=99) as server:
            checks.same("once the clock is ahead no partition is locked, and the greatest hour stays", server.ask("GET", "/v1/metrics"), (200, later))
        checks.same("show prints these bytes, at the hour of the machine", run("show", file, "--metrics"), (0, later, b""))
        line = run("run", "--file", file, given=lines("? metrics"))
        checks.same("no line asks for them", line, (0, b'400 {"fault":"Unreadable","rule":20}\n', b""))


def refusals(checks):
    """Heads that are refused, and bodies that end too early."""
    length = f"Content-Length: {len(CREATE)}\r\n"
    with scratch() as room, Server(f"{room}/rings.db") as server:
        bad_head = refused(400, "Bad Request", "BadHead")
        for what, given, want in [
            ("two Host fields", request("POST", "/v1/requests", CREATE, HEAD + HEAD), refused(400, "Bad Request", "BadHost")),
            ("no Host field", request("POST", "/v1/requests", CREATE, ""), refused(400, "Bad Request", "BadHost")),
            ("PUT", request("PUT", "/v1/requests", CREATE), b"HTTP/1.1 501 Not Implemented\r\nContent-Length: 0\r\nConnection: close\r\n\r\n"),
            ("HEAD", request("HEAD", "/v2"), b"HTTP/1.1 501 Not Implemented\r\nContent-Length: 0\r\nConnection: close\r\n\r\n"),
            ("HTTP/1.0", request("GET", "/v2", version="HTTP/1.0"), refused(505, "HTTP Version Not Supported", "WrongVersion")),
            ("Transfer-Encoding", request("POST", "/v1/requests", CREATE, HEAD + "Transfer-Encoding: chunked\r\n"),
             refused(501, "Not Implemented", "NoTransferCoding")),
            ("two lengths", request("POST", "/v1/requests", CREATE, HEAD + length), refused(400, "Bad Request", "BadLength")),
            ("a length of 11 digits", request("POST", "/v1/requests", None, HEAD + "Content-Length: 12345678901\r\n"),
             refused(400, "Bad Request", "BadLength")),
            ("a length of 65537", request("POST", "/v1/requests", None, HEAD + "Content-Length: 65537\r\n"),
             refused(413, "Payload Too Large", "TooLarge")),
            ("no length", request("POST", "/v1/requests"), refused(411, "Length Required", "LengthRequired")),
            ("8192 bytes of head without an end", b"GET /v2 HTTP/1.1\r\nHost: a\r\nX: ".ljust(8192, b"x"), bad_head),
            ("33 fields", request("GET", "/v2", fields=HEAD + "X: y\r\n" * 32), bad_head),
            ("no head", b"hello\r\n\r\n", bad_head),
            ("a body that ends too early", request("POST", "/v1/requests", CREATE)[:-1], b""),
            ("a head that ends too early", request("POST", "/v1/requests", CREATE)[:60], b""),
            ("no byte", b"", b""),
        ]:
            checks.same(what, server.raw(given), want)
        checks.same("none of them was decided", server.ask("GET", "/v1/rings/object/devices")[0], 422)
        padded = request("POST", "/v1/requests", None, HEAD + f"Content-Length: 00000000{len(CREATE)}\r\n") + CREATE.encode()
        checks.same("a length with zeros before it", server.raw(padded), answer(200, "OK", FIRST_REPLIES[0]))
        body = CREATE.ljust(65536)
        checks.same("a body of 65536 bytes", server.raw(request("POST", "/v1/requests", body)), answer(200, "OK", FIRST_REPLIES[0]))


NO_ROUTE = answer(404, "Not Found", '{"fault":"NoRoute","status":404}')
NO_HEAD = refused(400, "Bad Request", "BadHead")
AWAY = request("GET", "/v2")
# Heads that clients and proxies may send, and what a GET of no route behind each is told with it.
HEADS = {
    "lines that end with LF alone": (b"GET /v2 HTTP/1.1\nHost: a\n\n", NO_ROUTE * 2),
    "CR LF before the first line": (b"\r\n" + AWAY, NO_ROUTE * 2),
    "a field that is folded": (b"GET /v2 HTTP/1.1\r\nHost: a\r\nX: b\r\n c\r\n\r\n", NO_HEAD),
    "a space before the colon": (b"GET /v2 HTTP/1.1\r\nHost : a\r\n\r\n", NO_HEAD),
    "NUL in a value": (b"GET /v2 HTTP/1.1\r\nHost: a\0b\r\n\r\n", NO_HEAD),
    "two spaces in the first line": (b"GET  /v2 HTTP/1.1\r\nHost: a\r\n\r\n", NO_HEAD),
    "HTTP/1.2": (request("GET", "/v2", version="HTTP/1.2"), NO_HEAD),
    "Connection: TE, close": (b"GET /v2 HTTP/1.1\r\nHost: a\r\nConnection: TE, close\r\n\r\n", NO_ROUTE * 2),
    "a target with a scheme and a host": (request("GET", "http://a/v1/rings/x/devices"), NO_ROUTE * 2),
    "Transfer-Encoding: identity": (b"POST /v1/requests HTTP/1.1\r\nHost: a\r\nTransfer-Encoding: identity\r\n\r\n",
                                    refused(501, "Not Implemented", "NoTransferCoding")),
    "a whole head of 8192 bytes": (b"GET /v2 HTTP/1.1\r\nHost: a\r\nX: " + b"x" * 8158 + b"\r\n\r\n", NO_ROUTE * 2),
    "one of 8193 bytes": (b"GET /v2 HTTP/1.1\r\nHost: a\r\nX: " + b"x" * 8159 + b"\r\n\r\n", NO_HEAD),
}


def heads(checks):
    """Heads that clients and proxies may send."""
    with scratch() as room, Server(f"{room}/rings.db") as server:
        for what, (head, want) in HEADS.items():
            checks.same(what, server.raw(head + AWAY), want)


def of_account(account):
    """The nodes of an account in the ring `tiny`."""
    return 200, common.tiny_nodes(hashlib.md5(b"/" + account).digest()[0] >> 7)


def queries(checks):
    """A plus in a query, and bytes that are no UTF-8."""
    # a letter for which the two readings have other nodes
    apart = lambda one, other: next(letter for letter in b"abcdefghijklmnopqrstuvwxyz"
                                    if of_account(bytes([letter]) + one) != of_account(bytes([letter]) + other))
    with scratch() as room:
        run("run", "--file", f"{room}/rings.db", given=lines(*TINY))
        with Server(f"{room}/rings.db") as server:
            for what, sent, means, other in [("a plus is a space", "+", b" ", b"+"), ("%2B is a plus", "%2B", b"+", b" "),
                                             ("a byte that is no UTF-8 is U+FFFD", "%FF", "\ufffd".encode(), b"\xff")]:
                letter = apart(means, other)
                told = server.ask("GET", f"/v1/rings/tiny/nodes?account={chr(letter)}{sent}")
                checks.same(what, told, of_account(bytes([letter]) + means))


def curl(*words):
    """What curl prints, and its status."""
    done = subprocess.run(["curl", "-s", "--max-time", "20", *words], capture_output=True, timeout=30)
    return done.returncode, done.stdout


def by_curl(checks):
    """curl as people use it."""
    if not shutil.which("curl"):
        checks.skip("curl", "it is not there")
        return
    with scratch() as room, Server(f"{room}/rings.db") as server:
        at = f"http://127.0.0.1:{server.port}"
        for (_, text), reply in zip(FIRST, FIRST_REPLIES):
            checks.same(f"curl -d, {json.loads(text)['do']}", curl("-d", text, f"{at}/v1/requests"), (0, reply.encode()))
        checks.same("the table", curl(f"{at}/v1/rings/object/balance"), (0, FIRST_BALANCE))
        both = curl(f"{at}/v1/rings/object/balance", f"{at}/v1/rings/object/devices")
        checks.same("two URLs on one connection", both, (0, FIRST_BALANCE + FIRST_DEVICES))
        many = compact([[1, 1, f"10.0.{place // 200}.{place % 200}", 6200, f"m{place}", "1.00"] for place in range(250)])
        big = message(5, "import", rows=json.loads(many))
        Path(f"{room}/big.json").write_text(big)
        done = b'{"added":250,"done":"import","reweighted":0,"version":4}'
        checks.same("Expect: 100-continue", curl("-H", "Expect: 100-continue", "--data-binary", f"@{room}/big.json", f"{at}/v1/requests"), (0, done))
        status = ["-o", "/dev/null", "-w", "%{http_code}"]
        chunked = curl(*status, "-H", "Transfer-Encoding: chunked", "-d", FIRST[0][1], f"{at}/v1/requests")
        checks.same("a body by chunks is refused", chunked, (0, b"501"))
        checks.same("--http1.0 is refused", curl(*status, "--http1.0", f"{at}/v1/rings/object/balance"), (0, b"505"))
        checks.same("-I is refused", curl(*status, "-I", f"{at}/v2"), (0, b"501"))
        Path(f"{room}/rows.csv").write_text("region,zone,address,port,name,weight\n1,1,10.0.0.1,6200,d0,50.00\n")
        told = curl("--data-binary", f"@{room}/rows.csv", f"{at}/v1/import/object?caller=ops&number=6")
        checks.same("a CSV file", told, (0, b'{"added":0,"done":"import","reweighted":1,"version":5}'))


def by_http_client(checks):
    """Python's http.client, on one connection and on several, one behind the other."""
    with scratch() as room, Server(f"{room}/rings.db", count=4) as server:
        connection = http.client.HTTPConnection("127.0.0.1", server.port, timeout=20)
        told = []
        for _, text in FIRST:
            connection.request("POST", "/v1/requests", body=text)
            told.append(connection.getresponse().read().decode())
        checks.same("four requests on one connection", told, FIRST_REPLIES)
        connection.close()
        checks.same("a repeat on a second connection", server.post(FIRST[3][1]), (200, FIRST_REPLIES[3].encode()))
        checks.same("a read on a third", server.ask("GET", "/v1/rings/object/balance"), (200, FIRST_BALANCE))
        checks.same("a read on a fourth", server.ask("GET", "/v1/rings/object/devices"), (200, FIRST_DEVICES))
        rest = server.process.communicate(timeout=20)
        checks.same("after COUNT connections it ends, with status 0", (server.process.returncode, *rest), (0, b"", b""))


def words(checks):
    """Words of serve and loop, and what they cannot have."""
    with scratch() as room:
        file, given = f"{room}/rings.db", f"{room}/input"
        checks.same("serve with COUNT 0", run("serve", file, free_port(), 0), (0, b"", b""))
        with socket.socket() as taken:
            taken.bind(("127.0.0.1", 0))
            taken.listen()
            checks.same("a port that is taken", run("serve", file, taken.getsockname()[1], 0), fault("NetFailed", 28))
        for bad in (["0", "1"], ["65536", "1"], ["6200", "65536"], ["+80", "1"], ["6200", "1", "--hour", "x"]):
            status, told, errors = run("serve", file, *bad)
            checks.show(f"serve FILE {' '.join(bad)} ends with status 2", status == 2 and not told and errors, (status, told, errors))
        checks.same("loop without INPUT", run("loop", file, f"{room}/none"), fault("NoFile", 27))
        Path(given).write_bytes(b"x" * 32769)
        checks.same("an INPUT of 32769 bytes", run("loop", file, given), fault("TooLong", 29))
        length = 32768 - len(request("POST", "/v1/requests", None, HEAD + "Content-Length: 32000\r\n"))
        whole = request("POST", "/v1/requests", None, HEAD + f"Content-Length: {length}\r\n") + CREATE.encode().ljust(length)
        Path(given).write_bytes(whole)
        told = run("loop", f"{room}/whole.db", given, "--hour", "0")
        checks.same("one of 32768 bytes", (len(whole), told), (32768, (0, answer(200, "OK", FIRST_REPLIES[0]), b"")))
        stream = request("POST", "/v1/requests", CREATE) * 2 + request("GET", "/v1/rings/object/devices") + request("GET", "/v2", fields=HEAD + LAST)
        Path(given).write_bytes(stream)
        os.remove(file) if os.path.exists(file) else None
        with Server(f"{room}/served.db") as server:
            served = server.raw(stream)
        checks.same("loop prints what serve answers", run("loop", file, given, "--hour", "0"), (0, served, b""))
        checks.show("these are four answers", served.count(b"HTTP/1.1 ") == 4, served)
        Path(given).write_bytes(request("GET", "/v1/rings/object/devices"))
        told = run("loop", file, given)
        checks.show("a second loop finds the ring", told[0] == 0 and told[1].startswith(b"HTTP/1.1 200 OK"), told)
        Path(given).write_bytes(b"")
        checks.same("an empty INPUT", run("loop", file, given), (0, b"", b""))


def at_full_size(checks):
    """The largest of each: a published text, a CSV table, the name of an object, a list of devices."""
    with scratch() as room:
        file = f"{room}/rings.db"
        head = "region,zone,address,port,name,weight\n"
        table = head + "".join(f"{1 + place % 3},{place // 24},10.0.{place // 4}.1,6200,disk{place},100.00\n" for place in range(256))
        with Server(file) as server:
            server.post(message(1, "create", power=14, replicas=5, min_hours=0))
            told = server.ask("POST", "/v1/import/object?caller=ops&number=2", table.encode())
            checks.same("256 devices", told, (200, b'{"added":256,"done":"import","reweighted":0,"version":1}'))
            one_more = head + "1,1,10.9.9.9,6200,one,1.00\n"
            full = b'{"cause":7,"refused":"RowRefused","row":1,"rule":13}'
            checks.same("one more", server.ask("POST", "/v1/import/object?caller=ops&number=3", one_more.encode()), (422, full))
            again = table + "1,1,10.9.9.9,6200,one,1.00\n"
            full = full.replace(b'"row":1', b'"row":257')
            checks.same("257 rows", server.ask("POST", "/v1/import/object?caller=ops&number=4", again.encode()), (422, full))
            row = "1,0,10.0.0.1,6200,disk0,"
            filled = (table + (row + "50.00\n") * 3000)[:65536 - len(row) - 12].rpartition("\n")[0] + "\n"
            filled += row + "7" * (65536 - len(filled) - len(row) - 4) + ".00\n"
            long_weight = server.ask("POST", "/v1/import/object?caller=ops&number=5", filled.encode())
            rows = filled.count("\n") - 1
            bad = f'{{"column":6,"fault":"BadField","row":{rows},"rule":42}}'.encode()
            checks.same("a table of 65536 bytes is read to its last field", (len(filled), *long_weight), (65536, 400, bad))
            rows = [*filled.split("\n")[:-2], f"{row}77.00", ""]
            room_left = 65536 - len("\n".join(rows))
            largest = "\n".join(line + "\r" * (place < room_left) for place, line in enumerate(rows))
            told = server.ask("POST", "/v1/import/object?caller=ops&number=8", largest.encode())
            decided = f'{{"added":0,"done":"import","reweighted":{len(rows) - 2},"version":2}}'.encode()
            checks.same("a table of 65536 bytes is decided", (len(largest), *told), (65536, 200, decided))
            told = server.ask("POST", "/v1/import/object?caller=ops&number=9", largest.encode() + b"\n")
            checks.same("one of 65537 bytes is too large", told, (413, b'{"fault":"TooLarge","status":413}'))
            checks.show("a rebalance", server.post(message(6, "rebalance", seed=1))[0] == 200)
            checks.same("its text", server.post(message(7, "publish")), (200, b'{"done":"publish","version":3}'))
            status, text = server.ask("GET", "/v1/rings/object/text/3")
            checks.show("a text of power 14 with 5 replicas", status == 200 and len(text.splitlines()) > 16384, (status, len(text)))
            name = "x" * 1024
            spelt = server.ask("GET", "/v1/rings/object/nodes?account=a&container=c&object=" + "%78" * 1024)
        checks.same("the same text by export", run("export", file, "object", "3")[1], text)
        nodes = run("nodes", file, "object", "a", "--container", "c", "--object", name)[1]
        checks.same("a name of 1024 bytes, all percent-encoded", (spelt[0], spelt[1] + b"\n"), (200, nodes))


def stopped_and_started(checks):
    """SIGKILL and SIGTERM between requests: what was answered is kept."""
    with scratch() as room:
        file = f"{room}/rings.db"
        with Server(file) as server:
            for _, text in FIRST[:3]:
                server.post(text)
            checks.same("stopped by SIGKILL", server.stop(), -signal.SIGKILL)
        with Server(file) as server:
            checks.same("started again, a repeat gets its kept reply", server.post(FIRST[2][1]), (200, FIRST_REPLIES[2].encode()))
            checks.same("and the next request goes on", server.post(FIRST[3][1]), (200, FIRST_REPLIES[3].encode()))
            status = server.stop(signal.SIGTERM)
            checks.show(f"stopped by SIGTERM (status {status})", status in (0, -signal.SIGTERM), status)
        with Server(file) as server:
            checks.same("started again, the repeat", server.post(FIRST[3][1]), (200, FIRST_REPLIES[3].encode()))
            checks.same("and the table", server.ask("GET", "/v1/rings/object/balance"), (200, FIRST_BALANCE))


def under_load(checks):
    """Killed again and again while a client sends numbered requests: each acts once."""
    draw, kills, count = random.Random(7), 0, 600
    with scratch() as room:
        file = f"{room}/rings.db"
        server = Server(file)
        server.post(CREATE)
        done, replies, until = threading.Event(), {}, time.monotonic() + 25

        def send():
            for number in range(2, count + 2):
                while not done.is_set() and time.monotonic() < until:
                    try:
                        replies[number] = server.post(message(number, "set_hours", min_hours=number), 3)
                        break
                    except (OSError, http.client.HTTPException):
                        time.sleep(0.01)
            done.set()

        client = threading.Thread(target=send)
        client.start()
        while not done.wait(draw.uniform(0.02, 0.2)) and time.monotonic() < until:
            server.stop(draw.choice([signal.SIGKILL, signal.SIGTERM]))
            kills += 1
            server = Server(file, port=server.port)
        done.wait(5)
        client.join()
        numbers = range(2, max(replies, default=2) + 1)
        want = {number: (200, compact({"done": "set_hours", "version": number - 1}).encode()) for number in numbers}
        is_once = replies == want and len(replies) >= 20
        checks.show(f"{len(replies)} requests under {kills} kills: the reply to each says that it acted once, in order",
                    is_once, [it for it in replies.items() if it[1] != want[it[0]]][:3])
        again = {number: server.post(message(number, "set_hours", min_hours=number)) for number in numbers}
        checks.show("each repeat gets the same reply", again == want, [it for it in again.items() if it[1] != want[it[0]]][:3])
        server.stop()


def silent(checks):
    """A client that sends nothing holds the others about 1 second."""
    with scratch() as room, Server(f"{room}/rings.db") as server, server.connect():
        time.sleep(0.05)
        begun = time.monotonic()
        told = server.post(CREATE)
        took = time.monotonic() - begun
        checks.same("the other is answered", told, (200, FIRST_REPLIES[0].encode()))
        checks.show(f"after {took:.1f} seconds", 0.5 < took < 3, took)
        with server.connect() as one:
            one.sendall(request("GET", "/v2"))
            first = one.recv(4096)
            begun = time.monotonic()
            told = server.ask("GET", "/v2")[0]
            took = time.monotonic() - begun
        is_soon = told == 404 and first and 0.5 < took < 3
        checks.show(f"one that is silent after a request: the other is answered after {took:.1f} seconds", is_soon, took)


def halfway(checks):
    """A client that stops within a request holds the others about 10 seconds, and decides nothing."""
    whole = request("POST", "/v1/requests", CREATE)
    for what, part in [("within a head", whole[:30]), ("within a body", whole[:-5])]:
        with scratch() as room, Server(f"{room}/rings.db") as server, server.connect() as one:
            one.sendall(part)
            time.sleep(0.05)
            begun = time.monotonic()
            told = server.ask("GET", "/v1/rings/object/devices")[0]
            took = time.monotonic() - begun
            checks.show(f"one that stops {what}: the other is answered after {took:.1f} seconds", told == 422 and 5 < took < 14, (told, took))


def drop_by_drop(checks):
    """A client that sends a byte a second holds the others about 10 seconds in all."""
    with scratch() as room, Server(f"{room}/rings.db") as server, server.connect() as one:
        stop = threading.Event()

        def drip():
            for byte in request("POST", "/v1/requests", CREATE):
                try:
                    one.sendall(bytes([byte]))
                except OSError:
                    return
                if stop.wait(0.9):
                    return

        dripping = threading.Thread(target=drip)
        dripping.start()
        time.sleep(0.05)
        begun = time.monotonic()
        told = server.ask("GET", "/v2", seconds=45)[0]
        took = time.monotonic() - begun
        stop.set()
        dripping.join()
        checks.show(f"the other is answered after {took:.1f} seconds", told == 404 and took < 14, (told, took))


def never_reads(checks):
    """A client that does not read its answers holds the others about 10 seconds."""
    with scratch() as room:
        file = f"{room}/rings.db"
        run("run", "--file", file, given=lines(*FIRST))
        with Server(file) as server, server.connect() as one:
            one.setsockopt(socket.SOL_SOCKET, socket.SO_RCVBUF, 4096)
            one.settimeout(0.2)
            asked, sent = request("GET", "/v1/rings/object/devices") * 2000, 0
            begun = time.monotonic()
            try:
                while sent < 200 * len(asked) and time.monotonic() - begun < 3:
                    sent += one.send(asked)
            except OSError:
                pass
            told = server.ask("GET", "/v2", seconds=45)[0]
            took = time.monotonic() - begun
            checks.show(f"the other is answered after {took:.1f} seconds", told == 404 and took < 18, (told, took, sent))


def never_stops(checks):
    """A client that never stops asking on one connection holds the others about 10 seconds."""
    with scratch() as room, Server(f"{room}/rings.db") as server, server.connect() as one:
        stop, told = threading.Event(), []

        def ask_on():
            while not stop.is_set():
                try:
                    one.sendall(request("GET", "/v2"))
                    more = one.recv(4096)
                except OSError:
                    return
                if not more:
                    return
                told.append(more)
                stop.wait(0.2)

        asking = threading.Thread(target=ask_on)
        asking.start()
        time.sleep(0.5)
        begun = time.monotonic()
        answered = server.ask("GET", "/v2", seconds=45)[0]
        took = time.monotonic() - begun
        stop.set()
        asking.join()
        whole = {answer(404, "Not Found", '{"fault":"NoRoute","status":404}')}
        checks.show(f"the other is answered after {took:.1f} seconds", answered == 404 and 7 < took < 13, (answered, took))
        checks.show(f"and each of the {len(told)} answers of the first is whole", set(told) == whole and len(told) > 10, told[-1:])


def alone(checks):
    """A client that is alone keeps its connection beyond 10 seconds."""
    with scratch() as room, Server(f"{room}/rings.db") as server, server.connect() as one:
        begun, count = time.monotonic(), 0
        while time.monotonic() - begun < 13:
            one.sendall(request("GET", "/v2"))
            count += bool(one.recv(4096))
            time.sleep(0.5)
        checks.show(f"{count} answers on one connection in 13 seconds", count >= 15, count)


def reads_slowly(checks):
    """A client that reads 4 KB a second of long answers holds the others about 10 seconds."""
    with scratch() as room:
        file = f"{room}/rings.db"
        run("run", "--file", file, given=lines(*FIRST))
        with Server(file) as server, socket.socket() as one:
            one.setsockopt(socket.SOL_SOCKET, socket.SO_RCVBUF, 4096)
            one.settimeout(30)
            one.connect(("127.0.0.1", server.port))
            stop = threading.Event()

            def sip():
                try:
                    one.sendall(request("GET", "/v1/rings/object/devices") * 20000)
                    while not stop.wait(1) and one.recv(4096):
                        pass
                except OSError:
                    return

            sipping = threading.Thread(target=sip)
            sipping.start()
            time.sleep(0.5)
            begun = time.monotonic()
            answered = server.ask("GET", "/v2", seconds=60)[0]
            took = time.monotonic() - begun
            stop.set()
            one.close()
            sipping.join()
            checks.show(f"the other is answered after {took:.1f} seconds", answered == 404 and took < 14, (answered, took))


def in_line(checks):
    """Fifty idle clients in line before one that asks: each costs about a second."""
    with scratch() as room, Server(f"{room}/rings.db") as server:
        idle = [server.connect() for _ in range(50)]
        begun = time.monotonic()
        answered = server.ask("GET", "/v2", seconds=90)[0]
        took = time.monotonic() - begun
        for one in idle:
            one.close()
        checks.show(f"the one behind them is answered after {took:.1f} seconds", answered == 404 and 45 < took < 60, (answered, took))


def address(checks):
    """It listens on 127.0.0.1 alone, and nowhere else."""
    with scratch() as room, Server(f"{room}/rings.db") as server:
        table = [line.split() for line in Path("/proc/net/tcp").read_text().splitlines()[1:]]
        bound = [one[1] for one in table if one[3] == "0A" and one[1].endswith(f":{server.port:04X}")]
        checks.same("the address that is bound", bound, [f"0100007F:{server.port:04X}"])
        six = Path("/proc/net/tcp6")
        others = [line.split()[1] for line in six.read_text().splitlines()[1:]] if six.exists() else []
        checks.same("none of IPv6", [one for one in others if one.endswith(f":{server.port:04X}")], [])
        try:
            socket.create_connection(("127.0.0.2", server.port), timeout=5).close()
            is_refused = False
        except ConnectionRefusedError:
            is_refused = True
        checks.show("another address of the machine is refused", is_refused)


def broken_off(checks):
    """Clients that reset their connection."""
    whole = request("POST", "/v1/requests", CREATE)
    with scratch() as room, Server(f"{room}/rings.db") as server:
        for part in (b"", whole[:10], whole[:-1], whole, whole * 3):
            one = server.connect()
            one.setsockopt(socket.SOL_SOCKET, socket.SO_LINGER, struct.pack("ii", 1, 0))
            if part:
                one.sendall(part)
            one.close()
        told = server.post(CREATE)
        checks.same("the service goes on, and the request acted once", told, (200, FIRST_REPLIES[0].encode()))
        checks.show("it has not ended", server.process.poll() is None)


def at_once(checks):
    """32 clients at once, each answered."""
    with scratch() as room, Server(f"{room}/rings.db") as server:
        server.post(CREATE)
        gate, told = threading.Barrier(32), {}

        def one(place):
            gate.wait()
            told[place] = server.post(add(1, place).replace('"ops"', f'"c{place}"'), 50)

        clients = [threading.Thread(target=one, args=(place,)) for place in range(32)]
        begun = time.monotonic()
        for client in clients:
            client.start()
        for client in clients:
            client.join()
        took = time.monotonic() - begun
        ids = sorted(json.loads(body)["id"] for status, body in told.values() if status == 200)
        checks.show(f"32 clients were answered in {took:.1f} seconds, each device once", ids == list(range(32)), told)


def thousand_connections(checks):
    """1,000 connections, one after another; memory stays flat."""
    with scratch() as room, Server(f"{room}/rings.db") as server:
        server.post(CREATE)
        for _ in range(50):
            server.ask("GET", "/v1/rings/object/devices")
        before = server.memory()
        statuses = {server.ask("GET", "/v1/rings/object/devices")[0] for _ in range(1000)}
        after = server.memory()
        checks.same("each was answered", statuses, {200})
        checks.show(f"memory before {before} kB, after {after} kB", after <= before + 512, (before, after))


def mutated(draw):
    """A request that is changed at random, or random bytes."""
    whole = bytearray(request("POST", "/v1/requests", message(draw.randrange(2, 9), "set_hours", min_hours=draw.randrange(9)))
                      if draw.random() < 0.6 else request("GET", "/v1/rings/object/balance"))
    for _ in range(draw.choice([0, 1, 1, 2, 5])):
        kind, at = draw.randrange(4), draw.randrange(len(whole))
        if kind == 0:
            whole[at] = draw.randrange(256)
        elif kind == 1:
            del whole[at:at + draw.randrange(1, 9)]
        elif kind == 2:
            whole[at:at] = bytes(draw.randrange(256) for _ in range(draw.randrange(1, 9)))
        else:
            whole = whole[:at + 1]
        if not whole:
            whole = bytearray(b"\0")
    return bytes(whole)


KNOWN = {200, 400, 404, 405, 409, 411, 413, 422, 501, 505}


def random_requests(checks):
    """Random and changed requests: no wrong answer, and no ring changes without a number."""
    draw, count = random.Random(11), 100000 if "--long" in sys.argv else 3000
    with scratch() as room, Server(f"{room}/rings.db") as server:
        server.post(CREATE)
        strange, replies = [], {}
        for _ in range(count // 10):
            for part in server.raw(b"".join(mutated(draw) for _ in range(10))).split(b"HTTP/1.1 ")[1:]:
                head, _, body = part.partition(b"\r\n\r\n")
                if int(head[:3]) not in KNOWN or f"Content-Length: {len(body)}".encode() not in head:
                    strange.append(part)
                elif b'"done":"set_hours"' in body:
                    replies[json.loads(body)["version"]] = replies.get(json.loads(body)["version"], 0) + 1
        checks.show(f"{count} requests on {count // 10} connections: each answer is whole and known", not strange, strange[:3])
        version = int(server.ask("GET", "/v1/rings/object/balance")[1].split()[-1])
        is_once = sorted(replies) == list(range(1, version + 1))
        checks.show(f"the version went up to {version}, once for each number that was decided", is_once, (version, replies))


SLOW = [silent, halfway, drop_by_drop, never_reads, never_stops, alone, reads_slowly, in_line, at_once, under_load]


def slow_ones(checks):
    """Clients that are slow, silent or many, side by side."""
    def alone(part):
        own = Quiet()
        try:
            part(own)
        except Exception as error:
            own.show(part.__name__, False, repr(error))
        return part, own.seen

    with ThreadPoolExecutor(len(SLOW)) as workers:
        for part, seen in workers.map(alone, SLOW):
            print(f"== {part.__doc__.splitlines()[0]}")
            for what, held, told in seen:
                checks.show(what, held, told)


class Quiet:
    """Keeps what was shown, to be told later."""

    def __init__(self):
        self.seen = []

    def show(self, what, held, told=""):
        self.seen.append((what, held, told))
        return bool(held)

    def same(self, what, got, want):
        return self.show(what, got == want, f"\n    got  {common.shown(got)}\n    want {common.shown(want)}")


def main():
    checks = Checks("service.py", 1800 if "--long" in sys.argv else 900)
    if not has("serve"):
        checks.skip("the service", "the program has no serve")
        print("0 passed, 0 failed")
        return 0
    return checks.run(
        words, routes, whole_ring, preview, moves, swift_files, rings_and_status, log, metrics, refusals, heads, queries, at_full_size, by_curl, by_http_client,
        stopped_and_started, address, broken_off,
        thousand_connections, random_requests, slow_ones)


if __name__ == "__main__":
    sys.exit(main())
