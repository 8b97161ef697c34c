"""What the checks of the built program share: where it lies, its requests, and the count of what was shown.

The program is what the environment variable RINGD names, a path or a command; else what ./ringd runs.
"""
import json
import os
import re
import shlex
import signal
import subprocess
import sys
import tempfile
import time
from pathlib import Path

TOP = Path(__file__).resolve().parent.parent
NOBODY = 65534


def program():
    """The words that start the built program."""
    named = os.environ.get("RINGD")
    if named:
        return shlex.split(named)
    lies = re.search(r"^program=\$top/(\S+)$", (TOP / "ringd").read_text(), re.M)
    return [str(TOP / lies.group(1))]


def need_program():
    """Ends with status 2 where there is no program to check."""
    first = program()[0]
    if not os.access(first, os.X_OK):
        print(f"{first} is not there: ./ringd proves and builds it, or RINGD names another one")
        sys.exit(2)


class TookTooLong(Exception):
    """A check was not done within its time."""


class Checks:
    """Counts what was shown, and prints each of it."""

    def __init__(self, name, seconds):
        need_program()
        self.name, self.passed, self.failed, self.begun = name, 0, 0, time.monotonic()
        signal.signal(signal.SIGALRM, self.stop)
        signal.alarm(seconds)

    def stop(self, _number, _frame):
        raise TookTooLong(f"{self.name} was not done within its time")

    def show(self, what, held, told=""):
        self.passed, self.failed = self.passed + bool(held), self.failed + (not held)
        print(f"{'ok     ' if held else 'FAILED '} {what}" + ("" if held or not told else f": {told}"), flush=True)
        return bool(held)

    def same(self, what, got, want):
        """Shows that two values are one."""
        return self.show(what, got == want, f"\n    got  {shown(got)}\n    want {shown(want)}")

    def skip(self, what, why):
        print(f"skipped {what}: {why}", flush=True)

    def run(self, *parts):
        """Runs the parts, prints the count, and answers the exit status."""
        try:
            for part in parts:
                print(f"== {(part.__doc__ or part.__name__).splitlines()[0]}", flush=True)
                try:
                    part(self)
                except TookTooLong:
                    raise
                except Exception as error:  # a check that breaks has failed, and the others go on
                    self.show(part.__name__, False, repr(error))
        except TookTooLong as error:
            self.show(str(error), False)
        signal.alarm(0)
        print(f"{self.name}: {time.monotonic() - self.begun:.0f} seconds")
        print(f"{self.passed} passed, {self.failed} failed")
        return 1 if self.failed or not self.passed else 0


def shown(value):
    text = repr(value)
    return text if len(text) < 1500 else text[:1500] + " .."


def scratch():
    """A new folder, which goes with its context."""
    return tempfile.TemporaryDirectory(prefix="ringd-check-")


# The line that tells a fault, and the one behind it, which says what the fault means.
FAULT = re.compile(rb"^(ringd: [A-Za-z]+ [0-9]+\n)(ringd: [^\n]+\n)?", re.M)
UNTOLD = b"and no line says what that means\n"


def without_meanings(errors):
    """Standard error as it was told, without the line behind a fault's that says what the fault means. A fault that has none behind it gets
    a line that no check wants. What these lines say, checks/programs.py shows."""
    return FAULT.sub(lambda found: found[1] + (b"" if found[2] else UNTOLD), errors)


def run_whole(*words, given=b"", seconds=60, **more):
    """Runs the program to its end: its status, standard output and standard error."""
    done = subprocess.run([*program(), *map(str, words)], input=given, capture_output=True, timeout=seconds, **more)
    return done.returncode, done.stdout, done.stderr


def run(*words, **more):
    """The same, but for what faults mean."""
    status, told, errors = run_whole(*words, **more)
    return status, told, without_meanings(errors)


def has(name):
    """Whether the program has a program of this name."""
    return re.search(rf"(?m)^ +{name}\b", run("--help")[2].decode(errors="replace")) is not None


def fault(name, number):
    """What a program does that ends with this fault and has written nothing, but for what the fault means."""
    return 1, b"", f"ringd: {name} {number}\n".encode()


def compact(value):
    return json.dumps(value, separators=(",", ":"), sort_keys=True)


def message(number, do, caller="ops", ring="object", **fields):
    """The message of a numbered request."""
    return compact({"caller": caller, "number": number, "do": do, "ring": ring, **fields})


def add(number, place, weight="100.00", **fields):
    """The message that adds device `d<place>`."""
    row = {"address": f"10.0.0.{place + 1}", "name": f"d{place}", "port": 6200, "region": 1, "weight": weight, "zone": 1}
    return message(number, "add", **{**row, **fields})


def lines(*deliveries):
    """The lines of deliveries, each a pair of hour and message, or a question."""
    texts = (it if isinstance(it, str) else f"{it[0]} {it[1]}" for it in deliveries)
    return "".join(f"{text}\n" for text in texts).encode()


# Two devices of one replica: what becomes of these requests does not hang on the draw of a seed.
FIRST = [
    (0, message(1, "create", power=2, replicas=1, min_hours=24)),
    (0, add(2, 0)),
    (0, add(3, 1)),
    (0, message(4, "rebalance", seed=7)),
]
FIRST_REPLIES = [
    '{"done":"create","version":0}',
    '{"done":"add","id":0,"version":1}',
    '{"done":"add","id":1,"version":2}',
    '{"balance":0,"changed":4,"dispersion":0,"done":"rebalance","version":3}',
]
FIRST_ANSWERS = "".join(f"200 {reply}\n" for reply in FIRST_REPLIES).encode()
FIRST_DEVICES = b"""   id region  zone address          port     weight state   name
    0      1     1 10.0.0.1         6200     100.00 open    d0
    1      1     1 10.0.0.2         6200     100.00 open    d1
"""
FIRST_BALANCE = b"""   id     weight wanted    has balance
    0     100.00      2      2    0.00
    1     100.00      2      2    0.00
balance 0.00 dispersion 0.00 version 3
"""

# One device, which has every seat: its published text and its nodes are known whole.
TINY = [
    (0, message(1, "create", ring="tiny", power=1, replicas=1, min_hours=0)),
    (0, add(2, 0, ring="tiny")),
    (0, message(3, "rebalance", ring="tiny", seed=1)),
    (0, message(4, "publish", ring="tiny")),
]
TINY_TEXT = b"""swift-ring-text 1
ring tiny
version 2
power 1
replicas 1
devices 1
0 1 1 10.0.0.1 6200 100.00 present d0
seats
0
0
end
"""


def whole_device(place, seats):
    """What a whole ring tells of the device that `add` makes, which has the seats that it wants."""
    return {"address": f"10.0.0.{place + 1}", "has": seats, "id": place, "name": f"d{place}", "port": 6200, "region": 1, "state": "open",
            "wanted": seats, "weight": "100.00", "zone": 1}


# What both rings are told as, whole, at the hour 0 of their requests. Those of FIRST moved every partition in this hour.
FIRST_RING = compact({
    "balance": 0, "devices": [whole_device(0, 2), whole_device(1, 2)], "dispersion": 0, "hour": 0, "locked": 4, "min_hours": 24,
    "next_id": 2, "power": 2, "published": [], "replicas": 1, "rests": 24, "ring": "object", "seats": 4, "version": 3}).encode()
TINY_RING = compact({
    "balance": 0, "devices": [whole_device(0, 2)], "dispersion": 0, "hour": 0, "locked": 0, "min_hours": 0,
    "next_id": 1, "power": 1, "published": [2], "replicas": 1, "rests": 0, "ring": "tiny", "seats": 2, "version": 2}).encode()


def machine_hours():
    """The hour of the machine, and the one before, which may have been told a moment ago."""
    hour = int(time.time()) // 3600
    return hour, hour - 1


def is_shown_now(told, ring):
    """Whether a program told this whole ring at the hour of the machine, at which no partition of it is locked."""
    free = [{**json.loads(ring), "hour": hour, "locked": 0, "rests": 0} for hour in machine_hours()]
    return told in [(0, compact(ring).encode() + b"\n", b"") for ring in free]


def listed(**versions):
    """What is told of which rings there are, from their versions, without a line feed."""
    return compact({"rings": [{"ring": name, "version": versions[name]} for name in sorted(versions)]}).encode()


def status(hour, kept, rings):
    """What is told of how much is kept, without a line feed."""
    return compact({"hour": hour, "kept": kept, "limit": 100000, "rings": rings}).encode()


# The metrics of a ring in their order: name and help, and the value, of a whole ring as JSON tells it.
RING_METRICS = [
    ("version", "Version of the ring.", lambda ring: ring["version"]),
    ("partitions", "Partitions of the ring.", lambda ring: 2 ** ring["power"]),
    ("replicas", "Replicas of each partition.", lambda ring: ring["replicas"]),
    ("balance_percent", "How far the worst device is from its share, in percent of it.", lambda ring: f"{ring['balance'] // 100}.{ring['balance'] % 100:02d}"),
    ("dispersion_percent", "Partitions that could stand farther apart, in percent of all.", lambda ring: f"{ring['dispersion'] // 100}.{ring['dispersion'] % 100:02d}"),
    ("locked_partitions", "Partitions that a rebalance now would leave where they are.", lambda ring: ring["locked"]),
    ("locked_hours", "Hours until no partition is locked.", lambda ring: ring["rests"]),
    ("published_versions", "Published versions of the ring.", lambda ring: len(ring["published"])),
    ("published_limit", "Most versions that may be published.", lambda ring: 1000),
    ("misplaced_seats", "Seats that devices have above those that they want.", lambda ring: sum(max(0, device["has"] - device["wanted"]) for device in ring["devices"])),
]
STATES = ("open", "drained", "removed")


def unlocked(ring):
    """A whole ring, as JSON tells it, at an hour at which none of its partitions is locked."""
    return {**ring, "locked": 0, "rests": 0}


def metrics(held, rings):
    """The metrics of a status and of whole rings, as JSON tells them, in the text format of Prometheus."""
    def family(name, what, samples):
        name = f"ringd_{name}"
        return [f"# HELP {name} {what}", f"# TYPE {name} gauge", *(f"{name}{labels} {value}" for labels, value in samples)]

    told = []
    for name, what, key in (("numbers_kept", "Numbers of callers that are kept.", "kept"),
                            ("numbers_limit", "Most numbers that may be kept.", "limit"),
                            ("greatest_hour", "Greatest hour decided at, in hours since 1970.", "hour")):
        told += family(name, what, [("", held[key])])
    rings = sorted(rings, key=lambda ring: ring["ring"])
    for name, what, value in RING_METRICS:
        told += family(f"ring_{name}", what, [(f'{{ring="{ring["ring"]}"}}', value(ring)) for ring in rings])
    told += family("ring_devices", "Devices of the ring by state.", [
        (f'{{ring="{ring["ring"]}",state="{state}"}}', sum(device["state"] == state for device in ring["devices"]))
        for ring in rings for state in STATES])
    return "".join(line + "\n" for line in told).encode()


def tiny_nodes(partition):
    """The nodes of a path of this partition in the ring `tiny`, without a line feed."""
    device = {"address": "10.0.0.1", "device": "d0", "id": 0, "port": 6200, "region": 1, "zone": 1}
    return compact({"nodes": [device], "partition": partition}).encode()


# Twelve commands, three rebalances that move seats, refusals, a repeat and a number that is used again.
MANY = [
    (10, message(1, "create", power=4, replicas=2, min_hours=1)),
    (10, message(2, "import", rows=[[1, place % 3, f"10.0.1.{place + 1}", 6200, f"disk{place}", "100.00"] for place in range(6)])),
    (10, message(3, "rebalance", seed=1)),
    (10, message(4, "publish")),
    (10, add(5, 9, zone=3, weight="250.00")),
    (10, message(6, "rebalance", seed=2)),
    (11, message(7, "rebalance", seed=3)),
    (11, message(7, "rebalance", seed=3)),
    (11, message(8, "set_weight", id=1, weight="12.50")),
    (11, message(9, "remove", id=0)),
    (11, message(10, "rebalance", seed=4)),
    (11, message(10, "rebalance", seed=5)),
    (11, message(11, "set_hours", min_hours=2)),
    (12, message(12, "pretend_passed")),
    (12, message(13, "raise_power")),
    (12, message(1, "remove", caller="other", id=1)),
    (12, message(2, "keep", caller="other", id=1)),
    (12, message(14, "rebalance_as", seed=5, version=14, hour=12)),
    (12, message(15, "remove", id=77)),
    (12, message(16, "publish")),
]


def rows_of(file):
    """Every row of every table of a closed store, by table, read from a copy."""
    import shutil
    import sqlite3

    with scratch() as room:
        for end in ("", "-wal"):
            if os.path.exists(f"{file}{end}"):
                shutil.copyfile(f"{file}{end}", f"{room}/copy{end}")
        with_rows = sqlite3.connect(f"{room}/copy")
        try:
            names = [name for (name,) in with_rows.execute("SELECT name FROM sqlite_schema WHERE type = 'table' ORDER BY name")]
            return {name: sorted(with_rows.execute(f'SELECT * FROM "{name}"')) for name in names}
        finally:
            with_rows.close()


def files_of(file):
    """The bytes of a store's file and of its log."""
    return {end: Path(f"{file}{end}").read_bytes() if os.path.exists(f"{file}{end}") else None for end in ("", "-wal")}


def free_port():
    """A port of 127.0.0.1 that nobody listens on now."""
    import socket

    with socket.socket() as probe:
        probe.setsockopt(socket.SOL_SOCKET, socket.SO_REUSEADDR, 1)
        probe.bind(("127.0.0.1", 0))
        return probe.getsockname()[1]


HERE, EVERYWHERE = "0100007F", "00000000"


def addresses_of(port):
    """The addresses of this machine, as the kernel writes them, at which somebody listens on a port. No connection is made."""
    rows = [line.split() for line in Path("/proc/net/tcp").read_text().splitlines()[1:]]
    return {row[1][:8] for row in rows if row[3] == "0A" and row[1].endswith(f":{port:04X}")}


def is_listening(port):
    """Whether somebody listens on this port of 127.0.0.1."""
    return bool(addresses_of(port) & {HERE, EVERYWHERE})


def wait_until(holds, seconds=10):
    """Waits until something holds, and answers whether it did."""
    end = time.monotonic() + seconds
    while time.monotonic() < end:
        if holds():
            return True
        time.sleep(0.01)
    return holds()
