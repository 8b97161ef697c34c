#!/usr/bin/env python3
"""Judges where seats go: bench/quality.py [--small | --write | --picture | --forced] [--jobs N] [--saved] [--json FILE]

Over the clusters and events of bench/clusters.py rings are rebalanced by `ringd serve`, and beside it by Swift's own
builder where Debian's python3-swift is installed. Both start each event from their own first assignment, and rebalance
each step until nothing changes. One judge looks at the seats of both (bench/judge.py). Two tables tell what it found,
of first assignments and of events, as "ringd / Swift", with what the weights and what the wants force behind it in
brackets. Then it is told which goals are met, and where those that are not are missed most.

--small takes the clusters of power 8 and less and one seed. --write puts the tables into docs/placement.md. --jobs N
runs N clusters at a time. --saved takes a rebalance of Swift only where its command would save it. --json FILE writes
every figure. --picture prints the figures of docs/placement.svg as JSON, and does nothing else. --forced prints what is
forced in each cluster and by each event, and needs no program for it.
"""
import argparse
import collections
import http.client
import json
import multiprocessing
import re
import socket
import statistics
import subprocess
import sys
import tempfile
import time
from pathlib import Path

import judge
from clusters import CLUSTERS, SEEDS, Event, events_of
from program import TOP, machine
from common import need_program, program  # program has put its folder on the path

PAGE = TOP / "docs" / "placement.md"
BEGIN, END = "<!-- tables of bench/quality.py -->", "<!-- end of the tables -->"
SWIFT, SIDE = "/usr/bin/python3", Path(__file__).parent / "swift_quality_side.py"
BUILDERS = ("ringd", "Swift")
MOST_ROUNDS = 20
SMALL_POWER = 8
MOST_MOVES = 1.12
MOST_BEYOND_FORCED = 0.5
PICTURE = ("three uneven zones, 4 to 3 to 2", "a zone comes")


class Failed(Exception):
    """A program did not answer as it should, or the judge counts otherwise."""


# ---- ringd


class Service:
    """A ring of `ringd serve` over a new file, at an hour that stays."""

    def __init__(self, port, cluster, hours=0):
        self.port, self.number, self.devices, self.rows = port, 0, {}, None
        self.room = tempfile.TemporaryDirectory(prefix="ringd-quality-")
        words = [*program(), "serve", f"{self.room.name}/rings.db", str(port), "65535", "--hour", "1"]
        self.process = subprocess.Popen(words)
        self.connection = http.client.HTTPConnection("127.0.0.1", port, timeout=60)
        self.ask("create", power=cluster.power, replicas=cluster.replicas, min_hours=hours)

    def __enter__(self):
        return self

    def __exit__(self, *_):
        self.connection.close()
        self.process.terminate()
        self.process.wait()
        self.room.cleanup()

    def send(self, method, target, body=None):
        """A whole answer. A request whose answer was lost is sent again: its number makes that safe."""
        for _ in range(500):
            try:
                self.connection.request(method, target, body)
                answer = self.connection.getresponse()
                told = answer.read().decode()
                if answer.status != 200:
                    raise Failed(f"{target} {body}: {answer.status} {told}")
                return told
            except (OSError, http.client.HTTPException):
                self.connection.close()
                if self.process.poll() is not None:
                    raise Failed(f"{program()}: status {self.process.returncode}") from None
                time.sleep(0.01)
        raise Failed(f"{program()} does not answer on port {self.port}")

    def ask(self, do, **fields):
        """The reply to the next request."""
        self.number += 1
        body = {"caller": "quality", "number": self.number, "do": do, "ring": "object", **fields}
        return json.loads(self.send("POST", "/v1/requests", json.dumps(body, separators=(",", ":"))))

    def change(self, devices):
        """Brings the ring to these devices."""
        remain = [device for device in devices if not device.is_removed]
        rows = [row_of(device) for device in remain if self.devices.get(device.id, -1) != device.weight]
        if rows:
            self.ask("import", rows=rows)
        for device in devices:
            if device.is_removed and device.id in self.devices:
                self.ask("remove", id=device.id)
        self.devices = {device.id: device.weight for device in remain}

    def seats(self):
        """The seats as rows by partition, as the ring's published text has them."""
        version = self.ask("publish")["version"]
        text = self.send("GET", f"/v1/rings/object/text/{version}")
        self.rows = [list(map(int, line.split())) for line in text.partition("\nseats\n")[2].splitlines()[:-1]]
        return self.rows

    def wants(self):
        """What each device wants, as the ring's table tells it."""
        table = self.send("GET", "/v1/rings/object/balance").splitlines()[1:-1]
        return {int(words[0]): int(words[2]) for words in map(str.split, table) if int(words[2])}

    def settle(self, devices, seeds):
        """The seats after each rebalance of a step that changed something."""
        self.change(devices)
        rounds = []
        for seed in seeds:
            self.reply = self.ask("rebalance", seed=seed)
            if not self.reply["changed"]:
                break
            before = self.rows
            rounds.append(self.seats())
            if before:
                agree(f"seats moved, {self.reply}", judge.moved(before, self.rows) == self.reply["changed"])
        return rounds


def row_of(device):
    """The row of an import that makes a device, or sets its weight."""
    weight = f"{device.weight // 100}.{device.weight % 100:02d}"
    return [device.region, device.zone, device.server, 6200, f"d{device.id}", weight]


def agree(what, holds):
    """Ends where the program and the judge do not count alike."""
    if not holds:
        raise Failed(f"the judge counts otherwise: {what}")


def seeds_of(seed):
    """The seeds of the rebalances of a step."""
    return [1000 * seed + count for count in range(MOST_ROUNDS)]


def compare_counts(service, cluster):
    """Compares what the program tells of a ring with what the judge finds.

    Wants and balance only where no device has to be held below its share by weight: the program knows no such thing.
    """
    devices, rows, told, size = cluster.devices, service.rows, service.reply, (cluster.replicas, 2**cluster.power)
    agree(f"{cluster.name}, dispersion", int(100 * judge.dispersion(devices, rows)) == told["dispersion"])
    if all(share < 2**cluster.power for share in judge.shares(devices, *size).values()):
        agree(f"{cluster.name}, balance", abs(100 * judge.greatest_distance(devices, rows) - told["balance"]) < 1.001)
        agree(f"{cluster.name}, wants", service.wants() == judge.wanted(devices, *size))


def run_ringd(port, cluster, events, seed):
    """The rebalances of the first step, then for each event those of each of its steps."""
    first, found = None, []
    for event in events or [Event("nothing", ())]:
        with Service(port, cluster) as service:
            base = service.settle(cluster.devices, seeds_of(seed))
            agree(f"{cluster.name}, seed {seed} gives one ring", first in (None, base))
            if first is None:
                compare_counts(service, cluster)
            first = base
            found.append([service.settle(devices, seeds_of(seed)) for devices in event.steps])
    return first, found


def moved_early(port, cluster, seed):
    """How many partitions were taken off a remaining device while locked, in four rebalances: 0.

    All partitions are locked by their first assignment when a device comes. Then the hours are taken as passed, so that
    only those that move now are locked when a zone doubles its weights, and when a device is removed.
    """
    come, first = events_of(cluster)[0].steps[0], cluster.devices[0].zone
    doubled = tuple(device._replace(weight=device.weight * (1 + (device.zone == first))) for device in come)
    removed = (doubled[0]._replace(is_removed=True), *doubled[1:])
    early, locked, seats = 0, set(range(2**cluster.power)), None
    with Service(port, cluster, hours=1) as service:
        for count, devices in enumerate((cluster.devices, come, come, doubled, removed)):
            service.change(devices)
            if count == 2:
                service.ask("pretend_passed")
                locked = set()
            service.ask("rebalance", seed=seed)
            before, seats = seats, service.seats()
            if before:
                early += judge.moved_early(devices, before, seats, locked)
                locked |= {partition for partition, (old, new) in enumerate(zip(before, seats)) if old != new}
    return early


# ---- Swift


def has_swift():
    """Whether Swift's code is there."""
    try:
        return not subprocess.run([SWIFT, "-I", "-c", "import swift.common.ring"], capture_output=True).returncode
    except OSError:
        return False


def run_swift(cluster, events, seed, is_saved):
    """The same by Swift's own builder."""
    asked = {"power": cluster.power, "replicas": cluster.replicas, "first": cluster.devices, "seeds": seeds_of(seed),
             "is_saved": is_saved, "events": [event.steps for event in events]}
    done = subprocess.run([SWIFT, "-I", str(SIDE)], input=json.dumps(asked), text=True, capture_output=True)
    if done.returncode:
        raise Failed(f"{SIDE.name}: {done.stderr[-1500:]}")
    lines = map(json.loads, done.stdout.splitlines())
    return next(lines), [[next(lines) for _ in event.steps] for event in events]


# ---- what was found


def judge_event(seats, event, found):
    """The figures of an event, over all its steps, and of the ring that it left."""
    told = collections.Counter(moved=0, least=0, rounds=0, lost_two=0, unsettled=0, steps=len(event.steps))
    for devices, rounds in zip(event.steps, found):
        for before, after in zip([seats, *rounds], rounds):
            told["moved"] += judge.moved(before, after)
            told["lost_two"] += judge.lost_two(devices, before, after)
            devices = [device for device in devices if not device.is_removed]
        last = rounds[-1] if rounds else seats
        told.update(least=judge.least_moves(seats, last), rounds=len(rounds), unsettled=len(rounds) == MOST_ROUNDS)
        seats = last
    left = [device for device in event.steps[-1] if not device.is_removed]
    return {**told, **judge.standing(left, seats)}


def records_of(builder, cluster, events, seed, ran):
    """A record for the first assignment, and one for each event."""
    first, found = ran
    common = {"builder": builder, "cluster": cluster.name, "seed": seed}
    standing = judge.standing(cluster.devices, first[0])
    told = [{**common, "event": None, **standing, "dispersion": judge.dispersion(cluster.devices, first[0])}]
    for event, rounds in zip(events, found):
        from_even = distance_from_even(cluster, event)
        told.append({**common, "event": event.name, **judge_event(first[-1], event, rounds), "from_even": from_even})
    return told


def distance_from_even(cluster, event):
    """The greatest distance that the law forces after an event on a ring that was as good as can be."""
    return judge.distance_from_even([cluster.devices, *event.steps], cluster.replicas, 2**cluster.power)


PORTS = None


def set_ports(ports):
    """Hands a worker the ports of all of them."""
    global PORTS
    PORTS = ports


def run_one(task):
    """All records of a cluster with a seed."""
    cluster, seed, with_swift, is_saved = task
    events, port = events_of(cluster), PORTS.get()
    try:
        told = records_of("ringd", cluster, events, seed, run_ringd(port, cluster, events, seed))
        told[0]["moved_early"] = moved_early(port, cluster, seed)
    finally:
        PORTS.put(port)
    if with_swift:
        told += records_of("Swift", cluster, events, seed, run_swift(cluster, events, seed, is_saved))
    return told


def free_ports(count):
    """So many ports that nobody listens on, no two the same."""
    held = [socket.create_server(("127.0.0.1", 0)) for _ in range(count)]
    found = [one.getsockname()[1] for one in held]
    for one in held:
        one.close()
    return found


def run_all(clusters, seeds, words):
    """The records of all clusters and seeds, by so many workers at a time."""
    with_swift = has_swift()
    clusters = sorted(clusters, key=lambda cluster: -cluster.power)
    tasks = [(cluster, seed, with_swift, words.saved) for cluster in clusters for seed in seeds]
    ports, told = multiprocessing.Queue(), []
    for port in free_ports(words.jobs):
        ports.put(port)
    with multiprocessing.Pool(words.jobs, set_ports, (ports,)) as pool:
        for count, records in enumerate(pool.imap_unordered(run_one, tasks), 1):
            told += records
            print(f"\r{count} of {len(tasks)}", end="" if count < len(tasks) else "\n", file=sys.stderr, flush=True)
    return told


# ---- the tables


def mean(records, name):
    """The mean of a figure, a name or a function, over the records that have it; none where none has."""
    found = [name(record) if callable(name) else record[name] for record in records]
    found = [value for value in found if value is not None]
    return statistics.mean(found) if found else None


def moves(record):
    """How many times the least was moved, where something had to move."""
    return record["moved"] / record["least"] if record["least"] else None


def rounds(record):
    return record["rounds"] / record["steps"]


def both(records, name, digits=2):
    """A figure of both builders."""
    sides = ([record for record in records if record["builder"] == builder] for builder in BUILDERS)
    means = [mean(side, name) if side else None for side in sides]
    return " / ".join("-" if value is None else f"{value:.{digits}f}" for value in means)


# The columns that both tables have: what they tell, its figure, what it is after "forced" and "by_wants", and digits.
PLACED = (("not apart: regions", "not_apart_region", "region", 2), ("not apart: zones", "not_apart_zone", "zone", 2),
          ("all in one zone", "in_one_zone", "in_one_zone", 1), ("greatest distance", "distance", "distance", 2))
NAMES = [what for what, *_ in PLACED]


def what_is_forced(records, name, digits):
    """What the weights force, and what the wants."""
    return f"{mean(records, f'forced_{name}'):.{digits}f}; {mean(records, f'by_wants_{name}'):.{digits}f}"


def placed(records):
    """A figure of both builders in each of these columns, and what is forced, which is the same for both."""
    return [f"{both(records, name, digits)} ({what_is_forced(records, forced, digits)})"
            for _, name, forced, digits in PLACED]


def table(columns, rows):
    lines = [f"| {' | '.join(columns)} |", "|" + "---|" * len(columns)]
    return "\n".join([*lines, *(f"| {' | '.join(row)} |" for row in rows)]) + "\n"


def first_table(records, clusters):
    """First assignments, a row for each cluster."""
    rows = []
    for cluster in clusters:
        found = [record for record in records if record["event"] is None and record["cluster"] == cluster.name]
        size = f"{2**cluster.power}, {cluster.replicas}, {len(cluster.devices)}"
        rows.append([cluster.name, size, *placed(found), both(found, "dispersion")])
    found = [record for record in records if record["event"] is None]
    rows.append(["**mean**", "", *placed(found), both(found, "dispersion")])
    return table(["cluster", "partitions, replicas, devices", *NAMES, "dispersion"], rows)


def by_event(records):
    """The records of each kind of event, by its name, and those of all."""
    found = [record for record in records if record["event"] is not None]
    names = list(dict.fromkeys(record["event"] for record in found))
    return [(name, [record for record in found if record["event"] == name]) for name in names] + [("**mean**", found)]


def event_table(records):
    """Events, a row for each kind of them."""
    rows = [[name, both(part, moves, 3), both(part, rounds), *placed(part)] for name, part in by_event(records)]
    return table(["event", "moved, of the least", "rounds", *NAMES], rows)


def tell_forced():
    """Prints what the weights and what the wants force, in each cluster and by each event, and in the mean."""
    records = []
    for cluster in CLUSTERS:
        for event in [None, *events_of(cluster)]:
            devices = event.steps[-1] if event else cluster.devices
            left = tuple(device for device in devices if not device.is_removed)
            found = judge.all_forced(left, cluster.replicas, 2**cluster.power)
            from_even = distance_from_even(cluster, event) if event else found["by_wants_distance"]
            records.append({"cluster": cluster.name, "event": event and event.name, **found, "from_even": from_even})
    firsts = [record for record in records if record["event"] is None]
    parts = [(f"{record['cluster']}, {record['event'] or 'first assignment'}", [record]) for record in records]
    parts += [("**mean of first assignments**", firsts)]
    parts += [(f"**mean: {name.strip('*')}**" if name[0] != "*" else "**mean of events**", part)
              for name, part in by_event(records)]
    rows = [[what, *(what_is_forced(part, forced, digits) for _, _, forced, digits in PLACED),
             f"{mean(part, 'from_even'):.2f}"] for what, part in parts]
    print(table(["weights; wants", *NAMES, "the last, from an even ring"], rows))


# ---- the goals


def worst(records, figure, count=3):
    """Where a figure is greatest."""
    found = [(figure(record), record) for record in records if figure(record) is not None]
    found.sort(key=lambda pair: -pair[0])
    return [f"{value:.2f}: {record['cluster']}, {record['event'] or 'first assignment'}, seed {record['seed']}"
            for value, record in found[:count] if value > 0]


def beside_swift(records):
    """For each figure: whether ringd's mean over the events is no greater than Swift's."""
    sides = {builder: [record for record in records if record["builder"] == builder] for builder in BUILDERS}
    figures = (("not apart: regions", "not_apart_region"), ("not apart: zones", "not_apart_zone"),
               ("moves, of the least", moves), ("rounds", rounds), ("greatest distance", "distance"))
    theirs = {(record["cluster"], record["event"], record["seed"]): record for record in sides["Swift"]}
    for what, name in figures:
        if not sides["Swift"]:
            yield f"{what}: Swift's builder is not there", None, []
            continue
        ours, other = (mean(sides[builder], name) for builder in BUILDERS)
        value = name if callable(name) else (lambda record, name=name: record[name])

        def more(record, value=value):
            swift = value(theirs[record["cluster"], record["event"], record["seed"]])
            return None if swift is None or value(record) is None else value(record) - swift

        line = f"{what}: {ours:.3f}, no more than Swift's {other:.3f}"
        if name == "distance":
            at_rest, even = mean(records, "by_wants_distance"), mean(records, "from_even")
            line += f" (forced at rest: {told_forced(at_rest, other, 'no lawful builder', 3)}; after even first "
            line += f"assignments: {told_forced(even, other, 'no lawful builder that makes these', 3)})"
        yield line, ours <= other, worst(sides["ringd"], more)


def told_forced(forced, most, who, digits):
    """What is forced, and who cannot meet a goal that allows less."""
    return f"{forced:.{digits}f}" + (f", so {who} meets this" if forced > most else "")


def beside_wants(forced, most, digits=2):
    """The same of what the wants force."""
    return f"forced by the wants: {told_forced(forced, most, 'no ring that has them', digits)}"


def first_goals(first, kind):
    """How far first assignments are beyond what is forced, in the mean and in the worst ring.

    In the mean is the goal. What the wants force in the worst ring is where they force most beyond the weights.
    """

    def beyond(base, of=f"not_apart_{kind}"):
        return lambda record: record[of] - record[f"{base}_{kind}"]

    wants = beyond("forced", f"by_wants_{kind}")
    for base in ("forced", "by_wants"):
        for where, of_all in (("in the mean", lambda figure: mean(first, figure)),
                              ("in the worst ring", lambda figure: max(map(figure, first)))):
            found = of_all(beyond(base))
            what = f"first assignments, not apart: {kind}s: {found:.2f} % beyond what the "
            what += f"{'weights' if base == 'forced' else 'wants'} force, {where}, at most {MOST_BEYOND_FORCED}"
            if base == "forced":
                what += f" ({beside_wants(of_all(wants), MOST_BEYOND_FORCED)})"
            yield what, found <= MOST_BEYOND_FORCED, worst(first, beyond(base))


def of_its_own(records):
    """The goals that need no other builder."""
    ours = [record for record in records if record["builder"] == "ringd"]
    first = [record for record in ours if record["event"] is None]
    events = [record for record in ours if record["event"] is not None]
    ratio = mean(events, moves)
    yield f"moves: {ratio:.3f} times the least, at most {MOST_MOVES}", ratio <= MOST_MOVES, worst(events, moves)
    for kind in ("region", "zone"):
        yield from first_goals(first, kind)
    for kind in ("region", "zone"):
        count, wants = (sum(all_beyond(record, kind, of) for record in ours) for of in ("in_one", "by_wants_in_one"))
        what = f"partitions all in one {kind} beyond what the weights force: {count} ({beside_wants(wants, 0, 0)})"
        yield what, count == 0, worst(ours, lambda record, kind=kind: all_beyond(record, kind))
    for what, records, figure in (
        ("partitions that lost two from remaining devices in one rebalance", events, lambda record: record["lost_two"]),
        ("partitions moved before their hours passed", first, lambda record: record["moved_early"]),
        ("partitions twice on one device", ours, lambda record: record["twice"]),
        ("seats left on devices that have no share", events, lambda record: record["stranded"]),
        (f"steps not done after {MOST_ROUNDS} rounds", events, lambda record: record["unsettled"]),
        ("seats moved where none had to", events, lambda record: 0 if record["least"] else record["moved"]),
    ):
        count = sum(map(figure, records))
        yield f"{what}: {count}", count == 0, worst(records, figure)


def all_beyond(record, kind, of="in_one"):
    """How many partitions are all in one tier that the weights do not force."""
    return max(0, record[f"{of}_{kind}"] - record[f"forced_in_one_{kind}"])


def goals(records):
    """The lines that tell which goals are met, and where they are missed most."""
    events = [record for record in records if record["event"] is not None]
    for what, is_met, places in [*beside_swift(events), *of_its_own(records)]:
        yield f"- {'skipped' if is_met is None else 'yes' if is_met else 'NO'}: {what}"
        if is_met is False:
            yield from (f"    - {place}" for place in places)


def tell(records, clusters, words):
    """Prints the tables and the goals; with --write the tables go to their page."""
    firsts, events = first_table(records, clusters), event_table(records)
    told = "\n".join(goals(records))
    section = f"### First assignments\n\n{firsts}\n### Events\n\n{events}\n### Goals\n\n{told}\n"
    print(section)
    if words.write:
        made = f"`bench/quality.py --write{' --saved' if words.saved else ''}` on {machine()}."
        part = f"{BEGIN}\n\n{made}\n\n{section}\n{END}"
        PAGE.write_text(re.sub(f"(?s){BEGIN}.*{END}", lambda _: part, PAGE.read_text()))


# ---- the picture


def by_zone(devices, rows):
    """For each zone, how many partitions have 0, 1, 2 and more of their replicas there."""
    zones = {device.id: device.zone for device in devices}
    found = {zone: [0] * (len(rows[0]) + 1) for zone in sorted(set(zones.values()))}
    for row in rows:
        has = collections.Counter(zones[id] for id in row)
        for zone, counts in found.items():
            counts[has[zone]] += 1
    return found


def picture():
    """The figures of docs/placement.svg: a zone comes into a cluster of one region."""
    cluster = next(cluster for cluster in CLUSTERS if cluster.name == PICTURE[0])
    event = next(event for event in events_of(cluster) if event.name == PICTURE[1])
    first, found = run_ringd(free_ports(1)[0], cluster, [event], SEEDS[0])
    devices, rings = event.steps[-1], [first[-1], *found[0][0]]
    zones, weights, ways = {device.id: device.zone for device in devices}, collections.Counter(), collections.Counter()
    for device in devices:
        weights[device.zone] += device.weight // 100
    for before, after in zip(rings, rings[1:]):
        pairs = (pair for old, new in zip(before, after) for pair in zip(old, new) if pair[0] != pair[1])
        ways.update((zones[one], zones[other]) for one, other in pairs)
    told = judge_event(rings[0], event, found[0])
    return {"cluster": cluster.name, "event": event.name, "partitions": 2**cluster.power, "replicas": cluster.replicas,
            "weights": weights, "before": by_zone(devices, rings[0]), "after": by_zone(devices, rings[-1]),
            "moved": [[*way, count] for way, count in sorted(ways.items())],
            "forced": [judge.standing(cluster.devices, rings[0])["forced_zone"], told["forced_zone"]],
            "least": told["least"], "rounds": told["rounds"]}


def read_words():
    """What the command line asks for."""
    reader = argparse.ArgumentParser(usage=__doc__.splitlines()[0].partition(": ")[2])
    kinds = reader.add_mutually_exclusive_group()
    for name in ("--small", "--write", "--picture", "--forced"):
        kinds.add_argument(name, action="store_true")
    reader.add_argument("--jobs", type=int, default=1)
    reader.add_argument("--saved", action="store_true")
    reader.add_argument("--json", type=Path)
    return reader.parse_args()


def main():
    """Does what the command line asks for."""
    words = read_words()
    if words.forced:
        return tell_forced()
    need_program()
    if words.picture:
        print(json.dumps(picture()))
        return
    clusters = [cluster for cluster in CLUSTERS if cluster.power <= SMALL_POWER or not words.small]
    begun = time.monotonic()
    try:
        records = run_all(clusters, SEEDS[:1] if words.small else SEEDS, words)
    except Failed as error:
        sys.exit(f"quality.py: {error}")
    if words.json:
        words.json.write_text(json.dumps(records, indent=1) + "\n")
    tell(records, clusters, words)
    print(f"\n{time.monotonic() - begun:.0f} seconds", file=sys.stderr)


if __name__ == "__main__":
    main()
