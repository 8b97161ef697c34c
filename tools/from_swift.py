#!/usr/bin/python3
"""From a builder file of Swift to a ring of ringd:

    tools/from_swift.py BUILDER RING --text              the ring as it stands, for `ringd found`: nothing moves
    tools/from_swift.py BUILDER RING CALLER [--hour N]   its devices alone, as requests for `ringd run`: all is placed anew

With --text it prints the text of the ring of BUILDER, as `object.builder`, under the name RING: its devices with their numbers,
those that are about to be removed as `removed`, and each seat where it is. Standard error tells the hour of its last moves and
the line of `ringd found` that takes the text.

Without it, it prints two lines for `ringd run`: number 1 of CALLER creates the ring, with its power, replicas and hours, and
number 2 imports its devices. CALLER must not have used these numbers. The hour of the lines is that of the clock, or N.

Standard error tells what is left out. What ringd cannot keep, as replicas that are not whole, is told there too, with what may
be done; then nothing is printed, and the exit status is 1.

It reads BUILDER by Swift's own code, which unpickles it: read no file that you do not trust. It needs Debian's python3-swift
and its Python, /usr/bin/python3. BUILDER is not changed.
"""
import argparse
import decimal
import json
import os
import re
import sys
import time

MOST_HOUR = 4294967295


class Refused(Exception):
    """What ringd cannot keep of a builder."""


def need(holds, why):
    """Refuses the builder where something does not hold."""
    if not holds:
        raise Refused(why)


def within(value, least, most, what):
    """A whole number within bounds."""
    need(isinstance(value, int) and not isinstance(value, bool), f"{what} is {value!r}, which is no whole number")
    need(least <= value <= most, f"{what} is {value}; ringd takes {least} to {most}")
    return value


def label(text, what):
    """A name of a ring or of a caller."""
    need(re.fullmatch(r"[a-z][a-z0-9-]{0,31}", text), f"{what} is {text!r}; it is 1 to 32 of a to z, 0 to 9 and -, a letter first")
    return text


def weight_of(value, what):
    """A weight with two decimals. Swift keeps it as a float: the shortest decimal that reads as this float is meant."""
    try:
        weight = decimal.Decimal(str(value))
    except decimal.InvalidOperation:
        raise Refused(f"the weight of {what} is {value!r}, which is no number") from None
    need(weight.is_finite() and 0 <= weight <= 1000000, f"the weight of {what} is {value}; ringd takes 0.00 to 1000000.00")
    rounded = weight.quantize(decimal.Decimal("0.01"))
    need(rounded == weight, f"the weight of {what} is {value}; ringd takes two decimals at most: swift-ring-builder BUILDER set_weight "
                            f"gives it {rounded}, and moves nothing before a rebalance")
    return str(abs(rounded))


def address_of(value, what):
    """An IPv4 address."""
    numbers = str(value).split(".")
    is_one = len(numbers) == 4 and all(re.fullmatch(r"0|[1-9][0-9]{0,2}", number) and int(number) < 256 for number in numbers)
    need(is_one, f"the address of {what} is {value!r}; ringd takes IPv4 addresses, as 10.0.0.1: "
                 "swift-ring-builder BUILDER set_info gives it another of the same server (then write_ring, and distribute the ring file). "
                 "A cluster that has IPv6 alone can't come over")
    return value


def replicas_of(value):
    """A whole number of replicas."""
    way = "swift-ring-builder BUILDER set_replicas N, and then rebalance until it has nothing to move; that moves data"
    need(float(value).is_integer(), f"there are {float(value):g} replicas, which is not whole: {way}")
    need(1 <= value <= 5, f"there are {float(value):g} replicas; ringd takes 1 to 5: {way}")
    return int(value)


def row_of(device, what):
    """The row of an import for one of Swift's devices."""
    name = str(device["device"])
    need(re.fullmatch(r"[A-Za-z0-9_-]{1,32}", name), f"the name of {what} is {name!r}; ringd takes 1 to 32 letters, digits, _ and -: "
                                                      "swift-ring-builder BUILDER set_info gives it another, once its disk is mounted there")
    return [
        within(device.get("region", 1), 0, 65535, f"the region of {what}"),
        within(device["zone"], 0, 65535, f"the zone of {what}"),
        address_of(device["ip"], what),
        within(device["port"], 1, 65535, f"the port of {what}"),
        name,
        weight_of(device["weight"], what),
    ]


def rows_of(devices):
    """The rows of an import for all devices. No two may have the same address, port and name."""
    rows, places = [], {}
    for device in devices:
        what = f"device {device['id']}"
        row = row_of(device, what)
        place = tuple(row[2:5])
        need(place not in places, f"{what} has the address, port and name of {places.get(place)}: swift-ring-builder BUILDER set_info gives "
                                    "it its own")
        places[place] = what
        rows.append(row)
    need(len(rows) <= 256, f"there are {len(rows)} devices; ringd takes 256 in a ring. One device a server, or a second storage policy "
                           "with a ring of its own, keeps below that")
    return rows


def unseated(builder):
    """What of a builder's seats goes into no line."""
    if builder._replica2part2dev is not None:
        yield "which device has which partition: the first rebalance places everything anew (--text takes the seats too)"
        yield "when partitions were moved: nothing is locked at first"


def left_out(builder, devices):
    """What ringd has no place for, of a builder and of these devices of its."""
    if builder.overload:
        yield f"the overload of {builder.overload:g}: ringd has none, and each device wants its share by weight"
    if builder.dispersion is not None and builder.ever_rebalanced:
        yield f"the dispersion of {builder.dispersion:g}: ringd reckons its own"
    for device in devices:
        if device.get("meta"):
            yield f"the meta of device {device['id']}: {device['meta']!r}"
        other = replication_of(device)
        if other != (device["ip"], device["port"]):
            yield f"the replication address of device {device['id']}, {other[0]}:{other[1]}: a ring file of ringd has its own address there"


def replication_of(device):
    """Where a device is for replicators."""
    return device.get("replication_ip") or device["ip"], device.get("replication_port") or device["port"]


def need_one_address(devices):
    """Refuses devices that replicators reach elsewhere: a ring file of ringd would lead them to the address of the proxies."""
    for device in devices:
        own, other = (device["ip"], device["port"]), replication_of(device)
        need(other == own, f"device {device['id']} has a replication address of its own, {other[0]}:{other[1]}. A ring file of ringd has "
                           f"{own[0]}:{own[1]} there, and replicators that listen at the other alone find no device of theirs. Have them "
                           f"listen at the first, and swift-ring-builder BUILDER set_info d{device['id']} R{own[0]}:{own[1]}, write_ring, and "
                           "distribute the ring file; or stay with Swift's builder")


def unnumbered(kept, going):
    """Which devices, and which of their numbers, go into no line."""
    for device in going:
        yield f"device {device['id']}, which is marked to be removed"
    for number, device in enumerate(kept):
        if device["id"] != number:
            yield f"the number of device {device['id']}, which is {number} here"


def read(path):
    """The builder of a file."""
    try:
        from swift.common.ring import RingBuilder
    except ImportError:
        raise Refused("there is no module swift: apt-get install python3-swift, and use /usr/bin/python3") from None
    need(os.path.isfile(path), f"{path} is no file")
    try:
        return RingBuilder.load(path)
    except Exception as error:
        raise Refused(f"{path} is not read as a builder file: {error}") from None


def devices_of(builder):
    """The devices of a builder by rising number, and the numbers of those that are about to be removed."""
    growing = builder.next_part_power
    need(not growing, f"its power is being raised to {growing}: end that first, by swift-ring-builder BUILDER increase_partition_power "
                      "or, to take it back, cancel_increase_partition_power, each before finish_increase_partition_power, with "
                      "swift-object-relinker between, as Swift's pages say")
    present = sorted((device for device in builder.devs if device is not None), key=lambda device: device["id"])
    return present, {device["id"] for device in builder._remove_devs}


def size_of(builder):
    """The power, the replicas and the hours of a builder."""
    power = builder.part_power
    need(power <= 14, f"the part power is {power}; ringd takes 1 to 14. A ring's power is never lowered: only a new ring helps")
    return {
        "power": within(power, 1, 14, "the part power"),
        "replicas": replicas_of(builder.replicas),
        "min_hours": within(builder.min_part_hours, 0, 65535, "min_part_hours"),
    }


def lines_of(builder, ring, caller, hour):
    """The lines, and what is left out of them."""
    present, gone = devices_of(builder)
    kept = [device for device in present if device["id"] not in gone]
    going = [device for device in present if device["id"] in gone]
    shared = {"caller": label(caller, "CALLER"), "ring": label(ring, "RING")}
    messages = [{**shared, "number": 1, "do": "create", **size_of(builder)}, {**shared, "number": 2, "do": "import", "rows": rows_of(kept)}]
    lines = [f"{hour} {json.dumps(message, separators=(',', ':'))}" for message in messages]
    need(len(lines[1]) <= 65536, "the import is longer than 65536 bytes")
    return lines, [*unseated(builder), *left_out(builder, kept), *unnumbered(kept, going)]


def seats_of(builder, replicas, known):
    """For each partition the numbers of its devices, by replica."""
    again = "swift-ring-builder BUILDER rebalance, until it has nothing to move, gives each replica a device of its own"
    table = builder._replica2part2dev
    need(table is not None, f"no seat is given yet: {again}")
    need(len(table) == replicas, f"there are {replicas} replicas, and seats for {len(table)}: {again}")
    seats = []
    for partition in range(builder.parts):
        row = [table[replica][partition] if partition < len(table[replica]) else None for replica in range(replicas)]
        for replica, device in enumerate(row):
            need(device in known, f"replica {replica} of partition {partition} is on no device: {again}")
        need(len(set(row)) == replicas, f"two replicas of partition {partition} are on one device, {max(row, key=row.count)}: {again}. "
                                        "With fewer devices than replicas no builder can do that")
        seats.append(row)
    return seats


def moved_at(builder):
    """The latest hour at which partitions can have been moved last, or None where the builder does not tell: its hours were
    pretended to have passed, or it was made of a ring file. Each has an age in hours, up to 255, at the time of the builder's
    epoch. Swift raises that where a whole hour has passed alone, so a move may be up to an hour younger than its age says."""
    ages, epoch = builder._last_part_moves, builder._last_part_moves_epoch
    if not epoch:
        return None
    hour = int(epoch) // 3600 - (min(ages) if ages else 0)
    return min(hour + 1, int(time.time()) // 3600)


def text_of(builder, ring):
    """The lines of the ring's text, what is left out of it, and what `ringd found` is to be told besides."""
    present, gone = devices_of(builder)
    size, rows = size_of(builder), rows_of(present)
    need_one_address(present)
    version = within(builder.version, 0, 4294967295, "the version")
    seats = seats_of(builder, size["replicas"], {device["id"] for device in present})
    lines = ["swift-ring-text 1", f"ring {label(ring, 'RING')}", f"version {version}", f"power {size['power']}"]
    lines += [f"replicas {size['replicas']}", f"devices {len(rows)}"]
    for device, (region, zone, address, port, name, weight) in zip(present, rows):
        number = within(device["id"], 0, 65535, "the number of a device")
        state = "removed" if number in gone else "present"
        lines.append(f"{number} {region} {zone} {address} {port} {weight} {state} {name}")
    lines += ["seats", *(" ".join(map(str, row)) for row in seats), "end"]
    return lines, list(left_out(builder, present)), size["min_hours"], moved_at(builder)


def print_text(builder, ring):
    """Prints the ring's text, and tells how it comes in."""
    lines, without, min_hours, moved = text_of(builder, ring)
    for what in without:
        print(f"from_swift: left out: {what}", file=sys.stderr)
    hour = int(time.time()) // 3600 if moved is None else within(moved, 0, MOST_HOUR, "the hour of the last moves")
    when = f"hour {hour}" + time.strftime(", %Y-%m-%d %H:00 UTC", time.gmtime(hour * 3600))
    if moved is None:
        print(f"from_swift: the builder does not tell when its last moves were (its hours were pretended to have passed, or it was made "
              f"of a ring file): the hour of now stands for it, {when}. Give an earlier one if you know it", file=sys.stderr)
    else:
        print(f"from_swift: the last moves were at {when}, at the latest", file=sys.stderr)
    print(f"from_swift: ringd found rings.db {ring}.text --min-hours {min_hours} --hour {hour}", file=sys.stderr)
    print("\n".join(lines))


def print_lines(builder, ring, caller, hour):
    """Prints the lines that make the ring of its devices."""
    lines, without = lines_of(builder, ring, caller, hour)
    for what in without:
        print(f"from_swift: left out: {what}", file=sys.stderr)
    print("\n".join(lines))


def main():
    words = argparse.ArgumentParser(description="Prints the ring of a builder file of Swift, for `ringd found` or for `ringd run`.")
    for name in ("BUILDER", "RING"):
        words.add_argument(name)
    words.add_argument("CALLER", nargs="?", help="who sends the lines; none with --text")
    words.add_argument("--text", action="store_true", help="the ring as it stands, for `ringd found`")
    words.add_argument("--hour", type=int, metavar="N", help="the hour of the lines; with --text the builder tells it")
    given = words.parse_args()
    if given.text == bool(given.CALLER):
        words.error("--text takes no CALLER" if given.text else "CALLER or --text is missing")
    if given.text and given.hour is not None:
        words.error("--text takes no --hour: give it to ringd found")
    try:
        if given.text:
            print_text(read(given.BUILDER), given.RING)
        else:
            hour = int(time.time()) // 3600 if given.hour is None else within(given.hour, 0, MOST_HOUR, "the hour")
            print_lines(read(given.BUILDER), given.RING, given.CALLER, hour)
    except Refused as why:
        print(f"from_swift: {why}", file=sys.stderr)
        return 1
    return 0


if __name__ == "__main__":
    sys.exit(main())
