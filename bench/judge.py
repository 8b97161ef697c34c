#!/usr/bin/env python3
"""Judges the seats of rings, and tries itself on rings that can be counted out: bench/judge.py

It looks at devices and seats alone, and knows nothing of how they were chosen. Seats are a list of rows, one for each
partition, and a row is a list of the numbers of devices, one for each replica. What it tells:

- how many seats moved, and the least that any builder moves that ends with the same counts of seats;
- how far a device is from its share by weight at most, in percent of its share; and how many seats stand on devices
  that have no share;
- how many partitions have more replicas in one region, or in one zone, than they need to have with so many regions or
  zones: these are "not apart". And how many have all of them in one region, in one zone, on one server;
- how many of either the weights force on any builder that gives each device its share, rounded down or up, and heaps
  no more replicas of a partition in a tier than need be; and the least greatest distance of any whole seats;
- what the wants force of these on a ring in which each device has what it wants, and how great a distance the law of a
  rebalance forces on a ring at rest, which is one of which no seat has a reason to leave;
- how many partitions lost two replicas from remaining devices in one rebalance, and how many lost one while locked.

Run alone it compares what it says is forced with all placings of some small rings, which takes a few seconds.
"""
import bisect
import functools
import heapq
import itertools
import math
from collections import Counter
from fractions import Fraction
from typing import NamedTuple


class Device(NamedTuple):
    """Where a device stands, and its weight in hundredths. A removed one stands there until the next rebalance."""
    id: int
    region: int
    zone: int
    server: str
    weight: int
    is_removed: bool = False


# The kinds of tiers: a zone is one of its region, and a server is an address in its zone.
KINDS = {
    "region": lambda device: device.region,
    "zone": lambda device: (device.region, device.zone),
    "server": lambda device: (device.region, device.zone, device.server),
}


def open_devices(devices):
    """Those to which seats may go."""
    return [device for device in devices if device.weight > 0 and not device.is_removed]


# ---- shares


def shares(devices, replicas, partitions):
    """The share of each open device in seats, by its number.

    That is what it weighs of all open devices, but no more than one seat of each partition. What is more than that is
    shared out among the others by weight.
    """
    found, left, seats = {}, open_devices(devices), replicas * partitions
    while left:
        weight = sum(device.weight for device in left)
        full = [device for device in left if seats * device.weight > partitions * weight]
        if not full:
            found.update((device.id, Fraction(seats * device.weight, weight)) for device in left)
            break
        found.update((device.id, Fraction(partitions)) for device in full)
        left, seats = [device for device in left if device not in full], seats - partitions * len(full)
    return found


def wanted(devices, replicas, partitions):
    """The seats that each open device wants, by its number. It may want more than one seat of each partition.

    That is what it weighs of all open devices, rounded down, and the seats left over go to the greatest remainders, of
    equals to the lower number.
    """
    left, seats = open_devices(devices), replicas * partitions
    weight = sum(device.weight for device in left)
    whole = {device.id: seats * device.weight // weight for device in left}
    rests = {device.id: seats * device.weight % weight for device in left}
    for id in sorted(rests, key=lambda id: (-rests[id], id))[:seats - sum(whole.values())]:
        whole[id] += 1
    return whole


def seats_by_device(rows):
    """How many seats each device has."""
    return Counter(itertools.chain.from_iterable(rows))


def greatest_distance(devices, rows):
    """How far the device that is farthest from its share is from it, in percent of the share."""
    has, parts = seats_by_device(rows), shares(devices, len(rows[0]), len(rows))
    return max(abs(float((has[id] - share) / share)) * 100 for id, share in parts.items())


def stranded(devices, rows):
    """How many seats stand on devices that have no share."""
    is_open = {device.id for device in open_devices(devices)}
    return sum(seats for id, seats in seats_by_device(rows).items() if id not in is_open)


# ---- standing apart


def tier_of(devices, kind):
    """The tier of each device, by its number."""
    return {device.id: KINDS[kind](device) for device in devices}


def most_apart(devices, replicas, kind):
    """How many replicas a tier has at most of a partition that stands apart: as few as can be with these tiers."""
    return math.ceil(replicas / len({KINDS[kind](device) for device in open_devices(devices)}))


def most_in_one(tiers, rows):
    """For each partition, how many of its replicas the tier has that has most of them."""
    known = {}
    for row in rows:
        key = tuple(map(tiers.__getitem__, row))
        if key not in known:
            known[key] = max(Counter(key).values())
        yield known[key]


def count_beyond(devices, rows, kind, most):
    """In how many partitions some tier has more than so many replicas."""
    return sum(found > most for found in most_in_one(tier_of(devices, kind), rows))


def can_be(partitions, replicas, tiers, most, beyond):
    """Whether seats can be placed so that at most `beyond` partitions have more than `most` replicas in some tier.

    `tiers` tells of each tier the fewest and the most seats that it may have, and its devices. A partition within takes
    at most `most` seats of a tier. One that is beyond takes as many as the tier has of a partition in the mean, rounded
    up, but no more: heaping all on few partitions would be worse. Neither takes more than the tier has devices. Numbers
    within these bounds that add up can be dealt out to the partitions in turns, so the bounds need only meet the sums:
    for the partitions within, for those beyond, and for both.
    """
    within, parts = partitions - beyond, []
    for low, high, devices in tiers:
        greatest = max(most, math.ceil(high / partitions))
        parts.append((min(most, devices) * within, min(greatest, devices) * beyond, low, high))
    sums = [
        (replicas * within, [(max(0, low - rest), min(room, high)) for room, rest, low, high in parts]),
        (replicas * beyond, [(max(0, low - room), min(rest, high)) for room, rest, low, high in parts]),
        (replicas * partitions, [(low, min(high, room + rest)) for room, rest, low, high in parts]),
    ]
    fits = all(low <= high for _, bounds in sums for low, high in bounds)
    return fits and all(sum(next(zip(*bounds))) <= seats <= sum(high for _, high in bounds) for seats, bounds in sums)


def least_beyond(partitions, replicas, tiers, most):
    """The least number of partitions with more than `most` replicas in some tier, in any such placing."""
    low, high = 0, partitions
    while low < high:
        middle = (low + high) // 2
        low, high = (low, middle) if can_be(partitions, replicas, tiers, most, middle) else (middle + 1, high)
    return low


def forced(devices, bounds, replicas, partitions, kind, most):
    """The same where each device has seats within bounds, by its number.

    Each kind of tier is looked at alone. Where zones stand in several regions, a ring that is right by regions may need
    more: this is a bound from below.
    """
    tiers = {}
    for device in open_devices(devices):
        low, high, count = tiers.get(KINDS[kind](device), (0, 0, 0))
        fewest, greatest = bounds[device.id]
        tiers[KINDS[kind](device)] = (low + fewest, high + greatest, count + 1)
    return least_beyond(partitions, replicas, list(tiers.values()), most)


def bounds_by_wants(devices, replicas, partitions):
    """The fewest and the most seats of each open device, by its number, where each has what it wants.

    A device that wants more than one seat of each partition is taken to have one of each. What it cannot have stands on
    the others, above what they want. None of these has room then, and where no device outside a partition has room, the
    law leaves open on which of them a seat stands. So any of them may have all of it.

    A ring at rest has just what is wanted where no two wants are more than one apart, and no device without a share has
    seats. Where wants are further apart, it may have a device below its want: see `may_rest`.
    """
    whole = wanted(devices, replicas, partitions)
    spare = sum(max(0, seats - partitions) for seats in whole.values())
    return {id: (min(seats, partitions), min(seats + spare, partitions)) for id, seats in whole.items()}


@functools.lru_cache(maxsize=None)
def all_forced(devices, replicas, partitions):
    """What the weights and what the wants force: of partitions not apart, in percent, of those all in one tier, and of
    the greatest distance, in percent of the share."""
    parts, ring = shares(devices, replicas, partitions), (replicas, partitions)
    by_weight = {id: (math.floor(share), math.ceil(share)) for id, share in parts.items()}
    told = {"forced_distance": any_distance(devices, *ring), "by_wants_distance": rest_distance(devices, *ring)}
    for name, bounds in (("forced", by_weight), ("by_wants", bounds_by_wants(devices, *ring))):
        for kind in KINDS:
            most = most_apart(devices, replicas, kind)
            told[f"{name}_{kind}"] = 100 * forced(devices, bounds, *ring, kind, most) / partitions
            told[f"{name}_in_one_{kind}"] = forced(devices, bounds, *ring, kind, replicas - 1)
    return told


def dispersion(devices, rows):
    """The percent of partitions of which a replica could stand on a less crowded open device, with room or without."""
    tiers = {device.id: tuple(key(device) for key in KINDS.values()) for device in devices}
    places = Counter(tiers[device.id] for device in open_devices(devices))
    is_open, known = {device.id for device in open_devices(devices)}, {}

    def could_be_less(row, replica):
        """Whether a free place is less crowded for a replica than its own."""
        others = [tiers[id] for place, id in enumerate(row) if place != replica]
        near = Counter(tier for places_of in others for tier in places_of)
        taken = Counter(tiers[id] for id in row if id in is_open)
        free = [place for place, count in places.items() if count > taken[place]]
        own = tuple(near[tier] for tier in tiers[row[replica]])
        return any(tuple(near[tier] for tier in place) < own for place in free)

    def is_crowded(row):
        key = tuple(tiers[id] + (id in is_open,) for id in row)
        if key not in known:
            known[key] = any(could_be_less(row, replica) for replica in range(len(row)))
        return known[key]

    return 100 * sum(map(is_crowded, rows)) / len(rows)


def standing(devices, rows):
    """What is told of one ring. `devices` has all that have a seat."""
    replicas, partitions = len(rows[0]), len(rows)
    told = dict(all_forced(tuple(devices), replicas, partitions))
    for kind in KINDS:
        most = most_apart(devices, replicas, kind)
        told[f"not_apart_{kind}"] = 100 * count_beyond(devices, rows, kind, most) / partitions
        told[f"in_one_{kind}"] = count_beyond(devices, rows, kind, replicas - 1)
    told["distance"], told["stranded"] = greatest_distance(devices, rows), stranded(devices, rows)
    told["twice"] = sum(len(set(row)) < len(row) for row in rows)
    return told


# ---- distances that are forced


def least_distance(parts, bounds, fewest, most):
    """The least that the greatest distance can be, as a part of the share.

    Each device has whole seats within its bounds, and all have from `fewest` to `most` seats together. Each begins as
    near to its share as it may be, and those that it costs least take or give what that is off.
    """

    def distance(id, seats):
        return abs(seats - parts[id]) / parts[id]

    has = {id: min(max(round(parts[id]), low), high) for id, (low, high) in bounds.items()}
    off = min(max(sum(has.values()), fewest), most) - sum(has.values())
    step = 1 if off > 0 else -1
    offers = [(distance(id, seats + step), id) for id, seats in has.items()]
    heapq.heapify(offers)
    while off:
        _, id = heapq.heappop(offers)
        if bounds[id][0] <= has[id] + step <= bounds[id][1]:
            has[id], off = has[id] + step, off - step
            heapq.heappush(offers, (distance(id, has[id] + step), id))
    return max(distance(id, seats) for id, seats in has.items())


def any_distance(devices, replicas, partitions):
    """The least greatest distance of any whole seats, in percent of the share."""
    parts, seats = shares(devices, replicas, partitions), replicas * partitions
    return 100 * float(least_distance(parts, dict.fromkeys(parts, (0, partitions)), seats, seats))


def may_rest(whole, parts, replicas, far, has_closed):
    """Whether a ring at rest may have each device within `far` of its share, a part of it. `whole` is what each wants.

    Where this says no there is none. At rest no seat has a reason to leave. So a device with more than it wants shares
    each of its partitions with each device that has less, and a device without a share does so too. Hence:

    - fewer devices than replicas have less, if any;
    - each of these has at least as many seats as any that has more;
    - of its partitions each has, besides those that have less, no more than the other replicas on such as have more.
    """
    low = {id: math.ceil(share * (1 - far)) for id, share in parts.items()}
    high = {id: math.floor(share * (1 + far)) for id, share in parts.items()}
    if any(low[id] > high[id] for id in parts):
        return False
    more, less = [id for id in parts if low[id] > whole[id]], [id for id in parts if high[id] < whole[id]]
    if not more and not less:
        return True
    top = max((low[id] for id in more), default=0)
    spans = {id: (max(low[id], top), min(high[id], whole[id] - 1)) for id in parts if id not in more}
    spans = {id: span for id, span in spans.items() if span[0] <= span[1]}
    others = [id for id in spans if id not in less]

    def may_be_less(count):
        """Whether so many devices may have less than they want."""
        free = count - len(less)
        if free > len(others):
            return False
        highs = sorted((spans[id][1] for id in others), reverse=True)[:free] + [spans[id][1] for id in less]
        lacks = sorted((whole[id] - spans[id][0] for id in others), reverse=True)[:free]
        lack = sum(lacks) + sum(whole[id] - spans[id][0] for id in less)
        takes = more or has_closed or any(whole[id] < min(high[id], min(highs)) for id in parts)
        room = (replicas - count) * min(highs)
        return takes and sum(low[id] for id in more) <= room and sum(low[id] - whole[id] for id in more) <= lack

    return all(id in spans for id in less) and any(map(may_be_less, range(max(1, len(less)), replicas)))


def rest_distance(devices, replicas, partitions):
    """A bound from below: the greatest distance of any ring at rest, in percent of the share.

    Where no device wants more than it can have, nearly always each has what it wants. Where one does, the others may
    have any number of seats above what they want, and a device without a share any number: the law forces no more than
    whole seats do.
    """
    parts, whole = shares(devices, replicas, partitions), wanted(devices, replicas, partitions)
    seats, closed = replicas * partitions, len(devices) - len(whole)
    if max(whole.values()) > partitions:
        bounds = dict.fromkeys(parts, (0, partitions))
        return 100 * float(least_distance(parts, bounds, seats - closed * partitions, seats))
    greatest = max(abs(whole[id] - share) / share for id, share in parts.items())
    spans = {(share, math.floor(share * (1 - greatest)), math.ceil(share * (1 + greatest))) for share in parts.values()}
    tried = {abs(seats - share) / share for share, low, high in spans for seats in range(low, high + 1)}
    tried = sorted(far for far in tried if far <= greatest)
    least = bisect.bisect_left(tried, True, key=lambda far: may_rest(whole, parts, replicas, far, closed > 0))
    return 100 * float(tried[least])


def distance_from_even(steps, replicas, partitions):
    """The same of the last of some steps, where the ring before them, of the first of `steps`, is as even as can be.

    There each device has its share, rounded down or up, and no partition more replicas in a tier than need be. It is
    more than at rest where some device wants more than it can have in each step, and has a seat of each partition. Then
    nobody else has room before, no device is removed, and either of two things holds:

    - No want rises above what its device has. Then no seat has a reason to leave, and nothing moves.
    - The wants rise of devices that come, on one server, and all partitions stand apart in one region. For no seat is
      such a device less crowded. So seats leave for what their devices have too much, those of the new ones do not, and
      these get no more than they want.
    """
    last = [device for device in steps[-1] if not device.is_removed]
    at_rest = rest_distance(last, replicas, partitions)
    wants = [wanted(devices, replicas, partitions) for devices in steps]
    heavy = {id for id, seats in wants[0].items() if seats > partitions}
    if not heavy or any(device.is_removed for devices in steps for device in devices):
        return at_rest
    if any(whole.get(id, 0) <= partitions for whole in wants for id in heavy):
        return at_rest
    before, seats = shares(steps[0], replicas, partitions), replicas * partitions
    has, rising = {id: math.floor(share) for id, share in before.items()}, set()
    for count, whole in enumerate(wants):
        rising |= {id for id in whole.keys() - heavy if whole[id] > has.get(id, 0)}
        if count:
            has.update((id, min(has.get(id, 0), whole[id])) for id in whole.keys() - heavy)
    parts = shares(last, replicas, partitions)
    closed = [before.get(device.id, 0) for device in last if device.id not in parts]
    if not rising:
        bounds = {id: (math.floor(before.get(id, 0)), math.ceil(before.get(id, 0))) for id in parts}
        fewest, most = seats - sum(map(math.ceil, closed)), seats - sum(map(math.floor, closed))
        return 100 * float(least_distance(parts, bounds, fewest, most))
    servers = {KINDS["server"](device) for device in last if device.id in rising}
    one_region = len({device.region for device in last}) == 1 and most_apart(steps[0], replicas, "zone") == 1
    is_apart = one_region and not all_forced(tuple(steps[0]), replicas, partitions)["forced_zone"]
    if closed or not is_apart or len(servers) > 1 or rising & before.keys():
        return at_rest
    tops = {id: max(whole.get(id, 0) for whole in wants) for id in rising}
    bounds = {id: (0, tops.get(id, partitions)) for id in parts}
    return max(at_rest, 100 * float(least_distance(parts, bounds, seats, seats)))


# ---- what a rebalance did


def moved(before, after):
    """How many seats are on another device than before."""
    return sum(one != other for old, new in zip(before, after) if old != new for one, other in zip(old, new))


def least_moves(before, after):
    """The least that any builder moves from the one to the other's counts: what each device lost, a gone one all."""
    had, has = seats_by_device(before), seats_by_device(after)
    return sum(max(0, seats - has[id]) for id, seats in had.items())


def leaves(devices, before, after):
    """How many replicas of each partition left a device that remains, for the partitions of which one did."""
    remain = {device.id for device in devices if not device.is_removed}
    found = {}
    for partition, (old, new) in enumerate(zip(before, after)):
        count = old != new and sum(one != other and one in remain for one, other in zip(old, new))
        if count:
            found[partition] = count
    return found


def lost_two(devices, before, after):
    """How many partitions lost two replicas or more from devices that remain."""
    return sum(count > 1 for count in leaves(devices, before, after).values())


def moved_early(devices, before, after, locked):
    """How many partitions lost a replica from a device that remains, while they were locked."""
    return len(leaves(devices, before, after).keys() & locked)


# ---- trying itself


def rows_of(replicas, tiers):
    """All ways in which the replicas of a partition may stand in tiers of so many devices."""
    spread = itertools.product(*(range(min(replicas, devices) + 1) for devices in tiers))
    return [row for row in spread if sum(row) == replicas]


def all_placings(partitions, replicas, tiers, most):
    """For all seats of tiers that a placing has: how many partitions are beyond, and the most of one in each tier."""
    found = {}
    for placing in itertools.combinations_with_replacement(rows_of(replicas, tiers), partitions):
        beyond = sum(max(row) > most for row in placing)
        found.setdefault(tuple(map(sum, zip(*placing))), set()).add((beyond, tuple(map(max, zip(*placing)))))
    return found


def least_by_trying(partitions, most, bounds, placings):
    """The least number of partitions beyond, of all placings with seats within bounds, and none heaped up."""

    def fits(counts, limits):
        return all(low <= count <= high for count, (low, high) in zip(counts, limits))

    tops = [(0, max(most, -(-high // partitions))) for _, high in bounds]
    found = (placing for seats, found in placings.items() if fits(seats, bounds) for placing in found)
    return min(beyond for beyond, most_of_one in found if fits(most_of_one, tops))


def excess_alone(partitions, replicas, seats, most):
    """What the seats force that a tier has beyond `most` of each partition, without a look at what the others lack."""
    needs = [math.ceil(max(0, count - most * partitions) / max(1, replicas - most)) for count in seats]
    return max(needs) if 2 * (most + 1) <= replicas else min(partitions, sum(needs))


def try_one(partitions, replicas, tiers, most):
    """What is forced in one ring, for all seats that its tiers may have, and for all within one seat of these."""
    placings = all_placings(partitions, replicas, tiers, most)
    for seats in placings:
        for about in (0, 1):
            bounds = [(max(0, count - about), count + about) for count in seats]
            with_devices = [(low, high, devices) for (low, high), devices in zip(bounds, tiers)]
            said = least_beyond(partitions, replicas, with_devices, most)
            least = least_by_trying(partitions, most, bounds, placings)
            assert said == least, (replicas, tiers, partitions, most, bounds, said, least)
            assert about or said >= excess_alone(partitions, replicas, seats, most), (replicas, partitions, seats)
    return len(placings)


def try_forced():
    """What is forced, compared with all placings; how many counts of seats were compared."""
    rings = (
        (1, (2, 2), 3), (2, (1, 1, 2), 4), (2, (3, 3), 5), (3, (3, 3), 4), (3, (1, 2, 3), 4), (3, (3, 3, 3), 4),
        (3, (3, 1, 1, 2), 3), (3, (3, 3, 3, 3), 2), (4, (4, 4, 4, 4), 2), (4, (1, 4, 2), 3), (5, (5, 5, 5), 2),
        (5, (5, 2, 1, 5, 5), 1), (5, (2, 2, 1, 1, 2), 2),
    )
    return sum(try_one(partitions, replicas, tiers, most)
               for replicas, tiers, partitions in rings for most in range(1, replicas + 1))


def all_rings(devices, replicas, partitions):
    """All rings of some devices, each as its partitions in order: which is which makes no difference here."""
    rows = itertools.combinations(sorted(device.id for device in devices), replicas)
    return itertools.combinations_with_replacement(rows, partitions)


def in_order(rows):
    """A ring as `all_rings` has it."""
    return tuple(sorted(tuple(sorted(row)) for row in rows))


class Law:
    """What the law of a rebalance says of rings of some devices, all unlocked, word for word and as slowly."""

    def __init__(self, devices, replicas, partitions):
        self.places = {device.id: tuple(key(device) for key in KINDS.values()) for device in devices}
        self.wants = wanted(devices, replicas, partitions)
        self.present = {device.id for device in devices if not device.is_removed}

    def crowd(self, row, replica, id):
        """How many other seats of the partition are in the device's region, in its zone and on its server."""
        others = [self.places[other] for place, other in enumerate(row) if place != replica]
        return tuple(sum(other[kind] == place for other in others) for kind, place in enumerate(self.places[id]))

    def want(self, id):
        return self.wants.get(id, 0)

    def roomy(self, rows):
        """The devices with room."""
        has = seats_by_device(rows)
        return {id for id, seats in self.wants.items() if has[id] < seats}

    def is_crowded(self, row, replica, roomy):
        """Whether a device outside with room is less crowded for a seat than its own."""
        own = self.crowd(row, replica, row[replica])
        return any(self.crowd(row, replica, id) < own for id in roomy - set(row))

    def is_at_rest(self, rows):
        """Whether no seat has a reason to leave."""
        has, roomy = seats_by_device(rows), self.roomy(rows)
        return not any(self.is_crowded(row, replica, roomy) or roomy - set(row) and has[id] > self.want(id)
                       for row in rows for replica, id in enumerate(row))

    def gatherings(self, rows):
        """The seats, as partition and replica, that a rebalance may gather, and what the devices keep."""
        has, roomy, choices = seats_by_device(rows), self.roomy(rows), []
        for row in rows:
            lost = [replica for replica, id in enumerate(row) if id not in self.present]
            may = [[replica] for replica in range(len(row)) if roomy - set(row)]
            choices.append([lost] if lost else [[], *may])
        for chosen in itertools.product(*choices):
            kept = has - Counter(row[replica] for row, those in zip(rows, chosen) for replica in those)

            def fits(row, those):
                """Whether what is gathered of a partition has a reason, or else what is left has none."""
                if any(row[replica] not in self.present for replica in those):
                    return True
                if those:
                    return self.is_crowded(row, those[0], roomy) or kept[row[those[0]]] >= self.want(row[those[0]])
                is_over = roomy - set(row) and any(kept[id] > self.want(id) for id in row)
                return not is_over and not any(self.is_crowded(row, replica, roomy) for replica in range(len(row)))

            if all(map(fits, rows, chosen)):
                yield [(place, replica) for place, those in enumerate(chosen) for replica in those], kept

    def placings(self, rows, gathered, kept):
        """The rings in which the gathered seats are on open devices or their own, no two of a partition on one.

        Those of remaining devices that leave go only where something is wanted, which saves most of the work.
        """

        def ways(place, replica):
            own = {rows[place][replica]} & self.present
            return own | {id for id, seats in self.wants.items() if not own or kept[id] < seats} - {*rows[place]}

        for ids in itertools.product(*(ways(*seat) for seat in gathered)):
            new = [list(row) for row in rows]
            for (place, replica), id in zip(gathered, ids):
                new[place][replica] = id
            if all(len(set(row)) == len(row) for row in new):
                yield new

    def is_placed(self, rows, gathered, kept, new):
        """Whether the gathered seats are settled, within room and moved with gain."""
        has, roomy, takes = seats_by_device(new), self.roomy(new), Counter()
        for place, replica in gathered:
            row, old, id = new[place], rows[place][replica], new[place][replica]
            left = old in self.present and old != id
            takes[id] += bool(left or roomy - set(row))
            gains = not left or has[old] >= self.want(old)
            if self.is_crowded(row, replica, roomy):
                return False
            if not gains and not self.crowd(row, replica, id) < self.crowd(row, replica, old):
                return False
        return all(seats <= max(0, self.want(id) - kept[id]) for id, seats in takes.items())

    def rebalanced(self, rows):
        """All rings that a ring may become."""
        return {in_order(new) for gathered, kept in self.gatherings(rows) for new in self.placings(rows, gathered, kept)
                if self.is_placed(rows, gathered, kept, new)}

    def ends(self, rings):
        """The rings at rest that some rings may become, by any number of rebalances."""
        seen, waiting = set(), set(rings)
        while waiting:
            ring = waiting.pop()
            seen.add(ring)
            waiting |= self.rebalanced(ring) - seen
        remain = (ring for ring in seen if self.present.issuperset(itertools.chain(*ring)))
        return set(filter(self.is_at_rest, remain))


def small(*zones):
    """Devices of weights by server, zone by zone in one region: 0 is drained."""
    found = []
    for number, servers in enumerate(zones, 1):
        found += [(number, server, weight) for server, weights in enumerate(servers) for weight in weights]
    return [Device(id, 1, zone, f"{zone}.{server}", weight) for id, (zone, server, weight) in enumerate(found)]


def try_ring(devices, replicas, partitions):
    """What is forced, and the least of all rings, as pairs: of whole seats, of those wanted, and of rings at rest."""
    law, size = Law(devices, replicas, partitions), (replicas, partitions)
    bounds, rings = bounds_by_wants(devices, *size), list(all_rings(devices, *size))

    def is_wanted(rows):
        has = seats_by_device(rows)
        return all(low <= has[id] <= high for id, (low, high) in bounds.items())

    at_rest = list(filter(law.is_at_rest, rings))
    open_only = [rows for rows in rings if not stranded(devices, rows)]
    pairs = [(rest_distance(devices, *size), min(greatest_distance(devices, rows) for rows in at_rest)),
             (any_distance(devices, *size), min(greatest_distance(devices, rows) for rows in open_only))]
    for kind in KINDS:
        most = most_apart(devices, replicas, kind)
        least = min(count_beyond(devices, rows, kind, most) for rows in open_only if is_wanted(rows))
        pairs.append((forced(devices, bounds, *size, kind, most), least))
    wants = sorted(law.wants.values())
    if wants[-1] <= min(partitions, wants[0] + 1) and len(wants) == len(devices):
        assert all(map(is_wanted, at_rest)), devices
    if partitions == 3:
        assert all((rows in law.rebalanced(rows)) == law.is_at_rest(rows) for rows in rings), devices
    return pairs


def try_rings():
    """What the wants force, compared with all rings of some devices: how many figures are exact, and of how many."""
    exact, count, even = 0, 0, ([[1], [1]], [[1], [1]])
    for devices, *size in (
        (small(*even), 2, 3), (small(*even), 3, 5), (small([[2], [1]], [[1, 1]]), 2, 5), (small([[4]], [[6, 1]]), 2, 6),
        (small([[1, 1]], [[1], [1]], [[1]]), 3, 4), (small([[4]], [[2], [1]], [[1]]), 2, 5),
        (small([[9]], [[2, 1], [1]]), 2, 4), (small([[1, 1], [0]], [[1], [1]]), 2, 4),
        (small([[9]], [[1], [0]], [[1], [1]]), 3, 3), (small([[3, 3]], [[2], [1, 1]]), 3, 3),
        (small([[5], [5]], [[1], [1], [1]]), 2, 5),
    ):
        pairs = try_ring(devices, *size)
        assert all(said <= least + 1e-9 for said, least in pairs), (devices, size, pairs)
        exact, count = exact + sum(said > least - 1e-9 for said, least in pairs), count + len(pairs)
    return exact, count


def try_events():
    """What is said of rings after events, compared with all that lawful rebalances can make of even rings."""
    exact, count = 0, 0
    come, goes = small([[16]], [[2], [2, 2]]), small([[8]], [[1], [1], [1]])
    slowly = [[*come[:3], come[3]._replace(weight=weight)] for weight in (1, 2)]
    drained, removed = ([*goes[:3], goes[3]._replace(**values)] for values in ({"weight": 0}, {"is_removed": True}))
    for partitions, *steps in ((6, come[:3], come), (6, come[:3], *slowly), (4, goes, drained), (4, goes, removed)):
        parts, size = shares(steps[0], 2, partitions), (2, partitions)
        rings = {rows for rows in all_rings(steps[0], *size) if Law(steps[0], *size).is_at_rest(rows)
                 and all(math.floor(parts[id]) <= seats_by_device(rows)[id] <= math.ceil(parts[id]) for id in parts)}
        for devices in steps[1:]:
            rings = Law(devices, *size).ends(rings)
        last = [device for device in steps[-1] if not device.is_removed]
        said, least = distance_from_even(steps, *size), min(greatest_distance(last, rows) for rows in rings)
        assert said <= least + 1e-9, (steps, said, least)
        exact, count = exact + (said > least - 1e-9), count + 1
    return exact, count


def try_figures():
    """The other figures, of a ring that can be counted by hand."""
    places = ((1, 1, "a"), (1, 1, "a"), (1, 2, "b"), (2, 1, "c"))
    devices = [Device(id, *place, 100) for id, place in enumerate(places)]
    before = [[0, 2, 3], [1, 2, 3], [0, 1, 2], [3, 0, 1]]
    after = [[0, 2, 3], [1, 0, 3], [0, 3, 2], [3, 2, 0]]
    assert wanted(devices, 3, 4) == {0: 3, 1: 3, 2: 3, 3: 3}
    assert (moved(before, after), least_moves(before, after)) == (4, 2)
    assert leaves(devices, before, after) == {1: 1, 2: 1, 3: 2}
    removed = [device._replace(is_removed=device.id == 1) for device in devices]
    assert leaves(removed, before, after) == {1: 1, 3: 1}
    assert (lost_two(devices, before, after), lost_two(removed, before, after)) == (1, 0)
    assert moved_early(removed, before, after, {2, 3}) == 1
    assert [most_apart(devices, 3, kind) for kind in KINDS] == [2, 1, 1]
    told = standing(devices, before)
    assert (told["not_apart_region"], told["in_one_region"]) == (25, 1)
    assert (told["not_apart_zone"], told["in_one_zone"]) == (50, 0)
    assert (told["forced_region"], told["forced_zone"], told["distance"], told["twice"]) == (25, 50, 0, 0), told
    assert (dispersion(devices, before), dispersion(devices, after)) == (50, 25)
    heavy = [devices[0]._replace(weight=10000), *devices[1:]]
    assert shares(heavy, 3, 4) == {0: 4, 1: Fraction(8, 3), 2: Fraction(8, 3), 3: Fraction(8, 3)}
    assert wanted(heavy, 3, 4) == {0: 12, 1: 0, 2: 0, 3: 0}
    assert bounds_by_wants(heavy, 3, 4) == {0: (4, 4), 1: (0, 4), 2: (0, 4), 3: (0, 4)}
    assert round(greatest_distance(heavy, before), 2) == 25
    assert (stranded(heavy, before), stranded(removed, before)) == (0, 3)


if __name__ == "__main__":
    try_figures()
    print(f"the judge agrees with all placings for {try_forced()} counts of seats")
    for what, found in (("rings", try_rings()), ("rings after events", try_events())):
        print(f"what the wants force on {what} is never above the least, and is the least in {found[0]} of {found[1]}")
