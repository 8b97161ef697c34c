#!/usr/bin/env python3
"""The clusters and the events of bench/quality.py, as data: bench/clusters.py

A cluster is a power, a number of replicas and its devices. An event is a list of steps, and each step the list of all
devices as they are to be then: one that is new comes, one of another weight is reweighted, one that is removed leaves
at the next rebalance. Run alone it lists the clusters and their events.
"""
from typing import NamedTuple

from judge import Device, KINDS, open_devices

SEEDS = (1, 2, 3, 4, 5)
STEPS = (1, 4, 8)


class Cluster(NamedTuple):
    """A cluster before its events."""
    name: str
    power: int
    replicas: int
    devices: tuple


class Event(NamedTuple):
    """What happens to a cluster: the devices of each step."""
    name: str
    steps: tuple


# ---- layouts: a region is a list of zones, a zone of servers, a server of the weights of its devices


def zone(servers, disks, weight=100):
    """A zone of servers with so many disks each, all of one weight."""
    return [[weight] * disks for _ in range(servers)]


def devices_of(regions):
    """The devices of a layout."""
    found = []
    for region, zones in enumerate(regions, 1):
        for number, servers in enumerate(zones, 1):
            for server, weights in enumerate(servers, 1):
                for weight in weights:
                    address = f"10.{region}.{number}.{server}"
                    found.append(Device(len(found), region, number, address, 100 * weight))
    return tuple(found)


MIXED = [[100, 100, 200, 400], [400, 400], [100, 50, 50, 200], [200, 200, 400]]
LAYOUTS = (
    ("one zone of six servers", 8, 3, [[zone(6, 3)]]),
    ("three even zones", 8, 3, [[zone(3, 3)] * 3]),
    ("three uneven zones, 4 to 3 to 2", 8, 3, [[zone(4, 3), zone(3, 3), zone(2, 3)]]),
    ("four even zones", 10, 3, [[zone(3, 4)] * 4]),
    ("four zones of mixed servers and disks", 9, 3, [[MIXED[place:] + MIXED[:place] for place in range(4)]]),
    ("four zones of one server, one heavy", 8, 3, [[zone(1, 5, 200), *[zone(1, 4)] * 3]]),
    ("five zones, one of double weight", 10, 3, [[zone(2, 4, 200), *[zone(2, 4)] * 4]]),
    ("three zones, one with a single device that is too heavy", 8, 3, [[zone(1, 1, 600), zone(2, 2), zone(2, 2)]]),
    ("two even regions of two zones", 9, 3, [[zone(3, 2)] * 2] * 2),
    ("two uneven regions, three zones and one", 10, 3, [[zone(3, 3)] * 3, [zone(3, 3)]]),
    ("three even regions of two zones", 11, 3, [[zone(3, 3)] * 2] * 3),
    ("three uneven regions of three, two and one zones", 8, 3, [[zone(2, 3)] * 3, [zone(2, 3)] * 2, [zone(2, 3)]]),
    ("three regions of three zones, 144 devices", 12, 3, [[zone(4, 4)] * 3] * 3),
    ("five replicas in five uneven zones", 8, 5, [[zone(4, 3), *[zone(3, 3)] * 3, zone(2, 3)]]),
    ("five replicas in three regions", 10, 5, [[zone(2, 4)] * 3, [zone(2, 4)] * 2, [zone(2, 4)] * 2]),
)
CLUSTERS = tuple(Cluster(name, power, replicas, devices_of(regions)) for name, power, replicas, regions in LAYOUTS)


# ---- who comes


def middle(cluster):
    """A device of which nothing is special: where a device comes or goes."""
    return cluster.devices[len(cluster.devices) // 2]


def beside(devices, kind, device):
    """The devices that stand in one tier with this one."""
    return [other for other in devices if KINDS[kind](other) == KINDS[kind](device)]


def numbered(cluster, devices):
    """Devices that come, with the numbers that follow."""
    first = 1 + max(device.id for device in cluster.devices)
    return tuple(device._replace(id=first + place) for place, device in enumerate(devices))


def last_number(device):
    """The number of its server in its zone."""
    return int(device.server.split(".")[3])


def moved_to(device, region, number, server=None):
    """A device as it stands elsewhere, on a server of the same number or of another."""
    return device._replace(region=region, zone=number, server=f"10.{region}.{number}.{server or last_number(device)}")


def new_device(cluster):
    """One more device, like one that is there and on its server."""
    return numbered(cluster, [middle(cluster)])


def new_server(cluster):
    """One more server, like one that is there and in its zone."""
    model = middle(cluster)
    last = max(map(last_number, beside(cluster.devices, "zone", model)))
    like = beside(cluster.devices, "server", model)
    return numbered(cluster, [moved_to(device, device.region, device.zone, last + 1) for device in like])


def new_zone(cluster):
    """One more zone in the first region, like the first zone there."""
    like = beside(cluster.devices, "zone", cluster.devices[0])
    last = max(device.zone for device in beside(cluster.devices, "region", cluster.devices[0]))
    return numbered(cluster, [moved_to(device, device.region, last + 1) for device in like])


def new_region(cluster):
    """One more region, like the last."""
    like = beside(cluster.devices, "region", cluster.devices[-1])
    return numbered(cluster, [moved_to(device, device.region + 1, device.zone) for device in like])


# ---- what happens


def coming(what, new, count):
    """Devices come in so many steps of weight."""

    def steps(cluster):
        found = []
        for step in range(1, count + 1):
            come = (device._replace(weight=device.weight * step // count) for device in new(cluster))
            found.append((*cluster.devices, *come))
        return tuple(found)

    return what if count == 1 else f"{what} in {count} steps", steps


def changed(cluster, devices, **values):
    """One step, in which these devices have other values."""
    return (tuple(device._replace(**values) if device in devices else device for device in cluster.devices),)


def device_goes(cluster):
    """A device is removed."""
    return changed(cluster, [middle(cluster)], is_removed=True)


def device_drained(cluster):
    """A device gets weight 0."""
    return changed(cluster, [middle(cluster)], weight=0)


def zone_goes(cluster):
    """The last zone is removed."""
    return changed(cluster, beside(cluster.devices, "zone", cluster.devices[-1]), is_removed=True)


def zone_doubled(cluster):
    """The weights of the first zone double."""
    first = beside(cluster.devices, "zone", cluster.devices[0])
    return (tuple(device._replace(weight=device.weight * (1 + (device in first))) for device in cluster.devices),)


KINDS_OF_EVENTS = (
    coming("a device comes", new_device, 1),
    ("a device is removed", device_goes),
    ("a device is drained", device_drained),
    *(coming("a server comes", new_server, count) for count in STEPS),
    *(coming("a zone comes", new_zone, count) for count in STEPS),
    ("a zone is removed", zone_goes),
    ("a zone doubles its weights", zone_doubled),
    *(coming("a region comes", new_region, count) for count in STEPS),
)


def makes_sense(cluster, event):
    """Whether enough devices are open at each step, and the weights are others than before, one beside the other."""
    first = [device.weight * (not device.is_removed) for device in event.steps[0]]
    ratios = {new * 1000 // device.weight for new, device in zip(first, cluster.devices)}
    is_other = len(ratios) > 1 or len(first) > len(cluster.devices)
    return is_other and all(len(open_devices(devices)) > cluster.replicas for devices in event.steps)


def events_of(cluster):
    """The events of a cluster that make sense there."""
    found = (Event(name, steps(cluster)) for name, steps in KINDS_OF_EVENTS)
    return [event for event in found if makes_sense(cluster, event)]


def main():
    for cluster in CLUSTERS:
        tiers = [len({KINDS[kind](device) for device in cluster.devices}) for kind in KINDS]
        counts = ", ".join(f"{count} {kind}{'s' * (count > 1)}" for count, kind in zip(tiers, KINDS))
        counts += f", {len(cluster.devices)} devices"
        print(f"{cluster.name}: power {cluster.power}, {cluster.replicas} replicas, {counts}")
        print("    " + "; ".join(event.name for event in events_of(cluster)))


if __name__ == "__main__":
    main()
