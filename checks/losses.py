#!/usr/bin/env python3
"""What a machine that stops may lose: checks/losses.py [ENDS]

A run of 18 deliveries over a file is recorded by ptrace: each write with its place in its file, and each sync. From this
record the files are made anew as they may stand after the power went: what was synced is there, and of what was written
since then any part may be missing. A write may never have come, or only some of its blocks of 512 bytes. Each file is cut
so before every sync and at the end: with nothing of what was not synced, with all of it, with all but one write, and with
writes and blocks that are drawn. Then the file is opened again, every delivery is sent again, and the replies, both tables
and every row are compared with those of the run that went well. What was answered by then must have been kept. The same is
done with a store of the older schema, which is migrated.

Where there are more than ENDS ways to end (600 where none is given), an even choice of them is taken. Several go side by
side. Nothing but Python's standard library is used; Linux on x86-64 or aarch64.
"""
import os
import random
import sys
from concurrent.futures import ProcessPoolExecutor
from pathlib import Path

from common import Checks, lines, run, scratch
from kills import SENT, count_kept, numbers_of, state
from tables import make_older
from tracing import run_traced, traced

STORE = "rings.db"
BLOCK = 512
WRITES, SYNCS, CUTS = {"write", "pwrite64"}, {"fsync", "fdatasync"}, {"ftruncate"}


class Record:
    """What a run did to its files, in order: ('write', name, place, bytes), ('cut', name, length), ('sync', name), and
    ('told', answers) where answers were written."""

    def __init__(self, room):
        self.room, self.events = room, []

    def meet(self, process, call, arguments):
        """Notes a call as it begins."""
        path = os.readlink(f"/proc/{process}/fd/{arguments[0]}") if call in WRITES | SYNCS | CUTS else ""
        folder, name = os.path.split(path)
        if call in WRITES and name == "answers":
            self.events.append(("told", read_memory(process, arguments[1], arguments[2]).count(b"\n")))
        elif call in WRITES and folder == self.room:
            place = arguments[3] if call == "pwrite64" else place_of(process, arguments[0])
            self.events.append(("write", name, place, read_memory(process, arguments[1], arguments[2])))
        elif call in CUTS and folder == self.room:
            self.events.append(("cut", name, arguments[1]))
        elif call in SYNCS and folder == self.room:
            self.events.append(("sync", name))
        elif call not in WRITES | SYNCS | CUTS:
            raise ValueError(f"{call} is not known to the record")


def read_memory(process, start, length):
    with open(f"/proc/{process}/mem", "rb", 0) as memory:
        memory.seek(start)
        return memory.read(length)


def place_of(process, handle):
    """Where the next write through a handle goes."""
    told = Path(f"/proc/{process}/fdinfo/{handle}").read_text()
    return int(next(line.split()[1] for line in told.splitlines() if line.startswith("pos:")))


def put(held, place, text):
    """Writes bytes at a place of a file, which grows where it has to."""
    if len(held) < place:
        held.extend(bytes(place - len(held)))
    held[place:place + len(text)] = text


def carry_out(held, event):
    if event[0] == "cut":
        del held[event[2]:]
        held.extend(bytes(event[2] - len(held)))
    else:
        put(held, event[2], event[3])


def part_of(held, event, draws):
    """Carries out some blocks of a write, as they are drawn."""
    if event[0] == "cut":
        return
    for at in range(0, len(event[3]), BLOCK):
        if draws.random() < 0.5:
            put(held, event[2] + at, event[3][at:at + BLOCK])


def left_at(events, before, end, way):
    """What the files hold where the machine stops before an event: by name. `before` is what they held at first, and `way`
    says what becomes of the writes that were not synced."""
    synced, waiting = {name: bytearray(held) for name, held in before.items()}, {}
    for event in events[:end]:
        if event[0] in ("write", "cut"):
            waiting.setdefault(event[1], []).append(event)
        elif event[0] == "sync":
            for late in waiting.pop(event[1], []):
                carry_out(synced.setdefault(event[1], bytearray()), late)
    kind, number = way
    draws = random.Random(f"{end} {way}")
    for name in sorted(waiting):
        for at, late in enumerate(waiting[name]):
            held = synced.setdefault(name, bytearray())
            if kind == "all" or kind == "all but one" and at != number:
                carry_out(held, late)
            elif kind == "drawn":
                fate = draws.randrange(3)
                carry_out(held, late) if fate == 0 else part_of(held, late, draws) if fate == 1 else None
    return {name: bytes(held) for name, held in synced.items()}


def ends_of(events):
    """The places at which the machine stops, each with the ways in which it may."""
    ends, waiting = [], 0
    for at, event in [*enumerate(events), (len(events), ("sync", STORE))]:
        waiting += event[0] in ("write", "cut")
        if event[0] == "sync" and waiting:
            ways = [("none", 0), ("all", 0), *(("all but one", one) for one in range(min(waiting, 4))), *(("drawn", one) for one in range(8))]
            ends += [(at, way) for way in ways]
            waiting = 0
    return ends


def lost(task):
    """Makes the files as they were left, and looks at what the program makes of them: why it is wrong, or nothing."""
    is_older, files, answered, want, whole = task
    sent = lines(*SENT[is_older])
    with scratch() as room:
        file = f"{room}/{STORE}"
        for name, held in files.items():
            Path(f"{room}/{name}").write_bytes(held)
        kept, due = count_kept(file, room), len(numbers_of(SENT[is_older][:answered]))
        if kept < due:
            return f"{due} requests were answered and {kept} kept"
        again = run("run", "--file", file, given=sent)
        if again != (0, want, b""):
            return f"sent again, it was answered {again}"
        return None if state(file) == whole else "the tables or the rows differ"


def losses(checks, is_older, most):
    """A run whose writes are lost in part."""
    sent = SENT[is_older]
    with scratch() as room:
        file, answers = f"{room}/{STORE}", f"{room}/answers"
        if is_older:
            make_older(file)
        before = {STORE: Path(file).read_bytes()} if is_older else {}
        record = Record(os.path.realpath(room))
        calls = traced(["run", "--file", file], answers, sent, meet=record.meet)
        made = {name: Path(f"{room}/{name}").read_bytes() for name in os.listdir(room) if name.startswith(STORE)}
        want, whole = Path(answers).read_bytes(), state(file)
    events = record.events
    if not checks.show("a run that is recorded ends well", calls is not None and want.count(b"\n") == len(sent), want):
        return
    remade = left_at(events, before, len(events), ("all", 0))
    checks.show("the record makes the files that the run left", {name: remade[name] for name in made} == made)
    ends = ends_of(events)
    chosen = ends if len(ends) <= most else [ends[at * len(ends) // most] for at in range(most)]
    told = [sum(event[1] for event in events[:end] if event[0] == "told") for end, _ in chosen]
    tasks = [(is_older, left_at(events, before, *end), answered, want, whole) for end, answered in zip(chosen, told)]
    wrong = 0
    with ProcessPoolExecutor(max(2, os.cpu_count() or 1)) as workers:
        for (end, way), why in zip(chosen, workers.map(lost, tasks)):
            if why:
                wrong += 1
                checks.show(f"stopped at step {end} of {len(events)}, {way[0]} {way[1]}", False, why)
    syncs = sum(event[0] == "sync" for event in events)
    checks.show(f"{syncs} syncs, {len(chosen)} of {len(ends)} ways in which the power may go: {wrong} went wrong", not wrong)


def new_file(checks):
    """A run over a new file."""
    losses(checks, False, MOST)


def older_file(checks):
    """A run over a file of the older schema, which is migrated."""
    losses(checks, True, MOST // 2)


MOST = int(sys.argv[1]) if len(sys.argv) > 1 else 600


def main():
    return run_traced(Checks("losses.py", 900), new_file, older_file)


if __name__ == "__main__":
    sys.exit(main())
