#!/usr/bin/env python3
"""Times the store in a real file: bench/store.py [--small] [--write] [FOLDER]

Rebalances of the largest ring, decided and stored; opening a file with 100,000 numbers and such a ring, its time and memory; a
delivery where the file has few numbers and where it has many, by the texts that are published, and by the rings beside. Commits
are timed by bench/commits.py. FOLDER is where the files lie (the current one where none is given). --small takes small sizes,
--write puts the tables into docs/speed.md.
"""
import json
import os
import sqlite3
import statistics
import sys
import tempfile
import time

from program import ask, message, most_memory, rows, start, tell, timed_run

SMALL = "--small" in sys.argv
ROUNDS = 2 if SMALL else 5
POWER, REPLICAS, DEVICES = (8, 3, 32) if SMALL else (14, 5, 256)
NUMBERS = 2000 if SMALL else 100000
AT = [200, 1000] if SMALL else [1000, 10000, 90000]
TEXTS = [0, 10] if SMALL else [0, 10, 100, 1000]
RINGS = [1, 2] if SMALL else [1, 16]
MILLI = 1000


def refused(number):
    """A request that is decided, and changes no ring: its own row is the one that is written, since the hour stays."""
    return message(number, "remove", id=60000)


def rebalances(room):
    """The largest ring, over a file and over memory, a line at a time."""
    told = []
    for where, file in [("a file", f"{room}/large.db"), ("memory", None)]:
        with start(file) as running:
            ask(running, message(1, "create", power=POWER, replicas=REPLICAS, min_hours=24))
            ask(running, message(2, "import", rows=rows(range(DEVICES))))
            first, seconds = ask(running, message(3, "rebalance", seed=1))
            told.append([where, "a first one", json.loads(first[4:])["changed"], f"{MILLI * seconds:.0f} ms"])
            for number, id in enumerate((DEVICES // 2, DEVICES // 3, DEVICES // 5)):
                ask(running, message(10 + 2 * number, "remove", id=id))
                answer, seconds = ask(running, message(11 + 2 * number, "rebalance", seed=2))
                told.append([where, "one device gone", json.loads(answer[4:])["changed"], f"{MILLI * seconds:.1f} ms"])
            running.stdin.close()
    tell(f"Rebalances of power {POWER} with {REPLICAS} replicas and {DEVICES} devices", "bench/store.py",
         ["over", "rebalance", "seats that changed", "until the answer"], told)


def filled(file, count):
    """A store with the largest ring and so many numbers, the most of them put there by sqlite3."""
    lines = [message(1, "create", power=POWER, replicas=REPLICAS, min_hours=24), message(2, "import", rows=rows(range(DEVICES))),
             message(3, "rebalance", seed=1), refused(4)]
    timed_run("run", "--file", file, given="".join(lines).encode())
    held = sqlite3.connect(file)
    held.execute("PRAGMA journal_mode = DELETE")
    command, reply = held.execute("SELECT command, reply FROM request WHERE number = 4").fetchone()
    held.executemany("INSERT INTO request VALUES ('bench', ?, ?, 0, ?, ?)", ((place + 1, place, command, reply) for place in range(4, count)))
    held.commit()
    held.close()


def opening(file):
    """The seconds until a run over a file has answered a question, its memory then, and the seconds to its end."""
    begun = time.perf_counter()
    with start(file) as running:
        ask(running, "? devices nothing\n")
        opened, memory = time.perf_counter() - begun, most_memory(running)
        begun = time.perf_counter()
        running.stdin.close()
        running.wait()
    return opened, memory, time.perf_counter() - begun


def openings(room):
    """Opening a file with many numbers."""
    told = []
    for count in (5, NUMBERS // 10, NUMBERS):
        file = f"{room}/open{count}.db"
        filled(file, count)
        size = os.path.getsize(file) / 1e6
        found = [opening(file) for _ in range(ROUNDS)]
        opened, closed = (MILLI * statistics.median(it[at] for it in found) for at in (0, 2))
        told.append([count, f"{size:.1f} MB", f"{opened:.0f} ms", f"{max(it[1] for it in found):.0f} MB", f"{closed:.0f} ms"])
    tell(f"Opening a file with a ring of power {POWER}", "bench/store.py", ["numbers", "file", "until the first answer", "memory", "closing"], told)


def deliveries(room):
    """A delivery where few numbers are kept, and where many are."""
    told = []
    for count in AT:
        file = f"{room}/at{count}.db"
        filled(file, count)
        with start(file) as running:
            ask(running, refused(count + 1))
            new = [ask(running, refused(count + 2 + it))[1] for it in range(50 if SMALL else 500)]
            old = [ask(running, refused(5 + it * 7 % (count - 5)))[1] for it in range(50 if SMALL else 500)]
            running.stdin.close()
        told.append([count, f"{1e6 * statistics.median(new):.0f} µs", f"{1e6 * statistics.median(old):.0f} µs"])
    tell("A delivery by the numbers that are kept", "bench/store.py", ["numbers", "a new number, stored", "a repeat"], told)


def with_texts(file, rings, texts, numbers):
    """A store with so many of the largest rings, in the first of which so many texts are published, all but one of them put
    there by sqlite3; and with so many numbers, if it has fewer, likewise."""
    with start(file) as running:
        number = 0
        for ring in range(rings):
            for do, more in [("create", {"power": POWER, "replicas": REPLICAS, "min_hours": 0}), ("import", rows(range(DEVICES))), ("rebalance", {"seed": 1})]:
                number += 1
                told, _ = ask(running, message(number, do, ring=f"ring{ring}", **(more if isinstance(more, dict) else {"rows": more})))
        for _ in range(texts):
            number += 1
            ask(running, message(number, "set_hours", ring="ring0", min_hours=number % 7))
        ask(running, message(number + 1, "publish", ring="ring0")) if texts else None
        running.stdin.close()
        running.wait()
    with sqlite3.connect(file) as held:
        held.execute("PRAGMA journal_mode = DELETE")
        told = "char(10) || 'version ' || {} || char(10)"
        held.executemany(f"INSERT INTO published SELECT ring, ?1, replace(body, {told.format('version')}, {told.format('?1')}) "
                         "FROM published WHERE version > ?2", ((version, texts) for version in range(1, texts)))
        place, command, reply = held.execute("SELECT place, command, reply FROM request ORDER BY place DESC LIMIT 1").fetchone()
        held.executemany("INSERT INTO request VALUES ('others', ?, ?, 0, ?, ?)", ((at, at, command, reply) for at in range(place + 1, numbers)))
    held.close()


def opened(file):
    """A run over a file, once it has answered a question, with the seconds until then and its memory."""
    begun = time.perf_counter()
    running = start(file)
    ask(running, "? devices nothing\n")
    return running, time.perf_counter() - begun, most_memory(running)


def changes(runs, times):
    """The seconds of changes and refusals of the first ring over each store: each is asked of one store after the other, so that a
    machine that is slower for a while is so for all."""
    took = [{"set_weight": [], "refused": []} for _ in runs]
    for it in range(times):
        number = 100000 + 10 * it
        for running, mine in zip(runs, took):
            mine["set_weight"].append(ask(running, message(number, "set_weight", ring="ring0", id=1, weight=f"{90 + it}.00"))[1])
        for running, mine in zip(runs, took):
            mine["refused"].append(ask(running, message(number + 1, "remove", ring="ring0", id=60000))[1])
    return took


def publications(runs, rings, times):
    """The seconds of publications of a ring over each store, in turns. They stand apart from changes: what a text leaves in the log makes
    the next commit slower."""
    took = [[] for _ in runs]
    for it in range(times):
        for running, ring, mine in zip(runs, rings, took):
            ask(running, message(200000 + 10 * it, "set_hours", ring=ring, min_hours=it))
            answer, seconds = ask(running, message(200001 + 10 * it, "publish", ring=ring))
            if not answer.startswith("200 "):
                raise SystemExit(f"not published: {answer}")
            mine.append(seconds)
    return took


def published(room):
    """A delivery by the texts that are published, by the rings beside, and by the numbers. A ring that has 1,000 texts can publish no
    more: then the second one does, where there is one."""
    sizes = [*((count, texts, 0) for count in RINGS for texts in TEXTS), (RINGS[-1], TEXTS[-1], NUMBERS - 100)]
    files = [f"{room}/texts{count}-{texts}-{numbers}.db" for count, texts, numbers in sizes]
    for file, size in zip(files, sizes):
        with_texts(file, *size)
    megabytes = [os.path.getsize(file) / 1e6 for file in files]
    found = [opened(file) for file in files]
    runs, times = [it[0] for it in found], 5 if SMALL else 15
    took = changes(runs, times)
    publishing = ["ring0" if texts < 1000 else "ring1" if count > 1 else None for count, texts, _ in sizes]
    some = [at for at, ring in enumerate(publishing) if ring]
    for at, mine in zip(some, publications([runs[at] for at in some], [publishing[at] for at in some], times)):
        took[at]["publish"] = mine
    for running in runs:
        running.stdin.close()
        running.wait()
    told = []
    for size, (count, texts, numbers), (_, seconds, memory), mine in zip(megabytes, sizes, found, took):
        ratio = statistics.median(mine["set_weight"]) / statistics.median(took[0]["set_weight"])
        cells = [f"{MILLI * statistics.median(mine[it]):.2f} ms" if it in mine else "" for it in ("set_weight", "refused", "publish")]
        told.append([count, texts, numbers or "few", cells[0], f"{ratio:.2f}", *cells[1:], f"{size:.0f} MB",
                     f"{MILLI * seconds:.0f} ms", f"{memory:.0f} MB"])
    tell(f"A delivery by the texts that are published, rings of power {POWER}", "bench/store.py",
         ["rings", "texts", "numbers", "`set_weight`", "times that of the first", "a refusal", "`publish`", "file", "opening", "memory"], told)


def main():
    folder = next((word for word in sys.argv[1:] if not word.startswith("--")), ".")
    with tempfile.TemporaryDirectory(prefix="ringd-bench-", dir=folder) as room:
        rebalances(room)
        openings(room)
        deliveries(room)
        published(room)


if __name__ == "__main__":
    main()
