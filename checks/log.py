#!/usr/bin/env python3
"""The log played again: checks/log.py [--seed SEED] [--stores COUNT]

Makes 50 random stores with every command, refusals, repeats and numbers that are used again. The log of each, told in parts of
random sizes, is played into a new file by `run --file`: each reply is compared with the kept one, and then both files row by
row, `show` of each ring and each published text. A log is kept up while its store grows, and a renewed store's begins anew.
It takes about half a minute.
"""
import json
import random
import sys
import time

import common
from common import Checks, compact, has, message, rows_of, run, scratch

STORES, SECONDS = 50, 400
PART = 1000
NAMES = ["object", "disks", "cold"]
WEIGHTS = ["0.00", "12.50", "100.00", "250.00", "4000.00"]


class Caller:
    """Sends random requests, each number once but for repeats."""

    def __init__(self, dice):
        self.dice, self.hour, self.number, self.sent = dice, dice.randrange(400000), 0, []

    def row(self, place):
        return [self.dice.randrange(1, 3), self.dice.randrange(3), f"10.0.{place // 200}.{place % 200 + 1}", 6200, f"d{place}", self.dice.choice(WEIGHTS)]

    def fields(self, do):
        """The fields of a command besides its ring."""
        dice = self.dice
        if do == "create":
            return {"power": dice.randrange(1, 5), "replicas": dice.randrange(1, 4), "min_hours": dice.randrange(3)}
        if do == "add":
            names = ("region", "zone", "address", "port", "name", "weight")
            return dict(zip(names, self.row(dice.randrange(12))))
        if do == "import":
            return {"rows": [self.row(dice.randrange(12)) for _ in range(dice.randrange(1, 6))]}
        if do == "set_weight":
            return {"id": dice.randrange(8), "weight": dice.choice(WEIGHTS)}
        if do in ("remove", "keep"):
            return {"id": dice.randrange(12)}
        if do == "set_hours":
            return {"min_hours": dice.randrange(4)}
        if do == "rebalance_as":
            return {"hour": self.hour, "seed": dice.randrange(2 ** 32), "version": dice.randrange(1, 30)}
        return {"seed": dice.randrange(2 ** 32)} if do == "rebalance" else {}

    def next(self):
        """The hour and the message of the next request."""
        dice = self.dice
        self.hour += dice.choice([0, 0, 0, 1, 2, 30])
        if self.sent and dice.random() < 0.1:
            return self.hour, dice.choice(self.sent)
        if self.sent and dice.random() < 0.03:
            return self.hour, message(json.loads(dice.choice(self.sent))["number"], "publish", ring=dice.choice(NAMES))
        self.number += 1
        do = dice.choice(["create", "add", "add", "import", "import", "rebalance", "rebalance", "rebalance", "set_weight", "remove", "keep",
                          "rebalance_as", "set_hours", "pretend_passed", "raise_power", "publish", "publish"])
        asked = message(self.number, do, ring=dice.choice(NAMES[:2] if self.number < 6 else NAMES), **self.fields(do))
        self.sent.append(asked)
        return max(0, self.hour - dice.choice([0, 0, 0, 7])), asked


def send(file, pairs):
    """Sends requests over a file, each a pair of hour and message, and answers the lines that were told."""
    status, told, errors = run("run", "--file", file, given="".join(f"{hour} {text}\n" for hour, text in pairs).encode())
    assert (status, errors) == (0, b""), (status, errors)
    return told.decode().splitlines()


def part(file, place, most):
    """The entries of a log from a place on, and whether they are told in the bytes that their keys are in."""
    told = run("run", "--file", file, given=f"? log {place} {most}\n".encode())
    assert (told[0], told[2]) == (0, b""), told
    entries = [json.loads(line) for line in told[1].splitlines() if line]
    return entries, told[1].decode() == ("".join(f"{compact(entry)}\n" for entry in entries) or "\n")


def whole(file, place=0, sizes=lambda: PART):
    """All entries from a place on, in parts of such sizes; whether they are told as they should; and how many parts came."""
    entries, right, parts = [], True, 0
    while True:
        most = sizes()
        some, exact = part(file, place, most)
        right = right and exact and len(some) <= most and [e["place"] for e in some] == list(range(place, place + len(some)))
        if not some:
            return entries, right, parts
        entries, place, parts = entries + some, place + len(some), parts + 1


def play(file, entries):
    """Plays entries over a file, and answers in which place a reply differs, or None."""
    told = send(file, [(entry["hour"], compact(entry["request"])) for entry in entries])
    want = [f"{entry['status']} {compact(entry['reply'])}" for entry in entries]
    return next((place for place, pair in enumerate(zip(told, want)) if pair[0] != pair[1]), None if len(told) == len(want) else len(told))


def shown_of(file):
    """What is shown of each ring, and each published text. The hour of the machine may be told, so none is kept of `show`."""
    found = {}
    for ring in json.loads(run("show", file)[1])["rings"]:
        name = ring["ring"]
        shown = json.loads(run("show", file, name)[1])
        found[name] = {key: value for key, value in shown.items() if key not in ("hour", "locked", "rests")}
        for version in shown["published"]:
            found[name, version] = run("export", file, name, version)
    return found


def random_stores(checks):
    """The logs of random stores give the same stores again."""
    seed, count = wanted("--seed", int(time.time())), wanted("--stores", STORES)
    print(f"seed {seed}")
    end, done, wrong, commands, refused, again, shorter = time.monotonic() + SECONDS, 0, [], set(), 0, 0, 0
    for turn in range(count):
        if time.monotonic() > end:
            break
        dice = random.Random(seed * 1000 + turn)
        with scratch() as room:
            first, second, caller = f"{room}/first.db", f"{room}/second.db", Caller(dice)
            sent = [caller.next() for _ in range(dice.randrange(5, 60))]
            told = send(first, sent)
            entries, right, parts = whole(first, sizes=lambda: dice.choice([1, 2, 7, 30, PART]) if turn % 10 == 0 else PART)
            kept = {entry["request"]["number"]: f"{entry['status']} {compact(entry['reply'])}" for entry in entries}
            answered = all(reply in (kept[json.loads(text)["number"]], '409 {"fault":"NumberReused","rule":21}') for (_, text), reply in zip(sent, told))
            differs = play(second, entries)
            same = rows_of(first) == rows_of(second) and (turn % 5 != 0 or shown_of(first) == shown_of(second))
            if not (right and answered and differs is None and same):
                wrong.append((turn, right, answered, differs, same))
            commands |= {entry["request"]["do"] for entry in entries}
            refused += sum(entry["status"] == 422 for entry in entries)
            again, shorter, done = again + len(sent) - len(entries), shorter + (parts > 1), done + 1
    checks.show(f"{done} stores of {count} come out of their logs reply by reply and row by row", done == count and not wrong, wrong)
    checks.same("with each command", len(commands), 12 if done > 5 else len(commands))
    checks.show("with refusals, repeats and logs in several parts", refused and again and shorter, (refused, again, shorter))


def kept_up(checks):
    """A second file that is kept up is the first one."""
    dice = random.Random(7)
    with scratch() as room:
        first, second, caller = f"{room}/first.db", f"{room}/second.db", Caller(dice)
        place, steps = 0, []
        for _ in range(8):
            send(first, [caller.next() for _ in range(dice.randrange(1, 12))])
            entries, _, _ = whole(first, place)
            steps.append(play(second, entries) is None)
            place = json.loads(run("show", second, "--status")[1])["kept"]
        checks.same("each step gives the kept replies", steps, [True] * 8)
        checks.same("and at the end the same rows", rows_of(second), rows_of(first))
        checks.same("what comes twice changes nothing", (play(second, whole(first)[0]), rows_of(second)), (None, rows_of(first)))


def renewed(checks):
    """The log of a renewed file begins anew."""
    with scratch() as room:
        old, new = f"{room}/old.db", f"{room}/new.db"
        send(old, common.TINY)
        checks.same("a file is renewed", run("renew", old, new), (0, b"", b""))
        checks.same("and has no log", part(new, 0, PART), ([], True))
        send(new, [(3, message(1, "set_hours", ring="tiny", min_hours=5))])
        checks.same("but of what came then", [entry["request"]["do"] for entry in part(new, 0, PART)[0]], ["set_hours"])


def as_lines(checks):
    """tools/log_lines makes lines of a log."""
    import subprocess

    tool = str(common.TOP / "tools" / "log_lines")
    with scratch() as room:
        file, again = f"{room}/rings.db", f"{room}/again.db"
        answers = "".join(f"{line}\n" for line in send(file, common.TINY)).encode()
        log = run("run", "--file", file, given=b"? log 0 2\n? log 2 2\n? log 4 2\n")[1]
        made = [subprocess.run([tool, *words], input=log, capture_output=True, timeout=20).stdout for words in ((), ("--answers",), ("--next",))]
        checks.same("the lines are answered as they were", run("run", "--file", again, given=made[0])[1], answers)
        checks.same("and these are the answers", made[1], answers)
        checks.same("the next part begins behind them", made[2], b"4\n")
        torn = subprocess.run([tool], input=b"\n".join(log.splitlines()[::-1]), capture_output=True, timeout=20).returncode
        checks.same("places that are out of order are refused", torn, 1)
        entry = {"hour": 1, "place": 0, "reply": {"done": "publish", "version": 1}, "request": {"do": "x" * 65536}, "status": 200}
        for what, text, words, status in [
            ("a line that is too long for run", compact(entry), (), 1), ("but its answer is told", compact(entry), ("--answers",), 0),
            ("what is no entry of a log", '{"rings":[]}', (), 2), ("an entry without its hour", '{"place":0}', (), 2), ("a number", "7", (), 2),
            ("what is no JSON", "{", (), 2), ("other words", "", ("--all",), 2), ("nothing", "", (), 0), ("an empty part", "\n", ("--next",), 0),
        ]:
            made = subprocess.run([tool, *words], input=text.encode(), capture_output=True, timeout=20)
            want = b'200 {"done":"publish","version":1}\n' if words == ("--answers",) else b""
            checks.same(f"log_lines: {what}", (made.returncode, made.stdout), (status, want))


def by_program(checks):
    """The program `log` tells the same."""
    if not has("log"):
        checks.skip("ringd log", "this program has no log")
        return
    with scratch() as room:
        file = f"{room}/rings.db"
        send(file, common.MANY)
        entries = whole(file)[0]
        lines = "".join(f"{compact(entry)}\n" for entry in entries).encode()
        checks.same("entry by entry", run("log", file), (0, lines, b""))
        lines = "".join(f"{entry['hour']} {compact(entry['request'])}\n" for entry in entries[3:]).encode()
        checks.same("and as lines, from a place on", run("log", file, "--from", 3, "--lines"), (0, lines, b""))
        checks.same("nothing behind the last", run("log", file, "--from", len(entries)), (0, b"", b""))
        long = f"{room}/long.db"
        send(long, [(1, message(number, "set_hours", ring="none", min_hours=1)) for number in range(2 * PART + 1)])
        lines = [f"{compact(entry)}\n".encode() for entry in whole(long)[0]]
        checks.same("there are more than the program reads at a time", len(lines), 2 * PART + 1)
        for place in (0, 1, PART - 1, PART, PART + 1, 2 * PART, 2 * PART + 1):
            checks.same(f"from place {place} to the last", run("log", long, "--from", place), (0, b"".join(lines[place:]), b""))


def wanted(name, other):
    """The number behind a word of the command line, or another one."""
    return int(sys.argv[sys.argv.index(name) + 1]) if name in sys.argv else other


if __name__ == "__main__":
    sys.exit(Checks("log.py", 600).run(random_stores, kept_up, renewed, as_lines, by_program))
