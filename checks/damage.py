#!/usr/bin/env python3
"""Damaged stores, and which fault each gets: checks/damage.py

A store that was closed is damaged in one of some thirty ways: cut off, overwritten, torn, with rows that are gone, changed
or too many, with texts that are none, with other tables, or with a log that is damaged, of another store or missing. Then
the program opens it. Whatever was read and is no store is told as BadStore 26: a file that is cut off or overwritten, rows,
texts and tables. A damaged log shows an older state of the store, or none, or is refused so.
Whatever it is, the program ends by itself with a status, and answers nothing of a store that it refuses.
"""
import os
import random
import shutil
import sqlite3
import sys

from common import FIRST, MANY, Checks, fault, lines, run, scratch

BAD_STORE = fault("BadStore", 26)
PAGE = 4096


class Store:
    """A copy of a closed store, which is to be damaged."""

    def __init__(self, good, room):
        self.file, self.log = f"{room}/rings.db", f"{room}/rings.db-wal"
        for path in (self.file, self.log):
            if os.path.exists(path):
                os.remove(path)
        shutil.copyfile(good, self.file)
        if os.path.exists(f"{good}-wal"):
            shutil.copyfile(f"{good}-wal", self.log)

    def size(self):
        return os.path.getsize(self.file)

    def cut(self, length):
        os.truncate(self.file, length)

    def put(self, place, text):
        with open(self.file, "r+b") as held:
            held.seek(place)
            held.write(text)

    def page(self, number):
        with open(self.file, "rb") as held:
            held.seek(PAGE * number)
            return held.read(PAGE)

    def swap(self, one, other):
        first, second = self.page(one), self.page(other)
        self.put(PAGE * one, second)
        self.put(PAGE * other, first)

    def sql(self, *statements):
        """Changes it as a person would by sqlite3, with the rules of the tables looked at or not."""
        changed = sqlite3.connect(self.file)
        changed.execute("PRAGMA journal_mode = DELETE")
        changed.execute("PRAGMA writable_schema = ON")
        for statement in statements:
            changed.execute(statement)
        changed.commit()
        changed.close()


def page_of(store, name):
    """The page at which a table begins."""
    with sqlite3.connect(f"file:{store.file}?mode=ro&immutable=1", uri=True) as read:
        (root,) = read.execute("SELECT rootpage FROM sqlite_schema WHERE name = ?", (name,)).fetchone()
    read.close()
    return root - 1


def noise(length, seed=7):
    return random.Random(seed).randbytes(length)


# How a file is damaged that is read as a database, and what the program says of it.
FILES = {
    "cut off within its first page": lambda it: it.cut(1000),
    "cut off behind its first page": lambda it: it.cut(PAGE),
    "cut off by half": lambda it: it.cut(it.size() // PAGE // 2 * PAGE),
    "cut off within a page": lambda it: it.cut(it.size() - PAGE - 100),
    "its last page is gone": lambda it: it.cut(it.size() - PAGE),
    "its first 16 bytes are others": lambda it: it.put(0, b"no database here"),
    "it tells another size of its pages": lambda it: it.put(16, b"\x02\x00"),
    "it tells another encoding": lambda it: it.put(56, b"\x00\x00\x00\x02"),
    "its first page is noise behind the head": lambda it: it.put(100, noise(PAGE - 100)),
    "3,000 bytes of noise in its midst": lambda it: it.put(it.size() // 2, noise(3000)),
    "its second half is zeros": lambda it: it.put(it.size() // 2, bytes(it.size() - it.size() // 2)),
    "the page of the requests is zeros": lambda it: it.put(PAGE * page_of(it, "request"), bytes(PAGE)),
    "the page of the rings is noise": lambda it: it.put(PAGE * page_of(it, "ring"), noise(PAGE)),
    "the head of the page of the devices is torn": lambda it: it.put(PAGE * page_of(it, "device"), b"\xff" * 8),
    "two tables changed their pages": lambda it: it.swap(page_of(it, "part"), page_of(it, "published")),
    "half a page is of an earlier time": lambda it: it.put(PAGE * page_of(it, "request") + PAGE // 2, bytes(PAGE // 2)),
}

# How its rows are, each by statements of SQL.
ROWS = {
    "a device is gone": ["DELETE FROM device WHERE id = 1"],
    "a partition is gone": ["DELETE FROM part WHERE part = 3"],
    "a partition has half its devices": ["UPDATE part SET devices = substr(devices, 1, 2) WHERE part = 0"],
    "a seat is on a device that is not there": ["UPDATE part SET devices = x'00630062' WHERE part = 0"],
    "a ring has another power": ["UPDATE ring SET power = power - 1"],
    "a name of a ring is none": ["UPDATE ring SET name = 'No Name'"],
    "a request is gone from the midst": ["DELETE FROM request WHERE place = 3"],
    "a reply is none": ["UPDATE request SET reply = '{\"done\":\"dance\"}' WHERE place = 0"],
    "an hour is too great": ["UPDATE request SET hour = 4294967296 WHERE place = 0"],
    "the greatest hour is of no request": ["UPDATE meta SET hour = hour + 1"],
    "the schema is 9": ["UPDATE meta SET schema = 9"],
    "a table is gone": ["DROP TABLE request"],
    "a table more": ["CREATE TABLE further (a INTEGER)"],
    "a column more": ["ALTER TABLE ring ADD COLUMN further INTEGER"],
    "a published text is cut off": ["UPDATE published SET body = substr(body, 1, length(body) - 4)"],
    "a published text is none of a ring": ["UPDATE published SET body = 'swift-ring-text 2' || substr(body, 18)"],
    "a published text is of another ring": ["UPDATE published SET body = replace(body, 'ring object', 'ring other')"],
    "a published text is of another version": ["UPDATE published SET version = version + 1"],
    "a seat of a published text is on a device that is not there": ["UPDATE published SET body = "
     "substr(body, 1, instr(body, 'seats') + 5) || '99' || substr(body, instr(body, 'seats') + 7)"],
}

# Texts that can't be read.
TEXTS = {
    "a command is no UTF-8": ["UPDATE request SET command = CAST(x'7b22ff22' AS TEXT) WHERE place = 0"],
    "a caller is no UTF-8": ["UPDATE request SET caller = CAST(x'6fff73' AS TEXT) WHERE place = 0"],
    "a published text is no UTF-8": ["UPDATE published SET body = CAST(x'ff' AS TEXT)"],
}


def told_of(store):
    """What a run, a table and an export say of it, which is to be the same; and what is left is the same file."""
    return run("run", "--file", store.file, given=lines(*FIRST), seconds=30)


def damaged(checks, kinds, damage):
    told = {}
    with scratch() as room, scratch() as here:
        good = f"{room}/rings.db"
        run("run", "--file", good, given=lines(*MANY))
        for what, how in kinds.items():
            store = Store(good, here)
            damage(store, how)
            told[what] = told_of(store)
            is_refused = told[what] == BAD_STORE
            checks.show(f"{what}: {told[what][2].decode().strip()}", is_refused, told[what])


def files(checks):
    """Files that are cut off, overwritten or torn."""
    damaged(checks, FILES, lambda store, how: how(store))


def rows(checks):
    """Rows that are gone, changed or too many, and other tables."""
    damaged(checks, ROWS, lambda store, how: store.sql(*how))


def texts(checks):
    """Texts that are no UTF-8."""
    damaged(checks, TEXTS, lambda store, how: store.sql(*how))


def left_open(file, count):
    """A store as a kill leaves it: the last changes stand in its log. Answers the lines that were answered."""
    import signal
    import subprocess

    import common
    sent = lines(*MANY[:count])
    with subprocess.Popen([*common.program(), "run", "--file", file], stdin=subprocess.PIPE, stdout=subprocess.PIPE) as process:
        process.stdin.write(sent)
        process.stdin.flush()
        told = b"".join(process.stdout.readline() for _ in range(count))
        process.send_signal(signal.SIGKILL)
        process.wait()
    return told


def logs(checks):
    """A log that is damaged, of another store, or missing: an older state of the store is found, or none, and no request is done
    twice that the state knows."""
    with scratch() as room, scratch() as here:
        killed, other = f"{room}/killed.db", f"{room}/other.db"
        want = run("run", "--file", f"{room}/whole.db", given=lines(*MANY))[1]
        left_open(killed, len(MANY))
        left_open(other, 4)
        size = os.path.getsize(f"{killed}-wal")
        ways = {
            "as it was left": lambda log: None,
            "missing": os.remove,
            "empty": lambda log: os.truncate(log, 0),
            "cut off by half": lambda log: os.truncate(log, size // 2),
            "with noise in its midst": lambda log: put(log, size // 2, noise(3000)),
            "with noise at its head": lambda log: put(log, 0, noise(32)),
            "of another store": lambda log: shutil.copyfile(f"{other}-wal", log),
        }
        found = {}
        for what, how in ways.items():
            store = Store(killed, here)
            how(store.log)
            status, told, errors = run("run", "--file", store.file, given=lines(*MANY))
            is_older = status == 0 and told == want
            found[what] = "opened" if is_older else "refused" if (status, told, errors) == BAD_STORE else (status, told, errors)
            checks.show(f"a log {what}: {found[what]}", found[what] in ("opened", "refused"), found[what])
        checks.same("a log as it was left is opened", found["as it was left"], "opened")


def put(path, place, text):
    with open(path, "r+b") as held:
        held.seek(place)
        held.write(text)


def main():
    return Checks("damage.py", 600).run(files, rows, texts, logs)


if __name__ == "__main__":
    sys.exit(main())
