"""The tables of a store as Python's sqlite3 has them, and a store of the older schema."""
import json
import sqlite3

from common import FIRST, FIRST_REPLIES, add, compact

# The tables of a store: each column with its kind, then the key, what else is unique, and what refers to which rows.
TABLES = {
    "meta": ("one INTEGER, schema INTEGER, hour INTEGER", [], [["one"]], []),
    "ring": (
        "name TEXT, power INTEGER, replicas INTEGER, min_hours INTEGER, next_id INTEGER, version INTEGER",
        ["name"], [], []),
    "device": (
        "ring TEXT, id INTEGER, region INTEGER, zone INTEGER, address TEXT, port INTEGER, name TEXT, weight INTEGER, "
        "removed INTEGER",
        ["ring", "id"], [["ring", "address", "port", "name"]], [("ring", [("ring", "name")])]),
    "seat": (
        "ring TEXT, part INTEGER, replica INTEGER, device INTEGER",
        ["ring", "part", "replica"], [["ring", "part", "device"]], [("device", [("ring", "ring"), ("device", "id")])]),
    "moved": (
        "ring TEXT, part INTEGER, hour INTEGER", ["ring", "part"], [], [("ring", [("ring", "name")])]),
    "published": (
        "ring TEXT, version INTEGER, body TEXT", ["ring", "version"], [], [("ring", [("ring", "name")])]),
    "request": (
        "caller TEXT, number INTEGER, place INTEGER, hour INTEGER, command TEXT, reply TEXT",
        ["caller", "number"], [["place"]], []),
    "part": (
        "ring TEXT, part INTEGER, devices BLOB, hour INTEGER", ["ring", "part"], [], [("ring", [("ring", "name")])]),
}
# The same as statements, in the order in which a store has them.
ORDER = ["meta", "ring", "device", "seat", "moved", "published", "request", "part"]


def statement(name):
    """The statement that makes a table."""
    columns, key, uniques, references = TABLES[name]
    parts = [f"{column} NOT NULL" for column in columns.split(", ")]
    if key:
        parts.append(f"PRIMARY KEY ({', '.join(key)})")
    parts += [f"UNIQUE ({', '.join(unique)})" for unique in uniques]
    for table, pairs in references:
        mine, theirs = ", ".join(pair[0] for pair in pairs), ", ".join(pair[1] for pair in pairs)
        parts.append(f"FOREIGN KEY ({mine}) REFERENCES {table} ({theirs})")
    return f"CREATE TABLE {name} ({', '.join(parts)}) STRICT"


def canonical(text):
    """The command of a message, as the store keeps it."""
    kept = {key: value for key, value in json.loads(text).items() if key not in ("caller", "number")}
    return compact(kept)


# What a store of the older schema has been sent: a device came after the first rebalance.
OLDER = [*FIRST, (1, add(5, 2))]
OLDER_REPLIES = [*FIRST_REPLIES, '{"done":"add","id":2,"version":4}']


def make_older(file):
    """A store of schema 1: a row for each seat and for each partition that was moved."""
    with sqlite3.connect(file) as old:
        for name in ORDER[:-1]:
            old.execute(statement(name))
        old.execute("INSERT INTO meta VALUES (1, 1, 1)")
        old.execute("INSERT INTO ring VALUES ('object', 2, 1, 24, 3, 4)")
        for id in range(3):
            old.execute("INSERT INTO device VALUES ('object', ?, 1, 1, ?, 6200, ?, 10000, 0)", (id, f"10.0.0.{id + 1}", f"d{id}"))
        for part, id in enumerate([0, 1, 0, 1]):
            old.execute("INSERT INTO seat VALUES ('object', ?, 0, ?)", (part, id))
            old.execute("INSERT INTO moved VALUES ('object', ?, 0)", (part,))
        for place, ((hour, text), reply) in enumerate(zip(OLDER, OLDER_REPLIES)):
            old.execute("INSERT INTO request VALUES ('ops', ?, ?, ?, ?, ?)", (place + 1, place, hour, canonical(text), reply))
    old.close()
