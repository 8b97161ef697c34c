#!/usr/bin/env python3
"""The store in real files: checks/store.py

Runs the built program over files: requests that are repeated by a second run, files that cannot be opened, writes that
fail at many sizes, stores that are none, a store of the older schema, and what Python's sqlite3 reads of a closed file.
Nothing but Python's standard library is used. It takes some ten seconds.
"""
import hashlib
import json
import os
import resource
import shutil
import signal
import sqlite3
import subprocess
import sys
import time
import tty
from pathlib import Path

import common
from common import FIRST, FIRST_ANSWERS, FIRST_BALANCE, FIRST_DEVICES, FIRST_REPLIES, FIRST_RING, MANY, NOBODY, TINY, TINY_RING, TINY_TEXT
from common import has  # noqa: E402
from common import Checks, add, fault, files_of, lines, message, run, rows_of, scratch
from tables import OLDER, OLDER_REPLIES, TABLES, canonical, make_older


def declared(open_file, name):
    """What a database says of a table: columns, key, what else is unique, what refers to which rows, and strictness."""
    info = list(open_file.execute(f"PRAGMA table_info('{name}')"))
    columns = ", ".join(f"{column[1]} {column[2]}" for column in info)
    key = [column[1] for column in sorted(info, key=lambda it: it[5]) if column[5]]
    uniques = []
    for index in open_file.execute(f"PRAGMA index_list('{name}')"):
        if index[2] and index[3] == "u":
            uniques.append([row[2] for row in open_file.execute(f"PRAGMA index_info('{index[1]}')")])
    found = {}
    for row in open_file.execute(f"PRAGMA foreign_key_list('{name}')"):
        found.setdefault((row[0], row[2]), []).append((row[3], row[4]))
    references = [(table, pairs) for (_, table), pairs in found.items()]
    strict = [row[5] for row in open_file.execute("PRAGMA table_list") if row[1] == name]
    has_null = any(not column[3] for column in info)
    return (columns, key, uniques, references), strict == [1] and not has_null


def open_copy(file, room):
    """A copy of a closed store, opened by sqlite3."""
    for end in ("", "-wal"):
        if os.path.exists(f"{file}{end}"):
            shutil.copyfile(f"{file}{end}", f"{room}/read{end}")
    return sqlite3.connect(f"{room}/read")


def first_run(checks):
    """A run over a file, a second one that repeats, and the programs that read the file."""
    with scratch() as room:
        file = f"{room}/rings.db"
        checks.same("four requests over a new file", run("run", "--file", file, given=lines(*FIRST)), (0, FIRST_ANSWERS, b""))
        again = run("run", "--file", file, given=lines((9, message(4, "rebalance", seed=7))))
        last = FIRST_ANSWERS.splitlines(keepends=True)[-1]
        checks.same("a repeat in a second run gets the reply of the first", again, (0, last, b""))
        other = run("run", "--file", file, given=lines((9, message(4, "rebalance", seed=8))))
        reused = b'409 {"fault":"NumberReused","rule":21}\n'
        checks.same("the number with another command in a third run", other, (0, reused, b""))
        checks.same("table", run("table", file, "object"), (0, FIRST_DEVICES + FIRST_BALANCE, b""))
        shown = run("show", file, "object")
        checks.show("show of a ring, at the hour of the machine", common.is_shown_now(shown, FIRST_RING), shown)
        listed, status = common.listed(object=3) + b"\n", common.status(0, 4, 1) + b"\n"
        for word, table in (("devices", FIRST_DEVICES), ("balance", FIRST_BALANCE)):
            checks.same(f"show of a ring's {word}", run("show", file, "object", word), (0, table, b""))
        shown = run("show", file, "object", "ring")
        checks.show("the word of the whole ring is ring", common.is_shown_now(shown, FIRST_RING), shown)
        checks.same("show of no ring's name tells which there are", run("show", file), (0, listed, b""))
        checks.same("show with --status: the repeat is not kept again", run("show", file, "--status"), (0, status, b""))
        told = common.metrics(json.loads(status), [common.unlocked(json.loads(FIRST_RING))])
        checks.same("show with --metrics, at the hour of the machine", run("show", file, "--metrics"), (0, told, b""))
        for more in (["object", "--status"], ["--status", "object"], ["object", "other"], ["--status", "--status"], ["object", "--metrics"],
                     ["--metrics", "--status"], ["--metrics", "--metrics"], ["object", ""], ["object", "locks", "--status"], ["object", "locks", "--metrics"],
                     ["object", "locks", "locks"], ["object", "--locks"]):
            code, told, errors = run("show", file, *more)
            checks.show(f"show FILE {' '.join(more)} ends with status 2", code == 2 and not told and errors, (code, told, errors))
        asked = run("run", "--file", file, given=lines("? balance object", "? rings", "? devices object", "? status", "? ring object"))
        checks.same("questions over the file", asked, (0, FIRST_BALANCE + listed + FIRST_DEVICES + status + FIRST_RING + b"\n", b""))
        rows = rows_of(file)
        kept = common.status(rows["meta"][0][2], len(rows["request"]), len(rows["ring"])) + b"\n"
        checks.same("the status is that of the rows", (status, listed), (kept, common.listed(**{row[0]: row[5] for row in rows["ring"]}) + b"\n"))
        checks.same("table of a ring that is not there", run("table", file, "other"), fault("NoRing", 1))
        checks.same("table of no ring's name", run("table", file, "Other"), fault("Unreadable", 20))
        checks.same("show of a ring that is not there", run("show", file, "other"), fault("NoRing", 1))
        checks.same("show of what is no name", run("show", file, "Other"), fault("Unreadable", 20))
        run("run", "--file", file, given=lines((0, message(9, "create", ring="empty", power=1, replicas=1, min_hours=0))))
        checks.same("nodes of a ring without seats", run("nodes", file, "empty", "a"), fault("NotAssigned", 10))
        checks.same("preview of a ring without devices", run("preview", file, "empty", "--seed", 1), fault("TooFewDevices", 9))
        checks.same("preview of a ring that is not there", run("preview", file, "other", "--seed", 1), fault("NoRing", 1))
        checks.same("moves of a version that is not published", run("moves", file, "object", "3", "3"), fault("NoVersion", 32))
        checks.same("moves of no version", run("moves", file, "object", "3", "03", "--each"), fault("Unreadable", 20))
        checks.same("a log from no place", run("log", file, "--from", "03"), fault("Unreadable", 20))
        checks.same("nodes of no path", run("nodes", file, "object", "a", "--object", "o"), fault("BadPath", 30))
        checks.same("export of a version that is not published", run("export", file, "object", "3"), fault("NoVersion", 32))
        checks.same("export of no version", run("export", file, "object", "03"), fault("Unreadable", 20))


def one_device(checks):
    """Nodes and the published text of a ring that is known whole."""
    with scratch() as room:
        file = f"{room}/rings.db"
        made = run("run", "--file", file, given=lines(*TINY))
        checks.show("a ring of one device is made, assigned and published", made[0] == 0 and made[1].count(b"200 ") == 4, made)
        checks.same("export", run("export", file, "tiny", "2"), (0, TINY_TEXT, b""))
        shown = run("show", file, "tiny")
        checks.show("show", common.is_shown_now(shown, TINY_RING), shown)
        for words, hashed in [
            (["a"], b"/a"),
            (["a", "--container", "c"], b"/a/c"),
            (["a", "--container", "c", "--object", "o/o"], b"/a/c/o/o"),
            (["a", "--prefix", "x", "--suffix", "y"], b"x/ay"),
        ]:
            want = common.tiny_nodes(hashlib.md5(hashed).digest()[0] >> 7) + b"\n"
            checks.same(f"nodes of {' '.join(words)}", run("nodes", file, "tiny", *words), (0, want, b""))


def csv_import(checks):
    """A CSV file is imported once under its number."""
    with scratch() as room:
        file, table = f"{room}/rings.db", f"{room}/rows.csv"
        run("run", "--file", file, given=lines(*FIRST))
        head = "region,zone,address,port,name,weight\n"
        Path(table).write_text(head + "1,1,10.0.0.1,6200,d0,50.00\n1,1,10.0.0.9,6200,d9,10.00\n1,2,10.0.0.2,6200,d1,100.00\n")
        words = ["import", file, "object", "ops", "5", table]
        refused = b'422 {"cause":12,"refused":"RowRefused","row":3,"rule":13}\n'
        checks.same("a row that is refused", run(*words, "--hour", "1"), (1, refused, b""))
        Path(table).write_text(head + "1,1,10.0.0.1,6200,d0,50.00\n1,1,10.0.0.9,6200,d9,10.00\n")
        words[4] = "6"
        done = b'200 {"added":1,"done":"import","reweighted":1,"version":4}\n'
        checks.same("rows that are taken", run(*words, "--hour", "1"), (0, done, b""))
        checks.same("the same file again", run(*words, "--hour", "2"), (0, done, b""))
        Path(table).write_text(head + "1,1,10.0.0.256,6200,d0,50.00\n")
        field = b'400 {"column":3,"fault":"BadField","row":1,"rule":42}\n'
        checks.same("a field that is none", run("import", file, "object", "ops", "7", table), (1, field, b""))
        told = [run("import", f"{room}/{name}", "object", "ops", "7", table) for name in ("away/rings.db", "none.db")]
        checks.same("it is told before FILE is looked at", told, [(1, field, b"")] * 2)
        checks.show("and FILE is not made", not os.path.exists(f"{room}/none.db"))
        Path(table).write_bytes(b"")
        header = b'400 {"fault":"BadHeader","rule":40}\n'
        checks.same("an empty file", run("import", file, "object", "ops", "7", table), (1, header, b""))
        checks.same("no file", run("import", file, "object", "ops", "7", f"{room}/none"), fault("NoFile", 27))
        Path(table).write_bytes(head.encode() + b"x" * 65536)
        checks.same("a file of over 65536 bytes", run("import", file, "object", "ops", "7", table), fault("TooLong", 29))
        filled = head + "1,1,10.0.0.1,6200,d0,"
        Path(table).write_text(filled.ljust(65536, "7"))
        checks.same("one of 65536 bytes", run("import", file, "object", "ops", "7", table), (1, field.replace(b'"column":3', b'"column":6'), b""))
        Path(table).write_text(head + "1,1,10.0.0.1,6200,d0,60.00\n")
        begun = int(time.time()) // 3600
        done = b'200 {"added":0,"done":"import","reweighted":1,"version":5}\n'
        checks.same("number 7 is new after all of them", run("import", file, "object", "ops", "7", table), (0, done, b""))
        hour = rows_of(file)["meta"][0][2]
        checks.show("and decided at the hour of this machine's clock", begun <= hour <= int(time.time()) // 3600, hour)


def renewal(checks):
    """A new store with the rings of an old one, where numbers begin anew."""
    if not has("renew"):
        return checks.skip("renew", "the program has none")
    with scratch() as room:
        file, new = f"{room}/rings.db", f"{room}/new.db"
        run("run", "--file", file, given=lines(*FIRST, (30, message(5, "set_hours", min_hours=9)), (30, message(6, "publish"))))
        before, held = rows_of(file), files_of(file)[""]
        checks.same("renew", run("renew", file, new), (0, b"", b""))
        checks.same("the old file has the bytes that it had", files_of(file)[""], held)
        checks.same("and its log has no change", rows_of(file), before)
        after = rows_of(new)
        kept = {name: rows for name, rows in before.items() if name != "request"}
        checks.same("the new one has its rings, its texts and its hour", {name: after[name] for name in kept}, kept)
        checks.same("and no request", after["request"], [])
        checks.same("its status has no number and the old one's hour", run("show", new, "--status"), (0, common.status(30, 0, 1) + b"\n", b""))
        checks.same("the published text", run("export", new, "object", "4"), run("export", file, "object", "4"))
        status, told, _ = run("run", "--file", new, given=lines((0, message(1, "set_hours", min_hours=3))))
        checks.same("number 1 is new there", (status, told), (0, b'200 {"done":"set_hours","version":5}\n'))
        checks.same("and decided at the hour that was kept", rows_of(new)["meta"], [(1, 2, 30)])
        made = files_of(new)
        checks.same("a new file that is there already is refused", run("renew", file, new), fault("StoreFault", 24))
        checks.same("and stays as it was", files_of(new), made)
        checks.same("the file itself is no new one", run("renew", file, file), fault("StoreFault", 24))
        checks.same("and stays as it was", files_of(file)[""], held)
        taken_names(checks, room, file)
        checks.same("a new file in a missing folder", run("renew", file, f"{room}/away/new.db"), fault("StoreFault", 24))
        Path(f"{room}/text.db").write_bytes(b"hello, I am a text and no database\n" * 200)
        checks.same("renew of no store", run("renew", f"{room}/text.db", f"{room}/newer.db"), fault("BadStore", 26))
        checks.show("makes none", not os.path.exists(f"{room}/newer.db"))
        checks.same("renew of a file that is missing", run("renew", f"{room}/nothing.db", f"{room}/newer.db"), (0, b"", b""))
        checks.same("makes a store of no rings", rows_of(f"{room}/newer.db"), rows_of(f"{room}/nothing.db"))


def taken_names(checks, room, file):
    """Whatever has the new file's name stays as it was."""
    os.mkdir(f"{room}/folder.db")
    Path(f"{room}/empty.db").touch()
    os.symlink(f"{room}/nowhere", f"{room}/link.db")
    before = sorted(os.listdir(room))
    for what in ("folder", "empty", "link"):
        checks.same(f"a new file where there is: {what}", run("renew", file, f"{room}/{what}.db"), fault("StoreFault", 24))
    checks.same("nothing was made", sorted(os.listdir(room)), before)
    checks.same("and the empty file is empty", Path(f"{room}/empty.db").stat().st_size, 0)


def two_programs(checks):
    """A file that another program holds."""
    with scratch() as room:
        file = f"{room}/rings.db"
        words = [*common.program(), "run", "--file", file]
        with subprocess.Popen(words, stdin=subprocess.PIPE, stdout=subprocess.PIPE) as holder:
            holder.stdin.write(lines(FIRST[0]))
            holder.stdin.flush()
            checks.same("the first is answered", holder.stdout.readline(), b'200 {"done":"create","version":0}\n')
            held = files_of(file)
            for task in (["run", "--file", file], ["table", file, "object"], ["show", file, "object"], ["nodes", file, "object", "a"],
                         ["export", file, "object", "1"], *([["serve", file, str(common.free_port()), "1"]] if has("serve") else [])):
                told = run(*task, given=lines(*FIRST))
                checks.same(f"a second one, {task[0]}, is refused", told, fault("StoreFault", 24))
            checks.same("the file and its log are as they were", files_of(file), held)
            rest, _ = holder.communicate(lines(*FIRST))
        checks.same("the first goes on", (holder.returncode, rest), (0, FIRST_ANSWERS))
        checks.same("and then the file is free", run("table", file, "object")[0], 0)


MOST_NUMBERS = 100000


def full_file(checks):
    """A file that holds as many numbers as it may, all but one of them put there by sqlite3."""
    with scratch() as room:
        file, new = f"{room}/rings.db", f"{room}/new.db"
        refused = message(5, "remove", id=60000)
        run("run", "--file", file, given=lines(*FIRST, (0, refused)))
        with open_copy(file, room) as read:
            reply = read.execute("SELECT reply FROM request WHERE number = 5").fetchone()[0]
        read.close()
        filled = sqlite3.connect(file)
        filled.execute("PRAGMA journal_mode = DELETE")
        rows = ((place + 1, place, 0, canonical(refused), reply) for place in range(5, MOST_NUMBERS - 1))
        filled.executemany("INSERT INTO request VALUES ('ops', ?, ?, ?, ?, ?)", rows)
        filled.commit()
        filled.close()
        last, over = (message(MOST_NUMBERS + more, "set_hours", min_hours=7) for more in (0, 1))
        told = run("run", "--file", file, given=lines((0, last), (0, over), FIRST[3], (0, refused), (0, last)))
        full = '507 {"fault":"BookFull","rule":22}\n'
        done = '200 {"done":"set_hours","version":4}\n'
        want = f"{done}{full}200 {FIRST_REPLIES[3]}\n422 {reply}\n{done}"
        checks.same("the last number, one too many, and repeats", told, (0, want.encode(), b""))
        checks.same("the status of a full file", run("show", file, "--status"), (0, common.status(0, MOST_NUMBERS, 1) + b"\n", b""))
        if not has("renew"):
            return checks.skip("renew of a full file", "the program has none")
        checks.same("renew", run("renew", file, new), (0, b"", b""))
        anew = run("run", "--file", new, given=lines((0, message(1, "set_hours", min_hours=8)), (0, over)))
        want = '200 {"done":"set_hours","version":5}\n200 {"done":"set_hours","version":6}\n'
        checks.same("in the new file numbers begin anew", anew, (0, want.encode(), b""))


def broken_streams(checks):
    """Standard streams that fail; what was decided stays decided."""
    with scratch() as room, open("/dev/full", "wb") as full:
        file = f"{room}/rings.db"
        told = ended("run", "--file", file, given=lines(*FIRST), stdout=full)
        checks.same("answers that find no room", told, fault("WriteFailed", 51)[::2])
        reading, writing = os.pipe()
        os.close(reading)
        told = ended("run", "--file", file, given=lines(*FIRST), stdout=writing)
        os.close(writing)
        checks.same("answers that nobody reads", told, fault("WriteFailed", 51)[::2])
        checks.same("each request has its reply", run("run", "--file", file, given=lines(*FIRST)), (0, FIRST_ANSWERS, b""))
        checks.same("a table that finds no room", ended("table", file, "object", stdout=full), fault("WriteFailed", 51)[::2])
        folder = os.open(room, os.O_RDONLY)
        told = ended("run", "--file", file, stdin=folder, stdout=subprocess.DEVNULL)
        os.close(folder)
        checks.same("input that cannot be read", told, fault("ReadFailed", 50)[::2])
        checks.same("a CSV that cannot be read", run("import", file, "object", "ops", "9", room),
                    (1, b'503 {"fault":"ReadFailed","rule":43}\n', b""))


# Words that ask for nothing: a call for help, a program that there isn't, an argument that is missing, too many or not of its form.
ASK_FOR_NOTHING = ["", "--help", "run --help", "help run", "walk", "serve FILE 0 1", "serve FILE 8642 65536", "serve FILE 8642", "loop FILE",
                   "run more", "run --files FILE", "export FILE object 1 --format csv", "table FILE object --hour 1", "show", "show --status",
                   "show FILE object --status", "show FILE --status=yes", "preview FILE object", "preview FILE object --seed x", "moves FILE object 1", "moves FILE object 1 2 --each=yes", "log FILE 3", "log FILE --lines=yes", "found FILE TEXT", "found FILE --min-hours 1",
                   "found FILE TEXT --min-hours 65536", "found FILE TEXT --min-hours 1 --hour x", "version more"]


def other_words(checks):
    """Words that ask for nothing."""
    with scratch() as room:
        for asked in ASK_FOR_NOTHING:
            words = [word.replace("FILE", f"{room}/rings.db") for word in asked.split()]
            status, told, errors = run(*words, given=lines(*FIRST))
            checks.show(f"ends with status 2, and standard output stays empty: ringd {asked}", (status, told) == (2, b"") and errors, (status, told))
        checks.same("no file was made", os.listdir(room), [])


# Words, and the fault that they come to before a file is opened, whose folder isn't there: a word of another form, a path of another
# form, a table that is missing; an input that is missing, a folder, which can be opened and not read, and the program itself, which is
# longer than an input may be.
AWAY = "/no/folder/f"
TOLD_BEFORE = [(["table", AWAY, "a b"], "Unreadable", 20), (["show", AWAY, "a b"], "Unreadable", 20),
               (["nodes", AWAY, "a b", "a/b"], "Unreadable", 20), (["nodes", AWAY, "", "a"], "Unreadable", 20),
               (["export", AWAY, "r", "01"], "Unreadable", 20), (["nodes", AWAY, "r", "a/b"], "BadPath", 30),
               (["nodes", AWAY, "r", "a", "--object", "o"], "BadPath", 30), (["import", AWAY, "r", "ops", "1", "/no/folder/c"], "NoFile", 27),
               (["loop", AWAY, "/no/folder/i"], "NoFile", 27), (["loop", AWAY, "/"], "ReadFailed", 50),
               (["loop", AWAY, "/proc/self/exe"], "TooLong", 29)]
NO_FOLDER = [["run", "--file", AWAY], ["table", AWAY, "r"], ["show", AWAY, "r"], ["show", AWAY], ["show", AWAY, "--status"],
             ["show", AWAY, "r", "locks"], ["serve", AWAY, "8642", "1"], ["loop", AWAY, "/dev/null"]]


def order_of_faults(checks):
    """Which fault is told where there are several."""
    told_last = [(words, "StoreFault", 24) for words in NO_FOLDER]
    for words, name, number in TOLD_BEFORE + told_last:
        checks.same(f"ringd {words}", run(*words), fault(name, number))


def read_that_fails_midway(checks):
    """Input that fails behind its first lines."""
    ours, theirs = os.openpty()
    tty.setraw(theirs)
    os.write(theirs, lines(*FIRST[:3]))
    with subprocess.Popen([*common.program(), "run"], stdin=ours, stdout=subprocess.PIPE, stderr=subprocess.PIPE) as asked:
        answers = b"".join(asked.stdout.readline() for _ in FIRST[:3])
        os.close(theirs)
        rest, errors = asked.communicate(timeout=60)
    os.close(ours)
    checks.same("what came before is answered", (answers, rest), (b"".join(FIRST_ANSWERS.splitlines(True)[:3]), b""))
    checks.same("and the fault is told", (asked.returncode, common.without_meanings(errors)), fault("ReadFailed", 50)[::2])


def ended(*words, given=None, **streams):
    """The status and standard error of a run whose other streams are given."""
    if given is not None:
        streams["input"] = given
    done = subprocess.run([*common.program(), *words], stderr=subprocess.PIPE, timeout=60, **streams)
    return done.returncode, common.without_meanings(done.stderr)


def no_places(checks):
    """A folder that is missing, and names that are no files."""
    with scratch() as room:
        away = f"{room}/away/rings.db"
        checks.same("a missing folder", run("run", "--file", away, given=lines(*FIRST)), fault("StoreFault", 24))
        checks.show("nothing was made there", os.listdir(room) == [], os.listdir(room))
        os.mkdir(f"{room}/folder")
        checks.same("a folder", run("run", "--file", f"{room}/folder"), fault("StoreFault", 24))
        checks.same("an empty name", run("run", "--file", ""), fault("StoreFault", 24))
        run("run", "--file", f"{room}/rings.db", given=lines(*FIRST))
        os.link(f"{room}/rings.db", f"{room}/second-name.db")
        checks.same("a file with two names", run("table", f"{room}/second-name.db", "object"), fault("StoreFault", 24))


def no_databases(checks):
    """Files that are no database, and databases that are no store."""
    with scratch() as room:
        file = f"{room}/rings.db"
        for what, held in [
            ("a text", b"hello, I am a text and no database\n" * 200),
            ("random bytes", hashlib.sha512(b"seed").digest() * 128),
            ("the name of a database and nothing behind it", b"SQLite format 3\0" + bytes(4080)),
        ]:
            Path(file).write_bytes(held)
            checks.same(f"{what}: refused", run("run", "--file", file, given=lines(*FIRST)), fault("BadStore", 26))
            checks.show(f"{what}: as it was", Path(file).read_bytes() == held)
            for end in ("", "-wal"):
                if os.path.exists(file + end):
                    os.remove(file + end)
        with sqlite3.connect(file) as other:
            other.execute("CREATE TABLE ring (name TEXT)")
            other.execute("INSERT INTO ring VALUES ('mine')")
        other.close()
        before = rows_of(file)
        checks.same("a database of something else: refused", run("run", "--file", file), fault("BadStore", 26))
        checks.same("and its rows are as they were", rows_of(file), before)


BAD_ROWS = {
    "a schema that is not known": "UPDATE meta SET schema = 3",
    "no row on the whole store": "DELETE FROM meta",
    "an hour before a request's": "UPDATE meta SET hour = 11",
    "a partition too few": "DELETE FROM part WHERE part = 31",
    "a partition too many": "INSERT INTO part VALUES ('object', 32, x'00010002', 12)",
    "a partition's devices cut short": "UPDATE part SET devices = substr(devices, 1, 3) WHERE part = 0",
    "a device twice in a partition": "UPDATE part SET devices = x'00010001' WHERE part = 0",
    "a device that is not there": "UPDATE part SET devices = x'00010063' WHERE part = 0",
    "an hour of a move below -1": "UPDATE part SET hour = -2 WHERE part = 0",
    "a gap between places": "UPDATE request SET place = 99 WHERE place = (SELECT max(place) FROM request)",
    "a command with its keys out of order": 'UPDATE request SET command = \'{"ring":"object","do":"publish"}\' WHERE number = 4',
    "a reply that is none": "UPDATE request SET reply = '{\"done\":\"published\"}' WHERE number = 4",
    "a device of a number not yet given": "UPDATE ring SET next_id = 6",
    "a ring's name in capitals": "UPDATE ring SET name = 'Object'",
    "a seat of the older schema": "INSERT INTO seat VALUES ('object', 0, 0, 1)",
    "a power of 15": "UPDATE ring SET power = 15",
    "a weight above the greatest": "UPDATE device SET weight = 100000001 WHERE id = 1",
    "a table that is missing": "DROP TABLE moved",
    "a table more": "CREATE TABLE note (text TEXT) STRICT",
}


def bad_stores(checks):
    """Stores whose rows stand for no rings and requests."""
    with scratch() as room:
        file, bad = f"{room}/rings.db", f"{room}/bad.db"
        run("run", "--file", file, given=lines(*MANY))
        with open_copy(file, room) as good:
            good.execute("PRAGMA journal_mode = DELETE")
        good.close()
        good = f"{room}/read"
        checks.same("a store that sqlite3 has read is opened again", run("table", good, "object")[0], 0)
        for what, change in BAD_ROWS.items():
            for end in ("", "-wal"):
                if os.path.exists(f"{bad}{end}"):
                    os.remove(f"{bad}{end}")
            shutil.copyfile(file, bad)
            if os.path.exists(f"{file}-wal"):
                shutil.copyfile(f"{file}-wal", f"{bad}-wal")
            with sqlite3.connect(bad) as edited:
                edited.execute(change)
            edited.close()
            before = rows_of(bad)
            told = run("run", "--file", bad, given=lines(*FIRST))
            is_refused = told == fault("BadStore", 26)
            checks.show(f"{what}: refused, its rows as they were", is_refused and rows_of(bad) == before, told)


def older_schema(checks):
    """A store of the older schema, with a seat and an hour a row, becomes one of this schema."""
    with scratch() as room:
        file = f"{room}/old.db"
        make_older(file)
        told = run("run", "--file", file, given=lines(*OLDER, (24, message(7, "rebalance", seed=7))))
        want = "".join(f"200 {reply}\n" for reply in OLDER_REPLIES)
        moved = '200 {"balance":5000,"changed":1,"dispersion":0,"done":"rebalance","version":5}\n'
        checks.same("its replies are kept, and a rebalance goes on from it", told, (0, (want + moved).encode(), b""))
        rows = rows_of(file)
        checks.same("its schema is 2", rows["meta"], [(1, 2, 24)])
        checks.same("the tables of seats and moves are empty", (rows["seat"], rows["moved"]), ([], []))
        hours = sorted(hour for _, _, _, hour in rows["part"])
        checks.same("three partitions kept the hour of their move", hours, [0, 0, 0, 24])


PAGE = 4096
OLDER_BAD = {
    "a seat too few": "DELETE FROM seat WHERE part = 3",
    "a seat too many": "INSERT INTO seat VALUES ('object', 4, 0, 1)",
    "a move of a partition that is not there": "INSERT INTO moved VALUES ('object', 4, 0)",
    "a move at an hour below 0": "UPDATE moved SET hour = -1 WHERE part = 0",
    "a schema that is not known": "UPDATE meta SET schema = 3",
    "this schema, and seats": "UPDATE meta SET schema = 2",
    "an hour before a request's": "UPDATE meta SET hour = 0",
    "no row on the whole store": "DELETE FROM meta",
    "a gap between places": "UPDATE request SET place = 99 WHERE place = (SELECT max(place) FROM request)",
    "a command that is none": "UPDATE request SET command = '{}' WHERE number = 1",
    "a reply that is none": "UPDATE request SET reply = '{\"done\":\"published\"}' WHERE number = 1",
    "a device of a number not yet given": "UPDATE ring SET next_id = 2",
    "a weight above the greatest": "UPDATE device SET weight = 100000001 WHERE id = 1",
    "a device's name that is no UTF-8": "UPDATE device SET name = CAST(x'ff' AS TEXT) WHERE id = 1",
    "a text that is no UTF-8": "INSERT INTO published VALUES ('object', 1, CAST(x'ff' AS TEXT))",
    "a table less, and rows that stand for nothing": "DROP TABLE request; UPDATE ring SET power = 15",
    "a table more": "CREATE TABLE note (text TEXT) STRICT",
}


def bad_older_stores(checks):
    """Stores of the older schema whose rows stand for no rings and requests: nothing is written to them."""
    with scratch() as room:
        file, bad = f"{room}/old.db", f"{room}/bad.db"
        make_older(file)
        for what, change in OLDER_BAD.items():
            for end in ("", "-wal"):
                if os.path.exists(f"{bad}{end}"):
                    os.remove(f"{bad}{end}")
            shutil.copyfile(file, bad)
            with sqlite3.connect(bad) as edited:
                edited.executescript(change)
            edited.close()
            before = Path(bad).read_bytes()
            for words in (["run", "--file", bad], ["table", bad, "object"]):
                told = run(*words)
                is_refused = told == fault("BadStore", 26)
                checks.show(f"an older store, {what}: {words[0]} refuses it", is_refused, told)
                held = files_of(bad)
                checks.show(f"an older store, {what}: {words[0]} leaves its bytes", held[""] == before)
                log = len(held["-wal"] or b"")
                checks.show(f"an older store, {what}: {words[0]} leaves no page in its log", log < PAGE, log)


def read_only(checks):
    """Files and folders that may not be written."""
    how, why = {}, None
    with scratch() as room:
        if os.geteuid() == 0:
            os.chmod(room, 0o755)
            os.chown(room, NOBODY, NOBODY)
            how = {"user": NOBODY, "group": NOBODY, "extra_groups": []}
            try:
                subprocess.run([*common.program(), "run"], stdin=subprocess.DEVNULL, capture_output=True, check=True, timeout=60, **how)
            except (OSError, subprocess.SubprocessError) as error:
                why = f"the program does not start as another user: {error}"
        if why:
            checks.skip("files and folders that may not be written", why)
            return
        file, folder = f"{room}/rings.db", f"{room}/shut"
        made = run("run", "--file", file, given=lines(*FIRST), **how)
        checks.same("a store is made", made, (0, FIRST_ANSWERS, b""))
        held = files_of(file)
        os.chmod(file, 0o444)
        checks.same("a file that may not be written", run("run", "--file", file, given=lines(*MANY), **how), fault("StoreFault", 24))
        checks.same("table of it", run("table", file, "object", **how), fault("StoreFault", 24))
        checks.same("the file is as it was", files_of(file), held)
        os.mkdir(folder)
        shutil.copyfile(file, f"{folder}/rings.db")
        if how:
            os.chown(f"{folder}/rings.db", NOBODY, NOBODY)
        os.chmod(f"{folder}/rings.db", 0o644)
        os.chmod(folder, 0o555)
        told = run("run", "--file", f"{folder}/rings.db", given=lines(*FIRST), **how)
        checks.same("a folder that may not be written, without the log", told, fault("StoreFault", 24))
        told = run("run", "--file", f"{folder}/new.db", given=lines(*FIRST), **how)
        checks.same("a new file in it", told, fault("StoreFault", 24))
        checks.same("the folder holds what it held", os.listdir(folder), ["rings.db"])
        os.chmod(folder, 0o755)
        os.chmod(file, 0o644)
        checks.same("once they may be written, all goes on", run("run", "--file", file, given=lines(*FIRST), **how), (0, FIRST_ANSWERS, b""))


FAILED_STORE = b'503 {"fault":"StoreFault","rule":24}\n'
CLOSED_STORE = b'503 {"fault":"Closed","rule":25}\n'


def within(size):
    """Lets no file of the next program grow past a size: a write that would gets an error, and no signal."""
    def limit():
        signal.signal(signal.SIGXFSZ, signal.SIG_IGN)
        resource.setrlimit(resource.RLIMIT_FSIZE, (size, size))
    return {"preexec_fn": limit, "restore_signals": False}


def is_cut_off(told, want):
    """Whether answers are as wanted up to a failure of the store, and tell it from there."""
    got, whole = told.splitlines(keepends=True), want.splitlines(keepends=True)
    good = next((at for at, (one, other) in enumerate(zip(got, whole)) if one != other), len(got))
    rest = got[good:]
    return rest in ([], [FAILED_STORE, *[CLOSED_STORE] * (len(whole) - good - 1)]) and len(got) in (0, len(whole))


def is_named(ended):
    """Whether a run ended well, or with status 1 and the fault of a store."""
    status, _, errors = ended
    return (status, errors) in ((0, b""), fault("StoreFault", 24)[::2])


def failing_writes(checks):
    """Writes that fail, at many sizes in turn."""
    with scratch() as room:
        file = f"{room}/whole.db"
        status, want, errors = run("run", "--file", file, given=lines(*MANY))
        checks.show("the run that no write fails in", status == 0 and not errors, (status, want, errors))
        rows, tables = rows_of(file), run("table", file, "object")
        # the log grows past what is left of it at the end: look for the size at which nothing fails
        most = 1 << 12
        while True:
            probe = f"{room}/probe{most}.db"
            if run("run", "--file", probe, given=lines(*MANY), **within(most)) == (0, want, b""):
                break
            most *= 2
        sizes = sorted({0, 1, 24, 32, 55, 56, 100, 512, 4095, 4096, 4097, *range(0, most + 1, max(2048, most // 60))})
        told, wrong = {}, 0
        for size in sizes:
            small = f"{room}/small.db"
            for end in ("", "-wal"):
                if os.path.exists(small + end):
                    os.remove(small + end)
            limited = run("run", "--file", small, given=lines(*MANY), **within(size))
            again = run("run", "--file", small, given=lines(*MANY))
            is_right = is_named(limited) and is_cut_off(limited[1], want) and again == (0, want, b"")
            is_right = is_right and rows_of(small) == rows and run("table", small, "object") == tables
            kind = "refused" if not limited[1] else "failed midway" if FAILED_STORE in limited[1] else "not met"
            told[kind] = told.get(kind, 0) + 1
            if not is_right:
                wrong += 1
                checks.show(f"no file grows past {size} bytes", False, (limited, again))
        seen = ", ".join(f"{count} {kind}" for kind, count in sorted(told.items()))
        checks.show(f"{len(sizes)} sizes up to {most} bytes ({seen}); after each the file opens, and each delivery "
                    f"gets its one reply", not wrong)
        # a file that is there and may grow no more
        for size in (0, os.path.getsize(file), os.path.getsize(file) + 4096):
            more = (13, message(90, "set_hours", min_hours=7))
            copy = f"{room}/copy{size}.db"
            shutil.copyfile(file, copy)
            limited = run("run", "--file", copy, given=lines(*MANY, more), **within(size))
            again = run("run", "--file", copy, given=lines(*MANY, more))
            answers = want + b'200 {"done":"set_hours","version":15}\n'
            is_right = is_named(limited) and is_cut_off(limited[1], answers) and again == (0, answers, b"")
            checks.show(f"a store that is there, and {size} bytes: then each delivery gets its one reply", is_right, (limited, again, answers))


def failing_close(checks):
    """A close that fails, since the file may not be written so far behind, is told and loses nothing."""
    with scratch() as room:
        file, copy = f"{room}/rings.db", f"{room}/copy.db"
        made = [(0, message(1, "create", power=14, replicas=1, min_hours=0)), (0, add(2, 0)), (0, message(3, "rebalance", seed=1)),
                (0, add(4, 1, weight="0.05"))]
        run("run", "--file", file, given=lines(*made))
        shutil.copyfile(file, copy)
        # some partitions move, whose rows lie all over the file; the log is short
        more = lines((0, message(5, "rebalance", seed=1)))
        _, done, _ = run("run", "--file", copy, given=more)
        limited = run("run", "--file", file, given=more, **within(os.path.getsize(file) // 2))
        checks.same("the request is answered, and the fault is told", limited, (1, done, fault("StoreFault", 24)[2]))
        checks.same("sent again it gets its reply", run("run", "--file", file, given=more), (0, done, b""))


def read_by_sqlite(checks):
    """What Python's sqlite3 reads of a closed file."""
    if sqlite3.sqlite_version_info < (3, 37):
        checks.skip("reading by sqlite3", f"version {sqlite3.sqlite_version} knows no strict tables")
        return
    with scratch() as room:
        file = f"{room}/rings.db"
        run("run", "--file", file, given=lines(*FIRST))
        read = open_copy(file, room)
        checks.same("PRAGMA integrity_check", read.execute("PRAGMA integrity_check").fetchall(), [("ok",)])
        checks.same("PRAGMA foreign_key_check", read.execute("PRAGMA foreign_key_check").fetchall(), [])
        names = [row[0] for row in read.execute("SELECT name FROM sqlite_schema WHERE type = 'table' ORDER BY name")]
        checks.same("the tables", names, sorted(TABLES))
        for name, want in TABLES.items():
            got, is_strict = declared(read, name)
            checks.same(f"the table {name}: columns, key, unique columns, references", got, want)
            checks.show(f"the table {name} is strict and has no NULL", is_strict)
        read.close()
        rows = rows_of(file)
        checks.same("the row on the whole store", rows["meta"], [(1, 2, 0)])
        checks.same("the ring", rows["ring"], [("object", 2, 1, 24, 2, 3)])
        devices = [("object", id, 1, 1, f"10.0.0.{id + 1}", 6200, f"d{id}", 10000, 0) for id in (0, 1)]
        checks.same("its devices", rows["device"], devices)
        parts = rows["part"]
        checks.same("a row a partition, moved at hour 0", [(row[0], row[1], row[3]) for row in parts], [("object", part, 0) for part in range(4)])
        seats = sorted(row[2] for row in parts)
        checks.same("two seats on each device", seats, [b"\0\0", b"\0\0", b"\0\1", b"\0\1"])
        checks.same("nothing in the tables of the older schema, nothing published", (rows["seat"], rows["moved"], rows["published"]), ([], [], []))
        kept = [("ops", place + 1, place, hour, canonical(text), reply)
                for place, ((hour, text), reply) in enumerate(zip(FIRST, common.FIRST_REPLIES))]
        checks.same("each request with its command and its reply", rows["request"], kept)
        os.mkdir(f"{room}/alone")
        shutil.copyfile(file, f"{room}/alone/rings.db")
        checks.same("after a clean end the file has all of it, also without its log", rows_of(f"{room}/alone/rings.db"), rows)


def main():
    checks = Checks("store.py", 900)
    return checks.run(
        first_run, other_words, order_of_faults, one_device, csv_import, renewal, full_file, broken_streams, read_that_fails_midway,
        two_programs, no_places, no_databases, bad_stores, older_schema, bad_older_stores, read_only, failing_writes, failing_close,
        read_by_sqlite)


if __name__ == "__main__":
    sys.exit(main())
